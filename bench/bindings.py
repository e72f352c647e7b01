"""Measures the bindings of the library, as bench/bindings.sh says: python3 bench/bindings.py SCRATCH-FOLDER PYTHON.

What counts is the processor's time, in the program and in the system for it, less what the same program takes for an
empty file; and of each way the least of all rounds. In a round each way is gone once, and every other round goes
backwards.
"""

import os
import resource
import subprocess
import sys

SCRATCH, PYTHON = sys.argv[1:]
ROUNDS = int(os.environ.get("ROUNDS", "7"))
DATA, EMPTY = f"{SCRATCH}/data", f"{SCRATCH}/empty"
WAYS = {
    "C, pieces of 64 KiB": [f"{SCRATCH}/digest"],
    "Python, `update` with pieces of 64 KiB": [PYTHON, "bench/digest.py", "update"],
    "Python, `update` with slices of a buffer of 64 KiB": [PYTHON, "bench/digest.py", "slices"],
    "Python, `file_digest`": [PYTHON, "bench/digest.py", "file_digest"],
    "Python, `hashlib.sha256` with pieces of 64 KiB": [PYTHON, "bench/digest.py", "sha256"],
}
RUST = f"{SCRATCH}/rust/release/examples/digest"
if os.path.exists(RUST):
    WAYS["Rust, `update` with pieces of 64 KiB"] = [RUST]
    WAYS["Rust, `io::copy`"] = [RUST, "{}", "copy"]


def used():
    """The processor's time of all programs that have ended."""
    children = resource.getrusage(resource.RUSAGE_CHILDREN)
    return children.ru_utime + children.ru_stime


def run(words, file):
    """Runs a way over a file: the processor's time, and what it prints."""
    words = [word.format(file) for word in words] if "{}" in words else [*words, file]
    before = used()
    said = subprocess.run(words, stdout=subprocess.PIPE, check=True).stdout
    return used() - before, said


def main():
    least = {(name, file): float("inf") for name in WAYS for file in (DATA, EMPTY)}
    digests = {}
    for turn in range(ROUNDS):
        for name in list(WAYS)[:: 1 - turn % 2 * 2]:
            for file in DATA, EMPTY:
                seconds, said = run(WAYS[name], file)
                least[name, file] = min(least[name, file], seconds)
                digest = said.split()[0].rpartition(b":")[2]
                if "hashlib" not in name and digests.setdefault(file, digest) != digest:
                    sys.exit(f"{name}: another digest")
    size = os.path.getsize(DATA) / 2**20
    rate = {name: size / (least[name, DATA] - least[name, EMPTY]) for name in WAYS}
    first = next(iter(WAYS))
    print("| Way | MiB per second | times C's |")
    print("|---|--:|--:|")
    for name in WAYS:
        print(f"| {name} | {rate[name]:.0f} | {rate[name] / rate[first]:.3f} |")


main()
