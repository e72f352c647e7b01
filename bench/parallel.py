"""Measures a tree that is built by threads, as bench/parallel.sh says: python3 bench/parallel.py SCRATCH-FOLDER.

What counts is the time that passes, from the start of the first process to the end of the last. In a round each command
runs once, every other round goes backwards, and of each the middle of all rounds counts: so what else runs disturbs all
of them alike.
"""

import os
import statistics
import subprocess
import sys
import time

SCRATCH = sys.argv[1]
ROUNDS = int(os.environ.get("ROUNDS", "7"))
THREADS = [count for count in (1, 2, 4) if count <= os.cpu_count()]
SALT, UUID = "07" * 32, "12345678-1234-4234-8234-123456789abc"
DATA = f"{SCRATCH}/data"
MEBIBYTES = os.path.getsize(DATA) / 2**20
PARALLEL = f"{SCRATCH}/parallel_format"
OTHER = os.environ.get("OTHER")
OTHERS = {PARALLEL: f"{SCRATCH}/other_format", "bin/veritysetup": f"{OTHER}/bin/veritysetup"}


def seconds(commands):
    """Runs commands side by side, each of which has to end with 0: how long they take."""
    begun = time.monotonic()
    running = [subprocess.Popen(words, stdout=subprocess.DEVNULL) for words in commands]
    for words, process in zip(commands, running):
        if process.wait():
            sys.exit(f"{' '.join(words[:6])} ended with status {process.returncode}")
    return time.monotonic() - begun


def by_threads(count, image):
    return [PARALLEL, "format", str(count), DATA, f"{SCRATCH}/{image}", SALT, UUID]


def by_program(program):
    return [program, "format", f"--salt={SALT}", f"--uuid={UUID}", DATA, f"{SCRATCH}/program"]


def in_turns(name, words):
    """A way, and after it the same by what is built in OTHER, if there is one."""
    others = {(name, "OTHER"): [[OTHERS[words[0]], *words[1:]]]} if OTHER else {}
    return {name: [words], **others}


def threads(count):
    return f"{count} threads" if count > 1 else "1 thread"


def show(what, rate, *times):
    print(f"| {what} | {rate:.0f} | " + " | ".join(f"{it:.2f}" for it in times) + " |")


def main():
    ways = in_turns("bin/veritysetup format", by_program("bin/veritysetup"))
    ways["Debian's"] = [by_program("veritysetup")]
    for count in THREADS:
        ways.update(in_turns(threads(count), by_threads(count, "one")))
        ways[f"{count} runs"] = [by_threads(1, f"run{i}") for i in range(count)]
    taken = {name: [] for name in ways}
    for turn in range(ROUNDS):
        for name in list(ways)[:: 1 - turn % 2 * 2]:
            taken[name].append(seconds(ways[name]))
    rate = {name: MEBIBYTES * len(ways[name]) / statistics.median(times) for name, times in taken.items()}
    print("| Way | MiB per second | times bin/veritysetup's | times Debian's | times as many runs side by side |")
    print("|---|--:|--:|--:|--:|")
    ours, theirs = rate["bin/veritysetup format"], rate["Debian's"]
    for name in ("Debian's", "bin/veritysetup format"):
        print(f"| {name} | {rate[name]:.0f} | {rate[name] / ours:.2f} | {rate[name] / theirs:.2f} | |")
    for count in THREADS:
        name = threads(count)
        # Of each round the two are compared, since what else runs changes from one to the next.
        ratio = statistics.median(side / (count * own) for own, side in zip(taken[name], taken[f"{count} runs"]))
        show(name, rate[name], rate[name] / ours, rate[name] / theirs, ratio)
    if OTHER:
        print("\n| Way | times OTHER's speed |\n|---|--:|")
        for name in ("bin/veritysetup format", *map(threads, THREADS)):
            ratio = statistics.median(other / own for own, other in zip(taken[name], taken[name, "OTHER"]))
            print(f"| {name} | {ratio:.2f} |")
    joining()


def joining():
    """How long processes take for parts and their join, and how much memory, all in all, each of a part has."""
    folder, image = f"{SCRATCH}/folder", f"{SCRATCH}/joined"
    plan = [f"{SCRATCH}/join_parts", "plan", DATA, image, folder, "16", SALT, UUID]
    parts = int(subprocess.run(plan, capture_output=True, text=True, check=True).stdout)
    peaks, begun = [], time.monotonic()
    for part in range(parts):
        # A process that Python starts would count Python's memory as its own.
        words = ["/usr/bin/time", "-f", "%M", f"{SCRATCH}/build_part", DATA, image, folder, str(part)]
        peaks.append(int(subprocess.run(words, capture_output=True, text=True, check=True).stderr))
    building = time.monotonic() - begun
    joined = seconds([[f"{SCRATCH}/join_parts", "join", image, folder]])
    print()
    print(
        f"{parts} parts by a process each take {building:.2f} seconds one after another, and {max(peaks)} KiB; "
        f"the join takes {joined * 1000:.1f} ms."
    )


main()
