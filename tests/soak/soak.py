#!/usr/bin/env python3
"""Runs both programs on random files and words, and compares what they do with a second reading of the definitions, and
a part of it with Debian's programs.

soak.py [SEED=N] [SECONDS=N] [CASES=N] [WORKERS=N] goes over cases 0, 1, .. until the time or the number is reached;
soak.py SEED=N CASE=N repeats one and keeps its files if it fails; soak.py --self-test runs faulty programs, which
have to fail. Seed and number of a case determine everything in it. The last line is 'N passed, M failed'.
"""

import os
import random
import shlex
import shutil
import subprocess
import sys
import tempfile
import time
import traceback
from collections import Counter, namedtuple
from multiprocessing import Process, SimpleQueue

sys.dont_write_bytecode = True
HERE = os.path.dirname(os.path.abspath(__file__))
sys.path.insert(1, os.path.join(HERE, "..", "lib"))

import debian
import fsverity_cases
import fsverity_expected
import line_cases
import veritysetup_cases
import veritysetup_expected
from reading import USAGE, Refused, number, read_line

# The kinds of cases: name, program, what makes one, and how often it comes.
KINDS = [
    ("format", "veritysetup", veritysetup_cases.format_case, 22),
    ("options of veritysetup", "veritysetup", veritysetup_cases.option_case, 12),
    ("verify", "veritysetup", veritysetup_cases.verify_case, 24),
    ("superblocks", "veritysetup", veritysetup_cases.superblock_case, 12),
    ("lines of veritysetup", "veritysetup", line_cases.veritysetup_case, 7),
    ("digest", "fsverity", fsverity_cases.digest_case, 10),
    ("output files", "fsverity", fsverity_cases.output_case, 6),
    ("options of fsverity", "fsverity", fsverity_cases.option_case, 4),
    ("lines of fsverity", "fsverity", line_cases.fsverity_case, 3),
]
# One case in so many is also run by Debian's program.
PEER = 8
PEERS = "beside Debian's programs"
BROKEN = "cases that ended the soak's own code"
# How much of a file is read, far more than any run should make: one with a fault may make files of any length.
MOST_READ = 2**26
FAULTS = ["status", "output", "message", "byte", "file"]

Case = namedtuple("Case", "kind program before words has_hard_links has_peer")
Found = namedtuple("Found", "status out err files")


def make_case(seed, which):
    """The case of a seed and a number."""
    rng = random.Random(f"{seed} {which}")
    kind, program, make, _ = rng.choices(KINDS, [kind[3] for kind in KINDS])[0]
    before, words = make(rng)
    while is_far(program, before, words):
        before, words = make(rng)
    return Case(kind, program, before, words, rng.random() < 0.5, rng.randrange(PEER) == 0)


def is_far(program, before, words):
    """Whether format would put a tree so far into a file that the file couldn't be compared."""
    line = read_line(program, words)
    if line is None or line.command != "format" or (number(line.options.get("hash-offset", "0")) or 0) < 2**24:
        return False
    try:
        length = len(before.content(line.words[0]) or b"")
        veritysetup_expected.chosen(line.options, length, veritysetup_expected.drawn_by(b""))
    except Refused:
        return False
    return True


def lay_out(folder, case):
    """Makes a folder with the files of a case, and goes there."""
    os.chdir("/")
    shutil.rmtree(folder, ignore_errors=True)
    os.mkdir(folder)
    os.chdir(folder)
    for name, content in case.before.files.items():
        with open(name, "wb") as file:
            file.write(content)
    for name, target in case.before.links.items():
        (os.link if case.has_hard_links else os.symlink)(target, name)


def run(program, words, folder, case):
    """Runs a program in a folder with the files of a case."""
    lay_out(folder, case)
    command = [os.fsencode(word) for word in [program, *words]]
    try:
        ended = subprocess.run(command, stdin=subprocess.DEVNULL, capture_output=True, close_fds=False, timeout=120)
    except subprocess.TimeoutExpired:
        return Found("none within two minutes", b"", b"", {})
    files = {}
    for name in os.listdir():
        if name not in case.before.links:
            with open(name, "rb") as file:
                files[name] = file.read(MOST_READ)
    return Found(ended.returncode, ended.stdout, ended.stderr, files)


def differences(case, expected, found):
    """What a run did otherwise than expected, as texts."""
    texts = []
    if found.status != expected.status:
        texts.append(f"status: expected {expected.status}, found {found.status}")
    if found.out != expected.out:
        texts.append(f"standard output: expected {expected.out!r}, found {found.out!r}")
    if expected.err is USAGE:
        if b"Usage: " not in found.err or not found.err.endswith(b"\n"):
            texts.append(f"standard error: expected the usage, found {found.err!r}")
    elif found.err != (expected.err + "\n" if expected.err else "").encode():
        texts.append(f"standard error: expected {expected.err!r}, found {found.err!r}")
    for name in sorted(expected.files.keys() | found.files.keys()):
        texts += file_differences(name, expected.files.get(name), found.files.get(name))
    return texts


def file_differences(name, expected, found):
    if expected == found:
        return []
    if expected is None or found is None:
        return [f"file {name!r}: expected {'no' if expected is None else 'a'} file, found the opposite"]
    at = min(len(expected), len(found))
    at = next((place for place in range(at) if expected[place] != found[place]), at)
    return [f"file {name!r}: expected {len(expected)} bytes, found {len(found)}, which differ from byte {at} on"]


def judge(case, folder, programs):
    """Runs a case. The answer is what differs, as texts, and whether Debian's program was asked."""
    found = run(os.path.join(programs, case.program), case.words, folder, case)
    drawn = veritysetup_expected.drawn_by(found.out)
    if case.program == "veritysetup":
        expected = veritysetup_expected.expected(case.words, case.before, drawn)
    else:
        expected = fsverity_expected.expected(case.words, case.before)
    texts = differences(case, expected, found)
    if texts or not case.has_peer:
        return texts, False
    peer = lambda program, words: run(program, words, folder, case)
    more = debian.compare(case.program, case.words, case.before, expected, drawn, peer)
    return more or [], more is not None


def shown(case):
    """The command of a case, as a shell takes it if all words are text."""
    return shlex.join(os.fsencode(word).decode(errors="backslashreplace") for word in [case.program, *case.words])


def told(seed, which, case, texts):
    """A failed case as it is shown."""
    lines = [f"FAILED {case.kind}: tests/soak.sh SEED={seed} CASE={which}", shown(case)[:2000]]
    lines += [text[:1500] for text in texts]
    return "\n    ".join(lines)


def work(options, programs, folder, first, results):
    """Goes over each case of one worker, shows the first that fail, and hands back how many there were by kind, and how
    many failed."""
    counts, failed = Counter(), 0
    end = time.monotonic() + options["SECONDS"]
    for which in range(first, options["CASES"], options["WORKERS"]):
        if time.monotonic() > end:
            break
        try:
            case = make_case(options["SEED"], which)
            texts, has_peer = judge(case, folder, programs)
            counts[case.kind] += 1
            counts[PEERS] += has_peer
            text = told(options["SEED"], which, case, texts)
        except Exception:
            counts[BROKEN] += 1
            texts = [traceback.format_exc()]
            text = f"FAILED in the soak itself: tests/soak.sh SEED={options['SEED']} CASE={which}\n{texts[0]}"
        if texts:
            failed += 1
            if failed <= options["SHOWN"]:
                print(text, flush=True)
    results.put((counts, failed))


def go_over(options, programs, folder):
    """Goes over the cases, with several workers. The answer is how many there were by kind, and how many failed."""
    results = SimpleQueue()
    workers = []
    for first in range(options["WORKERS"]):
        place = os.path.join(folder, str(first))
        workers.append(Process(target=work, args=(options, programs, place, first, results)))
        workers[-1].start()
    counts, failed = Counter(), 0
    for _ in workers:
        more, worse = results.get()
        counts += more
        failed += worse
    for worker in workers:
        worker.join()
    return counts, failed


def self_test(programs, folder):
    """Runs the programs, which have to pass, and faulty ones, which have to fail in some case. The answer is how many
    did so, and how many didn't."""
    wrong = os.path.join(folder, "wrong")
    os.mkdir(wrong)
    for name in ("veritysetup", "fsverity"):
        os.symlink(os.path.join(HERE, "wrong.sh"), os.path.join(wrong, name))
    os.environ["REAL"] = programs
    options = {"SEED": 1, "CASES": 60, "WORKERS": 1, "SECONDS": 600, "SHOWN": 0}
    _, failed = go_over(options | {"SHOWN": 20}, programs, folder)
    print(f"the programs: {failed} of {options['CASES']} cases fail")
    missed = failed != 0
    for fault in FAULTS:
        os.environ["FAULT"] = fault
        _, failed = go_over(options, wrong, folder)
        print(f"programs with a wrong {fault}: {failed} of {options['CASES']} cases fail")
        missed += failed == 0
    return 1 + len(FAULTS) - missed, missed


def one_case(seed, which, programs, folder):
    """Repeats one case. If it fails, its files stay as they were before the run."""
    case = make_case(seed, which)
    texts, _ = judge(case, folder, programs)
    print(shown(case))
    if texts:
        kept = tempfile.mkdtemp(prefix="soak-case-")
        lay_out(os.path.join(kept, "files"), case)
        print(told(seed, which, case, texts))
        print(f"its files: {kept}/files")
    return int(not texts), int(bool(texts))


def soak(options, programs, folder):
    """Goes over the cases and says how many there were. The answer is how many passed, and how many failed."""
    started = time.monotonic()
    print(f"seed {options['SEED']}", flush=True)
    counts, failed = go_over(options, programs, folder)
    beside = counts.pop(PEERS, 0)
    for kind in [kind[0] for kind in KINDS] + [BROKEN] * (BROKEN in counts):
        print(f"{counts[kind]:8} {kind}")
    total = counts.total()
    print(f"{total:8} cases in {time.monotonic() - started:.0f} seconds, {beside} of them {PEERS}")
    return total - failed, failed


def main():
    options = {"SEED": 1, "SECONDS": 10**9, "CASES": 10**9, "WORKERS": min(2, os.cpu_count() or 1), "CASE": None}
    options["SHOWN"] = 20
    words = sys.argv[1:]
    for word in words:
        name, _, value = word.partition("=")
        if name in options and value:
            options[name] = int(value)
        elif name == "SEED":
            options[name] = random.SystemRandom().randrange(10**9)
    programs = os.path.abspath(os.environ.get("BIN", "bin"))
    room = "/dev/shm" if os.path.isdir("/dev/shm") else None
    with tempfile.TemporaryDirectory(prefix="soak-", dir=room) as folder:
        if "--self-test" in words:
            passed, failed = self_test(programs, folder)
        elif options["CASE"] is not None:
            passed, failed = one_case(options["SEED"], options["CASE"], programs, os.path.join(folder, "case"))
        else:
            passed, failed = soak(options, programs, folder)
        os.chdir("/")
    print(f"{passed} passed, {failed} failed")
    sys.exit(1 if failed or not passed else 0)


if __name__ == "__main__":
    main()
