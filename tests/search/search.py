#!/usr/bin/env python3
"""Runs both programs and Debian's on random command lines, and fails on a difference that no row of docs/DIFFERENCES.md
covers.

search.py [SEED=N] [SECONDS=N] [CASES=N] [FAILURES=N] [WORKERS=N] [DOCUMENT=FILE] goes over cases 0, 1, .. until the
time or the number is reached, or in a worker so many have failed; search.py SEED=N CASE=N shows one. DOCUMENT stands
in place of docs/DIFFERENCES.md. Seed and number of a case determine everything in it. The last line is
'N passed, M failed'.
"""

import io
import os
import random
import re
import shlex
import shutil
import stat
import subprocess
import sys
import tempfile
import time
import traceback
from collections import Counter, namedtuple
from contextlib import contextmanager
from multiprocessing import Process, SimpleQueue

sys.dont_write_bytecode = True
HERE = os.path.dirname(os.path.abspath(__file__))
sys.path[1:1] = [os.path.join(HERE, "..", "soak"), os.path.join(HERE, "..", "lib")]

from layouts import SIGNATURE, SUPERBLOCK_FIELDS
from lines import ITS_FOLDER, PIPE, random_case
from rows import FILES, LINES, MODES, NAMED, ROWS, STATUS, UUID_LINE

# What a run did: its status and what it printed, and then the files by name with their bytes, and the modes of those that
# it made.
Outcome = namedtuple("Outcome", "status out err files modes")
# How much of a file is read, more than any of these runs should make.
MOST_READ = 2**25
SHOWN = 20
# What is counted besides the cases.
FAILED, DIFFERENT = "failed", "different"
# The status of a run that was ended after a minute.
ENDLESS = "none within a minute"


def set_up(before, folder):
    """Makes a folder as a case has it, and goes there."""
    os.chdir("/")
    shutil.rmtree(folder, ignore_errors=True)
    os.makedirs(os.path.join(folder, "folder"))
    os.chdir(folder)
    for name, content in before.files.items():
        if name not in before.twins:
            with open(os.fsencode(name), "wb") as file:
                file.write(content)
    for name, other in before.twins.items():
        os.link(os.fsencode(other), name)
    for name, other in before.links.items():
        os.symlink(os.fsencode(other.replace(ITS_FOLDER, folder)), name)
    if before.has_pipe:
        os.mkfifo(PIPE)


@contextmanager
def opened_pipe(before):
    """A file of what goes through the pipe of a case, which is open at both ends, so that nobody waits for somebody."""
    if not before.has_pipe:
        yield io.BytesIO()
        return
    with open(os.open(PIPE, os.O_RDWR | os.O_NONBLOCK), "rb") as pipe:
        yield pipe


def run(program, case, folder):
    """Runs a program in a folder with the files of a case."""
    set_up(case.before, folder)
    command = [os.fsencode(word.replace(ITS_FOLDER, folder)) for word in [program, *case.words()]]
    with opened_pipe(case.before) as pipe:
        try:
            ended = subprocess.run(command, stdin=subprocess.DEVNULL, capture_output=True, timeout=60, umask=case.umask)
        except subprocess.TimeoutExpired:
            return Outcome(ENDLESS, "", "", {}, {})
        files, modes = what_stands(case.before)
        through = pipe.read()
    if through:
        files[PIPE] = through
    out, err = (text.decode(errors="replace") for text in (ended.stdout, ended.stderr))
    return Outcome(ended.returncode, out, err, files, modes)


def what_stands(before):
    """The files that stand in the folder after a run, by name with their bytes, and the modes of the new ones."""
    files, modes = {}, {}
    others = {"folder": stat.S_IFDIR, **dict.fromkeys(before.links, stat.S_IFLNK)}
    if before.has_pipe:
        others[PIPE] = stat.S_IFIFO
    for name in os.listdir():
        mode = os.lstat(os.fsencode(name)).st_mode
        if stat.S_IFMT(mode) == others.get(name):
            del others[name]
        else:
            if name not in before.files:
                modes[name] = stat.S_IMODE(mode)
            with open(os.fsencode(name), "rb") as file:
                files[name] = file.read(MOST_READ)
    # What was there, and is no more or is something else.
    return files | {name: b"another" for name in others}, modes


def without_drawn(case, outcome):
    """An outcome without what is drawn: salt and root hash if no salt is given, and the UUID if none is."""
    out, files = outcome.out, dict(outcome.files)
    if case.command() != "format" or outcome.status:
        return outcome
    if not case.has("salt"):
        out = re.sub(r"^((Salt|Root hash): +\t).*$", r"\1drawn", out, flags=re.MULTILINE)
    if not case.has("uuid") and not case.has("no-superblock"):
        out = re.sub(r"^(UUID: +\t).*$", r"\1drawn", out, flags=re.MULTILINE)
    for name, content in files.items():
        if content == case.before.files.get(name):
            continue
        if not case.has("salt"):
            files[name] = bytes(len(content))
        else:
            start = content.find(SIGNATURE + b"\1\0\0\0")
            if start >= 0 and not case.has("uuid"):
                at, size = SUPERBLOCK_FIELDS["uuid"]
                files[name] = content[: start + at] + bytes(size) + content[start + at + size :]
    return outcome._replace(out=out, files=files)


def differences(case, ours, theirs):
    """In what two outcomes differ."""
    found = {STATUS} if ours.status != theirs.status else set()
    if ENDLESS in (ours.status, theirs.status):
        # Nothing is known of it, so no row covers it.
        found.add(ENDLESS)
    if UUID_LINE.sub("", ours.out) != UUID_LINE.sub("", theirs.out):
        found.add(LINES)
    if UUID_LINE.findall(ours.out) != UUID_LINE.findall(theirs.out):
        found.add(NAMED)
    if ours.files != theirs.files:
        found.add(FILES)
    if any(mode != theirs.modes.get(name, mode) for name, mode in ours.modes.items()):
        found.add(MODES)
    return found


def judge(case, folder, programs, rows):
    """What no row covers, the rows that are needed, and both outcomes."""
    ours = without_drawn(case, run(os.path.join(programs, case.program), case, folder))
    theirs = without_drawn(case, run(shutil.which(case.program), case, folder))
    found = differences(case, ours, theirs)
    covered = {}
    if found:
        for program, text, covers in rows:
            said = covers(case, ours, theirs) & found if program == case.program else set()
            if said:
                covered[text] = said
    left = found - set().union(*covered.values())
    without = lambda text: set().union(*(said for other, said in covered.items() if other != text))
    return left, [text for text in covered if found - without(text)], ours, theirs


def shown(case):
    """The command of a case, as a shell takes it if all words are text."""
    words = shlex.join(os.fsencode(word).decode(errors="backslashreplace") for word in [case.program, *case.words()])
    return f"umask {case.umask:03o}; {words}"


def told(seed, which, case, left, ours, theirs):
    """A case as it is shown."""
    title = f"no row covers the {', '.join(sorted(left))}" if left else "every difference has a row"
    lines = [f"tests/search.sh SEED={seed} CASE={which}: {title}", shown(case)[:600]]
    for name, outcome in (("here", ours), ("Debian's", theirs)):
        said = (outcome.err.strip() or outcome.out.strip()).split("\n")[-1][:150]
        modes = "".join(f", {file!r} with mode {mode:03o}" for file, mode in sorted(outcome.modes.items()))
        lines.append(f"{name}: status {outcome.status}; {said!r}; {sizes(outcome.files)}{modes}")
    return "\n    ".join(lines + [f"before: {sizes(case.before.files)}"])


def sizes(files):
    return ", ".join(f"{name!r} of {len(content)} bytes" for name, content in sorted(files.items()))


def make_case(seed, which):
    return random_case(f"{seed} {which}")


def work(options, programs, folder, first, rows, results):
    """Goes over each case of one worker. It hands back how many there were, how many failed, and the rows needed."""
    counts, needed = Counter(), Counter()
    end = time.monotonic() + options["SECONDS"]
    for which in range(first, options["CASES"], options["WORKERS"]):
        if time.monotonic() > end or counts[FAILED] >= options["FAILURES"]:
            break
        counts["cases"] += 1
        try:
            case = make_case(options["SEED"], which)
            left, more, ours, theirs = judge(case, folder, programs, rows)
        except Exception:
            counts[FAILED] += 1
            print(f"FAILED in the search itself: tests/search.sh SEED={options['SEED']} CASE={which}")
            traceback.print_exc(file=sys.stdout)
            continue
        counts[DIFFERENT] += ours.status != theirs.status or bool(more)
        needed.update(more)
        if left:
            counts[FAILED] += 1
            if counts[FAILED] <= SHOWN:
                print("FAILED " + told(options["SEED"], which, case, left, ours, theirs), flush=True)
    results.put((counts, needed))


def go_over(options, programs, folder, rows):
    """Goes over the cases, with several workers."""
    results = SimpleQueue()
    workers = []
    for first in range(options["WORKERS"]):
        place = os.path.join(folder, str(first))
        workers.append(Process(target=work, args=(options, programs, place, first, rows, results)))
        workers[-1].start()
    counts, needed = Counter(), Counter()
    for _ in workers:
        more, rows_needed = results.get()
        counts += more
        needed += rows_needed
    for worker in workers:
        worker.join()
    return counts, needed


def stated(document):
    """The rows that a document has, by their first cells; those of the search that it lacks cover nothing."""
    with open(document, encoding="utf-8") as file:
        cells = set(re.findall(r"^\| ([^|]+) \|", file.read(), re.MULTILINE))
    return [each for each in ROWS if each[1] in cells]


def main():
    options = {"SEED": 1, "SECONDS": 60, "CASES": 10**9, "WORKERS": min(2, os.cpu_count() or 1), "CASE": None}
    options["FAILURES"] = 10**9
    document = os.path.join(HERE, "..", "..", "docs", "DIFFERENCES.md")
    for word in sys.argv[1:]:
        name, _, value = word.partition("=")
        if name == "DOCUMENT":
            document = value
        elif name in options and value:
            options[name] = int(value)
        elif name == "SEED":
            options[name] = random.SystemRandom().randrange(10**9)
    rows = stated(document)
    programs = os.path.abspath(os.environ.get("BIN", "bin"))
    room = "/dev/shm" if os.path.isdir("/dev/shm") else None
    with tempfile.TemporaryDirectory(prefix="search-", dir=room) as folder:
        if options["CASE"] is not None:
            case = make_case(options["SEED"], options["CASE"])
            left, needed, ours, theirs = judge(case, os.path.join(folder, "case"), programs, rows)
            print(told(options["SEED"], options["CASE"], case, left, ours, theirs))
            print("rows needed: " + "; ".join(needed))
            counts = Counter({"cases": 1, FAILED: int(bool(left))})
        else:
            started = time.monotonic()
            counts, needed = go_over(options, programs, folder, rows)
            for text, count in needed.most_common():
                print(f"{count:8} {text}")
            seconds = time.monotonic() - started
            print(f"{counts['cases']:8} cases of seed {options['SEED']} in {seconds:.0f} seconds,")
            print(f"{counts[DIFFERENT]:8} of them with differences, which need {len(needed)} of {len(rows)} rows")
        os.chdir("/")
    passed = counts["cases"] - counts[FAILED]
    print(f"{passed} passed, {counts[FAILED]} failed")
    sys.exit(1 if counts[FAILED] or not passed else 0)


if __name__ == "__main__":
    main()
