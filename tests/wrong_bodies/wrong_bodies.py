#!/usr/bin/env python3
"""Puts each wrong body into the code and sees that the prover refuses it, for a contract that it doesn't meet.

docs/WRONG_BODIES.md says in which form the bodies stand, how they are tried together, when one passes, and how verdicts
are kept.

Usage: tests/wrong_bodies.sh [--anew] [--only WORD] [--sample NUMBER [--seed SEED]] [CRATE..]

What is tried are the bodies without a verdict that holds; with --anew all of them. The verdicts are written to
tests/wrong_bodies/verdicts/. With --sample nothing is written, and so many of the bodies whose verdict holds are drawn
and tried too: each has to come to the verdict that is kept. --only takes the bodies whose name has the word. If GATE
names a folder whose crates were just proved, or are being proved as FIRST_LOG says (tests/run.sh), libraries are taken
from there; otherwise `rt ci` proves the crates below first, in a copy. The last line is 'N passed, M failed'.
"""

import argparse
import concurrent.futures
import os
import random
import re
import signal
import subprocess
import sys
import tempfile
import time

sys.dont_write_bytecode = True

from bodies import bodies_of, changes_of
from checks import Checks, Tests
from crates import Crate, Crates, copy_crates, link, text_of
from groups import functions_of, groups_of, same_function, same_line
from kept import Kept, Sums
from report import Report
from verdicts import Verdict, fault

# A check takes up to so much memory, and has up to so many changes: more go into several checks, so that no processor
# waits long for another at the end.
NEEDED_MEMORY = 3 << 30
MOST_CHANGES = 24

TOP = os.path.dirname(os.path.dirname(os.path.dirname(os.path.abspath(__file__))))


class Work:
    """The bodies of a crate, the verdicts that are kept of them, and what is to be tried."""

    def __init__(self, crate, folder, bodies):
        self.crate, self.kept, self.names = crate, Kept(folder, crate.name), [it.name for it in bodies]
        # The changes of each body that fits, the bodies that are to be tried, and what the changes of each came to so far.
        self.changes, self.tried, self.found = {}, [], {}

    def fits(self, body, sums):
        """Whether the verdict that is kept of a body holds."""
        kept = self.kept.lines.get(body.name)
        return kept is not None and sums.of(body, self.changes[body], kept[1]) in kept[0]

    def of(self, wanted):
        """The changes that are tried, of those of which this holds."""
        return [change for body in self.tried for change in self.changes[body] if wanted(change)]


class Run:
    """All that is tried in a run, on as many processors as there are, and as memory allows: half of it beside a gate."""

    def __init__(self, crates, report, sums, words, room):
        self.crates, self.report, self.sums, self.words, self.room = crates, report, sums, words, room
        free = int(re.search(r"MemAvailable: +(\d+)", text_of("/proc/meminfo"))[1]) << 10
        by_memory = free // (NEEDED_MEMORY << ("FIRST_LOG" in os.environ))
        at_once = int(os.environ.get("AT_ONCE", max(1, min(len(os.sched_getaffinity(0)), by_memory))))
        self.pool, self.running = concurrent.futures.ThreadPoolExecutor(at_once), {}

    def begin(self, call, *given, then):
        self.running[self.pool.submit(call, *given)] = then

    def go_over(self, works, libraries):
        """Tries all, what takes longest first; the bodies of a crate once those below are proved."""
        kit = os.path.dirname(subprocess.run(["rt", "doc"], stdout=subprocess.PIPE, check=True, text=True).stdout.strip())
        checks, tests = Checks(kit, libraries.folder, self.room), Tests(self.crates.top, kit, self.room)
        waiting = sorted((it for it in works if it.tried), key=lambda it: -len(it.of(lambda change: True)))
        self.report.whole = sum(len(it.of(lambda change: True)) for it in waiting)
        self.begin_tests(waiting, tests)
        while waiting or self.running:
            are_all = not libraries.log or os.path.exists(f"{libraries.log}.ended")
            lacking = {it: libraries.lacking(it.crate.name) for it in waiting}
            for work in [it for it in waiting if are_all or not lacking[it]]:
                waiting.remove(work)
                if not lacking[work]:
                    self.begin_checks(work, checks)
                    continue
                lost = Verdict("nothing", f"{lacking[work]}, a crate below its own, isn't proved")
                self.tell(work, {it: lost for it in work.of(lambda it: it.has_to_prove() or not it.body.test)})
            time.sleep(1)
            for it in [it for it in self.running if it.done()]:
                self.running.pop(it)(it.result())

    def begin_checks(self, work, checks):
        """Checks the changes of a crate: right twins together, as far as they fit into one text, and first those of most
        functions; then the others over what that check has kept."""
        crate = work.crate
        twins = groups_of(work.of(lambda it: it.has_to_prove()), same_line)
        groups = [sorted(it, key=lambda it: it.functions) for it in twins]
        groups += groups_of(work.of(lambda it: not (it.has_to_prove() or it.body.test or it.body.type_name)), same_function)
        groups = [it[at : at + MOST_CHANGES] for it in groups for at in range(0, len(it), MOST_CHANGES)]
        groups.sort(key=lambda it: (not it[0].has_to_prove(), -len(functions_of(it))))

        def begin_others(answer):
            self.tell(work, answer[0])
            for group in groups[1:]:
                self.begin(checks.group, crate, answer[1], group, then=lambda it: self.tell(work, it[0]))

        if groups:
            self.begin(checks.group, crate, None, groups[0], then=begin_others)
        for group in groups_of(work.of(lambda it: it.body.type_name and not it.has_to_prove()), same_function):
            self.begin(checks.types, crate, group, then=lambda it: self.tell(work, it))

    def begin_tests(self, works, tests):
        """Runs the tests that have to catch bodies, first over the code as it stands."""
        changes = {it: work for work in works for it in work.of(lambda it: it.body.test and not it.has_to_prove())}
        for name in sorted({it.body.test.crate for it in changes}):
            mine = {it: work for it, work in changes.items() if it.body.test.crate == name}
            wanted = sorted({it.body.test.name for it in mine})
            if name in self.crates.listed:
                self.begin(tests.unchanged, name, wanted, then=lambda lost, mine=mine: self.begin_caught(tests, lost, mine))
            else:
                self.begin_caught(tests, {it: "there is no such crate" for it in wanted}, mine)

    def begin_caught(self, tests, lost, changes):
        """Runs the test of each of these bodies, if it tells anything."""
        for change, work in changes.items():
            name, crate = change.body.test.name, change.body.test.crate
            if name in lost:
                self.tell(work, {change: Verdict("nothing", f"{name} of {crate}: {lost[name]}")})
            else:
                self.begin(tests.caught, change, then=lambda it, change=change, work=work: self.tell(work, {change: it}))

    def tell(self, work, verdicts):
        """Says what changes came to. Once all of a body have, its verdict is kept, or compared with the one that is."""
        for change, verdict in verdicts.items():
            body, why = change.body, fault(change, verdict)
            self.report.show(change, verdict, why)
            work.found.setdefault(body, {})[change] = (verdict, why)
            if len(work.found[body]) == len(work.changes[body]):
                self.keep(work, body)
        if self.words.sample is None:
            work.kept.write(work.names)

    def keep(self, work, body):
        if any(why for _, why in work.found[body].values()):
            work.kept.lines.pop(body.name, None)
            return
        before = work.kept.lines[body.name][1] if work.fits(body, self.sums) else None
        verdict, _ = work.found[body][work.changes[body][0]]
        said = f"{verdict.how(body)} {verdict.text}"
        work.kept.keep(body.name, self.sums.of(body, work.changes[body], said), said)
        if before and before != said:
            self.report.fail(body.label(), f"the verdict that is kept is another: {before}")


class Libraries:
    """A folder with the libraries of the crates below some, as far as they are proved: by a gate that has ended, by one
    that still runs, or here."""

    def __init__(self, crates, names, room):
        self.crates, self.folder, self.at = crates, f"{room}/libraries", os.environ.get("GATE")
        self.log, below = self.at and os.environ.get("FIRST_LOG"), {it for name in names for it in crates.below(name)}
        os.mkdir(self.folder)
        if below and not self.at:
            self.at = f"{room}/gate"
            copy_crates(crates.top, self.at, below)
            with open(f"{self.at}/crates.txt", "w", encoding="utf-8") as lines:
                lines.writelines(f"{it}: {' '.join(crates.listed[it][0])}\n" for it in below)
            subprocess.run(["rt", "ci"], cwd=self.at, stdin=subprocess.DEVNULL, capture_output=True)

    def lacking(self, name):
        """A crate below this one whose library isn't there; nothing if all are. A gate that runs says when one is whole."""
        said = text_of(self.log) if self.log else ""
        for it in self.crates.below(name):
            at, to = f"{self.at}/crates/{it}/out/rlib/{it}.rlib", f"{self.folder}/{it}.rlib"
            is_whole = not self.log or re.search(rf"^rt: {it} (proved|is kept)", said, re.M)
            if is_whole and os.path.isdir(at) and not os.path.isdir(to):
                link(at, to)
            if not os.path.isdir(to):
                return it
        return None


def work_of(name, words, crates, report, sums):
    """The bodies of a crate, of which those are to be tried that have no verdict which holds."""
    bodies = bodies_of(crates.top, name)
    work = Work(Crate(crates, name), f"{TOP}/tests/wrong_bodies/verdicts", bodies)
    why = work.kept.fault(work.names)
    if why:
        report.fail(name, why)
    for body in bodies:
        changes, why = changes_of(work.crate, body)
        if work.names.count(body.name) > 1:
            why = f"{body.source}: the name stands more than once"
        if why:
            report.fail(body.label(), why)
        elif words.only in body.name:
            work.changes[body] = changes
            if words.anew or not work.fits(body, sums):
                work.tried.append(body)
    return work


def tried(words, room):
    """Tries what the words ask for, in copies of the crates as they stand now, and answers the status."""
    copy_crates(TOP, f"{room}/source", left_out=("out",))
    crates, report = Crates(f"{room}/source"), Report()
    unknown = next((it for it in words.crates if it not in crates.listed), None)
    if unknown:
        sys.exit(f"{unknown} is no crate of crates.txt")
    sums = Sums(crates, subprocess.run(["rt", "version"], stdout=subprocess.PIPE, check=True, text=True).stdout)
    works = [work_of(it, words, crates, report, sums) for it in words.crates or crates.listed]
    if not any(it.changes for it in works):
        report.fail(words.only, "no body has this word in its name")
    holding = [(work, body) for work in works for body in work.changes if body not in work.tried]
    print(f"{sum(len(it.tried) for it in works)} bodies have no verdict that holds, and {len(holding)} have one", flush=True)
    drawn = random.Random(words.seed).sample(holding, min(words.sample or 0, len(holding)))
    if drawn:
        print(f"{len(drawn)} of these are tried again, drawn with the seed {words.seed}", flush=True)
    for work, body in drawn:
        work.tried.append(body)
    report.passed += sum(len(work.changes[body]) for work, body in holding if body not in work.tried)
    names = [it.crate.name for it in works if it.tried]
    Run(crates, report, sums, words, room).go_over(works, Libraries(crates, names, room))
    return report.end()


def main():
    parser = argparse.ArgumentParser(add_help=False, usage=__doc__)
    parser.add_argument("--anew", action="store_true")
    parser.add_argument("--only", default="")
    parser.add_argument("--sample", type=int)
    parser.add_argument("--seed", type=int, default=random.randrange(10**6))
    parser.add_argument("crates", nargs="*")
    signal.signal(signal.SIGTERM, lambda *_: sys.exit(143))
    with tempfile.TemporaryDirectory(prefix="wrong-bodies-", ignore_cleanup_errors=True) as room:
        return tried(parser.parse_args(), room)


if __name__ == "__main__":
    sys.exit(main())
