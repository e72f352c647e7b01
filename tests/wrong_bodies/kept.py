"""The verdicts that are kept in the repository, each with a sum of all that it was judged by."""

import functools
import hashlib
import json
import os
import re
import sys

from crates import text_of
from reach import Reach, entries

HERE = os.path.dirname(os.path.abspath(__file__))

# What judges: the files of this folder that a verdict rests on.
JUDGES = ("bodies", "checks", "crates", "functions", "groups", "reach", "shapes", "verdicts")

USE = re.compile(r"^((?:unfoldable |pub )*use) ([^\n]*(?:\n +[^\n]*)*)\n", re.M)


class Sums:
    """The sums of verdicts over the crates as they stand."""

    def __init__(self, crates, toolchain):
        self.listed, self.reach = crates.listed, Reach(crates)
        self.reach.files = {path: with_single_imports(text) for path, text in self.reach.files.items()}
        for name in ("of_statement", "of_code", "named_in_antt"):
            # Many bodies rest on the same texts, each of which is read once.
            setattr(self.reach, name, functools.cache(getattr(self.reach, name)))
        self.judged_by = [toolchain, *(text_of(f"{HERE}/{it}.py") for it in JUDGES)]

    def of(self, body, changes, verdict):
        """The sum of a verdict: of itself, of the body and what its changes rest on, of the toolchain and of this tool. So
        it fits no other body and no other verdict."""
        rests = [[it.role, it.functions, self.rests_on(it)] for it in changes]
        return hashlib.sha256(json.dumps([verdict, body.said(), rests, self.judged_by]).encode()).hexdigest()[:20]

    def rests_on(self, change):
        """The texts that a change is judged by, its own crate's as they stand without it."""
        crate, test = change.body.crate, change.body.test
        if test and not change.has_to_prove():
            tests = f"{test.crate}::{test.name}"
            run = [it for it in [tests, *(f"{crate}::{it}" for it in change.changed)] if it in self.reach.functions]
            return [self.listed[crate], self.listed.get(test.crate), self.reach.of_run(crate, run, change.lines)]
        functions = sorted({*change.functions, *change.changed})
        return [self.listed[crate], self.reach.of_check(crate, functions, change.lines)]


class Kept:
    """The verdicts of a crate: lines `NAME SUM VERDICT` or `NAME SUM,SUM VERDICT`, with the sums of the last two times
    that a body came to this, as over two toolchains; and of each body that went a line `gone NAME: WHY`."""

    def __init__(self, folder, crate):
        self.path, self.lines, self.gone = f"{folder}/{crate}", {}, {}
        lines = text_of(self.path).split("\n") if os.path.exists(self.path) else []
        for number, line in enumerate(lines, 1):
            gone = re.fullmatch(r"gone (\w+): (\S.*)", line)
            kept = re.fullmatch(r"(\w+) ([0-9a-f]{20}(?:,[0-9a-f]{20})?) (\S.*)", line)
            if gone and gone[1] not in self.gone:
                self.gone[gone[1]] = gone[2]
            elif kept and kept[1] not in self.lines:
                self.lines[kept[1]] = (kept[2].split(","), kept[3])
            elif line:
                sys.exit(f"{self.path}:{number}: this line is neither a verdict nor a body that is gone: {line}")

    def fault(self, names):
        """What is wrong with the lines of a crate whose bodies have these names; nothing if they are right."""
        lost = next((it for it in self.lines if it not in names), None)
        if lost:
            return f"{self.path} has a verdict on {lost}, which isn't there: put `gone {lost}: WHY` in its place"
        back = next((it for it in self.gone if it in names), None)
        return f"{back} is there, and {self.path} says that it is gone" if back else None

    def keep(self, name, new, said):
        """Keeps what a body came to, with its sum; and the last sum before, if it came to the same then."""
        sums, text = self.lines.get(name, ([], said))
        self.lines[name] = ([new, *(it for it in sums if it != new and text == said)][:2], said)

    def write(self, names):
        """Writes the lines, in the order of these names."""
        os.makedirs(os.path.dirname(self.path), exist_ok=True)
        lines = [f"{it} {','.join(self.lines[it][0])} {self.lines[it][1]}" for it in names if it in self.lines]
        lines += [f"gone {name}: {why}" for name, why in self.gone.items()]
        with open(f"{self.path}.new", "w", encoding="utf-8") as file:
            file.write("".join(f"{it}\n" for it in lines))
        os.replace(f"{self.path}.new", self.path)


def with_single_imports(text):
    """A file of definitions or proofs with each import by itself, in the order of their names."""
    names = sorted({f"{how} {it}" for how, items in USE.findall(text) for it in entries(items)})
    return "\n".join([*names, USE.sub("", text)])
