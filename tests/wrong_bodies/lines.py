#!/usr/bin/env python3
"""Sees what is read off lines that the prover prints, most of which no body of the small crate brings about, and which
sums are kept: ends with 0 if all is right, and otherwise says what isn't."""

import sys

sys.dont_write_bytecode = True

from kept import Kept
from verdicts import verdict_on

ENSURES = "it is not proved that what the function ensures holds when it returns"
LIMIT = "; `search` gave up at one of its limits"
FALSE = "; the facts known there allow values at which this goal is false"


class Small:
    """A crate whose one function `f` is the lines 10 to 20 of src/lib.rt."""

    name = "small"

    @staticmethod
    def is_within(function, file, line):
        return function == "f" and file == "src/lib.rt" and 10 <= line <= 20


def check(goals):
    """What a check prints of `f`, if these goals aren't met, each with how its note ends."""
    notes = [f"note: src/lib.rt:12:1: {ENSURES} (`{goal}`){how}" for goal, how in goals.items()]
    return "\n".join([*notes, f"fn small::f: no proof: `search` did not prove {', '.join(f'`{it}`' for it in goals)}"])


def stands_on(name):
    """What a check says of a function whose proof cites what is refused."""
    return f"it stands on `Rattle.small.proofs.{name}`, which antt refuses"


# What the prover prints, and what is to be read off: the kind, whether a clause of the contract refuses the body, and a
# piece of the text.
LINES = [
    (check({"returns": FALSE}), "refused", True, "f: returns (false at values"),
    (check({"returns-clause-sum": ""}), "refused", True, "f: returns-clause-sum (left open)"),
    (check({"returns": LIMIT}), "refused", False, "f: returns (open at a limit of the search)"),
    (check({"returns": LIMIT, "returns-2": ""}), "refused", True, "f: returns-2 (left open)"),
    (check({"returns": LIMIT, "loop-i-preserved": FALSE}), "refused", False, "f: returns (open at a limit"),
    (check({"loop-i-preserved": FALSE}), "refused", False, "no clause of its contract: the invariant of a loop"),
    (check({"bounds-text-i": FALSE}), "refused", False, "no clause of its contract: an index"),
    (check({"overflow_add-i": FALSE}), "refused", False, "no clause of its contract: an overflow"),
    (check({"g-requires-clause-least": ""}), "refused", False, "no clause of its contract: what a call requires"),
    (check({"returned-requires": ""}), "refused", False, "no clause of its contract: what a call requires"),
    ("fn small::f: could not tell", "nothing", False, "no verdict"),
    ("fn small::f: no holes", "proved", False, "f is still proved"),
    ("fn small::f: no proof: it calls `small::g`, which is not proved", "proved", False, "f is still proved"),
    (f"fn small::f: not proved; {stands_on('g.Answers.returns')}", "proved", False, "f is still proved"),
    (f"fn small::f: not proved; {stands_on('Lemmas.step')}", "nothing", False, "Lemmas.step"),
    (f"fn small::f: not proved; {stands_on('f.Answers.returns')}", "refused", True, "f: returns (its proof by"),
    ("fn small::g: no holes", "nothing", False, "the check says nothing of f"),
]

wrong = 0
for said, kind, is_clause, text in LINES:
    found = verdict_on(said, Small, "f")
    if (found.kind, found.is_clause) != (kind, is_clause) or text not in found.text:
        wrong += 1
        print(f"of: {said}\nread: {found}\nexpected: {kind}, {is_clause}, {text}")

# The sums of a verdict, one after another, and those that are kept then.
SUMS = [("a", "one", "a"), ("b", "one", "ba"), ("b", "one", "ba"), ("c", "one", "cb"), ("d", "two", "d")]

kept = Kept("/nowhere", "small")
for new, said, sums in SUMS:
    kept.keep("body", new, said)
    if kept.lines["body"] != ([*sums], said):
        wrong += 1
        print(f"after {new}: kept are {kept.lines['body']}, expected {sums}")
sys.exit(1 if wrong else 0)
