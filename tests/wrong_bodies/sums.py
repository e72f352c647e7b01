#!/usr/bin/env python3
"""Sees which verdicts become void when something changes, over the small repository in a folder: all that could be
another, and of the others as few as can be. Ends with 0 if each change does what the table says.

Usage: sums.py FOLDER
"""

import sys

sys.dont_write_bytecode = True

import kept
from bodies import bodies_of, changes_of
from crates import Crate, Crates, text_of

SOURCE, ANSWERS = "crates/small/src/lib.rt", "crates/small/proofs/as_many/Answers.antt"

# What changes: its file, what stands there, what comes in its place; and the bodies whose verdicts become void.
CHANGES = [
    ("a contract in a crate below", "crates/few/src/lib.rt", "result ≡ 3", "result ≤ 3", ["one_too_many"]),
    ("a definition in a crate below", "crates/few/specs/Few.antt", "three = 3", "three = 4", ["one_too_many"]),
    ("another function's body, in a crate below", "crates/few/src/lib.rt", "    3\n", "    1 + 2\n", []),
    ("a lemma", "crates/small/proofs/Threes.antt", "= refl", "= refl -- as it is", ["one_too_many"]),
    ("a lemma of an attribute", "crates/small/proofs/Twos.antt", "= refl", "= refl -- as it is", ["constant_of_two"]),
    ("a proof", ANSWERS, "(arith, c.few.ensures, three-is)", "(arith, three-is, c.few.ensures)", ["one_too_many"]),
    ("a comment in a proof", ANSWERS, "pub returns", "-- It is three.\npub returns", []),
    ("lines of imports", ANSWERS, "use Rattle.std.proofs.Common.{arith}\nuse Rattle.small.proofs.Threes.{three-is}",
     "use Rattle.{small.proofs.Threes.three-is,\n    std.proofs.Common.arith}", []),
    ("an import in a proof", ANSWERS, "Common.{arith}", "Common.{arith, refl}", ["one_too_many"]),
    ("a comment", SOURCE, "/// The next number.", "/// The number after it.", []),
    ("its contract", SOURCE, "{ result ≡ number + 2 }", "{ result ≡ 2 + number }", ["goes_where_no_proof_follows"]),
    ("a contract of a function that it calls", SOURCE, "at_most(one: u8, other: u8) -> u8 ensures first",
     "at_most(one: u8, other: u8) -> u8 ensures least",
     ["number_in_place_of_the_least", "number_in_place_of_another_type", "two_functions_and_the_wrong_one", "zero_of_the_tests"]),
    ("its function", SOURCE, "{ this } else { that }", "{ (this) } else { that }", ["caught_by_no_test", "zero_is_at_most_each"]),
    ("a source in a folder named as what is built", "crates/small/src/out/mod.rt", "    number\n", "    (number)\n",
     ["one_less_is_given"]),
    ("a constant", SOURCE, "STEP: u16 = 1", "STEP: u16 = 1 + 0",
     ["constant_of_two", "its_twin_does_not_compile", "means_the_same_beside_a_constant"]),
    ("a type", SOURCE, "    number: u8,\n}", "    number: u8,\n    more: u8,\n}",
     ["least_in_place_of_the_least", "least_in_place_of_the_number_beside", "number_in_place_of_another_type",
      "number_in_place_of_the_least"]),
    ("an import", SOURCE, "Few.{three}", "Few.{three as three}", ["one_too_many"]),
    ("a body that a test runs", SOURCE, "if a < b { a }", "if a < b { (a) }",
     ["passes_its_tests", "refused_and_caught", "zero_of_the_tests"]),
    ("a test", "crates/small_tests/src/lib.rt", "lesser(1, 2), 1", "lesser(1, 3), 1",
     ["passes_its_tests", "refused_and_caught", "zero_of_the_tests"]),
    ("its right twin", "crates/small/wrong-bodies/lib.edit", "from(number).saturating_sub(0)", "from(number).saturating_sub(0 + 0)", ["adds_none"]),
    ("its line on who refuses it", "crates/small/wrong-bodies/lib.edit", "# in: step\n# two", "# in: step_to\n# two",
     ["constant_of_two"]),
    ("the libraries of its crate", "crates.txt", "small: few\n", "small: few sha2\n", None),
    ("the tactics of its crate", SOURCE, "#![tactic(auto)]", "#![tactic(auto, few)]", None),
]


def sums_of(top, toolchain="a toolchain", verdict="refused"):
    """The sum of this verdict for each body of the small crate that fits."""
    crates = Crates(top)
    sums, crate = kept.Sums(crates, toolchain), Crate(crates, "small")
    changes = {it: changes_of(crate, it)[0] for it in bodies_of(top, "small")}
    return {it.name: sums.of(it, found, verdict) for it, found in changes.items() if found}


def main(top):
    wrong, before = 0, sums_of(top)
    assert len(before) > 15 and len(set(before.values())) == len(before)
    for what, file, old, new, expected in CHANGES:
        text = text_of(f"{top}/{file}")
        assert text.count(old) == 1, what
        with open(f"{top}/{file}", "w", encoding="utf-8") as changed:
            changed.write(text.replace(old, new))
        after = sums_of(top)
        with open(f"{top}/{file}", "w", encoding="utf-8") as changed:
            changed.write(text)
        void = sorted(it for it in before if after.get(it) != before[it])
        if void != sorted(before if expected is None else expected):
            wrong += 1
            print(f"{what}: void are {void}, expected {expected}")
    judges, kept.JUDGES = kept.JUDGES, kept.JUDGES[1:]
    by_another_tool, kept.JUDGES = sums_of(top), judges
    for what, after in (("the tool", by_another_tool), ("the toolchain", sums_of(top, "another toolchain"))):
        if set(after.values()) & set(before.values()):
            wrong += 1
            print(f"{what}: not all are void")
    return wrong


if __name__ == "__main__":
    sys.exit(1 if main(*sys.argv[1:]) else 0)
