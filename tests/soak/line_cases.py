"""Random command lines: the words of another run with some of them left out, given twice, exchanged or changed."""

import fsverity_cases
import veritysetup_cases

STRANGE = [
    "--",
    "-",
    "---",
    "--=",
    "--=x",
    "-h",
    "-x",
    "-5",
    "--help",
    "--version",
    "--debug",
    "--unknown",
    "--unknown=1",
    "--no-superblock",
    "--no-superblock=",
    "--no-superblock=1",
    "--compact",
    "--compact=yes",
    "--for-builtin-sig",
    "--salt",
    "--salt=",
    "--salt=-",
    "--hash-offset",
    "--hash-offset=512",
    "--uuid",
    "--block-size",
    "--out-descriptor",
    "--out-merkle-tree=tree",
    "",
    "0",
    "help",
    "format",
    "verify",
    "dump",
    "digest",
    "extra",
    "\udcff",
    "hash\udce9",
    "a\\b\udc80\t",
    "é",
]


def changed(rng, words):
    """The words with one change."""
    at = rng.randrange(len(words) + 1)
    kind = rng.randrange(7)
    if kind < 2 or at == len(words):
        return words[:at] + [rng.choice(STRANGE)] + words[at:]
    word = words[at]
    if kind == 2:
        return words[:at] + words[at + 1 :]
    if kind == 3:
        return words[: at + 1] + words[at:]
    if kind == 4:
        other = rng.randrange(len(words))
        exchanged = list(words)
        exchanged[at], exchanged[other] = words[other], word
        return exchanged
    if kind == 5:
        return words[:at] + word.split("=", 1) + words[at + 1 :]
    place = rng.randrange(len(word) + 1)
    return words[:at] + [word[:place] + rng.choice(["", "-", "=", "x"]) + word[place + 1 :]] + words[at + 1 :]


def line_case(rng, make):
    """The files of another run, and its words with some changes."""
    before, words = make(rng)
    for _ in range(rng.choice([1, 1, 1, 2, 3])):
        words = changed(rng, words)
    return before, words


def veritysetup_case(rng):
    kinds = [veritysetup_cases.format_case, veritysetup_cases.verify_case, veritysetup_cases.superblock_case]
    return line_case(rng, rng.choice(kinds))


def fsverity_case(rng):
    return line_case(rng, rng.choice([fsverity_cases.digest_case, fsverity_cases.output_case]))
