"""What a check says of a function: whether it is proved, and if it isn't, at which goal and how the prover shows it."""

import re
from collections import namedtuple


class Verdict(namedtuple("Verdict", "kind text is_clause", defaults=("", False))):
    """What a body comes to: 'proved', 'refused' or 'nothing'; a text that says where and how, or why; and whether a clause
    of the function's own contract is what refuses it."""

    @staticmethod
    def how(body):
        return "caught" if body.test else "refused"


# A function's line in what a check prints, and lines that say why a goal of it isn't proved.
LINE = re.compile(r"^fn (\S+): (.*)$", re.M)
OPEN = re.compile(r"`search` did not prove ((?:`[^`]+`(?:, | and )?)+)")
REFUSED = re.compile(r"it stands on ((?:`[^`]+`(?:, | and )?)+), which antt refuses")
NAME_GONE = re.compile(r"has no field|is not in scope|has no `|that can be named|was not admitted|is no name")

# How the prover shows that a goal isn't met, the plainest first.
HOW = {
    "false": "false at values that the prover names",
    "open": "left open",
    "by hand": "its proof by hand no longer fits",
    "limit": "open at a limit of the search",
}

# What a goal is that is no clause of the function's own contract, by its name.
OTHER_GOALS = (
    (r".+-requires(-|$)", "what a call requires"),
    (r"(overflow|nonzero)_", "an overflow"),
    (r"(slice_|offset_)?bounds-", "an index"),
    (r".+-(init|preserved|smaller)(-|$)", "the invariant of a loop"),
    (r"invariant_of-", "the invariant of a type"),
)


def what_goal(name):
    """What a goal is if it is no clause of the contract of its function; nothing if it is one."""
    if re.match(r"returns(-|$)", name):
        return None
    return next((what for pattern, what in OTHER_GOALS if re.match(pattern, name)), "another goal")


def verdict_on(said, crate, function):
    """What a check that printed this says of a function."""
    whole = f"{crate.name}::{function}"
    lines = {name: text for name, text in LINE.findall(said) if name == whole or name.startswith(f"{whole}::")}
    if not lines:
        return Verdict("nothing", f"the check says nothing of {function}")
    if any(it.startswith("could not tell") for it in lines.values()):
        return Verdict("nothing", "the prover gives no verdict")
    proofs = f"./proofs/{function.replace('::', '/')}/"
    errors = [it for it in said.split("\n") if it.startswith(proofs) and ": error" in it]
    notes = [it for it in said.split("\n") if is_note_in(crate, function, it)]
    found, gone = [], [it for it in errors if NAME_GONE.search(it)]
    for text in lines.values():
        for goal in quoted(OPEN, text):
            found.append((how_open(next((it for it in notes if f"(`{goal}`)" in it), "")), goal))
        # Goals of functions that it calls are refused there.
        for goal in (it.split(".")[-1] for it in quoted(REFUSED, text) if f".proofs.{function.replace('::', '.')}." in it):
            said_of_it = [it for it in errors if f"`{goal}`" in it]
            if said_of_it and all(NAME_GONE.search(it) for it in said_of_it):
                gone.insert(0, said_of_it[0])
            else:
                found.append(("by hand", goal))
    if found:
        return plainest(function, found)
    if gone:
        return Verdict("nothing", f"only a proof names what went away: {gone[0][:160]}")
    other = next((it for it in lines.values() if not rests_on_functions(it)), None)
    if errors or other:
        return Verdict("nothing", (other or errors[0])[:160])
    return Verdict("proved", f"{function} is still proved")


def plainest(function, found):
    """The refusal that shows most: by a clause of the contract first, then by how it is shown."""
    how, goal = min(found, key=lambda it: (what_goal(it[1]) is not None, list(HOW).index(it[0])))
    what, is_clause = what_goal(goal), what_goal(goal) is None and how != "limit"
    more = "" if what is None else f"; no clause of its contract: {what}"
    return Verdict("refused", f"{function}: {goal} ({HOW[how]}{more})", is_clause)


def rests_on_functions(text):
    """Whether a function is proved by its line, but perhaps for other functions that it calls."""
    stands_on = quoted(REFUSED, text)
    if stands_on:
        return all(re.search(r"\.(Answers|Proof|Invariants)\.", it) for it in stands_on)
    return re.match(r"no holes|depends on a hole", text) is not None or "it calls" in text


def how_open(note):
    if "at which this goal is false" in note:
        return "false"
    return "limit" if "at one of its limits" in note else "open"


def is_note_in(crate, function, line):
    """Whether a line is a note on a place in a function."""
    found = re.match(r"note: (src/\S+?):(\d+):", line)
    return found is not None and crate.is_within(function, found[1], int(found[2]))


def quoted(pattern, text):
    """The names between backticks in what a pattern finds in a text."""
    return [name for part in pattern.findall(text) for name in re.findall(r"`([^`]+)`", part)]


def together(verdicts, wanted):
    """What several functions come to, of which all have to come to the kind that is wanted: the first that doesn't, or
    else one text of all."""
    other = next((it for it in verdicts if it.kind != wanted), None)
    if other:
        return other
    return Verdict(wanted, "; ".join(it.text for it in verdicts), all(it.is_clause for it in verdicts))


def fault(change, verdict):
    """Why what a change came to isn't right; nothing if it is. A body has to be refused, and a right twin proved."""
    if change.has_to_prove():
        why = "it isn't proved" if change.role == "twin" else "it isn't proved, so no test has to catch it"
        return None if verdict.kind == "proved" else f"{why}: {verdict.text}"
    if verdict.kind != "refused":
        return verdict.text
    if not (verdict.is_clause or change.body.has_twin()):
        return f"it is refused, but not for a clause of its contract, and has no right twin: {verdict.text}"
    return None
