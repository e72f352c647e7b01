"""Wrong bodies as they stand in crates/CRATE/wrong-bodies, and what each changes."""

import os
import re
import sys
from collections import namedtuple

from shapes import differing

# One change of a body: the file, what stands there, what the body has in its place, and what its right twin has. Each is
# a piece of one line.
Pair = namedtuple("Pair", "file old new right")

# The test that a body fails: the crate of tests, and the test's name with its modules.
Test = namedtuple("Test", "crate name")

# A line of a file that a change replaces, counted from 0, and what it puts there.
Line = namedtuple("Line", "file number text")

# What a body may change outside of functions, and words of contracts, definitions and proofs.
ITEM = re.compile(
    r"^\s*(?:pub(?:\([a-z ]+\))? )?(const|static|struct|enum|fn|impl|trait|mod|use|type|ghost|macro_rules)\b", re.M
)
CONTRACT = re.compile(r"\b(?:ghost|ensures|requires|invariant|follows|tactic)\b")


class Body:
    """A wrong body: what it changes, and what has to refuse it."""

    def __init__(self, crate, name, source):
        self.crate, self.name, self.source = crate, name, source
        # The functions that have to refuse it, if it names them; the test that has to fail, and the type that keeps it
        # from being compiled, if that is so.
        self.pairs, self.refusers, self.test, self.type_name = [], [], None, None

    def label(self):
        return f"{self.crate} {self.name}"

    def has_twin(self):
        return any(it.right is not None for it in self.pairs)

    def texts(self, originals, is_twin):
        """The texts of the files that it or its twin changes, and why it doesn't fit them."""
        texts = {}
        for file, old, new, right in self.pairs:
            if file not in originals:
                return None, f"there is no file {file}"
            text = texts.get(file, originals[file])
            if text.count(old) != 1:
                return None, f"{old!r} stands in {file} {text.count(old)} times, and not once"
            texts[file] = text.replace(old, right if is_twin and right is not None else new)
        texts = {file: text for file, text in texts.items() if text != originals[file]}
        return (texts, None) if texts else (None, "it changes nothing")

    def said(self):
        """All that the body says, for a checksum."""
        return [self.label(), self.pairs, self.refusers, self.test, self.type_name]


class Change:
    """A body, or its right twin, put into the texts of a crate. A body that a test has to catch is put in a second time,
    for the prover, which has to prove it."""

    def __init__(self, body, role="body", texts=None):
        self.body, self.role, self.texts = body, role, texts or {}
        # The functions that it changes, and those of which a check has to say what they come to.
        self.changed, self.functions, self.lines = [], [], []
        # Whether other functions than the changed ones can rest on it; and what it changes that no body may.
        self.is_alone, self.beyond = False, None

    def label(self):
        return self.body.label() + {"body": "", "twin": ", right twin", "proof": ", by the prover"}[self.role]

    def has_to_prove(self):
        return self.role != "body"

    def place(self, crate):
        """Finds the lines that it replaces, and the functions that they lie in."""
        for file, text in self.texts.items():
            start = 0
            for number, (old, new) in enumerate(zip(crate.texts[file].split("\n"), text.split("\n"))):
                if old != new:
                    self.lines.append(Line(file, number, new))
                    self.place_line(crate, file, start, old, new)
                start += len(old) + 1
        self.functions = list(self.changed)
        if self.body.refusers:
            more = [it for it in self.changed if self.has_to_prove() and it not in self.body.refusers]
            self.functions = self.body.refusers + more

    def place_line(self, crate, file, start, old, new):
        """Finds the functions that a line is changed in, by what differs in it."""
        same = len(os.path.commonprefix([old, new]))
        same_at_end = len(os.path.commonprefix([old[same:][::-1], new[same:][::-1]]))
        first, last = start + same, start + len(old) - same_at_end
        touched = [it for it in crate.functions[file] if it.start < max(last, first + 1) and first < it.end]
        self.changed += [it.name for it in touched if it.name not in self.changed]
        is_inside = any(it.start <= first and last <= it.end for it in touched)
        if not is_inside or any(it.is_default for it in touched):
            self.is_alone = True
        head = next((it.name for it in touched if first < it.body), None)
        if head:
            self.beyond = f"it changes more of {head} than its body"
        elif not is_inside and not is_of_a_value(crate.texts[file][:start] + old, new):
            self.beyond = f"it changes what is neither in a function nor a constant or a type: {old.strip()}"


def is_of_a_value(text, new):
    """Whether the last line of a text is of a constant or a type, before and after it is replaced."""
    items = ITEM.findall(text)
    lines = text.split("\n")[-1] + new
    return bool(items) and items[-1] in ("const", "static", "struct", "enum") and not CONTRACT.search(lines)


def bodies_of(top, crate):
    """The bodies of a crate, in the order of their files. What is none of theirs ends the program."""
    found = []
    if os.path.isdir(f"{top}/crates/{crate}/must-fail"):
        sys.exit(f"crates/{crate}/must-fail: wrong bodies stand in wrong-bodies/, and are tried by nothing else")
    for at, folders, names in os.walk(f"{top}/crates/{crate}/wrong-bodies"):
        folders.sort()
        for name in sorted(names):
            path = f"{at}/{name}"
            if not name.endswith(".edit"):
                sys.exit(f"{os.path.relpath(path, top)}: a file of wrong bodies has a name that ends in .edit")
            found += read(path, top, crate)
    return found


def read(path, top, crate):
    """The bodies of a file."""
    found, file, old = [], None, None
    with open(path, encoding="utf-8") as text:
        lines = text.read().split("\n")
    for number, line in enumerate(lines, 1):
        source = f"{os.path.relpath(path, top)}:{number}"
        body = found[-1] if found else None
        key, _, text = line.partition(" ")
        if key == "new:" and body and file and old is not None:
            body.pairs.append(Pair(file, old, text, None))
            old = None
        elif old is not None or not is_read(line, body):
            if old is not None or line.strip():
                sys.exit(f"{source}: this line is none of a wrong body's: {line}")
        elif key == "file:":
            file = text.strip()
        elif key == "old:":
            old = text
        elif re.fullmatch(r"# \w+", line):
            found.append(Body(crate, line[2:], source))
    return found


def is_read(line, body):
    """Whether a line is one of a wrong body's. What it says after `# KEY: ` is taken."""
    if line.startswith(("file: ", "old: ")) or re.fullmatch(r"# \w+", line):
        return True
    return line.startswith("# ") and body is not None and takes(body, *line[2:].split(": ", 1))


def takes(body, key, text=""):
    """Takes what a line `# KEY: TEXT` says of a body, and answers whether it says something that wasn't said before."""
    words = text.split()
    if key in ("right", "right:") and body.pairs and body.pairs[-1].right is None:
        body.pairs[-1] = body.pairs[-1]._replace(right=text)
    elif key == "in" and len(words) == 1:
        body.refusers.append(words[0])
    elif key == "test" and len(words) == 2 and body.test is None:
        body.test = Test(*words)
    elif key == "type" and len(words) == 1 and body.type_name is None:
        body.type_name = words[0]
    else:
        return False
    return True


def changes_of(crate, body):
    """The changes that a body makes: its own, and its right twin's, or for a test a second one for the prover. If
    something is wrong with it, none, with what that is."""
    why, changes = differing(body), []
    for role in ("body", *(["twin"] if body.has_twin() else []), *(["proof"] if body.test else [])):
        texts, unfit = body.texts(crate.texts, role == "twin")
        change = Change(body, role, texts)
        if not unfit:
            change.place(crate)
            unfit = fault_of_place(change, crate.names)
        why = why or (unfit and f"it doesn't fit: {unfit}")
        changes.append(change)
    return ([], f"{body.source}: {why}") if why else (changes, None)


def fault_of_place(change, names):
    """What is wrong with the place that a change is put in; nothing if that is right. `names` has those of the crate's
    functions."""
    body = change.body
    unknown = next((it for it in body.refusers if it not in names), None)
    if unknown:
        return f"there is no function {unknown}"
    if change.beyond:
        return change.beyond
    if body.test and body.type_name:
        return "it is said not to compile, and to fail a test"
    if not change.functions:
        return "it changes no function, and names none that has to refuse it"
    if len(change.changed) > 1 and not body.refusers and not body.test:
        return f"it changes {', '.join(change.changed)}, and doesn't say which has to refuse it"
    return None
