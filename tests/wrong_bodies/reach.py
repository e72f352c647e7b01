"""What a verdict rests on: of all texts of the repository those that a check of some functions reads, or a run of a test.

A check reads these functions with their proofs. Of what they name it reads what is stated: heads, contracts, types,
constants, definitions and files of lemmas, and whatever these name. It reads no other function's body or proof. A test
runs bodies, and reads neither contracts nor proofs. What a name stands for is not worked out: all that has it counts.
So more may be found than is read, but nothing less.
"""

import glob
import os
import re
from collections import defaultdict

from crates import Crate, text_of
from shapes import TOKEN

# What hides the words in it: comments, texts and letters.
HIDING = re.compile(r"""//[^\n]*|b?"(?:\\.|[^"\\])*"|b?'(?:\\[^']*|[^'\\])'""", re.S)
CYCLE = re.compile(r"#\[cycle\((\w+)\)\]")
# The word that says what an item is, behind its attributes, and its name.
KIND = re.compile(
    r"(?:\s*#\[[^\n]*\]\n)*\s*(?:pub(?:\([a-z ]+\))? )?(?:unsafe )?(?:extern _+ )?"
    r"(ghost use|use|mod|const fn|const|static|struct|enum|type|trait|impl|fn|ghost)\b\s*(\w*)"
)
CLAUSE = re.compile(r"\b(?:requires|ensures)\b[^{}]*\{|\bghost\b(?! use)[^{};]*\{")
ANTT = re.compile(r"\bRattle\.(\w+)\.(specs|proofs)((?:\.[\w+]+)+)")
# The same in an attribute.
PATH = re.compile(r"\b(\w+)::(specs|proofs)((?:::\w+)+)")


class Item:
    """A function, with the head of the `impl` that it is in, or a type, a constant, a trait or an `impl`: what it states,
    and its body. The code of both is tokens, without clauses and comments."""

    def __init__(self, file, label, stated, body):
        self.file, self.label, self.stated = file, label, without_comments(stated)
        self.clauses, head = clauses_of(self.stated)
        self.head, self.body = TOKEN.findall(head), TOKEN.findall(without_comments(body))


class File:
    """A source file: what it imports, for code and for contracts."""

    def __init__(self, crate, path):
        self.crate, self.path, self.used, self.ghosts = crate, path, [], []


class Reach:
    """The items of all crates of the repository, and the files of their definitions and proofs, by their names."""

    def __init__(self, crates):
        self.below = {name: {name, *crates.below(name)} for name in crates.listed}
        # Files by their paths, functions by their names in a check, the attributes of each crate's root, and its sources.
        self.files, self.functions, self.attributes, self.sources = {}, defaultdict(list), {}, {}
        # Items by the names that stand alone, and functions of types and traits by theirs.
        self.free, self.methods = defaultdict(list), defaultdict(list)
        of_names = {name: Crate(crates, name) for name in crates.listed}
        self.types = {it for crate in of_names.values() for it in crate.types}
        for name, crate in of_names.items():
            for path, text in sorted(crate.texts.items()):
                self.sources[name, path] = File(name, path)
                self.take(self.sources[name, path], text, sorted(crate.functions[path]))
            self.attributes[name] = re.findall(r"^#!\[.*", crate.texts[crate.root], re.M)
            for path in glob.glob(f"{crate.folder}/*/**/*.antt", recursive=True):
                self.files[f"{name}/{os.path.relpath(path, crate.folder)}"] = antt_of(path)

    def take(self, file, text, functions):
        """Takes the items of a source file."""
        hidden = HIDING.sub(lambda it: "_" * len(it[0]), text)
        for start, end in pieces(hidden, 0, len(text), 0):
            found = KIND.match(hidden, start)
            kind, name = found.groups() if found else ("", "")
            if kind in ("use", "ghost use"):
                imports = entries(text[found.end(1):end])
                (file.used if kind == "use" else file.ghosts).extend(imports)
                # What is passed on, or has another name here, is found by its name.
                for it in imports if kind == "use" else ():
                    if " as " in it or "pub" in hidden[start:found.start(1)]:
                        self.add(file, self.free, [re.split(r"::| as ", it)[-1]], it, "")
            elif kind in ("impl", "trait"):
                self.take_members(file, text, hidden, functions, (start, end), kind, name)
            elif kind != "mod":
                self.take_piece(file, text, functions, (start, end), "", self.free, [name])

    def take_members(self, file, text, hidden, functions, span, kind, name):
        """Takes an `impl` or a trait: what isn't a function, and what is of a trait, goes with the type or the trait too."""
        start, end = span
        opened = hidden.index("{", start) + 1
        head = text[start:opened]
        if kind == "impl":
            words = re.findall(r"\w+", re.sub(r"<(?:[^<>]|<[^<>]*>)*>", "", hidden[start:opened].split(" where ")[0]))
            # What is implemented for a type of another crate goes with the trait.
            name = words[-1] if words[-1] in self.types or "for" not in words else words[words.index("for") - 1]
        of_trait = kind == "trait" or re.search(r"\bfor\b", hidden[start:opened]) is not None
        parts = list(pieces(hidden, opened, end, 4))
        outside = text[opened : parts[0][0] if parts else end]
        self.add(file, self.free, [name], head + outside, "")
        for part in parts:
            found = KIND.match(hidden, part[0])
            method = found[2] if found and found[1].endswith("fn") else None
            item = self.take_piece(file, text, functions, part, head, self.methods, [method] if method else [], kind == "trait")
            if of_trait or not method:
                self.free[name].append(item)

    def take_piece(self, file, text, functions, span, head, names, own, whole=False):
        """Takes a piece: its head with the contract, and apart from them its body, unless others can rest on that."""
        start, end = span
        function = next((it for it in functions if start <= it.start < end), None)
        at = function.body if function and not whole else end
        item = self.add(file, names, own, head + text[start:at], text[at:end])
        if function:
            item.label = f"{file.crate}::{function.name}"
            self.functions[item.label].append(item)
        return item

    def add(self, file, names, own, head, body):
        item = Item(file, f"{file.crate}/{file.path} {' '.join(own)}", head, body)
        for it in own:
            names[it].append(item)
        return item

    def put_in(self, crate, lines):
        """The lines that a change puts into a crate, as items."""
        return [Item(self.sources[crate, it.file], f"{crate}/{it.file} anew", "", it.text) for it in lines]

    def of_check(self, crate, functions, lines):
        """What a check of these functions of a crate rests on, and these lines that a change puts in."""
        starts = [item for it in functions for item in self.functions[f"{crate}::{it}"]]
        # Those in one cycle have one proof.
        cycles = {name for it in starts for name in CYCLE.findall(it.stated)}
        starts += [it for items in self.functions.values() for it in items if cycles & {*CYCLE.findall(it.stated)}]
        folders = [it.label.replace("::", "/").replace("/", "/proofs/", 1) + "/" for it in starts]
        folders += [f"{crate}/proofs/+{it}/" for it in cycles]
        proofs = [it for it in self.files if any(it.startswith(folder) for folder in folders)]
        starts += self.put_in(crate, lines)
        proofs += self.named_in_antt(spelled(" ".join(self.attributes[crate]), crate), crate)
        return [self.attributes[crate], self.closure([*starts, *proofs], set(starts), self.of_statement)]

    def of_run(self, crate, functions, lines):
        """What a run of these functions rests on, with lines that a change puts into a crate."""
        starts = [item for it in functions for item in self.functions[it]]
        return self.closure(starts + self.put_in(crate, lines), set(), self.of_code)

    def closure(self, todo, whole, of):
        """The texts of all that is reached, each with a label. `of` says what of an item counts, and what it reaches."""
        texts, seen = [], set(todo)
        while todo:
            it = todo.pop()
            if isinstance(it, Item):
                text, reached = of(it, it in whole)
            else:
                text, reached = [it, self.files[it]], self.named_in_antt(self.files[it], it)
            texts.append(text)
            new = set(reached) - seen
            seen |= new
            todo += new
        return sorted(texts)

    def of_statement(self, item, is_whole):
        code = item.head + (item.body if is_whole else [])
        used, ghosts = relevant(item.file.used, code, ""), relevant(item.file.ghosts, (), item.clauses)
        reached = self.named_in_antt(spelled(f"{item.stated} {' '.join(ghosts)}", item.file.crate), item.label)
        return [item.label, " ".join(code), item.clauses, used, ghosts], reached + self.named_in_code(code, item.file.crate)

    def of_code(self, item, _):
        code = item.head + item.body
        return [item.label, " ".join(code), relevant(item.file.used, code, "")], self.named_in_code(code, item.file.crate)

    def named_in_code(self, code, crate):
        """The items that code names. A field is none; a name behind a type's own is one of its functions."""
        found = []
        for place, name in enumerate(it.rstrip("!") for it in code):
            before, after = code[place - 1] if place else "", code[place + 1] if place + 1 < len(code) else ""
            if before == "::":
                owner, methods = code[place - 2], self.methods.get(name, [])
                mine = [it for it in methods if owner in it.label.split("::")] if owner in self.free else []
                found += mine or methods
            if before == "." and after in ("(", "::"):
                found += self.methods.get(name, [])
            elif before != ".":
                found += self.free.get(name, [])
        return [it for it in found if it.file.crate in self.below[crate]]

    def named_in_antt(self, text, place):
        """The files, functions and types that definitions, proofs and contracts name, by their modules."""
        found = []
        for crate, part, path in set(ANTT.findall(text)):
            if crate in self.below:
                found += self.of_module(crate, part, path[1:].split("."), place)
        return found

    def of_module(self, crate, part, words, place):
        for count in range(len(words), 0, -1):
            path = f"{crate}/{part}/{'/'.join(words[:count])}.antt"
            function = "::".join([crate, *words[words[0] == "contracts" : count]])
            if path in self.files:
                return [path]
            if function in self.functions:
                return self.functions[function]
        types = [it for word in words if word[0].isupper() for it in self.free.get(word, ()) if it.file.crate == crate]
        if not types:
            raise SystemExit(f"{place}: it isn't known what {crate}.{part}.{'.'.join(words)} is")
        return types


def pieces(hidden, start, end, indent):
    """The pieces of a text that begin at lines with an indent, each behind its attributes."""
    starts = [it.start() for it in re.compile(rf"^ {{{indent}}}(?=(?!where\b)[a-z]|#\[)", re.M).finditer(hidden, start, end)]
    starts = [it for before, it in zip([None, *starts], starts) if before is None or hidden[before + indent] != "#"]
    return zip(starts, [*starts[1:], end])


def spelled(text, crate):
    """A text of a crate in which the paths of attributes are spelled as the names that they stand for."""
    named = re.findall(r"\b(?:using|unfolding)\(([^)]*)\)", " ".join(re.findall(r"#!?\[tactic\(.*\)\]", text)))
    for it in ", ".join(named).split(", ") if named else ():
        if not PATH.fullmatch(it):
            raise SystemExit(f"{crate}: an attribute names {it}, which is no path to a file of definitions or proofs")
    return PATH.sub(lambda it: f"Rattle.{crate if it[1] == 'crate' else it[1]}.{it[2]}{it[3].replace('::', '.')}", text)


def without_comments(text):
    return HIDING.sub(lambda it: "" if it[0].startswith("//") else it[0], text)


def clauses_of(head):
    """The clauses of a head, and the head without them."""
    clauses, rest, at = [], [], 0
    for found in CLAUSE.finditer(head):
        if found.start() >= at:
            depth, end = 1, found.end()
            while depth and end < len(head):
                depth += {"{": 1, "}": -1}.get(head[end], 0)
                end += 1
            clauses.append(head[found.start():end])
            rest.append(head[at:found.start()])
            at = end
    return " ".join(clauses), "".join(rest) + head[at:]


def entries(text):
    """The single imports of a `use`: `a::{b, c::d}` is `a::b` and `a::c::d`."""
    text = re.sub(r"\s+", " ", text.strip(" ;\n"))
    head, brace, rest = text.partition("{")
    if not brace:
        return [text]
    found, depth, piece = [], 0, ""
    for letter in rest[: rest.rindex("}")] + ",":
        depth += {"{": 1, "}": -1}.get(letter, 0)
        if letter == "," and depth == 0:
            found += entries(head + piece.strip()) if piece.strip() else []
            piece = ""
        else:
            piece += letter
    return found


def relevant(imports, tokens, text):
    """Those imports whose name is among tokens or in a text: of an operator each of its parts."""
    words, found = {*tokens, *re.findall(r"\w+", text)}, []
    for it in imports:
        name = re.split(r"::|\.(?=[^.]*$)| as ", it)[-1]
        parts = [part for part in re.split("◌", name) if part]
        if name == "*" or all(part in words or not part.isidentifier() and part in text for part in parts):
            found.append(it)
    return found


def antt_of(path):
    """A file of definitions or proofs, without the lines that are comments."""
    return re.sub(r"^[ \t]*--.*\n?", "", text_of(path), flags=re.M)
