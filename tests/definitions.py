#!/usr/bin/env python3
"""What a reader has to believe of status 0: the definitions under crates/*/specs that its clauses speak of.

It begins at the clauses on status 0 of `run_format`, `run_verify` and `run_digest`, looks up each name in the imports of
the file, and goes on from definition to definition. Definitions of the toolchain's crates aren't followed.

    tests/definitions.py            the files, each with its definitions and lines, and the sums
    tests/definitions.py --names    the same with the names of the definitions
"""

import os
import re
import sys

HERE = os.path.dirname(os.path.abspath(__file__))
sys.dont_write_bytecode = True
sys.path.insert(0, f"{HERE}/wrong_bodies")

from reach import entries

TOP = f"{HERE}/../crates"
CLAUSES = [
    ("veritysetup/src/runs/format.rt", "formatted"),
    ("veritysetup/src/runs/verify.rt", "verified"),
    ("fsverity/src/runs/digest.rt", "printed"),
]
IMPORT = re.compile(r"^(?:pub )?(?:ghost )?use (Rattle\..*?);?$")
HEAD = re.compile(r"^(?:unfoldable |abbrev )?(?:pub )?(?:record |data )?([A-Za-z_][A-Za-z0-9_]*)\b")
WORD = re.compile(r"[A-Za-z_][A-Za-z0-9_]*(?:\.[A-Za-z_][A-Za-z0-9_]*)*")
KEYWORDS = {"pub", "record", "data", "where", "let", "in", "if", "then", "else", "abbrev", "unfoldable", "do"}


class File:
    """A file's imports, and its definitions: a name and the lines of each, without comments."""

    def __init__(self, path):
        self.names, self.modules, self.definitions = {}, {}, {}
        block = []
        for line in open(path, encoding="utf-8").read().split("\n") + [""]:
            found = IMPORT.match(line)
            if found:
                for path in entries(found[1]):
                    path, _, alias = path.partition(" as ")
                    module, _, name = path.rpartition(".")
                    if "{" in found[1]:
                        self.names[alias or name] = (module, name)
                    else:
                        self.modules[alias or name] = path
            elif line.strip():
                block.append(line)
            else:
                self.end(block)
                block = []

    def end(self, block):
        code = [line for line in block if not line.lstrip().startswith("--")]
        head = HEAD.match(code[0]) if code else None
        if head and head.group(1) not in KEYWORDS:
            self.definitions[head.group(1)] = code

    def look_up(self, word):
        """The module and the name that a word of this file stands for; no module for one of its own."""
        parts = word.split(".")
        if parts[0] in self.modules and len(parts) > 1:
            return self.modules[parts[0]], parts[1]
        if parts[0] in self.names:
            return self.names[parts[0]]
        return None, parts[0]


files = {}


def spec(module):
    """The file of a module of specs; none for a module of the toolchain, or for the types that code declares."""
    parts = module.split(".")
    if len(parts) < 4 or parts[2] != "specs" or parts[3] == "declared":
        return None
    path = os.path.join(TOP, parts[1], "specs", *parts[3:]) + ".antt"
    if not os.path.exists(path):
        return None
    if path not in files:
        files[path] = File(path)
    return path


def clause(text, name):
    """The clauses of public functions of this name, each up to the brace that ends it."""
    for found in re.finditer(r"ensures " + name + r" \{", text):
        if not re.findall(r"^(?:pub(?:\(crate\))? )?fn ", text[: found.start()], re.M)[-1].startswith("pub fn"):
            continue
        depth, at = 1, found.end()
        while depth:
            depth += {"{": 1, "}": -1}.get(text[at], 0)
            at += 1
        yield text[found.end() : at - 1]


def walk():
    seen = {}
    todo = []

    def meet(file, path, text):
        for word in WORD.findall(text):
            module, name = file.look_up(word)
            target = path if module is None else spec(module)
            if target and name in files[target].definitions and (target, name) not in seen:
                seen[target, name] = files[target].definitions[name]
                todo.append((target, name))

    for path, name in CLAUSES:
        path = os.path.join(TOP, path)
        text = open(path, encoding="utf-8").read()
        clauses = list(clause(text, name))
        if not clauses:
            sys.exit(f"{path}: no clause {name}")
        for each in clauses:
            meet(File(path), None, each)
    while todo:
        path, name = todo.pop()
        meet(files[path], path, "\n".join(seen[path, name]))
    return seen


def main():
    seen = walk()
    by_file = {}
    for (path, name), lines in seen.items():
        by_file.setdefault(path, []).append((name, len(lines)))
    for path in sorted(by_file):
        rows = by_file[path]
        print(f"{os.path.relpath(path, TOP)}: {len(rows)} definitions, {sum(n for _, n in rows)} lines")
        if "--names" in sys.argv:
            for name, n in rows:
                print(f"    {name} {n}")
    total = sum(len(lines) for lines in seen.values())
    print(f"{len(seen)} definitions, {total} lines, {len(by_file)} files")


main()
