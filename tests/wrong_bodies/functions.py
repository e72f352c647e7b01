"""The functions of a source file: where they stand, the names that a check gives them, and the file without some."""

import re
from collections import namedtuple

# A function: where it begins, where its body does, where it ends, its name, and whether it is the default of a trait's
# method, on whose body other functions can rest.
Function = namedtuple("Function", "start body end name is_default")

SCAN = re.compile(
    r"""//[^\n]*|b?"(?:\\.|[^"\\])*"|b?'(?:\\[^']*|[^'\\])'|'\w+|\b(?:fn|impl|trait|mod|requires|ensures|ghost)\b|[{}()\[\];]""", re.S
)


def without_generics(text):
    """A text without what stands between angle brackets."""
    depth, kept, before = 0, [], ""
    for letter in text:
        if letter == "<":
            depth += 1
        elif letter == ">" and before != "-":
            depth -= 1
        elif depth == 0:
            kept.append(letter)
        before = letter
    return "".join(kept)


def head_name(head):
    """The name that a check gives an impl's or a trait's functions: the type's, with the trait's after it, and the names of
    the trait's arguments that are no parameters of the impl. If an argument of the type itself is no parameter, the names
    of all of its arguments stand after it, each after a plus sign."""
    text = head.split(" where ")[0].strip()
    rest = without_parameters(text)
    parts = re.split(r"\bfor\b(?!\s*<)", rest)
    names = [re.findall(r"\w+", without_generics(it))[-1:] for it in parts]
    if len(parts) > 1:
        names[0] += [it for it in re.findall(r"(\w+)\s*[,>]", parts[0]) if len(it) > 1]
        return "".join(it for name in reversed(names) for it in name)
    parameters = re.findall(r"[<,]\s*(?:const\s+)?(\w+)", text[:len(text) - len(rest)])
    arguments = re.findall(r"(?<!')\b\w+", rest.partition("<")[2])
    if set(arguments) <= set(parameters):
        arguments = []
    return "+".join([*names[0], *arguments])


def without_parameters(text):
    """The head of an impl without its own parameters, which stand first between angle brackets."""
    depth = 0
    for place, letter in enumerate(text if text.startswith("<") else ""):
        depth += {"<": 1, ">": -1}.get(letter, 0)
        if depth == 0:
            return text[place + 1:]
    return text


def module_of(path):
    """The names of the modules that a source file is."""
    return [it for it in path[len("src/"):-len(".rt")].split("/") if it not in ("mod", "lib", "main")]


def types_in(path, text):
    """The types of a source file, each with its path in the crate."""
    names = re.findall(r"^ *(?:pub(?:\([a-z ]+\))? )?(?:struct|enum) (\w+)", text, re.M)
    return {name: "::".join([*module_of(path), name]) for name in names}


def functions_in(path, text, types):
    """The functions of a source file. `types` has the paths of the crate's types."""
    module = module_of(path)
    # `opened` has what stands before each brace that is open, `head` what stands before the next one.
    found, opened, head, in_clause, depth = [], [], None, False, 0
    for it in SCAN.finditer(text):
        word = it.group()
        if word in ("(", "["):
            depth += 1
        elif word in (")", "]"):
            depth -= 1
        elif word in ("impl", "trait", "mod", "fn") and head is None:
            name = re.match(r"\s*(\w+)", text[it.end():])
            if name or word == "impl":
                head, in_clause = (word, it.start(), it.end(), name and name.group(1), len(opened)), False
        elif word in ("requires", "ensures", "ghost"):
            in_clause = True
        elif word == "{":
            # The braces of a clause, and those within them, are before a function's body.
            if head is None or in_clause or len(opened) > head[4]:
                opened.append(None)
            else:
                name = head[3] if head[0] in ("fn", "mod") else head_name(text[head[2]:it.start()])
                if head[0] == "impl":
                    own, plus, arguments = name.partition("+")
                    name = types.get(own, own) + plus + arguments
                opened.append((head[0], head[1], it.end(), name))
                head = None
            in_clause = False
        elif word == "}" and opened:
            kind, start, body, name = opened.pop() or (None, 0, 0, "")
            if kind == "fn":
                inside = [entry[3] for entry in opened if entry and entry[0] != "fn"]
                # A type's own functions are named by where the type is, wherever they stand.
                inside = inside if inside and "::" in inside[0] else [*module, *inside]
                is_default = any(entry and entry[0] == "trait" for entry in opened)
                found.append(Function(start, body, it.end(), "::".join([*inside, name]), is_default))
        elif word == ";" and depth == 0 and (head is None or len(opened) == head[4]):
            head, in_clause = None, False
    return found


def with_tests_alone(path, text, wanted):
    """The text of a source file without its tests, but for those of the wanted names."""
    for it in sorted(functions_in(path, text, {}), reverse=True):
        before = re.search(r"((?:^[ \t]*(?:///|#\[)[^\n]*\n)*)[ \t]*(?:pub )?\Z", text[: it.start], re.M)
        if "#[test]" in before.group(1) and it.name not in wanted:
            text = text[: before.start()] + text[it.end:]
    return text
