"""Which changes can be put into one copy of a crate together."""


def groups_of(changes, exclude):
    """Puts changes into as few groups as it takes, so that none has two that exclude each other."""
    groups = []
    for change in sorted(changes, key=lambda it: -sum(exclude(it, other) for other in changes)):
        group = next((it for it in groups if not any(exclude(change, other) for other in it)), None)
        if group is None:
            group = []
            groups.append(group)
        group.append(change)
    return groups


def same_line(one, other):
    """Whether two changes replace the same line. Right twins exclude each other only then: if all together are proved,
    each is."""
    return any((a.file, a.number) == (b.file, b.number) for a in one.lines for b in other.lines)


def same_function(one, other):
    """Whether what a check says of one change could be due to another: both concern a function, or a line, or others than
    the changed functions can rest on one of them."""
    functions = {*one.functions, *one.changed} & {*other.functions, *other.changed}
    return bool(functions) or same_line(one, other) or one.is_alone or other.is_alone


def functions_of(changes):
    """The functions of which a check has to say what they come to."""
    return sorted({name for it in changes for name in it.functions})


def texts_of(group, originals):
    """The texts with all changes of a group."""
    lines = {}
    for line in (it for change in group for it in change.lines):
        lines.setdefault(line.file, originals[line.file].split("\n"))[line.number] = line.text
    return {file: "\n".join(it) for file, it in lines.items()}
