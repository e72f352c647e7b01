"""What fsverity digest does with some words and files: a second reading of docs/DEFINITIONS.md and fsverity(1)."""

import hashlib
import struct
from collections import namedtuple

from layouts import FILE_ALGORITHMS
from reading import OUTPUTS, USAGE, Outcome, Refused, hexadecimal, is_block_size, not_utf8, number, read_line
from trees import FileTree

# How files are digested: function, block size and salt.
Way = namedtuple("Way", "name block salt")


def expected(words, before):
    """The outcome of a run."""
    message = not_utf8(words)
    if message:
        return Outcome(2, b"", message, before.files)
    line = read_line("fsverity", words)
    if line is None:
        return Outcome(2, b"", USAGE, before.files)
    try:
        way = chosen(line)
    except Refused as refused:
        return Outcome(refused.status, b"", refused.message, before.files)
    if any(name in line.options for name in OUTPUTS):
        return with_outputs(line, way, before)
    out = b""
    for path in line.words:
        data = before.content(path)
        if data is None:
            return Outcome(1, out, f"fsverity: cannot open {path}.", before.files)
        out += printed(line.options, FileTree(*way, data), path)
    return Outcome(0, out, "", before.files)


def chosen(line):
    """How the options have files digested."""
    options = line.options
    name = options.get("hash-alg", "sha256")
    if name not in FILE_ALGORITHMS:
        raise Refused(2, "fsverity: unknown hash algorithm.")
    block = number(options.get("block-size", "4096"))
    if block is None or not is_block_size(block, 2 * hashlib.new(name).digest_size):
        raise Refused(2, "fsverity: block size is not valid.")
    salt = hexadecimal(options.get("salt", ""), 32)
    if salt is None:
        raise Refused(2, "fsverity: salt is not valid.")
    if any(name in options for name in OUTPUTS) and len(line.words) != 1:
        raise Refused(2, "fsverity: output files need exactly one input file.")
    return Way(name, block, salt)


def printed(options, tree, path):
    """The line of a file."""
    digest, name = tree.digest, tree.settings.name
    ending = "" if "compact" in options else f" {path}"
    if "for-builtin-sig" in options:
        text = (b"FSVerity" + struct.pack("<HH", FILE_ALGORITHMS[name], len(digest)) + digest).hex()
    else:
        text = digest.hex() if "compact" in options else f"{name}:{digest.hex()}"
    return f"{text}{ending}\n".encode()


def with_outputs(line, way, before):
    """The run over one file with output files."""
    (path,) = line.words
    data = before.content(path)
    if data is None:
        return Outcome(1, b"", f"fsverity: cannot open {path}.", before.files)
    tree = FileTree(*way, data)
    given = [
        (line.options[name], text)
        for name, text in zip(OUTPUTS, [tree.stored, tree.descriptor])
        if name in line.options
    ]
    files = dict(before.files)
    # Before anything is cut, each name is held against the files that are there.
    known = [before.name(path)]
    for output, _ in given:
        if before.name(output) in known:
            return Outcome(1, b"", f"fsverity: cannot open {output}.", files)
        if before.content(output) is not None:
            known.append(before.name(output))
    made = []
    for output, _ in given:
        name = before.name(output)
        if name is None or name in made:
            return Outcome(1, b"", f"fsverity: cannot open {output}.", files)
        files[name] = b""
        made.append(name)
    for output, text in given:
        files[before.name(output)] = text
    return Outcome(0, printed(line.options, tree, path), "", files)
