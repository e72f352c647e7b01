"""What words and texts mean: a second reading of docs/DEFINITIONS.md, "Texts of options", and of the manual pages. And
what a run begins with and comes to."""

import os
import posixpath
import re
import string
from collections import namedtuple

HEX = set(string.hexdigits)

# What a run does: status, standard output, standard error, and the files that stand then, by name. `err` is USAGE if
# the command line is refused, in words that are not fixed.
Outcome = namedtuple("Outcome", "status out err files")
USAGE = object()

# The options with a value, the flags, and the least and the greatest number of words beside them, of each command.
Command = namedtuple("Command", "options flags least most")
PLACE = ["hash-offset"]
OUTPUTS = ["out-merkle-tree", "out-descriptor"]
TREE = ["hash", "format", "data-block-size", "hash-block-size", "data-blocks", "salt"]
COMMANDS = {
    "veritysetup": {
        "format": Command(TREE + PLACE + ["uuid"], ["no-superblock"], 2, 2),
        "dump": Command(PLACE, [], 1, 1),
        "verify": Command(TREE + PLACE, ["no-superblock"], 3, 3),
    },
    "fsverity": {
        "digest": Command(
            ["hash-alg", "block-size", "salt"] + OUTPUTS,
            ["compact", "for-builtin-sig"],
            1,
            float("inf"),
        ),
    },
}

# A command line that is taken: the command, its options and flags by name, and the words beside them.
Line = namedtuple("Line", "command options words")


class Refused(Exception):
    """A run ends with a status and a message."""

    def __init__(self, status, message):
        super().__init__(message)
        self.status = status
        self.message = message


class Folder:
    """The files of a folder: their bytes by name, and further names of them."""

    def __init__(self, files, links=None):
        self.files = files
        self.links = links or {}

    def name(self, path):
        """The name of the file to which a path leads, also if it isn't there yet. None if it can't be."""
        plain = posixpath.normpath(path) if path else ""
        if not plain or "/" in plain or len(os.fsencode(plain)) > 255:
            return None
        return self.links.get(plain, plain)

    def content(self, path):
        """The bytes of a file, or None if it can't be opened."""
        return self.files.get(self.name(path))


def not_utf8(words):
    """The message about the first word that isn't UTF-8, or None."""
    for number, word in enumerate(words, 1):
        raw = os.fsencode(word)
        try:
            raw.decode()
        except UnicodeDecodeError:
            shown = "".join(
                "\\\\" if byte == 0x5C else chr(byte) if 0x20 <= byte < 0x7F else f"\\x{byte:02x}" for byte in raw
            )
            return f"error: argument {number} is not UTF-8: {shown}"
    return None


def read_line(program, words):
    """The command line that words make, or None if they are refused."""
    commands = COMMANDS[program]
    if not words or words[0] not in commands:
        return None
    command = commands[words[0]]
    options, beside, left = {}, [], list(words[1:])
    while left:
        word = left.pop(0)
        if word == "--":
            beside += left
            break
        if not word.startswith("-") or word == "-":
            beside.append(word)
            continue
        name, equals, value = word[2:].partition("=")
        is_option, is_flag = name in command.options, name in command.flags
        if not word.startswith("--") or name in options or not (is_option or is_flag) or (is_flag and equals):
            return None
        if is_option and not equals:
            if not left or (left[0].startswith("-") and left[0] != "-"):
                return None
            value = left.pop(0)
        options[name] = value
    if not command.least <= len(beside) <= command.most:
        return None
    return Line(words[0], options, beside)


def number(text):
    """The number of a text, or None."""
    if not re.fullmatch("[0-9]+", text):
        return None
    value = int(text)
    return value if value < 2**64 else None


def hexadecimal(text, most):
    """The bytes of an even number of hexadecimal digits, at most so many bytes, or None."""
    if len(text) % 2 or len(text) > 2 * most or not set(text) <= HEX:
        return None
    return bytes.fromhex(text)


def is_block_size(value, least):
    """Whether a number is a power of two from the least block size to the greatest."""
    return least <= value <= 524288 and value & (value - 1) == 0


def uuid(text):
    """The 16 bytes of a UUID: with hyphens, without, in braces, or as a URN. None if the text is no UUID."""
    if len(text) == 38 and text[0] + text[-1] == "{}":
        text, plain = text[1:-1], False
    elif len(text) == 45 and text[:9].lower() == "urn:uuid:":
        text, plain = text[9:], False
    else:
        plain = len(text) == 32
    if not plain:
        parts = text.split("-")
        if [len(part) for part in parts] != [8, 4, 4, 4, 12]:
            return None
        text = "".join(parts)
    return hexadecimal(text, 16)


def uuid_text(value):
    """A UUID as it is printed."""
    digits = value.hex()
    return "-".join([digits[:8], digits[8:12], digits[12:16], digits[16:20], digits[20:]])
