"""Debian's veritysetup and fsverity beside a run of ours. They are asked as far as docs/DIFFERENCES.md lets them agree,
by plain option texts: what other texts mean is for the second reading alone."""

import re
import shutil

from fsverity_expected import chosen as chosen_way
from reading import OUTPUTS, Refused, read_line, uuid_text
from trees import Shape
from veritysetup_expected import chosen, compared, offset_of

# What superblocks are refused for by both.
REFUSED_BY_BOTH = re.compile(
    r"Superblock is too short|No verity|Superblock (version|hash type|data block size|hash block size|salt size) "
)
VALUES = re.compile(r"^(UUID|Hash type|Data blocks|Data block size|Hash block size|Hash algorithm|Salt):\s*(.*)$", re.M)


def compare(program, words, before, ours, drawn, run):
    """What differs, as a list of texts, or None if Debian's program isn't asked. `ours` is the outcome that was
    expected and found; `run` runs a program with words, on the files of the case."""
    line = read_line(program, words)
    if line is None or any(word.startswith("-") for word in line.words):
        return None

    def theirs(*words):
        return run(shutil.which(program), list(words))

    try:
        if program == "fsverity":
            return digest(line, ours, theirs)
        return {"format": format_run, "dump": dump, "verify": verify}[line.command](line, before, ours, drawn, theirs)
    except Refused:
        return None


def same(what, ours, theirs):
    """A list of one difference, or of none."""
    return [] if ours == theirs else [f"beside Debian's program, {what}: {ours!r} here, {theirs!r} there"]


def option_words(area):
    """The options for settings, in plain texts."""
    settings = area.settings
    words = [
        f"--hash={settings.name}",
        f"--format={settings.hash_type}",
        f"--data-block-size={settings.data_block}",
        f"--hash-block-size={settings.hash_block}",
        f"--data-blocks={settings.count}",
        f"--salt={settings.salt.hex() or '-'}",
        f"--hash-offset={area.offset}",
    ]
    return words + ["--no-superblock"] if area.uuid is None else words


def format_run(line, before, ours, drawn, theirs):
    """Both make the same HASH and tell the same root hash."""
    if ours.status != 0:
        return None
    area = chosen(line.options, len(before.content(line.words[0])), drawn)
    # A superblock alone is padded there, or can't be written.
    alone = area.settings.count == 1 and area.uuid is not None
    if alone and area.offset:
        return None
    uuid = [] if area.uuid is None else [f"--uuid={uuid_text(area.uuid)}"]
    found = theirs("format", *option_words(area), *uuid, *line.words)
    name = before.name(line.words[1])
    made, other = ours.files[name], found.files.get(name, b"")
    if alone and not any(other[len(made) :]):
        other = other[: len(made)]
    roots = [re.findall(rb"^Root hash:\s*(\S+)$", out, re.M) for out in (ours.out, found.out)]
    differences = same("status", 0, found.status) + same("root hash", *roots)
    return differences + ([] if made == other else ["beside Debian's program, HASH is another one"])


def values(report):
    """The values of a report, with their labels."""
    return [(label, value.strip()) for label, value in VALUES.findall(report.decode())]


def dump(line, before, ours, drawn, theirs):
    """Both tell the same values, or refuse the superblock."""
    offset = offset_of(line.options)
    if ours.status == 4 or offset >= 2**63:
        return None
    found = theirs("dump", f"--hash-offset={offset}", *line.words)
    if ours.status == 0:
        return same("status", 0, found.status) + same("values", values(ours.out), values(found.out))
    if REFUSED_BY_BOTH.match(ours.err):
        return same("a refusal", True, found.status != 0)
    return None


def verify(line, before, ours, drawn, theirs):
    """Both accept the image, or neither does; with status 2 if whole blocks differ."""
    area, data, device, _ = compared(line, before)
    if area.offset >= 2**63 or " is not UTF-8: " in ours.err:
        return None
    words = option_words(area) if area.uuid is None else [f"--hash-offset={area.offset}"]
    found = theirs("verify", *words, *line.words)
    shape = Shape(area.settings, area.base)
    is_whole = shape.settings.count * shape.settings.data_block <= len(data)
    is_whole = is_whole and shape.end * shape.settings.hash_block <= len(device)
    if is_whole and re.search(", child |, spare bytes", ours.err):
        return same("status", 2, found.status)
    return same("acceptance", ours.status == 0, found.status == 0)


def digest(line, ours, theirs):
    """Both print the same lines and write the same output files."""
    has_outputs = any(name in line.options for name in OUTPUTS)
    if ours.status == 2 or (has_outputs and ours.status != 0):
        return None
    way = chosen_way(line)
    words = [f"--hash-alg={way.name}", f"--block-size={way.block}", f"--salt={way.salt.hex()}"]
    words += [f"--{name}" for name in ("compact", "for-builtin-sig") if name in line.options]
    words += [f"--{name}={line.options[name]}" for name in OUTPUTS if name in line.options]
    found = theirs("digest", *words, "--", *line.words)
    differences = same("success", ours.status == 0, found.status == 0) + same("lines", ours.out, found.out)
    return differences + same("files", ours.files, found.files)
