"""What veritysetup does with some words and files: a second reading of docs/DEFINITIONS.md and veritysetup(8)."""

import re
from collections import namedtuple

from layouts import SIGNATURE, SUPERBLOCK_SIZE, read_superblock, superblock
from reading import USAGE, Outcome, Refused, hexadecimal, is_block_size, not_utf8, number, read_line, uuid, uuid_text
from trees import MOST_BYTES, Settings, Shape, Tree, base_of, put, settings_in, verdict

ALGORITHMS = ["sha256", "sha512", "sha384", "sha224", "sha1"]

# What is drawn if no salt or no UUID is given.
Drawn = namedtuple("Drawn", "salt uuid")

# The hash area: settings, the hash block at which the tree begins, and the superblock's place and UUID; `uuid` is None
# without a superblock.
Area = namedtuple("Area", "settings base offset uuid")


def drawn_by(report):
    """The salt and the UUID that a report tells, with the bits that every drawn UUID has."""
    text = report.decode(errors="replace")
    salt = re.search(r"^Salt: +\t([0-9a-f]{64})$", text, re.MULTILINE)
    name = re.search(r"^UUID: +\t([0-9a-f-]{36})$", text, re.MULTILINE)
    drawn = bytearray((name and uuid(name[1])) or bytes(16))
    drawn[6] = drawn[6] & 0x0F | 0x40
    drawn[8] = drawn[8] & 0x3F | 0x80
    return Drawn(bytes.fromhex(salt[1]) if salt else bytes(32), bytes(drawn))


def expected(words, before, drawn):
    """The outcome of a run."""
    message = not_utf8(words)
    if message:
        return Outcome(1, b"", message, before.files)
    line = read_line("veritysetup", words)
    if line is None:
        return Outcome(1, b"", USAGE, before.files)
    try:
        if line.command == "format":
            return format_run(line, before, drawn)
        if line.command == "dump":
            return dump_run(line, before)
        return verify_run(line, before)
    except Refused as refused:
        return Outcome(refused.status, b"", refused.message, before.files)


def opened(before, path):
    content = before.content(path)
    if content is None:
        raise Refused(4, f"Cannot open {path}.")
    return content


def numbers(options):
    """The numbers of the options, in the order in which they are looked at."""
    defaults = {
        "format": 1,
        "data-block-size": 4096,
        "hash-block-size": 4096,
        "data-blocks": None,
        "hash-offset": 0,
    }
    for name in defaults:
        if name in options:
            defaults[name] = number(options[name])
            if defaults[name] is None:
                raise Refused(1, f"Option --{name} is not a number.")
    return defaults.values()


def chosen_salt(options, drawn):
    text = options.get("salt")
    if text is None:
        return drawn and drawn.salt
    return b"" if text == "-" else hexadecimal(text, 256)


def chosen_uuid(options, drawn):
    if "uuid" in options:
        return uuid(options["uuid"])
    return drawn.uuid if drawn else bytes(16)


def chosen(options, length, drawn):
    """The hash area that options choose for data of this length."""
    hash_type, data_block, hash_block, count, offset = numbers(options)
    name = options.get("hash", "sha256")
    bare = "no-superblock" in options
    salt, uuid = chosen_salt(options, drawn), chosen_uuid(options, drawn)
    for wrong, message in [
        (name not in ALGORITHMS, "Unknown hash algorithm."),
        (hash_type > 1, "Hash type must be 0 or 1."),
        (not is_block_size(data_block, 512), "Option --data-block-size is not a valid block size."),
        (not is_block_size(hash_block, 512), "Option --hash-block-size is not a valid block size."),
        (salt is None, "Salt is not valid."),
        (uuid is None, "UUID is not valid."),
    ]:
        if wrong:
            raise Refused(1, message)
    if offset % (hash_block if bare else SUPERBLOCK_SIZE):
        raise Refused(1, "Hash offset is not valid.")
    if count is None:
        count = length // data_block
    return placed(Settings(name, data_block, hash_block, salt, count, hash_type), offset, None if bare else uuid)


def placed(settings, offset, uuid):
    """The hash area of settings at an offset."""
    first = offset if uuid is None else offset + SUPERBLOCK_SIZE
    base = base_of(settings.hash_block, offset, uuid is None)
    if settings.count == 0:
        raise Refused(1, "No data blocks.")
    if first > MOST_BYTES or Shape(settings, base).is_too_large():
        raise Refused(1, "Data or hash area is too large.")
    return Area(settings, base, offset, uuid)


def format_run(line, before, drawn):
    data_path, hash_path = line.words
    data = opened(before, data_path)
    area = chosen(line.options, len(data), drawn)
    settings, name = area.settings, before.name(hash_path)
    covered = settings.count * settings.data_block
    if name == before.name(data_path) and area.offset < covered:
        raise Refused(1, "Data area and hash area overlap.")
    if covered > len(data):
        raise Refused(4, f"Data ends before the end of block {len(data) // settings.data_block}.")
    if name is None:
        raise Refused(4, f"Cannot open {hash_path}.")
    tree = Tree(settings, area.base, data)
    device = tree.on(before.files.get(name, b""))
    if area.uuid is not None:
        put(device, area.offset, superblock(settings, area.uuid))
    return Outcome(0, report(hash_path, area, tree.root), "", before.files | {name: bytes(device)})


def report(path, area, root=None):
    """The report of format, and of dump, which has no root hash."""
    settings = area.settings
    values = [
        ("UUID:", "-" if area.uuid is None else uuid_text(area.uuid)),
        ("Hash type:", settings.hash_type),
        ("Data blocks:", settings.count),
        ("Data block size:", settings.data_block),
        ("Hash block size:", settings.hash_block),
        ("Hash algorithm:", settings.name),
        ("Salt:", settings.salt.hex() or "-"),
    ]
    if root is not None:
        values.append(("Root hash:", root.hex()))
    lines = [f"VERITY header information for {path}"] + [f"{label:17}\t{value}" for label, value in values]
    return "".join(line + "\n" for line in lines).encode()


def offset_of(options):
    """Where the superblock stands that is read."""
    offset = number(options.get("hash-offset", "0"))
    if offset is None:
        raise Refused(1, "Option --hash-offset is not a number.")
    if offset % SUPERBLOCK_SIZE:
        raise Refused(1, "Hash offset is not valid.")
    return offset


def described(device, offset):
    """Settings and UUID that the superblock at an offset describes."""
    text = device[offset : offset + SUPERBLOCK_SIZE]
    if len(text) < SUPERBLOCK_SIZE:
        raise Refused(1, "Superblock is too short.")
    fields = read_superblock(text)
    if fields.signature != SIGNATURE:
        raise Refused(1, "No verity superblock.")
    for wrong, message in [
        (fields.version != 1, f"Superblock version {fields.version} is not supported."),
        (fields.hash_type > 1, f"Superblock hash type {fields.hash_type} is not supported."),
        (not is_block_size(fields.data_block, 512), f"Superblock data block size {fields.data_block} is not valid."),
        (not is_block_size(fields.hash_block, 512), f"Superblock hash block size {fields.hash_block} is not valid."),
        (fields.name not in ALGORITHMS, "Superblock hash algorithm is not supported."),
        (fields.salt_size > 256, f"Superblock salt size {fields.salt_size} is not valid."),
        (fields.count == 0, "No data blocks."),
        (fields.count * fields.data_block > MOST_BYTES, "Data or hash area is too large."),
    ]:
        if wrong:
            raise Refused(1, message)
    return settings_in(fields), fields.uuid


def dump_run(line, before):
    (path,) = line.words
    offset = offset_of(line.options)
    settings, uuid = described(opened(before, path), offset)
    return Outcome(0, report(path, Area(settings, None, offset, uuid)), "", before.files)


def compared(line, before):
    """The hash area that verify goes by, the data, the device, and the root hash."""
    data_path, hash_path, root_text = line.words
    if "no-superblock" in line.options:
        data = opened(before, data_path)
        area = chosen(line.options, len(data), None)
        root = root_of(area.settings, root_text)
        return area, data, opened(before, hash_path), root
    offset = offset_of(line.options)
    data, device = opened(before, data_path), opened(before, hash_path)
    area = placed(described(device, offset)[0], offset, b"")
    return area, data, device, root_of(area.settings, root_text)


def root_of(settings, text):
    root = hexadecimal(text, 64)
    if root is None or len(root) != Shape(settings, 0).length:
        raise Refused(1, "Root hash is not valid.")
    return root


def verify_run(line, before):
    area, data, device, root = compared(line, before)
    status, message = verdict(Tree(area.settings, area.base, data), device, root)
    return Outcome(status, b"", message if status else "", before.files)
