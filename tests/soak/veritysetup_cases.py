"""Random runs of veritysetup: files and words."""

import texts
from layouts import SUPERBLOCK_FIELDS, SUPERBLOCK_SIZE, superblock
from reading import Folder
from texts import chance
from trees import Settings, Shape, Tree, put
from veritysetup_expected import ALGORITHMS, Area, placed

DATA, HASH = "data", "hash"
HARD_SIZES = [2**31, 2**32, 2**40, 2**62, 2**63 - 4096, 2**63 - 1024, 2**63 - 512, 2**63, 2**64 - 512]

# The fields of a superblock, and all of it.
FIELDS = [*SUPERBLOCK_FIELDS.items(), ("all", (0, SUPERBLOCK_SIZE))]


def settings(rng):
    """Settings with so few blocks that the data isn't long."""
    name, hash_type = rng.choice(ALGORITHMS), rng.randrange(2)
    data_block, hash_block = texts.block_size(rng), texts.block_size(rng)
    salt = bytes.fromhex(texts.salt(rng, 256))
    few = Settings(name, data_block, hash_block, salt, 0, hash_type)
    most = rng.choice([150_000, 150_000, 150_000, 600_000, 2_500_000]) // data_block
    return few._replace(count=texts.count(rng, Shape(few, 0).fan, max(most, 3)))


def offset(rng, unit):
    """A hash offset that is a multiple of a unit."""
    return unit * rng.choice([0, 0, 0, 1, 2, 3, 8, rng.randint(0, 40)])


def option_texts(rng, chosen, at):
    """The texts of options for settings and a hash offset, some of those that say no more than the default left out."""
    salt = texts.cased(rng, chosen.salt.hex()) or rng.choice(["", "-"])
    given = {
        "hash": (chosen.name, chosen.name != "sha256"),
        "format": (texts.number(rng, chosen.hash_type), chosen.hash_type != 1),
        "data-block-size": (texts.number(rng, chosen.data_block), chosen.data_block != 4096),
        "hash-block-size": (texts.number(rng, chosen.hash_block), chosen.hash_block != 4096),
        "salt": (salt, True),
        "hash-offset": (texts.number(rng, at), at != 0),
    }
    return {name: text for name, (text, needed) in given.items() if needed or chance(rng, 0.3)}


def make_wrong(rng, options):
    """Makes the text of one option wrong, or right in a way that no other option agrees with."""
    name = rng.choice(
        ["hash", "format", "data-block-size", "hash-block-size", "data-blocks", "salt", "hash-offset", "uuid"]
    )
    if name == "hash":
        options[name] = rng.choice(texts.NOT_NAMES)
    elif name == "salt":
        options[name] = texts.not_salt(rng, 256)
    elif name == "uuid":
        options[name] = texts.not_uuid(rng)
    elif chance(rng, 0.4):
        options[name] = texts.not_number(rng)
    elif name == "format":
        options[name] = texts.number(rng, rng.choice([2, 3, 256, 257, 2**32, 2**64 - 1]))
    elif name == "hash-offset":
        huge = rng.choice(HARD_SIZES) + 512 * rng.randint(-2, 2)
        options[name] = texts.number(rng, rng.choice([1, 100, 511, 513, 1536, huge, huge]) % 2**64)
    elif name == "data-blocks":
        options[name] = texts.number(rng, rng.choice([0, 0, 1, 2**54, 2**55 - 1, 2**63, 2**64 - 1] + HARD_SIZES))
    else:
        options[name] = texts.number(rng, rng.choice(texts.NOT_BLOCK_SIZES))


def old_hash(rng, before):
    """Lets HASH be there before, now and then."""
    if chance(rng, 0.5):
        before.files[HASH] = rng.randbytes(rng.choice([0, 1, 511, 512, 513, 5000, rng.randint(0, 40000)]))


def format_case(rng):
    """format with settings that are most often taken, into a new HASH, an old one, or into DATA's own file."""
    chosen = settings(rng)
    bare = chance(rng, 0.2)
    tail = rng.choice([0, 0, 1, rng.randrange(chosen.data_block)])
    before = Folder({DATA: texts.content(rng, chosen.count * chosen.data_block + tail)})
    at = offset(rng, chosen.hash_block if bare else SUPERBLOCK_SIZE)
    names = [DATA, HASH]
    options = {}
    if chance(rng, 0.15):
        names, at = one_file(rng, before, chosen)
    else:
        old_hash(rng, before)
    if chance(rng, 0.3):
        step = rng.choice([-1, 0, 0, 0, 1, 2, rng.randint(-5, 5), 10**6])
        options["data-blocks"] = texts.number(rng, max(0, chosen.count + step))
    options |= option_texts(rng, chosen, at)
    if chance(rng, 0.9):
        options["uuid"] = texts.uuid(rng)
    if chance(rng, 0.05):
        del options["salt"]
    return before, ["format"] + texts.words(rng, options, ["no-superblock"] if bare else [], names)


def one_file(rng, before, chosen):
    """HASH is DATA, under its own or under another name, and the hash area most often begins after the data."""
    names = [DATA, rng.choice([DATA, "./data", "other"])]
    if names[1] == "other":
        before.links["other"] = DATA
    if chance(rng, 0.2):
        names.reverse()
    covered = chosen.count * chosen.data_block
    unit = max(chosen.hash_block, 512)
    at = (-(-covered // unit) + rng.choice([0, 0, 1, 2, -1])) * unit
    return names, max(0, at)


def option_case(rng):
    """A command with one wrong text or several."""
    chosen = settings(rng)
    before = Folder({DATA: texts.content(rng, min(chosen.count * chosen.data_block, 40000))})
    old_hash(rng, before)
    options = option_texts(rng, chosen, offset(rng, 512))
    command = rng.choice(["format", "format", "format", "verify", "verify", "dump"])
    flags = ["no-superblock"] if chance(rng, 0.9 if command == "verify" else 0.3) else []
    if command == "format" and chance(rng, 0.7):
        options["uuid"] = texts.uuid(rng)
    for _ in range(rng.choice([1, 1, 1, 2, 3, 4])):
        make_wrong(rng, options)
    if command == "verify":
        options.pop("uuid", None)
        if chance(rng, 0.05):
            del options["salt"]
    if command == "dump":
        options, flags = {"hash-offset": options.get("hash-offset", "0")}, []
    beside = {"format": [DATA, HASH], "dump": [HASH], "verify": [DATA, HASH, texts.root(rng, bytes(32))]}[command]
    if chance(rng, 0.05):
        beside[rng.randrange(len(beside))] = rng.choice(["absent", "none/there", "none"])
    return before, [command] + texts.words(rng, options, flags, beside)


def image(rng):
    """A whole image: its area, data, device and root hash."""
    chosen = settings(rng)
    chosen = chosen._replace(count=max(1, chosen.count))
    bare = chance(rng, 0.25)
    uuid = None if bare else rng.randbytes(16)
    at = offset(rng, chosen.hash_block if bare else SUPERBLOCK_SIZE)
    area = placed(chosen, at, uuid)
    data = texts.content(rng, chosen.count * chosen.data_block)
    tree = Tree(chosen, area.base, data)
    device = tree.on(rng.randbytes(rng.choice([0, 0, at])))
    if not bare:
        put(device, at, superblock(chosen, uuid))
    return area, bytearray(data), device, tree.root


def flip(rng, content, first=0, last=None):
    """Turns bits in one byte from a first place up to a last one."""
    last = len(content) if last is None else min(last, len(content))
    if first < last:
        content[rng.randrange(first, last)] ^= rng.choice([1 << rng.randrange(8), rng.randint(1, 255)])


def cut(rng, content, unit):
    """Cuts bytes from the end: a few, whole blocks, or any number."""
    less = rng.choice([1, rng.randint(0, 600), unit, unit * rng.randint(0, 5), rng.randint(0, len(content))])
    del content[max(0, len(content) - less) :]


def change(rng, area, data, device):
    """One change to the data or the device."""
    chosen = area.settings
    at = area.base * chosen.hash_block
    kind = rng.randrange(10)
    if kind < 3:
        flip(rng, data)
    elif kind < 6:
        flip(rng, device, at)
    elif kind == 6:
        flip(rng, device, area.offset, area.offset + SUPERBLOCK_FIELDS["last_pad"][0])
    elif kind == 7:
        cut(rng, device, chosen.hash_block)
    elif kind == 8:
        cut(rng, data, chosen.data_block)
    else:
        rng.choice([data, device]).extend(rng.randbytes(rng.choice([1, 511, 4096])))


def verify_case(rng):
    """verify of an image with some changes, by a superblock or by options."""
    area, data, device, root = image(rng)
    chosen = area.settings
    for _ in range(rng.choice([0, 1, 1, 1, 1, 2, 2, 3, 5])):
        change(rng, area, data, device)
    bare = area.uuid is None
    options = option_texts(rng, chosen, area.offset)
    if not bare:
        options = {name: text for name, text in options.items() if name == "hash-offset" or chance(rng, 0.2)}
    if chance(rng, 0.5 if bare else 0.05):
        options["data-blocks"] = texts.number(rng, max(0, chosen.count + rng.choice([0, 0, 0, 1, -1, 7])))
    if chance(rng, 0.05):
        make_wrong(rng, options)
        options.pop("uuid", None)
    before = Folder({DATA: bytes(data), HASH: bytes(device)})
    beside = [DATA, HASH, texts.root(rng, root)]
    return before, ["verify"] + texts.words(rng, options, ["no-superblock"] if bare else [], beside)


def hostile(rng, text):
    """Sets one field of a superblock to something else."""
    hard = [0, 1, 2, 255, 256, 257, 768, 4095, 524288, 1048576, 2**31, 2**32 - 1, 2**54, 2**55, 2**63 - 1, 2**64 - 1]
    name, (at, size) = rng.choice(FIELDS)
    value = rng.choice([*hard, rng.getrandbits(8 * size), 1 << rng.randrange(8 * size)]) % 256**size
    field = value.to_bytes(size, "little")
    if name == "name" and chance(rng, 0.8):
        chosen = rng.choice(ALGORITHMS + texts.NOT_NAMES).encode()
        field = (chosen + bytes(chance(rng, 0.7)) + rng.randbytes(size)).ljust(size, b"\0")[:size]
    if name in ("data_block", "hash_block") and chance(rng, 0.5):
        field = texts.block_size(rng).to_bytes(size, "little")
    if name == "count" and chance(rng, 0.5):
        field = rng.randint(1, 400).to_bytes(size, "little")
    text[at : at + size] = field


def superblock_case(rng):
    """dump or verify of a device whose superblock has random fields."""
    area, data, device, root = image(rng)
    if area.uuid is None:
        area = Area(area.settings, area.base, 0, rng.randbytes(16))
        put(device, 0, superblock(area.settings, area.uuid))
    end = area.offset + SUPERBLOCK_SIZE
    text = bytearray(device[area.offset : end])
    for _ in range(rng.choice([0, 1, 1, 1, 2, 3])):
        hostile(rng, text)
    device[area.offset : end] = text
    if chance(rng, 0.1):
        cut(rng, device, SUPERBLOCK_SIZE)
    options = {"hash-offset": texts.number(rng, area.offset)} if area.offset or chance(rng, 0.1) else {}
    if chance(rng, 0.05):
        huge = rng.choice([512, 1024, *HARD_SIZES]) + rng.choice([0, 0, 512])
        options["hash-offset"] = texts.number(rng, huge % 2**64)
    before = Folder({DATA: bytes(data), HASH: bytes(device)})
    if chance(rng, 0.6):
        return before, ["dump"] + texts.words(rng, options, [], [rng.choice([HASH, "./hash"])])
    return before, ["verify"] + texts.words(rng, options, [], [DATA, HASH, texts.root(rng, root)])
