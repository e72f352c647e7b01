"""Random command lines of both programs, with files to run them on: words that most often are right but for one or two
changes, and names that lead to files in many ways. All of it follows from the generator given."""

import posixpath
import random
from collections import namedtuple

from layouts import SUPERBLOCK_FIELDS, SUPERBLOCK_SIZE, superblock
from reading import OUTPUTS
from texts import chance
from trees import Settings, Tree, put
from veritysetup_expected import ALGORITHMS

DATA, HASH = "data", "hash"
UUID = "00112233-4455-4677-8899-aabbccddeeff"

# A part of a line: the command, an option with its text or a flag, a word beside them, or the `--` that ends options.
# An option's text stands after = if it is joined, and else as the next word.
Part = namedtuple("Part", "kind name text joined", defaults=[None, True])

OTHER_SPELLINGS = ["SHA256", "sha-256", "SHA-1", "sha2-512", "2.16.840.1.101.3.4.2.1"]
OTHER_NAMES = OTHER_SPELLINGS + ["md5", "sha3-256", "sha512-256", "ripemd160"]
NOT_NAMES = ["", " sha256", "sha256 ", "sha_256", "sha512/256", "crc32", "-"]
SALTS = ["ab", "AbCd", "-", "", "00" * 32, "ff" * 256]
NOT_SALTS = ["a", "0xab", "ab ", " ab", "--", "ab-cd", "zz", "ff" * 257]
UUIDS = [UUID, UUID, UUID.upper(), UUID.replace("-", ""), "{" + UUID + "}", "urn:uuid:" + UUID]
NOT_UUIDS = ["", "x", " " + UUID, UUID + " ", UUID[:-1], "{" + UUID, "random"]
SIZES = [512, 512, 1024, 4096, 4096, 8192]
NOT_SIZES = [0, 1, 256, 511, 768, 1048576, 2**32, 2**32 + 4096, 2**63]
# What Debian's programs have beside; `=` stands where a text is wanted.
THEIR_OPTIONS = ["--help", "--usage", "--version", "--debug", "--verbose", "--fec-roots=2", "--ignore-corruption"]
THEIR_OPTIONS += ["--check-at-most-once", "--use-tasklets", "--deferred", "--root-hash-file=root"]
THEIR_OPTIONS += ["-v", "-s", "-sab", "-hsha1", "-salt=ab"]
NOBODYS_OPTIONS = ["--unknown", "--unknown=1", "--salz=ab", "-x", "---", "--=x", "-compact"]
OUTPUT_NAMES = ["tree", "folder", "none/tree", "", DATA, "./data", "older"]
# What stands for the folder of the files, as an absolute name begins.
ITS_FOLDER = "@folder"
# The names outside that folder, and that of a pipe in it.
DEVICES = ["/dev/null", "/dev/zero", "/dev/full"]
PROC_FILE = "/proc/version"
OUTSIDE = DEVICES + [PROC_FILE]
PIPE = "pipe"
NOWHERE = "nowhere"


def words_of(part):
    """The words of a part."""
    if part.kind == "option":
        return [f"--{part.name}={part.text}"] if part.joined else [f"--{part.name}", part.text]
    return [f"--{part.name}" if part.kind == "flag" else part.name]


class LinkedFolder:
    """What a folder has beside a folder in it: files, their bytes by name; further names of them; symbolic links, what
    is in each by name; and whether there is a named pipe."""

    def __init__(self, files):
        self.files, self.twins, self.links, self.has_pipe = files, {}, {}, False

    def leads_to(self, word):
        """The name to which a word leads, also if nothing stands there yet. None if nothing can."""
        for _ in range(9):
            name = plain(word)
            if name not in self.links:
                return self.twins.get(name, name) if name in OUTSIDE or "/" not in name else None
            word = self.links[name]
        return None

    def is_there(self, word):
        """Whether a word leads to what stands there."""
        name = self.leads_to(word)
        return name in self.files or name in OUTSIDE + ["folder"] or (name == PIPE and self.has_pipe)

    def is_dangling(self, word):
        """Whether a word names a symbolic link behind which nothing stands."""
        return plain(word) in self.links and not self.is_there(word)


def plain(word):
    """A name as it is in its folder."""
    return posixpath.normpath(word.removeprefix(ITS_FOLDER + "/")) if word else "/"


class Case:
    """A program, the parts of its line, the files it runs on, and how much in it is odd: no more can be wrong."""

    # With what umask it is run.
    umask = 0o022

    def __init__(self, program, parts, before, odd):
        self.program, self.before, self.odd = program, before, odd
        # After `--` all are words.
        end = next((place for place, part in enumerate(parts) if part.kind == "end"), len(parts))
        self.parts = parts[: end + 1] + [Part("word", word) for part in parts[end + 1 :] for word in words_of(part)]

    def words(self):
        return [word for part in self.parts for word in words_of(part)]

    def command(self):
        return next((part.name for part in self.parts if part.kind == "command"), None)

    def texts(self, name):
        """The texts that an option of this name is given, in order."""
        return [part.text for part in self.parts if part.kind == "option" and part.name == name]

    def has(self, name):
        return any(part.kind in ("option", "flag") and part.name == name for part in self.parts)

    def named(self):
        """The places of the parts that name files."""
        words = [place for place, part in enumerate(self.parts) if part.kind == "word"]
        most = {"dump": 1, "format": 2, "verify": 2}.get(self.command(), len(words))
        outputs = [place for place, part in enumerate(self.parts) if part.kind == "option" and part.name in OUTPUTS]
        return words[:most] + outputs

    def beside(self):
        return [part.name for part in self.parts if part.kind == "word"]


class Odd(random.Random):
    """A generator that counts what odd things were drawn."""

    odd = 0


def is_odd(rng, share):
    """Whether something odd is to be drawn, with a chance."""
    found = chance(rng, share)
    rng.odd += found
    return found


def number(rng, value):
    """A number's text, now and then in a form that one of the programs may not take."""
    if not is_odd(rng, 0.12):
        return str(value)
    forms = [f"+{value}", f" {value}", f"\t{value}", f" +{value}", f"-{value}", str(value - 2**64), f"--{value}"]
    forms += [f"{value} ", f"0{value}", hex(value), f"{value}K", f"{value}.0", f"{value}s", str(value + 2**64)]
    forms += ["", "x", "1e3", "٥١٢"]
    return rng.choice(forms)


def text(rng, right, wrong):
    return rng.choice(wrong if is_odd(rng, 0.1) else right)


def tree_options(rng, chosen, at, bare):
    """The options of format for settings, as a dictionary."""
    given = {
        "hash": text(rng, [chosen.name], OTHER_NAMES + NOT_NAMES),
        "format": number(rng, text(rng, [chosen.hash_type], [2, 256])),
        "data-block-size": number(rng, text(rng, [chosen.data_block], NOT_SIZES)),
        "hash-block-size": number(rng, text(rng, [chosen.hash_block], NOT_SIZES)),
        "data-blocks": number(rng, text(rng, [chosen.count], [0, 1, chosen.count + 1, 10**6, 2**55, 2**63])),
        "hash-offset": number(rng, text(rng, [at], [1, 511, 513, 1536, 2**63, 2**64 - 512])),
        "salt": text(rng, [chosen.salt.hex() or "-"], SALTS + NOT_SALTS),
        "uuid": text(rng, UUIDS, NOT_UUIDS),
    }
    default = {"hash": "sha256", "format": "1", "hash-offset": "0"}
    default |= {"data-block-size": "4096", "hash-block-size": "4096"}
    for name, value in list(given.items()):
        if (value == default.get(name) or name == "data-blocks") and chance(rng, 0.5):
            del given[name]
    for name, share in (("salt", 0.06), ("uuid", 0.5 if bare else 0.1)):
        if chance(rng, share):
            del given[name]
    return given


def settings(rng):
    count = rng.choice([0, 1, 1, 2, 3, 9, 17, 20])
    salt = bytes.fromhex(rng.choice(["ab", "", "00" * 32, "0123456789abcdef"]))
    return Settings(rng.choice(ALGORITHMS), rng.choice(SIZES), rng.choice(SIZES), salt, count, rng.choice([1, 1, 0]))


def parts_of(rng, command, options, flags, beside):
    """The parts of a line, with the options anywhere after the command."""
    given = [Part("option", name, value, chance(rng, 0.6)) for name, value in options.items()]
    given += [Part("flag", name) for name in flags]
    rng.shuffle(given)
    for word in beside:
        given.insert(rng.randint(0, len(given)), Part("word", word))
    # The words beside stand in their order.
    places = [place for place, part in enumerate(given) if part.kind == "word"]
    for place, word in zip(places, beside):
        given[place] = Part("word", word)
    return [Part("command", command)] + given


def format_case(rng):
    chosen = settings(rng)
    bare = chance(rng, 0.25)
    rng.odd += chosen.count == 0
    is_one = chance(rng, 0.08)
    if is_one and chance(rng, 0.3):
        # So many digests that some are written while there is data to be read.
        chosen = chosen._replace(data_block=512, count=200)
    content = rng.randbytes(chosen.count * chosen.data_block + rng.choice([0, 0, 0, 1, 100]))
    before = LinkedFolder({DATA: content})
    if chance(rng, 0.3):
        before.files[HASH] = rng.randbytes(rng.choice([0, 100, 512, 600, 4096, 4700, 9000, 30000]))
    at = rng.choice([0, 0, 0, 1, 2, 8, 16]) * (chosen.hash_block if bare else SUPERBLOCK_SIZE)
    names = [DATA, HASH]
    if is_one:
        names, at = [DATA, DATA], -(-len(content) // 8192) * 8192
    if is_odd(rng, 0.02):
        names[rng.randrange(2)] = rng.choice(["missing/file", "", "folder"])
    options = tree_options(rng, chosen, at, bare)
    parts = parts_of(rng, "format", options, ["no-superblock"] if bare else [], names)
    return Case("veritysetup", parts, before, rng.odd)


def image_case(rng):
    """verify or dump of an image, whole most often."""
    chosen = settings(rng)
    chosen = chosen._replace(count=max(chosen.count, 1))
    bare = chance(rng, 0.3)
    at = rng.choice([0, 0, 1, 8]) * (chosen.hash_block if bare else SUPERBLOCK_SIZE)
    data = bytearray(rng.randbytes(chosen.count * chosen.data_block))
    is_one = chance(rng, 0.15)
    if is_one:
        at = -(-len(data) // 8192) * 8192
    tree = Tree(chosen, -(-(at if bare else at + SUPERBLOCK_SIZE) // chosen.hash_block), bytes(data))
    device = bytearray(tree.on(b""))
    if not bare:
        put(device, at, superblock(chosen, bytes(range(16))))
    kind = rng.randrange(14)
    rng.odd += kind < 6
    if kind == 0:
        data[rng.randrange(len(data))] ^= 1
    elif kind == 1 and len(device) > at + SUPERBLOCK_SIZE:
        device[rng.randrange(at + SUPERBLOCK_SIZE, len(device))] ^= 1
    elif kind == 2 and device:
        del device[rng.randrange(len(device)) :]
    elif kind == 3 and not is_one:
        del data[rng.randrange(len(data)) :]
    elif kind < 6 and len(device) >= at + SUPERBLOCK_SIZE:
        start, size = SUPERBLOCK_FIELDS[rng.choice(list(SUPERBLOCK_FIELDS))]
        place = at + start + rng.randrange(size)
        device[place] = rng.choice([0, 1, 0xFF, device[place] ^ 0x20, device[place] ^ 1 << rng.randrange(8)])
    names = [DATA, HASH]
    before = LinkedFolder({DATA: bytes(data), HASH: bytes(device)})
    if is_one:
        names = [DATA, DATA]
        before = LinkedFolder({DATA: bytes(data + device[len(data) :])})
    root = tree.root.hex()
    wrong = [root[:-1], root[:-2], root + "00", "0" * len(root), "x" * len(root), ""]
    root = text(rng, [root, root, root.upper()], wrong)
    if chance(rng, 0.3):
        options = {} if at == 0 else {"hash-offset": number(rng, at)}
        if chance(rng, 0.1):
            options[rng.choice(["salt", "hash", "uuid", "data-blocks"])] = "ab"
        return Case("veritysetup", parts_of(rng, "dump", options, [], names[1:]), before, rng.odd)
    options = tree_options(rng, chosen, at, bare)
    if not bare:
        options = {name: value for name, value in options.items() if name == "hash-offset" or chance(rng, 0.2)}
    if chance(rng, 0.9):
        options.pop("uuid", None)
    parts = parts_of(rng, "verify", options, ["no-superblock"] if bare else [], names + [root])
    return Case("veritysetup", parts, before, rng.odd)


def digest_case(rng):
    data = rng.randbytes(rng.choice([0, 1, 100, 4096, 9000, 40000]))
    before = LinkedFolder({DATA: data, "more": b"more", "older": b"older"})
    names = rng.choice([[DATA], [DATA], [DATA, "more"]])
    if is_odd(rng, 0.2):
        names = rng.choice([[DATA, "missing"], ["missing"], ["folder"], [""], ["-"]])
    options = {}
    if chance(rng, 0.5):
        others = ["1", "2", "+1", " 2", "01", "3", "256", "SHA256", "sha-256", "", "sha1", "-1", "1 ", "0x1"]
        options["hash-alg"] = rng.choice(others) if is_odd(rng, 0.4) else rng.choice(["sha256", "sha512"])
    if chance(rng, 0.5):
        size = text(rng, [128, 512, 1024, 4096, 65536, 524288], NOT_SIZES + [32, 64, 2097152])
        options["block-size"] = number(rng, size)
    if chance(rng, 0.5):
        options["salt"] = text(rng, ["ab", "AbCd", "", "00" * 32], NOT_SALTS[:-1] + ["-", "00" * 33, "00" * 300])
    for name in OUTPUTS:
        if chance(rng, 0.25):
            options[name] = text(rng, ["tree", "descriptor", "older"], OUTPUT_NAMES)
    flags = [name for name in ("compact", "for-builtin-sig") if chance(rng, 0.2)]
    return Case("fsverity", parts_of(rng, "digest", options, flags, names), before, rng.odd)


def renamed(rng, case):
    """The case with one other name in it: for the same file, or for one of another kind, which is odd."""
    places = case.named()
    if not places:
        return case
    place, folder = rng.choice(places), case.before
    part = case.parts[place]
    old = part.name if part.kind == "word" else part.text
    kind = rng.randrange(10)
    link = rng.choice(["link", "other_link"])
    if kind == 0:
        new = rng.choice(["./", "folder/../", ITS_FOLDER + "/", ITS_FOLDER + "/folder/../"]) + old
    elif kind < 4 and link not in folder.links and plain(old) not in folder.links:
        # To a file, or to where one would be made.
        folder.links[link] = rng.choice([old, "./" + old, ITS_FOLDER + "/" + old]) if old else NOWHERE
        new = link
    elif kind == 4 and old in folder.files and not folder.twins:
        folder.twins["twin"], folder.files["twin"] = old, folder.files[old]
        new = "twin"
    elif kind == 5 and link not in folder.links:
        folder.links[link] = rng.choice([NOWHERE, ITS_FOLDER + "/" + NOWHERE, "none/" + NOWHERE, link, "folder"])
        new = link
    elif kind == 6:
        new = PROC_FILE
    elif kind == 7:
        folder.has_pipe, new = True, PIPE
    elif kind == 8:
        new = rng.choice(["folder", DATA, "twin", "link"])
    else:
        new = rng.choice(DEVICES)
    rng.odd += folder.leads_to(new) not in folder.files
    parts = list(case.parts)
    parts[place] = part._replace(**{"name" if part.kind == "word" else "text": new})
    return Case(case.program, parts, folder, rng.odd)


def changed(rng, case):
    """The case with one change of its parts."""
    parts = list(case.parts)
    rng.odd += 1
    at = rng.randint(1, len(parts))
    kind = rng.randrange(12)
    given = [place for place, part in enumerate(parts) if part.kind in ("option", "flag")]
    if kind == 0 and given:
        place = rng.choice(given)
        other = rng.choice([parts[place].text, "ab", "1", "sha512"])
        parts.insert(at, parts[place]._replace(text=other) if parts[place].kind == "option" else parts[place])
    elif kind == 1 and given:
        parts.insert(0, parts.pop(rng.choice(given)))
    elif kind == 2:
        parts.insert(at, Part("word", rng.choice(["more", "", "-"])))
    elif kind == 3:
        parts.pop(rng.randrange(len(parts)))
    elif kind == 4:
        parts.insert(rng.randint(0, len(parts)), Part("end", "--"))
    elif kind == 5 and given:
        place = rng.choice(given)
        parts[place] = parts[place]._replace(name=parts[place].name[: rng.randint(1, len(parts[place].name))])
    elif kind == 6:
        parts.insert(rng.randint(0, len(parts)), Part("theirs", rng.choice(THEIR_OPTIONS)))
    elif kind == 7:
        parts.insert(rng.randint(0, len(parts)), Part("nobodys", rng.choice(NOBODYS_OPTIONS)))
    elif kind == 8:
        others = ["Format", "dump", "open", "close", "status", "create", "help", ""]
        parts[0] = Part("command", rng.choice(others + ["digest", "measure", "sign", "enable"]))
    elif kind == 9 and given:
        place = rng.choice(given)
        if parts[place].kind == "flag":
            parts[place] = Part("option", parts[place].name, rng.choice(["", "1", "yes"]))
        else:
            dashed = rng.choice(["--compact", "-1", "--", "-x", "-"])
            parts[place] = parts[place]._replace(text=dashed, joined=chance(rng, 0.4))
    elif kind == 10 and case.before.files.get(DATA):
        case.before.files["d\udcffta"] = case.before.files[DATA]
        parts = [part._replace(name="d\udcffta") if part == Part("word", DATA) else part for part in parts]
    elif given:
        # The last word is an option that lacks its text.
        parts.append(Part("flag", parts[rng.choice(given)].name))
    return Case(case.program, parts, case.before, rng.odd)


def all_texts(case):
    """Every word of a case, and every text of an option."""
    return case.words() + [part.text for part in case.parts if part.text]


def random_case(text):
    """The case that follows from a text."""
    rng = Odd(text)
    case = rng.choices([format_case, image_case, digest_case], [3, 2, 2])[0](rng)
    for _ in range(rng.choice([0, 0, 0, 1, 1, 2])):
        case = renamed(rng, case)
    for _ in range(rng.choice([0, 0, 0, 1, 1, 2])):
        if case.parts:
            case = changed(rng, case)
    case.umask = rng.choice([0o022, 0o022, 0o002, 0o000, 0o077])
    # No program is let loose outside its folder, but on what it can't change.
    assert all(not part.startswith("/") or part in OUTSIDE for part in all_texts(case))
    return case
