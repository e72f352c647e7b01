"""Random runs of fsverity digest: files and words."""

import texts
from layouts import FILE_ALGORITHMS
from reading import OUTPUTS, Folder
from texts import chance

FILES = ["one", "two", "three file", "vierte-é", "a\nb", "-", "sha256:x"]
FORMS = ["compact", "for-builtin-sig"]
ABSENT = ["absent", "none/there", "", "x" * 300]


def options(rng):
    """The options of a way to digest, and its block size and fan-out."""
    name = rng.choice(list(FILE_ALGORITHMS))
    length = 32 * FILE_ALGORITHMS[name]
    size = rng.choice([2 * length, 2 * length, 4 * length, texts.block_size(rng), texts.block_size(rng), 4096])
    given = {
        "hash-alg": (name, name != "sha256"),
        "block-size": (texts.number(rng, size), size != 4096),
        "salt": (texts.salt(rng, 32), chance(rng, 0.6)),
    }
    return {name: text for name, (text, needed) in given.items() if needed or chance(rng, 0.3)}, size, size // length


def content(rng, size, fan):
    """A file of some blocks, the last of them seldom whole."""
    most = rng.choice([60_000, 60_000, 60_000, 600_000]) // size
    blocks = texts.count(rng, fan, max(most, 3))
    return texts.content(rng, max(0, blocks * size + rng.choice([0, 0, 1, -1, rng.randint(-size, size)])))


def flags(rng):
    return [flag for flag in FORMS if chance(rng, 0.3)]


def digest_case(rng):
    """digest of one file or several, of which one may be absent."""
    given, size, fan = options(rng)
    names = rng.sample(FILES, rng.choice([1, 1, 1, 2, 3, 5]))
    before = Folder({name: content(rng, size, fan) for name in names})
    if chance(rng, 0.15):
        names.insert(rng.randint(0, len(names)), rng.choice(ABSENT))
    if chance(rng, 0.1):
        names.append(rng.choice(names))
    return before, ["digest"] + texts.words(rng, given, flags(rng), names)


def output_case(rng):
    """digest with output files: new ones, old ones, the input, one for both, or one that can't be made."""
    given, size, fan = options(rng)
    name = rng.choice(FILES)
    before = Folder({name: content(rng, size, fan), "old": rng.randbytes(rng.randint(0, 9000))})
    for output in OUTPUTS:
        if chance(rng, 0.8):
            usual = ["tree" if output == OUTPUTS[0] else "descriptor"] * 6
            given[output] = rng.choice([*usual, "old", "old", "same", "./same", name, "./" + name, "other", "none/new"])
    before.links["other"] = rng.choice([name, "old"])
    names = [name]
    if chance(rng, 0.08):
        names = rng.choice([["absent"], [name, name], [name, "absent"]])
    return before, ["digest"] + texts.words(rng, given, flags(rng), names)


def option_case(rng):
    """digest with one wrong text or several."""
    given, size, fan = options(rng)
    names = rng.sample(FILES, rng.choice([1, 1, 2]))
    before = Folder({name: content(rng, min(size, 8192), fan)[:20000] for name in names})
    for _ in range(rng.choice([1, 1, 2, 3])):
        kind = rng.randrange(4)
        if kind == 0:
            given["hash-alg"] = rng.choice(texts.NOT_NAMES + ["sha1", "sha224", "sha384"])
        elif kind == 1:
            sizes = [32, 64, 128, *texts.NOT_BLOCK_SIZES]
            given["block-size"] = rng.choice([texts.not_number(rng), texts.number(rng, rng.choice(sizes))])
        elif kind == 2:
            given["salt"] = texts.not_salt(rng, 32)
        else:
            given[rng.choice(OUTPUTS)] = "new"
    return before, ["digest"] + texts.words(rng, given, flags(rng), names)
