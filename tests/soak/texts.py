"""Random texts of options, right and wrong ones, words of them, and random bytes; all of it follows from the generator
given."""

NOT_NUMBERS = [
    "",
    "+512",
    "-1",
    " 512",
    "512 ",
    "0x200",
    "1e3",
    "4K",
    "512.0",
    "5_12",
    "five",
    "٥١٢",
    "512\n",
    "18446744073709551616",
    "18446744073709552128",
    "340282366920938463463374607431768211968",
]
NOT_NAMES = ["", "SHA256", "sha3-256", "md5", "sha-256", "sha256 ", "sha2567", "sha", "sha512/256", "ｓha256", "-"]
NOT_BLOCK_SIZES = [0, 1, 2, 32, 256, 511, 513, 768, 4095, 1048576, 2**32, 2**32 + 512, 2**63, 2**64 - 512, 2**64 - 1]
NOT_UUIDS = [
    "",
    "-",
    "random",
    "{}",
    "urn:uuid:",
    "00112233-4455-4677-8899-aabbccddeef",
    "00112233-4455-4677-8899-aabbccddeeff0",
    "001122334455-4677-8899-aabbccddeeff-",
    "00112233_4455_4677_8899_aabbccddeeff",
    "{00112233445546778899aabbccddeeff}",
    "{00112233-4455-4677-8899-aabbccddeeff",
    "00112233-4455-4677-8899-aabbccddeeff}",
    "urn:uuid:00112233445546778899aabbccddeeff",
    "urn-uuid:00112233-4455-4677-8899-aabbccddeeff",
    "uuid:00112233-4455-4677-8899-aabbccddeeff",
    "g0112233-4455-4677-8899-aabbccddeeff",
    "0011223344554677-8899-aabbccddeeff---",
    " 00112233-4455-4677-8899-aabbccddeeff",
]
BLOCK_SIZES = [512, 1024, 2048, 4096, 8192, 16384, 32768, 65536, 131072, 262144, 524288]
BLOCK_WEIGHTS = [100, 40, 20, 40, 10, 10, 3, 2, 1, 1, 1]


def chance(rng, share):
    return rng.random() < share


def block_size(rng):
    return rng.choices(BLOCK_SIZES, BLOCK_WEIGHTS)[0]


def count(rng, fan, most):
    """A number of blocks, often one at a border of the fan-out, and at most `most`."""
    borders = [power + step for power in (fan, fan * fan) for step in (-1, 0, 1)]
    few = [0, 1, 1, 2, 3]
    drawn = rng.choice([rng.choice(few), rng.choice(borders), rng.randint(0, 300), rng.randint(0, 40)])
    return min(drawn, most)


def content(rng, size):
    """Bytes of data: zeros, noise, one pattern again and again, or noise with a long run of one byte."""
    kind = rng.randrange(8)
    if kind == 0:
        return bytes(size)
    if kind == 1:
        pattern = rng.randbytes(rng.choice([1, 512, 1024]))
        return (pattern * (size // len(pattern) + 1))[:size]
    if kind == 2:
        return rng.randbytes(size // 2) + bytes([rng.randrange(256)]) * (size - size // 2)
    return rng.randbytes(size)


def cased(rng, text):
    """A text in lower case, in capitals, or with letters of both."""
    kind = rng.randrange(4)
    if kind == 0:
        return text.upper()
    if kind == 1:
        return "".join(rng.choice([letter.upper(), letter]) for letter in text)
    return text


def number(rng, value):
    """A number, now and then with zeros before it."""
    return "0" * rng.randint(1, 30) + str(value) if chance(rng, 0.06) else str(value)


def not_number(rng):
    return rng.choice(NOT_NUMBERS)


def salt(rng, most):
    """A salt of at most so many bytes."""
    size = rng.choice([0, 1, 2, 16, 31, 32, most - 1, most, rng.randint(0, most)])
    return cased(rng, rng.randbytes(min(size, most)).hex())


def not_salt(rng, most):
    """A text that is no salt of at most so many bytes. For some commands `-` is one."""
    digits = rng.randbytes(rng.randint(1, most)).hex()
    at = rng.randrange(len(digits))
    odd = digits[:at] + digits[at + 1 :]
    strange = digits[:at] + rng.choice("gzGZ -.xé٣\n\\") + digits[at + 1 :]
    return rng.choice([odd, strange, "0" + digits, "0x" + digits, rng.randbytes(most + 1).hex(), "00" * 700, "-", "--"])


def uuid(rng):
    """A UUID in one of the four forms."""
    digits = rng.randbytes(16).hex()
    parts = "-".join([digits[:8], digits[8:12], digits[12:16], digits[16:20], digits[20:]])
    return rng.choice(
        [
            cased(rng, parts),
            cased(rng, digits),
            "{" + cased(rng, parts) + "}",
            cased(rng, "urn:uuid:") + cased(rng, parts),
        ]
    )


def not_uuid(rng):
    """A text that is hardly ever a UUID: one that is wrong by itself, or a UUID with a change."""
    if chance(rng, 0.4):
        return rng.choice(NOT_UUIDS)
    text = uuid(rng)
    at = rng.randrange(len(text))
    return text[:at] + rng.choice(["", "g", "-", "0", "{", "é"]) + text[at + rng.randint(0, 1) :]


def root(rng, right):
    """A text for a root hash: most often the right one, or in capitals, cut, longer, or another."""
    kind = rng.randrange(12)
    digits = right.hex()
    if kind < 6:
        return digits
    if kind == 6:
        return cased(rng, digits.upper())
    if kind == 7:
        changed = bytearray(right)
        changed[rng.randrange(len(right))] ^= 1 << rng.randrange(8)
        return changed.hex()
    if kind == 8:
        return rng.randbytes(len(right)).hex()
    if kind == 9:
        return digits[: rng.randrange(len(digits))]
    if kind == 10:
        return digits + rng.choice(["0", "00", " ", "g", digits])
    at = rng.randrange(len(digits))
    return digits[:at] + rng.choice("gxG é") + digits[at + 1 :]


def words(rng, options, flags, beside):
    """The words of options by name, of flags and of the words beside them, in any order that means the same."""
    groups = [[f"--{name}"] for name in flags]
    for name, value in options.items():
        apart = not value.startswith("-") or value == "-"
        groups.append([f"--{name}", value] if apart and chance(rng, 0.5) else [f"--{name}={value}"])
    rng.shuffle(groups)
    places = sorted(rng.randint(0, len(groups)) for _ in beside)
    for step, (place, word) in enumerate(zip(places, beside)):
        groups.insert(place + step, [word])
    if chance(rng, 0.05):
        return [word for group in groups if group[0] not in beside for word in group] + ["--"] + list(beside)
    return [word for group in groups for word in group]
