"""Block hash trees over whole levels, digests of files, and what verify says of a device: a second reading of
docs/DEFINITIONS.md, with the hash functions of hashlib."""

import hashlib
from collections import namedtuple

from layouts import SUPERBLOCK_SIZE, descriptor

# The most bytes that a file can have.
MOST_BYTES = 2**63 - 1

# `hash_type` is 0 or 1, and FS_VERITY for the trees of fs-verity.
Settings = namedtuple("Settings", "name data_block hash_block salt count hash_type")
FS_VERITY = "fs-verity"


def settings_in(superblock):
    """The settings that the fields of a superblock say."""
    return Settings(*(getattr(superblock, name) for name in Settings._fields))


def base_of(hash_block, offset, bare):
    """The first hash block of a tree, from a hash offset on or behind the superblock that stands there."""
    return -(-(offset + SUPERBLOCK_SIZE * (not bare)) // hash_block)


def least_power(least):
    """The least power of two that is not below a number."""
    power = 1
    while power < least:
        power *= 2
    return power


def salted(settings):
    """The salted hash of one block, as a function."""
    function, salt = getattr(hashlib, settings.name), settings.salt
    if settings.hash_type == 0:
        return lambda block: function(block + salt).digest()
    if settings.hash_type == FS_VERITY:
        unit = function().block_size
        salt = salt.ljust(-(-len(salt) // unit) * unit, b"\0")
    return lambda block: function(salt + block).digest()


class Shape:
    """Slots, fan-out, number and places of hash blocks, from a hash block `base` on: the same for any data."""

    def __init__(self, settings, base):
        self.settings = settings
        self.base = base
        self.length = getattr(hashlib, settings.name)().digest_size
        self.width = least_power(self.length) if settings.hash_type == 1 else self.length
        self.fan = least_power(settings.hash_block // self.length + 1) // 2
        self.level_sizes = []
        below = settings.count
        while below > 1:
            below = -(-below // self.fan)
            self.level_sizes.append(below)
        self.end = base + sum(self.level_sizes)

    def is_too_large(self):
        """Whether the data or the hash area would be longer than a file can be."""
        settings = self.settings
        return max(settings.count * settings.data_block, self.end * settings.hash_block) > MOST_BYTES

    def place(self, level, index):
        """Where a hash block stands, in hash blocks."""
        return self.base + sum(self.level_sizes[level + 1 :]) + index

    def packed(self, digests):
        """The hash block of some digests: each is filled with zeros in its slot, and the block after them."""
        slots = b"".join(digest.ljust(self.width, b"\0") for digest in digests)
        return slots.ljust(self.settings.hash_block, b"\0")

    def closing_order(self, whole):
        """The blocks (level, index) above so many whole data blocks, in the order in which they are full or the data
        ends."""
        for i in range(1, whole + 1):
            for level in range(len(self.level_sizes)):
                below = self.fan ** (level + 1)
                if i % below == 0 or i == self.settings.count:
                    yield level, (i - 1) // below


def chain(shape, index, numbers):
    """A data block of random bytes, the hash blocks above it, each of random bytes with the digest of the block below
    in its slot, and the root hash. So trees of any size have one."""
    settings = shape.settings
    blocks = [numbers.randbytes(settings.data_block)]
    for _ in shape.level_sizes:
        above = bytearray(numbers.randbytes(settings.hash_block))
        at = index % shape.fan * shape.width
        above[at : at + shape.length] = salted(settings)(blocks[-1])
        blocks.append(bytes(above))
        index //= shape.fan
    return blocks, salted(settings)(blocks[-1])


class Tree(Shape):
    """The tree of some data. If this ends before the last data block, it is the hash blocks that have closed."""

    def __init__(self, settings, base, data):
        super().__init__(settings, base)
        size = settings.data_block
        self.whole = min(settings.count, len(data) // size)
        self.hash = salted(settings)
        self.blocks = [data[i * size : (i + 1) * size] for i in range(self.whole)]
        self.levels = []
        below = self.blocks
        for _ in self.level_sizes:
            below = self.level_of([self.hash(block) for block in below])
            self.levels.append(below)
        self.root = self.hash(below[0]) if self.whole == settings.count else None

    def level_of(self, digests):
        """The hash blocks of digests, without a last one that is not closed yet."""
        if self.whole < self.settings.count:
            digests = digests[: len(digests) // self.fan * self.fan]
        return [self.packed(digests[i : i + self.fan]) for i in range(0, len(digests), self.fan)]

    def part(self, level, index, stored):
        """How a stored block differs from the computed one."""
        under = self.levels[level - 1] if level else self.blocks
        for child in range(index * self.fan, min((index + 1) * self.fan, len(under))):
            at = child % self.fan * self.width
            if stored[at : at + self.length] != self.hash(under[child]):
                return f"child {child}"
        return "spare bytes"

    @property
    def stored(self):
        """All hash blocks, the top level first."""
        return b"".join(b"".join(level) for level in reversed(self.levels))

    def on(self, device):
        """A device with all hash blocks put at their places."""
        device = bytearray(device)
        for level, blocks in enumerate(self.levels):
            for index, text in enumerate(blocks):
                put(device, self.place(level, index) * self.settings.hash_block, text)
        return device


class FileTree:
    """The tree of a file with these bytes, its last block filled with zeros. An empty file has no block, and zeros as
    its root hash."""

    def __init__(self, name, block, salt, data):
        self.settings = Settings(name, block, block, salt, -(-len(data) // block), FS_VERITY)
        self.size, self.stored, self.root = len(data), b"", bytes(hashlib.new(name).digest_size)
        if data:
            tree = Tree(self.settings, 0, data.ljust(self.settings.count * block, b"\0"))
            self.stored, self.root = tree.stored, tree.root
        self.descriptor = descriptor(self.settings, self.size, self.root)
        self.digest = file_digest(self.settings, self.size, self.root)


def file_digest(settings, size, root):
    """The hash of the descriptor of a file of so many bytes."""
    return hashlib.new(settings.name, descriptor(settings, size, root)).digest()


def root_of_zeros(settings):
    """The root hash above zeros, however many: on each level all digests are the same but the last."""
    shape, hashed = Shape(settings, 0), salted(settings)
    most = last = hashed(bytes(settings.data_block))
    below = settings.count
    for count in shape.level_sizes:
        last = hashed(shape.packed([most] * (below - 1 - (count - 1) * shape.fan) + [last]))
        most, below = hashed(shape.packed([most] * shape.fan)), count
    return last


def put(device, at, text):
    """Puts bytes at a place of a device, after zeros if it ends before it."""
    device.extend(bytes(max(0, at - len(device))))
    device[at : at + len(text)] = text


def verdict(tree, device, root):
    """What verify says of a device, `right` or a message, and its status."""
    size = tree.settings.hash_block
    for level, index in tree.closing_order(tree.whole):
        at = tree.place(level, index) * size
        stored = bytes(device[at : at + size])
        if len(stored) < size:
            return 2, f"Verification failed: level {level} block {index} is missing."
        if stored != tree.levels[level][index]:
            return 2, f"Verification failed: level {level} block {index}, {tree.part(level, index, stored)}."
    if tree.whole < tree.settings.count:
        return 4, f"Data ends before the end of block {tree.whole}."
    if tree.root != root:
        return 2, f"Verification failed: root hash is {tree.root.hex()}."
    return 0, "right"
