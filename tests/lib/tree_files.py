#!/usr/bin/env python3
"""Trees for the programs of tests/library, as tests/library/images.h reads them: expected hash blocks, root hashes and
file digests, by trees.py or by Debian's programs.

    tree_files.py verity superblock|bare HASH TYPE DATA-BLOCK HASH-BLOCK SALT BLOCKS OFFSET UUID DATA HASH-FILE ROOT
    tree_files.py fsverity HASH BLOCK SALT SIZE TREE-FILE DESCRIPTOR-FILE DIGEST
    tree_files.py settings|large|stored|parts|mistakes|fuzz|refused DATA SEED LIMIT..

The first two print the tree that Debian's program made, the others many, of parts of the file DATA. SALT, UUID, ROOT
and DIGEST are in hexadecimal, `-` for no salt. LIMIT.. is said at each kind's function.
"""

import random
import struct
import sys

sys.dont_write_bytecode = True
from layouts import FILE_ALGORITHMS, SUPERBLOCK_SIZE, superblock
from trees import FS_VERITY, FileTree, Settings, Shape, Tree, base_of

# The hash functions and their numbers in the library.
ALGORITHM_NUMBERS = {"sha256": 1, "sha512": 2, "sha1": 3, "sha224": 4, "sha384": 5}
# So many ways to cut data feeding.c has.
CUTS = 7


def record(settings, size, hashes, root, *, bare=True, offset=0, first=0, uuid=bytes(16), about=b"", digest=b"",
           data=(0, 0), index=0, is_one=False, ends=()):
    """The bytes of one tree. data says where its data begins and how long it is; ends has sizes of a file, with root
    hash and digest of so many bytes."""
    is_file = settings.hash_type == FS_VERITY
    yield struct.pack("<8I", is_file, ALGORITHM_NUMBERS[settings.name], 0 if is_file else settings.hash_type,
                      settings.data_block, settings.hash_block, bare, len(settings.salt), is_one)
    yield struct.pack("<8Q", size, offset, index, *data, first, len(hashes), len(ends))
    yield struct.pack("<256s16s512s64s64s", settings.salt, uuid, about, root, digest)
    yield hashes
    for end in ends:
        yield struct.pack("<Q64s64s", *end)


def device(settings, data, at=0, *, bare, offset, uuid, is_one=False):
    """A tree of dm-verity by trees.py."""
    base, length = base_of(settings.hash_block, offset, bare), settings.count * settings.data_block
    tree = Tree(settings, base, data[at : at + length])
    return record(settings, settings.count, tree.stored, tree.root, bare=bare, offset=offset, data=(at, length),
                  uuid=uuid, first=base * settings.hash_block, about=superblock(settings, uuid), is_one=is_one)


def file(name, block, salt, size, data, at=0, *, ends=(), is_one=False):
    """A tree of fs-verity by trees.py, with the ends of its first bytes, or some more, at these sizes."""
    whole, found = FileTree(name, block, salt, data[at : at + size]), []
    for end in sorted(set(ends) | {size}):
        tree = whole if end == size else FileTree(name, block, salt, data[at : at + end])
        found.append((end, tree.root, tree.digest))
    return record(whole.settings, size, whole.stored, whole.root, data=(at, size), about=whole.descriptor,
                  digest=whole.digest, ends=found, is_one=is_one)


def doubled(least, most):
    """least, twice that, and so on."""
    while least <= most:
        yield least
        least *= 2


def all_files(numbers, data, most, largest, each_way, salt_of, ends_of):
    """Sizes at which a block, or a level, is full, and those beside them; and every length of salt."""
    for name in FILE_ALGORITHMS:
        for block in doubled(64 * ALGORITHM_NUMBERS[name], largest):
            yield file(name, block, b"", 0, data)
            unit = block
            while unit < most:
                for size in (unit - 1, unit, unit + 1):
                    yield file(name, block, salt_of(), size, data, ends=ends_of(size), is_one=size > each_way)
                unit *= block // (32 * ALGORITHM_NUMBERS[name])
            for length in range(33):
                yield file(name, block, numbers.randbytes(length), 1, data, is_one=True)


def all_devices(numbers, data, most, data_block_sizes, hash_block_sizes, counts_of, each_way):
    """All hash functions, hash types and block sizes, with numbers of blocks at which a level is full."""
    for name in ALGORITHM_NUMBERS:
        for hash_type in (0, 1):
            for data_block in doubled(*data_block_sizes):
                for hash_block in doubled(*hash_block_sizes):
                    fan = Shape(Settings(name, data_block, hash_block, b"", 1, hash_type), 0).fan
                    for count in counts_of(fan):
                        length = count * data_block
                        if length > most:
                            break
                        yield drawn_device(numbers, data, name, hash_type, data_block, hash_block, count,
                                           is_one=length > each_way)


def drawn_device(numbers, data, name, hash_type, data_block, hash_block, count, at=0, is_one=False):
    """The rest of its parameters is drawn: it doesn't count for the form of the tree."""
    salt = numbers.randbytes(numbers.choice((0, 1, 32, 255, 256, numbers.randint(0, 256))))
    settings = Settings(name, data_block, hash_block, salt, count, hash_type)
    return device(settings, data, at, bare=numbers.random() < 0.5, offset=numbers.randrange(4) * hash_block,
                  uuid=numbers.randbytes(16), is_one=is_one)


def settings(numbers, data, most, each_way):
    """Blocks of up to 65536 bytes and data of up to `most`: more than each_way is cut in one way, each tree's in the
    next, and a file of up to 65537 bytes in each way."""
    yield from all_files(numbers, data, most, 65536, 65537,
                         lambda: numbers.randbytes(numbers.choice((0, 32, numbers.randint(0, 32)))),
                         lambda size: [numbers.randint(0, size)] if size <= 65537 else [])
    yield from all_devices(numbers, data, most, (512, 65536), (512, 65536),
                           lambda fan: (1, 2, fan, fan + 1, fan**2, fan**2 + 1), each_way)


def large(numbers, data, size):
    """Blocks of this size, as data blocks, as hash blocks, as both, and of a file: a tree for each way to cut."""
    for part in range(3):
        for _ in range(CUTS):
            data_block = 512 << numbers.randrange(11) if part == 1 else size
            hash_block = 512 << numbers.randrange(11) if part == 0 else size
            # A hash block needs two blocks below it.
            count = numbers.randint(1 if part == 0 else 2, 3)
            yield drawn_device(numbers, data, numbers.choice(list(ALGORITHM_NUMBERS)), numbers.randrange(2), data_block,
                               hash_block, count, is_one=True)
    for way in range(CUTS):
        length = numbers.randint(1, 3) * size if way % 2 == 0 else numbers.randint(1, 3 * size)
        yield file(numbers.choice(list(FILE_ALGORITHMS)), size, numbers.randbytes(numbers.randint(0, 32)), length, data,
                   is_one=True)


def stored(numbers, data, most):
    """For stored.c: fewer block sizes."""
    yield from all_files(numbers, data, most, 4096, most, lambda: numbers.randbytes(numbers.randint(0, 32)),
                         lambda size: [numbers.randint(0, size) for _ in range(8)])
    yield from all_devices(numbers, data, most, (512, 4096), (512, 2048),
                           lambda fan: (1, 2, fan, fan + 1, 2 * fan + 1, fan**2 + 1), most)


def parts(numbers, data, most, each_way):
    """For parts.c: numbers of blocks about the powers of the fan-out, and with a last part of one block, of some, and
    of all but one; sizes of files that end in a block, too. More than each_way is built in one way."""
    for name in FILE_ALGORITHMS:
        for block in doubled(64 * ALGORITHM_NUMBERS[name], 4096):
            fan, count = block // (32 * ALGORITHM_NUMBERS[name]), 1
            yield file(name, block, b"", 0, data)
            while count * block <= most:
                for blocks in {count - 1, count, count + 1, count + fan // 2, 2 * count + 1} - {0}:
                    for size in (blocks * block - numbers.randrange(1, block), blocks * block):
                        salt = numbers.randbytes(numbers.choice((0, 32, numbers.randint(0, 32))))
                        yield file(name, block, salt, size, data, is_one=size > each_way)
                count *= fan
    yield from all_devices(numbers, data, most, (512, 4096), (512, 2048),
                           lambda fan: sorted({1, 2, fan - 1, fan, fan + 1, 2 * fan + 1, fan**2 - 1, fan**2,
                                               fan**2 + 1, fan**2 + fan + 1, 2 * fan**2 + fan // 2, fan**3,
                                               fan**3 + 1}), each_way)


def mistakes(numbers, data):
    """For the mistakes of parts.c: trees of three levels and more, each with parts of several blocks on all but the
    lowest level, and a last part with fewer blocks, or that ends in one."""
    for name, hash_type in (("sha256", 1), ("sha1", 0), ("sha512", 1)):
        fan = Shape(Settings(name, 512, 512, b"", 1, hash_type), 0).fan
        for count in (fan**2 + 1, fan**2 + 2 * fan + 3):
            yield drawn_device(numbers, data, name, hash_type, 512, 512, count)
    for name, block, size in (("sha256", 64, 1000), ("sha512", 512, 40000), ("sha256", 512, 140001)):
        yield file(name, block, numbers.randbytes(5), size, data)


def fuzz(numbers, data, count):
    """So many trees of small blocks for feeding_fuzz.c. A file has ends of fewer bytes and of more."""
    for _ in range(count):
        blocks = numbers.choice((numbers.randrange(40), numbers.randrange(18), numbers.randrange(18))
                                + 13 * (numbers.randrange(5),))
        if numbers.random() < 0.02:
            blocks = numbers.randrange(100)
        at = numbers.randrange(1 << 18)
        if numbers.random() < 0.5:
            name = numbers.choice(list(FILE_ALGORITHMS))
            block = 64 * ALGORITHM_NUMBERS[name] << numbers.randrange(5 - ALGORITHM_NUMBERS[name])
            size = blocks * block
            if size > 0 and numbers.random() < 0.5:
                size -= numbers.randrange(block)
            ends = [numbers.randint(0, size) for _ in range(8)] + [size + numbers.randint(1, 600) for _ in range(3)]
            salt = numbers.randbytes(numbers.choice((0, numbers.randint(0, 32))))
            yield file(name, block, salt, size, data, at, ends=ends)
        else:
            data_block, hash_block = (numbers.choice(7 * (512,) + (1024,)) for _ in range(2))
            yield drawn_device(numbers, data, numbers.choice(list(ALGORITHM_NUMBERS)), numbers.randrange(2), data_block,
                               hash_block, blocks + 1, at)


def refused(_, data):
    """For feeding_refused.c: a device of 17 blocks, files with an end after each byte, and one with one every 700."""
    salt = b"\0"
    yield device(Settings("sha256", 512, 512, salt, 17, 1), data, bare=False, offset=0, uuid=bytes(16))
    for name, block in (("sha256", 64), ("sha512", 128)):
        yield file(name, block, salt, 9 * block, data, ends=range(9 * block + 1))
    yield file("sha256", 512, salt, 39 * 512 + 100, data, ends=range(0, 39 * 512 + 100, 700))


def of_veritysetup(area, name, hash_type, data_block, hash_block, salt, count, offset, uuid, data, hashes, root):
    """The tree of an image by Debian's veritysetup: its superblock, and all from the first hash block on."""
    bare, offset, uuid = area == "bare", int(offset), bytes.fromhex(uuid)
    made = Settings(name, int(data_block), int(hash_block), bytes.fromhex(salt.strip("-")), int(count), int(hash_type))
    device = open(hashes, "rb").read()
    first = base_of(made.hash_block, offset, bare) * made.hash_block
    about = b"" if bare else device[offset : offset + SUPERBLOCK_SIZE]
    yield record(made, made.count, device[first:] if made.count > 1 else b"", bytes.fromhex(root), bare=bare,
                 offset=offset, uuid=uuid, about=about, first=first, data=(0, len(open(data, "rb").read())))


def of_fsverity(name, block, salt, size, tree, about, digest):
    """The tree of a file by Debian's fsverity. The root hash stands in the descriptor."""
    block, size, about = int(block), int(size), open(about, "rb").read()
    made = Settings(name, block, block, bytes.fromhex(salt.strip("-")), -(-size // block), FS_VERITY)
    root, digest = about[16 : 16 + 32 * ALGORITHM_NUMBERS[name]], bytes.fromhex(digest)
    yield record(made, size, open(tree, "rb").read(), root, about=about, digest=digest, data=(0, size),
                 ends=[(size, root, digest)])


def main():
    kind, words = sys.argv[1], sys.argv[2:]
    if kind in ("verity", "fsverity"):
        trees = (of_veritysetup if kind == "verity" else of_fsverity)(*words)
    else:
        kinds = {"settings": settings, "large": large, "stored": stored, "parts": parts, "mistakes": mistakes,
                 "fuzz": fuzz, "refused": refused}
        data = open(words[0], "rb").read()
        trees = kinds[kind](random.Random(int(words[1])), data, *map(int, words[2:]))
    for tree in trees:
        for part in tree:
            sys.stdout.buffer.write(part)


if __name__ == "__main__":
    main()
