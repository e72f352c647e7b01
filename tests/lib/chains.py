#!/usr/bin/env python3
"""Data blocks with paths that the definitions accept, for fuzz.c: chains.py SEED COUNT prints so many.

Digests are those of hashlib, chains and shapes those of tests/lib/trees.py. A chain is written as tree_files.py writes
a tree, with the data block and its path in place of the hash blocks.
"""

import random
import sys

sys.dont_write_bytecode = True
from layouts import FILE_ALGORITHMS, SUPERBLOCK_SIZE
from tree_files import ALGORITHM_NUMBERS, record
from trees import FS_VERITY, MOST_BYTES, Settings, Shape, base_of, chain, file_digest


def some_number(numbers, most):
    """From 1 to a limit: any length of number is as likely as another."""
    return min(most, max(1, numbers.getrandbits(numbers.randint(1, most.bit_length()))))


def device_settings(numbers):
    """Settings, whether there is a superblock, the hash offset, and the base in hash blocks."""
    data_block, hash_block = (512 << numbers.choice((0, 0, 0, 1, 2, 3, 4)) for _ in range(2))
    salt = numbers.randbytes(numbers.choice((0, 0, 1, 32, 256, numbers.randint(0, 256))))
    count = some_number(numbers, MOST_BYTES // data_block)
    name = numbers.choice(list(ALGORITHM_NUMBERS))
    settings = Settings(name, data_block, hash_block, salt, count, numbers.randint(0, 1))
    superblock = numbers.random() < 0.5
    unit = SUPERBLOCK_SIZE if superblock else hash_block
    offset = numbers.choice((0, some_number(numbers, MOST_BYTES))) // unit * unit
    return settings, superblock, offset, base_of(hash_block, offset, not superblock)


def file_settings(numbers):
    """Settings and the size of the file."""
    name = numbers.choice(list(FILE_ALGORITHMS))
    block = (64 if name == "sha256" else 128) << numbers.choice((0, 0, 0, 1, 2, 4, 5, 6))
    salt = numbers.randbytes(numbers.choice((0, 1, 32, numbers.randint(0, 32))))
    size = some_number(numbers, MOST_BYTES - block)
    return Settings(name, block, block, salt, -(-size // block), FS_VERITY), size


def drawn_chain(numbers):
    """The parts of one chain, as fuzz.c reads them."""
    while True:
        is_file = numbers.random() < 0.5
        if is_file:
            (settings, size), superblock, offset, base = file_settings(numbers), False, 0, 0
        else:
            settings, superblock, offset, base = device_settings(numbers)
            size = settings.count
        shape = Shape(settings, base)
        if not shape.is_too_large():
            break
    last = settings.count - 1
    index = numbers.choice((0, last, numbers.randint(0, last)))
    blocks, root = chain(shape, index, numbers)
    digest = file_digest(settings, size, root) if is_file else b""
    yield from record(settings, size, b"".join(blocks), root, bare=not superblock, offset=offset, digest=digest,
                      index=index)


def main():
    numbers = random.Random(int(sys.argv[1]))
    for _ in range(int(sys.argv[2])):
        for part in drawn_chain(numbers):
            sys.stdout.buffer.write(part)


main()
