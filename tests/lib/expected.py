#!/usr/bin/env python3
"""What veritysetup verify has to say of an image, by the trees of trees.py, a plain computation of its own.

expected.py [--hash-offset N] [--bare "ALGORITHM DATA-BLOCK HASH-BLOCK SALT BLOCKS HASH-TYPE"] DATA HASH ROOT CHANGE..
prints a line for each change, `data OFFSET MASK` or `hash OFFSET MASK`: what is to be said if the bits of the mask are
turned in that byte of DATA or HASH. This is `right`, or the message of the first block in closing order that differs. The
superblock of HASH is read as the on-disk format page of cryptsetup has it; --bare is for a hash area without one.
"""

import argparse
import sys

sys.dont_write_bytecode = True
from layouts import SUPERBLOCK_SIZE, read_superblock
from trees import Settings, Tree, base_of, settings_in, verdict


def of_text(text):
    """The settings of a hash area without a superblock."""
    name, data_block, hash_block, salt, count, hash_type = text.split()
    salt = b"" if salt == "-" else bytes.fromhex(salt)
    return Settings(name, int(data_block), int(hash_block), salt, int(count), int(hash_type))


def tree_of(options, device, data):
    offset = options.hash_offset
    if options.bare:
        settings = of_text(options.bare)
    else:
        settings = settings_in(read_superblock(device[offset : offset + SUPERBLOCK_SIZE]))
    return Tree(settings, base_of(settings.hash_block, offset, options.bare), data)


def main():
    parser = argparse.ArgumentParser()
    parser.add_argument("--hash-offset", type=int, default=0)
    parser.add_argument("--bare")
    parser.add_argument("data")
    parser.add_argument("hash")
    parser.add_argument("root", type=bytes.fromhex)
    parser.add_argument("changes", nargs="*")
    options = parser.parse_args()
    data, device = (bytearray(open(name, "rb").read()) for name in (options.data, options.hash))
    for change in options.changes:
        name, offset, mask = change.split()
        changed = data if name == "data" else device
        changed[int(offset)] ^= int(mask)
        tree = tree_of(options, bytes(device), bytes(data))
        print(verdict(tree, device, options.root)[1])
        changed[int(offset)] ^= int(mask)


main()
