#!/usr/bin/env python3
"""What tests/each_kind.sh compares with, by trees.py: hash devices and file digests of all hash functions.

kind_trees.py DATA UUID FOLDER writes the hash device of each image to FOLDER/stated.N, and prints a line for each image
and each file, `-` for no salt:
    image N HASH TYPE DATA-BLOCK HASH-BLOCK SALT BLOCKS ROOT BLOCK    the last data block is below hash block BLOCK
    file HASH BLOCK SALT SIZE DIGEST
"""

import os
import sys

sys.dont_write_bytecode = True
from layouts import superblock
from trees import FileTree, Settings, Tree, base_of

# Salts of one byte, and of more than a block of each hash function.
SALTS = [b"", b"\xab", bytes(range(1, 201))]
FILE_SALTS = [b"", b"\xab", bytes(range(1, 33))]
# Data block size, hash block size and number of blocks: many of them are hashed side by side, and some are left.
IMAGES = [(512, 512, 77), (1024, 4096, 301), (4096, 1024, 141)]
FILES = [(1024, 70001), (4096, 599999), (65536, 400000)]


def main():
    name, uuid, folder = sys.argv[1:]
    uuid = bytes.fromhex(uuid.replace("-", ""))
    with open(name, "rb") as file:
        data = file.read()
    number = 0
    # Each function meets each salt in each hash type, and each row of sizes twice.
    for i, function in enumerate(["sha1", "sha224", "sha256", "sha384", "sha512"]):
        for hash_type in (0, 1):
            for j, salt in enumerate(SALTS):
                data_block, hash_block, count = IMAGES[(i + j + hash_type) % len(IMAGES)]
                settings = Settings(function, data_block, hash_block, salt, count, hash_type)
                base = base_of(hash_block, 0, False)
                tree = Tree(settings, base, data)
                number += 1
                with open(os.path.join(folder, f"stated.{number}"), "wb") as file:
                    file.write(tree.on(superblock(settings, uuid)))
                print("image", number, function, hash_type, data_block, hash_block, salt.hex() or "-", count,
                      tree.root.hex(), (count - 1) // tree.fan)
    for i, function in enumerate(["sha256", "sha512"]):
        for j, salt in enumerate(FILE_SALTS):
            block, size = FILES[(i + j) % len(FILES)]
            tree = FileTree(function, block, salt, data[:size])
            print("file", function, block, salt.hex() or "-", size, tree.digest.hex())


main()
