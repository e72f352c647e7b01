#!/usr/bin/env python3
"""Copies a folder with all of its files, and prints the fs-verity digest of each copy, as `fsverity digest` does. Each
file is read once. Run:

    python3 copy_tree.py FOLDER COPY
"""

import os
import sys

import verity


def copied(name, copy):
    """Copies a file, and gives the digest of what was written."""
    digest, piece = verity.FileDigest(), memoryview(bytearray(1 << 20))
    with open(name, "rb", buffering=0) as reader, open(copy, "xb", buffering=0) as writer:
        while count := reader.readinto(piece):
            left = piece[:count]
            digest.update(left)
            while left:
                left = left[writer.write(left) :]
    return digest


source, target = sys.argv[1:]
for folder, folders, files in os.walk(source):
    folders.sort()
    place = os.path.join(target, os.path.relpath(folder, source))
    os.makedirs(place)
    for file in sorted(files):
        copy = os.path.normpath(os.path.join(place, file))
        digest = copied(os.path.join(folder, file), copy)
        print(f"{digest.name}:{digest.hexdigest()} {copy}")
