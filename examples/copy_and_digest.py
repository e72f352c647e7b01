#!/usr/bin/env python3
"""Copies files into a folder and prints the fs-verity digest of each copy, as `fsverity digest` does, by the shared
library alone. Each file is read once: what is copied is fed to its tree. Nothing is built. Run:

    python3 examples/copy_and_digest.py [--hash-alg=NAME] [--block-size=BYTES] [--salt=HEX] FILE... FOLDER

A file of the folder is never overwritten. The first file that can't be copied ends the run with status 1, and what
there is of its copy is removed.
VERITY_LIBRARY in the environment is the library's path, or else libverity.so.2 is looked for.
"""
import argparse
import os
import sys
from ctypes import CDLL, Structure, byref, c_size_t, c_uint8, c_uint32, c_uint64

library = CDLL(os.environ.get('VERITY_LIBRARY', 'libverity.so.2'))
piece = bytearray(1 << 20)
piece_in_c = (c_uint8 * len(piece)).from_buffer(piece)


class File(Structure):  # struct fsverity_params; the library counts the bytes that are fed in its size
    _fields_ = [('hash_algorithm', c_uint32), ('block_size', c_uint32), ('size', c_uint64), ('salt_size', c_uint32),
                ('salt', c_uint8 * 32)]


def call(name, *arguments):
    """Calls a function of the library. All numbers have C's types, and a status is a C int, as ctypes takes every
    answer.
    """
    status = getattr(library, name)(*arguments)
    if status < 0:
        raise ValueError(f'{name}: status {status}')


def begin():
    """Parameters of a file, and the memory in which its tree is built: 65536 bytes for SHA-256 and 4096."""
    params, length = File(algorithm, options.block_size, 0, len(salt), (c_uint8 * 32)(*salt[:32])), c_size_t()
    call('fsverity_build_memory', byref(params), byref(length))
    memory = (c_uint8 * length.value)()
    call('fsverity_build_begin', byref(params), memory, length)
    return params, memory, length


def copied(reader, writer):
    """Copies a file, and gives the digest of what was written."""
    params, memory, length = begin()
    while count := reader.readinto(piece):
        writer.write(memoryview(piece)[:count])
        call('fsverity_build_feed', byref(params), memory, length, piece_in_c, c_size_t(count))
    size = c_size_t({1: 32, 2: 64}[algorithm])
    root, digest = (c_uint8 * size.value)(), (c_uint8 * size.value)()
    call('fsverity_build_end', byref(params), memory, length, root, size, digest, size)
    return bytes(digest).hex()


def copy(name):
    """Copies a file into the folder, and prints the line of `fsverity digest`."""
    target = os.path.join(options.folder, os.path.basename(name))
    with open(name, 'rb', buffering=0) as reader, open(target, 'xb') as writer:
        try:
            digest = copied(reader, writer)
            writer.flush()
        except BaseException:
            os.remove(target)
            raise
    print(f'{options.hash_alg}:{digest} {target}', flush=True)


parser = argparse.ArgumentParser(usage=__doc__)
parser.add_argument('--hash-alg', default='sha256', choices=['sha256', 'sha512'])
parser.add_argument('--block-size', type=int, default=4096)
parser.add_argument('--salt', type=bytes.fromhex, default=b'')
parser.add_argument('files', nargs='+')
parser.add_argument('folder')
options = parser.parse_args()
algorithm, salt = {'sha256': 1, 'sha512': 2}[options.hash_alg], options.salt
try:
    for file in options.files:
        copy(file)
except (OSError, ValueError) as fault:
    sys.exit(f'copy_and_digest.py: {fault}')
