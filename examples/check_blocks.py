#!/usr/bin/env python3
"""Checks blocks of a dm-verity image or of an fs-verity file, by the shared library alone. Nothing is built. Run:

    python3 examples/check_blocks.py DATA HASH ROOT [BLOCK...]
    python3 examples/check_blocks.py --fsverity FILE TREE DIGEST [BLOCK...]

ROOT is the trusted root hash in hexadecimal; the superblock of HASH, which it doesn't cover, is trusted too. DIGEST
is the trusted file digest as `fsverity digest` prints it, such as sha256:7d3f.., and TREE the file that its option
--out-merkle-tree writes, with blocks of 4096 bytes and no salt.
Without a BLOCK every block is checked. Each refused block has a line, and then the end is status 1.
VERITY_LIBRARY in the environment is the library's path, or else libverity.so.2 is looked for.
"""
import hashlib
import os
import sys
from ctypes import CDLL, Structure, byref, c_char_p, c_size_t, c_uint8, c_uint32, c_uint64

library = CDLL(os.environ.get('VERITY_LIBRARY', 'libverity.so.2'))


class Image(Structure):  # struct verity_params
    _fields_ = [('hash_algorithm', c_uint32), ('hash_type', c_uint32), ('data_block_size', c_uint32),
                ('hash_block_size', c_uint32), ('data_blocks', c_uint64), ('hash_offset', c_uint64),
                ('no_superblock', c_uint32), ('salt_size', c_uint32), ('salt', c_uint8 * 256), ('uuid', c_uint8 * 16)]


class File(Structure):  # struct fsverity_params
    _fields_ = [('hash_algorithm', c_uint32), ('block_size', c_uint32), ('size', c_uint64), ('salt_size', c_uint32),
                ('salt', c_uint8 * 32)]


def call(name, *arguments, allowed=(0,)):
    """Calls a function of the library. Numbers have C's types; bytes go as a pointer and their length. A status is a C
    int, as ctypes takes every answer: 0, or below 0.
    """
    pairs = ((c_char_p(word), c_size_t(len(word))) if isinstance(word, bytes) else (word,) for word in arguments)
    status = getattr(library, name)(*sum(pairs, ()))
    if status not in allowed:
        sys.exit(f'{name}: status {status}')
    return status


def fault(index):
    """What is wrong with a data block, or nothing."""
    if not 0 <= index < blocks:
        return f'block {index}: there is no such block'
    block, path, start, level = os.pread(data, data_block_size, index * data_block_size), b'', c_uint64(), c_size_t()
    if fsverity:
        block = block.ljust(data_block_size, b'\0')
    for number in range(levels.value):
        call(kind + '_hash_block_start', byref(params), c_uint64(index), c_size_t(number), byref(start))
        path += os.pread(tree, hash_block_size, start.value)
    status = call(kind + '_check_block', byref(params), c_uint64(index), block, path, root, byref(level),
                  allowed=range(-4, 1))
    return status and f'block {index}: ' + (f'level {level.value} differs' if status == -1 else f'status {status}')


fsverity = sys.argv[1:2] == ['--fsverity']
kind, names = ('fsverity', sys.argv[2:]) if fsverity else ('verity', sys.argv[1:])
if len(names) < 3:
    sys.exit(__doc__)
data, tree, levels = os.open(names[0], os.O_RDONLY), os.open(names[1], os.O_RDONLY), c_size_t()
if fsverity:  # parameters and root hash are trusted once they give the trusted file digest
    algorithm, digest = names[2].split(':')
    data_block_size, hash_block_size, file_size = 4096, 4096, os.fstat(data).st_size
    params = File({'sha256': 1, 'sha512': 2}[algorithm], data_block_size, file_size)
    blocks = -(-file_size // data_block_size)
    top = os.pread(tree, hash_block_size, 0) or os.pread(data, data_block_size, 0).ljust(data_block_size, b'\0')
    root = hashlib.new(algorithm, top).digest() if blocks else bytes(len(digest) // 2)
    found = (c_uint8 * len(root))()
    call('fsverity_file_digest', byref(params), root, found, c_size_t(len(found)))
    if bytes(found).hex() != digest:
        sys.exit('the file digest is another')
else:
    params, root = Image(), bytes.fromhex(names[2])
    call('verity_read_superblock', os.pread(tree, 512, 0), c_uint64(0), byref(params))
    data_block_size, hash_block_size, blocks = params.data_block_size, params.hash_block_size, params.data_blocks
if blocks:
    call(kind + '_level_count', byref(params), byref(levels))
indexes = [int(word) for word in names[3:]] or range(blocks)
refused = [text for text in map(fault, indexes) if text]
print('\n'.join(refused) or f'{len(indexes)} blocks are right')
sys.exit(bool(refused))
