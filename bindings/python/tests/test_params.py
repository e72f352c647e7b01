"""Params: faults, superblocks, places. What is expected is stated, or follows from tests/lib."""

import copy
import dataclasses
import pickle
import random
import unittest

import verity
from layouts import superblock
from trees import Settings, Shape, base_of

FIRST = {"data_blocks": 300, "salt": b"\xab\xcd", "uuid": bytes(range(16))}


class Faults(unittest.TestCase):
    def test_names(self):
        for words, kind in (
            ({"hash_algorithm": "md5"}, verity.BadHashAlgorithm),
            ({"hash_algorithm": "sha256\0"}, verity.BadHashAlgorithm),
            ({"hash_type": 2}, verity.BadHashType),
            ({"data_block_size": 1000}, verity.BadDataBlockSize),
            ({"data_block_size": 256}, verity.BadDataBlockSize),
            ({"hash_block_size": 1 << 20}, verity.BadHashBlockSize),
            ({"salt": bytes(257)}, verity.BadSaltSize),
            ({"hash_offset": 100}, verity.BadHashOffset),
            ({"hash_offset": 512, "no_superblock": True}, verity.BadHashOffset),
            ({"data_blocks": 0}, verity.NoData),
            ({"data_blocks": 1 << 51}, verity.TooLarge),
            ({"data_blocks": (1 << 64) - 1}, verity.TooLarge),
        ):
            with self.assertRaises(verity.Error, msg=words) as caught:
                verity.Params(**{**FIRST, **words})
            self.assertIs(type(caught.exception), kind, words)

    def test_numbers_that_c_would_cut(self):
        for words in (
            {"data_blocks": (1 << 64) + 1},
            {"data_blocks": -1},
            {"hash_type": (1 << 32) + 1},
            {"data_block_size": (1 << 32) + 4096},
            {"hash_block_size": -4096},
            {"hash_offset": 1 << 64},
        ):
            with self.assertRaises(OverflowError, msg=words):
                verity.Params(**{**FIRST, **words})
        params = verity.Params(**FIRST)
        for call in (
            lambda: params.level_start(1 << 64),
            lambda: params.hash_block_start(1 << 64, 0),
            lambda: params.hash_block_start(0, -1),
            lambda: verity.check_block(params, 1 << 64, b"", b"", b""),
            lambda: verity.Params.from_superblock(bytes(512), 1 << 64),
        ):
            self.assertRaises(OverflowError, call)

    def test_types(self):
        for words in {"data_blocks": 1.0}, {"data_blocks": "1"}, {"salt": 5}, {"salt": "ab"}, {"uuid": 16}:
            with self.assertRaises(TypeError, msg=words):
                verity.Params(**{**FIRST, **words})

        class Lying(bytes):
            def __len__(self):
                return 1 << 40

        class Name(str):
            def encode(self, *words):
                return Lying(b"sha256")

        self.assertEqual(verity.Params(1, Name("sha512"), salt=Lying(b"ab")).superblock()[32:38], b"sha512")
        self.assertEqual(verity.Params(1, salt=Lying(b"ab")), verity.Params(1, salt=b"ab"))
        for uuid in bytes(15), bytes(17):
            with self.assertRaisesRegex(ValueError, "16 bytes"):
                verity.Params(1, uuid=uuid)


class Values(unittest.TestCase):
    def test_never_change(self):
        salt = bytearray(b"salt")
        params = verity.Params(1, salt=salt)
        salt[:] = b"tlas"
        self.assertEqual(params.salt, b"salt")
        with self.assertRaises(dataclasses.FrozenInstanceError):
            params.salt = b""
        self.assertEqual(params, verity.Params(1, salt=b"salt"))
        self.assertIs(type(verity.Params(True).data_blocks), int)
        other = verity.Params(1, type("Name", (str,), {"__eq__": None})("sha256"), no_superblock=5)
        self.assertEqual(other, verity.Params(1, no_superblock=True))
        self.assertEqual((type(other.hash_algorithm), other.no_superblock), (str, True))
        self.assertEqual(repr(other), repr(verity.Params(1, no_superblock=True)))
        self.assertNotEqual(params, verity.Params(1, salt=b"tlas"))
        self.assertEqual(len({params, verity.Params(1, salt=b"salt")}), 1)

    def test_copies(self):
        params = verity.Params(**FIRST)
        for other in copy.copy(params), copy.deepcopy(params), pickle.loads(pickle.dumps(params)):
            self.assertEqual(other, params)
            self.assertEqual(other.superblock(), params.superblock())
        other = dataclasses.replace(params, data_blocks=5)
        self.assertEqual((other.data_blocks, other.salt, other.level_count), (5, params.salt, 1))

    def test_same(self):
        params = verity.Params(**FIRST)
        for words in {}, {"uuid": bytes(16)}, {"hash_offset": 4096}, {"no_superblock": True}:
            self.assertIsNone(dataclasses.replace(params, **words).check_same(params))
        for words in (
            {"salt": b""},
            {"salt": b"\xab\xce"},
            {"salt": b"\xab\xcd\0"},
            {"data_blocks": 301},
            {"hash_type": 0},
            {"data_block_size": 512},
            {"hash_block_size": 512},
            {"hash_algorithm": "sha512"},
        ):
            with self.assertRaises(verity.Differs) as caught:
                dataclasses.replace(params, **words).check_same(params)
            self.assertIsNone(caught.exception.level)


class Superblocks(unittest.TestCase):
    def test_fields(self):
        numbers = random.Random(1)
        for name in "sha256", "sha512", "sha1", "sha224", "sha384":
            for length in 0, 1, 255, 256:
                salt, uuid = numbers.randbytes(length), numbers.randbytes(16)
                params = verity.Params(
                    data_blocks=numbers.randrange(1, 10**6),
                    hash_algorithm=name,
                    hash_type=numbers.randrange(2),
                    data_block_size=512 << numbers.randrange(11),
                    hash_block_size=512 << numbers.randrange(11),
                    hash_offset=512 * numbers.randrange(100),
                    salt=salt,
                    uuid=uuid,
                )
                sizes = params.data_block_size, params.hash_block_size
                stated = superblock(Settings(name, *sizes, salt, params.data_blocks, params.hash_type), uuid)
                self.assertEqual(params.superblock(), stated)
                self.assertEqual(verity.Params.from_superblock(bytearray(stated), params.hash_offset), params)
                self.assertEqual(verity.Params.from_superblock(stated + b"more", params.hash_offset), params)

    def test_faults(self):
        stated = verity.Params(**FIRST).superblock()
        for at, byte, kind in (
            (0, 0, verity.BadSignature),
            (8, 2, verity.BadVersion),
            (12, 2, verity.BadHashType),
            (32, 0, verity.BadHashAlgorithm),
            (65, 3, verity.BadDataBlockSize),
            (69, 3, verity.BadHashBlockSize),
            (81, 9, verity.BadSaltSize),
            (79, 255, verity.TooLarge),
        ):
            with self.assertRaises(verity.Error) as caught:
                verity.Params.from_superblock(stated[:at] + bytes([byte]) + stated[at + 1 :])
            self.assertIs(type(caught.exception), kind, at)
        with self.assertRaises(verity.ShortSuperblock):
            verity.Params.from_superblock(stated[:511])
        with self.assertRaises(verity.BadHashOffset):
            verity.Params.from_superblock(stated, 100)
        with self.assertRaisesRegex(BufferError, "contiguous"):
            verity.Params.from_superblock(memoryview(stated * 2)[::2])


class Places(unittest.TestCase):
    def test_places(self):
        numbers = random.Random(2)
        for _ in range(60):
            name = numbers.choice(("sha256", "sha512", "sha1", "sha224", "sha384"))
            size, count = 512 << numbers.randrange(8), numbers.randrange(1, 1 << numbers.randrange(1, 40))
            offset, bare = size * numbers.randrange(9), bool(numbers.randrange(2))
            params = verity.Params(count, name, 1, 4096, size, offset, bare)
            shape = Shape(Settings(name, 4096, size, b"", count, 1), base_of(size, offset, bare))
            self.assertEqual(params.level_count, len(shape.level_sizes))
            self.assertEqual(params.digest_size, shape.length)
            self.assertEqual(params.hash_area_end, shape.end * size)
            for level, blocks in enumerate(shape.level_sizes):
                self.assertEqual(params.level_start(level), (shape.place(level, 0) * size, blocks))
                index = numbers.randrange(count)
                place = shape.place(level, index // shape.fan ** (level + 1))
                self.assertEqual(params.hash_block_start(index, level), place * size)
            for call in params.level_start, lambda level, it=params: it.hash_block_start(0, level):
                with self.assertRaises(verity.NoSuchLevel):
                    call(len(shape.level_sizes))
            with self.assertRaises(verity.NoSuchBlock):
                params.hash_block_start(count, 0)
