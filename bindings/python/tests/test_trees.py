"""TreeBuilder, check_block and CheckedFile. Trees are those of tests/lib/trees.py."""

import copy
import io
import mmap
import pickle
import random
import signal
import threading
import unittest

import verity
from handlers import elsewhere, interrupted, with_handler
from trees import Settings, Tree, base_of, put


class Image:
    """An image: its parameters, its data, the hash device, and the root hash."""

    def __init__(self, seed, count=300, name="sha256", size=512, hash_block_size=512, offset=0, bare=False, kind=1):
        numbers = random.Random(seed)
        self.params = verity.Params(count, name, kind, size, hash_block_size, offset, bare, numbers.randbytes(9))
        self.data = numbers.randbytes(count * size)
        settings = Settings(name, size, hash_block_size, self.params.salt, count, kind)
        self.tree = Tree(settings, base_of(hash_block_size, offset, bare), self.data)
        self.hashes = bytes(self.tree.on(bytearray(numbers.randbytes(offset))))
        self.root = self.tree.root

    def block(self, index):
        size = self.params.data_block_size
        return self.data[index * size : (index + 1) * size]

    def path(self, index):
        params = self.params
        starts = [params.hash_block_start(index, level) for level in range(params.level_count)]
        return b"".join(self.hashes[start : start + params.hash_block_size] for start in starts)

    def opened(self, data=None, hashes=None, root=None):
        changed = data or self.data, self.hashes if hashes is None else hashes, root or self.root
        return verity.CheckedFile(io.BytesIO(changed[0]), io.BytesIO(changed[1]), self.params, changed[2])


def images():
    """Of no level to four, with blocks of several sizes, of all hash functions and both types."""
    for number, (count, size, hash_block_size) in enumerate(
        ((1, 512, 4096), (2, 4096, 512), (16, 512, 512), (17, 512, 512), (300, 512, 512), (140, 1024, 4096))
    ):
        for name in "sha256", "sha512", "sha1":
            offset, bare = hash_block_size * number, number % 2 == 1
            yield Image(number, count, name, size, hash_block_size, offset, bare, number // 2 % 2)


def flipped(data, at):
    return data[:at] + bytes([data[at] ^ 1]) + data[at + 1 :]


class Building(unittest.TestCase):
    def test_pieces(self):
        numbers = random.Random(1)
        for image in images():
            for most in 1, 700, 1 << 20:
                builder, device, at, places = verity.TreeBuilder(image.params), bytearray(), 0, set()
                while at < len(image.data):
                    piece = image.data[at : at + numbers.randrange(most + 1)]
                    at += len(piece)
                    for block in builder.feed(numbers.choice((bytes, bytearray, memoryview))(piece)):
                        self.assertEqual(image.tree.levels[block.level][block.index], block.data)
                        self.assertEqual(len(block.data), image.params.hash_block_size)
                        self.assertIs(type(block.data), bytes)
                        places.add((block.level, block.index))
                        put(device, block.start, block.data)
                    if most == 1 and at > 2000:
                        most = 5000
                self.assertEqual(builder.root_hash(), image.root)
                self.assertEqual(builder.root_hash(), image.root)
                self.assertEqual(builder.feed(b""), [])
                counts = image.tree.level_sizes
                self.assertEqual(places, {(level, i) for level, count in enumerate(counts) for i in range(count)})
                begin = image.params.hash_area_end - sum(counts) * image.params.hash_block_size
                self.assertEqual(device[begin:], image.hashes[begin:])
                self.assertIs(builder.params, image.params)

    def test_refused(self):
        image = Image(1)
        builder = verity.TreeBuilder(image.params)
        found = builder.feed(image.data[:-1])
        for _ in range(2):
            with self.assertRaises(verity.TooShort):
                builder.root_hash()
            with self.assertRaises(verity.TooLong):
                builder.feed(bytes(2))
            with self.assertRaisesRegex(BufferError, "contiguous"):
                builder.feed(memoryview(image.data)[::2])
            with self.assertRaises(TypeError):
                builder.feed("text")
        found += builder.feed(image.data[-1:])
        self.assertEqual(builder.root_hash(), image.root)
        self.assertEqual(len(found), sum(map(len, image.tree.levels)))
        with self.assertRaises(verity.TooLong):
            builder.feed(b"x")

    def test_more_than_32_bits(self):
        """A length isn't cut: 4 GiB and one block aren't one block, and have room for a superblock."""
        with mmap.mmap(-1, (4 << 30) + 4096, prot=mmap.PROT_READ) as zeros:
            with self.assertRaises(verity.TooLong):
                verity.TreeBuilder(verity.Params(1)).feed(zeros)
            with self.assertRaises(verity.BadLength):
                verity.check_block(verity.Params(1), 0, zeros, b"", bytes(32))
            with memoryview(zeros)[: (4 << 30) + 5] as cut, self.assertRaises(verity.BadSignature):
                verity.Params.from_superblock(cut)

    def test_not_copied(self):
        for make in copy.copy, copy.deepcopy, pickle.dumps:
            with self.assertRaisesRegex(TypeError, "TreeBuilder can't be pickled or copied"):
                make(verity.TreeBuilder(verity.Params(1)))

    def test_interrupted(self):
        """Where hash blocks may be lost, no root hash says that all is well."""
        image = Image(1)
        builder = verity.TreeBuilder(image.params)
        good, builder._state.handed_out = builder._state.handed_out, lambda fed: 1 // 0
        with self.assertRaises(ZeroDivisionError):
            builder.feed(image.data)
        builder._state.handed_out = good
        for use in lambda: builder.feed(b""), builder.root_hash:
            with self.assertRaisesRegex(RuntimeError, "interrupted"):
                use()

    def test_interrupted_anywhere(self):
        """Before each instruction: the interrupt comes through, and no other thread waits for ever."""
        image, place = Image(1, 2), 0
        while True:
            builder = verity.TreeBuilder(image.params)
            if not interrupted(lambda: builder.feed(image.data), place):
                break
            self.assertIn(elsewhere(builder.root_hash), (verity.TooShort, RuntimeError, image.root))
            place += 1
        self.assertGreater(place, 100)
        place = 0
        while interrupted(builder.root_hash, place):
            self.assertEqual(elsewhere(builder.root_hash), image.root)
            place += 1
        self.assertGreater(place, 25)

    def test_handlers(self):
        """A handler that feeds as well, before each line: it is refused, or comes before the piece or after it."""
        image, turns, refused = Image(1), 0, []

        def handler():
            nonlocal turns
            turns += 1
            try:
                assert builder.feed(b"") == []
            except RuntimeError as fault:
                refused.append(str(fault))

        builder = verity.TreeBuilder(image.params)
        found = with_handler(lambda: builder.feed(image.data), handler)
        self.assertEqual(with_handler(builder.root_hash, handler), image.root)
        self.assertEqual(len(found), sum(map(len, image.tree.levels)))
        self.assertGreater(turns, len(refused))
        self.assertEqual(set(refused), {"a call to feed was interrupted, or isn't over: begin the tree anew"})

    def test_threads(self):
        """Pieces of zeros from many threads: each hash block once, and the root hash."""
        params = verity.Params(4096, data_block_size=4096, hash_block_size=512)
        builder, found, piece = verity.TreeBuilder(params), [], bytes(4096 * 32)

        def work():
            for _ in range(16):
                found.extend(builder.feed(piece))

        threads = [threading.Thread(target=work) for _ in range(8)]
        for thread in threads:
            thread.start()
        for thread in threads:
            thread.join()
        settings = Settings("sha256", 4096, 512, b"", 4096, 1)
        tree = Tree(settings, 1, bytes(4096 * 4096))
        self.assertEqual(builder.root_hash(), tree.root)
        self.assertEqual(len(found), sum(map(len, tree.levels)))
        for block in found:
            self.assertEqual(block.data, tree.levels[block.level][block.index])


class Checking(unittest.TestCase):
    def test_blocks(self):
        numbers = random.Random(2)
        for image in images():
            params = image.params
            for index in {0, params.data_blocks - 1, numbers.randrange(params.data_blocks)}:
                block, path = image.block(index), image.path(index)
                for kind in bytes, bytearray, memoryview:
                    self.assertIsNone(verity.check_block(params, index, kind(block), kind(path), kind(image.root)))
                for wrong, level in (
                    ((index, flipped(block, numbers.randrange(len(block))), path, image.root), 0),
                    ((index, block, path, flipped(image.root, 3)), params.level_count),
                    ((index, image.block((index + 1) % params.data_blocks), path, image.root), 0),
                ):
                    if wrong[1] != block or wrong[3] != image.root:
                        with self.assertRaises(verity.Differs) as caught:
                            verity.check_block(params, *wrong)
                        self.assertEqual(caught.exception.level, level)
                for level in range(params.level_count):
                    # A byte of the slot of another block, or of what is over, differs one level up.
                    at = level * params.hash_block_size
                    slot = at + index // image.tree.fan**level % image.tree.fan * image.tree.width
                    other = at + (slot - at + image.tree.width) % params.hash_block_size
                    for place, found in (slot, level), (other, level + 1):
                        with self.assertRaises(verity.Differs) as caught:
                            verity.check_block(params, index, block, flipped(path, place), image.root)
                        self.assertEqual(caught.exception.level, found)

    def test_refused(self):
        image = Image(3)
        words = {"index": 7, "block": image.block(7), "path": image.path(7), "root_hash": image.root}
        for word, value, kind in (
            ("index", 300, verity.NoSuchBlock),
            ("index", (1 << 64) - 1, verity.NoSuchBlock),
            ("index", -1, OverflowError),
            ("index", 7.0, TypeError),
            ("block", image.block(7)[:-1], verity.BadLength),
            ("block", image.block(7) + b"x", verity.BadLength),
            ("block", b"", verity.BadLength),
            ("path", image.path(7)[:-1], verity.BadLength),
            ("path", b"", verity.BadLength),
            ("root_hash", image.root[:-1], verity.BadRootLength),
            ("root_hash", b"", verity.BadRootLength),
            ("root_hash", image.root.hex(), TypeError),
            ("block", memoryview(image.data)[: 512 * 2 : 2], BufferError),
            ("path", memoryview(image.path(7) * 2)[::2], BufferError),
        ):
            with self.assertRaises(kind, msg=word) as caught:
                verity.check_block(image.params, **{**words, word: value})
            self.assertIs(type(caught.exception), kind)


class Reading(unittest.TestCase):
    def test_right(self):
        numbers = random.Random(4)
        for image in images():
            file = image.opened()
            self.assertEqual(file.read(), image.data)
            self.assertEqual(file.read(), b"")
            self.assertEqual(image.opened().readall(), image.data)
            for _ in range(20):
                begin, count = numbers.randrange(len(image.data) + 10), numbers.randrange(5000)
                self.assertEqual(file.seek(begin), begin)
                self.assertEqual(file.read(count), image.data[begin : begin + count])
                self.assertEqual(file.tell(), max(begin, min(begin + count, len(image.data))))
            buffered = io.BufferedReader(image.opened(), 1000)
            self.assertEqual(b"".join(iter(lambda it=buffered: it.read(777), b"")), image.data)

    def test_places(self):
        file, size = Image(5).opened(), 300 * 512
        self.assertEqual((file.readable(), file.seekable(), file.writable()), (True, True, False))
        self.assertEqual(file.seek(-5, io.SEEK_END), size - 5)
        self.assertEqual((file.seek(3, io.SEEK_CUR), file.tell()), (size - 2, size - 2))
        self.assertEqual(len(file.read(10)), 2)
        for words in ((-1,), (-1 - size, io.SEEK_END), (0, 7)):
            with self.assertRaises(ValueError):
                file.seek(*words)
        for words in ((1.0,), ("1",)):
            with self.assertRaises(TypeError):
                file.seek(*words)
        self.assertEqual(file.tell(), size)

    def refuses(self, image, bad, **changed):
        """Just these blocks can't be read, in order and at random, with a file for all and a file for each."""
        size, count = image.params.data_block_size, image.params.data_blocks
        file = image.opened(**changed)
        for index in [*range(count), *random.Random(6).choices(range(count), k=50)]:
            for it in file, image.opened(**changed):
                room = bytearray(b"?" * 100)
                it.seek(index * size + 10)
                if index in bad:
                    with self.assertRaises(verity.Error):
                        it.readinto(room)
                    self.assertEqual((it.tell(), room), (index * size + 10, b"?" * 100))
                else:
                    self.assertEqual((it.readinto(room), room), (100, image.block(index)[10:110]))

    def test_changed(self):
        numbers = random.Random(7)
        for image in Image(6, 20), Image(7, 40, hash_block_size=1024, name="sha512", kind=0), Image(8, 1):
            params, tree = image.params, image.tree
            every = set(range(params.data_blocks))
            for index in {0, params.data_blocks - 1}:
                at = index * params.data_block_size + numbers.randrange(params.data_block_size)
                self.refuses(image, {index}, data=flipped(image.data, at))
            for level, blocks in enumerate(tree.levels):
                below = tree.fan ** (level + 1)
                for number in {0, len(blocks) - 1}:
                    start = params.level_start(level)[0] + number * params.hash_block_size
                    bad = {index for index in every if index // below == number}
                    at = start + numbers.randrange(params.hash_block_size)
                    self.refuses(image, bad, hashes=flipped(image.hashes, at))
            self.refuses(image, every, root=flipped(image.root, 0))
            for root in image.root + b"x", image.root[:-1], b"":
                with self.assertRaises(verity.BadRootLength):
                    verity.CheckedFile(io.BytesIO(image.data), io.BytesIO(image.hashes), params, root)
            self.refuses(image, {params.data_blocks - 1}, data=image.data[:-1])
            if tree.levels:
                self.refuses(image, every, hashes=b"")

    def test_ends_before_a_bad_block(self):
        image = Image(9)
        file = image.opened(data=flipped(image.data, 512 * 3))
        self.assertEqual(file.read(5000), image.data[: 512 * 3])
        for _ in range(2):
            with self.assertRaises(verity.Differs) as caught:
                file.read(5000)
            self.assertEqual((caught.exception.level, file.tell()), (0, 512 * 3))
        with self.assertRaises(verity.Differs):
            image.opened(data=flipped(image.data, 512 * 3)).readall()
        buffered = io.BufferedReader(image.opened(data=flipped(image.data, 512 * 3)), 4096)
        self.assertEqual(buffered.read(1000), image.data[:1000])

    def test_files_that_lie(self):
        """Bytes that a file changes after it gave them are handed out as they were checked."""
        image = Image(10)

        class Lying(io.BytesIO):
            given = []

            def read(self, size=-1):
                for piece in self.given:
                    piece[:] = bytes(len(piece))
                self.given.append(bytearray(super().read(size)))
                return self.given[-1]

        file = verity.CheckedFile(Lying(image.data), Lying(image.hashes), image.params, bytearray(image.root))
        self.assertEqual(file.read(), image.data)
        file.seek(0)
        self.assertEqual(file.read(), image.data)

        class Short(io.BytesIO):
            def read(self, size=-1):
                return super().read(min(size, 100))

        class Long(io.BytesIO):
            def read(self, size=-1):
                return super().read(size + 1)

        file = verity.CheckedFile(Short(image.data), Short(image.hashes), image.params, image.root)
        self.assertEqual(file.read(), image.data)
        for files in (Long(image.data), io.BytesIO(image.hashes)), (io.BytesIO(image.data), Long(image.hashes)):
            with self.assertRaises(verity.BadLength):
                verity.CheckedFile(*files, image.params, image.root).read()

    def test_calls_within_calls(self):
        """A file that reads the checked file itself is refused, and what it has read meanwhile passes for nothing."""
        image, evil = Image(15), [False]
        # Blocks 0 to 15 and the hash block above them are those of 256 to 271, which would be accepted one level up.
        start = image.params.level_start(0)[0]
        moved = bytearray(image.hashes)
        moved[start : start + 512] = moved[start + 16 * 512 : start + 17 * 512]
        refused = []

        class Reading(io.BytesIO):
            def read(self, size=-1):
                at, found = self.tell(), super().read(size)
                if evil[0] and at == start:
                    evil[0] = False
                    place = file.tell()
                    for name, word in ("seek", 280 * 512), ("readinto", bytearray(512)), ("read", 9):
                        try:
                            getattr(file, name)(word)
                        except RuntimeError as fault:
                            refused.append(str(fault))
                    self.seek(at + len(found))
                    assert file.tell() == place
                return found

        data = io.BytesIO(image.data[256 * 512 : 272 * 512] + image.data[16 * 512 :])
        file = verity.CheckedFile(data, Reading(moved), image.params, image.root)
        evil[0] = True
        with self.assertRaises(verity.Differs):
            file.read(16 * 512)
        self.assertEqual(refused, ["the file is already being read, by a call that isn't over"] * 3)
        file.seek(280 * 512)
        self.assertEqual(file.read(512), image.block(280))
        file.seek(5 * 512)
        with self.assertRaises(verity.Differs):
            file.read(512)

    def test_handlers(self):
        """A handler that reads elsewhere, before each line: it is refused, or reads what is there. So does the call."""
        image, turn = Image(16), [0]
        file = image.opened()
        done = {True: 0, False: 0}

        def handler():
            turn[0] += 1
            place, index = file.tell(), turn[0] * 37 % 300
            try:
                file.seek(index * 512)
            except RuntimeError:
                done[False] += 1
            else:
                done[True] += 1
                self.assertEqual(file.read(512), image.block(index))
                file.seek(place)

        for index in range(0, 300, 7):
            file.seek(index * 512)
            found = with_handler(lambda: file.read(1024), handler)
            self.assertEqual(found, image.data[index * 512 : index * 512 + 1024])
        self.assertGreater(min(done.values()), 100)

    def test_interrupted(self):
        """Before each instruction: the interrupt comes through, no other thread waits for ever, and the file stands
        where it stood, or at the end of what was read. What comes then is right."""
        image, place = Image(18, 20), 0
        while True:
            file = image.opened()
            if not interrupted(lambda: file.read(1024), place):
                break
            begin = file.tell()
            self.assertIn(begin, (0, 1024))
            self.assertEqual(elsewhere(lambda: file.read(700)), image.data[begin : begin + 700])
            place += 1
        self.assertGreater(place, 200)
        place = 0
        while interrupted(lambda: file.seek(512), place):
            self.assertIn(elsewhere(file.tell), (512, 1024))
            self.assertEqual(elsewhere(lambda: file.seek(1024)), 1024)
            place += 1
        self.assertGreater(place, 25)

    def test_an_alarm(self):
        """What a handler raises while a block is read isn't lost, whatever it is, and neither are the bytes."""
        image, left = Image(19, 20), [0]

        class Slow(io.BytesIO):
            def read(self, size=-1):
                left[0] -= 1
                if left[0] == 0:
                    signal.raise_signal(signal.SIGALRM)
                return super().read(size)

        def ring(_number, _frame):
            raise kind("it takes too long")

        before = signal.signal(signal.SIGALRM, ring)
        try:
            for kind in TimeoutError, ValueError, StopIteration, KeyboardInterrupt:
                # 20 data blocks and three hash blocks are read.
                for left_before in range(1, 24):
                    left[0] = left_before
                    files = Slow(image.data), Slow(image.hashes)
                    file, found = verity.CheckedFile(*files, image.params, image.root), b""
                    with self.assertRaisesRegex(kind, "it takes too long"):
                        for _ in range(20):
                            found += file.read(2000)
                    self.assertEqual(found + file.read(), image.data)
                    # All at once: then no byte was handed out.
                    left[0], file = left_before, verity.CheckedFile(*files, image.params, image.root)
                    with self.assertRaisesRegex(kind, "it takes too long"):
                        file.read()
                    self.assertEqual(file.read(), image.data)
        finally:
            signal.signal(signal.SIGALRM, before)

    def test_no_bytes_yet(self):
        image, silent = Image(17, 20), [False]

        class Silent(io.BytesIO):
            def read(self, size=-1):
                return None if silent[0] else super().read(size)

        for files in (Silent(image.data), io.BytesIO(image.hashes)), (io.BytesIO(image.data), Silent(image.hashes)):
            file, silent[0] = verity.CheckedFile(*files, image.params, image.root), True
            with self.assertRaises(BlockingIOError):
                file.read(100)
            silent[0] = False
            self.assertEqual(file.read(), image.data)

    def test_no_more_bytes_yet(self):
        """A file that has no bytes after the third block ends the read, and is asked again by the next."""
        image, left = Image(17, 20), [4]

        class Silent(io.BytesIO):
            def read(self, size=-1):
                left[0] -= 1
                return None if left[0] == 0 else super().read(size)

        file = verity.CheckedFile(Silent(image.data), io.BytesIO(image.hashes), image.params, image.root)
        self.assertEqual(file.read(2000), image.data[:1536])
        self.assertEqual(file.read(), image.data[1536:])

    def test_buffers(self):
        file = Image(11).opened()
        data = Image(11).data
        for buffer in memoryview(bytearray(900)), memoryview(bytearray(900)).cast("B", (30, 30)):
            file.seek(100)
            self.assertEqual(file.readinto(buffer), 900)
            self.assertEqual(buffer.tobytes(), data[100:1000])
        self.assertEqual(file.readinto(bytearray()), 0)
        for buffer in bytes(10), memoryview(bytearray(10))[::2], "text":
            with self.assertRaises(TypeError):
                file.readinto(buffer)
        self.assertEqual(file.tell(), 1000)

    def test_closed(self):
        image = Image(12)
        data, hashes = io.BytesIO(image.data), io.BytesIO(image.hashes)
        with verity.CheckedFile(data, hashes, image.params, image.root) as file:
            file.read(10)
        self.assertTrue(file.closed)
        self.assertFalse(data.closed or hashes.closed)
        for name, words in ("read", (1,)), ("readinto", (bytearray(1),)), ("seek", (0,)), ("tell", ()), ("readall", ()):
            with self.assertRaises(ValueError):
                getattr(file, name)(*words)

    def test_threads(self):
        """One file, read by many threads: each read is of one place, and all together are the data."""
        image = Image(13)
        file, found = image.opened(), []

        def work():
            for piece in iter(lambda: file.read(512 * 3), b""):
                found.append(piece)

        threads = [threading.Thread(target=work) for _ in range(8)]
        for thread in threads:
            thread.start()
        for thread in threads:
            thread.join()
        stated = [image.data[at : at + 512 * 3] for at in range(0, len(image.data), 512 * 3)]
        self.assertEqual(sorted(found), sorted(stated))

    def test_not_copied(self):
        for make in copy.copy, copy.deepcopy, pickle.dumps:
            with self.assertRaisesRegex(TypeError, "CheckedFile can't be pickled or copied"):
                make(Image(14).opened())
