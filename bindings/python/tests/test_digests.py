"""FileDigest and file_digest: hashlib's habits, buffers, threads. Digests are those that Debian's fsverity prints, or
those of the trees of tests/lib/trees.py."""

import array
import copy
import ctypes
import io
import mmap
import os
import pickle
import random
import signal
import tempfile
import threading
import time
import tracemalloc
import unittest

import verity
from handlers import elsewhere, interrupted, with_handler
from trees import FileTree

A = "bce75948b9e7510293f8f2720412af9697c1479281323f3f220623fb8e94b557"
EMPTY = "3d248ca542a24fc62d1c43b916eae5016878e2533c88238480b26128a1f1af95"


def expected(data, name="sha256", block=4096, salt=b""):
    """The file digest by a second reading of the definitions."""
    return FileTree(name, block, salt, data).digest.hex()


class Habits(unittest.TestCase):
    def test_stated(self):
        self.assertEqual(verity.FileDigest(b"a").hexdigest(), A)
        self.assertEqual(verity.FileDigest().hexdigest(), EMPTY)

    def test_words_of_hashlib(self):
        for name, size in ("sha256", 32), ("sha512", 64):
            digest = verity.FileDigest(b"a", name=name, block_size=1024)
            self.assertEqual((digest.name, digest.digest_size, digest.block_size), (name, size, 1024))
            self.assertEqual(digest.digest().hex(), digest.hexdigest())
            self.assertEqual(len(digest.digest()), size)
            self.assertIs(type(digest.digest()), bytes)
        self.assertIsNone(digest.update(b"a"))

    def test_twice_and_on(self):
        data = random.Random(1).randbytes(70000)
        for end in 0, 1, 4096, 4097, 70000:
            digest = verity.FileDigest(data[:end])
            for _ in range(2):
                self.assertEqual(digest.hexdigest(), expected(data[:end]))
            digest.update(b"")
            self.assertEqual(digest.hexdigest(), expected(data[:end]))
        digest = verity.FileDigest()
        for at in range(0, 70000, 7000):
            digest.update(data[at : at + 7000])
            self.assertEqual(digest.hexdigest(), expected(data[: at + 7000]))

    def test_copy(self):
        data = random.Random(2).randbytes(30000)
        for make in (verity.FileDigest.copy, copy.copy):
            one = verity.FileDigest(data[:10000], name="sha512", block_size=2048, salt=b"salt")
            other = make(one)
            self.assertEqual((other.name, other.block_size), ("sha512", 2048))
            one.update(b"x")
            other.update(data[10000:])
            self.assertEqual(one.hexdigest(), expected(data[:10000] + b"x", "sha512", 2048, b"salt"))
            self.assertEqual(other.hexdigest(), expected(data, "sha512", 2048, b"salt"))
            del one
            other.update(b"y")
            self.assertEqual(other.hexdigest(), expected(data + b"y", "sha512", 2048, b"salt"))

    def test_not_pickled(self):
        for make in (pickle.dumps, copy.deepcopy):
            with self.assertRaisesRegex(TypeError, "FileDigest can't be pickled"):
                make(verity.FileDigest())

    def test_settings(self):
        numbers = random.Random(3)
        for name in "sha256", "sha512":
            for block in (128 if name == "sha512" else 64), 1024, 65536, 524288:
                for length in (0, 1, 31, 32) if block < 65536 else (32,):
                    data, salt = numbers.randbytes(numbers.randrange(3 * block)), numbers.randbytes(length)
                    digest = verity.FileDigest(data, name=name, block_size=block, salt=bytearray(salt))
                    self.assertEqual(digest.hexdigest(), expected(data, name, block, salt), (name, block, length))

    def test_subclass(self):
        class Counting(verity.FileDigest):
            def __init__(self, note):
                super().__init__(name="sha512")
                self.note, self.count = note, 0

            def update(self, data):
                self.count += 1
                super().update(data)

        one = Counting("note")
        one.update(b"a")
        other = one.copy()
        other.update(b"b")
        self.assertIs(type(other), Counting)
        self.assertEqual((other.note, one.count, other.count), ("note", 1, 2))
        self.assertEqual(one.hexdigest(), expected(b"a", "sha512"))
        self.assertEqual(other.hexdigest(), expected(b"ab", "sha512"))

    def test_without_init(self):
        for use in (lambda it: it.update(b""), lambda it: it.digest(), lambda it: it.copy(), lambda it: it.name):
            with self.assertRaises(AttributeError):
                use(verity.FileDigest.__new__(verity.FileDigest))

    def test_begun_anew(self):
        digest = verity.FileDigest(b"abc", block_size=524288)
        digest.__init__(b"a")
        self.assertEqual(digest.hexdigest(), A)

    def test_refused(self):
        for words, kind in (
            ({"name": "md5"}, verity.BadHashAlgorithm),
            ({"name": "sha1"}, verity.BadHashAlgorithm),
            ({"name": "SHA256"}, verity.BadHashAlgorithm),
            ({"name": ""}, verity.BadHashAlgorithm),
            ({"block_size": 1000}, verity.BadDataBlockSize),
            ({"block_size": 32}, verity.BadDataBlockSize),
            ({"block_size": 1 << 20}, verity.BadDataBlockSize),
            ({"salt": bytes(33)}, verity.BadSaltSize),
            ({"block_size": (1 << 32) + 4096}, OverflowError),
            ({"block_size": -4096}, OverflowError),
            ({"block_size": 4096.0}, TypeError),
            ({"salt": 5}, TypeError),
            ({"salt": "ab"}, TypeError),
        ):
            with self.assertRaises(kind, msg=words) as caught:
                verity.FileDigest(**words)
            self.assertIs(type(caught.exception), kind)
        # Nobody feeds so many bytes.
        digest = verity.FileDigest(b"abc")
        digest._state.params.size = (1 << 63) - 2
        with self.assertRaises(verity.TooLarge):
            digest.update(b"abc")
        for kind in verity.Error, ValueError:
            with self.assertRaises(kind) as caught:
                verity.FileDigest(name="md5")
        self.assertEqual(caught.exception.status, -6)
        self.assertRegex(str(caught.exception), "hash")


class Buffers(unittest.TestCase):
    def test_kinds(self):
        data = random.Random(4).randbytes(24 << 10)
        with tempfile.TemporaryFile() as file, mmap.mmap(-1, len(data)) as memory:
            file.write(data)
            file.flush()
            memory[:] = data
            with mmap.mmap(file.fileno(), 0, access=mmap.ACCESS_READ) as read_only:
                for buffer in (
                    bytearray(data),
                    memoryview(data),
                    memoryview(bytearray(data)).toreadonly(),
                    memoryview(b"x" + data + b"x")[1:-1],
                    memoryview(data).cast("I"),
                    memoryview(data).cast("B", (24, 1024)),
                    array.array("Q", data),
                    (ctypes.c_char * len(data)).from_buffer_copy(data),
                    memory,
                    read_only,
                    type("Bytes", (bytes,), {"__len__": lambda self: 5})(data),
                ):
                    self.assertEqual(verity.FileDigest(buffer).hexdigest(), expected(data), type(buffer))

    def test_empty(self):
        views = memoryview(b""), memoryview(b"ab")[1:1]
        for buffer in (b"", bytearray(), *views, array.array("I"), (ctypes.c_char * 0)()):
            digest = verity.FileDigest(buffer)
            digest.update(b"a")
            digest.update(buffer)
            self.assertEqual(digest.hexdigest(), A)

    def test_refused(self):
        digest = verity.FileDigest(b"a")
        rows = memoryview(bytes(64)).cast("B", (8, 8))
        for buffer, kind, why in (
            (memoryview(bytes(10))[::2], BufferError, "contiguous"),
            (memoryview(bytes(10))[::-1], BufferError, "contiguous"),
            (memoryview(bytearray(10))[::2], BufferError, "contiguous"),
            (rows[::2], BufferError, "contiguous"),
            ("text", TypeError, "bytes-like"),
            (None, TypeError, "bytes-like"),
            (7, TypeError, "bytes-like"),
            ([1, 2], TypeError, "bytes-like"),
        ):
            with self.assertRaisesRegex(kind, why):
                digest.update(buffer)
        released = memoryview(b"a")
        released.release()
        with self.assertRaises(ValueError):
            digest.update(released)
        self.assertEqual(digest.hexdigest(), A)

    def test_not_copied(self):
        size = 8 << 20
        with mmap.mmap(-1, size) as memory, mmap.mmap(-1, size, prot=mmap.PROT_READ) as read_only:
            for buffer in bytes(size), bytearray(size), memoryview(bytearray(size))[1:], memory, read_only:
                digest = verity.FileDigest()
                tracemalloc.start()
                digest.update(buffer)
                _, peak = tracemalloc.get_traced_memory()
                tracemalloc.stop()
                self.assertLess(peak, 1 << 16, type(buffer))

    def test_not_resized(self):
        """A bytearray keeps its place while it is read, and only so long."""
        for _ in range(20):
            data, begun = bytearray(32 << 20), threading.Event()

            def work(data=data, begun=begun):
                digest = verity.FileDigest()
                begun.set()
                digest.update(data)

            thread, refused = threading.Thread(target=work), 0
            thread.start()
            begun.wait()
            while thread.is_alive():
                try:
                    data.append(0)
                    data.pop()
                except BufferError:
                    refused += 1
                time.sleep(0.0005)
            thread.join()
            data.append(0)
            if refused:
                return
        self.fail("it could be resized at any time")

    def test_released_after_a_fault(self):
        tree, data = verity.TreeBuilder(verity.Params(1)), bytearray(4097)
        try:
            tree.feed(data)
        except verity.TooLong:
            data.append(0)
        self.assertEqual(len(data), 4098)


class Threads(unittest.TestCase):
    def test_interpreter_goes_on(self):
        """Others run while one thread hashes."""
        for _ in range(20):
            data, begun = bytes(64 << 20), threading.Event()

            def work(data=data, begun=begun):
                begun.set()
                verity.FileDigest(data)

            thread, turns = threading.Thread(target=work), 0
            thread.start()
            begun.wait()
            while thread.is_alive():
                time.sleep(0.001)
                turns += 1
            thread.join()
            if turns > 10:
                return
        self.fail("nothing else ran")

    def test_one_object(self):
        """Pieces of the same bytes, from many threads, with digests and copies meanwhile."""
        # So long that each has several hash blocks: then a copy of a state that is being changed is noticed.
        piece, turns, count = random.Random(5).randbytes((1 << 20) + 100), 4, 8
        digest, faults = verity.FileDigest(), []
        known = {}
        whole = verity.FileDigest()
        for number in range(turns * count + 1):
            known[whole.hexdigest()] = number
            whole.update(piece)

        def work():
            for turn in range(turns):
                digest.update(piece if turn % 2 else bytearray(piece))

        def watch(look):
            while any(thread.is_alive() for thread in threads):
                # It comes back while another thread hashes.
                time.sleep(0.0001)
                faults.extend({look()} - known.keys())

        looks = (digest.hexdigest, lambda: digest.copy().hexdigest())
        threads = [threading.Thread(target=work) for _ in range(count)]
        watching = [threading.Thread(target=watch, args=(look,)) for look in looks]
        for thread in threads + watching:
            thread.start()
        for thread in threads + watching:
            thread.join()
        self.assertEqual(faults, [])
        self.assertEqual(known.get(digest.hexdigest()), turns * count)
        self.assertEqual(digest.hexdigest(), expected(piece * (turns * count)))

    def test_many_objects(self):
        data = random.Random(6).randbytes(1 << 20)
        found = [None] * 8

        def work(number):
            found[number] = verity.FileDigest(data[number:]).hexdigest()

        threads = [threading.Thread(target=work, args=(number,)) for number in range(8)]
        for thread in threads:
            thread.start()
        for thread in threads:
            thread.join()
        self.assertEqual(found, [expected(data[number:]) for number in range(8)])


class Handlers(unittest.TestCase):
    def test_calls_within_calls(self):
        """What a handler of a signal feeds comes before a piece or after it, and its digests and copies are right."""
        known = {expected(b"a" * count): count for count in range(1000)}
        for make in bytes, bytearray, memoryview:
            digest, found, count = verity.FileDigest(), [], [0]

            def handler():
                digest.update(b"a")
                count[0] += 1
                found.extend((digest.hexdigest(), digest.copy().hexdigest()))

            for _ in range(3):
                with_handler(lambda: digest.update(make(b"a" * 7)), handler)
                copied = with_handler(digest.copy, handler)
                found += [copied.hexdigest(), with_handler(digest.hexdigest, handler)]
            self.assertGreater(count[0], 30)
            self.assertLessEqual(set(found), set(known))
            self.assertEqual(known[digest.hexdigest()], 21 + count[0])

    def test_a_signal(self):
        """A signal while the library works: its handler runs once the piece is hashed, or before on a slow machine."""
        data, digest = b"a" * (64 << 20), verity.FileDigest()
        known = [verity.FileDigest(whole).hexdigest() for whole in (data + b"x", b"x" + data)]
        before = signal.signal(signal.SIGALRM, lambda *_: digest.update(b"x"))
        try:
            signal.setitimer(signal.ITIMER_REAL, 0.005)
            digest.update(data)
        finally:
            signal.setitimer(signal.ITIMER_REAL, 0)
            signal.signal(signal.SIGALRM, before)
        self.assertIn(digest.hexdigest(), known)

    def test_interrupted(self):
        """Before each instruction: the interrupt comes through, nothing stays locked, for other threads too, and a
        piece was fed or wasn't."""
        for make in bytes, bytearray, lambda data: memoryview(bytearray(data)).toreadonly():
            place = 0
            while True:
                data, digest = make(b"a"), verity.FileDigest()
                if not interrupted(lambda: digest.update(data), place):
                    break
                self.assertIn(elsewhere(digest.hexdigest), (A, EMPTY))
                if isinstance(data, bytearray):
                    data.append(0)
                elif isinstance(data, memoryview):
                    data.release()
                place += 1
            self.assertGreater(place, 25)
        for use in verity.FileDigest.hexdigest, verity.FileDigest.copy:
            place, digest = 0, verity.FileDigest(b"a")
            while interrupted(lambda: use(digest), place):
                self.assertEqual(elsewhere(digest.hexdigest), A)
                place += 1
            self.assertGreater(place, 25)


class Files(unittest.TestCase):
    def test_files(self):
        data = random.Random(7).randbytes(600000)
        with tempfile.NamedTemporaryFile() as file:
            file.write(data)
            file.flush()
            for buffering in 0, -1:
                with open(file.name, "rb", buffering=buffering) as opened:
                    opened.seek(5)
                    self.assertEqual(verity.file_digest(opened).hexdigest(), expected(data[5:]))
                    self.assertEqual(opened.read(), b"")
            with open(file.name, encoding="latin-1") as opened, self.assertRaisesRegex(ValueError, "as bytes"):
                verity.file_digest(opened)
        digest = verity.file_digest(io.BytesIO(data), name="sha512", block_size=1024, salt=b"ab")
        self.assertEqual(digest.hexdigest(), expected(data, "sha512", 1024, b"ab"))
        digest.update(b"more")
        self.assertEqual(digest.hexdigest(), expected(data + b"more", "sha512", 1024, b"ab"))

    def test_pipe(self):
        reading, writing = os.pipe()
        os.set_blocking(reading, False)
        with open(reading, "rb", buffering=0) as reader:
            with open(writing, "wb", buffering=0) as writer:
                writer.write(b"a")
                with self.assertRaises(BlockingIOError):
                    verity.file_digest(reader)
                writer.write(b"a")
            self.assertEqual(verity.file_digest(reader).hexdigest(), A)

    def test_a_fault_goes_on(self):
        class Failing(io.RawIOBase):
            def readable(self):
                return True

            def readinto(self, buffer):
                raise OSError("worn out")

        with self.assertRaisesRegex(OSError, "worn out"):
            verity.file_digest(Failing())
