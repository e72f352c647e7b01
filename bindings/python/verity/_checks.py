"""Checks of the data blocks of a dm-verity image."""

from __future__ import annotations

import io
import operator
from ctypes import byref, c_size_t, c_uint64
from typing import TYPE_CHECKING, Any, Callable, Optional, Protocol

from . import _library
from ._errors import BadRootLength, Error, check_at, error
from ._library import unsigned, view, whole_bytes
from ._locks import Lock
from ._params import Params

if TYPE_CHECKING:
    from _typeshed import ReadableBuffer, WriteableBuffer


def check_block(
    params: Params, index: int, block: ReadableBuffer, path: ReadableBuffer, root_hash: ReadableBuffer
) -> None:
    """Raises `Differs` unless this is data block `index`. The path is the hash blocks above it, one after another,
    level 0 first."""
    level = c_size_t()
    number = unsigned("index", index, c_uint64)
    check_at(_checked(params, number, block, path, root_hash, level), level.value)


def _checked(
    params: Params, index: int, block: ReadableBuffer, path: ReadableBuffer, root: ReadableBuffer, level: c_size_t
) -> int:
    views = view(block), view(path), view(root)
    words = [word for _view, at, length in views for word in (at, length)]
    return _library.check_block(params._struct, index, *words, byref(level))


class _File(Protocol):
    def seek(self, offset: int, /) -> Any: ...

    def read(self, size: int, /) -> Optional[bytes]: ...


class CheckedFile(io.RawIOBase):
    """The data of a dm-verity image as a raw file, which hands out only bytes that were checked.

    `data` and `hashes` are files that are open for reading as bytes. As long as this file is read nobody else seeks in
    them, and they stay open when it is closed. At a block that isn't the image's a read ends, or raises if it would
    begin there. Another thread needs another one, with files of its own.
    """

    def __init__(self, data: _File, hashes: _File, params: Params, root_hash: ReadableBuffer) -> None:
        super().__init__()
        self._data = data
        self._hashes = hashes
        self._params = params
        self._root = whole_bytes(root_hash)
        if len(self._root) != params.digest_size:
            raise error(BadRootLength.status)
        self._size = params.data_blocks * params.data_block_size
        self._place = 0
        self._lock = Lock()
        # What ended a read that had bytes to hand out, and isn't raised yet.
        self._late: Optional[OSError] = None
        # The latest hash block of each level that was accepted, with its start; and the latest data block.
        self._accepted: dict[int, tuple[int, bytes]] = {}
        self._latest: Optional[tuple[int, bytes]] = None

    def readable(self) -> bool:
        return True

    def seekable(self) -> bool:
        return True

    def tell(self) -> int:
        self._check_open()
        return self._place

    def seek(self, offset: int, whence: int = io.SEEK_SET, /) -> int:
        self._check_open()
        return self._alone(self._seek, operator.index(offset), whence)

    def readinto(self, buffer: WriteableBuffer, /) -> int:
        self._check_open()
        with memoryview(buffer).cast("B") as room:
            return self._alone(self._fill, room)

    def readall(self) -> bytes:
        place = self.tell()
        try:
            return super().readall()
        except BaseException:
            # What was read until then is handed to nobody, so it is read again.
            self._place = place
            raise

    def __reduce__(self) -> Any:
        raise TypeError(f"a {type(self).__name__} can't be pickled or copied")

    def _check_open(self) -> None:
        if self.closed:
            raise ValueError("the file is closed")

    def _alone(self, function: Callable[..., int], *words: Any) -> int:
        """The lock keeps other threads away. A handler of a signal, or what reads the files, could still come here, and
        would take the files from under the read that isn't over."""
        if self._lock.is_mine():
            raise RuntimeError("the file is already being read, by a call that isn't over")
        return self._lock.call(function, *words)

    def _seek(self, offset: int, whence: int) -> int:
        begin = {io.SEEK_SET: 0, io.SEEK_CUR: self._place, io.SEEK_END: self._size}.get(whence)
        if begin is None or begin + offset < 0:
            raise ValueError(f"no such place: {offset}, {whence}")
        self._place = begin + offset
        return self._place

    def _fill(self, room: memoryview) -> int:
        if self._late is not None:
            late, self._late = self._late, None
            raise late
        place, count = self._place, 0
        while count < len(room) and place + count < self._size:
            index, begin = divmod(place + count, self._params.data_block_size)
            try:
                block = self._block(index)
            except (Error, OSError) as fault:
                if count == 0:
                    raise
                # An `Error` comes again, and that there are no bytes yet may be over by then. Another OSError may not
                # come again: it may be the TimeoutError of a signal's handler.
                if isinstance(fault, OSError) and not isinstance(fault, BlockingIOError):
                    self._late = fault
                break
            piece = block[begin : begin + len(room) - count]
            room[count : count + len(piece)] = piece
            count += len(piece)
        self._place = place + count
        return count

    def _block(self, index: int) -> bytes:
        """A data block that is the image's."""
        latest = self._latest
        if latest is not None and latest[0] == index:
            return latest[1]
        size = self._params.data_block_size
        block = _read_at(self._data, index * size, size)
        self._check(index, block)
        self._latest = index, block
        return block

    def _check(self, index: int, block: bytes) -> None:
        """Checks a data block from the lowest hash block above it that was accepted before, or from the root hash."""
        struct, size = self._params._struct, self._params.hash_block_size
        starts = [self._params.hash_block_start(index, level) for level in range(self._params.level_count)]
        above, level = self._root, len(starts)
        for lowest, start in enumerate(starts):
            accepted = self._accepted.get(lowest)
            if accepted is not None and accepted[0] == start:
                above, level = accepted[1], lowest
                break
        # Both blocks of a check are held here, so that nothing can take their place.
        while level >= 0:
            # `below` is the block one level below this one, which the block of this level or the root hash stands for.
            below = block if level == 0 else _read_at(self._hashes, starts[level - 1], size)
            if level == len(starts):
                status = _library.check_top(struct, index, below, len(below), above, len(above))
            else:
                status = _library.check_link(struct, index, level, below, len(below), above, len(above))
            check_at(status, level)
            level -= 1
            if level >= 0:
                self._accepted[level] = starts[level], below
            above = below


def _read_at(file: _File, start: int, length: int) -> bytes:
    """The bytes from a place on, fewer where the file ends: such a block has a wrong length, and is refused."""
    file.seek(start)
    found = b""
    while len(found) < length:
        piece = file.read(length - len(found))
        if piece is None:
            raise BlockingIOError("the file has no bytes yet")
        if not piece:
            break
        found += whole_bytes(piece)
    return found
