"""The building of a dm-verity tree."""

from __future__ import annotations

from ctypes import Array, byref, c_char, c_size_t, create_string_buffer
from dataclasses import dataclass
from typing import TYPE_CHECKING, Any

from . import _library
from ._errors import check
from ._library import VerityBuild, VerityFed, view
from ._locks import Lock
from ._params import Params

if TYPE_CHECKING:
    from _typeshed import ReadableBuffer


@dataclass(frozen=True)
class HashBlock:
    """A hash block: it goes to byte `start` of the hash device, as block `index` of its level."""

    start: int
    data: bytes
    level: int
    index: int


class TreeBuilder:
    """Builds the tree of data that comes in pieces."""

    def __init__(self, params: Params) -> None:
        self._state = _State(params)

    @property
    def params(self) -> Params:
        return self._state.params

    def feed(self, data: ReadableBuffer) -> list[HashBlock]:
        """Takes a piece of any length, and gives the hash blocks that close with it: each is given once."""
        found: list[HashBlock] = []
        check(self._state.feed(data, found))
        return found

    def root_hash(self) -> bytes:
        """The root hash, once all data was fed."""
        return self._state.end()

    def __reduce__(self) -> Any:
        raise TypeError(f"a {type(self).__name__} can't be pickled or copied")


class _State:
    """Struct and memory of one tree, and the lock of both: while the library works on them, other threads run."""

    def __init__(self, params: Params) -> None:
        length = c_size_t()
        check(_library.build_memory(params._struct, byref(length)))
        self.params = params
        self.build = VerityBuild()
        self.memory = create_string_buffer(length.value)
        self.lock = Lock()
        # Whether a call to `feed` was left before all that it closed was handed out.
        self.is_cut = False
        check(_library.build_begin(params._struct, self.build, self.memory, length))

    def feed(self, data: ReadableBuffer, found: list[HashBlock]) -> int:
        """Feeds the whole piece, and answers the status. A view ends with this call."""
        _view, at, length = view(data)
        return self.lock.call(self.feed_alone, at, length, found)

    def feed_alone(self, at: Any, left: int, found: list[HashBlock]) -> int:
        fed = VerityFed()
        self.check_whole()
        self.is_cut = True
        while True:
            status = _library.build_feed(self.params._struct, self.build, self.memory, len(self.memory), at, left, fed)
            if status or fed.block_length == 0:
                break
            found.append(self.handed_out(fed))
            if fed.taken:
                at, left = at + fed.taken, left - fed.taken
        # What is refused is refused at the first call, and then nothing has changed.
        self.is_cut = False
        return status

    def handed_out(self, fed: VerityFed) -> HashBlock:
        block = memoryview(self.memory)[fed.block_at : fed.block_at + fed.block_length]
        return HashBlock(fed.block_start, block.tobytes(), fed.block_level, fed.block_index)

    def end(self) -> bytes:
        root = create_string_buffer(self.params.digest_size)
        check(self.lock.call(self.end_alone, root))
        return root.raw

    def end_alone(self, root: Array[c_char]) -> int:
        self.check_whole()
        return _library.build_end(self.params._struct, self.build, self.memory, len(self.memory), root, len(root))

    def check_whole(self) -> None:
        if self.is_cut:
            raise RuntimeError("a call to feed was interrupted, or isn't over: begin the tree anew")
