"""The fs-verity digest of a file, by the words of hashlib."""

from __future__ import annotations

from ctypes import addressof, byref, c_size_t, c_uint32, create_string_buffer, sizeof
from typing import TYPE_CHECKING, Any, Optional, Protocol, TypeVar

from . import _library
from ._algorithms import algorithm_name, algorithm_number, digest_size
from ._errors import check
from ._library import FsverityParams, file_feed, unsigned, view, whole_bytes
from ._locks import Lock

if TYPE_CHECKING:
    from _typeshed import ReadableBuffer

_PIECE = 1 << 18
_Self = TypeVar("_Self", bound="FileDigest")


class _State:
    """Parameters and memory of one tree, which only fit each other, and the lock of both: while the library works on
    them, other threads run. A handler of a signal runs before or after a call to the library, never meanwhile; so that
    the two still fit, they are copied by a single call."""

    __slots__ = ("whole", "params", "memory", "length", "lock")

    def __init__(self, whole: bytes) -> None:
        self.whole = create_string_buffer(whole, len(whole))
        self.params = FsverityParams.from_buffer(self.whole)
        self.memory = addressof(self.whole) + sizeof(self.params)
        self.length = len(whole) - sizeof(self.params)
        self.lock = Lock()

    @classmethod
    def begun(cls, params: FsverityParams) -> _State:
        length = c_size_t()
        check(_library.file_memory(byref(params), byref(length)))
        state = cls(bytes(params) + bytes(length.value))
        check(_library.file_begin(state.params, state.memory, state.length))
        return state

    def feed(self, data: ReadableBuffer) -> int:
        """Feeds a piece, and answers the status: the view ends before there is an exception that would keep it."""
        at: Any
        if type(data) is bytes:
            # The same in less time.
            at, length = data, len(data)
        else:
            _view, at, length = view(data)
        return self.lock.call(file_feed, self.params, self.memory, self.length, at, length)

    def end(self, size: int) -> bytes:
        root, digest = create_string_buffer(size), create_string_buffer(size)
        words = self.params, self.memory, self.length, root, size, digest, size
        check(self.lock.call(_library.file_end, *words))
        return digest.raw

    def copy(self) -> _State:
        return _State(self.lock.call(getattr, self.whole, "raw"))


class FileDigest:
    """The fs-verity digest of the bytes that `update` was given: of a file with these bytes. What hashlib says of its
    objects holds of this one; `block_size` is that of the tree, and `name` that of the hash function, sha256 or sha512.
    """

    def __init__(
        self, data: ReadableBuffer = b"", *, name: str = "sha256", block_size: int = 4096, salt: ReadableBuffer = b""
    ) -> None:
        salt = whole_bytes(salt)
        params = FsverityParams(
            algorithm_number(name),
            unsigned("block_size", block_size, c_uint32),
            0,
            unsigned("salt_size", len(salt), c_uint32),
        )
        params.salt[:] = salt[:32].ljust(32, b"\0")
        self._state = _State.begun(params)
        check(self._state.feed(data))

    @property
    def name(self) -> str:
        return algorithm_name(self._state.params.hash_algorithm)

    @property
    def block_size(self) -> int:
        return int(self._state.params.block_size)

    @property
    def digest_size(self) -> int:
        return digest_size(self._state.params.hash_algorithm)

    def update(self, data: ReadableBuffer, /) -> None:
        status = self._state.feed(data)
        if status:
            check(status)

    def digest(self) -> bytes:
        state = self._state
        return state.end(digest_size(state.params.hash_algorithm))

    def hexdigest(self) -> str:
        return self.digest().hex()

    def copy(self: _Self) -> _Self:
        other = type(self).__new__(type(self))
        other.__dict__.update(self.__dict__)
        other._state = self._state.copy()
        return other

    __copy__ = copy

    def __reduce__(self) -> Any:
        raise TypeError(f"a {type(self).__name__} can't be pickled")


class _Readable(Protocol):
    def readinto(self, buffer: Any, /) -> Optional[int]: ...


def file_digest(
    file: _Readable,
    *,
    name: str = "sha256",
    block_size: int = 4096,
    salt: ReadableBuffer = b"",
) -> FileDigest:
    """The digest of a file that is open for reading as bytes, from where it stands to its end."""
    if not hasattr(file, "readinto"):
        raise ValueError(f"{file!r} isn't a file that is open for reading as bytes")
    digest = FileDigest(name=name, block_size=block_size, salt=salt)
    piece = memoryview(bytearray(_PIECE))
    while True:
        count = file.readinto(piece)
        if count is None:
            raise BlockingIOError("the file has no bytes yet")
        if count == 0:
            return digest
        digest.update(piece[:count])
