"""Parameters of a dm-verity tree."""

from __future__ import annotations

from ctypes import byref, c_size_t, c_uint32, c_uint64, create_string_buffer
from dataclasses import dataclass
from typing import TYPE_CHECKING

from . import _library
from ._algorithms import algorithm_name, algorithm_number, digest_size
from ._errors import check
from ._library import SUPERBLOCK_SIZE, VerityParams, unsigned, view, whole_bytes

if TYPE_CHECKING:
    from _typeshed import ReadableBuffer


@dataclass(frozen=True)
class Params:
    """Parameters of a dm-verity tree, which `struct verity_params` explains; they never change. Those that no tree can
    have are refused at once."""

    data_blocks: int
    hash_algorithm: str = "sha256"
    hash_type: int = 1
    data_block_size: int = 4096
    hash_block_size: int = 4096
    hash_offset: int = 0
    no_superblock: bool = False
    salt: bytes = b""
    uuid: bytes = bytes(16)

    def __post_init__(self) -> None:
        salt, uuid = whole_bytes(self.salt), whole_bytes(self.uuid)
        if len(uuid) != 16:
            raise ValueError(f"a UUID has 16 bytes, and this one {len(uuid)}")
        struct = VerityParams(
            algorithm_number(self.hash_algorithm),
            unsigned("hash_type", self.hash_type, c_uint32),
            unsigned("data_block_size", self.data_block_size, c_uint32),
            unsigned("hash_block_size", self.hash_block_size, c_uint32),
            unsigned("data_blocks", self.data_blocks, c_uint64),
            unsigned("hash_offset", self.hash_offset, c_uint64),
            bool(self.no_superblock),
            unsigned("salt_size", len(salt), c_uint32),
        )
        struct.salt[:] = salt[:256].ljust(256, b"\0")
        struct.uuid[:] = uuid
        count = c_size_t()
        check(_library.level_count(byref(struct), byref(count)))
        # These are what was checked, whatever kind of numbers, text and bytes was handed in.
        for name in "hash_type", "data_block_size", "hash_block_size", "data_blocks", "hash_offset":
            object.__setattr__(self, name, getattr(struct, name))
        object.__setattr__(self, "hash_algorithm", algorithm_name(struct.hash_algorithm))
        object.__setattr__(self, "no_superblock", bool(struct.no_superblock))
        object.__setattr__(self, "salt", salt)
        object.__setattr__(self, "uuid", uuid)
        self.__dict__["_struct"] = struct

    @classmethod
    def from_superblock(cls, data: ReadableBuffer, hash_offset: int = 0) -> Params:
        """The parameters that a superblock says, which stands at this byte of the hash device. Whoever can write it can
        choose them: compare them by `check_same`."""
        struct = VerityParams()
        check(_read(data, unsigned("hash_offset", hash_offset, c_uint64), struct))
        return cls(
            data_blocks=struct.data_blocks,
            hash_algorithm=algorithm_name(struct.hash_algorithm),
            hash_type=struct.hash_type,
            data_block_size=struct.data_block_size,
            hash_block_size=struct.hash_block_size,
            hash_offset=struct.hash_offset,
            salt=bytes(struct.salt[: struct.salt_size]),
            uuid=bytes(struct.uuid),
        )

    def superblock(self) -> bytes:
        """The 512 bytes that stand at the hash offset."""
        found = create_string_buffer(SUPERBLOCK_SIZE)
        check(_library.write_superblock(self._struct, found, len(found)))
        return found.raw

    def check_same(self, trusted: Params) -> None:
        """Raises `Differs` unless these are the trusted parameters in all that a root hash needs."""
        check(_library.same_params(self._struct, trusted._struct))

    @property
    def digest_size(self) -> int:
        return digest_size(self._struct.hash_algorithm)

    @property
    def level_count(self) -> int:
        """How many levels of hash blocks there are; level 0 is next to the data."""
        count = c_size_t()
        check(_library.level_count(self._struct, byref(count)))
        return count.value

    def level_start(self, level: int) -> tuple[int, int]:
        """The byte of the hash device at which a level begins, and how many hash blocks it has."""
        start, blocks = c_uint64(), c_uint64()
        check(_library.level_start(self._struct, unsigned("level", level, c_size_t), byref(start), byref(blocks)))
        return start.value, blocks.value

    def hash_block_start(self, index: int, level: int) -> int:
        """The byte of the hash device at which the hash block of a level stands that is above a data block."""
        start, number = c_uint64(), unsigned("index", index, c_uint64)
        check(_library.hash_block_start(self._struct, number, unsigned("level", level, c_size_t), byref(start)))
        return start.value

    @property
    def hash_area_end(self) -> int:
        """The byte of the hash device at which the hash area ends."""
        end = c_uint64()
        check(_library.hash_area_end(self._struct, byref(end)))
        return end.value

    @property
    def _struct(self) -> VerityParams:
        struct: VerityParams = self.__dict__["_struct"]
        return struct


def _read(data: ReadableBuffer, hash_offset: int, struct: VerityParams) -> int:
    _view, at, length = view(data)
    return _library.read_superblock(at, length, hash_offset, struct)
