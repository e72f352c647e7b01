"""The shared library: its structs, its functions, and how bytes are handed to it. All of this is of verity.h."""

from __future__ import annotations

import ctypes
import operator
import os
from ctypes import POINTER, Structure, addressof, c_char, c_char_p, c_int, c_size_t, c_ssize_t, c_uint8, c_uint32
from ctypes import c_uint64, c_void_p
from typing import TYPE_CHECKING, Any, Callable

if TYPE_CHECKING:
    from _typeshed import ReadableBuffer

NAME = "libverity.so.2"
MAJOR = 2
MAX_TEXT_SIZE = 64
SUPERBLOCK_SIZE = 512


class VerityParams(Structure):
    _fields_ = [
        ("hash_algorithm", c_uint32),
        ("hash_type", c_uint32),
        ("data_block_size", c_uint32),
        ("hash_block_size", c_uint32),
        ("data_blocks", c_uint64),
        ("hash_offset", c_uint64),
        ("no_superblock", c_uint32),
        ("salt_size", c_uint32),
        ("salt", c_uint8 * 256),
        ("uuid", c_uint8 * 16),
    ]


class FsverityParams(Structure):
    _fields_ = [
        ("hash_algorithm", c_uint32),
        ("block_size", c_uint32),
        ("size", c_uint64),
        ("salt_size", c_uint32),
        ("salt", c_uint8 * 32),
    ]


class VerityBuild(Structure):
    _fields_ = [("fed", c_uint64), ("closed", c_size_t)]


class VerityFed(Structure):
    _fields_ = [
        ("taken", c_size_t),
        ("block_length", c_size_t),
        ("block_at", c_size_t),
        ("block_start", c_uint64),
        ("block_index", c_uint64),
        ("block_level", c_size_t),
    ]


def _loaded() -> ctypes.CDLL:
    """The library of VERITY_LIBRARY, a path, or else the one that the loader finds."""
    path = os.environ.get("VERITY_LIBRARY") or NAME
    try:
        library = ctypes.CDLL(path)
        library.verity_version.argtypes = ()
        library.verity_version.restype = c_uint32
    except (OSError, AttributeError) as fault:
        raise ImportError(f"verity needs the library {NAME}, by the loader or at VERITY_LIBRARY: {fault}") from fault
    version = library.verity_version()
    if version // 10000 != MAJOR:
        raise ImportError(f"verity needs version {MAJOR} of {NAME}, and {path} has version {version // 10000}")
    return library


_library = _loaded()

# The functions that are called, each with the types of its arguments. Bytes are handed as c_void_p, which takes an
# address and the object `bytes` as well.
FUNCTIONS: dict[str, tuple[Any, ...]] = {}


def _function(name: str, *types: Any) -> Callable[..., int]:
    try:
        function = _library[name]
    except AttributeError as fault:
        raise ImportError(f"verity needs another {NAME}: {fault}") from fault
    function.argtypes = FUNCTIONS[name] = types
    function.restype = c_int
    return function


_PARAMS, _FILE = POINTER(VerityParams), POINTER(FsverityParams)
_BUILD, _FED = POINTER(VerityBuild), POINTER(VerityFed)
_NUMBER, _SIZE = POINTER(c_uint64), POINTER(c_size_t)
_BYTES = (c_void_p, c_size_t)

digest_length = _function("verity_digest_length", c_uint32, _SIZE)
algorithm_name = _function("verity_algorithm_name", c_uint32, *_BYTES, _SIZE)
algorithm_by_name = _function("verity_algorithm_by_name", *_BYTES, POINTER(c_uint32))
status_text = _function("verity_status_text", c_int, *_BYTES, _SIZE)

read_superblock = _function("verity_read_superblock", *_BYTES, c_uint64, _PARAMS)
write_superblock = _function("verity_write_superblock", _PARAMS, *_BYTES)
same_params = _function("verity_same_params", _PARAMS, _PARAMS)
level_count = _function("verity_level_count", _PARAMS, _SIZE)
level_start = _function("verity_level_start", _PARAMS, c_size_t, _NUMBER, _NUMBER)
hash_block_start = _function("verity_hash_block_start", _PARAMS, c_uint64, c_size_t, _NUMBER)
hash_area_end = _function("verity_hash_area_end", _PARAMS, _NUMBER)

check_block = _function("verity_check_block", _PARAMS, c_uint64, *_BYTES, *_BYTES, *_BYTES, _SIZE)
check_link = _function("verity_check_link", _PARAMS, c_uint64, c_size_t, *_BYTES, *_BYTES)
check_top = _function("verity_check_top", _PARAMS, c_uint64, *_BYTES, *_BYTES)

build_memory = _function("verity_build_memory", _PARAMS, _SIZE)
build_begin = _function("verity_build_begin", _PARAMS, _BUILD, *_BYTES)
build_feed = _function("verity_build_feed", _PARAMS, _BUILD, *_BYTES, *_BYTES, _FED)
build_end = _function("verity_build_end", _PARAMS, _BUILD, *_BYTES, *_BYTES)

file_memory = _function("fsverity_build_memory", _FILE, _SIZE)
file_begin = _function("fsverity_build_begin", _FILE, *_BYTES)
file_feed = _function("fsverity_build_feed", _FILE, *_BYTES, *_BYTES)
file_end = _function("fsverity_build_end", _FILE, *_BYTES, *_BYTES, *_BYTES)


# Functions of their own: those that are attributes of pythonapi are everybody's, with their types. They are called with
# the interpreter's lock, and raise its exceptions.
method = ctypes.pythonapi["PyInstanceMethod_New"]
method.argtypes = (ctypes.py_object,)
method.restype = ctypes.py_object
_release_buffer = ctypes.pythonapi["PyBuffer_Release"]
_release_buffer.restype = None


class View(Structure):
    """Py_buffer, which `view` fills."""

    _fields_ = [
        ("buf", c_void_p),
        ("obj", c_void_p),
        ("length", c_ssize_t),
        ("itemsize", c_ssize_t),
        ("readonly", c_int),
        ("ndim", c_int),
        ("format", c_char_p),
        ("shape", c_void_p),
        ("strides", c_void_p),
        ("suboffsets", c_void_p),
        ("internal", c_void_p),
    ]

    # No code of Python: there a Ctrl-C would be swallowed, and the object would stay locked.
    __del__ = method(_release_buffer)


_get_buffer = ctypes.pythonapi["PyObject_GetBuffer"]
_get_buffer.argtypes = (ctypes.py_object, POINTER(View), c_int)
_release_buffer.argtypes = (POINTER(View),)
_SIMPLE = 0
_pinned = (c_char * 0).from_buffer


def view(data: ReadableBuffer) -> tuple[Any, Any, int]:
    """The bytes of an object, none of them copied: where they stand, and how many they are. As long as the first of the
    three lives, they stay there, and the object can't be resized. An object whose bytes don't stand one after another
    is refused by a BufferError."""
    found: Any
    whole = data if type(data) is memoryview else memoryview(data)
    length = whole.nbytes
    if whole.readonly or not whole.c_contiguous:
        found = View()
        _get_buffer(whole, found, _SIMPLE)
        at = found.buf
    else:
        # The same in less time.
        found = _pinned(whole)
        at = addressof(found)
    # The library wants an address for no bytes, too, and an object may give none.
    if not length:
        return found, b"", 0
    if not at:
        raise BufferError("the bytes have no address")
    return found, at, length


def whole_bytes(data: ReadableBuffer) -> bytes:
    """A copy that can't change. Unlike `bytes` it takes no number, of which that would make zeros."""
    return bytes(memoryview(data))


def unsigned(what: str, number: int, kind: type[c_uint32] | type[c_uint64] | type[c_size_t]) -> int:
    """A number that the C type can hold: ctypes itself would cut off what is too much."""
    bits, found = 8 * ctypes.sizeof(kind), operator.index(number)
    if not 0 <= found < 1 << bits:
        raise OverflowError(f"{what} is no number of {bits} bits: {found}")
    return found
