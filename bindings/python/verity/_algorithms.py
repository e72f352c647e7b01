"""Hash functions, which the library knows by numbers, by their names."""

from __future__ import annotations

from ctypes import byref, c_size_t, c_uint32, create_string_buffer

from . import _library
from ._errors import check


def algorithm_number(name: str) -> int:
    # What a subclass of str would give needn't be as long as it says.
    letters, number = str.encode(name), c_uint32()
    check(_library.algorithm_by_name(letters, len(letters), byref(number)))
    return number.value


def algorithm_name(number: int) -> str:
    text, length = create_string_buffer(_library.MAX_TEXT_SIZE), c_size_t()
    check(_library.algorithm_name(number, text, len(text), byref(length)))
    return text.raw[: length.value].decode("ascii")


def digest_size(number: int) -> int:
    length = c_size_t()
    check(_library.digest_length(number, byref(length)))
    return length.value
