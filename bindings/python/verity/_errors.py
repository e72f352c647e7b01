"""An exception for each status, with its name: VERITY_NO_SUCH_BLOCK is NoSuchBlock."""

from __future__ import annotations

from ctypes import byref, c_size_t, create_string_buffer
from typing import Optional

from . import _library


class Error(Exception):
    """What the library answers if it isn't VERITY_OK. `status` is the number."""

    status: int = 0


class Differs(Error):
    """`level` is the level at which the digests differ, where blocks were checked."""

    status = -1
    level: Optional[int] = None


class NoSuchBlock(Error):
    status = -2


class NoSuchLevel(Error):
    status = -3


class BadLength(Error):
    status = -4


class BadRootLength(Error):
    status = -5


class BadHashAlgorithm(Error, ValueError):
    """A ValueError too, as in hashlib."""

    status = -6


class BadHashType(Error):
    status = -7


class BadDataBlockSize(Error):
    status = -8


class BadHashBlockSize(Error):
    status = -9


class BadSaltSize(Error):
    status = -10


class BadHashOffset(Error):
    status = -11


class NoData(Error):
    status = -12


class TooLarge(Error):
    status = -13


class ShortSuperblock(Error):
    status = -14


class BadSignature(Error):
    status = -15


class BadVersion(Error):
    status = -16


class TooLong(Error):
    status = -17


class TooShort(Error):
    status = -18


class Waiting(Error):
    status = -19


class NoSuchPart(Error):
    status = -20


_BY_STATUS = {kind.status: kind for kind in Error.__subclasses__()}


def error(status: int) -> Error:
    """The exception of a status. A later library may have statuses of which nothing is known here."""
    text, length = create_string_buffer(_library.MAX_TEXT_SIZE), c_size_t()
    _library.status_text(status, text, len(text), byref(length))
    fault = _BY_STATUS.get(status, Error)(text.value.decode("ascii"))
    fault.status = status
    return fault


def check(status: int) -> None:
    """Raises what a status says, unless it is VERITY_OK."""
    if status:
        raise error(status)


def check_at(status: int, level: int) -> None:
    """The same for a check of blocks at a level."""
    if status:
        fault = error(status)
        if isinstance(fault, Differs):
            fault.level = level
        raise fault
