"""libverity for Python: fs-verity digests, and the trees of dm-verity. README.md has an example; what the library
answers, and what a caller owes, says verity.h."""

from ._checks import CheckedFile, check_block
from ._digests import FileDigest, file_digest
from ._errors import (
    BadDataBlockSize,
    BadHashAlgorithm,
    BadHashBlockSize,
    BadHashOffset,
    BadHashType,
    BadLength,
    BadRootLength,
    BadSaltSize,
    BadSignature,
    BadVersion,
    Differs,
    Error,
    NoData,
    NoSuchBlock,
    NoSuchLevel,
    NoSuchPart,
    ShortSuperblock,
    TooLarge,
    TooLong,
    TooShort,
    Waiting,
)
from ._params import Params
from ._trees import HashBlock, TreeBuilder

__all__ = [
    "BadDataBlockSize",
    "BadHashAlgorithm",
    "BadHashBlockSize",
    "BadHashOffset",
    "BadHashType",
    "BadLength",
    "BadRootLength",
    "BadSaltSize",
    "BadSignature",
    "BadVersion",
    "CheckedFile",
    "Differs",
    "Error",
    "FileDigest",
    "HashBlock",
    "NoData",
    "NoSuchBlock",
    "NoSuchLevel",
    "NoSuchPart",
    "Params",
    "ShortSuperblock",
    "TooLarge",
    "TooLong",
    "TooShort",
    "TreeBuilder",
    "Waiting",
    "check_block",
    "file_digest",
]
