"""The bytes of a superblock of dm-verity, as cryptsetup's page on the on-disk format lays them out, and of a descriptor
of fs-verity, as the kernel's page on fs-verity does."""

import struct
from collections import namedtuple

SUPERBLOCK_SIZE = 512

# The fields of a superblock, pads among them: where each begins, and how many bytes it has.
SUPERBLOCK_FIELDS = {
    "signature": (0, 8),
    "version": (8, 4),
    "hash_type": (12, 4),
    "uuid": (16, 16),
    "name": (32, 32),
    "data_block": (64, 4),
    "hash_block": (68, 4),
    "count": (72, 8),
    "salt_size": (80, 2),
    "first_pad": (82, 6),
    "salt": (88, 256),
    "last_pad": (344, 168),
}
Superblock = namedtuple("Superblock", SUPERBLOCK_FIELDS)
NUMBER_FIELDS = ["version", "hash_type", "data_block", "hash_block", "count", "salt_size"]
SIGNATURE = b"verity\0\0"

# The hash functions of fs-verity and their numbers in a descriptor.
FILE_ALGORITHMS = {"sha256": 1, "sha512": 2}


def superblock(settings, uuid):
    """The bytes that say how a tree was made."""
    fields = [
        SIGNATURE,
        1,
        settings.hash_type,
        uuid,
        settings.name.encode(),
        settings.data_block,
        settings.hash_block,
        settings.count,
        len(settings.salt),
        settings.salt,
    ]
    return struct.pack("<8sII16s32sIIQH6x256s168x", *fields)


def read_superblock(text):
    """The fields of a superblock; the name up to its first zero, and as many bytes of salt as there should be."""
    fields = Superblock(*(text[at : at + size] for at, size in SUPERBLOCK_FIELDS.values()))
    fields = fields._replace(**{name: int.from_bytes(getattr(fields, name), "little") for name in NUMBER_FIELDS})
    name = fields.name.split(b"\0")[0].decode("latin-1")
    return fields._replace(name=name, salt=fields.salt[: fields.salt_size])


def descriptor(settings, size, root):
    """The 256 bytes about a file of so many bytes."""
    head = (1, FILE_ALGORITHMS[settings.name], settings.data_block.bit_length() - 1, len(settings.salt))
    return struct.pack("<BBBB4xQ64s32s144x", *head, size, root, settings.salt)
