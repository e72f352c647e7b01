/*
 * Where the fields of a superblock of dm-verity begin, pads among them, and how long a descriptor of fs-verity is, as
 * cryptsetup's page on the on-disk format and the kernel's page on fs-verity lay them out.
 */
#ifndef LAYOUTS_H
#define LAYOUTS_H

/* A superblock, and the sizes of those of its fields that are no numbers. */
enum {
    SIGNATURE_AT = 0,
    VERSION_AT = 8,
    HASH_TYPE_AT = 12,
    UUID_AT = 16,
    ALGORITHM_AT = 32,
    DATA_BLOCK_SIZE_AT = 64,
    HASH_BLOCK_SIZE_AT = 68,
    DATA_BLOCKS_AT = 72,
    SALT_SIZE_AT = 80,
    FIRST_PAD_AT = 82,
    SALT_AT = 88,
    LAST_PAD_AT = 344,
    SUPERBLOCK_SIZE = 512,
    SIGNATURE_SIZE = 8,
    UUID_SIZE = 16,
    ALGORITHM_SIZE = 32,
    FIRST_PAD_SIZE = 6,
    SALT_ROOM = 256,
    LAST_PAD_SIZE = 168
};

/* A descriptor. */
enum { DESCRIPTOR_SIZE = 256 };

#endif
