/*
 * checked_blocks.h - reads data blocks of a dm-verity image, and checks each before it is handed out. Hash blocks that
 * were accepted are kept, so that they aren't read again for each data block.
 *
 * This file and checked_blocks.c are there to be copied, into a boot loader, a server of blocks or a file system. They
 * are C11 and need libverity alone, which needs memcpy, memmove and memset (boot_check.c has them): no C library, and
 * no memory but what the caller hands in. boot_check.c and nbdkit-verity-plugin.c use them, and their comments say how
 * checked_blocks.c is compiled with them.
 *
 * The devices may give anything, and something else each time:
 *   - a block is checked where it was read, and isn't read twice;
 *   - a hash block is kept after it was accepted and not before, under its start;
 *   - if a data block isn't handed out, there are zeros in its place; until there is an answer, it may hold bytes that
 *     aren't checked.
 *
 * Nobody else may write to the block and the hash blocks that are kept: a device that writes memory by itself may until
 * `read` has answered, and not later.
 *
 * So a block that is handed out is that of the image that has these parameters and this root hash, unless two different
 * blocks with one salted hash were found. Both have to be trusted: the root hash doesn't cover the superblock.
 */
#ifndef CHECKED_BLOCKS_H
#define CHECKED_BLOCKS_H

#include <stddef.h>
#include <stdint.h>

#include "verity.h"

/* What can fail here, beside enum verity_status: below 0 like its statuses. */
enum {
    CHECKED_NOT_READ = -100, /* the caller's reader has failed */
    CHECKED_NO_ROOM = -101   /* there is no room for two hash blocks, or for one of each level if those are fewer */
};

/* A place for a hash block: free, or with one that was accepted. */
struct checked_place {
    uint64_t start; /* where the hash block stands on the hash device */
    uint64_t used;  /* when it was used last; 0 if the place is free */
};

/*
 * An image. The caller fills what stands before `levels`, and leaves all of it alone then. If as many hash blocks can
 * be kept as the tree has levels, each is read once where data blocks are read in their order.
 */
struct checked_image {
    struct verity_params params; /* trusted */
    const uint8_t *root;         /* trusted */
    size_t root_length;
    /* Reads just so many bytes of a device from a start on. Answers 0, or another number if it can't. */
    int (*read)(void *device, uint64_t start, uint8_t *bytes, size_t length);
    void *data_device; /* what `read` is handed for the data, and for the hash blocks */
    void *hash_device;
    size_t places; /* how many hash blocks can be kept: two at least, or as many as levels if those are fewer */
    struct checked_place *place; /* so many */
    uint8_t *hash_blocks;        /* so many times params.hash_block_size bytes */

    size_t levels;
    uint64_t now;
};

/* Begins: no hash block is kept. Answers 0, a fault of the parameters, or CHECKED_NO_ROOM. */
VERITY_MUST_CHECK int checked_begin(struct checked_image *image);

/*
 * Reads data block index, counted from 0, into data_block_size bytes. Answers 0, or why it isn't handed out:
 * VERITY_NO_SUCH_BLOCK, VERITY_BAD_LENGTH (block_length is another), CHECKED_NOT_READ, VERITY_DIFFERS, or a fault of
 * parameters or root hash.
 *
 * With CHECKED_NOT_READ and VERITY_DIFFERS, level says which block is at fault: 0 for the data block, and for a hash
 * block one more than its level. So with VERITY_DIFFERS it is the level that has another digest of that block, or the
 * number of levels if the root hash is another. It is the highest such level: what is below isn't looked at. With other
 * answers level stays as it was.
 *
 * One call at a time for one struct. Where `read` may be called by several threads at once, each has a struct and room
 * of its own.
 */
VERITY_MUST_CHECK int checked_read(struct checked_image *image, uint64_t index, uint8_t *block, size_t block_length,
                                   size_t *level);

#endif
