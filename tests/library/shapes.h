/* What verity.h says of parameters and of superblocks, by a computation of its own. */
#ifndef SHAPES_H
#define SHAPES_H

#include "layouts.h"
#include "support.h"

/* The most bytes of data, and of a hash device. */
#define LARGEST (((uint64_t)1 << 63) - 1)

/* What verity.h says of parameters: the first fault, or how the tree is made and where each level stands. */
struct shape {
    int status;
    uint32_t digest_size;
    uint32_t slot_width;
    uint32_t fan_out;
    uint32_t data_block_size;
    uint32_t hash_block_size;
    uint64_t data_blocks;
    size_t levels;
    uint64_t blocks[64];
    uint64_t starts[64];
};

struct shape shape_of(const struct tree *tree);

/* How many bytes the hash blocks of a tree have. */
size_t tree_length(const struct shape *shape);

/* The length of the digests of a hash function, or of a tree's; 0 if there is no such function. */
uint32_t digest_size_of(uint32_t hash_algorithm);
uint32_t digest_size_of_tree(const struct tree *tree);

/* The name of a hash function, null if there is no such function. */
const char *name_of(uint32_t hash_algorithm);

/* The slot, in the hash block of a level above a data block, of the block one level down. */
uint64_t slot_number(const struct shape *shape, uint64_t index, size_t level);

/*
 * The hash block of a level that stands above a data block, if below is 0, or above a block of the level below - 1, of
 * this number: its level, number, place and length.
 */
struct verity_fed block_above(const struct shape *shape, size_t level, size_t below, uint64_t number);

/* What verity.h says of a superblock's bytes: the first fault, or the parameters. */
int superblock_says(struct bytes bytes, uint64_t hash_offset, struct verity_params *params);

/* Writes a superblock, without looking at what the parameters say. name has zeros behind it. */
void write_superblock(uint8_t superblock[SUPERBLOCK_SIZE], const struct verity_params *params, const char *name);

#endif
