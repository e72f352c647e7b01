/* A data block with the hash blocks above it and the root hash, of which something may be changed. */
#ifndef CHAINS_H
#define CHAINS_H

#include "shapes.h"

struct chain {
    struct tree tree;
    struct shape shape;
    uint64_t index;
    /* The data block, and then its path. */
    uint8_t *bytes;
    uint8_t root[VERITY_MAX_DIGEST_SIZE + 1];
    size_t root_length;
    /* A bit for each level at which it differs, and the one after them for the root hash. */
    uint64_t differs;
};

/* Block 0 of a chain is the data block, and block l + 1 the hash block of level l. */
size_t start_in_chain(const struct shape *shape, size_t block);
struct bytes block_of(const struct chain *chain, size_t block);
struct bytes path_of(const struct chain *chain);
struct bytes root_of(const struct chain *chain);

/* Calls the functions that check blocks. */
int check_chain(const struct chain *chain, size_t *level);
int check_one_link(const struct chain *chain, size_t level);
int check_top_block(const struct chain *chain);

/*
 * The chain is accepted if nothing differs, and else refused at the lowest level that does; and just these links are
 * refused one by one. Links above the lowest one that differs cost much in the deepest trees: there they are tried once
 * in so many times.
 */
void judge_chain(const struct chain *chain, uint64_t times, const char *change);

/* Turns a bit of a byte of a block of the chain. */
void flip_in_chain(struct chain *chain, size_t block, size_t offset);

/* Takes the path for that of another data block: each level in which that has another slot differs. */
void change_index(struct chain *chain, uint64_t index);

#endif
