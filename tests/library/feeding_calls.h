/*
 * Calls of the functions that build trees, and what verity.h says of the length of their memory by a computation of its
 * own; see calls.h for what is checked of each call.
 */
#ifndef FEEDING_CALLS_H
#define FEEDING_CALLS_H

#include "support.h"

/* What is kept between calls: the parameters, of which a file's have the size, and struct and memory. */
struct building {
    struct tree tree;
    struct verity_build build;
    uint8_t *memory;
    size_t memory_length;
    bool is_disturbed;
};

/* Up to eight data blocks, but no more bytes than the largest block has, nor blocks than a hash block has slots. */
size_t window_length(size_t data_block_size, uint64_t fan_out);

/*
 * The length of the memory that verity.h says of parameters without a fault: a hash block for each level and up to
 * eight data blocks. A file has the levels of the largest one, whose blocks are all full.
 */
size_t memory_length_of(const struct tree *tree);

/*
 * Each call is made twice, over copies that end where memory ends, and then the building has what they left. A fault
 * leaves it as it was, and what would be filled. Of a file, fed says with VERITY_OK that the whole piece is taken.
 */
int call_build_memory(const struct tree *tree, size_t *length);
int call_build_begin(struct building *building);
int call_build_feed(struct building *building, struct bytes piece, struct verity_fed *fed);

/* The hash block of a tree of dm-verity that was handed out last. Nothing of the building changes. */
int call_build_last_block(const struct building *building, struct verity_fed *fed);

/*
 * The same of the end: the second call is made over what the first one left, or, of a building that was disturbed, over
 * the same as the first. digest is a file's alone.
 */
int call_build_end(struct building *building, uint8_t *root, size_t root_length, uint8_t *digest, size_t digest_length);

/* The same once, over the building itself: only the piece ends where memory ends. */
int feed_once(struct building *building, struct bytes piece, struct verity_fed *fed);

/* The same of a file's tree whose blocks are handed out. The ends are made over what the first call left. */
int call_tree_build_begin(struct building *building);
int call_tree_build_feed(struct building *building, struct bytes piece, struct verity_fed *fed);
int call_tree_build_end_block(struct building *building, size_t level, uint8_t *block, size_t length, uint64_t *index);
int call_tree_build_end(struct building *building, uint8_t *root, size_t root_length, uint8_t *digest,
                        size_t digest_length);

int call_write_superblock(const struct verity_params *params, uint8_t *bytes, size_t length);
int call_descriptor(const struct fsverity_params *params, struct bytes root, uint8_t *descriptor, size_t length);

#endif
