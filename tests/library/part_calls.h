/*
 * Calls of the functions that build trees from parts, and what verity.h says of parts and joins by a computation of its
 * own; see calls.h for what is checked of each call.
 */
#ifndef PART_CALLS_H
#define PART_CALLS_H

#include "shapes.h"

/* A part of a level: the first fault of parameters, level and number, or what it is made of. */
struct part_shape {
    int status;
    struct shape tree;
    /* How many parts the level has, and how many data blocks each but the last one. */
    uint64_t parts, blocks;
    /* The first of its bytes, and how many it has. The last one of a file ends with the file. */
    uint64_t start, bytes;
    /* The levels of a tree above its data alone. Before its last byte no more can have closed. */
    size_t own_levels;
    size_t memory_length;
};

struct part_shape part_shape_of(const struct tree *tree, size_t level, uint64_t number);

/* The join of the parts of a level: the first fault of parameters and level, or what it is made of. */
struct join_shape {
    int status;
    bool is_file;
    struct shape tree;
    uint64_t parts;
    /* How many levels there are from this one on. */
    size_t levels;
    size_t memory_length;
};

struct join_shape join_shape_of(const struct tree *tree, size_t level);

/*
 * The status that each call has to have, by the numbers of a struct and the lengths of memory, piece, digests and
 * buffers. A file digest counts if it is a file's join.
 */
int part_begin_says(const struct part_shape *shape, size_t memory_length);
int part_feed_says(const struct part_shape *shape, const struct verity_part *part, size_t memory_length, size_t piece);
int part_last_block_says(const struct part_shape *shape, const struct verity_part *part);
int part_end_says(const struct part_shape *shape, const struct verity_part *part, size_t memory_length, size_t digest);
int join_begin_says(const struct join_shape *shape, size_t memory_length);
int join_feed_says(const struct join_shape *shape, const struct verity_join *join, size_t memory_length,
                   size_t digests);
int join_last_block_says(const struct join_shape *shape, const struct verity_join *join);
int join_end_says(const struct join_shape *shape, const struct verity_join *join, size_t memory_length, size_t root,
                  size_t file_digest);

/*
 * The hash block that was handed out last by what a struct says: that of the level that was closed last, above the
 * latest byte or digest. All is 0 if there is none.
 */
struct verity_fed last_block_of_part(const struct part_shape *shape, const struct verity_part *part);
struct verity_fed last_block_of_join(const struct join_shape *shape, const struct verity_join *join);

/* What is kept between the calls of a part, and between those of a join. */
struct part_building {
    struct tree tree;
    struct verity_part part;
    uint8_t *memory;
    size_t memory_length;
    bool is_disturbed;
};

struct joining {
    struct tree tree;
    struct verity_join join;
    uint8_t *memory;
    size_t memory_length;
};

/*
 * Each call is made twice, over copies that end where memory ends, and then the building has what they left. A fault
 * leaves it as it was, and what would be filled.
 */
int call_part_count(const struct tree *tree, size_t level, uint64_t *parts, uint64_t *blocks);
int call_part_memory(const struct tree *tree, size_t level, size_t *length);
int call_part_begin(struct part_building *building, size_t level, uint64_t number);
int call_part_feed(struct part_building *building, struct bytes piece, struct verity_fed *fed);
int call_part_last_block(const struct part_building *building, struct verity_fed *fed);

/* The second call is made over what the first one left, or, of a part that was disturbed, over the same. */
int call_part_end(struct part_building *building, uint8_t *digest, size_t digest_length);

int call_join_memory(const struct tree *tree, size_t level, size_t *length);
int call_join_begin(struct joining *joining, size_t level);
int call_join_feed(struct joining *joining, struct bytes digests, struct verity_fed *fed);
int call_join_last_block(const struct joining *joining, struct verity_fed *fed);

/* Of a join the memory is only read. digest is a file's alone. */
int call_join_end(const struct joining *joining, uint8_t *root, size_t root_length, uint8_t *digest,
                  size_t digest_length);

/* The same once, over struct and memory themselves: only piece and digests end where memory ends. */
int feed_part_once(struct part_building *building, struct bytes piece, struct verity_fed *fed);
int feed_join_once(struct joining *joining, struct bytes digests, struct verity_fed *fed);

#endif
