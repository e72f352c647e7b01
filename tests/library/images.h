/* Trees with what has to come of them, as tests/lib/tree_files.py writes them: by trees.py or by Debian's programs. */
#ifndef IMAGES_H
#define IMAGES_H

#include <stdio.h>

#include "shapes.h"

/* Root hash and digest of a file that has so many of the bytes. */
struct end {
    uint64_t size;
    uint8_t root[VERITY_MAX_DIGEST_SIZE];
    uint8_t digest[VERITY_MAX_DIGEST_SIZE];
};

struct image {
    struct tree tree;
    struct shape shape;
    const uint8_t *data;
    uint64_t size;
    /* The tree's hash blocks from the first on, which stands at this byte of the hash device. */
    uint8_t *hashes;
    uint64_t hashes_length;
    uint64_t first;
    uint8_t root[VERITY_MAX_DIGEST_SIZE];
    /* The superblock; of a file the descriptor. */
    uint8_t about[SUPERBLOCK_SIZE];
    uint8_t digest[VERITY_MAX_DIGEST_SIZE];
    /* Of a file, in the order of their sizes. */
    struct end *ends;
    size_t end_count;
    /* Of a chain, whose data block and path stand in place of the hash blocks. */
    uint64_t index;
    /* Its data is to be cut in one way, not in each. */
    bool is_one;
};

struct images {
    FILE *file;
    struct bytes data;
};

/* Files of trees and of the data that they are of, null if they have none. What can't be read ends the program. */
struct images open_images(const char *trees, const char *data);

/* The next tree, or false after the last one. */
bool next_image(struct images *images, struct image *image);
void free_image(struct image *image);

/* The tree stands where verity.h says, and has as many bytes. */
bool has_place(const struct image *image);

/* The end of a file that has so many bytes, null if it isn't known; and the least size beyond for which it is. */
const struct end *end_at(const struct image *image, uint64_t size);
uint64_t next_end(const struct image *image, uint64_t size);

#endif
