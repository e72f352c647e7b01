/* Data blocks of a dm-verity image that are checked before they are handed out; see checked_blocks.h. */
#include "checked_blocks.h"

int checked_begin(struct checked_image *image) {
    int ret = verity_level_count(&image->params, &image->levels);

    if (ret < 0)
        return ret;
    if (image->places < (image->levels < 2 ? image->levels : 2))
        return CHECKED_NO_ROOM;
    for (size_t i = 0; i < image->places; i++)
        image->place[i].used = 0;
    image->now = 0;
    return 0;
}

static uint8_t *block_at(const struct checked_image *image, size_t place) {
    return image->hash_blocks + place * image->params.hash_block_size;
}

/* The hash block that is kept under a start, and now is the one that was used last; or null. */
static const uint8_t *kept(struct checked_image *image, uint64_t start) {
    for (size_t i = 0; i < image->places; i++) {
        if (image->place[i].used != 0 && image->place[i].start == start) {
            image->place[i].used = ++image->now;
            return block_at(image, i);
        }
    }
    return NULL;
}

/* A free place, or else the one whose hash block was used least recently; so, of two or more, never the last one's. */
static size_t place_to_take(const struct checked_image *image) {
    size_t found = 0;

    for (size_t i = 1; i < image->places; i++) {
        if (image->place[i].used < image->place[found].used)
            found = i;
    }
    return found;
}

/*
 * Checks a block where it was read: by the hash block of this level above it, which was accepted before, or by the root
 * hash if there is no such level.
 */
static int check(const struct checked_image *image, uint64_t index, size_t level, const uint8_t *block, size_t length,
                 const uint8_t *above) {
    if (level == image->levels)
        return verity_check_top(&image->params, index, block, length, image->root, image->root_length);
    return verity_check_link(&image->params, index, level, block, length, above, image->params.hash_block_size);
}

/*
 * Reads the hash block of a level above a data block, and keeps it if it is accepted. *above is the one of the level
 * over it, which was used last, and becomes this one.
 */
static int read_hash_block(struct checked_image *image, uint64_t index, size_t level, const uint8_t **above) {
    size_t place = place_to_take(image), length = image->params.hash_block_size;
    uint8_t *block = block_at(image, place);
    uint64_t start = 0;
    int ret = verity_hash_block_start(&image->params, index, level, &start);

    if (ret < 0)
        return ret;
    image->place[place].used = 0;
    if (image->read(image->hash_device, start, block, length) != 0)
        return CHECKED_NOT_READ;
    ret = check(image, index, level + 1, block, length, *above);
    if (ret < 0)
        return ret;
    image->place[place].start = start;
    image->place[place].used = ++image->now;
    *above = block;
    return 0;
}

/*
 * Finds the hash block of level 0 above a data block, or null if there are no levels: the lowest one that is kept, and
 * from there downwards those that are read. *level is one more than the level that was come to.
 */
static int hash_block_above(struct checked_image *image, uint64_t index, const uint8_t **above, size_t *level) {
    size_t lowest = image->levels;

    *above = NULL;
    for (*level = image->levels; *level > 0; --*level) {
        uint64_t start = 0;
        const uint8_t *found;
        int ret = verity_hash_block_start(&image->params, index, *level - 1, &start);

        if (ret < 0)
            return ret;
        found = kept(image, start);
        if (found != NULL) {
            *above = found;
            lowest = *level - 1;
        }
    }
    for (*level = lowest; *level > 0; --*level) {
        int ret = read_hash_block(image, index, *level - 1, above);

        if (ret < 0)
            return ret;
    }
    return 0;
}

/* Does what checked_read says, but for what becomes of a block that isn't handed out, and always sets level. */
static int read_and_check(struct checked_image *image, uint64_t index, uint8_t *block, size_t length, size_t *level) {
    const uint8_t *above;
    int ret;

    if (index >= image->params.data_blocks)
        return VERITY_NO_SUCH_BLOCK;
    if (length != image->params.data_block_size)
        return VERITY_BAD_LENGTH;
    ret = hash_block_above(image, index, &above, level);
    if (ret < 0)
        return ret;
    if (image->read(image->data_device, index * length, block, length) != 0)
        return CHECKED_NOT_READ;
    return check(image, index, 0, block, length, above);
}

int checked_read(struct checked_image *image, uint64_t index, uint8_t *block, size_t block_length, size_t *level) {
    size_t came_to = 0;
    int ret = read_and_check(image, index, block, block_length, &came_to);

    if (ret < 0) {
        for (size_t i = 0; i < block_length; i++)
            block[i] = 0;
        if (ret == VERITY_DIFFERS || ret == CHECKED_NOT_READ)
            *level = came_to;
    }
    return ret;
}
