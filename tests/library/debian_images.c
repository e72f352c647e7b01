/*
 * Runs the library over an image that another program made.
 *
 *   debian_images DATA TREE
 *
 * TREE is a file of tree_files.py with the tree of the bytes of the file DATA. What doesn't hold is printed in lines
 * that begin with FAILED; the last line is 'N passed, M failed'.
 */
#include <inttypes.h>
#include <stdio.h>
#include <stdlib.h>
#include <string.h>

#include "calls.h"
#include "chains.h"
#include "images.h"
#include "shapes.h"
#include "support.h"

/* As many data blocks are tried, and as many of them with each change. */
#define MOST_TRIED 200
#define MOST_CHANGED 24

/* Turns a bit of a byte of block `block` of the chain, and puts it back. */
static void refuses_flipped(struct chain *chain, size_t block, size_t offset, const char *change)
{
    uint8_t *byte = chain->bytes + start_in_chain(&chain->shape, block) + offset, kept = *byte;

    flip_in_chain(chain, block, offset);
    judge_chain(chain, 1, change);
    *byte = kept;
    chain->differs = 0;
}

static void changed_blocks(struct chain *chain)
{
    const struct shape *shape = &chain->shape;
    size_t level, slot, other, used = (size_t)shape->fan_out * shape->slot_width;

    refuses_flipped(chain, 0, 0, "first byte of the data block");
    refuses_flipped(chain, 0, shape->data_block_size - 1, "last byte of the data block");
    refuses_flipped(chain, 0, random_below(shape->data_block_size), "a byte of the data block");
    for (level = 0; level < shape->levels; level++) {
        slot = slot_number(shape, chain->index, level) * shape->slot_width;
        other = (slot + shape->slot_width * (1 + random_below(shape->fan_out - 1))) % used;
        refuses_flipped(chain, level + 1, slot, "first byte of the slot");
        refuses_flipped(chain, level + 1, slot + shape->digest_size - 1, "last byte of the digest in the slot");
        refuses_flipped(chain, level + 1, slot + random_below(shape->digest_size), "a byte of the slot");
        refuses_flipped(chain, level + 1, other + random_below(shape->digest_size), "another slot");
        refuses_flipped(chain, level + 1, random_below(shape->hash_block_size), "a byte of the hash block");
        if (shape->slot_width > shape->digest_size) {
            refuses_flipped(chain, level + 1, slot + shape->digest_size, "first byte that fills the slot");
            refuses_flipped(chain, level + 1, slot + shape->slot_width - 1, "last byte that fills the slot");
        }
        if (used < shape->hash_block_size)
            refuses_flipped(chain, level + 1, used + random_below(shape->hash_block_size - used), "behind the slots");
    }
}

static void changed_root(struct chain *chain)
{
    const struct shape *shape = &chain->shape;
    size_t lengths[] = {0, shape->digest_size - 1, shape->digest_size + 1}, found, i;
    int status;

    chain->differs = (uint64_t)1 << shape->levels;
    for (i = 0; i < shape->digest_size; i += shape->digest_size - 1) {
        chain->root[i] ^= 1;
        judge_chain(chain, 1, "another root hash");
        chain->root[i] ^= 1;
    }
    chain->differs = 0;
    for (i = 0; i < sizeof lengths / sizeof *lengths; i++) {
        chain->root_length = lengths[i];
        status = check_chain(chain, &found);
        check(status == VERITY_BAD_ROOT_LENGTH && found == PAINT, "root hash of %zu bytes: status %d", lengths[i],
              status);
        check(check_top_block(chain) == VERITY_BAD_ROOT_LENGTH, "top, root hash of %zu bytes", lengths[i]);
    }
    chain->root_length = shape->digest_size;
}

/* Lengths that are off, each alone. There is room behind the chain for a byte or a block more. */
static void changed_lengths(struct chain *chain)
{
    const struct tree *tree = &chain->tree;
    const struct shape *shape = &chain->shape;
    struct bytes block = block_of(chain, 0), path = path_of(chain), root = root_of(chain);
    struct bytes top = block_of(chain, shape->levels), below, above;
    size_t blocks[] = {0, block.length - 1, block.length + 1, 2 * block.length};
    size_t paths[] = {path.length + 1, path.length + shape->hash_block_size, path.length - 1,
                      path.length - shape->hash_block_size, 0};
    size_t found = PAINT, level, i;

    for (i = 0; i < sizeof blocks / sizeof *blocks; i++)
        check(call_check_block(tree, chain->index, bytes_of(block.at, blocks[i]), path, root, &found) ==
                      VERITY_BAD_LENGTH && found == PAINT, "a block of %zu bytes", blocks[i]);
    for (i = 0; i < (path.length ? 5 : 2); i++)
        check(call_check_block(tree, chain->index, block, bytes_of(path.at, paths[i]), root, &found) ==
                      VERITY_BAD_LENGTH && found == PAINT, "a path of %zu bytes", paths[i]);
    for (i = 0; i < 3; i++) {
        check(call_check_top(tree, chain->index, bytes_of(top.at, i == 0 ? 0 : top.length + 2 * i - 3), root) ==
                      VERITY_BAD_LENGTH, "a top block of another length, %zu", i);
        for (level = 0; level < shape->levels; level++) {
            below = block_of(chain, level);
            above = block_of(chain, level + 1);
            check(call_check_link(tree, chain->index, level,
                                  bytes_of(below.at, i == 0 ? 0 : below.length + 2 * i - 3), above) ==
                          VERITY_BAD_LENGTH, "level %zu, a block of another length, %zu", level, i);
            check(call_check_link(tree, chain->index, level, below,
                                  bytes_of(above.at, i == 0 ? 0 : above.length + 2 * i - 3)) ==
                          VERITY_BAD_LENGTH, "level %zu, a block above of another length, %zu", level, i);
        }
    }
}

static void changed_numbers(struct chain *chain)
{
    const struct shape *shape = &chain->shape;
    uint64_t own = chain->index, others[] = {shape->data_blocks, shape->data_blocks + 1, UINT64_MAX};
    size_t levels[] = {shape->levels, shape->levels + 1, SIZE_MAX}, found, level, i;
    struct bytes block = block_of(chain, 0), above = bytes_of(chain->bytes, shape->hash_block_size);

    for (i = 0; i < 3; i++) {
        chain->index = others[i];
        check(check_chain(chain, &found) == VERITY_NO_SUCH_BLOCK && found == PAINT, "block %" PRIu64, others[i]);
        check(check_top_block(chain) == VERITY_NO_SUCH_BLOCK, "top, block %" PRIu64, others[i]);
        for (level = 0; level < shape->levels; level++)
            check(check_one_link(chain, level) == VERITY_NO_SUCH_BLOCK, "link, block %" PRIu64, others[i]);
    }
    chain->index = own;
    for (i = 0; i < 3; i++)
        check(call_check_link(&chain->tree, own, levels[i], block, above) == VERITY_NO_SUCH_LEVEL,
              "link to level %zu", levels[i]);
    if (shape->data_blocks > 1) {
        change_index(chain, (own + 1 + random_below(shape->data_blocks - 1)) % shape->data_blocks);
        judge_chain(chain, 1, "number of another data block");
        chain->index = own;
        chain->differs = 0;
    }
}

static void try_block(const struct image *image, uint64_t index, bool changed)
{
    const struct shape *shape = &image->shape;
    struct chain chain = {.tree = image->tree, .shape = *shape, .index = index, .root_length = shape->digest_size};
    size_t room = 2 * (size_t)shape->data_block_size + (shape->levels + 1) * shape->hash_block_size + 1, level;
    uint64_t start, at = index * shape->data_block_size, left = image->size - at;

    chain.bytes = memory_of(room);
    memcpy(chain.root, image->root, shape->digest_size);
    memcpy(chain.bytes, image->data + at, left < shape->data_block_size ? left : shape->data_block_size);
    for (level = 0; level < shape->levels; level++) {
        start = PAINT;
        check(call_hash_block_start(&image->tree, index, level, &start) == VERITY_OK, "block %" PRIu64 ", level %zu",
              index, level);
        start -= image->first;
        check(start <= image->hashes_length - shape->hash_block_size, "block %" PRIu64 ", level %zu: start %" PRIu64,
              index, level, start);
        if (start <= image->hashes_length - shape->hash_block_size)
            memcpy(chain.bytes + start_in_chain(shape, level + 1), image->hashes + start, shape->hash_block_size);
    }
    judge_chain(&chain, 1, "unchanged");
    if (changed) {
        changed_blocks(&chain);
        changed_root(&chain);
        changed_lengths(&chain);
        changed_numbers(&chain);
    }
    free(chain.bytes);
}

/* The number of levels, and where each stands. */
static void check_places(const struct image *image)
{
    const struct shape *shape = &image->shape;
    size_t levels = PAINT, level, none[] = {shape->levels, shape->levels + 1, SIZE_MAX}, i;
    uint64_t start, blocks, index, below, numbers[] = {shape->data_blocks, UINT64_MAX};

    check(call_level_count(&image->tree, &levels) == VERITY_OK && levels == shape->levels, "%zu levels, expected %zu",
          levels, shape->levels);
    for (level = 0, below = shape->fan_out; level < shape->levels; level++, below *= shape->fan_out) {
        start = blocks = PAINT;
        check(call_level_start(&image->tree, level, &start, &blocks) == VERITY_OK && start == shape->starts[level] &&
                      blocks == shape->blocks[level],
              "level %zu begins at %" PRIu64 " with %" PRIu64 " blocks, expected %" PRIu64 " and %" PRIu64, level,
              start, blocks, shape->starts[level], shape->blocks[level]);
        for (index = 0; index < shape->data_blocks; index += 1 + random_below(1 + shape->data_blocks / 512)) {
            start = PAINT;
            check(call_hash_block_start(&image->tree, index, level, &start) == VERITY_OK &&
                          start == shape->starts[level] + index / below * shape->hash_block_size,
                  "level %zu above block %" PRIu64 ": %" PRIu64, level, index, start);
        }
        for (i = 0; i < 2; i++)
            check(call_hash_block_start(&image->tree, numbers[i], level, &start) == VERITY_NO_SUCH_BLOCK,
                  "level %zu above block %" PRIu64, level, numbers[i]);
    }
    /* The tree ends where the other program's file does. */
    check(has_place(image), "the tree has %" PRIu64 " bytes", image->hashes_length);
    for (i = 0; i < 3; i++) {
        check(call_level_start(&image->tree, none[i], &start, &blocks) == VERITY_NO_SUCH_LEVEL, "level %zu", none[i]);
        check(call_hash_block_start(&image->tree, 0, none[i], &start) == VERITY_NO_SUCH_LEVEL, "block of level %zu",
              none[i]);
    }
}

static void check_image(const struct image *image)
{
    uint64_t count, step, index, tried = 0;

    count = image->shape.data_blocks;
    check(image->shape.status == VERITY_OK, "the settings are refused: %d", image->shape.status);
    check(image->size == (image->tree.is_file ? image->tree.file.size : count * image->shape.data_block_size),
          "the data has %" PRIu64 " bytes", image->size);
    check_places(image);
    step = count / MOST_TRIED + 1;
    for (index = 0; index < count; index += 1 + random_below(2 * step - 1))
        try_block(image, index, tried++ % (1 + count / step / MOST_CHANGED) == 0);
    try_block(image, count - 1, true);
}

/* Each field of the superblock is the one that the other program was told. */
static void check_superblock(const struct image *image)
{
    const struct verity_params *expected = &image->tree.device;
    struct verity_params found, before;
    struct bytes superblock = bytes_of(image->about, SUPERBLOCK_SIZE);
    uint8_t longer[2 * SUPERBLOCK_SIZE];
    size_t lengths[] = {0, 1, 511}, i;
    uint64_t offset = random_number();

    memset(&found, 0xa5, sizeof found);
    before = found;
    check(call_read_superblock(superblock, expected->hash_offset, &found) == VERITY_OK, "the superblock is refused");
    /* The salt has zeros behind it, in the image too. */
    check(memcmp(&found, expected, sizeof found) == 0, "another field of the superblock");
    /* More bytes change nothing, and any hash offset goes into the parameters. */
    random_bytes(longer, sizeof longer);
    memcpy(longer, image->about, SUPERBLOCK_SIZE);
    check(call_read_superblock(bytes_of(longer, SUPERBLOCK_SIZE + 1 + random_below(SUPERBLOCK_SIZE)), offset, &found) ==
                  VERITY_OK && found.hash_offset == offset && found.data_blocks == expected->data_blocks,
          "a superblock with bytes behind it");
    for (i = 0; i < 3; i++) {
        found = before;
        check(call_read_superblock(bytes_of(superblock.at, lengths[i]), 0, &found) == VERITY_SHORT_SUPERBLOCK &&
                      memcmp(&found, &before, sizeof found) == 0, "%zu bytes of the superblock", lengths[i]);
    }
}

static void check_verity(struct image *image)
{
    struct verity_params *params = &image->tree.device;

    if (params->no_superblock == 0)
        check_superblock(image);
    else
        /* Any number but 0 says that there is no superblock. */
        params->no_superblock = 1 + (uint32_t)random_below(UINT32_MAX);
    check_image(image);
    /* What doesn't count may be anything. */
    memset(params->salt + params->salt_size, 0x5a, sizeof params->salt - params->salt_size);
    memset(params->uuid, 0x5a, sizeof params->uuid);
    try_block(image, random_below(params->data_blocks), false);
}

static void check_file_digest(const struct image *image)
{
    const uint8_t *expected = image->digest;
    const struct fsverity_params *params = &image->tree.file;
    struct fsverity_params other = *params;
    size_t length = digest_size_of(params->hash_algorithm), lengths[] = {0, length - 1, length + 1}, i;
    uint8_t digest[VERITY_MAX_DIGEST_SIZE + 1], before[VERITY_MAX_DIGEST_SIZE + 1];
    uint8_t root[VERITY_MAX_DIGEST_SIZE + 1] = {0};

    memcpy(root, image->root, length);
    memset(before, 0xa5, sizeof before);
    memcpy(digest, before, sizeof before);
    check(call_file_digest(params, bytes_of(root, length), digest, length) == VERITY_OK &&
                  memcmp(digest, expected, length) == 0, "the file digest");
    for (i = 0; i < 3; i++) {
        memcpy(digest, before, sizeof before);
        check(call_file_digest(params, bytes_of(root, lengths[i]), digest, length) == VERITY_BAD_ROOT_LENGTH,
              "file digest, root hash of %zu bytes", lengths[i]);
        check(call_file_digest(params, bytes_of(root, length), digest, lengths[i]) == VERITY_BAD_LENGTH,
              "file digest of %zu bytes", lengths[i]);
        check(memcmp(digest, before, sizeof before) == 0, "a digest that isn't filled");
    }
    root[random_below(length)] ^= 1;
    check(call_file_digest(params, bytes_of(root, length), digest, length) == VERITY_OK &&
                  memcmp(digest, expected, length) != 0, "the file digest of another root hash");
    memcpy(root, image->root, length);
    for (i = 0; i < 3; i++) {
        other = *params;
        if (i == 0)
            other.size++;
        else if (i == 1)
            other.block_size *= 2;
        else
            other.salt_size = other.salt_size == 32 ? 31 : other.salt_size + 1;
        check(call_file_digest(&other, bytes_of(root, length), digest, length) == VERITY_OK &&
                      memcmp(digest, expected, length) != 0, "the file digest of other parameters, %zu", i);
    }
}

static void check_fsverity(struct image *image)
{
    struct fsverity_params *params = &image->tree.file;
    size_t levels = PAINT;
    uint64_t start = PAINT, blocks = PAINT;
    struct bytes none = {(const uint8_t *)"", 0}, root = {image->root, digest_size_of(params->hash_algorithm)};

    check_file_digest(image);
    if (params->size > 0) {
        check_image(image);
        memset(params->salt + params->salt_size, 0x5a, sizeof params->salt - params->salt_size);
        check_file_digest(image);
        return;
    }
    check(call_level_count(&image->tree, &levels) == VERITY_NO_DATA, "levels of an empty file");
    check(call_level_start(&image->tree, 0, &start, &blocks) == VERITY_NO_DATA, "level 0 of an empty file");
    check(call_hash_block_start(&image->tree, 0, 0, &start) == VERITY_NO_DATA, "a block of an empty file");
    check(call_check_block(&image->tree, 0, none, none, root, &levels) == VERITY_NO_DATA, "check of an empty file");
    check(call_check_link(&image->tree, 0, 0, none, none) == VERITY_NO_DATA, "a link of an empty file");
    check(call_check_top(&image->tree, 0, none, root) == VERITY_NO_DATA, "the top of an empty file");
}

int main(int count, char **words)
{
    struct images images;
    struct image image;

    if (count != 3)
        give_up("usage: debian_images DATA TREE");
    seed_random(1);
    images = open_images(words[2], words[1]);
    if (!next_image(&images, &image))
        give_up("there is no tree");
    (image.tree.is_file ? check_fsverity : check_verity)(&image);
    return finish();
}
