/*
 * Feeds data to the library in pieces, and compares what comes of it with trees by trees.py or by Debian's programs.
 *
 *   feeding SEED DATA TREES [LEAST MOST]
 *
 * TREES is a file of tree_files.py, whose trees are of the bytes of the file DATA. A tree's data is cut in each way, or
 * in one way, and that of the next such tree in the next way. Data of all block sizes from LEAST to MOST, and what is
 * below hash blocks of each of them, has to be cut in each way. SEED draws all that is random. What doesn't hold is
 * printed in lines that begin with FAILED; the last line is 'N passed, M failed'.
 */
#include <inttypes.h>
#include <stdio.h>
#include <stdlib.h>
#include <string.h>

#include "calls.h"
#include "cuts.h"
#include "feeding_calls.h"
#include "images.h"
#include "shapes.h"
#include "support.h"

/* Pieces of one byte, of a few, of nearly a block; of any length, and all at once. */
static const size_t cuts[] = {1, 7, 4095, 4096, 4097, ANY, WHOLE};
#define CUTS (sizeof cuts / sizeof *cuts)

/* As many bytes are cut so that pieces have less than a hundred; then their length is any. */
#define MOST_CUT_SMALL 30000

/* In which ways data was cut, a bit for each, for each exponent of a block size. */
static uint32_t cuts_of_data_blocks[20], cuts_of_hash_blocks[20];

/* One feeding of all data. */
struct feeding {
    struct building building;
    struct shape shape;
    const struct image *expected;
    /* What the hash blocks that were handed out make of the tree, and how many of each level they are. */
    uint8_t *hashes;
    uint64_t handed_out[64];
};

static void begin(struct feeding *feeding, const struct tree *tree)
{
    struct building *building = &feeding->building;
    size_t length = PAINT;
    uint8_t *bytes;

    memset(feeding, 0, sizeof *feeding);
    memcpy(&building->tree, tree, sizeof *tree);
    feeding->shape = shape_of(tree);
    feeding->hashes = memory_of(tree_length(&feeding->shape));
    check(call_build_memory(tree, &length) == VERITY_OK && length == memory_length_of(tree), "memory of %zu bytes",
          length);
    bytes = memory_of(length);
    random_bytes(bytes, length);
    building->memory = place(KEPT, bytes, length);
    building->memory_length = length;
    building->build = (struct verity_build){random_number(), random_number()};
    free(bytes);
    check(call_build_begin(building) == VERITY_OK, "the beginning");
}

/* A hash block is handed out at its place, after those below it, and only once. */
static void put_block(struct feeding *feeding, const struct verity_fed *fed)
{
    const struct shape *shape = &feeding->shape;
    size_t level = fed->block_level, width = shape->hash_block_size;
    uint64_t index = fed->block_index, below, first;

    if (level >= shape->levels || fed->block_length != width ||
        fed->block_at > feeding->building.memory_length - width) {
        check(false, "a block of level %zu, %zu bytes at %zu", level, fed->block_length, fed->block_at);
        return;
    }
    check(index == feeding->handed_out[level] && index < shape->blocks[level] &&
                  fed->block_start == shape->starts[level] + index * width,
          "block %" PRIu64 " of level %zu at %" PRIu64, index, level, fed->block_start);
    if (level > 0) {
        below = (index + 1) * shape->fan_out;
        if (below > shape->blocks[level - 1])
            below = shape->blocks[level - 1];
        check(feeding->handed_out[level - 1] == below, "block %" PRIu64 " of level %zu comes early", index, level);
    }
    feeding->handed_out[level]++;
    first = shape->starts[shape->levels - 1];
    if (fed->block_start >= first && fed->block_start - first <= tree_length(shape) - width)
        memcpy(feeding->hashes + (fed->block_start - first), feeding->building.memory + fed->block_at, width);
}

/* Feeds a piece, until no hash block is handed out. Some calls are made with everything watched. */
static void feed_piece(struct feeding *feeding, const uint8_t *piece, size_t length)
{
    struct verity_fed fed;
    uint64_t times = 1 + feeding->building.memory_length / 512;
    int status;

    do {
        memset(&fed, 0xa5, sizeof fed);
        status = once_in(times) ? call_build_feed(&feeding->building, bytes_of(piece, length), &fed)
                                : feed_once(&feeding->building, bytes_of(piece, length), &fed);
        if (status != VERITY_OK || fed.taken > length) {
            check(false, "feeding %zu bytes: status %d", length, status);
            return;
        }
        piece += fed.taken;
        length -= fed.taken;
        if (fed.block_length > 0)
            put_block(feeding, &fed);
        else if (length > 0 || fed.block_at > 0 || fed.block_start > 0 || fed.block_index > 0 || fed.block_level > 0)
            check(false, "no block is handed out, and %zu bytes are left", length);
    } while (fed.block_length > 0);
}

static void ends(struct feeding *feeding)
{
    const struct image *expected = feeding->expected;
    struct tree *tree = &feeding->building.tree;
    size_t length = digest_size_of_tree(tree), level;
    uint8_t root[VERITY_MAX_DIGEST_SIZE] = {0}, digest[VERITY_MAX_DIGEST_SIZE] = {0}, descriptor[DESCRIPTOR_SIZE];

    check(call_build_end(&feeding->building, root, length, digest, tree->is_file ? length : 0) == VERITY_OK, "the end");
    check(memcmp(root, expected->root, length) == 0, "the root hash");
    if (tree->is_file) {
        check(tree->file.size == expected->size, "the size is %" PRIu64, tree->file.size);
        check(memcmp(digest, expected->digest, length) == 0, "the file digest");
        check(call_descriptor(&tree->file, bytes_of(root, length), descriptor, DESCRIPTOR_SIZE) == VERITY_OK &&
                      memcmp(descriptor, expected->about, DESCRIPTOR_SIZE) == 0, "the descriptor");
        return;
    }
    for (level = 0; level < feeding->shape.levels; level++)
        check(feeding->handed_out[level] == feeding->shape.blocks[level], "%" PRIu64 " blocks of level %zu",
              feeding->handed_out[level], level);
    check(memcmp(feeding->hashes, expected->hashes, tree_length(&feeding->shape)) == 0, "the hash blocks");
}

/* How many files have known ends before their last byte, and how many such ends were asked for. */
static uint64_t with_ends, ends_asked_for;

/* The end of what was fed of a file so far. Feeding goes on as if it hadn't been asked for. */
static void asks(struct feeding *feeding)
{
    uint64_t size = feeding->building.tree.file.size;
    const struct end *expected = end_at(feeding->expected, size);
    size_t length = digest_size_of(feeding->building.tree.file.hash_algorithm);
    uint8_t root[VERITY_MAX_DIGEST_SIZE], digest[VERITY_MAX_DIGEST_SIZE];

    check(call_build_end(&feeding->building, root, length, digest, length) == VERITY_OK, "an end between pieces");
    check(expected == NULL || (memcmp(root, expected->root, length) == 0 &&
                               memcmp(digest, expected->digest, length) == 0), "the end of %" PRIu64 " bytes", size);
    ends_asked_for += expected != NULL && size < feeding->expected->size;
}

/* A copy of struct and memory goes on by itself, with all that is left. */
static void copy_goes_on(const struct feeding *feeding, uint64_t fed)
{
    struct feeding copy;
    uint8_t *memory = memory_of(feeding->building.memory_length), *hashes = memory_of(tree_length(&feeding->shape));

    memcpy(&copy, feeding, sizeof copy);
    memcpy(memory, feeding->building.memory, feeding->building.memory_length);
    memcpy(hashes, feeding->hashes, tree_length(&feeding->shape));
    copy.building.memory = memory;
    copy.hashes = hashes;
    feed_piece(&copy, feeding->expected->data + fed, (size_t)(feeding->expected->size - fed));
    ends(&copy);
    free(memory);
    free(hashes);
}

static void feed_all(const struct image *expected, size_t cut)
{
    struct feeding feeding;
    uint64_t fed = 0, copied;
    size_t length;

    begin(&feeding, &expected->tree);
    feeding.expected = expected;
    copied = once_in(4) ? random_below(expected->size + 1) : UINT64_MAX;
    do {
        length = next_length(cut, fed >= MOST_CUT_SMALL, expected->size - fed);
        /* Some pieces end where the end is known. */
        if (once_in(2) && next_end(expected, fed) - fed < length)
            length = next_end(expected, fed) - fed;
        if (fed <= copied && copied - fed < length) {
            copy_goes_on(&feeding, fed);
            copied = UINT64_MAX;
        }
        feed_piece(&feeding, expected->data + fed, length);
        fed += length;
        if (expected->tree.is_file && (once_in(8) || (fed < expected->size && end_at(expected, fed) != NULL)))
            asks(&feeding);
    } while (fed < expected->size);
    ends(&feeding);
    if (once_in(2))
        feed_piece(&feeding, expected->data, 0);
    ends(&feeding);
    free(feeding.hashes);
}

static size_t exponent_of(uint32_t size)
{
    size_t exponent = 0;

    for (; size > 1; size /= 2)
        exponent++;
    return exponent;
}

/* Cuts in this way, and notes for which block sizes. */
static void feed_way(const struct image *expected, size_t way)
{
    const struct tree *tree = &expected->tree;

    feed_all(expected, cuts[way]);
    if (tree->is_file)
        return;
    cuts_of_data_blocks[exponent_of(tree->device.data_block_size)] |= (uint32_t)1 << way;
    cuts_of_hash_blocks[exponent_of(tree->device.hash_block_size)] |= (uint32_t)1 << way;
}

/* All ways to cut, or one of them, and with the next tree the next one. */
static void feed_cut(const struct image *expected)
{
    static size_t next;
    size_t i;

    if (expected->is_one) {
        feed_way(expected, next);
        next = (next + 1) % CUTS;
        return;
    }
    for (i = 0; i < CUTS; i++)
        feed_way(expected, i);
}

/* Data of each of these block sizes was cut in each way, and so was what is below hash blocks of each. */
static void check_cuts(uint32_t least, uint32_t most)
{
    uint32_t size, all = ((uint32_t)1 << CUTS) - 1;

    for (size = least; size <= most; size *= 2)
        check(cuts_of_data_blocks[exponent_of(size)] == all && cuts_of_hash_blocks[exponent_of(size)] == all,
              "blocks of %" PRIu32 " bytes are not cut in each way", size);
}

static void check_superblock(const struct verity_params *params, const uint8_t *expected)
{
    struct verity_params again;
    uint8_t superblock[SUPERBLOCK_SIZE];

    check(call_write_superblock(params, superblock, SUPERBLOCK_SIZE) == VERITY_OK, "the superblock");
    check(memcmp(superblock, expected, SUPERBLOCK_SIZE) == 0, "the bytes of the superblock");
    check(call_read_superblock(bytes_of(superblock, SUPERBLOCK_SIZE), params->hash_offset, &again) == VERITY_OK &&
                  again.data_blocks == params->data_blocks && memcmp(again.uuid, params->uuid, 16) == 0 &&
                  memcmp(again.salt, params->salt, params->salt_size) == 0, "the superblock is read again");
}

int main(int count, char **words)
{
    struct images images;
    struct image image;

    if (count != 4 && count != 6)
        give_up("usage: feeding SEED DATA TREES [LEAST MOST]");
    seed_random(number_of(words[1]));
    images = open_images(words[3], words[2]);
    while (next_image(&images, &image)) {
        check(has_place(&image), "the place of the tree");
        if (!image.tree.is_file && image.tree.device.no_superblock == 0)
            check_superblock(&image.tree.device, image.about);
        feed_cut(&image);
        with_ends += image.tree.is_file && image.end_count > 1;
        free_image(&image);
    }
    check(with_ends < 20 || ends_asked_for > 0, "no end was asked for that is known");
    if (count == 6)
        check_cuts((uint32_t)number_of(words[4]), (uint32_t)number_of(words[5]));
    return finish();
}
