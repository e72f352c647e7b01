/*
 * Calls the library with random and with changed input, the same for the same seed.
 *
 *   fuzz SEED CALLS CHAINS
 *
 * CHAINS is a file of chains.py: data blocks with paths that are accepted. After so many calls it says how many they
 * were, and 'N passed, M failed'. What has to hold of every call is in calls.c.
 */
#include <inttypes.h>
#include <stdio.h>
#include <stdlib.h>
#include <string.h>

#include "calls.h"
#include "chains.h"
#include "disturbed_parts.h"
#include "images.h"
#include "part_calls.h"
#include "shapes.h"
#include "support.h"

/* Longer blocks and paths are not tried, so that a run ends soon. */
#define MOST_TRIED ((size_t)1 << 20)

static struct image *chains;
static size_t chain_count;

/* Numbers at which something ends. */
static uint64_t edge(void)
{
    static const uint64_t edges[] = {0,          1,       2,       3,       5,           6,          32,
                                     33,         63,      64,      128,     255,         256,        257,
                                     511,        512,     513,     4096,    65535,       65536,      524287,
                                     524288,     524289,  1048576, 1u << 31, UINT32_MAX, LARGEST,    LARGEST - 511,
                                     LARGEST + 1, UINT64_MAX, UINT64_MAX - 511};
    uint64_t number = edges[random_below(sizeof edges / sizeof *edges)];

    return once_in(4) ? number + random_below(5) - 2 : number;
}

static uint32_t some_size(uint32_t least, unsigned int steps)
{
    return least << (once_in(8) ? random_below(steps) : random_below(4));
}

static void draw_device(struct verity_params *params)
{
    uint32_t unit;

    random_bytes((uint8_t *)params, sizeof *params);
    params->hash_algorithm = once_in(32) ? (uint32_t)edge() : 1 + (uint32_t)random_below(5);
    params->hash_type = once_in(32) ? (uint32_t)edge() : (uint32_t)random_below(2);
    params->data_block_size = once_in(32) ? (uint32_t)edge() : some_size(512, 11);
    params->hash_block_size = once_in(32) ? (uint32_t)edge() : some_size(512, 11);
    params->salt_size = once_in(16) ? (uint32_t)(once_in(2) ? edge() : random_number()) : (uint32_t)random_below(257);
    params->data_blocks = once_in(8) ? edge() : any_number();
    if (once_in(8) && params->data_block_size > 0)
        params->data_blocks = LARGEST / params->data_block_size + random_below(3) - 1;
    params->no_superblock = once_in(2) ? 0 : (uint32_t)any_number();
    unit = params->no_superblock ? params->hash_block_size : SUPERBLOCK_SIZE;
    params->hash_offset = once_in(4) ? edge() : once_in(2) ? 0 : any_number();
    if (!once_in(16) && unit > 0)
        params->hash_offset -= params->hash_offset % unit;
}

static void draw_file(struct fsverity_params *params)
{
    random_bytes((uint8_t *)params, sizeof *params);
    params->hash_algorithm = once_in(32) ? (uint32_t)edge() : 1 + (uint32_t)random_below(2);
    params->block_size = once_in(32) ? (uint32_t)edge() : some_size(64u * params->hash_algorithm, 13);
    params->salt_size = once_in(16) ? (uint32_t)(once_in(2) ? edge() : random_number()) : (uint32_t)random_below(33);
    params->size = once_in(4) ? edge() : any_number();
}

static void draw_tree(struct tree *tree)
{
    tree->is_file = once_in(2);
    draw_device(&tree->device);
    draw_file(&tree->file);
}

/* A number below a limit, at it, or beyond. */
static uint64_t number_about(uint64_t limit)
{
    switch (random_below(8)) {
    case 0:
        return limit;
    case 1:
        return limit + 1;
    case 2:
        return once_in(2) ? UINT64_MAX : random_number();
    case 3:
        return limit - 1;
    default:
        return limit > 0 ? random_below(limit) : any_number();
    }
}

static size_t length_about(size_t right)
{
    if (!once_in(4) && right <= MOST_TRIED)
        return right;
    switch (random_below(4)) {
    case 0:
        return 0;
    case 1:
        return right <= MOST_TRIED ? right + 1 : 1;
    case 2:
        return right <= MOST_TRIED && right > 0 ? right - 1 : 2;
    default:
        return random_below(5000);
    }
}

/* Levels, their places, and the places above a data block. */
static void try_places(void)
{
    struct tree tree;
    struct shape shape;
    size_t levels = PAINT, level, count;
    uint64_t start = PAINT, blocks = PAINT, index, above = PAINT, below, next;
    int status, expected;

    draw_tree(&tree);
    shape = shape_of(&tree);
    status = call_level_count(&tree, &levels);
    check(status == shape.status, "levels: status %d, expected %d", status, shape.status);
    check(status == VERITY_OK ? levels == shape.levels && levels <= 63 : levels == PAINT, "levels: %zu", levels);
    count = status == VERITY_OK ? levels : 3;

    level = (size_t)number_about(count);
    expected = shape.status != VERITY_OK ? shape.status : level >= shape.levels ? VERITY_NO_SUCH_LEVEL : VERITY_OK;
    status = call_level_start(&tree, level, &start, &blocks);
    check(status == expected, "level %zu: status %d, expected %d", level, status, expected);
    if (status == VERITY_OK) {
        check(start == shape.starts[level] && blocks == shape.blocks[level], "level %zu: wrong place", level);
        check(start <= LARGEST - shape.hash_block_size, "level %zu ends too late", level);
    } else {
        check(start == PAINT && blocks == PAINT, "level %zu: filled", level);
    }

    index = number_about(shape.status == VERITY_OK ? shape.data_blocks : 300);
    expected = shape.status != VERITY_OK      ? shape.status
               : index >= shape.data_blocks   ? VERITY_NO_SUCH_BLOCK
               : level >= shape.levels        ? VERITY_NO_SUCH_LEVEL
                                              : VERITY_OK;
    status = call_hash_block_start(&tree, index, level, &above);
    check(status == expected, "block above: status %d, expected %d", status, expected);
    if (status == VERITY_OK) {
        for (below = index, next = 0; next <= level; next++)
            below /= shape.fan_out;
        check(above == shape.starts[level] + below * shape.hash_block_size, "block above: %" PRIu64, above);
        check(above <= LARGEST - shape.hash_block_size, "a block ends too late");
    } else {
        check(above == PAINT, "block above: filled");
    }

    /* The functions agree on which levels there are, and the levels stand one behind another. */
    if (shape.status != VERITY_OK)
        return;
    check(call_level_start(&tree, levels, &start, &blocks) == VERITY_NO_SUCH_LEVEL, "a level more");
    check(call_hash_block_start(&tree, 0, levels, &above) == VERITY_NO_SUCH_LEVEL, "a block of a level more");
    if (levels == 0)
        return;
    check(call_level_start(&tree, levels - 1, &start, &blocks) == VERITY_OK && blocks == 1, "the top level");
    check(call_hash_block_start(&tree, shape.data_blocks - 1, levels - 1, &above) == VERITY_OK && above == start,
          "the top block");
    level = random_below(levels);
    check(call_level_start(&tree, level, &start, &blocks) == VERITY_OK &&
                  call_hash_block_start(&tree, shape.data_blocks - 1, level, &above) == VERITY_OK &&
                  above == start + (blocks - 1) * shape.hash_block_size, "the last block of level %zu", level);
    if (level > 0)
        check(call_level_start(&tree, level - 1, &next, &below) == VERITY_OK &&
                      next == start + blocks * shape.hash_block_size, "levels that don't follow one another");
}

/* Where the hash area ends: after the blocks of level 0, or where the tree would begin. */
static void try_end(void)
{
    struct tree tree;
    struct shape shape;
    uint64_t end = PAINT, start;
    int status;

    draw_tree(&tree);
    shape = shape_of(&tree);
    status = call_area_end(&tree, &end);
    check(status == shape.status, "the end: status %d, expected %d", status, shape.status);
    if (shape.status != VERITY_OK) {
        check(end == PAINT, "the end: filled");
    } else if (shape.levels > 0) {
        check(end == shape.starts[0] + shape.blocks[0] * shape.hash_block_size, "the end: %" PRIu64, end);
    } else {
        start = tree.is_file ? 0 : tree.device.hash_offset + (tree.device.no_superblock ? 0 : SUPERBLOCK_SIZE);
        check(end >= start && end - start < shape.hash_block_size && end % shape.hash_block_size == 0,
              "the end without levels: %" PRIu64, end);
    }
}

/* The parts of a level of any tree, and the memory for one and for their join; then any struct and memory of either. */
static void try_parts(void)
{
    struct tree tree;
    struct part_shape part;
    struct join_shape join;
    uint64_t parts = PAINT, blocks = PAINT;
    size_t level, length = PAINT, join_length = PAINT;
    int status;
    bool is_right;

    draw_tree(&tree);
    level = (size_t)number_about(shape_of(&tree).levels + 1);
    part = part_shape_of(&tree, level, 0);
    join = join_shape_of(&tree, level);
    is_right = part.status == VERITY_OK;
    status = call_part_count(&tree, level, &parts, &blocks);
    check(status == part.status && parts == (is_right ? part.parts : PAINT) &&
                  blocks == (is_right ? part.blocks : PAINT),
          "parts of level %zu: status %d, %" PRIu64 " of %" PRIu64 " blocks", level, status, parts, blocks);
    check(!is_right || (blocks * (parts - 1) < part.tree.data_blocks && part.tree.data_blocks - blocks * (parts - 1) <=
                        blocks), "parts of level %zu are not all data blocks", level);
    status = call_part_memory(&tree, level, &length);
    check(status == part.status && length == (is_right ? part.memory_length : PAINT), "memory for a part: %zu bytes",
          length);
    status = call_join_memory(&tree, level, &join_length);
    check(status == join.status && join_length == (is_right ? join.memory_length : PAINT),
          "memory for a join: %zu bytes", join_length);
    try_disturbed_part(&tree, level);
    try_disturbed_join(&tree, level);
}

/* Parameters and others, with no change or with one or two. */
static void try_same_params(void)
{
    struct tree tree, other;
    struct shape shape, other_shape;
    int changes, status, expected;
    size_t bytes;

    draw_tree(&tree);
    tree.is_file = false;
    other = tree;
    for (changes = (int)random_below(3); changes > 0; changes--) {
        struct tree drawn;

        draw_tree(&drawn);
        switch (random_below(8)) {
        case 0:
            other.device.hash_algorithm = drawn.device.hash_algorithm;
            break;
        case 1:
            other.device.hash_type = drawn.device.hash_type;
            break;
        case 2:
            other.device.data_block_size = drawn.device.data_block_size;
            break;
        case 3:
            other.device.hash_block_size = drawn.device.hash_block_size;
            break;
        case 4:
            other.device.data_blocks = once_in(2) ? tree.device.data_blocks + 1 : drawn.device.data_blocks;
            break;
        case 5:
            other.device.salt_size = once_in(2) ? tree.device.salt_size + 1 : drawn.device.salt_size;
            break;
        case 6:
            other.device.salt[random_below(sizeof other.device.salt)] ^= 1;
            break;
        default:
            random_bytes(other.device.uuid, sizeof other.device.uuid);
            other.device.hash_offset = drawn.device.hash_offset;
            other.device.no_superblock = drawn.device.no_superblock;
            break;
        }
    }
    shape = shape_of(&tree);
    other_shape = shape_of(&other);
    bytes = tree.device.salt_size;
    expected = shape.status != VERITY_OK                                              ? shape.status
               : other_shape.status != VERITY_OK                                      ? other_shape.status
               : tree.device.hash_algorithm != other.device.hash_algorithm ||
                         tree.device.hash_type != other.device.hash_type ||
                         tree.device.data_block_size != other.device.data_block_size ||
                         tree.device.hash_block_size != other.device.hash_block_size ||
                         tree.device.data_blocks != other.device.data_blocks ||
                         tree.device.salt_size != other.device.salt_size ||
                         memcmp(tree.device.salt, other.device.salt, bytes) != 0      ? VERITY_DIFFERS
                                                                                      : VERITY_OK;
    status = call_same_params(&tree.device, &other.device);
    check(status == expected, "parameters that may be the same: status %d, expected %d", status, expected);
}

/* Texts of any numbers in any room: nothing else than text and zero is written. Names lead back to their numbers. */
static void try_texts(void)
{
    uint8_t painted[2 * VERITY_MAX_TEXT_SIZE];
    size_t room = random_below(sizeof painted), length = PAINT, digest_length = PAINT;
    uint32_t number = once_in(2) ? (uint32_t)random_below(8) : (uint32_t)edge(), found = PAINT & 0xff;
    char text[sizeof painted];
    int is_name = once_in(2), status, other;
    bool ends;

    random_bytes(painted, sizeof painted);
    memcpy(text, painted, sizeof text);
    status = is_name ? call_text(NAME, (int)number, text, room, &length)
                     : call_text(STATUS, -(int)(number & INT32_MAX), text, room, &length);
    if (is_name) {
        other = call_digest_length(number, &digest_length);
        check((name_of(number) == NULL) == (status == VERITY_BAD_HASH_ALGORITHM) &&
                  other == (name_of(number) == NULL ? VERITY_BAD_HASH_ALGORITHM : VERITY_OK) &&
                  digest_length == (name_of(number) == NULL ? PAINT : digest_size_of(number)),
              "function %" PRIu32 ": statuses %d and %d", number, status, other);
    }
    if (status == VERITY_OK) {
        ends = length < room && length < VERITY_MAX_TEXT_SIZE && memchr(text, 0, length + 1) == text + length;
        check(ends, "a text of %zu bytes", length);
        if (!ends)
            return;
        check(memcmp(text + length + 1, painted + length + 1, room - length - 1) == 0, "more is written than a text");
    } else {
        check(length == PAINT && memcmp(text, painted, room) == 0, "a refused text is written");
        check(status == VERITY_BAD_HASH_ALGORITHM ? is_name : room < VERITY_MAX_TEXT_SIZE, "a text: status %d", status);
    }
    if (status == VERITY_OK && is_name) {
        check(strcmp(text, name_of(number)) == 0, "function %" PRIu32 " is named %s", number, text);
        /* With its zero, or without its last letter, it is no name. */
        check(call_algorithm_by_name(bytes_of((uint8_t *)text, length), &found) == VERITY_OK && found == number &&
                  call_algorithm_by_name(bytes_of((uint8_t *)text, length + 1), &found) < 0 &&
                  call_algorithm_by_name(bytes_of((uint8_t *)text, length - 1), &found) < 0,
              "function %" PRIu32 " by its name", number);
    }
}

/* A formatted digest of any function in any room. */
static void try_formatted(void)
{
    uint32_t number = once_in(2) ? 1 + (uint32_t)random_below(2) : (uint32_t)edge();
    uint8_t digest[100], painted[120], formatted[sizeof painted];
    size_t right = number == VERITY_SHA256 ? 32 : number == VERITY_SHA512 ? 64 : 0;
    size_t length = once_in(4) ? random_below(sizeof digest) : right;
    size_t room = once_in(4) ? random_below(sizeof painted) : 12 + length;
    int status, expected = right == 0                                  ? VERITY_BAD_HASH_ALGORITHM
                           : length != right || room != 12 + right     ? VERITY_BAD_LENGTH
                                                                       : VERITY_OK;

    random_bytes(digest, sizeof digest);
    random_bytes(painted, sizeof painted);
    memcpy(formatted, painted, sizeof formatted);
    status = call_formatted_digest(number, bytes_of(digest, length), formatted, room);
    check(status == expected, "a formatted digest: status %d, expected %d", status, expected);
    if (status == VERITY_OK) {
        memcpy(painted, "FSVerity", 8);
        painted[8] = (uint8_t)number;
        painted[10] = (uint8_t)right;
        painted[9] = painted[11] = 0;
        memcpy(painted + 12, digest, right);
    }
    check(memcmp(formatted, painted, room) == 0, "a formatted digest: other bytes");
}

/* Random blocks and root hashes, which are never accepted. */
static void try_random_blocks(void)
{
    static uint8_t block[2 * MOST_TRIED], path[2 * MOST_TRIED], root[256];
    struct tree tree;
    struct shape shape;
    size_t block_length, path_length, root_length, level, found = PAINT;
    uint64_t index;
    int status, expected;

    draw_tree(&tree);
    shape = shape_of(&tree);
    index = number_about(shape.status == VERITY_OK ? shape.data_blocks : 300);
    block_length = length_about(shape.data_block_size);
    path_length = length_about(shape.levels * (size_t)shape.hash_block_size);
    root_length = once_in(4) ? random_below(100) : shape.digest_size;
    random_bytes(block, block_length < 4096 ? block_length : 4096);
    random_bytes(path, path_length < 4096 ? path_length : 4096);
    random_bytes(root, root_length);
    expected = shape.status != VERITY_OK                                         ? shape.status
               : root_length != shape.digest_size                                ? VERITY_BAD_ROOT_LENGTH
               : index >= shape.data_blocks                                      ? VERITY_NO_SUCH_BLOCK
               : block_length != shape.data_block_size ||
                           path_length != shape.levels * shape.hash_block_size   ? VERITY_BAD_LENGTH
                                                                                 : VERITY_DIFFERS;
    status = call_check_block(&tree, index, bytes_of(block, block_length), bytes_of(path, path_length),
                              bytes_of(root, root_length), &found);
    check(status == expected, "check block: status %d, expected %d", status, expected);
    check(found == (status == VERITY_DIFFERS ? 0 : PAINT), "check block: level %zu", found);

    level = (size_t)number_about(shape.levels);
    block_length = length_about(level == 0 ? shape.data_block_size : shape.hash_block_size);
    path_length = length_about(shape.hash_block_size);
    expected = shape.status != VERITY_OK                                         ? shape.status
               : index >= shape.data_blocks                                      ? VERITY_NO_SUCH_BLOCK
               : level >= shape.levels                                           ? VERITY_NO_SUCH_LEVEL
               : block_length != (level == 0 ? shape.data_block_size : shape.hash_block_size) ||
                           path_length != shape.hash_block_size                  ? VERITY_BAD_LENGTH
                                                                                 : VERITY_DIFFERS;
    status = call_check_link(&tree, index, level, bytes_of(block, block_length), bytes_of(path, path_length));
    check(status == expected, "check link: status %d, expected %d", status, expected);

    block_length = length_about(shape.levels == 0 ? shape.data_block_size : shape.hash_block_size);
    expected = shape.status != VERITY_OK                                         ? shape.status
               : root_length != shape.digest_size                                ? VERITY_BAD_ROOT_LENGTH
               : index >= shape.data_blocks                                      ? VERITY_NO_SUCH_BLOCK
               : block_length != (shape.levels == 0 ? shape.data_block_size : shape.hash_block_size)
                                                                                 ? VERITY_BAD_LENGTH
                                                                                 : VERITY_DIFFERS;
    status = call_check_top(&tree, index, bytes_of(block, block_length), bytes_of(root, root_length));
    check(status == expected, "check top: status %d, expected %d", status, expected);
}

static void try_superblock(void)
{
    static const char *const names[] = {"sha", "SHA256", "sha2567", "", "md5", "sha512sha512sha512sha512sha512sh"};
    struct verity_params params, found, said, before;
    uint8_t superblock[600];
    size_t length = SUPERBLOCK_SIZE + (once_in(4) ? random_below(sizeof superblock - SUPERBLOCK_SIZE) : 0), changes;
    uint64_t offset = once_in(4) ? random_number() : 0;
    int status, expected;

    random_bytes(superblock, sizeof superblock);
    if (!once_in(32)) {
        draw_device(&params);
        write_superblock(superblock, &params,
                         params.hash_algorithm > 0 && params.hash_algorithm <= 5 && !once_in(16)
                             ? name_of(params.hash_algorithm)
                             : names[random_below(6)]);
        if (once_in(2))
            random_bytes(superblock + FIRST_PAD_AT, FIRST_PAD_SIZE);
        for (changes = random_below(4); changes > 1; changes--)
            superblock[random_below(once_in(2) ? UUID_AT : SUPERBLOCK_SIZE)] ^= (uint8_t)(1 << random_below(8));
    }
    if (once_in(32))
        length = random_below(SUPERBLOCK_SIZE);
    random_bytes((uint8_t *)&before, sizeof before);
    found = said = before;
    expected = superblock_says(bytes_of(superblock, length), offset, &said);
    status = call_read_superblock(bytes_of(superblock, length), offset, &found);
    check(status == expected, "superblock: status %d, expected %d", status, expected);
    check(memcmp(&found, &said, sizeof found) == 0, "superblock: other parameters");
}

static void try_file_digest(void)
{
    struct tree tree = {.is_file = true};
    uint8_t root[100], digest[100], before[100];
    size_t root_length, digest_length, right;
    int status, expected;

    draw_file(&tree.file);
    tree.file.size = once_in(4) ? tree.file.size : 1;
    right = digest_size_of(tree.file.hash_algorithm);
    root_length = once_in(4) ? random_below(sizeof root) : right;
    digest_length = once_in(4) ? random_below(sizeof digest) : right;
    random_bytes(root, sizeof root);
    random_bytes(before, sizeof before);
    memcpy(digest, before, sizeof digest);
    status = call_file_digest(&tree.file, bytes_of(root, root_length), digest, digest_length);
    /* A size that has no tree has a digest all the same. */
    tree.file.size = 1;
    expected = shape_of(&tree).status;
    if (expected == VERITY_OK && root_length != right)
        expected = VERITY_BAD_ROOT_LENGTH;
    else if (expected == VERITY_OK && digest_length != right)
        expected = VERITY_BAD_LENGTH;
    check(status == expected, "file digest: status %d, expected %d", status, expected);
    check((memcmp(digest, before, digest_length) != 0) == (status == VERITY_OK), "file digest: filled");
    check(memcmp(digest + digest_length, before + digest_length, sizeof digest - digest_length) == 0,
          "file digest: more is filled");
}

/* A bit of any byte, or of a digest in the own slot. */
static void flip_any(struct chain *chain)
{
    const struct shape *shape = &chain->shape;
    size_t block = random_below(shape->levels + 1), offset = random_below(block_of(chain, block).length);

    if (block > 0 && once_in(2))
        offset = slot_number(shape, chain->index, block - 1) * shape->slot_width + random_below(shape->digest_size);
    flip_in_chain(chain, block, offset);
}

/* A bit of the salt, in the bytes that count or behind them. */
static void change_salt(struct chain *chain)
{
    uint32_t size = chain->tree.is_file ? chain->tree.file.salt_size : chain->tree.device.salt_size;
    uint8_t *salt = chain->tree.is_file ? chain->tree.file.salt : chain->tree.device.salt;
    uint32_t offset = (uint32_t)random_below(chain->tree.is_file ? 32 : 256);

    salt[offset] ^= (uint8_t)(1 << random_below(8));
    if (offset < size)
        chain->differs = ((uint64_t)2 << chain->shape.levels) - 1;
}

/* What has no part in a check: the hash offset, the superblock, the UUID, and the number of data blocks or the size as
   long as there are as many levels. */
static void change_what_has_no_part(struct chain *chain)
{
    struct verity_params *device = &chain->tree.device;
    struct tree before = chain->tree, other;
    struct shape shape;

    random_bytes(device->uuid, sizeof device->uuid);
    device->no_superblock = once_in(2) ? 0 : 1;
    device->hash_offset = any_number() / 524288 / 4 * 524288;
    other = chain->tree;
    other.device.data_blocks = chain->index + 1 + any_number() / 4096;
    other.file.size = other.file.size / other.file.block_size * other.file.block_size + 1 +
                      random_below(other.file.block_size);
    shape = shape_of(&other);
    if (shape.status == VERITY_OK && shape.levels == chain->shape.levels && shape.data_blocks > chain->index)
        chain->tree = other;
    if (shape_of(&chain->tree).status != VERITY_OK)
        chain->tree = before;
}

static void try_chain(void)
{
    const struct image *right = &chains[random_below(chain_count)];
    struct chain chain = {.tree = right->tree, .shape = right->shape, .index = right->index,
                          .bytes = memory_of(right->hashes_length), .root_length = right->shape.digest_size};
    uint8_t digest[VERITY_MAX_DIGEST_SIZE] = {0};

    memcpy(chain.bytes, right->hashes, right->hashes_length);
    memcpy(chain.root, right->root, sizeof right->root);
    switch (random_below(8)) {
    case 0:
        break;
    case 1:
        chain.root[random_below(chain.root_length)] ^= (uint8_t)(1 << random_below(8));
        chain.differs = (uint64_t)1 << chain.shape.levels;
        break;
    case 2:
        change_index(&chain, once_in(2) ? random_below(chain.shape.data_blocks)
                                        : (chain.index + 1) % chain.shape.data_blocks);
        break;
    case 3:
        change_salt(&chain);
        break;
    case 4:
        change_what_has_no_part(&chain);
        break;
    default:
        flip_any(&chain);
        break;
    }
    judge_chain(&chain, 8, "a chain");
    free(chain.bytes);
    if (right->tree.is_file)
        check(call_file_digest(&right->tree.file, bytes_of(right->root, right->shape.digest_size), digest,
                               right->shape.digest_size) == VERITY_OK &&
                      memcmp(digest, right->digest, sizeof digest) == 0, "the digest of a file");
}

static void read_chains(const char *name)
{
    struct images images = open_images(name, NULL);
    struct image chain;

    while (next_image(&images, &chain)) {
        chains = realloc(chains, (chain_count + 1) * sizeof *chains);
        if (chains == NULL)
            give_up("no memory");
        chains[chain_count++] = chain;
        check(chain.shape.status == VERITY_OK && chain.hashes_length == chain.shape.data_block_size +
                      chain.shape.levels * chain.shape.hash_block_size, "the levels of a chain");
    }
    if (chain_count == 0)
        give_up("there is no chain");
}

/* The first status that no call has answered, or 1. */
static int unanswered(void)
{
    int status;

    for (status = VERITY_OK; status >= LEAST_STATUS; status--)
        if (!status_seen[-status])
            return status;
    return 1;
}

int main(int count, char **words)
{
    uint64_t wanted;

    if (count != 4)
        give_up("usage: fuzz SEED CALLS CHAINS");
    seed_random(number_of(words[1]));
    wanted = number_of(words[2]);
    read_chains(words[3]);
    while (calls_made < wanted || (unanswered() <= 0 && calls_made < 10 * wanted)) {
        switch (random_below(14)) {
        case 8:
            try_end();
            break;
        case 9:
            try_same_params();
            break;
        case 10:
            try_texts();
            break;
        case 11:
            try_formatted();
            break;
        case 12:
        case 13:
            try_parts();
            break;
        case 0:
        case 1:
            try_superblock();
            break;
        case 2:
        case 3:
            try_places();
            break;
        case 4:
        case 5:
            try_random_blocks();
            break;
        case 6:
            try_file_digest();
            break;
        default:
            try_chain();
            break;
        }
    }
    check(unanswered() > 0, "status %d wasn't answered", unanswered());
    printf("%" PRIu64 " calls, %zu chains\n", calls_made, chain_count);
    return finish();
}
