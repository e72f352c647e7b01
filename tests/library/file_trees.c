/*
 * file_trees.c - builds the trees of files while they are read, and compares each block that is handed out with the
 * tree that Debian's fsverity wrote.
 *
 *   file_trees FUNCTION BLOCK-SIZE SALT SEED FILE TREE ROOT DIGEST ..
 *
 * FILE and the three words after it may come several times: each file begins as the next one, so that the tree of one
 * that ended goes on with the next. SALT, ROOT and DIGEST are in hexadecimal; a file without a tree has TREE /dev/null.
 * The bytes are fed in pieces of all lengths. What is asked too early, or at an end with a wrong length, is refused and
 * changes nothing. A struct and a memory that no call left have the statuses that verity.h says. The last line is
 * 'N passed, M failed'.
 */
#include <inttypes.h>
#include <stdio.h>
#include <stdlib.h>
#include <string.h>

#include "calls.h"
#include "shapes.h"
#include "support.h"
#include "words.h"

enum { MOST_LEVELS = 64, MOST_BLOCK = 65536, MOST_MEMORY = 1 << 22 };

static struct tree tree = {.is_file = true};
static struct fsverity_params *params = &tree.file;
static size_t digest_length, memory_length;

/* A build in the middle of a file: its struct and memory, and how many blocks of each level were handed out. */
static struct verity_build build;
static uint8_t *memory;
static uint64_t handed_out[MOST_LEVELS];

/* The bytes of all files: each is the beginning of them. And the tree of the last one, whose blocks stay. */
static const uint8_t *bytes;
static size_t all_bytes;

/* The tree of a file. */
struct expected_end {
    size_t size, tree_length;
    const uint8_t *blocks;
    uint8_t root[64], digest[64];
    struct shape shape;
};

static struct expected_end ends[16];
static size_t end_count;

/* The block of a level in the tree that is expected, or null if it has none. */
static const uint8_t *hash_block_of(const struct expected_end *end, size_t level, uint64_t index)
{
    if (level >= end->shape.levels || index >= end->shape.blocks[level])
        return NULL;
    return end->blocks + end->shape.starts[level] + index * end->shape.hash_block_size;
}

/* A block that is handed out is that of every longer file, and the next one in closing order. */
static void try_block(const struct verity_fed *fed, const struct expected_end *next)
{
    size_t level = fed->block_level, i;
    uint64_t unit = params->block_size;

    if (level >= MOST_LEVELS || fed->block_length != params->block_size ||
        fed->block_at + fed->block_length > memory_length) {
        check(false, "a block of level %zu at %zu", level, fed->block_at);
        return;
    }
    check(fed->block_index == handed_out[level]++, "level %zu: block %" PRIu64, level, fed->block_index);
    check(build.closed == level + 1, "%zu levels are closed after a block of level %zu", build.closed, level);
    /* It is full, and so are those of the levels below that end with the same byte. */
    for (i = 0; i <= level; i++) {
        unit *= next->shape.fan_out;
        check(build.fed % unit == 0 && handed_out[i] == build.fed / unit,
              "%" PRIu64 " blocks of level %zu after %" PRIu64 " bytes", handed_out[i], i, build.fed);
    }
    check(fed->block_start == 0, "a block of a file goes to %" PRIu64, fed->block_start);
    for (i = 0; i < end_count; i++)
        if (ends[i].size > build.fed) {
            const uint8_t *right = hash_block_of(&ends[i], level, fed->block_index);

            check(right != NULL && memcmp(right, memory + fed->block_at, fed->block_length) == 0,
                  "block %" PRIu64 " of level %zu isn't that of %zu bytes", fed->block_index, level, ends[i].size);
        }
}

/* What is asked while the rest of a piece is still to be fed. */
static void try_waiting(void)
{
    static uint8_t painted[MOST_BLOCK], kept[MOST_MEMORY];
    uint8_t *block, *root, *digest;
    uint64_t index = PAINT;

    random_bytes(painted, params->block_size);
    block = place(FIRST_FILLED, painted, params->block_size);
    root = place(ROOT, painted, digest_length);
    digest = place(SECOND_FILLED, painted, digest_length);
    memcpy(kept, memory, memory_length);
    check(fsverity_tree_build_end(params, &build, memory, memory_length, root, digest_length, digest, digest_length) ==
              VERITY_WAITING, "an end in the middle of a piece");
    check(fsverity_tree_build_end_block(params, &build, memory, memory_length, 0, block, params->block_size, &index) ==
                  VERITY_WAITING && index == PAINT, "a last block in the middle of a piece");
    check(memcmp(block, painted, params->block_size) == 0 && memcmp(root, painted, digest_length) == 0 &&
              memcmp(digest, painted, digest_length) == 0 && memcmp(kept, memory, memory_length) == 0,
          "what is refused in the middle of a piece changes something");
}

/* Struct and memory go elsewhere, as after they were stored, and nothing is left where they were. */
static void move(void)
{
    static uint8_t kept[MOST_MEMORY];
    struct verity_build build_kept = build;

    memcpy(kept, memory, memory_length);
    memset(memory, 0xa5, memory_length);
    memset(&build, 0xa5, sizeof build);
    memory = place(MEMORY, kept, memory_length);
    build = build_kept;
}

/* Feeds the bytes up to a size. */
static void feed_up_to(const struct expected_end *end)
{
    while (build.fed < end->size) {
        size_t length = end->size - build.fed, whole;
        uint64_t first = build.fed;
        const uint8_t *piece = bytes + build.fed;
        struct verity_fed fed;

        switch (random_below(4)) {
        case 0:
            length = length < 70 ? length : random_below(70);
            break;
        case 1:
            length = length < 3 * params->block_size ? length : random_below(3 * params->block_size);
            break;
        case 2:
            /* Just up to the end of a block. */
            if (length > params->block_size - build.fed % params->block_size)
                length = params->block_size - build.fed % params->block_size;
            break;
        default:
            break;
        }
        whole = length;
        do {
            size_t given = length;
            const uint8_t *placed = place(PIECE, piece, length);
            struct verity_build before = build;
            int status = fsverity_tree_build_feed(params, &build, memory, memory_length, placed, length, &fed);

            calls_made++;
            if (once_in(16))
                move();
            check(status == VERITY_OK, "a piece of %zu bytes: status %d", length, status);
            if (status != VERITY_OK)
                return;
            if (fed.taken == 0 && fed.block_length == 0 && length > 0) {
                check(false, "nothing is taken of %zu bytes, and no block is handed out", length);
                return;
            }
            check(fed.taken <= length && build.fed == before.fed + fed.taken, "%zu bytes of %zu", fed.taken, length);
            piece += fed.taken;
            length -= fed.taken;
            if (fed.block_length > 0) {
                try_block(&fed, end);
                check(length > 0, "a block is handed out with the last byte of a piece");
                if (once_in(8))
                    try_waiting();
            } else {
                check(length == 0 && fed.block_at == 0 && fed.block_index == 0 && fed.block_level == 0 &&
                          fed.block_start == 0, "no block, and %zu bytes are left", length);
                check(given == 0 || build.closed == 0, "%zu levels are closed after a piece", build.closed);
            }
        } while (length > 0);
        check(build.fed == first + whole, "%" PRIu64 " bytes after a piece of %zu", build.fed - first, whole);
    }
}

/* At an end the tree is whole: blocks that were handed out, and the last ones, which can be asked for in any order. */
static void try_end(const struct expected_end *end)
{
    static uint8_t block[MOST_BLOCK], root[64], digest[64], kept[MOST_BLOCK];
    struct verity_build before = build;
    size_t level, times;
    uint64_t index;
    int status;

    for (times = 0; times < 2; times++) {
        for (level = end->shape.levels; level-- > 0;) {
            uint8_t *filled = place(FIRST_FILLED, kept, params->block_size);

            index = PAINT;
            status = fsverity_tree_build_end_block(params, &build, memory, memory_length, level, filled,
                                                   params->block_size, &index);
            check(status == VERITY_OK && index == end->shape.blocks[level] - 1, "level %zu of %zu bytes: status %d, "
                  "block %" PRIu64, level, end->size, status, index);
            if (status == VERITY_OK && index < end->shape.blocks[level])
                check(memcmp(filled, hash_block_of(end, level, index), params->block_size) == 0,
                      "the last block of level %zu of %zu bytes", level, end->size);
            check(handed_out[level] == end->shape.blocks[level] - 1, "level %zu of %zu bytes: %" PRIu64
                  " blocks were handed out", level, end->size, handed_out[level]);
        }
        index = PAINT;
        memcpy(block, kept, sizeof block);
        check(fsverity_tree_build_end_block(params, &build, memory, memory_length, end->shape.levels, block,
                                            params->block_size, &index) == VERITY_NO_SUCH_LEVEL &&
                  index == PAINT && memcmp(block, kept, sizeof block) == 0, "one level more of %zu bytes", end->size);
        status = fsverity_tree_build_end(params, &build, memory, memory_length, root, digest_length, digest,
                                         digest_length);
        check(status == VERITY_OK && memcmp(root, end->root, digest_length) == 0 &&
                  memcmp(digest, end->digest, digest_length) == 0, "the digest of %zu bytes: status %d", end->size,
              status);
    }
    check(memcmp(&before, &build, sizeof build) == 0, "an end changes the struct");
}

/* Lengths that are wrong, each with its status, and nothing changes. */
static void try_lengths(void)
{
    static uint8_t painted[MOST_BLOCK + 1], block[MOST_BLOCK + 1], root[65], digest[65];
    uint8_t *kept = malloc(memory_length);
    struct verity_build before = build, begun;
    struct verity_fed fed, filled;
    uint64_t index = PAINT;
    size_t size = params->block_size;

    if (kept == NULL)
        give_up("no memory");
    memcpy(kept, memory, memory_length);
    random_bytes(painted, sizeof painted);
    memcpy(block, painted, sizeof block);
    memcpy(root, painted, sizeof root);
    memcpy(digest, painted, sizeof digest);
    memset(&fed, 0x5a, sizeof fed);
    filled = fed;
    begun = before;
    check(fsverity_tree_build_begin(params, &begun, memory, memory_length - 1) == VERITY_BAD_LENGTH, "begin in less");
    check(fsverity_tree_build_feed(params, &build, memory, memory_length - 1, bytes, 1, &fed) == VERITY_BAD_LENGTH,
          "fed in less");
    check(fsverity_tree_build_feed(params, &build, memory, memory_length + 1, bytes, 0, &fed) == VERITY_BAD_LENGTH,
          "fed in more");
    check(fsverity_tree_build_end_block(params, &build, memory, memory_length - 1, 0, block, size, &index) ==
              VERITY_BAD_LENGTH, "a last block in less memory");
    check(fsverity_tree_build_end_block(params, &build, memory, memory_length, 0, block, size - 1, &index) ==
              VERITY_BAD_LENGTH, "a last block in a short buffer");
    check(fsverity_tree_build_end_block(params, &build, memory, memory_length, 99, block, size + 1, &index) ==
              VERITY_BAD_LENGTH, "a last block of no level in a long buffer");
    check(fsverity_tree_build_end(params, &build, memory, memory_length - 1, root, digest_length, digest,
                                  digest_length) == VERITY_BAD_LENGTH, "an end in less memory");
    check(fsverity_tree_build_end(params, &build, memory, memory_length, root, digest_length + 1, digest,
                                  digest_length - 1) == VERITY_BAD_ROOT_LENGTH, "a long root hash");
    check(fsverity_tree_build_end(params, &build, memory, memory_length, root, digest_length, digest,
                                  digest_length - 1) == VERITY_BAD_LENGTH, "a short digest");
    check(memcmp(&before, &build, sizeof build) == 0 && memcmp(&before, &begun, sizeof begun) == 0 &&
              memcmp(kept, memory, memory_length) == 0 && memcmp(&fed, &filled, sizeof fed) == 0 && index == PAINT &&
              memcmp(block, painted, sizeof block) == 0 && memcmp(root, painted, sizeof root) == 0 &&
              memcmp(digest, painted, sizeof digest) == 0,
          "what is refused changes something");
    free(kept);
}

/* Struct and memory that no call left: each call has an answer, within the memory. */
static void try_disturbed(void)
{
    static uint8_t block[MOST_BLOCK], root[64], digest[64], piece[3 * MOST_BLOCK];
    uint8_t *other = place(KEPT, memory, memory_length);
    int times;

    for (times = 0; times < 40; times++) {
        struct verity_build some = {.fed = any_number(), .closed = random_below(70)}, before;
        size_t length = random_below(3 * params->block_size), level = random_below(70);
        struct tree so_far = tree;
        struct verity_fed fed;
        struct shape shape;
        uint64_t index;
        int status, expected;

        if (once_in(2))
            some.closed = random_below(3);
        random_bytes(other, memory_length < 512 ? memory_length : 512);
        before = some;
        so_far.file.size = some.fed + length;
        shape = shape_of(&so_far);
        expected = some.fed + length < some.fed || shape.status == VERITY_TOO_LARGE ? VERITY_TOO_LARGE
                   : some.closed > (shape.status == VERITY_OK ? shape.levels : 0)   ? VERITY_NO_SUCH_LEVEL
                                                                                    : VERITY_OK;
        status = fsverity_tree_build_feed(params, &some, other, memory_length, place(PIECE, piece, length), length,
                                          &fed);
        check(status == expected, "a piece after %" PRIu64 " bytes and %zu levels: status %d, expected %d", before.fed,
              before.closed, status, expected);
        if (status == VERITY_OK)
            check(fed.block_at + fed.block_length <= memory_length && fed.taken <= length &&
                      some.fed == before.fed + fed.taken, "a block outside of the memory");
        so_far.file.size = before.fed;
        shape = shape_of(&so_far);
        expected = before.closed > 0                                                  ? VERITY_WAITING
                   : shape.status == VERITY_TOO_LARGE                                 ? VERITY_TOO_LARGE
                   : level >= (shape.status == VERITY_OK ? shape.levels : 0)          ? VERITY_NO_SUCH_LEVEL
                                                                                      : VERITY_OK;
        status = fsverity_tree_build_end_block(params, &before, other, memory_length, level,
                                               place(FIRST_FILLED, block, params->block_size), params->block_size,
                                               &index);
        check(status == expected, "level %zu after %" PRIu64 " bytes and %zu levels: status %d, expected %d", level,
              before.fed, before.closed, status, expected);
        expected = before.closed > 0 ? VERITY_WAITING : shape.status == VERITY_TOO_LARGE ? VERITY_TOO_LARGE : VERITY_OK;
        status = fsverity_tree_build_end(params, &before, other, memory_length, place(ROOT, root, digest_length),
                                         digest_length, place(SECOND_FILLED, digest, digest_length), digest_length);
        check(status == expected, "the end of %" PRIu64 " bytes and %zu levels: status %d, expected %d", before.fed,
              before.closed, status, expected);
        calls_made += 3;
    }
}

static void begin(void)
{
    static uint8_t painted[MOST_MEMORY];

    if (memory_length > sizeof painted)
        give_up("too much memory");
    /* What stood in the memory doesn't count. */
    random_bytes(painted, memory_length);
    memory = place(MEMORY, painted, memory_length);
    memset(&build, 0x5a, sizeof build);
    memset(handed_out, 0, sizeof handed_out);
    /* The size isn't looked at. */
    params->size = random_number();
    check(fsverity_tree_build_begin(params, &build, memory, memory_length) == VERITY_OK && build.fed == 0 &&
              build.closed == 0, "a tree is begun");
}

int main(int count, char **words)
{
    size_t i, times;

    if (count < 9 || count % 4 != 1)
        give_up("the words can't be read");
    params->hash_algorithm = function_of(words[1]);
    params->block_size = (uint32_t)number_of(words[2]);
    params->salt_size = (uint32_t)bytes_of_text(words[3], params->salt, sizeof params->salt);
    seed_random(number_of(words[4]));
    digest_length = digest_size_of(params->hash_algorithm);
    for (i = 5; i < (size_t)count && end_count < sizeof ends / sizeof *ends; i += 4) {
        struct expected_end *end = &ends[end_count++];

        struct bytes file = content_of(words[i]), blocks = content_of(words[i + 1]);

        bytes = file.at;
        end->size = file.length;
        check(end->size >= all_bytes, "%s is shorter than the file before", words[i]);
        all_bytes = end->size;
        end->blocks = blocks.at;
        end->tree_length = blocks.length;
        if (bytes_of_text(words[i + 2], end->root, sizeof end->root) != digest_length ||
            bytes_of_text(words[i + 3], end->digest, sizeof end->digest) != digest_length)
            give_up("a digest has another length");
        params->size = end->size;
        end->shape = shape_of(&tree);
        check(end->tree_length == (end->shape.status == VERITY_OK ? tree_length(&end->shape) : 0),
              "the tree of %s has %zu bytes", words[i], end->tree_length);
    }
    if (fsverity_build_memory(params, &memory_length) < 0)
        give_up("the settings have no memory");
    for (times = 0; times < 3; times++) {
        begin();
        for (i = 0; i < end_count; i++) {
            feed_up_to(&ends[i]);
            try_end(&ends[i]);
            if (once_in(2))
                try_lengths();
        }
        try_disturbed();
    }
    return finish();
}
