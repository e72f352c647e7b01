/*
 * Calls every function of the library with each fault that verity.h says of it. Alone it has its status, and so it has
 * with all faults that come after it there: so the order of the faults is the header's. Numbers at the limits of what
 * is taken are refused by each function that looks at them, or accepted. Then the bytes of superblocks. Each status but
 * VERITY_OK is below 0, and so a caller that asks for no more than that sees each fault. What doesn't hold is printed
 * in lines that begin with FAILED; the last line is 'N passed, M failed'.
 */
#include <inttypes.h>
#include <stdio.h>
#include <stdlib.h>
#include <string.h>

#include "calls.h"
#include "feeding_calls.h"
#include "part_calls.h"
#include "shapes.h"
#include "support.h"

/* 300 data blocks of 512 bytes, three levels of 16 digests each; and the same bytes as a file. */
enum { BLOCK_SIZE = 512, DATA_BLOCKS = 300, LEVELS = 3, INDEX = 299, DEVICE = 0, FILES = 1, TREES = 2, BUILDINGS = 3 };

/* The second part of level 1, and the join of all its parts: of an image, and of a file. */
enum { PART_LEVEL = 1, PART_COUNT = 19, PART = 1, PART_SIZE = 16 * BLOCK_SIZE, PART_KINDS = 2 };

/* What calls are handed, right, and with faults. In each building all was fed; TREES has a file's blocks handed out. */
struct arguments {
    struct building buildings[BUILDINGS];
    struct part_building parts[PART_KINDS];
    struct joining joins[PART_KINDS];
    uint64_t index, part;
    size_t level, part_level;
    uint8_t block[BLOCK_SIZE], path[LEVELS * BLOCK_SIZE], root[64], superblock[SUPERBLOCK_SIZE];
    size_t block_length, path_length, above_length, top_length, root_length, superblock_length, room, piece_length,
        digests_length, digest_length, descriptor_length, formatted_length, last_length, text_room, name_length;
};

static struct arguments right, now;
static uint8_t data[DATA_BLOCKS * BLOCK_SIZE], digests[(PART_COUNT + 2) * 32];

/* The memories of the buildings, then those of parts and of joins; and what is in them when all is right. */
enum { MEMORIES = BUILDINGS + 2 * PART_KINDS };
static uint8_t memories[MEMORIES][1 << 16], kept[MEMORIES][1 << 16];

/* The functions, each of either kind of tree, and what they fill. */
static uint8_t root[64], digest[64], out[SUPERBLOCK_SIZE + 1];
static struct verity_params found;
static uint64_t start, blocks;
static size_t number;
static struct verity_fed fed;
static char text[VERITY_MAX_TEXT_SIZE];
static uint32_t function;

#define CALL(name, ...) \
    static int name(struct building *building) \
    { \
        const struct tree *tree = &building->tree; \
 \
        (void)tree; \
        return __VA_ARGS__; \
    }

CALL(default_params, call_default_params(tree->device.data_blocks, &found))
CALL(read_superblock, call_read_superblock(bytes_of(now.superblock, now.superblock_length), 0, &found))
CALL(level_count, call_level_count(tree, &number))
CALL(level_start, call_level_start(tree, now.level, &start, &blocks))
CALL(hash_block_start, call_hash_block_start(tree, now.index, now.level, &start))
CALL(check_block, call_check_block(tree, now.index, bytes_of(now.block, now.block_length),
                                   bytes_of(now.path, now.path_length), bytes_of(now.root, now.root_length), &number))
CALL(check_link, call_check_link(tree, now.index, now.level, bytes_of(now.block, now.block_length),
                                 bytes_of(now.path, now.above_length)))
CALL(check_top, call_check_top(tree, now.index, bytes_of(now.path + 2 * BLOCK_SIZE, now.top_length),
                               bytes_of(now.root, now.root_length)))
CALL(file_digest, call_file_digest(&tree->file, bytes_of(now.root, now.root_length), digest, now.digest_length))
CALL(build_memory, call_build_memory(tree, &number))
CALL(build_begin, call_build_begin(building))
CALL(build_feed, call_build_feed(building, bytes_of(data, now.piece_length), &fed))
CALL(build_last_block, call_build_last_block(building, &fed))
CALL(build_end, call_build_end(building, root, now.root_length, digest, now.digest_length))
CALL(write_superblock_out, call_write_superblock(&tree->device, out, now.room))
CALL(tree_build_begin, call_tree_build_begin(building))
CALL(tree_build_feed, call_tree_build_feed(building, bytes_of(data, now.piece_length + 1), &fed))
CALL(tree_build_end_block, call_tree_build_end_block(building, now.level, out, now.last_length, &start))
CALL(tree_build_end, call_tree_build_end(building, root, now.root_length, digest, now.digest_length))
CALL(same_params, call_same_params(&tree->device, &right.buildings[DEVICE].tree.device))
CALL(area_end, call_area_end(tree, &start))
CALL(formatted_digest, call_formatted_digest(tree->file.hash_algorithm, bytes_of(now.root, now.digest_length), out,
                                             now.formatted_length))
CALL(digest_length_of, call_digest_length(tree->device.hash_algorithm, &number))
CALL(algorithm_name, call_text(NAME, (int)tree->device.hash_algorithm, text, now.text_room, &number))
CALL(algorithm_by_name, call_algorithm_by_name(bytes_of((const uint8_t *)"sha224", now.name_length), &function))
CALL(status_text, call_text(STATUS, VERITY_DIFFERS, text, now.text_room, &number))
CALL(descriptor, call_descriptor(&tree->file, bytes_of(now.root, now.root_length), out, now.descriptor_length))

/* The part and the join of the tree's kind, with its parameters. */
static struct part_building *part_of(const struct tree *tree)
{
    struct part_building *part = &now.parts[tree->is_file ? FILES : DEVICE];

    part->tree = *tree;
    return part;
}

static struct joining *join_of(const struct tree *tree)
{
    struct joining *join = &now.joins[tree->is_file ? FILES : DEVICE];

    join->tree = *tree;
    return join;
}

CALL(part_count, call_part_count(tree, now.part_level, &start, &blocks))
CALL(part_memory, call_part_memory(tree, now.part_level, &number))
CALL(part_begin, call_part_begin(part_of(tree), now.part_level, now.part))
CALL(part_feed, call_part_feed(part_of(tree), bytes_of(data, now.piece_length), &fed))
CALL(part_last_block, call_part_last_block(part_of(tree), &fed))
CALL(part_end, call_part_end(part_of(tree), digest, now.digest_length))
CALL(join_memory, call_join_memory(tree, now.part_level, &number))
CALL(join_begin, call_join_begin(join_of(tree), now.part_level))
CALL(join_feed, call_join_feed(join_of(tree), bytes_of(digests, now.digests_length), &fed))
CALL(join_last_block, call_join_last_block(join_of(tree), &fed))
CALL(join_end, call_join_end(join_of(tree), root, now.root_length, digest, now.digest_length))

/* The memories have no bytes, or so many more than are right. */
static void changes_memories(int more)
{
    size_t i;

    for (i = 0; i < BUILDINGS; i++)
        now.buildings[i].memory_length = more == 0 ? 0 : right.buildings[i].memory_length + (size_t)more;
    for (i = 0; i < PART_KINDS; i++) {
        now.parts[i].memory_length = more == 0 ? 0 : right.parts[i].memory_length + (size_t)more;
        now.joins[i].memory_length = more == 0 ? 0 : right.joins[i].memory_length + (size_t)more;
    }
}

/* Faults, each with its status. They are made anew over one another. */
struct fault {
    const char *name;
    int status;
    void (*make)(void);
};

#define FAULT(name, status, ...) \
    static void makes_##name(void) \
    { \
        struct verity_params *device = &now.buildings[DEVICE].tree.device; \
        struct fsverity_params *file = &now.buildings[FILES].tree.file; \
        struct fsverity_params *tree_file = &now.buildings[TREES].tree.file; \
        struct verity_build *build = &now.buildings[DEVICE].build, *tree_build = &now.buildings[TREES].build; \
 \
        (void)device, (void)file, (void)tree_file, (void)build, (void)tree_build; \
        __VA_ARGS__; \
    } \
    static const struct fault name = {#name, status, makes_##name};

FAULT(algorithm, VERITY_BAD_HASH_ALGORITHM,
      device->hash_algorithm = file->hash_algorithm = tree_file->hash_algorithm = 6)
FAULT(type, VERITY_BAD_HASH_TYPE, device->hash_type = 2)
FAULT(data_block_size, VERITY_BAD_DATA_BLOCK_SIZE,
      device->data_block_size = file->block_size = tree_file->block_size = 513)
FAULT(hash_block_size, VERITY_BAD_HASH_BLOCK_SIZE, device->hash_block_size = 256)
FAULT(salt, VERITY_BAD_SALT_SIZE, device->salt_size = file->salt_size = tree_file->salt_size = 257)
FAULT(offset, VERITY_BAD_HASH_OFFSET, device->hash_offset = 1)
FAULT(no_data, VERITY_NO_DATA, device->data_blocks = file->size = 0)
FAULT(too_large, VERITY_TOO_LARGE, device->data_blocks = file->size = UINT64_MAX)
FAULT(no_block, VERITY_NO_SUCH_BLOCK, now.index = DATA_BLOCKS)
FAULT(no_level, VERITY_NO_SUCH_LEVEL, now.level = LEVELS)
FAULT(changed_block, VERITY_DIFFERS, now.block[511] = right.block[511] ^ 1)
FAULT(changed_path, VERITY_DIFFERS, now.path[LEVELS * BLOCK_SIZE - 1] = right.path[LEVELS * BLOCK_SIZE - 1] ^ 1)
FAULT(changed_above, VERITY_DIFFERS, now.path[INDEX % 16 * 32] = right.path[INDEX % 16 * 32] ^ 1)
FAULT(changed_root, VERITY_DIFFERS, now.root[31] = right.root[31] ^ 1)
FAULT(short_block, VERITY_BAD_LENGTH, now.block_length = BLOCK_SIZE - 1)
FAULT(short_path, VERITY_BAD_LENGTH, now.path_length = LEVELS * BLOCK_SIZE - 1)
FAULT(short_above, VERITY_BAD_LENGTH, now.above_length = BLOCK_SIZE - 1)
FAULT(short_top, VERITY_BAD_LENGTH, now.top_length = BLOCK_SIZE - 1)
FAULT(short_root, VERITY_BAD_ROOT_LENGTH, now.root_length = 31)
FAULT(long_root, VERITY_BAD_ROOT_LENGTH, now.root_length = 33)
FAULT(no_root, VERITY_BAD_ROOT_LENGTH, now.root_length = 0)
FAULT(longest_root, VERITY_BAD_ROOT_LENGTH, now.root_length = 64)
FAULT(short_digest, VERITY_BAD_LENGTH, now.digest_length = 31)
FAULT(long_digest, VERITY_BAD_LENGTH, now.digest_length = 33)
FAULT(no_digest, VERITY_BAD_LENGTH, now.digest_length = 0)
FAULT(longest_digest, VERITY_BAD_LENGTH, now.digest_length = 64)
FAULT(short_descriptor, VERITY_BAD_LENGTH, now.descriptor_length = DESCRIPTOR_SIZE - 1)
FAULT(long_descriptor, VERITY_BAD_LENGTH, now.descriptor_length = DESCRIPTOR_SIZE + 1)
FAULT(no_memory, VERITY_BAD_LENGTH, changes_memories(0))
FAULT(short_memory, VERITY_BAD_LENGTH, changes_memories(-1))
FAULT(long_memory, VERITY_BAD_LENGTH, changes_memories(1))
FAULT(no_room, VERITY_BAD_LENGTH, now.room = 0)
FAULT(short_room, VERITY_BAD_LENGTH, now.room = SUPERBLOCK_SIZE - 1)
FAULT(long_room, VERITY_BAD_LENGTH, now.room = SUPERBLOCK_SIZE + 1)
FAULT(short_superblock, VERITY_SHORT_SUPERBLOCK, now.superblock_length = SUPERBLOCK_SIZE - 1)
FAULT(signature, VERITY_BAD_SIGNATURE, now.superblock[SIGNATURE_AT] = 'V')
FAULT(version, VERITY_BAD_VERSION, now.superblock[VERSION_AT] = 2)
FAULT(closed, VERITY_NO_SUCH_LEVEL, build->closed = LEVELS + 1)
FAULT(fed_too_much, VERITY_TOO_LONG, build->fed = sizeof data + 1)
FAULT(long_piece, VERITY_TOO_LONG, now.piece_length = 1)
FAULT(too_short, VERITY_TOO_SHORT, build->fed = sizeof data - 1)
FAULT(waiting, VERITY_WAITING, build->closed = LEVELS - 1)
FAULT(fed_too_large, VERITY_TOO_LARGE, file->size = UINT64_MAX)
FAULT(tree_closed, VERITY_NO_SUCH_LEVEL, tree_build->closed = 70)
FAULT(tree_waiting, VERITY_WAITING, tree_build->closed = 1)
FAULT(tree_too_large, VERITY_TOO_LARGE, tree_build->fed = UINT64_MAX - 1)
FAULT(short_last, VERITY_BAD_LENGTH, now.last_length = BLOCK_SIZE - 1)
FAULT(long_last, VERITY_BAD_LENGTH, now.last_length = BLOCK_SIZE + 1)
FAULT(other_blocks, VERITY_DIFFERS, device->data_blocks = DATA_BLOCKS - 1)
FAULT(other_salt, VERITY_DIFFERS, device->salt_size = 1)
FAULT(short_formatted, VERITY_BAD_LENGTH, now.formatted_length = 43)
FAULT(long_formatted, VERITY_BAD_LENGTH, now.formatted_length = 45)
FAULT(short_text, VERITY_BAD_LENGTH, now.text_room = 6)
FAULT(short_name, VERITY_BAD_HASH_ALGORITHM, now.name_length = 5)
FAULT(no_part_level, VERITY_NO_SUCH_LEVEL, now.part_level = LEVELS + 1)
FAULT(no_part, VERITY_NO_SUCH_PART, now.part = PART_COUNT)
FAULT(level_of_part, VERITY_NO_SUCH_LEVEL, now.parts[DEVICE].part.level = now.parts[FILES].part.level = LEVELS + 1)
FAULT(number_of_part, VERITY_NO_SUCH_PART, now.parts[DEVICE].part.part = now.parts[FILES].part.part = PART_COUNT)
FAULT(part_closed, VERITY_NO_SUCH_LEVEL,
      now.parts[DEVICE].part.closed = now.parts[FILES].part.closed = PART_LEVEL + 1)
FAULT(part_fed, VERITY_TOO_LONG, now.parts[DEVICE].part.fed = now.parts[FILES].part.fed = PART_SIZE + 1)
FAULT(part_too_short, VERITY_TOO_SHORT, now.parts[DEVICE].part.fed = now.parts[FILES].part.fed = PART_SIZE - 1)
FAULT(part_waiting, VERITY_WAITING, now.parts[DEVICE].part.closed = now.parts[FILES].part.closed = 0)
FAULT(level_of_join, VERITY_NO_SUCH_LEVEL, now.joins[DEVICE].join.level = now.joins[FILES].join.level = LEVELS + 1)
FAULT(short_digests, VERITY_BAD_LENGTH, now.digests_length = 31)
FAULT(long_digests, VERITY_BAD_LENGTH, now.digests_length = 65)
FAULT(join_closed, VERITY_NO_SUCH_LEVEL,
      now.joins[DEVICE].join.closed = now.joins[FILES].join.closed = LEVELS - PART_LEVEL + 1)
FAULT(join_taken, VERITY_TOO_LONG, now.joins[DEVICE].join.taken = now.joins[FILES].join.taken = PART_COUNT + 1)
FAULT(one_digest, VERITY_TOO_LONG, now.digests_length = 32)
FAULT(join_too_short, VERITY_TOO_SHORT, now.joins[DEVICE].join.taken = now.joins[FILES].join.taken = PART_COUNT - 1)
FAULT(join_waiting, VERITY_WAITING, now.joins[DEVICE].join.closed = now.joins[FILES].join.closed = 1)

#define PARAMS_OF_DEVICE &algorithm, &type, &data_block_size, &hash_block_size, &salt, &offset, &no_data, &too_large
#define PARAMS_OF_BUILD &algorithm, &data_block_size, &salt
#define PARAMS_OF_FILE PARAMS_OF_BUILD, &no_data, &too_large
#define ROOT_FAULTS &short_root, &long_root, &no_root, &longest_root
#define DIGEST_FAULTS &short_digest, &long_digest, &no_digest, &longest_digest
#define MEMORY_FAULTS &no_memory, &short_memory, &long_memory
#define BLOCK_FAULTS ROOT_FAULTS, &no_block, &short_block, &short_path, &changed_block, &changed_path, &changed_root
#define LINK_FAULTS &no_block, &no_level, &short_block, &short_above, &changed_block, &changed_above
#define TOP_FAULTS ROOT_FAULTS, &no_block, &short_top, &changed_path, &changed_root
#define PART_FAULTS &level_of_part, &number_of_part
#define PART_FEED_FAULTS PART_FAULTS, MEMORY_FAULTS, &part_closed, &part_fed, &long_piece
#define PART_END_FAULTS \
    PART_FAULTS, MEMORY_FAULTS, DIGEST_FAULTS, &part_closed, &part_fed, &part_too_short, &part_waiting
#define JOIN_FEED_FAULTS \
    &level_of_join, MEMORY_FAULTS, &short_digests, &long_digests, &join_closed, &join_taken, &one_digest
#define JOIN_FAULTS &join_closed, &join_taken, &join_too_short, &join_waiting

/* The functions with their faults, in the order of the header. */
static const struct row {
    const char *name;
    int (*call)(struct building *building);
    int kind;
    const struct fault *faults[24];
} rows[] = {
    {"verity_default_params", default_params, DEVICE, {&no_data, &too_large}},
    {"verity_read_superblock", read_superblock, DEVICE,
     {&short_superblock, &signature, &version, &type, &data_block_size, &hash_block_size, &algorithm, &salt, &no_data,
      &too_large}},
    {"verity_level_count", level_count, DEVICE, {PARAMS_OF_DEVICE}},
    {"verity_level_start", level_start, DEVICE, {PARAMS_OF_DEVICE, &no_level}},
    {"verity_hash_block_start", hash_block_start, DEVICE, {PARAMS_OF_DEVICE, &no_block, &no_level}},
    {"verity_check_block", check_block, DEVICE, {PARAMS_OF_DEVICE, BLOCK_FAULTS}},
    {"verity_check_link", check_link, DEVICE, {PARAMS_OF_DEVICE, LINK_FAULTS}},
    {"verity_check_top", check_top, DEVICE, {PARAMS_OF_DEVICE, TOP_FAULTS}},
    {"fsverity_level_count", level_count, FILES, {PARAMS_OF_FILE}},
    {"fsverity_level_start", level_start, FILES, {PARAMS_OF_FILE, &no_level}},
    {"fsverity_hash_block_start", hash_block_start, FILES, {PARAMS_OF_FILE, &no_block, &no_level}},
    {"fsverity_check_block", check_block, FILES, {PARAMS_OF_FILE, BLOCK_FAULTS}},
    {"fsverity_check_link", check_link, FILES, {PARAMS_OF_FILE, LINK_FAULTS}},
    {"fsverity_check_top", check_top, FILES, {PARAMS_OF_FILE, TOP_FAULTS}},
    {"fsverity_file_digest", file_digest, FILES, {PARAMS_OF_BUILD, ROOT_FAULTS, DIGEST_FAULTS}},
    {"verity_build_memory", build_memory, DEVICE, {PARAMS_OF_DEVICE}},
    {"verity_build_begin", build_begin, DEVICE, {PARAMS_OF_DEVICE, MEMORY_FAULTS}},
    {"verity_build_feed", build_feed, DEVICE, {PARAMS_OF_DEVICE, MEMORY_FAULTS, &closed, &fed_too_much, &long_piece}},
    {"verity_build_last_block", build_last_block, DEVICE, {PARAMS_OF_DEVICE, &closed, &fed_too_much}},
    {"verity_build_end", build_end, DEVICE,
     {PARAMS_OF_DEVICE, MEMORY_FAULTS, ROOT_FAULTS, &closed, &fed_too_much, &too_short, &waiting}},
    {"verity_write_superblock", write_superblock_out, DEVICE, {PARAMS_OF_DEVICE, &no_room, &short_room, &long_room}},
    {"fsverity_build_memory", build_memory, FILES, {PARAMS_OF_BUILD}},
    {"fsverity_build_begin", build_begin, FILES, {PARAMS_OF_BUILD, MEMORY_FAULTS}},
    {"fsverity_build_feed", build_feed, FILES, {PARAMS_OF_BUILD, MEMORY_FAULTS, &fed_too_large}},
    {"fsverity_build_end", build_end, FILES,
     {PARAMS_OF_BUILD, MEMORY_FAULTS, ROOT_FAULTS, DIGEST_FAULTS, &fed_too_large}},
    {"fsverity_tree_build_begin", tree_build_begin, TREES, {PARAMS_OF_BUILD, MEMORY_FAULTS}},
    {"fsverity_tree_build_feed", tree_build_feed, TREES,
     {PARAMS_OF_BUILD, MEMORY_FAULTS, &tree_too_large, &tree_closed}},
    {"fsverity_tree_build_end_block", tree_build_end_block, TREES,
     {PARAMS_OF_BUILD, MEMORY_FAULTS, &short_last, &long_last, &tree_waiting, &tree_too_large, &no_level}},
    {"fsverity_tree_build_end", tree_build_end, TREES,
     {PARAMS_OF_BUILD, MEMORY_FAULTS, ROOT_FAULTS, DIGEST_FAULTS, &tree_waiting, &tree_too_large}},
    {"fsverity_descriptor", descriptor, FILES, {PARAMS_OF_BUILD, ROOT_FAULTS, &short_descriptor, &long_descriptor}},
    {"verity_part_count", part_count, DEVICE, {PARAMS_OF_DEVICE, &no_part_level}},
    {"verity_part_memory", part_memory, DEVICE, {PARAMS_OF_DEVICE, &no_part_level}},
    {"verity_part_begin", part_begin, DEVICE, {PARAMS_OF_DEVICE, &no_part_level, &no_part, MEMORY_FAULTS}},
    {"verity_part_feed", part_feed, DEVICE, {PARAMS_OF_DEVICE, PART_FEED_FAULTS}},
    {"verity_part_last_block", part_last_block, DEVICE, {PARAMS_OF_DEVICE, PART_FAULTS, &part_closed, &part_fed}},
    {"verity_part_end", part_end, DEVICE, {PARAMS_OF_DEVICE, PART_END_FAULTS}},
    {"verity_join_memory", join_memory, DEVICE, {PARAMS_OF_DEVICE, &no_part_level}},
    {"verity_join_begin", join_begin, DEVICE, {PARAMS_OF_DEVICE, &no_part_level, MEMORY_FAULTS}},
    {"verity_join_feed", join_feed, DEVICE, {PARAMS_OF_DEVICE, JOIN_FEED_FAULTS}},
    {"verity_join_last_block", join_last_block, DEVICE, {PARAMS_OF_DEVICE, &level_of_join, &join_closed, &join_taken}},
    {"verity_join_end", join_end, DEVICE,
     {PARAMS_OF_DEVICE, &level_of_join, MEMORY_FAULTS, ROOT_FAULTS, JOIN_FAULTS}},
    {"fsverity_part_count", part_count, FILES, {PARAMS_OF_FILE, &no_part_level}},
    {"fsverity_part_memory", part_memory, FILES, {PARAMS_OF_FILE, &no_part_level}},
    {"fsverity_part_begin", part_begin, FILES, {PARAMS_OF_FILE, &no_part_level, &no_part, MEMORY_FAULTS}},
    {"fsverity_part_feed", part_feed, FILES, {PARAMS_OF_FILE, PART_FEED_FAULTS}},
    {"fsverity_part_last_block", part_last_block, FILES, {PARAMS_OF_FILE, PART_FAULTS, &part_closed, &part_fed}},
    {"fsverity_part_end", part_end, FILES, {PARAMS_OF_FILE, PART_END_FAULTS}},
    {"fsverity_join_memory", join_memory, FILES, {PARAMS_OF_FILE, &no_part_level}},
    {"fsverity_join_begin", join_begin, FILES, {PARAMS_OF_FILE, &no_part_level, MEMORY_FAULTS}},
    {"fsverity_join_feed", join_feed, FILES, {PARAMS_OF_FILE, JOIN_FEED_FAULTS}},
    {"fsverity_join_last_block", join_last_block, FILES, {PARAMS_OF_FILE, &level_of_join, &join_closed, &join_taken}},
    {"fsverity_join_end", join_end, FILES,
     {PARAMS_OF_FILE, &level_of_join, MEMORY_FAULTS, ROOT_FAULTS, DIGEST_FAULTS, JOIN_FAULTS}},
    {"verity_same_params", same_params, DEVICE, {PARAMS_OF_DEVICE, &other_blocks, &other_salt}},
    {"verity_hash_area_end", area_end, DEVICE, {PARAMS_OF_DEVICE}},
    {"fsverity_tree_size", area_end, FILES, {PARAMS_OF_FILE}},
    {"fsverity_formatted_digest", formatted_digest, FILES,
     {&algorithm, DIGEST_FAULTS, &short_formatted, &long_formatted}},
    {"verity_digest_length", digest_length_of, DEVICE, {&algorithm}},
    {"verity_algorithm_name", algorithm_name, DEVICE, {&algorithm, &short_text}},
    {"verity_algorithm_by_name", algorithm_by_name, TREES, {&short_name}},
    {"verity_status_text", status_text, DEVICE, {&short_text}},
};

enum { FUNCTIONS = sizeof rows / sizeof *rows };

/* Calls a function with some of its faults, from one of this number to before another: its status. */
static int calls(const struct row *row, size_t first, size_t end)
{
    size_t i, round;

    now = right;
    /* The superblock is that of the parameters; what else is wrong in it is so after that. */
    for (round = 0; round < 2; round++) {
        for (i = end; i > first; i--)
            row->faults[i - 1]->make();
        if (round == 0)
            write_superblock(now.superblock, &now.buildings[DEVICE].tree.device,
                             now.buildings[DEVICE].tree.device.hash_algorithm == 6 ? "sha" : "sha256");
    }
    memcpy(memories, kept, sizeof memories);
    return row->call(&now.buildings[row->kind]);
}

static void refuses_each_fault(const struct row *row)
{
    size_t count = 0, i;
    int status = calls(row, 0, 0), expected;

    check(status == VERITY_OK, "%s, right: status %d", row->name, status);
    while (row->faults[count] != NULL)
        count++;
    check(count > 0, "%s has no fault", row->name);
    for (i = 0; i < count; i++) {
        expected = row->faults[i]->status;
        status = calls(row, i, i + 1);
        check(status == expected && status < 0, "%s, %s: status %d", row->name, row->faults[i]->name, status);
        status = calls(row, i, count);
        check(status == expected && status < 0, "%s, %s and all after it: status %d", row->name, row->faults[i]->name,
              status);
    }
}

static struct tree right_tree(bool is_file)
{
    struct tree tree = {.is_file = is_file,
                        .device = {.hash_algorithm = VERITY_SHA256, .hash_type = 1, .data_block_size = 512,
                                   .hash_block_size = 512, .data_blocks = 300},
                        .file = {.hash_algorithm = VERITY_SHA256, .block_size = 512, .size = 300 * 512}};

    return tree;
}

/* Builds a part of level 1, whose digest it answers. */
static void build_part_of(struct part_building *part, uint64_t part_number, uint8_t *part_digest)
{
    const uint8_t *bytes = data + part_number * PART_SIZE;
    size_t length = part_number + 1 < PART_COUNT ? PART_SIZE : sizeof data - part_number * PART_SIZE, taken = 0;

    if (call_part_memory(&part->tree, PART_LEVEL, &part->memory_length) != VERITY_OK ||
        part->memory_length >= sizeof memories[0] || call_part_begin(part, PART_LEVEL, part_number) != VERITY_OK)
        give_up("the part isn't begun");
    do {
        if (call_part_feed(part, bytes_of(bytes + taken, length - taken), &fed) != VERITY_OK)
            give_up("the part isn't fed");
        taken += fed.taken;
    } while (fed.block_length > 0);
    if (call_part_end(part, part_digest, 32) != VERITY_OK)
        give_up("the part isn't ended");
}

/* Joins all parts of level 1. The part that is kept is the last that is built. */
static void build_parts_right(int kind)
{
    struct part_building *part = &right.parts[kind];
    struct joining *join = &right.joins[kind];
    uint64_t next;
    size_t taken = 0;

    *part = (struct part_building){.tree = right_tree(kind == FILES), .memory = memories[BUILDINGS + kind]};
    *join = (struct joining){.tree = right_tree(kind == FILES), .memory = memories[BUILDINGS + PART_KINDS + kind]};
    for (next = 0; next < PART_COUNT; next++)
        build_part_of(part, next, digests + next * 32);
    build_part_of(part, PART, root);
    if (memcmp(root, digests + PART * 32, 32) != 0)
        give_up("the part has another digest");
    if (call_join_memory(&join->tree, PART_LEVEL, &join->memory_length) != VERITY_OK ||
        join->memory_length >= sizeof memories[0] || call_join_begin(join, PART_LEVEL) != VERITY_OK)
        give_up("the join isn't begun");
    do {
        if (call_join_feed(join, bytes_of(digests + taken, PART_COUNT * 32 - taken), &fed) != VERITY_OK)
            give_up("the parts aren't joined");
        taken += fed.taken;
    } while (fed.block_length > 0);
}

/* Builds the tree, whose hash blocks stand behind one another: the top one, 2 of level 1 and 19 of level 0. */
static void build_right(void)
{
    static uint8_t hashes[22 * BLOCK_SIZE];
    struct building *device = &right.buildings[DEVICE], *file = &right.buildings[FILES];
    struct building *tree = &right.buildings[TREES];
    size_t taken = 0;

    right = (struct arguments){
        .index = INDEX, .block_length = BLOCK_SIZE, .path_length = LEVELS * BLOCK_SIZE, .above_length = BLOCK_SIZE,
        .top_length = BLOCK_SIZE, .root_length = 32, .superblock_length = SUPERBLOCK_SIZE, .room = SUPERBLOCK_SIZE,
        .digest_length = 32, .descriptor_length = DESCRIPTOR_SIZE, .formatted_length = 44, .last_length = BLOCK_SIZE,
        .text_room = VERITY_MAX_TEXT_SIZE, .name_length = 6, .part_level = PART_LEVEL, .part = PART};
    *device = (struct building){.tree = right_tree(false), .memory = memories[DEVICE]};
    *file = (struct building){.tree = right_tree(true), .memory = memories[FILES]};
    *tree = (struct building){.tree = right_tree(true), .memory = memories[TREES]};
    if (call_build_memory(&device->tree, &device->memory_length) != VERITY_OK ||
        call_build_memory(&file->tree, &file->memory_length) != VERITY_OK ||
        device->memory_length >= sizeof memories[0] || file->memory_length >= sizeof memories[1] ||
        call_build_begin(device) != VERITY_OK || call_build_begin(file) != VERITY_OK)
        give_up("the trees aren't begun");
    do {
        if (call_build_feed(device, bytes_of(data + taken, sizeof data - taken), &fed) != VERITY_OK)
            give_up("the tree isn't fed");
        taken += fed.taken;
        if (fed.block_length > 0)
            memcpy(hashes + (fed.block_start - BLOCK_SIZE), device->memory + fed.block_at, fed.block_length);
    } while (fed.block_length > 0);
    if (call_build_end(device, right.root, 32, digest, 0) != VERITY_OK ||
        call_build_feed(file, bytes_of(data, sizeof data), &fed) != VERITY_OK)
        give_up("the trees aren't ended");
    if (call_build_memory(&tree->tree, &tree->memory_length) != VERITY_OK || call_tree_build_begin(tree) != VERITY_OK)
        give_up("the file's tree isn't begun");
    for (taken = 0; taken < sizeof data; taken += fed.taken)
        if (call_tree_build_feed(tree, bytes_of(data + taken, sizeof data - taken), &fed) != VERITY_OK)
            give_up("the file's tree isn't fed");
    build_parts_right(DEVICE);
    build_parts_right(FILES);
    memcpy(right.block, data + INDEX * BLOCK_SIZE, BLOCK_SIZE);
    memcpy(right.path, hashes + (3 + INDEX / 16) * BLOCK_SIZE, BLOCK_SIZE);
    memcpy(right.path + BLOCK_SIZE, hashes + (1 + INDEX / 256) * BLOCK_SIZE, BLOCK_SIZE);
    memcpy(right.path + 2 * BLOCK_SIZE, hashes, BLOCK_SIZE);
    memcpy(kept, memories, sizeof kept);
}

/* A field of the parameters with numbers that are refused, or with VERITY_OK such at the limit that aren't. */
enum field { ALGORITHM, TYPE, DATA_BLOCK, HASH_BLOCK, BLOCKS, OFFSET, BARE_OFFSET, SALT };

static const struct limit {
    int kind;
    enum field field;
    int status;
    size_t count;
    uint64_t numbers[9];
} limits[] = {
    {DEVICE, ALGORITHM, VERITY_BAD_HASH_ALGORITHM, 4, {0, 6, 257, UINT32_MAX}},
    {DEVICE, ALGORITHM, VERITY_OK, 3, {VERITY_SHA1, VERITY_SHA224, VERITY_SHA384}},
    {DEVICE, TYPE, VERITY_BAD_HASH_TYPE, 3, {2, 256, UINT32_MAX}},
    {DEVICE, TYPE, VERITY_OK, 1, {0}},
    {DEVICE, DATA_BLOCK, VERITY_BAD_DATA_BLOCK_SIZE, 9,
     {0, 1, 256, 511, 1536, 524287, 1048576, (uint64_t)1 << 31, UINT32_MAX}},
    {DEVICE, DATA_BLOCK, VERITY_OK, 1, {524288}},
    {DEVICE, HASH_BLOCK, VERITY_BAD_HASH_BLOCK_SIZE, 7, {0, 64, 256, 513, 524289, 1048576, UINT32_MAX}},
    {DEVICE, HASH_BLOCK, VERITY_OK, 1, {524288}},
    {DEVICE, SALT, VERITY_BAD_SALT_SIZE, 3, {257, 65536, UINT32_MAX}},
    {DEVICE, SALT, VERITY_OK, 2, {0, 256}},
    {DEVICE, OFFSET, VERITY_BAD_HASH_OFFSET, 4, {1, 511, 513, UINT64_MAX}},
    /* 19 + 2 + 1 hash blocks, and 512 bytes of superblock before them, up to 2^63 - 512. */
    {DEVICE, OFFSET, VERITY_OK, 3, {512, 1536, LARGEST - 511 - 23 * 512}},
    {DEVICE, OFFSET, VERITY_TOO_LARGE, 2, {LARGEST - 511 - 22 * 512, UINT64_MAX - 511}},
    {DEVICE, BARE_OFFSET, VERITY_BAD_HASH_OFFSET, 1, {511}},
    {DEVICE, BARE_OFFSET, VERITY_OK, 2, {4096, LARGEST - 511 - 22 * 512}},
    {DEVICE, BARE_OFFSET, VERITY_TOO_LARGE, 1, {LARGEST - 511 - 21 * 512}},
    {DEVICE, BLOCKS, VERITY_NO_DATA, 1, {0}},
    {DEVICE, BLOCKS, VERITY_OK, 2, {1, LARGEST / 512}},
    {DEVICE, BLOCKS, VERITY_TOO_LARGE, 2, {LARGEST / 512 + 1, UINT64_MAX}},
    {FILES, ALGORITHM, VERITY_BAD_HASH_ALGORITHM, 6, {0, VERITY_SHA1, VERITY_SHA224, VERITY_SHA384, 6, UINT32_MAX}},
    {FILES, ALGORITHM, VERITY_OK, 1, {VERITY_SHA512}},
    {FILES, DATA_BLOCK, VERITY_BAD_DATA_BLOCK_SIZE, 6, {0, 32, 63, 96, 1048576, UINT32_MAX}},
    {FILES, DATA_BLOCK, VERITY_OK, 2, {64, 524288}},
    {FILES, SALT, VERITY_BAD_SALT_SIZE, 3, {33, 288, UINT32_MAX}},
    {FILES, SALT, VERITY_OK, 2, {0, 32}},
    {FILES, BLOCKS, VERITY_NO_DATA, 1, {0}},
    {FILES, BLOCKS, VERITY_OK, 2, {1, LARGEST - 511}},
    {FILES, BLOCKS, VERITY_TOO_LARGE, 4, {LARGEST - 510, LARGEST, LARGEST + 1, UINT64_MAX}},
};

static void set_field(struct tree *tree, enum field field, uint64_t number)
{
    uint32_t *small[] = {[ALGORITHM] = tree->is_file ? &tree->file.hash_algorithm : &tree->device.hash_algorithm,
                         [TYPE] = &tree->device.hash_type,
                         [DATA_BLOCK] = tree->is_file ? &tree->file.block_size : &tree->device.data_block_size,
                         [HASH_BLOCK] = &tree->device.hash_block_size,
                         [BLOCKS] = NULL,
                         [OFFSET] = NULL,
                         [BARE_OFFSET] = NULL,
                         [SALT] = tree->is_file ? &tree->file.salt_size : &tree->device.salt_size};

    if (small[field] != NULL)
        *small[field] = (uint32_t)number;
    else if (field == BLOCKS)
        *(tree->is_file ? &tree->file.size : &tree->device.data_blocks) = number;
    else
        tree->device.hash_offset = number;
    if (field == BARE_OFFSET)
        tree->device.no_superblock = 1;
}

/* Whether a function has a fault with this status. */
static bool has_fault(const struct row *row, int status)
{
    size_t i;

    for (i = 0; row->faults[i] != NULL; i++)
        if (row->faults[i]->status == status)
            return true;
    return false;
}

/* A number is refused by each function that looks at it, or accepted. Superblocks and defaults are tested apart. */
static void try_limit(const struct limit *limit, uint64_t number_in_field)
{
    struct building *building;
    const struct row *row;
    bool is_tree;
    int status;

    for (row = rows; row < rows + FUNCTIONS; row++) {
        now = right;
        /* Building a file's tree doesn't look at the size. */
        is_tree = row->kind == TREES && limit->kind == FILES && limit->field != BLOCKS &&
                  row->call != algorithm_by_name;
        building = &now.buildings[is_tree ? TREES : limit->kind];
        set_field(&building->tree, limit->field, number_in_field);
        /* The computation that other expected values rest on says the same. */
        check(shape_of(&building->tree).status == limit->status, "%" PRIu64 ": expected otherwise", number_in_field);
        if ((row->kind != limit->kind && !is_tree) || row->call == read_superblock ||
            row->call == default_params ||
            !(limit->status == VERITY_OK ? row->call == level_count : has_fault(row, limit->status)))
            continue;
        memcpy(memories, kept, sizeof memories);
        status = row->call(building);
        check(status == limit->status, "%s, field %d, number %" PRIu64 ": status %d", row->name, (int)limit->field,
              number_in_field, status);
    }
}

static void refuses_superblock(const uint8_t *superblock, size_t length, int expected, const char *what)
{
    struct verity_params params, before;
    int status;

    memset(&params, 0xa5, sizeof params);
    before = params;
    status = call_read_superblock(bytes_of(superblock, length), 0, &params);
    check(status == expected, "superblock, %s: status %d, expected %d", what, status, expected);
    check((memcmp(&params, &before, sizeof params) != 0) == (expected == VERITY_OK), "superblock, %s: filled", what);
}

static void superblock_bytes(void)
{
    struct verity_params params = {.hash_type = 0, .data_block_size = 1024, .hash_block_size = 4096, .salt_size = 256,
                                   .data_blocks = LARGEST / 1024 + 1};
    static const char *const wrong[] = {"",       "sha", "sha25",  "sha2567", "SHA256", " sha256", "sha256 ",
                                        "sha-256", "md5", "sha3-256", "sha512/256", "sha384sha384sha384sha384sha384sh"};
    static const uint64_t offsets[] = {1, 511, LARGEST, UINT64_MAX};
    struct tree tree = {.is_file = false};
    uint8_t superblock[SUPERBLOCK_SIZE];
    size_t i, levels = PAINT;

    write_superblock(superblock, &params, "sha384");
    refuses_superblock(superblock, SUPERBLOCK_SIZE, VERITY_TOO_LARGE, "too much data");
    params.data_blocks = LARGEST / 1024;
    write_superblock(superblock, &params, "sha384");
    refuses_superblock(superblock, SUPERBLOCK_SIZE, VERITY_OK, "the most data");

    for (i = 0; i < sizeof wrong / sizeof *wrong; i++) {
        write_superblock(superblock, &params, wrong[i]);
        refuses_superblock(superblock, SUPERBLOCK_SIZE, VERITY_BAD_HASH_ALGORITHM, wrong[i]);
    }
    write_superblock(superblock, &params, "sha384");
    /* What stands behind the zero of the name, in the padding, and behind the salt doesn't count. */
    memset(superblock + ALGORITHM_AT + 7, 'x', ALGORITHM_SIZE - 7);
    memset(superblock + FIRST_PAD_AT, 'x', FIRST_PAD_SIZE);
    memset(superblock + LAST_PAD_AT, 'x', LAST_PAD_SIZE);
    refuses_superblock(superblock, SUPERBLOCK_SIZE, VERITY_OK, "other bytes that don't count");
    for (i = SIGNATURE_AT; i < VERSION_AT; i++) {
        superblock[i] ^= 0x20;
        refuses_superblock(superblock, SUPERBLOCK_SIZE, VERITY_BAD_SIGNATURE, "a byte of the signature");
        superblock[i] ^= 0x20;
    }
    for (i = VERSION_AT; i < HASH_TYPE_AT; i++) {
        superblock[i] ^= 0x80;
        refuses_superblock(superblock, SUPERBLOCK_SIZE, VERITY_BAD_VERSION, "a byte of the version");
        superblock[i] ^= 0x80;
    }
    /* Any hash offset is read; what it can't be is said by the next function. */
    params.data_blocks = 1000;
    write_superblock(superblock, &params, "sha384");
    for (i = 0; i < sizeof offsets / sizeof *offsets; i++) {
        check(call_read_superblock(bytes_of(superblock, SUPERBLOCK_SIZE), offsets[i], &tree.device) == VERITY_OK &&
                      tree.device.hash_offset == offsets[i], "hash offset %" PRIu64, offsets[i]);
        check(call_level_count(&tree, &levels) == VERITY_BAD_HASH_OFFSET && levels == PAINT,
              "levels with hash offset %" PRIu64, offsets[i]);
    }
}

/* A size that is too large for a tree has digest and descriptor all the same, and blocks of two digests are least. */
static void file_sizes(void)
{
    struct fsverity_params params = {.hash_algorithm = VERITY_SHA512, .block_size = 64};
    static const uint64_t sizes[] = {0, LARGEST, LARGEST + 1, UINT64_MAX};
    struct bytes some = bytes_of(data, 64);
    size_t i;

    check(call_file_digest(&params, some, digest, 64) == VERITY_BAD_DATA_BLOCK_SIZE, "SHA-512 with blocks of 64 bytes");
    params.block_size = 128;
    for (i = 0; i < sizeof sizes / sizeof *sizes; i++) {
        params.size = sizes[i];
        check(call_file_digest(&params, some, digest, 64) == VERITY_OK, "digest of size %" PRIu64, sizes[i]);
        check(call_descriptor(&params, some, out, DESCRIPTOR_SIZE) == VERITY_OK, "descriptor of size %" PRIu64,
              sizes[i]);
    }
}

int main(void)
{
    size_t i, j;
    int status;

    seed_random(1);
    random_bytes(data, sizeof data);
    build_right();
    for (i = 0; i < FUNCTIONS; i++)
        refuses_each_fault(&rows[i]);
    for (i = 0; i < sizeof limits / sizeof *limits; i++)
        for (j = 0; j < limits[i].count; j++)
            try_limit(&limits[i], limits[i].numbers[j]);
    superblock_bytes();
    file_sizes();
    check(call_version() == VERITY_VERSION_MAJOR * 10000 + VERITY_VERSION_MINOR * 100 + VERITY_VERSION_PATCH,
          "version %" PRIu32, call_version());
    for (status = VERITY_OK; status >= LEAST_STATUS; status--)
        check(status_seen[-status], "status %d wasn't answered", status);
    return finish();
}
