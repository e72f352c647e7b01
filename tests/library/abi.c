/*
 * abi.c - calls every function of the library by what verity.h says of registers and of bytes that need no value. The
 * caller keeps something in each register that a call has to leave. What needs no value has none: what is only filled,
 * padding, bytes of a salt behind those that count, a uuid that isn't looked at, and the memory with which a tree is
 * begun. It is called with the number of a byte, with which all of that is filled first: every status and answer that
 * is printed is the same for each. Without a word it is as malloc gave it, and no register is looked at, for valgrind,
 * which imitates a processor in part.
 */
#include <inttypes.h>
#include <stdio.h>
#include <stdlib.h>
#include <string.h>

#include "kept_registers.h"
#include "support.h"

enum { BLOCK_SIZE = 1024, DATA_BLOCKS = 300, DATA = DATA_BLOCKS * BLOCK_SIZE, LAST = DATA_BLOCKS - 1 };

static int filling = -1;
static uint8_t data[DATA], hashes[64 * BLOCK_SIZE];

/* Memory of its own for each call, which is never given back. */
static void *unset(size_t length)
{
    uint8_t *bytes = malloc(length);

    if (bytes == NULL)
        give_up("no memory");
    if (filling >= 0)
        memset(bytes, filling, length);
    return bytes;
}

static void show(const char *what, const void *bytes, size_t length)
{
    size_t i;

    printf("%s ", what);
    for (i = 0; i < length; i++)
        printf("%02x", ((const uint8_t *)bytes)[i]);
    printf("\n");
}

static uint64_t filled_registers[KEPT_REGISTERS], seen_registers[KEPT_REGISTERS];

/* What was filled before a call is there after it. */
static void check_registers(const char *call)
{
    int i;

    for (i = 0; i < KEPT_REGISTERS; i++)
        check(seen_registers[i] == filled_registers[i], "%s is 0x%" PRIx64 " and was 0x%" PRIx64 ", not kept by %.30s",
              kept_registers[i], seen_registers[i], filled_registers[i], call);
}

/* Makes a call, and prints its status and what it has filled. */
#define SHOW(call, filled, length)                  \
    do {                                            \
        int status_;                                \
        if (filling >= 0)                           \
            fill_registers(filled_registers);       \
        status_ = (call);                           \
        if (filling >= 0) {                         \
            look_at_registers(seen_registers);      \
            check_registers(#call);                 \
        }                                           \
        printf("%d ", status_);                     \
        show(#call, filled, length);                \
    } while (0)

/* The same of one more number. */
#define SHOW_TWO(call, first, second)               \
    do {                                            \
        SHOW(call, first, sizeof *(first));         \
        show("and", second, sizeof *(second));      \
    } while (0)

static struct verity_params *device_params(void)
{
    struct verity_params *params = unset(sizeof *params);

    params->hash_algorithm = VERITY_SHA256;
    params->hash_type = 1;
    params->data_block_size = params->hash_block_size = BLOCK_SIZE;
    params->data_blocks = DATA_BLOCKS;
    params->hash_offset = 0;
    params->no_superblock = 1;
    params->salt_size = 7;
    memcpy(params->salt, "by hand", 7);
    return params;
}

/* Builds a dm-verity tree: each hash block goes to its place, and all are shown. */
static uint8_t *build_device(const struct verity_params *params)
{
    struct verity_build *build = unset(sizeof *build);
    size_t *length = unset(sizeof *length), taken = 0;
    struct verity_fed *fed;
    uint8_t *memory, *root = unset(32);

    SHOW(verity_build_memory(params, length), length, sizeof *length);
    memory = unset(*length);
    SHOW(verity_build_begin(params, build, memory, *length), build, sizeof *build);
    do {
        size_t piece = DATA - taken < 5000 ? DATA - taken : 5000;

        fed = unset(sizeof *fed);
        SHOW(verity_build_feed(params, build, memory, *length, data + taken, piece, fed), fed, sizeof *fed);
        taken += fed->taken;
        if (fed->block_length > 0) {
            memcpy(hashes + fed->block_start, memory + fed->block_at, fed->block_length);
            fed = unset(sizeof *fed);
            SHOW(verity_build_last_block(params, build, fed), fed, sizeof *fed);
        }
    } while (fed->block_length > 0 || taken < DATA);
    SHOW(verity_build_end(params, build, memory, *length, root, 32), root, 32);
    show("hash blocks", hashes, sizeof hashes);
    return root;
}

/* The same data with the checks of a dm-verity image. */
static void try_device(void)
{
    struct verity_params *params = device_params(), *read = unset(sizeof *read);
    uint8_t *root = build_device(params), *superblock = unset(512), path[2 * BLOCK_SIZE];
    size_t *levels = unset(sizeof *levels), *level = unset(sizeof *level), i;
    uint64_t *start = unset(sizeof *start), *blocks = unset(sizeof *blocks);

    SHOW(verity_level_count(params, levels), levels, sizeof *levels);
    SHOW_TWO(verity_level_start(params, 0, start, blocks), start, blocks);
    for (i = 0; i < *levels; i++) {
        start = unset(sizeof *start);
        SHOW(verity_hash_block_start(params, LAST, i, start), start, sizeof *start);
        memcpy(path + i * BLOCK_SIZE, hashes + *start, BLOCK_SIZE);
    }
    SHOW(verity_check_block(params, LAST, data + LAST * BLOCK_SIZE, BLOCK_SIZE, path, sizeof path, root, 32, level),
         "", 0);
    SHOW(verity_check_block(params, 0, data + BLOCK_SIZE, BLOCK_SIZE, path, sizeof path, root, 32, level), level,
         sizeof *level);
    SHOW(verity_check_link(params, LAST, 0, data + LAST * BLOCK_SIZE, BLOCK_SIZE, path, BLOCK_SIZE), "", 0);
    SHOW(verity_check_top(params, LAST, path + BLOCK_SIZE, BLOCK_SIZE, root, 32), "", 0);
    start = unset(sizeof *start);
    SHOW(verity_hash_area_end(params, start), start, sizeof *start);
    SHOW(verity_same_params(params, device_params()), "", 0);
    read = unset(sizeof *read);
    SHOW(verity_default_params(DATA_BLOCKS, read), read, sizeof *read);
    read = unset(sizeof *read);
    memset(params->uuid, 3, sizeof params->uuid);
    SHOW(verity_write_superblock(params, superblock, 512), superblock, 512);
    SHOW(verity_read_superblock(superblock, 512, 4096, read), read, sizeof *read);
}

/* And as a file, whose size is counted. */
static void try_file(void)
{
    struct fsverity_params *params = unset(sizeof *params);
    uint8_t *memory, *root = unset(32), *digest = unset(32), *descriptor = unset(256), *path = hashes;
    size_t *length = unset(sizeof *length), *levels = unset(sizeof *levels), *level = unset(sizeof *level), i;
    uint64_t *start = unset(sizeof *start), *blocks = unset(sizeof *blocks);

    params->hash_algorithm = VERITY_SHA256;
    params->block_size = BLOCK_SIZE;
    params->salt_size = 3;
    memcpy(params->salt, "NaCl", 3);
    SHOW(fsverity_build_memory(params, length), length, sizeof *length);
    memory = unset(*length);
    SHOW(fsverity_build_begin(params, memory, *length), &params->size, sizeof params->size);
    SHOW(fsverity_build_end(params, memory, *length, root, 32, digest, 32), root, 32);
    for (i = 0; i < DATA; i += 500) {
        size_t piece = DATA - i < 500 ? DATA - i : 500;

        SHOW(fsverity_build_feed(params, memory, *length, data + i, piece), &params->size, sizeof params->size);
        if (i % 70000 == 0) {
            root = unset(32);
            digest = unset(32);
            SHOW(fsverity_build_end(params, memory, *length, root, 32, digest, 32), digest, 32);
        }
    }
    SHOW(fsverity_build_end(params, memory, *length, root, 32, digest, 32), root, 32);
    show("digest", digest, 32);
    digest = unset(32);
    SHOW(fsverity_file_digest(params, root, 32, digest, 32), digest, 32);
    SHOW(fsverity_descriptor(params, root, 32, descriptor, 256), descriptor, 256);
    SHOW(fsverity_level_count(params, levels), levels, sizeof *levels);
    SHOW_TWO(fsverity_level_start(params, 0, start, blocks), start, blocks);
    start = unset(sizeof *start);
    SHOW(fsverity_hash_block_start(params, LAST, 0, start), start, sizeof *start);
    start = unset(sizeof *start);
    SHOW(fsverity_tree_size(params, start), start, sizeof *start);
    /* The hash blocks are those of other data, with which every check has its answer. */
    SHOW(fsverity_check_block(params, 0, data, BLOCK_SIZE, path, *levels * BLOCK_SIZE, root, 32, level), level,
         sizeof *level);
    SHOW(fsverity_check_link(params, 0, 0, data, BLOCK_SIZE, path, BLOCK_SIZE), "", 0);
    SHOW(fsverity_check_top(params, 0, path, BLOCK_SIZE, root, 32), "", 0);
}

/* As a file whose blocks are handed out; its size has no value. */
static void try_file_tree(void)
{
    struct fsverity_params *params = unset(sizeof *params);
    struct verity_build *build = unset(sizeof *build);
    struct verity_fed *fed;
    uint8_t *memory, *root = unset(32), *digest = unset(32), *block;
    size_t *length = unset(sizeof *length), level, taken = 0;
    uint64_t *index;

    params->hash_algorithm = VERITY_SHA256;
    params->block_size = BLOCK_SIZE;
    params->salt_size = 3;
    memcpy(params->salt, "NaCl", 3);
    SHOW(fsverity_build_memory(params, length), length, sizeof *length);
    memory = unset(*length);
    SHOW(fsverity_tree_build_begin(params, build, memory, *length), build, sizeof *build);
    do {
        size_t piece = DATA - taken < 5000 ? DATA - taken : 5000;

        fed = unset(sizeof *fed);
        SHOW(fsverity_tree_build_feed(params, build, memory, *length, data + taken, piece, fed), fed, sizeof *fed);
        taken += fed->taken;
        if (fed->block_length > 0)
            show("block", memory + fed->block_at, fed->block_length);
    } while (taken < DATA);
    for (level = 0; level < 3; level++) {
        block = unset(BLOCK_SIZE);
        index = unset(sizeof *index);
        SHOW(fsverity_tree_build_end_block(params, build, memory, *length, level, block, BLOCK_SIZE, index), "", 0);
        if (level < 2) {
            show("block", block, BLOCK_SIZE);
            show("number", index, sizeof *index);
        }
    }
    SHOW(fsverity_tree_build_end(params, build, memory, *length, root, 32, digest, 32), root, 32);
    show("digest", digest, 32);
}

/* The last part of level 1, and the join of all of them, by digests that are random: every call has its answer. */
static void try_part(void)
{
    struct verity_params *params = device_params();
    struct verity_part *part = unset(sizeof *part);
    struct verity_join *join = unset(sizeof *join);
    struct verity_fed *fed;
    uint64_t *parts = unset(sizeof *parts), *blocks = unset(sizeof *blocks);
    size_t *length = unset(sizeof *length), at, taken = 0;
    uint8_t *memory, *digest = unset(32), *root = unset(32);

    SHOW_TWO(verity_part_count(params, 1, parts, blocks), parts, blocks);
    SHOW(verity_part_memory(params, 1, length), length, sizeof *length);
    memory = unset(*length);
    SHOW(verity_part_begin(params, 1, *parts - 1, part, memory, *length), part, sizeof *part);
    at = (size_t)((*parts - 1) * *blocks * BLOCK_SIZE);
    do {
        size_t piece = DATA - at < 5000 ? DATA - at : 5000;

        fed = unset(sizeof *fed);
        SHOW(verity_part_feed(params, part, memory, *length, data + at, piece, fed), fed, sizeof *fed);
        at += fed->taken;
        fed = unset(sizeof *fed);
        SHOW(verity_part_last_block(params, part, fed), fed, sizeof *fed);
        if (fed->block_length > 0)
            show("block", memory + fed->block_at, fed->block_length);
    } while (at < DATA);
    SHOW(verity_part_end(params, part, memory, *length, digest, 32), digest, 32);

    length = unset(sizeof *length);
    SHOW(verity_join_memory(params, 1, length), length, sizeof *length);
    memory = unset(*length);
    SHOW(verity_join_begin(params, 1, join, memory, *length), join, sizeof *join);
    do {
        fed = unset(sizeof *fed);
        SHOW(verity_join_feed(params, join, memory, *length, data + taken, *parts * 32 - taken, fed), fed, sizeof *fed);
        taken += fed->taken;
        if (fed->block_length > 0)
            show("block", memory + fed->block_at, fed->block_length);
    } while (fed->block_length > 0);
    fed = unset(sizeof *fed);
    SHOW(verity_join_last_block(params, join, fed), fed, sizeof *fed);
    SHOW(verity_join_end(params, join, memory, *length, root, 32), root, 32);
}

/* The same of a file, which ends in a data block. */
static void try_file_part(void)
{
    struct fsverity_params *params = unset(sizeof *params);
    struct verity_part *part = unset(sizeof *part);
    struct verity_join *join = unset(sizeof *join);
    struct verity_fed *fed;
    uint64_t *parts = unset(sizeof *parts), *blocks = unset(sizeof *blocks);
    size_t *length = unset(sizeof *length), at, taken = 0;
    uint8_t *memory, *digest = unset(32), *root = unset(32);

    params->hash_algorithm = VERITY_SHA256;
    params->block_size = BLOCK_SIZE;
    params->size = DATA - 77;
    params->salt_size = 3;
    memcpy(params->salt, "NaCl", 3);
    SHOW_TWO(fsverity_part_count(params, 1, parts, blocks), parts, blocks);
    SHOW(fsverity_part_memory(params, 1, length), length, sizeof *length);
    memory = unset(*length);
    SHOW(fsverity_part_begin(params, 1, *parts - 1, part, memory, *length), part, sizeof *part);
    at = (size_t)((*parts - 1) * *blocks * BLOCK_SIZE);
    do {
        size_t piece = DATA - 77 - at < 5000 ? DATA - 77 - at : 5000;

        fed = unset(sizeof *fed);
        SHOW(fsverity_part_feed(params, part, memory, *length, data + at, piece, fed), fed, sizeof *fed);
        at += fed->taken;
        fed = unset(sizeof *fed);
        SHOW(fsverity_part_last_block(params, part, fed), fed, sizeof *fed);
        if (fed->block_length > 0)
            show("block", memory + fed->block_at, fed->block_length);
    } while (at < DATA - 77);
    SHOW(fsverity_part_end(params, part, memory, *length, digest, 32), digest, 32);

    length = unset(sizeof *length);
    SHOW(fsverity_join_memory(params, 1, length), length, sizeof *length);
    memory = unset(*length);
    SHOW(fsverity_join_begin(params, 1, join, memory, *length), join, sizeof *join);
    do {
        fed = unset(sizeof *fed);
        SHOW(fsverity_join_feed(params, join, memory, *length, data + taken, *parts * 32 - taken, fed), fed,
             sizeof *fed);
        taken += fed->taken;
        if (fed->block_length > 0)
            show("block", memory + fed->block_at, fed->block_length);
    } while (fed->block_length > 0);
    fed = unset(sizeof *fed);
    SHOW(fsverity_join_last_block(params, join, fed), fed, sizeof *fed);
    digest = unset(32);
    SHOW(fsverity_join_end(params, join, memory, *length, root, 32, digest, 32), root, 32);
    show("digest", digest, 32);
}

/* What is said of hash functions, statuses and the library. */
static void try_names(void)
{
    char *text = unset(VERITY_MAX_TEXT_SIZE);
    size_t *length = unset(sizeof *length);
    uint32_t *number = unset(sizeof *number);
    uint8_t *formatted = unset(44);

    SHOW(verity_algorithm_name(VERITY_SHA384, text, VERITY_MAX_TEXT_SIZE, length), text, 7);
    SHOW(verity_algorithm_by_name("sha384", 6, number), number, sizeof *number);
    length = unset(sizeof *length);
    SHOW(verity_digest_length(VERITY_SHA384, length), length, sizeof *length);
    text = unset(VERITY_MAX_TEXT_SIZE);
    length = unset(sizeof *length);
    SHOW(verity_status_text(VERITY_WAITING, text, VERITY_MAX_TEXT_SIZE, length), length, sizeof *length);
    show("text", text, *length + 1);
    SHOW(fsverity_formatted_digest(VERITY_SHA256, data, 32, formatted, 44), formatted, 44);
    SHOW((int)verity_version(), "", 0);
}

int main(int count, char **words)
{
    if (count > 1)
        filling = atoi(words[1]);
    seed_random(1);
    random_bytes(data, sizeof data);
    try_device();
    try_file();
    try_file_tree();
    try_part();
    try_file_part();
    try_names();
    /* Not by a return, for which whoever has called this would want its own registers back. */
    exit(filling < 0 ? 0 : finish());
}
