/*
 * stack.c - measures how much stack those functions of the library take that take most, beside what stack.py says.
 *
 * Each is called on a stack filled with one byte, and takes what it changes below its caller's stack pointer: by each
 * hash function, with and without a salt, for data of zeros and other data, that ends at each place of a builder's
 * window. Printed are the names, and the most bytes.
 */
#define _XOPEN_SOURCE 700
#include <stdint.h>
#include <stdio.h>
#include <stdlib.h>
#include <string.h>
#include <ucontext.h>

#include "verity.h"

enum { STACK_SIZE = 32768, PATTERN = 0xa5, BLOCK = 1024, BLOCKS = 20 };

static _Alignas(64) uint8_t stack[STACK_SIZE];
static ucontext_t main_context, call_context;
static uint8_t *at_call;
static int status;

/* An image and a file. The one part of the image is all of it, and a join takes a digest of each block. */
static struct verity_params image;
static struct fsverity_params file;
static struct verity_part part;
static struct verity_build build;
static struct verity_join join;
static struct verity_fed fed;
static uint8_t memory[1 << 16], data[BLOCKS * BLOCK], root[64], digest[64], superblock[512];
static size_t digest_length, levels, level, part_memory, file_memory, join_memory;
static uint64_t data_length;

#ifdef __x86_64__
#define NOTE_STACK() __asm__ volatile("mov %%rsp, %0" : "=r"(at_call))
#else
#define NOTE_STACK() __asm__ volatile("mov %0, sp" : "=r"(at_call))
#endif

#define CALLS(each) \
    each(verity_part_feed, &image, &part, memory, part_memory, data, data_length - part.fed, &fed) \
    each(verity_check_block, &image, 0, data, BLOCK, data, levels * BLOCK, root, digest_length, &level) \
    each(verity_write_superblock, &image, superblock, sizeof superblock) \
    each(fsverity_tree_build_end, &file, &build, memory, file_memory, root, digest_length, digest, digest_length) \
    each(fsverity_join_end, &file, &join, memory, join_memory, root, digest_length, digest, digest_length)
#define CALL(function, ...) \
    static void call_##function(void) \
    { \
        NOTE_STACK(); \
        status = function(__VA_ARGS__); \
    } \
    static size_t most_of_##function;
#define PRINT(function, ...) printf("%s %zu\n", #function, most_of_##function);
CALLS(CALL)

static void must_be(int found, int right)
{
    if (found != right) {
        fprintf(stderr, "status %d\n", found);
        exit(1);
    }
}

static void measure(void (*call)(void), size_t *most, int right)
{
    uint8_t *changed = stack;

    memset(stack, PATTERN, sizeof stack);
    getcontext(&call_context);
    call_context.uc_stack.ss_sp = stack;
    call_context.uc_stack.ss_size = sizeof stack;
    call_context.uc_link = &main_context;
    makecontext(&call_context, call, 0);
    swapcontext(&main_context, &call_context);
    must_be(status, right);
    while (*changed == PATTERN)
        changed++;
    if ((size_t)(at_call - changed) > *most)
        *most = (size_t)(at_call - changed);
}

#define MEASURE(function, right) measure(call_##function, &most_of_##function, right)

static void measure_image(uint32_t algorithm, uint32_t salt_size, uint64_t blocks)
{
    image = (struct verity_params){.hash_algorithm = algorithm, .hash_type = 1, .data_block_size = BLOCK,
                                   .hash_block_size = BLOCK, .data_blocks = blocks, .salt_size = salt_size};
    data_length = blocks * BLOCK;
    must_be(verity_digest_length(algorithm, &digest_length), VERITY_OK);
    must_be(verity_level_count(&image, &levels), VERITY_OK);
    must_be(verity_part_memory(&image, levels, &part_memory), VERITY_OK);
    must_be(verity_part_begin(&image, levels, 0, &part, memory, part_memory), VERITY_OK);
    do
        MEASURE(verity_part_feed, VERITY_OK);
    while (fed.block_length > 0);
    MEASURE(verity_check_block, VERITY_DIFFERS);
    MEASURE(verity_write_superblock, VERITY_OK);
}

static void measure_file(uint32_t algorithm, uint32_t salt_size, uint64_t size)
{
    file = (struct fsverity_params){.hash_algorithm = algorithm, .block_size = BLOCK, .size = size,
                                    .salt_size = salt_size};
    must_be(verity_digest_length(algorithm, &digest_length), VERITY_OK);
    must_be(fsverity_level_count(&file, &levels), VERITY_OK);
    must_be(fsverity_build_memory(&file, &file_memory), VERITY_OK);
    must_be(fsverity_join_memory(&file, 0, &join_memory), VERITY_OK);
    build = (struct verity_build){.fed = size};
    join = (struct verity_join){.taken = (size + BLOCK - 1) / BLOCK, .closed = levels};
    MEASURE(fsverity_tree_build_end, VERITY_OK);
    MEASURE(fsverity_join_end, VERITY_OK);
}

static void measure_all(void)
{
    static const uint32_t salt_sizes[] = {0, 1, 32};
    uint32_t algorithm;
    uint64_t blocks;

    for (algorithm = VERITY_SHA256; algorithm <= VERITY_SHA384; algorithm++)
        for (size_t i = 0; i < 3; i++)
            for (blocks = 1; blocks <= BLOCKS; blocks++) {
                measure_image(algorithm, salt_sizes[i], blocks);
                if (algorithm > VERITY_SHA512)
                    continue;
                measure_file(algorithm, salt_sizes[i], blocks * BLOCK);
                measure_file(algorithm, salt_sizes[i], blocks * BLOCK - 1);
            }
}

int main(void)
{
    measure_all();
    memset(data, 7, sizeof data);
    memset(memory, 7, sizeof memory);
    measure_all();
    CALLS(PRINT)
    return 0;
}
