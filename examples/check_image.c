/*
 * check_image.c - checks a whole dm-verity image and names the first difference. The data is read once, from its first
 * byte to its last, and fed to a tree in pieces: each hash block that the library hands out is compared with the one
 * that stands on the hash device, and at the end the root hash with the one that is trusted.
 *
 * Build:
 *
 *     gcc -std=c11 -O2 -Iinclude -o check_image examples/check_image.c lib/libverity.a
 *
 * Run, with the image's root hash in hexadecimal:
 *
 *     ./check_image DATA HASH ROOT [HASH_OFFSET]
 *
 * Status 0 if all is right, and then nothing is printed. Status 1 if a hash block is another or is missing, or the root
 * hash is another, and 2 if the image can't be checked: a line on standard error says which, or why. Of several
 * differences the first in closing order is named, as by `veritysetup verify`: a hash block counts with the last data
 * block below it, and those that come with one data block count from level 0 upward. Level 0 is next to the data, and
 * its block number N is the one with the digests of data blocks from N times the fan-out on; either the hash block or
 * the data was changed.
 *
 * Parameters come from the superblock, which the root hash doesn't cover: compare them with trusted ones, by
 * verity_same_params, if somebody else could have written it.
 */
#define _POSIX_C_SOURCE 200809L
#define _FILE_OFFSET_BITS 64

#include <errno.h>
#include <fcntl.h>
#include <inttypes.h>
#include <stdio.h>
#include <stdlib.h>
#include <string.h>
#include <unistd.h>

#include "verity.h"

/* How the program ends. */
enum { RIGHT = 0, DIFFERENT = 1, NOT_CHECKED = 2 };

static struct verity_params params;
static struct verity_build build;
static uint8_t *memory, *stored; /* the library's memory, and a hash block of the hash device */
static size_t memory_length;
static uint8_t root[VERITY_MAX_DIGEST_SIZE];
static size_t root_length;
static int data_file, hash_file;

/* Ends the program: the image can't be checked. */
static _Noreturn void give_up(const char *what, const char *why) {
    fprintf(stderr, "%s: %s\n", what, why);
    exit(NOT_CHECKED);
}

/* The same if a call of the library has failed. */
static void check_status(const char *call, int ret) {
    if (ret < 0) {
        fprintf(stderr, "%s: status %d\n", call, ret);
        exit(NOT_CHECKED);
    }
}

/* Reads bytes of a file from a start on: how many there are, up to so many. */
static size_t read_file(int file, const char *what, uint64_t start, uint8_t *bytes, size_t length) {
    size_t count = 0;

    while (count < length) {
        ssize_t found = pread(file, bytes + count, length - count, (off_t)(start + count));
        if (found == -1 && errno == EINTR)
            continue;
        if (found == -1)
            give_up(what, strerror(errno));
        if (found == 0)
            break;
        count += (size_t)found;
    }
    return count;
}

static int open_file(const char *name) {
    int file = open(name, O_RDONLY | O_CLOEXEC);
    if (file == -1)
        give_up(name, strerror(errno));
    return file;
}

static void read_root(const char *text) {
    for (; *text != 0; text += 2) {
        char digits[3] = {text[0], text[1], 0};
        if (root_length == sizeof root || strspn(digits, "0123456789abcdefABCDEF") != 2)
            give_up("ROOT", "not a digest in hexadecimal");
        root[root_length++] = (uint8_t)strtoul(digits, NULL, 16);
    }
}

/* Reads the superblock, and begins the tree. A root hash of another length is refused before any data is read. */
static void begin(uint64_t hash_offset) {
    uint8_t superblock[512];
    int ret;

    if (hash_offset > INT64_MAX - sizeof superblock)
        give_up("HASH_OFFSET", "too large");
    if (read_file(hash_file, "HASH", hash_offset, superblock, sizeof superblock) < sizeof superblock)
        give_up("HASH", "too short for a superblock");
    check_status("verity_read_superblock", verity_read_superblock(superblock, sizeof superblock, hash_offset, &params));
    check_status("verity_build_memory", verity_build_memory(&params, &memory_length));
    memory = malloc(memory_length);
    stored = malloc(params.hash_block_size);
    if (memory == NULL || stored == NULL)
        give_up("memory", strerror(ENOMEM));
    check_status("verity_build_begin", verity_build_begin(&params, &build, memory, memory_length));
    ret = verity_build_end(&params, &build, memory, memory_length, root, root_length);
    if (ret != VERITY_TOO_SHORT)
        check_status("ROOT", ret);
}

/* Compares a hash block that was handed out with the one that stands at its place: whether it is the same. */
static int compare(const struct verity_fed *fed) {
    size_t count = read_file(hash_file, "HASH", fed->block_start, stored, fed->block_length);

    if (count < fed->block_length)
        fprintf(stderr, "level %zu block %" PRIu64 " is missing.\n", fed->block_level, fed->block_index);
    else if (memcmp(stored, memory + fed->block_at, count) != 0)
        fprintf(stderr, "level %zu block %" PRIu64 " differs.\n", fed->block_level, fed->block_index);
    else
        return 1;
    return 0;
}

/* Feeds a piece, and compares each hash block that is handed out: whether all are the same. */
static int feed(const uint8_t *piece, size_t length) {
    struct verity_fed fed = {0};

    do {
        check_status("verity_build_feed",
                     verity_build_feed(&params, &build, memory, memory_length, piece, length, &fed));
        piece += fed.taken;
        length -= fed.taken;
        if (fed.block_length > 0 && !compare(&fed))
            return 0;
    } while (fed.block_length > 0);
    return 1;
}

/*
 * Feeds the data, and answers how the program ends by that. Data that ends too early can't be checked, unless a hash
 * block differs that closed before. One that closed with the last byte is handed out once another byte comes, whatever
 * that is: so after whole blocks one zero is fed, with which no further hash block closes.
 */
static int feed_data(void) {
    static uint8_t piece[1 << 20];
    const uint64_t wanted = params.data_blocks * params.data_block_size;

    while (build.fed < wanted) {
        uint64_t left = wanted - build.fed;
        size_t length = left < sizeof piece ? (size_t)left : sizeof piece;
        size_t count = read_file(data_file, "DATA", build.fed, piece, length);
        uint64_t blocks = (build.fed + count) / params.data_block_size;

        if (!feed(piece, count))
            return DIFFERENT;
        if (count < length) {
            if (build.fed % params.data_block_size == 0 && !feed((const uint8_t[1]){0}, 1))
                return DIFFERENT;
            fprintf(stderr, "The data ends before the end of block %" PRIu64 ".\n", blocks);
            return NOT_CHECKED;
        }
    }
    return RIGHT;
}

/* Compares the root hash. */
static int compare_root(void) {
    uint8_t found[VERITY_MAX_DIGEST_SIZE];

    check_status("verity_build_end", verity_build_end(&params, &build, memory, memory_length, found, root_length));
    if (memcmp(found, root, root_length) == 0)
        return RIGHT;
    fprintf(stderr, "root hash is ");
    for (size_t i = 0; i < root_length; i++)
        fprintf(stderr, "%02x", found[i]);
    fprintf(stderr, ".\n");
    return DIFFERENT;
}

int main(int count, char **words) {
    uint64_t hash_offset = 0;
    int end;

    if (count != 4 && count != 5)
        give_up("usage", "check_image DATA HASH ROOT [HASH_OFFSET]");
    if (count == 5) {
        char *last = words[4];
        hash_offset = strtoull(words[4], &last, 10);
        if (words[4][0] < '0' || words[4][0] > '9' || *last != 0)
            give_up("HASH_OFFSET", "not a number");
    }
    data_file = open_file(words[1]);
    hash_file = open_file(words[2]);
    read_root(words[3]);
    begin(hash_offset);
    end = feed_data();
    if (end == RIGHT)
        end = compare_root();
    free(memory);
    free(stored);
    close(data_file);
    close(hash_file);
    return end;
}
