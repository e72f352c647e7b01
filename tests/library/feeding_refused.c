/*
 * What the functions that build trees refuse while they build, beside what refused.c calls; when a hash block is handed
 * out; that feeding goes on after what was refused, and after an end, which is asked for after every byte; and lengths
 * of the memory that stand in the documents.
 *
 *   feeding_refused DATA TREES
 *
 * TREES is tree_files.py's file for this, of the bytes of the file DATA. What doesn't hold is printed in lines that
 * begin with FAILED; the last line is 'N passed, M failed'.
 */
#include <inttypes.h>
#include <stdio.h>
#include <string.h>

#include "calls.h"
#include "feeding_calls.h"
#include "images.h"
#include "shapes.h"
#include "support.h"

/* The bytes that are fed, and their trees: of 17 data blocks, and of files of blocks of 64, 128 and 512 bytes. */
static const uint8_t *some;
static struct image tree_of_17, files[3];

static uint8_t memory[1 << 20];
static uint8_t root[VERITY_MAX_DIGEST_SIZE + 1], digest[VERITY_MAX_DIGEST_SIZE + 1];

/* Right parameters: 300 data blocks of 512 bytes, three levels of 16 digests each. */
static struct building right(bool is_file)
{
    struct building building = {
        .tree = {.is_file = is_file,
                 .device = {.hash_algorithm = VERITY_SHA256, .hash_type = 1, .data_block_size = 512,
                            .hash_block_size = 512, .data_blocks = 300, .salt_size = 1},
                 .file = {.hash_algorithm = VERITY_SHA256, .block_size = 512, .size = 7, .salt_size = 1}},
        .memory = memory};

    if (call_build_memory(&building.tree, &building.memory_length) != VERITY_OK)
        give_up("the right parameters are refused");
    return building;
}

/* All numbers of an answer are 0. */
static bool is_no_block(const struct verity_fed *fed)
{
    return fed->taken == 0 && fed->block_length == 0 && fed->block_at == 0 && fed->block_start == 0 &&
           fed->block_index == 0 && fed->block_level == 0;
}

/* Feeds the next bytes and takes what is handed out, but at most so many hash blocks: how many. */
static uint64_t fed_on(struct building *building, size_t length, uint64_t most)
{
    struct verity_fed fed = {0};
    uint64_t blocks = 0;

    while (blocks < most) {
        check(call_build_feed(building, bytes_of(some + building->build.fed, length), &fed) == VERITY_OK,
              "%zu bytes are fed", length);
        if (fed.block_length == 0)
            break;
        length -= fed.taken;
        blocks++;
    }
    return blocks;
}

/* What a struct says is refused by all functions that look at it. */
static void all_refuse(struct building *building, size_t length, int expected, const char *what)
{
    struct verity_fed fed;

    check(call_build_feed(building, bytes_of(some, length), &fed) == expected, "%s: feeding", what);
    check(call_build_last_block(building, &fed) == expected, "%s: the last block", what);
    check(call_build_end(building, root, 32, digest, 0) == expected, "%s: the end", what);
}

/* Too many bytes, too few, and a hash block that waits; the answer is right after each refusal. */
static void faults_of_devices_that_are_fed(void)
{
    struct building building = right(false);
    struct verity_build *build = &building.build, kept;
    struct verity_fed fed;
    uint8_t again[VERITY_MAX_DIGEST_SIZE];

    check(call_build_begin(&building) == VERITY_OK, "the beginning");
    check(call_build_feed(&building, bytes_of(some, 300 * 512 + 1), &fed) == VERITY_TOO_LONG, "too much at once");
    check(call_build_end(&building, root, 32, digest, 0) == VERITY_TOO_SHORT, "no bytes");
    /* The 19 hash blocks of level 0 and the 2 and 1 above them; 18 + 1 of them close before the last byte. */
    check(fed_on(&building, 300 * 512 - 1, UINT64_MAX) == 19, "19 hash blocks before the last byte");
    check(call_build_feed(&building, bytes_of(some, 2), &fed) == VERITY_TOO_LONG, "a byte too much");
    check(call_build_end(&building, root, 32, digest, 0) == VERITY_TOO_SHORT, "a byte too few");
    kept = *build;
    build->fed = UINT64_MAX;
    all_refuse(&building, 0, VERITY_TOO_LONG, "far too many bytes, and none more");
    all_refuse(&building, 2, VERITY_TOO_LONG, "more than 2^64 bytes");
    build->fed = 300 * 512 + 1;
    all_refuse(&building, 0, VERITY_TOO_LONG, "a byte too much, and none more");
    build->closed = 4;
    all_refuse(&building, 10, VERITY_NO_SUCH_LEVEL, "4 levels, then the bytes");
    build->closed = SIZE_MAX;
    build->fed = 0;
    all_refuse(&building, 0, VERITY_NO_SUCH_LEVEL, "any number of levels");
    build->closed = 3;
    check(call_build_last_block(&building, &fed) == VERITY_OK && is_no_block(&fed), "3 levels are closed of no bytes");
    *build = kept;
    check(fed_on(&building, 1, 1) == 1 && build->closed == 1 && build->fed == 300 * 512, "the last byte");
    check(call_build_end(&building, root, 32, digest, 0) == VERITY_WAITING, "two hash blocks wait");
    check(call_build_feed(&building, bytes_of(some, 1), &fed) == VERITY_TOO_LONG, "a byte more while they wait");
    check(fed_on(&building, 0, 1) == 1 && build->closed == 2, "the next hash block");
    check(call_build_end(&building, root, 32, digest, 0) == VERITY_WAITING, "one hash block waits");
    check(fed_on(&building, 0, 1) == 1 && build->closed == 3, "the top block");
    check(fed_on(&building, 0, 1) == 0, "no more hash block");
    check(call_build_end(&building, root, 32, digest, 0) == VERITY_OK, "the end");
    /* The same without a refusal. */
    check(call_build_begin(&building) == VERITY_OK, "another beginning");
    check(fed_on(&building, 300 * 512, UINT64_MAX) == 22, "all at once");
    check(call_build_end(&building, again, 32, digest, 0) == VERITY_OK && memcmp(again, root, 32) == 0, "one root");
}

/* A file's size that stands for too many bytes, or would. */
static void faults_of_files_that_are_fed(void)
{
    static const uint64_t sizes[] = {LARGEST - 510, LARGEST, LARGEST + 1, UINT64_MAX - 9, UINT64_MAX};
    struct building building = right(true);
    struct verity_fed fed;
    size_t i;

    check(call_build_begin(&building) == VERITY_OK, "the beginning");
    for (i = 0; i < sizeof sizes / sizeof *sizes; i++) {
        building.tree.file.size = sizes[i];
        check(call_build_feed(&building, bytes_of(some, 0), &fed) == VERITY_TOO_LARGE, "size %" PRIu64, sizes[i]);
        check(call_build_feed(&building, bytes_of(some, 10), &fed) == VERITY_TOO_LARGE, "size %" PRIu64, sizes[i]);
        check(call_build_end(&building, root, 32, digest, 32) == VERITY_TOO_LARGE, "the end, size %" PRIu64, sizes[i]);
    }
    building.tree.file.size = LARGEST - 511;
    check(call_build_feed(&building, bytes_of(some, 1), &fed) == VERITY_TOO_LARGE, "a byte too much");
    check(call_build_feed(&building, bytes_of(some, 0), &fed) == VERITY_OK, "the largest size");
    check(call_build_end(&building, root, 32, digest, 32) == VERITY_OK, "the end of the largest size");
    building.tree.file.size = LARGEST - 521;
    check(call_build_feed(&building, bytes_of(some, 10), &fed) == VERITY_OK &&
                  building.tree.file.size == LARGEST - 511, "up to the largest size");
}

/*
 * Feeds so many bytes from here on, of which this many are taken, and this hash block is handed out, or none. It is the
 * last one then, until a byte is taken.
 */
static void hands_out(struct building *building, size_t length, size_t taken, size_t block_length, size_t level,
                      uint64_t index, const uint8_t *block)
{
    uint64_t at = building->build.fed;
    struct verity_fed fed = {0}, before = {0}, after = {0};
    bool has_last = call_build_last_block(building, &before) == VERITY_OK;
    int status = call_build_feed(building, bytes_of(some + at, length), &fed);

    check(status == VERITY_OK && fed.taken == taken && fed.block_length == block_length && fed.block_level == level &&
                  fed.block_index == index && building->build.fed == at + taken,
          "%zu bytes after %" PRIu64 ": %zu are taken, and block %" PRIu64 " of level %zu has %zu bytes", length, at,
          fed.taken, fed.block_index, fed.block_level, fed.block_length);
    if (block_length == 0)
        check(fed.block_at == 0 && fed.block_start == 0, "no block, at %zu", fed.block_at);
    else
        check(fed.block_at == level * 512 && memcmp(memory + fed.block_at, block, 512) == 0, "the block's bytes");
    has_last = has_last && call_build_last_block(building, &after) == VERITY_OK;
    fed.taken = 0;
    check(has_last && memcmp(&after, block_length == 0 && taken == 0 ? &before : &fed, sizeof fed) == 0,
          "the last hash block after %" PRIu64 " bytes", building->build.fed);
}

/*
 * 17 data blocks, and hash blocks of 16 digests. One that is full waits for the next byte, which is not taken by the
 * call that hands it out.
 */
static void times_of_hash_blocks(void)
{
    struct building building = right(false);
    /* The top block stands first, and then the two of level 0. */
    const uint8_t *blocks = tree_of_17.hashes, *expected = tree_of_17.root;

    building.tree = tree_of_17.tree;
    check(call_build_memory(&building.tree, &building.memory_length) == VERITY_OK && building.memory_length == 10 * 512,
          "memory of %zu bytes", building.memory_length);
    check(call_build_begin(&building) == VERITY_OK, "the beginning");
    hands_out(&building, 0, 0, 0, 0, 0, NULL);
    hands_out(&building, 16 * 512, 16 * 512, 0, 0, 0, NULL);
    hands_out(&building, 0, 0, 0, 0, 0, NULL);
    check(call_build_end(&building, root, 32, digest, 0) == VERITY_TOO_SHORT, "16 data blocks of 17");
    hands_out(&building, 1, 0, 512, 0, 0, blocks + 512);
    hands_out(&building, 0, 0, 0, 0, 0, NULL);
    hands_out(&building, 1, 1, 0, 0, 0, NULL);
    hands_out(&building, 510, 510, 0, 0, 0, NULL);
    check(call_build_end(&building, root, 32, digest, 0) == VERITY_TOO_SHORT, "all but the last byte");
    /* With the last byte of the data all that are left close. */
    hands_out(&building, 1, 1, 512, 0, 1, blocks + 1024);
    check(call_build_end(&building, root, 32, digest, 0) == VERITY_WAITING, "the top block waits");
    hands_out(&building, 0, 0, 512, 1, 0, blocks);
    hands_out(&building, 0, 0, 0, 0, 0, NULL);
    check(call_build_end(&building, root, 32, digest, 0) == VERITY_OK && memcmp(root, expected, 32) == 0, "the end");
    /* All at once: what is taken ends where a hash block closes. */
    check(call_build_begin(&building) == VERITY_OK, "another beginning");
    hands_out(&building, 17 * 512, 16 * 512, 512, 0, 0, blocks + 512);
    hands_out(&building, 512, 512, 512, 0, 1, blocks + 1024);
    hands_out(&building, 0, 0, 512, 1, 0, blocks);
    hands_out(&building, 0, 0, 0, 0, 0, NULL);
    check(call_build_end(&building, root, 32, digest, 0) == VERITY_OK && memcmp(root, expected, 32) == 0, "once more");
}

/* The end of what was fed of a file so far. */
static void ends_so_far(struct building *building, const struct image *image)
{
    const struct end *expected = end_at(image, building->tree.file.size);
    size_t size = digest_size_of(image->tree.file.hash_algorithm);

    check(expected != NULL && call_build_end(building, root, size, digest, size) == VERITY_OK &&
                  memcmp(root, expected->root, size) == 0 && memcmp(digest, expected->digest, size) == 0,
          "the digest of %" PRIu64 " bytes", building->tree.file.size);
}

/* The end of a file after each of its bytes, up to 9 blocks, and each time feeding goes on. */
static void ends_of_files(const struct image *image)
{
    struct building building = right(true);
    struct fsverity_params *params = &building.tree.file;
    struct verity_fed fed;
    uint64_t at;

    building.tree = image->tree;
    check(call_build_memory(&building.tree, &building.memory_length) == VERITY_OK, "the length of the memory");
    check(call_build_begin(&building) == VERITY_OK, "the beginning");
    ends_so_far(&building, image);
    for (at = 0; at < image->size; at++) {
        check(feed_once(&building, bytes_of(some + at, 1), &fed) == VERITY_OK && params->size == at + 1,
              "byte %" PRIu64, at);
        ends_so_far(&building, image);
    }
}

/*
 * The end of a tree after each of its bytes, and after each hash block that is handed out: it is refused up to the last
 * one, and the root hash is right all the same. Then it can be asked for again and again, also after what is refused.
 */
static void ends_of_trees(void)
{
    struct building building = right(false);
    const struct verity_build *build = &building.build;
    struct verity_fed fed = {0};
    const uint8_t *expected = tree_of_17.root;
    uint64_t size = 17 * 512;
    int status = VERITY_TOO_SHORT, waited = 0, times;

    building.tree = tree_of_17.tree;
    check(call_build_memory(&building.tree, &building.memory_length) == VERITY_OK, "the length of the memory");
    check(call_build_begin(&building) == VERITY_OK, "the beginning");
    check(call_build_end(&building, root, 32, digest, 0) == VERITY_TOO_SHORT, "the end of no bytes");
    /* One call for each byte, one for the hash block that closes before byte 8192, and one for the top block. */
    for (times = 0; times < 17 * 512 + 2; times++) {
        check(feed_once(&building, bytes_of(some + build->fed, build->fed < size), &fed) == VERITY_OK, "call %d",
              times);
        status = call_build_end(&building, root, 32, digest, 0);
        waited += status == VERITY_WAITING;
        check(status == (build->fed < size ? VERITY_TOO_SHORT : build->closed < 2 ? VERITY_WAITING : VERITY_OK),
              "the end after %" PRIu64 " bytes: status %d", build->fed, status);
    }
    check(status == VERITY_OK && waited == 1, "the end of all: status %d, waiting %d times", status, waited);
    for (times = 0; times < 3; times++) {
        check(call_build_end(&building, root, 32, digest, 0) == VERITY_OK && memcmp(root, expected, 32) == 0,
              "the end, once more");
        check(call_build_feed(&building, bytes_of(some, 1), &fed) == VERITY_TOO_LONG, "a byte after the end");
        check(call_build_feed(&building, bytes_of(some, 0), &fed) == VERITY_OK && is_no_block(&fed), "none after it");
    }
}

/*
 * A file goes on after pieces, and an end, that were refused, and after an end that wasn't, and has the digest of what
 * was fed at any time.
 */
static void files_go_on(void)
{
    struct building building = right(true);
    struct fsverity_params *params = &building.tree.file;
    size_t length = building.memory_length, size = (size_t)files[2].size, at, piece;
    struct verity_fed fed;

    building.tree = files[2].tree;
    check(call_build_begin(&building) == VERITY_OK, "the beginning");
    for (at = 0; at < size; at += piece) {
        piece = size - at < 700 ? size - at : 700;
        building.memory_length = length - 1;
        check(call_build_feed(&building, bytes_of(some + at, piece), &fed) == VERITY_BAD_LENGTH, "too small memory");
        building.memory_length = length;
        params->salt_size = 33;
        check(call_build_feed(&building, bytes_of(some + at, piece), &fed) == VERITY_BAD_SALT_SIZE, "a long salt");
        params->salt_size = 1;
        check(call_build_end(&building, root, 31, digest, 32) == VERITY_BAD_ROOT_LENGTH, "a root hash of 31 bytes");
        check(call_build_feed(&building, bytes_of(some + at, piece), &fed) == VERITY_OK && params->size == at + piece,
              "%zu bytes after %zu", piece, at);
        ends_so_far(&building, &files[2]);
    }
}

/* Lengths of the memory that stand in the documents, and limits. */
static void lengths(void)
{
    static const struct {
        uint32_t algorithm, block_size;
        size_t length;
    } rows[] = {{VERITY_SHA256, 4096, 65536}, {VERITY_SHA512, 4096, 69632}, {VERITY_SHA256, 64, 59 * 64},
                {VERITY_SHA512, 128, 58 * 128}, {VERITY_SHA512, 524288, 2621440}};
    struct tree tree = {.is_file = true};
    size_t i, length;

    for (i = 0; i < sizeof rows / sizeof *rows; i++) {
        tree.file = (struct fsverity_params){.hash_algorithm = rows[i].algorithm, .block_size = rows[i].block_size,
                                             .size = UINT64_MAX};
        length = 0;
        check(call_build_memory(&tree, &length) == VERITY_OK && length == rows[i].length, "row %zu: %zu", i, length);
        check(memory_length_of(&tree) == rows[i].length, "row %zu, computed: %zu", i, memory_length_of(&tree));
    }
}

int main(int count, char **words)
{
    struct images images;
    int status;

    if (count != 3)
        give_up("usage: feeding_refused DATA TREES");
    seed_random(1);
    images = open_images(words[2], words[1]);
    if (images.data.length < 1 << 20 || !next_image(&images, &tree_of_17) || !next_image(&images, &files[0]) ||
        !next_image(&images, &files[1]) || !next_image(&images, &files[2]))
        give_up("there are too few data or trees");
    some = images.data.at;
    faults_of_devices_that_are_fed();
    faults_of_files_that_are_fed();
    times_of_hash_blocks();
    files_go_on();
    ends_of_files(&files[0]);
    ends_of_files(&files[1]);
    ends_of_trees();
    lengths();
    for (status = VERITY_TOO_LONG; status >= VERITY_WAITING; status--)
        check(status_seen[-status], "status %d wasn't answered", status);
    return finish();
}
