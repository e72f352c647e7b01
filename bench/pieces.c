/*
 * pieces.c - measures what the length of the pieces that the library is fed with costs, and what a short file costs.
 *
 *     pieces ROUNDS FILE
 *
 * Nothing is read while time is taken: the whole blocks of FILE stand in memory. The first table is of their fs-verity
 * digest in blocks of 4096 bytes, for pieces of several lengths, and of their tree of dm-verity, whose hash blocks are
 * taken and written nowhere. In pieces of one byte only the first 64th of them is fed. If this was built with
 * HAS_LIBFSVERITY, libfsverity has the same bytes, which a callback copies for it. The second table is of
 * fsverity_build_begin alone, and of the whole digest of a file of 1000 bytes, in memory that was used before: the mean
 * over many.
 *
 * What counts is the processor's time, in the program and in the system for it, and the least of all rounds. In each
 * round all is measured one after another, and in every other round backwards. All digests of the same bytes by one
 * hash function have to be the same; a tree of dm-verity without salt has the root hash of the file's tree.
 */
#define _POSIX_C_SOURCE 200809L
#include <stdio.h>
#include <stdlib.h>
#include <string.h>
#include <time.h>

#include "libraries.h"
#ifdef HAS_LIBFSVERITY
#include <libfsverity.h>
#endif

enum { BLOCK_SIZE = 4096, SHORT_LENGTH = 1000, REPEATS = 5000, HASHES = 2, MOST_WAYS = 40 };

static const size_t piece_lengths[] = {1, 64, 512, 4096, 8192, 32767, 1 << 16, 1 << 20};
enum { PIECES = sizeof piece_lengths / sizeof *piece_lengths };

/* The first bytes of the data, and their digests by SHA-256 and by SHA-512. */
struct part {
    size_t length;
    uint8_t digests[HASHES][VERITY_MAX_DIGEST_SIZE];
};

struct way {
    const char *name;
    void (*find)(const struct way *way, uint8_t *digest);
    const struct part *part; /* none if no digest is found */
    uint32_t hash_algorithm;
    size_t piece_length;
    int repeats;
    double least[LIBRARIES]; /* seconds each */
};

static uint8_t *data, *memory;
static size_t memory_lengths[HASHES];
static struct way ways[MOST_WAYS];
static int ways_count;

_Noreturn static void give_up(const char *what)
{
    fprintf(stderr, "pieces: %s\n", what);
    exit(1);
}

static double now(void)
{
    struct timespec used;

    if (clock_gettime(CLOCK_PROCESS_CPUTIME_ID, &used) != 0)
        give_up("no clock of the processor's time");
    return (double)used.tv_sec + (double)used.tv_nsec / 1e9;
}

static size_t digest_size_of(uint32_t hash_algorithm)
{
    return hash_algorithm == VERITY_SHA256 ? 32 : 64;
}

static struct fsverity_params begin(const struct way *way)
{
    struct fsverity_params params = {.hash_algorithm = way->hash_algorithm, .block_size = BLOCK_SIZE};

    if (OF_LIBRARY(fsverity_build_begin)(&params, memory, memory_lengths[way->hash_algorithm - 1]) != VERITY_OK)
        give_up("fsverity_build_begin");
    return params;
}

static void begun(const struct way *way, uint8_t *digest)
{
    (void)digest;
    begin(way);
}

/* The length of the piece that begins at a byte. */
static size_t length_at(const struct way *way, size_t at)
{
    size_t left = way->part->length - at;

    return left < way->piece_length ? left : way->piece_length;
}

static void fed(const struct way *way, uint8_t *digest)
{
    struct fsverity_params params = begin(way);
    size_t memory_length = memory_lengths[way->hash_algorithm - 1], digest_size = digest_size_of(way->hash_algorithm);
    size_t at, length;
    uint8_t root[VERITY_MAX_DIGEST_SIZE];

    for (at = 0; at < way->part->length; at += length) {
        length = length_at(way, at);
        if (OF_LIBRARY(fsverity_build_feed)(&params, memory, memory_length, data + at, length) != VERITY_OK)
            give_up("fsverity_build_feed");
    }
    if (OF_LIBRARY(fsverity_build_end)(&params, memory, memory_length, root, digest_size, digest, digest_size) !=
        VERITY_OK)
        give_up("fsverity_build_end");
}

/* Builds the tree of dm-verity, and makes the file's digest of its root hash. */
static void tree_fed(const struct way *way, uint8_t *digest)
{
    struct verity_params params = {.hash_algorithm = way->hash_algorithm,
                                   .hash_type = 1,
                                   .data_block_size = BLOCK_SIZE,
                                   .hash_block_size = BLOCK_SIZE,
                                   .data_blocks = way->part->length / BLOCK_SIZE};
    struct fsverity_params file = {
        .hash_algorithm = way->hash_algorithm, .block_size = BLOCK_SIZE, .size = way->part->length};
    size_t digest_size = digest_size_of(way->hash_algorithm), memory_length, at, length;
    struct verity_build build;
    struct verity_fed fed;
    uint8_t root[VERITY_MAX_DIGEST_SIZE];

    if (OF_LIBRARY(verity_build_memory)(&params, &memory_length) != VERITY_OK ||
        memory_length > memory_lengths[way->hash_algorithm - 1] ||
        OF_LIBRARY(verity_build_begin)(&params, &build, memory, memory_length) != VERITY_OK)
        give_up("verity_build_begin");
    for (at = 0; at < way->part->length;) {
        length = length_at(way, at);
        do {
            if (OF_LIBRARY(verity_build_feed)(&params, &build, memory, memory_length, data + at, length, &fed) !=
                VERITY_OK)
                give_up("verity_build_feed");
            at += fed.taken;
            length -= fed.taken;
        } while (fed.block_length > 0);
    }
    if (OF_LIBRARY(verity_build_end)(&params, &build, memory, memory_length, root, digest_size) != VERITY_OK ||
        OF_LIBRARY(fsverity_file_digest)(&file, root, digest_size, digest, digest_size) != VERITY_OK)
        give_up("verity_build_end");
}

#ifdef HAS_LIBFSVERITY
enum { HAS_OTHER = 1 };

static int copied(void *place, void *bytes, size_t count)
{
    const uint8_t **next = place;

    memcpy(bytes, *next, count);
    *next += count;
    return 0;
}

static void found_by_other(const struct way *way, uint8_t *digest)
{
    struct libfsverity_merkle_tree_params params = {.version = 1,
                                                    .hash_algorithm = way->hash_algorithm,
                                                    .block_size = BLOCK_SIZE,
                                                    .file_size = way->part->length};
    struct libfsverity_digest *found;
    const uint8_t *next = data;

    if (libfsverity_compute_digest(&next, copied, &params, &found) != 0)
        give_up("libfsverity_compute_digest");
    memcpy(digest, found->digest, digest_size_of(way->hash_algorithm));
    free(found);
}
#else
enum { HAS_OTHER = 0 };

/* Never called without libfsverity. */
static void found_by_other(const struct way *way, uint8_t *digest)
{
    (void)way;
    (void)digest;
}
#endif

/* What every way has to find: the digests by libfsverity, or without it by the library that is fed all at once. */
static void know_digests(struct part *part)
{
    struct way way = {.part = part, .piece_length = part->length};

    for (way.hash_algorithm = VERITY_SHA256; way.hash_algorithm <= VERITY_SHA512; way.hash_algorithm++)
        (HAS_OTHER ? found_by_other : fed)(&way, part->digests[way.hash_algorithm - 1]);
}

static void measure(struct way *way)
{
    uint8_t digest[VERITY_MAX_DIGEST_SIZE];
    double seconds = now();
    int i;

    for (i = 0; i < way->repeats; i++)
        way->find(way, digest);
    seconds = (now() - seconds) / way->repeats;
    if (way->part != NULL &&
        memcmp(digest, way->part->digests[way->hash_algorithm - 1], digest_size_of(way->hash_algorithm)) != 0) {
        fprintf(stderr, "pieces: %s: the digest by hash function %u is another one\n", way->name,
                (unsigned)way->hash_algorithm);
        exit(1);
    }
    if (way->least[library] == 0 || seconds < way->least[library])
        way->least[library] = seconds;
}

/* Adds a way for each hash function, one beside the other. */
static void add_both(const char *name, void (*find)(const struct way *way, uint8_t *digest), const struct part *part,
                     size_t piece_length)
{
    uint32_t hash;

    for (hash = VERITY_SHA256; hash <= VERITY_SHA512; hash++)
        ways[ways_count++] = (struct way){.name = name,
                                          .find = find,
                                          .part = part,
                                          .hash_algorithm = hash,
                                          .piece_length = piece_length,
                                          .repeats = 1};
}

static void add_ways(const struct part *whole, const struct part *some)
{
    static char names[2 * PIECES][48];
    size_t length;
    int i;

    for (i = 0; i < 2 * PIECES; i++) {
        length = piece_lengths[i % PIECES];
        snprintf(names[i], sizeof names[i], i < PIECES ? "%zu" : "%zu, `verity_build_feed`", length);
        add_both(names[i], i < PIECES ? fed : tree_fed, length == 1 ? some : whole, length);
    }
    if (HAS_OTHER)
        add_both("libfsverity", found_by_other, whole, 0);
}

static void add_short_ways(const struct part *part)
{
    struct way way = {.hash_algorithm = VERITY_SHA256, .piece_length = part->length, .repeats = REPEATS};

    way.name = "`fsverity_build_begin` alone";
    way.find = begun;
    ways[ways_count++] = way;
    way.name = "a file of 1000 bytes";
    way.find = fed;
    way.part = part;
    ways[ways_count++] = way;
    way.name = "a file of 1000 bytes, libfsverity";
    way.find = found_by_other;
    if (HAS_OTHER)
        ways[ways_count++] = way;
}

static double speed_of(const struct way *way)
{
    return (double)way->part->length / way->least[library] / (1 << 20);
}

/* Pieces of a file, then those of a tree of dm-verity, and libfsverity if it is there. The last pieces have 1 MiB. */
static void print_pieces(int count)
{
    const struct way *pieces, *other = &ways[HASHES * 2 * PIECES];
    int i, hash;

    printf("| Bytes a piece | SHA-256, MiB per second | times 1 MiB's | times libfsverity's |" BESIDE_HEAD
           " SHA-512 | times 1 MiB's | times libfsverity's |" BESIDE_HEAD
           "\n|---|--:|--:|--:|" BESIDE_RULE "--:|--:|--:|" BESIDE_RULE "\n");
    for (i = 0; i < count; i += HASHES) {
        pieces = &ways[HASHES * ((i / HASHES / PIECES == 1 ? 2 : 1) * PIECES - 1)];
        printf("| %s |", ways[i].name);
        for (hash = 0; hash < HASHES; hash++) {
            printf(" %.0f | %.2f |", speed_of(&ways[i + hash]), speed_of(&ways[i + hash]) / speed_of(&pieces[hash]));
            if (HAS_OTHER)
                printf(" %.2f |", speed_of(&ways[i + hash]) / speed_of(&other[hash]));
            else
                printf(" - |");
            print_beside(ways[i + hash].least);
        }
        printf("\n");
    }
}

static void print_short(int first)
{
    printf("\n| SHA-256, blocks of 4096 | microseconds |" BESIDE_HEAD "\n|---|--:|" BESIDE_RULE "\n");
    for (; first < ways_count; first++) {
        printf("| %s | %.2f |", ways[first].name, ways[first].least[library] * 1e6);
        print_beside(ways[first].least);
        printf("\n");
    }
}

static void take_memory(void)
{
    struct fsverity_params params = {.hash_algorithm = VERITY_SHA256, .block_size = BLOCK_SIZE};
    size_t most = 0, *length = memory_lengths;

    for (; params.hash_algorithm <= VERITY_SHA512; params.hash_algorithm++, length++) {
        if (fsverity_build_memory(&params, length) != VERITY_OK)
            give_up("fsverity_build_memory");
        if (*length > most)
            most = *length;
    }
    memory = calloc(1, most);
    if (memory == NULL)
        give_up("no memory");
}

/* Takes all bytes of a file, and answers how many they are. */
static size_t take_data(const char *name)
{
    FILE *file = fopen(name, "rb");
    long end;

    if (file == NULL || fseek(file, 0, SEEK_END) != 0 || (end = ftell(file)) < 0 || fseek(file, 0, SEEK_SET) != 0)
        give_up("the file can't be opened");
    data = malloc((size_t)end + 1);
    if (data == NULL || fread(data, 1, (size_t)end, file) != (size_t)end)
        give_up("the file can't be read");
    fclose(file);
    return (size_t)end;
}

int main(int count, char **words)
{
    static struct part whole, some, file = {.length = SHORT_LENGTH};
    int rounds = count == 3 ? atoi(words[1]) : 0, large_count, round, i;

    if (rounds < 1) {
        fprintf(stderr, "usage: pieces ROUNDS FILE\n");
        return 2;
    }
    take_memory();
    whole.length = take_data(words[2]) / BLOCK_SIZE * BLOCK_SIZE;
    some.length = whole.length / BLOCK_SIZE / 64 * BLOCK_SIZE;
    if (some.length < SHORT_LENGTH)
        give_up("the file is too short");
    know_digests(&whole);
    know_digests(&some);
    know_digests(&file);
    add_ways(&whole, &some);
    large_count = ways_count;
    add_short_ways(&file);
    for (round = 0; round < rounds; round++)
        for (i = 0; i < LIBRARIES * ways_count; i++)
            measure(&ways[way_at(i, round, ways_count)]);
    for (library = 0; library < LIBRARIES; library++) {
        print_library();
        print_pieces(large_count);
        print_short(large_count);
    }
    return 0;
}
