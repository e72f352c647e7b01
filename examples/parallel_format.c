/*
 * parallel_format.c - makes a dm-verity image's hash tree, or checks one, by as many threads as it is told. The tree is
 * cut into parts; each thread takes the next part, reads its data and builds its hash blocks, and what stands above the
 * parts is joined from their digests.
 *
 * Build:
 *
 *     gcc -std=c11 -O2 -pthread -Iinclude -o parallel_format examples/parallel_format.c lib/libverity.a
 *
 * Run, with salt and root hash in hexadecimal ("-" for no salt):
 *
 *     ./parallel_format format THREADS DATA HASH SALT UUID
 *     ./parallel_format verify THREADS DATA HASH ROOT
 *
 * `format` makes a tree by SHA-256 over blocks of 4096 bytes, and prints its root hash. A new HASH is byte for byte
 * what `veritysetup format --salt=SALT --uuid=UUID DATA HASH` of cryptsetup makes, and its superblock is written last:
 * what was begun and not ended is no image. `verify` takes the parameters from the superblock, which the root hash
 * doesn't cover: compare them with trusted ones, by verity_same_params, if somebody else could have written it.
 *
 * Status 0 if all is done, or all is right. Status 1 if a hash block or the root hash is another: a line on standard
 * error names the first difference, the one that `veritysetup verify` names. Status 2 if it can't be done: the line
 * says why.
 */
#define _POSIX_C_SOURCE 200809L
#define _FILE_OFFSET_BITS 64

#include <errno.h>
#include <fcntl.h>
#include <inttypes.h>
#include <libgen.h>
#include <pthread.h>
#include <stdatomic.h>
#include <stdio.h>
#include <stdlib.h>
#include <string.h>
#include <sys/stat.h>
#include <unistd.h>

#include "verity.h"

#include "read_hex.h"

/* How the program ends. */
enum { RIGHT = 0, DIFFERENT = 1, NOT_DONE = 2 };

/* How many bytes are read at once, and at least how many parts there are for each thread, if the tree has so many. */
enum { PIECE = 1 << 20, PARTS_PER_THREAD = 16, MOST_THREADS = 1024 };

/* A hash block that differs, and after how many data blocks it closes. */
struct difference {
    uint64_t moment, index;
    size_t level;
    int is_there, is_missing;
};

static struct verity_params params;
static int data_file, hash_file, is_verifying;
static size_t level, digest_length; /* of the parts */
static uint64_t parts, part_blocks;
static uint8_t *digests;            /* of the parts, one after another */
static struct difference *firsts;   /* of each part, and of the join */
static atomic_uint_fast64_t next_part;

/* Ends the program. Of several threads that come here the first one does. */
static _Noreturn void give_up(const char *what, const char *why) {
    static pthread_mutex_t only_one = PTHREAD_MUTEX_INITIALIZER;

    pthread_mutex_lock(&only_one);
    fprintf(stderr, "%s: %s\n", what, why);
    exit(NOT_DONE);
}

/* The same if a call of the library has failed. */
static void check_status(const char *call, int ret) {
    char text[VERITY_MAX_TEXT_SIZE];
    size_t length;

    if (ret < 0)
        give_up(call, verity_status_text(ret, text, sizeof text, &length) < 0 ? "failed" : text);
}

static void *room_for(size_t length) {
    void *memory = malloc(length);
    if (memory == NULL)
        give_up("memory", strerror(ENOMEM));
    return memory;
}

/* Reads bytes of a file from a start on: how many there are, up to so many. */
static size_t read_file(int file, const char *what, uint64_t start, uint8_t *bytes, size_t length) {
    size_t count = 0;

    while (count < length) {
        ssize_t found = pread(file, bytes + count, length - count, (off_t)(start + count));
        if (found == -1 && errno == EINTR)
            continue;
        if (found == -1)
            give_up(what, strerror(errno));
        if (found == 0)
            break;
        count += (size_t)found;
    }
    return count;
}

static void write_hash(uint64_t start, const uint8_t *bytes, size_t length) {
    size_t count = 0;

    while (count < length) {
        ssize_t written = pwrite(hash_file, bytes + count, length - count, (off_t)(start + count));
        if (written == -1 && errno == EINTR)
            continue;
        if (written == -1)
            give_up("HASH", strerror(errno));
        count += (size_t)written;
    }
}

static void sync_hash(void) {
    if (fsync(hash_file) == -1)
        give_up("HASH", strerror(errno));
}

/* Sees to it that the name of a new HASH can't be lost. */
static void sync_folder(const char *name) {
    char *copy = strdup(name);
    int folder = copy == NULL ? -1 : open(dirname(copy), O_RDONLY | O_DIRECTORY | O_CLOEXEC);

    if (folder == -1 || fsync(folder) == -1 || close(folder) == -1)
        give_up(name, strerror(errno));
    free(copy);
}

/* Whether both are one file: what is written to HASH would change DATA. */
static int are_one_file(void) {
    struct stat data, hash;

    if (fstat(data_file, &data) == -1 || fstat(hash_file, &hash) == -1)
        give_up("files", strerror(errno));
    return data.st_dev == hash.st_dev && data.st_ino == hash.st_ino;
}

static int open_file(const char *name, int flags) {
    int file = open(name, flags | O_CLOEXEC, 0666);
    if (file == -1)
        give_up(name, strerror(errno));
    return file;
}

/* After how many data blocks a hash block closes: the last one below it, or the last of all. */
static uint64_t moment_of(const struct verity_fed *fed) {
    uint64_t count, blocks;

    check_status("verity_part_count", verity_part_count(&params, fed->block_level + 1, &count, &blocks));
    return fed->block_index + 1 == count ? params.data_blocks : (fed->block_index + 1) * blocks;
}

/* Writes a hash block that was handed out at its place, or compares it with what stands there; the first that differs
   is kept. */
static void handle(const struct verity_fed *fed, const uint8_t *memory, uint8_t *stored, struct difference *first) {
    size_t count;

    if (!is_verifying) {
        write_hash(fed->block_start, memory + fed->block_at, fed->block_length);
        return;
    }
    if (first->is_there)
        return;
    count = read_file(hash_file, "HASH", fed->block_start, stored, fed->block_length);
    if (count == fed->block_length && memcmp(stored, memory + fed->block_at, count) == 0)
        return;
    *first = (struct difference){.moment = moment_of(fed),
                                 .index = fed->block_index,
                                 .level = fed->block_level,
                                 .is_there = 1,
                                 .is_missing = count < fed->block_length};
}

/* Builds a part: its data is read from its first block on, and fed piece by piece. */
static void build_part(uint64_t number, uint8_t *memory, size_t memory_length, uint8_t *piece, uint8_t *stored) {
    const uint64_t size = part_blocks * params.data_block_size, from = number * size;
    const uint64_t all = params.data_blocks * params.data_block_size, end = all - from < size ? all : from + size;
    struct verity_part part;
    struct verity_fed fed;

    check_status("verity_part_begin", verity_part_begin(&params, level, number, &part, memory, memory_length));
    while (from + part.fed < end) {
        uint64_t left = end - from - part.fed, start = from + part.fed;
        size_t length = left < PIECE ? (size_t)left : PIECE, at = 0;

        if (read_file(data_file, "DATA", start, piece, length) < length)
            give_up("DATA", "ends too early");
        do {
            check_status("verity_part_feed", verity_part_feed(&params, &part, memory, memory_length, piece + at,
                                                              length - at, &fed));
            at += fed.taken;
            if (fed.block_length > 0)
                handle(&fed, memory, stored, &firsts[number]);
        } while (fed.block_length > 0);
    }
    check_status("verity_part_end", verity_part_end(&params, &part, memory, memory_length,
                                                    digests + number * digest_length, digest_length));
}

/* A thread: it builds one part after another, until none is left. */
static void *build_parts(void *unused) {
    size_t memory_length = 0;
    uint8_t *memory, *piece = room_for(PIECE), *stored = room_for(params.hash_block_size);
    uint64_t number;

    check_status("verity_part_memory", verity_part_memory(&params, level, &memory_length));
    memory = room_for(memory_length);
    while ((number = atomic_fetch_add(&next_part, 1)) < parts)
        build_part(number, memory, memory_length, piece, stored);
    free(memory);
    free(piece);
    free(stored);
    return unused;
}

/* The highest level that has parts enough for all threads; but a part has at least the blocks below one hash block, if
   there are so many. */
static void choose_level(size_t threads) {
    size_t levels = 0;

    check_status("verity_level_count", verity_level_count(&params, &levels));
    for (level = levels;; level--) {
        check_status("verity_part_count", verity_part_count(&params, level, &parts, &part_blocks));
        if (level <= 1 || parts >= threads * PARTS_PER_THREAD)
            return;
    }
}

/* Joins the parts: what stands above them is handled, and the root hash is written into root. */
static void join_parts(uint8_t *root) {
    struct verity_join join;
    struct verity_fed fed;
    size_t memory_length = 0, at = 0;
    uint8_t *memory, *stored = room_for(params.hash_block_size);

    check_status("verity_join_memory", verity_join_memory(&params, level, &memory_length));
    memory = room_for(memory_length);
    check_status("verity_join_begin", verity_join_begin(&params, level, &join, memory, memory_length));
    do {
        check_status("verity_join_feed", verity_join_feed(&params, &join, memory, memory_length, digests + at,
                                                          parts * digest_length - at, &fed));
        at += fed.taken;
        if (fed.block_length > 0)
            handle(&fed, memory, stored, &firsts[parts]);
    } while (fed.block_length > 0);
    check_status("verity_join_end",
                 verity_join_end(&params, &join, memory, memory_length, root, digest_length));
    free(memory);
    free(stored);
}

/* Builds all parts by threads, and joins them. */
static void build_tree(size_t threads, uint8_t *root) {
    pthread_t others[MOST_THREADS];

    check_status("verity_digest_length", verity_digest_length(params.hash_algorithm, &digest_length));
    choose_level(threads);
    if (threads > parts)
        threads = (size_t)parts;
    digests = room_for(parts * digest_length);
    firsts = calloc(parts + 1, sizeof *firsts);
    if (firsts == NULL)
        give_up("memory", strerror(ENOMEM));
    for (size_t i = 1; i < threads; i++) {
        int error = pthread_create(&others[i], NULL, build_parts, NULL);
        if (error != 0)
            give_up("threads", strerror(error));
    }
    build_parts(NULL);
    for (size_t i = 1; i < threads; i++)
        pthread_join(others[i], NULL);
    join_parts(root);
}

static void print_hex(FILE *file, const uint8_t *bytes, size_t length) {
    for (size_t i = 0; i < length; i++)
        fprintf(file, "%02x", bytes[i]);
}

static int format(size_t threads, const char *name, const char *salt, const char *uuid) {
    static const uint8_t zeros[4096];
    uint8_t root[VERITY_MAX_DIGEST_SIZE], superblock[512];
    off_t length = lseek(data_file, 0, SEEK_END);

    if (length == -1)
        give_up("DATA", strerror(errno));
    params = (struct verity_params){.hash_algorithm = VERITY_SHA256,
                                    .hash_type = 1,
                                    .data_block_size = 4096,
                                    .hash_block_size = 4096,
                                    .data_blocks = (uint64_t)length / 4096};
    params.salt_size =
        strcmp(salt, "-") == 0 ? 0 : (uint32_t)read_hex("SALT", salt, "", params.salt, sizeof params.salt);
    if (read_hex("UUID", uuid, "-", params.uuid, sizeof params.uuid) != sizeof params.uuid)
        give_up("UUID", "not 16 bytes");
    check_status("verity_write_superblock", verity_write_superblock(&params, superblock, sizeof superblock));
    hash_file = open_file(name, O_WRONLY | O_CREAT);
    if (are_one_file())
        give_up("HASH", "is the file DATA");
    /* An older superblock would stand for a tree that is going; and Linux wants the whole block, even if no tree
       follows. */
    write_hash(0, zeros, sizeof zeros);
    sync_hash();
    sync_folder(name);
    build_tree(threads, root);
    sync_hash();
    write_hash(0, superblock, sizeof superblock);
    sync_hash();
    print_hex(stdout, root, digest_length);
    putchar('\n');
    return RIGHT;
}

/* Of two differences, whether the first one is named: it closes before the other, or with the same data block and on a
   lower level. */
static int is_before(const struct difference *one, const struct difference *other) {
    if (!other->is_there)
        return one->is_there;
    if (!one->is_there)
        return 0;
    return one->moment < other->moment || (one->moment == other->moment && one->level < other->level);
}

static int verify(size_t threads, const char *name, const char *text) {
    uint8_t root[VERITY_MAX_DIGEST_SIZE], trusted[VERITY_MAX_DIGEST_SIZE], superblock[512];
    size_t length = read_hex("ROOT", text, "", trusted, sizeof trusted);
    struct difference first = {0};

    hash_file = open_file(name, O_RDONLY);
    if (read_file(hash_file, "HASH", 0, superblock, sizeof superblock) < sizeof superblock)
        give_up("HASH", "too short for a superblock");
    check_status("verity_read_superblock", verity_read_superblock(superblock, sizeof superblock, 0, &params));
    check_status("verity_digest_length", verity_digest_length(params.hash_algorithm, &digest_length));
    if (length != digest_length)
        give_up("ROOT", "not as long as a digest");
    is_verifying = 1;
    build_tree(threads, root);
    for (uint64_t i = 0; i <= parts; i++)
        if (is_before(&firsts[i], &first))
            first = firsts[i];
    if (first.is_there) {
        fprintf(stderr, "level %zu block %" PRIu64 " %s.\n", first.level, first.index,
                first.is_missing ? "is missing" : "differs");
        return DIFFERENT;
    }
    if (memcmp(root, trusted, length) != 0) {
        fprintf(stderr, "root hash is ");
        print_hex(stderr, root, length);
        fprintf(stderr, ".\n");
        return DIFFERENT;
    }
    return RIGHT;
}

int main(int count, char **words) {
    size_t threads;
    int end;

    if (!(count == 7 && strcmp(words[1], "format") == 0) && !(count == 6 && strcmp(words[1], "verify") == 0))
        give_up("usage", "parallel_format format THREADS DATA HASH SALT UUID, or verify THREADS DATA HASH ROOT");
    threads = strtoul(words[2], NULL, 10);
    if (threads < 1 || threads > MOST_THREADS)
        give_up("THREADS", "not 1 to 1024");
    data_file = open_file(words[3], O_RDONLY);
    end = count == 7 ? format(threads, words[4], words[5], words[6]) : verify(threads, words[4], words[5]);
    free(digests);
    free(firsts);
    if (close(data_file) == -1 || close(hash_file) == -1 || fflush(stdout) == EOF)
        give_up("files", strerror(errno));
    return end;
}
