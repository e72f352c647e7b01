/*
 * feeding.c - measures how long the fs-verity digest of a file takes, with SHA-256 and blocks of 4096 bytes.
 *
 *     feeding ROUNDS FILE PROGRAM...
 *
 * There are several ways, which are gone one after another in each round, and every other round backwards: the library
 * fed with pieces of 64 KiB and of 1 MiB, as they are read; `PROGRAM digest FILE` of each program; and, if this was
 * built with HAS_LIBFSVERITY, libfsverity, which has the same file read by a callback. What counts is the processor's
 * time, in the program and in the system for it, and the least of all rounds. All digests have to be the same.
 */
#define _GNU_SOURCE
#include <errno.h>
#include <fcntl.h>
#include <stdio.h>
#include <stdlib.h>
#include <string.h>
#include <sys/resource.h>
#include <sys/stat.h>
#include <sys/wait.h>
#include <unistd.h>

#include "libraries.h"
#ifdef HAS_LIBFSVERITY
#include <libfsverity.h>
#endif

enum { DIGEST_SIZE = 32, MOST_WAYS = 8 };

struct way {
    char name[80];
    double (*seconds)(const struct way *way, char *digits);
    size_t piece_length;
    const char *program;
    double least[LIBRARIES];
};

static const char *file_name;
static char expected[2 * DIGEST_SIZE + 1];

_Noreturn static void give_up(const char *what)
{
    perror(what);
    exit(1);
}

static double seconds_of(const struct rusage *used)
{
    return (double)(used->ru_utime.tv_sec + used->ru_stime.tv_sec) +
           (double)(used->ru_utime.tv_usec + used->ru_stime.tv_usec) / 1e6;
}

static double now(void)
{
    struct rusage used;

    getrusage(RUSAGE_SELF, &used);
    return seconds_of(&used);
}

static int opened(void)
{
    int file = open(file_name, O_RDONLY);

    if (file < 0)
        give_up(file_name);
    return file;
}

static void set_digits(const uint8_t *digest, char *digits)
{
    size_t i;

    for (i = 0; i < DIGEST_SIZE; i++)
        sprintf(digits + 2 * i, "%02x", digest[i]);
}

static double fed(const struct way *way, char *digits)
{
    struct fsverity_params params = {.hash_algorithm = VERITY_SHA256, .block_size = 4096};
    uint8_t root[DIGEST_SIZE], digest[DIGEST_SIZE], *memory, *piece = malloc(way->piece_length);
    double begun = now();
    size_t length;
    ssize_t count;
    int file = opened();

    errno = EINVAL;
    if (piece == NULL || OF_LIBRARY(fsverity_build_memory)(&params, &length) != VERITY_OK ||
        (memory = calloc(1, length)) == NULL || OF_LIBRARY(fsverity_build_begin)(&params, memory, length) != VERITY_OK)
        give_up("fsverity_build_begin");
    while ((count = read(file, piece, way->piece_length)) > 0)
        if (OF_LIBRARY(fsverity_build_feed)(&params, memory, length, piece, (size_t)count) != VERITY_OK)
            give_up("fsverity_build_feed");
    if (count < 0 || OF_LIBRARY(fsverity_build_end)(&params, memory, length, root, sizeof root, digest,
                                                    sizeof digest) != VERITY_OK)
        give_up("fsverity_build_end");
    close(file);
    free(memory);
    free(piece);
    set_digits(digest, digits);
    return now() - begun;
}

/* Runs a program, and takes the digest of its line. */
static double run(const struct way *way, char *digits)
{
    struct rusage used;
    int ends[2], status;
    ssize_t count;
    pid_t child;

    if (pipe(ends) != 0 || (child = fork()) < 0)
        give_up("pipe");
    if (child == 0) {
        dup2(ends[1], STDOUT_FILENO);
        close(ends[0]);
        execlp(way->program, way->program, "digest", "--compact", file_name, (char *)NULL);
        give_up(way->program);
    }
    close(ends[1]);
    count = read(ends[0], digits, 2 * DIGEST_SIZE);
    digits[count > 0 ? count : 0] = '\0';
    close(ends[0]);
    if (wait4(child, &status, 0, &used) != child || status != 0)
        give_up(way->program);
    return seconds_of(&used);
}

#ifdef HAS_LIBFSVERITY
static int read_for(void *file, void *bytes, size_t count)
{
    ssize_t found;

    for (; count > 0; count -= (size_t)found, bytes = (char *)bytes + found)
        if ((found = read(*(int *)file, bytes, count)) <= 0)
            return found < 0 ? -errno : -EIO;
    return 0;
}

static double computed(const struct way *way, char *digits)
{
    struct libfsverity_merkle_tree_params params = {.version = 1, .hash_algorithm = FS_VERITY_HASH_ALG_SHA256,
                                                    .block_size = 4096};
    struct libfsverity_digest *digest;
    double begun = now();
    struct stat found;
    int file = opened();

    (void)way;
    if (fstat(file, &found) != 0)
        give_up(file_name);
    params.file_size = (uint64_t)found.st_size;
    if (libfsverity_compute_digest(&file, read_for, &params, &digest) != 0)
        give_up("libfsverity_compute_digest");
    set_digits(digest->digest, digits);
    free(digest);
    close(file);
    return now() - begun;
}
#endif

static void measure(struct way *way)
{
    char digits[2 * DIGEST_SIZE + 1];
    double seconds = way->seconds(way, digits);

    if (expected[0] == '\0')
        strcpy(expected, digits);
    if (strcmp(expected, digits) != 0) {
        fprintf(stderr, "%s: the digest is %s, and of another way %s\n", way->name, digits, expected);
        exit(1);
    }
    if (way->least[library] == 0 || seconds < way->least[library])
        way->least[library] = seconds;
}

int main(int count, char **words)
{
    struct way ways[MOST_WAYS] = {{.name = "library, pieces of 64 KiB", .seconds = fed, .piece_length = 1 << 16},
                                  {.name = "library, pieces of 1 MiB", .seconds = fed, .piece_length = 1 << 20}};
    int ways_count = 2, rounds = count > 2 ? atoi(words[1]) : 0, round, i;
    struct stat found;

    if (rounds < 1 || count - 3 > MOST_WAYS - 3) {
        fprintf(stderr, "usage: feeding ROUNDS FILE PROGRAM...\n");
        return 2;
    }
    file_name = words[2];
    if (stat(file_name, &found) != 0)
        give_up(file_name);
    for (i = 3; i < count; i++) {
        ways[ways_count] = (struct way){.seconds = run, .program = words[i]};
        snprintf(ways[ways_count++].name, sizeof ways->name, "`%s digest`", words[i]);
    }
#ifdef HAS_LIBFSVERITY
    ways[ways_count++] = (struct way){.name = "Debian's libfsverity", .seconds = computed};
#endif
    for (round = 0; round < rounds; round++)
        for (i = 0; i < LIBRARIES * ways_count; i++)
            measure(&ways[way_at(i, round, ways_count)]);
    for (library = 0; library < LIBRARIES; library++) {
        print_library();
        printf("| Way | MiB per second | times the last one's speed |" BESIDE_HEAD "\n|---|--:|--:|" BESIDE_RULE "\n");
        for (i = 0; i < ways_count; i++) {
            printf("| %s | %.0f | %.2f |", ways[i].name, (double)found.st_size / ways[i].least[library] / (1 << 20),
                   ways[ways_count - 1].least[library] / ways[i].least[library]);
            print_beside(ways[i].least);
            printf("\n");
        }
    }
    return 0;
}
