/*
 * parts.h - what the programs that build a tree from parts have in common: files, and the folder by which they know of
 * one another. In it stand `superblock`, which says what the tree is made by, `level`, whose parts are built, `parts`,
 * how many there are, and for each part that is done `digest.N`.
 */
#ifndef PARTS_H
#define PARTS_H

#define _POSIX_C_SOURCE 200809L
#define _FILE_OFFSET_BITS 64

#include <errno.h>
#include <fcntl.h>
#include <inttypes.h>
#include <libgen.h>
#include <stdio.h>
#include <stdlib.h>
#include <string.h>
#include <sys/stat.h>
#include <unistd.h>

#include "verity.h"

/* Ends the program. */
static _Noreturn void give_up(const char *what, const char *why) {
    fprintf(stderr, "%s: %s\n", what, why);
    exit(1);
}

/* The same if a call of the library has failed. */
static void check_status(const char *call, int ret) {
    char text[VERITY_MAX_TEXT_SIZE];
    size_t length;

    if (ret < 0)
        give_up(call, verity_status_text(ret, text, sizeof text, &length) < 0 ? "failed" : text);
}

static void *room_for(size_t length) {
    void *memory = malloc(length);
    if (memory == NULL)
        give_up("memory", strerror(ENOMEM));
    return memory;
}

static uint64_t read_number(const char *what, const char *text) {
    char *last;
    uint64_t number;

    errno = 0;
    number = strtoull(text, &last, 10);
    if (text[0] < '0' || text[0] > '9' || (*last != 0 && *last != '\n') || errno != 0)
        give_up(what, "not a number");
    return number;
}

static int open_file(const char *name, int flags) {
    int file = open(name, flags | O_CLOEXEC, 0666);
    if (file == -1)
        give_up(name, strerror(errno));
    return file;
}

/* Reads bytes of a file from a start on: how many there are, up to so many. */
static size_t read_file(int file, const char *name, uint64_t start, uint8_t *bytes, size_t length) {
    size_t count = 0;

    while (count < length) {
        ssize_t found = pread(file, bytes + count, length - count, (off_t)(start + count));
        if (found == -1 && errno == EINTR)
            continue;
        if (found == -1)
            give_up(name, strerror(errno));
        if (found == 0)
            break;
        count += (size_t)found;
    }
    return count;
}

static void write_file(int file, const char *name, uint64_t start, const uint8_t *bytes, size_t length) {
    size_t count = 0;

    while (count < length) {
        ssize_t written = pwrite(file, bytes + count, length - count, (off_t)(start + count));
        if (written == -1 && errno == EINTR)
            continue;
        if (written == -1)
            give_up(name, strerror(errno));
        count += (size_t)written;
    }
}

/* Sees to it that what was written can't be lost, and closes the file. */
static void keep_file(int file, const char *name) {
    if (fsync(file) == -1 || close(file) == -1)
        give_up(name, strerror(errno));
}

/* Sees to it that the name of a new file can't be lost. */
static void keep_name(const char *name) {
    char *copy = strdup(name);
    int folder = copy == NULL ? -1 : open(dirname(copy), O_RDONLY | O_DIRECTORY | O_CLOEXEC);

    if (folder == -1 || fsync(folder) == -1 || close(folder) == -1)
        give_up(name, strerror(errno));
    free(copy);
}

/* The name of a file in the folder. */
static const char *name_in(const char *folder, const char *name) {
    static char path[4096];
    int length = snprintf(path, sizeof path, "%s/%s", folder, name);
    if (length < 0 || (size_t)length >= sizeof path)
        give_up(folder, "the name is too long");
    return path;
}

static const char *name_of_digest(const char *folder, uint64_t part) {
    char name[32];
    snprintf(name, sizeof name, "digest.%" PRIu64, part);
    return name_in(folder, name);
}

/* Reads a whole small file of the folder: how many bytes it has. */
static size_t read_small(const char *name, uint8_t *bytes, size_t room) {
    int file = open_file(name, O_RDONLY);
    size_t length = read_file(file, name, 0, bytes, room);
    close(file);
    return length;
}

/* Writes a small file of the folder: whole, or, if the program is killed, not at all. Until it is whole it has a name
   of its own, which no other machine takes. */
static void write_small(const char *name, const uint8_t *bytes, size_t length) {
    char other[4128];
    int file;

    snprintf(other, sizeof other, "%s.XXXXXX", name);
    file = mkstemp(other);
    if (file == -1)
        give_up(name, strerror(errno));
    write_file(file, other, 0, bytes, length);
    keep_file(file, other);
    if (rename(other, name) == -1)
        give_up(name, strerror(errno));
    keep_name(name);
}

/* What the tree is made by, and the level whose parts are built. */
static void read_plan(const char *folder, struct verity_params *params, size_t *level) {
    uint8_t superblock[512], text[32] = {0};

    if (read_small(name_in(folder, "superblock"), superblock, sizeof superblock) < sizeof superblock)
        give_up(folder, "superblock is too short");
    check_status("verity_read_superblock", verity_read_superblock(superblock, sizeof superblock, 0, params));
    read_small(name_in(folder, "level"), text, sizeof text - 1);
    *level = (size_t)read_number("level", (const char *)text);
}

#endif
