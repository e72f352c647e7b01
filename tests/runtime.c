/*
 * Calls runtime_for_arm.c, whose main, malloc, realloc and free have other names here: words of every length, in
 * buffers of every length, no words at all, and memory that is refused. What the contracts of the toolchain's crates os
 * and libc say is stated here a second time. Prints how many checks passed, and ends with 1 if one failed.
 */
#include <errno.h>
#include <stdbool.h>
#include <stdint.h>
#include <stdio.h>
#include <stdlib.h>
#include <string.h>
#include <sys/types.h>

/* As the crates declare them. */
struct answer {
    bool ok;
    void *place;
};
size_t rattle_arg_count(void);
ssize_t rattle_arg(size_t index, char *buffer, size_t room);
int rattle_errno(void);
void rattle_set_errno(int error);
struct answer rattle_alloc(size_t size, size_t alignment);
struct answer rattle_realloc(void *place, size_t kept, size_t size, size_t alignment);
void rattle_dealloc(void *place);

int runtime_main(int argc, char **argv);

static long passed, failed;

static void check(int line, bool holds)
{
    if (holds)
        passed++;
    else if (failed++ < 20)
        printf("FAILED tests/runtime.c, line %d\n", line);
}

#define CHECK(holds) check(__LINE__, holds)

/* What the stand-ins for C's functions were asked last, and whether they refuse. */
static size_t asked_size;
static void *asked_place;
static int requests, releases;
static bool refuses;

void *runtime_malloc(size_t size)
{
    asked_size = size;
    requests++;
    return refuses ? NULL : malloc(size);
}

void *runtime_realloc(void *place, size_t size)
{
    asked_place = place;
    asked_size = size;
    requests++;
    return refuses ? NULL : realloc(place, size);
}

void runtime_free(void *place)
{
    asked_place = place;
    releases++;
    free(place);
}

enum { LONGEST = 70, ROOM = LONGEST + 3 };

/* A word in a buffer of `room` bytes, between bytes that have to stay. */
static void check_word(size_t index, const char *word, size_t room)
{
    char buffer[ROOM + 2], expected[ROOM + 2];
    size_t length = strlen(word);

    memset(buffer, 0xa5, sizeof buffer);
    memset(expected, 0xa5, sizeof expected);
    memcpy(expected + 1, word, length < room ? length : room);
    CHECK(rattle_arg(index, buffer + 1, room) == (length <= room ? (ssize_t)length : -2));
    CHECK(memcmp(buffer, expected, sizeof buffer) == 0);
}

/* What main is to be called with: `given` words. */
static char **given_words;
static int given, began;

int rattle_main(int argc, char **argv)
{
    char buffer[1] = {'x'};

    began++;
    CHECK(argc == given && argv == given_words);
    CHECK(rattle_arg_count() == (size_t)given);
    for (int index = 0; index < given; index++)
        for (size_t room = 0; room <= ROOM; room++)
            check_word((size_t)index, given_words[index], room);
    CHECK(rattle_arg((size_t)given, buffer, 1) == -1);
    CHECK(rattle_arg((size_t)given + 1, buffer, 1) == -1);
    CHECK(rattle_arg(SIZE_MAX, buffer, 1) == -1);
    CHECK(buffer[0] == 'x');
    return 40 + given % 7;
}

static void begins(int argc, char **argv)
{
    int before = began;

    given = argc;
    given_words = argv;
    CHECK(runtime_main(argc, argv) == 40 + argc % 7);
    CHECK(began == before + 1);
}

/* Words of each length, with each byte but zero in turn. */
static void words(void)
{
    static char texts[LONGEST + 1][LONGEST + 1];
    static char *argv[LONGEST + 2];
    unsigned char byte = 1;

    for (int length = 0; length <= LONGEST; length++) {
        for (int at = 0; at < length; at++) {
            texts[length][at] = (char)byte;
            byte = byte == 255 ? 1 : byte + 1;
        }
        argv[length] = texts[length];
    }
    begins(LONGEST + 1, argv);
    begins(1, argv);
    begins(1, argv + LONGEST);
    begins(0, argv + LONGEST + 1);
    begins(2, argv + 3);
}

static void errors(void)
{
    char buffer[1];

    rattle_set_errno(EINVAL);
    CHECK(errno == EINVAL && rattle_errno() == EINVAL);
    rattle_set_errno(0);
    CHECK(errno == 0 && rattle_errno() == 0);
    errno = ENAMETOOLONG;
    CHECK(rattle_errno() == ENAMETOOLONG);
    CHECK(rattle_arg(0, buffer, 0) == -2 && rattle_errno() == ENAMETOOLONG);
}

static bool is_aligned(const void *place)
{
    return (uintptr_t)place % 16 == 0;
}

/* An answer without memory names some place all the same. */
static void check_refused(struct answer answer)
{
    CHECK(!answer.ok);
    CHECK(answer.place != NULL);
}

static void memory(void)
{
    for (size_t size = 0; size <= 300; size++) {
        for (size_t alignment = 1; alignment <= 16; alignment *= 2) {
            int before = requests, freed = releases;
            struct answer first = rattle_alloc(size, alignment), more;

            CHECK(first.ok && first.place != NULL && is_aligned(first.place));
            CHECK(requests == before + 1 && asked_size == (size > 0 ? size : alignment));
            memset(first.place, 0x3c, size);

            /* Refused: the block stays, and it isn't let go. */
            refuses = true;
            check_refused(rattle_alloc(size, alignment));
            CHECK(requests == before + 2);
            more = rattle_realloc(first.place, size, size + 100, alignment);
            check_refused(more);
            CHECK(more.place != first.place);
            CHECK(asked_place == first.place && asked_size == size + 100 && releases == freed);
            refuses = false;

            /* Longer: the first bytes stay. */
            more = rattle_realloc(first.place, size, size + 5000, alignment);
            CHECK(more.ok && more.place != NULL && is_aligned(more.place));
            CHECK(asked_place == first.place && asked_size == size + 5000);
            for (size_t at = 0; at < size; at++)
                CHECK(((unsigned char *)more.place)[at] == 0x3c);

            /* Without bytes it is a block still. */
            first = more;
            more = rattle_realloc(first.place, 0, 0, alignment);
            CHECK(more.ok && more.place != NULL && is_aligned(more.place));
            CHECK(asked_place == first.place && asked_size == alignment);
            CHECK(releases == freed);
            rattle_dealloc(more.place);
            CHECK(asked_place == more.place && releases == freed + 1);
        }
    }
}

/* More than C's own functions can give. */
static void too_much(void)
{
    struct answer block = rattle_alloc(8, 8);

    check_refused(rattle_alloc((size_t)INT64_MAX, 1));
    check_refused(rattle_realloc(block.place, 8, (size_t)INT64_MAX, 8));
    memset(block.place, 1, 8);
    rattle_dealloc(block.place);
}

int main(void)
{
    words();
    errors();
    memory();
    too_much();
    printf("%ld passed, %ld failed\n", passed, failed);
    return failed != 0;
}
