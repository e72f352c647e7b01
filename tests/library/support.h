/*
 * What the programs of this folder share: counted checks, random numbers, bytes of files and memory, and the parameters
 * of a tree.
 */
#ifndef SUPPORT_H
#define SUPPORT_H

#include <stdbool.h>
#include <stddef.h>
#include <stdint.h>

#include "verity.h"

/* Counts a check. One that doesn't hold is printed, the first fifty of them. */
void check(bool holds, const char *format, ...) __attribute__((format(printf, 2, 3)));

/* Prints the last line, 'N passed, M failed', and gives the status to end with. */
int finish(void);

/* Ends the program: what the script handed over can't be used. */
_Noreturn void give_up(const char *what);

/*
 * Random numbers, the same for the same seed. random_place has a stream of its own, for where buffers stand. Of
 * any_number any length is as likely as another.
 */
void seed_random(uint64_t seed);
uint64_t random_number(void);
uint64_t random_place(void);
uint64_t random_below(uint64_t bound);
uint64_t any_number(void);
bool once_in(uint64_t times);
void random_bytes(uint8_t *bytes, size_t length);

struct bytes {
    const uint8_t *at;
    size_t length;
};

static inline struct bytes bytes_of(const uint8_t *at, size_t length)
{
    return (struct bytes){at, length};
}

/* The bytes of a file, a number in decimal digits, and so many zeros. Without them the program ends. */
struct bytes content_of(const char *name);
uint64_t number_of(const char *text);
void *memory_of(size_t length);

/* The parameters of a tree of either kind. */
struct tree {
    bool is_file;
    struct verity_params device;
    struct fsverity_params file;
};

#endif
