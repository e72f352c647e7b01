/* What the programs of this folder share; see support.h. */
#include "support.h"

#include <stdarg.h>
#include <stdio.h>
#include <stdlib.h>
#include <string.h>

static uint64_t passed;
static uint64_t failed;

void check(bool holds, const char *format, ...)
{
    va_list values;

    if (holds) {
        passed++;
        return;
    }
    if (failed++ >= 50)
        return;
    printf("FAILED ");
    va_start(values, format);
    vprintf(format, values);
    va_end(values);
    printf("\n");
}

int finish(void)
{
    if (failed > 50)
        printf("FAILED %llu more\n", (unsigned long long)(failed - 50));
    printf("%llu passed, %llu failed\n", (unsigned long long)passed, (unsigned long long)failed);
    return failed == 0 && passed > 0 ? 0 : 1;
}

void give_up(const char *what)
{
    fflush(stdout);
    fprintf(stderr, "%s\n", what);
    exit(2);
}

/* One stream for what is tested, and one for where buffers stand. */
static uint64_t drawn = 1;
static uint64_t placed = 1;

static uint64_t next_number(uint64_t *state)
{
    uint64_t number = *state += 0x9e3779b97f4a7c15;

    number = (number ^ (number >> 30)) * 0xbf58476d1ce4e5b9;
    number = (number ^ (number >> 27)) * 0x94d049bb133111eb;
    return number ^ (number >> 31);
}

void seed_random(uint64_t seed)
{
    drawn = seed;
    placed = ~seed;
}

uint64_t random_number(void)
{
    return next_number(&drawn);
}

uint64_t random_place(void)
{
    return next_number(&placed);
}

uint64_t random_below(uint64_t bound)
{
    return random_number() % bound;
}

uint64_t any_number(void)
{
    return random_number() >> random_below(64);
}

bool once_in(uint64_t times)
{
    return random_below(times) == 0;
}

void random_bytes(uint8_t *bytes, size_t length)
{
    uint64_t number;
    size_t i;

    for (i = 0; i + 8 <= length; i += 8) {
        number = random_number();
        memcpy(bytes + i, &number, 8);
    }
    number = random_number();
    memcpy(bytes + i, &number, length - i);
}

uint64_t number_of(const char *text)
{
    char *end;
    uint64_t number = strtoull(text, &end, 10);

    if (*text == '\0' || *end != '\0')
        give_up("a number is expected");
    return number;
}

void *memory_of(size_t length)
{
    void *bytes = calloc(1, length + 1);

    if (bytes == NULL)
        give_up("no memory");
    return bytes;
}

struct bytes content_of(const char *name)
{
    FILE *file = fopen(name, "rb");
    uint8_t *bytes;
    size_t length;
    long end;

    if (file == NULL || fseek(file, 0, SEEK_END) != 0 || (end = ftell(file)) < 0)
        give_up("a file can't be read");
    length = (size_t)end;
    bytes = memory_of(length);
    rewind(file);
    if (fread(bytes, 1, length, file) != length)
        give_up("a file can't be read");
    fclose(file);
    return bytes_of(bytes, length);
}
