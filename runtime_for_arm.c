/*
 * runtime_for_arm.c - what a program in Rattle asks of C beside the C library: its words, memory and errno. The
 * toolchain has this for x86-64 alone; here it is for 64-bit ARM, by the contracts that the toolchain's crates os and
 * libc declare.
 *
 * The program's own main is renamed to rattle_main when it is linked. This one keeps the words for it, so nothing is
 * asked of the C library that the C standard doesn't promise.
 */
#include <errno.h>
#include <stdbool.h>
#include <stddef.h>
#include <stdlib.h>
#include <string.h>
#include <sys/types.h>

int rattle_main(int argc, char **argv);

static size_t word_count;
static char **words;

int main(int argc, char **argv)
{
    word_count = (size_t)argc;
    words = argv;
    return rattle_main(argc, argv);
}

/* How many words the program was started with, its own name among them. */
size_t rattle_arg_count(void)
{
    return word_count;
}

/*
 * Puts a word, without the zero at its end, at the start of the buffer, and answers its length: -1 if there is no such
 * word, and -2 if it is longer than the buffer, which is full then.
 */
ssize_t rattle_arg(size_t index, char *buffer, size_t room)
{
    size_t length;

    if (index >= word_count)
        return -1;
    length = strlen(words[index]);
    if (length > room) {
        memcpy(buffer, words[index], room);
        return -2;
    }
    memcpy(buffer, words[index], length);
    return (ssize_t)length;
}

int rattle_errno(void)
{
    return errno;
}

void rattle_set_errno(int error)
{
    errno = error;
}

/* Whether there is memory, and where it is. The place is never null: without memory it is a byte that nobody uses. */
struct tried {
    bool is_there;
    void *place;
};

static struct tried tried(void *place)
{
    static char nothing;

    return (struct tried){place != NULL, place != NULL ? place : &nothing};
}

/* Alignments divide 16, and so malloc's memory has them. A block without bytes has a place of its own, too. */
struct tried rattle_alloc(size_t size, size_t alignment)
{
    return tried(malloc(size != 0 ? size : alignment));
}

/* The first `kept` bytes stay as they were. If there is no memory, so does the block. */
struct tried rattle_realloc(void *place, size_t kept, size_t size, size_t alignment)
{
    (void)kept;
    return tried(realloc(place, size != 0 ? size : alignment));
}

void rattle_dealloc(void *place)
{
    free(place);
}
