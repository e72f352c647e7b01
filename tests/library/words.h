/* How parameters.c and file_trees.c read the words that they are handed. What can't be read ends the program. */
#ifndef WORDS_H
#define WORDS_H

#include <stddef.h>
#include <stdint.h>

/* The bytes of hexadecimal digits, and how many they are; `-` for none. */
size_t bytes_of_text(const char *text, uint8_t *bytes, size_t room);

/* The number of a hash function that verity.h has. */
uint32_t function_of(const char *name);

#endif
