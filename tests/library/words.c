/* The words of parameters.c and file_trees.c; see words.h. */
#include "words.h"

#include <stdio.h>
#include <stdlib.h>
#include <string.h>

#include "shapes.h"
#include "support.h"

size_t bytes_of_text(const char *text, uint8_t *bytes, size_t room)
{
    size_t length = strcmp(text, "-") == 0 ? 0 : strlen(text) / 2, i;
    unsigned int byte;

    if (length > room)
        give_up("too many hexadecimal digits");
    for (i = 0; i < length; i++) {
        if (sscanf(text + 2 * i, "%2x", &byte) != 1)
            give_up("hexadecimal digits are expected");
        bytes[i] = (uint8_t)byte;
    }
    return length;
}

uint32_t function_of(const char *name)
{
    uint32_t function;

    for (function = VERITY_SHA256; function <= VERITY_SHA384; function++)
        if (strcmp(name, name_of(function)) == 0)
            return function;
    give_up("a hash function is expected");
}
