/*
 * read_hex.h - bytes in hexadecimal, as salts, root hashes and UUIDs are written.
 */
#ifndef READ_HEX_H
#define READ_HEX_H

#include <stddef.h>
#include <stdint.h>
#include <stdlib.h>
#include <string.h>

/* Ends the program, and stands in the file that includes this one. */
static _Noreturn void give_up(const char *what, const char *why);

/* Reads bytes in hexadecimal, between which characters of `between` may stand: how many. */
static size_t read_hex(const char *what, const char *text, const char *between, uint8_t *bytes, size_t room) {
    size_t length = 0;

    while (*text != 0) {
        char digits[3] = {text[0], text[1], 0};
        if (strchr(between, text[0]) != NULL) {
            text++;
            continue;
        }
        if (length == room || strspn(digits, "0123456789abcdefABCDEF") != 2)
            give_up(what, "not bytes in hexadecimal, or too many");
        bytes[length++] = (uint8_t)strtoul(digits, NULL, 16);
        text += 2;
    }
    return length;
}

#endif
