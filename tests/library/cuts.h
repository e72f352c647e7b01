/* How data is cut into pieces that are fed one after another. */
#ifndef CUTS_H
#define CUTS_H

#include <stdbool.h>
#include <stddef.h>
#include <stdint.h>

/* In place of a number, as of bytes that are fed at once: any, and all that are left. */
enum { ANY = 0, WHOLE = 1 << 30 };

/*
 * The next length of a piece, where so many bytes are left: none once in eight times, else the cut. If enough was cut,
 * one of less than a hundred bytes is any.
 */
size_t next_length(size_t cut, bool is_cut_enough, uint64_t left);

#endif
