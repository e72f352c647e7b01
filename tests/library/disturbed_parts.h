/*
 * Parts and joins whose struct, memory and lengths no call has left: any numbers and bytes. Each call returns, with the
 * status that verity.h says of the numbers, and nothing else is read or written than what it is handed.
 */
#ifndef DISTURBED_PARTS_H
#define DISTURBED_PARTS_H

#include "support.h"

/* A part of a tree of any parameters, or a join, at about this level: one call of each function of either. */
void try_disturbed_part(const struct tree *tree, size_t level);
void try_disturbed_join(const struct tree *tree, size_t level);

#endif
