/*
 * libraries.h - what is shared by programs that measure the library, or two builds of it in turns.
 *
 * With HAS_OTHER_LIBRARY the build in OTHER is linked in, too: bench/feeding.sh gives its functions names that begin
 * with other_, and declares them in other.h. So each way is measured by one build right after the other, over the same
 * bytes, in the same memory. What isn't the library's is the same twice, and shows by how much chance makes it differ.
 */
#include <stdio.h>

#include "verity.h"

static int library; /* the build that is measured, or printed: 0 is that in LIB, 1 that in OTHER */

#ifdef HAS_OTHER_LIBRARY
#include "other.h"
enum { LIBRARIES = 2 };
#define OF_LIBRARY(function) (library == 0 ? function : other_##function)
#define BESIDE_HEAD " times the other build's |"
#define BESIDE_RULE "--:|"
#else
enum { LIBRARIES = 1 };
#define OF_LIBRARY(function) function
#define BESIDE_HEAD ""
#define BESIDE_RULE ""
#endif

/* Takes the library whose turn it is, and answers the number of the way. Every other round goes backwards. */
static int way_at(int turn, int round, int ways_count)
{
    if (round % 2 != 0)
        turn = LIBRARIES * ways_count - 1 - turn;
    library = turn % LIBRARIES;
    return turn / LIBRARIES;
}

/* Says of which of two builds the next table is. */
static void print_library(void)
{
    if (LIBRARIES > 1)
        printf(library == 0 ? "The build in LIB:\n\n" : "\nThe build in OTHER:\n\n");
}

/* Prints the column below BESIDE_HEAD: how many times as fast a way is as by the other build. */
static void print_beside(const double *least)
{
    if (LIBRARIES > 1)
        printf(" %.2f |", least[LIBRARIES - 1 - library] / least[library]);
}
