/*
 * digest.c - digest FILE prints the fs-verity digest of a file, fed to the library in pieces of 64 KiB: what the
 * bindings are measured beside.
 */
#include <fcntl.h>
#include <stdio.h>
#include <stdlib.h>
#include <unistd.h>

#include "verity.h"

int main(int count, char **words)
{
    struct fsverity_params params = {.hash_algorithm = VERITY_SHA256, .block_size = 4096};
    uint8_t root[32], digest[32], *memory, *piece = malloc(65536);
    int file = count == 2 ? open(words[1], O_RDONLY) : -1;
    ssize_t length;
    size_t size, i;

    if (file < 0 || piece == NULL || fsverity_build_memory(&params, &size) < 0 || (memory = malloc(size)) == NULL ||
        fsverity_build_begin(&params, memory, size) < 0)
        return 1;
    while ((length = read(file, piece, 65536)) > 0)
        if (fsverity_build_feed(&params, memory, size, piece, (size_t)length) < 0)
            return 1;
    if (length < 0 || fsverity_build_end(&params, memory, size, root, sizeof root, digest, sizeof digest) < 0)
        return 1;
    for (i = 0; i < sizeof digest; i++)
        printf("%02x", digest[i]);
    printf("\n");
    return 0;
}
