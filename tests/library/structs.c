/*
 * The structs of verity.h: the places of their fields, and what the library fills there.
 *
 *     structs < SUPERBLOCK
 *
 * Reads a superblock into the middle of painted bytes, and prints these; then the digest of parameters of raw bytes.
 * header.sh compares what is printed. A field at another place, or a struct of another size, doesn't compile.
 */
#include <stdio.h>
#include <string.h>

#include "verity.h"

#define AT(type, field, offset) _Static_assert(offsetof(struct type, field) == (offset), #field)
AT(verity_params, hash_algorithm, 0);
AT(verity_params, hash_type, 4);
AT(verity_params, data_block_size, 8);
AT(verity_params, hash_block_size, 12);
AT(verity_params, data_blocks, 16);
AT(verity_params, hash_offset, 24);
AT(verity_params, no_superblock, 32);
AT(verity_params, salt_size, 36);
AT(verity_params, salt, 40);
AT(verity_params, uuid, 296);
_Static_assert(sizeof(struct verity_params) == 312, "verity_params");
AT(fsverity_params, hash_algorithm, 0);
AT(fsverity_params, block_size, 4);
AT(fsverity_params, size, 8);
AT(fsverity_params, salt_size, 16);
AT(fsverity_params, salt, 20);
_Static_assert(sizeof(struct fsverity_params) == 56, "fsverity_params");
AT(verity_build, fed, 0);
AT(verity_build, closed, 8);
_Static_assert(sizeof(struct verity_build) == 16, "verity_build");
AT(verity_fed, taken, 0);
AT(verity_fed, block_length, 8);
AT(verity_fed, block_at, 16);
AT(verity_fed, block_start, 24);
AT(verity_fed, block_index, 32);
AT(verity_fed, block_level, 40);
_Static_assert(sizeof(struct verity_fed) == 48, "verity_fed");
AT(verity_part, level, 0);
AT(verity_part, part, 8);
AT(verity_part, fed, 16);
AT(verity_part, closed, 24);
_Static_assert(sizeof(struct verity_part) == 32, "verity_part");
AT(verity_join, level, 0);
AT(verity_join, taken, 8);
AT(verity_join, closed, 16);
_Static_assert(sizeof(struct verity_join) == 24, "verity_join");

static void show(const char *name, const unsigned char *bytes, size_t length)
{
    size_t i;

    printf("%s", name);
    for (i = 0; i < length; i++)
        printf("%s%02x", i ? "" : " ", bytes[i]);
    printf("\n");
}

int main(void)
{
    unsigned char superblock[512], digest[64];
    static const unsigned char root[64];
    union {
        struct verity_params params;
        unsigned char bytes[sizeof(struct verity_params)];
    } filled[3];
    union {
        struct fsverity_params params;
        unsigned char bytes[sizeof(struct fsverity_params)];
    } file;
    size_t i;

    if (fread(superblock, 1, 512, stdin) != 512)
        return 2;
    memset(filled, 0xa5, sizeof filled);
    printf("%d\n", verity_read_superblock(superblock, 512, 0x1122334455667788, &filled[1].params));
    for (i = 0; i < 3; i++)
        show(i == 1 ? "read" : "beside", filled[i].bytes, sizeof filled[i]);
    /* Algorithm 2, blocks of 2048 bytes, size 0x0807060504030201, 3 bytes of salt. */
    memset(file.bytes, 0xa5, sizeof file);
    memcpy(file.bytes, "\2\0\0\0\0\10\0\0\1\2\3\4\5\6\7\10\3\0\0\0abc", 23);
    printf("%d\n", fsverity_file_digest(&file.params, root, 64, digest, 64));
    show("digest", digest, 64);
    return 0;
}
