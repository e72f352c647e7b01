/*
 * join_parts.c - plans the parts of an image's hash tree, and joins them when they are built.
 *
 * Build:
 *
 *     gcc -std=c11 -O2 -Iinclude -o join_parts examples/parts/join_parts.c lib/libverity.a
 *
 * Run, with the salt in hexadecimal ("-" for none), and PARTS, at least how many there are to be:
 *
 *     ./join_parts plan DATA HASH FOLDER PARTS SALT UUID
 *     ./join_parts join HASH FOLDER
 *
 * `plan` makes the folder, with a superblock of SHA-256 and blocks of 4096 bytes, makes HASH, where an older superblock
 * is cleared, and prints how many parts there are: `build_part` builds each. `join` takes their digests from the
 * folder, writes what stands above the parts to HASH, and last the superblock, and prints the root hash. A new HASH is
 * then byte for byte what `veritysetup format --salt=SALT --uuid=UUID DATA HASH` of cryptsetup makes. Status 0 if it is
 * done, 1 if not: a line on standard error says why, and which part has no digest.
 */
#include "parts.h"

#include "../read_hex.h"

/* Makes HASH, or clears an older superblock, which would stand for a tree that is going; with the rest of its block,
   which Linux wants even if no tree follows. */
static void begin_hash(int data, const char *name) {
    static const uint8_t zeros[4096];
    struct stat about, other;
    int hash = open_file(name, O_WRONLY | O_CREAT);

    if (fstat(data, &about) == -1 || fstat(hash, &other) == -1)
        give_up(name, strerror(errno));
    if (about.st_dev == other.st_dev && about.st_ino == other.st_ino)
        give_up(name, "is the file DATA");
    write_file(hash, name, 0, zeros, sizeof zeros);
    keep_file(hash, name);
    keep_name(name);
}

/* The highest level that has so many parts, or level 1. */
static void plan(char **words) {
    struct verity_params params = {.hash_algorithm = VERITY_SHA256,
                                   .hash_type = 1,
                                   .data_block_size = 4096,
                                   .hash_block_size = 4096};
    uint64_t wanted = read_number("PARTS", words[5]), parts, blocks;
    uint8_t superblock[512];
    char text[32];
    size_t level = 0;
    int data = open_file(words[2], O_RDONLY);
    off_t length = lseek(data, 0, SEEK_END);

    if (length == -1)
        give_up(words[2], strerror(errno));
    params.data_blocks = (uint64_t)length / params.data_block_size;
    params.salt_size = (uint32_t)read_hex("SALT", words[6], "-", params.salt, sizeof params.salt);
    if (read_hex("UUID", words[7], "-", params.uuid, sizeof params.uuid) != sizeof params.uuid)
        give_up("UUID", "not 16 bytes");
    check_status("verity_level_count", verity_level_count(&params, &level));
    for (;; level--) {
        check_status("verity_part_count", verity_part_count(&params, level, &parts, &blocks));
        if (level <= 1 || parts >= wanted)
            break;
    }
    check_status("verity_write_superblock", verity_write_superblock(&params, superblock, sizeof superblock));
    if (mkdir(words[4], 0777) == -1)
        give_up(words[4], strerror(errno));
    begin_hash(data, words[3]);
    close(data);
    write_small(name_in(words[4], "superblock"), superblock, sizeof superblock);
    snprintf(text, sizeof text, "%zu\n", level);
    write_small(name_in(words[4], "level"), (const uint8_t *)text, strlen(text));
    snprintf(text, sizeof text, "%" PRIu64 "\n", parts);
    write_small(name_in(words[4], "parts"), (const uint8_t *)text, strlen(text));
    printf("%s", text);
}

/* HASH has to reach to the end of the tree, unless the join itself writes all of it: another file, or one that was
   removed and made anew, would get a superblock above parts that aren't there. */
static void check_length(int hash, const char *name, const struct verity_params *params, size_t level) {
    off_t length = lseek(hash, 0, SEEK_END);
    uint64_t end = 0;

    check_status("verity_hash_area_end", verity_hash_area_end(params, &end));
    if (length == -1)
        give_up(name, strerror(errno));
    if (level > 0 && params->data_blocks > 1 && (uint64_t)length < end)
        give_up(name, "the parts aren't there");
}

static void join(char **words) {
    uint8_t superblock[512], digest[VERITY_MAX_DIGEST_SIZE], root[VERITY_MAX_DIGEST_SIZE], *memory;
    struct verity_params params = {0};
    struct verity_join join;
    struct verity_fed fed;
    size_t level, memory_length = 0, digest_length = 0;
    uint64_t parts, blocks;
    int hash;

    read_plan(words[3], &params, &level);
    check_status("verity_part_count", verity_part_count(&params, level, &parts, &blocks));
    check_status("verity_join_memory", verity_join_memory(&params, level, &memory_length));
    check_status("verity_digest_length", verity_digest_length(params.hash_algorithm, &digest_length));
    memory = room_for(memory_length);
    check_status("verity_join_begin", verity_join_begin(&params, level, &join, memory, memory_length));
    hash = open_file(words[2], O_WRONLY);
    check_length(hash, words[2], &params, level);
    for (uint64_t number = 0; number < parts; number++) {
        size_t at = 0;
        const char *name = name_of_digest(words[3], number);

        if (read_small(name, digest, sizeof digest) != digest_length)
            give_up(name, "not as long as a digest");
        do {
            check_status("verity_join_feed", verity_join_feed(&params, &join, memory, memory_length, digest + at,
                                                              digest_length - at, &fed));
            at += fed.taken;
            if (fed.block_length > 0)
                write_file(hash, words[2], fed.block_start, memory + fed.block_at, fed.block_length);
        } while (fed.block_length > 0);
    }
    check_status("verity_join_end",
                 verity_join_end(&params, &join, memory, memory_length, root, digest_length));
    check_status("verity_write_superblock", verity_write_superblock(&params, superblock, sizeof superblock));
    if (fsync(hash) == -1)
        give_up(words[2], strerror(errno));
    write_file(hash, words[2], 0, superblock, sizeof superblock);
    keep_file(hash, words[2]);
    for (size_t i = 0; i < digest_length; i++)
        printf("%02x", root[i]);
    putchar('\n');
    free(memory);
}

int main(int count, char **words) {
    if (count == 8 && strcmp(words[1], "plan") == 0)
        plan(words);
    else if (count == 4 && strcmp(words[1], "join") == 0)
        join(words);
    else
        give_up("usage", "join_parts plan DATA HASH FOLDER PARTS SALT UUID, or join HASH FOLDER");
    if (fflush(stdout) == EOF)
        give_up("standard output", strerror(errno));
    return 0;
}
