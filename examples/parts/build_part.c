/*
 * build_part.c - builds one part of an image's hash tree: a process of its own, which shares nothing with those of the
 * other parts but files, on this machine or another.
 *
 * Build:
 *
 *     gcc -std=c11 -O2 -Iinclude -o build_part examples/parts/build_part.c lib/libverity.a
 *
 * Run, after `join_parts plan` made the folder:
 *
 *     ./build_part DATA HASH FOLDER PART
 *
 * The part's hash blocks are written to their places in HASH, and then its digest to FOLDER. A part that was killed, or
 * whose machine was lost, has no digest: run it again, it needs nothing of what it left. Status 0 if the part is built,
 * 1 if it can't be: a line on standard error says why.
 */
#include "parts.h"

enum { PIECE = 1 << 20 };

int main(int count, char **words) {
    static uint8_t piece[PIECE];
    uint8_t digest[VERITY_MAX_DIGEST_SIZE], *memory;
    struct verity_params params = {0};
    struct verity_part part;
    struct verity_fed fed;
    size_t level, memory_length = 0, digest_length = 0;
    uint64_t parts, blocks, number, from, end;
    int data, hash;

    if (count != 5)
        give_up("usage", "build_part DATA HASH FOLDER PART");
    number = read_number("PART", words[4]);
    read_plan(words[3], &params, &level);
    check_status("verity_part_count", verity_part_count(&params, level, &parts, &blocks));
    check_status("verity_part_memory", verity_part_memory(&params, level, &memory_length));
    check_status("verity_digest_length", verity_digest_length(params.hash_algorithm, &digest_length));
    memory = room_for(memory_length);
    check_status("verity_part_begin", verity_part_begin(&params, level, number, &part, memory, memory_length));

    data = open_file(words[1], O_RDONLY);
    hash = open_file(words[2], O_WRONLY);
    from = number * blocks * params.data_block_size;
    end = (number + 1 == parts ? params.data_blocks : (number + 1) * blocks) * params.data_block_size;
    while (from + part.fed < end) {
        uint64_t left = end - from - part.fed;
        size_t length = left < PIECE ? (size_t)left : PIECE, at = 0;

        if (read_file(data, words[1], from + part.fed, piece, length) < length)
            give_up(words[1], "ends too early");
        do {
            check_status("verity_part_feed", verity_part_feed(&params, &part, memory, memory_length, piece + at,
                                                              length - at, &fed));
            at += fed.taken;
            if (fed.block_length > 0)
                write_file(hash, words[2], fed.block_start, memory + fed.block_at, fed.block_length);
        } while (fed.block_length > 0);
    }
    check_status("verity_part_end", verity_part_end(&params, &part, memory, memory_length, digest, digest_length));
    keep_file(hash, words[2]);
    write_small(name_of_digest(words[3], number), digest, digest_length);
    free(memory);
    close(data);
    return 0;
}
