#!/usr/bin/env bash
# Trees that the library builds from parts: over all settings beside trees by tests/lib/trees.py, and over images and
# files beside Debian's veritysetup and fsverity, each from the parts of each level, which are built in several orders
# and stored after any call, also with a process for each call. Mistakes that a caller could make are noticed. With the
# static library, with the shared one and under sanitizers. And the lines of include/verity.h for it. SEED=N draws other
# settings, RUNS=all more and larger ones, LIB=FOLDER takes the library of another folder.
set -u
cd "$(dirname "$0")/../.."
. tests/lib/checks.sh
. tests/lib/c_programs.sh
. tests/lib/random_images.sh
. tests/lib/feeding_programs.sh
needs gcc gcc
needs python3 python3
needs_other veritysetup cryptsetup-bin
has_library "$LIB/libverity.a"

sources=(tests/library/parts.c "${feeding_sources[@]}")
takes_shared
draws_data

# large_parts NAME PROGRAM: the largest blocks, of which fewer are hashed side by side.
large_parts() {
    draws_trees large $((1 << 19))
    adds "$1" "$2" "$SEED" "${trees[@]}"
}

if compiles "$scratch/static" gcc -O2 "${sources[@]}" "$LIB/libverity.a"; then
    builds_parts 'all settings' "$scratch/static" "$(few $((1 << 14)) $((1 << 16)))" "$(few 256 1024)"
    grep ': [0-9]*$' "$scratch/.ran" | sed 's/^/    /'
    breaks_parts 'mistakes of the caller' "$scratch/static"
    grep ': [0-9]*$' "$scratch/.ran" | sed 's/^/    /'
    large_parts 'large blocks' "$scratch/static"
    feeds_images "$scratch/static" "$(few 4 16)" "$(few 4 16)" $((1 << 18))
fi
if compiles "$scratch/stored_parts" gcc -O2 tests/library/stored_parts.c "${feeding_sources[@]}" \
    "$LIB/libverity.a"; then
    stores_images "$scratch/stored_parts" "$(few 1 3)" "$(few 1 3)" $((1 << 16))
fi
if compiles "$scratch/with_shared" gcc -O2 "${sources[@]}" "${shared[@]}"; then
    builds_parts 'all settings, shared' "$scratch/with_shared" "$(few $((1 << 12)) $((1 << 14)))" "$(few 64 256)"
    large_parts 'large blocks, shared' "$scratch/with_shared"
    feeds_images "$scratch/with_shared" "$(few 1 4)" "$(few 1 4)" $((1 << 17))
fi
export ASAN_OPTIONS=detect_leaks=0 UBSAN_OPTIONS=print_stacktrace=1
if ! has_sanitizers; then
    echo "left out: under sanitizers: $no_sanitizers"
elif compiles "$scratch/sanitized" gcc "${sanitizers[@]}" "${sources[@]}" "$LIB/libverity.a"; then
    builds_parts 'all settings, under sanitizers' "$scratch/sanitized" "$(few $((1 << 12)) $((1 << 13)))" \
        "$(few 64 256)"
    breaks_parts 'mistakes of the caller, under sanitizers' "$scratch/sanitized"
    feeds_images "$scratch/sanitized" "$(few 1 3)" "$(few 1 3)" $((1 << 17))
fi

# header_loop NAME STRUCT: the header's loop, with another function.
header_loop() {
    header_lines 'for (;;) {' '}' | sed "s/verity_build_feed(&params, &build,/$1(\&params, \&$2,/"
}

# A program of the header's lines: it builds the parts of a level of the data on standard input, the last one first, in
# pieces of 10000 bytes, and writes hash device and root hash.
#     lines DEVICE LEVEL
{
    cat <<'EOC'
#define _XOPEN_SOURCE 700
#include <fcntl.h>
#include <stdlib.h>
#include <unistd.h>
#include "verity.h"

static struct verity_params params = {.hash_algorithm = VERITY_SHA256, .hash_type = 1, .data_block_size = 4096,
                                      .hash_block_size = 4096, .data_blocks = 20000,
                                      .uuid = {1, 1, 1, 1, 1, 1, 1, 1, 1, 1, 1, 1, 1, 1, 1, 1}};
static struct verity_part part;
static struct verity_join join;
static struct verity_fed fed;
static uint8_t memory[16 * 4096], data[20000 * 4096], digests[20000 * 32], root[32];
static size_t memory_length, level;
static const size_t digest_length = 32, root_length = 32;
static uint64_t parts, blocks;
static int device;

static int counts_parts(void)
{
    int status;
EOC
    header_lines 'status = verity_part_count'
    printf '%s\n' '    return status;' '}' 'static int begins_part(uint64_t number)' '{' '    int status;'
    header_lines 'status = verity_part_begin'
    printf '%s\n' '    return status;' '}' 'static int feeds_part(const uint8_t *piece, size_t length)' '{' \
        '    int status;'
    header_loop verity_part_feed part
    printf '%s\n' '    return 0;' '}' 'static int ends_part(uint8_t *digest)' '{' '    int status;'
    header_lines 'status = verity_part_end'
    printf '%s\n' '    return status;' '}' 'static int begins_join(void)' '{' '    int status;'
    header_lines 'status = verity_join_begin'
    printf '%s\n' '    return status;' '}' 'static int feeds_join(const uint8_t *piece, size_t length)' '{' \
        '    int status;'
    header_loop verity_join_feed join
    printf '%s\n' '    return 0;' '}' 'static int ends_join(void)' '{' '    int status;'
    header_lines 'status = verity_join_end'
    cat <<'EOC'
    return status;
}

static void has(int status)
{
    if (status != 0)
        exit(status < 0 ? 100 - status : status);
}

static void builds_part(uint64_t number)
{
    uint64_t from = number * blocks * 4096, end = number + 1 < parts ? from + blocks * 4096 : sizeof data;
    size_t length;

    has(begins_part(number));
    for (; from < end; from += length) {
        length = end - from < 10000 ? (size_t)(end - from) : 10000;
        has(feeds_part(data + from, length));
    }
    has(ends_part(digests + number * 32));
}

int main(int count, char **words)
{
    static uint8_t superblock[512];
    size_t all = 0;
    ssize_t found;
    uint64_t number;

    device = open(words[count - 2], O_RDWR | O_CREAT, 0644);
    level = (size_t)atoi(words[count - 1]);
    while ((found = read(0, data + all, sizeof data - all)) > 0)
        all += (size_t)found;
    has(counts_parts());
    has(verity_part_memory(&params, level, &memory_length));
    for (number = parts; number-- > 0;)
        builds_part(number);
    has(verity_join_memory(&params, level, &memory_length));
    has(begins_join());
    has(feeds_join(digests, parts * 32));
    has(ends_join());
    has(verity_write_superblock(&params, superblock, 512));
    return pwrite(device, superblock, 512, 0) != 512 || write(1, root, 32) != 32;
}
EOC
} >"$scratch/lines.c"
if compiles "$scratch/lines" gcc -O1 "$scratch/lines.c" "$LIB/libverity.a"; then
    { cat "$scratch/all" "$scratch/all" "$scratch/all" "$scratch/all" "$scratch/all"; } |
        head -c $((20000 * 4096)) >"$scratch/lines.data"
    report=$(veritysetup format --salt=- --uuid=01010101-0101-0101-0101-010101010101 "$scratch/lines.data" \
        "$scratch/lines.hashes")
    hash=$(awk '/^Root hash:/ { print $3 }' <<<"$report")
    for level in 0 1 2 3; do
        rm -f "$scratch/device"
        same "the header's lines, level $level: root hash" "$hash" \
            "$("$scratch/lines" "$scratch/device" $level <"$scratch/lines.data" | od -An -v -tx1 | tr -d ' \n')"
        same_bytes "the header's lines, level $level: hash device" "$scratch/lines.hashes" "$scratch/device"
    done
    "$scratch/lines" "$scratch/device" 4 <"$scratch/lines.data" >/dev/null
    same "the header's lines, level 4: status" 103 "$?"
fi
finish
