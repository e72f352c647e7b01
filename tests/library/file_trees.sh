#!/usr/bin/env bash
# Trees of files whose length isn't known, with the library: each block that is handed out, and each that is left at an
# end, is that of the tree that Debian's fsverity writes, and so are root hash and digest; a file goes on after its end;
# what is refused changes nothing, and disturbed structs and memories have answers within the memory. With the static
# library, with the shared one, and under sanitizers. And the lines of include/verity.h for it. SEED=N draws other
# files, LIB=FOLDER takes the library of another folder.
set -u
cd "$(dirname "$0")/../.."
. tests/lib/checks.sh
. tests/lib/c_programs.sh
. tests/lib/random_images.sh
needs gcc gcc
needs python3 python3
needs_other fsverity fsverity
has_library "$LIB/libverity.a"

takes_shared
sources=(tests/library/{file_trees,calls,words,shapes,support}.c)
programs=()
if compiles "$scratch/static" gcc -O2 "${sources[@]}" "$LIB/libverity.a"; then programs+=(static); fi
if compiles "$scratch/shared.program" gcc -O2 "${sources[@]}" "${shared[@]}"; then programs+=(shared.program); fi
if has_sanitizers; then
    if compiles "$scratch/sanitized" gcc "${sanitizers[@]}" "${sources[@]}" "$LIB/libverity.a"; then
        programs+=(sanitized)
    fi
else
    echo "left out: under sanitizers: $no_sanitizers"
fi
export ASAN_OPTIONS=detect_leaks=0

# tree_of SIZE FUNCTION BLOCK SALT: the beginning of the data as a file, with its tree by Debian's program. Adds to
# `words` what file_trees.c is told of it.
tree_of() {
    local size=$1 file="$scratch/file.$1" digest tree=/dev/null options root
    head -c "$size" "$scratch/all" >"$file"
    rm -f "$file.tree" "$file.descriptor"
    options=(--compact --hash-alg="$2" --block-size="$3" --salt="${4#-}" --out-descriptor="$file.descriptor")
    if ! digest=$(fsverity digest "${options[@]}" --out-merkle-tree="$file.tree" "$file" 2>"$scratch/said"); then
        fail "fsverity digest ${options[*]}, $size bytes" "$(cat "$scratch/said")"
        return
    fi
    if [ "$size" -gt 0 ]; then tree=$file.tree; fi
    root=$(od -An -v -tx1 -j $ROOT_AT -N $((${#digest} / 2)) "$file.descriptor" | tr -d ' \n')
    words+=("$file" "$tree" "$root" "$digest")
}

# tries FUNCTION BLOCK SALT SIZE..: files that begin as one another.
tries() {
    local hash=$1 block=$2 salt=$3 size program words=("$1" "$2" "$3" "$SEED")
    shift 3
    for size in "$@"; do tree_of "$size" "$hash" "$block" "$salt"; done
    for program in "${programs[@]}"; do
        adds "$hash, blocks of $block, up to ${*: -1} bytes, $program" "$scratch/$program" "${words[@]}"
    done
}

draws_data
# Ends at and about the last byte of a block, of a hash block, and of one of level 1: fan-outs of 16, 32, 64 and 128.
tries sha512 1024 - 0 1 1023 1024 1025 16384 16385 262144 262145 300000 4194304 4194305 4500000
tries sha256 1024 abcdef 0 700 1024 32768 32769 1000000 1048576 1048577 1048577 2100000
tries sha256 4096 - 4096 4097 524288 524289 9000000
tries sha512 4096 0123456789abcdef0123456789abcdef0123456789abcdef0123456789abcdef 262144 262145 5000000
tries sha256 65536 aa 65536 200000 4000000
random_salt 32
tries sha256 2048 "$salt" $((RANDOM * 3)) $((RANDOM * 7 + 98304)) $((RANDOM * 40 + 327680)) $((RANDOM * 60 + 1638400))

# A program of the header's lines that reads standard input in pieces of 10000 bytes, keeps the blocks, and writes the
# tree to a file.
{
    cat <<'EOC'
#define _XOPEN_SOURCE 700
#include <stdio.h>
#include <string.h>
#include <unistd.h>
#include "verity.h"

static struct fsverity_params params = {.hash_algorithm = VERITY_SHA256, .block_size = 1024};
static struct verity_build build;
static struct verity_fed fed;
static uint8_t memory[1 << 16], root[32], digest[32];
static size_t memory_length;
static const size_t root_length = sizeof root;
static uint8_t kept[8][2000][1024];

static void keep(size_t level, uint64_t number, const uint8_t *from, size_t length)
{
    memcpy(kept[level][number], from, length);
}

static int begins(void)
{
    int status;
EOC
    header_lines 'status = fsverity_tree_build_begin'
    printf '%s\n' '    return status;' '}' 'static int feeds(const uint8_t *piece, size_t length)' '{' '    int status;'
    header_lines 'do {' '} while (length > 0);'
    printf '%s\n' '    return status;' '}' 'static int ends(void)' '{' '    int status;' '    size_t level;' \
        '    uint64_t index;' '    static uint8_t block[1024];'
    header_lines 'for (level = 0;; level++) {' 'params.size = build.fed;'
    cat <<'EOC'
    return status;
}

int main(int count, char **words)
{
    static uint8_t bytes[10000];
    size_t levels, level;
    uint64_t start, blocks;
    ssize_t found;
    FILE *tree = count > 1 ? fopen(words[1], "wb") : NULL;

    if (tree == NULL || fsverity_build_memory(&params, &memory_length) < 0 || memory_length > sizeof memory ||
        begins() < 0)
        return 1;
    while ((found = read(0, bytes, sizeof bytes)) > 0)
        if (feeds(bytes, (size_t)found) < 0)
            return 1;
    if (ends() < 0 || fsverity_level_count(&params, &levels) < 0)
        return 1;
    for (level = 0; level < levels; level++)
        if (fsverity_level_start(&params, level, &start, &blocks) < 0 || fseek(tree, (long)start, SEEK_SET) != 0 ||
            fwrite(kept[level], 1024, blocks, tree) != blocks)
            return 1;
    fclose(tree);
    return write(1, digest, 32) != 32;
}
EOC
} >"$scratch/lines.c"
if compiles "$scratch/lines" gcc -O1 "$scratch/lines.c" "$LIB/libverity.a"; then
    for size in 1 1024 32769 1900000; do
        head -c "$size" "$scratch/all" >"$scratch/file"
        rm -f "$scratch/tree"
        digest=$(fsverity digest --compact --block-size=1024 --out-merkle-tree="$scratch/tree" "$scratch/file")
        same "the header's lines: digest of $size bytes" "$digest" \
            "$("$scratch/lines" "$scratch/found" <"$scratch/file" | od -An -v -tx1 | tr -d ' \n')"
        same_bytes "the header's lines: tree of $size bytes" "$scratch/tree" "$scratch/found"
    done
fi
finish
