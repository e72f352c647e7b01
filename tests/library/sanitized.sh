#!/usr/bin/env bash
# The tests of images and the random calls, compiled with AddressSanitizer and UndefinedBehaviorSanitizer: no call reads
# or writes outside of its buffers, since these have just the length that is said, and stand at memory that can't be
# read or come from a watched malloc. That the watching sees such a read is shown first. SEED=N draws other settings,
# RUNS=all more of them and ten times as many calls, LIB=FOLDER takes the library of another folder.
set -u
cd "$(dirname "$0")/../.."
. tests/lib/checks.sh
. tests/lib/c_programs.sh
. tests/lib/random_images.sh
. tests/lib/feeding_programs.sh
needs gcc gcc
needs python3 python3
has_library "$LIB/libverity.a"

if ! has_sanitizers; then
    echo "$0: $no_sanitizers"
    exit "$LEFT_OUT"
fi

# What is said to be a root hash of 64 bytes has fewer, at the end of readable memory or of malloc: this is seen.
cat >"$scratch/overrun.c" <<'EOC'
#define _DEFAULT_SOURCE
#include <stdlib.h>
#include <string.h>
#include <sys/mman.h>
#include "verity.h"

int main(int count, char **words)
{
    struct fsverity_params params = {.hash_algorithm = VERITY_SHA512, .block_size = 4096, .size = 4096};
    size_t page = 65536, length = count == 3 ? 64 - (size_t)atoi(words[2]) : 0;
    uint8_t digest[64], *root = malloc(length);

    if (strcmp(words[1], "page") == 0) {
        root = mmap(NULL, 2 * page, PROT_NONE, MAP_PRIVATE | MAP_ANONYMOUS, -1, 0);
        if (mprotect(root, page, PROT_READ | PROT_WRITE) != 0)
            return 0;
        root += page - length;
    }
    memset(root, 1, length);
    return fsverity_file_digest(&params, root, 64, digest, 64) == VERITY_OK ? 0 : 2;
}
EOC
export ASAN_OPTIONS=detect_leaks=0 UBSAN_OPTIONS=print_stacktrace=1
if compiles "$scratch/overrun" gcc "${sanitizers[@]}" "$scratch/overrun.c" "$LIB/libverity.a"; then
    for place in page malloc; do
        runs "a root hash at the end of $place" 0 '' '' "$scratch/overrun" $place 0
        for missing in 1 8 33; do
            runs "a root hash at the end of $place that lacks $missing bytes" 1 '' any \
                "$scratch/overrun" $place $missing
        done
    done
fi

rest=("${sanitizers[@]}" tests/library/chains.c "${feeding_sources[@]}" "$LIB/libverity.a")
if compiles "$scratch/refused" gcc tests/library/refused.c "${rest[@]}"; then adds 'refused' "$scratch/refused"; fi
if compiles "$scratch/debian_images" gcc tests/library/debian_images.c "${rest[@]}"; then
    draws_data
    tries_images "$scratch/debian_images" "$(few 3 10)" "$(few 2 6)" $((1 << 21))
fi
if compiles "$scratch/fuzz" gcc tests/library/fuzz.c "${rest[@]}"; then
    tries_random "$scratch/fuzz" "$(few 30000 300000)"
fi
finish
