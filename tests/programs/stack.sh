#!/usr/bin/env bash
# Both programs do their work within the stack that README.md names: all commands, with blocks that are read into each
# window, also at their largest, and with blocks that are hashed one by one.
set -u
cd "$(dirname "$0")/../.."
. tests/lib/checks.sh
. tests/lib/stack.sh
has_program fsverity
has_program veritysetup

data=$scratch/data.img
hash=$scratch/hash.img
sample 1200000 >"$data"
for function in sha256 sha512 sha1; do
    for block in 512 4096 16384 32768 65536 131072 262144; do
        stack_for "$block"
        rm -f "$hash"
        within "$BIN/veritysetup" format --hash "$function" --data-block-size "$block" --hash-block-size "$block" \
            --salt=abcd "$data" "$hash" >"$scratch/report" 2>&1
        same "format, $function, blocks of $block" 0 $?
        root=$(root_in "$scratch/report")
        runs "verify, $function, blocks of $block" 0 '' '' within "$BIN/veritysetup" verify "$data" "$hash" "$root"
        runs "dump, $function, blocks of $block" 0 any '' within "$BIN/veritysetup" dump "$hash"
        if [ "$function" = sha1 ]; then continue; fi
        runs "digest, $function, blocks of $block" 0 any '' within "$BIN/fsverity" digest --hash-alg "$function" \
            --block-size "$block" --out-merkle-tree "$scratch/tree" --out-descriptor "$scratch/descriptor" "$data"
    done
done
stack_for 512
runs 'many words' 0 any '' within "$BIN/fsverity" digest --compact $(yes "$data" | head -n 40)
runs 'a refused line' 2 '' any within "$BIN/fsverity" digest --no-such-option
finish
