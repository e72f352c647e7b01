#!/usr/bin/env bash
# Compares bin/veritysetup format with the veritysetup of Debian's package cryptsetup-bin: both make the same hash
# device, the other program's verify accepts ours, and the report's values are those of its dump. Over algorithms, block
# sizes, salts, numbers of blocks and hash types, with a given number of blocks, at hash offsets, without a superblock,
# and with data and hash area in one file. SETTINGS=all takes every combination, for a minute or two.
set -u
cd "$(dirname "$0")/../.."
. tests/lib/checks.sh
. tests/lib/layouts.sh
. tests/lib/settings.sh
has_program veritysetup
needs_other veritysetup cryptsetup-bin

sample $((4097 * 4096)) >"$scratch/all"
put_zeros "$scratch/all"
own=$scratch/own.img
peer=$scratch/peer.img

# values: of a report or dump on standard input, the values that both programs print, with their labels.
values() {
    grep -E '^(UUID|Hash type|Data blocks|Data block size|Hash block size|Hash algorithm|Salt):' | sed -E 's/:[[:space:]]+/: /'
}

compare() {
    local name="$*" data=$scratch/data root
    local options=(--hash "$1" --format "$6" --data-block-size "$2" --hash-block-size "$3" --salt="$4" --uuid "$UUID")
    head -c $(($2 * $5)) "$scratch/all" >"$data"
    rm -f "$own" "$peer"
    if ! veritysetup format "${options[@]}" "$data" "$peer" >"$scratch/peer.txt" 2>&1; then
        fail "$name" "the other veritysetup refuses these options: $(cat "$scratch/peer.txt")"
        return
    fi
    if ! "$BIN/veritysetup" format "${options[@]}" "$data" "$own" >"$scratch/own.txt" 2>&1; then
        fail "$name" "bin/veritysetup ends with $?: $(cat "$scratch/own.txt")"
        return
    fi
    # The other program pads the superblock of a single data block to a whole block.
    if [ "$5" -eq 1 ]; then truncate -s "$SUPERBLOCK_SIZE" "$peer"; fi
    same_bytes "$name: hash device" "$peer" "$own"

    root=$(root_in "$scratch/own.txt")
    same "$name: root hash" "$(root_in "$scratch/peer.txt")" "$root"
    if veritysetup verify "$data" "$own" "$root" >"$scratch/verify.txt" 2>&1; then
        pass
    else
        fail "$name: the other verify" "$(cat "$scratch/verify.txt")"
    fi
    same "$name: report" "$(veritysetup dump "$own" | values)" "$(values <"$scratch/own.txt")"
}

# covers BLOCKS: both programs cover so many blocks of longer data.
covers() {
    local name="--data-blocks $1" data=$scratch/data
    local options=(--format 1 --data-block-size 512 --hash-block-size 512 --salt=ab --uuid "$UUID" --data-blocks "$1")
    head -c $((300 * 512 + 77)) "$scratch/all" >"$data"
    rm -f "$own" "$peer"
    veritysetup format "${options[@]}" "$data" "$peer" >"$scratch/peer.txt" 2>&1
    "$BIN/veritysetup" format "${options[@]}" "$data" "$own" >"$scratch/own.txt" 2>&1
    if [ "$1" -eq 1 ]; then truncate -s "$SUPERBLOCK_SIZE" "$peer"; fi
    same_bytes "$name: hash device" "$peer" "$own"
    same "$name: root hash" "$(root_in "$scratch/peer.txt")" "$(root_in "$scratch/own.txt")"
}

# at_area AREA OFFSET ALGORITHM DATA-BLOCK HASH-BLOCK SALT BLOCKS HASH-TYPE: both programs make the same hash
# device there, the bytes before it stay, and the other verify accepts ours.
at_area() {
    local name="$*" data=$scratch/data place=(--hash-offset "$2") root
    local options=(--hash "$3" --format "$8" --data-block-size "$4" --hash-block-size "$5" --salt="$6")
    if [ "$1" = bare ]; then place+=(--no-superblock); else place+=(--uuid "$UUID"); fi
    head -c $(($4 * $7)) "$scratch/all" >"$data"
    sample 700 >"$own"
    sample 700 >"$peer"
    if ! veritysetup format "${options[@]}" "${place[@]}" "$data" "$peer" >"$scratch/peer.txt" 2>&1; then
        fail "$name" "the other veritysetup refuses these options: $(cat "$scratch/peer.txt")"
        return
    fi
    if ! "$BIN/veritysetup" format "${options[@]}" "${place[@]}" "$data" "$own" >"$scratch/own.txt" 2>&1; then
        fail "$name" "bin/veritysetup ends with $?: $(cat "$scratch/own.txt")"
        return
    fi
    # The other program pads the superblock of a single data block to a whole block.
    if [ "$7" -eq 1 ] && [ "$1" = superblock ]; then truncate -s "$(stat -c %s "$own")" "$peer"; fi
    same_bytes "$name: hash device" "$peer" "$own"
    root=$(root_in "$scratch/own.txt")
    same "$name: root hash" "$(root_in "$scratch/peer.txt")" "$root"
    if [ "$1" = bare ]; then place+=("${options[@]}"); else place=(--hash-offset "$2"); fi
    if veritysetup verify "${place[@]}" "$data" "$own" "$root" >"$scratch/verify.txt" 2>&1; then
        pass
    else
        fail "$name: the other verify" "$(cat "$scratch/verify.txt")"
    fi
    runs "$name: verify" 0 '' '' "$BIN/veritysetup" verify "${place[@]}" "$data" "$own" "$root"
}

# one_file BLOCKS HASH-BLOCK: both programs put the hash area into the data's own file, after the data.
one_file() {
    local name="one file, $*" offset=$(($1 * 4096)) root
    local options=(--format 1 --data-block-size 4096 --hash-block-size "$2" --salt=ab --uuid "$UUID"
        --data-blocks "$1" --hash-offset "$offset")
    head -c "$offset" "$scratch/all" >"$own"
    cp "$own" "$peer"
    veritysetup format "${options[@]}" "$peer" "$peer" >"$scratch/peer.txt" 2>&1
    "$BIN/veritysetup" format "${options[@]}" "$own" "$own" >"$scratch/own.txt" 2>&1
    same_bytes "$name: the file" "$peer" "$own"
    root=$(root_in "$scratch/own.txt")
    runs "$name: verify" 0 '' '' "$BIN/veritysetup" verify --hash-offset "$offset" "$own" "$own" "$root"
}

each_setting compare
each_area at_area
for blocks in 2 17 129; do
    for size in "${block_sizes[@]}"; do one_file "$blocks" "$size"; done
done
for blocks in 1 2 16 17 256 299 300; do covers "$blocks"; done
finish
