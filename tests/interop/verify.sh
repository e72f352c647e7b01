#!/usr/bin/env bash
# Images that the veritysetup of Debian's package cryptsetup-bin makes are accepted by bin/veritysetup verify, and one
# changed bit anywhere in the covered data or in a hash block is refused with the block that tests/lib/expected.py
# names, a computation of its own. Over the settings of format.sh, at hash offsets and without a superblock.
# SETTINGS=all takes every combination, for some six minutes. Needs python3.
set -u
cd "$(dirname "$0")/../.."
. tests/lib/checks.sh
. tests/lib/settings.sh
has_program veritysetup
needs_other veritysetup cryptsetup-bin
needs python3 python3

RANDOM=17
sample $((4097 * 4096)) >"$scratch/all"
data=$scratch/data
hash=$scratch/hash

# below COUNT: a number below a count, another at each call but the same in each run; in `below`.
below() {
    below=$((((RANDOM << 30) + (RANDOM << 15) + RANDOM) % $1))
}

# Where the hash area is and what it is made by: the options of verify, and those of tests/lib/expected.py.
place=()
expected_place=()

# refused NAME CHANGE..: for each change, `data OFFSET MASK` or `hash OFFSET MASK`, the bits of the mask are turned in
# that byte, verify names the block that is expected, and the bits are turned back.
refused() {
    local name=$1 expected change file offset mask
    shift
    mapfile -t expected < <(tests/lib/expected.py "${expected_place[@]}" "$data" "$hash" "$root" "$@")
    for change in "$@"; do
        read -r file offset mask <<<"$change"
        if [ "$file" = data ]; then file=$data; else file=$hash; fi
        if [ "${expected[0]}" = right ]; then fail "$name: $change" 'the computation of its own finds no difference'; fi
        flip "$file" "$offset" "$mask"
        runs "$name: $change" 2 '' "${expected[0]}" "$BIN/veritysetup" verify "${place[@]}" "$data" "$hash" "$root"
        flip "$file" "$offset" "$mask"
        expected=("${expected[@]:1}")
    done
}

# made_by_peer OPTION..: the other program's hash device of the data, and its root hash; in `root`.
made_by_peer() {
    rm -f "$hash"
    veritysetup format "$@" "$data" "$hash" >"$scratch/peer.txt"
    root=$(root_in "$scratch/peer.txt")
}

compare() {
    local name="$*" size=$(($2 * $5)) base=$((($3 > 512 ? $3 : 512)))
    local changes=() hashes
    head -c "$size" "$scratch/all" >"$data"
    made_by_peer --uuid "$UUID" --hash "$1" --format "$6" --data-block-size "$2" --hash-block-size "$3" --salt="$4"
    runs "$name: accepted" 0 '' '' "$BIN/veritysetup" verify "$data" "$hash" "$root"

    below "$size"
    changes+=("data $below $((1 << RANDOM % 8))")
    if [ "$5" -gt 1 ]; then
        hashes=$(($(stat -c %s "$hash") - base))
        below "$hashes"
        changes+=("hash $((base + below)) $((1 << RANDOM % 8))")
    fi
    refused "$name" "${changes[@]}"
}

# at_area AREA OFFSET ALGORITHM DATA-BLOCK HASH-BLOCK SALT BLOCKS HASH-TYPE: the same for a hash area there.
at_area() {
    local name="$*" size=$(($4 * $7)) changes=() tree
    local options=(--hash "$3" --format "$8" --data-block-size "$4" --hash-block-size "$5" --salt="$6")
    head -c "$size" "$scratch/all" >"$data"
    place=(--hash-offset "$2")
    expected_place=(--hash-offset "$2")
    if [ "$1" = bare ]; then
        tree=$2
        made_by_peer --hash-offset "$2" --no-superblock "${options[@]}"
        place+=(--no-superblock "${options[@]}")
        expected_place+=(--bare "$3 $4 $5 $6 $7 $8")
    else
        tree=$((($2 + 512 + $5 - 1) / $5 * $5))
        made_by_peer --hash-offset "$2" --uuid "$UUID" "${options[@]}"
    fi
    runs "$name: accepted" 0 '' '' "$BIN/veritysetup" verify "${place[@]}" "$data" "$hash" "$root"
    below "$size"
    changes+=("data $below $((1 << RANDOM % 8))")
    if [ "$7" -gt 1 ]; then
        below $(($(stat -c %s "$hash") - tree))
        changes+=("hash $((tree + below)) $((1 << RANDOM % 8))")
    fi
    refused "$name" "${changes[@]}"
}

# Each bit of the first and the last byte of each hash block, for 17 blocks of 512.
each_bit() {
    local changes=() offset mask
    head -c 8704 "$scratch/all" >"$data"
    made_by_peer --uuid "$UUID" --data-block-size 512 --hash-block-size 512 --salt=-
    for offset in 512 1023 1024 1535 1536 2047; do
        for mask in 1 2 4 8 16 32 64 128; do
            changes+=("hash $offset $mask")
        done
    done
    refused '17 blocks' "${changes[@]}"
}

each_bit
each_setting compare
each_area at_area
finish
