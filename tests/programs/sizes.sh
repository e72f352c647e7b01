#!/usr/bin/env bash
# Runs the programs at the sizes that users have: many blocks and levels, large files, far offsets and many names. Most
# of the data are zeros, so files are sparse, and few digests make a whole tree.
set -u
cd "$(dirname "$0")/../.."
. tests/lib/checks.sh
. tests/lib/stated_images.sh
. tests/lib/digests.sh
has_program fsverity
has_program veritysetup
fsverity=$BIN/fsverity
veritysetup=$BIN/veritysetup

data=$scratch/data.img
hash=$scratch/hash.img
stated=$scratch/stated.img
tree=$scratch/tree

# repeated COUNT FILE: writes a file's bytes so many times.
repeated() {
    yes "$2" | head -n "$1" | tr '\n' '\0' | xargs -0 -r cat
}

# large_image BLOCK COUNT: data of COUNT blocks, zeros but for the last one, with its tree and its hash device, which has
# a superblock in a block of its own. Data blocks and hash blocks have BLOCK bytes. Sets `root`, `counts` to the number
# of hash blocks of each level, and `options` to what format needs to make it.
large_image() {
    local count=$2 above fan digest_size
    block=$1
    rm -f "$data" "$hash"
    truncate -s $((block * (count - 1))) "$data"
    sample "$block" >"$scratch/last"
    cat "$scratch/last" >>"$data"
    zeros "$block" >"$scratch/other"
    : >"$tree"
    counts=()
    digest_size=$(digests "$scratch/last" "$block" "${ALGORITHM}sum" | wc -c)
    fan=$((block / digest_size))
    # All blocks of a level but the last one are the same.
    while [ "$count" -gt 1 ]; do
        above=$(((count + fan - 1) / fan))
        digests "$scratch/other" "$block" "${ALGORITHM}sum" >"$scratch/other_digest"
        digests "$scratch/last" "$block" "${ALGORITHM}sum" >"$scratch/last_digest"
        repeated $fan "$scratch/other_digest" >"$scratch/other"
        repeated $((count - (above - 1) * fan - 1)) "$scratch/other_digest" | cat - "$scratch/last_digest" |
            filled "$block" >"$scratch/last"
        repeated $((above - 1)) "$scratch/other" | cat - "$scratch/last" "$tree" >"$scratch/above"
        mv "$scratch/above" "$tree"
        counts+=("$above")
        count=$above
    done
    root=$("${ALGORITHM}sum" <"$scratch/last" | cut -d' ' -f1)
    superblock "$block" "$block" "$2" '' | filled "$block" | cat - "$tree" >"$stated"
    options=(--hash "$ALGORITHM" --data-block-size "$block" --hash-block-size "$block" --salt=- --uuid "$UUID")
}

# byte_of LEVEL NUMBER: prints at which byte of HASH a hash block begins.
byte_of() {
    local before=1 level
    for ((level = $1 + 1; level < ${#counts[@]}; level++)); do before=$((before + counts[level])); done
    echo $((block * (before + $2)))
}

# differs FILE BYTE TEXT: verify names what differs if a byte of DATA or HASH is turned, and both are right again then.
differs() {
    flip "$1" "$2" 1
    runs "byte $2 of ${1##*/}" 2 '' "Verification failed: $3." "$veritysetup" verify "$data" "$stated" "$root"
    flip "$1" "$2" 1
}

# makes NAME COUNT: format makes this image of COUNT data blocks.
makes() {
    runs "$1: format" 0 "$(report "$hash" "$block" "$block" "$2" - "$root")" '' \
        "$veritysetup" format "${options[@]}" "$data" "$hash"
    same_bytes "$1: format: the hash file" "$stated" "$hash"
}

# digests_it NAME WORD..: fsverity gives the digest, the tree and the descriptor of this data. HEAD is how the
# descriptor begins.
digests_it() {
    local name=$1 size
    shift
    size=$(stat -c %s "$data")
    descriptor "$HEAD" "$size" "$root" '' >"$scratch/descriptor"
    runs "$name: digest" 0 "sha256:$(sha256 "$scratch/descriptor") $data" '' "$fsverity" digest "$@" \
        --out-merkle-tree "$scratch/made_tree" --out-descriptor "$scratch/made_descriptor" "$data"
    same_bytes "$name: digest: the tree" "$tree" "$scratch/made_tree"
    same_bytes "$name: digest: the descriptor" "$scratch/descriptor" "$scratch/made_descriptor"
}

# 65553 data blocks of 512 bytes, more than 32 MiB, below 4098, 257, 17, 2 and 1 hash blocks.
many_blocks() {
    local count=65553 name='65553 blocks' level
    large_image 512 $count
    same "$name: hash blocks" '4098 257 17 2 1' "${counts[*]}"
    makes "$name" $count
    HEAD=01010900 digests_it "$name" --block-size 512
    runs "$name: verify" 0 '' '' "$veritysetup" verify "$data" "$stated" "$root"
    runs "$name: another root hash" 2 '' "Verification failed: root hash is $root." \
        "$veritysetup" verify "$data" "$stated" "$(printf '%064d' 0)"

    differs "$data" $((65536 * 512)) 'level 0 block 4096, child 65536'
    differs "$data" $((65553 * 512 - 1)) 'level 0 block 4097, child 65552'
    differs "$stated" "$(byte_of 0 1000)" 'level 0 block 1000, child 16000'
    differs "$stated" $(($(byte_of 0 4097) + 511)) 'level 0 block 4097, spare bytes'
    differs "$stated" $(($(byte_of 1 256) + 32)) 'level 1 block 256, child 4097'
    for level in 2 3 4; do
        differs "$stated" "$(byte_of $level 0)" "level $level block 0, child 0"
    done

    head -c -1 "$stated" >"$hash"
    runs "$name: a hash file that is a byte short" 2 '' 'Verification failed: level 0 block 4097 is missing.' \
        "$veritysetup" verify "$data" "$hash" "$root"
    truncate -s -1 "$data"
    runs "$name: data that is a byte short" 4 '' 'Data ends before the end of block 65552.' \
        "$veritysetup" verify "$data" "$stated" "$root"
}

# With SHA-512 the same number has 8195, 1025, 129, 17, 3 and 1 hash blocks.
many_levels() {
    local ALGORITHM=sha512 count=65553 name='six levels'
    large_image 512 $count
    same "$name: hash blocks" '8195 1025 129 17 3 1' "${counts[*]}"
    makes "$name" $count
    differs "$stated" "$(byte_of 5 0)" 'level 5 block 0, child 0'
    differs "$stated" $(($(byte_of 5 0) + 511)) 'level 5 block 0, spare bytes'
}

# A block more than 1 GiB.
much_data() {
    local count=262145
    if is_imitated; then
        echo 'more than 1 GiB: no case for programs that qemu runs, since they would take minutes'
        return
    fi
    large_image 4096 $count
    makes '1 GiB and a block' $count
    HEAD=01010c00 digests_it '1 GiB and a block'
    differs "$data" $((count * 4096 - 1)) 'level 0 block 2048, child 262144'
}

# Files of any size: a changed first block ends verify, and missing blocks end format, before more is read.
large_files() {
    local size count root
    root=$(printf '%064d' 0)
    for size in $(((16 << 20) + 512)) $(((1 << 30) + 512)) $(((1 << 32) + 512)) $((1 << 40)); do
        count=$((size / 512))
        rm -f "$data" "$hash"
        sample 512 >"$data"
        truncate -s "$size" "$data"
        superblock 512 512 "$count" '' >"$hash"
        # The levels above level 0 have fewer blocks than that: all of them are zeros.
        truncate -s "$size" "$hash"
        runs "$size bytes: a changed first block" 2 '' 'Verification failed: level 0 block 0, child 0.' \
            "$veritysetup" verify "$data" "$hash" "$root"
        runs "$size bytes: a changed first block, no superblock" 2 '' 'Verification failed: level 0 block 0, child 0.' \
            "$veritysetup" verify --no-superblock --salt=- --data-block-size 512 --hash-block-size 512 \
            --hash-offset 512 "$data" "$hash" "$root"
        rm "$hash"
        runs "$size bytes: a block more is wanted" 4 '' "Data ends before the end of block $count." \
            "$veritysetup" format --data-blocks $((count + 1)) --data-block-size 512 "$data" "$hash"
        absent "$size bytes: a block more is wanted" "$hash"
    done
}

# The hash area of 17 blocks after 4 GiB and after 1 TiB of HASH, with and without its superblock.
far_offsets() {
    local offset after bare=(--no-superblock --salt=- --data-block-size 512 --hash-block-size 512)
    image_17 "$data" "$stated"
    for offset in $(((1 << 32) + 512)) $(((1 << 40) + 512)); do
        after=$((offset + 512))
        rm -f "$hash"
        runs "offset $offset: format" 0 "$(report "$hash" 512 512 17 - "$root")" '' \
            "$veritysetup" format "${image_17_options[@]}" --hash-offset "$offset" "$data" "$hash"
        same "offset $offset: the length of the hash file" $((offset + 2048)) "$(stat -c %s "$hash")"
        tail -c 2048 "$hash" >"$scratch/written"
        same_bytes "offset $offset: format: the hash area" "$stated" "$scratch/written"
        rm "$hash"
        runs "offset $offset: format without a superblock" 0 any '' \
            "$veritysetup" format "${image_17_options[@]}" --no-superblock --hash-offset "$after" "$data" "$hash"
        tail -c 2048 "$hash" >"$scratch/written"
        zeros 512 | cat - <(tail -c 1536 "$stated") >"$scratch/expected"
        same_bytes "offset $offset: format without a superblock: the tree" "$scratch/expected" "$scratch/written"

        rm "$hash"
        truncate -s "$offset" "$hash"
        cat "$stated" >>"$hash"
        runs "offset $offset: dump" 0 "$(report "$hash" 512 512 17 -)" '' \
            "$veritysetup" dump --hash-offset "$offset" "$hash"
        far_verify 0 '' "$root"
        far_verify 2 "Verification failed: root hash is $root." "$(printf '%064d' 0)"
        flip "$hash" $((offset + 1568)) 1
        far_verify 2 'Verification failed: level 0 block 1, spare bytes.' "$root"
        truncate -s -1 "$hash"
        flip "$hash" $((offset + 1568)) 1
        far_verify 2 'Verification failed: level 0 block 1 is missing.' "$root"
        truncate -s "$offset" "$hash"
        runs "offset $offset: dump at the end of HASH" 1 '' 'Superblock is too short.' \
            "$veritysetup" dump --hash-offset "$offset" "$hash"
    done
}

# far_verify STATUS TEXT ROOT: verify at this offset, by the superblock and by options.
far_verify() {
    runs "offset $offset: verify: $2" "$1" '' "$2" \
        "$veritysetup" verify --hash-offset "$offset" "$data" "$hash" "$3"
    runs "offset $offset: verify without a superblock: $2" "$1" '' "$2" \
        "$veritysetup" verify "${bare[@]}" --hash-offset "$after" "$data" "$hash" "$3"
}

# 50000 names of 25 characters, as README.md says.
many_names() {
    local none names status=0
    none=$(digest "$(printf '%064d' 0)" 0)
    (
        cd "$scratch" && mkdir names && cd names &&
            seq -f 'name_%020.0f' 50000 | tee ../names.txt | xargs touch
    )
    sed "s/^/sha256:$none /" "$scratch/names.txt" >"$scratch/expected"
    mapfile -t names <"$scratch/names.txt"
    fsverity=$(realpath "$fsverity")
    # The system gives the words a quarter of the stack.
    (ulimit -S -s 8192 && cd "$scratch/names" && exec "$fsverity" digest "${names[@]}") >"$scratch/out" \
        2>"$scratch/err" || status=$?
    same '50000 names: status' 0 $status
    is_text '50000 names: messages' '' "$scratch/err"
    same_bytes '50000 names' "$scratch/expected" "$scratch/out"
}

many_blocks
many_levels
much_data
large_files
far_offsets
many_names
finish
