#!/usr/bin/env bash
# Runs bin/veritysetup format as a user would: images, files, memory and streams.
set -u
cd "$(dirname "$0")/../.."
. tests/lib/checks.sh
. tests/lib/stated_images.sh
has_program veritysetup
veritysetup=$BIN/veritysetup

data=$scratch/data.img
stated=$scratch/stated.img
image_17 "$data" "$stated"
hash=$scratch/hash.img

images() {
    local zero=$scratch/zero
    zeros 4096 >"$zero"
    runs 'one block by default' 0 "$(report "$hash" 4096 4096 1 - "$(sha256 "$zero")")" '' \
        "$veritysetup" format --salt=- --uuid "$UUID" "$zero" "$hash"
    superblock 4096 4096 1 '' >"$scratch/expected"
    same_bytes 'one block by default: the hash file' "$scratch/expected" "$hash"

    rm "$hash"
    runs '17 blocks' 0 "$(report "$hash" 512 512 17 - "$root")" '' \
        "$veritysetup" format "$data" "$hash" "${image_17_options[@]}"
    same_bytes '17 blocks: the hash file' "$stated" "$hash"

    head -c 4096 /dev/zero | tr '\0' w >"$hash"
    cp "$hash" "$scratch/expected"
    dd if="$stated" of="$scratch/expected" conv=notrunc status=none
    runs '17 blocks onto a longer file' 0 "$(report "$hash" 512 512 17 - "$root")" '' \
        "$veritysetup" format "${image_17_options[@]}" "$data" "$hash"
    same_bytes '17 blocks onto a longer file: other bytes stay' "$scratch/expected" "$hash"

    sample 9000 >"$scratch/tail"
    runs 'a tail that is no whole block is not covered' 0 "$(report "$hash" 512 512 17 - "$root")" '' \
        "$veritysetup" format "${image_17_options[@]}" "$scratch/tail" "$hash"
    salted_image
}

# One data block of 512 bytes in a salted tree, hash blocks of 1024: no hash block, so the superblock stands alone.
salted_image() {
    local salted
    sample 512 >"$scratch/one"
    salted=$({ bytes abcdef && cat "$scratch/one"; } | sha256sum | cut -c1-64)
    rm "$hash"
    runs 'a salt' 0 "$(report "$hash" 512 1024 1 abcdef "$salted")" '' "$veritysetup" format \
        --hash sha256 --format 1 --salt ABcdEF --data-block-size 00512 --hash-block-size 1024 --uuid "${UUID^^}" "$scratch/one" "$hash"
    superblock 512 1024 1 abcdef >"$scratch/expected"
    same_bytes 'a salt: the hash file' "$scratch/expected" "$hash"
}

files() {
    local short
    for size in 0 511 4095; do
        rm -f "$hash"
        short=$scratch/short.$size
        sample "$size" >"$short"
        runs "$size bytes of data" 1 '' 'No data blocks.' "$veritysetup" format --salt=- --uuid "$UUID" "$short" "$hash"
        absent "$size bytes of data" "$hash"
    done
    runs 'an empty file as data and hash' 1 '' 'No data blocks.' "$veritysetup" format "$scratch/short.0" "$scratch/short.0"
    runs 'missing data' 4 '' "Cannot open $scratch/missing." "$veritysetup" format "$scratch/missing" "$hash"
    absent 'missing data' "$hash"
    runs 'a hash file in a missing folder' 4 '' "Cannot open $scratch/none/hash." \
        "$veritysetup" format "$data" "$scratch/none/hash"
    runs 'a folder as the data' 4 '' "Cannot open $scratch." "$veritysetup" format "$scratch" "$hash"
    absent 'a folder as the data' "$hash"
    runs 'a folder as the hash file' 4 '' "Cannot open $scratch." "$veritysetup" format "$data" "$scratch"
    runs 'a device that keeps nothing as the hash file' 0 any '' \
        "$veritysetup" format "${image_17_options[@]}" "$data" /dev/null
    runs 'a full device as the hash file' 4 '' 'Cannot write hash block 0 of level 0.' \
        "$veritysetup" format "${image_17_options[@]}" "$data" /dev/full
}

# More data blocks than there are: the hash file is neither made nor touched.
short_data() {
    local both=$scratch/short_both
    rm -f "$hash"
    sample 8703 >"$scratch/cut"
    runs 'more data blocks than there are' 4 '' 'Data ends before the end of block 17.' \
        "$veritysetup" format --data-blocks 18 "${image_17_options[@]}" "$data" "$hash"
    absent 'more data blocks than there are' "$hash"
    sample 3000 >"$hash"
    cp "$hash" "$scratch/expected"
    touch -d '2001-02-03 04:05:06' "$hash"
    runs 'data that is a byte short' 4 '' 'Data ends before the end of block 16.' \
        "$veritysetup" format --data-blocks 17 "${image_17_options[@]}" "$scratch/cut" "$hash"
    same_bytes 'data that is a byte short: the hash file' "$scratch/expected" "$hash"
    same 'data that is a byte short: when the hash file was changed' '2001-02-03 04:05:06' "$(stat -c %y "$hash" | cut -c1-19)"
    cp "$data" "$both"
    runs 'one file that would grow by its own tree' 4 '' 'Data ends before the end of block 17.' \
        "$veritysetup" format --data-blocks 20 --hash-offset 10240 "${image_17_options[@]}" "$both" "$both"
    same_bytes 'one file that would grow by its own tree' "$data" "$both"
    runs 'an option before short data' 1 '' 'Hash offset is not valid.' \
        "$veritysetup" format --data-blocks 18 --hash-offset 100 "${image_17_options[@]}" "$data" "$hash"
    runs 'one file before short data' 1 '' 'Data area and hash area overlap.' \
        "$veritysetup" format --data-blocks 18 "${image_17_options[@]}" "$both" "$both"
    same_bytes 'one file before short data' "$data" "$both"
}

# Hash areas elsewhere than at the start of HASH, and without a superblock.
areas() {
    local tree=$scratch/tree
    tail -c +513 "$stated" >"$tree"
    rm -f "$hash"
    runs 'no superblock' 0 "$(report "$hash" 512 512 17 - "$root" | bare)" '' \
        "$veritysetup" format --no-superblock "${image_17_options[@]}" "$data" "$hash"
    same_bytes 'no superblock: the tree alone' "$tree" "$hash"
    # What verify takes by the same options, but for --uuid, which it doesn't have.
    runs 'no superblock: verify by the same options' 0 '' '' \
        "$veritysetup" verify --no-superblock "${image_17_options[@]:0:4}" "$data" "$hash" "$root"

    sample 8192 >"$hash"
    { head -c 8192 "$hash" && cat "$tree"; } >"$scratch/expected"
    runs 'no superblock at an offset' 0 any '' \
        "$veritysetup" format --no-superblock --hash-offset 8192 "${image_17_options[@]}" "$data" "$hash"
    same_bytes 'no superblock at an offset: the bytes before stay' "$scratch/expected" "$hash"

    rm "$hash"
    { zeros 1024 && cat "$stated"; } >"$scratch/expected"
    runs 'an offset' 0 any '' "$veritysetup" format --hash-offset 1024 "${image_17_options[@]}" "$data" "$hash"
    same_bytes 'an offset: zeros before it' "$scratch/expected" "$hash"
}

# Data and hash area in one file, by whichever names: the hash area has to stand after the covered data.
one_file() {
    local both=$scratch/both name overlap='Data area and hash area overlap.'
    cp "$data" "$both"
    ln -s both "$scratch/link"
    ln "$both" "$scratch/hard"
    for name in "$both" "$scratch/./both" "$scratch/link" "$scratch/hard" "$(cd "$scratch" && pwd -P)/both"; do
        runs "one file: $name" 1 '' "$overlap" "$veritysetup" format "${image_17_options[@]}" "$both" "$name"
        runs "one file: $name within the data" 1 '' "$overlap" \
            "$veritysetup" format --data-blocks 17 --hash-offset 8192 "${image_17_options[@]}" "$both" "$name"
        same_bytes "one file: $name: it stays" "$data" "$both"
    done
    runs 'one file: by a relative path' 1 '' "$overlap" \
        bash -c 'cd "$1"; shift; "$@"' - "$scratch" "$(realpath "$veritysetup")" format "${image_17_options[@]}" "$both" both
    same_bytes 'one file: by a relative path: it stays' "$data" "$both"

    { cat "$data" && cat "$stated"; } >"$scratch/expected"
    for name in "$both" "$scratch/./both" "$scratch/link" "$scratch/hard"; do
        head -c 8704 "$data" >"$both"
        runs "one file: $name after the data" 0 "$(report "$name" 512 512 17 - "$root")" '' \
            "$veritysetup" format --data-blocks 17 --hash-offset 8704 "${image_17_options[@]}" "$both" "$name"
        same_bytes "one file: $name after the data: all bytes" "$scratch/expected" "$both"
        runs "one file: $name: verify" 0 '' '' "$veritysetup" verify --hash-offset 8704 "$both" "$name" "$root"
    done
    runs 'one file: made again with all blocks' 1 '' "$overlap" \
        "$veritysetup" format --hash-offset 8704 "${image_17_options[@]}" "$both" "$both"
    same_bytes 'one file: made again with all blocks: it stays' "$scratch/expected" "$both"
}

# A new hash file may be read and written by everybody but for what the umask takes.
permissions() {
    local mask
    for mask in 000 022 077; do
        rm -f "$hash"
        runs "a new hash file with a umask of $mask" 0 "$(report "$hash" 512 512 17 - "$root")" '' bash -c \
            'umask "$1"; shift; exec "$@"' - "$mask" "$veritysetup" format "${image_17_options[@]}" "$data" "$hash"
        same "a new hash file with a umask of $mask: permissions" "$(printf %o $((0666 & ~0$mask)))" "$(stat -c %a "$hash")"
    done
}

# If the report can't be written the hash file is whole all the same.
outputs() {
    local unwritten='Cannot write output.'
    rm -f "$hash"
    runs 'output on a full device' 4 '' "$unwritten" \
        bash -c '"$@" >/dev/full' - "$veritysetup" format "${image_17_options[@]}" "$data" "$hash"
    same_bytes 'output on a full device: the hash file' "$stated" "$hash"

    rm -f "$hash"
    runs 'a closed standard output' 4 '' "$unwritten" \
        with_closed 1 "$veritysetup" format "${image_17_options[@]}" "$data" "$hash"
    same_bytes 'a closed standard output: the hash file' "$stated" "$hash"

    rm -f "$hash"
    runs 'all streams closed' 4 '' '' \
        with_closed '0 1 2' "$veritysetup" format "${image_17_options[@]}" "$data" "$hash"
    same_bytes 'all streams closed: the hash file' "$stated" "$hash"

    rm -f "$hash"
    mkfifo "$scratch/unread"
    runs 'a pipe that nobody reads' 4 '' "$unwritten" \
        bash -c 'p=$1; shift; exec 8<>"$p"; exec 9>"$p"; exec 8>&-; "$@" >&9' - "$scratch/unread" \
        "$veritysetup" format "${image_17_options[@]}" "$data" "$hash"
    same_bytes 'a pipe that nobody reads: the hash file' "$stated" "$hash"
}

memory() {
    zeros 1048576 >"$scratch/large"
    with_scarce_memory 'no memory for the store' 3 '' 'Out of memory.' "$veritysetup" format --salt=- \
        --data-block-size 524288 --hash-block-size 524288 "$scratch/large" "$hash"
}

images
areas
one_file
short_data
files
permissions
outputs
memory
finish
