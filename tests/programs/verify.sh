#!/usr/bin/env bash
# Runs bin/veritysetup dump and verify as a user would.
set -u
cd "$(dirname "$0")/../.."
. tests/lib/checks.sh
. tests/lib/stated_images.sh
has_program veritysetup
veritysetup=$BIN/veritysetup

data=$scratch/data.img
stated=$scratch/stated.img
image_17 "$data" "$stated"
hash=$scratch/hash.img

# refuses_superblock NAME TEXT FILE: dump and verify refuse a superblock alike.
refuses_superblock() {
    runs "dump: $1" 1 '' "$2" "$veritysetup" dump "$3"
    runs "verify: $1" 1 '' "$2" "$veritysetup" verify "$data" "$3" "$root"
}

# with_changed_byte NAME TEXT OFFSET HEX: HASH with one byte changed is refused as a superblock.
with_changed_byte() {
    cp "$stated" "$hash"
    set_byte "$hash" "$3" "$4"
    refuses_superblock "$1" "$2" "$hash"
}

superblocks() {
    runs 'dump' 0 "$(report "$stated" 512 512 17 -)" '' "$veritysetup" dump "$stated"
    cp "$stated" "$hash"
    # Behind the zero of the name, in the pads, and in the salt, of which no byte counts.
    for offset in $((ALGORITHM_AT + 7)) $((DATA_BLOCK_SIZE_AT - 1)) $FIRST_PAD_AT $((SALT_AT - 1)) $SALT_AT \
        $((LAST_PAD_AT - 1)) $LAST_PAD_AT $((SUPERBLOCK_SIZE - 1)); do
        set_byte "$hash" "$offset" ff
    done
    runs 'dump: pads are ignored' 0 "$(report "$hash" 512 512 17 -)" '' "$veritysetup" dump "$hash"
    runs 'verify: pads are ignored' 0 '' '' "$veritysetup" verify "$data" "$hash" "$root"

    head -c $((SUPERBLOCK_SIZE - 1)) "$stated" >"$scratch/short"
    refuses_superblock '511 bytes' 'Superblock is too short.' "$scratch/short"
    : >"$scratch/empty"
    refuses_superblock 'an empty file' 'Superblock is too short.' "$scratch/empty"
    with_changed_byte 'another signature' 'No verity superblock.' $((SIGNATURE_AT + 7)) 01
    with_changed_byte 'another version' 'Superblock version 2 is not supported.' $VERSION_AT 02
    with_changed_byte 'another hash type' 'Superblock hash type 2 is not supported.' $HASH_TYPE_AT 02
    with_changed_byte 'another data block size' 'Superblock data block size 768 is not valid.' $((DATA_BLOCK_SIZE_AT + 1)) 03
    with_changed_byte 'another hash block size' 'Superblock hash block size 256 is not valid.' $((HASH_BLOCK_SIZE_AT + 1)) 01
    with_changed_byte 'another algorithm' 'Superblock hash algorithm is not supported.' $ALGORITHM_AT 41
    with_changed_byte 'a long salt' 'Superblock salt size 512 is not valid.' $((SALT_SIZE_AT + 1)) 02
    with_changed_byte 'no data blocks' 'No data blocks.' $DATA_BLOCKS_AT 00
    with_changed_byte 'too many data blocks' 'Data or hash area is too large.' $((DATA_BLOCKS_AT + 7)) 80
}

# Superblocks and trees elsewhere than at the start of HASH, and trees without a superblock.
areas() {
    local tree=$scratch/tree options=(--no-superblock --data-block-size 512 --hash-block-size 512)
    runs 'dump at an offset past the end' 1 '' 'Superblock is too short.' \
        "$veritysetup" dump --hash-offset 2048 "$stated"
    runs 'dump at an offset with other bytes' 1 '' 'No verity superblock.' \
        "$veritysetup" dump --hash-offset 512 "$stated"
    { sample 1024 && cat "$stated"; } >"$hash"
    runs 'dump at an offset' 0 "$(report "$hash" 512 512 17 -)" '' "$veritysetup" dump --hash-offset 1024 "$hash"
    runs 'verify at an offset' 0 '' '' "$veritysetup" verify --hash-offset 1024 "$data" "$hash" "$root"
    flip "$hash" 2048 1
    runs 'verify at an offset: a changed byte' 2 '' 'Verification failed: level 0 block 0, child 0.' \
        "$veritysetup" verify --hash-offset 1024 "$data" "$hash" "$root"
    for command in "dump $scratch/missing" "verify $scratch/missing $scratch/missing $root"; do
        # shellcheck disable=SC2086
        set -- $command
        runs "$1: an offset that is no number" 1 '' 'Option --hash-offset is not a number.' \
            "$veritysetup" "$1" --hash-offset x "${@:2}"
        runs "$1: an offset that is no multiple of 512" 1 '' 'Hash offset is not valid.' \
            "$veritysetup" "$1" --hash-offset 511 "${@:2}"
    done
    runs 'verify with a superblock reads no other option' 0 '' '' \
        "$veritysetup" verify --hash md5 --salt x --data-blocks 0 "$data" "$stated" "$root"
    # What pins the parameters: all of them as options, and the offset of the tree behind the superblock.
    runs 'verify by pinned parameters' 0 '' '' \
        "$veritysetup" verify "${options[@]}" --salt=- --data-blocks 17 --hash-offset 512 "$data" "$stated" "$root"
    runs 'verify by pinned parameters: another salt' 2 '' any \
        "$veritysetup" verify "${options[@]}" --salt=00 --data-blocks 17 --hash-offset 512 "$data" "$stated" "$root"
    runs 'verify by pinned parameters: another number of blocks' 2 '' any \
        "$veritysetup" verify "${options[@]}" --salt=- --data-blocks 16 --hash-offset 512 "$data" "$stated" "$root"

    tail -c +513 "$stated" >"$tree"
    runs 'verify without a superblock' 0 '' '' "$veritysetup" verify "${options[@]}" --salt=- "$data" "$tree" "$root"
    runs 'verify without a superblock and salt' 1 '' 'Salt is not valid.' \
        "$veritysetup" verify "${options[@]}" "$data" "$tree" "$root"
    runs 'verify without a superblock: a bad root hash before HASH is opened' 1 '' 'Root hash is not valid.' \
        "$veritysetup" verify "${options[@]}" --salt=- "$data" "$scratch/missing" "${root:1}"
    runs 'verify without a superblock: another root hash' 2 '' "Verification failed: root hash is $root." \
        "$veritysetup" verify "${options[@]}" --salt=- "$data" "$tree" "$(printf '%064d' 0)"
    runs 'verify without a superblock: a superblock is no tree' 2 '' 'Verification failed: level 0 block 0, child 0.' \
        "$veritysetup" verify "${options[@]}" --salt=- "$data" "$stated" "$root"
    runs 'verify without a superblock: missing data' 4 '' "Cannot open $scratch/missing." \
        "$veritysetup" verify "${options[@]}" --salt x "$scratch/missing" "$tree" "$root"
}

# Data and hash area in one file, by whichever names, with and without a superblock: what is wrong there is found.
one_file() {
    local both=$scratch/both name bare=(--no-superblock --data-block-size 512 --hash-block-size 512 --salt=-)
    cat "$data" "$stated" >"$both"
    ln -s both "$scratch/both_soft"
    ln "$both" "$scratch/both_hard"
    for name in "$both" "$scratch/./both" "$scratch/both_soft" "$scratch/both_hard"; do
        in_one_file 0 ''
        flip "$both" 8703 1
        in_one_file 2 'Verification failed: level 0 block 1, child 16.'
        flip "$both" 8703 1
        flip "$both" $((8704 + 1024)) 1
        in_one_file 2 'Verification failed: level 0 block 0, child 0.'
        flip "$both" $((8704 + 1024)) 1
    done
    runs 'one file without a superblock: no offset' 2 '' 'Verification failed: level 0 block 0, child 0.' \
        "$veritysetup" verify "${bare[@]}" --data-blocks 17 "$both" "$both" "$root"
}

# in_one_file STATUS TEXT: verify of this file and this name of it, by the superblock and by options.
in_one_file() {
    runs "one file, as $name: $2" "$1" '' "$2" "$veritysetup" verify --hash-offset 8704 "$both" "$name" "$root"
    runs "one file without a superblock, as $name: $2" "$1" '' "$2" "$veritysetup" verify "${bare[@]}" \
        --data-blocks 17 --hash-offset 9216 "$both" "$name" "$root"
}

# Data without a whole block is refused without a superblock, and too short for one.
no_data() {
    local size file bare=(--no-superblock --data-block-size 512 --hash-block-size 512 --salt=-)
    tail -c +513 "$stated" >"$scratch/tree"
    for size in 0 1 511; do
        file=$scratch/data.$size
        head -c "$size" "$data" >"$file"
        names "$size bytes of data" 'Data ends before the end of block 0.' 4 "$file" "$stated"
        runs "verify without a superblock: $size bytes of data" 1 '' 'No data blocks.' \
            "$veritysetup" verify "${bare[@]}" "$file" "$scratch/tree" "$root"
        runs "verify without a superblock: 17 blocks of $size bytes" 4 '' 'Data ends before the end of block 0.' \
            "$veritysetup" verify "${bare[@]}" --data-blocks 17 "$file" "$scratch/tree" "$root"
    done
    names 'the null device as data' 'Data ends before the end of block 0.' 4 /dev/null "$stated"
    runs 'verify without a superblock: the null device as data' 1 '' 'No data blocks.' \
        "$veritysetup" verify "${bare[@]}" /dev/null "$scratch/tree" "$root"
}

# names NAME TEXT STATUS DATA HASH [ROOT]: verify ends with a message.
names() {
    runs "verify: $1" "$3" '' "$2" "$veritysetup" verify "$4" "$5" "${6:-$root}"
}

trees() {
    local other
    names 'the right image' '' 0 "$data" "$stated"
    names 'a root hash in capitals' '' 0 "$data" "$stated" "${root^^}"
    other=$(printf '%064d' 0)
    names 'another root hash' "Verification failed: root hash is $root." 2 "$data" "$stated" "$other"
    names 'a root hash of 63 digits' 'Root hash is not valid.' 1 "$data" "$stated" "${root:1}"
    names 'a root hash of 66 digits' 'Root hash is not valid.' 1 "$data" "$stated" "00$root"
    names 'a root hash that is not hexadecimal' 'Root hash is not valid.' 1 "$data" "$stated" "${other//0/g}"

    cp "$data" "$scratch/changed"
    flip "$scratch/changed" 8192 255
    names 'a byte of data block 16' 'Verification failed: level 0 block 1, child 16.' 2 "$scratch/changed" "$stated"

    changed_hash 1023 'Verification failed: level 1 block 0, spare bytes.'
    changed_hash 1024 'Verification failed: level 0 block 0, child 0.'
    changed_hash 1055 'Verification failed: level 0 block 0, child 0.'
    changed_hash 1056 'Verification failed: level 0 block 0, child 1.'
    changed_hash 1536 'Verification failed: level 0 block 1, child 16.'
    changed_hash 1568 'Verification failed: level 0 block 1, spare bytes.'
    changed_hash 512 'Verification failed: level 1 block 0, child 0.'
    changed_hash 544 'Verification failed: level 1 block 0, child 1.'
    # Level 0 closes before level 1.
    flip "$hash" 1536 1
    names 'bytes of two levels' 'Verification failed: level 0 block 1, child 16.' 2 "$data" "$hash"
}

# changed_hash OFFSET TEXT: the lowest bit of one byte of HASH is turned.
changed_hash() {
    cp "$stated" "$hash"
    flip "$hash" "$1" 1
    names "byte $1 of the hash file" "$2" 2 "$data" "$hash"
}

lengths() {
    head -c 2047 "$stated" >"$hash"
    names 'a hash file cut by a byte' 'Verification failed: level 0 block 1 is missing.' 2 "$data" "$hash"
    head -c 512 "$stated" >"$hash"
    names 'a hash file of a superblock alone' 'Verification failed: level 0 block 0 is missing.' 2 "$data" "$hash"
    head -c 8703 "$data" >"$scratch/cut"
    names 'data cut by a byte' 'Data ends before the end of block 16.' 4 "$scratch/cut" "$stated"
    cp "$stated" "$hash"
    flip "$hash" 1024 1
    names 'a difference before the end of cut data' 'Verification failed: level 0 block 0, child 0.' 2 "$scratch/cut" "$hash"
    { cat "$data" && echo more; } >"$scratch/longer"
    names 'data past the covered blocks' '' 0 "$scratch/longer" "$stated"

    # The most data blocks that there can be: their tree lies past what a file system can hold.
    superblock 512 512 18014398509481983 '' >"$hash"
    names 'a tree that no file can hold' 'Verification failed: level 0 block 0 is missing.' 2 "$data" "$hash"
    head -c 7680 "$data" >"$scratch/15"
    names 'a tree that no file can hold, little data' 'Data ends before the end of block 15.' 4 "$scratch/15" "$hash"
}

files() {
    runs 'dump: a missing file' 4 '' "Cannot open $scratch/missing." "$veritysetup" dump "$scratch/missing"
    runs 'dump: the null device' 1 '' 'Superblock is too short.' "$veritysetup" dump /dev/null
    runs 'dump: a folder' 4 '' "Cannot open $scratch." "$veritysetup" dump "$scratch"
    runs 'verify: a folder as the data' 4 '' "Cannot open $scratch." "$veritysetup" verify "$scratch" "$stated" "$root"
    runs 'verify: a folder as the hash file' 4 '' "Cannot open $scratch." "$veritysetup" verify "$data" "$scratch" "$root"
    for file in data hash; do
        if [ $file = data ]; then words=("$scratch" "$stated"); else words=("$data" "$scratch"); fi
        runs "verify without a superblock: a folder as the $file" 4 '' "Cannot open $scratch." "$veritysetup" verify \
            --no-superblock --data-block-size 512 --hash-block-size 512 --salt=- "${words[@]}" "$root"
    done
    names 'missing data' "Cannot open $scratch/missing." 4 "$scratch/missing" "$stated"
    names 'a missing hash file' "Cannot open $scratch/missing." 4 "$data" "$scratch/missing"
    names 'missing data and a missing hash file' "Cannot open $scratch/none." 4 "$scratch/none" "$scratch/missing"
    names 'a bad root hash and a missing hash file' "Cannot open $scratch/missing." 4 "$data" "$scratch/missing" abc
    absent 'verify makes no file' "$scratch/missing"
    cp "$stated" "$hash"
    chmod 444 "$hash"
    names 'a hash file that is read-only' '' 0 "$data" "$hash"
    chmod 644 "$hash"
    same_bytes 'verify writes nothing' "$stated" "$hash"
}

outputs() {
    local unwritten='Cannot write output.'
    runs 'dump: output on a full device' 4 '' "$unwritten" bash -c '"$@" >/dev/full' - "$veritysetup" dump "$stated"
    runs 'dump: a closed standard output' 4 '' "$unwritten" with_closed 1 "$veritysetup" dump "$stated"
    runs 'verify: a closed standard error' 2 '' '' \
        with_closed 2 "$veritysetup" verify "$data" "$stated" "$(printf '%064d' 0)"
    runs 'verify: standard error on a full device' 2 '' '' \
        bash -c '"$@" 2>/dev/full' - "$veritysetup" verify "$data" "$stated" "$(printf '%064d' 0)"
    runs 'verify: all streams closed' 0 '' '' with_closed '0 1 2' "$veritysetup" verify "$data" "$stated" "$root"
}

memory() {
    local large=$scratch/large root
    zeros 1048576 >"$large"
    root=$("$veritysetup" format --salt=- --data-block-size 524288 --hash-block-size 524288 "$large" "$large.hash" |
        sed -n 's/^Root hash: *\t//p')
    runs 'memory for the store' 0 '' '' "$veritysetup" verify "$large" "$large.hash" "$root"
    with_scarce_memory 'no memory for the store' 3 '' 'Out of memory.' \
        "$veritysetup" verify "$large" "$large.hash" "$root"
}

# Each option chooses what it is named after, in one word or two, at each place between the files.
places() {
    local chosen=$scratch/chosen chosen_hash=$scratch/chosen.img root form words at_1536
    chosen_image "$chosen" "$chosen_hash"
    for form in 'two words' 'one word'; do
        words=("${chosen_options[@]}" --hash-offset 2048)
        at_1536=(--hash-offset 1536)
        if [ "$form" = 'one word' ]; then
            mapfile -t words < <(joined "${words[@]}")
            at_1536=(--hash-offset=1536)
        fi
        words+=(--no-superblock)
        runs "dump: options in $form, first" 0 "$(chosen_report "$chosen_hash")" '' \
            "$veritysetup" dump "${at_1536[@]}" "$chosen_hash"
        runs "dump: options in $form, last" 0 "$(chosen_report "$chosen_hash")" '' \
            "$veritysetup" dump "$chosen_hash" "${at_1536[@]}"
        verifies_at_each_place "options in $form" "${at_1536[@]}"
        verifies_at_each_place "options in $form, no superblock" "${words[@]}"
    done
    runs 'verify: options everywhere' 0 '' '' "$veritysetup" verify --hash-offset=2048 --no-superblock "$chosen" \
        --salt abcdef --data-blocks 17 --hash-block-size=1024 "$chosen_hash" --data-block-size 512 --format 0 \
        "$root" --hash sha512
}

# verifies_at_each_place NAME OPTION..: verify accepts the chosen image, which `places` has made, with these options
# before, between and after DATA, HASH and ROOT.
verifies_at_each_place() {
    local name=$1 files=("$chosen" "$chosen_hash" "$root") count
    shift
    for count in 0 1 2 3; do
        runs "verify: $name after $count files" 0 '' '' \
            "$veritysetup" verify "${files[@]:0:count}" "$@" "${files[@]:count}"
    done
}

superblocks
areas
one_file
trees
lengths
no_data
files
outputs
memory
places
finish
