#!/usr/bin/env bash
# Runs both programs with SHA-512 as a user would: an image of 17 data blocks in each hash type, and digests with and
# without a salt, whose bytes come from sha512sum.
set -u
cd "$(dirname "$0")/../.."
. tests/lib/checks.sh
. tests/lib/stated_images.sh
ALGORITHM=sha512
has_program fsverity
has_program veritysetup
veritysetup=$BIN/veritysetup

data=$scratch/data.img
hash=$scratch/hash.img
stated=$scratch/stated.img

# image_of SALT: the image of 17 data blocks, whose salted digests $salted gives; eight digests fill a hash block, so
# there are three and one. Sets `root`.
image_of() {
    sample 8704 >"$data"
    hash_blocks "$data" 512 512 "$salted" >"$scratch/level0"
    hash_blocks "$scratch/level0" 512 512 "$salted" >"$scratch/level1"
    { superblock 512 512 17 "$1" && cat "$scratch/level1" "$scratch/level0"; } >"$stated"
    root=$(sh -c "$salted" <"$scratch/level1" | cut -c1-128)
}

# changed OFFSET TEXT: verify names the block of a changed byte of the hash file.
changed() {
    cp "$stated" "$hash"
    flip "$hash" "$1" 1
    runs "byte $1 of the hash file" 2 '' "Verification failed: $2" "$veritysetup" verify "$data" "$hash" "$root"
}

options=(--hash sha512 --data-block-size 512 --hash-block-size 512 --uuid "$UUID")

current() {
    salted='{ printf "\253\315\357" && cat; } | sha512sum'
    image_of abcdef
    runs 'format' 0 "$(report "$hash" 512 512 17 abcdef "$root")" '' \
        "$veritysetup" format "${options[@]}" --salt=abcdef "$data" "$hash"
    same_bytes 'format: the hash file' "$stated" "$hash"
    runs 'dump' 0 "$(report "$stated" 512 512 17 abcdef)" '' "$veritysetup" dump "$stated"
    runs 'verify' 0 '' '' "$veritysetup" verify "$data" "$stated" "$root"
    runs 'verify: another root hash' 2 '' "Verification failed: root hash is $root." \
        "$veritysetup" verify "$data" "$stated" "$(printf '%0128d' 0)"
    runs 'verify: a root hash of SHA-256' 1 '' 'Root hash is not valid.' \
        "$veritysetup" verify "$data" "$stated" "${root:64}"
    changed 512 'level 1 block 0, child 0.'
    changed 703 'level 1 block 0, child 2.'
    changed 704 'level 1 block 0, spare bytes.'
    changed 1024 'level 0 block 0, child 0.'
    changed 2111 'level 0 block 2, child 16.'
    changed 2112 'level 0 block 2, spare bytes.'
}

# In hash type 0 the salt comes after the block. Digests of 64 bytes stand without gaps in both types.
original() {
    salted='{ cat && printf "\253\315\357"; } | sha512sum'
    image_of abcdef
    set_byte "$stated" $HASH_TYPE_AT 00
    rm -f "$hash"
    runs 'hash type 0' 0 any '' "$veritysetup" format "${options[@]}" --format 0 --salt=abcdef "$data" "$hash"
    same_bytes 'hash type 0: the hash file' "$stated" "$hash"
    runs 'hash type 0: verify' 0 '' '' "$veritysetup" verify "$data" "$stated" "$root"
}

# described SIZE ROOT SALT: the file digest of blocks of 4096, SHA-512 of the descriptor.
described() {
    descriptor "01020c$(printf %02x $((${#3} / 2)))" "$1" "$2" "$3" >"$scratch/descriptor"
    sha512 "$scratch/descriptor"
}

digests_of_files() {
    local file=$scratch/two
    sample 4097 >"$file"
    cp "$file" "$scratch/whole"
    truncate -s %4096 "$scratch/whole"
    hash_blocks "$scratch/whole" 4096 4096 sha512sum >"$scratch/tree"
    runs 'digest' 0 "sha512:$(described 4097 "$(sha512 "$scratch/tree")" '') $file" '' \
        "$BIN/fsverity" digest --hash-alg sha512 --out-merkle-tree "$scratch/made" "$file"
    same_bytes 'digest: the tree file' "$scratch/tree" "$scratch/made"

    printf a >"$scratch/one"
    # A salt is filled up to 128 bytes before the block.
    { bytes abcd && zeros 126 && printf a && zeros 4095; } >"$scratch/salted"
    runs 'digest with a salt' 0 "sha512:$(described 1 "$(sha512 "$scratch/salted")" abcd) $scratch/one" '' \
        "$BIN/fsverity" digest --hash-alg sha512 --salt abcd "$scratch/one"
    runs 'the formatted digest' 0 "465356657269747902004000$(described 1 "$(sha512 "$scratch/salted")" abcd)" '' \
        "$BIN/fsverity" digest --hash-alg sha512 --salt abcd --compact --for-builtin-sig "$scratch/one"
}

current
original
digests_of_files
finish
