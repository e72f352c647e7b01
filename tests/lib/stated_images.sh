# Images for the checks of veritysetup, made of stated bytes, with their options and reports. Sourced after
# tests/lib/checks.sh.

. tests/lib/layouts.sh

TAB=$(printf '\t')
# The hash function of the images, sha256 or sha512, and their hash type.
ALGORITHM=sha256
HASH_TYPE=1

# report PATH DATA-BLOCK HASH-BLOCK BLOCKS SALT [ROOT]: the report of format with a root hash, of dump without one.
report() {
    echo "VERITY header information for $1"
    echo "UUID:            $TAB$UUID"
    echo "Hash type:       $TAB$HASH_TYPE"
    echo "Data blocks:     $TAB$4"
    echo "Data block size: $TAB$2"
    echo "Hash block size: $TAB$3"
    echo "Hash algorithm:  $TAB$ALGORITHM"
    echo "Salt:            $TAB$5"
    if [ $# -gt 5 ]; then echo "Root hash:       $TAB$6"; fi
}

# image_17 DATA HASH: 17 data blocks of 512 bytes, and their hash device: the superblock, block 0 of level 1, and blocks
# 0 and 1 of level 0, 2048 bytes in all. Sets `root`.
image_17() {
    sample 8704 >"$1"
    hash_blocks "$1" 512 512 >"$scratch/level0"
    hash_blocks "$scratch/level0" 512 512 >"$scratch/level1"
    { superblock 512 512 17 '' && cat "$scratch/level1" "$scratch/level0"; } >"$2"
    root=$(sha256 "$scratch/level1")
}

# bare: the report on standard input as it is without a superblock.
bare() {
    sed "s/^\(UUID: *$TAB\).*/\1-/"
}

# The options with which format makes that image.
image_17_options=(--data-block-size 512 --hash-block-size=512 --salt=- --uuid "$UUID")

# chosen_image DATA HASH: an image of which no setting is what it is without options: 17 of 18 data blocks of 512 bytes,
# hash blocks of 1024, hash type 0, SHA-512, a salt, and 1536 bytes before the superblock. In hash type 0 the salt comes
# after the block. 16 digests fill a hash block. Sets `root`.
chosen_image() {
    local ALGORITHM=sha512 HASH_TYPE=0 salted='{ cat && printf "\253\315\357"; } | sha512sum'
    sample 9216 >"$1"
    head -c 8704 "$1" >"$scratch/covered"
    hash_blocks "$scratch/covered" 512 1024 "$salted" >"$scratch/level0"
    hash_blocks "$scratch/level0" 1024 1024 "$salted" >"$scratch/level1"
    { zeros 1536 && superblock 512 1024 17 abcdef && cat "$scratch/level1" "$scratch/level0"; } >"$2"
    root=$(sh -c "$salted" <"$scratch/level1" | cut -c1-128)
}

# chosen_report PATH [ROOT]: its report.
chosen_report() {
    local ALGORITHM=sha512 HASH_TYPE=0
    report "$1" 512 1024 17 abcdef "${@:2}"
}

# The options that choose its tree, each in two words.
chosen_options=(--hash sha512 --format 0 --data-block-size 512 --hash-block-size 1024 --data-blocks 17 --salt abcdef)

# joined OPTION VALUE..: prints options in one word each, as in --salt=abcdef, a line for each.
joined() {
    printf '%s=%s\n' "$@"
}
