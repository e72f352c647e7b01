#!/usr/bin/env bash
# Names, root hashes and values of options with a blank at their ends: a name is taken with it, although there is a file
# of the name without it, and all others are refused.
set -u
cd "$(dirname "$0")/../.."
. tests/lib/checks.sh
. tests/lib/stated_images.sh
. tests/lib/digests.sh
has_program fsverity
has_program veritysetup
fsverity=$(realpath "$BIN/fsverity")
veritysetup=$(realpath "$BIN/veritysetup")

cd "$scratch" || exit 1
image_17 17.data 17.hash
# One data block of an fs-verity tree, and part of another.
sample 5000 >input
{ cat input && zeros 3192; } >blocks
hash_blocks blocks 4096 4096 >input.tree
line=sha256:$(digest "$(root input)" 5000)
mv descriptor input.descriptor
plain=(data hash file tree made)
for name in "${plain[@]}"; do sample 600 >$name; done
bare=(--no-superblock --hash-offset 512 --data-block-size 512 --hash-block-size 512)

# with_blank NAME BLANK: all that this blank may stand beside.
with_blank() {
    local data=$2data$2 hash=$2hash$2 file=$2file$2 tree=$2tree$2 made=$2made$2 missing=$2missing$2 text option
    cp 17.data "$data"
    cp input "$file"
    runs "$1: format" 0 "$(report "$hash" 512 512 17 - "$root")" '' \
        "$veritysetup" format "${image_17_options[@]}" "$data" "$hash"
    same_bytes "$1: format: the hash file" 17.hash "$hash"
    runs "$1: dump" 0 "$(report "$hash" 512 512 17 -)" '' "$veritysetup" dump "$hash"
    verifies "$1" 0 '' "$root"
    for text in "$2$root" "$root$2" "$2$root$2" "$2" ''; do
        verifies "$1: the root hash '$text'" 1 'Root hash is not valid.' "$text"
    done
    runs "$1: missing data" 4 '' "Cannot open $missing." "$veritysetup" verify "$missing" "$hash" "$root"
    runs "$1: a missing hash file" 4 '' "Cannot open $missing." "$veritysetup" verify "$data" "$missing" "$root"

    runs "$1: digest" 0 "$line $file" '' "$fsverity" digest "$file"
    runs "$1: digest with output files" 0 "$line $file" '' \
        "$fsverity" digest --out-merkle-tree "$tree" --out-descriptor "$made" "$file"
    same_bytes "$1: the tree" input.tree "$tree"
    same_bytes "$1: the descriptor" input.descriptor "$made"
    runs "$1: digest of a missing file" 1 '' "fsverity: cannot open $missing." "$fsverity" digest "$missing"

    for option in hash=sha256 format=1 data-block-size=512 hash-block-size=512 data-blocks=17 salt=ab uuid="$UUID" \
        hash-offset=512; do
        runs "$1 before --$option" 1 '' any "$veritysetup" format "--${option/=/=$2}" "$data" "$missing"
        runs "$1 after --$option" 1 '' any "$veritysetup" format "--$option$2" "$data" "$missing"
    done
    for option in hash-alg=sha256 block-size=4096 salt=ab; do
        runs "$1 before --$option" 2 '' any "$fsverity" digest "--${option/=/=$2}" "$file"
        runs "$1 after --$option" 2 '' any "$fsverity" digest "--$option$2" "$file"
    done
    absent "$1: after a refused option" "$missing"
}

# verifies NAME STATUS TEXT ROOT: verify of this image, by its superblock and by options.
verifies() {
    runs "$1: verify" "$2" '' "$3" "$veritysetup" verify "$data" "$hash" "$4"
    runs "$1: verify without a superblock" "$2" '' "$3" \
        "$veritysetup" verify "${bare[@]}" --salt=- "$data" "$hash" "$4"
}

with_blank 'a space' ' '
with_blank 'a tab' $'\t'
with_blank 'a newline' $'\n'
with_blank 'a no-break space' $'\xc2\xa0'
with_blank 'an ideographic space' $'\xe3\x80\x80'
sample 600 >expected
for name in "${plain[@]}"; do same_bytes "$name, which has no blank, stays" expected $name; done
finish
