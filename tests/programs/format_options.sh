#!/usr/bin/env bash
# Runs bin/veritysetup format as a user would: options and drawn values.
set -u
cd "$(dirname "$0")/../.."
. tests/lib/checks.sh
. tests/lib/stated_images.sh
has_program veritysetup
veritysetup=$BIN/veritysetup

data=$scratch/data.img
stated=$scratch/stated.img
image_17 "$data" "$stated"
hash=$scratch/hash.img

# report_has NAME LABEL PATTERN: a line of the report in $scratch/.out.
report_has() {
    if grep -qE "^$2: +$TAB$3$" "$scratch/.out"; then
        pass
    else
        fail "$1" "expected: $2 $3" "found:    $(cat "$scratch/.out")"
    fi
}

# drawn NAME LABEL.. -- OPTION..: values that are not given are drawn: those of two runs differ.
drawn() {
    local name=$1 labels=() label first
    shift
    while [ "$1" != -- ]; do
        labels+=("$1")
        shift
    done
    shift
    rm -f "$hash"
    runs "$name" 0 any '' "$veritysetup" format "$@" "$data" "$hash"
    first=$(cat "$scratch/.out")
    runs "$name, again" 0 any '' "$veritysetup" format "$@" "$data" "$hash"
    for label in "${labels[@]}"; do
        if [ "$(grep "^$label" <<<"$first")" != "$(grep "^$label" "$scratch/.out")" ]; then
            pass
        else
            fail "$name: two runs draw one $label" "$first"
        fi
    done
}

drawn_values() {
    local salt='[0-9a-f]{64}' uuid='[0-9a-f]{8}-[0-9a-f]{4}-4[0-9a-f]{3}-[89ab][0-9a-f]{3}-[0-9a-f]{12}'
    drawn 'no salt and no UUID' Salt UUID --
    report_has 'a drawn salt' Salt "$salt"
    report_has 'a drawn UUID' UUID "$uuid"
    drawn 'a salt alone' UUID -- --salt=abcd
    report_has 'a salt alone: the salt' Salt abcd
    report_has 'a salt alone: a drawn UUID' UUID "$uuid"
    drawn 'a UUID alone' Salt -- --uuid "$UUID"
    report_has 'a UUID alone: a drawn salt' Salt "$salt"
    report_has 'a UUID alone: the UUID' UUID "$UUID"
    drawn 'no superblock' Salt -- --no-superblock
    report_has 'no superblock: no UUID' UUID -
}

# refuses NAME TEXT WORD..: an option is refused and no HASH file is made.
refuses() {
    local name=$1 text=$2
    shift 2
    rm -f "$hash"
    runs "$name" 1 '' "$text" "$veritysetup" format "$@" "$data" "$hash"
    absent "$name" "$hash"
}

# no_number and no_block_size NAME OPTION TEXT: a text that the option does not take.
no_number() {
    refuses "$1" "Option --$2 is not a number." "--$2=$3"
}

no_block_size() {
    refuses "$1" "Option --$2 is not a valid block size." "--$2=$3"
}

options() {
    local digits
    digits=$(printf '%0514d' 0)
    no_number 'an empty number' data-block-size ''
    no_number 'a number with a sign' data-block-size +512
    no_number 'a number above the largest' hash-block-size 18446744073709551616
    no_number 'a hash type that is no number' format x
    no_block_size 'a block size that is no power of two' data-block-size 768
    no_block_size 'a block size of two to the 64 less one' data-block-size 18446744073709551615
    no_block_size 'a block size below the least' hash-block-size 256
    no_block_size 'a block size above the largest' hash-block-size 1048576
    refuses 'a hash type that there is not' 'Hash type must be 0 or 1.' --format 2
    refuses 'an unknown hash algorithm' 'Unknown hash algorithm.' --hash md5
    refuses 'a hash algorithm in capitals' 'Unknown hash algorithm.' --hash SHA256
    refuses 'a salt of an odd number of digits' 'Salt is not valid.' --salt abc
    refuses 'a salt that is not hexadecimal' 'Salt is not valid.' --salt zz
    refuses 'a salt of 257 bytes' 'Salt is not valid.' --salt "$digits"
    refuses 'a UUID that is none' 'UUID is not valid.' --uuid 00112233
    refuses 'a number before an algorithm' 'Option --format is not a number.' --hash md5 --format x --data-block-size x
    refuses 'an algorithm before a hash type' 'Unknown hash algorithm.' --format 2 --hash md5
    refuses 'a block size before a salt' 'Option --data-block-size is not a valid block size.' --salt abc --data-block-size 3
    refuses 'a salt before a UUID' 'Salt is not valid.' --uuid x --salt x
    refuses 'an offset that is no number' 'Option --hash-offset is not a number.' --hash-offset 0x200
    refuses 'an offset that is no multiple of 512' 'Hash offset is not valid.' --hash-offset 100
    refuses 'a UUID before an offset' 'UUID is not valid.' --hash-offset 100 --uuid x
    refuses 'an offset within a hash block, without a superblock' 'Hash offset is not valid.' \
        --no-superblock --hash-offset 512
    refuses 'an offset of which the superblock passes the limit' 'Data or hash area is too large.' \
        --hash-offset 9223372036854775296
    refuses 'an offset past the limit' 'Data or hash area is too large.' --hash-offset 18446744073709551104
    refuses 'an offset of which the tree passes the limit' 'Data or hash area is too large.' \
        --hash-offset 9223372036854774784 "${image_17_options[@]}"

    rm -f "$hash"
    runs 'a salt of 256 bytes' 0 any '' "$veritysetup" format --salt "${digits:2}" "$data" "$hash"
    rm -f "$hash"
    runs 'an empty salt' 0 "$(report "$hash" 512 512 17 - "$root")" '' \
        "$veritysetup" format "${image_17_options[@]/--salt=-/--salt=}" "$data" "$hash"
}

# makes_chosen NAME WORD..: format with these words makes the chosen image.
makes_chosen() {
    local name=$1
    shift
    rm -f "$hash"
    runs "$name" 0 "$(chosen_report "$hash" "$chosen_root")" '' "$veritysetup" format "$@"
    same_bytes "$name: the hash file" "$scratch/chosen.img" "$hash"
}

# makes_chosen_tree NAME WORD..: the same without a superblock. The tree stands where it does in the image.
makes_chosen_tree() {
    local name=$1
    shift
    rm -f "$hash"
    runs "$name, no superblock" 0 "$(chosen_report "$hash" "$chosen_root" | bare)" '' "$veritysetup" format "$@"
    same_bytes "$name, no superblock: the hash file" "$scratch/chosen.tree" "$hash"
}

# Each option chooses what it is named after, in one word or two, before, between and after the files.
places() {
    local chosen=$scratch/chosen root chosen_root form words at_1536 at_2048
    chosen_image "$chosen" "$scratch/chosen.img"
    chosen_root=$root
    { zeros 2048 && tail -c +2049 "$scratch/chosen.img"; } >"$scratch/chosen.tree"
    for form in 'two words' 'one word'; do
        words=("${chosen_options[@]}" --uuid "$UUID")
        at_1536=(--hash-offset 1536)
        at_2048=(--hash-offset 2048)
        if [ "$form" = 'one word' ]; then
            mapfile -t words < <(joined "${words[@]}")
            at_1536=(--hash-offset=1536)
            at_2048=(--hash-offset=2048)
        fi
        makes_chosen "options in $form, first" "${words[@]}" "${at_1536[@]}" "$chosen" "$hash"
        makes_chosen "options in $form, between" "$chosen" "${words[@]}" "${at_1536[@]}" "$hash"
        makes_chosen "options in $form, last" "$chosen" "$hash" "${words[@]}" "${at_1536[@]}"
        words+=("${at_2048[@]}" --no-superblock)
        makes_chosen_tree "options in $form, first" "${words[@]}" "$chosen" "$hash"
        makes_chosen_tree "options in $form, between" "$chosen" "${words[@]}" "$hash"
        makes_chosen_tree "options in $form, last" "$chosen" "$hash" "${words[@]}"
    done
    makes_chosen 'options everywhere' --uuid "$UUID" "$chosen" --salt abcdef --data-blocks 17 \
        --hash-block-size=1024 "$hash" --data-block-size 512 --hash-offset=1536 --format 0 --hash sha512
}

drawn_values
options
places
finish
