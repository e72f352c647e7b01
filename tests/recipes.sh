#!/usr/bin/env bash
# Runs the recipes of docs/RECIPES.md word for word, in a folder of their own with the programs on the path, and
# compares what they leave with trees and digests of sha256sum over the same bytes, and with what openssl says of a
# signature.
set -u
cd "$(dirname "$0")/.."
. tests/lib/checks.sh
. tests/lib/document_examples.sh
has_program fsverity
has_program veritysetup

# The recipes, in one group: each may need what those before it have made.
awk '
    /^    \$ / { shown = 1 }
    !/^    / { shown = 0 }
    shown { print substr($0, 5) }
' docs/RECIPES.md >"$scratch/examples"
commands=$(grep -c '^ *\$ ' docs/RECIPES.md)

# recipe NAME: the commands of one recipe.
recipe() {
    awk -v name="## $1" '/^## / { inside = $0 == name } inside && /^    / { print substr($0, 5) }' \
        "$top/docs/RECIPES.md"
}

# number FILE OFFSET: the number of 8 bytes, low byte first, that stands there.
number() {
    od -An -t u8 -j "$2" -N 8 "$1" | tr -d ' '
}

# tree_of FILE SALT: writes the tree of a file of 129 to 16384 blocks of 4096 bytes, and leaves its root hash in
# $scratch/root. Each block is hashed after the salt, which is given in hexadecimal.
tree_of() {
    local salted
    salted="{ printf '$(bytes "$2" | od -An -v -t o1 | tr -d '\n' | sed 's/ /\\/g')'; cat; } | sha256sum"
    hash_blocks "$1" 4096 4096 "$salted" >"$scratch/level0"
    hash_blocks "$scratch/level0" 4096 4096 "$salted" >"$scratch/level1"
    sh -c "$salted" <"$scratch/level1" | cut -c1-64 >"$scratch/root"
    cat "$scratch/level1" "$scratch/level0"
}

top=$PWD
mkdir "$scratch/bin" "$scratch/run"
ln -s "$(realpath "$BIN")"/{fsverity,veritysetup} "$scratch/bin"
PATH=$scratch/bin:$PATH
cd "$scratch/run" || exit 1
run_examples docs/RECIPES.md "$scratch/examples"
same 'the number of commands in docs/RECIPES.md' "$commands" "$examples"
unset -f veritysetup
# If a program is missing, the last recipe was left out.
if [ ! -e rootfs.report ]; then
    cd "$top" || exit 1
    finish
    exit
fi

# The image with its tree beside it, what is said of it, and its signature.
blocks=$(($(stat -c %s image.raw) / 4096))
same 'image.raw: whole blocks' 0 $(($(stat -c %s image.raw) % 4096))
salt=$(od -An -v -t x1 -j 88 -N 32 image.verity | tr -d ' \n')
tree_of image.raw "$salt" >"$scratch/tree"
read -r root <"$scratch/root"
same_bytes 'image.verity: the tree' "$scratch/tree" <(tail -c +4097 image.verity)
same 'image.verity: data blocks' "$blocks" "$(number image.verity 72)"
same 'image.roothash' "$root" "$(cat image.roothash)"
same 'image.roothash: its length' 64 "$(stat -c %s image.roothash)"
same 'systemd.cmdline' "roothash=$root systemd.verity_root_data=/dev/vda systemd.verity_root_hash=/dev/vdb" \
    "$(cat systemd.cmdline)"
table="0 $(($(stat -c %s image.raw) / 512)) verity 1 /dev/vda /dev/vdb 4096 4096 $blocks 1 sha256 $root $salt"
same 'kernel.cmdline' "dm-mod.create=\"root,,,ro,$table\" root=/dev/dm-0" "$(cat kernel.cmdline)"
runs 'the signature' 0 '' any openssl smime -verify -inform DER -in image.roothash.p7s -content image.roothash \
    -certfile cert.pem -noverify -binary -out signed
same_bytes 'the signature' image.roothash signed

# In one file the data stays, and the recipe can be run again over what it has left.
salt=$(od -An -v -t x1 -j $((blocks * 4096 + 88)) -N 32 one.raw | tr -d ' \n')
tree_of image.raw "$salt" >"$scratch/tree"
same_bytes 'one.raw: data' image.raw <(head -c $((blocks * 4096)) one.raw)
same_bytes 'one.raw: the tree' "$scratch/tree" <(tail -c +$((blocks * 4096 + 4097)) one.raw)
recipe 'The same, with the tree behind it in one file' | grep -v '^\$ cp ' >"$scratch/again"
size=$(stat -c %s one.raw)
run_examples 'docs/RECIPES.md, again' "$scratch/again"
same 'one.raw, again: commands' 3 "$examples"
same 'one.raw, again: its size' "$size" "$(stat -c %s one.raw)"
same_bytes 'one.raw, again: data' image.raw <(head -c $((blocks * 4096)) one.raw)

# A superblock that isn't trusted: with another salt `dump` tells, and without it nothing has changed.
recipe "A superblock that isn't trusted" >"$scratch/pinned"
flip image.verity 88 1
salt=$(awk '/^Salt:/{print $2}' report)
sed -n '/cmp/p' "$scratch/pinned" | sed 's/^\$ //' >"$scratch/pinned_by_dump"
runs 'another salt in the superblock: dump' 1 any '' bash -c "$(cat "$scratch/pinned_by_dump")"
sed -n '/--no-superblock/,$p' "$scratch/pinned" >"$scratch/pinned_by_options"
run_examples 'docs/RECIPES.md, over another superblock' "$scratch/pinned_by_options"
same 'another salt in the superblock: commands' 1 "$examples"

# Android's tree, and what Yocto's class gets.
. ./system.fields
same 'system.img: where the tree begins' "$((blocks * 4096)) $((blocks * 4096))" "$image_size $tree_offset"
tree_of image.raw "$salt" >"$scratch/tree"
same_bytes 'system.img: data' image.raw <(head -c "$tree_offset" system.img)
same_bytes 'system.img: the tree' "$scratch/tree" <(tail -c +$((tree_offset + 1)) system.img)
same 'system.img: the size of the tree' "$(stat -c %s "$scratch/tree")" "$tree_size"
same 'system.img: root digest' "$(cat "$scratch/root")" "$root_digest"
runs 'rootfs.squashfs' 0 '' '' veritysetup verify --hash-offset $((blocks * 4096)) rootfs.squashfs rootfs.squashfs \
    "$(awk '/^Root hash:/{print $3}' rootfs.report)"

# A line for each file, whatever its name, with the digest that the file has under a plain name.
cp $'files/caf\xe9' plain
{
    printf '%s files/caf\xe9\0' "$(fsverity digest --compact plain)"
    printf '%s files/noise\0' "$(fsverity digest --compact files/noise)"
} >"$scratch/lines"
same_bytes 'digests of names of all kinds' "$scratch/lines" digests
recipe 'The digests of a whole folder' | sed -n '/^\$ echo /,$p' >"$scratch/again"
locale=C
run_examples 'docs/RECIPES.md, in the C locale' "$scratch/again"
same 'in the C locale: commands' 2 "$examples"
same_bytes 'digests of names of all kinds, in the C locale' "$scratch/lines" digests
cd "$top" || exit 1
finish
