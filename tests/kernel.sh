#!/usr/bin/env bash
# Runs the Linux kernel, in a virtual machine without hardware support, over images of bin/veritysetup: it opens each as
# a dm-verity device and hands out the data, and after a change of one bit, in the data or in any level of the tree, all
# blocks but those beneath. And what the kernel's fs-verity measures of files is what bin/fsverity digest prints.
# Nothing is installed, and root isn't needed. BIN=FOLDER takes the programs of another folder, KERNEL=FILE and
# MODULES=FOLDER a kernel that isn't in /boot. About ten minutes.
set -u
cd "$(dirname "$0")/.."
. tests/lib/checks.sh
. tests/lib/settings.sh
. tests/kernel/machine.sh
. tests/kernel/kernel_images.sh
has_program veritysetup
has_program fsverity
needs qemu-system-x86_64 qemu-system-x86
needs busybox busybox-static
needs dmsetup dmsetup
needs veritysetup cryptsetup-bin
needs fsverity fsverity
needs mke2fs e2fsprogs
find_kernel

# functions: the functions with both hash types and all salts, with trees of no level to three.
functions() {
    local function type salt fan count
    for function in sha1 sha224 sha256 sha384 sha512; do
        fan=$(fan_out $function 512)
        for type in 0 1; do
            for salt in "${salts[@]}"; do
                for count in 1 "$fan" $((fan + 1)) $((fan * fan + 1)); do
                    image superblock 0 $function $type 512 512 "$salt" "$count"
                    ask_each
                done
                ask_others
            done
        done
    done
}

# sizes: all other sizes of data blocks and hash blocks, and an image of three levels with blocks of 4096.
sizes() {
    local data_block_size hash_block_size fan count
    for data_block_size in 512 1024 2048 4096; do
        for hash_block_size in 512 1024 2048 4096; do
            # Those of `functions`.
            if [ "$data_block_size $hash_block_size" = '512 512' ]; then continue; fi
            fan=$(fan_out sha256 $hash_block_size)
            for count in 1 "$fan" $((fan + 1)); do
                image superblock 0 sha256 1 $data_block_size $hash_block_size "${salts[2]}" "$count"
                ask_each
            done
        done
    done
    image superblock 0 sha512 1 4096 4096 "${salts[2]}" 4097
    ask_each
}

# areas: the superblock at hash offsets, none at all, and both right behind the data in its own file.
areas() {
    local area hash_block_size count
    for hash_block_size in 512 1024 4096; do
        for count in 1 17 257; do
            for area in 'superblock 512' 'superblock 4096' 'superblock 1049088' 'bare 0' 'bare 4096' 'bare 1048576' \
                "behind $((count * 1024))"; do
                # An area is two words.
                # shellcheck disable=SC2086
                image $area sha256 1 1024 $hash_block_size "${salts[1]}" $count
                ask_each
            done
        done
    done
}

# files BLOCK TREE-BLOCK..: files to measure, on a file system with blocks of one size, with tree blocks of the others.
files() {
    local block=$1 folder=$scratch/files.$1 size function tree_block salt file options
    mkdir "$folder"
    plan file_system "/files.$block"
    for size in 0 1 4096 4097 1048577; do
        for function in sha256 sha512; do
            for tree_block in "${@:2}"; do
                for salt in '' ab "${salts[2]}"; do
                    file=$size.$function.$tree_block.$((${#salt} / 2))
                    sample $size >"$folder/$file"
                    options=(--hash-alg="$function" --block-size="$tree_block" --salt="$salt")
                    ask "fs-verity, file system blocks of $block, bytes.function.block.salt $file" \
                        "$("$BIN/fsverity" digest "${options[@]}" "$folder/$file" | cut -d ' ' -f 1)" \
                        measured "$file" "${options[@]}"
                done
            done
        done
    done
    mke2fs -q -t ext4 -O verity -b "$block" -d "$folder" "$guest/files.$block" 32M >"$scratch/mke2fs" 2>&1 ||
        fail "a file system with blocks of $block" "$(cat "$scratch/mke2fs")"
}

# file_systems: before Linux 6.3, fs-verity took blocks of one page alone.
file_systems() {
    if since 6.3; then
        files 4096 1024 2048 4096
        files 1024 1024
    else
        files 4096 4096
    fi
}

functions
sizes
areas
file_systems
pack
echo "$0: ${#names[@]} questions to Linux $release in a virtual machine"
boot
compare
finish
