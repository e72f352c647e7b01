#!/usr/bin/env bash
# Runs static programs in a root that has nothing but them and their files: no loader, no library, no /dev and no /proc.
# As root and as another user, with each combination of closed standard streams, and with the stack that README.md
# names. For programs for 64-bit ARM the root also has qemu, with its own loader and libraries. BIN=FOLDER takes the
# programs of another folder than bin/static.
BIN=${BIN:-bin/static}
set -u
cd "$(dirname "$0")/.."
. tests/lib/checks.sh
. tests/lib/stated_images.sh
. tests/lib/stack.sh
has_program fsverity
has_program veritysetup
needs readelf binutils

root_folder=$scratch/root
mkdir -m 777 "$root_folder"
cp "$BIN"/{fsverity,veritysetup} "$root_folder"
for name in fsverity veritysetup; do
    same "$name: a loader that it names" 0 "$(readelf -lW "$BIN/$name" | grep -c INTERP)"
    same "$name: libraries that it names" 0 "$(readelf -dW "$BIN/$name" | grep -c NEEDED)"
done
qemu=()
if readelf -h "$BIN/fsverity" | grep -q 'Machine:.*AArch64'; then
    needs qemu-aarch64 qemu-user
    # Its files at their places, and none for 64-bit ARM.
    qemu=("$(type -P qemu-aarch64)")
    for file in "${qemu[0]}" $(ldd "${qemu[0]}" | grep -o '/[^ ]*'); do
        mkdir -p "$root_folder$(dirname "$file")"
        cp "$file" "$root_folder$file"
    done
fi

# is_imitated: whether qemu runs them. It stands in place of that of tests/lib/checks.sh.
is_imitated() {
    [ ${#qemu[@]} -gt 0 ]
}

# What begins a command in that root, as `user`.
user=root
enters() {
    if [ "$(id -u)" -ne 0 ]; then
        unshare --map-root-user chroot "$root_folder" "$@"
    elif [ $user = root ]; then
        chroot "$root_folder" "$@"
    else
        chroot --userspec=65534:65534 "$root_folder" "$@"
    fi
}

# in_root PROGRAM WORD..: runs a program there.
in_root() {
    enters "${qemu[@]}" "/$1" "${@:2}"
}

if ! enters "${qemu[@]}" /fsverity digest /fsverity >"$scratch/said" 2>&1; then
    if ! unshare --map-root-user true 2>/dev/null && [ "$(id -u)" -ne 0 ]; then
        echo "$0: no root can be made here"
        exit $LEFT_OUT
    fi
    fail 'a program in an empty root' "$(cat "$scratch/said")"
    finish
    exit
fi

data=$root_folder/data stated=$root_folder/stated hash=$root_folder/hash
image_17 "$data" "$stated"
cp "$data" "$root_folder/changed"
flip "$root_folder/changed" 8192 255
printf a >"$root_folder/one"
one=sha256:$DIGEST_OF_A
(cd "$root_folder" && find . | sort) >"$scratch/before"

commands() {
    runs "$user: format" 0 "$(report /hash 512 512 17 - "$root")" '' \
        in_root veritysetup format "${image_17_options[@]}" /data /hash
    same_bytes "$user: format: the hash file" "$stated" "$hash"
    runs "$user: dump" 0 "$(report /hash 512 512 17 -)" '' in_root veritysetup dump /hash
    runs "$user: verify" 0 '' '' in_root veritysetup verify /data /hash "$root"
    runs "$user: verify of changed data" 2 '' 'Verification failed: level 0 block 1, child 16.' \
        in_root veritysetup verify /changed /hash "$root"
    runs "$user: format with a drawn salt and UUID" 0 any '' in_root veritysetup format /data /hash
    runs "$user: digest" 0 "$one /one" '' in_root fsverity digest /one
    runs "$user: digest with output files" 0 "$one /one" '' \
        in_root fsverity digest --out-merkle-tree /tree --out-descriptor /descriptor /one
    same "$user: the descriptor" "$one" "sha256:$(sha256 "$root_folder/descriptor")"
    runs "$user: a missing file" 1 '' 'fsverity: cannot open /dev/null.' in_root fsverity digest /dev/null
    rm "$root_folder/"{hash,tree,descriptor}
}

closed_streams() {
    local closed status text message
    for closed in '' 0 1 2 '0 1' '0 2' '1 2' '0 1 2'; do
        status=0 text=$(report /hash 512 512 17 - "$root") message=
        if [[ $closed = *1* ]]; then status=4 text= message='Cannot write output.'; fi
        if [[ $closed = *2* ]]; then message=; fi
        runs "$user: format, '$closed' closed" $status "$text" "$message" \
            with_closed "$closed" in_root veritysetup format "${image_17_options[@]}" /data /hash
        same_bytes "$user: format, '$closed' closed: the hash file" "$stated" "$hash"
        rm "$hash"
        if [[ $closed = *1* ]]; then status=1 text= message='fsverity: cannot write output.'; else text="$one /one"; fi
        if [[ $closed = *2* ]]; then message=; fi
        runs "$user: digest, '$closed' closed" $status "$text" "$message" \
            with_closed "$closed" in_root fsverity digest --out-merkle-tree /tree /one
        same_bytes "$user: digest, '$closed' closed: the tree" /dev/null "$root_folder/tree"
        rm "$root_folder/tree"
    done
}

# A root folder that its user can't read. What is held open in place of the streams is /proc then, or else what stands
# at the name of the null device, and without both the programs stop.
in_closed_root() {
    local held
    chmod 711 "$root_folder"
    runs 'neither /, /proc nor /dev: dump' 4 '' 'Cannot open /dev/null.' in_root veritysetup dump /stated
    runs 'neither /, /proc nor /dev: digest' 1 '' 'fsverity: cannot open /dev/null.' in_root fsverity digest /one
    for held in proc dev; do
        mkdir "$root_folder/$held"
        if [ $held = dev ]; then : >"$root_folder/dev/null"; fi
        : >"$hash"
        chmod 666 "$hash"
        runs "/$held without /: format" 4 '' '' \
            with_closed '0 1 2' in_root veritysetup format "${image_17_options[@]}" /data /hash
        same_bytes "/$held without /: format: the hash file" "$stated" "$hash"
        runs "/$held without /: verify" 0 '' '' in_root veritysetup verify /data /hash "$root"
        runs "/$held without /: digest" 0 "$one /one" '' in_root fsverity digest /one
        rm -r "${root_folder:?}/$held" "$hash"
    done
    mkdir "$root_folder/proc"
    if unshare --mount true 2>/dev/null; then
        # Where /proc is more than a folder, descriptors have names.
        # shellcheck disable=SC2016
        runs '/proc without /: descriptor 3 as FILE' 1 '' 'fsverity: cannot open /proc/self/fd/3.' \
            unshare --mount sh -c 'mount --bind /proc "$0/proc" && exec chroot --userspec=65534:65534 "$0" "$@"' \
            "$root_folder" "${qemu[@]}" /fsverity digest /proc/self/fd/3 3<&-
    else
        echo 'left out: descriptors where / is closed and /proc is not: nothing can be mounted here'
    fi
    rmdir "$root_folder/proc"
    chmod 777 "$root_folder"
}

with_little_stack() {
    sample 1200000 >"$root_folder/long"
    for block in 512 4096 16384 262144; do
        stack_for "$block"
        runs "$user: format with $stack KiB of stack, blocks of $block" 0 any '' within in_root veritysetup format \
            --data-block-size "$block" --hash-block-size "$block" /long /hash
        runs "$user: digest with $stack KiB of stack, blocks of $block" 0 any '' \
            within in_root fsverity digest --block-size "$block" /long
        rm "$hash"
    done
    rm "$root_folder/long"
}

for user in root nobody; do
    commands
    closed_streams
    with_little_stack
    # As a user who isn't root it is that user alone.
    if [ "$(id -u)" -ne 0 ]; then break; fi
done
if [ $user = nobody ]; then in_closed_root; fi
(cd "$root_folder" && find . | sort) >"$scratch/after"
same_bytes 'nothing else is left there' "$scratch/before" "$scratch/after"
finish
