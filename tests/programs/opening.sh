#!/usr/bin/env bash
# HASH and output files that are there are opened without O_CREAT. So they are written where the kernel refuses that, as
# it does for files of others in a sticky folder (proc_sys_fs(5), "protected_regular"). What isn't there is made.
set -u
cd "$(dirname "$0")/../.."
. tests/lib/checks.sh
. tests/lib/stated_images.sh
. tests/lib/digests.sh
needs python3 python3
needs setpriv util-linux
has_program fsverity
has_program veritysetup

data=$scratch/data
image_17 "$data" "$scratch/stated"
line="sha256:$(digest "$(root "$data")" 8704) $data"
cp "$data" "$scratch/whole"
truncate -s %4096 "$scratch/whole"
hash_blocks "$scratch/whole" 4096 4096 >"$scratch/tree"
folder=$scratch/folder
mkdir -m 1777 "$folder"

# formats and digests NAME STATUS OUT ERR PREFIX..: the commands with their files in that folder, begun by a prefix.
formats() {
    runs "$1: format" "${@:2:3}" "${@:5}" "$BIN/veritysetup" format "${image_17_options[@]}" "$data" "$folder/hash"
}

digests_to() {
    runs "$1: digest" "${@:2:3}" "${@:5}" "$BIN/fsverity" digest \
        --out-merkle-tree "$folder/tree" --out-descriptor "$folder/descriptor" "$data"
}

# writes NAME PREFIX..: they make their files, or write those that are there.
writes() {
    local name
    formats "$1" 0 "$(report "$folder/hash" 512 512 17 - "$root")" '' "${@:2}"
    digests_to "$1" 0 "$line" '' "${@:2}"
    for name in stated:hash tree:tree descriptor:descriptor; do
        same_bytes "$1: ${name#*:}" "$scratch/${name%:*}" "$folder/${name#*:}"
    done
}

# refuses NAME PREFIX..: they can't open them, and leave the folder as it is.
refuses() {
    rm -rf "$scratch/before"
    cp -a "$folder" "$scratch/before"
    formats "$1" 4 '' "Cannot open $folder/hash." "${@:2}"
    digests_to "$1" 1 '' "fsverity: cannot open $folder/tree." "${@:2}"
    same "$1: nothing is made or changed" '' "$(diff -r --no-dereference "$scratch/before" "$folder" 2>&1)"
}

# are_there: the files are there, with other bytes: the output files with more, since they are cut.
are_there() {
    rm -f "$folder"/*
    sample 9000 | tee "$folder/tree" >"$folder/descriptor"
    sample 2048 >"$folder/hash"
}

# link_to FOLDER: the files are links to files that aren't there.
link_to() {
    local name
    for name in hash tree descriptor; do ln -sfn "$1/made_$name" "$folder/$name"; done
}

# What begins a command without O_CREAT, and one with the rights of a file's owner alone.
uncreating=(python3 tests/lib/without_creating.py)
unprivileged=()
if [ "$(id -u)" -eq 0 ]; then unprivileged=(setpriv --inh-caps=-all --bounding-set=-all); fi

refuses 'new files without O_CREAT' "${uncreating[@]}"
writes 'new files'
are_there
writes 'files without O_CREAT' "${uncreating[@]}"
if [ "$(id -u)" -eq 0 ]; then
    are_there
    chown 65534:65534 "$folder"/*
    if (: >>"$folder/tree") 2>/dev/null; then echo 'files of others: this kernel lets them be opened with O_CREAT'; fi
    writes 'files of others'
else
    echo 'left out: files of others: only root can make them'
fi
are_there
chmod 444 "$folder"/*
refuses 'files that may only be read' "${unprivileged[@]}"
link_to none
refuses 'links into a missing folder'
link_to ..
writes 'links to new files'
finish
