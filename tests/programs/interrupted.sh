#!/usr/bin/env bash
# Runs of bin/veritysetup format that a signal ends: a fresh hash file has no superblock then, and an older image keeps
# its superblock, on a tree of which verify names the first block that is not its own.
set -u
cd "$(dirname "$0")/../.."
. tests/lib/checks.sh
. tests/lib/stated_images.sh
. tests/lib/background.sh
has_program veritysetup
veritysetup=$BIN/veritysetup

# 300 data blocks, older and newer: level 0 has 19 hash blocks, from byte 2560 on; level 1 has two, level 2 one.
older=$scratch/older
newer=$scratch/newer
hash=$scratch/hash.img
options=(--data-block-size 512 --hash-block-size 512 --salt=- --uuid "$UUID")
sample 153600 >"$older"
tr 0-9 a-j <"$older" >"$newer"

# image DATA FILE: makes an image, and prints its root hash.
image() {
    "$veritysetup" format "${options[@]}" "$1" "$2" | sed -n "s/^Root hash: *$TAB//p"
}
older_root=$(image "$older" "$scratch/older.img")
newer_root=$(image "$newer" "$scratch/newer.img")

# The start of a command that can't write past byte 5120 of a file, where the sixth hash block of level 0 ends. The next
# word is `killed` if such a write ends it by a signal, or `refused` if the write alone is refused.
limited=(bash -c 'ulimit -c 0; ulimit -f 5; if [ "$0" = refused ]; then trap "" XFSZ; fi; exec "$@"')

# formats NAME HOW STATUS ERR: the limited run of format over the newer data.
formats() {
    # The shell's own line on a signal is no part of it.
    { runs "$1" "$3" '' "$4" "${limited[@]}" "$2" "$veritysetup" format "${options[@]}" "$newer" "$hash"; } 2>/dev/null
}

# cut_off NAME HOW STATUS ERR: format of the newer data ends at the seventh hash block of level 0, on a fresh hash file
# and over the older image.
cut_off() {
    rm -f "$hash"
    formats "$1, a fresh hash file" "$2" "$3" "$4"
    { zeros 2048 && head -c 5120 "$scratch/newer.img" | tail -c +2049; } >"$scratch/expected"
    same_bytes "$1, a fresh hash file: six hash blocks" "$scratch/expected" "$hash"
    runs "$1, a fresh hash file: dump" 1 '' 'No verity superblock.' "$veritysetup" dump "$hash"

    cp "$scratch/older.img" "$hash"
    formats "$1, an older image" "$2" "$3" "$4"
    {
        head -c 2048 "$scratch/older.img"
        head -c 5120 "$scratch/newer.img" | tail -c +2049
        tail -c +5121 "$scratch/older.img"
    } >"$scratch/expected"
    same_bytes "$1, an older image: the old superblock, six new hash blocks" "$scratch/expected" "$hash"
    runs "$1, an older image: verify of the older data" 2 '' 'Verification failed: level 0 block 0, child 0.' \
        "$veritysetup" verify "$older" "$hash" "$older_root"
    runs "$1, an older image: verify of the newer data" 2 '' 'Verification failed: level 0 block 6, child 96.' \
        "$veritysetup" verify "$newer" "$hash" "$newer_root"
}

# signalled NAME STATUS: a signal ends format in the middle of data of 64 GiB, which takes no room.
signalled() {
    local old
    for old in fresh older; do
        rm -f "$hash"
        if [ "$old" = older ]; then cp "$scratch/older.img" "$hash"; fi
        starts "$veritysetup" format --salt=- --uuid "$UUID" "$scratch/huge" "$hash"
        waits_for has_written "$old"
        kill "-$1" "$pid"
        ended "SIG$1, $old" "$2" '' ''
        if [ "$old" = older ]; then
            head -c 512 "$scratch/older.img" >"$scratch/expected"
            head -c 512 "$hash" >"$scratch/found"
            same_bytes "SIG$1: the old superblock stays" "$scratch/expected" "$scratch/found"
        else
            runs "SIG$1: no superblock" 1 '' 'No verity superblock.' "$veritysetup" dump "$hash"
        fi
    done
}

# has_written fresh|older: the hash file is longer than it was, as the first hash block stands far behind.
has_written() {
    local least=0
    if [ "$1" = older ]; then least=$(stat -c %s "$scratch/older.img"); fi
    [ -e "$hash" ] && [ "$(stat -c %s "$hash")" -gt "$least" ]
}

truncate -s 64G "$scratch/huge"
cut_off 'a signal at a write' killed 153 ''
cut_off 'a refused write' refused 4 'Cannot write hash block 6 of level 0.'
signalled INT 130
signalled TERM 143
signalled KILL 137
finish
