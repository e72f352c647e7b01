#!/usr/bin/env bash
# Files that become shorter or longer while the programs read them, and two runs over one HASH. The programs are stopped
# by a signal meanwhile, so it is known how much they have read.
set -u
cd "$(dirname "$0")/../.."
. tests/lib/checks.sh
. tests/lib/stated_images.sh
. tests/lib/digests.sh
. tests/lib/background.sh
has_program fsverity
has_program veritysetup

data=$scratch/data.img
hash=$scratch/hash.img
# Zeros: 131072 data blocks, and 1024 and 8 and 1 hash blocks, which hold 128, 128 and 8 digests. What qemu runs takes
# as long for 16384 data blocks, and 128 and 1 hash blocks.
size=$((512 << 20)) digests=(128 128 8)
if is_imitated; then size=$((64 << 20)) digests=(128 128); fi
block=4096
options=(--salt=- --uuid "$UUID")

# level COUNT FILE: a hash block of so many digests of one block.
level() {
    for _ in $(seq "$1"); do bytes "$(sha256 "$2")"; done
    zeros $((block - 32 * $1))
}

# The root hash of so many zeros.
root_of_zeros() {
    local count
    zeros $block >"$scratch/block"
    for count in "${digests[@]}"; do
        level "$count" "$scratch/block" >"$scratch/above"
        mv "$scratch/above" "$scratch/block"
    done
    sha256 "$scratch/block"
}

# anew: zeros of the full size, which take no room.
anew() {
    rm -f "$data"
    truncate -s $size "$data"
}

# shrinks NAME STATUS FRONT BACK COMMAND..: the data is cut within a block that the command has not come to; its message
# is FRONT, the number of that block, and BACK.
shrinks() {
    local name=$1 status=$2 front=$3 back=$4 last
    shift 4
    anew
    stopped_in "$data" "$@"
    last=$((at / block + 3))
    truncate -s $((last * block + 5)) "$data"
    kill -CONT "$pid"
    ended "$name" "$status" '' "$front$last$back"
}

# grows NAME OUT COMMAND..: the data gets a block and some bytes more while the command reads it, which changes nothing.
grows() {
    local name=$1 out=$2
    shift 2
    anew
    stopped_in "$data" "$@"
    if [ "$at" -gt 0 ] && [ "$at" -lt $size ]; then pass; else fail "$name: stopped within the data" "at byte $at"; fi
    sample 5000 >>"$data"
    kill -CONT "$pid"
    ended "$name" 0 "$out" ''
}

root=$(root_of_zeros)
short='Data ends before the end of block '

shrinks 'format of data that becomes shorter' 4 "$short" . "$BIN/veritysetup" format "${options[@]}" "$data" "$hash"
if [ -e "$hash" ]; then pass; else fail 'format of data that becomes shorter' 'no HASH is left'; fi
# If nothing had been written yet, HASH is empty.
none='No verity superblock.'
if [ ! -s "$hash" ]; then none='Superblock is too short.'; fi
runs 'format of data that becomes shorter: no superblock' 1 '' "$none" "$BIN/veritysetup" dump "$hash"
grows 'format of data that becomes longer' "$(report "$hash" $block $block $((size / block)) - "$root")" \
    "$BIN/veritysetup" format "${options[@]}" "$data" "$hash"
grows 'verify of data that becomes longer' '' "$BIN/veritysetup" verify "$data" "$hash" "$root"
shrinks 'verify of data that becomes shorter' 4 "$short" . "$BIN/veritysetup" verify "$data" "$hash" "$root"

# has_read_much FILE: the process has read more than a 32nd of a file, and so has written hash blocks.
has_read_much() {
    is_within "$1" && [ "$at" -gt $((size / 32)) ]
}

# at_one_time: a second format over the same HASH runs while the first one is stopped. Both end with 0, and verify finds
# that neither tree stands.
at_one_time() {
    local first second root
    anew
    rm -f "$hash"
    if ! stopped_once has_read_much "$data" "$BIN/veritysetup" format --salt=aa --uuid "$UUID" "$data" "$hash"; then
        fail 'two runs at one time' 'the first was never stopped'
        return
    fi
    second=$("$BIN/veritysetup" format --salt=bb --uuid "$UUID" "$data" "$hash" | sed -n "s/^Root hash: *$TAB//p")
    kill -CONT "$pid"
    ended 'two runs at one time: the first' 0 any ''
    first=$(sed -n "s/^Root hash: *$TAB//p" "$scratch/.out")
    for root in "$first" "$second"; do
        same 'two runs at one time: the root hash' 64 "${#root}"
        runs 'two runs at one time: verify' 2 '' 'Verification failed: level 0 block 0, child 0.' \
            "$BIN/veritysetup" verify "$data" "$hash" "$root"
    done
}
at_one_time

grows 'digest of a file that becomes longer' "sha256:$(digest "$root" $size) $data" \
    "$BIN/fsverity" digest "$data"
shrinks 'digest of a file that becomes shorter' 1 'fsverity: file ends before the end of block ' ": $data." \
    "$BIN/fsverity" digest "$data"

# With output files: a part of the tree may be there, but no descriptor is written.
tree=$scratch/tree
made=$scratch/made
shrinks 'a tree of a file that becomes shorter' 1 'fsverity: file ends before the end of block ' ": $data." \
    "$BIN/fsverity" digest --out-merkle-tree "$tree" "$data"
shrinks 'output files of a file that becomes shorter' 1 'fsverity: file ends before the end of block ' ": $data." \
    "$BIN/fsverity" digest --out-merkle-tree "$tree" --out-descriptor "$made" "$data"
is_text 'output files of a file that becomes shorter: the descriptor' '' "$made"
shrinks 'a descriptor of a file that becomes shorter' 1 'fsverity: file ends before the end of block ' ": $data." \
    "$BIN/fsverity" digest --out-descriptor "$made" "$data"
is_text 'a descriptor of a file that becomes shorter: it' '' "$made"
finish
