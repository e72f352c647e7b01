#!/usr/bin/env bash
# Runs the programs over block devices: loop devices over files of this script, and further nodes of the same devices.
set -u
cd "$(dirname "$0")/../.."
. tests/lib/checks.sh
. tests/lib/stated_images.sh
. tests/lib/digests.sh
. tests/lib/loops.sh
has_program fsverity
has_program veritysetup
needs_loops

data=$scratch/data
stated=$scratch/stated
image_17 "$data" "$stated"
cp "$data" "$scratch/data_before"
sample 8192 >"$scratch/hash_file"
cp "$scratch/hash_file" "$scratch/expected"
dd if="$stated" of="$scratch/expected" conv=notrunc status=none

loop_over "$data"
data_device=$loop
loop_over "$scratch/hash_file"
hash_device=$loop
node_of "$data_device" "$scratch/data_node"
node_of "$hash_device" "$scratch/hash_node"

overlap='Data area and hash area overlap.'
for name in "$data_device" "$scratch/data_node"; do
    runs "format of one device, as $name" 1 '' "$overlap" \
        "$BIN/veritysetup" format "${image_17_options[@]}" "$data_device" "$name"
    runs "format of one device, from $name" 1 '' "$overlap" \
        "$BIN/veritysetup" format "${image_17_options[@]}" "$name" "$data_device"
    runs "a digest of $name onto its device" 1 '' "fsverity: cannot open $data_device." \
        "$BIN/fsverity" digest --out-merkle-tree "$data_device" "$name"
done
runs 'one device for both output files' 1 '' "fsverity: cannot open $scratch/hash_node." \
    "$BIN/fsverity" digest --out-merkle-tree "$hash_device" --out-descriptor "$scratch/hash_node" "$data_device"
sync
same_bytes 'the data stays' "$scratch/data_before" "$data"

# Two devices are two, though their nodes lie in one folder.
runs 'format of two devices' 0 "$(report "$hash_device" 512 512 17 - "$root")" '' \
    "$BIN/veritysetup" format "${image_17_options[@]}" "$data_device" "$hash_device"
sync
same_bytes 'format of two devices: the hash device' "$scratch/expected" "$scratch/hash_file"
runs 'verify of two devices' 0 '' '' "$BIN/veritysetup" verify "$data_device" "$hash_device" "$root"
runs 'more data blocks than a device has' 4 '' 'Data ends before the end of block 17.' \
    "$BIN/veritysetup" format "${image_17_options[@]}" --data-blocks 18 "$data_device" "$hash_device"
sync
same_bytes 'more data blocks than a device has: the hash device' "$scratch/expected" "$scratch/hash_file"
runs 'the digest of a device' 0 "sha256:$(digest "$(root "$data")" 8704) $data_device" '' \
    "$BIN/fsverity" digest "$data_device"
finish
