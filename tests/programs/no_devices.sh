#!/usr/bin/env bash
# Runs the programs where there are no device files, as in a container without any: /dev is an empty folder there.
set -u
cd "$(dirname "$0")/../.."
. tests/lib/checks.sh
. tests/lib/stated_images.sh
. tests/lib/without_devices.sh
has_program fsverity
has_program veritysetup

if ! can_hide_devices; then
    echo "$0: /dev can't be hidden here"
    exit $LEFT_OUT
fi

data=$scratch/data.img
stated=$scratch/stated.img
hash=$scratch/hash.img
image_17 "$data" "$stated"
veritysetup=("${without_devices[@]}" "$BIN/veritysetup")

runs 'format' 0 "$(report "$hash" 512 512 17 - "$root")" '' \
    "${veritysetup[@]}" format "${image_17_options[@]}" "$data" "$hash"
same_bytes 'format: the hash file' "$stated" "$hash"
runs 'format with a drawn salt and UUID' 0 any '' "${veritysetup[@]}" format "$data" "$hash"
runs 'dump' 0 "$(report "$stated" 512 512 17 -)" '' "${veritysetup[@]}" dump "$stated"
runs 'verify' 0 '' '' "${veritysetup[@]}" verify "$data" "$stated" "$root"
flip "$data" 8192 255
runs 'verify of changed data' 2 '' 'Verification failed: level 0 block 1, child 16.' \
    "${veritysetup[@]}" verify "$data" "$stated" "$root"
flip "$data" 8192 255

: >"$scratch/empty"
runs 'digest' 0 "sha256:$DIGEST_OF_EMPTY $scratch/empty" '' \
    "${without_devices[@]}" "$BIN/fsverity" digest "$scratch/empty"

# No report lands in the hash file if standard streams are closed.
rm "$hash"
runs 'all streams closed' 4 '' '' \
    with_closed '0 1 2' "${veritysetup[@]}" format "${image_17_options[@]}" "$data" "$hash"
same_bytes 'all streams closed: the hash file' "$stated" "$hash"
finish
