#!/usr/bin/env bash
# Compares the worked superblock of docs/DEFINITIONS.md with the one that veritysetup of Debian's package cryptsetup-bin
# writes for the same settings, and with the one that bin/veritysetup writes.
set -u
cd "$(dirname "$0")/../.."
. tests/lib/checks.sh
. tests/lib/stated_images.sh
has_program veritysetup
needs_other veritysetup cryptsetup-bin

zeros 4096 >"$scratch/data"
superblock 4096 4096 1 '' >"$scratch/stated"

options=(--format 1 --hash sha256 --data-block-size 4096 --hash-block-size 4096 --salt=- --uuid "$UUID")

# The other program pads the superblock of a single data block to a whole block.
veritysetup format "${options[@]}" "$scratch/data" "$scratch/peer" >/dev/null
truncate -s $SUPERBLOCK_SIZE "$scratch/peer"
same_bytes 'the worked superblock by the other veritysetup' "$scratch/stated" "$scratch/peer"

"$BIN/veritysetup" format "${options[@]}" "$scratch/data" "$scratch/own" >/dev/null
same_bytes 'the worked superblock by bin/veritysetup' "$scratch/stated" "$scratch/own"
finish
