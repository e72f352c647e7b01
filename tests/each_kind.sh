#!/usr/bin/env bash
# What can differ between kinds of programs, over one kind: hashing by each function, the stack that it takes, and how
# the programs take their words, files, streams, signals, memory and a terminal. What can't differ tests/programs/ and
# the comparisons show over the programs in bin/. Expected values come from sha256sum over stated bytes and from
# tests/lib/trees.py. BIN=FOLDER takes the programs of another folder than bin/. Those that qemu runs on other
# processors of x86-64 are those of bin/any (tests/lib/kinds.sh), so there it is hashing and the stack alone.
set -u
cd "$(dirname "$0")/.."
. tests/lib/checks.sh
. tests/lib/stated_images.sh
. tests/lib/background.sh
. tests/lib/stack.sh
has_program fsverity
has_program veritysetup
needs python3 python3
fsverity=$BIN/fsverity veritysetup=$BIN/veritysetup
data=$scratch/data hash=$scratch/hash stated=$scratch/stated one=$scratch/one
image_17 "$data" "$stated"
printf a >"$one"
line="sha256:$DIGEST_OF_A $one"

# Each hash function in each hash type, without a salt and with short and long ones, over blocks that are hashed side by
# side and some that are left: format makes the hash device that trees.py makes, and verify names a changed data block.
# And digests of files.
hashing() {
    local kind words
    sample 600000 >"$scratch/all"
    tests/lib/kind_trees.py "$scratch/all" "$UUID" "$scratch" >"$scratch/table" || fail 'kind_trees.py' "status $?"
    while read -r kind words; do
        # shellcheck disable=SC2086
        hashes_$kind $words
    done <"$scratch/table"
    same 'images and files that were hashed' 36 "$(wc -l <"$scratch/table")"
}

hashes_image() {
    local name="$2, type $3, blocks of $4 and $5, salt $6, $7 blocks" root=$8 changed=$scratch/changed
    rm -f "$hash"
    head -c $(($4 * $7)) "$scratch/all" >"$changed"
    "$veritysetup" format --hash "$2" --format "$3" --data-block-size "$4" --hash-block-size "$5" --salt="$6" \
        --uuid "$UUID" "$changed" "$hash" >"$scratch/report" 2>&1 </dev/null
    same "format, $name: root hash" "$root" "$(root_in "$scratch/report")"
    same_bytes "format, $name" "$scratch/stated.$1" "$hash"
    runs "verify, $name" 0 '' '' "$veritysetup" verify "$changed" "$hash" "$root"
    flip "$changed" $(($4 * $7 - 1)) 1
    runs "verify, $name, a changed byte" 2 '' "Verification failed: level 0 block $9, child $(($7 - 1))." \
        "$veritysetup" verify "$changed" "$hash" "$root"
}

hashes_file() {
    head -c "$4" "$scratch/all" >"$scratch/file"
    runs "digest, $1, blocks of $2, salt $3, $4 bytes" 0 "$1:$5 $scratch/file" '' \
        "$fsverity" digest --hash-alg "$1" --block-size "$2" --salt="${3#-}" "$scratch/file"
}

# Within the stack that README.md names blocks are hashed side by side, and large ones.
little_stack() {
    local name block
    for name in sha256 sha512; do
        for block in 4096 262144; do
            stack_for "$block"
            rm -f "$hash"
            within "$veritysetup" format --hash $name --data-block-size $block --hash-block-size $block --salt=abcd \
                "$scratch/all" "$hash" >"$scratch/report" 2>&1 </dev/null
            same "format within $stack KiB, $name, blocks of $block" 0 $?
            runs "verify within $stack KiB, $name, blocks of $block" 0 '' '' \
                within "$veritysetup" verify "$scratch/all" "$hash" "$(root_in "$scratch/report")"
            runs "digest within $stack KiB, $name, blocks of $block" 0 any '' \
                within "$fsverity" digest --hash-alg $name --block-size $block "$scratch/all"
        done
    done
}

# Words are taken whole, in any locale, and what isn't UTF-8 is refused.
words() {
    local far locale name="$scratch/é "$'\t'"ß"
    far=$scratch/$(printf './%.0s' {1..1500})one
    cp "$one" "$name"
    runs 'no words' 1 '' any "$veritysetup"
    runs 'no words: fsverity' 2 '' any "$fsverity"
    for locale in C C.UTF-8; do
        runs "a name in $locale" 0 "${line%% *} $name" '' env LC_ALL=$locale "$fsverity" digest "$name"
    done
    runs 'a name of 3000 bytes' 0 "${line%% *} $far" '' "$fsverity" digest "$far"
    # shellcheck disable=SC2046
    runs '300 names' 0 "$(yes "$line" | head -n 300)" '' "$fsverity" digest $(yes "$one" | head -n 300)
    runs 'a word that is not UTF-8' 1 '' 'error: argument 3 is not UTF-8: \xff' "$veritysetup" dump "$stated" $'\xff'
    runs 'a word that is not UTF-8: fsverity' 2 '' 'error: argument 2 is not UTF-8: \xc3\xb6\xff' \
        "$fsverity" digest $'\xc3\xb6\xff'
}

# refuses NAME STATUS MESSAGE WORD..: veritysetup refuses this, and leaves all files as they were.
refuses() {
    runs "$1" "$2" '' "$3" "$veritysetup" "${@:4}"
    same "$1: what is left" "$before" "$(listed)"
}

# listed: all files in the folder of files, with modes and sums.
listed() {
    (cd "$scratch/files" && find . -type f -printf '%P %m ' -exec sha256sum {} \;)
}

# Files are made with the modes that the umask leaves, written over, and found to be one under other names.
files() {
    local at=$scratch/files format=(format "${image_17_options[@]}") huge=$((1 << 33)) before name
    mkdir "$at"
    cp "$data" "$at/data"
    # shellcheck disable=SC2016
    runs 'a new hash file' 0 "$(report "$at/hash" 512 512 17 - "$root")" '' \
        bash -c 'umask 027 && exec "$@"' - "$veritysetup" "${format[@]}" "$at/data" "$at/hash"
    same 'a new hash file: its mode' 640 "$(stat -c %a "$at/hash")"
    same_bytes 'a new hash file' "$stated" "$at/hash"
    { cat "$stated" && sample 5000; } >"$scratch/longer"
    cp "$scratch/longer" "$at/hash"
    flip "$at/hash" 600 255
    runs 'a hash file that was longer' 0 any '' "$veritysetup" "${format[@]}" "$at/data" "$at/hash"
    same_bytes 'a hash file that was longer' "$scratch/longer" "$at/hash"
    runs 'dump' 0 "$(report "$at/hash" 512 512 17 -)" '' "$veritysetup" dump "$at/hash"
    runs 'output files' 0 "$line" '' "$fsverity" digest --out-merkle-tree "$at/tree" --out-descriptor "$at/made" "$one"
    same 'output files: the descriptor' "$DIGEST_OF_A" "$(sha256 "$at/made")"
    same 'output files: the tree' 0 "$(stat -c %s "$at/tree")"

    ln "$at/data" "$at/hard"
    ln -s data "$at/soft"
    : >"$at/empty"
    before=$(listed)
    for name in data hard soft ./data; do
        refuses "one file, as $name" 1 'Data area and hash area overlap.' "${format[@]}" "$at/data" "$at/$name"
        runs "a tree over its file, as $name" 1 '' "fsverity: cannot open $at/$name." \
            "$fsverity" digest --out-merkle-tree "$at/$name" "$at/data"
    done
    refuses 'a missing file' 4 "Cannot open $at/none." "${format[@]}" "$at/none" "$at/new"
    refuses 'a missing folder' 4 "Cannot open $at/none/new." "${format[@]}" "$at/data" "$at/none/new"
    refuses 'a folder as DATA' 4 "Cannot open $at." "${format[@]}" "$at" "$at/new"
    refuses 'a folder as HASH' 4 "Cannot open $at." "${format[@]}" "$at/data" "$at"
    refuses 'an empty file' 1 'No data blocks.' "${format[@]}" "$at/empty" "$at/new"
    refuses 'no superblock' 1 'No verity superblock.' dump "$at/data"
    refuses 'too few data' 4 'Data ends before the end of block 17.' \
        "${format[@]}" --data-blocks 18 "$at/data" "$at/new"
    refuses 'a full device' 4 'Cannot write hash block 0 of level 0.' "${format[@]}" "$at/data" /dev/full
    refuses 'another root hash' 2 "Verification failed: root hash is $root." \
        verify "$at/data" "$at/hash" "$(printf '%064d' 0)"
    if [ "$(id -u)" -ne 0 ]; then
        chmod 000 "$at/empty"
        refuses 'a file that may not be read' 4 "Cannot open $at/empty." "${format[@]}" "$at/empty" "$at/new"
    fi

    # Beyond 32 bits. What isn't written takes no room.
    runs 'a hash area above 8 GiB' 0 any '' \
        "$veritysetup" "${format[@]}" --hash-offset $huge "$at/data" "$at/far"
    same_bytes 'a hash area above 8 GiB' "$stated" <(tail -c 2048 "$at/far")
    same 'a hash area above 8 GiB: the size' $((huge + 2048)) "$(stat -c %s "$at/far")"
    runs 'a hash area above 8 GiB: verify' 0 '' '' \
        "$veritysetup" verify --hash-offset $huge "$at/data" "$at/far" "$root"
}

# Each combination of closed streams, and streams that take nothing.
streams() {
    local closed status text message
    for closed in '' 0 1 2 '0 1' '0 2' '1 2' '0 1 2'; do
        rm -f "$hash"
        status=0 text=$(report "$hash" 512 512 17 - "$root") message=
        if [[ $closed = *1* ]]; then status=4 text= message='Cannot write output.'; fi
        if [[ $closed = *2* ]]; then message=; fi
        runs "format, '$closed' closed" $status "$text" "$message" \
            with_closed "$closed" "$veritysetup" format "${image_17_options[@]}" "$data" "$hash"
        same_bytes "format, '$closed' closed: the hash file" "$stated" "$hash"
        if [[ $closed = *1* ]]; then status=1 message='fsverity: cannot write output.'; else text=$line; fi
        if [[ $closed = *2* ]]; then message=; fi
        runs "digest, '$closed' closed" $status "$text" "$message" with_closed "$closed" "$fsverity" digest "$one"
    done
    # shellcheck disable=SC2016
    runs 'a full device' 1 '' 'fsverity: cannot write output.' bash -c '"$@" >/dev/full' - "$fsverity" digest "$one"
    runs 'a closed descriptor as a file' 1 '' 'fsverity: cannot open /dev/fd/9.' "$fsverity" digest /dev/fd/9 9<&-
    mkfifo "$scratch/unread"
    # shellcheck disable=SC2016
    runs 'a pipe that nobody reads' 1 '' 'fsverity: cannot write output.' env --default-signal=PIPE \
        bash -c 'exec 8<>"$0" && exec 9>"$0" && exec 8>&- && exec "$@" >&9' "$scratch/unread" "$fsverity" digest "$one"
}

# A write that is refused, one that a signal ends, and a signal in the middle of the work.
signals() {
    # shellcheck disable=SC2016
    local limited=(bash -c 'ulimit -c 0; ulimit -f 1; if [ "$0" = refused ]; then trap "" XFSZ; fi; exec "$@"')
    local format=("$veritysetup" format "${image_17_options[@]}" "$data" "$hash")
    rm -f "$hash"
    runs 'a write that is refused' 4 '' 'Cannot write hash block 0 of level 0.' "${limited[@]}" refused "${format[@]}"
    { runs 'a write that a signal ends' 153 '' '' env --default-signal=XFSZ "${limited[@]}" ended "${format[@]}"; } \
        2>/dev/null
    truncate -s 64G "$scratch/huge"
    starts "$fsverity" digest "$scratch/huge"
    if waits_for has_read "$scratch/huge"; then pass; else fail 'a signal' 'nothing was read'; fi
    kill -TERM "$pid"
    ended 'a signal' 143 '' ''
    rm -f "$scratch/huge"
}

# Salts and UUIDs are drawn by the system's random bytes.
random_bytes() {
    local first second
    first=$("$veritysetup" format "$data.long" "$hash" | grep -E '^(Salt|UUID):')
    second=$("$veritysetup" format "$data.long" "$hash" | grep -E '^(Salt|UUID):')
    same 'salt and UUID' 2 "$(grep -cE '^(Salt:\s+[0-9a-f]{64}|UUID:\s+[0-9a-f-]{36})$' <<<"$first")"
    same 'salt and UUID, drawn again: lines that stay' 0 "$(comm -12 <(sort <<<"$first") <(sort <<<"$second") | wc -l)"
}

# Where a terminal is asked for, it gets a line each 64 MiB.
terminal() {
    if ! script --quiet --return --command true /dev/null >/dev/null 2>&1 </dev/null; then
        echo "left out: a terminal: script isn't installed (Debian: bsdutils) or can't make one here"
        return
    fi
    truncate -s 257M "$scratch/long"
    SHELL=$BASH script --quiet --return --command "$(printf '%q ' "$fsverity" digest "$scratch/long")" /dev/null \
        >"$scratch/typed" 2>&1 </dev/null
    same 'a terminal: its lines' '24% 49% 74% 99%' \
        "$(tr '\r' '\n' <"$scratch/typed" | grep -oE '^[0-9]+%' | paste -sd ' ')"
    same 'a terminal: the digest' yes "$(grep -qE "sha256:[0-9a-f]{64} $scratch/long" "$scratch/typed" && echo yes)"
    rm "$scratch/long"
}

hashing
# And without SHA instructions, where the processor has them.
if grep -qs '^qemu-aarch64' "$BIN/imitated"; then
    VERITY_PROCESSOR=armv8-a hashing
elif grep -q '^flags.* sha_ni' /proc/cpuinfo; then
    VERITY_PROCESSOR=x86-64-v3 hashing
fi
little_stack
if grep -qs '^qemu-x86_64' "$BIN/imitated"; then
    finish
    exit
fi
sample 8192 >"$data.long"
words
files
streams
signals
random_bytes
terminal
zeros 1048576 >"$scratch/large"
with_scarce_memory 'no memory for the store' 3 '' 'Out of memory.' \
    "$veritysetup" format --salt=- --data-block-size 524288 --hash-block-size 524288 "$scratch/large" "$hash"
finish
