#!/usr/bin/env bash
# Runs bin/fsverity as a user would: files, output files, memory and streams, with SHA-256, blocks of 4096 and no salt.
set -u
cd "$(dirname "$0")/../.."
. tests/lib/checks.sh
. tests/lib/digests.sh
has_program fsverity
fsverity=$BIN/fsverity

# prints_digest_of_size SIZE: the line of a file of so many bytes.
prints_digest_of_size() {
    local file=$scratch/$1
    sample "$1" >"$file"
    runs "a file of $1 bytes" 0 "sha256:$(digest "$(root "$file")" "$1") $file" '' "$fsverity" digest "$file"
}

files() {
    local none
    none=$(digest "$(printf '%064d' 0)" 0)
    : >"$scratch/empty"
    runs 'an empty file' 0 "sha256:$none $scratch/empty" '' "$fsverity" digest "$scratch/empty"
    runs 'the null device' 0 "sha256:$none /dev/null" '' "$fsverity" digest /dev/null
    for size in 1 4095 4096 4097 524288 524289; do
        prints_digest_of_size "$size"
    done
    printf a >"$scratch/odd name %s"
    runs 'a name with spaces' 0 "sha256:$(digest "$(root "$scratch/odd name %s")" 1) $scratch/odd name %s" '' \
        "$fsverity" digest "$scratch/odd name %s"
}

# The examples of docs/DEFINITIONS.md.
stated_digests() {
    local name stated
    : >"$scratch/empty"
    printf a >"$scratch/the byte 61"
    zeros 4097 >"$scratch/4097 zeros"
    for name in 'empty' 'the byte 61' '4097 zeros'; do
        stated=$(sed -nE "s/^\| $name \|.* ([0-9a-f]{64}) \|\$/\1/p" docs/DEFINITIONS.md)
        runs "the stated digest of '$name'" 0 "sha256:$stated $scratch/$name" '' "$fsverity" digest "$scratch/$name"
    done
}

# A run over several files ends at the first that fails, and the lines before it stand.
several_files() {
    local none
    none=$(digest "$(printf '%064d' 0)" 0)
    : >"$scratch/first"
    : >"$scratch/second"
    runs 'two files' 0 "sha256:$none $scratch/first
sha256:$none $scratch/second" '' "$fsverity" digest "$scratch/first" "$scratch/second"
    runs 'a file named twice' 0 "sha256:$none $scratch/first
sha256:$none $scratch/second
sha256:$none $scratch/first" '' "$fsverity" digest "$scratch/first" "$scratch/second" "$scratch/first"
    runs 'three files, the second missing' 1 "sha256:$none $scratch/first" "fsverity: cannot open $scratch/missing." \
        "$fsverity" digest "$scratch/first" "$scratch/missing" "$scratch/second"
}

# As many names of an empty file as a command line may have: each has its line, in order.
many_names() {
    local none count names status=0
    none=$(digest "$(printf '%064d' 0)" 0)
    : >"$scratch/z"
    # A name takes four bytes at most, with the byte at its end, and eight more.
    count=$((($(getconf ARG_MAX) - $(env | wc -c) - 65536) / 12))
    awk -v count="$count" 'BEGIN { for (i = 1; i <= count; i++) print i % 7 == 0 ? "./z" : "z" }' >"$scratch/names"
    sed "s/^/sha256:$none /" "$scratch/names" >"$scratch/expected"
    mapfile -t names <"$scratch/names"
    fsverity=$(realpath "$fsverity")
    (cd "$scratch" && exec "$fsverity" digest "${names[@]}") >"$scratch/out" 2>"$scratch/err" || status=$?
    same "$count names: status" 0 "$status"
    same "$count names: lines" "$count" "$(wc -l <"$scratch/out")"
    same "$count names: the last line" "$(tail -n 1 "$scratch/expected")" "$(tail -n 1 "$scratch/out")"
    same_bytes "$count names" "$scratch/expected" "$scratch/out"
    is_text "$count names: messages" '' "$scratch/err"
}

files_that_fail() {
    local folder=$scratch/folder
    mkdir "$folder"
    runs 'a missing file' 1 '' "fsverity: cannot open $scratch/missing." "$fsverity" digest "$scratch/missing"
    runs 'a missing file with a space in its name' 1 '' "fsverity: cannot open $scratch/mis sing." \
        "$fsverity" digest "$scratch/mis sing"
    runs 'an empty name' 1 '' 'fsverity: cannot open .' "$fsverity" digest ''
    runs 'a folder' 1 '' "fsverity: cannot open $folder." "$fsverity" digest "$folder"
    mkfifo "$scratch/pipe"
    runs 'a pipe as the file' 1 '' "fsverity: cannot open $scratch/pipe." \
        bash -c 'exec 9<>"$1"; exec "$2" digest "$1"' - "$scratch/pipe" "$fsverity"
}

memory() {
    zeros 1048576 >"$scratch/large"
    with_scarce_memory 'no memory for the store' 1 '' 'fsverity: out of memory.' \
        "$fsverity" digest --block-size 524288 "$scratch/large"
}

outputs() {
    sample 4097 >"$scratch/file"
    runs 'output on a full device' 1 '' 'fsverity: cannot write output.' \
        bash -c '"$1" digest "$2" >/dev/full' - "$fsverity" "$scratch/file"
    runs 'a closed standard output' 1 '' 'fsverity: cannot write output.' \
        bash -c '"$1" digest "$2" >&-' - "$fsverity" "$scratch/file"
    mkfifo "$scratch/unread"
    runs 'a pipe that nobody reads' 1 '' 'fsverity: cannot write output.' \
        bash -c 'exec 8<>"$3"; exec 9>"$3"; exec 8>&-; "$1" digest "$2" >&9' - "$fsverity" "$scratch/file" "$scratch/unread"
    runs 'a closed standard error' 1 '' '' \
        bash -c '"$1" digest "$2" 2>&-' - "$fsverity" "$scratch/missing"
    runs 'all streams closed' 1 '' '' \
        bash -c '"$1" digest "$2" <&- >&- 2>&-' - "$fsverity" "$scratch/file"
}

# The tree and the descriptor of a file, as sha256sum makes them.
output_files() {
    local file=$scratch/two line
    sample 4097 >"$file"
    line="sha256:$(digest "$(root "$file")" 4097) $file"
    cp "$file" "$scratch/whole"
    truncate -s %4096 "$scratch/whole"
    hash_blocks "$scratch/whole" 4096 4096 >"$scratch/expected"
    sample 100000 >"$scratch/tree"
    runs 'a tree file and a descriptor file' 0 "$line" '' \
        "$fsverity" digest --out-merkle-tree "$scratch/tree" --out-descriptor="$scratch/made" "$file"
    same_bytes 'two digests in a tree file that was longer' "$scratch/expected" "$scratch/tree"
    digest "$(root "$file")" 4097 >/dev/null
    same_bytes 'the descriptor of 4097 bytes' "$scratch/descriptor" "$scratch/made"

    : >"$scratch/empty"
    runs 'output files of an empty file' 0 "sha256:$(digest "$(printf '%064d' 0)" 0) $scratch/empty" '' \
        "$fsverity" digest --out-descriptor "$scratch/made" "$scratch/empty" --out-merkle-tree="$scratch/tree"
    same_bytes 'an empty tree file' "$scratch/empty" "$scratch/tree"
    same_bytes 'the descriptor of an empty file' "$scratch/descriptor" "$scratch/made"
    runs 'the null device for both output files' 0 "$line" '' \
        "$fsverity" digest --out-merkle-tree /dev/null --out-descriptor /dev/null "$file"
}

# New output files may be read and written by everybody but for what the umask takes.
permissions() {
    local file=$scratch/two mask name
    sample 4097 >"$file"
    for mask in 000 022 077; do
        rm -f "$scratch/new_tree" "$scratch/new_descriptor"
        runs "output files with a umask of $mask" 0 "sha256:$(digest "$(root "$file")" 4097) $file" '' bash -c \
            'umask "$1"; shift; exec "$@"' - "$mask" \
            "$fsverity" digest --out-merkle-tree "$scratch/new_tree" --out-descriptor "$scratch/new_descriptor" "$file"
        for name in new_tree new_descriptor; do
            same "$name with a umask of $mask" "$(printf %o $((0666 & ~0$mask)))" "$(stat -c %a "$scratch/$name")"
        done
    done
}

# An output file that fails ends the run: nothing that comes later is written.
output_files_that_fail() {
    local file=$scratch/two
    sample 4097 >"$file"
    rm -f "$scratch/made"
    runs 'a missing input file' 1 '' "fsverity: cannot open $scratch/missing." \
        "$fsverity" digest --out-descriptor "$scratch/made" "$scratch/missing"
    absent 'no descriptor file for a missing input file' "$scratch/made"
    runs 'a tree file that cannot be made' 1 '' "fsverity: cannot open $scratch/no/tree." \
        "$fsverity" digest --out-merkle-tree "$scratch/no/tree" --out-descriptor "$scratch/made" "$file"
    absent 'no descriptor file after a tree file that cannot be made' "$scratch/made"
    runs 'a descriptor file that cannot be made' 1 '' "fsverity: cannot open $scratch/no/made." \
        "$fsverity" digest --out-descriptor "$scratch/no/made" "$file"
    runs 'a full device as the tree file' 1 '' 'fsverity: cannot write tree block 0 of level 0.' \
        "$fsverity" digest --out-merkle-tree /dev/full --out-descriptor "$scratch/made" "$file"
    is_text 'no descriptor after a tree that is not written' '' "$scratch/made"
    # Level 0 begins at byte 1536: seven of its blocks end within 5120 bytes.
    sample 153600 >"$scratch/many"
    rm -f "$scratch/tree" "$scratch/made"
    # shellcheck disable=SC2016
    runs 'a tree that is refused on the way' 1 '' 'fsverity: cannot write tree block 7 of level 0.' \
        bash -c 'ulimit -f 5; trap "" XFSZ; exec "$@"' - "$fsverity" digest --block-size 512 \
        --out-merkle-tree "$scratch/tree" --out-descriptor "$scratch/made" "$scratch/many"
    same 'a tree that is refused on the way: a part of it stays' 5120 "$(stat -c %s "$scratch/tree")"
    is_text 'a tree that is refused on the way: an empty descriptor' '' "$scratch/made"
    runs 'a full device as the descriptor file' 1 '' 'fsverity: cannot write descriptor.' \
        "$fsverity" digest --out-descriptor /dev/full "$file"
    mkdir "$scratch/outputs"
    runs 'a folder as the tree file' 1 '' "fsverity: cannot open $scratch/outputs." \
        "$fsverity" digest --out-merkle-tree "$scratch/outputs" --out-descriptor "$scratch/unmade" "$file"
    runs 'a folder as the descriptor file' 1 '' "fsverity: cannot open $scratch/outputs." \
        "$fsverity" digest --out-merkle-tree "$scratch/unmade" --out-descriptor "$scratch/outputs" "$file"
    absent 'no output file beside a folder' "$scratch/unmade"
    runs 'output files of two input files' 2 '' 'fsverity: output files need exactly one input file.' \
        "$fsverity" digest --out-descriptor "$scratch/unmade" "$file" "$file"
    absent 'no output file after a refused option' "$scratch/unmade"
}

# loses_nothing NAME REFUSED WORD..: a file that is named twice is refused under its second name, and stays.
loses_nothing() {
    local name=$1 refused=$2
    shift 2
    runs "$name" 1 '' "fsverity: cannot open $refused." "$fsverity" digest "$@"
    same_bytes "$name: the input file" "$scratch/copy" "$scratch/input"
    same_bytes "$name: the other file" "$scratch/copy" "$scratch/other"
}

# An empty file is a file like others: its second name is found too.
empty_files() {
    : >"$scratch/none"
    ln "$scratch/none" "$scratch/none_hard"
    runs 'an empty input file by another name' 1 '' "fsverity: cannot open $scratch/none_hard." \
        "$fsverity" digest --out-descriptor "$scratch/none_hard" "$scratch/none"
    is_text 'an empty input file stays' '' "$scratch/none"
    runs 'one empty file for both' 1 '' "fsverity: cannot open $scratch/none_hard." \
        "$fsverity" digest --out-merkle-tree "$scratch/none" --out-descriptor "$scratch/none_hard" "$scratch/input"
    is_text 'one empty file for both stays' '' "$scratch/none"
}

named_twice() {
    local input=$scratch/input other=$scratch/other
    sample 9000 >"$input"
    cp "$input" "$other"
    cp "$input" "$scratch/copy"
    ln "$input" "$scratch/hard"
    ln -s input "$scratch/soft"
    ln "$other" "$scratch/other_hard"
    ln -s other "$scratch/other_soft"
    loses_nothing 'the input file as the tree file' "$input" --out-merkle-tree "$input" "$input"
    loses_nothing 'the input file as the descriptor file' "$input" --out-descriptor "$input" "$input"
    loses_nothing 'the input file by another path' "$scratch/./input" --out-merkle-tree "$scratch/./input" "$input"
    ln -s . "$scratch/folder_link"
    loses_nothing 'the input file through a linked folder' "$scratch/folder_link/input" \
        --out-merkle-tree "$scratch/folder_link/input" "$input"
    fsverity=$(realpath "$fsverity")
    cd "$scratch" || exit 1
    loses_nothing 'the input file by a relative path' input --out-descriptor input "$input"
    cd - >/dev/null || exit 1
    loses_nothing 'a hard link to the input file' "$scratch/hard" --out-descriptor "$scratch/hard" "$input"
    loses_nothing 'a symbolic link to the input file' "$scratch/soft" \
        --out-merkle-tree "$other" --out-descriptor "$scratch/soft" "$input"
    loses_nothing 'one file for both' "$other" --out-merkle-tree "$other" --out-descriptor "$other" "$input"
    loses_nothing 'a hard link to the tree file' "$scratch/other_hard" \
        --out-merkle-tree "$other" --out-descriptor "$scratch/other_hard" "$input"
    loses_nothing 'a symbolic link to the descriptor file' "$other" \
        --out-merkle-tree "$scratch/other_soft" --out-descriptor "$other" "$input"
    loses_nothing 'one file for both that is not there yet' "$scratch/new" \
        --out-merkle-tree "$scratch/new" --out-descriptor "$scratch/new" "$input"
    is_text 'the file that was made for both' '' "$scratch/new"
    ln -s unmade "$scratch/dangling"
    loses_nothing 'a symbolic link to a file that is not there yet' "$scratch/unmade" \
        --out-merkle-tree "$scratch/dangling" --out-descriptor "$scratch/unmade" "$input"
}

files
stated_digests
several_files
many_names
files_that_fail
outputs
memory
output_files
permissions
output_files_that_fail
named_twice
empty_files
finish
