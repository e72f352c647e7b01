#!/usr/bin/env bash
# The examples that build a tree from parts, beside images of Debian's veritysetup: examples/parallel_format.c by
# threads, and examples/parts/ by processes that share nothing but files, some of which are killed. A parallel check
# names the first difference: the same as this project's veritysetup in BIN, if that is there. SEED=N draws other
# changes, RUNS=all four times as many, LIB=FOLDER takes the library of another folder.
set -u
cd "$(dirname "$0")/../.."
. tests/lib/checks.sh
. tests/lib/c_programs.sh
. tests/lib/random_images.sh
. tests/lib/examples.sh
LIB=$(realpath "$LIB")
has_library "$LIB/libverity.a"
needs gcc gcc
needs_other veritysetup cryptsetup-bin
RANDOM=$SEED
export ASAN_OPTIONS=detect_leaks=0

# ------------------------------------------------ parallel_format ------------------------------------------------

# formats NAME THREADS: parallel_format makes what Debian's veritysetup has made of tree.data, in tree.hash.
formats() {
    rm -f "$scratch/made.hash"
    runs "parallel_format format: $1, $2 threads" 0 "$root" '' timeout $LONGEST "$parallel_format" format "$2" \
        "$scratch/tree.data" "$scratch/made.hash" "$SALT" $UUID
    same_bytes "parallel_format format: $1, $2 threads" "$scratch/tree.hash" "$scratch/made.hash"
}

# verdict NAME STATUS MESSAGE [ROOT]: what parallel_format says of the files by each number of threads, and this
# project's veritysetup, whose status is 2 for what differs, says of them.
verdict() {
    local threads status=0 said trusted=${4:-$root}
    for threads in 1 2 5; do
        runs "parallel_format verify: $1, $threads threads" "$2" '' "$3" timeout $LONGEST "$parallel_format" verify \
            $threads "$scratch/tree.data" "$scratch/tree.hash" "$trusted"
    done
    if [ "$2" -eq 2 ] || [ ! -x "$BIN/veritysetup" ]; then return; fi
    said=$("$BIN/veritysetup" verify "$scratch/tree.data" "$scratch/tree.hash" "$trusted" 2>&1) || status=$?
    same "$1: status of $BIN/veritysetup" $(($2 * 2)) $status
    said=$(sed -E 's/^Verification failed: //; s/, (child [0-9]+|spare bytes)\.$/ differs./' <<<"$said")
    same "$1: message of $BIN/veritysetup" "$3" "$said"
}

# Trees of no level up to three, about powers of the fan-out, by more threads than there are parts, too; and data with
# bytes behind the last block, an older image in HASH, and no salt.
same_images() {
    local blocks threads
    for blocks in 1 2 127 128 129 1000 16383 16384 16385; do
        tree $blocks 4096
        for threads in 1 2 3 16; do formats "$blocks blocks" $threads; done
    done
    printf x >>"$scratch/tree.data"
    formats 'a byte behind the last block' 2
    runs 'parallel_format format: over an older image' 0 "$root" '' "$parallel_format" format 4 "$scratch/tree.data" \
        "$scratch/made.hash" "$SALT" $UUID
    same_bytes 'parallel_format format: over an older image' "$scratch/tree.hash" "$scratch/made.hash"
    tree 300 4096 --salt -
    rm -f "$scratch/made.hash"
    runs 'parallel_format format: no salt' 0 "$root" '' "$parallel_format" format 2 "$scratch/tree.data" \
        "$scratch/made.hash" - $UUID
    same_bytes 'parallel_format format: no salt' "$scratch/tree.hash" "$scratch/made.hash"
}

# The tree of 1024 data blocks has 64 hash blocks of level 0, 4 of level 1 and the top block. The top block stands at
# byte 512, level 1 at 1024 and level 0 at 3072.
named_differences() {
    local block=4096
    tree 1024 $block --hash-block-size 512
    verdict 'right' 0 ''
    changed 'level 0 block 0 differs.' data 0
    changed 'level 0 block 63 differs.' data $((1024 * block - 1))
    changed 'level 0 block 16 differs.' data $((256 * block)) data $((1023 * block))
    changed 'level 0 block 5 differs.' hash $((3072 + 5 * 512 + 511))
    changed 'level 1 block 2 differs.' hash $((1024 + 2 * 512))
    changed 'level 2 block 0 differs.' hash 1023
    changed 'level 1 block 0 differs.' hash 1024 hash $((3072 + 16 * 512))
    changed 'level 0 block 15 differs.' hash 1024 hash $((3072 + 15 * 512))
    changed 'level 0 block 63 differs.' hash 512 hash $((3072 + 63 * 512))
    changed 'level 1 block 3 differs.' hash 512 hash $((1024 + 3 * 512))
    cut_hash $((3072 + 64 * 512 - 1)) 'level 0 block 63 is missing.'
    cut_hash $((3072 + 16 * 512)) 'level 0 block 16 is missing.'
    cut_hash 512 'level 0 block 0 is missing.'
    cut_hash 511 'HASH: too short for a superblock' 2
    verdict 'another root hash' 1 "root hash is $root." "$(another "$root")"
    verdict 'a short root hash' 2 'ROOT: not as long as a digest' "${root%??}"
    truncate -s $((1024 * block - 1)) "$scratch/tree.data"
    verdict 'data that ends early' 2 'DATA: ends too early'
}

# random_changes COUNT: random images with up to three changed bytes, beside this project's veritysetup.
random_changes() {
    local i status said
    if [ ! -x "$BIN/veritysetup" ]; then
        echo "left out: random changes beside this project's veritysetup: it is not in $BIN"
        return
    fi
    for ((i = 0; i < $1; i++)); do
        random_tree
        status=0
        said=$("$parallel_format" verify $((RANDOM % 8 + 1)) "$scratch/tree.data" "$scratch/tree.hash" "$root" 2>&1) \
            || status=$?
        verdict "random changes of seed $SEED, $i" $status "$said"
    done
}

# What can't be done.
refused_words() {
    tree 300 4096
    runs 'parallel_format: no words' 2 '' any "$parallel_format"
    for word in 0 -1 x 1025; do
        runs "parallel_format: $word threads" 2 '' 'THREADS: not 1 to 1024' "$parallel_format" verify "$word" \
            "$scratch/tree.data" "$scratch/tree.hash" "$root"
    done
    runs 'parallel_format: no data' 2 '' "$scratch/none: No such file or directory" "$parallel_format" verify 2 \
        "$scratch/none" "$scratch/tree.hash" "$root"
    runs 'parallel_format: a full device' 2 '' 'HASH: No space left on device' "$parallel_format" format 2 \
        "$scratch/tree.data" /dev/full "$SALT" $UUID
    runs 'parallel_format: DATA and HASH are one file' 2 '' 'HASH: is the file DATA' "$parallel_format" format 2 \
        "$scratch/tree.data" "$scratch/tree.data" "$SALT" $UUID
    : >"$scratch/none.data"
    cp "$scratch/tree.hash" "$scratch/made.hash"
    runs 'parallel_format: empty data' 2 '' 'verity_write_superblock: no data blocks' "$parallel_format" format 2 \
        "$scratch/none.data" "$scratch/made.hash" - $UUID
    same_bytes 'parallel_format: empty data, HASH stays' "$scratch/tree.hash" "$scratch/made.hash"
    runs 'parallel_format: a short UUID' 2 '' 'UUID: not 16 bytes' "$parallel_format" format 2 "$scratch/tree.data" \
        "$scratch/none.hash" - 1234
    absent 'parallel_format: a short UUID' "$scratch/none.hash"
}

if build examples/parallel_format.c gcc; then
    parallel_format=$scratch/parallel_format
    same_images
    named_differences
    random_changes "$(few 10 40)"
    refused_words
fi
if build examples/parallel_format.c gcc "${sanitizers[@]}"; then
    tree 16385 4096
    formats 'under sanitizers' 4
    named_differences
fi

# ------------------------------------------------------ parts ------------------------------------------------------

# plans PARTS: makes the folder anew, and sets `parts`.
plans() {
    rm -rf "$scratch/folder" "$scratch/made.hash"
    parts=$("$scratch/join_parts" plan "$scratch/tree.data" "$scratch/made.hash" "$scratch/folder" \
        "$1" "$SALT" $UUID) \
        || fail "join_parts plan $1" "status $?"
}

# joins NAME: the parts are joined, and HASH is what Debian's veritysetup has made.
joins() {
    runs "join_parts join: $1" 0 "$root" '' "$scratch/join_parts" join "$scratch/made.hash" "$scratch/folder"
    same_bytes "join_parts join: $1" "$scratch/tree.hash" "$scratch/made.hash"
}

# each NUMBER..: builds parts, up to four at a time.
each() {
    xargs -P 4 -n 1 "$scratch/build_part" "$scratch/tree.data" "$scratch/made.hash" "$scratch/folder" <<<"$*"
}

# without_digest: prints the parts that aren't built.
without_digest() {
    local number
    for ((number = 0; number < parts; number++)); do
        if [ ! -e "$scratch/folder/digest.$number" ]; then echo $number; fi
    done
}

# Parts of each level that a wish for so many parts leads to, in any order.
parts_of_levels() {
    local blocks wish expected
    while read -r blocks wish expected; do
        tree "$blocks" 4096
        plans "$wish"
        same "how many parts of $blocks blocks, of $wish wished for" "$expected" "$parts"
        # shellcheck disable=SC2046 # one word for each number
        each $(seq 0 $((parts - 1)) | shuf --random-source="$scratch/tree.data")
        joins "$blocks blocks, $parts parts"
    done <<'END'
1 1 1
1 9 1
128 1 1
129 1 1
129 2 2
16384 1 1
16384 2 128
16385 2 2
16385 3 129
END
}

# A part that isn't built is named, and HASH is no image then; it is built by itself.
missing_part() {
    tree 1000 4096
    plans 8
    each 0 1 2 4 5 6 7
    runs 'join_parts join: part 3 is missing' 1 '' "$scratch/folder/digest.3: No such file or directory" \
        "$scratch/join_parts" join "$scratch/made.hash" "$scratch/folder"
    runs 'no superblock before all parts are joined' 1 '' any veritysetup verify "$scratch/tree.data" \
        "$scratch/made.hash" "$root"
    mv "$scratch/made.hash" "$scratch/moved"
    : >"$scratch/made.hash"
    runs 'join_parts join: another HASH' 1 '' "$scratch/made.hash: the parts aren't there" "$scratch/join_parts" join \
        "$scratch/made.hash" "$scratch/folder"
    mv "$scratch/moved" "$scratch/made.hash"
    runs 'join_parts plan: DATA and HASH are one file' 1 '' "$scratch/tree.data: is the file DATA" \
        "$scratch/join_parts" plan "$scratch/tree.data" "$scratch/tree.data" "$scratch/none" 1 - $UUID
    runs 'build_part: a part too many' 1 '' 'verity_part_begin: no such part' "$scratch/build_part" \
        "$scratch/tree.data" "$scratch/made.hash" "$scratch/folder" 8
    each 3
    joins 'part 3 was missing'
}

# Processes are killed at random, and what has no digest is built again.
killed_parts() {
    local number round killed=0
    tree 16385 4096
    plans 20
    for ((round = 0; round < 6; round++)); do
        for number in $(without_digest); do
            "$scratch/build_part" "$scratch/tree.data" "$scratch/made.hash" "$scratch/folder" "$number" &
            sleep 0.00$((RANDOM % 4 * round))
            kill -KILL $! 2>/dev/null
            wait $! 2>/dev/null || killed=$((killed + 1))
        done
    done
    if [ $killed -gt 0 ]; then pass; else fail 'parts that were killed' 'none was'; fi
    # shellcheck disable=SC2046 # one word for each number
    each $(without_digest)
    joins "parts that were killed"
}

if build examples/parts/build_part.c gcc && build examples/parts/join_parts.c gcc; then
    parts_of_levels
    missing_part
    killed_parts
fi
finish
