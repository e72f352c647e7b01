#!/usr/bin/env bash
# Two examples of the library for C over images of Debian's veritysetup, right and changed ones, each also compiled with
# AddressSanitizer and UndefinedBehaviorSanitizer. examples/checked_blocks.c is called by checked_blocks.c of this
# folder, over devices that change, fail and lie. examples/check_image.c names the first difference: the same as this
# project's veritysetup in BIN, if that is there. SEED=N draws other changes, RUNS=all four times as many, LIB=FOLDER
# takes the library of another folder.
set -u
cd "$(dirname "$0")/../.."
. tests/lib/checks.sh
. tests/lib/c_programs.sh
. tests/lib/random_images.sh
. tests/lib/examples.sh
LIB=$(realpath "$LIB")
has_library "$LIB/libverity.a"
needs gcc gcc
needs_other veritysetup cryptsetup-bin
RANDOM=$SEED
export ASAN_OPTIONS=detect_leaks=0

# ------------------------------------------------ checked_blocks ------------------------------------------------

# blocks_of_images BUILT: calls a build of checked_blocks.c over images of no level up to three.
blocks_of_images() {
    local built=$1 words name=0
    while read -ra words; do
        name=$((name + 1))
        rm -f "$scratch"/image.*
        image image "${words[@]}"
        adds "checked_blocks: ${words[*]}" "$built" "$SEED" "$scratch/image.data" "$scratch/image.hash" "$root"
    done <<'END'
1 4096
1 512 --hash-block-size 1024 --format 0
60 4096 --hash sha1
128 4096
129 4096 --hash sha512
1024 4096 --hash-block-size 512
300 512 --hash sha512 --hash-block-size 512 --format 0
40 8192 --hash-block-size 1024 --hash sha384
END
    same 'how many images were read' 8 $name
}

# The file that is copied needs nothing but the library.
runs 'checked_blocks.c, freestanding' 0 '' '' gcc "${warnings[@]}" -Wconversion -Wshadow -O2 -ffreestanding \
    -fno-tree-loop-distribute-patterns -Iinclude -c examples/checked_blocks.c -o "$scratch/checked_blocks.o"
if has nm binutils 'what checked_blocks.c needs'; then
    same 'what checked_blocks.c needs' 'check_link check_top hash_block_start level_count ' \
        "$(nm -u "$scratch/checked_blocks.o" | sed 's/.* U verity_//' | tr '\n' ' ')"
fi
sources=(tests/library/{checked_blocks,support}.c examples/checked_blocks.c "$LIB/libverity.a")
if compiles "$scratch/blocks" gcc -O2 "${sources[@]}"; then blocks_of_images "$scratch/blocks"; fi
if compiles "$scratch/blocks" gcc "${sanitizers[@]}" "${sources[@]}"; then blocks_of_images "$scratch/blocks"; fi

# ------------------------------------------------- check_image -------------------------------------------------

# What check_image is told of $scratch/tree.data and tree.hash: the root hash, and the hash offset.
words=()

# beside NAME STATUS MESSAGE: this project's veritysetup says the same of the files: 2 for what differs and 1 or 4 for
# what can't be checked. It also says how a hash block differs, and has its own words for what it refuses.
beside() {
    local name=$1 expected=$2 message=$3 status=0 said
    if [ ! -x "$BIN/veritysetup" ]; then return; fi
    said=$("$BIN/veritysetup" verify --hash-offset "${words[1]:-0}" "$scratch/tree.data" "$scratch/tree.hash" \
        "${words[0]}" 2>&1) || status=$?
    case $status in
    0) ;;
    2) status=1 ;;
    *) status=2 ;;
    esac
    same "$name: status of $BIN/veritysetup" "$expected" $status
    said=$(sed -E 's/^Verification failed: //; s/, (child [0-9]+|spare bytes)\.$/ differs./; s/^Data /The data /' \
        <<<"$said")
    case $message in *': '*) return ;; esac
    same "$name: message of $BIN/veritysetup" "$message" "$said"
}

# verdict NAME STATUS MESSAGE: what check_image says of the files. Debian's program says whether all is right.
verdict() {
    local status=0
    runs "check_image: $1" "$2" '' "$3" timeout $LONGEST "$check_image" "$scratch/tree.data" "$scratch/tree.hash" \
        "${words[@]}"
    beside "$1" "$2" "$3"
    veritysetup verify --hash-offset "${words[1]:-0}" "$scratch/tree.data" "$scratch/tree.hash" "${words[0]}" \
        >"$scratch/.debian" 2>&1 || status=1
    same "$1: Debian's veritysetup" $(($2 > 0)) $status
}

# cut_data SIZE STATUS MESSAGE [OFFSET]: the data ends early, and a byte of the hash device is changed.
cut_data() {
    cp "$scratch/tree.data" "$scratch/whole"
    truncate -s "$1" "$scratch/tree.data"
    if [ $# -gt 3 ]; then flip "$scratch/tree.hash" "$4" 1; fi
    verdict "data of $1 bytes, hash ${4:-right}" "$2" "$3"
    if [ $# -gt 3 ]; then flip "$scratch/tree.hash" "$4" 1; fi
    mv "$scratch/whole" "$scratch/tree.data"
}

# checked_tree BLOCKS BLOCK_SIZE OPTION..: makes the image anew, and sets `words`.
checked_tree() {
    tree "$@"
    words=("$root")
}

# The tree of 1024 data blocks has 64 hash blocks of level 0, 4 of level 1 and the top block, each for 16 blocks. The
# top block stands at byte 512, level 1 at 1024 and level 0 at 3072. A data block closes hash blocks of its own group of
# 16, of its group of 256, and of all.
deep_tree() {
    local block=4096
    checked_tree 1024 $block --hash-block-size 512
    verdict 'right' 0 ''
    changed 'level 0 block 0 differs.' data 0
    changed 'level 0 block 0 differs.' data $((7 * block + 5)) hash 512
    changed 'level 0 block 63 differs.' data $((1024 * block - 1))
    changed 'level 0 block 16 differs.' data $((256 * block)) data $((1023 * block))
    changed 'level 0 block 5 differs.' hash $((3072 + 5 * 512 + 511))
    changed 'level 1 block 2 differs.' hash $((1024 + 2 * 512))
    changed 'level 2 block 0 differs.' hash 1023
    changed 'level 1 block 0 differs.' hash 1024 hash $((3072 + 16 * 512))
    changed 'level 0 block 15 differs.' hash 1024 hash $((3072 + 15 * 512))
    changed 'level 0 block 63 differs.' hash 512 hash $((3072 + 63 * 512))
    changed 'level 1 block 3 differs.' hash 512 hash $((1024 + 3 * 512))
    cut_hash $((3072 + 64 * 512 - 1)) 'level 0 block 63 is missing.'
    cut_hash $((3072 + 16 * 512)) 'level 0 block 16 is missing.'
    cut_hash 3072 'level 0 block 0 is missing.'
    cut_hash 512 'level 0 block 0 is missing.'
    cut_hash 511 'HASH: too short for a superblock' 2
    cut_data $((1024 * block - 1)) 2 'The data ends before the end of block 1023.'
    cut_data $((100 * block + 1)) 2 'The data ends before the end of block 100.'
    cut_data 0 2 'The data ends before the end of block 0.' 512
    cut_data $((100 * block)) 1 'level 0 block 5 differs.' $((3072 + 5 * 512))
    cut_data $((16 * block)) 2 'The data ends before the end of block 16.'
    cut_data $((16 * block)) 2 'The data ends before the end of block 16.' $((3072 + 512))
    cut_data $((16 * block)) 1 'level 0 block 0 differs.' 3072
    cut_data $((16 * block + 1)) 1 'level 0 block 0 differs.' 3072
    cut_data $((16 * block - 1)) 2 'The data ends before the end of block 15.' 3072
    cut_data $((256 * block)) 1 'level 1 block 0 differs.' 1024
    cut_data $((256 * block - 1)) 2 'The data ends before the end of block 255.' 1024
    cut_data $((1024 * block - 1)) 2 'The data ends before the end of block 1023.' 512
    # Bytes behind the data, and behind the tree, aren't looked at.
    printf x | tee -a "$scratch/tree.hash" >>"$scratch/tree.data"
    verdict 'more bytes' 0 ''
}

# What is refused before the data is read, and another root hash.
refused_words() {
    local right=$root
    words=("$(another "$right")")
    verdict 'another root hash' 1 "root hash is $right."
    words=("${right%??}")
    verdict 'a short root hash' 2 'ROOT: status -5'
    words=("${right}00")
    verdict 'a long root hash' 2 'ROOT: status -5'
    words=("${right%?}")
    verdict 'half a digit' 2 'ROOT: not a digest in hexadecimal'
    words=("$right")
    flip "$scratch/tree.hash" 0 1
    verdict 'another signature' 2 'verity_read_superblock: status -15'
    flip "$scratch/tree.hash" 0 1
    runs 'check_image: no data' 2 '' "$scratch/none: No such file or directory" "$check_image" "$scratch/none" \
        "$scratch/tree.hash" "$right"
    runs 'check_image: a folder' 2 '' 'DATA: Is a directory' "$check_image" "$scratch" "$scratch/tree.hash" "$right"
    runs 'check_image: no words' 2 '' 'usage: check_image DATA HASH ROOT [HASH_OFFSET]' "$check_image"
    for word in '' -1 x 9223372036854775807 99999999999999999999; do
        runs "check_image: offset $word" 2 '' any "$check_image" "$scratch/tree.data" "$scratch/tree.hash" "$right" \
            "$word"
    done
}

# Bytes that hold no digest, salts, hash functions and types, a hash offset, and one data block.
other_trees() {
    checked_tree 300 4096 --hash sha512 --format 0
    verdict 'SHA-512' 0 ''
    changed 'level 0 block 4 differs.' hash $((8192 + 5 * 4096 - 1))
    changed 'level 1 block 0 differs.' hash 8191
    changed 'level 0 block 4 differs.' data $((299 * 4096))
    checked_tree 5000 1024 --hash-offset 10240
    words+=(10240)
    verdict 'a hash offset' 0 ''
    changed 'level 0 block 39 differs.' data $((5000 * 1024 - 1))
    changed 'level 1 block 0 differs.' hash $((10240 + 4096))
    checked_tree 1 4096
    verdict 'one block' 0 ''
    flip "$scratch/tree.data" 9 1
    runs 'check_image: one changed block' 1 '' any "$check_image" "$scratch/tree.data" "$scratch/tree.hash" "$root"
    is_text 'check_image: the root hash of one changed block' \
        "root hash is $({ bytes "$SALT" && cat "$scratch/tree.data"; } | sha256sum | cut -c1-64)." "$scratch/.err"
}

# random_changes COUNT: random images with up to three changed bytes, beside this project's veritysetup.
random_changes() {
    local i status expected
    if [ ! -x "$BIN/veritysetup" ]; then
        echo "left out: random changes beside this project's veritysetup: it is not in $BIN"
        return
    fi
    for ((i = 0; i < $1; i++)); do
        random_tree
        words=("$root")
        if ((RANDOM % 4 == 0)); then truncate -s $((RANDOM % 700 * 512)) "$scratch/tree.data"; fi
        status=0
        expected=$("$check_image" "$scratch/tree.data" "$scratch/tree.hash" "$root" 2>&1) || status=$?
        beside "random changes of seed $SEED, $i" $status "$expected"
    done
}

if build examples/check_image.c gcc; then
    check_image=$scratch/check_image
    deep_tree
    refused_words
    other_trees
    random_changes "$(few 15 60)"
fi
if build examples/check_image.c gcc "${sanitizers[@]}"; then
    deep_tree
    refused_words
    other_trees
fi
finish
