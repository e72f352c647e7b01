# What the scripts of tests/library and tests/bindings draw by a seed: numbers, images and files of Debian's programs
# over random settings, other trees, and random calls. Sourced after tests/lib/c_programs.sh.

SEED=${SEED:-1}

# few FEW ALL: prints the first of two numbers of random runs, or of sizes, and with RUNS=all the second.
few() {
    if [ "${RUNS:-}" = all ]; then echo "$2"; else echo "$1"; fi
}

# The block sizes of images of dm-verity.
verity_sizes=(512 512 1024 2048 4096 8192)

# one_of WORD..: sets `chosen` to one of the words.
one_of() {
    shift $((RANDOM % $#))
    chosen=$1
}

# random_hex COUNT: sets `hex` to so many random bytes in hexadecimal.
random_hex() {
    local i digits
    hex=
    for ((i = 0; i < $1; i++)); do
        printf -v digits %02x $((RANDOM & 255))
        hex+=$digits
    done
}

# random_salt MOST: sets `salt` to none, or to up to so many bytes.
random_salt() {
    one_of 0 1 $(($1 - 1)) "$1" $((RANDOM % ($1 + 1))) $((RANDOM % ($1 + 1)))
    random_hex "$chosen"
    salt=${hex:--}
}

# draws_data: the bytes that images are made of, the same for the same seed, and random numbers of that seed.
draws_data() {
    RANDOM=$SEED
    python3 -c 'import random, sys
sys.stdout.buffer.write(random.Random(int(sys.argv[1])).randbytes(1 << 24))' "$SEED" >"$scratch/all"
}

# random_count FAN-OUT MOST: sets `count` to a number of blocks: at a step of the number of levels, or any.
random_count() {
    local limit=$2 square=$(($1 * $1)) cube=$(($1 * $1 * $1))
    one_of 1 2 "$1" $(($1 + 1)) "$square" $((square + 1)) "$cube" $((cube + 1)) $((RANDOM % 40 + 1)) \
        $((RANDOM % 4000 + 1)) $((RANDOM % 4000 + 1))
    count=$chosen
    if [ "$count" -gt "$limit" ]; then count=$((RANDOM % limit + 1)); fi
}

# random_size BLOCK FAN-OUT MOST: sets `size` to a size of a file at which a block or a level is full, or beside it, or
# to any.
random_size() {
    local block=$1 fan=$2 most=$3 square=$(($1 * $2 * $2))
    one_of 0 1 "$block" $((block * fan)) "$square" $((square * fan)) $((RANDOM * 32768 + RANDOM))
    size=$chosen
    if [ "$size" -gt "$most" ]; then size=$((size % most)); fi
    if [ "$size" -gt 1 ]; then size=$((size - 1 + RANDOM % 3)); fi
}

# verity_image MOST-BYTES: makes a dm-verity image by Debian's program at random, with at most so much data. Sets
# `words` to what programs are told of it, the data and the file of its tree, and `made` to what it is.
verity_image() {
    local hash type data_block_size hash_block_size area offset root options place
    one_of sha1 sha224 sha256 sha256 sha384 sha512
    hash=$chosen
    type=$((RANDOM % 2))
    one_of "${verity_sizes[@]}"
    data_block_size=$chosen
    one_of "${verity_sizes[@]}"
    hash_block_size=$chosen
    random_salt 256
    random_count "$(fan_out "$hash" "$hash_block_size")" $(($1 / data_block_size))
    random_hex 16
    one_of superblock superblock bare
    area=$chosen
    if [ "$area" = superblock ]; then
        one_of 0 0 512 $((RANDOM % 100 * 512)) $((1 << 20)) $(((1 << 20) + 512))
        offset=$chosen
        # The other program can't write a superblock alone at an offset that is no multiple of 4096.
        if [ "$count" -eq 1 ]; then offset=$((offset / 4096 * 4096)); fi
        place=(--uuid "${hex:0:8}-${hex:8:4}-${hex:12:4}-${hex:16:4}-${hex:20}")
    else
        # It rounds an offset down that is no multiple of the hash block size.
        offset=$((RANDOM % 3 * (RANDOM % 100) * hash_block_size))
        place=(--no-superblock)
    fi
    head -c $((data_block_size * count)) "$scratch/all" >"$scratch/data"
    rm -f "$scratch/hashes"
    # Bytes before the hash area, which aren't looked at.
    head -c "$offset" "$scratch/all" >"$scratch/hashes"
    options=(--hash "$hash" --format "$type" --data-block-size "$data_block_size" --hash-block-size "$hash_block_size"
        --salt="$salt" --hash-offset "$offset" "${place[@]}")
    if ! veritysetup format "${options[@]}" "$scratch/data" "$scratch/hashes" >"$scratch/report" 2>&1; then
        fail "veritysetup format ${options[*]}, $count blocks" "$(cat "$scratch/report")"
        return 1
    fi
    root=$(root_in "$scratch/report")
    made="$area $hash $type $data_block_size $hash_block_size $salt $count $offset"
    # shellcheck disable=SC2086
    tests/lib/tree_files.py verity $made "$hex" "$scratch/data" "$scratch/hashes" "$root" >"$scratch/trees.one"
    words=("$scratch/data" "$scratch/trees.one")
}

# fsverity_image MOST-BYTES: the same of fs-verity.
fsverity_image() {
    local hash block size
    one_of sha256 sha512
    hash=$chosen
    one_of 1024 1024 2048 4096
    block=$chosen
    random_salt 32
    random_count "$(fan_out "$hash" "$block")" $(($1 / block))
    one_of 0 $((count * block)) $((count * block)) $((count * block - RANDOM % block)) $((count * block - 1)) \
        $(((count - 1) * block + 1))
    size=$chosen
    fsverity_file "$hash" "$block" "$size"
}

# fsverity_file HASH BLOCK SIZE: the same of a file of so many bytes, with `salt`.
fsverity_file() {
    local hash=$1 block=$2 size=$3 options
    head -c "$size" "$scratch/all" >"$scratch/file"
    rm -f "$scratch/tree" "$scratch/descriptor"
    options=(--hash-alg="$hash" --block-size="$block" --salt="${salt#-}")
    if ! fsverity digest --compact "${options[@]}" --out-merkle-tree="$scratch/tree" \
        --out-descriptor="$scratch/descriptor" "$scratch/file" >"$scratch/report" 2>&1; then
        fail "fsverity digest ${options[*]}, $size bytes" "$(cat "$scratch/report")"
        return 1
    fi
    made="$hash $block $salt $size"
    # shellcheck disable=SC2086
    tests/lib/tree_files.py fsverity $made "$scratch/tree" "$scratch/descriptor" "$(cat "$scratch/report")" \
        >"$scratch/trees.one"
    words=("$scratch/file" "$scratch/trees.one")
}

# tries_images PROGRAM VERITY FSVERITY MOST-BYTES [WORD..]: runs a program over so many images of either kind, after
# WORD.., an emulator. What a program of Debian's is missing for is left out.
tries_images() {
    local program=$1 verity=$2 fsverity=$3 most=$4 i
    shift 4
    if command -v veritysetup >/dev/null; then
        for ((i = 0; i < verity; i++)); do
            if verity_image "$most"; then adds "image $i" "$@" "$program" "${words[@]}"; fi
        done
    else
        echo 'left out: images of dm-verity: veritysetup is not installed'
    fi
    if command -v fsverity >/dev/null; then
        for ((i = 0; i < fsverity; i++)); do
            if fsverity_image "$most"; then adds "file $i" "$@" "$program" "${words[@]}"; fi
        done
    else
        echo 'left out: files of fs-verity: fsverity is not installed'
    fi
}

# draws_trees KIND LIMIT..: sets `trees` to the data and the file of many trees by trees.py, of a kind of tree_files.py.
draws_trees() {
    trees=("$scratch/all" "$scratch/trees.$1")
    tests/lib/tree_files.py "$1" "$scratch/all" "$SEED" "${@:2}" >"${trees[1]}" ||
        fail "tests/lib/tree_files.py $1" "status $?"
}

# tries_random PROGRAM CALLS [WORD..]: runs a build of fuzz.c for so many calls, after WORD.., an emulator.
tries_random() {
    local program=$1 calls=$2
    shift 2
    tests/lib/chains.py "$SEED" 300 >"$scratch/chains" || fail 'tests/lib/chains.py' "status $?"
    adds "random calls of seed $SEED" "$@" "$program" "$SEED" "$calls" "$scratch/chains"
    echo "seed $SEED: $(grep ' calls, ' "$scratch/.ran")"
}
