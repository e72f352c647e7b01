# What the scripts that run the examples share: how these are built, and images of Debian's veritysetup, right and
# changed ones. Sourced after tests/lib/c_programs.sh.

UUID=12345678-1234-4234-8234-123456789abc
SALT=$(printf 'ab%.0s' {1..32})

# has TOOL PACKAGE WHAT: whether a tool is there. Otherwise says that something is left out.
has() {
    command -v "$1" >/dev/null || {
        echo "left out: $3: $1 is not installed (Debian: $2)"
        return 1
    }
}

# build FILE COMPILER OPTION..: builds an example by the command in its comment that begins with this compiler, and by
# further options, with the library in LIB. What it makes goes to the scratch folder.
build() {
    local file=$1 compiler=$2 command
    shift 2
    command=$(sed -n "/^ \*     $compiler /,/[^\\\\]\$/s/^ \*//p" "$file" | sed 's/\\$//' | tr '\n' ' ')
    command=$(sed -E 's| lib/| "$LIB"/|g; s| -o +| -o "$scratch"/|' <<<"${command#"${command%%[! ]*}"}")
    if [[ $command != "$compiler "* ]]; then
        fail "$file: build" "its comment has no command that begins with $compiler"
        return 1
    fi
    if eval "$command -Wall -Wextra -Wpedantic -Wconversion -Werror $*" >"$scratch/built" 2>&1; then
        pass
    else
        fail "$file: build" "$(cat "$scratch/built")"
        return 1
    fi
}

# image NAME BLOCKS BLOCK_SIZE OPTION..: makes NAME.data and NAME.hash by Debian's veritysetup. Sets root.
image() {
    local name=$scratch/$1 blocks=$2 size=$3
    shift 3
    sample $((blocks * size)) >"$name.data"
    veritysetup format --uuid $UUID --salt "$SALT" --data-block-size "$size" "$@" "$name.data" "$name.hash" >"$name.txt" \
        2>&1 || fail "$name" "$(cat "$name.txt")"
    root=$(root_in "$name.txt")
}

# tree BLOCKS BLOCK_SIZE OPTION..: makes the image tree.data and tree.hash anew. Sets root.
tree() {
    rm -f "$scratch"/tree.*
    image tree "$@"
}

# random_tree: the same at random, with up to three changed bytes, none of them in the superblock. Draws by
# tests/lib/random_images.sh.
random_tree() {
    local i file size
    one_of sha256 sha512 sha1
    tree $((RANDOM % 700 + 1)) 512 --hash "$chosen" --hash-block-size 512 --format $((RANDOM % 2))
    for ((i = RANDOM % 4; i > 0; i--)); do
        one_of data hash hash
        file=$scratch/tree.$chosen
        size=$(stat -c %s "$file")
        if [ "$chosen" = data ]; then
            flip "$file" $(((RANDOM * 32768 + RANDOM) % size)) 1
        elif [ "$size" -gt 512 ]; then
            flip "$file" $((512 + (RANDOM * 32768 + RANDOM) % (size - 512))) 1
        fi
    done
}

# changed MESSAGE FILE OFFSET [FILE OFFSET]: what the script's `verdict` is with one or two changed bytes.
changed() {
    flip "$scratch/tree.$2" "$3" 16
    if [ $# -gt 3 ]; then flip "$scratch/tree.$4" "$5" 1; fi
    verdict "$2 $3 ${*:4}" 1 "$1"
    flip "$scratch/tree.$2" "$3" 16
    if [ $# -gt 3 ]; then flip "$scratch/tree.$4" "$5" 1; fi
}

# cut_hash SIZE MESSAGE [STATUS]: the same where the hash device ends early.
cut_hash() {
    cp "$scratch/tree.hash" "$scratch/whole"
    truncate -s "$1" "$scratch/tree.hash"
    verdict "a hash device of $1 bytes" "${3:-1}" "$2"
    mv "$scratch/whole" "$scratch/tree.hash"
}

# another ROOT: a root hash that differs in its last digit.
another() {
    tr 0123456789abcdef 123456789abcdef0 <<<"${1: -1}" | sed "s/^/${1%?}/"
}

# block_of FILE SIZE INDEX: one block.
block_of() {
    dd if="$1" bs="$2" skip="$3" count=1 status=none
}
