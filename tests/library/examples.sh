#!/usr/bin/env bash
# Builds the examples of the library for C by the commands in their comments, and runs them over images and files of
# Debian's veritysetup and fsverity: right blocks are handed out, changed ones are refused. Then looks how much stack
# each function of the library takes by its code, and some by calls, which header and page state. LIB is the folder with
# the library. Where the tools for 64-bit ARM are there, boot_check and the stack are tried by them too.
set -u
cd "$(dirname "$0")/../.."
. tests/lib/checks.sh
. tests/lib/c_programs.sh
. tests/lib/examples.sh
LIB=$(realpath "$LIB")
for file in libverity.a libverity.so.2; do has_library "$LIB/$file"; done
needs gcc gcc
needs veritysetup cryptsetup-bin

# ------------------------------------------------ boot_check ------------------------------------------------

# reads NAME SIZE INDEX WORD..: the block is handed out.
reads() {
    local name=$1 size=$2 index=$3
    shift 3
    "${boot[@]}" "$@" >"$scratch/block" 2>"$scratch/.err"
    same "${boot[*]##*/}: $name, block $index: status" 0 $?
    block_of "$scratch/$name.data" "$size" "$index" >"$scratch/expected"
    same_bytes "${boot[*]##*/}: $name, block $index" "$scratch/expected" "$scratch/block"
}

# refuses WHAT MESSAGE WORD..: no byte is handed out.
refuses() {
    local what=$1 message=$2
    shift 2
    runs "${boot[*]##*/}: $what" 1 '' "$message" "${boot[@]}" "$@"
}

# boot_image BLOCKS BLOCK_SIZE LEVELS OFFSET OPTION..: right blocks, another root hash and an index past the end.
boot_image() {
    local blocks=$1 size=$2 levels=$3 offset=$4 index words=()
    shift 4
    rm -f "$scratch"/boot.*
    image boot "$blocks" "$size" --hash-offset "$offset" "$@"
    words=("$scratch/boot.data" "$scratch/boot.hash")
    for index in 0 $((blocks / 2)) $((blocks - 1)); do
        reads boot "$size" "$index" "${words[@]}" "$root" "$index" "$offset"
    done
    refuses "$*: another root hash" "status -1, level $levels" "${words[@]}" "$(another "$root")" 0 "$offset"
    refuses "$*: a root hash that is too short" 'status -5' "${words[@]}" "${root%??}" 0 "$offset"
    refuses "$*: past the end" 'status -2' "${words[@]}" "$root" "$blocks" "$offset"
    refuses "$*: the largest index" 'status -2' "${words[@]}" "$root" 18446744073709551615 "$offset"
    flip "$scratch/boot.data" $((size - 1)) 128
    refuses "$*: a changed data block" 'status -1, level 0' "${words[@]}" "$root" 0 "$offset"
    if [ "$blocks" -gt 1 ]; then reads boot "$size" 1 "${words[@]}" "$root" 1 "$offset"; fi
}

# boot_tree: changes in a tree of two levels. Its top block stands after the superblock's, at byte 4096.
boot_tree() {
    local words=("$scratch/tree.data" "$scratch/tree.hash")
    image tree 300 4096
    words+=("$root")
    flip "$scratch/tree.hash" 8192 1
    refuses 'a changed digest of level 0' 'status -1, level 1' "${words[@]}" 0
    refuses 'another digest of its hash block' 'status -1, level 1' "${words[@]}" 1
    reads tree 4096 128 "${words[@]}" 128
    flip "$scratch/tree.hash" 8192 1
    flip "$scratch/tree.hash" 4096 1
    refuses 'a changed digest of level 1' 'status -1, level 2' "${words[@]}" 127
    refuses 'another digest of its hash block' 'status -1, level 2' "${words[@]}" 128
    flip "$scratch/tree.hash" 4096 1
    reads tree 4096 127 "${words[@]}" 127
    flip "$scratch/tree.hash" 0 1
    refuses 'a changed superblock' 'status -15' "${words[@]}" 0
    flip "$scratch/tree.hash" 0 1
    truncate -s 16384 "$scratch/tree.hash"
    refuses 'a missing hash block' 'status -100' "${words[@]}" 299
    truncate -s 4096 "$scratch/tree.data"
    refuses 'a missing data block' 'status -100' "${words[@]}" 1
}

# boot_room: blocks that have room, and larger ones.
boot_room() {
    local words=("$scratch/boot.data" "$scratch/boot.hash")
    rm -f "$scratch"/boot.*
    image boot 9 65536 --hash-block-size 131072
    reads boot 65536 8 "${words[@]}" "$root" 8
    rm -f "$scratch"/boot.*
    image boot 9 4096 --hash-block-size 262144
    reads boot 4096 8 "${words[@]}" "$root" 8
    rm -f "$scratch"/boot.*
    image boot 9 4096 --hash-block-size 524288
    refuses 'larger hash blocks' 'status -101' "${words[@]}" "$root" 8
    # Without levels there are no hash blocks to keep.
    rm -f "$scratch"/boot.*
    image boot 1 4096 --hash-block-size 524288
    reads boot 4096 0 "${words[@]}" "$root" 0
    rm -f "$scratch"/boot.*
    image boot 9 131072
    refuses 'larger data blocks' 'status -101' "${words[@]}" "$root" 8
}

boot_all() {
    local algorithm type
    for algorithm in sha256 sha512 sha1; do
        for type in 0 1; do
            boot_image 1 4096 0 0 --hash $algorithm --format $type
            boot_image 60 4096 1 4096 --hash $algorithm --format $type
            boot_image 200 4096 2 0 --hash $algorithm --format $type
        done
        boot_image 300 512 3 1024 --hash $algorithm --format 1 --hash-block-size 512
    done
    boot_room
    boot_tree
}

boot_checks() {
    if [ "$(uname -m)" = x86_64 ] && build examples/boot_check.c gcc; then
        boot=("$scratch/boot_check")
        boot_all
    fi
    if has aarch64-linux-gnu-gcc gcc-aarch64-linux-gnu 'boot_check for 64-bit ARM' &&
        has qemu-aarch64 qemu-user 'boot_check for 64-bit ARM'; then
        if [ ! -e "$LIB/aarch64/libverity.a" ]; then
            echo "left out: boot_check for 64-bit ARM: $LIB/aarch64/libverity.a is not there"
        elif build examples/boot_check.c aarch64-linux-gnu-gcc; then
            boot=(qemu-aarch64 "$scratch/boot_check_arm")
            boot_all
        fi
    fi
}

# -------------------------------------------------- nbdkit --------------------------------------------------

# served WORD.. COMMAND: runs a command of the shell while nbdkit serves an image. What the command prints goes to
# $scratch/served, and what nbdkit says to $scratch/said.
served() {
    timeout "$LONGEST" nbdkit -v -U - "$scratch/nbdkit-verity-plugin.so" "${@:1:$#-1}" --run "${!#}" \
        >"$scratch/served" 2>"$scratch/said" </dev/null
}

# copies NAME HASH_BLOCKS WORD..: the whole data, and how many hash blocks were read for it.
copies() {
    local name=$1 hash_blocks=$2 words=("${@:3}")
    rm -f "$scratch/copy"
    served "${words[@]}" "nbdcopy --synchronous \"\$uri\" '$scratch/copy'"
    same "nbdkit: $name: status" 0 $?
    same_bytes "nbdkit: $name" "$scratch/$name.data" "$scratch/copy"
    same "nbdkit: $name: hash blocks read" "$hash_blocks" \
        "$(grep -c 'debug: a hash block is read at byte [0-9]*$' "$scratch/said")"
    rm -f "$scratch/copy"
    served "${words[@]}" "nbdcopy \"\$uri\" '$scratch/copy'"
    same_bytes "nbdkit: $name, by several connections" "$scratch/$name.data" "$scratch/copy"
}

# gives OFFSET LENGTH: bytes that are read are those of the data.
gives() {
    served "${words[@]}" "qemu-io -r -f raw -c 'read -v $1 $2' \"\$uri\""
    tail -c +$(($1 + 1)) "$scratch/tree.data" | head -c "$2" | od -An -v -w16 -tx1 | tr -d ' ' >"$scratch/expected"
    sed -nE 's/^[0-9a-f]{8}: (( [0-9a-f]{2}){1,16}) .*/\1/p' "$scratch/served" | tr -d ' ' >"$scratch/block"
    same_bytes "nbdkit: $2 bytes from byte $1" "$scratch/expected" "$scratch/block"
}

# is_refused MESSAGE OFFSET LENGTH: a read is an input error, the second time too, and nbdkit says why.
is_refused() {
    served "${words[@]}" "qemu-io -r -f raw -c 'read $2 $3' -c 'read $2 $3' \"\$uri\""
    same "nbdkit: $1: read" 2 "$(grep -c '^read failed: Input/output error$' "$scratch/served")"
    same "nbdkit: $1" 2 "$(grep -c "error: $1\$" "$scratch/said")"
}

# The tree of 1024 data blocks has 64 hash blocks of level 0, 4 of level 1 and the top block, each for 16 blocks. The
# top block stands at byte 512, level 1 at 1024 and level 0 at 3072.
nbdkit_checks() {
    local words
    has nbdkit nbdkit nbdkit-verity-plugin && has nbdcopy libnbd-bin nbdkit-verity-plugin || return
    if ! gcc -include nbdkit-plugin.h -D NBDKIT_API_VERSION=2 -fsyntax-only -x c /dev/null 2>/dev/null; then
        echo 'left out: nbdkit-verity-plugin: nbdkit-plugin.h is not installed (Debian: nbdkit-plugin-dev)'
        return
    fi
    build examples/nbdkit-verity-plugin.c gcc || return
    rm -f "$scratch"/*.hash

    image one 1 4096
    copies one 0 data="$scratch/one.data" hash="$scratch/one.hash" roothash="$root"
    image large 3000 1024 --hash sha512 --hash-block-size 1024 --hash-offset 2048
    copies large $((($(stat -c %s "$scratch/large.hash") - 2048 - 1024) / 1024)) data="$scratch/large.data" \
        hash="$scratch/large.hash" roothash="$root" hashoffset=2048
    image tree 1024 4096 --hash-block-size 512
    words=(data="$scratch/tree.data" hash="$scratch/tree.hash" roothash="$root")
    copies tree 69 "${words[@]}"

    has qemu-io qemu-utils 'nbdkit-verity-plugin: single reads' || return
    gives 0 1
    gives 4095 2
    gives 5000 20000
    gives $((1024 * 4096 - 1)) 1
    flip "$scratch/tree.data" $((7 * 4096 + 5)) 1
    is_refused 'data block 7: it isn.t the one that level 0 has the digest of' $((7 * 4096)) 1
    is_refused 'data block 7: it isn.t the one that level 0 has the digest of' 5000 60000
    gives $((6 * 4096)) 4096
    gives $((8 * 4096)) 4096
    flip "$scratch/tree.data" $((7 * 4096 + 5)) 1
    flip "$scratch/tree.hash" 3072 1
    is_refused 'data block 15: a hash block above it isn.t the one that level 1 has the digest of' $((15 * 4096)) 512
    gives $((16 * 4096)) 4096
    flip "$scratch/tree.hash" 3072 1
    flip "$scratch/tree.hash" 1024 1
    is_refused 'data block 255: a hash block above it isn.t the one that level 2 has the digest of' $((255 * 4096)) 512
    gives $((256 * 4096)) 4096
    flip "$scratch/tree.hash" 1024 1
    flip "$scratch/tree.hash" 512 1
    is_refused 'data block 1023: a hash block above it isn.t the one of the root hash' $((1023 * 4096)) 512
    flip "$scratch/tree.hash" 512 1
    gives $((1023 * 4096)) 4096
    words[2]=roothash=$(another "$root")
    is_refused 'data block 0: a hash block above it isn.t the one of the root hash' 0 512
    words[2]=roothash=$root
    truncate -s 8192 "$scratch/tree.data"
    is_refused 'data block 2 can.t be read' 8192 512
}

# ----------------------------------------------- check_blocks.py ----------------------------------------------

python=(env VERITY_LIBRARY="$LIB/libverity.so.2" python3 examples/check_blocks.py)

# file_with_tree NAME SIZE OPTION..: a file with its tree by Debian's fsverity. Sets digest.
file_with_tree() {
    local file=$scratch/$1
    sample "$2" >"$file"
    shift 2
    digest=$(fsverity digest "$@" --out-merkle-tree="$file.tree" "$file")
    digest=${digest%% *}
}

python_checks() {
    local algorithm length words
    has python3 python3 check_blocks.py || return
    rm -f "$scratch"/*.hash
    image one 1 4096
    runs 'check_blocks.py: one block' 0 '1 blocks are right' '' "${python[@]}" "$scratch/one.data" "$scratch/one.hash" \
        "$root"
    image tree 300 1024 --hash sha512 --hash-block-size 512 --format 0
    words=("${python[@]}" "$scratch/tree.data" "$scratch/tree.hash")
    runs 'check_blocks.py: an image' 0 '300 blocks are right' '' "${words[@]}" "$root"
    runs 'check_blocks.py: past the end' 1 'block 300: there is no such block' '' "${words[@]}" "$root" 299 300
    runs 'check_blocks.py: another root hash' 1 'block 9: level 3 differs' '' "${words[@]}" "$(another "$root")" 9
    flip "$scratch/tree.data" 5000 1
    flip "$scratch/tree.data" $((299 * 1024)) 1
    runs 'check_blocks.py: changed data' 1 $'block 4: level 0 differs\nblock 299: level 0 differs' '' \
        "${words[@]}" "$root"
    runs 'check_blocks.py: a block that is right' 0 '1 blocks are right' '' "${words[@]}" "$root" 5
    truncate -s $((299 * 1024 + 1000)) "$scratch/tree.data"
    runs 'check_blocks.py: short data' 1 'block 299: status -4' '' "${words[@]}" "$root" 0 299

    has fsverity fsverity 'check_blocks.py: files' || return
    for algorithm in sha256 sha512; do
        for length in 0 1 4096 4097 1000000; do
            file_with_tree file $length --hash-alg=$algorithm
            runs "check_blocks.py: $algorithm, $length bytes" 0 "$(((length + 4095) / 4096)) blocks are right" '' \
                "${python[@]}" --fsverity "$scratch/file" "$scratch/file.tree" "$digest"
        done
    done
    file_with_tree file 1000000
    words=("${python[@]}" --fsverity "$scratch/file" "$scratch/file.tree")
    runs 'check_blocks.py: another file digest' 1 '' 'the file digest is another' "${words[@]}" "$(another "$digest")"
    flip "$scratch/file" 999999 1
    runs 'check_blocks.py: a changed file' 1 'block 244: level 0 differs' '' "${words[@]}" "$digest"
    flip "$scratch/file" 999999 1
    flip "$scratch/file.tree" 4096 1
    runs 'check_blocks.py: a changed digest' 1 $'block 0: level 0 differs\nblock 1: level 1 differs' '' \
        "${words[@]}" "$digest" 0 1 128
    flip "$scratch/file.tree" 0 1
    runs 'check_blocks.py: a changed top block' 1 '' 'the file digest is another' "${words[@]}" "$digest"
}

# --------------------------------------------- copy_and_digest.py ---------------------------------------------

# copies_files OPTION..: files of many sizes are copied, and each copy has the digest that Debian's fsverity gives it.
copies_files() {
    local length names=()
    rm -rf "$scratch/from" "$scratch/to"
    mkdir "$scratch/from" "$scratch/to"
    for length in 0 1 1023 4096 4097 $((128 * 4096)) $((128 * 4096 + 1)) $((1 << 20)) 3000001; do
        sample "$length" >"$scratch/from/$length"
        names+=("$length")
    done
    python3 examples/copy_and_digest.py "$@" "${names[@]/#/$scratch/from/}" "$scratch/to" >"$scratch/copied" 2>&1
    same "copy_and_digest.py $*: status" 0 $?
    fsverity digest "$@" "${names[@]/#/$scratch/to/}" >"$scratch/expected"
    same_bytes "copy_and_digest.py $*" "$scratch/expected" "$scratch/copied"
    for length in "${names[@]}"; do
        same_bytes "copy_and_digest.py $*: $length bytes" "$scratch/from/$length" "$scratch/to/$length"
    done
}

copy_checks() {
    local copy=(python3 examples/copy_and_digest.py) to=$scratch/to
    has python3 python3 copy_and_digest.py && has fsverity fsverity copy_and_digest.py || return
    export VERITY_LIBRARY=$LIB/libverity.so.2
    copies_files
    copies_files --hash-alg=sha512 --block-size=1024
    copies_files --block-size=64 --salt="$SALT"
    copies_files --block-size=65536 --salt=00
    # What is there has other bytes than the file, so that a copy over it would be seen.
    sample 5000 | rev >"$to/4097"
    cp "$to/4097" "$scratch/there"
    runs 'copy_and_digest.py: the copy is there' 1 '' any "${copy[@]}" "$scratch/from/4097" "$to"
    same_bytes 'copy_and_digest.py: the copy that was there' "$scratch/there" "$to/4097"
    runs 'copy_and_digest.py: no such file' 1 '' any "${copy[@]}" "$scratch/from/none" "$to"
    absent 'copy_and_digest.py: no such file' "$to/none"
    rm "$to/1023"
    runs 'copy_and_digest.py: a block size of 63' 1 '' 'copy_and_digest.py: fsverity_build_memory: status -8' \
        "${copy[@]}" --block-size=63 "$scratch/from/1023" "$to"
    absent 'copy_and_digest.py: a block size of 63' "$to/1023"
    runs 'copy_and_digest.py: a salt of 33 bytes' 1 '' 'copy_and_digest.py: fsverity_build_memory: status -10' \
        "${copy[@]}" --salt="${SALT}00" "$scratch/from/1023" "$to"
    unset VERITY_LIBRARY
}

# --------------------------------------------------- Stack ---------------------------------------------------

# Rows of the table in header and page: the calls, and the bytes on x86-64, on 64-bit ARM and with strict alignment.
rows=$(sed -nE 's/^ \*     ([a-z ,]*[a-z])  +([0-9]+) +([0-9]+) +([0-9]+)$/\1:\2:\3:\4/p' include/verity.h)

# row_of FUNCTION: the calls among which the table has it.
row_of() {
    case $1 in
    *_part_feed | *_part_end) echo 'a part that is fed or ended' ;;
    *_build_feed | *_build_end | *_build_end_block) echo 'a tree that is fed or ended' ;;
    *_join_feed | *_join_end | fsverity_file_digest) echo 'a join that is fed or ended, a file digest' ;;
    *_check_*) echo 'a block that is checked' ;;
    *) echo 'any other call' ;;
    esac
}

# stack_of LIBRARY COLUMN MOST PREFIX RUNNER..: by its code no call of a library takes more stack than that column of
# the table says, and one that feeds or ends no more than MOST KiB. Of the calls that stack.c measures none takes more
# than its code says, and the one that takes most takes just that. PREFIX stands before the names of tools.
stack_of() {
    local name=${1#"$LIB/"} library=$1 column=$2 most=$3 prefix=$4 function taken stated limit measured least
    local hashes_in_vectors=yes
    shift 4
    if ! grep -qE '(-strict-align|, without SHA instructions)$' "$library.made" &&
        { [ -n "$prefix" ] || grep -q ' sha_ni' /proc/cpuinfo; }; then
        hashes_in_vectors=no
    fi
    "${prefix}objdump" -dr --no-show-raw-insn "$library" | tests/library/stack.py >"$scratch/taken" 2>"$scratch/.err"
    same "stack of $name: the functions" "$(header_functions)" "$(cut -d' ' -f1 "$scratch/taken")"
    is_text "stack of $name: what isn't known" '' "$scratch/.err"
    echo "bytes of stack, $name:"
    while read -r function taken; do
        printf '    %-29s %5d\n' "$function" "$taken"
        stated=$(awk -F: -v row="$(row_of "$function")" -v column="$column" '$1 == row { print $column }' <<<"$rows")
        limit=$stated_in_all
        case $function in *_feed | *_end | *_end_block) limit=$most ;; esac
        if [ "$taken" -le "${stated:-0}" ] && [ "$taken" -le $((limit * 1024)) ]; then
            pass
        else
            fail "stack of $function, $name" "stated: up to $stated bytes, and $limit KiB" "found:  $taken"
        fi
    done <"$scratch/taken"
    compiles "$scratch/stack" "${prefix}gcc" -O2 -static tests/library/stack.c "$library" || return
    "$@" "$scratch/stack" >"$scratch/measured" 2>"$scratch/.err"
    same "stack of $name, measured: functions" 5 "$(wc -l <"$scratch/measured")"
    # Arguments may stand on the stack, too, and not every byte of it is written. Where a call hashes by SHA instructions
    # it takes less than without them, for which there has to be room, too.
    while read -r function measured; do
        taken=$(awk -v name="$function" '$1 == name { print $2 }' "$scratch/taken") least=0
        if [ "$function:$hashes_in_vectors" = verity_part_feed:yes ]; then least=$((taken - 64)); fi
        if [ "$measured" -ge $least ] && [ "$measured" -le $((taken + 64)) ]; then
            pass
        else
            fail "stack of $function, $name" "by the code: $taken" "measured:    $measured"
        fi
    done <"$scratch/measured"
}

stack_checks() {
    local words strict building for_v3=$LIB/glibc-hwcaps/x86-64-v3/libverity.a arm=aarch64-linux-gnu- sentence
    has python3 python3 'the stack' && has objdump binutils 'the stack' || return
    same "the table of man/verity.3" "$rows" \
        "$(sed -nE 's/^\.It ([a-z ,]*[a-z]) Ta ([0-9]+) Ta ([0-9]+) Ta ([0-9]+)$/\1:\2:\3:\4/p' man/verity.3)"
    # A sentence of the header goes on in the next line.
    words=$(sed 's/^ \*//' include/verity.h | tr -s ' \n' ' ')
    sentence='.* A call takes up to ([0-9]+) KiB of stack on either target, and one that feeds or ends up to ([0-9]+)'
    sentence+=' KiB, with libverity-strict-align\.a up to ([0-9]+) KiB.*'
    read -r stated_in_all building strict < <(sed -nE "s/$sentence/\1 \2 \3/p" <<<"$words")
    if [ -z "$strict" ]; then
        fail 'the stack' 'include/verity.h states no KiB'
        return
    fi
    if [ "$(uname -m)" = x86_64 ]; then
        stack_of "$LIB/libverity.a" 2 "$building" ''
        if [ -e "$LIB/without/libverity.a" ]; then stack_of "$LIB/without/libverity.a" 2 "$building" ''; fi
        if [ ! -e "$for_v3" ]; then
            echo "left out: the stack for x86-64-v3: $for_v3 is not there"
        elif [ "$(./processor.sh)" != x86-64-v3 ]; then
            echo "left out: the stack for x86-64-v3: this processor doesn't have all of it"
        else
            stack_of "$for_v3" 2 "$building" ''
        fi
    fi
    if [ ! -e "$LIB/aarch64/libverity.a" ]; then
        echo "left out: the stack for 64-bit ARM: $LIB/aarch64/libverity.a is not there"
    elif has ${arm}gcc gcc-aarch64-linux-gnu 'the stack for 64-bit ARM' &&
        has qemu-aarch64 qemu-user 'the stack for 64-bit ARM'; then
        stack_of "$LIB/aarch64/libverity.a" 3 "$building" $arm qemu-aarch64
        stack_of "$LIB/aarch64/libverity-strict-align.a" 4 "$strict" $arm qemu-aarch64
    fi
}

boot_checks
nbdkit_checks
python_checks
copy_checks
stack_checks
finish
