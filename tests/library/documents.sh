#!/usr/bin/env bash
# Builds and runs the examples of include/verity.h, of man/verity.3 and of docs/LIBRARY.md word for word, over an image
# of Debian's veritysetup and a file of fsverity, and compares what header and page say of functions, statuses and the
# version.
set -u
cd "$(dirname "$0")/../.."
. tests/lib/checks.sh
. tests/lib/c_programs.sh
LIB=$(realpath "$LIB")
has_library "$LIB/libverity.a"
has_library "$LIB/libverity.so.2"
needs cc gcc
needs_other veritysetup cryptsetup-bin
root=$PWD
mkdir -p "$scratch/run" "$scratch/installed/lib/pkgconfig" "$scratch/installed/include"

# page_part NUMBER: the NUMBERth example of the page.
page_part() {
    awk -v wanted="$1" '/^\.Bd -literal/ { part++; shown = part == wanted; next } /^\.Ed/ { shown = 0 } shown' man/verity.3
}

# The program of the page is that of the header.
page_part 1 >"$scratch/run/check.c"
sed -nE '/^ \*     #include <stdio.h>/,/^ \*\//s/^ \*( {5})?//p' include/verity.h | sed '$d' >"$scratch/header.c"
same_bytes "the header's example and the page's" "$scratch/run/check.c" "$scratch/header.c"

# It is built against the library as it is installed, and run over an image with a changed block.
cp "$LIB/libverity.a" "$LIB/libverity.so.2" "$scratch/installed/lib"
ln -s libverity.so.2 "$scratch/installed/lib/libverity.so"
cp include/verity.h "$scratch/installed/include"
sample $((300 * 4096)) >"$scratch/run/image.ext4"
report=$(veritysetup format "$scratch/run/image.ext4" "$scratch/run/image.hash")
hash=$(awk '/^Root hash:/ { print $3 }' <<<"$report")
cd "$scratch/run" || exit 1
if command -v pkg-config >/dev/null && command -v xxd >/dev/null; then
    printf '%s\n' "prefix=$scratch/installed" 'Name: libverity' 'Description: as installed' 'Version: 1' \
        'Libs: -L${prefix}/lib -lverity' 'Cflags: -I${prefix}/include' >"$scratch/installed/lib/pkgconfig/verity.pc"
    export PKG_CONFIG_PATH=$scratch/installed/lib/pkgconfig LD_LIBRARY_PATH=$scratch/installed/lib
    while IFS= read -r line; do
        case $line in
        '$ '*)
            command=${line#\$ }
            said=$(root=$hash && eval "$command" 2>&1)
            ;;
        *) same "man/verity.3: $command" "$line" "$said" ;;
        esac
    done < <(cd "$root" && page_part 2)
    same 'the example is built' yes "$([ -x check ] && echo yes)"
    flip image.ext4 5000 1
    bytes "$hash" | ./check image.ext4 image.hash 1
    same 'a changed block' 1 "$?"
    bytes "$hash" | ./check image.ext4 image.hash 0
    same 'the block before it' 0 "$?"
    bytes "$hash" | ./check image.ext4 image.hash 300
    same 'no such block' 2 "$?"
    flip image.ext4 5000 1
else
    echo "left out: the page's commands: pkg-config or xxd is not installed"
fi

# docs/LIBRARY.md's program: a superblock, a data block, its path and the root hash come one after another.
awk '/^    #include "verity.h"|^    #include <stdio.h>/ { shown = 1 } shown && !/^(    .*)?$/ { exit } shown { print substr($0, 5) }' \
    "$root/docs/LIBRARY.md" >block.c
same 'docs/LIBRARY.md: it is there' yes "$(grep -q verity_check_block block.c && echo yes)"
runs 'docs/LIBRARY.md: it is built' 0 '' '' cc -Wall -Wextra -Wconversion -I"$root/include" block.c \
    "$LIB/libverity.a" -o block
# The path of data block 1: level 1 is block 1 of the hash device, and level 0 begins with block 2.
{
    head -c 512 image.hash
    dd if=image.ext4 bs=4096 skip=1 count=1 status=none
    dd if=image.hash bs=4096 skip=2 count=1 status=none
    dd if=image.hash bs=4096 skip=1 count=1 status=none
    bytes "$hash"
} >input
./block <input
same 'docs/LIBRARY.md: the right block' 0 "$?"
flip input 600 1
./block <input
same 'docs/LIBRARY.md: a changed block' 1 "$?"
flip input 600 1
head -c -1 input | ./block
same 'docs/LIBRARY.md: a root hash that ends early' 2 "$?"
flip input 0 1
./block <input
same 'docs/LIBRARY.md: a changed superblock' 1 "$?"
flip input 0 1
# By the commands that stand there, with the folders of this run.
ln -s "$root/include" include
ln -s "$LIB" lib
commands=0
while IFS= read -r command; do
    commands=$((commands + 1))
    if [[ $command == *pkg-config* && -z ${PKG_CONFIG_PATH:-} ]]; then continue; fi
    rm -f block
    runs "docs/LIBRARY.md: $command" 0 '' '' bash -c "$command"
    ./block <input
    same "docs/LIBRARY.md: $command: the right block" 0 "$?"
done < <(sed -nE 's/^[^`]*`(cc [^`]*)`.*/\1/p' "$root/docs/LIBRARY.md")
same 'docs/LIBRARY.md: how many commands build it' 2 "$commands"

# The header's lines, in a program that feeds standard input in pieces of 10000 bytes and writes the hash device:
#     feed DEVICE [STATE [STOP]]
# If the file STATE is there, it goes on from what stands there. If there is a word STOP, it ends with status 3 when a
# hash block is handed out, which isn't written; what is kept between calls is stored in STATE.
{
    cat <<'EOC'
#define _XOPEN_SOURCE 700
#include <fcntl.h>
#include <unistd.h>
#include "verity.h"

static struct verity_params params = {.hash_algorithm = VERITY_SHA256, .hash_type = 1, .data_block_size = 4096,
                                      .hash_block_size = 4096, .data_blocks = 300,
                                      .uuid = {1, 1, 1, 1, 1, 1, 1, 1, 1, 1, 1, 1, 1, 1, 1, 1}};
static struct verity_build build;
static uint8_t memory[10 * 4096], root[32];
static const size_t memory_length = sizeof memory, root_length = sizeof root;
static struct verity_fed fed;
static int device, state = -1, stops;

static ssize_t writes(int file, const void *bytes, size_t length, off_t start)
{
    if (!stops)
        return pwrite(file, bytes, length, start);
    _exit(pwrite(state, &build, sizeof build, 0) == sizeof build &&
          pwrite(state, memory, sizeof memory, sizeof build) == sizeof memory ? 3 : 4);
}
#define pwrite writes

static int begins(void)
{
    int status;
EOC
    header_lines 'status = verity_build_begin'
    printf '%s\n' '    return status;' '}' 'static int feeds(const uint8_t *piece, size_t length)' '{' '    int status;'
    header_lines 'for (;;) {' '}'
    printf '%s\n' '    return 0;' '}' '#undef pwrite' 'static int writes_last_block(void)' '{' '    int status;'
    header_lines 'status = verity_build_last_block' '    return 1;'
    printf '%s\n' '    return 0;' '}' 'static int ends(void)' '{' '    int status;'
    header_lines 'status = verity_build_end'
    cat <<'EOC'
    return status;
}

/* A status becomes a number above 100. */
static void gives_up_with(int status)
{
    if (status != 0)
        _exit(status < 0 ? 100 - status : status);
}

int main(int count, char **words)
{
    static uint8_t bytes[10000], superblock[512];
    ssize_t found;

    device = open(words[1], O_RDWR | O_CREAT, 0644);
    if (count > 2)
        state = open(words[2], O_RDWR | O_CREAT, 0644);
    stops = count > 3;
    if (state >= 0 && pread(state, &build, sizeof build, 0) == sizeof build &&
        pread(state, memory, sizeof memory, sizeof build) == sizeof memory) {
        gives_up_with(writes_last_block());
        if (lseek(0, (off_t)build.fed, SEEK_SET) < 0)
            return 4;
    } else {
        gives_up_with(begins());
    }
    /* No bytes are a piece too: after the last byte hash blocks may be left. */
    do {
        found = read(0, bytes, sizeof bytes);
        if (found < 0)
            return 4;
        gives_up_with(feeds(bytes, (size_t)found));
    } while (found > 0);
    gives_up_with(ends());
    gives_up_with(verity_write_superblock(&params, superblock, 512));
    return pwrite(device, superblock, 512, 0) != 512 || write(1, root, 32) != 32;
}
EOC
} >feed.c
rm -f fed.hash image.hash
uuid=01010101-0101-0101-0101-010101010101
report=$(veritysetup format --salt=- --uuid=$uuid image.ext4 image.hash)
hash=$(awk '/^Root hash:/ { print $3 }' <<<"$report")
runs "the header's lines: they are built" 0 '' '' cc -Wall -Wextra -I"$root/include" feed.c "$LIB/libverity.a" -o feed

# is_image NAME: the root hash in `root` and the hash device fed.hash are those of the other program.
is_image() {
    same "$1: root hash" "$hash" "$(od -An -v -tx1 root | tr -d ' \n')"
    same_bytes "$1: hash device" image.hash fed.hash
}

./feed fed.hash <image.ext4 >root
same "the header's loop: status" 0 "$?"
is_image "the header's loop"
head -c 4096 image.ext4 | ./feed fed.hash >root
same "the header's loop: too few bytes" 118 "$?"
# Four hash blocks are handed out. At each a process is stopped, and the next one goes on from what it has stored.
rm fed.hash root
for block in 1 2 3 4; do
    ./feed fed.hash state stop <image.ext4 >root
    same "stopped at hash block $block: status" 3 "$?"
done
same 'stopped: the top block, not written' "$(zeros 4096 | sha256sum)" \
    "$(tail -c +4097 fed.hash | head -c 4096 | sha256sum)"
./feed fed.hash state stop <image.ext4 >root
same 'the last process: status' 0 "$?"
is_image 'stopped at each hash block'
# And at the first one alone.
rm fed.hash root state
./feed fed.hash state stop <image.ext4 >root
same 'stopped: status' 3 "$?"
./feed fed.hash state <image.ext4 >root
same 'stopped once: status' 0 "$?"
is_image 'stopped once'

# docs/LIBRARY.md's function for a file, in a program that reads it from standard input. It ends with the answer, or
# with 100 and more for a status: with a word, the reading is that of a file that can't be read.
{
    printf '%s\n' '#include <unistd.h>' '#include "verity.h"'
    sed -n '/^    int digest_of_file(/,/^    }/s/^    //p' "$root/docs/LIBRARY.md"
    cat <<'EOC'
int main(int count, char **words)
{
    static uint8_t root[32], digest[32];
    struct fsverity_params params;
    int ret = digest_of_file(count > 1 ? 99 : 0, &params, root, digest);

    (void)words;
    if (ret != 0)
        return ret < 0 ? 100 - ret : ret;
    return write(1, digest, 32) != 32 || write(1, &params.size, 8) != 8;
}
EOC
} >file.c
runs 'docs/LIBRARY.md: the function for a file is built' 0 '' '' cc -Wall -Wextra -Wconversion -I"$root/include" \
    file.c "$LIB/libverity.a" -o file
if command -v fsverity >/dev/null; then
    same 'docs/LIBRARY.md: the digest of a file' \
        "$(fsverity digest --compact image.ext4)$(little_endian 8 $((300 * 4096)) | od -An -v -tx1 | tr -d ' \n')" \
        "$(./file <image.ext4 | od -An -v -tx1 | tr -d ' \n')"
else
    echo 'left out: the digest of a file: fsverity is not installed'
fi
runs 'docs/LIBRARY.md: a file that cannot be read' 1 '' '' ./file none
# A status is handed on: that of 512 bytes of memory in place of 65536, VERITY_BAD_LENGTH.
sed 's/sizeof memory/512/' file.c >wrong.c
runs 'docs/LIBRARY.md: with too little memory, it is built' 0 '' '' cc -I"$root/include" wrong.c "$LIB/libverity.a" \
    -o wrong
runs 'docs/LIBRARY.md: with too little memory' 104 '' '' ./wrong

# Its function for a part, in a program that builds the parts of level 1, the last one first, and joins them. It ends
# with what the function answers, or with 100 and more for a status: `part DATA HASH` over files that are open for
# reading and writing, or if words follow for reading alone.
{
    printf '%s\n' '#include <fcntl.h>' '#include <unistd.h>' '#include "verity.h"'
    sed -n '/^    int build_part(/,/^    }/s/^    //p' "$root/docs/LIBRARY.md"
    cat <<'EOC'
int main(int count, char **words)
{
    static uint8_t memory[9 * 4096], joining[3 * 4096], digests[3 * 32], superblock[512], root[32];
    struct verity_params params = {.hash_algorithm = VERITY_SHA256, .hash_type = 1, .data_block_size = 4096,
                                   .hash_block_size = 4096, .data_blocks = 300,
                                   .uuid = {1, 1, 1, 1, 1, 1, 1, 1, 1, 1, 1, 1, 1, 1, 1, 1}};
    int data = open(words[1], O_RDONLY), hash = open(words[2], count > 3 ? O_RDONLY : O_RDWR | O_CREAT, 0644);
    struct verity_join join;
    struct verity_fed fed;
    size_t length = 0, at = 0;
    int ret;

    for (uint64_t number = 3; number-- > 0;) {
        ret = build_part(&params, data, hash, 1, number, memory, sizeof memory, digests + 32 * number, 32);
        if (ret != 0)
            return ret < 0 ? 100 - ret : ret;
    }
    if (verity_join_memory(&params, 1, &length) != 0 || length > sizeof joining ||
        verity_join_begin(&params, 1, &join, joining, length) != 0)
        return 2;
    do {
        if (verity_join_feed(&params, &join, joining, length, digests + at, sizeof digests - at, &fed) != 0 ||
            pwrite(hash, joining + fed.block_at, fed.block_length, (off_t)fed.block_start) != (ssize_t)fed.block_length)
            return 3;
        at += fed.taken;
    } while (fed.block_length > 0);
    if (verity_join_end(&params, &join, joining, length, root, 32) != 0 ||
        verity_write_superblock(&params, superblock, 512) != 0)
        return 4;
    return pwrite(hash, superblock, 512, 0) != 512 || write(1, root, 32) != 32;
}
EOC
} >part.c
runs 'docs/LIBRARY.md: the function for a part is built' 0 '' '' cc -Wall -Wextra -Wconversion -I"$root/include" \
    part.c "$LIB/libverity.a" -o part
rm fed.hash
./part image.ext4 fed.hash >root
same 'docs/LIBRARY.md: the parts of an image: status' 0 "$?"
is_image 'docs/LIBRARY.md: the parts of an image'
head -c 4096 image.ext4 >short
runs 'docs/LIBRARY.md: a part whose data is too short' 1 '' '' ./part short other.hash
runs 'docs/LIBRARY.md: a part whose hash block cannot be written' 1 '' '' ./part image.ext4 fed.hash read
sed 's/memory\[9/memory[8/' part.c >wrong.c
runs 'docs/LIBRARY.md: a part with too little memory, it is built' 0 '' '' cc -I"$root/include" wrong.c \
    "$LIB/libverity.a" -o wrong
runs 'docs/LIBRARY.md: a part with too little memory' 104 '' '' ./wrong image.ext4 other.hash
cd "$root" || exit 1

# Header and page have the same functions, statuses and version.
functions=$(grep -oE '\b(verity|fsverity)_[a-z_]+\(' include/verity.h | tr -d '(' | sort -u)
same 'functions of man/verity.3' "$(grep -vx 'verity_status\|verity_params' <<<"$functions")" \
    "$(awk '$1 == ".Fn" { print $2 }' man/verity.3 | sort -u)"
same 'statuses of man/verity.3' "$(sed -nE '/^enum verity_status/,/^}/s/^ *(VERITY_[A-Z_]+) = .*/\1/p' include/verity.h | sort -u)" \
    "$(grep -oE '^\.(It )?Dv .*' man/verity.3 | grep -oE 'VERITY_[A-Z_]+' | sort -u)"
version=$(sed -nE 's/^## ([0-9.]+) .*/\1/p' CHANGELOG.md | head -n 1)
same 'version of the header' "$version" "$(header_version <include/verity.h)"
same 'version of the page' ".Os libverity $version" "$(grep '^\.Os' man/verity.3)"
if command -v mandoc >/dev/null; then same 'mandoc -T lint' '' "$(mandoc -T lint -W style man/verity.3 2>/dev/null)"; fi
finish
