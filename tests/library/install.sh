#!/usr/bin/env bash
# Runs `make install-library` into folders, without programs, for x86-64 and for 64-bit ARM: compares the files there,
# their modes and bytes with what docs/BUILDING.md says, and builds programs by what pkg-config says of it, which run.
# glibc's loader takes the shared library for x86-64-v3 if the processor has all of that. After `make uninstall-library`
# just these files are gone. What isn't built whole isn't installed, and one target's library doesn't take the place of
# another's.
set -u
cd "$(dirname "$0")/../.."
. tests/lib/checks.sh
. tests/lib/installing.sh
needs make make
needs cc gcc
needs pkg-config pkg-config
needs strip binutils
needs readelf binutils
if ! is_built x86_64; then
    echo "$0: the library is not there: run 'make library' first" >&2
    exit 1
fi

# The root hash of a block of 512 zeros is their digest. The program sees that they have it, and that others don't.
root=$(zeros 512 | sha256sum | cut -c 1-64 | sed 's/../0x&,/g')
cat >"$scratch/user.c" <<'EOC'
#include <verity.h>

int main(void)
{
    static const uint8_t root[32] = {ROOT};
    static uint8_t block[512];
    struct verity_params params = {.hash_algorithm = VERITY_SHA256, .hash_type = 1, .data_block_size = 512,
                                   .hash_block_size = 512, .data_blocks = 1};
    size_t level;

    if (verity_check_block(&params, 0, block, 512, block, 0, root, 32, &level) != VERITY_OK)
        return 1;
    block[0] = 1;
    return verity_check_block(&params, 0, block, 512, block, 0, root, 32, &level) != VERITY_DIFFERS;
}
EOC

# installs_library TARGET FOLDER PREFIX WORD..: `make install-library` with these words puts the files of the library
# there, and nothing else. No programs are built where it runs.
installs_library() {
    local target=$1 folder=$scratch/$2 prefix=$3 file
    shift 3
    runs "$folder: make install-library" 0 '' '' \
        make -s -C "$scratch/alone" --no-print-directory install-library DESTDIR="$folder" TARGET="$target" "$@"
    same "$folder: files" "$(library_files "$target" "$prefix" | sort -k 2)" "$(listed "$folder")"
    same_bytes "$folder: the page" man/verity.3 "$folder/${manuals:-$prefix/share/man}/man3/verity.3"
    same "$folder: links to the page" "$(header_functions | sed 's/$/.3 verity.3/')" \
        "$(find "$folder/${manuals:-$prefix/share/man}" -type l -printf '%P %l\n' | sed 's|^man3/||' | sort)"
    while read -r _ file; do
        # What is stripped is compared apart.
        if [[ " $* " = *' STRIP=yes '* && $file != *.a ]]; then continue; fi
        same_bytes "$folder: $file" "$(built_in "$target")/$file" "$folder/${libraries:-$prefix/lib}/$file"
    done < <(built_files "$target")
}

# builds NAME COMPILER WORD..: the program is built of user.c by these words.
builds() {
    runs "$1: a program is built" 0 '' '' "$2" -Wall -DROOT="$root" "$scratch/user.c" "${@:3}" -o "$scratch/user"
}

# links FOLDER PREFIX COMPILER WORD..: programs are built by what pkg-config says of the installed library, static, and
# against the shared one by its short name, and run after WORD.., by which the shared one is found.
links() {
    local folder=$scratch/$1 lib=$scratch/$1/${libraries:-$2/lib} compiler=$3 words
    shift 3
    read -ra words < <(PKG_CONFIG_PATH=$lib/pkgconfig PKG_CONFIG_SYSROOT_DIR=$folder pkg-config --cflags --libs verity)
    same "$folder: version" "$version" "$(PKG_CONFIG_PATH=$lib/pkgconfig pkg-config --modversion verity)"
    same "$folder: libverity.so" libverity.so.2 "$(readlink "$lib/libverity.so")"
    builds "$folder, static" "$compiler" "${words[@]}" -static
    same "$folder, static: libraries" '' "$(readelf -d "$scratch/user" | grep NEEDED)"
    runs "$folder, static: the program" 0 '' '' "$@" "$scratch/user"
    builds "$folder, shared" "$compiler" "${words[@]}"
    runs "$folder, shared: the program" 0 '' '' "$@" "$scratch/user"
}

# loaded COMMAND..: from which file glibc's loader takes the shared library, as it lists what a program needs.
loaded() {
    "$@" | sed -n 's/^\s*libverity\.so\.2 => \(.*\) (.*/\1/p'
}

# is_found FOLDER: the loader takes the library for x86-64-v3, if this processor has all of that, and on the first
# x86-64 processor the other one.
is_found() {
    local lib=$scratch/$1 best=$scratch/$1 first=(qemu-x86_64 -cpu Opteron_G1)
    if [ "$(./processor.sh)" = x86-64-v3 ]; then best+=/glibc-hwcaps/x86-64-v3; fi
    same "$1: the library for this processor" "$best/libverity.so.2" \
        "$(loaded env LD_LIBRARY_PATH="$lib" LD_TRACE_LOADED_OBJECTS=1 "$scratch/user")"
    if command -v qemu-x86_64 >/dev/null; then
        same "$1: the library for the first processor" "$lib/libverity.so.2" \
            "$(loaded "${first[@]}" -E LD_LIBRARY_PATH="$lib" -E LD_TRACE_LOADED_OBJECTS=1 "$scratch/user")"
    else
        echo "left out: the library for the first processor: qemu-x86_64 is not installed"
    fi
}

version=$(sed -nE 's/^## ([0-9.]+) .*/\1/p' CHANGELOG.md | head -n 1)
mkdir "$scratch/alone"
cp -r Makefile install.sh building.sh include man lib "$scratch/alone"
goal=uninstall-library
installs_library x86_64 plain usr/local
links plain usr/local cc env LD_LIBRARY_PATH="$scratch/plain/usr/local/lib"
is_found plain/usr/local/lib
uninstalls plain
# Folders as packagers set them: one word each, in place of those below PREFIX.
packaged=(PREFIX=/usr 'MANDIR=/usr/man pages' LIBDIR=/usr/lib/x86_64-linux-gnu INCLUDEDIR=/opt/headers)
libraries=usr/lib/x86_64-linux-gnu
manuals='usr/man pages' includes=opt/headers installs_library x86_64 packaged usr "${packaged[@]}"
links packaged usr cc env LD_LIBRARY_PATH="$scratch/packaged/$libraries"
is_found packaged/$libraries
same 'folders of their own: pkg-config' '-I/opt/headers ' \
    "$(PKG_CONFIG_PATH="$scratch/packaged/$libraries/pkgconfig" pkg-config --cflags verity | sed 's/ *$/ /')"
uninstalls packaged "${packaged[@]}"
libraries=
spaced='a space  and "quotes"'
installs_library x86_64 "$spaced" 'opt/our programs' PREFIX='/opt/our programs'
same 'a space: pkg-config' "-L/opt/our\\ programs/lib -lverity " \
    "$(PKG_CONFIG_PATH="$scratch/$spaced/opt/our programs/lib/pkgconfig" pkg-config --libs verity | sed 's/ *$/ /')"
uninstalls "$spaced" PREFIX='/opt/our programs'
installs_library x86_64 stripped usr/local STRIP=yes
for file in libverity.so.2 glibc-hwcaps/x86-64-v3/libverity.so.2; do
    is_stripped "lib/$file" "$scratch/stripped/usr/local/lib/$file"
done
links stripped usr/local cc env LD_LIBRARY_PATH="$scratch/stripped/usr/local/lib"
uninstalls stripped STRIP=yes

# For 64-bit ARM, where Debian's compiler for it looks.
arm=usr/aarch64-linux-gnu
if ! is_built aarch64; then
    echo 'left out: the library for 64-bit ARM: it is not built'
elif ! command -v qemu-aarch64 >/dev/null ||
    ! aarch64-linux-gnu-gcc -include stdio.h -fsyntax-only -x c /dev/null 2>/dev/null; then
    echo 'left out: the library for 64-bit ARM: a compiler for it or qemu-aarch64 is not installed'
else
    installs_library aarch64 arm $arm PREFIX=/$arm
    lib=$scratch/arm/$arm/lib
    emulator=(qemu-aarch64 -L "/$arm" -E LD_LIBRARY_PATH="$lib")
    links arm $arm aarch64-linux-gnu-gcc "${emulator[@]}"
    builds 'libverity-strict-align.a' aarch64-linux-gnu-gcc -static -I"${lib%/*}/include" -L"$lib" -lverity-strict-align
    runs 'libverity-strict-align.a: the program' 0 '' '' "${emulator[@]}" "$scratch/user"
    uninstalls arm TARGET=aarch64 PREFIX=/$arm
    installs_library aarch64 arm_stripped $arm PREFIX=/$arm STRIP=yes
    is_stripped lib/aarch64/libverity.so.2 "$scratch/arm_stripped/$arm/lib/libverity.so.2" aarch64-linux-gnu-strip
    uninstalls arm_stripped TARGET=aarch64 PREFIX=/$arm STRIP=yes
fi

# Another TARGET, and a library of which a file is missing: here, over files in place of the library's.
for goal in install uninstall install-library uninstall-library; do
    refuses "make $goal for another target" 'TARGET is x86_64 or aarch64' $goal TARGET=riscv64
done
mkdir -p "$scratch/empty/lib/"{aarch64,glibc-hwcaps/x86-64-v3}
cp -r Makefile install.sh building.sh include man "$scratch/empty"
for target in x86_64 aarch64; do
    folder=$scratch/empty/$(built_in $target) make='make library' compiler=cc
    if [ $target = aarch64 ]; then make+=' TARGET=aarch64' compiler=aarch64-linux-gnu-gcc; fi
    refuses "no library for $target" "run '$make' first" -C "$scratch/empty" install-library TARGET=$target
    while read -r _ file; do : >"$folder/$file"; done < <(built_files $target)
    while read -r _ file; do
        case $file in
        *.a) why="run '$make' first" ;;
        *) why="$file isn't built: install $compiler and run '$make' first" ;;
        esac
        rm "$folder/$file"
        refuses "without $file for $target" "$why" -C "$scratch/empty" install-library TARGET=$target
        : >"$folder/$file"
    done < <(built_files $target)
done

# installs_empty FOLDER TARGET: installs the files in place of the library.
installs_empty() {
    runs "$1: make install-library TARGET=$2" 0 '' '' \
        make -s --no-print-directory -C "$scratch/empty" install-library DESTDIR="$scratch/$1" TARGET="$2"
}

# is_removed FOLDER TARGET: `make uninstall-library` leaves no file.
is_removed() {
    runs "$1: make uninstall-library TARGET=$2" 0 '' '' \
        make -s --no-print-directory -C "$scratch/empty" uninstall-library DESTDIR="$scratch/$1" TARGET="$2"
    same "$1: what uninstall-library TARGET=$2 leaves" '' "$(find "$scratch/$1" ! -type d)"
}

# keeps_other FOLDER TARGET OTHER: a library for OTHER is neither replaced nor removed in place of one for TARGET.
keeps_other() {
    local lib=$scratch/$1/usr/local/lib
    refuses_in "$1" "$2 over $3" "the library in $lib is for $3: give that for $2 a LIBDIR of its own" \
        -C "$scratch/empty" install-library TARGET="$2"
    refuses_in "$1" "$2 removed in place of $3" \
        "the library in $lib is for $3: use 'make uninstall-library TARGET=$3'" \
        -C "$scratch/empty" uninstall-library TARGET="$2"
}

# Both targets in one folder. A file of pkg-config without a target is of an older version, for x86-64.
for target in x86_64 aarch64; do
    if [ $target = x86_64 ]; then other=aarch64; else other=x86_64; fi
    installs_empty mixed_$target $target
    same "$target: verity.pc" "target=$target" \
        "$(grep '^target' "$scratch/mixed_$target/usr/local/lib/pkgconfig/verity.pc")"
    keeps_other mixed_$target $other $target
    installs_empty mixed_$target $target
    is_removed mixed_$target $target
done
installs_empty older x86_64
sed -i '/^target=/d' "$scratch/older/usr/local/lib/pkgconfig/verity.pc"
keeps_other older aarch64 x86_64
installs_empty older x86_64
sed -i '/^target=/d' "$scratch/older/usr/local/lib/pkgconfig/verity.pc"
is_removed older x86_64

# What an installation leaves that stops early is removed too: here it stops at files that can't be stripped.
runs 'an installation that stops early' 2 '' any \
    make -s --no-print-directory -C "$scratch/empty" install-library DESTDIR="$scratch/early" STRIP=yes
same 'an installation that stops early: the first library' "$scratch/early/usr/local/lib/libverity.a" \
    "$(find "$scratch/early" -name 'libverity*')"
is_removed early x86_64

# Nothing is installed either if what is to be stripped can't be.
PATH=$(path_without '*strip')
refuses 'without strip' "strip isn't installed, which STRIP=yes needs" -C "$scratch/empty" install-library STRIP=yes
refuses 'without strip for 64-bit ARM' "aarch64-linux-gnu-strip isn't installed, which STRIP=yes needs" \
    -C "$scratch/empty" install-library STRIP=yes TARGET=aarch64
finish
