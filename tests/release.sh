#!/usr/bin/env bash
# `make release` makes the same bytes of a commit in two folders, whatever the user has set, and its archives have the
# files that docs/PACKAGING.md says, as they were built, and their sums. The programs run in a root that has nothing but
# the archive, those for 64-bit ARM by qemu; and pkg-config finds the library where it was unpacked.
set -u
cd "$(dirname "$0")/.."
. tests/lib/checks.sh
. tests/lib/releasing.sh
needs git git
needs cc gcc
needs strip binutils
needs aarch64-linux-gnu-gcc gcc-aarch64-linux-gnu
needs qemu-aarch64 qemu-user
needs pkg-config pkg-config
has_programs release bin/static bin/aarch64/static
needs_root

one=$scratch/one other=$scratch/other
as_a_commit "$one"
name=$(header_version <include/verity.h)
if ! grep -qE "^## $name \([0-9-]+\)$" CHANGELOG.md; then name+=~$(commit_in "$one"); fi
name=verity-$name
archives=("$name"{,-x86_64,-aarch64}.tar.gz)

: >"$one/crates/new"
refuses 'a file that is not committed' 'crates/new is not committed, and this is made of a commit' "$one" release
rm "$one/crates/new"
echo >>"$one/README.md"
refuses 'a change that is not committed' 'README.md is not committed, and this is made of a commit' "$one" release
git -C "$one" checkout -q README.md

# The other is made later, by a user with other settings.
cp -r "$one" "$other"
make -s -C "$one" --no-print-directory release DIST="$scratch/first" >"$scratch/.made" 2>&1 </dev/null
same 'make release: status' 0 $?
same 'make release: what it says' "$(printf "$scratch/first/%s\n" "${archives[@]}" SHA256SUMS)" \
    "$(grep -v ', and nothing has changed$' "$scratch/.made")"
sleep 1
(
    umask 077
    export TZ=Asia/Tokyo LC_ALL=C.UTF-8 GZIP=--rsyncable TAR_OPTIONS=--exclude=*.md BIN=none LIB=none PREFIX=/opt \
        SUFFIX=x STRIP=no LIBDIR=/lib64 TARGET=none STATIC=no SHA=no
    make -s -C "$other" --no-print-directory release
) >"$scratch/.made" 2>&1 </dev/null
same 'make release, elsewhere: status' 0 $?
for file in "${archives[@]}" SHA256SUMS; do
    same_bytes "make release, elsewhere: $file" "$scratch/first/$file" "$other/dist/$file"
done
same 'what is in the folder' "$(printf '%s\n' "${archives[@]}" SHA256SUMS | sort)" "$(ls -A "$scratch/first")"
runs 'SHA256SUMS' 0 "$(printf '%s: OK\n' "${archives[@]}")" '' \
    bash -c 'cd "$1" && sha256sum -c SHA256SUMS' - "$scratch/first"
if [ ! -e "$scratch/first/$name-aarch64.tar.gz" ]; then
    cat "$scratch/.made"
    finish
    exit
fi

# files TARGET: the files of its archive, with modes.
files() {
    printf '%s\n' "-rwxr-xr-x "{bin/fsverity,sbin/veritysetup}-proved '-rwxr-xr-x lib/libverity.so.2' \
        "-rw-r--r-- "{SHA256SUMS,include/verity.h,lib/libverity.a,lib/pkgconfig/verity.pc} \
        "-rw-r--r-- share/bash-completion/completions/"{fsverity,veritysetup}-proved \
        "-rw-r--r-- share/fish/vendor_completions.d/"{fsverity,veritysetup}-proved.fish \
        "-rw-r--r-- share/zsh/site-functions/_"{fsverity,veritysetup}-proved \
        "-rw-r--r-- share/doc/verity/"{README,CHANGELOG}.md \
        "-rw-r--r-- share/man/"{man1/fsverity-proved.1,man3/verity.3,man8/veritysetup-proved.8} \
        'lrwxrwxrwx lib/libverity.so libverity.so.2'
    header_functions | sed 's|.*|lrwxrwxrwx share/man/man3/&.3 verity.3|'
    case $1 in
    x86_64) echo '-rwxr-xr-x lib/glibc-hwcaps/x86-64-v3/libverity.so.2' ;;
    aarch64) echo '-rw-r--r-- lib/libverity-strict-align.a' ;;
    esac
}

# A hash device for two data blocks of zeros: its root hash is that of their digests, with zeros after them.
zeros 8192 >"$scratch/data"
zeros 4096 >"$scratch/block"
{ bytes "$(sha256 "$scratch/block")$(sha256 "$scratch/block")" && zeros 4032; } >"$scratch/top"
root=$(sha256 "$scratch/top")
printf a >"$scratch/a"

# in_root PROGRAM WORD..: runs a program in the folder of its archive as root folder, but one for 64-bit ARM in this
# system, by qemu.
in_root() {
    case $target in
    x86_64) as_root chroot "$folder" "/$1" "${@:2}" ;;
    aarch64) qemu-aarch64 "$folder/$1" "${@:2}" ;;
    esac
}

time=$(git -C "$one" show -s --format=%ct)
for target in x86_64 aarch64; do
    archive=$scratch/first/$name-$target.tar.gz
    folder=$scratch/unpacked/$name-$target
    mkdir -p "$scratch/unpacked"
    as_root tar -xpzf "$archive" -C "$scratch/unpacked"
    same "$target: one folder" "$name-$target/" "$(tar -tzf "$archive" | sed 's|/.*|/|' | sort -u)"
    same "$target: files" "$(files $target | sed 's| | 0/0 |' | sort -k 3)" \
        "$(listing "$folder")"
    same "$target: owners" 0/0 "$(tar -tvzf "$archive" --numeric-owner | awk '{ print $2 }' | sort -u)"
    same "$target: modes of folders" drwxr-xr-x "$(find "$folder" -type d -printf '%M\n' | sort -u)"
    same "$target: times" "$time" "$(find "$folder" -printf '%T@\n' | sed 's/\..*//' | sort -u)"
    runs "$target: SHA256SUMS" 0 any '' bash -c 'cd "$1" && sha256sum -c --strict SHA256SUMS' - "$folder"
    same "$target: what SHA256SUMS is over" "$(listing "$folder" | awk '/^-/ { print $3 }' | grep -vx SHA256SUMS)" \
        "$(cut -d ' ' -f 3- "$folder/SHA256SUMS")"

    # What is built, stripped.
    case $target in
    x86_64) built=bin/static libraries=lib tools= ;;
    aarch64) built=bin/aarch64/static libraries=lib/aarch64 tools=aarch64-linux-gnu- ;;
    esac
    while read -r from to; do
        cp "$from" "$scratch/stripped"
        "${tools}strip" "$scratch/stripped"
        same_bytes "$target: $to" "$scratch/stripped" "$folder/$to"
    done <<END
$built/fsverity bin/fsverity-proved
$built/veritysetup sbin/veritysetup-proved
$libraries/libverity.so.2 lib/libverity.so.2
END
    same_bytes "$target: libverity.a" "$libraries/libverity.a" "$folder/lib/libverity.a"
    same_bytes "$target: verity.h" include/verity.h "$folder/include/verity.h"

    # Nothing but the archive.
    at=
    if [ $target = aarch64 ]; then at=$folder; fi
    cp "$scratch/data" "$scratch/a" "$folder"
    runs "$target: digest" 0 "sha256:$DIGEST_OF_A $at/a" '' in_root bin/fsverity-proved digest "$at/a"
    runs "$target: format" 0 any '' in_root sbin/veritysetup-proved format --salt=- "$at/data" "$at/hash"
    same "$target: the root hash" "$root" "$(root_in "$scratch/.out")"
    runs "$target: verify" 0 '' '' in_root sbin/veritysetup-proved verify "$at/data" "$at/hash" "$root"
    flip "$folder/data" 5000 1
    runs "$target: verify, with a changed byte" 2 '' 'Verification failed: level 0 block 0, child 1.' \
        in_root sbin/veritysetup-proved verify "$at/data" "$at/hash" "$root"

    # Wherever it is unpacked.
    cat >"$scratch/user.c" <<'END'
#include <verity.h>

int main(void)
{
    return verity_version() != 10000 * VERITY_VERSION_MAJOR + 100 * VERITY_VERSION_MINOR + VERITY_VERSION_PATCH;
}
END
    read -ra words < <(PKG_CONFIG_LIBDIR=$folder/lib/pkgconfig pkg-config --cflags --libs verity)
    run=(env LD_LIBRARY_PATH="$folder/lib")
    if [ $target = aarch64 ]; then run=(qemu-aarch64 -L /usr/aarch64-linux-gnu -E LD_LIBRARY_PATH="$folder/lib"); fi
    runs "$target: compiling" 0 '' '' "${tools}gcc" "$scratch/user.c" "${words[@]}" -o "$scratch/user"
    runs "$target: what was compiled" 0 '' '' "${run[@]}" "$scratch/user"
done
finish
