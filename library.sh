#!/usr/bin/env bash
# library.sh x86_64 [CPU] or library.sh aarch64: proves and builds the library for C into lib/.
#
# For x86_64:
#   libverity.a       static, for the processor CPU: x86-64, and so every x86-64 processor, if none is said, or
#                     x86-64-v2 or x86-64-v3
#   libverity.so.2    shared, for x86-64
#   glibc-hwcaps/x86-64-v3/libverity.so.2
#                     shared, for x86-64-v3: glibc's loader takes it from there by itself, where a processor has all of
#                     that
#   glibc-hwcaps/x86-64-v3/libverity.a
#                     static, for x86-64-v3: for tests and bench/feeding.sh
#
# For aarch64, in lib/aarch64/, for every 64-bit ARM processor; none of them uses the register x18:
#   libverity.a       static
#   libverity-strict-align.a
#                     static, for where memory is read at aligned addresses alone, as with the MMU off; it has no SHA
#                     instructions
#   libverity.so.2    shared
#
# Shared libraries, and all in glibc-hwcaps/, are left out if the compiler that links them isn't there. A file NAME.made
# beside each keeps for what and of what it was built, so that nothing is done if both are the same. LIB=FOLDER takes
# another folder than lib/, counted from here. With SHA=no the libraries have no SHA instructions, as they have none for
# x86-64 if there is no C compiler. With OVER_GATE=yes the crates below are those that the gate has just proved;
# KEPT=FOLDER keeps what is the same for several builds.
set -euo pipefail
cd "$(dirname "$0")"
. ./building.sh

target=${1:-} cpu=${2:-x86-64} folder=${LIB:-lib} compiler=cc
case $target in
x86_64) ;;
aarch64)
    if [ $# -gt 1 ]; then refuse 'CPU is for x86_64 alone'; fi
    if ! type -P cc >/dev/null; then
        refuse 'cc is not installed: for 64-bit ARM a small program in C is needed, which hands clang its flags'
    fi
    folder+=/aarch64 compiler=aarch64-linux-gnu-gcc
    ;;
*) refuse 'TARGET is x86_64 or aarch64' ;;
esac
case $cpu in
x86-64 | x86-64-v2 | x86-64-v3) ;;
*) refuse 'CPU is x86-64, x86-64-v2 or x86-64-v3' ;;
esac
if [ $# -gt 2 ]; then refuse 'only TARGET and CPU are taken'; fi
for_v3=$folder/glibc-hwcaps/x86-64-v3
crate=verity_c
with_sha
# What the libraries are called that have none of these instructions, which others have.
without=
if [ "$sha" = no ]; then without=', without SHA instructions'; fi
scratch=$(mktemp -d)
trap 'rm -rf "$scratch"' EXIT

# What a library is built of, before one is: a source that changes meanwhile has changed.
of=$({ sources && cat library.sh building.sh instructions/*; } | sha256sum)

# stays FILE FOR: whether the file was built for this, and nothing has changed. Says so.
stays() {
    is_made "$1" "$2$without" && echo "$1: built for $2$without, and nothing has changed"
}

# stands CPU: whether the static library for a processor stands in its folder, and nothing has changed. Leaves it in
# $scratch.
stands() {
    local built
    for built in "$folder" "$for_v3"; do
        if is_made "$built/libverity.a" "$1$without"; then
            cp "$built/libverity.a" "$scratch/$1.a"
            return
        fi
    done
    return 1
}

# archive CPU: proves and builds the static library for a processor of x86-64, or with `aarch64` or
# `aarch64-strict-align` for 64-bit ARM, and leaves it in $scratch.
archive() {
    local with=$sha words=() tools=
    echo "    building for $1"
    if [ "${OVER_GATE:-no}" = no ]; then proves_below "$crate" || failed 'the library is not proved or not built'; fi
    # x18 is the platform's: U-Boot's `gd`, Android's shadow call stack. With the MMU off there may be no C library that
    # knows the processor.
    case $1 in
    aarch64) words=('"-ffixed-x18",' ',+reserve-x18') ;;
    aarch64-strict-align) with=no words=('"-ffixed-x18","-mstrict-align",' ',+reserve-x18,+strict-align') ;;
    esac
    if [ "$with" = yes ] || [ ${#words[@]} -gt 0 ]; then
        stand_in "$with" library "${words[@]}" >"$scratch/said" 2>&1 ||
            failed "instructions/clang_with_instructions.c can't be compiled"
    fi
    over_proved "$crate" "${1%-strict-align}" "$scratch/$1.a" "${KEPT:-$scratch/kept}" ${tools:+"$tools"} \
        >"$scratch/said" 2>&1 && grep -q '^logic=proved ' "$scratch/said" || failed "the library is not proved or not built for $1"
    if [ "$with" = yes ]; then
        counted "$1" "$scratch/$1.a" >"$scratch/said" ||
            failed 'the library has other SHA instructions than are expected'
    fi
    echo "    $crate is proved for $1"
}

# takes FILE CPU DOING: leaves the static library that FILE is made of in $scratch, and says what is done for FILE:
# DOING, if that library stands in its folder.
takes() {
    if stands "$2"; then
        echo "$1: $3"
    else
        echo "$1: proving what has changed"
        archive "$2"
    fi
}

# static FILE CPU: the static library, if something has changed.
static() {
    if ! stays "$1" "$2"; then
        takes "$1" "$2" copying
        put_in_place "$scratch/$2.a" "$1" "$2$without"
    fi
}

# shared FILE CPU: the shared library, if something has changed. It shows the header's functions alone.
shared() {
    if ! stays "$1" "$2"; then
        takes "$1" "$2" linking
        printf '%s\n' 'VERITY_2.0 { global: verity_*; fsverity_*; local: *; };' \
            'VERITY_2.1 { global: verity_default_params; } VERITY_2.0;' >"$scratch/shown"
        "$compiler" -shared -nostartfiles -o "$scratch/shared" -Wl,--whole-archive "$scratch/$2.a" \
            -Wl,--no-whole-archive -Wl,-soname,libverity.so.2 -Wl,-z,noexecstack -Wl,-z,relro -Wl,-z,now \
            -Wl,--build-id=none "-Wl,--version-script,$scratch/shown" >"$scratch/said" 2>&1 ||
            failed "the shared library can't be linked"
        put_in_place "$scratch/shared" "$1" "$2$without"
    fi
}

# can_link: whether the compiler is there and links. If it doesn't, says so, and no shared library is left of earlier.
can_link() {
    if "$compiler" -shared -nostartfiles -x c /dev/null -o "$scratch/empty" 2>/dev/null; then return; fi
    echo "$folder/libverity.so.2: left out, since $compiler isn't installed or can't link"
    rm -rf "$folder"/libverity.so* "$for_v3"
    if [ -d "${for_v3%/*}" ]; then rmdir --ignore-fail-on-non-empty "${for_v3%/*}"; fi
    return 1
}

case $target in
x86_64)
    static "$folder/libverity.a" "$cpu"
    if can_link; then
        shared "$folder/libverity.so.2" x86-64
        static "$for_v3/libverity.a" x86-64-v3
        shared "$for_v3/libverity.so.2" x86-64-v3
    fi
    ;;
aarch64)
    static "$folder/libverity.a" aarch64
    static "$folder/libverity-strict-align.a" aarch64-strict-align
    if can_link; then shared "$folder/libverity.so.2" aarch64; fi
    ;;
esac
if [ -e "$folder/libverity.so.2" ]; then ln -sfn libverity.so.2 "$folder/libverity.so"; fi
