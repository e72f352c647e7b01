#!/usr/bin/env bash
# The library on other processors, by each hash function over all settings, and by random calls. On the first x86-64
# processor, which qemu imitates, what is built for x86-64 builds trees and checks blocks, static and shared, and
# glibc's loader passes over the shared one for x86-64-v3. What is built for x86-64-v3 does so on this processor, if it
# has all of that, and is seen to end on the first one by an illegal instruction. And for which processors
# `make library` and `make programs` build, and what the former does without a compiler that links. SEED=N draws other
# settings and input, LIB=FOLDER takes the library of another folder.
set -u
cd "$(dirname "$0")/../.."
. tests/lib/checks.sh
. tests/lib/c_programs.sh
. tests/lib/random_images.sh
. tests/lib/feeding_programs.sh
needs gcc gcc
needs qemu-x86_64 qemu-user
needs python3 python3
needs make make
needs nm binutils
needs readelf binutils
for_v3=$LIB/glibc-hwcaps/x86-64-v3
for folder in "$LIB" "$for_v3"; do
    has_library "$folder/libverity.a"
    has_library "$folder/libverity.so.2"
done
# It has SSE2, as each x86-64 processor, and nothing newer.
first=(qemu-x86_64 -cpu Opteron_G1)
feeding=(tests/library/feeding.c "${feeding_sources[@]}")
draws_data
# A program that ends by a signal leaves no file.
ulimit -c 0

# This one.
# shellcheck disable=SC2034
here=()

# runs_on first|here NAME WORD..: two programs, built with a library, run on that processor.
runs_on() {
    local -n processor=$1
    local name=$2
    shift 2
    if compiles "$scratch/feeding" gcc -O2 "${feeding[@]}" "$@"; then
        feeds_settings "$name" "$scratch/feeding" $((1 << 12)) $((1 << 9)) "${processor[@]}"
    fi
    if compiles "$scratch/fuzz" gcc -O2 tests/library/{fuzz,chains}.c "${feeding_sources[@]}" "$@"; then
        tries_random "$scratch/fuzz" 20000 "${processor[@]}"
    fi
}

# ends_there NAME WORD..: a program, built with a library, ends by an illegal instruction, signal 4, which qemu and the
# shell say.
ends_there() {
    local name=$1
    shift
    draws_trees settings $((1 << 12)) $((1 << 9))
    if compiles "$scratch/feeding" gcc -O2 "${feeding[@]}" "$@"; then
        runs "$name" 132 '' any bash -c '"$@" || exit' - "${first[@]}" "$scratch/feeding" "$SEED" "${trees[@]}"
    fi
}

cpu=$(head -n 1 "$LIB/libverity.a.made")
cpu=${cpu%, without SHA instructions}
if [ "$cpu" = x86-64 ]; then
    runs_on first static "$LIB/libverity.a"
else
    echo "left out: the static library on the first processor: it is built for $cpu"
fi
runs_on first shared "$LIB/libverity.so.2" "-Wl,-rpath,$(realpath "$LIB")"
if [ "$(./processor.sh)" = x86-64-v3 ]; then
    runs_on here 'static, for x86-64-v3' "$for_v3/libverity.a"
    runs_on here 'shared, for x86-64-v3' "$for_v3/libverity.so.2" "-Wl,-rpath,$(realpath "$for_v3")"
else
    echo "left out: the library for x86-64-v3: this processor doesn't have all of it"
fi
ends_there 'static, for x86-64-v3' "$for_v3/libverity.a"
ends_there 'shared, for x86-64-v3' "$for_v3/libverity.so.2" "-Wl,-rpath,$(realpath "$for_v3")"
# shown FILE: the names that a shared library shows, with their versions, and its soname.
shown() {
    nm -D --defined-only "$1" | cut -d ' ' -f 2- | sort
    readelf -d "$1" | grep -o 'soname: .*'
}

# header.sh tests them for x86-64, and for x86-64-v3 only on a processor that has all of that.
same 'what the library for x86-64-v3 shows' "$(shown "$LIB/libverity.so.2")" "$(shown "$for_v3/libverity.so.2")"

# The static one is for another processor if make is told so, and not by the environment.
same 'make library' './library.sh x86_64' "$(CPU=x86-64-v3 make -sn library | sed 's/ *$//')"
same 'make library CPU=x86-64-v3' './library.sh x86_64 x86-64-v3' "$(make -sn library CPU=x86-64-v3)"
runs 'another processor' 1 '' 'library.sh: CPU is x86-64, x86-64-v2 or x86-64-v3' ./library.sh x86_64 x86-64-v4
runs 'a processor for aarch64' 1 '' 'library.sh: CPU is for x86_64 alone' ./library.sh aarch64 x86-64-v3
runs 'another target' 1 '' 'library.sh: TARGET is x86_64 or aarch64' ./library.sh riscv64
runs 'a SHA that is neither yes nor no' 1 '' 'library.sh: SHA is yes or no' env SHA=1 ./library.sh x86_64
runs 'a third word' 1 '' 'library.sh: only TARGET and CPU are taken' ./library.sh x86_64 x86-64 x86-64-v3
# Programs are for the processor that builds them, unless make is told so.
same 'make programs' "$(./processor.sh) $(./processor.sh)" "$(make -sn programs | sed 's/.* //' | paste -sd ' ')"
same 'make programs CPU=x86-64-v2' 'x86-64-v2 x86-64-v2' \
    "$(make -sn programs CPU=x86-64-v2 | sed 's/.* //' | paste -sd ' ')"

# Where nothing has changed, nothing is proved: a shared library that is gone is linked, and without the compiler that
# links it none is left. Here `rt` doesn't prove, so that no check waits for it.
built=$scratch/built
tools=$(path_without_proofs)
cp -r "$LIB" "$built"

# remakes PATH TARGET [CPU]: library.sh over the copy, with the programs of this PATH.
remakes() {
    env PATH="$1" LIB="$built" ./library.sh "${@:2}"
}

# is_left NAME FOLDER FILE..: of the copy these files and folders are left, beside those for another target.
is_left() {
    same "$1: what is left" "${*:3}" \
        "$(cd "$2" && find . -mindepth 1 ! -path './aarch64*' -printf '%P\n' | sort | paste -sd ' ')"
}

if ! remakes "$tools" x86_64 "$cpu" >/dev/null 2>&1; then
    echo "left out: linking for x86-64: $LIB is built of other sources"
else
    rm "$built/glibc-hwcaps/x86-64-v3/libverity.so.2"
    runs 'a shared library that is gone' 0 "$built/libverity.a: built for $cpu, and nothing has changed
$built/libverity.so.2: built for x86-64, and nothing has changed
$built/glibc-hwcaps/x86-64-v3/libverity.a: built for x86-64-v3, and nothing has changed
$built/glibc-hwcaps/x86-64-v3/libverity.so.2: linking" '' remakes "$tools" x86_64 "$cpu"
    same_bytes 'a shared library that is gone: it is linked' "$for_v3/libverity.so.2" \
        "$built/glibc-hwcaps/x86-64-v3/libverity.so.2"
fi
# Without a C compiler there are no SHA instructions either.
without=$built/without without_cc=$(PATH=$tools path_without cc)
if ! built=$without remakes "$without_cc" x86_64 >/dev/null 2>&1; then
    echo "left out: without a C compiler: $LIB/without is not built, or of other sources"
else
    cp -r "$built/"{libverity.so.2,glibc-hwcaps} "$without"
    built=$without runs 'without a C compiler' 0 \
        "$without/libverity.a: built for x86-64, without SHA instructions, and nothing has changed
$without/libverity.so.2: left out, since cc isn't installed or can't link" '' remakes "$without_cc" x86_64
    is_left 'without a C compiler' "$without" libverity.a libverity.a.made
fi
if ! remakes "$tools" aarch64 >/dev/null 2>&1; then
    echo "left out: linking for 64-bit ARM: $LIB/aarch64 is not built, or of other sources"
else
    runs 'without a compiler for 64-bit ARM' 0 "$built/aarch64/libverity.a: built for aarch64, and nothing has changed
$built/aarch64/libverity-strict-align.a: built for aarch64-strict-align, and nothing has changed
$built/aarch64/libverity.so.2: left out, since aarch64-linux-gnu-gcc isn't installed or can't link" '' \
        remakes "$(PATH=$tools path_without aarch64-linux-gnu-gcc)" aarch64
    is_left 'without a compiler for 64-bit ARM' "$built/aarch64" libverity-strict-align.a \
        libverity-strict-align.a.made libverity.a libverity.a.made
fi
finish
