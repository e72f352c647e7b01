#!/usr/bin/env bash
# What `make programs` builds by TARGET, CPU, STATIC and SHA, and what it refuses before anything is proved. Programs whose
# object files stand are linked again, to the same bytes. Here `rt` doesn't prove, so that no check waits for it.
set -u
cd "$(dirname "$0")/.."
. tests/lib/checks.sh
needs rt 'none: the Rattle toolchain'
needs make make
unset BIN TARGET STATIC CPU SHA OVER_GATE KEPT

# What make calls build.sh with: here, one that says so.
mkdir "$scratch/said"
cp Makefile processor.sh "$scratch/said"
printf '%s\n' '#!/bin/sh' 'echo "TARGET=$TARGET STATIC=$STATIC${SHA:+ SHA=$SHA} $*"' >"$scratch/said/build.sh"
chmod +x "$scratch/said/build.sh"

# calls DESCRIPTION CPU WORD..: make programs with these words builds both programs by this description.
calls() {
    same "make programs ${*:3}" "$1 fsverity_cli fsverity${2:+ $2}
$1 veritysetup_cli veritysetup${2:+ $2}" "$(make -s -C "$scratch/said" --no-print-directory programs "${@:3}")"
}

here=$(./processor.sh)
calls 'TARGET=x86_64 STATIC=no' "$here"
calls 'TARGET=x86_64 STATIC=no' x86-64-v2 CPU=x86-64-v2
calls 'TARGET=x86_64 STATIC=yes' "$here" STATIC=yes
calls 'TARGET=x86_64 STATIC=yes' any CPU=any STATIC=yes
calls 'TARGET=aarch64 STATIC=no' '' TARGET=aarch64
calls 'TARGET=aarch64 STATIC=yes' '' TARGET=aarch64 STATIC=yes
calls 'TARGET=aarch64 STATIC=no' any TARGET=aarch64 CPU=any
calls 'TARGET=x86_64 STATIC=no SHA=no' "$here" SHA=no
same 'CPU in the environment' "TARGET=x86_64 STATIC=no fsverity_cli fsverity $here" \
    "$(CPU=any make -s -C "$scratch/said" --no-print-directory programs | sed -n 1p)"

# A copy of what is built, and an `rt` that proves nothing.
copy=$scratch/copy
tools=$(path_without_proofs)
mkdir "$copy"
tar -c --exclude='crates/*/out' crates.txt {build,building}.sh {any_processor,runtime_for_arm}.c instructions crates |
    tar -x -C "$copy"
if [ -e bin ]; then cp -r bin "$copy"; fi

# builds SETTING.. -- [CPU]: build.sh builds fsverity there with these settings.
builds() {
    local settings=()
    while [ "$1" != -- ]; do
        settings+=("$1")
        shift
    done
    env PATH="$tools" "${settings[@]}" "$copy/build.sh" fsverity_cli fsverity "${@:2}"
}

runs 'another target' 1 '' 'build.sh: TARGET is x86_64 or aarch64' builds TARGET=riscv64 --
runs 'another processor' 1 '' 'build.sh: CPU is x86-64, x86-64-v2, x86-64-v3 or any' builds -- x86-64-v4
runs 'a processor for 64-bit ARM' 1 '' 'build.sh: CPU is for x86_64 alone' builds TARGET=aarch64 -- any
runs 'a STATIC that is neither yes nor no' 1 '' 'build.sh: STATIC is yes or no' builds STATIC=1 --
runs 'a SHA that is neither yes nor no' 1 '' 'build.sh: SHA is yes or no' builds SHA=1 --

# sources_in LOCALE: the sum of what is built, with a `sort` that goes by the locale: backwards, if it isn't C.
sources_in() {
    (cd "$copy" && PATH=$scratch/sorting:$tools LC_ALL=$1 bash -c '. ./building.sh && sources')
}
mkdir "$scratch/sorting"
printf '%s\n' '#!/bin/sh' '[ "$LC_ALL" = C ] || set -- -r "$@"' "exec $(type -P sort) \"\$@\"" >"$scratch/sorting/sort"
chmod +x "$scratch/sorting/sort"
same 'sources in another locale' "$(sources_in C)" "$(sources_in C.UTF-8)"

# lacks NAME TOOL SETTING.. -- [CPU]: without a compiler it is said before anything is proved, and what is there stays.
lacks() {
    local name=$1 tool=$2 usual=$tools
    mkdir -p "$copy/bin/lacks"
    echo before >"$copy/bin/lacks/fsverity"
    tools=$(PATH=$tools path_without "$tool")
    runs "$name" 1 any "build.sh: $tool isn't installed or can't link such a program" builds BIN=bin/lacks "${@:3}"
    same "$name: nothing is proved" 0 "$(grep -c 'rt: ' "$scratch/.out")"
    is_text "$name: what is there stays" before "$copy/bin/lacks/fsverity"
    tools=$usual
}

lacks 'no C compiler, static' cc STATIC=yes -- any
lacks 'no C compiler, for every processor' cc -- any
lacks 'no C compiler for 64-bit ARM' aarch64-linux-gnu-gcc TARGET=aarch64 --
lacks 'no C compiler for 64-bit ARM, static' aarch64-linux-gnu-gcc TARGET=aarch64 STATIC=yes --
usual=$tools tools=$(PATH=$tools path_without cc)
runs 'SHA=yes without a C compiler' 1 '' 'build.sh: SHA=yes needs cc, which is not installed' builds SHA=yes -- x86-64-v2
tools=$usual
rm -f "$copy/bin/objects/fsverity.x86-64-v2.o"
runs 'what is not proved' 1 any 'build.sh: fsverity_cli is not proved or not built' builds BIN=bin/other -- x86-64-v2
absent 'what is not proved' "$copy/bin/other"

# again KIND FOLDER SETTING.. -- [CPU]: what stands is left as it is, and what is gone is linked of its object files.
again() {
    local kind=$1 folder=$2
    shift 2
    if ! builds "$@" >/dev/null 2>&1; then
        echo "left out: linking for $kind: $folder is not built, or of other sources"
        return
    fi
    runs "$kind: nothing has changed" 0 "$folder/fsverity: built for $kind, and nothing has changed" '' builds "$@"
    mv "$copy/$folder/fsverity" "$scratch/fsverity"
    runs "$kind: a program that is gone" 0 "$folder/fsverity: proving what has changed, and building for $kind" '' \
        builds "$@"
    same_bytes "$kind: a program that is gone: it is linked" "$scratch/fsverity" "$copy/$folder/fsverity"
    echo >>"$copy/$folder/fsverity"
    runs "$kind: a program that has changed" 0 "$folder/fsverity: proving what has changed, and building for $kind" '' \
        builds "$@"
    same_bytes "$kind: a program that has changed: it is linked" "$scratch/fsverity" "$copy/$folder/fsverity"
    # For something else, it isn't what is asked for.
    sed -i '1s/.*/another kind/' "$copy/$folder/fsverity.made"
    runs "$kind: a program of another kind" 0 "$folder/fsverity: proving what has changed, and building for $kind" '' \
        builds "$@"
}

# One for x86-64-v2 is no longer there.
if [ "$here" = x86-64-v3 ]; then again x86-64-v3 bin -- x86-64-v3; fi
again any bin/any BIN=bin/any -- any
again 'any, static' bin/static STATIC=yes -- any
again aarch64 bin/aarch64 TARGET=aarch64 --
again 'aarch64, static' bin/aarch64/static TARGET=aarch64 STATIC=yes --
finish
