#!/usr/bin/env bash
# Takes the programs that the gate built, which have no SHA instructions, into bin/x86-64-v2/, and builds others over
# what it has proved:
#   bin/x86-64-v3/          for that, if this processor has all of it
#   bin/any/                for every x86-64 processor
#   bin/static/             the same, static
#   bin/aarch64/            for 64-bit ARM
#   bin/aarch64/static/     the same, static
# bin/ gets those for this processor, lib/ the library for C, and lib/without/ one without SHA instructions. Below
# bin/imitated/ are commands that begin them by qemu. The gate removes what earlier runs left before it begins, so these
# are the programs that it has just proved.
set -u
cd "$(dirname "$0")/.."
. tests/lib/checks.sh
. tests/lib/kinds.sh
needs rt 'none: the Rattle toolchain'
unset BIN LIB TARGET STATIC SHA
programs=(fsverity veritysetup)
cpu=$(./processor.sh)
kinds=" $(kinds | tr '\n' ' ')"
if [ "$cpu" != x86-64-v3 ]; then echo "left out: programs for x86-64-v3: this processor doesn't have all of it"; fi
for kind in bin/any:cc bin/imitated/any-max:qemu-x86_64 bin/imitated/aarch64:'aarch64-linux-gnu-gcc or qemu-aarch64'; do
    if [[ $kinds != *" ${kind%%:*} "* ]]; then echo "left out: programs in ${kind%%:*}: ${kind#*:} is not installed"; fi
done
# Over earlier checks, `rt` takes what they have kept; after the gate there is nothing but what that has proved.
over_gate=yes
if compgen -G 'crates/*/out/rlib/stamp' >/dev/null; then over_gate=no; fi
rm -rf bin lib

# built NAME WORD..: builds by build.sh or library.sh, with settings before it. What it says goes to a file of this name
# in $scratch.
built() {
    if env OVER_GATE=$over_gate "${@:2}" >"$scratch/$1.said" 2>&1; then : >"$scratch/$1.built"; fi
}

# builds PROGRAM: builds all kinds of a program, one after another, since most of their proofs are the same.
builds() {
    local build=(KEPT="$scratch/$1.kept" ./build.sh "${1}_cli" "$1")
    if [ "$cpu" = x86-64-v3 ]; then built "$1.x86-64-v3" BIN=bin/x86-64-v3 "${build[@]}" x86-64-v3; fi
    if [[ $kinds = *' bin/any '* ]]; then
        built "$1.any" BIN=bin/any "${build[@]}" any
        built "$1.static" STATIC=yes "${build[@]}" any
    fi
    if [[ $kinds = *' bin/imitated/aarch64 '* ]]; then
        built "$1.aarch64" TARGET=aarch64 "${build[@]}"
        built "$1.aarch64.static" TARGET=aarch64 STATIC=yes "${build[@]}"
    fi
}

# builds_libraries: builds the library for C for both targets, in the same way.
builds_libraries() {
    local target
    for target in x86_64 aarch64; do built $target KEPT="$scratch/libraries.kept" ./library.sh $target; done
    # Without a C compiler there are no SHA instructions, and the static library alone.
    built without KEPT="$scratch/libraries.kept" LIB=lib/without PATH="$(path_without cc)" ./library.sh x86_64
}

# What the gate built, before anything takes its place.
for name in "${programs[@]}"; do
    mkdir -p bin/x86-64-v2
    if cp "crates/${name}_cli/out/${name}_cli" "bin/x86-64-v2/$name"; then
        echo 'x86-64-v2, without SHA instructions' >"bin/x86-64-v2/$name.made"
        pass
    else
        fail "bin/x86-64-v2/$name" 'it was not built'
    fi
done
# Side by side: each proves a crate of its own. The gate proves the library for C, but builds none.
for job in 'builds fsverity' 'builds veritysetup' builds_libraries; do
    $job &
    if [ $over_gate = no ]; then wait; fi
done
wait
for said in "$scratch"/*.said; do
    cat "$said"
    if [ -e "${said%.said}.built" ]; then pass; else fail "$(basename "$said" .said)" 'it was not built'; fi
done
for name in "${programs[@]}"; do cp "bin/$cpu/$name"{,.made} bin; done
for kind in $kinds; do
    case $kind in
    */any-*) imitated "$kind" bin/any qemu-x86_64 -cpu "${kind##*-}" ;;
    */imitated/aarch64) imitated "$kind" bin/aarch64 qemu-aarch64 -L /usr/aarch64-linux-gnu ;;
    */imitated/aarch64-static) imitated "$kind" bin/aarch64/static qemu-aarch64 ;;
    esac
done
finish
