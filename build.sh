#!/usr/bin/env bash
# build.sh CRATE PROGRAM [CPU]: proves and builds the program of crates/CRATE, and puts it at bin/PROGRAM. Each crate
# that had to be proved anew is named once it is.
#
# CPU is a processor, x86-64, x86-64-v2 or x86-64-v3, or `any`: such a program has code for x86-64 and for x86-64-v3,
# and chooses when it begins. If none is said it is x86-64-v2. With TARGET=aarch64 the program is for every 64-bit ARM
# processor, and goes to bin/aarch64. With STATIC=yes it needs nothing of the system that runs it but the kernel, and
# goes to bin/static or bin/aarch64/static. With SHA=no it has no SHA instructions, as it has none if there is no C
# compiler. BIN=FOLDER takes another folder. A dynamic program for one processor of x86-64 is linked by the toolchain,
# any other by its target's C compiler, of object files that are kept in bin/objects.
#
# A file NAME.made beside each program and object file keeps for what and of what it was built, so that nothing is done
# if both are the same. With OVER_GATE=yes the crates below are those that the gate has just proved; KEPT=FOLDER keeps
# what is the same for several builds.
set -euo pipefail
cd "$(dirname "$0")"
. ./building.sh

crate=$1 program=$2 target=${TARGET:-x86_64} static=${STATIC:-no}
cpu=${3:-}
if [ "$target" = x86_64 ]; then cpu=${cpu:-x86-64-v2}; fi
wrong=$(in_order "$target" "$cpu" "$static") || refuse "$wrong"
with_sha
folder=${BIN:-$(place "$target" "$static")}
prefix=$(prefix_of "$target")
# For which processors the program has code, and what it is called.
processors=("${cpu:-$target}") kind=$(kind_of "$target" "$cpu" "$static" "$sha")
if [ "$cpu" = any ]; then processors=("${levels[@]}"); fi
# How the C compiler links it, if it does.
by_compiler=no linking=(-fPIE -pie)
if [ "$static" = yes ]; then linking=(-fPIE -static-pie); fi
linking+=(-O2 -Wl,-z,relro -Wl,-z,now -Wl,-z,noexecstack -Wl,--build-id=sha1)
if [ "$target:$static" != x86_64:no ] || [ "$cpu" = any ]; then by_compiler=yes; fi
kit=$(dirname "$(rt doc)")
scratch=$(mktemp -d)
trap 'rm -rf "$scratch"' EXIT

# What programs are built of, before any is: a source that changes meanwhile has changed.
of=$({ sources && cat build.sh building.sh any_processor.c runtime_for_arm.c instructions/*; } | sha256sum)

# proves CPU: proves the crate over those below, and compiles it for a processor.
proves() {
    local tools= lacking=
    if [ "$sha" = yes ]; then
        stand_in yes programs >"$scratch/said" 2>&1 || failed "instructions/clang_with_instructions.c can't be compiled"
    fi
    over_proved "$crate" "$1" "$scratch/object" "${KEPT:-$scratch/kept}" ${tools:+"$tools"} >"$scratch/said" 2>&1 &&
        grep -q '^logic=proved ' "$scratch/said" || failed "$crate is not proved or not built for $1"
    if [ "$sha" = yes ]; then
        # It hashes no messages side by side.
        if [ "$crate" = bench_bare ]; then lacking=take_blocks_of_two; fi
        counted "$1" "$scratch/object" "$lacking" >"$scratch/said" ||
            failed "$crate has other SHA instructions than are expected"
    fi
    echo "    $crate is proved for $1"
}

# object CPU: puts the program's object file for a processor into bin/objects, if something has changed. Sets `object`.
object() {
    local for=$1
    object=bin/objects/$program.$1.o
    if [ "$sha" = no ]; then for+=', without SHA instructions'; fi
    if is_made "$object" "$for"; then return; fi
    echo "    building for $1"
    if [ "${OVER_GATE:-no}" = no ]; then proves_below "$crate" || failed "$crate is not proved or not built"; fi
    proves "$1"
    put_in_place "$scratch/object" "$object" "$for"
}

# links: links the object files, whose names are in `objects`, and leaves the program in $scratch. The program's own
# main gets another name if C begins it.
links() {
    local words=() name
    case $target,$cpu in
    x86_64,any)
        words=(any_processor.c)
        for name in "${!objects[@]}"; do
            objcopy --redefine-sym "main=main_for_${processors[name]//-/_}" "${objects[name]}" "$scratch/$name.o"
            words+=("$scratch/$name.o")
        done
        ;;
    aarch64,*)
        "${prefix}objcopy" --redefine-sym main=rattle_main "${objects[0]}" "$scratch/0.o"
        # A static program has of the C library what it names, and SHA instructions only with this.
        words=(-Wl,-u,getauxval runtime_for_arm.c "$scratch/0.o")
        ;;
    *) words=("${objects[@]}") ;;
    esac
    if [ "$target" = x86_64 ]; then words+=("$kit/c/libos_c.a" "$kit/c/liblibc_c.a"); fi
    if [ $by_compiler = yes ]; then
        "$compiler" "${linking[@]}" -Wall -Wextra -o "$scratch/program" "${words[@]}"
    else
        "$kit/bin/rattle-link" --target x86_64-unknown-linux-gnu --toolchain "$kit/toolchain" -o "$scratch/program" \
            "${words[@]}"
    fi >"$scratch/said" 2>&1 || failed "$program can't be linked"
}

# builds: leaves the program in $scratch.
builds() {
    local processor objects=() object
    for processor in "${processors[@]}"; do
        object "$processor"
        objects+=("$object")
    done
    links
}

compiler=cc
if [ -n "$prefix" ]; then compiler=${prefix}gcc; fi
if is_made "$folder/$program" "$kind"; then
    echo "$folder/$program: built for $kind, and nothing has changed"
    exit
fi
if [ $by_compiler = yes ]; then
    # Before anything is proved.
    if ! echo 'int main(void) { return 0; }' | "$compiler" "${linking[@]}" -x c -o "$scratch/empty" - \
        2>"$scratch/said"; then
        failed "$compiler isn't installed or can't link such a program"
    fi
fi
echo "$folder/$program: proving what has changed, and building for $kind"
builds
put_in_place "$scratch/program" "$folder/$program" "$kind"
