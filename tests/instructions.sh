#!/usr/bin/env bash
# The SHA instructions are what their models say: each one of x86-64, where this processor has them, and each one of
# 64-bit ARM, which qemu imitates, over a million random operands; and digests of random messages by them. A processor
# without them says so. The stand-in for clang puts each instruction in its place, and refuses what it doesn't know.
set -u
cd "$(dirname "$0")/.." || exit
. tests/lib/checks.sh
. ./building.sh
needs rt 'none: the Rattle toolchain'
needs cc gcc
kit=$(dirname "$(rt doc)")
if ! stand_in yes programs >"$scratch/said" 2>&1; then fail 'the stand-in for clang' "$(cat "$scratch/said")"; fi

# The gate may still be proving what is compared; without it, that is done here.
while [ -e "${FIRST_LOG:-}" ] && [ ! -e "$FIRST_LOG.ended" ] &&
    ! grep -q '^rt: sha_instructions \(proved\|is kept\)' "$FIRST_LOG"; do sleep 5; done
if [ ! -e crates/sha_instructions/out/rlib ] || compgen -G 'crates/*/out/rlib/stamp' >/dev/null; then
    (cd crates/compare_instructions && rt check) >"$scratch/said" 2>&1 || fail 'rt check' "$(tail -n 5 "$scratch/said")"
fi

# builds TARGET CPU: builds the program that compares, and sees that each instruction stands in the functions that take
# blocks as often as it should. The program itself has each once more.
builds() {
    over_proved compare_instructions "$2" "$scratch/$1.o" "$scratch/kept" "$tools" >"$scratch/said" 2>&1 ||
        fail "$1" "$(tail -n 5 "$scratch/said")"
    counted "$1" "$scratch/$1.o" >"$scratch/said"
    same "$1: instructions elsewhere" some "$(grep -qE ' 1$' "$scratch/said" && echo some)"
    same "$1: instructions" '' \
        "$(grep -vE '^(compare_instructions|sha_instructions::instructions)::.* 1$' "$scratch/said")"
}

# says COUNT ANSWERS COMMAND..: what the program says that COMMAND runs. With no operands it uses no instruction.
says() {
    local seed=${SEED:-$RANDOM}
    same "${*:3}, from $seed" "$1 operands compared; $2" "$("${@:3}" "$1" "$seed" 2>/dev/null)"
}

# chooses ANSWERS COMMAND..: these words of the environment keep the program from the instructions, and others don't.
chooses() {
    local word
    for word in x86-64 x86-64-v2 x86-64-v3 armv8-a; do
        VERITY_PROCESSOR=$word says 0 'SHA-1 and SHA-256: false, SHA-512: false' "${@:2}"
    done
    for word in '' x86-64-v4 x86-6 armv8-a+sha2; do VERITY_PROCESSOR=$word says 0 "$@"; done
}

builds x86_64 x86-64
same 'an object file without them' 14 "$(counted x86_64 "$kit/c/libos_c.a" | grep -c ' 0 for [1-9]')"
same 'an object file without some' 7 "$(counted x86_64 "$kit/c/libos_c.a" take_blocks_of_two | wc -l)"
cc -static-pie -fPIE -O2 "$scratch/x86_64.o" "$kit/c/libos_c.a" "$kit/c/liblibc_c.a" -o "$scratch/x86_64" ||
    fail 'x86-64' "it can't be linked"
if grep -q '^flags.* sha_ni' /proc/cpuinfo; then
    says 1000000 'SHA-1 and SHA-256: true, SHA-512: false' "$scratch/x86_64"
    chooses 'SHA-1 and SHA-256: true, SHA-512: false' "$scratch/x86_64"
else
    says 0 'SHA-1 and SHA-256: false, SHA-512: false' "$scratch/x86_64"
    echo "left out: SHA instructions of x86-64: this processor has none"
fi

if ! command -v aarch64-linux-gnu-gcc >/dev/null || ! command -v qemu-aarch64 >/dev/null; then
    echo 'left out: SHA instructions of 64-bit ARM: aarch64-linux-gnu-gcc or qemu-aarch64 is not installed'
else
    builds aarch64 aarch64
    aarch64-linux-gnu-objcopy --redefine-sym main=rattle_main "$scratch/aarch64.o" &&
        aarch64-linux-gnu-gcc -static -O2 -Wl,-u,getauxval runtime_for_arm.c "$scratch/aarch64.o" \
            -o "$scratch/aarch64" ||
        fail '64-bit ARM' "it can't be linked"
    says 1000000 'SHA-1 and SHA-256: true, SHA-512: true' qemu-aarch64 -cpu max "$scratch/aarch64"
    says 0 'SHA-1 and SHA-256: true, SHA-512: false' qemu-aarch64 -cpu cortex-a72 "$scratch/aarch64"
    chooses 'SHA-1 and SHA-256: true, SHA-512: true' qemu-aarch64 "$scratch/aarch64"
fi

# refuses WHY PARAMETERS [ATTRIBUTE]: what the stand-in says to a module with one of the functions, which has these
# parameters and this attribute.
refuses() {
    printf 'define internal void @"sha_instructions::instructions::sha1nexte"(%s) %s#0 {\n  ret void\n}\n%s\n' "$2" \
        "${3:-}" 'attributes #0 = { nounwind }' >"$scratch/module.bc"
    runs "the stand-in for clang: $1" 1 '' any "$tools/bin/clang" --target=x86_64-unknown-linux-gnu --no-default-config \
        -x ir "$scratch/module.bc" -c -o "$scratch/module.o"
    same "the stand-in for clang: $1" 1 "$(grep -c "^clang_with_instructions: $1: " "$scratch/.err")"
    absent "the stand-in for clang: $1" "$scratch/module.o"
}
refuses 'another head was expected' 'ptr noundef %a0, ptr noundef %a1'
refuses 'another head was expected' 'ptr noundef %a0, ptr noundef %a1, ptr noundef %a2' 'memory(none) '
refuses 'not each function is there that is defined anew' 'ptr noundef %a0, ptr noundef %a1, ptr noundef %a2'
finish
