#!/usr/bin/env bash
# Runs the programs on processors that qemu imitates: on one that lacks what they were built for they end with status
# 127 and say so, in the words of docs/BUILDING.md, and have done nothing. Those for every processor run on each, and
# begin the code for x86-64-v3 exactly where that runs. BIN=FOLDER takes the programs of another folder.
set -u
cd "$(dirname "$0")/.."
. tests/lib/checks.sh
has_program fsverity
has_program veritysetup
needs qemu-x86_64 qemu-user
cpu=$(head -n 1 "$BIN/fsverity.made")
cpu=${cpu%, without SHA instructions}
printf a >"$scratch/one"
sample 8192 >"$scratch/data"

stated=$(tr '\n' ' ' <docs/BUILDING.md | grep -oE 'this machine lacks a feature of x86-64-v3[^`]*')

# refused MODEL: neither program runs on a model of a processor.
refused() {
    local message=${stated//x86-64-v3/$cpu}
    runs "fsverity for $cpu on $1" 127 '' "$message" qemu-x86_64 -cpu "$1" "$BIN/fsverity" digest "$scratch/one"
    runs "veritysetup for $cpu on $1" 127 '' "$message" \
        qemu-x86_64 -cpu "$1" "$BIN/veritysetup" format "$scratch/data" "$scratch/hash"
    absent "veritysetup for $cpu on $1" "$scratch/hash"
}

# begins HALF MODEL [SETTING]: both programs run on a model of a processor, by this one of their halves, as the names of
# functions tell that qemu comes to.
begins() {
    local name other=main_for_x86_64_v3
    if [ "$1" = $other ]; then other=main_for_x86_64; fi
    rm -f "$scratch/hash"
    runs "fsverity for any on $2${3:+ with $3}" 0 "sha256:$DIGEST_OF_A $scratch/one" '' \
        env -u VERITY_PROCESSOR ${3:+"$3"} qemu-x86_64 -cpu "$2" -d in_asm -D "$scratch/fsverity.log" \
        "$BIN/fsverity" digest "$scratch/one"
    runs "veritysetup for any on $2${3:+ with $3}" 0 any '' env -u VERITY_PROCESSOR ${3:+"$3"} \
        qemu-x86_64 -cpu "$2" -d in_asm -D "$scratch/veritysetup.log" \
        "$BIN/veritysetup" format "$scratch/data" "$scratch/hash"
    for name in fsverity veritysetup; do
        same "$name for any on $2${3:+ with $3}: $1 begins" yes "$(comes_to "$1" $name)"
        same "$name for any on $2${3:+ with $3}: $other doesn't" no "$(comes_to $other $name)"
    done
}

# comes_to FUNCTION PROGRAM: whether the last run of a program has come to a function.
comes_to() {
    if grep -qx "IN: $1" "$scratch/$2.log"; then echo yes; else echo no; fi
}

# Core 2 has less than x86-64-v2, and Nehalem has that and no more.
case $cpu in
x86-64-v2)
    refused core2duo
    runs 'fsverity for x86-64-v2 on Nehalem' 0 "sha256:$DIGEST_OF_A $scratch/one" '' \
        qemu-x86_64 -cpu Nehalem "$BIN/fsverity" digest "$scratch/one"
    runs 'veritysetup for x86-64-v2 on Nehalem' 0 any '' \
        qemu-x86_64 -cpu Nehalem "$BIN/veritysetup" format "$scratch/data" "$scratch/hash"
    ;;
x86-64-v3)
    refused core2duo
    refused Nehalem
    ;;
any | any,\ static)
    for model in core2duo Nehalem max,-avx2 max,-xsave; do begins main_for_x86_64 $model; done
    begins main_for_x86_64_v3 max
    begins main_for_x86_64 max VERITY_PROCESSOR=x86-64
    for value in '' x86-64-v3 x86-64-v2 other; do
        begins main_for_x86_64_v3 max "VERITY_PROCESSOR=$value"
        begins main_for_x86_64 core2duo "VERITY_PROCESSOR=$value"
    done
    ;;
*)
    echo "$0: built for $cpu, of which nothing is known here"
    exit $LEFT_OUT
    ;;
esac

# What processor.sh says of the processor is what the kernel lists.
found=x86-64-v3
for flag in avx avx2 bmi1 bmi2 f16c fma abm movbe; do
    if ! grep -qw "$flag" /proc/cpuinfo; then found=x86-64-v2; fi
done
same 'processor.sh' "$found" "$(./processor.sh)"
same 'processor.sh on Nehalem' x86-64-v2 "$(./processor.sh qemu-x86_64 -cpu Nehalem /lib64/ld-linux-x86-64.so.2)"
same 'processor.sh without a loader' "$found" "$(./processor.sh "$scratch/missing")"
same 'processor.sh with an older loader' "$found" "$(./processor.sh echo)"
# Where the kernel's flags tell: all that x86-64-v3 has, among others, and all but one.
flags=(fpu cx16 lahf_lm popcnt pni ssse3 sse4_1 sse4_2 avx avx2 bmi1 bmi2 f16c fma abm movbe xsave avx512f)
for flag in fpu "${flags[@]:1:16}"; do
    expected=x86-64-v2
    if [ "$flag" = fpu ]; then expected=x86-64-v3; fi
    printf 'processor\t: 0\nflags\t\t: %s\n\n' "$(printf '%s\n' "${flags[@]}" | grep -vx "$flag" | paste -sd ' ')" \
        >"$scratch/cpuinfo"
    same "processor.sh without a loader and $flag" $expected \
        "$(CPUINFO="$scratch/cpuinfo" ./processor.sh "$scratch/missing")"
done
: >"$scratch/cpuinfo"
same 'processor.sh without a loader and flags' x86-64-v2 \
    "$(CPUINFO="$scratch/cpuinfo" ./processor.sh "$scratch/missing")"
same 'processor.sh without a loader and /proc' x86-64-v2 "$(CPUINFO="$scratch/none" ./processor.sh "$scratch/missing")"
finish
