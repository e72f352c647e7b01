#!/usr/bin/env bash
# What include/verity.h and verity(3) say of a call on x86-64, by the code of the libraries and by calls: which
# registers it keeps, that nothing below the stack pointer is used, what marks, tables and variables there aren't, and
# what needs no value. arm.sh does the same for 64-bit ARM. LIB=FOLDER takes the libraries of another folder.
set -u
cd "$(dirname "$0")/../.."
. tests/lib/checks.sh
. tests/lib/c_programs.sh
. tests/lib/abi.sh
has_library "$LIB/libverity.a"
has_library "$LIB/libverity.so.2"
needs gcc gcc
needs objdump binutils
needs readelf binutils

states 'rbx, rbp, r12 to r15, MXCSR, the x87 control word and the direction flag;' \
    "x87 and MMX registers aren't used." \
    "Nothing below the stack pointer is read or written, so the library doesn't use the red zone." \
    'The library has no variables but that byte' 'has no SHA instructions and no variables' \
    'It has no unwind tables (.eh_frame)' \
    'It has no landing pads for IBT or BTI (endbr64, bti), signs no pointers (PAC)' \
    'no note (.note.gnu.property) that marks it for these or for shadow stacks' \
    'On x86-64 it also jumps by tables'

# code_of LIBRARY VECTORS: what its instructions show. VECTORS are the vector registers that it may name.
code_of() {
    local name=${1#"$LIB/"} code=$scratch/code
    objdump -d --no-show-raw-insn "$1" >"$code"
    finds "instructions of $name" some '%rsp' "$code"
    # An address may be computed by an offset below the stack pointer and an index above it.
    finds "operands below the stack pointer, $name" 0 '-0x[0-9a-f]+\(%rsp' "$code" '\blea\b'
    # Nor where a function has taken the stack pointer to rbp.
    awk '/>:$/ { taken = 0 } /mov +%rsp,%rbp/ { taken = 1 } taken' "$code" >"$scratch/taken"
    finds "operands below the stack pointer in rbp, $name" 0 '-0x[0-9a-f]+\(%rbp' "$scratch/taken" '\blea\b'
    finds "endbr64 of $name" 0 'endbr(64|32)' "$code"
    finds "jumps by tables of $name" some '\bjmp +\*%r' "$code"
    finds "registers of x87, MMX and AVX-512 in $name" 0 '%(mm[0-7]|st|zmm|k[0-7]|[xy]mm(1[6-9]|[23][0-9]))\b' "$code"
    finds "vector registers of $name" some "%$2(1[0-5]|[0-9])\b" "$code"
    finds "thread-local variables of $name" 0 '%[fg]s:' "$code"
    finds "settings of $name" 0 '\b(std|ldmxcsr|vldmxcsr|fldcw|emms)\b' "$code"
    has_no_marks "$1"
}

for library in libverity.a libverity.so.2; do
    code_of "$LIB/$library" xmm
    objdump -d --no-show-raw-insn "$LIB/$library" >"$scratch/code"
    finds "registers of AVX in $library" 0 '%ymm' "$scratch/code"
    if ! grep -q ', without SHA instructions$' "$LIB/$library.made"; then
        finds "SHA instructions of $library" some ':\s+sha(1|256)' "$scratch/code"
    fi
done
if [ -e "$LIB/without/libverity.a" ]; then
    code_of "$LIB/without/libverity.a" xmm
    finds 'SHA instructions of the library without them' 0 ':\s+sha(1|256)' "$scratch/code"
else
    echo "left out: the library without SHA instructions: $LIB/without is not built"
fi
for library in libverity.a libverity.so.2; do
    if [ -e "$LIB/glibc-hwcaps/x86-64-v3/$library" ]; then
        code_of "$LIB/glibc-hwcaps/x86-64-v3/$library" ymm
    fi
done

states 'A pointer may be null if its length is 0'
takes_null "$LIB/libverity.a" 'shl +[$]0xc,'
if [ -e "$LIB/glibc-hwcaps/x86-64-v3/libverity.a" ]; then
    takes_null "$LIB/glibc-hwcaps/x86-64-v3/libverity.a" 'shl +[$]0xc,'
fi

# A program that is marked for IBT and shadow stacks is so no longer with the library.
marked=(gcc -shared -nostartfiles -fcf-protection -x c - -x none)
"${marked[@]}" -o "$scratch/marked" <<<'int marked(void) { return 1; }' 2>/dev/null
if readelf -nW "$scratch/marked" 2>/dev/null | grep -q 'feature: IBT, SHSTK'; then
    "${marked[@]}" -Wl,--whole-archive "$LIB/libverity.a" -Wl,--no-whole-archive -o "$scratch/marked" \
        <<<'int marked(void) { return 1; }'
    same 'marks of what the library is linked into' '' \
        "$(readelf -nW "$scratch/marked" | grep -E 'feature:.*(IBT|SHSTK)')"
else
    fail 'marks of what the library is linked into' "gcc doesn't mark a library of one function"
fi

# Every function is called by a caller that keeps something in each register, and with bytes that need no value: the
# answers are the same whatever these are.
states 'may come from malloc'
same 'functions that are called' "$(grep -oE '\b(fs)?verity_[a-z_]+\(' include/verity.h | sort -u)" \
    "$(grep -oE '\b(fs)?verity_[a-z_]+\(' tests/library/abi.c | sort -u)"
if [ "$(uname -m)" = x86_64 ] && keeps_registers "$scratch/abi" gcc "$LIB/libverity.a"; then
    adds 'registers that a call keeps' "$scratch/abi" 0
    cp "$scratch/.ran" "$scratch/zeros"
    same 'how many answers there are' yes "$([ "$(wc -l <"$scratch/zeros")" -gt 500 ] && echo yes)"
    for filling in 255 90 1; do
        adds 'registers that a call keeps' "$scratch/abi" $filling
        same_bytes "answers where bytes without a value are $filling" "$scratch/zeros" "$scratch/.ran"
    done
    if command -v valgrind >/dev/null; then
        runs 'valgrind: bytes without a value' 0 any '' valgrind -q --error-exitcode=9 "$scratch/abi"
        same 'answers in valgrind' "$(head -n -1 "$scratch/zeros" | sha256sum)" "$(sha256sum <"$scratch/.out")"
    else
        echo 'left out: bytes without a value, in valgrind: valgrind is not installed (Debian: valgrind)'
    fi
    if [ -e "$LIB/without/libverity.a" ] && keeps_registers "$scratch/abi" gcc "$LIB/without/libverity.a"; then
        adds 'registers that a call without SHA instructions keeps' "$scratch/abi" 90
        same_bytes 'answers without SHA instructions' "$scratch/zeros" "$scratch/.ran"
    fi
    for_v3=$LIB/glibc-hwcaps/x86-64-v3/libverity.a
    if [ -e "$for_v3" ] && [ "$(./processor.sh)" = x86-64-v3 ] && keeps_registers "$scratch/abi" gcc "$for_v3"; then
        adds 'registers that a call of the library for x86-64-v3 keeps' "$scratch/abi" 90
        same_bytes 'answers of the library for x86-64-v3' "$scratch/zeros" "$scratch/.ran"
    fi
fi
finish
