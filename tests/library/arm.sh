#!/usr/bin/env bash
# The libraries for 64-bit ARM, in an emulator: the tests of images, refused parameters and superblocks, random calls,
# and trees that are built of pieces and of parts, in all of which they leave the register x18 alone; and that a call
# keeps what include/verity.h and verity(3) say of registers and stack. Then trees that are stored after each call go on
# by another of the libraries, or by that for x86-64. SEED=N draws other settings, RUNS=all four times as many of them,
# LIB=FOLDER and ARM_LIB=FOLDER take the libraries of other folders.
set -u
cd "$(dirname "$0")/../.."
. tests/lib/checks.sh
. tests/lib/c_programs.sh
. tests/lib/random_images.sh
. tests/lib/abi.sh
. tests/lib/feeding_programs.sh
ARM_LIB=${ARM_LIB:-lib/aarch64}
needs gcc gcc
needs aarch64-linux-gnu-gcc gcc-aarch64-linux-gnu
needs qemu-aarch64 qemu-user
needs nm binutils
needs readelf binutils
needs python3 python3
if ! aarch64-linux-gnu-gcc -include stdio.h -fsyntax-only -x c /dev/null 2>/dev/null; then
    echo "$0: the C library for 64-bit ARM is not installed (Debian: libc6-dev-arm64-cross)"
    exit "$LEFT_OUT"
fi
has_library "$LIB/libverity.a"
has_library "$LIB/libverity.so.2"
if [ ! -e "$ARM_LIB/libverity.a" ]; then
    echo "$0: $ARM_LIB/libverity.a is not there"
    exit "$LEFT_OUT"
fi

# named WORD LIBRARY: how many instructions of a library have this word.
named() {
    aarch64-linux-gnu-objdump -d "$ARM_LIB/$2" | grep -cwE "$1"
}

# x18 is the platform's: a boot loader has a pointer in it, or a kernel a stack.
for library in libverity.a libverity-strict-align.a libverity.so.2; do
    same "x18 in $library" 0 "$(named '[xw]18' "$library")"
    if [ "$(named x19 "$library")" -gt 100 ]; then
        pass
    else
        fail "$library" 'its code names x19 less than 100 times'
    fi
done
# All programs below keep a pointer of their own in it, and look after each call whether it still stands there. They
# call every function that the libraries show.
platform=(-ffixed-x18 -DKEEPS_X18)
calls=(tests/library/{part_calls,feeding_calls,calls}.c)
if compiles "$scratch/calls.o" aarch64-linux-gnu-gcc -r "${platform[@]}" "${calls[@]}"; then
    names='\b(fs)?verity_[a-z_]+'
    same 'functions that are called with x18 as a caller'"'"'s' \
        "$(aarch64-linux-gnu-nm -D --defined-only "$ARM_LIB/libverity.so.2" | grep -oE "$names" | sort)" \
        "$(aarch64-linux-gnu-nm -u "$scratch/calls.o" | grep -oE "$names" | sort)"
fi
# The shared library has the names, versions and soname of that for x86-64, which header.sh tests.
same 'names that the shared library shows' "$(nm -D --defined-only "$LIB/libverity.so.2" | cut -d ' ' -f 2- | sort)" \
    "$(aarch64-linux-gnu-nm -D --defined-only "$ARM_LIB/libverity.so.2" | cut -d ' ' -f 2- | sort)"
same 'the soname' "$(readelf -d "$LIB/libverity.so.2" | grep -o 'soname: .*')" \
    "$(readelf -d "$ARM_LIB/libverity.so.2" | grep -o 'soname: .*')"
# Where memory is read and written at aligned addresses alone, the data are read byte by byte.
if [ "$(named ldrb libverity-strict-align.a)" -gt $((10 * $(named ldrb libverity.a))) ]; then
    pass
else
    fail 'libverity-strict-align.a' 'it has no more loads of single bytes than libverity.a'
fi
# Without a C compiler there is nobody to hand clang its flags, which is said before anything is proved.
runs 'no C compiler' 1 '' any env PATH="$(path_without cc)" LIB="$scratch/none" ./library.sh aarch64
same 'no C compiler: why' 1 "$(grep -c '^library.sh: cc is not installed: ' "$scratch/.err")"
absent 'no C compiler' "$scratch/none"

# What include/verity.h and verity(3) say of a call, as abi.sh tests it for x86-64.
states 'x19 to x29, d8 to d15 and FPCR' 'nothing below the stack pointer is read or written'
for library in libverity.a libverity-strict-align.a libverity.so.2; do
    aarch64-linux-gnu-objdump -d --no-show-raw-insn "$ARM_LIB/$library" >"$scratch/code"
    # With `!` the stack pointer goes there first.
    finds "operands below the stack pointer, $library" 0 '\[sp, #-' "$scratch/code" '\]!'
    finds "bti and pointer authentication in $library" 0 '\b(bti|pac[a-z0-9]+|aut[a-z0-9]+|reta[ab]|xpac[a-z]+)\b' \
        "$scratch/code" '>:$'
    finds "settings and variables of the system in $library" 0 '\b(mrs|msr)\b' "$scratch/code"
    has_no_marks "$ARM_LIB/$library" aarch64-linux-gnu-
    asks=getauxval
    if [ $library = libverity-strict-align.a ] || grep -q ', without SHA instructions$' "$ARM_LIB/$library.made"; then
        asks=
    fi
    same "what $library asks for" "$asks" "$(aarch64-linux-gnu-nm -u "$ARM_LIB/$library" | awk '$1 == "w" { print $2 }' |
        sed 's/@.*//')"
done
for library in libverity.a libverity-strict-align.a; do
    takes_null "$ARM_LIB/$library" 'csel.*, eq' aarch64-linux-gnu-
    if keeps_registers "$scratch/abi" aarch64-linux-gnu-gcc -static "$ARM_LIB/$library"; then
        adds "registers that a call of $library keeps" qemu-aarch64 "$scratch/abi" 90
    fi
done

# tries_library LIBRARY PART: the tests of a library, with one in PART of all images, random calls and feedings. The
# programs stand in the scratch folder, in one of the library's name.
tries_library() {
    local library=$ARM_LIB/$1 part=$2 built=$scratch/$1
    local static=(aarch64-linux-gnu-gcc -static -O2 -Wl,-u,getauxval "${platform[@]}" tests/library/chains.c "${feeding_sources[@]}")
    mkdir "$built"
    if compiles "$built/refused" "${static[@]}" tests/library/refused.c "$library"; then
        adds refused qemu-aarch64 "$built/refused"
    fi
    if compiles "$built/images" "${static[@]}" tests/library/debian_images.c "$library"; then
        tries_images "$built/images" $((14 / part)) $((8 / part)) $((1 << 20)) qemu-aarch64
    fi
    if compiles "$built/fuzz" "${static[@]}" tests/library/fuzz.c "$library"; then
        tries_random "$built/fuzz" $((150000 / part)) qemu-aarch64
    fi
    if compiles "$built/feeding_refused" "${static[@]}" tests/library/feeding_refused.c "$library"; then
        tries_refused 'feeding, refused' "$built/feeding_refused" qemu-aarch64
    fi
    if compiles "$built/feeding" "${static[@]}" tests/library/feeding.c "$library"; then
        feeds_settings 'feeding, all settings' "$built/feeding" $(((1 << 14) / part)) $(((1 << 10) / part)) qemu-aarch64
        feeds_large 'feeding, large blocks' "$built/feeding" $(((1 << 19) / part)) qemu-aarch64
        feeds_images "$built/feeding" $((6 / part)) $((6 / part)) $((1 << 19)) qemu-aarch64
    fi
    if compiles "$built/stored" "${static[@]}" tests/library/stored.c "$library"; then
        tries_stored "$built/stored" $((4096 / part)) qemu-aarch64
    fi
    if compiles "$built/parts" "${static[@]}" tests/library/parts.c "$library"; then
        builds_parts 'parts, all settings' "$built/parts" $(((1 << 12) / part)) 64 qemu-aarch64
        breaks_parts 'parts, mistakes' "$built/parts" qemu-aarch64
        feeds_images "$built/parts" $((4 / part)) $((4 / part)) $((1 << 17)) qemu-aarch64
    fi
    compiles "$built/stored_parts" "${static[@]}" tests/library/stored_parts.c "$library"
    if compiles "$built/feeding_fuzz" "${static[@]}" tests/library/feeding_fuzz.c "$library"; then
        tries_feedings "$built/feeding_fuzz" $((30000 / part)) qemu-aarch64
    fi
}
draws_data
tries_library libverity.a "$(few 4 1)"
tries_library libverity-strict-align.a 4

# A tree goes on by another library than the one by which it was stored: each of its calls is made by the next program.
# So does a tree that is built from parts.
cat >"$scratch/stored_in_turns" <<'END'
#!/usr/bin/env bash
# stored_in_turns SEED WORD..: makes a call by one of three programs; the next SEED takes the next of them. They are
# named as this one.
folder=${0%/*} name=${0##*/}
case $(($1 % 3)) in
0) program=("$folder/${name%_in_turns}") ;;
1) program=(qemu-aarch64 "$folder/libverity.a/${name%_in_turns}") ;;
2) program=(qemu-aarch64 "$folder/libverity-strict-align.a/${name%_in_turns}") ;;
esac
echo "${program[*]}" >>"$folder/turns"
exec "${program[@]}" "$@"
END
chmod +x "$scratch/stored_in_turns"
cp "$scratch/stored_in_turns" "$scratch/stored_parts_in_turns"

# takes_turns PROGRAM COUNT MOST-BYTES: trees that begin by each of the three builds of a program.
takes_turns() {
    local turn
    : >"$scratch/turns"
    if ! compiles "$scratch/$1" gcc -O2 "${feeding_sources[@]}" "tests/library/$1.c" "$LIB/libverity.a"; then return; fi
    for ((turn = 0; turn < 3; turn++)); do
        SEED=$((SEED + turn)) stores_images "$scratch/$1_in_turns" "$2" "$2" "$3"
    done
    if [ -s "$scratch/turns" ]; then
        same "how many programs trees went through, $1" 3 "$(sort -u "$scratch/turns" | wc -l)"
    fi
}
takes_turns stored "$(few 1 2)" $((1 << 17))
takes_turns stored_parts 1 $((1 << 16))
finish
