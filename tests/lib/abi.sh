# What header and page say of registers, stack and marks, and what the code of a library shows of it. Sourced after
# tests/lib/checks.sh.

stated_by_header=$(sed -E 's/^ \*( +-)?//' include/verity.h | tr -s ' \n' '  ')
stated_by_page=$(sed -E 's/^\.(Sy|Pa|Fn|Vt|Dv|Xr) //; s/ ([,.])$/\1/' man/verity.3 | tr -s ' \n' '  ')

# states TEXT..: header and page both say this, word for word. What is tested beside it is what they say.
states() {
    local text
    for text in "$@"; do
        if [[ $stated_by_header == *"$text"* ]]; then pass; else fail 'include/verity.h' "it doesn't say: $text"; fi
        if [[ $stated_by_page == *"$text"* ]]; then pass; else fail 'man/verity.3' "it doesn't say: $text"; fi
    done
}

# finds NAME COUNT PATTERN FILE [PATTERN]: so many lines of a file have a pattern, and not the second one. COUNT may
# be `some`.
finds() {
    local count
    count=$(grep -E -- "$3" "$4" | grep -vcE -- "${5:-^$}")
    if [ "$2" = some ] && [ "$count" -gt 0 ]; then count=some; fi
    same "$1" "$2" "$count"
    if [ "$2" = 0 ] && [ "$count" != 0 ]; then grep -E -- "$3" "$4" | grep -vE -- "${5:-^$}" | head -n 3; fi
}

# has_no_marks LIBRARY PREFIX: no unwind tables, no notes of what the code is made for, and no variables, but with SHA
# instructions of x86-64 the answer of the processor. PREFIX stands before the names of binutils.
has_no_marks() {
    local library=$1 prefix=${2:-} name=${1##*/} variables='0000000000000001 sha_instructions_answer' section=.bss
    if [ -n "$prefix" ] || grep -q '^x86-64.*, without SHA instructions$' "$library.made"; then
        variables='' section=''
    fi
    "${prefix}readelf" -SW "$library" >"$scratch/sections"
    # Of a shared library the linker leaves the section, of no bytes.
    same "unwind tables of $name" '' "$(sed 's/.*\] //' "$scratch/sections" |
        awk '/^\.(eh_frame|debug_frame|gcc_except_table)/ && $5 !~ /^0+$/ { print $1 }')"
    same "notes of $name" '' "$(sed -nE 's/.*(\.note\.gnu\.property).*/\1/p' "$scratch/sections")"
    case $library in
    *.a)
        same "variables of $name" "$variables" "$("${prefix}nm" -S "$library" |
            awk 'NF > 1 && $(NF - 1) ~ /^[BbCDdGgSsVvWw]$/ && $NF != "getauxval" { print (NF > 3 ? $(NF - 2) " " : "") $NF }')"
        ;;
    # A table of texts is relocated when the library is loaded, and read only from then on.
    *)
        same "variables of $name" "$section" \
            "$(sed -nE '/\.data\.rel\.ro /d; s/.*\] (\.t?bss|\.t?data)[ .].*/\1/p' "$scratch/sections")"
        ;;
    esac
}

# takes_null LIBRARY INSTRUCTION [PREFIX]: each function puts another address in the place of null for each pointer with
# a length, so that nothing compiled takes such a pointer for one that isn't null. INSTRUCTION chooses the address.
takes_null() {
    sed 's|/\*.*\*/||; /\/\*/,/\*\//d' include/verity.h | tr -s ' \n' ' ' | grep -oE '\b(fs)?verity_[a-z_]+\([^)]*\)' |
        awk -F'(' '{ count = gsub(/(uint8_t|char) \*[a-z_]+, size_t/, "&"); if (count) print $1, count }' |
        sort >"$scratch/pointers"
    same 'functions with a pointer and its length' 36 "$(wc -l <"$scratch/pointers")"
    "${3:-}objdump" -d --no-show-raw-insn "$1" | awk -v instruction="$2" '
        NR == FNR { wanted[$1] = $2; next }
        />:$/ { name = substr($2, 2, length($2) - 3) }
        $0 ~ instruction { found[name]++ }
        END { for (name in wanted) print name, found[name] < wanted[name] ? found[name] + 0 : wanted[name] }
    ' "$scratch/pointers" - | sort >"$scratch/chosen"
    same_bytes "where null is another address in ${1#"$LIB/"}" "$scratch/pointers" "$scratch/chosen"
}

# keeps_registers OUT COMPILER WORD..: builds tests/library/abi.c, which uses none of the registers that a call leaves,
# so that it can keep something there.
keeps_registers() {
    local out=$1 compiler=$2 registers=(rbx rbp r12 r13 r14 r15) register words=(-mno-red-zone)
    shift 2
    if [[ $compiler = aarch64-* ]]; then registers=(x{19..29} v{8..15}) words=(); fi
    for register in "${registers[@]}"; do words+=("-ffixed-$register"); done
    compiles "$out" "$compiler" -g -O2 -fomit-frame-pointer "${words[@]}" tests/library/{support,abi}.c "$@"
}
