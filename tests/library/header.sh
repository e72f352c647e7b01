#!/usr/bin/env bash
# The header in C99, C11 and C++, in two files of one program; calls whose status is dropped, of which a compiler warns;
# the structs as the compiled library reads and fills them; and the names of the library: the header's functions alone
# are shown, in the shared library with their version, and nothing is needed but memcpy, memmove and memset. LIB=FOLDER
# takes the library of another folder.
set -u
cd "$(dirname "$0")/../.."
. tests/lib/checks.sh
. tests/lib/c_programs.sh
needs gcc gcc
needs nm binutils
needs readelf binutils
has_library "$LIB/libverity.a"
takes_shared
strict=(-Wall -Wextra -Wpedantic -Werror -Iinclude)

# The functions that the header names, without its comments; and those of them that answer a status.
functions=$(sed 's|/\*.*\*/||; /\/\*/,/\*\//d' include/verity.h | grep -oE '\b(fs)?verity_[a-z_]+\(' | tr -d '(' | sort)
with_status=$(grep -vx verity_version <<<"$functions")

# in_language NAME COMPILER WORD..: two files that include the header, twice, make one program with each library.
in_language() {
    local name=$1 library suffix=c
    shift
    case $1 in *++) suffix=cc ;; esac
    printf '%s\n' '#include "verity.h"' '#include "verity.h"' 'size_t levels_of(const struct verity_params *);' \
        'size_t levels_of(const struct verity_params *params)' '{' '    size_t levels = 7;' \
        '    return verity_level_count(params, &levels) == VERITY_OK ? levels : 9;' '}' >"$scratch/one.$suffix"
    {
        printf '%s\n' '#include <string.h>' '#include "verity.h"' 'size_t levels_of(const struct verity_params *);' \
            'typedef void (*function)(void);' 'static function all[] = {'
        sed 's/.*/    (function)&,/' <<<"$functions"
        printf '%s\n' '};' 'int main(void)' '{' '    struct verity_params params;' \
            '    memset(&params, 0, sizeof params);' '    params.hash_algorithm = VERITY_SHA256;' \
            '    params.data_block_size = params.hash_block_size = 512;' '    params.data_blocks = 17;' \
            '    return levels_of(&params) == 2 && all[0] != 0 ? 0 : 1;' '}'
    } >"$scratch/two.$suffix"
    for library in "$LIB/libverity.a" "${shared[0]}"; do
        runs "$name, ${library##*/}" 0 '' '' "$@" "${strict[@]}" -Wno-cast-function-type "$scratch/one.$suffix" \
            "$scratch/two.$suffix" "$library" "${shared[1]}" -o "$scratch/two"
        runs "$name, ${library##*/}: the program" 0 '' '' "$scratch/two"
    done
}

in_language C99 gcc -std=c99
in_language C11 gcc -std=c11
if command -v g++ >/dev/null; then
    in_language C++17 g++ -std=c++17
else
    echo 'left out: the header in C++: g++ is not installed'
fi

# dropped KIND FILE: the functions whose dropped status has a warning, or an error, in what a compiler said.
dropped() {
    sed -nE "/-W(error=)?unused-result/s/.* $1: ignoring return value of '(int )?((fs)?verity_[a-z_]+)\b.*/\2/p" "$2" |
        sort
}

# drops NAME COMPILER WORD..: calls each of the header's functions and drops its status. The compiler warns of each, and
# of no call whose status is looked at. Where the warning is an error, each call is one. A compiler that doesn't say
# that it is gcc, or like it, isn't asked to warn; -ffreestanding takes stdint.h from gcc, since the system's would then
# take all attributes away.
drops() {
    local name=$1 suffix=c function arguments names
    shift
    case $1 in *++) suffix=cc ;; esac
    echo '#include "verity.h"' | tee "$scratch/used.$suffix" >"$scratch/dropped.$suffix"
    while IFS='(' read -r function arguments; do
        names=$(sed -E 's/[^,]*[ *]([a-z_]+)(,|$)/\1\2 /g' <<<"$arguments")
        printf '%s\n' "int call_$function($arguments);" "int call_$function($arguments)" '{' \
            "    return $function($names);" '}' >"$scratch/call"
        cat "$scratch/call" >>"$scratch/used.$suffix"
        sed 's/^    return /    /; s/^int /void /' "$scratch/call" >>"$scratch/dropped.$suffix"
    done < <(sed 's|/\*.*\*/||; /\/\*/,/\*\//d' include/verity.h | tr -s ' \n' '  ' |
        grep -oE '\bint (fs)?verity_[a-z_]+\([^)]*\)' | sed 's/^int //' | tr -d ')')
    set -- "$@" -Iinclude -c -o "$scratch/call.o"
    runs "$name: statuses that are used" 0 '' '' "$@" "${strict[@]}" "$scratch/used.$suffix"
    runs "$name: statuses that are dropped" 0 '' any "$@" -Wall "$scratch/dropped.$suffix"
    same "$name: warnings of those that are dropped" "$with_status" "$(dropped warning "$scratch/.err")"
    runs "$name: dropped, which is an error" 1 '' any "$@" -Werror=unused-result "$scratch/dropped.$suffix"
    same "$name: errors of those that are dropped" "$with_status" "$(dropped error "$scratch/.err")"
    runs "$name: dropped, by another compiler" 0 '' '' "$@" -U__GNUC__ -ffreestanding -Wall -Werror \
        "$scratch/dropped.$suffix"
}

drops C99 gcc -std=c99
if command -v g++ >/dev/null; then drops C++17 g++ -std=c++17; fi

# The places of the fields, and what the library fills there by a superblock in which each field differs.
if compiles "$scratch/structs" gcc tests/library/structs.c "$LIB/libverity.a"; then
    # SHA-384, type 1, data blocks of 1024, hash blocks of 4096, 0x0000010203040506 blocks, salt 'salt'.
    ALGORITHM=sha384 HASH_TYPE=1 UUID=000102030405060708090a0b0c0d0e0f
    superblock 1024 4096 $((0x010203040506)) 73616c74 >"$scratch/superblock"
    paint=$(printf 'a5%.0s' $(seq 312))
    read_bytes=05000000010000000004000000100000060504030201000088776655443322110000000004000000
    read_bytes+=73616c74$(printf '00%.0s' $(seq 252))000102030405060708090a0b0c0d0e0f
    descriptor 01020b03 $((0x0807060504030201)) "$(printf '%0128d' 0)" 616263 >"$scratch/descriptor"
    same 'length of the descriptor' 256 "$(stat -c %s "$scratch/descriptor")"
    "$scratch/structs" <"$scratch/superblock" >"$scratch/structs.txt"
    same 'the structs' "0
beside $paint
read $read_bytes
beside $paint
0
digest $(sha512 "$scratch/descriptor")" "$(cat "$scratch/structs.txt")"
fi

same 'functions of the header' 61 "$(wc -l <<<"$functions")"
same 'functions that refused.c calls' "$with_status" \
    "$(sed -nE 's/^    \{"((fs)?verity_[a-z_]+)", .*/\1/p' tests/library/refused.c | sort)"
same 'functions that the shared library shows' \
    "$(sed 's/$/@@VERITY_2.0/; /^verity_default_params@/s/2\.0$/2.1/' <<<"$functions" | sort)" \
    "$(nm -D --defined-only "$LIB/libverity.so.2" | awk '$3 !~ /^VERITY_2/ { print $3 }' | sort)"
same 'functions that the static library shows' "$functions" \
    "$(nm -g --defined-only "$LIB/libverity.a" | awk 'NF == 3 { print $3 }' | sort)"
same 'the soname' libverity.so.2 "$(readelf -d "$LIB/libverity.so.2" | sed -n 's/.*soname: \[\(.*\)\]/\1/p')"
same 'what the static library needs' 'memcpy memmove memset' \
    "$(nm -u "$LIB/libverity.a" | awk '$1 == "U" { print $2 }' | sort -u | tr '\n' ' ' | sed 's/ $//')"
same 'what the shared library needs' 'memcpy memmove memset' \
    "$(nm -D -u "$LIB/libverity.so.2" | awk '{ sub("@.*", "", $2); print $2 }' | sort -u | tr '\n' ' ' | sed 's/ $//')"
finish
