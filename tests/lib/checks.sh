# What the scripts under tests/ share: what they need, how checks are counted, how commands are run, bytes, and digests
# of them. Sourced at the repository's root, by bash.
# Expected digests come from sha256sum over stated bytes, never from the programs.

BIN=${BIN:-bin}
PATH=$PATH:/usr/sbin:/sbin
# What the user has set changes nothing here.
export LC_ALL=C
umask 022
unset MAKEFLAGS MFLAGS MAKELEVEL VERITY_PROCESSOR
LEFT_OUT=77
checked=0
failed=0
scratch=$(mktemp -d)
trap 'rm -rf "$scratch"' EXIT

# needs PROGRAM PACKAGE: ends with status LEFT_OUT if a tool is missing that this script needs. Nothing is installed.
needs() {
    if ! command -v "$1" >/dev/null; then
        echo "$0: $1 is not installed (Debian: $2)"
        exit $LEFT_OUT
    fi
}

# needs_other PROGRAM PACKAGE: the same for a program to compare with. It must not be the one under test, by a link or
# as a copy, nor another build of it, which can't tell its version as the other does.
needs_other() {
    local other
    needs "$1" "$2"
    other=$(realpath "$(type -P "$1")")
    if [ "$other" = "$(realpath "$BIN/$1")" ] || cmp -s "$other" "$BIN/$1" || ! "$other" --version >/dev/null 2>&1; then
        echo "$0: $other is this project's own $1, so nothing was compared" >&2
        exit 1
    fi
}

# has_program NAME: stops if a program was not built.
has_program() {
    if [ ! -x "$BIN/$1" ]; then
        echo "$0: $BIN/$1 is not there: run 'make programs' first" >&2
        exit 1
    fi
}

pass() {
    checked=$((checked + 1))
}

# fail NAME TEXT..: counts a failed check and says what was expected.
fail() {
    checked=$((checked + 1))
    failed=$((failed + 1))
    printf 'FAILED %s\n' "$1"
    shift
    printf '    %s\n' "$@"
}

# same NAME EXPECTED ACTUAL: two texts are equal.
same() {
    if [ "$2" = "$3" ]; then pass; else fail "$1" "expected: $2" "found:    $3"; fi
}

# same_bytes NAME EXPECTED-FILE ACTUAL-FILE: two files have the same bytes.
same_bytes() {
    local found
    if found=$(cmp "$2" "$3" 2>&1); then pass; else fail "$1" "expected the bytes of $2" "found: $found"; fi
}

# header_functions: prints the functions that the header of the library declares, in order.
header_functions() {
    sed -nE 's/^(VERITY_MUST_CHECK int|uint32_t) ([a-z_]+)\(.*/\2/p' include/verity.h | sort
}

# absent NAME FILE: a file was not made.
absent() {
    if [ -e "$2" ]; then fail "$1" "expected: $2 is not there" "found:    it was made"; else pass; fi
}

# runs NAME STATUS OUT ERR COMMAND..: a command ends with this status, standard output and standard error. OUT and ERR
# are whole texts without the last newline, or `any` for some text, or for ERR `any-of A|B|..` with the messages
# allowed.
runs() {
    local name=$1 status=$2 out=$3 err=$4 found_status=0
    shift 4
    "$@" >"$scratch/.out" 2>"$scratch/.err" </dev/null || found_status=$?
    same "$name: status" "$status" "$found_status"
    is_text "$name: standard output" "$out" "$scratch/.out"
    is_text "$name: standard error" "$err" "$scratch/.err"
}

# is_text NAME EXPECTED FILE: a file holds a text and one newline, or nothing if the text is empty.
is_text() {
    local expected=$scratch/.expected message
    case $2 in
    any)
        if [ -s "$3" ]; then pass; else fail "$1" 'expected: some text' 'found:    none'; fi
        return
        ;;
    'any-of '*)
        while IFS= read -r -d '|' message; do
            if [ "$message" = "$(cat "$3")" ]; then
                pass
                return
            fi
        done <<<"${2#any-of }|"
        fail "$1" "expected: one of ${2#any-of }" "found:    $(cat "$3")"
        return
        ;;
    '') : >"$expected" ;;
    *) printf '%s\n' "$2" >"$expected" ;;
    esac
    if cmp -s "$expected" "$3"; then pass; else fail "$1" "expected: $2" "found:    $(cat -A "$3" | head -c 600)"; fi
}

# bytes HEX: writes the bytes that hexadecimal digits name.
bytes() {
    printf '%b' "$(sed 's/../\\x&/g' <<<"$1")"
}

# zeros COUNT: writes zeros.
zeros() {
    head -c "$1" /dev/zero
}

# little_endian WIDTH NUMBER: writes a number in so many bytes, low byte first.
little_endian() {
    local width=$1 number=$2 digits=
    while [ "$width" -gt 0 ]; do
        digits+=$(printf '%02x' $((number & 255)))
        number=$((number >> 8))
        width=$((width - 1))
    done
    bytes "$digits"
}

# path_without NAME: makes a folder with all programs of the PATH but those of this name, or pattern, and prints it.
path_without() {
    local to folder folders
    to=$(mktemp -d "$scratch/.path.XXXXXX")
    IFS=: read -ra folders <<<"$PATH"
    for folder in "${folders[@]}"; do
        if [ -d "$folder" ]; then
            find -L "$folder" -maxdepth 1 -type f ! -name "$1" -exec ln -s -t "$to" {} + 2>/dev/null
        fi
    done
    echo "$to"
}

# path_without_proofs: the same without `rt`, but with one in its place that tells its version and where its pages are,
# and proves nothing.
path_without_proofs() {
    local to
    to=$(path_without rt)
    printf '%s\n' '#!/usr/bin/env bash' "case \$* in version | doc) exec '$(type -P rt)' \"\$@\" ;; esac" \
        'echo "rt: nothing is proved here"' 'exit 1' >"$to/rt"
    chmod +x "$to/rt"
    echo "$to"
}

# root_in [REPORT]: prints the root hash in a report of format, by whichever program, in a file or on standard input.
root_in() {
    sed -n 's/^Root hash:[[:space:]]*//p' "$@"
}

# header_version: prints the version that include/verity.h, on standard input, has.
header_version() {
    awk '/^#define VERITY_VERSION_/ { printf "%s%s", dot, $3; dot = "." }'
}

# commit_in FOLDER: prints date and number of the commit there, as the names of archives have them.
commit_in() {
    TZ=UTC git -C "$1" show -s --date=format-local:git%Y%m%d --format=%cd.%H | cut -c 1-24
}

# with_closed STREAMS COMMAND..: runs a command with these standard streams closed.
with_closed() {
    local stream
    (
        for stream in $1; do
            case $stream in
            0) exec <&- ;;
            1) exec >&- ;;
            2) exec 2>&- ;;
            esac
        done
        "${@:2}"
    )
}

# is_imitated: whether the programs are run by qemu, on a processor that it imitates (tests/lib/kinds.sh).
is_imitated() {
    [ -f "$BIN/imitated" ]
}

# scarce COMMAND..: runs a command of the programs in an address space that has no room for blocks of 524288 bytes: it
# is 256 KiB larger than what the program takes with a short file.
scarce() {
    (ulimit -v $(($(least_space "$1") + 256)) && exec "$@")
}

# least_space PROGRAM: prints the least address space in which a program reads an empty file, to 100 KiB.
least_space() {
    local least=500 command=(dump /dev/null)
    if [ "${1##*/}" = fsverity ]; then command=(digest /dev/null); fi
    until (ulimit -v $least && "$1" "${command[@]}" 2>&1) | grep -qE '^(Superblock is too short\.|sha256:.*)$'; do
        if [ $((least += 100)) -gt 100000 ]; then break; fi
    done 2>/dev/null
    echo $least
}

# with_scarce_memory NAME STATUS OUT ERR COMMAND..: a command ends in this way where memory is scarce. There is no such
# case for programs that qemu runs: it takes far more itself, and gives them all that they ask for.
with_scarce_memory() {
    if is_imitated; then
        echo "$1: no case for programs that qemu runs, since their memory can't be limited"
    else
        runs "$1" "$2" "$3" "$4" scarce "${@:5}"
    fi
}

# sample COUNT: writes so many bytes that follow no short pattern, always the same.
sample() {
    seq 1 $(($1 / 2 + 8)) | head -c "$1"
}

# put_zeros FILE: zeros in place of half of its bytes, in runs that get longer.
put_zeros() {
    local at=300 size
    size=$(stat -c %s "$1")
    while [ $((at * 2)) -le "$size" ]; do
        zeros $at | dd of="$1" conv=notrunc oflag=seek_bytes seek=$at status=none
        at=$((at * 3))
    done
}

# The fs-verity digests of a file of the one letter `a` and of an empty one, as docs/DEFINITIONS.md has them.
DIGEST_OF_A=bce75948b9e7510293f8f2720412af9697c1479281323f3f220623fb8e94b557
DIGEST_OF_EMPTY=3d248ca542a24fc62d1c43b916eae5016878e2533c88238480b26128a1f1af95

# sha256 FILE and sha512 FILE: the digest in hexadecimal.
sha256() {
    sha256sum <"$1" | cut -c1-64
}

sha512() {
    sha512sum <"$1" | cut -c1-128
}

# digests FILE SIZE [PROGRAM]: writes the digests of a file's blocks of SIZE bytes, one after another, as sha256sum or
# another such program gives them.
digests() {
    local digest
    split -b "$2" --filter="${3:-sha256sum}" "$1" | while read -r digest _; do bytes "$digest"; done
}

# hash_blocks FILE SIZE HASH-BLOCK [PROGRAM]: writes the hash blocks of HASH-BLOCK bytes above a file's blocks of SIZE
# bytes: their digests, whose length divides that of a hash block, and zeros up to whole hash blocks.
hash_blocks() {
    digests "$1" "$2" "${4:-sha256sum}" >"$scratch/.above"
    truncate -s "%$3" "$scratch/.above"
    cat "$scratch/.above"
}

# fan_out HASH HASH-BLOCK: prints how many digests a hash block of so many bytes holds.
fan_out() {
    local lengths=([1]=20 [224]=28 [256]=32 [384]=48 [512]=64) fan=1
    while [ $((fan * 2 * ${lengths[${1#sha}]})) -le "$2" ]; do fan=$((fan * 2)); done
    echo $fan
}

# set_byte FILE OFFSET HEX: overwrites one byte.
set_byte() {
    bytes "$3" | dd of="$1" bs=1 seek="$2" conv=notrunc status=none
}

# flip FILE OFFSET MASK: turns the bits of a mask, in decimal, in one byte.
flip() {
    local old
    old=$(od -An -tu1 -j "$2" -N 1 "$1")
    set_byte "$1" "$2" "$(printf '%02x' $((old ^ $3)))"
}

# finish: says how many checks passed and failed, and answers 1 if one failed or none was made.
finish() {
    echo "$0:"
    echo "$((checked - failed)) passed, $failed failed"
    [ "$failed" -eq 0 ] && [ "$checked" -gt 0 ]
}
