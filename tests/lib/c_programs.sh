# What the scripts of tests/library share: how the C programs are built, run and counted, and lines of the header.
# Sourced after tests/lib/checks.sh.

. tests/lib/layouts.sh

LIB=${LIB:-lib}
header=$PWD/include/verity.h
# Longer than any run takes, on a slow machine too.
LONGEST=900
warnings=(-std=c11 -Wall -Wextra -Wpedantic -Werror)
sanitizers=(-g -O1 -fsanitize=address,undefined -fno-sanitize-recover=all)

# has_library FILE: stops if a file of the library was not built.
has_library() {
    if [ ! -e "$1" ]; then
        echo "$0: $1 is not there: run 'make library' first" >&2
        exit 1
    fi
}

# takes_shared: sets `shared` to the words by which a program is built with the shared library of LIB. They name a copy,
# since where it stands, glibc's loader may take the one of glibc-hwcaps/ in its place.
takes_shared() {
    has_library "$LIB/libverity.so.2"
    mkdir "$scratch/.shared"
    cp "$LIB/libverity.so.2" "$scratch/.shared"
    shared=("$scratch/.shared/libverity.so.2" "-Wl,-rpath,$scratch/.shared")
}

# compiles OUT COMPILER WORD..: builds a program of tests/library. WORD.. are its sources, options and the library.
compiles() {
    local out=$1 compiler=$2
    shift 2
    if "$compiler" "${warnings[@]}" -Iinclude "$@" -o "$out" >"$scratch/.compiled" 2>&1; then
        pass
    else
        fail "$compiler $*" "$(cat "$scratch/.compiled")"
        return 1
    fi
}

# header_lines FIRST [LAST]: of the lines in the header's comments the first one that begins so; with LAST also those up
# to the next one that begins like that.
header_lines() {
    awk -v first=" *     $1" -v last=" *     ${2:-$1}" 'index($0, first) == 1 && !shown { shown = 1 }
        shown == 1 { print substr($0, 4) }
        shown == 1 && index($0, last) == 1 { shown = 2 }' "$header"
}

# adds NAME COMMAND..: runs a program whose last line is 'N passed, M failed', and adds up what it says.
adds() {
    local name=$1 status=0 last
    shift
    timeout "$LONGEST" "$@" >"$scratch/.ran" 2>&1 </dev/null || status=$?
    last=$(tail -n 1 "$scratch/.ran")
    if [[ $last =~ ^([0-9]+)\ passed,\ ([0-9]+)\ failed$ ]]; then
        checked=$((checked + BASH_REMATCH[1] + BASH_REMATCH[2]))
        failed=$((failed + BASH_REMATCH[2]))
        if [ "$status" -eq 0 ] && [ "${BASH_REMATCH[2]}" -eq 0 ]; then return; fi
        echo "$name: $*"
        head -n -1 "$scratch/.ran"
        if [ "${BASH_REMATCH[2]}" -eq 0 ]; then fail "$name" "status $status"; fi
    else
        fail "$name: $*" "status $status" "$(tail -n 30 "$scratch/.ran")"
    fi
}

# has_sanitizers: whether gcc can build programs with its sanitizers. `no_sanitizers` is what is said if it can't.
has_sanitizers() {
    gcc "${sanitizers[@]}" -x c -o "$scratch/empty" - <<<'int main(void) { return 0; }' 2>/dev/null
}
no_sanitizers='the sanitizers of gcc are not installed (Debian: libasan8, libubsan1)'
