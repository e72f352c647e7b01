#!/usr/bin/env bash
# Random command lines, run by both programs and by Debian's: fails on a difference that no row of docs/DIFFERENCES.md
# covers. The code is in tests/search/; tests/interop/differences.sh checks each row by itself.
#
#   tests/search.sh                it is seen that rows are missed; then 20 seconds of cases, or with RUNS=all ten
#                                  minutes, of a seed that is drawn and printed
#   tests/search.sh SEED=N SECONDS=N [CASES=N] [FAILURES=N] [WORKERS=N] [DOCUMENT=FILE]
#   tests/search.sh SEED=N CASE=N  shows one case, as a failed one is printed
set -u
cd "$(dirname "$0")/.."
. tests/lib/checks.sh
. tests/lib/debian.sh
has_program fsverity
has_program veritysetup
needs python3 python3
needs_other veritysetup cryptsetup-bin
needs_other fsverity fsverity
needs_versions
export BIN
if [ $# -gt 0 ]; then
    tests/search/search.py "$@"
    exit
fi

# lacks TEXT [SEED]: without the row that begins with this text the search fails, over cases that need it.
lacks() {
    grep -vF "| $1 |" docs/DIFFERENCES.md >"$scratch/document"
    tests/search/search.py SEED="${2:-1}" SECONDS=300 CASES=1200 FAILURES=1 DOCUMENT="$scratch/document" \
        >"$scratch/said"
    same "without the row '$1': status" 1 $?
    if grep -q '^FAILED .*: no row covers the ' "$scratch/said"; then
        pass
    else
        fail "without the row '$1'" "$(tail -n 5 "$scratch/said")"
    fi
}

lacks 'the number of a hash function, such as `--hash-alg=1`'
lacks '`--uuid` with `--no-superblock`' 3
lacks 'mode of a new output file'
lacks 'the report of `format` and `dump`'
lacks 'HASH is a symbolic link that leads nowhere'
lacks 'a file of `/proc` as DATA'
lacks '`digest` of a pipe'
lacks 'a character device, such as `/dev/null` or `/dev/zero`, as DATA, or as HASH of `dump` or `verify`'
lacks '`verify` without a superblock: a hash area that overlaps the covered data in one file, under any names' 11
lacks 'a superblock of more data than there can be' 13
seconds=20
if [ "${RUNS:-}" = all ]; then seconds=600; fi
tests/search/search.py SEED= SECONDS=$seconds | tee "$scratch/said"
if [[ $(tail -n 1 "$scratch/said") =~ ^([0-9]+)\ passed,\ ([0-9]+)\ failed$ ]]; then
    checked=$((checked + BASH_REMATCH[1] + BASH_REMATCH[2]))
    failed=$((failed + BASH_REMATCH[2]))
else
    fail 'the search' 'it did not say how many cases passed'
fi
finish
