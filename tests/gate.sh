#!/usr/bin/env bash
# The gate, `rt ci`. Behind what rt says of a crate stands how many of them it has come to. Once all is proved that is
# built for tests, and what is left are the tests of crates, a line says that the next part may begin (tests/run.sh);
# but not where earlier checks have left libraries, which the gate puts back at its end.
set -u
cd "$(dirname "$0")/.."

# crates_in PATH..: how many crates these files and folders lie in.
crates_in() {
    printf '%s\n' "$@" | grep -oE '^crates/[^/]+' | sort -u | wc -l
}

# numbers: passes on what rt says, line by line, and numbers the crates: those that are proved, or were in an earlier
# run, and those whose tests are proved.
numbers() {
    local line proved=0 tested=0 crates tests
    crates=$(crates_in crates/*/src)
    tests=$(crates_in "$(grep -rlE '#\[.*\btest\b' --include='*.rt' crates/*/src)")
    while IFS= read -r line; do
        if [[ $line =~ ^rt:\ ([a-z0-9_]+)\ (proved$|is\ kept) ]]; then
            line+=" ($((++proved)) of $crates crates)"
            built=${built/ ${BASH_REMATCH[1]} / }
        elif [[ $line =~ ^rt:\ [a-z0-9_]+:\ its\ tests\ are\ proved$ ]]; then
            line+=" ($((++tested)) of $tests crates with tests)"
        fi
        printf '%s\n' "$line"
        if [ "$built" = ' ' ]; then
            echo 'the next part may begin'
            built=
        fi
    done
}

built=' fsverity_cli veritysetup_cli verity_c read_one_block '
if compgen -G 'crates/*/out/rlib/stamp' >/dev/null; then built=; fi
rt ci 2>&1 | numbers
exit "${PIPESTATUS[0]}"
