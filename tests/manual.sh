#!/usr/bin/env bash
# Checks the manual pages: mandoc has nothing to say of them, they have the date of the version's release, their
# examples run, their lists of messages are those of the programs' sources, each under the status that the soak expects
# with it, and their options are those of the programs' usages.
set -u
cd "$(dirname "$0")/.."
. tests/lib/checks.sh
. tests/lib/document_examples.sh
has_program fsverity
has_program veritysetup

# section PAGE NAME: the lines of a section of a page.
section() {
    awk -v name="$2" '/^\.Sh / { inside = $0 == ".Sh " name } inside' "$1"
}

# page_examples PAGE: its examples as `run_examples` takes them, in one group.
page_examples() {
    section "$1" EXAMPLES | awk '
        /^\.Bd -literal/ { shown = 1; next }
        /^\.Ed/ { shown = 0 }
        shown { gsub(/\\e/, "\\"); print }
    '
}

# last_example PAGE: the last of a page's examples, in the same form.
last_example() {
    page_examples "$1" | awk '/^\$ blocks=/ { shown = 1 } shown'
}

# page_signs HASH: the commands of the page on fsverity that sign a file, with a hash function as it says.
page_signs() {
    sed -n '/^\$ fsverity .*--for-builtin-sig/,/one\.sig$/{s/^\$ //; p}' "$scratch/fsverity.1" |
        sed "s/fsverity digest /&--hash-alg $1 /; s/-md sha256/-md $1/"
}

# blanked: messages, one a line, with `_` for each name or number in them.
blanked() {
    sed -E 's/\b(DATA|HASH|NAME|PATH|ROOT|WORD|[A-Z])\b/_/g' | sort -u
}

# listed PAGE: the messages that a page lists and that end with a full stop.
listed() {
    section "$1" DIAGNOSTICS | sed -n 's/^\.It \(.*\.\)$/\1/p' | blanked
}

# meant CRATE: the messages in a crate's sources: texts that end with a full stop and a new line, alone or in pieces, of
# which a constant may stand for one.
meant() {
    find crates/"$1"/src -name '*.rt' -exec sed -E 's/^ *\/\/.*//' {} + | awk '
        { lines[NR] = $0 }
        /const [A-Z_]+: &str = ".*";$/ { split($0, parts, /const |: &str = |;$/); texts[parts[2]] = parts[3] }
        END {
            for (number = 1; number <= NR; number++) {
                if (lines[number] ~ /write_pieces\(/) { for (name in texts) gsub(name, texts[name], lines[number]) }
                print lines[number]
            }
        }' |
        sed -nE -e 's/write_pieces\(&\["([^"]*)", [a-z]+, "([^"]*)"\]/"\1_\2"/' -e 's/.*"([^"]*)\\n".*/\1/p' |
        sed -E 's/\{[^}]*\}/_/g' | grep '.\.$' | sort -u
}

# expected_statuses PROGRAM: messages of a program after their statuses, as the soak expects them.
expected_statuses() {
    sed -nE 's/.*Refused\(([0-9]), f?"([^"]*)"\).*/\1 \2/p' "tests/soak/$1_expected.py" |
        sed -E 's/\{[^}]*\}/_/g; s/--[a-z-]+/--_/' | sort -u
}

# messages PAGE CRATE: the two lists are one.
messages() {
    same "$1: messages that $2 doesn't have" '' "$(comm -23 <(listed "$1") <(meant "$2"))"
    same "$1: messages of $2 that it lacks" '' "$(comm -13 <(listed "$1") <(meant "$2"))"
    same "$1: statuses that the soak expects otherwise" '' \
        "$(comm -23 <(expected_statuses "$2") <(sort -u <<<"$stated_messages"))"
    if [ "$(expected_statuses "$2" | wc -l)" -ge 4 ] && [ "$(listed "$1" | wc -l)" -ge 10 ]; then pass; else fail "$1: its messages" "found: $(listed "$1")"; fi
}

# page_options PAGE: the options that a page describes, each with the word that stands for its value.
page_options() {
    section "$1" OPTIONS | grep '^\.It Fl' | grep -oE 'Fl -[a-z-]+( Ar [A-Z]+)?' | sed -E 's/Fl -/--/; s/ Ar / /' | sort -u
}

# usage_options PROGRAM COMMAND..: the same, as the program's usages of its commands have them.
usage_options() {
    local program=$1 command
    shift
    for command; do "$BIN/$program" "$command" 2>&1; done | grep -oE '\[--[a-z-]+( [A-Z]+)?\]' | tr -d '[]' | sort -u
}

messages man/veritysetup.8 veritysetup
messages man/fsverity.1 fsverity
same 'options of man/veritysetup.8' "$(usage_options veritysetup format dump verify)" "$(page_options man/veritysetup.8)"
same 'options of man/fsverity.1' "$(usage_options fsverity digest)" "$(page_options man/fsverity.1)"
# As long as the version has no date, they aren't older than the release before.
release=$(sed -nE 's/^## [0-9.]+ \(([0-9-]+)\)$/\1/p' CHANGELOG.md | head -n 1)
for page in man/*; do
    date=$(date -u -d "$(sed -n 's/^\.Dd //p' "$page")" +%F)
    if grep -m 1 '^## ' CHANGELOG.md | grep -qF "($release)"; then
        same "$page: its date" "$release" "$date"
    elif [[ $date < $release ]]; then
        fail "$page: its date" "expected: not before $release" "found:    $date"
    else
        pass
    fi
done
if command -v mandoc >/dev/null; then
    same 'mandoc -T lint' '' "$(mandoc -T lint -W style man/*.[18] 2>/dev/null)"
else
    echo 'left out: mandoc is not installed'
fi

# The examples run with the programs on the path, in a folder that has what they speak of. Debian's program stands
# beside.
other=$(type -P fsverity)
mkdir "$scratch/bin" "$scratch/run" "$scratch/run/files"
ln -s "$(realpath "$BIN")"/{fsverity,veritysetup} "$scratch/bin"
PATH=$scratch/bin:$PATH
for page in veritysetup.8 fsverity.1; do page_examples "man/$page" >"$scratch/$page"; done
last_example man/veritysetup.8 >"$scratch/one_file"
cd "$scratch/run" || exit 1
if command -v openssl >/dev/null; then
    openssl req -newkey rsa:2048 -nodes -keyout key.pem -x509 -out cert.pem -subj /CN=test 2>/dev/null
fi
for page in veritysetup.8 fsverity.1; do
    run_examples "man/$page" "$scratch/$page"
    if [ "$examples" -ge 4 ]; then pass; else fail "man/$page" "found: $examples examples"; fi
done
# Data and tree in one file: whoever does that twice gets the same file size and the same number of blocks.
if [ -e image.ext4 ]; then
    size=$(stat -c %s image.ext4)
    for time in second third; do
        run_examples "man/veritysetup.8, the $time time" "$scratch/one_file"
        same "one file, the $time time: examples" 4 "$examples"
        same "one file, the $time time: its size" "$size" "$(stat -c %s image.ext4)"
        same "one file, the $time time: data blocks" 16384 "$(awk '/^Data blocks:/{print $3}' report)"
    done
fi
# The signed bytes are the formatted digest's.
if [ -e one.sig ]; then
    bytes "$(fsverity digest --compact --for-builtin-sig one)" >expected
    runs 'the signature' 0 '' any \
        openssl smime -verify -inform DER -in one.sig -content expected -certfile cert.pem -noverify -binary -out signed
    same_bytes 'the signature' expected signed
    # It is the one that Debian's program makes, with either hash function.
    if [ -z "$other" ] || ! "$other" --version >/dev/null 2>&1; then
        echo "left out: the signature of Debian's program: fsverity is not installed"
    else
        for name in sha256 sha512; do
            rm one.sig
            eval "$(page_signs $name)" 2>"$scratch/.err"
            "$other" sign --hash-alg=$name --key=key.pem --cert=cert.pem one theirs.sig >"$scratch/.shown" 2>&1
            same_bytes "the signature of Debian's program, with $name" theirs.sig one.sig
        done
    fi
fi
cd - >/dev/null || exit 1
finish
