#!/usr/bin/env bash
# Runs the examples of README.md word for word, in a folder of their own with bin/ linked into it, and compares what
# they print with what the README shows. An example is a run of indented lines with '$ ' before each command. And what
# the documents name is there, and how long a command takes they all say alike.
set -u
cd "$(dirname "$0")/.."
. tests/lib/checks.sh
. tests/lib/document_examples.sh
has_program fsverity
has_program veritysetup

# The README's examples; each section is a group of its own.
awk '
    /^## / { print "%" }
    /^    \$ / { shown = 1 }
    !/^    / { shown = 0 }
    shown { print substr($0, 5) }
' README.md >"$scratch/examples"

commands=$(grep -c '^ *\$ ' README.md)
mkdir "$scratch/run"
ln -s "$(realpath "$BIN")" "$scratch/run/bin"
cd "$scratch/run" || exit 1
run_examples README.md "$scratch/examples"
same 'the number of commands in README.md' "$commands" "$examples"
cd - >/dev/null || exit 1
same 'the version that README.md says' "$(sed -nE 's/^## ([0-9.]+) .*/\1/p' CHANGELOG.md | head -n 1)" \
    "$(sed -nE 's/.*This is version ([0-9.]+[0-9]).*/\1/p' README.md)"

# What the documents name is there: targets of the Makefile, and other documents.
documents=(README.md CONTRIBUTING.md docs/*.md)
for target in $(grep -ohE '(^    |`)make [a-z-]+' "${documents[@]}" | sed 's/.*make //' | sort -u); do
    if make -n "$target" >/dev/null 2>&1; then pass; else fail "make $target" 'a document names it'; fi
done
for document in "${documents[@]}"; do
    for file in $(grep -oE '\]\([^)#]+' "$document" | sed 's/^](//' | sort -u); do
        if [ -e "$(dirname "$document")/$file" ]; then pass; else fail "$file" "$document names it"; fi
    done
done

# The minutes of a command are the same wherever they are said; `TIME?` stands for what nobody has measured yet.
number='([0-9]+|TIME\?) minutes?'
cat README.md CONTRIBUTING.md | tr -s ' \n' '  ' |
    grep -oP "\bmake [a-z-]+(?![a-z-])(?:(?!\bmake ).){0,120}?\b$number" |
    sed -E "s/^make ([a-z-]+).*[^0-9]$number\$/\1 \2/" >"$scratch/by_readme"
make -s help | sed -nE "s/^make ([a-z-]+) +$number.*/\1 \2/p" >"$scratch/by_help"
sed -nE "s/^\| \`make ([a-z-]+)\` \|.*\| $number.* \|\$/\1 \2/p" docs/TESTS.md >"$scratch/by_table"
same 'commands of which two places say different minutes' '' \
    "$(sort -u "$scratch"/by_* | cut -d ' ' -f 1 | uniq -d | paste -sd ' ')"
same 'commands of docs/TESTS.md whose minutes make help lacks' '' \
    "$(comm -23 <(cut -d ' ' -f 1 "$scratch/by_table" | sort) <(cut -d ' ' -f 1 "$scratch/by_help" | sort) |
        paste -sd ' ')"
same 'rows of docs/TESTS.md with minutes' "$(grep -c '^| `make ' docs/TESTS.md)" "$(wc -l <"$scratch/by_table")"
same 'commands of README.md with minutes' 'programs run test' \
    "$(cut -d ' ' -f 1 "$scratch/by_readme" | sort -u | paste -sd ' ')"
finish
