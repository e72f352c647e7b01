#!/usr/bin/env bash
# What a reader has to believe of status 0 doesn't grow unseen: the files whose definitions its clauses speak of, as
# tests/definitions.py finds them, are those that docs/DEFINITIONS.md lists first, and their definitions are no longer.
set -u
cd "$(dirname "$0")/.."
. tests/lib/checks.sh
needs python3 python3

most_definitions=108
most_lines=359
most_files=16

found=$(tests/definitions.py) || { fail 'tests/definitions.py' "$found"; finish; exit 1; }
read -r definitions _ lines _ files _ <<<"$(tail -n 1 <<<"$found")"
# at_most NAME MOST NUMBER: a sum is no larger than it was.
at_most() {
    if [ "$3" -le "$2" ]; then pass; else fail "$1" "at most: $2" "found:   $3"; fi
}
at_most 'definitions to believe' $most_definitions "$definitions"
at_most 'lines to believe' $most_lines "$lines"
at_most 'files to read' $most_files "$files"

listed=$(grep -oE '^[0-9]+\. `[a-z_]+/specs/[A-Za-z/]+\.antt`' docs/DEFINITIONS.md | grep -oE '[a-z_]+/specs/[A-Za-z/]+\.antt')
same 'the files that docs/DEFINITIONS.md lists first' "$(sed '$d; s/:.*//' <<<"$found" | sort)" "$(sort <<<"$listed")"
finish
