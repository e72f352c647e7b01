#!/usr/bin/env bash
# The pictures are those that docs/pictures/draw.py makes of the documents as they stand: the same bytes. Each is shown
# by a document, and says in words what it shows, for those who don't see it. What they say of closing order is in
# docs/DEFINITIONS.md, and the speeds are those of docs/SPEED.md.
set -u
cd "$(dirname "$0")/.."
. tests/lib/checks.sh
needs python3 python3

mkdir "$scratch/drawn"
runs 'docs/pictures/draw.py' 0 '' '' python3 docs/pictures/draw.py "$scratch/drawn"
same 'the pictures' "$(cd docs/pictures && ls ./*.svg)" "$(cd "$scratch/drawn" && ls ./*)"
for picture in docs/pictures/*.svg; do
    same_bytes "$picture" "$scratch/drawn/${picture##*/}" "$picture"
    if python3 -c 'import sys, xml.etree.ElementTree as tree
root = tree.parse(sys.argv[1]).getroot()
sys.exit(not all(root.findtext("{http://www.w3.org/2000/svg}" + name) for name in ("title", "desc")))' "$picture"; then
        pass
    else
        fail "$picture" 'it has no title or no words'
    fi
    if grep -qF "](pictures/${picture##*/})" docs/*.md; then pass; else fail "$picture" 'no document shows it'; fi
done
# Numbers of the table, and of the closing order that docs/DEFINITIONS.md gives for 257 blocks.
row=$(grep -m 1 '^| sha256 | 4096 |' docs/SPEED.md)
read -r speed times <<<"$(awk -F '|' '{ print $6 }' <<<"$row" | tr -d '()')"
same 'speeds.svg: format in blocks of 4096' 1 "$(grep -c ">$speed<" docs/pictures/speeds.svg)"
same 'speeds.svg: times Debian'"'s" 1 "$(grep -c ">×$times<" docs/pictures/speeds.svg)"
same 'hash_device.svg: blocks in the order of their places' '21 20 17 19 1 2 3 4 5 6 7 8 9 10 11 12 13 14 15 16 18' \
    "$(sed -nE 's/^<text x="([0-9.]+)" y="143" .*>([0-9]+)<.*/\1 \2/p' docs/pictures/hash_device.svg | sort -n |
        cut -d ' ' -f 2 | paste -sd ' ')"
finish
