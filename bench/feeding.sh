#!/usr/bin/env bash
# Measures the library for this processor, or the one in LIB, fed with the pieces of one file in the page cache as they
# are read, beside bin/fsverity, Debian's fsverity and Debian's libfsverity (packages fsverity and libfsverity-dev; what
# isn't there is left out). Then pieces of several lengths, of the same bytes in memory, for a file's digest and for a
# tree of dm-verity, and short files. All is done in one run, which prints three tables. SIZE=MEBIBYTES and ROUNDS=COUNT
# change the defaults. With OTHER=FOLDER, another clone or a copy of its lib/, the library there is measured too, in
# turns: the tables are printed for both, and say how many times as fast each row is as by the other build.
set -eu
cd "$(dirname "$0")/.."
. tests/lib/checks.sh
needs gcc gcc
fitting=lib
if [ "$(./processor.sh)" = x86-64-v3 ]; then fitting=lib/glibc-hwcaps/x86-64-v3; fi
LIB=${LIB:-$fitting}
if [ ! -e "$LIB/libverity.a" ]; then
    echo "$0: $LIB/libverity.a is not there: run 'make library' first" >&2
    exit 1
fi
words=() programs=()
if [ -n "${OTHER:-}" ]; then
    # All that the other library shows, since both stand in one program.
    nm -gP --defined-only "$OTHER/$LIB/libverity.a" | awk 'NF > 1 { print $1, "other_" $1 }' >"$scratch/names"
    objcopy --redefine-syms="$scratch/names" "$OTHER/$LIB/libverity.a" "$scratch/other.a"
    header_functions | sed 's/.*/extern __typeof__(&) other_&;/' >"$scratch/other.h"
    words+=(-D HAS_OTHER_LIBRARY "-I$scratch" "$scratch/other.a")
fi
if gcc -include libfsverity.h -fsyntax-only -x c /dev/null 2>/dev/null; then
    words+=(-D HAS_LIBFSVERITY -lfsverity)
else
    echo 'left out: libfsverity: libfsverity.h is not installed (Debian: libfsverity-dev)'
fi
for program in "$BIN/fsverity" fsverity; do
    if type -P "$program" >/dev/null; then programs+=("$program"); else echo "left out: $program is not there"; fi
done
for name in feeding pieces; do
    gcc -std=c11 -O2 -Wall -Wextra -Iinclude "bench/$name.c" "$LIB/libverity.a" "${words[@]}" -o "$scratch/$name"
done
head -c $((${SIZE:-512} << 20)) /dev/urandom >"$scratch/data"
for folder in "$LIB" ${OTHER:+"$OTHER/$LIB"}; do
    if [ -e "$folder/libverity.a.made" ]; then
        echo "Library${OTHER:+ in $folder} for $(head -n 1 "$folder/libverity.a.made"):"
    fi
done
"$scratch/feeding" "${ROUNDS:-5}" "$scratch/data" "${programs[@]}"
echo
"$scratch/pieces" "${ROUNDS:-5}" "$scratch/data"
