#!/usr/bin/env bash
# Measures examples/parallel_format.c, built with the library for this processor or the one in LIB, by one, two and four
# threads over one file in the page cache, beside bin/veritysetup and Debian's (package cryptsetup-bin); and beside as
# many runs by one thread each, side by side, since the processors of a machine may be shared. Then how long processes
# take for its parts and their join, and how much memory. SIZE=MEBIBYTES and ROUNDS=COUNT change the defaults. With
# OTHER=FOLDER, another clone or a copy of its bin/ and lib/, what is built there is measured too, in turns, and another
# table says how many times as fast each way is here as there.
set -eu
cd "$(dirname "$0")/.."
. tests/lib/checks.sh
has_program veritysetup
needs gcc gcc
needs python3 python3
needs /usr/bin/time time
needs_other veritysetup cryptsetup-bin
fitting=lib
if [ "$(./processor.sh)" = x86-64-v3 ]; then fitting=lib/glibc-hwcaps/x86-64-v3; fi
LIB=${LIB:-$fitting}
if [ ! -e "$LIB/libverity.a" ]; then
    echo "$0: $LIB/libverity.a is not there: run 'make library' first" >&2
    exit 1
fi
gcc -std=c11 -O2 -pthread -Iinclude examples/parallel_format.c "$LIB/libverity.a" -o "$scratch/parallel_format"
if [ -n "${OTHER:-}" ]; then
    BIN=$OTHER/bin has_program veritysetup
    gcc -std=c11 -O2 -pthread -Iinclude examples/parallel_format.c "$OTHER/$LIB/libverity.a" -o "$scratch/other_format"
fi
for name in build_part join_parts; do
    gcc -std=c11 -O2 -Iinclude "examples/parts/$name.c" "$LIB/libverity.a" -o "$scratch/$name"
done
head -c $((${SIZE:-1024} << 20)) /dev/urandom >"$scratch/data"
python3 bench/parallel.py "$scratch"
