#!/usr/bin/env bash
# Measures the programs in bin/ beside the bare hashing of the same blocks by the crates sha1 and sha2 (bin/bench_bare)
# and beside Debian's veritysetup and fsverity (packages cryptsetup-bin and fsverity), and prints tables for docs/SPEED.md.
# SIZE=MEBIBYTES, FILES=COUNT and ROUNDS=COUNT change the defaults. With SHA=no all programs are kept from a
# processor's SHA instructions, as if it had none (x86-64 alone). With OTHER=FOLDER, another clone or a copy of
# its bin/, the programs there are measured too, in turns, and it is printed how many times as fast each command is here
# as there; bench_bare may be missing there.
set -eu
cd "$(dirname "$0")/.."
. tests/lib/checks.sh
for folder in "$BIN" ${OTHER:+"$OTHER/bin"}; do
    BIN=$folder has_program fsverity
    BIN=$folder has_program veritysetup
done
has_program bench_bare
needs_other veritysetup cryptsetup-bin
needs_other fsverity fsverity
needs /usr/bin/time time
needs python3 python3
python3 bench/measure.py "$scratch"
