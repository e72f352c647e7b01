#!/usr/bin/env bash
# 100,000 calls of the library, or with RUNS=all two million, with random and with changed input: superblocks,
# parameters, blocks, paths, root hashes and lengths. Each answer is the one that an own reading of verity.h gives, and
# just what has to be accepted is. SEED=N draws other input, LIB=FOLDER takes the library of another folder.
set -u
cd "$(dirname "$0")/../.."
. tests/lib/checks.sh
. tests/lib/c_programs.sh
. tests/lib/random_images.sh
. tests/lib/feeding_programs.sh
needs gcc gcc
needs python3 python3
has_library "$LIB/libverity.a"

if compiles "$scratch/fuzz" gcc -O2 tests/library/{fuzz,chains}.c "${feeding_sources[@]}" "$LIB/libverity.a"; then
    tries_random "$scratch/fuzz" "$(few 100000 2000000)"
fi
finish
