#!/usr/bin/env bash
# The library from C, over images that Debian's veritysetup and fsverity make by random settings: superblock, levels,
# places, and each data block by its path and link by link; and that each change is refused, with the status and the
# level that follow. Then each function with each of its faults: the status of each, and their order. With the static
# library and with the shared one. SEED=N draws other settings, RUNS=all five times as many of them, LIB=FOLDER takes
# the library of another folder.
set -u
cd "$(dirname "$0")/../.."
. tests/lib/checks.sh
. tests/lib/c_programs.sh
. tests/lib/random_images.sh
needs gcc gcc
needs python3 python3
has_library "$LIB/libverity.a"

static=("$LIB/libverity.a")
takes_shared
draws_data
for program in refused debian_images; do
    sources=(tests/library/"$program".c tests/library/{chains,part_calls,feeding_calls,calls,images,shapes,support}.c)
    compiles "$scratch/$program.static" gcc -O2 "${sources[@]}" "${static[@]}"
    compiles "$scratch/$program.shared" gcc -O2 "${sources[@]}" "${shared[@]}"
done
for library in static shared; do
    adds "refused, $library" "$scratch/refused.$library"
    tries_images "$scratch/debian_images.$library" "$(few 8 40)" "$(few 4 20)" $((1 << 24))
done
finish
