#!/usr/bin/env bash
# Trees that the library builds of data in pieces: over all settings beside trees by tests/lib/trees.py, and over images
# and files beside Debian's veritysetup and fsverity and this project's in BIN, if they are there. Pieces have 0, 1, 7,
# 4095, 4096 and 4097 bytes, any length, and all at once: small trees are built in each of these ways, and of the larger
# ones each in the next way. Every hash block is handed out once, at its place. Trees that are stored after any call go
# on in other memory, and in other processes. Then what is refused, and 50,000 random feedings under AddressSanitizer
# and UndefinedBehaviorSanitizer, in random order with ends and stored states, and in some of which struct and memory
# are disturbed; or with RUNS=all a million, and more images and files. SEED=N draws other settings, LIB=FOLDER takes
# the library of another folder.
set -u
cd "$(dirname "$0")/../.."
. tests/lib/checks.sh
. tests/lib/c_programs.sh
. tests/lib/random_images.sh
. tests/lib/feeding_programs.sh
needs gcc gcc
needs python3 python3
has_library "$LIB/libverity.a"

static=("${feeding_sources[@]}" "$LIB/libverity.a")
takes_shared
shared=("${feeding_sources[@]}" "${shared[@]}")
draws_data
# Windows of zeros are hashed by a way of their own.
put_zeros "$scratch/all"
if compiles "$scratch/refused" gcc -O2 tests/library/feeding_refused.c "${static[@]}"; then
    tries_refused 'what is refused' "$scratch/refused"
fi
if compiles "$scratch/static" gcc -O2 tests/library/feeding.c "${static[@]}"; then
    feeds_settings 'all settings' "$scratch/static" $((1 << 19)) $((1 << 16))
    feeds_large 'large blocks' "$scratch/static" $((1 << 19))
    feeds_images "$scratch/static" "$(few 6 30)" "$(few 6 30)" $((1 << 21))
fi
if compiles "$scratch/stored" gcc -O2 tests/library/stored.c "${static[@]}"; then
    tries_stored "$scratch/stored" $((1 << 15))
    stores_images "$scratch/stored" "$(few 2 5)" "$(few 2 5)" $((1 << 17))
fi
if compiles "$scratch/shared" gcc -O2 tests/library/feeding.c "${shared[@]}"; then
    feeds_settings 'all settings, shared' "$scratch/shared" "$(few $((1 << 12)) $((1 << 15)))" \
        "$(few $((1 << 9)) $((1 << 16)))"
    feeds_large 'large blocks, shared' "$scratch/shared" "$(few $((1 << 17)) $((1 << 19)))"
    feeds_images "$scratch/shared" "$(few 2 5)" "$(few 2 5)" $((1 << 20))
fi

# This project's programs in place of Debian's.
if [ -x "$BIN/veritysetup" ] && [ -x "$BIN/fsverity" ] && [ -x "$scratch/static" ]; then
    veritysetup() { "$BIN/veritysetup" "$@"; }
    fsverity() { "$BIN/fsverity" "$@"; }
    feeds_images "$scratch/static" "$(few 4 15)" "$(few 4 15)" $((1 << 20))
    unset -f veritysetup fsverity
else
    echo "left out: feeding beside this project's programs: they are not in $BIN"
fi

if ! has_sanitizers; then
    echo "left out: random feedings: $no_sanitizers"
    finish
    exit
fi
export ASAN_OPTIONS=detect_leaks=0 UBSAN_OPTIONS=print_stacktrace=1
if compiles "$scratch/refused" gcc "${sanitizers[@]}" tests/library/feeding_refused.c "${static[@]}"; then
    tries_refused 'what is refused, under sanitizers' "$scratch/refused"
fi
if compiles "$scratch/fuzz" gcc "${sanitizers[@]}" tests/library/feeding_fuzz.c "${static[@]}"; then
    # In four parts, each of which ends in time on a slow machine too.
    for ((part = 0; part < 4; part++)); do
        tries_feedings "$scratch/fuzz" "$(few 12500 250000)"
        SEED=$((SEED + 1000000))
    done
fi
finish
