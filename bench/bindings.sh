#!/usr/bin/env bash
# Measures the bindings of the library beside bare calls from C, over one file in the page cache, by the fs-verity
# digest with SHA-256 and blocks of 4096 bytes, and beside hashlib's SHA-256. All of them take one shared library, the
# one for this processor or that in LIB. What isn't there is left out. SIZE=MEBIBYTES and ROUNDS=COUNT change the
# defaults, and PYTHON=PROGRAM is another interpreter.
set -eu
cd "$(dirname "$0")/.."
. tests/lib/checks.sh
needs gcc gcc
needs "${PYTHON:=$(PATH=/usr/bin:$PATH type -P python3)}" python3
fitting=lib
if [ "$(./processor.sh)" = x86-64-v3 ]; then fitting=lib/glibc-hwcaps/x86-64-v3; fi
LIB=${LIB:-$fitting}
if [ ! -e "$LIB/libverity.so.2" ]; then
    echo "$0: $LIB/libverity.so.2 is not there: run 'make library' first" >&2
    exit 1
fi
mkdir "$scratch/lib"
cp "$LIB/libverity.so.2" "$scratch/lib"
ln -s libverity.so.2 "$scratch/lib/libverity.so"
export LD_LIBRARY_PATH=$scratch/lib VERITY_LIBRARY=$scratch/lib/libverity.so.2
export PYTHONPATH=bindings/python PYTHONDONTWRITEBYTECODE=1
gcc -std=c11 -O2 -Wall -Wextra -Iinclude bench/digest.c -L"$scratch/lib" -lverity -o "$scratch/digest"
if ! command -v cargo >/dev/null; then
    echo 'left out: Rust: cargo is not installed (Debian: cargo)'
elif [ ! -e bindings/rust/examples/digest.rs ]; then
    echo 'left out: Rust: bindings/rust is not there'
else
    VERITY_LIB_DIR=$scratch/lib cargo build --quiet --release --offline --example digest \
        --manifest-path bindings/rust/Cargo.toml --target-dir "$scratch/rust"
fi
: >"$scratch/empty"
head -c $((${SIZE:-1024} << 20)) /dev/urandom >"$scratch/data"
if [ -e "$LIB/libverity.so.2.made" ]; then echo "Library for $(head -n 1 "$LIB/libverity.so.2.made"):"; fi
"$PYTHON" bench/bindings.py "$scratch" "$PYTHON"
