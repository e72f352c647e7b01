#!/usr/bin/env bash
# Compiles runtime_for_arm.c with tests/runtime.c for 64-bit ARM and for x86-64, also under sanitizers, and runs it.
set -u
cd "$(dirname "$0")/.."
. tests/lib/checks.sh
needs gcc gcc
needs aarch64-linux-gnu-gcc gcc-aarch64-linux-gnu
needs qemu-aarch64 qemu-user

# calls NAME COMPILER FLAGS [COMMAND]: compiles both, and runs them by a command.
calls() {
    local program=$scratch/runtime found=0
    # shellcheck disable=SC2086
    if ! $2 $3 -Wall -Wextra -Werror -Dmain=runtime_main -Dmalloc=runtime_malloc -Drealloc=runtime_realloc \
        -Dfree=runtime_free -c runtime_for_arm.c -o "$program.o" ||
        ! $2 $3 -Wall -Wextra -Werror tests/runtime.c "$program.o" -o "$program"; then
        fail "$1" "it isn't compiled"
        return
    fi
    ${4:-} "$program" >"$scratch/said" 2>&1 || found=$?
    if [ $found -eq 0 ] && grep -q '^[1-9][0-9]* passed, 0 failed$' "$scratch/said"; then
        pass
    else
        fail "$1" "status: $found" "$(tail -n 20 "$scratch/said")"
    fi
    echo "$1: $(tail -n 1 "$scratch/said")"
}

calls '64-bit ARM' aarch64-linux-gnu-gcc '-O2 -static' qemu-aarch64
calls '64-bit ARM, not optimized' aarch64-linux-gnu-gcc '-O0 -static' qemu-aarch64
calls 'x86-64' gcc -O2
calls 'x86-64, under sanitizers' gcc '-O1 -fsanitize=address,undefined -fno-sanitize-recover=all' \
    'env ASAN_OPTIONS=allocator_may_return_null=1'
finish
