# Root hashes and digests of fs-verity, of SHA-256 with blocks of 4096 and no salt, by sha256sum. Sourced after
# tests/lib/checks.sh.

. tests/lib/layouts.sh

# root FILE: the root hash of a file that is not empty, level by level.
root() {
    cp "$1" "$scratch/level"
    truncate -s %4096 "$scratch/level"
    while [ "$(stat -c %s "$scratch/level")" -gt 4096 ]; do
        hash_blocks "$scratch/level" 4096 4096 >"$scratch/above"
        mv "$scratch/above" "$scratch/level"
    done
    sha256 "$scratch/level"
}

# digest ROOT SIZE: the file digest, SHA-256 of the descriptor.
digest() {
    descriptor 01010c00 "$2" "$1" '' >"$scratch/descriptor"
    sha256 "$scratch/descriptor"
}
