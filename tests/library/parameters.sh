#!/usr/bin/env bash
# What the library says of parameters, hash functions and statuses by themselves: whether parameters are the trusted
# ones, the defaults, where a hash area ends and how long a tree is, names, lengths of digests, formatted digests, texts
# and the version. Beside Debian's programs: the superblock that veritysetup writes without an option is that of the
# defaults, a hash area ends where the file of veritysetup does, and fsverity writes trees of just that length and
# formatted digests of just these bytes. Names and lengths of digests are those of coreutils'
# programs. With the static library, with the shared one, and under sanitizers. LIB=FOLDER takes the library of another
# folder.
set -u
cd "$(dirname "$0")/../.."
. tests/lib/checks.sh
. tests/lib/c_programs.sh
needs gcc gcc
has_library "$LIB/libverity.a"

takes_shared
sources=(tests/library/{parameters,calls,words,shapes,support}.c)
compiles "$scratch/static" gcc -O2 "${sources[@]}" "$LIB/libverity.a" || finish
compiles "$scratch/shared.program" gcc -O2 "${sources[@]}" "${shared[@]}" || finish
adds 'with the static library' "$scratch/static" checks
adds 'with the shared library' "$scratch/shared.program" checks
if has_sanitizers; then
    if compiles "$scratch/sanitized" gcc "${sanitizers[@]}" "${sources[@]}" "$LIB/libverity.a"; then
        adds 'under sanitizers' env ASAN_OPTIONS=detect_leaks=0 "$scratch/sanitized" checks
    fi
else
    echo "left out: under sanitizers: $no_sanitizers"
fi

# says EXPECTED WORD..: what the program prints, with either library.
says() {
    local expected=$1
    shift
    same "$*" "$expected" "$("$scratch/static" "$@" 2>&1)"
    same "$*, shared" "$expected" "$("$scratch/shared.program" "$@" 2>&1)"
}

# The numbers are verity.h's, the lengths those of coreutils.
functions=
while read -r number name; do
    digits=$("${name}sum" </dev/null | cut -d' ' -f1)
    functions+="$number $name $((${#digits} / 2))"$'\n'
done < <(sed -nE 's/^ *VERITY_SHA([0-9]+) = ([0-9]+),?$/\2 sha\1/p' include/verity.h)
says "${functions%$'\n'}" functions
same 'hash functions' 5 "$(grep -c . <<<"$functions")"

version=$(sed -nE 's/^#define VERITY_VERSION_(MAJOR|MINOR|PATCH) ([0-9]+)$/\2/p' include/verity.h |
    xargs printf '%d%02d%02d')
says "$version $version" version

# Images: hash function, hash type, data block size, hash block size, number of blocks, hash offset.
if command -v veritysetup >/dev/null; then
    head -c $((300 * 4096)) /dev/zero >"$scratch/data"
    runs 'veritysetup format' 0 any '' veritysetup format "$scratch/data" "$scratch/hashes"
    superblock=$(head -c 512 "$scratch/hashes" | od -An -v -tx1 | tr -d ' \n')
    # 32 bytes of salt from byte 88 on, and the UUID from byte 16 on.
    says "$superblock" defaults 300 "${superblock:176:64}" "${superblock:32:32}"
    while read -r hash type data_block_size hash_block_size count offset; do
        rm -f "$scratch/hashes"
        options=(--hash "$hash" --format "$type" --data-block-size "$data_block_size"
            --hash-block-size "$hash_block_size" --data-blocks "$count" --hash-offset "$offset" --salt aa)
        runs "veritysetup format ${options[*]}" 0 any '' veritysetup format "${options[@]}" "$scratch/data" \
            "$scratch/hashes"
        says "$(stat -c %s "$scratch/hashes")" end "$scratch/hashes" "$offset"
    done <<'EOT'
sha256 1 4096 4096 1 0
sha256 1 4096 4096 1 8192
sha256 1 4096 512 1 512
sha256 1 4096 4096 300 0
sha256 1 4096 4096 128 0
sha256 1 4096 4096 129 4096
sha256 1 512 512 2400 512
sha512 1 1024 512 700 1536
sha1 0 512 4096 2000 0
sha1 0 4096 1024 300 1048576
sha384 1 2048 4096 2 8192
sha224 0 4096 512 300 65536
EOT
    while read -r type data_block_size hash_block_size count offset; do
        rm -f "$scratch/hashes"
        options=(--format "$type" --data-block-size "$data_block_size" --hash-block-size "$hash_block_size"
            --data-blocks "$count" --hash-offset "$offset" --salt aa)
        runs "veritysetup format --no-superblock ${options[*]}" 0 any '' veritysetup format --no-superblock \
            "${options[@]}" "$scratch/data" "$scratch/hashes"
        says "$(stat -c %s "$scratch/hashes")" bare "$type" "$data_block_size" "$hash_block_size" "$count" "$offset"
    done <<'EOT'
1 4096 4096 300 0
1 4096 4096 300 4096
0 512 1024 2400 3072
1 1024 512 2 512
EOT
else
    echo 'left out: ends of hash areas: veritysetup is not installed'
fi
# A single data block has no hash block, and without a superblock nothing is written.
says 0 bare 1 4096 4096 1 0
says 8192 bare 1 4096 4096 1 8192

# Files: hash function, block size, size.
if command -v fsverity >/dev/null; then
    while read -r number hash block size; do
        head -c "$size" /dev/zero >"$scratch/file"
        rm -f "$scratch/tree"
        options=(--hash-alg="$hash" --block-size="$block")
        runs "fsverity digest ${options[*]}, $size bytes" 0 any '' fsverity digest "${options[@]}" \
            --out-merkle-tree="$scratch/tree" "$scratch/file"
        says "$(stat -c %s "$scratch/tree")" size "$number" "$block" "$size"
        digest=$(fsverity digest --compact "${options[@]}" "$scratch/file")
        says "$(fsverity digest --compact --for-builtin-sig "${options[@]}" "$scratch/file")" \
            formatted "$number" "$digest"
    done <<'EOT'
1 sha256 4096 4096
1 sha256 4096 4097
1 sha256 1024 40000
1 sha256 4096 524288
1 sha256 4096 524289
2 sha512 4096 1
2 sha512 1024 300000
2 sha512 4096 1048577
EOT
else
    echo 'left out: trees and formatted digests: fsverity is not installed'
fi
finish
