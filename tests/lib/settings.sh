# The settings over which bin/veritysetup and Debian's veritysetup are compared, and the salts of images that the kernel
# opens. Sourced after tests/lib/checks.sh.

. tests/lib/layouts.sh

block_sizes=(512 1024 4096)
salts=(- ab "$(seq -s '' 1000 1015)" "$(seq -s '' 1000 1127)")
block_counts=(1 2 16 17 128 129 256 257 4097)

# taken EVEN THIRD: of a setting with these two sums of its values' places in their lists, whether it is compared.
# SETTINGS=all takes every combination. Else it is one in six, and any two values of a setting still come together.
taken() {
    [ "${SETTINGS:-}" = all ] || { [ $(($1 % 2)) -eq 0 ] && [ $(($2 % 3)) -eq 0 ]; }
}

# each_setting FUNCTION: calls it with ALGORITHM DATA-BLOCK HASH-BLOCK SALT BLOCKS HASH-TYPE for each setting: SHA-256
# and SHA-512 with all block sizes, no salt, 1, 32 and 256 bytes of salt, and all numbers of blocks; SHA-1, SHA-224 and
# SHA-384, whose slots can be wider than digests, with fewer.
each_setting() {
    local long=(sha256 sha512) other=(sha1 sha224 sha384) few=(1 2 17 129 257) t a d h s b
    for t in 0 1; do
        for a in "${!long[@]}"; do
            for d in "${!block_sizes[@]}"; do
                for h in "${!block_sizes[@]}"; do
                    for s in "${!salts[@]}"; do
                        for b in "${!block_counts[@]}"; do
                            if taken $((t + a + s + b)) $((d + h + b)); then
                                "$1" "${long[a]}" "${block_sizes[d]}" "${block_sizes[h]}" "${salts[s]}" \
                                    "${block_counts[b]}" "$t"
                            fi
                        done
                    done
                done
            done
        done
        for a in "${!other[@]}"; do
            for h in "${!block_sizes[@]}"; do
                for s in 0 2; do
                    for b in "${!few[@]}"; do
                        if taken $((t + s / 2 + b)) $((a + h + b)); then
                            "$1" "${other[a]}" 512 "${block_sizes[h]}" "${salts[s]}" "${few[b]}" "$t"
                        fi
                    done
                done
            done
        done
    done
}

# The hash areas over which they are compared, with `superblock` or `bare` before the hash offset. Without a superblock
# the other program rounds an offset down that is no multiple of the hash block size; here it is refused. And it can't
# write a superblock alone, which is that of a single data block, at an offset that is no multiple of 4096.
areas=('superblock 512' 'superblock 4096' 'superblock 1049088' 'bare 0' 'bare 4096' 'bare 1048576')

# each_area FUNCTION: calls it with AREA OFFSET ALGORITHM DATA-BLOCK HASH-BLOCK SALT BLOCKS HASH-TYPE for each area and
# some settings.
each_area() {
    local algorithms=(sha256 sha1) counts=(1 2 17 257) i area a h b t
    for i in "${!areas[@]}"; do
        area=${areas[i]}
        for a in "${!algorithms[@]}"; do
            for h in "${!block_sizes[@]}"; do
                for b in "${!counts[@]}"; do
                    for t in 1 0; do
                        if [ "${counts[b]}" -eq 1 ] && [ $((${area#* } % 4096)) -ne 0 ]; then continue; fi
                        if ! taken $((i + a + b + t)) $((i + h + b)); then continue; fi
                        # shellcheck disable=SC2086
                        "$1" $area "${algorithms[a]}" 1024 "${block_sizes[h]}" "${salts[2]}" "${counts[b]}" "$t"
                    done
                done
            done
        done
    done
}
