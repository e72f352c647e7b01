#!/usr/bin/env bash
# Compares bin/fsverity with the fsverity of Debian's package of that name, over algorithms, block sizes, salts and file
# sizes: both print the same line in each form, and write the same tree file and the same descriptor file. The formatted
# digest of both is signed to one signature.
set -u
cd "$(dirname "$0")/../.."
. tests/lib/checks.sh
has_program fsverity
needs_other fsverity fsverity

salts=('' ab 0011223344556677 00112233445566778899aabbccddeeff00112233445566778899aabbccddeeff)
sizes=(0 1 127 128 4095 4096 4097 65536 1000003)
forms=(--compact --for-builtin-sig '--compact --for-builtin-sig')

# same_outputs SIZE OPTION..: the line and both output files of the sample of so many bytes.
same_outputs() {
    local size=$1 file=$scratch/$1 line
    shift
    if ! line=$(fsverity digest "$@" --out-merkle-tree="$scratch/their_tree" --out-descriptor="$scratch/theirs" "$file"); then
        fail "$*, $size bytes" "the other fsverity refuses these options"
        return
    fi
    runs "$*, $size bytes" 0 "$line" '' "$BIN/fsverity" digest "$@" --out-merkle-tree="$scratch/our_tree" \
        --out-descriptor="$scratch/ours" "$file"
    same_bytes "the tree file with $*, $size bytes" "$scratch/their_tree" "$scratch/our_tree"
    same_bytes "the descriptor file with $*, $size bytes" "$scratch/theirs" "$scratch/ours"
}

# same_lines SIZE OPTION..: the lines of the other forms.
same_lines() {
    local size=$1 file=$scratch/$1 form
    shift
    for form in "${forms[@]}"; do
        # A form is one word or two.
        # shellcheck disable=SC2086
        runs "$form $*, $size bytes" 0 "$(fsverity digest $form "$@" "$file")" '' "$BIN/fsverity" digest $form "$@" "$file"
    done
}

over_settings() {
    local size algorithm block salt options
    for size in "${sizes[@]}"; do
        sample "$size" >"$scratch/$size"
        put_zeros "$scratch/$size"
        same_outputs "$size"
        for algorithm in sha256 sha512; do
            for block in 1024 4096; do
                for salt in "${salts[@]}"; do
                    options=(--hash-alg="$algorithm" --block-size="$block" --salt="$salt")
                    same_outputs "$size" "${options[@]}"
                    same_lines "$size" "${options[@]}"
                done
            done
        done
    done
}

# formatted PROGRAM FILE: writes the bytes of the formatted digest.
formatted() {
    bytes "$("$1" digest --compact --for-builtin-sig "$2")"
}

# Signatures of RSA with PKCS #1 v1.5 padding, as built-in signatures have, are the same for the same bytes.
signatures() {
    local key=$scratch/key.pem
    openssl req -newkey rsa:2048 -nodes -keyout "$key" -x509 -out "$scratch/cert.pem" -subj /CN=test 2>"$scratch/.openssl"
    formatted fsverity "$scratch/4097" >"$scratch/their_digest"
    formatted "$BIN/fsverity" "$scratch/4097" >"$scratch/our_digest"
    same_bytes 'the bytes that are signed' "$scratch/their_digest" "$scratch/our_digest"
    openssl dgst -sha256 -sign "$key" -out "$scratch/their_signature" "$scratch/their_digest"
    openssl dgst -sha256 -sign "$key" -out "$scratch/our_signature" "$scratch/our_digest"
    same_bytes 'a signature' "$scratch/their_signature" "$scratch/our_signature"
    # Debian's program signs a file by itself, into PKCS #7 of the formatted digest.
    if fsverity sign "$scratch/4097" "$scratch/theirs.sig" --key="$key" --cert="$scratch/cert.pem" >"$scratch/.sign" 2>&1; then
        if openssl smime -verify -inform DER -in "$scratch/theirs.sig" -content "$scratch/our_digest" -certfile "$scratch/cert.pem" \
            -noverify -binary -out "$scratch/.signed" 2>"$scratch/.openssl"; then
            pass
        else
            fail 'the signature of fsverity sign' "$(cat "$scratch/.openssl")"
        fi
    else
        fail 'the signature of fsverity sign' "$(cat "$scratch/.sign")"
    fi
}

over_settings
if command -v openssl >/dev/null; then signatures; else echo 'left out: signatures: openssl is not installed'; fi
finish
