# The rows of docs/DIFFERENCES.md on command lines and files of veritysetup. Sourced by
# tests/interop/differences.sh after veritysetup.sh.

# prints_uuid STATUS TEXT VALUE: ours takes a text as UUID, and prints it so; theirs ends with a status.
prints_uuid() {
    rm -f "$hash" "$their_hash"
    theirs "$1" "$([ "$1" -eq 0 ] && echo any)" "$([ "$1" -eq 0 ] || echo any)" \
        veritysetup format --uuid "$2" "$data" "$their_hash"
    if [ "$1" -eq 0 ]; then says "UUID:            $TAB$2"; fi
    ours 0 any '' "$veritysetup" format --uuid "$2" "$data" "$hash"
    says "UUID:            $TAB$UUID"
}

row 'a refused UUID'
theirs 1 '' any veritysetup format --uuid x "$data" "$their_hash"
size 8192 "$their_hash"
refused "$veritysetup" format --uuid x "$data" "$hash"
absent "$row: HASH" "$hash"

row '`--uuid` with `--no-superblock`'
theirs 0 any '' veritysetup format --salt=ab --no-superblock --uuid x "$data" "$their_hash"
refused "$veritysetup" format --salt=ab --no-superblock --uuid x "$data" "$hash"
absent "$row: HASH" "$hash"
rm "$their_hash"
theirs 0 any '' veritysetup format --salt=ab --no-superblock --uuid "$UUID" "$data" "$their_hash"
ours 0 any '' "$veritysetup" format --salt=ab --no-superblock --uuid "$UUID" "$data" "$hash"
same_bytes "$row: HASH" "$their_hash" "$hash"

row 'forms of a UUID'
prints_uuid 0 "$UUID"
prints_uuid 0 "${UUID^^}"
prints_uuid 1 "{$UUID}"
prints_uuid 1 "${UUID//-/}"
prints_uuid 1 "urn:uuid:$UUID"

row 'hash functions'
for name in md5 sha3-256 ripemd160; do
    theirs 0 any '' veritysetup format --hash "$name" "$data" "$their_hash"
    refused "$veritysetup" format --hash "$name" "$data" "$hash"
done
for name in sha256 sha512 sha384 sha224 sha1; do
    ours 0 any '' "$veritysetup" format --hash "$name" "$data" "$hash"
done

row 'other spellings of a hash function, such as `SHA256`, `sha-256` or `sha2-256`'
for name in SHA256 sha-256 SHA-1 sha-1 sha2-256 SHA2-512 2.16.840.1.101.3.4.2.1; do
    rm -f "$hash" "$their_hash"
    theirs 0 any '' veritysetup format --hash "$name" "$data" "$their_hash"
    says "Hash algorithm:  ${TAB}$name"
    refused "$veritysetup" format --hash "$name" "$data" "$hash"
    absent "$row: HASH" "$hash"
    theirs 0 any '' veritysetup dump "$their_hash"
    says "Hash algorithm:  ${TAB}${name,,}"
    case $name in
    SHA256) ours 0 any '' "$veritysetup" dump "$their_hash" ;;
    *) ours 1 '' 'Superblock hash algorithm is not supported.' "$veritysetup" dump "$their_hash" ;;
    esac
done
both_format
set_byte "$hash" $ALGORITHM_AT 53
theirs 0 any '' veritysetup dump "$hash"
says "Hash algorithm:  ${TAB}Sha256"
theirs 0 '' '' veritysetup verify "$data" "$hash" "$root"
ours 1 '' 'Superblock hash algorithm is not supported.' "$veritysetup" dump "$hash"

row '`veritysetup`: a number with a sign or white space before it, such as `+4096` or `'\'' 4096'\''`'
for front in + ' ' "$TAB" ' +'; do
    for option in --data-block-size=X4096 --hash-block-size=X4096 --data-blocks=X1 --hash-offset=X512 --format=X1; do
        rm -f "$hash" "$their_hash" "$scratch/plain_hash"
        theirs 0 any '' veritysetup format "${fixed[@]}" "${option/X/$front}" "$data" "$their_hash"
        ours 0 any '' "$veritysetup" format "${fixed[@]}" "${option/X/}" "$data" "$scratch/plain_hash"
        if [ "$option" != --data-blocks=X1 ]; then same_bytes "$row: $option" "$their_hash" "$scratch/plain_hash"; fi
        refused "$veritysetup" format "${fixed[@]}" "${option/X/$front}" "$data" "$hash"
        absent "$row: HASH" "$hash"
    done
done
# 1 and 512, less two to the power of 64.
theirs 0 any '' veritysetup format --data-blocks=-18446744073709551615 "$data" "$their_hash"
says "Data blocks:     ${TAB}1"
theirs 1 '' any veritysetup format --data-blocks=-1 "$data" "$their_hash"
theirs 0 any '' veritysetup format --hash-offset=-18446744073709551104 "$data" "$their_hash"
for option in --data-blocks=-18446744073709551615 --data-blocks=-1 --hash-offset=-18446744073709551104; do
    refused "$veritysetup" format "$option" "$data" "$hash"
done

row 'block sizes above the page size'
large=$(($(getconf PAGE_SIZE) * 2))
theirs 0 any any veritysetup format --data-block-size "$large" "$data" "$their_hash"
says WARNING
ours 0 any '' "$veritysetup" format --data-block-size "$large" "$data" "$hash"

row 'mode of a new HASH'
for mask in 022 027; do
    rm -f "$hash" "$their_hash"
    (umask $mask && veritysetup format "$data" "$their_hash" && "$veritysetup" format "$data" "$hash") >/dev/null
    same "$row: Debian's, with a umask of $mask" 600 "$(stat -c %a "$their_hash")"
    same "$row: here, with a umask of $mask" "$(printf %o $((0666 & ~0$mask)))" "$(stat -c %a "$hash")"
done

row 'HASH that can'\''t be made, or that can be read and not written'
theirs 1 '' any veritysetup format "$data" "$scratch/missing/hash"
ours 4 '' "Cannot open $scratch/missing/hash." "$veritysetup" format "$data" "$scratch/missing/hash"
mkdir -m 555 "$scratch/closed"
cp "$data" "$scratch/kept"
chmod 444 "$scratch/kept"
chmod 755 "$scratch"
cp "$veritysetup" "$scratch/ours"
# Modes of files count for a user who isn't root.
user=()
if [ "$(id -u)" -eq 0 ]; then user=(setpriv --reuid=65534 --regid=65534 --clear-groups); fi
if "${user[@]}" "$scratch/ours" verify "$data" "$data" 00 2>&1 | grep -q 'No verity superblock'; then
    for file in "$scratch/closed/hash" "$scratch/kept"; do
        theirs 1 '' any "${user[@]}" veritysetup format "$data" "$file"
        ours 4 '' "Cannot open $file." "${user[@]}" "$scratch/ours" format "$data" "$file"
    done
else
    echo 'left out: files that another user than root may not write: no program runs as such a user here'
fi
same_bytes "$row: it stays" "$data" "$scratch/kept"
rm -f "$scratch/kept"

row 'HASH is a symbolic link that leads nowhere'
ln -s made "$scratch/leads_nowhere"
theirs 4 '' any veritysetup format "${fixed[@]}" "$data" "$scratch/leads_nowhere"
absent "$row: Debian's" "$scratch/made"
ours 0 any '' "$veritysetup" format "${fixed[@]}" "$data" "$scratch/leads_nowhere"
veritysetup format "${fixed[@]}" "$data" "$their_hash" >"$scratch/report"
same_bytes "$row: here" "$their_hash" "$scratch/made"
rm "$scratch/made"

row 'HASH that can'\''t be written to its end, as on a full disk'
for most in 2 6; do
    rm -f "$hash" "$their_hash"
    theirs 1 '' any limited $most veritysetup format "$data" "$their_hash"
    ours 4 '' 'Cannot write hash block 0 of level 0.' limited $most "$veritysetup" format "$data" "$hash"
done
theirs 1 '' any veritysetup format "$data" /proc/version
if [ "$(id -u)" -eq 0 ]; then
    ours 4 '' 'Cannot write hash block 0 of level 0.' "$veritysetup" format "$data" /proc/version
fi

row 'a character device that takes what is written, such as `/dev/null` or `/dev/zero`, as HASH of `format`'
for device in null zero; do
    theirs 4 '' any veritysetup format "$data" /dev/$device
    ours 0 any '' "$veritysetup" format "$data" /dev/$device
done

row 'a character device, such as `/dev/null` or `/dev/zero`, as DATA, or as HASH of `dump` or `verify`'
both_format
cp "$hash" "$scratch/whole"
words=(--no-superblock --salt=ab)
for device in null zero full; do
    rm -f "$hash" "$their_hash"
    ours 1 '' 'No data blocks.' "$veritysetup" format /dev/$device "$hash"
    absent "$row: HASH" "$hash"
    ours 4 '' 'Data ends before the end of block 0.' "$veritysetup" verify /dev/$device "$scratch/whole" "$root"
    ours 1 '' "$(if [ $device = null ]; then echo Superblock is too short.; else echo No verity superblock.; fi)" \
        "$veritysetup" dump /dev/$device
    ours 2 '' any "$veritysetup" verify "${words[@]}" "$data" /dev/$device "$root"
    theirs 4 '' any veritysetup format /dev/$device "$their_hash"
    size 0 "$their_hash"
    theirs 4 '' any veritysetup verify /dev/$device "$scratch/whole" "$root"
    theirs 4 '' any veritysetup dump /dev/$device
    theirs 4 '' any veritysetup verify "${words[@]}" "$data" /dev/$device "$root"
done

row 'a single data block without a superblock, and HASH is a pipe, or a device that takes nothing'
exec 9<>"$scratch/pipe"
for file in "$scratch/pipe" /dev/full; do
    theirs 4 '' any veritysetup format "${words[@]}" "$one" "$file"
    ours 0 any '' "$veritysetup" format "${words[@]}" "$one" "$file"
    root=$(root_in "$scratch/.out")
    theirs 4 '' any veritysetup verify "${words[@]}" "$one" "$file" "$root"
    ours 0 '' '' "$veritysetup" verify "${words[@]}" "$one" "$file" "$root"
done
exec 9>&-

row 'a named pipe as HASH of `format`, which nobody else has open'
ours 4 '' any timeout 60 "$veritysetup" format "$data" "$scratch/pipe"
waits 4 '' any veritysetup format "$data" "$scratch/pipe"

row '`veritysetup`: an option given twice'
theirs 0 any '' veritysetup format --hash sha1 --hash sha512 "$data" "$their_hash"
says "Hash algorithm:  ${TAB}sha512"
refused "$veritysetup" format --hash sha1 --hash sha512 "$data" "$hash"

row 'options before the command, as in `veritysetup --hash-offset=4096 format A A`'
theirs 0 any '' veritysetup --hash sha512 format "$data" "$their_hash"
says "Hash algorithm:  ${TAB}sha512"
refused "$veritysetup" --hash sha512 format "$data" "$hash"
for program in veritysetup "$veritysetup"; do
    sample 8192 >"$scratch/A"
    cp "$scratch/A" "$scratch/before"
    if [ "$program" = veritysetup ]; then
        theirs 0 any '' veritysetup --hash-offset=4096 --data-blocks=1 format "$scratch/A" "$scratch/A"
        same "$row: the superblock" verity "$(tail -c +4097 "$scratch/A" | head -c 6)"
    else
        refused "$veritysetup" --hash-offset=4096 --data-blocks=1 format "$scratch/A" "$scratch/A"
        same_bytes "$row: here" "$scratch/before" "$scratch/A"
    fi
done
theirs 0 any '' veritysetup -- format "$data" "$their_hash"
refused "$veritysetup" -- format "$data" "$hash"

row '`veritysetup`: a value that begins with `-`, as a word of its own, such as `--data-blocks -1`'
theirs 0 any '' veritysetup format --data-blocks -18446744073709551615 "$data" "$their_hash"
says "Data blocks:     ${TAB}1"
refused "$veritysetup" format --data-blocks -18446744073709551615 "$data" "$hash"
# A - alone is taken by both.
theirs 0 any '' veritysetup format --salt - "$data" "$their_hash"
ours 0 any '' "$veritysetup" format --salt - "$data" "$hash"

row '`dump` with another option than `--hash-offset`'
both_format
for option in --hash=sha512 --format=0 --data-block-size=512 --hash-block-size=512 --data-blocks=1 --salt=zz --uuid=x \
    --no-superblock; do
    theirs 0 any '' veritysetup dump "$option" "$hash"
    says "Hash algorithm:  ${TAB}sha256"
    refused "$veritysetup" dump "$option" "$hash"
done

row '`verify` with `--uuid`'
both_format
for text in x "$UUID"; do
    theirs 0 '' '' veritysetup verify --uuid "$text" "$data" "$hash" "$root"
    refused "$veritysetup" verify --uuid "$text" "$data" "$hash" "$root"
done

row 'more words than the command has'
both_format
theirs 0 any '' veritysetup format "$data" "$their_hash" more
theirs 0 any '' veritysetup dump "$hash" more
theirs 0 '' '' veritysetup verify "$data" "$hash" "$root" more
refused "$veritysetup" format "$data" "$hash" more
refused "$veritysetup" dump "$hash" more
refused "$veritysetup" verify "$data" "$hash" "$root" more

row '`veritysetup`: a name that isn'\''t UTF-8'
cp "$data" "$scratch/"$'\xff'
theirs 0 any '' veritysetup format "$scratch/"$'\xff' "$their_hash"
refused "$veritysetup" format "$scratch/"$'\xff' "$hash"

row '`veritysetup`: what else there is'
theirs 0 any '' veritysetup --help
theirs 0 any '' veritysetup --version
theirs 0 any '' veritysetup format -h sha1 -s ab --root-hash-file "$scratch/root" "$data" "$their_hash"
theirs 0 '' '' veritysetup verify --root-hash-file "$scratch/root" "$data" "$their_hash"
for words in --help --version "format -s ab $data $hash" "format --root-hash-file $scratch/root $data $hash" \
    "format --fec-device $scratch/fec $data $hash" "open $data name $hash $root" 'close name' 'status name'; do
    # shellcheck disable=SC2086
    refused "$veritysetup" $words
done
