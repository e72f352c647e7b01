# The rows of docs/DIFFERENCES.md on veritysetup. Sourced by tests/interop/differences.sh.

veritysetup=$BIN/veritysetup
hash=$scratch/hash
their_hash=$scratch/their_hash
data=$scratch/data
one=$scratch/one
sample 69632 >"$data"
sample 4096 >"$one"
fixed=(--salt=ab --uuid "$UUID")

# both_format OPTION..: the two programs' hash devices of the data, which are the same; sets `root`.
both_format() {
    veritysetup format "${fixed[@]}" "$@" "$data" "$their_hash" >"$scratch/their_report"
    "$veritysetup" format "${fixed[@]}" "$@" "$data" "$hash" >"$scratch/report"
    same_bytes "$row: the hash device" "$their_hash" "$hash"
    root=$(root_in "$scratch/report")
}

# with_changed_byte OFFSET HEX TEXT: both dumps refuse the hash device with this byte: theirs with a text, ours with
# the one that follows.
with_changed_byte() {
    cp "$scratch/whole" "$hash"
    set_byte "$hash" "$1" "$2"
    theirs 1 '' any veritysetup dump "$hash"
    says "$3"
    says "Device $hash is not a valid VERITY device."
    ours 1 '' "$4" "$veritysetup" dump "$hash"
}

# makes_none OPTION..: theirs makes an empty HASH before it refuses the options, ours makes none.
makes_none() {
    rm -f "$hash" "$their_hash"
    theirs 1 '' any veritysetup format "$@" "$their_hash"
    size 0 "$their_hash"
    refused "$veritysetup" format "$@" "$hash"
    absent "$row: HASH" "$hash"
}

# single_block HASH-BLOCK OFFSET OLD-SIZE THEIR-SIZE OUR-SIZE: both put the superblock of one block into a HASH of some
# old bytes, which stay; what comes beyond them are zeros, up to these sizes.
single_block() {
    local file
    sample "$3" >"$hash"
    cp "$hash" "$their_hash"
    theirs 0 any '' veritysetup format "${fixed[@]}" --hash-block-size "$1" --hash-offset "$2" "$one" "$their_hash"
    ours 0 any '' "$veritysetup" format "${fixed[@]}" --hash-block-size "$1" --hash-offset "$2" "$one" "$hash"
    size "$4" "$their_hash"
    size "$5" "$hash"
    for file in "$hash" "$their_hash"; do
        sample "$3" >"$scratch/expected"
        truncate -s "$(stat -c %s "$file")" "$scratch/expected"
        dd if="$file" of="$scratch/expected" bs=512 skip=$(($2 / 512)) seek=$(($2 / 512)) count=1 conv=notrunc status=none
        same_bytes "$row: $*: bytes of ${file##*/} outside the superblock" "$scratch/expected" "$file"
        same "$row: $*: superblock of ${file##*/}" verity "$(tail -c +$(($2 + 1)) "$file" | head -c 6)"
    done
}

row 'a single data block, HASH new or ending within the superblock'\''s hash block'
for old in 0 100 512; do
    single_block 512 0 $old 512 512
    single_block 1024 0 $old 1024 512
    single_block 4096 0 $old 4096 512
    single_block 8192 0 $old 4096 512
    single_block 4096 4096 $old 8192 4608
    single_block 8192 8192 $old 12288 8704
done
# Bytes that were there stay in both.
single_block 4096 0 600 4096 600
single_block 4096 0 4095 4096 4095
single_block 4096 4096 5000 8192 5000
single_block 4096 512 1100 4096 1100
single_block 4096 0 4100 4100 4100
single_block 4096 512 4608 4608 4608

row 'a single data block, at an offset within a hash block, HASH new or ending before the superblock would'
for pair in '4096 512' '4096 3584' '8192 512' '1024 512' '4096 4608'; do
    for old in 0 100 512; do
        sample $old >"$their_hash"
        cp "$their_hash" "$hash"
        theirs 1 '' any veritysetup format "${fixed[@]}" --hash-block-size "${pair% *}" --hash-offset "${pair#* }" "$one" "$their_hash"
        size $old "$their_hash"
        ours 0 any '' "$veritysetup" format "${fixed[@]}" --hash-block-size "${pair% *}" --hash-offset "${pair#* }" "$one" "$hash"
        size $((${pair#* } + 512)) "$hash"
    done
done

row 'a hash offset within a hash block, without a superblock'
sample 600 >"$their_hash"
cp "$their_hash" "$hash"
theirs 0 any '' veritysetup format --salt=ab --no-superblock --hash-offset 512 "$data" "$their_hash"
if cmp -s -n 512 "$their_hash" "$hash"; then fail "$row: Debian's" 'the bytes before it stay'; else pass; fi
refused "$veritysetup" format --salt=ab --no-superblock --hash-offset 512 "$data" "$hash"
sample 600 >"$scratch/expected"
same_bytes "$row: here" "$scratch/expected" "$hash"

row '`--hash-offset` above 9223372036854775807'
both_format
{ sample 9000 && head -c 512 "$hash"; } >"$scratch/at_end"
# Two to the power of 64, less 512.
theirs 0 any '' veritysetup dump --hash-offset 18446744073709551104 "$scratch/at_end"
says "Data blocks:     ${TAB}17"
refused "$veritysetup" dump --hash-offset 18446744073709551104 "$scratch/at_end"
refused "$veritysetup" verify --hash-offset 18446744073709551104 "$data" "$scratch/at_end" "$root"
refused "$veritysetup" format --hash-offset 18446744073709551104 "$data" "$scratch/none"
refused "$veritysetup" format --hash-offset 9223372036854775808 "$data" "$scratch/none"
absent "$row: here" "$scratch/none"

row '`--data-blocks 0`'
theirs 0 any '' veritysetup format --data-blocks 0 "$data" "$their_hash"
says "Data blocks:     ${TAB}17"
refused "$veritysetup" format --data-blocks 0 "$data" "$hash"

row '`format`: `--data-blocks` above what DATA has'
theirs 1 '' 'Input/output error while creating hash area.' \
    veritysetup format "${fixed[@]}" --data-blocks 18 "$data" "$their_hash"
if [ -s "$their_hash" ]; then pass; else fail "$row: Debian's" 'HASH has not been made'; fi
ours 4 '' 'Data ends before the end of block 17.' "$veritysetup" format "${fixed[@]}" --data-blocks 18 "$data" "$hash"
absent "$row: HASH" "$hash"
zeros 20000 >"$scratch/before"
cp "$scratch/before" "$their_hash"
cp "$scratch/before" "$hash"
theirs 1 '' any veritysetup format "${fixed[@]}" --data-blocks 18 "$data" "$their_hash"
if cmp -s "$scratch/before" "$their_hash"; then fail "$row: Debian's" 'HASH stays'; else pass; fi
ours 4 '' any "$veritysetup" format "${fixed[@]}" --data-blocks 18 "$data" "$hash"
same_bytes "$row: here" "$scratch/before" "$hash"
rm "$hash" "$their_hash"
# In one file of 200 blocks its writes come after the first 128 digests, and are data then.
for option in '' --no-superblock; do
    words=(--salt=ab --data-blocks 208 --hash-offset 1048576 $option)
    sample 819200 >"$hash"
    cp "$hash" "$their_hash"
    cp "$hash" "$scratch/before"
    theirs 0 any '' veritysetup format "${words[@]}" "$their_hash" "$their_hash"
    says "Data blocks:     ${TAB}208"
    ours 4 '' 'Data ends before the end of block 200.' "$veritysetup" format "${words[@]}" "$hash" "$hash"
    same_bytes "$row: in one file" "$scratch/before" "$hash"
done
rm "$hash" "$their_hash"

row '`format`: DATA that can'\''t be opened, a folder, or a pipe that is open at its other end'
mkdir "$scratch/folder"
mkfifo "$scratch/pipe"
for name in missing folder pipe; do
    # The pipe is opened for reading and writing first, so that nobody waits.
    exec 9<>"$scratch/pipe"
    rm -f "$their_hash"
    theirs 4 '' any veritysetup format "$scratch/$name" "$their_hash"
    size 0 "$their_hash"
    ours 4 '' "Cannot open $scratch/$name." "$veritysetup" format "$scratch/$name" "$hash"
    absent "$row: HASH" "$hash"
    exec 9>&-
done

row 'a file of `/proc` as DATA'
for file in /proc/version /proc/self/status; do
    rm -f "$their_hash"
    theirs 1 '' any veritysetup format "$file" "$their_hash"
    size 0 "$their_hash"
    ours 4 '' "Cannot open $file." "$veritysetup" format "$file" "$hash"
    absent "$row: HASH" "$hash"
done
both_format
for file in /proc/version /proc/self/status; do
    theirs 1 '' any veritysetup verify "$file" "$their_hash" "$root"
    ours 4 '' "Cannot open $file." "$veritysetup" verify "$file" "$hash" "$root"
done
rm "$hash" "$their_hash"

row '`format`: DATA that becomes shorter while it is read'
for program in veritysetup "$veritysetup"; do
    rm -f "$hash"
    truncate -s 512M "$scratch/large"
    stopped_in "$scratch/large" "$program" format "$scratch/large" "$hash"
    last=$((at / 4096 + 3))
    truncate -s $((last * 4096 + 5)) "$scratch/large"
    kill -CONT "$pid"
    if [ "$program" = veritysetup ]; then
        ended "$row: Debian's" 1 '' 'Input/output error while creating hash area.'
    else
        ended "$row: here" 4 '' "Data ends before the end of block $last."
    fi
    if [ -e "$hash" ]; then pass; else fail "$row: $program" 'HASH has not been made'; fi
done
rm -f "$hash" "$scratch/large"

row 'a data block, a hash block or a superblock that can'\''t be read'
# A file that says that it is as long as a page, and that can't be read.
unreadable=/sys/class/net/lo/speed
if [ -e "$unreadable" ] && ! cat "$unreadable" >/dev/null 2>&1; then
    theirs 1 '' 'Input/output error while creating hash area.' veritysetup format "$unreadable" "$their_hash"
    ours 4 '' 'Cannot read data block 0.' "$veritysetup" format "$unreadable" "$hash"
    both_format
    theirs 1 '' 'Verification of data area failed.' veritysetup verify "$unreadable" "$hash" "$root"
    ours 4 '' 'Cannot read data block 0.' "$veritysetup" verify "$unreadable" "$hash" "$root"
    theirs 1 '' any veritysetup dump "$unreadable"
    ours 4 '' 'Cannot read superblock.' "$veritysetup" dump "$unreadable"
    words=(--no-superblock --salt=ab "$data" "$unreadable" "$root")
    theirs 1 '' 'Verification of data area failed.' veritysetup verify "${words[@]}"
    ours 4 '' 'Cannot read hash block 0 of level 0.' "$veritysetup" verify "${words[@]}"
else
    echo "left out: what can't be read: $unreadable is not there, or can be read"
fi
rm -f "$hash" "$their_hash"

row '`verify`: changed data or a changed digest'
# Two levels, of 1 and 9 hash blocks. Byte 544 begins the second digest of level 1, that of the hash block at byte 1536.
both_format --data-block-size 512 --hash-block-size 512
flip "$hash" 544 1
theirs 2 '' any veritysetup verify "$data" "$hash" "$root"
says 'Verification failed at position 1536.'
ours 2 '' 'Verification failed: level 1 block 0, child 1.' "$veritysetup" verify "$data" "$hash" "$root"
rm "$hash" "$their_hash"
both_format
cp "$hash" "$scratch/whole"
cp "$data" "$scratch/changed"
flip "$scratch/changed" 5000 1
theirs 2 '' any veritysetup verify "$scratch/changed" "$hash" "$root"
says 'Verification failed at position 4096.'
ours 2 '' 'Verification failed: level 0 block 0, child 1.' "$veritysetup" verify "$scratch/changed" "$hash" "$root"
flip "$hash" 4200 1
theirs 2 '' any veritysetup verify "$data" "$hash" "$root"
says 'Verification failed at position 12288.'
ours 2 '' 'Verification failed: level 0 block 0, child 3.' "$veritysetup" verify "$data" "$hash" "$root"

row '`verify`: a changed byte after the digests of a hash block'
cp "$scratch/whole" "$hash"
flip "$hash" 8000 1
theirs 2 '' any veritysetup verify "$data" "$hash" "$root"
says 'Spare area is not zeroed at position 4640.'
ours 2 '' 'Verification failed: level 0 block 0, spare bytes.' "$veritysetup" verify "$data" "$hash" "$root"

row '`verify`: another root hash'
zero=$(printf '%064d' 0)
theirs 1 '' 'Verification of root hash failed.' veritysetup verify "$data" "$scratch/whole" "$zero"
ours 2 '' "Verification failed: root hash is $root." "$veritysetup" verify "$data" "$scratch/whole" "$zero"

row '`verify`: HASH ends too early'
for length in 512 4096 8191; do
    head -c "$length" "$scratch/whole" >"$hash"
    theirs 1 '' 'Verification of data area failed.' veritysetup verify "$data" "$hash" "$root"
    ours 2 '' 'Verification failed: level 0 block 0 is missing.' "$veritysetup" verify "$data" "$hash" "$root"
done

row '`verify`: DATA ends too early'
head -c 65541 "$data" >"$scratch/short"
theirs 1 '' 'Verification of data area failed.' veritysetup verify "$scratch/short" "$scratch/whole" "$root"
ours 4 '' 'Data ends before the end of block 16.' "$veritysetup" verify "$scratch/short" "$scratch/whole" "$root"
flip "$scratch/short" 9000 1
theirs 2 '' any veritysetup verify "$scratch/short" "$scratch/whole" "$root"
says 'Verification failed at position 8192.'
ours 4 '' 'Data ends before the end of block 16.' "$veritysetup" verify "$scratch/short" "$scratch/whole" "$root"

row '`verify` without a superblock and without `--salt`'
both_format --no-superblock
theirs 2 '' any veritysetup verify --no-superblock "$data" "$hash" "$root"
refused "$veritysetup" verify --no-superblock "$data" "$hash" "$root"

row '`verify` without a superblock: a hash area that overlaps the covered data in one file, under any names'
cp "$data" "$scratch/grown"
ln -s grown "$scratch/grown_link"
ln "$scratch/grown" "$scratch/grown_hard"
words=(--no-superblock --salt=ab --hash-offset 69632)
"$veritysetup" format "${words[@]}" "$scratch/grown" "$scratch/grown" >"$scratch/report"
root=$(root_in "$scratch/report")
for name in grown grown_link grown_hard; do
    for option in '' '--data-blocks 18'; do
        # shellcheck disable=SC2086
        theirs 1 '' 'Data area overlaps with hash area.' \
            veritysetup verify "${words[@]}" $option "$scratch/grown" "$scratch/$name" "$root"
        # shellcheck disable=SC2086
        ours 2 '' any "$veritysetup" verify "${words[@]}" $option "$scratch/grown" "$scratch/$name" "$root"
        says 'Verification failed: '
    done
    theirs 0 '' '' veritysetup verify "${words[@]}" --data-blocks 17 "$scratch/grown" "$scratch/$name" "$root"
    ours 0 '' '' "$veritysetup" verify "${words[@]}" --data-blocks 17 "$scratch/grown" "$scratch/$name" "$root"
done
root=$("$veritysetup" format --no-superblock --salt=ab "$one" "$hash" | root_in)
theirs 1 '' any veritysetup verify --no-superblock --salt=ab "$one" "$one" "$root"
ours 0 '' '' "$veritysetup" verify --no-superblock --salt=ab "$one" "$one" "$root"

row '`verify` with a superblock: no number, or one too large to be taken, for an option other than `--hash-offset`'
both_format
for option in --format --data-block-size --hash-block-size --data-blocks; do
    texts=('' x 4K 0x1 ' 1 ' 18446744073709551616)
    # All but the number of blocks have 32 bits.
    if [ "$option" != --data-blocks ]; then texts+=(4294967296); fi
    for text in "${texts[@]}"; do
        theirs 1 '' any veritysetup verify "$option=$text" "$data" "$hash" "$root"
        ours 0 '' '' "$veritysetup" verify "$option=$text" "$data" "$hash" "$root"
    done
done

row 'a superblock that is refused'
with_changed_byte 7 01 'is not a valid' 'No verity superblock.'
with_changed_byte 8 02 'Unsupported VERITY version 2.' 'Superblock version 2 is not supported.'
with_changed_byte 12 02 'Unsupported VERITY hash type 2.' 'Superblock hash type 2 is not supported.'
with_changed_byte 65 03 'Unsupported VERITY block size.' 'Superblock data block size 768 is not valid.'
with_changed_byte 69 01 'Unsupported VERITY block size.' 'Superblock hash block size 256 is not valid.'
with_changed_byte 32 41 'Hash algorithm Aha256 not supported.' 'Superblock hash algorithm is not supported.'
with_changed_byte 81 02 'VERITY header corrupted.' 'Superblock salt size 513 is not valid.'

row 'a superblock of 0 data blocks'
cp "$scratch/whole" "$hash"
set_byte "$hash" $DATA_BLOCKS_AT 00
theirs 0 any '' veritysetup dump "$hash"
theirs 0 '' '' veritysetup verify "$data" "$hash" "$root"
refused "$veritysetup" dump "$hash"
refused "$veritysetup" verify "$data" "$hash" "$root"

row 'a superblock of more data than there can be'
cp "$scratch/whole" "$hash"
set_byte "$hash" $((DATA_BLOCKS_AT + 7)) 80
theirs 0 any '' veritysetup dump "$hash"
ours 1 '' 'Data or hash area is too large.' "$veritysetup" dump "$hash"

row 'the report of `format` and `dump`'
both_format
for command in "format $data" dump; do
    # shellcheck disable=SC2086
    theirs 0 any '' veritysetup $command "$hash"
    says "Hash blocks:     ${TAB}1"
    says "Hash device size: ${TAB}8192 [bytes]"
    # shellcheck disable=SC2086
    ours 0 any '' "$veritysetup" $command "$hash"
    says_not 'Hash blocks:'
    says_not 'Hash device size:'
done
same "$row: Debian's root hash" "Root hash:      $TAB$root" "$(grep Root "$scratch/their_report")"
same "$row: our root hash" "Root hash:       $TAB$root" "$(grep Root "$scratch/report")"

row 'the report without a superblock'
both_format --no-superblock
same "$row: Debian's" "UUID:            $TAB" "$(grep UUID "$scratch/their_report")"
same "$row: here" "UUID:            $TAB-" "$(grep UUID "$scratch/report")"

row '`veritysetup`: the report can'\''t be written, as on a full device'
theirs 0 '' '' bash -c 'veritysetup format "$@" >/dev/full' - "$data" "$their_hash"
ours 4 '' 'Cannot write output.' bash -c '"$@" >/dev/full' - "$veritysetup" format "$data" "$hash"

row '`veritysetup`: the report goes to a pipe that nobody reads'
theirs 141 '' '' unread veritysetup format "$data" "$their_hash"
ours 4 '' 'Cannot write output.' unread "$veritysetup" format "$data" "$hash"

row 'a refused hash offset, salt, hash function, block size or hash type, no whole block of data, or too large an area'
for option in --hash-offset=511 --salt=zz --hash=no --data-block-size=768 --hash-block-size=256 --format=2 \
    --data-blocks={2251799813685248,18446744073709551615} --hash-offset=9223372036854775296; do
    makes_none "$option" "$data"
done
head -c 4095 "$data" >"$scratch/short"
makes_none "$scratch/short"
