# The rows of docs/DIFFERENCES.md on what both programs do. Sourced by tests/interop/differences.sh.

# both STATUS OUT PROGRAM WORD..: the two programs of this name end with this status and output; the word HASH stands
# for each one's own hash file.
both() {
    local status=$1 out=$2 err=any name=$3
    shift 3
    if [ "$status" -eq 0 ]; then err=; fi
    theirs "$status" "$out" "$err" "$name" "${@/#HASH/$their_hash}"
    ours "$status" "$out" "$err" "$BIN/$name" "${@/#HASH/$hash}"
}

row '`format`: data and hash area that overlap in one file, under any names'
cp "$data" "$scratch/file"
ln -s file "$scratch/link"
ln "$scratch/file" "$scratch/hard"
for name in file link hard ./file; do
    for place in '' --no-superblock '--data-blocks 17 --hash-offset 4096' '--data-blocks 10 --hash-offset 8192'; do
        # shellcheck disable=SC2086
        both 1 '' veritysetup format $place "$scratch/file" "$scratch/$name"
        same_bytes "$row: $name $place" "$data" "$scratch/file"
    done
done

row 'options of `verify` other than `--hash-offset`, with a superblock'
both_format
both 0 '' veritysetup verify --hash no --salt x --data-blocks 0 --data-block-size 768 "$data" HASH "$root"

row 'several faults at once'
both 1 '' veritysetup format --uuid x --data-blocks 18 "$data" HASH
if [ -s "$their_hash" ]; then pass; else fail "$row: Debian's" 'HASH has not been made'; fi
absent "$row: HASH" "$hash"
rm "$their_hash"
theirs 1 '' any veritysetup format --salt x "$scratch/folder/none" "$their_hash"
ours 4 '' "Cannot open $scratch/folder/none." "$veritysetup" format --salt x "$scratch/folder/none" "$hash"
rm -f "$their_hash"

row 'a tail of DATA that is shorter than a block'
both_format
mv "$hash" "$scratch/whole"
{ cat "$data" && echo tail; } >"$scratch/longer"
both 0 any veritysetup format "${fixed[@]}" "$scratch/longer" HASH
same_bytes "$row: Debian's" "$scratch/whole" "$their_hash"
same_bytes "$row: here" "$scratch/whole" "$hash"

row 'the top hash block as an image of one block, where data and hash blocks have one size'
tail -c 4096 "$scratch/whole" >"$scratch/top"
both 0 any veritysetup format "${fixed[@]}" "$scratch/top" HASH
both 0 '' veritysetup verify "$scratch/top" HASH "$root"

row 'bytes of HASH outside superblock and tree'
sample 20000 >"$hash"
sample 20000 >"$their_hash"
sample 20000 >"$scratch/expected"
dd if="$scratch/whole" of="$scratch/expected" conv=notrunc status=none
# Between superblock and tree they are the old ones too.
dd if="$hash" of="$scratch/expected" bs=512 skip=1 seek=1 count=7 conv=notrunc status=none
both 0 any veritysetup format "${fixed[@]}" "$data" HASH
same_bytes "$row: Debian's" "$scratch/expected" "$their_hash"
same_bytes "$row: here" "$scratch/expected" "$hash"

row 'a root hash in capitals'
both_format
both 0 '' veritysetup verify "$data" HASH "${root^^}"

row 'a loop device over DATA as HASH'
if has_loops; then
    for program in veritysetup "$veritysetup"; do
        cp "$data" "$scratch/under"
        loop_over "$scratch/under"
        runs "$row: $program" 0 any '' "$program" format "${fixed[@]}" "$scratch/under" "$loop"
        sync
        same "$row: $program: what DATA begins with" verity "$(head -c 6 "$scratch/under")"
    done
else
    echo 'left out: a loop device over DATA: no loop device can be made here'
fi

row 'a pipe as DATA or HASH, open at its other end, but for a single data block without a superblock (above)'
both_format
exec 9<>"$scratch/pipe"
both 4 '' veritysetup verify "$scratch/pipe" HASH "$root"
both 4 '' veritysetup verify "$data" "$scratch/pipe" "$root"
both 4 '' veritysetup format "$data" "$scratch/pipe"
both 4 '' veritysetup dump "$scratch/pipe"
exec 9>&-

row 'a named pipe that is read, and that nobody else has open'
both_format
for program in veritysetup "$veritysetup"; do
    waits 4 '' any "$program" format "$scratch/pipe" "$scratch/new_hash"
    waits 4 '' any "$program" dump "$scratch/pipe"
    waits 4 '' any "$program" verify "$scratch/pipe" "$hash" "$root"
    waits 4 '' any "$program" verify "$data" "$scratch/pipe" "$root"
done
waits 0 any '' fsverity digest "$scratch/pipe"
waits 1 '' any "$fsverity" digest "$scratch/pipe"

row 'a folder as HASH'
both_format
both 4 '' veritysetup format "$data" "$scratch/folder"
both 4 '' veritysetup dump "$scratch/folder"
both 4 '' veritysetup verify "$data" "$scratch/folder" "$root"

row '`fsverity digest` of a folder'
both 1 '' fsverity digest "$scratch/folder"

row '`fsverity digest` of a character device, such as `/dev/zero`'
for file in /dev/zero /dev/full /dev/null; do
    both 0 "sha256:$DIGEST_OF_EMPTY $file" fsverity digest "$file"
done

row '`fsverity digest` of several files, of which one can'\''t be opened'
both 1 "sha256:$DIGEST_OF_EMPTY $scratch/empty" fsverity digest "$scratch/empty" "$scratch/missing" "$input"
