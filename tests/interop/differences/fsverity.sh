# The rows of docs/DIFFERENCES.md on fsverity. Sourced by tests/interop/differences.sh.

fsverity=$BIN/fsverity
input=$scratch/input
sample 9000 >"$input"
printf a >"$scratch/first"
: >"$scratch/empty"

row '`digest` of a pipe'
# Opened for reading and writing first, so that nobody waits.
theirs 0 "sha256:$DIGEST_OF_EMPTY $scratch/pipe" '' bash -c 'exec 9<>"$1"; fsverity digest "$1"' - "$scratch/pipe"
ours 1 '' "fsverity: cannot open $scratch/pipe." bash -c 'exec 9<>"$1"; "$2" digest "$1"' - "$scratch/pipe" "$fsverity"

row '`digest` of a block device'
if has_loops; then
    sample 8704 >"$scratch/contents"
    loop_over "$scratch/contents"
    theirs 0 "sha256:$DIGEST_OF_EMPTY $loop" '' fsverity digest "$loop"
    expected=$(fsverity digest --compact "$scratch/contents")
    ours 0 "sha256:$expected $loop" '' "$fsverity" digest "$loop"
else
    echo 'left out: block devices: no loop device can be made here'
fi

row '`digest` of a file of `/proc`'
for file in /proc/version /proc/self/status; do
    theirs 0 "sha256:$DIGEST_OF_EMPTY $file" '' fsverity digest "$file"
    ours 1 '' "fsverity: cannot open $file." "$fsverity" digest "$file"
done

row 'a file that, its last block filled, has more than 9223372036854775807 bytes'
# reads COMMAND..: a command begins to read the file, which nobody waits for.
reads() {
    if stopped_in "$far" "$@"; then pass; else fail "$row: $*" 'it reads nothing'; fi
    { kill -KILL "$pid"; wait "$pid"; } 2>/dev/null
}
{ far=$(mktemp -p /dev/shm far.XXXXXX) && truncate -s 9223372036854771713 "$far"; } 2>/dev/null
if [ -s "$far" ]; then
    reads fsverity digest "$far"
    ours 1 '' "fsverity: file is too large: $far." "$fsverity" digest "$far"
    reads "$fsverity" digest --block-size 512 "$far"
    truncate -s 9223372036854771712 "$far"
    reads "$fsverity" digest "$far"
else
    echo 'left out: a file of more than 9223372036854771712 bytes: none can be made in /dev/shm'
fi
rm -f "$far"

row 'block sizes above 524288'
theirs 0 any '' fsverity digest --block-size 1048576 "$input"
refused "$fsverity" digest --block-size 1048576 "$input"

row 'a refused salt length, or a block size below twice the digest'
for option in --block-size=32 "--salt=$(printf '%066d' 0)"; do
    theirs 1 '' any fsverity digest "$option" --out-descriptor "$scratch/made" "$input"
    size 0 "$scratch/made"
    refused "$fsverity" digest "$option" --out-descriptor "$scratch/unmade" "$input"
    absent "$row: here" "$scratch/unmade"
    rm "$scratch/made"
done

row 'a block size with a sign or white space before it, such as `+4096` or `'\'' 4096'\''`'
expected=$(fsverity digest --block-size=512 "$input")
for text in +512 ' 512' "${TAB}512" $'\n512' ' +512'; do
    theirs 0 "$expected" '' fsverity digest --block-size="$text" "$input"
    refused "$fsverity" digest --block-size="$text" "$input"
done

row 'the number of a hash function, such as `--hash-alg=1`'
for text in 1 2 01 +1 ' 2'; do
    name=sha256
    case $text in *2) name=sha512 ;; esac
    theirs 0 "$(fsverity digest --hash-alg=$name "$input")" '' fsverity digest --hash-alg="$text" "$input"
    refused "$fsverity" digest --hash-alg="$text" "$input"
done
# There are no other numbers, so no digest's length in bits either.
for text in 3 256 512; do
    theirs 1 '' any fsverity digest --hash-alg="$text" "$input"
    refused "$fsverity" digest --hash-alg="$text" "$input"
done

row '`fsverity`: the report can'\''t be written, as on a full device'
theirs 0 '' '' bash -c 'fsverity digest "$1" >/dev/full' - "$input"
ours 1 '' 'fsverity: cannot write output.' bash -c '"$2" digest "$1" >/dev/full' - "$input" "$fsverity"

row '`fsverity`: the report goes to a pipe that nobody reads, such as that of `head -0`'
theirs 141 '' '' unread fsverity digest "$input"
ours 1 '' 'fsverity: cannot write output.' unread "$fsverity" digest "$input"

row 'an output file that is the input'
cp "$input" "$scratch/lost"
theirs 0 "sha256:$DIGEST_OF_EMPTY $scratch/lost" '' fsverity digest --out-merkle-tree "$scratch/lost" "$scratch/lost"
size 0 "$scratch/lost"
cp "$input" "$scratch/kept"
ours 1 '' "fsverity: cannot open $scratch/kept." "$fsverity" digest --out-merkle-tree "$scratch/kept" "$scratch/kept"
same_bytes "$row: here" "$input" "$scratch/kept"

row 'one output file for both'
cp "$input" "$scratch/both"
theirs 0 any '' fsverity digest --out-merkle-tree "$scratch/both" --out-descriptor "$scratch/both" "$input"
# The tree of three blocks is one block: the descriptor's 256 bytes stand over its first ones.
size 4096 "$scratch/both"
cp "$input" "$scratch/both"
ours 1 '' "fsverity: cannot open $scratch/both." \
    "$fsverity" digest --out-merkle-tree "$scratch/both" --out-descriptor "$scratch/both" "$input"
same_bytes "$row: here" "$input" "$scratch/both"

row 'output files and several inputs'
for file in "$input" "$scratch/first"; do
    fsverity digest --out-descriptor "$scratch/part" "$file" >/dev/null
    cat "$scratch/part" >>"$scratch/parts"
done
theirs 0 any '' fsverity digest --out-descriptor "$scratch/all" "$input" "$scratch/first"
same_bytes "$row: Debian's" "$scratch/parts" "$scratch/all"
refused "$fsverity" digest --out-descriptor "$scratch/unmade" "$input" "$scratch/first"
absent "$row: here" "$scratch/unmade"

row 'an option that is refused, after an output file'
for option in --salt=x --block-size=100 --hash-alg=no; do
    cp "$input" "$scratch/made"
    cp "$input" "$scratch/unmade"
    theirs 2 '' any fsverity digest --out-descriptor "$scratch/made" "$option" "$input"
    size 0 "$scratch/made"
    refused "$fsverity" digest --out-descriptor "$scratch/unmade" "$option" "$input"
    same_bytes "$row: here" "$input" "$scratch/unmade"
    rm "$scratch/made" "$scratch/unmade"
done

row 'an input that can'\''t be opened, or a folder'
for file in missing folder; do
    theirs 1 '' any fsverity digest --out-descriptor "$scratch/made" "$scratch/$file"
    size 0 "$scratch/made"
    ours 1 '' "fsverity: cannot open $scratch/$file." \
        "$fsverity" digest --out-descriptor "$scratch/unmade" "$scratch/$file"
    absent "$row: here" "$scratch/unmade"
done

row 'an output file that can'\''t be opened'
theirs 2 '' any fsverity digest --out-descriptor "$scratch/none/file" "$input"
ours 1 '' "fsverity: cannot open $scratch/none/file." "$fsverity" digest --out-descriptor "$scratch/none/file" "$input"

row 'an output file that is there, where the kernel refuses O_CREAT, as for files of others in a sticky folder'
uncreating=(python3 tests/lib/without_creating.py)
cp "$input" "$scratch/there"
theirs 2 '' any "${uncreating[@]}" fsverity digest --out-descriptor "$scratch/there" "$input"
ours 0 any '' "${uncreating[@]}" "$fsverity" digest --out-descriptor "$scratch/there" "$input"
fsverity digest --out-descriptor "$scratch/part" "$input" >/dev/null
same_bytes "$row: here" "$scratch/part" "$scratch/there"

row 'a folder as the second output file'
theirs 2 '' any fsverity digest --out-merkle-tree "$scratch/first_made" --out-descriptor "$scratch/folder" "$input"
size 0 "$scratch/first_made"
ours 1 '' "fsverity: cannot open $scratch/folder." \
    "$fsverity" digest --out-merkle-tree "$scratch/first_unmade" --out-descriptor "$scratch/folder" "$input"
absent "$row: here" "$scratch/first_unmade"

row 'two output files, of which one can'\''t be opened'
for order in 'tree descriptor' 'descriptor tree'; do
    for bad in tree descriptor; do
        other=tree
        if [ $bad = tree ]; then other=descriptor; fi
        words=()
        for name in $order; do
            option=--out-descriptor
            if [ $name = tree ]; then option=--out-merkle-tree; fi
            file=$scratch/older
            if [ $name = $bad ]; then file=$scratch/none/file; fi
            words+=("$option" "$file")
        done
        cp "$input" "$scratch/older"
        theirs 2 '' any fsverity digest "${words[@]}" "$input"
        # Emptied, if its option comes first.
        left=$(stat -c %s "$input")
        if [ "${order% *}" = $other ]; then left=0; fi
        size "$left" "$scratch/older"
        cp "$input" "$scratch/older"
        ours 1 '' "fsverity: cannot open $scratch/none/file." "$fsverity" digest "${words[@]}" "$input"
        left=$(stat -c %s "$input")
        if [ $other = tree ]; then left=0; fi
        size "$left" "$scratch/older"
    done
done

row 'the tree file can'\''t be written to its end, as on a full disk'
sample 1048576 >"$scratch/large"
for tree in theirs ours; do
    program=fsverity
    if [ $tree = ours ]; then program=$fsverity; fi
    $tree 1 '' any limited 5 "$program" digest --out-merkle-tree "$scratch/${tree}_tree" "$scratch/large"
done
size 0 "$scratch/theirs_tree"
# The first block is the last that is made.
size 5120 "$scratch/ours_tree"

row 'a character device that takes what is written, such as `/dev/null`, as the tree file, for more than one block'
for device in null zero; do
    theirs 1 '' any fsverity digest --out-merkle-tree /dev/$device "$input"
    ours 0 "$(fsverity digest "$input")" '' "$fsverity" digest --out-merkle-tree /dev/$device "$input"
    # One block has no tree.
    theirs 0 any '' fsverity digest --out-merkle-tree /dev/$device "$scratch/first"
    ours 0 any '' "$fsverity" digest --out-merkle-tree /dev/$device "$scratch/first"
done

row 'mode of a new output file'
for mask in 000 002 022 077; do
    for side in theirs ours; do
        program=fsverity
        if [ "$side" = ours ]; then program=$fsverity; fi
        rm -f "$scratch/new_tree" "$scratch/new_descriptor"
        # shellcheck disable=SC2016
        "$side" 0 any '' bash -c 'umask "$1"; shift; exec "$@"' - $mask "$program" digest \
            --out-merkle-tree "$scratch/new_tree" --out-descriptor "$scratch/new_descriptor" "$input"
        mode=0666
        if [ "$side" = theirs ]; then mode=0644; fi
        for name in new_tree new_descriptor; do
            same "$row: $side, $name with a umask of $mask" "$(printf %o $((mode & ~0$mask)))" "$(stat -c %a "$scratch/$name")"
        done
    done
done

row 'a shortened option, such as `--hash-al`'
theirs 0 any '' fsverity digest --hash-al=sha512 "$input"
refused "$fsverity" digest --hash-al=sha512 "$input"

row '`fsverity`: a value that begins with `-`, as a word of its own, such as `--out-descriptor -x`'
(
    cd "$scratch" || exit 1
    fsverity digest --out-descriptor -x input >/dev/null
)
size 256 "$scratch/-x"
rm "$scratch/-x"
ours 2 '' any env -C "$scratch" "$(realpath "$fsverity")" digest --out-descriptor -x input
absent "$row: here" "$scratch/-x"
ours 0 any '' env -C "$scratch" "$(realpath "$fsverity")" digest --out-descriptor=-x input
size 256 "$scratch/-x"

row 'a flag given twice, such as `--compact --compact`'
theirs 0 any '' fsverity digest --compact --compact "$input"
refused "$fsverity" digest --compact --compact "$input"

row '`fsverity`: a name that isn'\''t UTF-8'
cp "$input" "$scratch/"$'\xfe'
theirs 0 any '' fsverity digest "$scratch/"$'\xfe'
refused "$fsverity" digest "$scratch/"$'\xfe'

row '`fsverity`: what else there is'
theirs 0 any '' fsverity --help
theirs 0 any '' fsverity --version
for words in --help --version "enable $input" "measure $input" "sign $input $scratch/signature"; do
    # shellcheck disable=SC2086
    refused "$fsverity" $words
done
