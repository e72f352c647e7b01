#!/usr/bin/env bash
# Runs both programs with each combination of closed standard streams: what they leave in files is the same, nothing
# meant for a stream lands in a file, and no name of a descriptor is taken for a file that wasn't open. And where they
# may have only so many files open, what is held in place of the streams among them.
set -u
cd "$(dirname "$0")/../.."
. tests/lib/checks.sh
. tests/lib/stated_images.sh
. tests/lib/digests.sh
. tests/lib/without_devices.sh
has_program fsverity
has_program veritysetup
fsverity=$BIN/fsverity
veritysetup=$BIN/veritysetup
# Of the first ten descriptors just the streams are open.
exec 3<&- 4<&- 5<&- 6<&- 7<&- 8<&- 9<&-

# prints NAME STATUS TEXT MESSAGE COMMAND..: a command that prints a text if standard output is open, and ends with
# this status and message if it is closed; the message is seen if standard error is open.
prints() {
    local name=$1 status=$2 text=$3 message=$4
    shift 4
    if [[ $closed = *1* ]]; then text=; else status=0 message=; fi
    if [[ $closed = *2* ]]; then message=; fi
    runs "$name" "$status" "$text" "$message" with_closed "$closed" "$@"
}

data=$scratch/data
stated=$scratch/stated
hash=$scratch/hash
image_17 "$data" "$stated"
cp "$data" "$scratch/data_before"
cp "$data" "$scratch/changed"
flip "$scratch/changed" 0 1
cp "$stated" "$scratch/stated_before"

file=$scratch/file
sample 4097 >"$file"
line="sha256:$(digest "$(root "$file")" 4097) $file"
cp "$scratch/descriptor" "$scratch/descriptor_expected"
cp "$file" "$scratch/whole"
truncate -s %4096 "$scratch/whole"
hash_blocks "$scratch/whole" 4096 4096 >"$scratch/tree_expected"
cp "$file" "$scratch/file_before"

# digests_to OUTPUT..: a digest with these output files, `tree` and `made`, new or there before.
digests_to() {
    local output name="fsverity, $* named, '$closed' closed" options=()
    for output in "$@"; do
        case $output in
        tree) options+=(--out-merkle-tree "$scratch/tree") ;;
        made) options+=(--out-descriptor "$scratch/made") ;;
        esac
    done
    prints "$name" 1 "$line" 'fsverity: cannot write output.' "$fsverity" digest "${options[@]}" "$file"
    for output in "$@"; do
        case $output in
        tree) same_bytes "$name: the tree" "$scratch/tree_expected" "$scratch/tree" ;;
        made) same_bytes "$name: the descriptor" "$scratch/descriptor_expected" "$scratch/made" ;;
        esac
    done
    same_bytes "$name: the file" "$scratch/file_before" "$file"
}

hash_devices() {
    local name="veritysetup, '$closed' closed" message='Verification failed: level 0 block 0, child 0.'
    rm -f "$hash"
    prints "$name: format" 4 "$(report "$hash" 512 512 17 - "$root")" 'Cannot write output.' \
        "$veritysetup" format "${image_17_options[@]}" "$data" "$hash"
    same_bytes "$name: format: the hash file" "$stated" "$hash"
    prints "$name: dump" 4 "$(report "$stated" 512 512 17 -)" 'Cannot write output.' "$veritysetup" dump "$stated"
    runs "$name: verify" 0 '' '' with_closed "$closed" "$veritysetup" verify "$data" "$stated" "$root"
    if [[ $closed = *2* ]]; then message=; fi
    runs "$name: verify of changed data" 2 '' "$message" \
        with_closed "$closed" "$veritysetup" verify "$scratch/changed" "$stated" "$root"
    same_bytes "$name: the data" "$scratch/data_before" "$data"
    same_bytes "$name: the hash file" "$scratch/stated_before" "$stated"
}

# What the commands of `takes` find, and what they leave: three inputs, and the streams' files 0, 1 and 2.
found=$scratch/found
expected=$scratch/expected
mkdir "$found"
cp "$data" "$stated" "$file" "$found"
cp -r "$found" "$expected"
sample 9000 >"$scratch/longer"

# takes NAME TEXT SECOND GIVEN LEFT COMMAND..: a command takes the names of ten descriptors in the folder `at`, one
# after another, in place of the word @; `within` has what begins it. An open stream's name leads to the stream's file,
# with the bytes of GIVEN before and of LEFT after, and TEXT is printed. Any other can't be opened, since nothing was
# open there when the program began, and nothing is made or changed. But once three files are held open DATA gets the
# next number, whose name is its second one: with that, SECOND is the message, if there is one.
takes() {
    local name=$1 text=$2 second=$3 given=$4 left=$5 number word status printed message ended
    local streams=${closed// /} fault=4 unopened='Cannot open' unwritten='Cannot write output.'
    shift 5
    if [ "$1" = "$fsverity" ]; then
        fault=1 unopened='fsverity: cannot open' unwritten='fsverity: cannot write output.'
    fi
    for number in {0..9}; do
        word=$at/$number status=$fault printed='' ended=0
        message="$unopened $word."
        truncate -s 0 "$found"/{0,1,2} "$expected"/{0,1,2}
        if [ -e "$found/hash" ]; then rm -f "$found/hash" "$expected/hash"; fi
        if [ $number -lt 3 ] && [[ $closed != *$number* ]]; then
            status=0 printed=${text//@/$word} message=''
            if [[ $closed = *1* && -n $text ]]; then status=$fault message=$unwritten; fi
            cp "$given" "$found/$number"
            cp "$left" "$expected/$number"
            if [ "${!#}" = "$found/hash" ]; then cp "$stated" "$expected/hash"; fi
        elif [ $number -eq $((6 - ${#streams})) ] && [ -n "$second" ]; then
            status=1 message=$second
        fi
        if [[ $closed != *1* ]]; then printf %s "${printed:+$printed$'\n'}" >>"$expected/1"; fi
        if [[ $closed != *2* ]]; then printf %s "${message:+$message$'\n'}" >>"$expected/2"; fi
        with_closed "$closed" "${within[@]}" "${@/#@/$word}" <"$found/0" >>"$found/1" 2>>"$found/2" || ended=$?
        same "$name as $word, '$closed' closed: status" $status $ended
        same "$name as $word, '$closed' closed: what is left" '' "$(diff -r "$expected" "$found" 2>&1)"
    done
}

# descriptors FOLDER WORD..: each command takes the names of descriptors in this folder, begun by these words.
descriptors() {
    local at=$1 within=("${@:2}") image=("${image_17_options[@]}") digest=${line%% *}
    takes DATA "$(report "$found/hash" 512 512 17 - "$root")" '' "$data" "$data" \
        "$veritysetup" format "${image[@]}" @ "$found/hash"
    takes HASH "$(report @ 512 512 17 - "$root")" 'Data area and hash area overlap.' /dev/null "$stated" \
        "$veritysetup" format "${image[@]}" "$found/data" @
    takes 'HASH of dump' "$(report @ 512 512 17 -)" '' "$stated" "$stated" "$veritysetup" dump @
    takes 'DATA of verify' '' '' "$data" "$data" "$veritysetup" verify @ "$found/stated" "$root"
    takes 'HASH of verify' '' 'No verity superblock.' "$stated" "$stated" \
        "$veritysetup" verify "$found/data" @ "$root"
    takes FILE "$digest @" '' "$file" "$file" "$fsverity" digest @
    takes 'the tree' "$digest $found/file" '' "$scratch/longer" "$scratch/tree_expected" \
        "$fsverity" digest --out-merkle-tree @ "$found/file"
    takes 'the descriptor' "$digest $found/file" '' "$scratch/longer" "$scratch/descriptor_expected" \
        "$fsverity" digest --out-descriptor @ "$found/file"
}

# Other names of descriptors, and one of a descriptor that is open.
other_names() {
    runs 'standard input, closed' 1 '' 'fsverity: cannot open /dev/stdin.' with_closed 0 "$fsverity" digest /dev/stdin
    runs 'descriptor 3 in /proc' 4 '' 'Cannot open /proc/self/fd/3.' \
        "$veritysetup" format "${image_17_options[@]}" "$data" /proc/self/fd/3
    runs 'descriptor 3, open' 0 "${line%% *} /dev/fd/3" '' "$fsverity" digest /dev/fd/3 3<"$file"
}

# ends_in_turn NAME ENDS COMMAND..: the command ends in these ways, one after another, the more files it may have open.
# An end is what it prints, and a line with its status. A loader that can't open a library ends with 127.
ends_in_turn() {
    local name=$1 expected=$2 found='' now last='' count
    shift 2
    for ((count = 3; count < 16; count++)); do
        now=$( (ulimit -n $count && exec "$@") 2>&1 </dev/null || echo "status $?")
        if [[ $now != *'status 127' && $now != "$last" ]]; then
            found+=$now$'\n'
            last=$now
        fi
    done
    same "few open files: $name" "$expected" "${found%$'\n'}"
}

# unopened TEXT STATUS FILE..: the ends of a program that names the first file that it can't open.
unopened() {
    printf "$1 %s.\nstatus $2\n" /dev/null "${@:3}"
}

few_open_files() {
    local wrong tree=$scratch/tree made=$scratch/made
    if is_imitated; then
        echo 'few open files: no case for programs that qemu runs, since it may wait without end there'
        return
    fi
    wrong=$(printf '%064d' 0)
    ends_in_turn verify "$(unopened 'Cannot open' 4 "$data" "$stated")
Verification failed: root hash is $root.
status 2" "$veritysetup" verify "$data" "$stated" "$wrong"
    ends_in_turn 'verify without a superblock' "$(unopened 'Cannot open' 4 "$data" "$stated")
Verification failed: root hash is $root.
status 2" "$veritysetup" verify --no-superblock --data-block-size 512 --hash-block-size 512 --hash-offset 512 --salt=- \
        "$data" "$stated" "$wrong"
    ends_in_turn dump "$(unopened 'Cannot open' 4 "$stated")
$(report "$stated" 512 512 17 -)" "$veritysetup" dump "$stated"
    ends_in_turn format "$(unopened 'Cannot open' 4 "$data" "$hash")
$(report "$hash" 512 512 17 - "$root")" "$veritysetup" format "${image_17_options[@]}" "$data" "$hash"
    same_bytes 'few open files: format: the hash file' "$stated" "$hash"
    ends_in_turn digest "$(unopened 'fsverity: cannot open' 1 "$file")
$line" "$fsverity" digest "$file"
    ends_in_turn 'output files' "$(unopened 'fsverity: cannot open' 1 "$file" "$tree" "$made")
$line" "$fsverity" digest --out-merkle-tree "$tree" --out-descriptor "$made" "$file"
    same_bytes 'few open files: the tree' "$scratch/tree_expected" "$tree"
    same_bytes 'few open files: the descriptor' "$scratch/descriptor_expected" "$made"
}

for closed in '' 0 1 2 '0 1' '0 2' '1 2' '0 1 2'; do
    for outputs in '' tree made 'tree made'; do
        rm -f "$scratch/tree" "$scratch/made"
        # shellcheck disable=SC2086
        digests_to $outputs
    done
    # The files are there now, and longer.
    sample 9000 >"$scratch/tree"
    sample 9000 >"$scratch/made"
    digests_to tree made
    hash_devices
    # Of what qemu runs each start takes long.
    if ! is_imitated || [ "$closed" = '' ] || [ "$closed" = '0 1 2' ]; then
        descriptors /dev/fd
        if can_hide_devices; then descriptors /proc/self/fd "${without_devices[@]}"; fi
    fi
done
if ! can_hide_devices; then echo "left out: names of descriptors without /dev: it can't be hidden here"; fi
other_names
few_open_files
finish
