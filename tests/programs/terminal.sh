#!/usr/bin/env bash
# Runs the programs on a terminal of their own, which `script` makes: long work shows there every 64 MiB how far it
# is, if there are more than 256 MiB, and after ten seconds how long the rest will take, which is erased before anything
# else is written; if standard error goes elsewhere, nothing is shown. For programs that qemu runs, for which all of it
# takes minutes, there is one case of each command.
set -u
cd "$(dirname "$0")/../.."
. tests/lib/checks.sh
. tests/lib/stated_images.sh
needs script bsdutils
has_program fsverity
has_program veritysetup
if ! script --quiet --return --command true /dev/null >/dev/null 2>&1 </dev/null; then
    echo "$0: script can't make a terminal here"
    exit $LEFT_OUT
fi

# shown LAST TOTAL: what a terminal gets of work of TOTAL bytes that ends after LAST MiB, with N for each rate and
# without the time left: a line each 64 MiB, and what erases it.
shown() {
    local done
    for ((done = 64; done <= $1; done += 64)); do
        printf '\r%s%%, %s of %s MiB, N MiB/s\033[K' $(((done << 20) * 100 / $2)) "$done" $(($2 >> 20))
    done
    printf '\r\033[K'
}

# without_times: a terminal's lines with N for each rate and without the time left.
without_times() {
    sed -E 's/, [0-9]+ MiB\/s(, [0-9]+(:[0-5][0-9]){1,2} left)?/, N MiB\/s/g'
}

# terminal NAME STATUS LINES TEXT COMMAND..: a command ends with this status, and the terminal gets these lines that say
# how far it is, and then this text, with a carriage return before each new line.
terminal() {
    local name=$1 status=$2 lines=$3 text=$4 found=0
    shift 4
    { printf %s "$lines" && if [ -n "$text" ]; then sed 's/$/\r/' <<<"$text"; fi; } >"$scratch/expected"
    SHELL=$BASH script --quiet --return --command "$(printf '%q ' "$@")" /dev/null >"$scratch/typed" 2>&1 \
        </dev/null || found=$?
    without_times <"$scratch/typed" >"$scratch/found"
    same "$name: status" "$status" "$found"
    same "$name: the terminal" "$(cat -A "$scratch/expected")" "$(cat -A "$scratch/found")"
}

# The start of a command of which one stream goes to the file named next.
out_to=(bash -c 'file=$0; exec "$@" >"$file"')
err_to=(bash -c 'file=$0; exec "$@" 2>"$file"')

data=$scratch/data
middle=$scratch/middle
short=$scratch/short
hash=$scratch/hash.img
long_size=1153433700
middle_size=314572800
truncate -s $long_size "$data"
truncate -s $middle_size "$middle"
truncate -s 268435456 "$short"

images() {
    local veritysetup=$BIN/veritysetup root report first
    local format=("$veritysetup" format --salt=- --uuid "$UUID" --data-blocks 76800 "$data" "$hash")
    local bare=(--no-superblock --salt=- --data-blocks 76800)
    report=$("${format[@]}")
    root=$(sed -n "s/^Root hash: *$TAB//p" <<<"$report")
    terminal 'format of 300 MiB' 0 "$(shown 300 $middle_size)" "$report" "${format[@]}"
    if is_imitated; then
        terminal 'verify' 0 "$(shown 300 $long_size)" '' "$veritysetup" verify "$data" "$hash" "$root"
        return
    fi
    terminal 'format: the report elsewhere' 0 "$(shown 300 $middle_size)" '' \
        "${out_to[@]}" "$scratch/out" "${format[@]}"
    same 'format: the report' "$report" "$(cat "$scratch/out")"
    terminal 'format: messages elsewhere' 0 '' "$report" "${err_to[@]}" "$scratch/err" "${format[@]}"
    is_text 'format: messages' '' "$scratch/err"
    first=$("$veritysetup" format --salt=- --uuid "$UUID" "$short" "$scratch/short.img")
    terminal 'format of 256 MiB' 0 '' "$first" \
        "$veritysetup" format --salt=- --uuid "$UUID" "$short" "$scratch/short.img"

    terminal 'verify' 0 "$(shown 300 $long_size)" '' "$veritysetup" verify "$data" "$hash" "$root"
    tail -c +4097 "$hash" >"$scratch/bare.img"
    terminal 'verify without a superblock' 0 "$(shown 300 $middle_size)" '' \
        "$veritysetup" verify "${bare[@]}" "$data" "$scratch/bare.img" "$root"
    terminal 'verify with another root hash' 2 "$(shown 300 $long_size)" "Verification failed: root hash is $root." \
        "$veritysetup" verify "$data" "$hash" "${root//[0-4]/5}"
    terminal 'verify with a bad root hash' 1 '' 'Root hash is not valid.' "$veritysetup" verify "$data" "$hash" 00
}

files() {
    local fsverity=$BIN/fsverity line missing="fsverity: cannot open $scratch/missing."
    if is_imitated; then
        terminal 'digest of 300 MiB' 0 "$(shown 300 $middle_size)" "$("$fsverity" digest "$middle")" \
            "$fsverity" digest "$middle"
        return
    fi
    long_line=$("$fsverity" digest "$data")
    terminal 'digest of 1100 MiB' 0 "$(shown 1100 $long_size)" "$long_line" "$fsverity" digest "$data"
    terminal 'digest of 256 MiB' 0 '' "$("$fsverity" digest "$short")" "$fsverity" digest "$short"
    line=$("$fsverity" digest "$middle")
    terminal 'digest: the line elsewhere, and a missing file' 1 "$(shown 300 $middle_size)" "$missing" \
        "${out_to[@]}" "$scratch/out" "$fsverity" digest "$middle" "$scratch/missing"
    same 'digest: the line' "$line" "$(cat "$scratch/out")"
    terminal 'digest: messages elsewhere' 1 '' "$line" \
        "${err_to[@]}" "$scratch/err" "$fsverity" digest "$middle" "$scratch/missing"
    is_text 'digest: messages' "$missing" "$scratch/err"
}

# The time left is there from ten seconds on, and not before: the work is stopped for ten seconds after its first line.
# Script stops itself with its command, and goes on with it.
stopped() {
    local script last tries=0
    SHELL=$BASH timeout 120 script --quiet --return --flush \
        --command "echo \$\$ >'$scratch/pid'; exec '$BIN/fsverity' digest '$data'" /dev/null >"$scratch/typed" 2>&1 \
        </dev/null &
    script=$!
    until grep -q MiB "$scratch/typed" || [ $((tries += 1)) -gt 1000 ]; do sleep 0.01; done
    kill -STOP "$(cat "$scratch/pid")"
    sleep 10
    kill -CONT "$(pgrep -P "$script")" "$(cat "$scratch/pid")"
    wait "$script"
    { shown 1100 $long_size && printf '%s\r\n' "$long_line"; } >"$scratch/expected"
    same 'stopped: the terminal' "$(cat -A "$scratch/expected")" "$(without_times <"$scratch/typed" | cat -A)"
    tr '\r' '\n' <"$scratch/typed" | grep MiB >"$scratch/found"
    same 'stopped: the first line' 0 "$(head -n 1 "$scratch/found" | grep -c left)"
    last=$(tail -n 1 "$scratch/found")
    if [[ $last =~ ^'98%, 1088 of 1100 MiB, '[0-9]+' MiB/s, 0:00 left' ]]; then
        pass
    else
        fail 'stopped: the last line' "found: $last"
    fi
}

images
files
if ! is_imitated; then stopped; fi
finish
