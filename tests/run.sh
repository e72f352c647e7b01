#!/usr/bin/env bash
# tests/run.sh PART.. [-- PART.. [-- PART..]]: runs each part, a command line in one argument, and shows its
# output under a line that says how far the run is. The first parts run one after another, and their output is shown as
# it comes; one that prints the line `the next part may begin` goes on beside what comes next. Parts after `--` run side
# by side, as many at once as there are processors, and each one's output is shown whole, in the order of the parts.
# Those after a second `--` need nothing of the others: they begin as soon as there is a processor, also beside the first
# ones, and give way to all others.
# Each part has to end with a line 'N passed, M failed', and so does the whole run, with the sums. The status is 1 if
# anything failed, or a part ended without that line. A part says by lines 'left out: ..' what it has left out; one that
# ends with status 77 was left out itself, and its last line says why. If MAY_BE_LEFT_OUT is set, it has patterns, each
# on a line, and what none of them matches counts as failed if it is left out.
# FIRST_LOG names what the first part has printed so far, for those that go by it; FIRST_LOG.ended is there once it has
# ended. Once a minute, or every SAY_EVERY seconds, a line says which parts run, and what each one has printed last. If
# COMMAND names a command of docs/TESTS.md, and the run took much longer than that says, a line at the end says so.
set -u
cd "$(dirname "$0")/.."
logs=$(mktemp -d)
export FIRST_LOG=$logs/0
running=()

# ends_all: ends what still runs, stopped parts too, and says nothing of it.
ends_all() {
    local group
    exec 2>/dev/null
    for group in "${running[@]}"; do
        kill -- "-$group"
        kill -CONT -- "-$group"
    done
    rm -rf "$logs"
}

trap ends_all EXIT
trap 'exit 130' INT
trap 'exit 143' TERM
processors=$(nproc)
passed=0
failed=0
left_out=()
broken=()

# The parts: up to the number `alone` those that run one after another, and from `free` on those that wait for none.
parts=()
alone=$# free=$#
for word in "$@"; do
    if [ "$word" != -- ]; then
        parts+=("$word")
    elif [ $alone -eq $# ]; then
        alone=${#parts[@]}
    else
        free=${#parts[@]}
    fi
done

# run INDEX: runs a part. Its status, its seconds and those of processor time go to a file, which is there once they are
# in it, and then a line to the pipe that `waits` reads. The line says no more than that a part has ended: a `read` whose
# time is over may have taken half of a number.
run() {
    local status=0 first=
    if [ "$1" -ge $free ]; then first='nice -n 19'; fi
    # shellcheck disable=SC2086
    $first ${parts[$1]} 4>&- || status=$?
    times >"$logs/$1.times"
    echo "$status $((SECONDS - begun[$1])) $(processor_seconds "$logs/$1.times")" >"$logs/$1.ends"
    mv "$logs/$1.ends" "$logs/$1.ended"
    echo >&4
}

# processor_seconds FILE: the seconds that `times` gives in its second line, those of a shell's children.
processor_seconds() {
    tail -n 1 "$1" | tr ms '  ' | awk '{printf "%.0f\n", 60 * ($1 + $3) + $2 + $4}'
}

# begins INDEX: begins a part in the background, as a group of processes, so that one signal ends all of it.
begins() {
    begun[$1]=$SECONDS
    : >"$logs/$1"
    run "$1" >>"$logs/$1" 2>&1 </dev/null &
    running[$1]=$!
}

# begins_next: begins the parts whose turn it is.
begins_next() {
    while [ "$next" -lt "${#parts[@]}" ] && [ "$next" -lt $free ] && has_place; do begins $((next++)); done
    while [ "$next_free" -lt "${#parts[@]}" ] && has_processor; do begins $((next_free++)); done
}

# has_place: whether the next part may begin. Up to the first of those side by side the one before it has to have ended,
# or to have said that the next may begin.
has_place() {
    if [ "$next" -gt 0 ] && [ "$next" -le $alone ] && [ -n "${running[next - 1]:-}" ] &&
        ! grep -qx 'the next part may begin' "$logs/$((next - 1))"; then return 1; fi
    [ "$next" -lt $alone ] || has_processor
}

# has_processor: whether fewer parts run than there are processors.
has_processor() {
    [ ${#running[@]} -lt "$processors" ]
}

# waits: until a part ends, for a second at most. What was killed has said nothing.
waits() {
    local index
    read -r -t 1 <&4
    for index in "${!running[@]}"; do
        if ! kill -0 "${running[$index]}" 2>/dev/null && [ ! -e "$logs/$index.ended" ]; then
            echo 137 0 0 >"$logs/$index.ended"
        fi
        if [ -e "$logs/$index.ended" ]; then unset "running[$index]"; fi
    done
}

# shows: shows what can be shown by now, in the order of the parts.
shows() {
    while [ "$shown" -lt ${#parts[@]} ] && [ -n "${begun[$shown]:-}" ]; do
        if [ "$shown" -lt "$alone" ]; then shows_lines; fi
        if [ -n "${running[$shown]:-}" ]; then return; fi
        if [ "$shown" -lt "$alone" ]; then ends_lines; else shows_whole "$shown"; fi
        shown=$((shown + 1))
    done
}

# shows_whole INDEX: shows and counts a part that has ended.
shows_whole() {
    title "$1"
    cat "$logs/$1"
    count "$1"
}

# shows_lines: shows the lines that the part which runs alone has printed since. `rest` is a line that isn't whole yet.
shows_lines() {
    local line
    if [ $half_shown -eq 0 ]; then
        half_shown=1 rest=
        title "$shown"
        exec 3<"$logs/$shown"
    fi
    while IFS= read -r line <&3; do
        printf '%s\n' "$rest$line"
        rest=
    done
    rest+=$line
}

# ends_lines: shows the rest of a part that ran alone, and counts it.
ends_lines() {
    if [ -n "$rest" ]; then printf '%s\n' "$rest"; fi
    exec 3<&-
    half_shown=0
    count "$shown"
}

# title INDEX: the line over a part's output.
title() {
    echo "== $(($1 + 1)) of ${#parts[@]}: ${parts[$1]}"
}

# count INDEX: adds what the last line of a part's output says, and keeps the lines of what it left out.
count() {
    local part=${parts[$1]} status seconds used last good bad line
    read -r status seconds used <"$logs/$1.ended"
    echo "== $seconds seconds, $used of processor time"
    last=$(tail -n 1 "$logs/$1")
    while IFS= read -r line; do leaves_out "${line#left out: }"; done < <(grep '^left out: ' "$logs/$1")
    if [[ $last =~ ^([0-9]+)\ passed,\ ([0-9]+)\ failed$ ]]; then
        good=${BASH_REMATCH[1]} bad=${BASH_REMATCH[2]}
        passed=$((passed + good))
        failed=$((failed + bad))
        if [ "$status" -eq 0 ] && [ "$bad" -eq 0 ]; then return; fi
        # A status that says more than the count does is a failure of its own.
        if [ "$bad" -eq 0 ]; then failed=$((failed + 1)); fi
    elif [ "$status" -eq 77 ]; then
        leaves_out "$last"
        return
    else
        failed=$((failed + 1))
    fi
    broken+=("$part (status $status)")
}

# leaves_out WHAT: keeps what was left out. It has failed if MAY_BE_LEFT_OUT is set, and none of its patterns matches.
leaves_out() {
    local pattern
    while IFS= read -r pattern; do
        # shellcheck disable=SC2053
        if [ -n "$pattern" ] && [[ $1 == $pattern ]]; then
            left_out+=("$1")
            return
        fi
    done <<<"${MAY_BE_LEFT_OUT-*}"
    failed=$((failed + 1))
    broken+=("left out: $1")
}

# says_what_runs: once a minute, which parts run, and the last line of what each has printed, or its seconds.
says_what_runs() {
    local index last all=''
    if [ $((SECONDS - said)) -lt "${SAY_EVERY:-60}" ] || [ ${#running[@]} -eq 0 ]; then return; fi
    said=$SECONDS
    for index in "${!running[@]}"; do
        last=$(tail -n 1 "$logs/$index" | tr -d '[:cntrl:]')
        if [ ${#last} -gt 70 ]; then last=${last:0:68}..; fi
        all+=" | ${parts[$index]#env }: ${last:-$((SECONDS - begun[index])) seconds}"
    done
    echo "-- $(minutes): ${all# | }"
}

# minutes: how long the run has taken so far.
minutes() {
    local minutes=$((SECONDS / 60))
    if [ $minutes -eq 1 ]; then echo '1 minute'; else echo "$minutes minutes"; fi
}

# says_minutes: says it if the run took more than 1.3 times the minutes that docs/TESTS.md says for COMMAND.
says_minutes() {
    local stated
    if [ -z "${COMMAND:-}" ]; then return; fi
    stated=$(sed -nE "s/^\| \`$COMMAND\` \|.*\| ([0-9]+) minutes?.* \|\$/\1/p" docs/TESTS.md)
    if [ -n "$stated" ] && [ $((SECONDS * 10)) -gt $((stated * 60 * 13)) ]; then
        echo "this took $(minutes), where docs/TESTS.md says $stated"
    fi
}

set -m
mkfifo "$logs/ended"
exec 4<>"$logs/ended"
begun=()
next=0
next_free=$free
shown=0
half_shown=0
said=0
while
    begins_next
    shows
    [ "$shown" -lt ${#parts[@]} ]
do
    says_what_runs
    waits
done
for line in "${left_out[@]}"; do echo "left out: $line"; done
for part in "${broken[@]}"; do echo "FAILED: $part"; done
says_minutes
echo "$passed passed, $failed failed"
[ "$failed" -eq 0 ] && [ "$passed" -gt 0 ]
