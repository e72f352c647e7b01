#!/usr/bin/env bash
# Checks docs/DIFFERENCES.md: for each row of its tables both programs are run, ours and Debian's, and do what their
# columns say. A row without checks fails, and so do checks without a row.
set -u
cd "$(dirname "$0")/../.."
. tests/lib/checks.sh
. tests/lib/stated_images.sh
. tests/lib/loops.sh
. tests/lib/background.sh
. tests/lib/debian.sh
has_program fsverity
has_program veritysetup
needs python3 python3
needs_other veritysetup cryptsetup-bin
needs_other fsverity fsverity

needs_versions

rows=()

# row FIRST-CELL: what follows are the checks of this row.
row() {
    row=$1
    rows+=("$1")
    rm -f "$scratch/hash" "$scratch/their_hash"
}

# theirs and ours STATUS OUT ERR COMMAND..: what Debian's program does, and what ours does, as `runs` has it.
theirs() {
    runs "$row: Debian's" "$@"
}

ours() {
    runs "$row: here" "$@"
}

# refused COMMAND..: ours refuses its options or its words, and says why on standard error alone.
refused() {
    local status=1
    case $1 in */fsverity) status=2 ;; esac
    ours $status '' any "$@"
}

# says WORD..: the last command said these words, on one of both streams.
says() {
    if grep -qF -- "$*" "$scratch/.out" "$scratch/.err"; then
        pass
    else
        fail "$row: what was said" "expected: $*" "found:    $(cat "$scratch/.out" "$scratch/.err")"
    fi
}

# says_not WORD..: it didn't say them.
says_not() {
    if grep -qF -- "$*" "$scratch/.out" "$scratch/.err"; then
        fail "$row: $*" "found: $(cat "$scratch/.out")"
    else
        pass
    fi
}

# unread COMMAND..: runs a command whose standard output is a pipe that nobody reads, so that SIGPIPE ends a program.
unread() {
    rm -f "$scratch/unread"
    mkfifo "$scratch/unread"
    # shellcheck disable=SC2016
    env --default-signal=PIPE bash -c 'exec 8<>"$0" && exec 9>"$0" && exec 8>&- && exec "$@" >&9' "$scratch/unread" "$@"
}

# limited KIB COMMAND..: runs a command that may make no file longer than this: what goes beyond is refused, as it is on
# a full disk.
limited() {
    # shellcheck disable=SC2016
    bash -c 'ulimit -f "$0" && trap "" XFSZ && exec "$@"' "$@"
}

# waits STATUS OUT ERR COMMAND..: a command waits until somebody opens $scratch/pipe for writing, and then ends as
# `runs` has it. Before it has come to the pipe nobody can open it so without waiting.
waits() {
    starts "${@:4}"
    if waits_for dd if=/dev/null of="$scratch/pipe" oflag=nonblock conv=notrunc status=none 2>/dev/null; then
        pass
    else
        fail "$row: ${*:4}" 'it does not wait'
        kill "$pid" 2>/dev/null
    fi
    # Whoever opens the pipe again waits no more.
    exec 9<>"$scratch/pipe"
    ended "$row: ${*:4}" "$1" "$2" "$3"
    exec 9>&-
}

# size BYTES FILE: how long a file is.
size() {
    same "$row: size of ${2##*/}" "$1" "$(stat -c %s "$2")"
}

# table FILE: the first cells of its tables' rows.
table() {
    sed -n 's/^| \([^|][^|]*\) |.*$/\1/p' "$1" | sort
}

. tests/interop/differences/veritysetup.sh
. tests/interop/differences/command_lines.sh
. tests/interop/differences/fsverity.sh
. tests/interop/differences/in_both.sh

same 'rows without checks' '' "$(comm -23 <(table docs/DIFFERENCES.md) <(printf '%s\n' "${rows[@]}" | sort))"
same 'checks without a row' '' "$(comm -13 <(table docs/DIFFERENCES.md) <(printf '%s\n' "${rows[@]}" | sort))"
finish
