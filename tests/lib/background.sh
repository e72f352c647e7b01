# Runs in the background that can be stopped and ended by signals. Sourced after tests/lib/checks.sh.

# starts COMMAND..: runs a command in the background, and lets signals end it as they do in a terminal. Sets `pid`.
starts() {
    env --default-signal=INT,TERM,XFSZ "$@" >"$scratch/.out" 2>"$scratch/.err" </dev/null &
    pid=$!
}

# waits_for COMMAND..: waits until a command succeeds, for at most a minute.
waits_for() {
    local tries=6000
    until "$@"; do
        tries=$((tries - 1))
        if [ "$tries" -eq 0 ] || ! kill -0 "$pid" 2>/dev/null; then return 1; fi
        sleep 0.01
    done
}

# ended NAME STATUS OUT ERR: what runs in the background ends in this way, as `runs` has it.
ended() {
    local found=0
    # The shell's own line on a signal is no part of it.
    { wait "$pid" || found=$?; } 2>/dev/null
    same "$1: status" "$2" "$found"
    is_text "$1: standard output" "$3" "$scratch/.out"
    is_text "$1: standard error" "$4" "$scratch/.err"
}

# read_so_far FILE: prints how many bytes of a file the process has read, if it has it open.
read_so_far() {
    local link
    for link in /proc/"$pid"/fd/*; do
        if [ "$(readlink "$link")" = "$1" ]; then
            sed -n 's/^pos:[[:space:]]*//p' "/proc/$pid/fdinfo/${link##*/}"
            return
        fi
    done 2>/dev/null
}

has_read() {
    local found
    found=$(read_so_far "$1")
    [ "${found:-0}" -gt 0 ]
}

is_stopped() {
    grep -q '^State:[[:space:]]*T' "/proc/$pid/status"
}

# is_within FILE: the process has read a part of a file. Sets `at` to how many bytes of it.
is_within() {
    at=$(read_so_far "$1")
    at=${at:-0}
    [ "$at" -gt 0 ] && [ "$at" -lt "$(stat -c %s "$1")" ]
}

# stopped_once CONDITION FILE COMMAND..: starts a command, and stops it once CONDITION FILE succeeds, while it reads the
# file. Sets `pid`, and `at` to how many bytes of the file it has read. A command that was through before it could be
# stopped is started again, a few times. Fails if it was never stopped.
stopped_once() {
    local condition=$1 file=$2 tries=5
    shift 2
    until starts "$@" && waits_for "$condition" "$file" && kill -STOP "$pid" && waits_for is_stopped &&
        is_within "$file"; do
        tries=$((tries - 1))
        if [ "$tries" -eq 0 ]; then return 1; fi
        { kill -KILL "$pid"; wait "$pid"; } 2>/dev/null
    done
}

# stopped_in FILE COMMAND..: the same, as soon as the command has read some of a file.
stopped_in() {
    stopped_once has_read "$@"
}
