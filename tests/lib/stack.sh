# The stack that README.md names, for programs that get no more. Sourced after tests/lib/checks.sh.

sentence='.*The programs work within ([0-9]+) KiB of stack, and within ([0-9]+) with blocks above ([0-9]+) bytes.*'
read -r usual_stack large_stack most_usual < <(sed -nE "s/$sentence/\1 \2 \3/p" README.md)
if [ -z "$most_usual" ]; then
    fail 'README.md' 'it does not say within how much stack the programs work'
    finish
    exit 1
fi

# stack_for BLOCK: sets `stack` to how many KiB a program needs for blocks of so many bytes.
stack_for() {
    if [ "$1" -gt "$most_usual" ]; then stack=$large_stack; else stack=$usual_stack; fi
}

# within COMMAND..: runs a command with `stack` KiB and no more. For the programs that it runs qemu has a setting.
within() {
    if is_imitated; then
        QEMU_STACK_SIZE=$((stack * 1024)) "$@"
    else
        (ulimit -S -s "$stack" && "$@")
    fi
}
