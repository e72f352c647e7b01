# Loop devices over files, which are let go at the script's end, and nodes of devices. Sourced after
# tests/lib/checks.sh.

loops=()
trap 'if [ "${#loops[@]}" -gt 0 ]; then losetup --detach "${loops[@]}"; fi; rm -rf "$scratch"' EXIT

# loop_over FILE: makes a loop device over a file. Sets `loop`.
loop_over() {
    loop=$(losetup --find --show "$1" 2>/dev/null) && loops+=("$loop")
}

# node_of DEVICE NODE: makes one more node of a device.
node_of() {
    mknod "$2" b "0x$(stat -c %t "$1")" "0x$(stat -c %T "$1")" 2>/dev/null
}

# has_loops: whether this user may make loop devices and nodes of them, and open both.
has_loops() {
    rm -f "$scratch/tried_node"
    zeros 512 >"$scratch/tried" && loop_over "$scratch/tried" && node_of "$loop" "$scratch/tried_node" &&
        cmp -s "$loop" "$scratch/tried_node"
}

# needs_loops: ends with status LEFT_OUT if there are none.
needs_loops() {
    if ! has_loops; then
        echo "$0: no loop device can be made here"
        exit $LEFT_OUT
    fi
}
