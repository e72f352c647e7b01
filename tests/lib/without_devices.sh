# Where there are no device files, as in a container without any: in a name space of its own, in which an empty file
# system stands over /dev. Sourced after tests/lib/checks.sh.

# What begins a command there.
without_devices=(unshare --mount)
if [ "$(id -u)" -ne 0 ]; then without_devices=(unshare --map-root-user --mount); fi
without_devices+=(sh -c 'mount -t tmpfs none /dev && exec "$@"' -)

# can_hide_devices: whether that can be had here.
can_hide_devices() {
    "${without_devices[@]}" test ! -e /dev/null 2>/dev/null
}
