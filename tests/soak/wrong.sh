#!/usr/bin/env bash
# A program with a fault, by which the soak shows that it sees one: runs the program of the same name in the folder
# REAL, and makes wrong what FAULT names.
set -u
real=$REAL/${0##*/}
case $FAULT in
status)
    "$real" "$@"
    exit $(($? + 1))
    ;;
output)
    set -o pipefail
    "$real" "$@" | tr 0 1
    ;;
message)
    "$real" "$@" 2> >(tr 0 1 >&2)
    ;;
byte)
    "$real" "$@"
    status=$?
    # The last byte of what was made.
    for file in hash tree descriptor; do
        if [ -s "$file" ]; then
            truncate -s -1 "$file"
            printf x >>"$file"
        fi
    done
    exit $status
    ;;
file)
    : >new
    exec "$real" "$@"
    ;;
esac
