# Runs the examples of documents word for word. Sourced after tests/lib/checks.sh, at the repository's root.

# The programs' messages as the manual pages have them, each after its status and with `_` for each name or number.
stated_messages=$(awk '/^\.Ss Status [0-9]$/ { status = $3 } sub(/^\.It /, "") && status { print status, $0 }
    /^\.Sh / { status = "" }' man/veritysetup.8 man/fsverity.1 | sed -E 's/\b[A-Z]+\b/_/g')

# stated_status TEXT: the status of an example that shows this text: that of the message at its end, and 0 if no
# message stands there.
stated_status() {
    local last
    last=$(tail -n 1 <<<"$1" | sed -E 's/\b[0-9a-f]*[0-9][0-9a-f]*\b/_/g')
    awk -v last="$last" 'substr($0, 3) == last { status = $1 } END { print status + 0 }' <<<"$stated_messages"
}

# lacking COMMAND: prints the first program of those that the examples use beside coreutils and isn't installed.
lacking() {
    local name
    for name in mke2fs mksquashfs openssl xxd; do
        if grep -qw "$name" <<<"$1" && ! command -v "$name" >/dev/null; then
            echo "$name"
            return
        fi
    done
}

# The locale of the examples: one for UTF-8, as most users have, if there is one. bash reads names by it.
locale=$(locale -a 2>/dev/null | grep -ixm 1 'c\.utf-\?8') || {
    locale=C
    echo 'left out: examples in a locale for UTF-8: there is none'
}

# run_example COMMAND EXPECTED: runs a command in this shell, so that its variables and its status stay for the next, and
# compares what it prints on both streams, and its status. If a program is missing, the rest of the group is left out
# with it.
run_example() {
    if [ -n "$missing" ]; then return; fi
    missing=$(lacking "$1")
    if [ -n "$missing" ]; then
        echo "left out: $document, from '${1%%$'\n'*}' on: $missing is not installed"
        return
    fi
    LC_ALL=$locale
    (exit "$status")
    eval "$1" >"$scratch/.shown" 2>&1 </dev/null
    status=$? LC_ALL=C
    is_text "$document: $1" "$2" "$scratch/.shown"
    same "$document: $1: status" "$(stated_status "$2")" "$status"
}

# run_examples DOCUMENT FILE: FILE has commands after '$ ', what they print below each, and a line '%' before each group
# of them. A backslash at a line's end carries a command on. Sets `examples`, how many there are.
run_examples() {
    local document=$1 line command='' expected='' missing='' status=0
    examples=0
    while IFS= read -r line; do
        if [[ $command == *\\ && -z $expected ]]; then
            command+=$'\n'$line
            continue
        fi
        case $line in
        '$ '* | %)
            if [ -n "$command" ]; then run_example "$command" "${expected%$'\n'}"; fi
            command='' expected=''
            if [ "$line" = % ]; then
                missing=
            else
                command=${line#\$ }
                examples=$((examples + 1))
            fi
            ;;
        *) expected+=$line$'\n' ;;
        esac
    done < <(cat "$2" && echo %)
}
