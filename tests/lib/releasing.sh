# What tests/release.sh and tests/packages.sh share: which programs have to be built, what is here as one commit,
# commands as root, what stands below a folder, and what is refused. Sourced after tests/lib/checks.sh.

# has_programs GOAL FOLDER..: stops if a folder has no programs, which this goal of make builds.
has_programs() {
    local folder
    for folder in "${@:2}"; do
        if [ ! -x "$folder/fsverity" ] || [ ! -x "$folder/veritysetup" ]; then
            echo "$0: $folder has no programs: run 'make $1' first" >&2
            exit 1
        fi
    done
}

# commits FOLDER MESSAGE: commits all that stands in a repository.
commits() {
    git -C "$1" add -A
    git -C "$1" -c user.name=name -c user.email=name@localhost commit -q --allow-empty -m "$2"
}

# as_a_commit FOLDER: copies the sources and what is built of them, as a repository of one commit.
as_a_commit() {
    mkdir "$1"
    tar -c --exclude=./.git --exclude='./crates/*/out' --exclude=./dist . | tar -x -C "$1"
    git -C "$1" init -q
    commits "$1" 'What is here'
}

# as_root COMMAND..: runs a command as root, or as the root of a namespace of its own.
as_root() {
    if [ "$(id -u)" -eq 0 ]; then "$@"; else unshare --map-root-user "$@"; fi
}

# needs_root: ends with status LEFT_OUT if no command can be run as root.
needs_root() {
    if ! as_root true 2>/dev/null; then
        echo "$0: nothing can be run as root here"
        exit $LEFT_OUT
    fi
}

# listing FOLDER: all that stands below it but folders, with modes, owners, and where links point. The root of a
# namespace is the user outside.
listing() {
    (cd "$1" && find . ! -type d -printf '%M %U/%G %P %l\n') | sed "s| $(id -u)/$(id -g) | 0/0 |; s/ \$//" | sort -k 3
}

# refuses NAME MESSAGE FOLDER GOAL: make there ends with an error that the script names, and makes no archive.
refuses() {
    runs "$1" 2 '' any make -s -C "$3" --no-print-directory "$4" DIST="$scratch/refused"
    same "$1: why" "$4.sh: $2" "$(head -n 1 "$scratch/.err")"
    absent "$1" "$scratch/refused"
}
