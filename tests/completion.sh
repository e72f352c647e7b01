#!/usr/bin/env bash
# Completes words of both programs by the functions that bash calls for them, and compares what they offer with the
# programs' own usage and the manual's values; and in a bash of its own, on a terminal of script. zsh and fish have to
# offer the same. BIN=FOLDER takes the programs of another folder.
set -u
cd "$(dirname "$0")/.."
. tests/lib/checks.sh
. completions/fsverity
. completions/veritysetup
has_program fsverity
has_program veritysetup
top=$PWD

# The other shells, in a folder without files.
mkdir "$scratch/empty" "$scratch/home"
shells=()
for shell in zsh fish; do
    if command -v $shell >/dev/null; then
        shells+=($shell)
    else
        echo "left out: completion for $shell: $shell is not installed"
    fi
done

# zsh_offers LINE, fish_offers LINE: what the shell offers behind a line, sorted, without the option in the same word.
zsh_offers() {
    timeout 60 zsh -f "$top/tests/lib/zsh_offers.zsh" "$top/completions" "$1" | sort
}

fish_offers() {
    HOME=$scratch/home fish --no-config -c "source '$top/completions/${1%% *}.fish'; complete -C \$argv[1]" "$1" |
        cut -f 1 | sed 's/^--[a-z-]*=//' | sort
}

# other_shells OFFERED LINE: zsh and fish offer this behind a line, in any order, in the folder they are in.
other_shells() {
    local shell
    for shell in "${shells[@]}"; do
        same "$shell, offered after: $2" "$(tr ' ' '\n' <<<"$1" | sort | paste -sd ' ')" \
            "$("${shell}_offers" "$2" | paste -sd ' ')"
    done
}

# offers OFFERED WORD..: while the last of a line's words is being typed, all of this is offered, in order. Bash cuts
# words at = too.
offers() {
    local offered=$1 function line
    shift
    COMP_WORDS=("$@")
    COMP_CWORD=$(($# - 1))
    function=$(complete -p "$1" | sed -nE 's/^complete -F ([a-z_]+) .*/\1/p')
    COMPREPLY=()
    "$function" "$1" "${@: -1}" "${@: -2:1}"
    same "offered after: $*" "$offered" "${COMPREPLY[*]-}"
    line=$*
    line=${line// =/=}
    cd "$scratch/empty" || exit 1
    other_shells "$offered" "${line//= /=}"
    cd "$top" || exit 1
}

# usage PROGRAM COMMAND: the options that the program's usage lists, in order.
usage() {
    "$BIN/$1" "$2" 2>&1 </dev/null | sed -n '/^Usage:/,$p' | grep -oE -e '--[a-z-]+' | tr '\n' ' ' | sed 's/ $//'
}

options() {
    local command program
    for command in 'veritysetup format' 'veritysetup verify' 'veritysetup dump' 'fsverity digest'; do
        program=${command% *}
        # shellcheck disable=SC2086
        offers "$(usage $command)" $command -
        if [[ $(usage "$program" "${command#* }") = --* ]]; then pass; else fail "$command" 'its usage has no option'; fi
    done
    offers '--data-block-size --data-blocks' veritysetup verify --data
    offers '--salt' fsverity digest one --sa
    offers '--uuid' veritysetup format --u
    offers '' veritysetup verify --u
    # An option that was given is not offered again, and a whole word is itself.
    offers '--hash-block-size --hash-offset' veritysetup format --hash sha1 --has
    offers '--hash-block-size' veritysetup verify --hash = sha1 --hash-offset 512 --hash-
    offers '--compact' fsverity digest --compact
    # After -- there are files alone, and the options and values of one command aren't those of another.
    offers '' veritysetup format --hash sha1 -- --
    offers '' veritysetup verify -- --hash sha
    offers '' fsverity digest one -- --
    offers '' fsverity digest -- --hash-alg sha
    offers '' veritysetup dump --hash sha
    offers '' veritysetup verify --uuid = x
    offers '' veritysetup open --
    offers '' veritysetup open --format 0
    offers '' fsverity sign --
    offers '' fsverity sign --hash-alg sha
    offers '' fsverity digest --compact --compa
}

values() {
    local sizes='512 1024 2048 4096 8192 16384 32768 65536 131072 262144 524288'
    offers 'format dump verify' veritysetup ''
    offers 'dump' veritysetup d
    offers 'digest' fsverity ''
    offers '' fsverity x
    offers 'sha256 sha512 sha384 sha224 sha1' veritysetup format --hash ''
    offers 'sha256 sha224' veritysetup verify --hash sha2
    offers 'sha256 sha512 sha384 sha224 sha1' veritysetup format --hash =
    offers 'sha384' veritysetup format --hash = sha3
    offers '0 1' veritysetup format image --format ''
    offers "$sizes" veritysetup format --data-block-size ''
    offers '16384' veritysetup format --hash-block-size = 16
    offers 'sha256 sha512' fsverity digest --hash-alg ''
    offers 'sha512' fsverity digest --hash-alg = sha5
    offers "64 128 256 $sizes" fsverity digest --block-size ''
    offers "128 256 $sizes" fsverity digest --hash-alg sha512 --block-size ''
    offers '' veritysetup format --salt ''
    offers '' veritysetup format --hash-offset = ''
    offers '' fsverity digest --salt a
}

# completed LINE WORD..: typed into a bash of its own with a tab behind it, the line is completed, so that its program gets
# these words.
completed() {
    local line=$1
    shift
    printf '<%s>' "$@" >"$scratch/expected_words"
    : >"$scratch/words"
    printf '%s\t\nexit\n' "$line" | SHELL=$BASH timeout 20 script --quiet --return \
        --command "bash --noprofile --rcfile '$scratch/rc' -i" /dev/null >"$scratch/terminal" 2>&1
    same "completed: $line" "$(cat "$scratch/expected_words")" "$(cat "$scratch/words")"
}

# Names of files, which bash completes by itself: with blanks, quotes and a tilde, in each place where a file may stand.
files() {
    local name
    if ! script --quiet --return --command true /dev/null >/dev/null 2>&1 </dev/null; then
        echo "left out: names of files: script is not installed, or can't make a terminal here"
        return
    fi
    mkdir "$scratch/files"
    {
        echo 'HISTFILE= PS1= PS2='
        echo "HOME='$scratch/files'"
        echo "cd '$scratch/files'"
        for name in fsverity veritysetup; do
            echo ". '$top/completions/$name'"
            echo "$name() { printf '<%s>' \"\$@\" >'$scratch/words'; }"
        done
    } >"$scratch/rc"
    : >"$scratch/files/a name"
    : >"$scratch/files/image"
    : >"$scratch/files/--salt"
    completed 'veritysetup format --hash sha1 im' format --hash sha1 image
    completed 'veritysetup verify data im' verify data image
    completed 'veritysetup dump --hash-offset 512 im' dump --hash-offset 512 image
    completed 'fsverity digest --compact a\ n' digest --compact 'a name'
    completed 'fsverity digest --compact "a n' digest --compact 'a name'
    completed 'veritysetup dump a' dump 'a name'
    completed 'fsverity digest --out-merkle-tree ~/im' digest --out-merkle-tree "$scratch/files/image"
    completed 'fsverity digest --out-descriptor=im' digest --out-descriptor=image
    mkdir "$scratch/files/alone"
    : >"$scratch/files/alone/only"
    completed $'cd alone\nfsverity digest --out-descriptor=' digest --out-descriptor=only
    completed 'fsverity digest none' digest none
    completed 'fsverity digest -- --compact im' digest -- --compact image
    completed 'veritysetup format -- im' format -- image
    completed 'fsverity sign im' sign image
    completed 'fsverity digest -- --s' digest -- --salt
    completed 'veritysetup verify -- --s' verify -- --salt
    # And words that aren't names of files.
    completed 'veritysetup verify --data-block-size=163' verify --data-block-size=16384
    completed 'fsverity dig' digest
}

# Each value that is offered is one that the program takes.
taken() {
    local value
    printf a >"$scratch/one"
    sample 524288 >"$scratch/data"
    for option in --hash-alg --block-size; do
        COMP_WORDS=(fsverity digest "$option" '') COMP_CWORD=3
        _complete_fsverity
        for value in "${COMPREPLY[@]}"; do
            runs "digest $option $value" 0 any '' "$BIN/fsverity" digest $option "$value" "$scratch/one"
        done
    done
    for option in --hash --format --data-block-size --hash-block-size; do
        COMP_WORDS=(veritysetup format "$option" '') COMP_CWORD=3
        _complete_veritysetup
        for value in "${COMPREPLY[@]}"; do
            runs "format $option $value" 0 any '' \
                "$BIN/veritysetup" format $option "$value" "$scratch/data" "$scratch/hash"
        done
    done
}

options
values
files
taken
finish
