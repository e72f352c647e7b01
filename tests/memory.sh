#!/usr/bin/env bash
# Refuses each request for memory in turn, counting up until nothing is refused: of the run functions in
# crates/memory_tests, whose tests the gate has built, or else `rt test` builds, and of both programs' commands, by a
# library that is loaded before them. Needs the toolchain and a C compiler. BIN=FOLDER takes the programs of another
# folder. With --programs it is the programs alone, also such that qemu runs for 64-bit ARM; a static program loads no
# library.
set -u
cd "$(dirname "$0")/.."
. tests/lib/checks.sh
. tests/lib/stated_images.sh
# What compiles the library, and what loads it before a program.
compiler=cc package=gcc loader=LD_PRELOAD=
if is_imitated; then loader=QEMU_SET_ENV=LD_PRELOAD=; fi
if grep -qs '^qemu-aarch64' "$BIN/imitated"; then compiler=aarch64-linux-gnu-gcc package=gcc-aarch64-linux-gnu; fi
needs $compiler $package
has_program veritysetup
has_program fsverity
veritysetup=$BIN/veritysetup
fsverity=$BIN/fsverity
refuser=$scratch/refuse_memory.so

# The most requests of a run, so that a count that doesn't end is found.
most=2000

# some_refused NAME COUNT: so many requests were refused in turn; if it is none, nothing was tried.
some_refused() {
    if [ "$2" -gt 0 ]; then pass; else fail "$1" 'expected: requests that are refused' 'found:    none'; fi
    echo "$1: $2 requests"
}

# How each test of the run functions ends if a request is refused, from its first request to its last. Each ends whole
# if none is.
declare -A endings_of=(
    [veritysetup_runs::format_is_whole]='Unprepared Untouched Stopped'
    [veritysetup_runs::format_of_a_tree_alone_is_whole]='Unprepared Untouched Stopped'
    [veritysetup_runs::dump_is_whole]='Unprepared Untouched'
    [veritysetup_runs::verify_is_whole]='Unprepared Untouched'
    [veritysetup_runs::verify_of_a_tree_alone_is_whole]='Unprepared Untouched'
    [veritysetup_runs::verify_of_a_changed_device_is_whole]='Unprepared Untouched NoMessage'
    [fsverity_runs::digest_is_whole]='Unprepared Untouched Stopped'
    [fsverity_runs::digest_with_output_files_is_whole]='Unprepared Untouched Stopped'
    [fsverity_runs::digest_of_no_file_is_whole]='Unprepared'
)

# run_functions: how each of these tests ends while its requests are refused in turn; equal endings in a row stand once.
run_functions() {
    local tests=crates/memory_tests/out/memory_tests_tests test number ending seen
    # The gate may still be proving them.
    while [ -e "${FIRST_LOG:-}" ] && [ ! -e "$FIRST_LOG.ended" ] &&
        ! grep -q '^rt: memory_tests: its tests are ' "$FIRST_LOG"; do sleep 5; done
    if [ ! -e "$tests" ] || compgen -G 'crates/*/out/rlib/stamp' >/dev/null; then
        (cd crates/memory_tests && rt test) >"$scratch/log" 2>&1 || fail 'rt test' "$(tail -n 5 "$scratch/log")"
    fi
    same 'the tests of the run functions' "$(printf '%s: test\n' "${!endings_of[@]}" | sort)" \
        "$("$tests" --list | grep ': test$' | sort)"
    for test in "${!endings_of[@]}"; do
        seen=
        for ((number = 1; number <= most; number++)); do
            rm -f "$scratch/told"
            ending=Whole
            # The shell would say of each test that is aborted that it is.
            {
                env LD_PRELOAD="$refuser" REFUSED_REQUEST=$number REFUSED_TOLD="$scratch/told" "$tests" "$test" \
                    >"$scratch/log" 2>&1 || ending=$(sed -n 's/^ *left: //p' "$scratch/log")
            } 2>/dev/null
            [[ $seen = *" $ending" ]] || seen+=" ${ending:-Crashed}"
            [ -e "$scratch/told" ] || break
        done
        same "$test" " ${endings_of[$test]} Whole" "$seen"
        some_refused "$test" $((number - 1))
    done
}

# prepare FOLDER: makes the files that the next command finds there; none, if nothing else is said.
prepare() { :; }

# ending COMMAND..: runs a command that makes its files in the folder `made`, and keeps its status, output and messages.
ending() {
    rm -rf "$made"
    mkdir "$made"
    prepare "$made"
    found=0
    "$@" >"$scratch/out" 2>"$scratch/err" </dev/null || found=$?
}

# stands: whether what a run left may stand if it ran out of memory: the files that it makes are all whole, or each is
# as before, or empty if there was none; and nothing is printed, or for fsverity whole lines of the first files.
stands() {
    local file
    if ! diff -r "$made" "$whole" >/dev/null; then
        for file in "$before"/*; do
            [ ! -e "$file" ] || cmp -s "$file" "$made/${file##*/}" || return 1
        done
        for file in "$made"/*; do
            [ ! -s "$file" ] || [ -e "$before/${file##*/}" ] || return 1
        done
    fi
    [ ! -s "$scratch/out" ] && return
    [ "$prints_lines" = yes ] && [ -z "$(tail -c 1 "$scratch/out")" ] &&
        cmp -s -n "$(stat -c %s "$scratch/out")" "$scratch/out" "$scratch/whole_out"
}

# is_whole: a run left and printed what it does if nothing is refused.
is_whole() {
    diff -r "$made" "$whole" >/dev/null && cmp -s "$scratch/out" "$scratch/whole_out" &&
        cmp -s "$scratch/err" "$scratch/whole_err"
}

# refuse NAME STATUS ENDINGS COMMAND..: the command ends with this status if nothing is refused. If a request is
# refused it ends in one of the endings 'STATUS MESSAGE', separated by '|', and what it leaves may stand. The first
# requests are for the words, and end as $memory_ending says, or as if nothing were refused when a word keeps more room
# than it takes. Then come those of clap, in a row, which end as $clap_ending says, and no later one does.
refuse() {
    local name=$1 status=$2 endings=$3 number=1 stage=words expected seen
    shift 3
    rm -rf "$whole" "$before"
    mkdir "$before"
    prepare "$before"
    ending "$@"
    same "$name: status" "$status" "$found"
    mv "$made" "$whole"
    mv "$scratch/out" "$scratch/whole_out"
    mv "$scratch/err" "$scratch/whole_err"
    while [ $number -le $most ]; do
        rm -f "$scratch/told"
        ending env "$loader$refuser" REFUSED_REQUEST=$number REFUSED_TOLD="$scratch/told" "$@"
        [ -e "$scratch/told" ] || break
        seen="$found $(cat "$scratch/err")"
        case $stage,$seen in
        words,"$clap_ending") stage=clap ;;
        clap,"$clap_ending") ;;
        clap,*) stage=rest ;;
        esac
        case $stage in
        words) expected="|$memory_ending|" ;;
        clap) expected="|$clap_ending|" ;;
        rest) expected="|$endings|" ;;
        esac
        if [[ $expected = *"|$seen|"* ]] && stands; then
            pass
        elif [ $stage = words ] && [ $number -gt 1 ] && [ "$found" = "$status" ] && is_whole; then
            pass
        else
            fail "$name: request $number" "status: $found" "message: $(head -c 300 "$scratch/err")" \
                "output: $(head -c 300 "$scratch/out")" "$(ls -l "$made")"
        fi
        number=$((number + 1))
    done
    same "$name: the last requests" rest $stage
    same "$name: status in the end" "$status" "$found"
    same_bytes "$name: output in the end" "$scratch/whole_out" "$scratch/out"
    same_bytes "$name: messages in the end" "$scratch/whole_err" "$scratch/err"
    some_refused "$name" $((number - 1))
}

# How a run ends if the program finds no memory, and if clap finds none.
endings_of_setup() {
    memory_ending='3 Out of memory.'
    clap_ending='1 error: out of memory'
}

endings_of_files() {
    memory_ending='1 fsverity: out of memory.'
    clap_ending='2 error: out of memory'
}

formats() {
    endings_of_setup
    refuse 'format' 0 "$memory_ending" "$veritysetup" format "${image_17_options[@]}" "$data" "$made/hash.img"
    prepare() { head -c 4096 /dev/zero | tr '\0' w >"$1/hash.img"; }
    refuse 'format onto other bytes' 0 "$memory_ending" \
        "$veritysetup" format "${image_17_options[@]}" --hash-offset 512 "$data" "$made/hash.img"
    prepare() { :; }
    refuse 'format without a superblock' 0 "$memory_ending" \
        "$veritysetup" format "${bare_options[@]}" "$data" "$made/hash.img"
    refuse 'format with a refused option' 1 "$memory_ending|1 " \
        "$veritysetup" format "${image_17_options[@]}" --hash md5 "$data" "$made/hash.img"
    refuse 'format without a data file' 4 "$memory_ending" \
        "$veritysetup" format "$scratch/missing" "$made/hash.img"
}

verifies() {
    endings_of_setup
    refuse 'dump' 0 "$memory_ending" "$veritysetup" dump "$stated"
    refuse 'dump of other bytes' 1 "$memory_ending|1 " "$veritysetup" dump "$data"
    refuse 'verify' 0 "$memory_ending" "$veritysetup" verify "$data" "$stated" "$root"
    refuse 'verify with another root hash' 2 "$memory_ending|2 " \
        "$veritysetup" verify "$data" "$stated" "${root//[0-4]/5}"
    tail -c +513 "$stated" >"$scratch/bare.img"
    refuse 'verify without a superblock' 0 "$memory_ending" \
        "$veritysetup" verify "${bare_options[@]}" "$data" "$scratch/bare.img" "$root"
}

digests_of_files() {
    endings_of_files
    prints_lines=yes
    refuse 'digest' 0 "$memory_ending" "$fsverity" digest "$data" "$stated"
    refuse 'digest in short' 0 "$memory_ending" \
        "$fsverity" digest --compact --for-builtin-sig --salt ab "$data" "$stated"
    refuse 'digest of a missing file' 1 "$memory_ending" "$fsverity" digest "$data" "$scratch/missing"
    refuse 'digest with output files' 0 "$memory_ending" "$fsverity" digest --block-size 512 \
        --out-merkle-tree "$made/tree" --out-descriptor "$made/descriptor" "$data"
    refuse 'digest with a refused option' 2 "$memory_ending" "$fsverity" digest --salt x "$data"
}

made=$scratch/made
before=$scratch/before
whole=$scratch/whole
prints_lines=no
data=$scratch/data.img
stated=$scratch/stated.img
image_17 "$data" "$stated"
bare_options=(--no-superblock --data-block-size 512 --hash-block-size 512 --salt=-)

"$compiler" -shared -fPIC -O1 -o "$refuser" tests/refuse_memory.c || exit 1
formats
verifies
digests_of_files
if [ "${1:-}" != --programs ]; then run_functions; fi
finish
