#!/usr/bin/env bash
# All tests: the gate, what it built, then the programs, run as a user runs them, the examples of the documents, and the
# comparisons with Debian's programs, if these are installed. Wrong bodies are tried, those without a verdict that holds
# and a sample of the others. The tests go over the programs in bin/, which are those for this processor; over each other
# kind of programs goes what can differ there. The library for C is called from C, and its examples run. What is built
# for them begins once the gate has proved that, and then all of these run side by side; wrong bodies, and what needs
# nothing that is built, run from the beginning. Random runs are others each time: their seed is in the lines of the
# parts, or they print it. The last line is 'N passed, M failed', over all.
# With --without-gate the programs that are in bin/ are tested, and the output says that the gate was left out. With
# --gate-alone the gate runs, and beside it the wrong bodies, and how they are judged. With --release all is tried in
# full, as before a release: each wrong body, each kind of programs and libraries by all tests, every setting, twenty
# times as many random runs, and the kernel.
set -u
cd "$(dirname "$0")/.."
. tests/lib/kinds.sh
builds=(bin)
kinds=()
libraries=(lib)
memory=tests/memory.sh
release=no
seed=${SEED:-$((RANDOM * 32768 + RANDOM))}

# runs_v3: whether what was built for x86-64-v3 runs here.
runs_v3() {
    [ "$(./processor.sh)" = x86-64-v3 ]
}

# over FOLDER PART..: adds parts over the programs of a folder.
over() {
    local part
    for part in "${@:2}"; do parts+=("env BIN=$1 $part"); done
}

# add_kind FOLDER: adds the parts over one of the other kinds of programs.
add_kind() {
    # A library that refuses memory is loaded before dynamic programs alone.
    case $1 in
    bin/x86-64-v2 | bin/any) over "$1" tests/processor.sh ;;
    bin/static) over "$1" tests/processor.sh tests/empty_root.sh ;;
    */aarch64) over "$1" 'tests/memory.sh --programs' ;;
    */aarch64-static) over bin/aarch64/static tests/empty_root.sh ;;
    esac
    if [ $release = no ]; then
        over "$1" tests/each_kind.sh
    else
        if [ "$1" = bin/any ]; then over "$1" 'tests/memory.sh --programs'; fi
        over "$1" tests/each_kind.sh tests/programs/*.sh 'tests/soak.sh SEED= SECONDS=15' \
            'tests/search.sh SEED= SECONDS=15'
    fi
}

# add_library: adds the parts over the library for C.
add_library() {
    local library script
    for script in tests/library/*.sh; do
        case $script in
        # What goes over one library.
        */debian_images.sh | */feeding.sh | */header.sh | */parts.sh)
            for library in "${libraries[@]}"; do parts+=("env LIB=$library SEED=$seed $script"); done
            ;;
        */fuzz.sh | */sanitized.sh) parts+=("env SEED=$seed $script") ;;
        *) parts+=("$script") ;;
        esac
    done
}

# add_tests: adds the parts that test programs and libraries, the longest first, so that no processor waits for one at
# the end; and to `free` what needs nothing of the gate.
add_tests() {
    local build
    if [ $release = yes ]; then parts+=(tests/kernel.sh); fi
    parts+=(tests/soak.sh tests/search.sh)
    # What is handed out is made of all kinds of programs.
    if [ ${#kinds[@]} -gt 0 ]; then parts+=(tests/packages.sh tests/release.sh); fi
    add_library
    for build in "${builds[@]}"; do
        over "$build" tests/interop/*.sh tests/programs/*.sh tests/processor.sh tests/readme.sh tests/manual.sh \
            tests/recipes.sh
    done
    for build in "${kinds[@]}"; do add_kind "$build"; done
    parts+=(tests/instructions.sh tests/bindings/*.sh tests/install.sh tests/completion.sh tests/running.sh tests/kinds.sh "$memory")
    free+=(tests/definitions.sh tests/pictures.sh tests/runtime.sh tests/any_processor.sh)
}

# COMMAND is what docs/TESTS.md says the minutes of.
export COMMAND='make test'
parts=(tests/gate.sh)
# Wrong bodies need no more of the gate than crates that are proved, as they come; but where earlier checks have left
# libraries, the gate puts those back at its end, and bodies are tried after it.
bodies="SEED=$seed tests/wrong_bodies.sh" free=() after=()
if compgen -G 'crates/*/out/rlib/stamp' >/dev/null; then
    after=("env $bodies")
else
    free=("env GATE=. $bodies")
fi
free+=(tests/judging.sh)
case ${1:-} in
--gate-alone)
    COMMAND='make gate'
    parts+=(-- "${after[@]}")
    ;;
--without-gate)
    COMMAND='make check'
    parts=(tests/no_gate.sh --) free=() memory+=' --programs'
    add_tests
    ;;
--release)
    COMMAND='make release-check'
    export RUNS=all SETTINGS=all
    release=yes
    parts+=(tests/built.sh -- "${after[@]}")
    builds=(bin/x86-64-v2)
    mapfile -t kinds < <(kinds)
    if runs_v3; then
        builds+=(bin/x86-64-v3)
        libraries+=(lib/glibc-hwcaps/x86-64-v3)
    fi
    add_tests
    ;;
'')
    parts+=(tests/built.sh -- "${after[@]}")
    mapfile -t kinds < <(kinds)
    if runs_v3; then kinds=(bin/x86-64-v2 "${kinds[@]}"); fi
    add_tests
    ;;
*)
    echo 'usage: tests/all.sh [--without-gate|--gate-alone|--release]' >&2
    exit 2
    ;;
esac

# A signal to this script ends the whole run.
env --default-signal=INT,QUIT BIN=bin tests/run.sh "${parts[@]}" -- "${free[@]}" &
trap 'kill "$!"; wait; exit 130' INT
trap 'kill "$!"; wait; exit 143' TERM
wait "$!"
