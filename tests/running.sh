#!/usr/bin/env bash
# How the tests are run: tests/run.sh, tests/gate.sh, tests/all.sh and .ci/run, over small parts in a folder of their
# own.
set -u
cd "$(dirname "$0")/.."
. tests/lib/checks.sh
. tests/lib/background.sh
unset COMMAND MAY_BE_LEFT_OUT RUNS SAY_EVERY SETTINGS
top=$PWD
own_path=$PATH
mkdir -p "$scratch"/here/{.ci,bin,docs,tests/lib}
cp .ci/run "$scratch/here/.ci"
cp tests/{all,gate,run}.sh "$scratch/here/tests"
cp tests/lib/kinds.sh "$scratch/here/tests/lib"
cd "$scratch/here" || exit 1

# part FILE LINE..: makes a part, or another program, of these lines. In them `awaits FILE` waits for a file, for at
# most half a minute.
part() {
    printf '%s\n' '#!/usr/bin/env bash' \
        'awaits() { for ((i = 0; i < 600; i++)); do if [ -e "$1" ]; then return; fi; sleep 0.05; done; exit 9; }' \
        "${@:2}" >"$1"
    chmod +x "$1"
}

# ran NAME STATUS COMMAND..: a run ends with this status, within a minute. What it says goes to `said`, without the
# times, and the lines of what runs to `minutes`.
ran() {
    local name=$1 status=$2 found=0
    shift 2
    timeout 60 "$@" >all 2>errors </dev/null || found=$?
    same "$name: status" "$status" "$found"
    grep '^-- ' all >minutes
    sed -E '/^-- /d; s/^== [0-9]+ seconds, [0-9]+ of processor time$/== N seconds/' all >said
}

# says NAME TEXT: the run said this.
says() {
    is_text "$1" "$2" said
}

# ends NAME LINE..: these are the last lines of what the run said.
ends() {
    same "$1: how it ends" "$(printf '%s\n' "${@:2}")" "$(tail -n $(($# - 1)) said)"
}

# The number of processors, as tests/run.sh is told.
processors() {
    part bin/nproc "echo $1"
}

PATH=$PWD/bin:$PATH
processors 2
part one 'echo "one $1"' 'echo "1 passed, 0 failed"'
part two 'printf "two\n2 passed, 0 failed\n"'
part bad 'printf "1 passed, 2 failed\n"' 'exit 1'

in_order() {
    ran 'a run' 0 tests/run.sh './one word' ./two -- 'env A=b ./one' ./two
    says 'a run' '== 1 of 4: ./one word
one word
1 passed, 0 failed
== N seconds
== 2 of 4: ./two
two
2 passed, 0 failed
== N seconds
== 3 of 4: env A=b ./one
one 
1 passed, 0 failed
== N seconds
== 4 of 4: ./two
two
2 passed, 0 failed
== N seconds
6 passed, 0 failed'
    same 'a run of seconds says nothing in between' '' "$(cat minutes)"
    ran 'nothing' 1 tests/run.sh
    says 'nothing' '0 passed, 0 failed'
}

failures() {
    part silent 'echo nothing of sums'
    part more 'echo "3 passed, 0 failed"' 'exit 3'
    part killed 'echo begun' 'kill -KILL 0'
    ran 'failures' 1 tests/run.sh ./one ./bad ./killed -- ./silent ./missing ./more ./killed ./two
    ends 'failures' 'FAILED: ./bad (status 1)' 'FAILED: ./killed (status 137)' 'FAILED: ./silent (status 0)' \
        'FAILED: ./missing (status 127)' 'FAILED: ./more (status 3)' 'FAILED: ./killed (status 137)' '7 passed, 7 failed'
    same 'what was killed has said' 2 "$(grep -c '^begun$' said)"
}

# Each part waits for what another one makes: so they run at once, or this fails.
at_once() {
    part a ': >a.made' 'awaits b.made' 'echo "1 passed, 0 failed"'
    part b ': >b.made' 'awaits a.made' 'echo "1 passed, 0 failed"'
    ran 'side by side' 0 tests/run.sh -- ./a ./b
    rm -f ./*.made
    ran 'beside what runs alone' 0 tests/run.sh ./a ./two -- ./one -- ./b
    same 'beside what runs alone: parts' './a ./two ./one ./b' "$(sed -n 's/^== [1-4] of 4: //p' said | paste -sd ' ')"
    rm -f ./*.made
    part goes_on 'echo "the next part may begin"' 'awaits b.made' 'echo "1 passed, 0 failed"'
    part next ': >a.made' 'echo "1 passed, 0 failed"'
    ran 'beside one that lets the next begin' 0 tests/run.sh ./goes_on ./next -- ./b
    rm -f ./*.made
    part alone 'if [ -e busy ]; then exit 1; fi' ': >busy' 'sleep 0.3' 'rm busy' 'echo "1 passed, 0 failed"'
    ran 'one after another' 0 tests/run.sh ./alone ./alone -- ./alone -- ./one
    processors 1
    ran 'no more than there are processors' 0 tests/run.sh ./alone -- ./alone ./alone -- ./alone
    processors 2
}

# The output of a part that runs alone is shown as it comes.
as_it_comes() {
    part slow 'echo now' 'awaits seen.made' 'printf "1 passed, 0 failed"'
    starts tests/run.sh ./slow
    if waits_for grep -q '^now$' "$scratch/.out"; then pass; else fail 'output is shown as it comes' 'it was not'; fi
    : >seen.made
    wait "$pid"
    same 'a run whose part ends without a newline' '1 passed, 0 failed' "$(tail -n 1 "$scratch/.out")"
    rm -f ./*.made
}

# has_ended PART: a part that wrote its number has ended, in ten seconds. What nobody has waited for yet has ended too.
has_ended() {
    local tries state
    for ((tries = 0; tries < 200; tries++)); do
        state=$(sed -n 's/^State:[[:space:]]*\(.\).*/\1/p' "/proc/$(cat "$1.pid")/status" 2>/dev/null)
        if [ "${state:-Z}" = Z ]; then return; fi
        sleep 0.05
    done
    return 1
}

# signalled NAME COMMAND..: a run of ./forever and ./aside ends by a signal, and so do its parts. With a folder of its
# own for what it makes, which is empty then.
signalled() {
    local name=$1 signal status
    shift
    mkdir made
    for signal in TERM:143 INT:130; do
        status=${signal#*:} signal=${signal%:*}
        rm -f ./*.pid
        starts env TMPDIR="$PWD/made" "$@"
        waits_for test -e forever.pid -a -e aside.pid
        kill -s "$signal" "$pid"
        wait "$pid"
        same "$name, $signal: status" "$status" $?
        if has_ended forever && has_ended aside; then pass; else fail "$name, $signal" 'a part still runs'; fi
        same "$name, $signal: files that are left" '' "$(ls made)"
    done
    rm -r made
}

signals() {
    local name
    for name in forever aside; do part "$name" "echo \$\$ >$name.new" "mv $name.new $name.pid" 'exec sleep 60'; done
    signalled 'a run of parts side by side' tests/run.sh -- ./aside ./forever
    signalled 'a part beside another' tests/run.sh ./forever -- -- ./aside
    part tests/judging.sh 'echo "1 passed, 0 failed"'
    part tests/gate.sh 'echo $$ >aside.pid' 'exec ./forever'
    signalled 'the gate alone' tests/all.sh --gate-alone
    cp "$top/tests/gate.sh" tests
}

# With a line each second in place of one a minute.
minutes() {
    local long shown
    long=$(printf 'word%.0s ' {1..30})
    part quiet 'sleep 3.5' 'echo "1 passed, 0 failed"'
    part wordy "printf '$long\nlast\tline %s' '$long'" 'sleep 3.5' 'echo' 'echo "1 passed, 0 failed"'
    part short 'echo shown' 'sleep 2.5' 'echo "1 passed, 0 failed"'
    SAY_EVERY=1 ran 'a line a minute' 0 tests/run.sh -- ./quiet ./wordy 'env A=b ./short' ./short
    shown=$(printf 'lastline %s' "$long" | head -c 68)
    if grep -qxE -- "-- 0 minutes: \./quiet: [1-3] seconds \| \./wordy: $shown\.\." minutes; then
        pass
    else
        fail 'a line a minute' "expected: what ./quiet and ./wordy do" "found:    $(cat minutes)"
    fi
    if grep -qxE -- '-- 0 minutes: A=b \./short: shown \| \./short: shown' minutes; then
        pass
    else
        fail 'a line a minute, side by side' "found: $(cat minutes)"
    fi
    if [ "$(wc -l <minutes)" -ge 4 ]; then pass; else fail 'a line each second' "found: $(cat minutes)"; fi
    same 'a line a minute: the other lines' "== 1 of 4: ./quiet|== 2 of 4: ./wordy|$long|last	line $long|\
== 3 of 4: env A=b ./short|shown|== 4 of 4: ./short|shown|" "$(grep -v 'passed\|seconds' said | tr '\n' '|')"
    ends 'a line a minute' '4 passed, 0 failed'
}

# took COMMAND SECONDS LINE..: a run of a command that began so many seconds ago says this of its minutes.
took() {
    ran "$1 of $2 seconds" 0 env SECONDS="$2" COMMAND="$1" tests/run.sh ./two
    ends "$1 of $2 seconds" '== N seconds' "${@:3}" '2 passed, 0 failed'
}

minutes_of_documents() {
    printf '| `make %s` | that | %s |\n' test '40 minutes on four cores' check '1 minute' gate 'TIME? minutes' \
        >docs/TESTS.md
    took 'make test' 3100
    took 'make test' 3121 'this took 52 minutes, where docs/TESTS.md says 40'
    took 'make check' 70
    took 'make check' 79 'this took 1 minute, where docs/TESTS.md says 1'
    took 'make gate' 10000
    took 'make soak' 10000
}

left_out() {
    part some 'echo "left out: a thing: no tool"' 'echo "2 passed, 0 failed"'
    part all77 'echo "./all77: no device"' 'exit 77'
    ran 'left out' 0 tests/run.sh ./some -- ./all77
    ends 'left out' 'left out: a thing: no tool' 'left out: ./all77: no device' '2 passed, 0 failed'
    MAY_BE_LEFT_OUT='' ran 'nothing may be left out' 1 tests/run.sh ./some -- ./all77
    ends 'nothing may be left out' 'FAILED: left out: a thing: no tool' 'FAILED: left out: ./all77: no device' \
        '2 passed, 2 failed'
    MAY_BE_LEFT_OUT=$'other\n*: no device' ran 'some may be left out' 1 tests/run.sh ./some -- ./all77
    ends 'some may be left out' 'left out: ./all77: no device' 'FAILED: left out: a thing: no tool' '2 passed, 1 failed'
    MAY_BE_LEFT_OUT=$'a thing: no tool\n*: no device' ran 'both may be left out' 0 tests/run.sh ./some -- ./all77
    ends 'both may be left out' 'left out: a thing: no tool' 'left out: ./all77: no device' '2 passed, 0 failed'
}

# The gate over a made-up `rt`.
gate() {
    local lines=('== low' 'fn low::next: proved' 'rt: low proved' 'rt: low: its tests are proved'
        'rt: top is kept: an earlier run' 'rt: odd NOT PROVED' 'rt: ok' '5 passed, 0 failed')
    mkdir -p crates/{low,top,odd}/src
    echo '#[test]' >crates/low/src/lib.rt
    part bin/rt "$(printf 'echo "%s"\n' "${lines[@]}")" 'exit ${RT_STATUS:-0}'
    ran 'the gate' 0 tests/gate.sh
    says 'the gate' '== low
fn low::next: proved
rt: low proved (1 of 3 crates)
rt: low: its tests are proved (1 of 1 crates with tests)
rt: top is kept: an earlier run (2 of 3 crates)
rt: odd NOT PROVED
rt: ok
5 passed, 0 failed'
    RT_STATUS=3 ran 'a gate that fails' 3 tests/gate.sh
    part bin/rt 'for name in verity_c fsverity_cli read_one_block; do echo "rt: $name proved"; done' \
        'echo "rt: veritysetup_cli is kept: earlier"' 'echo "rt: low proved"'
    ran 'a gate that has proved what is built' 0 tests/gate.sh
    same 'a gate that has proved what is built' 'rt: veritysetup_cli is kept: earlier (4 of 3 crates)
the next part may begin
rt: low proved (5 of 3 crates)' "$(tail -n 3 said)"
    mkdir -p crates/low/out/rlib
    : >crates/low/out/rlib/stamp
    ran 'a gate over earlier checks' 0 tests/gate.sh
    same 'a gate over earlier checks lets nothing begin' 0 "$(grep -c 'may begin' said)"
}

# Wrong bodies are tried over what the gate proves, with a seed that the part's line names; or after it, where there are
# earlier checks.
gate_alone() {
    rm -rf crates
    part tests/gate.sh 'echo "1 passed, 0 failed"'
    part tests/wrong_bodies.sh 'awaits "$FIRST_LOG.ended"' 'echo "$GATE $SEED, $(cat "$FIRST_LOG")"' \
        'echo "1 passed, 0 failed"'
    SEED=7 ran 'the gate alone' 0 tests/all.sh --gate-alone
    same 'the gate alone: parts' '== 1 of 3: tests/gate.sh|1 passed, 0 failed|'\
'== 2 of 3: env GATE=. SEED=7 tests/wrong_bodies.sh|. 7, 1 passed, 0 failed|1 passed, 0 failed|'\
'== 3 of 3: tests/judging.sh|1 passed, 0 failed|3 passed, 0 failed|' "$(grep -v 'seconds' said | tr '\n' '|')"
    part tests/gate.sh 'kill -KILL 0'
    SEED=7 ran 'the gate alone, which is killed' 1 tests/all.sh --gate-alone
    ends 'the gate alone, which is killed' 'FAILED: tests/gate.sh (status 137)' '2 passed, 1 failed'
    part tests/gate.sh 'echo "1 passed, 1 failed"' 'exit 1'
    part tests/wrong_bodies.sh 'echo "${GATE:-none} $SEED"' 'echo "1 passed, 0 failed"'
    mkdir -p crates/low/out/rlib
    : >crates/low/out/rlib/stamp
    SEED=7 ran 'the gate alone, which fails, over earlier checks' 1 tests/all.sh --gate-alone
    same 'the gate alone over earlier checks' \
        '== 2 of 3: env SEED=7 tests/wrong_bodies.sh|none 7|1 passed, 0 failed|' \
        "$(grep -v 'seconds' said | sed -n '3,5p' | tr '\n' '|')"
    rm -r crates
    ran 'another word' 2 tests/all.sh --gate
}

# parts_of WORD..: which parts tests/all.sh with these words runs: here tests/run.sh prints them, a line each.
parts_of() {
    run="tests/all.sh $*"
    ran "$run" 0 tests/all.sh "$@"
}

# goes_over SCRIPT FOLDER..: a script is a part over just these programs or libraries.
goes_over() {
    same "$run: what $1 goes over" "${*:2}" "$(sed -nE \
        "s#^(env ((BIN|LIB)=([^ ]*) )?(SEED=[0-9]+ )?)?tests/$1( .*)?\$#\4#p" said | sed 's/^$/bin/' | sort | paste -sd ' ')"
}

# lacks SCRIPT..: just these scripts are no part.
lacks() {
    same "$run: scripts that are no part" "$*" "$(comm -13 <(grep -oE 'tests/[a-z0-9_/]+\.sh' said | sort -u) \
        <(cd "$top" && printf '%s\n' tests/{,interop/,programs/,library/,bindings/}*.sh | grep -v '/\(all\|run\)\.sh' | sort) |
        sed 's|.*/||; s|\.sh$||' | paste -sd ' ')"
}

all_parts() {
    local script own
    ln -s "$top"/tests/{interop,programs,library,bindings} tests
    for script in "$top"/tests/*.sh; do [ -e "tests/${script##*/}" ] || cp "$script" tests; done
    part tests/run.sh 'printf "%s\n" "$COMMAND in ${RUNS:-few}, ${SETTINGS:-few}" "$@"'
    part processor.sh 'echo x86-64-v3'
    for script in cc aarch64-linux-gnu-gcc qemu-x86_64 qemu-aarch64; do part "bin/$script" 'exit 1'; done
    own=(bin/any bin/imitated/{aarch64,aarch64-static,any-Nehalem,any-core2duo,any-max} bin/static)
    SEED=7 parts_of
    same "$run: how it begins" \
        'make test in few, few|tests/gate.sh|tests/built.sh|--|tests/soak.sh' "$(head -n 5 said | paste -sd '|')"
    same "$run: what begins with the gate" '--|env GATE=. SEED=7 tests/wrong_bodies.sh|tests/judging.sh' \
        "$(tail -n +6 said | grep -A 2 -x -e -- | paste -sd '|')"
    lacks kernel no_gate reproducible
    goes_over each_kind.sh "${own[@]}" bin/x86-64-v2
    for script in programs/format soak search interop/format readme; do goes_over $script.sh bin; done
    goes_over memory.sh bin bin/imitated/aarch64
    goes_over processor.sh bin bin/any bin/static bin/x86-64-v2
    goes_over empty_root.sh bin/aarch64/static bin/static
    goes_over library/parts.sh lib

    SEED=7 parts_of --release
    same "$run: how it begins" \
        'make release-check in all, all|tests/gate.sh|tests/built.sh|--|tests/kernel.sh' "$(head -n 5 said | paste -sd '|')"
    lacks no_gate reproducible
    goes_over each_kind.sh "${own[@]}"
    goes_over programs/format.sh "${own[@]}" bin/x86-64-v2 bin/x86-64-v3
    for script in soak search; do goes_over $script.sh bin "${own[@]}"; done
    for script in interop/format readme; do goes_over $script.sh bin/x86-64-v2 bin/x86-64-v3; done
    goes_over memory.sh bin bin/any bin/imitated/aarch64
    goes_over empty_root.sh bin/aarch64/static bin/static
    for script in debian_images feeding header parts; do
        goes_over library/$script.sh lib lib/glibc-hwcaps/x86-64-v3
    done

    parts_of --without-gate
    same "$run: how it begins" 'make check in few, few|tests/no_gate.sh|--' "$(head -n 3 said | paste -sd '|')"
    goes_over programs/format.sh bin
    goes_over each_kind.sh
    part processor.sh 'echo x86-64-v2'
    parts_of
    goes_over each_kind.sh "${own[@]}"
    cp "$top/tests/run.sh" tests
    ran 'no gate' 0 tests/run.sh tests/no_gate.sh -- ./one
    same 'no gate: what is left out' 1 "$(grep -c '^left out: the gate: ' said)"
}

# Which kinds of programs there are depends on the compilers and on qemu.
kinds_of_programs() {
    # kinds_with TOOL..: what is printed where there are just these tools.
    kinds_with() {
        local tool
        rm -rf few
        mkdir few
        for tool; do part "few/$tool" 'exit 1'; done
        (PATH=$PWD/few && . tests/lib/kinds.sh && kinds | while read -r tool; do printf '%s ' "${tool#bin/}"; done)
    }
    same 'kinds without a compiler' '' "$(kinds_with qemu-x86_64 qemu-aarch64)"
    same 'kinds without qemu' 'any static ' "$(kinds_with cc aarch64-linux-gnu-gcc)"
    same 'kinds without a compiler for 64-bit ARM' \
        'any static imitated/any-core2duo imitated/any-Nehalem imitated/any-max ' \
        "$(kinds_with cc qemu-x86_64 qemu-aarch64)"
    same 'kinds with a compiler for 64-bit ARM' 'imitated/aarch64 imitated/aarch64-static ' \
        "$(kinds_with aarch64-linux-gnu-gcc qemu-aarch64)"
}

# A .ci/run that finds just what stands in tools/, and there tests/all.sh runs the part ./landing. `apt-get` and `sleep`
# say in `calls` how they are called; after so many tries as INSTALLS_AT says `xxd` is there.
ci_setting() {
    local tool
    eval "$(sed -n '/^tools=(/,/)$/p' .ci/run)"
    mkdir tools
    for tool in "${tools[@]}"; do part "tools/${tool%:*}" 'exit 0'; done
    for tool in bash dirname sort grep timeout cat cp; do ln -s "$(type -P $tool)" tools; done
    part tools/id 'echo "$USER_ID"'
    part tools/sleep 'echo "sleep $1" >>calls'
    part tools/apt-get 'echo "$2 ${*: -1}" >>calls' \
        'if [ "$2" = install ] && grep -c "^install" calls | grep -qx "${INSTALLS_AT:-0}"; then cp tools/git tools/xxd; fi'
    part tests/all.sh "PATH='$own_path' exec tests/run.sh -- ./landing"
    cp ./one landing
}

# landing NAME STATUS USER: .ci/run ends with this status for a user of this number.
landing() {
    : >calls
    ran "$1" "$2" env PATH="$PWD/tools" PYTHON=python3 USER_ID="$3" .ci/run
}

installs() {
    landing 'all is there' 0 0
    same 'all is there: no call' '' "$(cat calls)"
    same 'all is there: the first line' '== 1 of 1: ./landing' "$(head -n 1 said)"
    ends 'all is there' '1 passed, 0 failed'
    rm tools/xxd
    part landing 'echo "left out: an example: xxd is not installed"' 'echo "1 passed, 0 failed"'
    landing 'what can not be installed' 1 0
    same 'three tries' 'update update|install xxd|sleep 30|update update|install xxd|sleep 30|update update|install xxd|' \
        "$(tr '\n' '|' <calls)"
    same 'what can not be installed is said' 1 "$(grep -cx 'not installed: xxd' said)"
    ends 'what can not be installed' 'FAILED: left out: an example: xxd is not installed' '1 passed, 1 failed'
    landing 'another user than root' 1 1000
    same 'another user than root: no call' '' "$(cat calls)"
    same 'another user than root: what is said' 'not installed: xxd' "$(head -n 1 said)"
    cp ./one landing
    INSTALLS_AT=2 landing 'the second try installs' 0 0
    same 'the second try is the last' 2 "$(grep -c ^install calls)"
    same 'the second try installs: what is said' 0 "$(grep -c '^not installed' said)"
    rm tools/apt-get tools/xxd
    landing 'no apt-get' 0 0
    same 'no apt-get: what is said' 'not installed: xxd' "$(head -n 1 said)"
}

# Headers and libraries, of which only a compiler knows.
installs_headers() {
    cp tools/git tools/xxd
    part tools/apt-get 'if [ "$2" = install ]; then echo "${@:5}" >>calls; fi'
    part tools/gcc 'case "$*" in *nbdkit-plugin.h* | *sanitize*) exit 1 ;; esac'
    landing 'a header is missing' 0 0
    same 'a header is missing' 'libasan8 libubsan1 nbdkit-plugin-dev' "$(sed -n 1p calls)"
    cp tools/git tools/gcc
    part tools/aarch64-linux-gnu-gcc 'exit 1'
    landing 'the C library for 64-bit ARM is missing' 0 0
    same 'the C library for 64-bit ARM is missing' libc6-dev-arm64-cross "$(sed -n 1p calls)"
    cp tools/git tools/aarch64-linux-gnu-gcc
    part tools/python3 'exit 1'
    landing 'modules of Python are missing' 0 0
    same 'modules of Python are missing' 'python3-pip python3-setuptools python3-wheel' "$(sed -n 1p calls)"
    cp tools/git tools/python3
}

# What may be left out where a change lands says some script, and nothing else passes.
may_be_left_out() {
    local pattern may_be_left_out
    eval "$(sed -n '/^may_be_left_out=(/,/^)$/p' .ci/run)"
    for pattern in "${may_be_left_out[@]}"; do
        if grep -rqF --include='*.sh' --exclude=running.sh -- "${pattern#\*: }" "$top/tests"; then
            pass
        else
            fail "$pattern" 'no script says so'
        fi
        part landing "echo 'left out: ${pattern//"'"/"'\\''"}'" 'echo "1 passed, 0 failed"'
        landing "left out: $pattern" 0 0
        ends "left out: $pattern" "left out: $pattern" '1 passed, 0 failed'
    done
    part landing 'echo "./landing: no loop device can be made here"' 'exit 77'
    landing 'a part without loop devices' 1 0
    ends 'a part without loop devices' 'left out: ./landing: no loop device can be made here' '0 passed, 0 failed'
    part landing 'echo "./landing: script can not make a terminal here"' 'exit 77'
    landing 'a part without a terminal' 1 0
    ends 'a part without a terminal' 'FAILED: left out: ./landing: script can not make a terminal here' '0 passed, 1 failed'
}

# Each tool that a part needs is one of those that .ci/run installs.
installs_all() {
    local tool package
    cd "$top" || exit 1
    grep -rhoE --include='*.sh' --exclude={kernel,reproducible,running}.sh --exclude-dir=kernel \
        '(^ *|if |&& )(needs|needs_other|has) [a-z0-9_+-]+ [a-z0-9.+-]+' tests |
        sed 's/.*\(needs\|has\)[a-z_]* //' | sort -u >"$scratch/needs"
    while read -r tool package; do
        if [ "$tool" = rt ] || printf '%s\n' "${tools[@]}" | grep -qxF "$tool:$package"; then
            pass
        else
            fail "$tool of $package" ".ci/run doesn't install it"
        fi
    done <"$scratch/needs"
    same 'what the parts need: more than ten tools' yes "$([ "$(wc -l <"$scratch/needs")" -gt 10 ] && echo yes)"
}

in_order
failures
at_once
as_it_comes
signals
minutes
minutes_of_documents
left_out
gate
gate_alone
all_parts
kinds_of_programs
ci_setting
installs
installs_headers
may_be_left_out
installs_all
finish
