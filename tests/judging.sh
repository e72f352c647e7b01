#!/usr/bin/env bash
# How wrong bodies are judged (tests/wrong_bodies/wrong_bodies.py): over a small repository it is seen that a body which
# shows nothing counts as failed, and a verdict that rests on something else as none.
set -u
cd "$(dirname "$0")/.."
. tests/lib/checks.sh
needs rt 'none: the Rattle toolchain'
needs python3 python3
. tests/wrong_bodies/small.sh
unset FIRST_LOG
small=$scratch/small
verdicts=$small/tests/wrong_bodies/verdicts/small

# prove: proves the crate below the small one as it is now, as a gate would.
prove() {
    rm -rf "$scratch/gate"
    mkdir -p "$scratch/gate/crates"
    cp -r "$small/crates/few" "$scratch/gate/crates"
    cp HANDLES "$scratch/gate"
    echo 'few:' >"$scratch/gate/crates.txt"
    (cd "$scratch/gate" && rt ci) >"$scratch/gate.log" 2>&1
    export GATE=$scratch/gate
}

# try WORD..: tries the bodies of the small repository. What is said goes to a file.
try() { AT_ONCE=2 "$small/tests/wrong_bodies/wrong_bodies.py" "$@" >"$scratch/said" 2>&1; }

# says TIMES LINE WHAT: so often what was said has a line that begins so.
says() { same "$3" "$1" "$(awk -v line="$2" 'index($0, line) == 1' "$scratch/said" | wc -l)"; }

# last PASSED FAILED WHAT: the counts of the last line.
last() { same "$3" "$1 passed, $2 failed" "$(tail -n 1 "$scratch/said")"; }

# edit FILE OLD NEW: changes a line of the small repository. There has to be such a line.
edit() {
    if grep -q -- "$2" "$small/$1"; then pass; else fail "$1" "no line has $2"; fi
    sed -i "s/$2/$3/" "$small/$1"
}

small_repository "$small"
if said=$(tests/wrong_bodies/lines.py); then pass; else fail 'what is read off lines' "$said"; fi
if said=$(tests/wrong_bodies/sums.py "$small"); then pass; else fail 'which verdicts become void' "$said"; fi
prove
small_lines >"$scratch/expected"
try
same 'bodies that show nothing count as failed: status' 1 $?
while IFS= read -r line; do says 1 "$line" "bodies that show nothing: '$line'"; done <"$scratch/expected"
same 'bodies that show nothing: no other lines' "$(wc -l <"$scratch/expected")" \
    "$(grep -cE '^(refused|caught|FAILED) ' "$scratch/said")"
if [ "$failed" -gt 0 ]; then cat "$scratch/said"; fi

# What passed is kept: nothing of it is tried again, unless it is drawn; and then it comes to the same. From here on there
# are a few of its bodies.
few='adds_two|adds_none|one_too_many|constant_of_two|zero_is_at_most_each|means_the_same'
few_bodies() {
    small_bodies | awk -v few="^# ($few)$" '/^file: /; /^# [a-z_]+$/ { on = $0 ~ few } on && !/^file: /' >"$bodies"
    cp "$scratch/verdicts" "$verdicts"
}
bodies=$small/crates/small/wrong-bodies/lib.edit
grep -E "^($few) " "$verdicts" >"$scratch/verdicts"
few_bodies
try --only one_too_many --sample 0
last 2 0 'what passed is not tried again'
says 1 '0 bodies have no verdict that holds, and 1 have one' 'what passed is not tried again: how many'
try --only adds_ --sample 40 --seed 7
says 1 '2 of these are tried again, drawn with the seed 7' 'a sample of what passed'
says 1 'refused small adds_none: next: returns' 'a body of the sample'
last 3 0 'a sample of what passed: counts'

sed -i 's/^adds_none /&0123456789abcdef0123,/' "$verdicts"
try --only adds_none --sample 0
says 1 '0 bodies have no verdict that holds, and 1 have one' 'what passed over another toolchain after this one'
few_bodies

# Verdicts that nobody has judged: copied from another body, with a forged sum, of a body that was edited since, and of
# one whose right twin doesn't compile any more. None holds. One that is forged by the tool itself holds until it is drawn.
sed -n 's/^adds_none /means_the_same /p' "$scratch/verdicts" >>"$verdicts"
echo 'zero_is_at_most_each 0123456789abcdef0123 refused smaller: returns' >>"$verdicts"
cp "$verdicts" "$scratch/forged"
edit crates/small/wrong-bodies/lib.edit 'old: STEP: u16 = 1' 'old: STEP: u16'
edit crates/small/wrong-bodies/lib.edit 'new: STEP: u16 = 2' 'new: STEP : u16'
edit crates/small/wrong-bodies/lib.edit 'few() + (0, 1).0' 'few() + (0u16, 1).0'
try --sample 0
says 1 'FAILED small means_the_same: minimum is still proved' 'a verdict copied from another body'
says 1 'FAILED small zero_is_at_most_each: smaller is still proved' 'a verdict with a forged sum'
says 1 'FAILED small constant_of_two: step is still proved' 'a body edited without its line'
says 1 "FAILED small one_too_many, right twin: it isn't proved: it doesn't compile" "a twin that doesn't compile"
same 'a sample writes no verdicts' '' "$(diff "$scratch/forged" "$verdicts")"
few_bodies
(cd "$small/tests/wrong_bodies" && python3 -B -c '
import sums, sys
body = "means_the_same"
print(body, sums.sums_of("../..", sys.argv[1] + "\n", "refused minimum: returns")[body], "refused minimum: returns")
' "$(rt version)") >>"$verdicts"
try --only means_the_same --sample 0
last 1 0 'a verdict that the tool was made to sum'
try --only means_the_same --sample 1
says 1 'FAILED small means_the_same: minimum is still proved' 'a verdict that the tool was made to sum, and that is drawn'

# A kept line for a body that is gone is a failure, until it says why that is.
few_bodies
sed -i 's/^adds_two /adds_three /' "$verdicts"
try --only adds_none --sample 0
says 1 'FAILED small: ' 'a verdict on a body that is gone'
sed -i 's/^adds_three .*/gone adds_three: it meant the same as adds_two/' "$verdicts"
try --only adds_none --sample 0
last 2 0 'a body that is gone for a reason'
echo 'gone adds_none: it is there' >>"$verdicts"
try --only adds_none --sample 0
says 1 'FAILED small: ' 'a body that is there, and said to be gone'
try --only no_such_word
says 1 'FAILED no_such_word: ' 'a word that no body has'

# A contract that is weakened in a crate below makes void what rests on it, and that alone.
few_bodies
edit crates/few/src/lib.rt 'result ≡ 3' 'result ≤ 3'
prove
try --only _ --sample 0
says 1 "FAILED small one_too_many, right twin: it isn't proved: as_many: " 'a contract weakened in a crate below'
says 0 'refused small adds_none: ' 'what does not rest on it is not tried'
GATE=$scratch try --only one_too_many
says 2 'FAILED small one_too_many' 'a crate below that is not proved'
finish
