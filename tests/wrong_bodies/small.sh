# A repository of a small crate, most of whose wrong bodies show nothing, each in another way, with its tests and a crate
# below it. Sourced by tests/judging.sh, which sees that each of those bodies counts as failed.

# lines FILE LINE..: makes a file of these lines.
lines() { printf '%s\n' "${@:2}" >"$1"; }

# small_repository FOLDER: makes it.
small_repository() {
    local crate=$1/crates/small
    mkdir -p "$1/tests/wrong_bodies" "$crate"/{src/out,proofs/{as_many,two_more},wrong-bodies} \
        "$1"/crates/{few/specs,few/src,small_tests/src}
    cp tests/wrong_bodies/*.py "$1/tests/wrong_bodies"
    sed -i 's/^MOST_CHANGES = .*/MOST_CHANGES = 8/' "$1/tests/wrong_bodies/wrong_bodies.py"
    cp HANDLES "$1"
    lines "$1/crates.txt" 'few:' 'small: few' 'small_tests: small'
    lines "$1/crates/few/src/lib.rt" '//! A number for the crate above.' '' \
        'ghost use Rattle.std.specs.Prelude.{◌≡◌, ◌≤◌};' '' '/// Three.' 'pub fn few() -> u8' \
        '    ensures { result ≡ 3 }' '{' '    3' '}'
    small_code >"$crate/src/lib.rt"
    lines "$crate/src/out/mod.rt" '//! What is given out.' 'ghost use Rattle.std.specs.Prelude.{◌≡◌};' '/// The same number.' \
        'pub fn given(number: u8) -> u8 ensures { result ≡ number } {' '    number' '}'
    lines "$1/crates/few/specs/Few.antt" 'use Rattle.std.specs.Prelude.{ℕ}' '' 'unfoldable pub three : ℕ' \
        'three = 3'
    lines "$1/crates/few/specs/Lib.antt" 'pub mod Few'
    lines "$crate/proofs/Threes.antt" 'use Rattle.std.proofs.Common.{◌≡◌, refl}' 'use Rattle.few.specs.Few.{three}' \
        'pub three-is : three ≡ 3' 'unfolding three' 'three-is = refl'
    lines "$crate/proofs/Twos.antt" 'use Rattle.std.proofs.Common.{◌≡◌, ◌+◌, refl}' 'pub two : 2 ≡ 1 + 1' 'two = refl'
    lines "$crate/proofs/Lib.antt" 'pub mod Threes' 'pub mod Twos'
    lines "$crate/proofs/as_many/Answers.antt" 'use Rattle.std.proofs.Common.{arith}' \
        'use Rattle.small.proofs.Threes.{three-is}' 'use Rattle.small.proofs.as_many.Goals as goal' \
        'pub returns : goal.returns' 'returns c = omega (arith, c.few.ensures, three-is)'
    lines "$crate/proofs/two_more/Answers.antt" 'use Rattle.std.proofs.Common.{arith}' \
        'use Rattle.small.proofs.two_more.Goals as goal' \
        'pub returns : goal.returns' 'returns c = omega (arith, c.one_more.ensures)'
    small_tests >"$1/crates/small_tests/src/lib.rt"
    small_bodies >"$crate/wrong-bodies/lib.edit"
}

# small_code: the crate's functions.
small_code() {
    cat <<'END'
//! Small sums.
#![tactic(auto)]

pub mod out;

ghost use Rattle.few.specs.Few.{three};
ghost use Rattle.std.specs.Prelude.{◌≡◌, ◌+◌, ◌-◌, ◌^◌, ◌<◌, ◌≤◌, MatchResult, min};

const STEP: u16 = 1;

#[derive(Clone, Copy)]
pub struct Least {
    number: u8,
}

impl Least {
    pub fn of(one: u8, other: u8) -> Least {
        Least { number: at_most(one, other) }
    }
    pub fn number(self) -> u8 {
        self.number
    }
}
pub fn shown(one: u8, other: u8) -> u8 {
    Least::number(Least::of(one, other))
}
pub fn shown_again(one: u8, other: u8) -> u8 {
    Least::number(Least::of(other, one))
}
pub fn one_more(number: u8) -> u16 ensures { result ≡ number + 1 } {
    u16::from(number) + 1
}

/// The next number.
pub fn next(number: u8) -> u16 ensures { result ≡ number + 1 } {
    1 + u16::from(number)
}
pub fn same(number: u8) -> u16 ensures { result ≡ number } {
    u16::from(number) + 0
}
pub fn as_many() -> u8 ensures { result ≡ three } {
    few::few()
}
pub fn two_more(number: u8) -> u16 ensures { result ≡ number + 2 } {
    one_more(number) + 1
}
#[tactic(auto, using(crate::proofs::Twos::two))]
pub fn step(number: u8) -> u16 ensures { result ≡ number + 1 } {
    u16::from(number) + STEP
}
pub fn step_to(number: u8) -> u16 ensures { result ≡ number + 1 } {
    STEP + u16::from(number)
}
pub fn greater(number: u8) -> u8 requires { number < 255 } ensures { number < result } {
    number + 1
}
pub fn greater_again(number: u8) -> u8 requires { number < 254 } ensures { number < result } {
    greater(number)
}
pub fn count_error<X>(errors: &mut u64, outcome: Result<X, u8>) -> Result<X, u8>
    ensures same { result ≡ outcome }
    ensures count { (errors.old ≤ errors.new) × MatchResult result
        (λ _. errors.new ≡ errors.old)
        (λ _. errors.new ≡ min (errors.old + 1) (2 ^ 64 - 1)) }
{
    if outcome.is_err() {
        *errors = errors.saturating_add(1);
    }
    outcome
}
pub fn at_most(one: u8, other: u8) -> u8 ensures first { result ≤ one } ensures second { result ≤ other } {
    if one < other { one } else { other }
}
pub fn lesser(left: u8, right: u8) -> u8 ensures first { result ≤ left } ensures second { result ≤ right } {
    if left < right { left } else { right }
}
pub fn no_greater(a: u8, b: u8) -> u8 ensures first { result ≤ a } ensures second { result ≤ b } {
    if a < b { a } else { b }
}
pub fn smaller(this: u8, that: u8) -> u8 ensures first { result ≤ this } ensures second { result ≤ that } {
    if this < that { this } else { that }
}
pub fn minimum(x: u8, y: u8) -> u8 ensures first { result ≤ x } ensures second { result ≤ y } {
    if x < y { x } else { y }
}

#[derive(Clone, Copy)]
pub struct Beside<T> {
    other: T,
    beside: u8,
}

impl Beside<Least> {
    pub fn number_beside(self) -> u8 ensures { result ≡ self.beside } {
        self.beside
    }
}
END
}

# small_tests: the tests, of which the second is broken.
small_tests() {
    cat <<'END'
//! Tests of small.
#![tactic(auto)]

use small::{at_most, lesser, minimum, no_greater};

#[test]
fn the_lesser_is_at_most_each(rt: HostRuntime) {
    assert_eq!(rt; at_most(1, 2), 1);
    assert_eq!(rt; lesser(1, 2), 1);
    assert_eq!(rt; no_greater(1, 2), 1);
}

#[test]
fn the_greater_is_at_most_each(rt: HostRuntime) {
    assert_eq!(rt; minimum(1, 2), 2);
}
END
}

# small_bodies: its wrong bodies. Those that show something stand first.
small_bodies() {
    cat <<'END'
file: src/lib.rt
# adds_two
old:     u16::from(number) + 1
new:     u16::from(number) + 2
# adds_none
old:     1 + u16::from(number)
new:     1 + u16::from(number).saturating_sub(1)
# right:     1 + u16::from(number).saturating_sub(0)
# one_too_many
old:     few::few()
new:     few::few() + (0, 1).1
# right:     few::few() + (0, 1).0
# zero_of_the_tests
old: { one } else
new: { 0 } else
# test: small_tests the_lesser_is_at_most_each
# constant_of_two
old: STEP: u16 = 1
new: STEP: u16 = 2
# in: step
# two_functions_and_the_right_one
old:     u16::from(number) + 0
new:     u16::from(number) + 1
old: if left < right
new: if left <= right
# in: same
# number_in_place_of_the_least
old: Least::number(Least::of(one, other))
new: Least::number((at_most(one, other), Least::of(one, other)).0)
# right: Least::number((at_most(one, other), Least::of(one, other)).1)
# type: Least
# error_counted_twice_with_its_twin
old: errors.saturating_add(1)
new: errors.saturating_add((1, 2).1)
# right: errors.saturating_add((1, 2).0)
# least_in_place_of_the_number_beside
old:         self.beside
new:         (self.beside, self.other.number).1
# right:         (self.beside, self.other.number).0
# means_the_same
old: if x < y
new: if x <= y
# zero_is_at_most_each
old: { this } else
new: { 0 } else
# passes_its_tests
old: left < right
new: left <= right
# test: small_tests the_lesser_is_at_most_each
# caught_by_a_broken_test
old: { x } else
new: { 0 } else
# test: small_tests the_greater_is_at_most_each
# caught_by_no_test
old: if this < that
new: if this <= that
# test: small_tests there_is_no_such_test
# refused_and_caught
old: { a } else { b }
new: { b } else { a }
# test: small_tests the_lesser_is_at_most_each
# does_not_fit
old: if one > other
new: if one < other
# text_in_place_of_a_number
old:     u16::from(number) + 1
new:     u16::from(number) + "1"
# goes_where_no_proof_follows
old:     one_more(number) + 1
new:     next(number) + 2
# right:     next(number) + 1
# has_no_right_twin
old:     1 + u16::from(number)
new:     2 + 1 * u16::from(number)
# its_twin_is_wrong_too
old:     u16::from(number) + 0
new:     u16::from(number) + (1 - 0)
# right:     u16::from(number) + (2 - 1)
# its_twin_has_another_shape
old: if one < other
new: if other > one
# right: if (one) < other
# means_the_same_beside_a_constant
old:     STEP + u16::from(number)
new:     STEP + 1 * u16::from(number)
# right:     STEP + 0x1 * u16::from(number)
# greater_by_two
old:     number + 1
new:     number + 2
# greater_than_the_greatest
old:     greater(number)
new:     greater(255)
# error_counted_twice
old: errors.saturating_add(1)
new: errors.saturating_add(2)
# two_functions
old:     1 + u16::from(number)
new:     0 + u16::from(number)
old: if one < other
new: if one <= other
# two_functions_and_the_wrong_one
old:     1 + u16::from(number)
new:     0 + u16::from(number)
old: if one < other
new: if one <= other
# in: at_most
# names_no_function
old: if left < right
new: if left <= right
# in: no_such_function
# comment_in_place_of_code
old: if left < right
new: if left < left // right
# words_of_the_contracts
old: ghost use Rattle.std.specs
new: ghost use Rattle.core.specs
# in: step
# contract_of_two_more
old: ensures { result ≡ number + 2 }
new: ensures { result ≡ number + 3 }
# its_twin_does_not_compile
old:     STEP + u16::from(number)
new:     STEP + u16::from(number) + (1, 0).0
# right:     STEP + u16::from(number) + (1, 0u8).1
# least_in_place_of_the_least
old: Least::number(Least::of(other, one))
new: Least::number((Least::of(one, other), Least::of(other, one)).0)
# right: Least::number((Least::of(one, other), Least::of(other, one)).1)
# type: Least
# number_in_place_of_another_type
old: Least::number(Least::of(one, other))
new: Least::number((at_most(one, other), Least::of(one, other)).0)
# right: Least::number((at_most(one, other), Least::of(one, other)).1)
# type: Greatest
file: src/out/mod.rt
# one_less_is_given
old:     number
new:     number.saturating_sub(1)
# right:     number.saturating_sub(0)
END
}

# small_lines: what the script has to say of them: a piece of each line but the last one.
small_lines() {
    printf 'FAILED small %s: crates/small/wrong-bodies/lib.edit:\n' does_not_fit has_no_right_twin its_twin_has_another_shape \
        two_functions names_no_function comment_in_place_of_code words_of_the_contracts contract_of_two_more
    cat <<'END'
refused small adds_two: one_more: 
refused small one_less_is_given: out::given: returns
refused small adds_none: next: returns
refused small one_too_many: as_many: returns
refused small constant_of_two: step: returns
refused small two_functions_and_the_right_one: same: returns
refused small error_counted_twice_with_its_twin: count_error: returns-then-is_err-clause-count (open at a limit of the search)
refused small number_in_place_of_the_least: error
refused small least_in_place_of_the_number_beside: Beside+Least::number_beside: returns
caught small zero_of_the_tests: the_lesser_is_at_most_each of small_tests
caught small refused_and_caught: the_lesser_is_at_most_each of small_tests
FAILED small means_the_same: minimum is still proved
FAILED small zero_is_at_most_each: smaller is still proved
FAILED small passes_its_tests: the_lesser_is_at_most_each of small_tests passes
FAILED small caught_by_a_broken_test: the_greater_is_at_most_each of small_tests: it fails over the code as it stands
FAILED small caught_by_no_test: there_is_no_such_test of small_tests: it doesn't run over the code as it stands
FAILED small refused_and_caught, by the prover: it isn't proved, so no test has to catch it: no_greater: 
FAILED small text_in_place_of_a_number: it doesn't compile
FAILED small goes_where_no_proof_follows: only a proof names what went away
FAILED small goes_where_no_proof_follows, right twin: it isn't proved
FAILED small its_twin_is_wrong_too, right twin: it isn't proved
FAILED small means_the_same_beside_a_constant: step_to is still proved
FAILED small greater_by_two: it is refused, but not for a clause of its contract, and has no right twin: greater: overflow_
FAILED small greater_than_the_greatest: it is refused, but not for a clause of its contract, and has no right twin: greater_again: greater-requires
FAILED small error_counted_twice: it is refused, but not for a clause of its contract, and has no right twin: count_error: returns-then-is_err-clause-count (open at a limit of the search)
FAILED small its_twin_does_not_compile, right twin: it isn't proved: it doesn't compile
FAILED small two_functions_and_the_wrong_one: at_most is still proved
FAILED small least_in_place_of_the_least: it compiles
FAILED small number_in_place_of_another_type: the error at its line doesn't name Greatest
refused small its_twin_is_wrong_too: same: returns
refused small its_twin_does_not_compile: step_to: returns
END
}
