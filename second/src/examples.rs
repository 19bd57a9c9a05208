//! The twelve checked examples of document 01 as sheets with their inputs.

use crate::build::*;

/// An example: a name for its files, the sheet and the input list.
#[derive(Clone, Debug)]
pub struct Example {
    pub name: &'static str,
    pub sheet: Vec<u8>,
    pub inputs: Vec<i32>,
}

/// All examples in document 01's order, two where an example has two halves.
pub fn examples() -> Vec<Example> {
    let list = [
        ("01-running-sum", running_sum().bytes(), vec![5, -2, 4]),
        ("02-overlapping-restrictions", overlapping().bytes(), vec![5, -2, 4]),
        ("03-gap-at-zero", gap_at_zero().bytes(), vec![5, -2, 4]),
        ("04a-div-toward-zero", scalar(binary(DIV, integer(-7), integer(2))), vec![]),
        ("04b-mod-keeps-the-sign", scalar(binary(MOD, integer(-7), integer(2))), vec![]),
        ("05a-div-overflow", scalar(binary(DIV, least(), integer(-1))), vec![]),
        ("05b-mod-no-overflow", scalar(binary(MOD, least(), integer(-1))), vec![]),
        ("06-mirror-loop", mirror().bytes(), vec![]),
        ("07-first-error-decides", scalar(first_error()), vec![]),
        ("08-loop-in-untaken-arm", scalar(untaken_arm()), vec![]),
        ("09a-reach-at-the-limit", declared_reach(0).bytes(), vec![5, -2, 4]),
        ("09b-reach-past-the-limit", declared_reach(1).bytes(), vec![5, -2, 4]),
        ("10a-two-names", two_names("a07", "a7").bytes(), vec![3, 4]),
        ("10b-one-name-twice", two_names("a7", "a7").bytes(), vec![3, 4]),
        ("11a-eight-by-eight", line_of_eight(added_cases(8, 8)), vec![]),
        ("11b-nine-by-eight", line_of_eight(added_cases(9, 8)), vec![]),
        ("12-no-bytes", vec![], vec![]),
    ];
    let example = |(name, sheet, inputs)| Example { name, sheet, inputs };
    list.into_iter().map(example).collect()
}

/// x input 1..3; y output 1..3, the sum of x so far.
pub fn running_sum() -> Draft {
    sum_over((1, 3), 2)
}

/// Example 2: the second branch says i >= 1, and y doesn't hold at 0.
fn overlapping() -> Draft {
    sum_over((1, 3), 1)
}

/// Example 3: y's box starts at 0, where no branch holds.
fn gap_at_zero() -> Draft {
    sum_over((0, 3), 2)
}

/// The running sum over a box of y, its second branch from `from` on.
fn sum_over(bounds: (i64, i64), from: i64) -> Draft {
    let first = restrict(1, &[equal(&[1], -1)], variable(0));
    let sum = binary(PLUS, shifted(1, -1), variable(0));
    let second = restrict(1, &[at_least(&[1], -from)], sum);
    Draft::default()
        .integer("x", INPUT, &[(1, 3)])
        .integer("y", OUTPUT, &[bounds])
        .body(case(&[first, second]))
}

/// A sheet of one scalar integer variable u.
pub fn scalar(body: Part) -> Vec<u8> {
    Draft::default().integer("u", OUTPUT, &[]).body(body).bytes()
}

fn least() -> Part {
    integer(-2147483648)
}

fn mirror() -> Draft {
    let body = depend(1, &[(vec![-1], 4)], variable(0));
    Draft::default().integer("z", OUTPUT, &[(1, 3)]).body(body)
}

fn first_error() -> Part {
    let division = binary(DIV, integer(1), integer(0));
    binary(PLUS, division, binary(PLUS, integer(2147483647), integer(1)))
}

fn untaken_arm() -> Part {
    choose(boolean(false), variable(0), integer(0))
}

/// Example 9: x declared with 2^25 * i + constant >= 0.
fn declared_reach(constant: i64) -> Draft {
    running_sum().declare(0, at_least(&[1 << 25], constant))
}

fn two_names(first: &str, second: &str) -> Draft {
    let sum = binary(PLUS, variable(0), variable(1));
    Draft::default()
        .integer(first, INPUT, &[])
        .integer(second, INPUT, &[])
        .integer("y", OUTPUT, &[])
        .body(sum)
}

/// Two cases added, with so many branches each, over i from 1 to 8.
pub fn added_cases(left: i64, right: i64) -> Part {
    binary(PLUS, points_case(left, 1), points_case(right, 10))
}

/// A case with a branch for each i from 1 on, the i-th of value i * factor.
fn points_case(branches: i64, factor: i64) -> Part {
    let branch = |i: i64| restrict(1, &[equal(&[1], -i)], everywhere(1, integer(i * factor)));
    case(&(1..=branches).map(branch).collect::<Vec<Part>>())
}

/// A sheet of one integer variable w over 1..8.
fn line_of_eight(body: Part) -> Vec<u8> {
    Draft::default().integer("w", OUTPUT, &[(1, 8)]).body(body).bytes()
}
