//! Limits, orders and places one by one.

use second::build::*;
use second::examples::scalar;
use second::refusal::{self, ASK, CLASH, COUNT, CUT, GAP, NUMBER, REACH, ROOM, SHAPE, TAIL, TYPE};
use second::{check, element, program, run, Refusal};

const POWER: i64 = 1 << 40;

fn refused(number: u32, place: u64) -> Result<u64, Refusal> {
    Err(Refusal { number, place })
}

/// The sheet with the field at a byte offset replaced.
fn with(sheet: &[u8], at: usize, number: i64) -> Vec<u8> {
    let mut bytes = sheet.to_vec();
    bytes[at..at + 8].copy_from_slice(&number.to_le_bytes());
    bytes
}

/// x input over 1..3 and y output over 1..3, the body given.
fn two(body: Part) -> Draft {
    Draft::default().integer("x", INPUT, &[(1, 3)]).integer("y", OUTPUT, &[(1, 3)]).body(body)
}

fn constant() -> Part {
    everywhere(1, integer(1))
}

#[test]
fn every_cut_is_at_the_field_it_cuts() {
    let sheet = two(restrict(1, &[at_least(&[1], 0)], constant())).bytes();
    for length in 0..sheet.len() {
        assert_eq!(check(&sheet[..length]), refused(CUT, (length / 8 * 8) as u64));
    }
    assert_eq!(check(&sheet), Ok(6));
}

#[test]
fn counts_at_their_fields() {
    let sheet = two(restrict(1, &[at_least(&[1], 0)], constant())).bytes();
    // count 0; x 8..56; y 56..104; declared 104; nodes 112; restriction 120.
    let off = [(0, 0), (0, 33), (0, -1), (32, 5), (32, -1), (80, i64::MIN), (104, 257)];
    let nodes = [(104, -1), (112, 2049), (112, -1), (128, 5), (136, 65), (136, -1), (176, 5)];
    for (at, number) in off.into_iter().chain(nodes).chain([(184, 5), (184, -1)]) {
        let answer = check(&with(&sheet, at, number));
        assert_eq!(answer, refused(COUNT, at as u64), "{at} {number}");
    }
    let branches = scalar(case(&[integer(1)]));
    assert_eq!(check(&with(&branches, 64, 0)), refused(COUNT, 64));
    assert_eq!(check(&with(&branches, 64, 65)), refused(COUNT, 64));
    assert_eq!(check(&with(&branches, 64, 64)), refused(SHAPE, 0));
}

#[test]
fn numbers_at_their_fields() {
    let sheet = two(restrict(1, &[at_least(&[1], 0)], constant())).bytes();
    let records = [(16, 3), (16, -1), (24, 2), (40, -32769), (40, 32768), (48, 0), (48, 32768)];
    let nodes = [(120, 9), (120, -1), (144, 2), (152, POWER + 1), (152, -POWER - 1)];
    let more = [(160, i64::MIN), (192, 9), (200, 2147483648), (200, -2147483649)];
    for (at, number) in records.into_iter().chain(nodes).chain(more) {
        let answer = check(&with(&sheet, at, number));
        assert_eq!(answer, refused(NUMBER, at as u64), "{at} {number}");
    }
}

#[test]
fn numbers_at_their_edges() {
    let sheet = two(restrict(1, &[at_least(&[1], 0)], constant())).bytes();
    assert_eq!(check(&with(&sheet, 200, 2147483647)), Ok(6));
    assert_eq!(check(&with(&sheet, 160, POWER)), refused(REACH, 1));
    assert_eq!(check(&with(&sheet, 152, -POWER)), refused(REACH, 1));
    assert_eq!(check(&with(&scalar(variable(0)), 64, 1)), refused(NUMBER, 64));
    assert_eq!(check(&with(&scalar(variable(0)), 64, -1)), refused(NUMBER, 64));
    assert_eq!(check(&with(&scalar(boolean(true)), 64, 2)), refused(NUMBER, 64));
    assert_eq!(check(&with(&scalar(negate(integer(1))), 64, 2)), refused(NUMBER, 64));
    assert_eq!(
        check(&with(&scalar(binary(15, integer(1), integer(1))), 64, 16)),
        refused(NUMBER, 64)
    );
}

#[test]
fn declared_constraints_name_a_variable() {
    let sheet = two(constant()).declare(1, equal(&[0], 0)).bytes();
    assert_eq!(check(&sheet), Ok(6));
    assert_eq!(check(&with(&sheet, 112, 2)), refused(NUMBER, 112));
    assert_eq!(check(&with(&sheet, 112, -1)), refused(NUMBER, 112));
    assert_eq!(check(&with(&sheet, 120, 2)), refused(NUMBER, 120));
    assert_eq!(check(&with(&sheet, 128, POWER + 1)), refused(NUMBER, 128));
    assert_eq!(check(&with(&sheet, 136, POWER)), Ok(6));
}

#[test]
fn the_first_fault_decides() {
    let sheet = two(constant()).bytes();
    // A name is judged before the kind, and the box after its last hi.
    let both = with(&with(&sheet, 8, 0), 16, 9);
    assert_eq!(check(&both), refused(refusal::NAME, 8));
    let wide = with(&with(&sheet, 40, -32768), 48, 32767);
    assert_eq!(check(&wide), refused(COUNT, 8));
    assert_eq!(check(&with(&wide, 56, 0)), refused(COUNT, 8));
    assert_eq!(check(&wide[..56]), refused(COUNT, 8));
    assert_eq!(check(&wide[..55]), refused(CUT, 48));
    let tail = [&sheet[..], &[1]].concat();
    assert_eq!(check(&tail), refused(TAIL, sheet.len() as u64));
    assert_eq!(check(&with(&tail, 112, 0)), refused(TAIL, 120));
}

#[test]
fn names_are_bytes() {
    let named = |field: &[u8; 8]| check(&with(&scalar(integer(1)), 8, i64::from_le_bytes(*field)));
    for good in [b"a\0\0\0\0\0\0\0", b"_\0\0\0\0\0\0\0", b"abcdefgh", b"Z_9\0\0\0\0\0"] {
        assert_eq!(named(good), Ok(1));
    }
    let bad = [b"\0\0\0\0\0\0\0\0", b"9\0\0\0\0\0\0\0", b"a\0b\0\0\0\0\0", b"a \0\0\0\0\0\0"];
    for bad in bad.into_iter().chain([b"a\0\0\0\0\0\0 ", b"a\xc3\xa4\0\0\0\0\0", b"abcdefg-"]) {
        assert_eq!(named(bad), refused(refusal::NAME, 8));
    }
    let cases = |a: &str, b: &str| {
        let draft = Draft::default().integer(a, INPUT, &[]).integer(b, INPUT, &[]);
        check(&draft.bytes())
    };
    assert_eq!(cases("a7", "A7"), Ok(2));
    assert_eq!(cases("a7", "a7"), refused(refusal::NAME, 40));
}

#[test]
fn shape_over_all_variables_before_type() {
    let draft = Draft::default().integer("a", OUTPUT, &[]).integer("b", OUTPUT, &[]);
    let bodies = |a: Part, b: Part| check(&draft.clone().body(a).body(b).bytes());
    assert_eq!(bodies(boolean(true), constant()), refused(SHAPE, 1));
    assert_eq!(bodies(boolean(true), integer(1)), refused(TYPE, 0));
    assert_eq!(bodies(integer(1), boolean(true)), refused(TYPE, 1));
    let far = restrict(0, &[at_least(&[], POWER)], integer(1));
    assert_eq!(bodies(far.clone(), boolean(true)), refused(TYPE, 1));
    assert_eq!(bodies(far, integer(1)), Ok(2));
    assert_eq!(check(&draft.clone().body(integer(1)).bytes()), refused(SHAPE, 1));
    let over = draft.body(integer(1)).body(integer(1)).body(integer(1));
    assert_eq!(check(&over.bytes()), refused(SHAPE, 2));
}

#[test]
fn dimensions_agree() {
    let body = |part: Part| check(&two(part).bytes());
    assert_eq!(body(variable(0)), Ok(6));
    assert_eq!(body(integer(1)), refused(SHAPE, 1));
    assert_eq!(body(binary(PLUS, variable(0), integer(1))), refused(SHAPE, 1));
    assert_eq!(body(restrict(0, &[], variable(0))), refused(SHAPE, 1));
    assert_eq!(body(restrict(1, &[], variable(0))), Ok(6));
    assert_eq!(body(depend(1, &[], variable(0))), refused(SHAPE, 1));
    assert_eq!(body(case(&[variable(0), constant(), integer(1)])), refused(SHAPE, 1));
    assert_eq!(check(&scalar(depend(0, &[], integer(4)))), Ok(1));
}

#[test]
fn types_are_narrow() {
    let (t, n) = (|| boolean(true), || integer(1));
    let ok = |part: Part| check(&scalar(part)) == Ok(1);
    let wrong = |part: Part| check(&scalar(part)) == refused(TYPE, 0);
    assert!((0..=6).all(|operator| ok(binary(operator, n(), n()))));
    assert!((7..=15).all(|operator| wrong(binary(operator, n(), n()))));
    assert!((0..=15).all(|operator| wrong(binary(operator, t(), n()))));
    assert!(ok(negate(n())) && wrong(negate(t())) && wrong(not(n())) && wrong(not(t())));
    assert!(ok(choose(t(), n(), n())) && wrong(choose(n(), n(), n())));
    assert!(wrong(choose(t(), n(), t())) && wrong(choose(t(), t(), t())));
    let truth =
        |part: Part| check(&Draft::default().boolean("b", OUTPUT, &[]).body(part).bytes()) == Ok(1);
    assert!((7..=12).all(|operator| truth(binary(operator, n(), n()))));
    assert!([7, 8, 13, 14, 15].iter().all(|operator| truth(binary(*operator, t(), t()))));
    assert!((9..=12).all(|operator| !truth(binary(operator, t(), t()))));
}

#[test]
fn gap_and_clash_by_element() {
    let from = |n: i64, part: Part| restrict(1, &[at_least(&[1], -n)], part);
    let check_body = |part: Part| check(&two(part).bytes());
    assert_eq!(check_body(case(&[from(1, constant()), from(3, constant())])), refused(CLASH, 5));
    assert_eq!(check_body(case(&[from(2, constant()), from(2, constant())])), refused(GAP, 3));
    // One operand clashes, the other doesn't hold: GAP at the same element.
    let clash = case(&[constant(), constant()]);
    assert_eq!(check_body(binary(PLUS, clash.clone(), from(2, constant()))), refused(GAP, 3));
    assert_eq!(check_body(clash.clone()), refused(CLASH, 3));
    // An untaken arm of an if is reached.
    let test = everywhere(1, boolean(true));
    assert_eq!(check_body(choose(test, constant(), clash.clone())), refused(CLASH, 3));
    // Nothing is tested outside the declared domain.
    let empty = two(clash).declare(1, at_least(&[0], -1));
    assert_eq!(check(&empty.bytes()), Ok(6));
}

#[test]
fn reach_counts_dead_branches_and_inputs() {
    let never = |part: Part| restrict(1, &[at_least(&[0], -1)], part);
    let row = |c: i64, k: i64, part: Part| depend(1, &[(vec![c], k)], part);
    let body = |part: Part| check(&two(case(&[constant(), never(part)])).bytes());
    assert_eq!(body(row(1 << 25, 0, constant())), Ok(6));
    assert_eq!(body(row(-(1 << 25), 1, constant())), refused(REACH, 1));
    assert_eq!(body(row(1 << 20, 0, row(32, 0, constant()))), Ok(6));
    assert_eq!(body(row(1 << 20, 0, row(32, 1, constant()))), refused(REACH, 1));
    let zero = row(0, 0, restrict(1, &[at_least(&[POWER], 0)], constant()));
    assert_eq!(body(zero), Ok(6));
    let one = row(0, 0, restrict(1, &[at_least(&[POWER], 1)], constant()));
    assert_eq!(body(one), refused(REACH, 1));
    let input = two(constant()).declare(0, at_least(&[POWER], 0));
    assert_eq!(check(&input.bytes()), refused(REACH, 0));
}

#[test]
fn inputs_are_judged_by_length_then_entry() {
    let draft = Draft::default().integer("n", INPUT, &[(0, 1)]).boolean("b", INPUT, &[(0, 2)]);
    let sheet = draft.declare(1, at_least(&[1], -1)).bytes();
    let (mut codes, mut values) = ([0; 5], [0; 5]);
    let mut ask = |list: &[i32]| run(&sheet, list, &mut codes, &mut values);
    assert_eq!(ask(&[9, 9, 2, 1]), refused(refusal::INPUT, 5));
    assert_eq!(ask(&[9, 9, 0, 1, 1, 1]), refused(refusal::INPUT, 5));
    assert_eq!(ask(&[9, 9, 0, -1, 3]), refused(refusal::INPUT, 3));
    // The entry outside the declared domain counts too, but gives no value.
    assert_eq!(ask(&[9, 9, 7, 1, 0]), refused(refusal::INPUT, 2));
    assert_eq!(ask(&[9, 8, 1, 1, 0]), Ok(5));
    assert_eq!((codes, values), ([1, 1, 0, 1, 1], [9, 8, 0, 1, 0]));
    assert_eq!(run(&sheet, &[9], &mut [], &mut []), refused(refusal::INPUT, 5));
    assert_eq!(run(&sheet, &[9, 8, 1, 1, 0], &mut [], &mut []), refused(ROOM, 5));
}

#[test]
fn elements_last_coordinate_fastest() {
    let body = everywhere(2, boolean(true));
    let draft = Draft::default().integer("s", INPUT, &[]).boolean("m", LOCAL, &[(-1, 1), (5, 6)]);
    let sheet = draft.declare(1, equal(&[1, 0], 0)).body(body).bytes();
    assert_eq!(element(&sheet, 0, &[]), Ok(0));
    assert_eq!(element(&sheet, 1, &[-1, 5]), Ok(1));
    assert_eq!(element(&sheet, 1, &[-1, 6]), Ok(2));
    assert_eq!(element(&sheet, 1, &[1, 6]), Ok(6));
    for point in [&[2, 5][..], &[0, 7], &[0], &[0, 5, 0], &[i64::MIN, i64::MAX], &[0; 9]] {
        assert_eq!(element(&sheet, 1, point), refused(ASK, 0));
    }
    assert_eq!(element(&sheet, u64::MAX, &[]), refused(ASK, 0));
    let input = second::make::program_input(&sheet, &[-4]);
    let text =
        "accepted 7\ns = -4\nm -1 5 -\nm -1 6 -\nm 0 5 = true\nm 0 6 = true\nm 1 5 -\nm 1 6 -\n";
    assert_eq!(String::from_utf8(program(&input)).as_deref(), Ok(text));
}

#[test]
fn operators_give_their_values() {
    let value = |part: Part| {
        let (mut codes, mut values) = ([0], [0]);
        run(&scalar(part), &[], &mut codes, &mut values).map(|_| (codes[0], values[0]))
    };
    let of = |operator: i64, a: i64, b: i64| value(binary(operator, integer(a), integer(b)));
    let (least, most) = (-2147483648, 2147483647);
    assert_eq!(of(0, most, 1), Ok((3, 0)));
    assert_eq!(of(1, least, 1), Ok((3, 0)));
    assert_eq!(of(1, -3, -5), Ok((1, 2)));
    assert_eq!(of(2, 65536, 32768), Ok((3, 0)));
    assert_eq!(of(2, -65536, 32768), Ok((1, i32::MIN)));
    assert_eq!(of(3, 7, -2), Ok((1, -3)));
    assert_eq!(of(4, 7, -2), Ok((1, 1)));
    assert_eq!(of(4, -7, -2), Ok((1, -1)));
    assert_eq!(of(3, 0, 0), Ok((2, 0)));
    assert_eq!(of(4, least, 0), Ok((2, 0)));
    assert_eq!(of(5, -1, 4), Ok((1, -1)));
    assert_eq!(of(6, -1, 4), Ok((1, 4)));
    assert_eq!(value(negate(integer(least))), Ok((3, 0)));
    assert_eq!(value(choose(boolean(true), integer(3), integer(4))), Ok((1, 3)));
    let overflow = || negate(integer(least));
    let division = || binary(DIV, integer(1), integer(0));
    assert_eq!(value(choose(boolean(false), overflow(), division())), Ok((3, 0)));
    assert_eq!(value(binary(DIV, overflow(), integer(0))), Ok((3, 0)));
    assert_eq!(value(binary(5, variable(0), division())), Ok((4, 0)));
    assert_eq!(value(binary(5, division(), variable(0))), Ok((2, 0)));
}

#[test]
fn truth_tables() {
    let truth = |operator: i64, a: bool, b: bool| {
        let body = binary(operator, boolean(a), boolean(b));
        let sheet = Draft::default().boolean("b", OUTPUT, &[]).body(body).bytes();
        let (mut codes, mut values) = ([0], [0]);
        assert_eq!(run(&sheet, &[], &mut codes, &mut values), Ok(1));
        values[0]
    };
    let pairs = [(false, false), (false, true), (true, false), (true, true)];
    let table = |operator: i64| pairs.map(|(a, b)| truth(operator, a, b));
    assert_eq!(table(7), [1, 0, 0, 1]);
    assert_eq!(table(8), [0, 1, 1, 0]);
    assert_eq!(table(13), [0, 0, 0, 1]);
    assert_eq!(table(14), [0, 1, 1, 1]);
    assert_eq!(table(15), [0, 1, 1, 0]);
}
