//! The twelve checked examples of document 01, every claim.

use second::examples::{examples, Example};
use second::make::program_input;
use second::refusal::*;
use second::{body, check, element, normalise, program, run, Refusal};

fn example(prefix: &str) -> Example {
    let found = examples().into_iter().find(|e| e.name.starts_with(prefix));
    found.expect("an example of this name")
}

fn printed(prefix: &str) -> String {
    let example = example(prefix);
    let out = program(&program_input(&example.sheet, &example.inputs));
    String::from_utf8(out).expect("text")
}

fn refused(number: u32, place: u64) -> Result<u64, Refusal> {
    Err(Refusal { number, place })
}

fn normal(sheet: &[u8]) -> Result<Vec<u8>, Refusal> {
    let mut out = vec![0; 65_536];
    let length = normalise(sheet, &mut out)?;
    out.truncate(length as usize);
    Ok(out)
}

const SUM: &str = "accepted 6\nx 1 = 5\nx 2 = -2\nx 3 = 4\ny 1 = 5\ny 2 = 3\ny 3 = 7\n";

#[test]
fn example_1_the_running_sum() {
    let sheet = example("01").sheet;
    assert_eq!(sheet.len(), 336);
    assert_eq!(check(&sheet), Ok(6));
    assert_eq!(printed("01"), SUM);
    let form = normal(&sheet).expect("a normal form");
    assert_eq!(form.len(), 416);
    assert_eq!(normal(&form), Ok(form.clone()));
    assert_eq!(element(&sheet, 1, &[3]), Ok(5));
    assert_eq!(element(&sheet, 1, &[4]), refused(ASK, 0));
    assert_eq!(element(&sheet, 2, &[1]), refused(ASK, 0));
    assert_eq!(element(&sheet, 0, &[]), refused(ASK, 0));
    assert_eq!(body(&sheet, 0), (0, 0));
    assert_eq!(body(&sheet, 1), (120, 216));
    assert_eq!(body(&sheet, 2), (0, 0));
}

#[test]
fn example_1_lent_tables() {
    let sheet = example("01").sheet;
    let (mut codes, mut values) = ([9u8; 8], [9i32; 7]);
    assert_eq!(run(&sheet, &[5, -2, 4], &mut codes, &mut values), Ok(6));
    assert_eq!(codes, [1, 1, 1, 1, 1, 1, 9, 9]);
    assert_eq!(values, [5, -2, 4, 5, 3, 7, 9]);
    let before = (codes, values);
    assert_eq!(run(&sheet, &[5, -2], &mut codes, &mut values), refused(INPUT, 3));
    assert_eq!(run(&sheet, &[5, -2, 4], &mut codes[..5], &mut values), refused(ROOM, 6));
    assert_eq!(run(&sheet, &[5, -2, 4], &mut codes, &mut values[..5]), refused(ROOM, 6));
    assert_eq!((codes, values), before);
    let mut out = [7u8; 415];
    assert_eq!(normalise(&sheet, &mut out), refused(ROOM, 416));
    assert!(out.iter().all(|b| *b == 7));
    let mut out = [7u8; 420];
    assert_eq!(normalise(&sheet, &mut out), Ok(416));
    assert_eq!(out[416..], [7; 4]);
}

#[test]
fn example_2_overlapping_restrictions_are_no_clash() {
    assert_eq!(printed("02"), SUM);
}

#[test]
fn example_3_gap() {
    let sheet = example("03").sheet;
    assert_eq!(check(&sheet), refused(GAP, 3));
    assert_eq!(printed("03"), "refused 10 place 3\n");
    assert_eq!(element(&sheet, 0, &[1]), refused(GAP, 3));
    assert_eq!(body(&sheet, 1), (0, 0));
}

#[test]
fn examples_4_and_5_division() {
    assert_eq!(printed("04a"), "accepted 1\nu = -3\n");
    assert_eq!(printed("04b"), "accepted 1\nu = -1\n");
    assert_eq!(printed("05a"), "accepted 1\nu ! OVERFLOW\n");
    assert_eq!(printed("05b"), "accepted 1\nu = 0\n");
}

#[test]
fn examples_6_7_8_errors() {
    assert_eq!(printed("06"), "accepted 3\nz 1 ! LOOP\nz 2 ! LOOP\nz 3 ! LOOP\n");
    assert_eq!(printed("07"), "accepted 1\nu ! DIVZERO\n");
    assert_eq!(printed("08"), "accepted 1\nu ! LOOP\n");
}

#[test]
fn example_9_reach() {
    assert_eq!(printed("09a"), SUM);
    assert_eq!(check(&example("09b").sheet), refused(REACH, 0));
}

#[test]
fn example_10_names() {
    assert_eq!(printed("10a"), "accepted 3\na07 = 3\na7 = 4\ny = 7\n");
    assert_eq!(check(&example("10b").sheet), refused(NAME, 40));
}

#[test]
fn example_11_branches() {
    let form = normal(&example("11a").sheet).expect("64 branches");
    let (start, _) = body(&form, 0);
    assert_eq!(form[start..start + 16], [6, 0, 0, 0, 0, 0, 0, 0, 64, 0, 0, 0, 0, 0, 0, 0]);
    let wide = normal(&example("11b").sheet);
    assert_eq!(wide, Err(Refusal { number: WIDE, place: 0 }));
}

#[test]
fn example_12_no_bytes() {
    assert_eq!(check(&[]), refused(CUT, 0));
    assert_eq!(program(&[0; 8]), b"refused 2 place 0\n");
    assert_eq!(program(&[]), b"refused 2 place 0\n");
}

#[test]
fn the_program_input() {
    let sheet = example("01").sheet;
    let whole = program_input(&sheet, &[5, -2, 4]);
    let with_length = |length: i64| {
        let mut bytes = whole.clone();
        bytes[..8].copy_from_slice(&length.to_le_bytes());
        String::from_utf8(program(&bytes)).expect("text")
    };
    assert_eq!(with_length(65_537), "refused 1 place 0\n");
    assert_eq!(with_length(i64::MAX), "refused 1 place 0\n");
    assert_eq!(with_length(65_536), "refused 2 place 0\n");
    assert_eq!(with_length(-1), "refused 2 place 0\n");
    assert_eq!(with_length(i64::MIN), "refused 2 place 0\n");
    assert_eq!(with_length(335), "refused 2 place 328\n");
    assert_eq!(with_length(337), "refused 6 place 336\n");
    assert_eq!(program(&whole[..whole.len() - 1]), b"refused 12 place 3\n");
    assert_eq!(program(&whole[..whole.len() - 4]), b"refused 12 place 3\n");
    assert_eq!(program(&[&whole[..], &[0]].concat()), b"refused 12 place 3\n");
    assert_eq!(program(&whole[..7]), b"refused 2 place 0\n");
}
