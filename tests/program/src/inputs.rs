//! What the program is fed: generated cases, and inputs made for the frame and
//! for the limits of its buffers. An input has a name and its bytes.

use second::build::{
    at_least, balanced, binary, depend, equal, everywhere, integer, restrict, variable, Draft, DIV,
    INPUT, OUTPUT, PLUS,
};
use second::examples::examples;
use second::make::program_input;
use second::rng::Rng;

pub type Named = (String, Vec<u8>);

/// No output is longer: 4,096 lines of 51 bytes after a line of 14.
pub const LONGEST: usize = 208_910;

/// So many generated cases and as many tiny ones, then the made ones.
pub fn inputs(seed: u64, count: usize) -> Vec<Named> {
    let mut list = Vec::new();
    let generated =
        [("case", second::cases(seed, count)), ("small", second::small_cases(seed, count))];
    for (kind, cases) in generated {
        for (index, c) in cases.into_iter().enumerate() {
            list.push((format!("{kind}-{index:04}-{}", c.name), c.stdin));
        }
    }
    for e in examples() {
        list.push((format!("example-{}", e.name), program_input(&e.sheet, &e.inputs)));
    }
    list.extend(frames());
    list.extend(tails());
    list.extend(random_bytes(seed, count / 10));
    list.push(longest());
    list.push(every_outcome());
    list
}

/// The bytes of a sheet after a length that need not be its own.
fn framed(length: i64, sheet: &[u8], values: &[i32]) -> Vec<u8> {
    let mut bytes = program_input(sheet, values);
    bytes[..8].copy_from_slice(&length.to_le_bytes());
    bytes
}

fn running_sum() -> Vec<u8> {
    examples().swap_remove(0).sheet
}

/// Lengths missing, negative, too great, past the end and before it.
fn frames() -> Vec<Named> {
    let sheet = running_sum();
    let whole = program_input(&sheet, &[5, -2, 4]);
    let cut = |n: usize| (format!("first-{n}-bytes"), whole[..n].to_vec());
    let mut list: Vec<Named> = (0..whole.len()).map(cut).collect();
    let size = sheet.len() as i64;
    let lengths = [
        0,
        1,
        -1,
        -8,
        i64::MIN,
        i64::MIN + size,
        i64::MAX,
        size - 8,
        size - 4,
        size - 1,
        size + 1,
        size + 4,
        size + 8,
        size + 12,
        size + 13,
        65_535,
        65_536,
        65_537,
        65_538,
        1 << 31,
        1 << 32,
        (1 << 32) + size,
        (1 << 40) + size,
        (1 << 62) + size,
        -(1 << 32) + size,
    ];
    for n in lengths {
        list.push((format!("length-{n}"), framed(n, &sheet, &[5, -2, 4])));
        list.push((format!("length-{n}-alone"), n.to_le_bytes().to_vec()));
        let mut long = framed(n, &sheet, &[5, -2, 4]);
        long.resize(90_000, 1);
        list.push((format!("length-{n}-long"), long));
    }
    list
}

/// Bytes after the sheet: up to what the program's buffers hold, and far past.
fn tails() -> Vec<Named> {
    let mut list = Vec::new();
    let line = Draft::default().integer("x", INPUT, &[(0, 4095)]).bytes();
    let truths = Draft::default().boolean("t", INPUT, &[(0, 4095)]).bytes();
    let sheets = [("sum", running_sum()), ("line", line), ("truths", truths), ("full", full())];
    for (name, sheet) in sheets {
        let right = second::run::inputs_needed(&second::check::accept(&sheet).expect("accepted"));
        let around = [right.saturating_sub(1), right, right + 1, right + 2];
        for count in around.into_iter().chain([4095, 4096, 4097, 4098, 5000, 100_000, 250_000]) {
            for broken in 0..4 {
                let mut bytes = program_input(&sheet, &vec![1; count]);
                bytes.resize(bytes.len() + broken, 0);
                list.push((format!("{name}-{count}-values-and-{broken}"), bytes));
            }
        }
        for place in [0, 1, right / 2, right - 1] {
            for value in [2, -1, 256, i32::MIN] {
                let mut values = vec![1; right];
                values[place] = value;
                let bytes = program_input(&sheet, &values);
                list.push((format!("{name}-{value}-at-{place}"), bytes));
            }
        }
    }
    list
}

/// A sheet of 65,536 bytes that takes 4,095 values: the longest input there is
/// with an accepted answer.
fn full() -> Vec<u8> {
    let always = at_least(&[], 0);
    let sheet = |counts: &[usize]| {
        let summand = |n: &usize| restrict(0, &vec![always.clone(); *n], integer(1));
        let mut parts = vec![depend(0, &[(vec![], 7)], variable(0))];
        parts.extend(counts.iter().map(summand));
        let draft = Draft::default().integer("x", INPUT, &[(1, 4095)]).integer("y", OUTPUT, &[]);
        draft.body(balanced(PLUS, parts)).bytes()
    };
    // A summand has 7 fields and 2 for each of at most 64 constraints: an odd number.
    let mut left = 8192 - sheet(&[]).len() / 8;
    let mut counts = Vec::new();
    while left > 0 {
        let fields = match (left, left % 2) {
            (..=135, 1) => left,
            (..=270, 0) => (left / 2) | 1,
            (..=405, _) => (left / 4) | 1,
            _ => 135,
        };
        counts.push((fields - 7) / 2);
        left -= fields;
    }
    let bytes = sheet(&counts);
    assert_eq!(bytes.len(), 65_536, "the full sheet");
    bytes
}

/// Bytes of no order, alone and after a length that fits.
fn random_bytes(seed: u64, count: usize) -> Vec<Named> {
    let mut rng = Rng::new(seed ^ 0xB17E);
    let one = |index: usize| {
        let size = rng.below(400);
        let mut bytes: Vec<u8> = (0..size).map(|_| rng.bits() as u8).collect();
        if index % 2 == 0 {
            let mut framed = (size as u64).to_le_bytes().to_vec();
            framed.append(&mut bytes);
            bytes = framed;
        }
        (format!("bytes-{index}"), bytes)
    };
    (0..count).map(one).collect()
}

/// The longest output: names, coordinates and values as long as they get.
pub fn longest() -> Named {
    let body = everywhere(4, integer(-2147483648));
    let draft = Draft::default().integer("ABCD_678", OUTPUT, &[(-32768, -32761); 4]);
    ("longest-output".into(), program_input(&draft.body(body).bytes(), &[]))
}

/// Outside, value, DIVZERO, OVERFLOW and LOOP, one after another.
fn every_outcome() -> Named {
    let mut draft = Draft::default().integer("o", OUTPUT, &[(0, 1)]).declare(0, equal(&[1], 0));
    for name in ["d", "v", "l"] {
        draft = draft.integer(name, OUTPUT, &[]);
    }
    let draft = draft.body(everywhere(1, integer(1)));
    let draft = draft.body(binary(DIV, integer(1), integer(0)));
    let draft = draft.body(binary(PLUS, integer(2147483647), integer(1)));
    ("every-outcome".into(), program_input(&draft.body(variable(3)).bytes(), &[]))
}
