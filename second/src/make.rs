//! The generator: cases by seed. A case is a sheet with an input list, lent
//! lengths, an element question, a body question, and the program's input.

use crate::check::{accept, Accepted};
use crate::domain::is_boolean;
use crate::hostile::hostile;
use crate::near::near;
use crate::normal::normal_form;
use crate::read::{read, Kind};
use crate::rng::Rng;
use crate::world::{draft, Size, MANY, MEDIUM, SMALL};

/// Everything that can be asked about one sheet.
#[derive(Clone, Debug)]
pub struct Case {
    pub name: String,
    pub sheet: Vec<u8>,
    pub inputs: Vec<i32>,
    /// Lent lengths: the two tables of the run, the normaliser's output.
    pub codes: usize,
    pub values: usize,
    pub out: usize,
    /// The element question.
    pub variable: u64,
    pub point: Vec<i64>,
    /// The body question.
    pub body: u64,
    /// The program's whole input.
    pub stdin: Vec<u8>,
}

/// So many cases of all kinds.
pub fn cases(seed: u64, count: usize) -> Vec<Case> {
    let mut rng = Rng::new(seed);
    (0..count).map(|index| one(&mut rng, MEDIUM, index)).collect()
}

/// So many cases with tiny sheets, every refusal among them.
pub fn small_cases(seed: u64, count: usize) -> Vec<Case> {
    let mut rng = Rng::new(seed ^ 0x5A5A_5A5A);
    (0..count).map(|index| one(&mut rng, SMALL, index)).collect()
}

/// Generated cases with the hostile ones after them.
pub fn all_cases(seed: u64, count: usize) -> Vec<Case> {
    let mut list = cases(seed, count);
    list.extend(hostile());
    list
}

/// The names of the themes; those from 1 to 15 are the refusals'.
const THEMES: [&str; 30] = [
    "accepted",
    "near-long",
    "near-cut",
    "near-count",
    "near-name",
    "near-number",
    "near-tail",
    "near-shape",
    "near-type",
    "near-reach",
    "near-gap",
    "near-clash",
    "near-input",
    "near-wide",
    "near-room",
    "near-ask",
    "many-variables",
    "accepted",
    "accepted",
    "accepted",
    "accepted",
    "accepted",
    "accepted",
    "accepted",
    "torn",
    "flipped",
    "extreme",
    "damaged-input",
    "accepted",
    "shuffled",
];

/// The case of an index: the themes come in turn.
fn one(rng: &mut Rng, size: Size, index: usize) -> Case {
    let theme = index % THEMES.len();
    let mut sheet = themed(rng, size, theme);
    while size.bytes <= 1000 && !is_small(&sheet, size) {
        sheet = themed(rng, size, theme);
    }
    let mut case = complete(rng, THEMES[theme].to_string(), sheet);
    match theme {
        1 if size.bytes <= 1000 => lengthen(rng, &mut case),
        12 => spoil_inputs(rng, &mut case),
        14 => shorten_room(rng, &mut case),
        15 => spoil_question(rng, &mut case),
        27 => damage(rng, &mut case),
        _ => {}
    }
    case
}

/// A sheet of a theme.
fn themed(rng: &mut Rng, size: Size, theme: usize) -> Vec<u8> {
    match theme {
        1..=15 => near(rng, size, theme as u32),
        16 if size.bytes > 1000 => draft(rng, MANY).bytes(),
        24 => torn(rng, size),
        25 => flipped(rng, size),
        26 => extreme(rng, size),
        29 => shuffled(rng, size),
        _ => draft(rng, size).bytes(),
    }
}

/// Whether a sheet keeps a small size, however it was changed.
fn is_small(sheet: &[u8], size: Size) -> bool {
    let points = read(sheet).map_or(0, |s| s.variables.iter().map(|v| v.points).sum());
    sheet.len() <= size.bytes && points <= size.points
}

/// Bytes cut at either end or from the middle.
fn torn(rng: &mut Rng, size: Size) -> Vec<u8> {
    let mut bytes = draft(rng, size).bytes();
    let from = rng.below(bytes.len());
    let to = (from + rng.below(40)).min(bytes.len());
    bytes.drain(from..to);
    bytes
}

/// A few bytes changed.
fn flipped(rng: &mut Rng, size: Size) -> Vec<u8> {
    let mut bytes = draft(rng, size).bytes();
    for _ in 0..1 + rng.below(3) {
        let place = rng.below(bytes.len());
        bytes[place] ^= 1 << rng.below(8);
    }
    bytes
}

/// A few fields that get numbers of every size.
fn extreme(rng: &mut Rng, size: Size) -> Vec<u8> {
    let mut bytes = draft(rng, size).bytes();
    for _ in 0..1 + rng.below(2) {
        let place = 8 * rng.below(bytes.len() / 8);
        let bits = rng.bits() >> rng.below(64);
        let number = if rng.chance(50) { bits } else { bits.wrapping_neg() };
        bytes[place..place + 8].copy_from_slice(&number.to_le_bytes());
    }
    bytes
}

/// Two fields exchanged, or one small number put in place of another.
fn shuffled(rng: &mut Rng, size: Size) -> Vec<u8> {
    let mut bytes = draft(rng, size).bytes();
    let count = bytes.len() / 8;
    let (one, other) = (8 * rng.below(count), 8 * rng.below(count));
    if rng.chance(50) {
        (0..8).for_each(|i| bytes.swap(one + i, other + i));
    } else {
        bytes[one..one + 8].copy_from_slice(&rng.range(0, 4).to_le_bytes());
    }
    bytes
}

/// A sheet with everything that it is asked for, mostly as it should be.
pub fn complete(rng: &mut Rng, name: String, sheet: Vec<u8>) -> Case {
    let accepted = accept(&sheet).ok();
    let inputs = match &accepted {
        Some(accepted) => inputs(rng, accepted),
        None => (0..rng.below(4)).map(|_| rng.range(-2, 2) as i32).collect(),
    };
    let total = accepted.as_ref().map_or(rng.below(9), |a| a.total());
    let length = accepted.as_ref().and_then(|a| normal_form(&sheet, a).ok());
    let length = length.map_or(rng.below(999), |form| form.len());
    let (variable, point) = match &accepted {
        Some(accepted) => question(rng, accepted),
        None => (rng.below(3) as u64, vec![rng.range(-2, 2); rng.below(3)]),
    };
    let stdin = program_input(&sheet, &inputs);
    Case {
        name,
        inputs,
        codes: total + rng.pick(&[0, 0, 1, 5]),
        values: total + rng.pick(&[0, 0, 2, 7]),
        out: length + rng.pick(&[0, 0, 3, 64]),
        variable,
        point,
        body: rng.below(5) as u64,
        stdin,
        sheet,
    }
}

/// The length field, the sheet and the values.
pub fn program_input(sheet: &[u8], inputs: &[i32]) -> Vec<u8> {
    let mut bytes = (sheet.len() as u64).to_le_bytes().to_vec();
    bytes.extend_from_slice(sheet);
    bytes.extend(inputs.iter().flat_map(|value| value.to_le_bytes()));
    bytes
}

/// An input list that the sheet takes.
fn inputs(rng: &mut Rng, accepted: &Accepted) -> Vec<i32> {
    let mut list = Vec::new();
    for variable in accepted.variables.iter().filter(|v| v.kind == Kind::Input) {
        for _ in 0..variable.points {
            list.push(match rng.below(8) {
                _ if is_boolean(variable) => rng.below(2) as i32,
                0 => rng.pick(&[i32::MIN, i32::MAX, i32::MIN + 1, 46341]),
                1 => rng.bits() as i32,
                _ => rng.range(-5, 9) as i32,
            });
        }
    }
    list
}

/// A variable and a point of its box.
fn question(rng: &mut Rng, accepted: &Accepted) -> (u64, Vec<i64>) {
    let number = rng.below(accepted.variables.len());
    let bounds = &accepted.variables[number].bounds;
    let point = bounds.iter().map(|(lo, hi)| rng.range(*lo as i64, *hi as i64)).collect();
    (number as u64, point)
}

/// The length field says more than a sheet may have.
fn lengthen(rng: &mut Rng, case: &mut Case) {
    let length: i64 = rng.pick(&[65536, 65537, 65537, 70000, i64::MAX]);
    case.stdin[..8].copy_from_slice(&length.to_le_bytes());
}

/// A list of a wrong length, or entries that are no booleans.
fn spoil_inputs(rng: &mut Rng, case: &mut Case) {
    match rng.below(3) {
        0 => drop(case.inputs.pop()),
        1 => case.inputs.push(0),
        _ => case.inputs.iter_mut().for_each(|v| *v = 2),
    }
    case.stdin = program_input(&case.sheet, &case.inputs);
}

/// One of the lent lengths is too short by some.
fn shorten_room(rng: &mut Rng, case: &mut Case) {
    let by = 1 + rng.below(2);
    match rng.below(3) {
        0 => case.codes = accept(&case.sheet).map_or(0, |a| a.total()).saturating_sub(by),
        1 => case.values = accept(&case.sheet).map_or(0, |a| a.total()).saturating_sub(by),
        _ => {
            let form = accept(&case.sheet).and_then(|a| normal_form(&case.sheet, &a));
            case.out = form.map_or(0, |form| form.len()).saturating_sub(by);
        }
    }
}

/// A variable that isn't there, coordinates too few or many, a point outside.
fn spoil_question(rng: &mut Rng, case: &mut Case) {
    match rng.below(5) {
        0 => case.variable = rng.pick(&[32, u64::MAX, 7, 1 << 32]),
        1 => drop(case.point.pop()),
        2 => case.point.push(0),
        3 => case.point.iter_mut().for_each(|x| *x = 32767),
        _ => case.point.iter_mut().for_each(|x| *x = i64::MIN),
    }
    case.body = rng.pick(&[31, 32, u64::MAX, 1 << 33, 0]);
}

/// The program's input cut, its length wrong, or its last value broken.
fn damage(rng: &mut Rng, case: &mut Case) {
    let length = case.sheet.len() as i64;
    let put = |stdin: &mut Vec<u8>, n: i64| stdin[..8].copy_from_slice(&n.to_le_bytes());
    match rng.below(7) {
        0 => case.stdin.truncate(rng.below(8)),
        1 => put(&mut case.stdin, rng.pick(&[-1, i64::MIN, -length])),
        2 => put(&mut case.stdin, rng.pick(&[65537, i64::MAX, 1 << 40])),
        3 => put(&mut case.stdin, rng.pick(&[65536, length + 400, length * 4])),
        4 => case.stdin.resize(case.stdin.len() + 1 + rng.below(3), 9),
        5 => case.stdin.truncate(case.stdin.len() - 1 - rng.below(3)),
        _ => put(&mut case.stdin, length + rng.range(-8, 4)),
    }
}
