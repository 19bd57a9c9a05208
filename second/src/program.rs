//! The program: the whole input as bytes to the whole output as bytes.

use crate::check::{accept, Accepted};
use crate::domain::is_boolean;
use crate::eval::Outcome;
use crate::field::Reader;
use crate::read::MOST_BYTES;
use crate::refusal::{Refusal, CUT, INPUT, LONG};
use crate::run::{inputs_needed, run_all};

/// A sheet length, the sheet and its input values in; a line for the total and
/// one for each element out, or one line for the refusal.
pub fn program(input: &[u8]) -> Vec<u8> {
    match text(input) {
        Ok(text) => text.into_bytes(),
        Err(refusal) => refusal_line(&refusal).into_bytes(),
    }
}

/// The line that a refusal prints.
pub fn refusal_line(refusal: &Refusal) -> String {
    format!("refused {} place {}\n", refusal.number, refusal.place)
}

fn text(input: &[u8]) -> Result<String, Refusal> {
    let (sheet, rest) = split(input)?;
    let accepted = accept(sheet)?;
    let broken = rest.len() % 4 != 0;
    if broken {
        return Err(Refusal::at(INPUT, inputs_needed(&accepted)));
    }
    let inputs: Vec<i32> = rest.chunks_exact(4).map(value).collect();
    let outcomes = run_all(&accepted, &inputs)?;
    let mut text = format!("accepted {}\n", outcomes.len());
    for (element, outcome) in outcomes.iter().enumerate() {
        write_line(&accepted, element, outcome, &mut text);
    }
    Ok(text)
}

/// The sheet and what follows it. A length over the limit is LONG whether the
/// bytes are there or not; one negative, missing or too long is CUT at 0.
fn split(input: &[u8]) -> Result<(&[u8], &[u8]), Refusal> {
    let mut reader = Reader::new(input);
    let length = reader.field()?.number();
    if length > MOST_BYTES as i128 {
        return Err(Refusal::at(LONG, 0));
    }
    let rest = &input[reader.at..];
    if length < 0 || length > rest.len() as i128 {
        return Err(Refusal::at(CUT, 0));
    }
    Ok(rest.split_at(length as usize))
}

/// A 4-byte value, least byte first.
fn value(bytes: &[u8]) -> i32 {
    let mut four = [0; 4];
    four.copy_from_slice(bytes);
    i32::from_le_bytes(four)
}

/// Name, coordinates, and the outcome; one space between parts.
fn write_line(accepted: &Accepted, element: usize, outcome: &Outcome, text: &mut String) {
    let (number, z) = &accepted.elements.points[element];
    let variable = &accepted.variables[*number];
    let mut parts = vec![name_text(&variable.name)];
    parts.extend(z.coordinates().iter().map(|x| x.to_string()));
    parts.push(match outcome {
        Outcome::Outside => "-".to_string(),
        Outcome::DivZero => "! DIVZERO".to_string(),
        Outcome::Overflow => "! OVERFLOW".to_string(),
        Outcome::Loop => "! LOOP".to_string(),
        Outcome::Value(value) if is_boolean(variable) => format!("= {}", *value == 1),
        Outcome::Value(value) => format!("= {value}"),
    });
    text.push_str(&parts.join(" "));
    text.push('\n');
}

/// A name without the zero bytes that fill its field.
pub fn name_text(name: &[u8; 8]) -> String {
    name.iter().take_while(|b| **b != 0).map(|b| char::from(*b)).collect()
}
