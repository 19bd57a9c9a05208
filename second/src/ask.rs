//! The two questions about a sheet: an element's number and a variable's body.

use crate::affine::Point;
use crate::check::accept;
use crate::domain::element_at;
use crate::refusal::{Refusal, ASK};

/// The number of a variable's element at a point, or ASK at place 0: no such
/// variable, a wrong number of coordinates, or a point off the box.
pub fn element(sheet: &[u8], variable: u64, point: &[i64]) -> Result<u64, Refusal> {
    let accepted = accept(sheet)?;
    let refused = Refusal::at(ASK, 0);
    let number = usize::try_from(variable).map_err(|_| refused)?;
    let variable = accepted.variables.get(number).ok_or(refused)?;
    if point.len() != variable.dimension() {
        return Err(refused);
    }
    let coordinates: Vec<i128> = point.iter().map(|x| i128::from(*x)).collect();
    let element = element_at(variable, &Point::new(&coordinates)).ok_or(refused)?;
    Ok(element as u64)
}

/// Start and length of the part of the sheet that a variable's body occupies;
/// both 0 for an input, an unknown number or a refused sheet.
pub fn body(sheet: &[u8], variable: u64) -> (usize, usize) {
    let number = usize::try_from(variable).unwrap_or(usize::MAX);
    match accept(sheet) {
        Ok(accepted) => match accepted.bodies.get(number) {
            Some(Some(body)) => (body.start, body.len),
            _ => (0, 0),
        },
        Err(_) => (0, 0),
    }
}
