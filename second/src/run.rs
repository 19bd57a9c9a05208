//! The run: INPUT, then ROOM, then both tables.

use crate::check::{accept, Accepted};
use crate::domain::is_boolean;
use crate::eval::{outcomes, Outcome};
use crate::read::Kind;
use crate::refusal::{Refusal, INPUT, ROOM};

/// Fills the table of codes and the table of values of an accepted sheet and
/// answers the element total. A refusal leaves both tables as they were, and
/// entries past the total stay.
pub fn run(
    sheet: &[u8],
    inputs: &[i32],
    codes: &mut [u8],
    values: &mut [i32],
) -> Result<u64, Refusal> {
    let accepted = accept(sheet)?;
    check_inputs(&accepted, inputs)?;
    let total = accepted.total();
    if codes.len() < total || values.len() < total {
        return Err(Refusal::at(ROOM, total));
    }
    let table = outcomes(&accepted, inputs);
    for ((code, value), outcome) in codes.iter_mut().zip(values).zip(table) {
        (*code, *value) = outcome.entries();
    }
    Ok(total as u64)
}

/// The outcomes of an accepted sheet for an input list that it takes.
pub fn run_all(accepted: &Accepted, inputs: &[i32]) -> Result<Vec<Outcome>, Refusal> {
    check_inputs(accepted, inputs)?;
    Ok(outcomes(accepted, inputs))
}

/// INPUT: one entry for each point of each input box, inside or not; then each
/// entry of a boolean variable is 0 or 1.
fn check_inputs(accepted: &Accepted, inputs: &[i32]) -> Result<(), Refusal> {
    let needed = inputs_needed(accepted);
    if inputs.len() != needed {
        return Err(Refusal::at(INPUT, needed));
    }
    let owners = accepted.variables.iter().filter(|v| v.kind == Kind::Input);
    let booleans = owners.flat_map(|v| std::iter::repeat_n(is_boolean(v), v.points));
    for (index, (boolean, entry)) in booleans.zip(inputs).enumerate() {
        if boolean && *entry != 0 && *entry != 1 {
            return Err(Refusal::at(INPUT, index));
        }
    }
    Ok(())
}

/// The length of the input list that the sheet takes.
pub fn inputs_needed(accepted: &Accepted) -> usize {
    let inputs = accepted.variables.iter().filter(|v| v.kind == Kind::Input);
    inputs.map(|v| v.points).sum()
}
