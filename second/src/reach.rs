//! The reach: how large coordinates can get below dependences, and that no sum
//! of a row passes 2^40 (refusal REACH).

use crate::affine::{Constraint, Map};
use crate::field::SIZE;
use crate::read::Variable;
use crate::refusal::{Refusal, REACH};
use crate::tree::{parts, Body, Expr};

/// The reach at the top of each body and for declared constraints.
pub const TOP: i128 = 32_768;

/// REACH over all variables in order: the declared constraints of each, inputs
/// included, and its body.
pub fn check_reach(variables: &[Variable], bodies: &[Option<Body>]) -> Result<(), Refusal> {
    for (number, (variable, body)) in variables.iter().zip(bodies).enumerate() {
        let declared = constraints_within(&variable.declared, TOP);
        let inside = body.as_ref().is_none_or(|body| within(&body.expr, TOP));
        if !declared || !inside {
            return Err(Refusal::at(REACH, number));
        }
    }
    Ok(())
}

/// Whether every constraint and every reach below stays at most 2^40.
fn within(expr: &Expr, reach: i128) -> bool {
    match expr {
        Expr::Restriction(_, constraints, child) => {
            constraints_within(constraints, reach) && within(child, reach)
        }
        Expr::Dependence(map, child) => {
            let below = reach_below(map, reach);
            below <= SIZE && within(child, below)
        }
        _ => parts(expr).into_iter().all(|part| within(part, reach)),
    }
}

fn constraints_within(constraints: &[Constraint], reach: i128) -> bool {
    constraints.iter().all(|c| c.row.extent(reach) <= SIZE)
}

/// The reach below a dependence: the greatest of its rows' sums, at least 1.
fn reach_below(map: &Map, reach: i128) -> i128 {
    map.rows.iter().map(|row| row.extent(reach)).fold(1, i128::max)
}
