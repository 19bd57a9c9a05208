//! The checker: refusals 1 to 11 in document 01's order, and what an accepted
//! sheet consists of.

use crate::domain::{check_domains, Domain, Elements};
use crate::reach::check_reach;
use crate::read::{read, Variable};
use crate::refusal::Refusal;
use crate::tree::{bodies, Body};
use crate::types::check_types;

/// A sheet that passed every check.
pub struct Accepted {
    pub variables: Vec<Variable>,
    pub bodies: Vec<Option<Body>>,
    pub elements: Elements,
    /// The length of the first two sections.
    pub head: usize,
}

impl Accepted {
    /// The element total.
    pub fn total(&self) -> usize {
        self.elements.points.len()
    }

    pub fn domain(&self) -> Domain<'_> {
        Domain { variables: &self.variables, elements: &self.elements }
    }
}

/// The checks in order: bytes, SHAPE, TYPE, REACH, then the elements.
pub fn accept(sheet: &[u8]) -> Result<Accepted, Refusal> {
    let sections = read(sheet)?;
    let bodies = bodies(&sections)?;
    check_types(&sections.variables, &bodies)?;
    check_reach(&sections.variables, &bodies)?;
    let elements = Elements::of(&sections.variables);
    let accepted =
        Accepted { variables: sections.variables, bodies, elements, head: sections.head };
    check_domains(&accepted.domain(), &accepted.bodies)?;
    Ok(accepted)
}

/// The element total of an accepted sheet, or the refusal.
pub fn check(sheet: &[u8]) -> Result<u64, Refusal> {
    accept(sheet).map(|accepted| accepted.total() as u64)
}
