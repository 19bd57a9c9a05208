//! Points and elements, where an expression holds, and the refusals GAP and
//! CLASH. At one point an expression comes down to its steps: the operators
//! over constants and elements that are reached there, operands first.

use crate::affine::Point;
use crate::read::{Type, Variable};
use crate::refusal::{Refusal, CLASH, GAP};
use crate::tree::{Binary, Body, Expr, Unary};

/// The elements of all variables, in order.
pub struct Elements {
    pub points: Vec<(usize, Point)>,
    /// Whether each element is in its variable's declared domain.
    pub inside: Vec<bool>,
}

/// What is reached of an expression at a point, operands before operators.
#[derive(Clone, Copy, Debug, PartialEq, Eq)]
pub enum Step {
    Constant(i32),
    Element(usize),
    Unary(Unary),
    Binary(Binary),
    If,
}

/// How an expression stands at a point.
#[derive(Clone, Copy, Debug, PartialEq, Eq)]
pub enum Standing {
    /// It doesn't hold.
    Off,
    /// It holds, and every case reached has one branch that holds.
    Holds,
    /// It holds, but a case reached has two branches that hold.
    Clash,
}

/// The element of a variable at a point, if the point is in its box.
pub fn element_at(variable: &Variable, z: &Point) -> Option<usize> {
    if z.dimension != variable.dimension() {
        return None;
    }
    let mut index: i128 = 0;
    for ((lo, hi), x) in variable.bounds.iter().zip(&z.at) {
        if x < lo || x > hi {
            return None;
        }
        index = index * (hi - lo + 1) + (x - lo);
    }
    Some(variable.first + index as usize)
}

/// The point of a box with this index, the last coordinate fastest.
fn point_at(bounds: &[(i128, i128)], index: usize) -> Point {
    let mut left = index as i128;
    let mut z = Point { dimension: bounds.len(), at: [0; 4] };
    for (place, (lo, hi)) in z.at.iter_mut().zip(bounds).rev() {
        let size = hi - lo + 1;
        *place = lo + left % size;
        left /= size;
    }
    z
}

impl Elements {
    /// Every element with its variable and point, and whether it is inside.
    pub fn of(variables: &[Variable]) -> Elements {
        let mut elements = Elements { points: Vec::new(), inside: Vec::new() };
        for (number, variable) in variables.iter().enumerate() {
            for index in 0..variable.points {
                let z = point_at(&variable.bounds, index);
                elements.points.push((number, z));
                elements.inside.push(variable.declared.iter().all(|c| c.holds(&z)));
            }
        }
        elements
    }
}

/// Where expressions are looked at: the variables and their elements.
pub struct Domain<'a> {
    pub variables: &'a [Variable],
    pub elements: &'a Elements,
}

impl Domain<'_> {
    /// How the expression stands at z; if it holds, its steps are appended,
    /// otherwise the list is as before.
    pub fn stand(&self, expr: &Expr, z: &Point, steps: &mut Vec<Step>) -> Standing {
        match expr {
            Expr::Variable(number) => self.stand_variable(*number, z, steps),
            Expr::Integer(value) => constant(*value, z, steps),
            Expr::Boolean(value) => constant(i32::from(*value), z, steps),
            Expr::Unary(operator, a) => self.stand_all(&[a], Step::Unary(*operator), z, steps),
            Expr::Binary(operator, a, b) => {
                self.stand_all(&[a, b], Step::Binary(*operator), z, steps)
            }
            Expr::If(a, b, c) => self.stand_all(&[a, b, c], Step::If, z, steps),
            Expr::Case(branches) => self.stand_case(branches, z, steps),
            Expr::Restriction(_, constraints, child) => {
                if constraints.iter().all(|c| c.holds(z)) {
                    self.stand(child, z, steps)
                } else {
                    Standing::Off
                }
            }
            Expr::Dependence(map, child) => self.stand(child, &map.image(z), steps),
        }
    }

    /// A variable holds on its declared domain.
    fn stand_variable(&self, number: usize, z: &Point, steps: &mut Vec<Step>) -> Standing {
        let element = self.variables.get(number).and_then(|v| element_at(v, z));
        match element {
            Some(e) if self.elements.inside[e] => {
                steps.push(Step::Element(e));
                Standing::Holds
            }
            _ => Standing::Off,
        }
    }

    /// An operator or if holds where all operands hold; each is reached.
    fn stand_all(
        &self,
        operands: &[&Expr],
        operator: Step,
        z: &Point,
        steps: &mut Vec<Step>,
    ) -> Standing {
        let before = steps.len();
        let mut standing = Standing::Holds;
        for operand in operands {
            match self.stand(operand, z, steps) {
                Standing::Off => {
                    steps.truncate(before);
                    return Standing::Off;
                }
                Standing::Clash => standing = Standing::Clash,
                Standing::Holds => {}
            }
        }
        steps.push(operator);
        standing
    }

    /// A case holds where some branch does; only branches that hold are
    /// reached. The steps are those of the first that holds.
    fn stand_case(&self, branches: &[Expr], z: &Point, steps: &mut Vec<Step>) -> Standing {
        let mut standing = Standing::Off;
        for branch in branches {
            let before = steps.len();
            let one = self.stand(branch, z, steps);
            if standing == Standing::Off {
                standing = one;
            } else if one != Standing::Off {
                standing = Standing::Clash;
                steps.truncate(before);
            }
        }
        standing
    }
}

/// A constant holds at the one point of dimension 0.
fn constant(value: i32, z: &Point, steps: &mut Vec<Step>) -> Standing {
    if z.dimension != 0 {
        return Standing::Off;
    }
    steps.push(Step::Constant(value));
    Standing::Holds
}

/// GAP and CLASH over the elements in order, GAP before CLASH at each: inside
/// the declared domain of each variable that has a body.
pub fn check_domains(domain: &Domain, bodies: &[Option<Body>]) -> Result<(), Refusal> {
    let mut steps = Vec::new();
    for (element, (number, z)) in domain.elements.points.iter().enumerate() {
        if !domain.elements.inside[element] {
            continue;
        }
        if let Some(Some(body)) = bodies.get(*number) {
            steps.clear();
            match domain.stand(&body.expr, z, &mut steps) {
                Standing::Off => return Err(Refusal::at(GAP, element)),
                Standing::Clash => return Err(Refusal::at(CLASH, element)),
                Standing::Holds => {}
            }
        }
    }
    Ok(())
}

/// Whether a variable's values are booleans.
pub fn is_boolean(variable: &Variable) -> bool {
    variable.kind_of_value == Type::Boolean
}
