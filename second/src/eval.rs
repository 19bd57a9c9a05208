//! Outcomes. Each element is worked out once. All operators are strict, so at
//! one element the first step that gives no value decides. An element that
//! waits for another stands on an explicit stack until the other is settled;
//! one that is waited for while it waits itself is LOOP at every depth.

use crate::check::Accepted;
use crate::domain::Step;
use crate::tree::{Binary, Unary};

/// The outcome at an element.
#[derive(Clone, Copy, Debug, PartialEq, Eq)]
pub enum Outcome {
    Outside,
    Value(i32),
    DivZero,
    Overflow,
    Loop,
}

impl Outcome {
    /// Document 01's code and the entry of the table of values.
    pub fn entries(self) -> (u8, i32) {
        match self {
            Outcome::Outside => (0, 0),
            Outcome::Value(value) => (1, value),
            Outcome::DivZero => (2, 0),
            Outcome::Overflow => (3, 0),
            Outcome::Loop => (4, 0),
        }
    }
}

#[derive(Clone, Copy)]
enum Mark {
    Unknown,
    Waiting,
    Settled(Outcome),
}

/// What a try at an element gives: its outcome, or an element needed first.
enum Try {
    Outcome(Outcome),
    Needs(usize),
}

struct Evaluator<'a> {
    sheet: &'a Accepted,
    marks: Vec<Mark>,
    steps: Vec<Step>,
}

/// The outcome of every element; `inputs` has one entry for each element of an
/// input box, in element order.
pub fn outcomes(sheet: &Accepted, inputs: &[i32]) -> Vec<Outcome> {
    let marks = first_marks(sheet, inputs);
    let mut evaluator = Evaluator { sheet, marks, steps: Vec::new() };
    (0..sheet.total()).map(|element| evaluator.settle(element)).collect()
}

/// What is known without evaluation: outside elements and input elements.
fn first_marks(sheet: &Accepted, inputs: &[i32]) -> Vec<Mark> {
    let mut list = inputs.iter();
    let mut marks = Vec::new();
    for (element, (number, _)) in sheet.elements.points.iter().enumerate() {
        let entry = match sheet.bodies[*number] {
            None => list.next().copied().map(Outcome::Value),
            Some(_) => None,
        };
        marks.push(match entry {
            _ if !sheet.elements.inside[element] => Mark::Settled(Outcome::Outside),
            Some(outcome) => Mark::Settled(outcome),
            None => Mark::Unknown,
        });
    }
    marks
}

impl Evaluator<'_> {
    /// Works an element out, whatever it waits for first. Every element comes
    /// onto the stack at most once, so there are at most two tries for each.
    fn settle(&mut self, element: usize) -> Outcome {
        if let Mark::Settled(outcome) = self.marks[element] {
            return outcome;
        }
        let mut stack = vec![element];
        self.marks[element] = Mark::Waiting;
        let mut last = Outcome::Loop;
        while let Some(top) = stack.last().copied() {
            match self.attempt(top) {
                Try::Outcome(outcome) => {
                    self.marks[top] = Mark::Settled(outcome);
                    last = outcome;
                    stack.pop();
                }
                Try::Needs(other) => {
                    self.marks[other] = Mark::Waiting;
                    stack.push(other);
                }
            }
        }
        last
    }

    /// The body of the element's variable at its point.
    fn attempt(&mut self, element: usize) -> Try {
        let (number, z) = self.sheet.elements.points[element];
        let mut steps = std::mem::take(&mut self.steps);
        steps.clear();
        if let Some(body) = &self.sheet.bodies[number] {
            self.sheet.domain().stand(&body.expr, &z, &mut steps);
        }
        let result = self.work(&steps);
        self.steps = steps;
        result
    }

    /// The steps in order, over a stack of values.
    fn work(&self, steps: &[Step]) -> Try {
        let mut values: Vec<i128> = Vec::new();
        for step in steps {
            let result = match step {
                Step::Constant(value) => Ok(i128::from(*value)),
                Step::Element(e) => match self.marks[*e] {
                    Mark::Unknown => return Try::Needs(*e),
                    Mark::Waiting => Err(Outcome::Loop),
                    Mark::Settled(Outcome::Value(value)) => Ok(i128::from(value)),
                    Mark::Settled(other) => Err(other),
                },
                Step::Unary(operator) => {
                    let a = values.pop().unwrap_or(0);
                    unary(*operator, a)
                }
                Step::Binary(operator) => {
                    let b = values.pop().unwrap_or(0);
                    let a = values.pop().unwrap_or(0);
                    binary(*operator, a, b)
                }
                Step::If => {
                    let no = values.pop().unwrap_or(0);
                    let yes = values.pop().unwrap_or(0);
                    let test = values.pop().unwrap_or(0);
                    Ok(if test == 1 { yes } else { no })
                }
            };
            match result {
                Ok(value) => values.push(value),
                Err(outcome) => return Try::Outcome(outcome),
            }
        }
        Try::Outcome(Outcome::Value(values.pop().unwrap_or(0) as i32))
    }
}

/// An exact result as a 32-bit value, or OVERFLOW.
fn ranged(exact: i128) -> Result<i128, Outcome> {
    if exact < i128::from(i32::MIN) || exact > i128::from(i32::MAX) {
        return Err(Outcome::Overflow);
    }
    Ok(exact)
}

/// A unary operator on a value; false is 0, true 1.
pub fn unary(operator: Unary, a: i128) -> Result<i128, Outcome> {
    match operator {
        Unary::Negate => ranged(-a),
        Unary::Not => Ok(1 - a),
    }
}

/// A binary operator on two values. Division rounds toward zero, and the
/// remainder is what is left then.
pub fn binary(operator: Binary, a: i128, b: i128) -> Result<i128, Outcome> {
    use Binary::*;
    if b == 0 && matches!(operator, Div | Mod) {
        return Err(Outcome::DivZero);
    }
    let truth = |holds: bool| Ok(i128::from(holds));
    match operator {
        Plus => ranged(a + b),
        Minus => ranged(a - b),
        Times => ranged(a * b),
        Div => ranged(a / b),
        Mod => ranged(a - b * (a / b)),
        Min => Ok(a.min(b)),
        Max => Ok(a.max(b)),
        Equal => truth(a == b),
        Unequal => truth(a != b),
        Less => truth(a < b),
        LessEqual => truth(a <= b),
        Greater => truth(a > b),
        GreaterEqual => truth(a >= b),
        And => truth(a == 1 && b == 1),
        Or => truth(a == 1 || b == 1),
        Xor => truth(a != b),
    }
}
