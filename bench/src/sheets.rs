//! The sheets that are timed besides the hostile ones, and families of sheets
//! that grow.

use second::build::{
    at_least, balanced, binary, case, equal, everywhere, integer, restrict, shifted, variable,
    Draft, Part, DIV, INPUT, OUTPUT, PLUS,
};

const MINUS: i64 = 1;
const TIMES: i64 = 2;
const MAX: i64 = 6;

/// A sheet with its input list.
pub struct Asked {
    pub name: String,
    pub sheet: Vec<u8>,
    pub inputs: Vec<i32>,
}

/// A step of a filter, 20 nodes: the largest of a floor and a mean of the last
/// value, the entry before and this one.
fn step(own: i64, before: i64) -> Part {
    let constant = |n: i64| everywhere(1, integer(n));
    let last = binary(TIMES, shifted(own, -1), constant(3));
    let change = binary(MINUS, variable(before), shifted(before, -1));
    let mean = binary(DIV, binary(PLUS, last, change), constant(4));
    let next = binary(MAX, mean, constant(-1000));
    let first = restrict(1, &[equal(&[1], 0)], variable(before));
    let body = case(&[first, restrict(1, &[at_least(&[1], -1)], next)]);
    assert_eq!(body.nodes, 20, "the typical body");
    body
}

/// The running sum of document 01.
pub fn small() -> Asked {
    let sum = second::examples::examples().swap_remove(0);
    Asked { name: "the running sum".into(), sheet: sum.sheet, inputs: sum.inputs }
}

/// An input and three steps over it, so many elements in all.
pub fn typical(elements: i64) -> Asked {
    let points = elements / 4;
    let line = [(0, points - 1)];
    let mut draft = Draft::default().integer("x", INPUT, &line);
    for (number, name) in ["u", "v", "w"].into_iter().enumerate() {
        let number = number as i64;
        draft = draft.integer(name, OUTPUT, &line).body(step(number + 1, number));
    }
    let inputs = (0..points as i32).map(|i| i * 7919 % 1000).collect();
    Asked { name: format!("{elements} elements, 20 nodes each"), sheet: draft.bytes(), inputs }
}

/// One body over 1,000 points: leaves below a tower of cases, each with the
/// rest as its first or its last branch, and one that holds nowhere.
pub fn tower(leaves: usize, cases: usize, first: bool) -> Asked {
    let line = [(0, 999)];
    let mut body = balanced(MAX, vec![variable(0); leaves]);
    for _ in 0..cases {
        let never = restrict(1, &[at_least(&[0], -1)], variable(0));
        body = if first { case(&[body, never]) } else { case(&[never, body]) };
    }
    let nodes = body.nodes;
    let draft = Draft::default().integer("x", INPUT, &line).integer("y", OUTPUT, &line);
    let name = if cases == 0 { format!("{nodes} nodes") } else { format!("{cases} cases") };
    Asked { name, sheet: draft.body(body).bytes(), inputs: vec![1; 1000] }
}
