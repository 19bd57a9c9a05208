//! Bodies as owned trees: made from the flat nodes, their depth and their
//! dimensions (refusal SHAPE).

use crate::affine::{Constraint, Map};
use crate::read::{Kind, Node, Sections, Variable, What};
use crate::refusal::{Refusal, SHAPE};

/// The most nodes on the way from a body's top to a leaf.
pub const MOST_DEPTH: usize = 32;

#[derive(Clone, Copy, Debug, PartialEq, Eq)]
pub enum Unary {
    Negate,
    Not,
}

#[derive(Clone, Copy, Debug, PartialEq, Eq)]
pub enum Binary {
    Plus,
    Minus,
    Times,
    Div,
    Mod,
    Min,
    Max,
    Equal,
    Unequal,
    Less,
    LessEqual,
    Greater,
    GreaterEqual,
    And,
    Or,
    Xor,
}

/// All binary operators in the order of their codes.
pub const BINARIES: [Binary; 16] = [
    Binary::Plus,
    Binary::Minus,
    Binary::Times,
    Binary::Div,
    Binary::Mod,
    Binary::Min,
    Binary::Max,
    Binary::Equal,
    Binary::Unequal,
    Binary::Less,
    Binary::LessEqual,
    Binary::Greater,
    Binary::GreaterEqual,
    Binary::And,
    Binary::Or,
    Binary::Xor,
];

/// An expression.
#[derive(Clone, Debug, PartialEq, Eq)]
pub enum Expr {
    Variable(usize),
    Integer(i32),
    Boolean(bool),
    Unary(Unary, Box<Expr>),
    Binary(Binary, Box<Expr>, Box<Expr>),
    If(Box<Expr>, Box<Expr>, Box<Expr>),
    Case(Vec<Expr>),
    Restriction(usize, Vec<Constraint>, Box<Expr>),
    Dependence(Map, Box<Expr>),
}

/// The body of a variable and the part of the sheet that its nodes occupy.
#[derive(Clone, Debug)]
pub struct Body {
    pub expr: Expr,
    pub start: usize,
    pub len: usize,
}

/// The flat nodes, taken one after another.
struct Nodes<'a> {
    nodes: &'a [Node],
    next: usize,
}

/// SHAPE over all variables in order, then the nodes left over. Input
/// variables have no body.
pub fn bodies(sections: &Sections) -> Result<Vec<Option<Body>>, Refusal> {
    let mut nodes = Nodes { nodes: &sections.nodes, next: 0 };
    let mut bodies = Vec::new();
    for (number, variable) in sections.variables.iter().enumerate() {
        if variable.kind == Kind::Input {
            bodies.push(None);
            continue;
        }
        match body(&mut nodes, variable, &sections.variables) {
            Some(body) => bodies.push(Some(body)),
            None => return Err(Refusal::at(SHAPE, number)),
        }
    }
    if nodes.next < nodes.nodes.len() {
        return Err(Refusal::at(SHAPE, bodies.len()));
    }
    Ok(bodies)
}

/// The next body, if the nodes make one of its variable's dimension.
fn body(nodes: &mut Nodes, variable: &Variable, all: &[Variable]) -> Option<Body> {
    let start = nodes.nodes.get(nodes.next)?.start;
    let expr = tree(nodes, MOST_DEPTH)?;
    let end = nodes.nodes.get(nodes.next.checked_sub(1)?)?.end;
    if dimension(&expr, all)? != variable.dimension() {
        return None;
    }
    Some(Body { expr, start, len: end - start })
}

/// The expression whose top is the next node, at most `left` nodes deep.
fn tree(nodes: &mut Nodes, left: usize) -> Option<Expr> {
    let below = left.checked_sub(1)?;
    let node = nodes.nodes.get(nodes.next)?;
    nodes.next += 1;
    Some(match &node.what {
        What::Variable(number) => Expr::Variable(*number),
        What::Integer(value) => Expr::Integer(*value),
        What::Boolean(value) => Expr::Boolean(*value),
        What::Unary(code) => {
            let operator = if *code == 0 { Unary::Negate } else { Unary::Not };
            Expr::Unary(operator, child(nodes, below)?)
        }
        What::Binary(code) => {
            let operator = *BINARIES.get(usize::from(*code))?;
            Expr::Binary(operator, child(nodes, below)?, child(nodes, below)?)
        }
        What::If => Expr::If(child(nodes, below)?, child(nodes, below)?, child(nodes, below)?),
        What::Case(count) => {
            let mut branches = Vec::new();
            for _ in 0..*count {
                branches.push(tree(nodes, below)?);
            }
            Expr::Case(branches)
        }
        What::Restriction(dimension, constraints) => {
            Expr::Restriction(*dimension, constraints.clone(), child(nodes, below)?)
        }
        What::Dependence(map) => Expr::Dependence(map.clone(), child(nodes, below)?),
    })
}

fn child(nodes: &mut Nodes, left: usize) -> Option<Box<Expr>> {
    tree(nodes, left).map(Box::new)
}

/// The dimension of an expression, if its parts agree.
pub fn dimension(expr: &Expr, all: &[Variable]) -> Option<usize> {
    match expr {
        Expr::Variable(number) => Some(all.get(*number)?.dimension()),
        Expr::Integer(_) | Expr::Boolean(_) => Some(0),
        Expr::Restriction(own, _, child) => {
            let inner = dimension(child, all)?;
            (inner == *own).then_some(inner)
        }
        Expr::Dependence(map, child) => {
            let inner = dimension(child, all)?;
            (inner == map.rows.len()).then_some(map.columns)
        }
        _ => {
            let mut common = None;
            for part in parts(expr) {
                let one = dimension(part, all)?;
                if *common.get_or_insert(one) != one {
                    return None;
                }
            }
            common
        }
    }
}

/// The children of an expression, left to right.
pub fn parts(expr: &Expr) -> Vec<&Expr> {
    match expr {
        Expr::Variable(_) | Expr::Integer(_) | Expr::Boolean(_) => Vec::new(),
        Expr::Unary(_, a) | Expr::Restriction(_, _, a) | Expr::Dependence(_, a) => vec![a],
        Expr::Binary(_, a, b) => vec![a, b],
        Expr::If(a, b, c) => vec![a, b, c],
        Expr::Case(branches) => branches.iter().collect(),
    }
}

/// The depth of an expression in nodes; a leaf has depth 1.
pub fn depth(expr: &Expr) -> usize {
    1 + parts(expr).into_iter().map(depth).max().unwrap_or(0)
}
