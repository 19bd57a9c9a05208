//! The normaliser: document 01's rules applied children first, its limits
//! (refusal WIDE), ROOM, and the writing of the new nodes.

use crate::affine::{Constraint, Map, Row};
use crate::check::{accept, Accepted};
use crate::read::{MOST_BRANCHES, MOST_BYTES, MOST_CONSTRAINTS, MOST_NODES};
use crate::refusal::{Refusal, ROOM, WIDE};
use crate::tree::{depth, Binary, Body, Expr, Unary, BINARIES, MOST_DEPTH};

/// A branch of a normal form: the constraints of its restriction and what
/// stands below, operators and if over leaves that each have one dependence.
#[derive(Clone, Debug)]
pub struct Branch {
    pub constraints: Vec<Constraint>,
    pub tree: Expr,
}

/// Writes the normal form of an accepted sheet and answers its length. A
/// refusal leaves the output as it was, and bytes past the length stay.
pub fn normalise(sheet: &[u8], out: &mut [u8]) -> Result<u64, Refusal> {
    let accepted = accept(sheet)?;
    let form = normal_form(sheet, &accepted)?;
    let length = form.len();
    match out.get_mut(..length) {
        Some(part) => part.copy_from_slice(&form),
        None => return Err(Refusal::at(ROOM, length)),
    }
    Ok(length as u64)
}

/// The normal form's bytes, or WIDE at the first variable at whose body a
/// limit is passed, the totals running from the start.
pub fn normal_form(sheet: &[u8], accepted: &Accepted) -> Result<Vec<u8>, Refusal> {
    let head = &sheet[..accepted.head];
    let mut nodes: u64 = 0;
    let mut fields: Vec<i128> = Vec::new();
    for (number, body) in accepted.bodies.iter().enumerate() {
        let Some(body) = body else { continue };
        let dimension = accepted.variables[number].dimension();
        let wide = Refusal::at(WIDE, number);
        let form = normal_body(body, dimension, accepted, &mut nodes).ok_or(wide)?;
        write_expr(&form, &mut fields);
        if head.len() + 8 + 8 * fields.len() > MOST_BYTES {
            return Err(wide);
        }
    }
    let mut bytes = head.to_vec();
    bytes.extend_from_slice(&nodes.to_le_bytes());
    for field in fields {
        bytes.extend_from_slice(&(field as i64).to_le_bytes());
    }
    Ok(bytes)
}

/// One body in normal form, unless it passes a limit of count or depth. The
/// branches and nodes are counted before any is made.
fn normal_body(
    body: &Body,
    dimension: usize,
    accepted: &Accepted,
    nodes: &mut u64,
) -> Option<Expr> {
    let (branches, inner) = extent(&body.expr);
    *nodes = nodes.saturating_add(inner.saturating_add(branches).saturating_add(1));
    if branches > MOST_BRANCHES as u64 || *nodes > MOST_NODES as u64 {
        return None;
    }
    let dimensions: Vec<usize> = accepted.variables.iter().map(|v| v.dimension()).collect();
    let branches = normal(&body.expr, &dimensions);
    if branches.iter().any(|b| b.constraints.len() > MOST_CONSTRAINTS) {
        return None;
    }
    let restricted = |b: Branch| Expr::Restriction(dimension, b.constraints, Box::new(b.tree));
    let form = Expr::Case(branches.into_iter().map(restricted).collect());
    (depth(&form) <= MOST_DEPTH).then_some(form)
}

/// How many branches the normal form of an expression has, and how many nodes
/// stand below their restrictions in all. The counts stop at the top of u64.
pub fn extent(expr: &Expr) -> (u64, u64) {
    match expr {
        Expr::Variable(_) | Expr::Integer(_) | Expr::Boolean(_) => (1, 2),
        Expr::Unary(_, a) => extent_over(&[a]),
        Expr::Binary(_, a, b) => extent_over(&[a, b]),
        Expr::If(a, b, c) => extent_over(&[a, b, c]),
        Expr::Restriction(_, _, child) | Expr::Dependence(_, child) => extent(child),
        Expr::Case(branches) => branches
            .iter()
            .map(extent)
            .fold((0, 0), |sum, one| (sum.0.saturating_add(one.0), sum.1.saturating_add(one.1))),
    }
}

/// An operator: as many branches as there are combinations. A node below one
/// operand occurs once for each combination of the other operands' branches.
fn extent_over(operands: &[&Expr]) -> (u64, u64) {
    let (mut branches, mut nodes) = (1u64, 0u64);
    for (more, inner) in operands.iter().map(|operand| extent(operand)) {
        let old = nodes.saturating_mul(more);
        nodes = old.saturating_add(inner.saturating_mul(branches));
        branches = branches.saturating_mul(more);
    }
    (branches, nodes.saturating_add(branches))
}

/// The branches of an expression's normal form.
fn normal(expr: &Expr, dimensions: &[usize]) -> Vec<Branch> {
    match expr {
        Expr::Variable(number) => leaf(expr, dimensions[*number]),
        Expr::Integer(_) | Expr::Boolean(_) => leaf(expr, 0),
        Expr::Unary(operator, a) => {
            combine(&[a], dimensions, |mut t| Expr::Unary(*operator, next(&mut t)))
        }
        Expr::Binary(operator, a, b) => combine(&[a, b], dimensions, |mut t| {
            Expr::Binary(*operator, next(&mut t), next(&mut t))
        }),
        Expr::If(a, b, c) => combine(&[a, b, c], dimensions, |mut t| {
            Expr::If(next(&mut t), next(&mut t), next(&mut t))
        }),
        Expr::Case(branches) => branches.iter().flat_map(|b| normal(b, dimensions)).collect(),
        Expr::Restriction(_, outer, child) => {
            let mut branches = normal(child, dimensions);
            for branch in &mut branches {
                let inner = std::mem::replace(&mut branch.constraints, outer.clone());
                branch.constraints.extend(inner);
            }
            branches
        }
        Expr::Dependence(map, child) => {
            let mut branches = normal(child, dimensions);
            for branch in &mut branches {
                move_branch(branch, map);
            }
            branches
        }
    }
}

/// A leaf alone: one branch, no constraint, the identity.
fn leaf(expr: &Expr, dimension: usize) -> Vec<Branch> {
    let tree = Expr::Dependence(Map::identity(dimension), Box::new(expr.clone()));
    vec![Branch { constraints: Vec::new(), tree }]
}

/// An operator over its operands' branches: all combinations, the leftmost
/// operand's branch changing slowest, constraints left to right.
fn combine(
    operands: &[&Expr],
    dimensions: &[usize],
    make: impl Fn(std::vec::IntoIter<Expr>) -> Expr,
) -> Vec<Branch> {
    let mut rows: Vec<(Vec<Constraint>, Vec<Expr>)> = vec![(Vec::new(), Vec::new())];
    for operand in operands {
        let branches = normal(operand, dimensions);
        let mut longer = Vec::new();
        for (constraints, trees) in &rows {
            for branch in &branches {
                let both = [&constraints[..], &branch.constraints[..]].concat();
                let mut more = trees.clone();
                more.push(branch.tree.clone());
                longer.push((both, more));
            }
        }
        rows = longer;
    }
    let done = |(constraints, trees): (Vec<Constraint>, Vec<Expr>)| Branch {
        constraints,
        tree: make(trees.into_iter()),
    };
    rows.into_iter().map(done).collect()
}

/// The next operand of a combination.
fn next(trees: &mut std::vec::IntoIter<Expr>) -> Box<Expr> {
    Box::new(trees.next().unwrap_or(Expr::Boolean(false)))
}

/// A dependence over a branch: each constraint is composed with the map, and
/// the map goes down to each leaf's own.
fn move_branch(branch: &mut Branch, map: &Map) {
    for constraint in &mut branch.constraints {
        *constraint = constraint.after(map);
    }
    move_tree(&mut branch.tree, map);
}

fn move_tree(tree: &mut Expr, outer: &Map) {
    match tree {
        Expr::Dependence(inner, _) => *inner = inner.after(outer),
        Expr::Unary(_, a) => move_tree(a, outer),
        Expr::Binary(_, a, b) => {
            move_tree(a, outer);
            move_tree(b, outer);
        }
        Expr::If(a, b, c) => {
            move_tree(a, outer);
            move_tree(b, outer);
            move_tree(c, outer);
        }
        _ => {}
    }
}

/// The fields of an expression's nodes in prefix order.
pub fn write_expr(expr: &Expr, out: &mut Vec<i128>) {
    match expr {
        Expr::Variable(number) => out.extend([0, *number as i128]),
        Expr::Integer(value) => out.extend([1, i128::from(*value)]),
        Expr::Boolean(value) => out.extend([2, i128::from(*value)]),
        Expr::Unary(operator, _) => out.extend([3, i128::from(*operator == Unary::Not)]),
        Expr::Binary(operator, _, _) => out.extend([4, binary_code(*operator)]),
        Expr::If(_, _, _) => out.push(5),
        Expr::Case(branches) => out.extend([6, branches.len() as i128]),
        Expr::Restriction(dimension, constraints, _) => {
            out.extend([7, *dimension as i128, constraints.len() as i128]);
            for constraint in constraints {
                out.push(i128::from(constraint.equality));
                write_row(&constraint.row, *dimension, out);
            }
        }
        Expr::Dependence(map, _) => {
            out.extend([8, map.columns as i128, map.rows.len() as i128]);
            for row in &map.rows {
                write_row(row, map.columns, out);
            }
        }
    }
    for part in crate::tree::parts(expr) {
        write_expr(part, out);
    }
}

fn write_row(row: &Row, columns: usize, out: &mut Vec<i128>) {
    out.extend(&row.coefficients[..columns]);
    out.push(row.constant);
}

/// The code of a binary operator: its place in the list.
fn binary_code(operator: Binary) -> i128 {
    let place = BINARIES.iter().position(|one| *one == operator);
    place.unwrap_or(0) as i128
}
