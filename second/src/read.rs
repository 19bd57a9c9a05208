//! Reading: the three sections field by field, refusals 1 to 6. The nodes come
//! out flat, in prefix order; `tree` makes bodies of them.

use crate::affine::{Constraint, Map, Row};
use crate::field::Reader;
use crate::refusal::{Refusal, COUNT, LONG, NAME, NUMBER, TAIL};

/// The most bytes that a sheet may have.
pub const MOST_BYTES: usize = 65_536;
/// The most points that all boxes together may have.
pub const MOST_POINTS: u128 = 4_096;
/// The most nodes, branches of a case, constraints of a restriction.
pub const MOST_NODES: usize = 2_048;
pub const MOST_BRANCHES: usize = 64;
pub const MOST_CONSTRAINTS: usize = 64;

#[derive(Clone, Copy, Debug, PartialEq, Eq)]
pub enum Kind {
    Input,
    Output,
    Local,
}

#[derive(Clone, Copy, Debug, PartialEq, Eq)]
pub enum Type {
    Integer,
    Boolean,
}

/// A variable: its record, its declared constraints and its elements.
#[derive(Clone, Debug)]
pub struct Variable {
    pub name: [u8; 8],
    pub kind: Kind,
    pub kind_of_value: Type,
    pub bounds: Vec<(i128, i128)>,
    pub declared: Vec<Constraint>,
    /// The number of its first element and how many it has.
    pub first: usize,
    pub points: usize,
}

/// A node without its children, and the bytes that it occupies.
#[derive(Clone, Debug)]
pub struct Node {
    pub start: usize,
    pub end: usize,
    pub what: What,
}

#[derive(Clone, Debug)]
pub enum What {
    Variable(usize),
    Integer(i32),
    Boolean(bool),
    Unary(u8),
    Binary(u8),
    If,
    Case(usize),
    Restriction(usize, Vec<Constraint>),
    Dependence(Map),
}

/// What the bytes say before any tree is made.
#[derive(Clone, Debug)]
pub struct Sections {
    pub variables: Vec<Variable>,
    pub nodes: Vec<Node>,
    /// Where the node count stands: the end of the first two sections.
    pub head: usize,
}

impl Variable {
    pub fn dimension(&self) -> usize {
        self.bounds.len()
    }
}

/// Refusals 1 to 6 in document 01's order, or the sheet's sections.
pub fn read(sheet: &[u8]) -> Result<Sections, Refusal> {
    if sheet.len() > MOST_BYTES {
        return Err(Refusal::at(LONG, 0));
    }
    let mut reader = Reader::new(sheet);
    let mut variables = read_variables(&mut reader)?;
    read_declared(&mut reader, &mut variables)?;
    let head = reader.at;
    let nodes = read_nodes(&mut reader, variables.len())?;
    if reader.at < sheet.len() {
        return Err(Refusal::at(TAIL, reader.at));
    }
    Ok(Sections { variables, nodes, head })
}

/// The first section. The total of the boxes is judged after each record.
fn read_variables(reader: &mut Reader) -> Result<Vec<Variable>, Refusal> {
    let count = reader.count(1, 32)?;
    let mut variables: Vec<Variable> = Vec::new();
    let mut total: u128 = 0;
    for _ in 0..count {
        let start = reader.at;
        let mut variable = read_variable(reader, &variables)?;
        let points = box_points(&variable.bounds);
        if total + points > MOST_POINTS {
            return Err(Refusal::at(COUNT, start));
        }
        variable.first = total as usize;
        variable.points = points as usize;
        total += points;
        variables.push(variable);
    }
    Ok(variables)
}

/// One record: a name that no earlier record has, kind, type, box.
fn read_variable(reader: &mut Reader, earlier: &[Variable]) -> Result<Variable, Refusal> {
    let field = reader.field()?;
    let name = field.name()?;
    if earlier.iter().any(|v| v.name == name) {
        return Err(Refusal::at(NAME, field.at));
    }
    let kind = match reader.listed(0, 2)? {
        0 => Kind::Input,
        1 => Kind::Output,
        _ => Kind::Local,
    };
    let kind_of_value = match reader.listed(0, 1)? {
        0 => Type::Integer,
        _ => Type::Boolean,
    };
    let dimension = reader.count(0, 4)?;
    let mut bounds = Vec::new();
    for _ in 0..dimension {
        let lo = reader.listed(-32768, 32767)?;
        let hi = reader.listed(lo, 32767)?;
        bounds.push((lo, hi));
    }
    Ok(Variable { name, kind, kind_of_value, bounds, declared: Vec::new(), first: 0, points: 0 })
}

/// The number of points of a box: at most 2^64, so it is exact here.
fn box_points(bounds: &[(i128, i128)]) -> u128 {
    bounds.iter().map(|(lo, hi)| (hi - lo + 1) as u128).product()
}

/// The second section; each constraint goes to its variable.
fn read_declared(reader: &mut Reader, variables: &mut [Variable]) -> Result<(), Refusal> {
    let count = reader.count(0, 256)?;
    for _ in 0..count {
        let number = read_variable_number(reader, variables.len())?;
        let variable = &mut variables[number];
        let constraint = read_constraint(reader, variable.bounds.len())?;
        variable.declared.push(constraint);
    }
    Ok(())
}

/// The number of a variable that the sheet has.
fn read_variable_number(reader: &mut Reader, variables: usize) -> Result<usize, Refusal> {
    let field = reader.field()?;
    let number = field.within(0, variables as i128 - 1, NUMBER)?;
    Ok(number as usize)
}

/// A relation, the coefficients and the constant.
fn read_constraint(reader: &mut Reader, dimension: usize) -> Result<Constraint, Refusal> {
    let equality = reader.listed(0, 1)? == 1;
    let row = read_row(reader, dimension)?;
    Ok(Constraint { equality, row })
}

/// The coefficients and the constant.
fn read_row(reader: &mut Reader, columns: usize) -> Result<Row, Refusal> {
    let mut coefficients = [0; 4];
    for c in coefficients.iter_mut().take(columns) {
        *c = reader.sized()?;
    }
    let constant = reader.sized()?;
    Ok(Row { coefficients, constant })
}

/// The third section.
fn read_nodes(reader: &mut Reader, variables: usize) -> Result<Vec<Node>, Refusal> {
    let count = reader.count(0, MOST_NODES as i128)?;
    let mut nodes = Vec::new();
    for _ in 0..count {
        let start = reader.at;
        let what = read_what(reader, variables)?;
        nodes.push(Node { start, end: reader.at, what });
    }
    Ok(nodes)
}

/// One node: its code, then the fields that the code asks for.
fn read_what(reader: &mut Reader, variables: usize) -> Result<What, Refusal> {
    Ok(match reader.listed(0, 8)? {
        0 => What::Variable(read_variable_number(reader, variables)?),
        1 => What::Integer(reader.listed(i32::MIN.into(), i32::MAX.into())? as i32),
        2 => What::Boolean(reader.listed(0, 1)? == 1),
        3 => What::Unary(reader.listed(0, 1)? as u8),
        4 => What::Binary(reader.listed(0, 15)? as u8),
        5 => What::If,
        6 => What::Case(reader.count(1, MOST_BRANCHES as i128)?),
        7 => read_restriction(reader)?,
        _ => read_dependence(reader)?,
    })
}

fn read_restriction(reader: &mut Reader) -> Result<What, Refusal> {
    let dimension = reader.count(0, 4)?;
    let count = reader.count(0, MOST_CONSTRAINTS as i128)?;
    let mut constraints = Vec::new();
    for _ in 0..count {
        constraints.push(read_constraint(reader, dimension)?);
    }
    Ok(What::Restriction(dimension, constraints))
}

fn read_dependence(reader: &mut Reader) -> Result<What, Refusal> {
    let columns = reader.count(0, 4)?;
    let count = reader.count(0, 4)?;
    let mut rows = Vec::new();
    for _ in 0..count {
        rows.push(read_row(reader, columns)?);
    }
    Ok(What::Dependence(Map { columns, rows }))
}
