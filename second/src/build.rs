//! Writing sheets: drafts of variables, declared constraints and bodies, with
//! any number in any field, right or wrong, and the role of each field.

/// What a field says; near misses choose their numbers by it.
#[derive(Clone, Copy, Debug, PartialEq, Eq)]
pub enum Role {
    VariableCount,
    Name,
    Kind,
    Type,
    Dimension,
    Lo,
    Hi,
    DeclaredCount,
    Relation,
    Coefficient,
    Constant,
    NodeCount,
    Code,
    VariableNumber,
    Integer,
    Boolean,
    UnaryOperator,
    BinaryOperator,
    BranchCount,
    ConstraintCount,
    Columns,
    Rows,
}

/// A field: its role and its 8 bytes as a number.
pub type RoleField = (Role, i64);

/// Coefficients and a constant.
pub type Line = (Vec<i64>, i64);

/// A relation (0: at least 0, 1: equal to 0) and a line.
#[derive(Clone, Debug)]
pub struct Limit {
    pub relation: i64,
    pub line: Line,
}

/// A variable's record.
#[derive(Clone, Debug)]
pub struct Record {
    pub name: i64,
    pub kind: i64,
    pub boolean: i64,
    pub bounds: Vec<(i64, i64)>,
}

/// An expression as it will be written.
#[derive(Clone, Debug)]
pub struct Part {
    pub nodes: i64,
    pub fields: Vec<RoleField>,
}

/// A sheet as it will be written.
#[derive(Clone, Debug, Default)]
pub struct Draft {
    pub variables: Vec<Record>,
    pub declared: Vec<(i64, Limit)>,
    pub bodies: Vec<Part>,
}

/// A name's field from its letters, filled with zero bytes.
pub fn name(letters: &str) -> i64 {
    let mut bytes = [0; 8];
    for (place, letter) in bytes.iter_mut().zip(letters.bytes()) {
        *place = letter;
    }
    i64::from_le_bytes(bytes)
}

/// A constraint: coefficients times z plus constant at least 0.
pub fn at_least(coefficients: &[i64], constant: i64) -> Limit {
    Limit { relation: 0, line: (coefficients.to_vec(), constant) }
}

/// A constraint: coefficients times z plus constant equal to 0.
pub fn equal(coefficients: &[i64], constant: i64) -> Limit {
    Limit { relation: 1, line: (coefficients.to_vec(), constant) }
}

/// A node with its own fields over its children.
fn node(fields: &[RoleField], children: &[Part]) -> Part {
    let mut part = Part { nodes: 1, fields: fields.to_vec() };
    for child in children {
        part.nodes += child.nodes;
        part.fields.extend(&child.fields);
    }
    part
}

pub fn variable(number: i64) -> Part {
    node(&[(Role::Code, 0), (Role::VariableNumber, number)], &[])
}

pub fn integer(value: i64) -> Part {
    node(&[(Role::Code, 1), (Role::Integer, value)], &[])
}

pub fn boolean(value: bool) -> Part {
    node(&[(Role::Code, 2), (Role::Boolean, i64::from(value))], &[])
}

pub fn negate(child: Part) -> Part {
    node(&[(Role::Code, 3), (Role::UnaryOperator, 0)], &[child])
}

pub fn not(child: Part) -> Part {
    node(&[(Role::Code, 3), (Role::UnaryOperator, 1)], &[child])
}

/// Codes of the binary operators that are named often.
pub const PLUS: i64 = 0;
pub const DIV: i64 = 3;
pub const MOD: i64 = 4;

pub fn binary(operator: i64, left: Part, right: Part) -> Part {
    node(&[(Role::Code, 4), (Role::BinaryOperator, operator)], &[left, right])
}

pub fn choose(test: Part, yes: Part, no: Part) -> Part {
    node(&[(Role::Code, 5)], &[test, yes, no])
}

pub fn case(branches: &[Part]) -> Part {
    node(&[(Role::Code, 6), (Role::BranchCount, branches.len() as i64)], branches)
}

pub fn restrict(dimension: i64, limits: &[Limit], child: Part) -> Part {
    let mut fields = vec![(Role::Code, 7), (Role::Dimension, dimension)];
    fields.push((Role::ConstraintCount, limits.len() as i64));
    for limit in limits {
        write_limit(limit, &mut fields);
    }
    node(&fields, &[child])
}

pub fn depend(columns: i64, rows: &[Line], child: Part) -> Part {
    let mut fields = vec![(Role::Code, 8), (Role::Columns, columns)];
    fields.push((Role::Rows, rows.len() as i64));
    for row in rows {
        write_line(row, &mut fields);
    }
    node(&fields, &[child])
}

/// An operator between all parts, in order, as flat as it can be.
pub fn balanced(operator: i64, mut parts: Vec<Part>) -> Part {
    while parts.len() > 1 {
        let join = |pair: &[Part]| match pair {
            [a, b] => binary(operator, a.clone(), b.clone()),
            rest => rest[0].clone(),
        };
        parts = parts.chunks(2).map(join).collect();
    }
    parts.pop().unwrap_or_else(|| integer(0))
}

/// A variable of dimension 1 at i plus an offset.
pub fn shifted(number: i64, offset: i64) -> Part {
    depend(1, &[(vec![1], offset)], variable(number))
}

/// The value everywhere in a dimension: a dependence without rows.
pub fn everywhere(columns: i64, child: Part) -> Part {
    depend(columns, &[], child)
}

fn write_limit(limit: &Limit, fields: &mut Vec<RoleField>) {
    fields.push((Role::Relation, limit.relation));
    write_line(&limit.line, fields);
}

fn write_line(line: &Line, fields: &mut Vec<RoleField>) {
    fields.extend(line.0.iter().map(|c| (Role::Coefficient, *c)));
    fields.push((Role::Constant, line.1));
}

/// Kinds of a variable by their codes.
pub const INPUT: i64 = 0;
pub const OUTPUT: i64 = 1;
pub const LOCAL: i64 = 2;

impl Draft {
    /// Adds an integer variable.
    pub fn integer(self, letters: &str, kind: i64, bounds: &[(i64, i64)]) -> Draft {
        self.add(letters, kind, 0, bounds)
    }

    /// Adds a boolean variable.
    pub fn boolean(self, letters: &str, kind: i64, bounds: &[(i64, i64)]) -> Draft {
        self.add(letters, kind, 1, bounds)
    }

    fn add(mut self, letters: &str, kind: i64, boolean: i64, bounds: &[(i64, i64)]) -> Draft {
        let bounds = bounds.to_vec();
        self.variables.push(Record { name: name(letters), kind, boolean, bounds });
        self
    }

    /// Declares a constraint on a variable.
    pub fn declare(mut self, variable: i64, limit: Limit) -> Draft {
        self.declared.push((variable, limit));
        self
    }

    /// Adds the next body.
    pub fn body(mut self, part: Part) -> Draft {
        self.bodies.push(part);
        self
    }

    /// Every field in order.
    pub fn fields(&self) -> Vec<RoleField> {
        let mut fields = vec![(Role::VariableCount, self.variables.len() as i64)];
        for record in &self.variables {
            fields.extend([(Role::Name, record.name), (Role::Kind, record.kind)]);
            fields.push((Role::Type, record.boolean));
            fields.push((Role::Dimension, record.bounds.len() as i64));
            for (lo, hi) in &record.bounds {
                fields.extend([(Role::Lo, *lo), (Role::Hi, *hi)]);
            }
        }
        fields.push((Role::DeclaredCount, self.declared.len() as i64));
        for (number, limit) in &self.declared {
            fields.push((Role::VariableNumber, *number));
            write_limit(limit, &mut fields);
        }
        let nodes = self.bodies.iter().map(|part| part.nodes).sum();
        fields.push((Role::NodeCount, nodes));
        for part in &self.bodies {
            fields.extend(&part.fields);
        }
        fields
    }

    /// The sheet.
    pub fn bytes(&self) -> Vec<u8> {
        encode(&self.fields())
    }
}

/// Fields as bytes.
pub fn encode(fields: &[RoleField]) -> Vec<u8> {
    fields.iter().flat_map(|(_, number)| number.to_le_bytes()).collect()
}
