//! The type rules (refusal TYPE).

use crate::read::{Type, Variable};
use crate::refusal::{Refusal, TYPE};
use crate::tree::{Binary, Body, Expr, Unary};

/// TYPE over all variables in order: a body has its variable's type.
pub fn check_types(variables: &[Variable], bodies: &[Option<Body>]) -> Result<(), Refusal> {
    for (number, (variable, body)) in variables.iter().zip(bodies).enumerate() {
        if let Some(body) = body {
            if type_of(&body.expr, variables) != Some(variable.kind_of_value) {
                return Err(Refusal::at(TYPE, number));
            }
        }
    }
    Ok(())
}

/// The type of an expression, if it keeps the rules.
pub fn type_of(expr: &Expr, all: &[Variable]) -> Option<Type> {
    match expr {
        Expr::Variable(number) => Some(all.get(*number)?.kind_of_value),
        Expr::Integer(_) => Some(Type::Integer),
        Expr::Boolean(_) => Some(Type::Boolean),
        Expr::Unary(operator, a) => {
            let wanted = match operator {
                Unary::Negate => Type::Integer,
                Unary::Not => Type::Boolean,
            };
            (type_of(a, all)? == wanted).then_some(wanted)
        }
        Expr::Binary(operator, a, b) => {
            let (left, right) = (type_of(a, all)?, type_of(b, all)?);
            if left != right {
                return None;
            }
            binary_type(*operator, left)
        }
        Expr::If(a, b, c) => {
            let (test, yes, no) = (type_of(a, all)?, type_of(b, all)?, type_of(c, all)?);
            (test == Type::Boolean && yes == no).then_some(yes)
        }
        Expr::Case(branches) => {
            let mut common = None;
            for branch in branches {
                let one = type_of(branch, all)?;
                if *common.get_or_insert(one) != one {
                    return None;
                }
            }
            common
        }
        Expr::Restriction(_, _, child) | Expr::Dependence(_, child) => type_of(child, all),
    }
}

/// The type of a binary operator's result over two operands of one type.
fn binary_type(operator: Binary, operands: Type) -> Option<Type> {
    use Binary::*;
    let (taken, given) = match operator {
        Plus | Minus | Times | Div | Mod | Min | Max => (Type::Integer, Type::Integer),
        Less | LessEqual | Greater | GreaterEqual => (Type::Integer, Type::Boolean),
        And | Or | Xor => (Type::Boolean, Type::Boolean),
        Equal | Unequal => (operands, Type::Boolean),
    };
    (taken == operands).then_some(given)
}
