//! A sheet as readable text in the manner of ALPHA.

use crate::affine::{Constraint, Map, Row};
use crate::check::accept;
use crate::program::name_text;
use crate::read::{read, Kind, Type, Variable};
use crate::refusal::Refusal;
use crate::tree::{bodies, Binary, Body, Expr, Unary};

/// The names of the coordinates.
const INDICES: [&str; 4] = ["i", "j", "k", "l"];

/// The sheet's variables and bodies. A sheet that is refused before its bodies
/// stand gives the refusal in words alone; one refused later gives both.
pub fn list(sheet: &[u8]) -> String {
    let text = match text(sheet) {
        Ok(text) => text,
        Err(refusal) => return refusal.words() + "\n",
    };
    match accept(sheet) {
        Ok(_) => text,
        Err(refusal) => text + "-- " + &refusal.words() + "\n",
    }
}

fn text(sheet: &[u8]) -> Result<String, Refusal> {
    let sections = read(sheet)?;
    let bodies = bodies(&sections)?;
    let mut text = String::new();
    for variable in &sections.variables {
        text += &declaration(variable);
    }
    for (variable, body) in sections.variables.iter().zip(&bodies) {
        if let Some(body) = body {
            text += &equation(variable, body, &sections.variables);
        }
    }
    Ok(text)
}

/// Kind, name, declared domain and type.
fn declaration(variable: &Variable) -> String {
    let kind = match variable.kind {
        Kind::Input => "input",
        Kind::Output => "output",
        Kind::Local => "local",
    };
    let values = match variable.kind_of_value {
        Type::Integer => "integer",
        Type::Boolean => "boolean",
    };
    let dimension = variable.dimension();
    let mut limits: Vec<String> = Vec::new();
    for ((lo, hi), index) in variable.bounds.iter().zip(INDICES) {
        limits.push(format!("{lo} <= {index} <= {hi}"));
    }
    limits.extend(variable.declared.iter().map(constraint_text));
    let name = name_text(&variable.name);
    if limits.is_empty() {
        return format!("{kind} {name} : {values};\n");
    }
    format!("{kind} {name} : {} of {values};\n", set_text(dimension, &limits))
}

fn equation(variable: &Variable, body: &Body, all: &[Variable]) -> String {
    let name = name_text(&variable.name);
    format!("{name} = {};\n", expr_text(&body.expr, all, 0))
}

fn set_text(dimension: usize, limits: &[String]) -> String {
    let text = format!("{} | {}", INDICES[..dimension].join(", "), limits.join("; "));
    format!("{{{}}}", text.trim())
}

/// An expression; what stands in a case is indented by its depth.
fn expr_text(expr: &Expr, all: &[Variable], indent: usize) -> String {
    match expr {
        Expr::Variable(number) => name_text(&all[*number].name),
        Expr::Integer(value) => value.to_string(),
        Expr::Boolean(value) => value.to_string(),
        Expr::Unary(operator, a) => {
            let word = if *operator == Unary::Negate { "neg" } else { "not" };
            format!("{word} {}", operand_text(a, all, indent))
        }
        Expr::Binary(operator, a, b) => {
            let (a, b) = (operand_text(a, all, indent), operand_text(b, all, indent));
            format!("{a} {} {b}", operator_text(*operator))
        }
        Expr::If(a, b, c) => {
            let (a, b) = (operand_text(a, all, indent), operand_text(b, all, indent));
            format!("if {a} then {b} else {}", operand_text(c, all, indent))
        }
        Expr::Case(branches) => {
            let margin = "  ".repeat(indent + 1);
            let mut text = String::from("case\n");
            for branch in branches {
                text += &format!("{margin}{};\n", expr_text(branch, all, indent + 1));
            }
            text + &"  ".repeat(indent) + "esac"
        }
        Expr::Restriction(dimension, constraints, child) => {
            let limits: Vec<String> = constraints.iter().map(constraint_text).collect();
            let set = set_text(*dimension, &limits);
            format!("{set} : {}", operand_text(child, all, indent))
        }
        Expr::Dependence(map, child) => {
            format!("{}.{}", operand_text(child, all, indent), map_text(map))
        }
    }
}

/// An operand: in brackets unless it stands by itself.
fn operand_text(expr: &Expr, all: &[Variable], indent: usize) -> String {
    let text = expr_text(expr, all, indent);
    let alone = match expr {
        Expr::Variable(_) | Expr::Boolean(_) | Expr::Case(_) | Expr::Dependence(_, _) => true,
        Expr::Integer(value) => *value >= 0,
        _ => false,
    };
    if alone {
        text
    } else {
        format!("({text})")
    }
}

fn map_text(map: &Map) -> String {
    let rows: Vec<String> = map.rows.iter().map(row_text).collect();
    let text = format!("{} -> {}", INDICES[..map.columns].join(", "), rows.join(", "));
    format!("({})", text.trim())
}

fn constraint_text(constraint: &Constraint) -> String {
    let relation = if constraint.equality { "=" } else { ">=" };
    format!("{} {relation} 0", row_text(&constraint.row))
}

/// Terms with their signs; coefficients 1 and -1 and terms of 0 go unsaid.
fn row_text(row: &Row) -> String {
    let mut text = String::new();
    for (coefficient, index) in row.coefficients.iter().zip(INDICES) {
        let size = coefficient.abs();
        match size {
            0 => {}
            1 => add_term(&mut text, *coefficient < 0, index),
            _ => add_term(&mut text, *coefficient < 0, &format!("{size}*{index}")),
        }
    }
    if row.constant != 0 || text.is_empty() {
        add_term(&mut text, row.constant < 0, &row.constant.abs().to_string());
    }
    text
}

fn add_term(text: &mut String, negative: bool, term: &str) {
    *text += match (text.is_empty(), negative) {
        (true, false) => "",
        (true, true) => "-",
        (false, false) => " + ",
        (false, true) => " - ",
    };
    *text += term;
}

fn operator_text(operator: Binary) -> &'static str {
    match operator {
        Binary::Plus => "+",
        Binary::Minus => "-",
        Binary::Times => "*",
        Binary::Div => "div",
        Binary::Mod => "mod",
        Binary::Min => "min",
        Binary::Max => "max",
        Binary::Equal => "=",
        Binary::Unequal => "<>",
        Binary::Less => "<",
        Binary::LessEqual => "<=",
        Binary::Greater => ">",
        Binary::GreaterEqual => ">=",
        Binary::And => "and",
        Binary::Or => "or",
        Binary::Xor => "xor",
    }
}
