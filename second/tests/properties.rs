//! What holds of every sheet, tried on generated ones.

use second::affine::Point;
use second::check::{accept, Accepted};
use second::domain::{element_at, Elements};
use second::eval::{binary, unary, Outcome};
use second::hostile::hostile;
use second::make::{all_cases, cases, small_cases, Case};
use second::normal::normal_form;
use second::read::{read, Kind};
use second::refusal::{CLASH, GAP};
use second::run::run_all;
use second::tree::{bodies, parts, Expr};
use second::{body, check, element, normalise, program, run, Refusal};
use std::collections::{BTreeMap, BTreeSet};
use std::time::{Duration, Instant};

/// The outcomes by definition: a table of outcomes for each depth, made from
/// the table of the depth before, every expression worked out by its shape.
struct Literal<'a> {
    sheet: &'a Accepted,
    inputs: &'a [i32],
    below: Vec<Outcome>,
}

impl Literal<'_> {
    /// Whether a case is reached, where the expression holds, that has two
    /// branches that hold.
    fn clashes(&self, expr: &Expr, z: &Point) -> bool {
        match expr {
            Expr::Case(branches) => {
                let holding: Vec<&Expr> = branches.iter().filter(|b| self.holds(b, z)).collect();
                holding.len() > 1 || holding.iter().any(|b| self.clashes(b, z))
            }
            Expr::Dependence(map, a) => self.clashes(a, &map.image(z)),
            _ => parts(expr).into_iter().any(|a| self.clashes(a, z)),
        }
    }

    fn holds(&self, expr: &Expr, z: &Point) -> bool {
        match expr {
            Expr::Variable(number) => {
                let variable = &self.sheet.variables[*number];
                element_at(variable, z).is_some() && variable.declared.iter().all(|c| c.holds(z))
            }
            Expr::Integer(_) | Expr::Boolean(_) => z.dimension == 0,
            Expr::Unary(_, a) => self.holds(a, z),
            Expr::Binary(_, a, b) => self.holds(a, z) && self.holds(b, z),
            Expr::If(a, b, c) => self.holds(a, z) && self.holds(b, z) && self.holds(c, z),
            Expr::Case(branches) => branches.iter().any(|b| self.holds(b, z)),
            Expr::Restriction(_, limits, a) => {
                limits.iter().all(|c| c.holds(z)) && self.holds(a, z)
            }
            Expr::Dependence(map, a) => self.holds(a, &map.image(z)),
        }
    }

    /// The value of an expression at a point where it holds, or the error.
    fn value(&self, expr: &Expr, z: &Point) -> Result<i128, Outcome> {
        match expr {
            Expr::Variable(number) => {
                let element = element_at(&self.sheet.variables[*number], z).expect("in the box");
                match self.below[element] {
                    Outcome::Value(value) => Ok(i128::from(value)),
                    other => Err(other),
                }
            }
            Expr::Integer(value) => Ok(i128::from(*value)),
            Expr::Boolean(value) => Ok(i128::from(*value)),
            Expr::Unary(operator, a) => unary(*operator, self.value(a, z)?),
            Expr::Binary(operator, a, b) => {
                let left = self.value(a, z)?;
                binary(*operator, left, self.value(b, z)?)
            }
            Expr::If(a, b, c) => {
                let (test, yes, no) = (self.value(a, z)?, self.value(b, z)?, self.value(c, z)?);
                Ok(if test == 1 { yes } else { no })
            }
            Expr::Case(branches) => {
                let holding = branches.iter().find(|b| self.holds(b, z));
                self.value(holding.expect("a branch holds"), z)
            }
            Expr::Restriction(_, _, a) => self.value(a, z),
            Expr::Dependence(map, a) => self.value(a, &map.image(z)),
        }
    }

    /// The table of the next depth; the first has no table below it.
    fn table(&self, first: bool) -> Vec<Outcome> {
        let mut list = self.inputs.iter();
        let mut table = Vec::new();
        for (number, z) in &self.sheet.elements.points {
            let variable = &self.sheet.variables[*number];
            let entry = match variable.kind {
                Kind::Input => list.next(),
                _ => None,
            };
            table.push(match (&self.sheet.bodies[*number], entry) {
                _ if !variable.declared.iter().all(|c| c.holds(z)) => Outcome::Outside,
                (_, Some(value)) => Outcome::Value(*value),
                (Some(_), _) if first => Outcome::Loop,
                (Some(body), _) => match self.value(&body.expr, z) {
                    Ok(value) => Outcome::Value(value as i32),
                    Err(outcome) => outcome,
                },
                (None, None) => panic!("an input without entry"),
            });
        }
        table
    }
}

/// The table at depth 4,096, or at the number of elements and one more if that
/// is less: by then no table differs from the one before it, which is tested.
fn literal(sheet: &Accepted, inputs: &[i32]) -> Vec<Outcome> {
    let mut state = Literal { sheet, inputs, below: Vec::new() };
    state.below = state.table(true);
    for _ in 0..4096.min(sheet.total() + 1) {
        state.below = state.table(false);
    }
    assert_eq!(state.below, state.table(false));
    state.below
}

/// GAP and CLASH by definition, against the checker, on a sheet that passes
/// the checks before them. Answers whether it does.
fn domains_agree(sheet: &[u8]) -> bool {
    let answer = check(sheet);
    let early = |refusal: &Refusal| refusal.number < GAP;
    if answer.is_err_and(|refusal| early(&refusal)) {
        return false;
    }
    let sections = read(sheet).expect("sections");
    let bodies = bodies(&sections).expect("bodies");
    let elements = Elements::of(&sections.variables);
    let whole = Accepted { variables: sections.variables, bodies, elements, head: 0 };
    if whole.total() > 100 {
        return false;
    }
    assert_eq!(answer, literal_domains(&whole));
    true
}

/// The first element, GAP before CLASH at each, by definition.
fn literal_domains(whole: &Accepted) -> Result<u64, Refusal> {
    let literal = Literal { sheet: whole, inputs: &[], below: Vec::new() };
    for (element, (number, z)) in whole.elements.points.iter().enumerate() {
        let variable = &whole.variables[*number];
        let Some(body) = &whole.bodies[*number] else { continue };
        if !variable.declared.iter().all(|c| c.holds(z)) {
            continue;
        }
        if !literal.holds(&body.expr, z) {
            return Err(Refusal::at(GAP, element));
        }
        if literal.clashes(&body.expr, z) {
            return Err(Refusal::at(CLASH, element));
        }
    }
    Ok(whole.total() as u64)
}

/// Everything that is asked of one case; the refusals and codes that occur.
#[derive(Default)]
struct Seen {
    refusals: BTreeMap<u32, usize>,
    codes: BTreeMap<u8, usize>,
    programs: BTreeSet<u32>,
    accepted: usize,
    normal: usize,
    literal: usize,
    domains: usize,
}

impl Seen {
    fn note<T>(&mut self, answer: &Result<T, Refusal>) {
        if let Err(refusal) = answer {
            assert!((1..=15).contains(&refusal.number));
            *self.refusals.entry(refusal.number).or_insert(0) += 1;
        }
    }

    fn print(&self) {
        println!("accepted {}, normal {}", self.accepted, self.normal);
        println!("literal {}, domains {}", self.literal, self.domains);
        println!("refusals {:?}, codes {:?}", self.refusals, self.codes);
    }

    fn ask(&mut self, case: &Case) {
        self.note(&check(&case.sheet));
        self.domains += usize::from(domains_agree(&case.sheet));
        self.ask_run(case);
        self.ask_normal(case);
        let element = element(&case.sheet, case.variable, &case.point);
        self.note(&element);
        let (start, length) = body(&case.sheet, case.body);
        assert!(start + length <= case.sheet.len());
        let text = String::from_utf8(program(&case.stdin)).expect("text");
        assert!(text.ends_with('\n'));
        if let Some(rest) = text.strip_prefix("refused ") {
            let number = rest.split(' ').next().and_then(|word| word.parse().ok());
            self.programs.insert(number.expect("a refusal's number"));
        }
        assert!(!second::list(&case.sheet).is_empty());
    }

    /// The run: a refusal changes nothing, an answer stays within its length.
    fn ask_run(&mut self, case: &Case) {
        let (mut codes, mut values) = (vec![77; case.codes], vec![-77; case.values]);
        let answer = run(&case.sheet, &case.inputs, &mut codes, &mut values);
        self.note(&answer);
        let filled = answer.unwrap_or(0) as usize;
        assert!(codes[filled..].iter().all(|c| *c == 77));
        assert!(values[filled..].iter().all(|v| *v == -77));
        for (code, value) in codes[..filled].iter().zip(&values) {
            assert!(*code <= 4 && (*code == 1 || *value == 0));
            *self.codes.entry(*code).or_insert(0) += 1;
        }
    }

    fn ask_normal(&mut self, case: &Case) {
        let mut out = vec![0xA5; case.out];
        let answer = normalise(&case.sheet, &mut out);
        self.note(&answer);
        let filled = answer.unwrap_or(0) as usize;
        assert!(out[filled..].iter().all(|b| *b == 0xA5));
        if let Ok(accepted) = accept(&case.sheet) {
            self.accepted += 1;
            self.compare(case, &accepted);
        }
    }

    /// Demand 3: the normal form is accepted, is its own normal form, and has
    /// the same outcomes. And the outcomes are those of the definition.
    fn compare(&mut self, case: &Case, accepted: &Accepted) {
        let outcomes = run_all(accepted, &case.inputs);
        if let Ok(form) = normal_form(&case.sheet, accepted) {
            let again = accept(&form).expect("a normal form is accepted");
            assert_eq!(normal_form(&form, &again), Ok(form.clone()), "{}", case.name);
            assert_eq!(run_all(&again, &case.inputs), outcomes, "{}", case.name);
            assert_eq!(form[..accepted.head], case.sheet[..accepted.head]);
            self.normal += 1;
        }
        if accepted.total() > 60 {
            return;
        }
        if let Ok(outcomes) = outcomes {
            assert_eq!(literal(accepted, &case.inputs), outcomes, "{}", case.name);
            self.literal += 1;
        }
    }
}

#[test]
fn generated_sheets() {
    let mut seen = Seen::default();
    for seed in 0..4 {
        cases(seed, 1500).iter().for_each(|case| seen.ask(case));
    }
    assert!(seen.refusals.keys().copied().eq(1..=15));
    seen.print();
    assert!(seen.codes.values().all(|count| *count >= 50) && seen.codes.len() == 5);
    assert!(seen.accepted >= 2000 && seen.normal >= 1500 && seen.literal >= 1500);
}

/// More of the same, for an idle hour: `cargo test --release -- --ignored`.
#[test]
#[ignore]
fn many_more_generated_sheets() {
    let mut seen = Seen::default();
    for seed in 1000..1040 {
        cases(seed, 3000).iter().for_each(|case| seen.ask(case));
        small_cases(seed, 3000).iter().for_each(|case| seen.ask(case));
    }
    seen.print();
}

#[test]
fn small_sheets() {
    let mut seen = Seen::default();
    let list = small_cases(7, 1500);
    for case in &list {
        seen.ask(case);
        assert!(case.sheet.len() <= 700, "{} {}", case.name, case.sheet.len());
        assert!(check(&case.sheet).unwrap_or(0) <= 12);
    }
    assert!(seen.refusals.keys().copied().eq(2..=15));
    assert!(seen.programs.contains(&1));
    seen.print();
    assert!(seen.codes.values().all(|count| *count >= 10) && seen.codes.len() == 5);
}

#[test]
fn hostile_sheets_finish() {
    let mut seen = Seen::default();
    for case in hostile() {
        let start = Instant::now();
        seen.ask(&case);
        let spent = start.elapsed();
        println!("{} {:?}", case.name, spent);
        // All questions together; a build without optimisation is let off.
        let late = spent > Duration::from_secs(8) && !cfg!(debug_assertions);
        assert!(!late, "{} took {:?}", case.name, spent);
    }
}

#[test]
fn a_seed_names_its_cases() {
    let (one, other) = (all_cases(3, 40), all_cases(3, 40));
    for (a, b) in one.iter().zip(&other) {
        assert_eq!((&a.sheet, &a.stdin, &a.inputs), (&b.sheet, &b.stdin, &b.inputs));
    }
    assert_ne!(one[0].sheet, all_cases(4, 1)[0].sheet);
}
