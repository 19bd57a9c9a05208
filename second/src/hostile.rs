//! Hostile sheets by name: large where size hurts, and the normal form's
//! limits with their neighbours.

use crate::build::*;
use crate::make::{complete, Case};
use crate::near::{power_of_two, short_case};
use crate::rng::Rng;

const POWER: i64 = 1 << 40;

/// All hostile cases, the same each time.
pub fn hostile() -> Vec<Case> {
    let mut rng = Rng::new(1);
    let mut sheets = boxes();
    sheets.extend(reaches());
    sheets.extend(chains());
    sheets.extend(depths());
    sheets.extend(lengths());
    sheets.extend(products());
    sheets.extend(wide_counts());
    sheets.extend(wide_totals());
    sheets.extend(staircases());
    let case = |(name, sheet): (&str, Vec<u8>)| complete(&mut rng, name.to_string(), sheet);
    sheets.into_iter().map(case).collect()
}

type Named = (&'static str, Vec<u8>);

/// A sheet of one integer output variable.
fn single(bounds: &[(i64, i64)], body: Part) -> Vec<u8> {
    Draft::default().integer("y", OUTPUT, bounds).body(body).bytes()
}

/// Boxes whose sizes leave 64 bits.
fn boxes() -> Vec<Named> {
    let all = (-32768, 32767);
    let zero = |n: i64| everywhere(n, integer(0));
    let two = |first: (i64, i64), second: (i64, i64)| {
        let draft = Draft::default().integer("a", LOCAL, &[first]).integer("b", LOCAL, &[second]);
        draft.body(zero(1)).body(zero(1)).bytes()
    };
    vec![
        ("box-of-2-to-64", single(&[all; 4], zero(4))),
        ("box-of-2-to-48", single(&[all; 3], zero(3))),
        ("box-of-4096", single(&[(-2048, 2047)], zero(1))),
        ("box-of-4097", single(&[(-2048, 2048)], zero(1))),
        ("boxes-of-4096", two((0, 2047), (0, 2047))),
        ("boxes-of-4097", two((0, 2047), (0, 2048))),
        ("box-of-8-to-the-4", single(&[(1, 8); 4], zero(4))),
    ]
}

/// Reach products past 64 bits, and numbers at the edges.
fn reaches() -> Vec<Named> {
    let huge = |n: i64| vec![(vec![n; 4], n); 4];
    let line = [(0, 1); 4];
    let twice = |n: i64| depend(4, &huge(n), depend(4, &huge(n), everywhere(4, integer(0))));
    let fall = depend(1, &[(vec![1 << 25], 0)], depend(1, &[(vec![0], 1)], unit_limit()));
    let full = depend(1, &[(vec![1 << 25], 0)], unit_limit());
    let over = depend(1, &[(vec![1 << 25], 1)], everywhere(1, integer(0)));
    let limit = restrict(4, &[at_least(&[POWER; 4], POWER)], everywhere(4, integer(0)));
    vec![
        ("reach-product-past-64-bits", single(&line, twice(POWER))),
        ("reach-product-negative", single(&line, twice(-POWER))),
        ("coefficient-least", single(&line, twice(i64::MIN))),
        ("coefficient-past-2-to-40", single(&line, twice(POWER + 1))),
        ("reach-falls-again", single(&[(0, 0)], fall)),
        ("reach-full-then-limit", single(&[(0, 0)], full)),
        ("reach-one-past", single(&[(0, 0)], over)),
        ("constraint-sum-past-64-bits", single(&line, limit)),
    ]
}

/// A restriction that keeps a full reach only where nothing is added.
fn unit_limit() -> Part {
    restrict(1, &[at_least(&[1], 0)], everywhere(1, integer(0)))
}

/// Long ways from element to element.
fn chains() -> Vec<Named> {
    let split = |first: Part, edge: i64, rest: Part| {
        case(&[restrict(1, &[equal(&[1], -edge)], first), rest])
    };
    let zero = || everywhere(1, integer(1));
    let mut deep = shifted(0, 1);
    for _ in 0..28 {
        deep = negate(deep);
    }
    let reverse = split(zero(), 4095, restrict(1, &[at_least(&[-1], 4094)], deep));
    let double = binary(PLUS, shifted(0, -1), shifted(0, -1));
    let forward = split(zero(), 0, restrict(1, &[at_least(&[1], -1)], double));
    let back = depend(1, &[(vec![0], 0)], variable(0));
    let cycle = restrict(1, &[at_least(&[-1], 4094)], shifted(0, 1));
    let cycle = split(back, 4095, cycle);
    let line = [(0, 4095)];
    vec![
        ("reverse-chain-of-4096-deep-bodies", single(&line, reverse)),
        ("doubled-chain-of-4000", single(&[(0, 3999)], forward)),
        ("cycle-of-4096", single(&line, cycle)),
        ("thousand-leaves", thousand_leaves()),
        ("mapped-leaves", mapped_leaves()),
        ("nested-cases", nested_cases(4096, false)),
        ("nested-in-first", nested_cases(1024, true)),
        ("all-elements-of-input", single_input()),
    ]
}

/// A body of 1,000 leaves over 3,600 points, with 256 declared constraints.
fn thousand_leaves() -> Vec<u8> {
    let mut draft = Draft::default().integer("y", OUTPUT, &[(1, 60), (1, 60)]);
    for k in 0..256 {
        draft = draft.declare(0, at_least(&[1, 0], k));
    }
    draft.body(balanced(6, vec![variable(0); 1000])).bytes()
}

/// As many leaves with maps as a sheet takes, over 3,600 points, all of them
/// worked out.
fn mapped_leaves() -> Vec<u8> {
    let mut draft = Draft::default().integer("x", INPUT, &[(0, 99)]);
    draft = draft.integer("y", OUTPUT, &[(1, 60), (1, 60)]);
    for k in 0..256 {
        draft = draft.declare(0, at_least(&[1], k));
    }
    let leaf = depend(2, &[(vec![0, 1], 0)], variable(0));
    draft.body(balanced(6, vec![leaf; 600])).bytes()
}

/// Cases in cases as deep as they go, each the last branch or the first of
/// the next, over so many points.
fn nested_cases(points: i64, first: bool) -> Vec<u8> {
    let mut part = everywhere(1, integer(1));
    for level in 0..29 {
        let mut branches: Vec<Part> = (0..20).map(|_| shifted(0, 9000 + level)).collect();
        branches.insert(if first { 0 } else { 20 }, part);
        part = case(&branches);
    }
    single(&[(0, points - 1)], part)
}

/// An input of 4,095 entries and their sum at one point.
fn single_input() -> Vec<u8> {
    let draft = Draft::default().integer("x", INPUT, &[(1, 4095)]).integer("y", OUTPUT, &[]);
    draft.body(depend(0, &[(vec![], 4095)], variable(0))).bytes()
}

/// Bodies of 32 and 33 nodes in depth.
fn depths() -> Vec<Named> {
    let chain = |depth: usize| (1..depth).fold(integer(7), |part, _| negate(part));
    vec![
        ("body-32-deep", single(&[], chain(32))),
        ("body-33-deep", single(&[], chain(33))),
        ("body-2000-deep", single(&[], chain(2000))),
        ("normal-form-32-deep", single(&[], chain(29))),
        ("normal-form-33-deep", single(&[], chain(30))),
    ]
}

/// Sheets of 65,536 bytes and about: constraints fill what is left.
fn lengths() -> Vec<Named> {
    let full = filled(65_536);
    let mut over = full.clone();
    over.push(0);
    let mut padded = single(&[], integer(1));
    padded.resize(65_536, 0);
    let mut less = full.clone();
    less.pop();
    vec![
        ("sheet-of-65536", full),
        ("sheet-of-65537", over),
        ("sheet-of-65535", less),
        ("tail-up-to-65536", padded),
    ]
}

/// An accepted sheet of exactly so many bytes: a scalar variable below
/// restrictions of constraints that hold, 2 fields each.
fn filled(length: usize) -> Vec<u8> {
    let fields = length / 8;
    let empty = restricted_sums(&[]).len() / 8;
    let mut left = fields - empty;
    let mut counts = Vec::new();
    while left > 0 {
        // A summand costs 7 fields and its constraints 2 each.
        let count = ((left - 7) / 2).min(64);
        let spent = 7 + 2 * count;
        let rest = left - spent;
        let count = if rest > 0 && rest < 9 { count - 8 } else { count };
        left -= 7 + 2 * count;
        counts.push(count);
        if left == 1 {
            break;
        }
    }
    let mut bytes = restricted_sums(&counts);
    bytes.truncate(length);
    bytes
}

/// A sum of 0 and a restriction for each count of constraints.
fn restricted_sums(counts: &[usize]) -> Vec<u8> {
    let always = at_least(&[], 0);
    let mut parts = vec![integer(0)];
    for count in counts {
        parts.push(restrict(0, &vec![always.clone(); *count], integer(1)));
    }
    single(&[], balanced(PLUS, parts))
}

/// Cases whose product grows without end.
fn products() -> Vec<Named> {
    let mut tower = short_case(64);
    for _ in 0..14 {
        tower = binary(PLUS, tower, short_case(64));
    }
    let mut nested = short_case(3);
    for _ in 0..7 {
        nested = case(&[choose(boolean(true), nested.clone(), nested)]);
        if nested.nodes > 900 {
            break;
        }
    }
    vec![
        ("case-product-tower", with_empty(tower)),
        ("case-product-nested", with_empty(nested)),
        ("case-product-128", with_empty(power_of_two(7))),
        ("case-product-many", with_empty(power_of_two(28))),
    ]
}

/// A sheet with the local variable e that holds nowhere, and the body of u.
fn with_empty(body: Part) -> Vec<u8> {
    let draft = Draft::default().integer("e", LOCAL, &[]).declare(0, at_least(&[], -1));
    draft.integer("u", OUTPUT, &[]).body(integer(0)).body(body).bytes()
}

/// Branches and constraints of the normal form at the limit and past it.
fn wide_counts() -> Vec<Named> {
    let branches = |a: usize, b: usize| binary(PLUS, short_case(a), short_case(b));
    let spliced = |n: usize| {
        let mut list = vec![variable(0); n];
        list[0] = short_case(33);
        case(&list)
    };
    let always = |n: usize| vec![at_least(&[], 0); n];
    let limits = |a: usize, b: usize| {
        binary(PLUS, restrict(0, &always(a), integer(1)), restrict(0, &always(b), integer(2)))
    };
    let over = |a: usize, b: usize| restrict(0, &always(a), restrict(0, &always(b), integer(1)));
    vec![
        ("branches-64", with_empty(branches(16, 4))),
        ("branches-65", with_empty(branches(13, 5))),
        ("branches-64-spliced", with_empty(spliced(32))),
        ("branches-65-spliced", with_empty(spliced(33))),
        ("constraints-64", single(&[], limits(32, 32))),
        ("constraints-65", single(&[], limits(32, 33))),
        ("constraints-64-nested", single(&[], over(1, 63))),
        ("constraints-65-nested", single(&[], over(2, 63))),
    ]
}

/// Node and byte totals of the normal form at the limit and past it.
fn wide_totals() -> Vec<Named> {
    vec![
        ("nodes-2048", nodes_total(2048)),
        ("nodes-2049", nodes_total(2049)),
        ("bytes-65536", bytes_total(0)),
        ("bytes-past-65536", bytes_total(1)),
        ("first-body-wide-at-second", two_bodies()),
        ("unreached-clash", unreached_clash()),
    ]
}

/// A case with two branches that hold, below a branch that doesn't.
fn unreached_clash() -> Vec<u8> {
    let clash = case(&[integer(1), integer(2)]);
    let never = restrict(0, &[at_least(&[], -1)], clash);
    single(&[], case(&[never, integer(3)]))
}

/// A scalar sheet whose normal form has exactly so many nodes: case,
/// restriction, and a tree where a leaf counts 2, a unary 1, a binary 1.
fn nodes_total(total: usize) -> Vec<u8> {
    let tree = total - 2;
    // n leaves take 3n - 1 nodes; unary operators make up the rest.
    let leaves = (tree + 1) / 3;
    let extra = tree - (3 * leaves - 1);
    let mut parts: Vec<Part> = (0..leaves).map(|_| integer(0)).collect();
    parts[0] = (0..extra).fold(integer(0), |part, _| negate(part));
    single(&[], balanced(PLUS, parts))
}

/// A sheet whose normal form has 65,536 bytes and so many fields more.
/// Each local variable's body has one case of 64 branches.
fn bytes_total(more: usize) -> Vec<u8> {
    let target = 8192 + more;
    let mut best = Draft::default();
    for locals in 1..32 {
        let draft = byte_draft(locals, 0);
        let fields = normal_fields(&draft);
        if fields <= target {
            best = byte_draft(locals, target - fields);
        }
    }
    best.bytes()
}

/// Local variables with many constraints, and declared constraints of two
/// sizes to take up what is missing.
fn byte_draft(locals: usize, missing: usize) -> Draft {
    let mut draft = Draft::default();
    let never = at_least(&[0, 0, 0, 0], -1);
    let always = at_least(&[0, 0, 0, 0], 0);
    for number in 0..locals {
        draft = draft.integer(&format!("v{number}"), LOCAL, &[(0, 0); 4]);
        let first = restrict(4, &vec![always.clone(); 40], everywhere(4, integer(1)));
        let second = restrict(4, std::slice::from_ref(&never), everywhere(4, integer(2)));
        draft = draft.body(case(&[first, second]));
    }
    // A scalar constraint has 3 fields, one over a line 4.
    let mut left = missing as i64;
    let scalar = locals as i64;
    draft = draft.integer("s", OUTPUT, &[]).integer("t", OUTPUT, &[(0, 0)]);
    draft = draft.body(integer(0)).body(everywhere(1, integer(0)));
    while left > 0 && left % 3 != 0 {
        draft = draft.declare(scalar + 1, at_least(&[0], 0));
        left -= 4;
    }
    while left > 0 {
        draft = draft.declare(scalar, at_least(&[], 0));
        left -= 3;
    }
    draft
}

/// The number of fields of a draft's normal form, its bodies being as
/// `byte_draft` makes them: already a case of restrictions but for s and t.
fn normal_fields(draft: &Draft) -> usize {
    // s: case 2, restriction 3, dependence 3; t: case 2, restriction 3.
    draft.fields().len() + 8 + 5
}

/// Two bodies of which the first alone keeps the limit of nodes.
fn two_bodies() -> Vec<u8> {
    let half = || balanced(5, vec![integer(1); 400]);
    let draft = Draft::default().integer("p", OUTPUT, &[]).integer("q", OUTPUT, &[]);
    draft.body(half()).body(half()).bytes()
}

/// Cases in the last branch of cases: as many walks above one another as the
/// nodes allow.
fn staircase(levels: usize, branch: Part, wide: usize, last: Part) -> Part {
    let mut body = last;
    for _ in 0..levels {
        let mut branches = vec![branch.clone(); wide];
        branches.push(body);
        body = case(&branches);
    }
    body
}

/// All branches hold, none of thousands does, the very last one alone, or that
/// one below other elements.
fn staircases() -> Vec<Named> {
    let never = || restrict(1, &[at_least(&[0], -1)], variable(0));
    let last = Draft::default().integer("e", LOCAL, &[(0, 0)]).declare(0, at_least(&[0], -1));
    let last = last.integer("u", OUTPUT, &[(1, 9)]).body(everywhere(1, integer(0)));
    let stairs = staircase(30, variable(0), 63, everywhere(1, integer(1)));
    vec![
        ("all-branches-hold", single(&[], staircase(31, integer(0), 63, integer(0)))),
        ("no-branch-holds", single(&[(0, 9)], staircase(30, never(), 31, never()))),
        ("last-branch-holds", last.body(stairs).bytes()),
        ("stairs-below-deep-bodies", stairs_below()),
    ]
}

/// Bodies as deep as they go from element to element, and stairs below them.
fn stairs_below() -> Vec<u8> {
    let draft = Draft::default().integer("y", OUTPUT, &[(0, 3)]).integer("e", LOCAL, &[(99, 99)]);
    let draft = draft.integer("u", OUTPUT, &[(0, 3)]).declare(1, at_least(&[0], -1));
    let next = restrict(1, &[at_least(&[-1], 2)], shifted(0, 1));
    let below = restrict(1, &[equal(&[1], -3)], variable(2));
    let deep = (0..28).fold(case(&[next, below]), |part, _| negate(part));
    let stairs = staircase(30, variable(1), 62, everywhere(1, integer(1)));
    draft.body(deep).body(everywhere(1, integer(0))).body(stairs).bytes()
}
