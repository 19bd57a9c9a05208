//! Near misses: for each refusal a way to bring a draft, or its bytes, close
//! to the line between accepted and refused, on either side.

use crate::build::*;
use crate::rng::Rng;
use crate::world::{draft, Size};

const POWER: i64 = 1 << 40;

/// Sheet bytes that try for the refusal of this number.
pub fn near(rng: &mut Rng, size: Size, refusal: u32) -> Vec<u8> {
    let base = draft(rng, size);
    match refusal {
        1 if size.bytes > 1000 => near_long(rng, &base),
        2 => near_cut(rng, &base),
        3 => near_count(rng, base),
        4 => near_name(rng, base),
        5 => near_number(rng, &base),
        6 => near_tail(rng, &base),
        7 => near_shape(rng, base).bytes(),
        8 => near_type(rng, base).bytes(),
        9 => near_reach(rng, base).bytes(),
        10 => near_gap(rng, base).bytes(),
        11 => near_clash(rng, base).bytes(),
        13 => near_wide(rng).bytes(),
        _ => base.bytes(),
    }
}

/// Zero bytes up to the limit or a byte past it.
fn near_long(rng: &mut Rng, base: &Draft) -> Vec<u8> {
    let mut bytes = base.bytes();
    bytes.resize(rng.pick(&[65535, 65536, 65537, 65540, 70000]), 0);
    bytes
}

fn near_cut(rng: &mut Rng, base: &Draft) -> Vec<u8> {
    let mut bytes = base.bytes();
    bytes.truncate(rng.below(bytes.len() + 1));
    bytes
}

/// A count off its limits or at them, or a box with too many points.
fn near_count(rng: &mut Rng, mut base: Draft) -> Vec<u8> {
    if rng.chance(25) {
        let number = rng.below(base.variables.len());
        let bounds = rng.pick(&[(0, 4095), (-32768, 32767), (1, 64), (0, 4096)]);
        let times = 1 + rng.below(4);
        base.variables[number].bounds = vec![bounds; times];
        return base.bytes();
    }
    use Role::*;
    let roles = [
        VariableCount,
        Dimension,
        DeclaredCount,
        NodeCount,
        BranchCount,
        ConstraintCount,
        Columns,
        Rows,
    ];
    change_field(rng, &base, &roles)
}

/// A name ill formed in some way, well formed but strange, or taken.
fn near_name(rng: &mut Rng, mut base: Draft) -> Vec<u8> {
    let names: [&[u8]; 14] = [
        b"",
        b"7a",
        b"a b",
        b"a-",
        b"a\0b",
        b"abcdefgh",
        b"_",
        b"Z9_",
        b"a.\0",
        b"@a",
        b"a[",
        b"`",
        b"a\x7f",
        b"{\xff",
    ];
    let number = rng.below(base.variables.len());
    let mut field = [0; 8];
    for (place, byte) in field.iter_mut().zip(rng.pick(&names)) {
        *place = *byte;
    }
    if rng.chance(15) {
        field[7] = b'q';
    }
    base.variables[number].name = i64::from_le_bytes(field);
    if rng.chance(35) {
        let other = rng.below(base.variables.len());
        base.variables[number].name = base.variables[other].name;
    }
    base.bytes()
}

fn near_number(rng: &mut Rng, base: &Draft) -> Vec<u8> {
    use Role::*;
    let roles = [
        Kind,
        Type,
        Lo,
        Hi,
        Relation,
        Coefficient,
        Constant,
        Code,
        VariableNumber,
        Integer,
        Boolean,
        UnaryOperator,
        BinaryOperator,
    ];
    change_field(rng, base, &roles)
}

/// One field of a wanted role gets a number at the edge of its values.
fn change_field(rng: &mut Rng, base: &Draft, roles: &[Role]) -> Vec<u8> {
    let mut fields = base.fields();
    let role = rng.pick(roles);
    let mut places: Vec<usize> = (0..fields.len()).filter(|p| fields[*p].0 == role).collect();
    if places.is_empty() {
        places = (0..fields.len()).filter(|p| roles.contains(&fields[*p].0)).collect();
    }
    let place = rng.pick(&places);
    let (role, old) = fields[place];
    let number = match rng.below(4) {
        0 => rng.pick(&[-1, i64::MIN, i64::MAX, POWER, POWER + 1, -POWER, -POWER - 1]),
        1 => old.wrapping_add(rng.pick(&[-1, 1])),
        _ => rng.pick(edges(role)),
    };
    fields[place].1 = number;
    encode(&fields)
}

/// Numbers at the edges of a role's values.
pub fn edges(role: Role) -> &'static [i64] {
    use Role::*;
    match role {
        VariableCount => &[0, 1, 32, 33],
        Dimension | Columns | Rows => &[-1, 0, 4, 5],
        DeclaredCount => &[-1, 0, 256, 257],
        NodeCount => &[-1, 0, 2048, 2049],
        BranchCount => &[0, 1, 64, 65],
        ConstraintCount => &[-1, 0, 64, 65],
        Kind => &[-1, 0, 2, 3],
        Type | Relation | Boolean | UnaryOperator => &[-1, 0, 1, 2],
        Lo | Hi => &[-32769, -32768, 32767, 32768],
        Integer => &[-2147483649, -2147483648, 2147483647, 2147483648],
        Code => &[-1, 0, 8, 9],
        BinaryOperator => &[-1, 0, 15, 16],
        VariableNumber => &[-1, 0, 31, 32],
        Coefficient | Constant => &[POWER, POWER + 1, -POWER, -POWER - 1],
        Name => &[0, 1, 95, 97],
    }
}

fn near_tail(rng: &mut Rng, base: &Draft) -> Vec<u8> {
    let mut bytes = base.bytes();
    bytes.resize(bytes.len() + 1 + rng.below(17), rng.pick(&[0, 1, 255]));
    bytes
}

/// A number of a body in the draft, and the variable that has it.
fn some_body(rng: &mut Rng, base: &Draft) -> (usize, usize) {
    let body = rng.below(base.bodies.len());
    let owners = (0..base.variables.len()).filter(|v| base.variables[*v].kind != INPUT);
    (body, owners.clone().nth(body).unwrap_or(0))
}

/// Bodies missing, left over, too deep, or of a wrong dimension.
fn near_shape(rng: &mut Rng, mut base: Draft) -> Draft {
    let (body, owner) = some_body(rng, &base);
    let n = base.variables[owner].bounds.len() as i64;
    let part = base.bodies[body].clone();
    match rng.below(7) {
        0 => drop(base.bodies.pop()),
        1 => base.bodies.push(integer(1)),
        2 => base.bodies[body] = deep_body(rng, n, base.variables[owner].boolean == 1),
        3 => base.bodies[body] = depend(n, &vec![(vec![0; n as usize], 0); rng.below(5)], part),
        4 => base.bodies[body] = depend(rng.range(0, 4), &[], integer(0)),
        5 => base.bodies[body] = restrict(rng.range(0, 4), &[], part),
        _ => base.bodies[body] = binary(PLUS, part, integer(rng.range(0, 1))),
    }
    base
}

/// A chain of unary operators at or about the deepest that a body may be.
fn deep_body(rng: &mut Rng, n: i64, boolean_wanted: bool) -> Part {
    let depth = rng.pick(&[31, 32, 32, 33, 34]);
    let mut part = everywhere(n, if boolean_wanted { boolean(true) } else { integer(5) });
    for _ in 2..depth {
        part = if boolean_wanted { not(part) } else { negate(part) };
    }
    part
}

/// A body over an operator that may not take it.
fn near_type(rng: &mut Rng, mut base: Draft) -> Draft {
    let (body, owner) = some_body(rng, &base);
    let n = base.variables[owner].bounds.len() as i64;
    let part = base.bodies[body].clone();
    let truth = everywhere(n, boolean(rng.chance(50)));
    let number = everywhere(n, integer(rng.range(-2, 2)));
    let (one, other) = if rng.chance(50) { (truth, number) } else { (number, truth) };
    base.bodies[body] = match rng.below(7) {
        0 => not(part),
        1 => negate(part),
        2 => binary(rng.range(0, 15), part, one),
        3 => choose(one, part, other),
        4 => choose(part, one, other),
        5 => case(&[part, restrict(n, &[at_least(&vec![0; n as usize], -1)], one)]),
        _ => binary(rng.range(0, 15), one, part),
    };
    base
}

/// Sums at or just past 2^40: declared, in a restriction, below dependences.
fn near_reach(rng: &mut Rng, mut base: Draft) -> Draft {
    let (body, owner) = some_body(rng, &base);
    let n = base.variables[owner].bounds.len();
    let columns = n as i64;
    let line = near_line(rng, n);
    let part = base.bodies[body].clone();
    match rng.below(4) {
        0 => {
            let number = rng.below(base.variables.len());
            let line = near_line(rng, base.variables[number].bounds.len());
            base.declared.push((number as i64, Limit { relation: 0, line }));
        }
        1 => base.bodies[body] = restrict(columns, &[Limit { relation: 0, line }], part),
        2 => {
            let dead = chain(rng, n);
            let never = at_least(&vec![0; n], -1);
            base.bodies[body] = case(&[part, restrict(columns, &[never], dead)]);
        }
        _ => {
            let far = depend(columns, &[line], everywhere(1, integer(3)));
            base.bodies[body] = binary(PLUS, part, far);
        }
    }
    base
}

/// A line whose sum at the top of a body is 2^40, one less, one more, or far
/// more.
fn near_line(rng: &mut Rng, columns: usize) -> Line {
    let mut coefficients = vec![0; columns];
    let mut left = POWER;
    if columns > 0 {
        let size = rng.pick(&[1 << 25, (1 << 25) - 1, 1, POWER]);
        coefficients[rng.below(columns)] = size * rng.pick(&[1, -1]);
        left = (POWER - size.min(1 << 25) * 32768).max(0);
    }
    let constant = rng.pick(&[left, left - 1, (left + 1).min(POWER), 0]);
    (coefficients, constant * rng.pick(&[1, -1]))
}

/// Dependences over one another whose reaches grow toward 2^40, or fall.
fn chain(rng: &mut Rng, n: usize) -> Part {
    let mut part = everywhere(1, integer(0));
    for _ in 0..rng.below(5) {
        let row = (vec![rng.pick(&[1, 2, 32, 1 << 10, -(1 << 12), 0])], rng.range(-5, 5));
        part = depend(1, &[row], part);
    }
    let limit = at_least(&[rng.pick(&[1, 1 << 10, 1 << 20])], rng.range(-1, 1));
    depend(n as i64, &[(vec![1; n], 0)], restrict(1, &[limit], part))
}

/// A body restricted by a line that may miss a point.
fn near_gap(rng: &mut Rng, mut base: Draft) -> Draft {
    let (body, owner) = some_body(rng, &base);
    let n = base.variables[owner].bounds.len();
    let coefficients = (0..n).map(|_| rng.range(-1, 1)).collect();
    let line = (coefficients, rng.range(-1, 4));
    let limit = Limit { relation: i64::from(rng.chance(10)), line };
    let part = base.bodies[body].clone();
    base.bodies[body] = restrict(n as i64, &[limit], part);
    base
}

/// A body beside itself in a case, both or one restricted.
fn near_clash(rng: &mut Rng, mut base: Draft) -> Draft {
    let (body, owner) = some_body(rng, &base);
    let n = base.variables[owner].bounds.len();
    let coefficients: Vec<i64> = (0..n).map(|_| rng.range(-1, 1)).collect();
    let line = (coefficients, rng.range(-4, 1));
    let part = base.bodies[body].clone();
    let other = restrict(n as i64, &[Limit { relation: 0, line }], part.clone());
    base.bodies[body] = match rng.below(3) {
        0 => case(&[other, part]),
        1 => case(&[part.clone(), case(&[other, part])]),
        _ => case(&[part, other]),
    };
    base
}

/// Products of cases, or depth, about the limits of the normal form. The local
/// variable e holds nowhere, so that a branch of e alone is a short one.
fn near_wide(rng: &mut Rng) -> Draft {
    let body = match rng.below(4) {
        0 => binary(PLUS, short_case(rng.pick(&[8, 9])), short_case(rng.pick(&[7, 8]))),
        1 => power_of_two(rng.pick(&[5, 6, 7])),
        2 => (0..rng.pick(&[27, 28, 29])).fold(integer(1), |part, _| negate(part)),
        _ => {
            let three = binary(PLUS, short_case(4), short_case(4));
            binary(PLUS, three, short_case(rng.pick(&[4, 5])))
        }
    };
    let draft = Draft::default().integer("e", LOCAL, &[]).declare(0, at_least(&[], -1));
    draft.integer("u", OUTPUT, &[]).body(integer(0)).body(body)
}

/// A case of so many branches of which the first alone holds.
pub fn short_case(branches: usize) -> Part {
    let mut list = vec![variable(0); branches];
    list[0] = integer(1);
    case(&list)
}

/// So many cases of two branches added one to the next.
pub fn power_of_two(cases: usize) -> Part {
    (1..cases).fold(short_case(2), |part, _| binary(PLUS, part, short_case(2)))
}
