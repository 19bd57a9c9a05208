//! The generator's sheets that are meant to be accepted: random variables with
//! their domains, and bodies that are made to hold at given points.

use crate::build::*;
use crate::rng::Rng;

/// How large the generated sheets get.
#[derive(Clone, Copy, Debug)]
pub struct Size {
    pub variables: usize,
    pub points: usize,
    pub depth: usize,
    pub bytes: usize,
}

/// Sheets for a quick program.
pub const MEDIUM: Size = Size { variables: 6, points: 90, depth: 6, bytes: 30_000 };
/// Sheets of as many variables as there may be.
pub const MANY: Size = Size { variables: 32, points: 200, depth: 2, bytes: 30_000 };
/// Sheets for a slow one.
pub const SMALL: Size = Size { variables: 3, points: 12, depth: 3, bytes: 700 };

type Spot = Vec<i64>;

/// A variable and the points of its declared domain.
struct Known {
    input: bool,
    boolean: bool,
    dimension: usize,
    domain: Vec<Spot>,
}

/// What bodies are made from.
pub struct World<'a> {
    rng: &'a mut Rng,
    known: Vec<Known>,
    /// The variable whose body is made.
    own: usize,
}

/// A draft within the size, its bodies holding at every point they must.
pub fn draft(rng: &mut Rng, size: Size) -> Draft {
    loop {
        let draft = variables(rng, size);
        let draft = bodies(rng, draft, size.depth);
        let nodes: i64 = draft.bodies.iter().map(|part| part.nodes).sum();
        if draft.bytes().len() <= size.bytes && nodes <= 2048 {
            return draft;
        }
    }
}

/// Variables with boxes that together keep the number of points.
fn variables(rng: &mut Rng, size: Size) -> Draft {
    let mut draft = Draft::default();
    let count = match size.variables {
        32 => rng.pick(&[31, 32, 32]),
        most => 1 + rng.below(most),
    };
    let mut left = size.points;
    for number in 0..count {
        let bounds = bounds(rng, (left / (count - number)).max(1));
        left -= bounds.iter().map(|(lo, hi)| (hi - lo + 1) as usize).product::<usize>().min(left);
        let kind = if number + 1 == count { rng.range(1, 2) } else { rng.range(0, 2) };
        let boolean = i64::from(rng.chance(30));
        let name = name(&format!("{}{}", rng.pick(&["x", "y_", "Z", "_", "a0"]), number));
        let dimension = bounds.len();
        draft.variables.push(Record { name, kind, boolean, bounds });
        for _ in 0..rng.pick(&[0, 0, 0, 1, 1, 2]) {
            let limit = declared(rng, dimension);
            draft.declared.push((number as i64, limit));
        }
    }
    draft
}

/// A box of at most so many points.
fn bounds(rng: &mut Rng, most: usize) -> Vec<(i64, i64)> {
    let dimension = rng.pick(&[0, 1, 1, 1, 2, 2, 3, 4]);
    let mut left = most as i64;
    let mut bounds = Vec::new();
    for _ in 0..dimension {
        let length = rng.range(1, left.clamp(1, 9));
        left /= length;
        let lo = match rng.below(20) {
            0 => -32768,
            1 => 32768 - length,
            _ => rng.range(-3, 2),
        };
        bounds.push((lo, lo + length - 1));
    }
    bounds
}

/// A declared constraint: mostly a cut, seldom an equality or an empty domain.
fn declared(rng: &mut Rng, dimension: usize) -> Limit {
    let mut limit = Limit { relation: i64::from(rng.chance(20)), line: line(rng, dimension) };
    if rng.chance(60) {
        limit.line.1 = rng.range(0, 6);
    }
    limit
}

/// A line of small numbers.
fn line(rng: &mut Rng, columns: usize) -> Line {
    let coefficients = (0..columns).map(|_| rng.pick(&[0, 1, 1, -1, -1, 2])).collect();
    (coefficients, rng.range(-3, 3))
}

/// The line's value at a point.
fn value(line: &Line, z: &[i64]) -> i64 {
    line.0.iter().zip(z).fold(line.1, |sum, (c, x)| sum + c * x)
}

fn holds(limit: &Limit, z: &[i64]) -> bool {
    let value = value(&limit.line, z);
    value == 0 || (limit.relation == 0 && value > 0)
}

/// Every point of a box, the last coordinate fastest.
fn spots(bounds: &[(i64, i64)]) -> Vec<Spot> {
    let mut spots = vec![Vec::new()];
    for (lo, hi) in bounds {
        let longer = |z: &Spot| {
            let grow = |x: i64| z.iter().copied().chain([x]).collect::<Spot>();
            (*lo..=*hi).map(grow).collect::<Vec<Spot>>()
        };
        spots = spots.iter().flat_map(longer).collect();
    }
    spots
}

/// A body for each output and local variable, holding on its declared domain.
fn bodies(rng: &mut Rng, mut draft: Draft, depth: usize) -> Draft {
    let known = draft.variables.iter().enumerate().map(|(number, record)| {
        let own = |d: &&(i64, Limit)| d.0 == number as i64;
        let limits: Vec<&Limit> = draft.declared.iter().filter(own).map(|d| &d.1).collect();
        let mut domain = spots(&record.bounds);
        domain.retain(|z| limits.iter().all(|limit| holds(limit, z)));
        let (input, boolean) = (record.kind == INPUT, record.boolean == 1);
        Known { input, boolean, dimension: record.bounds.len(), domain }
    });
    let mut world = World { known: known.collect(), rng, own: 0 };
    for number in 0..draft.variables.len() {
        if draft.variables[number].kind != INPUT {
            world.own = number;
            draft.bodies.push(world.body(number, depth));
        }
    }
    draft
}

impl World<'_> {
    fn body(&mut self, number: usize, depth: usize) -> Part {
        let own = &self.known[number];
        let (dimension, boolean, domain) = (own.dimension, own.boolean, own.domain.clone());
        if dimension == 1 && !boolean && self.rng.chance(30) {
            return self.sweep(number, &domain, depth);
        }
        let depth = 1 + self.rng.below(depth);
        self.expression(dimension, boolean, &domain, depth)
    }

    /// A recurrence along the only coordinate.
    fn sweep(&mut self, number: usize, domain: &[Spot], depth: usize) -> Part {
        let (near, far): (Vec<Spot>, Vec<Spot>) =
            domain.iter().cloned().partition(|z| domain.contains(&vec![z[0] - 1]));
        let operator = self.rng.pick(&[0, 0, 1, 2, 3, 4, 5, 6]);
        let term = self.expression(1, false, &near, depth.saturating_sub(2));
        let step = binary(operator, shifted(number as i64, -1), term);
        let start = self.expression(1, false, &far, depth.saturating_sub(2));
        match (far.first(), near.len() + far.len() == domain.len() && far.len() == 1) {
            (Some(z), true) => case(&[
                restrict(1, &[equal(&[1], -z[0])], start),
                restrict(1, &[at_least(&[1], -z[0] - 1)], step),
            ]),
            _ => self.expression(1, false, domain, depth),
        }
    }

    /// An expression of the dimension and type that holds at the points, with
    /// no clash there.
    fn expression(&mut self, n: usize, boolean: bool, points: &[Spot], left: usize) -> Part {
        if left == 0 {
            return self.leaf(n, boolean, points);
        }
        match self.rng.below(14) {
            0..=2 => self.leaf(n, boolean, points),
            3..=7 => self.operator(n, boolean, points, left - 1),
            8 => {
                let test = self.expression(n, true, points, left - 1);
                let yes = self.expression(n, boolean, points, left - 1);
                choose(test, yes, self.expression(n, boolean, points, left - 1))
            }
            9 | 10 => self.split(n, boolean, points, left - 1),
            11 => self.restriction(n, boolean, points, left - 1),
            _ => self.dependence(n, boolean, points, left - 1),
        }
    }

    fn operator(&mut self, n: usize, boolean: bool, points: &[Spot], left: usize) -> Part {
        if !boolean && self.rng.chance(12) {
            return self.error(n, points, left);
        }
        let operator = match (boolean, self.rng.below(9)) {
            (true, 0) => return not(self.expression(n, true, points, left)),
            (false, 0) => return negate(self.expression(n, false, points, left)),
            (true, 1..=3) => self.rng.range(13, 15),
            (true, 4 | 5) => self.rng.range(7, 8),
            (true, _) => self.rng.range(9, 12),
            (false, _) => self.rng.range(0, 6),
        };
        let operands = match operator {
            7 | 8 => self.rng.chance(50),
            _ => operator >= 13,
        };
        let a = self.expression(n, operands, points, left);
        binary(operator, a, self.expression(n, operands, points, left))
    }

    /// An operator that has no value, or only just has one.
    fn error(&mut self, n: usize, points: &[Spot], left: usize) -> Part {
        let other = self.expression(n, false, points, left);
        let edge = self.rng.pick(&[2147483647, -2147483648]);
        let (operator, constant) = match self.rng.below(3) {
            0 => (self.rng.range(3, 4), 0),
            1 => (self.rng.range(3, 4), -1),
            _ => (self.rng.range(0, 2), edge),
        };
        binary(operator, other, everywhere(n as i64, integer(constant)))
    }

    /// A case that parts the points by a line, with dead branches among them.
    fn split(&mut self, n: usize, boolean: bool, points: &[Spot], left: usize) -> Part {
        if self.rng.chance(15) {
            return case(&[self.expression(n, boolean, points, left)]);
        }
        let cut = line(self.rng, n);
        let opposite = (cut.0.iter().map(|c| -c).collect(), -cut.1 - 1);
        let (above, below): (Vec<Spot>, Vec<Spot>) =
            points.iter().cloned().partition(|z| value(&cut, z) >= 0);
        let mut branches = Vec::new();
        for (line, own) in [(cut, above), (opposite, below)] {
            let child = self.expression(n, boolean, &own, left);
            let limit = Limit { relation: 0, line };
            branches.push(restrict(n as i64, &[limit], child));
        }
        if self.rng.chance(25) {
            let dead = self.expression(n, boolean, &[], left);
            let never = at_least(&vec![0; n], -1);
            let place = self.rng.below(3);
            branches.insert(place, restrict(n as i64, &[never], dead));
        }
        case(&branches)
    }

    /// A restriction whose constraints hold at all the points.
    fn restriction(&mut self, n: usize, boolean: bool, points: &[Spot], left: usize) -> Part {
        let mut limits = Vec::new();
        for _ in 0..self.rng.below(5) {
            let relation = i64::from(self.rng.chance(20));
            let limit = Limit { relation, line: line(self.rng, n) };
            if points.iter().all(|z| holds(&limit, z)) {
                limits.push(limit);
            }
        }
        restrict(n as i64, &limits, self.expression(n, boolean, points, left))
    }

    /// A dependence on another dimension, the child holding at the images.
    fn dependence(&mut self, n: usize, boolean: bool, points: &[Spot], left: usize) -> Part {
        let count = self.rng.below(5);
        let rows: Vec<Line> = (0..count).map(|_| line(self.rng, n)).collect();
        let image = |z: &Spot| rows.iter().map(|row| value(row, z)).collect::<Spot>();
        let mut images: Vec<Spot> = points.iter().map(image).collect();
        images.sort();
        images.dedup();
        depend(n as i64, &rows, self.expression(count, boolean, &images, left))
    }

    fn leaf(&mut self, n: usize, boolean: bool, points: &[Spot]) -> Part {
        // Mostly inputs and earlier variables: the others make loops.
        let any = self.rng.chance(25);
        let fits = |v: &usize| {
            let known = &self.known[*v];
            known.boolean == boolean && (any || known.input || *v < self.own)
        };
        let numbers: Vec<usize> = (0..self.known.len()).filter(fits).collect();
        if !numbers.is_empty() && self.rng.chance(70) {
            let number = self.rng.pick(&numbers);
            let known = &self.known[number];
            let within = points.iter().all(|z| known.domain.contains(z));
            if known.dimension == n && within && self.rng.chance(60) {
                return variable(number as i64);
            }
            if let Some(rows) = self.fitting(n, number, points) {
                return depend(n as i64, &rows, variable(number as i64));
            }
        }
        let constant = self.constant(boolean);
        if n == 0 && self.rng.chance(80) {
            return constant;
        }
        everywhere(n as i64, constant)
    }

    fn constant(&mut self, boolean_wanted: bool) -> Part {
        if boolean_wanted {
            return boolean(self.rng.chance(50));
        }
        integer(match self.rng.below(8) {
            0 => self.rng.pick(&[-2147483648, 2147483647, 65536, -65536, 46341]),
            1 => self.rng.range(-2147483648, 2147483647),
            _ => self.rng.range(-4, 9),
        })
    }

    /// Rows that take every point into the variable's declared domain.
    fn fitting(&mut self, n: usize, number: usize, points: &[Spot]) -> Option<Vec<Line>> {
        let dimension = self.known[number].dimension;
        for attempt in 0..6 {
            let mut rows: Vec<Line> = (0..dimension).map(|_| line(self.rng, n)).collect();
            if attempt == 5 {
                rows.iter_mut().for_each(|row| row.0.fill(0));
            }
            let Some(first) = points.first() else {
                return Some(rows);
            };
            if self.known[number].domain.is_empty() {
                return None;
            }
            let target = self.rng.below(self.known[number].domain.len());
            let domain = &self.known[number].domain;
            for (row, x) in rows.iter_mut().zip(&domain[target]) {
                row.1 += x - value(row, first);
            }
            let image = |z: &Spot| rows.iter().map(|row| value(row, z)).collect::<Spot>();
            if points.iter().all(|z| domain.contains(&image(z))) {
                return Some(rows);
            }
        }
        None
    }
}
