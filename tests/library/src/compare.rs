//! One case held against the second program: all five calls, and the lent
//! slices whole.

use crate::lent::{bytes, words};
use okelizanshu::Answer;
use second::{Case, Refusal};

/// What a call said: the refusal's number, 0 where accepted, and the rest.
pub type Told = (u32, u64);

fn ours(answer: Answer) -> Told {
    match answer {
        Answer::Accepted(number) => (0, u64::from(number)),
        Answer::Refused(why, place) => (why as u32, u64::from(place)),
    }
}

fn theirs(answer: Result<u64, Refusal>) -> Told {
    match answer {
        Ok(number) => (0, number),
        Err(refusal) => (refusal.number, refusal.place),
    }
}

/// What has been compared so far.
#[derive(Default)]
pub struct Tally {
    /// Answers by their refusal's number, 0 where accepted.
    pub met: [usize; 16],
    pub compared: usize,
    /// What differs in the case at hand.
    pub wrong: Vec<String>,
}

impl Tally {
    fn same(&mut self, what: &str, ours: Told, theirs: Told) {
        self.compared += 1;
        self.met[ours.0 as usize] += 1;
        if ours != theirs {
            self.wrong.push(format!("{what} says {ours:?}, the second program {theirs:?}"));
        }
    }

    fn holds(&mut self, what: &str, holds: bool) {
        if !holds {
            self.wrong.push(what.to_string());
        }
    }

    pub fn case(&mut self, c: &Case) {
        let total = theirs(second::check(&c.sheet));
        self.same("check", ours(okelizanshu::check(&c.sheet)), total);
        self.questions(c);
        for (codes, values) in table_lengths(c, total) {
            self.run(c, codes, values);
        }
        let longest = self.normalise(c, c.out.max(70_000));
        self.normalise(c, c.out);
        if longest.0 == 0 {
            let length = longest.1 as usize;
            self.normalise(c, length);
            self.normalise(c, length - 1);
            self.normalise(c, length + 5);
            self.normalise(c, 0);
        }
    }

    fn questions(&mut self, c: &Case) {
        let shorter = &c.point[..c.point.len().saturating_sub(1)];
        let longer: Vec<i64> = c.point.iter().copied().chain([0]).collect();
        let asked = [
            (c.variable, c.point.as_slice()),
            (c.variable + 1 & 31, c.point.as_slice()),
            (c.variable, shorter),
            (c.variable, longer.as_slice()),
            (1 << 32, &[]),
        ];
        for (variable, point) in asked {
            let element = ours(okelizanshu::element(&c.sheet, variable, point));
            self.same("element", element, theirs(second::element(&c.sheet, variable, point)));
        }
        for variable in [c.body, 0, 1, u64::MAX] {
            let (start, part) = okelizanshu::body(&c.sheet, variable);
            let (first, size) = second::body(&c.sheet, variable);
            let what =
                format!("body of {variable}: {start} and {}, not {first} and {size}", part.len());
            self.compared += 1;
            self.holds(&what, (start, part.len()) == (first, size));
        }
    }

    fn run(&mut self, c: &Case, codes: usize, values: usize) {
        let (codes_before, values_before) = (bytes(codes), words(values));
        let (mut code, mut value) = (codes_before.clone(), values_before.clone());
        let said = ours(okelizanshu::run(&c.sheet, &c.inputs, code.lend(), value.lend()));
        let (mut other_code, mut other_value) = (codes_before.clone(), values_before.clone());
        let other = second::run(&c.sheet, &c.inputs, other_code.lend(), other_value.lend());
        let what = format!("run with {codes} codes and {values} values");
        self.same(&what, said, theirs(other));
        self.holds(&format!("{what}: the codes differ"), code == other_code);
        self.holds(&format!("{what}: the values differ"), value == other_value);
        let written = if said.0 == 0 { said.1 as usize } else { 0 };
        let kept =
            code.kept_beyond(&codes_before, written) && value.kept_beyond(&values_before, written);
        self.holds(&format!("{what}: what is not the answer's has changed"), kept);
    }

    fn normalise(&mut self, c: &Case, length: usize) -> Told {
        let before = bytes(length);
        let (mut out, mut other_out) = (before.clone(), before.clone());
        let said = ours(okelizanshu::normalise(&c.sheet, out.lend()));
        let other = theirs(second::normalise(&c.sheet, other_out.lend()));
        let what = format!("normalise with {length} bytes");
        self.same(&what, said, other);
        self.holds(&format!("{what}: the bytes differ"), out == other_out);
        let written = if said.0 == 0 { said.1 as usize } else { 0 };
        self.holds(
            &format!("{what}: what is not the answer's has changed"),
            out.kept_beyond(&before, written),
        );
        other
    }
}

/// Lengths lent to a run: the case's own; and where the sheet is accepted
/// exact, one less of each, and more.
fn table_lengths(c: &Case, total: Told) -> Vec<(usize, usize)> {
    let mut lengths = vec![(c.codes, c.values)];
    if total.0 == 0 {
        let n = total.1 as usize;
        lengths.extend([(n, n), (n - 1, n), (n, n - 1), (n + 9, n + 3)]);
    }
    lengths
}
