//! The library timed beside the second program, in one process: check, run and
//! normalise on a small, a typical and the hostile sheets, and how the run's
//! time grows. Usage: bench [FOLDER]; with a folder the tables are also written
//! to performance-tables.md there, and the growth is drawn in performance.svg.

mod plot;
mod sheets;
mod time;

use plot::Curve;
use sheets::{small, tower, typical, Asked};
use std::fmt::Write as _;
use time::{both, Both};

/// Rows of hostile sheets shorter than this many seconds have a table in
/// microseconds.
const SHORT: f64 = 0.0002;

/// A unit of time: its name, and how many are in a second.
type Unit = (&'static str, f64);

const MILLI: Unit = ("ms", 1e3);
const MICRO: Unit = ("µs", 1e6);

const CALLS: [&str; 3] = ["check", "run", "normalise"];

/// One call on one sheet.
fn measure(call: &str, asked: &Asked) -> Both {
    let Asked { sheet, inputs, .. } = asked;
    let (mut codes, mut values, mut out) = (vec![0; 4096], vec![0; 4096], vec![0; 65_536]);
    let (mut other_codes, mut other_values) = (codes.clone(), values.clone());
    let mut other_out = out.clone();
    let mut ours = || match call {
        "check" => drop(okelizanshu::check(sheet)),
        "run" => drop(okelizanshu::run(sheet, inputs, &mut codes, &mut values)),
        _ => drop(okelizanshu::normalise(sheet, &mut out)),
    };
    let mut theirs = || match call {
        "check" => drop(second::check(sheet)),
        "run" => drop(second::run(sheet, inputs, &mut other_codes, &mut other_values)),
        _ => drop(second::normalise(sheet, &mut other_out)),
    };
    both(&mut ours, &mut theirs)
}

/// The tables, printed and kept.
struct Report {
    text: String,
}

impl Report {
    fn line(&mut self, line: &str) {
        println!("{line}");
        let _ = writeln!(self.text, "{line}");
    }

    fn head(&mut self, first: &str, (unit, _): Unit) {
        self.line("");
        self.line(&format!("| {first} | ours, {unit} | second, {unit} | ratio |"));
        self.line("|---|---:|---:|---:|");
    }

    fn row(&mut self, name: &str, t: Both, (_, many): Unit) {
        let (ours, theirs) = (t.ours * many, t.theirs * many);
        self.line(&format!("| {name} | {ours:.4} | {theirs:.4} | {:.2} |", t.ratio()));
    }

    fn calls(&mut self, named: &[Asked]) {
        self.head("call", MILLI);
        for asked in named {
            for call in CALLS {
                self.row(&format!("{call}: {}", asked.name), measure(call, asked), MILLI);
            }
        }
    }

    fn hostile(&mut self) {
        self.head("call: hostile sheet", MILLI);
        let mut short = Vec::new();
        for c in second::hostile() {
            let asked = Asked { name: c.name, sheet: c.sheet, inputs: c.inputs };
            for call in CALLS {
                let (name, t) = (format!("{call}: {}", asked.name), measure(call, &asked));
                if t.longer() < SHORT {
                    short.push((name, t));
                } else {
                    self.row(&name, t, MILLI);
                }
            }
        }
        self.head("call: hostile sheet, shorter", MICRO);
        for (name, t) in &short {
            self.row(name, *t, MICRO);
        }
        let mut ratios: Vec<f64> = short.iter().map(|(_, t)| t.ratio()).collect();
        ratios.sort_by(f64::total_cmp);
        let (count, faster) = (ratios.len(), ratios.iter().filter(|r| **r <= 1.0).count());
        let (middle, most) = (ratios[count / 2], ratios[count - 1]);
        self.line("");
        self.line(&format!(
            "{count} rows of hostile sheets below {} ms on both sides: ratio {middle:.2} in the \
             middle, {most:.2} at most, {faster} at most 1.",
            SHORT * 1000.0
        ));
    }

    /// The run over a family, by the number that grows.
    fn growth(&mut self, by: &'static str, family: Vec<(usize, Asked)>) -> Curve {
        self.head(&format!("run, by {by}"), MILLI);
        let mut points = Vec::new();
        for (size, asked) in family {
            assert!(second::check(&asked.sheet).is_ok(), "{}", asked.name);
            let t = measure("run", &asked);
            self.row(&asked.name, t, MILLI);
            points.push((size as f64, t));
        }
        Curve { by, points }
    }
}

fn main() {
    let mut report = Report { text: String::new() };
    let mut usual = typical(4096);
    usual.name = format!("typical, {}", usual.name);
    report.calls(&[small(), usual]);
    report.hostile();
    let elements = [128, 256, 512, 1024, 2048, 4096];
    let leaves = [16, 32, 64, 128, 256, 512, 1024];
    let cases = [1, 2, 4, 8, 16];
    let curves = [
        report.growth("elements", elements.map(|n| (n, typical(n as i64))).into()),
        report.growth("nodes", leaves.map(|n| (2 * n - 1, tower(n, 0, false))).into()),
        report.growth("cases in a last branch", cases.map(|n| (n, tower(256, n, false))).into()),
        report.growth("cases in a first branch", cases.map(|n| (n, tower(256, n, true))).into()),
    ];
    if let Some(folder) = std::env::args().nth(1) {
        let folder = std::path::Path::new(&folder);
        let tables = folder.join("performance-tables.md");
        std::fs::write(tables, report.text.trim_start()).expect("the tables are written");
        std::fs::write(folder.join("performance.svg"), plot::drawn(&curves)).expect("the plot");
    }
}
