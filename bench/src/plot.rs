//! Curves as an SVG: both scales logarithmic, a panel for each curve, the
//! library's line and the second program's.

use crate::time::Both;
use std::fmt::Write as _;

/// Times by a number that grows.
pub struct Curve {
    pub by: &'static str,
    pub points: Vec<(f64, Both)>,
}

const PANEL: f64 = 250.0;
const EDGE: f64 = 46.0;
const HIGH: f64 = 230.0;
const OURS: &str = "#0b6e4f";
const THEIRS: &str = "#b3541e";

/// A logarithmic scale from one stretch of numbers to one of places.
struct Scale {
    low: f64,
    high: f64,
    from: f64,
    to: f64,
}

impl Scale {
    fn at(&self, x: f64) -> f64 {
        self.from + (x / self.low).ln() / (self.high / self.low).ln() * (self.to - self.from)
    }
}

fn line(points: &[(f64, f64)], colour: &str, svg: &mut String) {
    let places: Vec<String> = points.iter().map(|(x, y)| format!("{x:.1},{y:.1}")).collect();
    let _ = writeln!(
        svg,
        "<polyline points=\"{}\" fill=\"none\" stroke=\"{colour}\" stroke-width=\"2\"/>",
        places.join(" ")
    );
    for (x, y) in points {
        let _ = writeln!(svg, "<circle cx=\"{x:.1}\" cy=\"{y:.1}\" r=\"3\" fill=\"{colour}\"/>");
    }
}

fn text(x: f64, y: f64, anchor: &str, colour: &str, words: &str, svg: &mut String) {
    let _ = writeln!(
        svg,
        "<text x=\"{x:.1}\" y=\"{y:.1}\" text-anchor=\"{anchor}\" fill=\"{colour}\">{words}</text>"
    );
}

/// One panel with its axes, from `left` on.
fn panel(curve: &Curve, left: f64, ms: (f64, f64), svg: &mut String) {
    let (first, last) = (curve.points[0].0, curve.points[curve.points.len() - 1].0);
    let across = Scale { low: first, high: last, from: left + EDGE, to: left + PANEL - 12.0 };
    let up = Scale { low: ms.0, high: ms.1, from: HIGH - EDGE, to: 40.0 };
    let mut mark = ms.0;
    while mark <= ms.1 * 1.01 {
        let y = up.at(mark);
        let (x1, x2) = (across.from - 8.0, across.to + 8.0);
        let _ = writeln!(
            svg,
            "<line x1=\"{x1:.1}\" y1=\"{y:.1}\" x2=\"{x2:.1}\" y2=\"{y:.1}\" stroke=\"#ddd\"/>"
        );
        text(across.from - 12.0, y + 4.0, "end", "#555", &format!("{mark}"), svg);
        mark *= 10.0;
    }
    for (x, _) in &curve.points {
        text(across.at(*x), HIGH - EDGE + 18.0, "middle", "#555", &format!("{x}"), svg);
    }
    text((across.from + across.to) / 2.0, HIGH - EDGE + 36.0, "middle", "#222", curve.by, svg);
    let placed = |pick: fn(&Both) -> f64| -> Vec<(f64, f64)> {
        curve.points.iter().map(|(x, t)| (across.at(*x), up.at(pick(t) * 1000.0))).collect()
    };
    line(&placed(|t| t.theirs), THEIRS, svg);
    line(&placed(|t| t.ours), OURS, svg);
}

/// All panels over one scale of milliseconds, whole powers of ten.
pub fn drawn(curves: &[Curve]) -> String {
    let all = || curves.iter().flat_map(|c| c.points.iter()).flat_map(|(_, t)| [t.ours, t.theirs]);
    let least = all().fold(f64::MAX, f64::min) * 1000.0;
    let most = all().fold(0.0, f64::max) * 1000.0;
    let ms = (10f64.powf(least.log10().floor()), 10f64.powf(most.log10().ceil()));
    let wide = PANEL * curves.len() as f64 + 12.0;
    let mut svg = format!(
        "<svg xmlns=\"http://www.w3.org/2000/svg\" width=\"{wide}\" height=\"{HIGH}\" \
         font-family=\"sans-serif\" font-size=\"11\">\n<rect width=\"100%\" height=\"100%\" fill=\"white\"/>\n"
    );
    text(EDGE, 20.0, "start", "#222", "ms of one run by", &mut svg);
    text(EDGE + 104.0, 20.0, "start", OURS, "the library", &mut svg);
    text(EDGE + 176.0, 20.0, "start", THEIRS, "the second program", &mut svg);
    for (number, curve) in curves.iter().enumerate() {
        panel(curve, PANEL * number as f64, ms, &mut svg);
    }
    svg + "</svg>\n"
}
