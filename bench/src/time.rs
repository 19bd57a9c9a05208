//! Two calls timed side by side.

use std::time::Instant;

/// How long a batch takes at least, in seconds: short, so that both sides meet
/// the same moments of a machine that others share.
const BATCH: f64 = 0.001;
/// How many turns are taken at least, and for how many seconds.
const TURNS: usize = 7;
const SPAN: f64 = 0.4;

/// The seconds of the library's call and of the second program's.
#[derive(Clone, Copy)]
pub struct Both {
    pub ours: f64,
    pub theirs: f64,
}

impl Both {
    pub fn ratio(self) -> f64 {
        self.ours / self.theirs
    }

    pub fn longer(self) -> f64 {
        self.ours.max(self.theirs)
    }
}

fn batch(times: usize, work: &mut dyn FnMut()) -> f64 {
    let start = Instant::now();
    (0..times).for_each(|_| work());
    start.elapsed().as_secs_f64() / times as f64
}

fn times(work: &mut dyn FnMut()) -> usize {
    (BATCH / batch(1, work).max(1e-8)).ceil() as usize
}

/// The least of some batches of each, taken by turns.
pub fn both(ours: &mut dyn FnMut(), theirs: &mut dyn FnMut()) -> Both {
    let (m, n) = (times(ours), times(theirs));
    let mut least = Both { ours: f64::MAX, theirs: f64::MAX };
    let start = Instant::now();
    let mut turns = 0;
    while turns < TURNS || start.elapsed().as_secs_f64() < SPAN {
        least.ours = least.ours.min(batch(m, ours));
        least.theirs = least.theirs.min(batch(n, theirs));
        turns += 1;
    }
    least
}
