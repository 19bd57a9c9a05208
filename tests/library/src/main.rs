//! The library held against the second program: generated, damaged and hostile
//! sheets, all five calls in one process, in a thread with 1 MiB of stack.
//! Usage: library SEED COUNT. A sheet on which they differ is saved.

mod compare;
mod lent;
mod limits;

use compare::Tally;
use second::Case;
use std::path::Path;

const STACK: usize = 1 << 20;
const AT_ONCE: usize = 3000;

/// Compares a case; where anything differs, says so and saves the sheet.
fn compare(tally: &mut Tally, failed: &mut usize, seed: u64, c: &Case) {
    tally.case(c);
    if tally.wrong.is_empty() {
        return;
    }
    *failed += 1;
    let path = Path::new(env!("CARGO_MANIFEST_DIR")).join(format!("target/failed-{failed}.sheet"));
    std::fs::write(&path, &c.sheet).expect("the sheet is saved");
    println!("library: seed {seed}, {}, saved as {}", c.name, path.display());
    println!("library:   inputs {:?}, element {} {:?}", c.inputs, c.variable, c.point);
    for line in tally.wrong.drain(..) {
        println!("library:   {line}");
    }
}

fn compare_all(seed: u64, count: usize) {
    let (mut tally, mut failed, mut done) = (Tally::default(), 0, 0);
    while done < count {
        let here = AT_ONCE.min(count - done);
        let from = seed + (done / AT_ONCE) as u64;
        for c in second::cases(from, here) {
            compare(&mut tally, &mut failed, from, &c);
        }
        done += here;
    }
    let hostile = second::hostile();
    for c in &hostile {
        compare(&mut tally, &mut failed, seed, c);
    }
    let limits = limits::wrong(&hostile);
    for line in &limits {
        println!("library: at a limit of the normal form: {line}");
    }
    let sheets = count + hostile.len();
    println!(
        "library: seed {seed}, {sheets} sheets, {} answers compared, {failed} sheets differ",
        tally.compared
    );
    println!("library: accepted, and each refusal 1 to 15: {:?}", tally.met);
    let met = tally.met[1..].iter().all(|n| *n > 0);
    assert!(failed == 0 && limits.is_empty(), "an answer differs");
    assert!(met, "a refusal was not met");
}

fn main() {
    let words: Vec<String> = std::env::args().skip(1).collect();
    let [seed, count] = words.as_slice() else { panic!("usage: library SEED COUNT") };
    let (seed, count) = (seed.parse().expect("a seed"), count.parse().expect("a count"));
    let thread =
        std::thread::Builder::new().stack_size(STACK).spawn(move || compare_all(seed, count));
    thread.expect("a thread").join().expect("the comparison");
}
