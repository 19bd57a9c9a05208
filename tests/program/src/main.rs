//! The compiled program held against the second program: each input is fed to
//! the executable as a child, and its output, status and messages compared.
//! `program EXECUTABLE FOLDER SEED COUNT`: a failing input is left in FOLDER.

mod child;
mod inputs;

use inputs::{Named, LONGEST};
use std::path::{Path, PathBuf};
use std::process::ExitCode;
use std::time::Duration;

/// The second program's walks may go deep; the executable has the process's.
const STACK: usize = 1 << 28;
/// What a hostile sheet may take. The machine may have other work: a run past
/// the limit is tried again, and the least of three counts.
const LIMIT: Duration = Duration::from_secs(1);
const TRIES: usize = 3;

/// The ends of a line, by what they tell.
const OUTCOMES: [&str; 7] = ["outside", "integer", "true", "false", "DIVZERO", "OVERFLOW", "LOOP"];

/// How often each refusal and each outcome was printed.
#[derive(Default)]
struct Met {
    accepted: usize,
    refused: [usize; 13],
    outcomes: [usize; OUTCOMES.len()],
}

impl Met {
    /// Counts an output, which both programs agree on.
    fn count(&mut self, output: &[u8]) {
        let text = String::from_utf8_lossy(output);
        let mut lines = text.lines();
        let first: Vec<&str> = lines.next().unwrap_or("").split(' ').collect();
        match first.as_slice() {
            ["accepted", _] => self.accepted += 1,
            ["refused", number, "place", _] => {
                let number: usize = number.parse().expect("a number");
                self.refused[number] += 1;
            }
            _ => panic!("an output that begins {first:?}"),
        }
        for line in lines {
            let words: Vec<&str> = line.split(' ').collect();
            let kind = match words.as_slice() {
                [.., "-"] => "outside",
                [.., "=", word @ ("true" | "false")] => word,
                [.., "=", _] => "integer",
                [.., "!", word] => word,
                _ => panic!("a line {line}"),
            };
            let place = OUTCOMES.iter().position(|o| *o == kind).expect("an outcome");
            self.outcomes[place] += 1;
        }
    }

    fn all(&self) -> bool {
        self.refused[1..].iter().chain(&self.outcomes).all(|n| *n > 0)
    }
}

struct Comparison {
    executable: PathBuf,
    folder: PathBuf,
    met: Met,
    failing: usize,
}

impl Comparison {
    /// Feeds one input and compares; how long the executable took.
    fn compare(&mut self, name: &str, input: &[u8], piece: usize) -> Duration {
        let said = child::run(&self.executable, input, piece);
        let expected = second::program(input);
        let right = said.stdout == expected && said.stderr.is_empty() && said.status == Some(0);
        if right {
            self.met.count(&said.stdout);
        } else {
            let outputs = if said.stdout == expected { "agree" } else { "differ" };
            let errors = String::from_utf8_lossy(&said.stderr);
            let why = format!("status {:?}, outputs {outputs}, stderr {errors:?}", said.status);
            self.fail(name, input, &why);
        }
        said.took
    }

    fn fail(&mut self, name: &str, input: &[u8], why: &str) {
        self.failing += 1;
        let path = self.folder.join(format!("{name}.stdin"));
        std::fs::create_dir_all(&self.folder).expect("a folder for failing inputs");
        std::fs::write(&path, input).expect("a file for the failing input");
        println!("program: {name}: {why}; its input is {}", path.display());
    }

    /// All inputs; every sixteenth comes in small pieces.
    fn generated(&mut self, list: &[Named]) {
        for (index, (name, input)) in list.iter().enumerate() {
            let piece = if index % 16 == 0 { 97 } else { usize::MAX };
            self.compare(name, input, piece);
        }
    }

    /// The hostile sheets, each with its time, which must keep the limit.
    fn hostile(&mut self) {
        let mut list: Vec<Named> =
            second::hostile().into_iter().map(|c| (c.name, c.stdin)).collect();
        list.push(inputs::longest());
        for (name, input) in &list {
            let mut took = self.compare(name, input, usize::MAX);
            for _ in 1..TRIES {
                if took >= LIMIT {
                    took = took.min(child::run(&self.executable, input, usize::MAX).took);
                }
            }
            println!("program: {name:36} {:6.1} ms", took.as_secs_f64() * 1000.0);
            if took >= LIMIT {
                let (took, limit) = (took.as_secs_f64(), LIMIT.as_secs());
                self.fail(name, input, &format!("{took:.2} s, over {limit} s"));
            }
        }
        println!("program: {} hostile sheets", list.len());
    }
}

/// Whether every input passes, and each refusal and outcome was met.
fn compare(executable: &Path, folder: &Path, seed: u64, count: usize) -> bool {
    let (executable, folder) = (executable.to_path_buf(), folder.to_path_buf());
    let mut c = Comparison { executable, folder, met: Met::default(), failing: 0 };
    let (name, input) = inputs::longest();
    assert_eq!(second::program(&input).len(), LONGEST, "{name}");
    let list = inputs::inputs(seed, count);
    c.generated(&list);
    c.hostile();
    println!("program: seed {seed}, {} inputs, {} failing", list.len(), c.failing);
    println!("program: accepted {}, refusals 1 to 12: {:?}", c.met.accepted, &c.met.refused[1..]);
    let outcomes: Vec<String> =
        OUTCOMES.iter().zip(c.met.outcomes).map(|(name, n)| format!("{name} {n}")).collect();
    println!("program: elements {}", outcomes.join(", "));
    if !c.met.all() {
        println!("program: a refusal or an outcome was not met");
    }
    c.met.all() && c.failing == 0
}

fn main() -> ExitCode {
    let words: Vec<String> = std::env::args().skip(1).collect();
    let [executable, folder, seed, count] = words.as_slice() else {
        panic!("usage: program EXECUTABLE FOLDER SEED COUNT");
    };
    let (executable, folder) = (PathBuf::from(executable), PathBuf::from(folder));
    let (seed, count) = (seed.parse().expect("a seed"), count.parse().expect("a count"));
    let work = move || compare(&executable, &folder, seed, count);
    let thread = std::thread::Builder::new().stack_size(STACK).spawn(work);
    if thread.expect("a thread").join().expect("the comparison") {
        ExitCode::SUCCESS
    } else {
        ExitCode::FAILURE
    }
}
