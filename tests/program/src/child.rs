//! The executable as a child: fed through a pipe, its output taken whole.

use std::io::Write;
use std::path::Path;
use std::process::{Command, Stdio};
use std::time::{Duration, Instant};

/// What a child said, and how long it took from its start to its end.
pub struct Said {
    pub stdout: Vec<u8>,
    pub stderr: Vec<u8>,
    pub status: Option<i32>,
    pub took: Duration,
}

/// Runs the executable on an input, written in pieces of at most so many
/// bytes. It may stop reading before the input ends.
pub fn run(executable: &Path, input: &[u8], piece: usize) -> Said {
    let start = Instant::now();
    let mut command = Command::new(executable);
    command.stdin(Stdio::piped()).stdout(Stdio::piped()).stderr(Stdio::piped());
    let mut child = command.spawn().expect("the executable starts");
    let mut stdin = child.stdin.take().expect("a pipe");
    let output = std::thread::scope(|scope| {
        scope.spawn(move || {
            for part in input.chunks(piece) {
                if stdin.write_all(part).is_err() {
                    break;
                }
            }
        });
        child.wait_with_output().expect("the executable ends")
    });
    let took = start.elapsed();
    let status = output.status.code();
    Said { stdout: output.stdout, stderr: output.stderr, status, took }
}
