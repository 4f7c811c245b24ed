//! Running the program under comparison, and what is wrong with its answer.

use std::fmt;
use std::io::{self, ErrorKind, Write};
use std::path::Path;
use std::process::{Command, Output, Stdio};
use std::thread;

/// Runs `program` on `input`. The input is written from a thread of its own, so that neither side waits
/// for the other however much both have to say.
pub fn run(program: &Path, input: &[u8]) -> io::Result<Output> {
    let mut child =
        Command::new(program).stdin(Stdio::piped()).stdout(Stdio::piped()).stderr(Stdio::piped()).spawn()?;
    let mut stdin = child.stdin.take().expect("standard input is a pipe");
    thread::scope(|scope| {
        // The pipe is closed when the thread drops it.
        let writer = scope.spawn(move || stdin.write_all(input));
        let output = child.wait_with_output();
        match writer.join().expect("the writer does not panic") {
            // A program may leave the rest of an over-long input unread.
            Err(error) if error.kind() != ErrorKind::BrokenPipe => Err(error),
            _ => output,
        }
    })
}

/// A case in which the program's answer is not the one wanted.
pub struct Difference {
    pub index: usize,
    pub input: Vec<u8>,
    pub wanted: Vec<u8>,
    pub output: Output,
}

impl Difference {
    /// The status must be 0, standard error empty, and standard output the same byte by byte.
    pub fn is_in(output: &Output, wanted: &[u8]) -> bool {
        output.status.code() != Some(0) || !output.stderr.is_empty() || output.stdout != wanted
    }
}

impl fmt::Display for Difference {
    fn fmt(&self, f: &mut fmt::Formatter<'_>) -> fmt::Result {
        let Output { status, stdout, stderr } = &self.output;
        writeln!(f, "case {}: {status}", self.index)?;
        // Long outputs are shown from a little before the first line that differs.
        let same = stdout.iter().zip(&self.wanted).take_while(|(a, b)| a == b).count();
        let from = self.wanted[..same].iter().rposition(|&byte| byte == b'\n').map_or(0, |at| at + 1);
        show(f, "input", &self.input, 0)?;
        show(f, "wanted", &self.wanted, if self.wanted.len() > SHOWN { from } else { 0 })?;
        show(f, "standard output", stdout, if stdout.len() > SHOWN { from } else { 0 })?;
        show(f, "standard error", stderr, 0)
    }
}

/// How many bytes of an input or output are shown.
const SHOWN: usize = 5_000;

/// Shows bytes from `from` on, escaped, one line for each of their own.
fn show(f: &mut fmt::Formatter<'_>, name: &str, bytes: &[u8], from: usize) -> fmt::Result {
    let until = bytes.len().min(from + SHOWN);
    write!(f, "  {name}, {} bytes", bytes.len())?;
    if until - from < bytes.len() {
        write!(f, ", of which {from} to {until}")?;
    }
    writeln!(f, ":")?;
    bytes[from..until]
        .split_inclusive(|&byte| byte == b'\n')
        .try_for_each(|line| writeln!(f, "    {}", line.escape_ascii()))
}
