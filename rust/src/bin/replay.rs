//! Reads a script from standard input and prints what the stack answers.

use std::io::{self, Read, Write};

use yumdrast_check::replay::Replay;

fn main() -> io::Result<()> {
    let mut input = Vec::new();
    io::stdin().lock().read_to_end(&mut input)?;
    io::stdout().lock().write_all(Replay::of(&input).to_string().as_bytes())
}
