//! Reads a feed from standard input and prints its plan.

use std::io::{self, Read, Write};

use yumdrast_check::showplan::Plan;

fn main() -> io::Result<()> {
    let mut input = Vec::new();
    io::stdin().lock().read_to_end(&mut input)?;
    io::stdout().lock().write_all(Plan::of(&input).text().as_bytes())
}
