//! Reads framed texts from standard input, as `crates/reader_cases` takes them, and prints what that program prints of them. Each is read by the calls over lent memory and by the parsers, which must
//! agree. `host/tests/random_steps.py` runs it.

#[path = "../tests/frames/mod.rs"]
mod frames;
#[path = "../tests/transcript/mod.rs"]
mod transcript;

use std::io::{self, Read, Write};

fn main() -> io::Result<()> {
    let mut given = Vec::new();
    io::stdin().read_to_end(&mut given)?;
    let said = transcript::transcript(&given, |case| transcript::by_both(case).lines);
    io::stdout().write_all(said.as_bytes())
}
