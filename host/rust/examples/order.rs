//! Checks an order: a strict plain text on standard input.

use latchtwig::{check, Format, Mode};
use std::io::{self, Read};
use std::process::ExitCode;

fn main() -> ExitCode {
    let mut order = Vec::new();
    if let Err(error) = io::stdin().read_to_end(&mut order) {
        eprintln!("standard input: {error}");
        return ExitCode::from(2);
    }
    match check(Format::Plain, Mode::Strict, &order) {
        Ok(()) => {
            println!("accepted");
            ExitCode::SUCCESS
        }
        Err(refusal) => {
            println!("{refusal}");
            ExitCode::FAILURE
        }
    }
}
