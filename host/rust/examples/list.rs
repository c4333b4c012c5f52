//! Lists a plain text on standard input: its header, if it has one, and its clauses.

use latchtwig::cnf::Parser;
use latchtwig::{Config, Error};
use std::io;
use std::process::ExitCode;

fn list() -> Result<(), Error> {
    let mut parser = Parser::from_read(io::stdin(), Config::default())?;
    if let Some(header) = parser.header() {
        println!("header {} {}", header.var_count, header.clause_count);
    }
    while let Some(lits) = parser.next_clause()? {
        println!("clause {lits:?}");
    }
    Ok(())
}

fn main() -> ExitCode {
    match list() {
        Ok(()) => ExitCode::SUCCESS,
        Err(error) => {
            eprintln!("{error}");
            ExitCode::FAILURE
        }
    }
}
