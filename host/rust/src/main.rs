//! The command `latchtwig`: checks and lists formula texts and solvers' logs. `latchtwig --help` tells how.

mod command;

use std::process::ExitCode;

fn main() -> ExitCode {
    command::run(std::env::args_os().skip(1).collect())
}
