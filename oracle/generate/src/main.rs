//! Writes framed cases to standard output. The same arguments always give the same bytes.

mod damage;
mod damaged;
mod edges;
mod exhaustive;
mod frames;
mod made;
mod random;
mod rng;

use std::{env, process, str::FromStr};

use frames::Frames;

const USAGE: &str = "\
generate exhaustive FORMAT MODE LENGTH      all texts of up to LENGTH letters
generate random SEED COUNT [FORMAT MODE]    COUNT made, damaged and mixed texts
generate damaged SEED COUNT [FORMAT MODE]   COUNT texts, each damaged one to four times
generate edges                              longest texts, large rooms, unknown numbers, a cut frame
Formats: 0 plain, 1 weighted, 2 grouped, 3 log. Modes: 0 strict, 1 lenient.";

fn main() {
    let arguments: Vec<String> = env::args().skip(1).collect();
    let arguments: Vec<&str> = arguments.iter().map(String::as_str).collect();
    let mut frames = Frames::to_stdout();
    let written = match arguments[..] {
        ["exhaustive", format, mode, length] => {
            exhaustive::write(number(format), number(mode), number(length), &mut frames)
        }
        [kind @ ("random" | "damaged"), seed, count, ref of @ ..] => {
            let write = match kind {
                "random" => random::write,
                _ => damaged::write,
            };
            write(
                number(seed),
                number(count),
                format_and_mode(of),
                &mut frames,
            )
        }
        ["edges"] => edges::write(&mut frames),
        _ => usage(),
    };
    if let Err(error) = written.and_then(|()| frames.finish()) {
        eprintln!("generate: {error}");
        process::exit(1);
    }
}

fn format_and_mode(arguments: &[&str]) -> Option<(u8, u8)> {
    match arguments {
        [] => None,
        [format, mode] => Some((number(format), number(mode))),
        _ => usage(),
    }
}

fn number<N: FromStr>(argument: &str) -> N {
    argument.parse().unwrap_or_else(|_| usage())
}

fn usage() -> ! {
    eprintln!("{USAGE}");
    process::exit(2)
}
