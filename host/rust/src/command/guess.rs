//! The format of a text, found out where it is not named.

use latchtwig::lent::{self, Opening};
use latchtwig::{Format, Mode};
use std::ffi::OsStr;
use std::path::Path;

/// The number of the refusal for another word after `p`.
const ANOTHER_WORD: u32 = 1;

/// The format by the word of the header, or, where there is none, by the file's ending.
pub fn format(file: &OsStr, text: &[u8], mode: Mode) -> Format {
    match lent::open(Format::Plain as u32, mode as u32, text).0 {
        Opening::NoHeader => by_ending(file),
        Opening::Refused(refusal) if refusal.number == ANOTHER_WORD => {
            by_word(lent::stopped_at(mode as u32, text, refusal.place))
        }
        _ => Format::Plain,
    }
}

fn by_word(word: &[u8]) -> Format {
    match word {
        b"wcnf" => Format::Weighted,
        b"gcnf" => Format::Grouped,
        _ => Format::Plain,
    }
}

/// A weighted text without a header is of the 2022 form.
fn by_ending(file: &OsStr) -> Format {
    let ending = Path::new(file).extension().unwrap_or_default();
    match ending.to_ascii_lowercase().to_str() {
        Some("wcnf") => Format::Weighted2022,
        Some("gcnf") => Format::Grouped,
        Some("log" | "out") => Format::Log,
        _ => Format::Plain,
    }
}
