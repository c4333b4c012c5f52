//! What files, formats, modes and verdicts are called.

use latchtwig::sat_solver_log::Verdict;
use latchtwig::{Format, Mode};
use std::ffi::OsStr;
use std::os::unix::ffi::OsStrExt;
use std::str;

const FORMATS: [Format; 5] = [
    Format::Plain,
    Format::Weighted,
    Format::Grouped,
    Format::Log,
    Format::Weighted2022,
];

pub fn format_named(name: &str) -> Option<Format> {
    FORMATS
        .into_iter()
        .find(|&format| name_of_format(format) == name)
}

pub fn name_of_format(format: Format) -> &'static str {
    match format {
        Format::Plain => "plain",
        Format::Weighted => "weighted",
        Format::Grouped => "grouped",
        Format::Log => "log",
        Format::Weighted2022 => "weighted2022",
    }
}

pub fn name_of_mode(mode: Mode) -> &'static str {
    match mode {
        Mode::Strict => "strict",
        Mode::Lenient => "lenient",
        Mode::StrictCr => "strict-cr",
        Mode::LenientCr => "lenient-cr",
    }
}

pub fn name_of_verdict(verdict: Verdict) -> &'static str {
    match verdict {
        Verdict::Satisfiable => "yes",
        Verdict::Unsatisfiable => "no",
        Verdict::Unknown => "unknown",
        Verdict::Missing => "none",
    }
}

/// What a file is called in a line for people.
pub fn shown(file: &OsStr) -> String {
    if file == "-" {
        return "standard input".to_owned();
    }
    escaped(file)
}

/// A name on one line, whatever its bytes are.
pub fn escaped(name: &OsStr) -> String {
    let mut line = String::new();
    for character in lossy(name).chars() {
        if is_odd(character) {
            line.extend(character.escape_default());
        } else {
            line.push(character);
        }
    }
    line
}

/// Whether a character moves what is shown elsewhere: control characters, ends of lines and paragraphs, and changes of direction.
fn is_odd(character: char) -> bool {
    character.is_control()
        || matches!(
            character,
            '\u{200e}' | '\u{200f}' | '\u{2028}'..='\u{202e}' | '\u{2066}'..='\u{2069}'
        )
}

/// A name as text, with each byte that is not UTF-8 as `\xff`.
pub fn lossy(name: &OsStr) -> String {
    let mut text = String::new();
    let mut rest = name.as_bytes();
    loop {
        let (valid, odd) = match str::from_utf8(rest) {
            Ok(valid) => (valid, None),
            Err(error) => {
                let (valid, odd) = rest.split_at(error.valid_up_to());
                (str::from_utf8(valid).unwrap_or_default(), odd.split_first())
            }
        };
        text.push_str(valid);
        match odd {
            Some((byte, after)) => {
                text.push_str(&format!("\\x{byte:02x}"));
                rest = after;
            }
            None => return text,
        }
    }
}
