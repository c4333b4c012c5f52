//! The line of a place, as it can be shown, and a caret under the place.

use latchtwig::Mode;
use std::ops::Range;

/// The most bytes of a line that are shown, and how many of them stand before the place, if the line is longer.
const LONGEST: usize = 80;
const BEFORE: usize = 40;

/// What stands for the part of a line that is not shown.
const CUT: &str = "...";

/// A line, and how many characters of it stand before the caret.
pub struct Excerpt {
    pub line: String,
    pub caret: usize,
}

/// The line of a place, by its column.
pub fn excerpt(text: &[u8], mode: Mode, place: usize, column: usize) -> Excerpt {
    let line = line_from(&text[place + 1 - column..], mode);
    let at = (column - 1).min(line.len());
    let shown = window(line.len(), at);
    let mut excerpt = String::new();
    if shown.start > 0 {
        excerpt.push_str(CUT);
    }
    excerpt.push_str(&escaped(&line[shown.start..at]));
    let caret = excerpt.len();
    excerpt.push_str(&escaped(&line[at..shown.end]));
    if shown.end < line.len() {
        excerpt.push_str(CUT);
    }
    Excerpt {
        line: excerpt,
        caret,
    }
}

/// The line at the front, without its end.
fn line_from(text: &[u8], mode: Mode) -> &[u8] {
    let ends = |&byte: &u8| byte == b'\n' || (byte == b'\r' && mode.cr_ends_lines());
    match text.iter().position(ends) {
        // The CR belongs to the line end.
        Some(end) => text[..end].strip_suffix(b"\r").unwrap_or(&text[..end]),
        None => text,
    }
}

/// Which bytes of a line are shown.
fn window(length: usize, at: usize) -> Range<usize> {
    let last = length.saturating_sub(LONGEST);
    let start = at.saturating_sub(BEFORE).min(last);
    start..length.min(start + LONGEST)
}

/// Bytes as ASCII that can be printed. All others are escaped.
pub fn escaped(bytes: &[u8]) -> String {
    let mut line = String::new();
    for &byte in bytes {
        match byte {
            b' '..=b'~' => line.push(char::from(byte)),
            _ => line.extend(byte.escape_ascii().map(char::from)),
        }
    }
    line
}
