//! Texts that are accepted, of which a header with all its counts is asked.

use super::judge::{Accepted, Told};
use latchtwig::formula::Header;
use latchtwig::lent::{self, Opening};
use latchtwig::{Format, Mode};

/// What is told of an accepted text without a header, or with one that leaves a count open.
pub fn missing(format: Format, mode: Mode, text: &[u8], accepted: &Accepted) -> Option<Told> {
    match accepted {
        Accepted::Clauses {
            header: Some(header),
            ..
        } if !has_zero(format, header) => None,
        Accepted::Clauses {
            header: Some(_), ..
        } => Some(told(
            "a header with no count of 0 is expected",
            word_of_header(format, mode, text),
        )),
        _ => Some(told("a header is expected", START)),
    }
}

fn has_zero(format: Format, header: &Header) -> bool {
    header.variables == 0 || header.clauses == 0 || (format == Format::Grouped && header.third == 0)
}

/// Place, line and column.
type Spot = (usize, usize, usize);

const START: Spot = (0, 1, 1);

/// Where the word after `p` is. In another format the reader refuses the text there.
fn word_of_header(format: Format, mode: Mode, text: &[u8]) -> Spot {
    let another = match format {
        Format::Plain => Format::Grouped,
        _ => Format::Plain,
    };
    match lent::open(another as u32, mode as u32, text).0 {
        Opening::Refused(refusal) => (refusal.place, refusal.line, refusal.column),
        _ => START,
    }
}

fn told(message: &str, (place, line, column): Spot) -> Told {
    Told {
        number: None,
        place,
        line,
        column,
        message: message.to_owned(),
        expected: message.to_owned(),
        found: None,
    }
}
