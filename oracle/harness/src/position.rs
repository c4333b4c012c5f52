//! The line and column of a place, by document 02 and as the crate counts them.

/// What is read. It says which lines the crate passes over whole.
#[derive(Copy, Clone)]
pub enum Kind {
    Clauses,
    StrictLog,
    LenientLog,
}

/// A line and a byte of it, both counted from 1.
#[derive(Copy, Clone, PartialEq, Eq, Debug)]
pub struct Position {
    pub line: usize,
    pub column: usize,
}

impl Position {
    /// The position of a place: the line is one plus the LF bytes before it, the column one plus the
    /// bytes since the last of them.
    pub fn of(place: usize, text: &[u8]) -> Position {
        let (above, line) = split(&text[..place]);
        Position {
            line: above.iter().filter(|&&byte| byte == b'\n').count() + 1,
            column: line.len() + 1,
        }
    }

    /// The position that the crate reports of a place at which it refuses a text.
    ///
    /// Document 01 has one exception: a comment that the text's end cuts off counts as a line. So
    /// does, in a lenient log, any line that is passed over. The place is then the first of a line
    /// that has no bytes.
    pub fn reported(place: usize, text: &[u8], kind: Kind) -> Position {
        let position = Position::of(place, text);
        let (above, line) = split(&text[..place]);
        if place == text.len() && kind.passes_over(line, above) {
            return Position {
                line: position.line + 1,
                column: 1,
            };
        }
        position
    }
}

/// The lines up to the last LF, and what stands after it.
fn split(before: &[u8]) -> (&[u8], &[u8]) {
    let last = before.iter().rposition(|&byte| byte == b'\n');
    before.split_at(last.map_or(0, |lf| lf + 1))
}

impl Kind {
    /// Whether the crate passes over the text's last line, which no LF ends, if it stops at the text's
    /// end. The lines above it are given.
    fn passes_over(self, line: &[u8], above: &[u8]) -> bool {
        match self {
            // Blanks before a comment go with the line end, or are skipped.
            Kind::Clauses => line.iter().find(|&byte| !b"\t ".contains(byte)) == Some(&b'c'),
            Kind::StrictLog => line.starts_with(b"c "),
            // It stops at a log's end because no 0 came, so that every `v ` line was read, or within
            // the solution line.
            Kind::LenientLog if line.starts_with(b"v ") => false,
            Kind::LenientLog if line.starts_with(b"s ") => has_solution(above),
            Kind::LenientLog => !line.is_empty(),
        }
    }
}

/// Whether one of the lines is a solution line.
fn has_solution(lines: &[u8]) -> bool {
    let mut lines = lines.split(|&byte| byte == b'\n');
    lines.any(|line| line.starts_with(b"s "))
}

#[cfg(test)]
mod tests {
    use super::*;

    /// The position that is reported of a text's end.
    fn end(text: &str, kind: Kind) -> (usize, usize) {
        let position = Position::reported(text.len(), text.as_bytes(), kind);
        (position.line, position.column)
    }

    #[test]
    fn lines_end_at_lf() {
        let text = b"1 2\r\n\n\r3 x";
        let positions = [
            (0, (1, 1)),
            (4, (1, 5)),
            (5, (2, 1)),
            (6, (3, 1)),
            (9, (3, 4)),
        ];
        for (place, (line, column)) in positions {
            let position = Position { line, column };
            assert_eq!(Position::of(place, text), position, "{place}");
            let reported = Position::reported(place, text, Kind::Clauses);
            assert_eq!(reported, position, "{place}");
        }
    }

    #[test]
    fn a_comment_cut_off_is_a_line() {
        assert_eq!(end("1\n c", Kind::Clauses), (3, 1));
        assert_eq!(end("1\n c\n", Kind::Clauses), (3, 1));
        assert_eq!(end("1\n\rc", Kind::Clauses), (2, 3));
        assert_eq!(end("1 2", Kind::Clauses), (1, 4));
        assert_eq!(end("v 1\nc x", Kind::StrictLog), (3, 1));
        assert_eq!(end("v 1\nv 2", Kind::StrictLog), (2, 4));
    }

    #[test]
    fn so_is_a_lenient_log_line_passed_over() {
        assert_eq!(end("v 1\nx", Kind::LenientLog), (3, 1));
        assert_eq!(end("v 1\nx\n", Kind::LenientLog), (3, 1));
        assert_eq!(end("v 1\nv 2", Kind::LenientLog), (2, 4));
        assert_eq!(end("v 1\ns UNKNOWN", Kind::LenientLog), (2, 10));
        assert_eq!(end("s UNKNOWN\nv 1\ns UNKNOWN", Kind::LenientLog), (4, 1));
    }
}
