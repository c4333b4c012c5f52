//! A refusal in document 01's terms, and how the crate's errors become one.

use std::io::{self, Write};

use flussab_cnf::InnerParseError;

use crate::{
    lit,
    position::{Kind, Position},
};

/// The number, the place as a byte offset, and k; and where the crate says that it stopped, if that
/// is elsewhere.
pub struct Refusal {
    number: u8,
    place: usize,
    k: usize,
    elsewhere: Option<Position>,
}

/// The number for an unknown format or mode. No text is at fault, so that its line and column are 0.
const UNKNOWN: u8 = 26;
const NOWHERE: Position = Position { line: 0, column: 0 };

/// How the crate's messages begin, and the number that document 01's table gives for it. An
/// expectation is given whole, up to what was found, so that no text can be mistaken for it.
const BEGINNINGS: [(&str, u8); 33] = [
    ("expected \"cnf\", found ", 1),
    ("expected \"wcnf\", found ", 1),
    ("expected \"gcnf\", found ", 1),
    ("expected variable count, found ", 2),
    ("expected clause count, found ", 3),
    ("expected top weight, found ", 4),
    ("expected group count, found ", 4),
    ("expected end of line, found ", 5),
    ("expected literal or terminating zero, found ", 6),
    ("expected literal, terminating zero or comment, found ", 7),
    ("expected clause literals, found ", 8),
    ("expected header, clause, comment or end of file, found ", 9),
    ("expected clause, comment or end of file, found ", 9),
    ("expected clause or comment, found ", 9),
    ("expected header, clause group, comment or end of file, found ", 9),
    ("expected clause group, comment or end of file, found ", 9),
    ("expected clause group or comment, found ", 9),
    ("expected comment or end of file, found ", 9),
    ("variable count ", 10),
    ("clause count ", 11),
    ("top weight ", 12),
    ("group count ", 12),
    ("clause weight ", 13),
    // After "group count", which begins with it too.
    ("group ", 14),
    ("literal ", 15),
    ("expected SATISFIABLE, UNSATISFIABLE or UNKNOWN, found ", 17),
    // The lines that a log may go on with: a comment always, the others as long as they may come.
    ("expected comment line (\"c \"), value line (\"v \"), solution line (\"s \") or end of file, found ", 18),
    ("expected comment line (\"c \"), value line (\"v \") or solution line (\"s \"), found ", 18),
    ("expected comment line (\"c \"), value line (\"v \") or end of file, found ", 18),
    ("expected comment line (\"c \") or value line (\"v \"), found ", 18),
    ("expected comment line (\"c \"), solution line (\"s \") or end of file, found ", 18),
    ("expected comment line (\"c \") or end of file, found ", 18),
    ("expected comment or value line, found ", 19),
];

impl Refusal {
    /// The refusal that document 01 gives to a text at which the crate stopped with this error, in a
    /// clause or log that there is so much room for.
    ///
    /// The number is told by how the message begins, and the place is the error's own, to which its
    /// line and column are held. Literals are counted as `lit` tells.
    pub fn of(error: InnerParseError, room: usize, text: &[u8], kind: Kind) -> Refusal {
        let error = match error {
            InnerParseError::SyntaxError(error) => error,
            InnerParseError::IoError(error) => panic!("a text in memory gave {error}"),
        };
        let reported = Position {
            line: error.line,
            column: error.column,
        };
        let agree = reported == Position::reported(error.place, text, kind);
        let elsewhere = (!agree).then_some(reported);

        // The literal without room stood in the text before whatever the crate stopped at.
        if let Some(refusal) = Refusal::of_room(room) {
            return Refusal {
                elsewhere,
                ..refusal
            };
        }
        let (beginning, number) = BEGINNINGS
            .into_iter()
            .find(|(beginning, _)| error.message.starts_with(beginning))
            .unwrap_or_else(|| panic!("no number is known for the message: {}", error.message));

        // The crate's word is part of its message where it expected something. It is found here
        // from text and place alone, for every number alike, so the two are held together.
        let rest = &error.message[beginning.len()..];
        if beginning.starts_with("expected ") {
            assert_eq!(rest, found(text, error.place), "the word found in {text:?}");
        } else {
            assert!(rest.contains(" exceeds the "), "{}", error.message);
        }

        Refusal {
            number,
            place: error.place,
            k: lit::count(),
            elsewhere,
        }
    }

    /// Refusal 16, if more literals than there is room for were made since the beginning of the
    /// clause or log. It stands at the first literal without room, and k is the room.
    pub fn of_room(room: usize) -> Option<Refusal> {
        lit::first_without(room).map(|place| Refusal {
            number: 16,
            place,
            k: room,
            elsewhere: None,
        })
    }

    /// Refusal 26, for an unknown format or mode.
    pub fn unknown() -> Refusal {
        Refusal {
            number: UNKNOWN,
            place: 0,
            k: 0,
            elsewhere: None,
        }
    }

    /// Writes the transcript's line. Line and column, and the word it stopped at, are those of the text; where none is at
    /// fault the text to give is empty. Where the crate stopped elsewhere a line says so, which no
    /// program answers: the case differs.
    pub fn write(&self, text: &[u8], transcript: &mut Vec<u8>) -> io::Result<()> {
        let Position { line, column } = match self.number {
            UNKNOWN => NOWHERE,
            _ => Position::of(self.place, text),
        };
        write!(
            transcript,
            "refused {} {} {} {line} {column}",
            self.number, self.place, self.k
        )?;
        let word = word_at(text, self.place);
        if !word.is_empty() {
            write!(transcript, " ")?;
        }
        for byte in word {
            write!(transcript, "{byte:02x}")?;
        }
        writeln!(transcript)?;
        if let Some(Position { line, column }) = self.elsewhere {
            writeln!(transcript, "elsewhere {line} {column}")?;
        }
        Ok(())
    }
}

/// The word at a place, by document 01: "empty at a line end or the end of text, else the first byte
/// and all up to the next tab, space, CR or LF, 60 bytes at most". The first byte is taken whatever
/// it is.
fn word_at(text: &[u8], place: usize) -> &[u8] {
    let rest = text.get(place..).unwrap_or(&[]);
    if matches!(rest, [] | [b'\n', ..] | [b'\r', b'\n', ..]) {
        return &[];
    }
    let ends = |byte: &u8| matches!(byte, b'\t' | b' ' | b'\r' | b'\n');
    let length = 1 + rest[1..].iter().position(ends).unwrap_or(rest.len() - 1);
    &rest[..length.min(60)]
}

/// What the crate says it found, if it stopped at this place.
fn found(text: &[u8], place: usize) -> String {
    match word_at(text, place) {
        [] if place < text.len() => "end of line".to_string(),
        [] => "end of file".to_string(),
        word => format!("{:?}", String::from_utf8_lossy(word)),
    }
}

#[cfg(test)]
mod tests {
    use flussab::text::SyntaxError;

    use super::*;

    /// What is written of an error in `1\n x` at the `x`, with this line and column.
    fn written(line: usize, column: usize, room: usize) -> String {
        let text = b"1\n x";
        let error = SyntaxError {
            message: "expected literal, terminating zero or comment, found \"x\"".to_string(),
            place: 3,
            line,
            column,
        };
        let error = InnerParseError::SyntaxError(error);
        let mut transcript = vec![];
        Refusal::of(error, room, text, Kind::Clauses)
            .write(text, &mut transcript)
            .unwrap();
        String::from_utf8(transcript).unwrap()
    }

    #[test]
    fn a_wrong_line_or_column_is_told() {
        assert_eq!(written(2, 2, 8), "refused 7 3 0 2 2 78\n");
        assert_eq!(written(1, 2, 8), "refused 7 3 0 2 2 78\nelsewhere 1 2\n");
        assert_eq!(written(2, 1, 8), "refused 7 3 0 2 2 78\nelsewhere 2 1\n");
    }
}
