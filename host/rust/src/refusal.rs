//! Why something was refused, and where.

use core::fmt;

/// The number of the refusal for a literal that no longer fits.
pub(crate) const BUFFER_FULL: u32 = 16;

/// Why a text was refused, and where. A refused line has a number too.
#[derive(Clone, Copy, Debug, PartialEq, Eq, Hash)]
pub struct Refusal {
    /// The number of the refusal: 1 to 19, 32 or 33 for a text, 10, 27, 28 or 32 for a line that is not written, or 26 where a number names no format or no mode.
    pub number: u32,
    /// The offset of the word at fault, or of the first byte where something else was expected. That may be the text's length. Of a literal that cannot be written it is the
    /// literal's index.
    pub place: usize,
    /// The line of the place, from 1: one more than the line ends before it, which are LF bytes, and, where a CR alone ends a line too, each CR without LF.
    /// 0 where no text is at fault.
    pub line: usize,
    /// The column of the place, from 1: one more than the bytes between the last of these, or the text's start, and the place. 0 where the line is.
    pub column: usize,
}

impl Refusal {
    /// The refusal in the first four words of an answer. They fit, as the library is for machines of 64 bits.
    pub(crate) fn of(words: &[u64]) -> Self {
        Refusal {
            number: words[0] as u32,
            place: words[1] as usize,
            line: words[2] as usize,
            column: words[3] as usize,
        }
    }

    /// What is expected at the place, in words.
    ///
    /// ```
    /// use latchtwig::{check, Format, Mode};
    ///
    /// let refusal = check(Format::Weighted, Mode::Strict, b"5\n").unwrap_err();
    /// assert_eq!(refusal.words(), "literals are expected after a weight, a group or `h`");
    /// ```
    pub fn words(&self) -> &'static str {
        // The rows of host/refusals.txt that are marked host or writer.
        match self.number {
            1 => "the word of the format is expected after `p`",
            2 => "the count of variables is expected",
            3 => "the count of clauses is expected",
            4 => "the top weight or the count of groups is expected",
            5 => "a line end is expected",
            6 => "a literal or 0 is expected",
            7 => "a literal or 0 is expected after the line end",
            8 => "literals are expected after a weight, a group or `h`",
            9 => "a clause, a comment, a line end or a permitted end of the text is expected",
            10 => "a count of variables up to 2147483647 is expected",
            11 => "a count of clauses up to 18446744073709551615 is expected",
            12 => "a top weight or count of groups up to 18446744073709551615 is expected",
            13 => "a weight up to 18446744073709551615 is expected",
            14 => "a group within its limit is expected, the header's count of groups or 18446744073709551615",
            15 => "a literal within its limit is expected, the header's count of variables or 2147483647",
            16 => "no more literals are expected in a clause or a log than the buffer has room for, 1024 where none is lent",
            17 => "SATISFIABLE, UNSATISFIABLE or UNKNOWN is expected",
            18 => "a log line of a permitted kind is expected",
            19 => "the 0 that closes the assignment is expected",
            26 => "a known format and a known mode are expected",
            27 => "a literal other than 0 and -2147483648 is expected",
            28 => "an output as long as the line is expected",
            32 => "a weight above 0 is expected",
            33 => "no header is expected, as the 2022 form has none",
            _ => "no refusal has this number",
        }
    }
}

impl fmt::Display for Refusal {
    fn fmt(&self, f: &mut fmt::Formatter<'_>) -> fmt::Result {
        let (number, words) = (self.number, self.words());
        if self.line == 0 {
            // No text is at fault.
            return write!(f, "refusal {number}: {words}");
        }
        let (place, line, column) = (self.place, self.line, self.column);
        write!(
            f,
            "refusal {number} at line {line}, column {column} (byte {place}): {words}"
        )
    }
}

#[cfg(feature = "std")]
impl std::error::Error for Refusal {}

/// What stops reading from a `Read` or writing to a `Write`: a refusal, or what the system says.
#[cfg(feature = "std")]
#[derive(Debug)]
pub enum Error {
    /// The text, or the line, is refused.
    Refused(Refusal),
    /// Bytes could not be had, or not be handed on.
    Io(std::io::Error),
}

#[cfg(feature = "std")]
impl fmt::Display for Error {
    fn fmt(&self, f: &mut fmt::Formatter<'_>) -> fmt::Result {
        match self {
            Error::Refused(refusal) => refusal.fmt(f),
            Error::Io(error) => error.fmt(f),
        }
    }
}

#[cfg(feature = "std")]
impl std::error::Error for Error {
    fn source(&self) -> Option<&(dyn std::error::Error + 'static)> {
        match self {
            Error::Refused(_) => None,
            Error::Io(error) => error.source(),
        }
    }
}

#[cfg(feature = "std")]
impl From<Refusal> for Error {
    fn from(refusal: Refusal) -> Self {
        Error::Refused(refusal)
    }
}

#[cfg(feature = "std")]
impl From<std::io::Error> for Error {
    fn from(error: std::io::Error) -> Self {
        Error::Io(error)
    }
}
