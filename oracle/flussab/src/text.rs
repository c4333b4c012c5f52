//! Tokens of texts.
//!
//! A function over a reader and an offset answers the offset past its token, or the same offset
//! where the token does not stand there. Offsets count from the reader's place; nothing is consumed.

use std::{error, fmt, io};

use num_traits::{
    ops::overflowing::{OverflowingAdd, OverflowingMul, OverflowingSub},
    FromPrimitive, Zero,
};

use crate::DeferredReader;

/// A text, its place, and the number and start of the line that the place is on.
pub struct LineReader<'a> {
    /// The text and the place.
    pub reader: DeferredReader<'a>,
    line: usize,
    line_start: usize,
}

impl<'a> LineReader<'a> {
    /// Starts on the text's first line.
    #[inline]
    pub fn new(reader: DeferredReader<'a>) -> Self {
        let line_start = reader.position();
        Self {
            reader,
            line: 1,
            line_start,
        }
    }

    /// The text and the place.
    #[inline]
    pub fn reader(&mut self) -> &mut DeferredReader<'a> {
        &mut self.reader
    }

    /// Notes that a new line starts so far beyond the place.
    #[inline]
    pub fn line_at_offset(&mut self, offset: usize) {
        self.line += 1;
        self.line_start = self.reader.position() + offset;
    }

    /// The error with this message at the place.
    #[cold]
    pub fn give_up<E>(&mut self, message: impl Into<String>) -> E
    where
        E: From<SyntaxError> + From<io::Error>,
    {
        self.give_up_at(self.reader.position(), message)
    }

    /// The error with this message at a place on the current line. An error that cut the text off
    /// takes its place.
    #[cold]
    pub fn give_up_at<E>(&mut self, place: usize, message: impl Into<String>) -> E
    where
        E: From<SyntaxError> + From<io::Error>,
    {
        if let Some(error) = self.reader.take_io_error() {
            return error.into();
        }
        SyntaxError {
            message: message.into(),
            place,
            line: self.line,
            column: place - self.line_start + 1,
        }
        .into()
    }
}

/// Why a text was refused, and where.
#[derive(Clone, PartialEq, Eq, Debug)]
pub struct SyntaxError {
    /// Why.
    pub message: String,
    /// Where, as a byte offset from the text's start.
    pub place: usize,
    /// Where, as a line counted from 1.
    pub line: usize,
    /// Where, as a byte of that line counted from 1.
    pub column: usize,
}

impl fmt::Display for SyntaxError {
    fn fmt(&self, f: &mut fmt::Formatter<'_>) -> fmt::Result {
        write!(f, "{}:{}: {}", self.line, self.column, self.message)
    }
}

impl error::Error for SyntaxError {}

/// "A fixed word matches its exact bytes or nothing is consumed."
#[inline]
pub fn fixed(reader: &mut DeferredReader, offset: usize, word: &[u8]) -> usize {
    match reader.buf().get(offset..) {
        Some(rest) if rest.starts_with(word) => offset + word.len(),
        _ => offset,
    }
}

/// "Blanks are runs of tab and space."
#[inline]
pub fn tabs_or_spaces(reader: &mut DeferredReader, offset: usize) -> usize {
    let rest = reader.buf().get(offset..).unwrap_or(&[]);
    offset
        + rest
            .iter()
            .take_while(|byte| matches!(byte, b'\t' | b' '))
            .count()
}

/// "A line end is LF or CR LF. A lone CR is no line end."
#[inline]
pub fn newline(reader: &mut DeferredReader, offset: usize) -> usize {
    match reader.buf().get(offset..) {
        Some([b'\n', ..]) => offset + 1,
        Some([b'\r', b'\n', ..]) => offset + 2,
        _ => offset,
    }
}

/// "'To the next line' goes past the next LF, or to the end of the text."
#[inline]
pub fn next_newline(reader: &mut DeferredReader, offset: usize) -> usize {
    let rest = reader.buf().get(offset..).unwrap_or(&[]);
    let line = rest
        .iter()
        .position(|&byte| byte == b'\n')
        .map(|before| before + 1);
    offset + line.unwrap_or(rest.len())
}

/// "A digit run is the longest non-empty run of ASCII digits; leading zeros count for nothing in its
/// size." Beside the offset past the run stands its value, or `None` where it does not fit.
#[inline]
pub fn ascii_digits_multi<T>(reader: &mut DeferredReader, offset: usize) -> (Option<T>, usize)
where
    T: Zero + FromPrimitive + OverflowingAdd + OverflowingMul,
{
    digits(reader, offset, T::overflowing_add)
}

/// "A signed number is a digit run with at most one `-` before it. `+` is not taken. `-0` is zero."
/// A negative number is built downwards, so that the type's smallest value fits too.
#[inline]
pub fn signed_ascii_digits_multi<T>(
    reader: &mut DeferredReader,
    offset: usize,
) -> (Option<T>, usize)
where
    T: Zero + FromPrimitive + OverflowingAdd + OverflowingSub + OverflowingMul,
{
    if reader.request_byte_at_offset(offset) != Some(b'-') {
        return digits(reader, offset, T::overflowing_add);
    }
    match digits(reader, offset + 1, T::overflowing_sub) {
        // A `-` without digits is no number.
        (_, past) if past == offset + 1 => (None, offset),
        number => number,
    }
}

/// The digit run at the offset; `with` adds a digit to ten times the number so far, or takes it
/// away.
#[inline]
fn digits<T>(
    reader: &mut DeferredReader,
    offset: usize,
    with: impl Fn(&T, &T) -> (T, bool),
) -> (Option<T>, usize)
where
    T: Zero + FromPrimitive + OverflowingMul,
{
    let small = |number: u8| T::from_u8(number).expect("a small number fits every width");
    let ten = small(10);
    let mut value = Some(T::zero());
    let mut past = offset;
    while let Some(byte @ b'0'..=b'9') = reader.request_byte_at_offset(past) {
        value = value.and_then(|value| {
            let (tenfold, left) = value.overflowing_mul(&ten);
            let (value, left_then) = with(&tenfold, &small(byte - b'0'));
            (!left && !left_then).then_some(value)
        });
        past += 1;
    }
    (value.filter(|_| past != offset), past)
}
