//! Lines handed on to a `Write`.

use crate::lent::{self, Header};
use crate::{Error, Format, Refusal};
use std::io::{self, Write};

/// Hands each line that is written on, in one piece. A line that is refused is not begun.
///
/// A file is best wrapped in a [`BufWriter`](std::io::BufWriter), since each line is one call of it.
#[derive(Clone, Debug)]
pub struct Writer<W> {
    to: W,
    line: Vec<u8>,
}

/// The longest header: a word of the format, three numbers of 20 digits, blanks and the line end.
const HEADER: usize = 80;
/// The most bytes of a literal with its blank, and of all else in the line of a clause.
const LITERAL: usize = 12;
const REST: usize = 26;

impl<W: Write> Writer<W> {
    /// A writer that hands its lines on.
    pub fn new(to: W) -> Self {
        Writer {
            to,
            line: Vec::new(),
        }
    }

    /// What the lines go to.
    pub fn get_ref(&self) -> &W {
        &self.to
    }

    /// What the lines go to.
    pub fn get_mut(&mut self) -> &mut W {
        &mut self.to
    }

    /// What the lines went to.
    pub fn into_inner(self) -> W {
        self.to
    }

    /// Writes a header in a format that is chosen while the program runs.
    pub fn header(&mut self, format: Format, header: Header) -> Result<(), Error> {
        self.hand_on(HEADER, |line| {
            lent::write_header(format as u32, header, line)
        })
    }

    /// Writes a clause with its weight or group, which the plain format does not write.
    pub fn clause(&mut self, format: Format, extra: u64, lits: &[i32]) -> Result<(), Error> {
        self.hand_on(lits.len() * LITERAL + REST, |line| {
            lent::write_clause(format as u32, extra, lits, line)
        })
    }

    /// Writes a hard clause. The 2022 form alone has them.
    pub fn hard_clause(&mut self, format: Format, lits: &[i32]) -> Result<(), Error> {
        self.hand_on(lits.len() * LITERAL + REST, |line| {
            lent::write_hard_clause(format as u32, lits, line)
        })
    }

    fn hand_on(
        &mut self,
        longest: usize,
        write: impl FnOnce(&mut [u8]) -> Result<usize, Refusal>,
    ) -> Result<(), Error> {
        if self.line.len() < longest {
            self.line.resize(longest, 0);
        }
        let length = write(&mut self.line)?;
        Ok(self.to.write_all(&self.line[..length])?)
    }

    /// Hands on what [`get_ref`](Self::get_ref) still holds.
    pub fn flush(&mut self) -> io::Result<()> {
        self.to.flush()
    }
}
