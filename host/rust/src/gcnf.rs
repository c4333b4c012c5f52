//! Parsing and writing of the grouped format, GCNF.
//!
//! ```
//! use latchtwig::gcnf::Parser;
//! use latchtwig::Config;
//!
//! let mut parser = Parser::new(b"p gcnf 2 1 3\n{3} 1 -2 0\n", Config::default())?;
//! assert_eq!(parser.header().unwrap().group_count, 3);
//! assert_eq!(parser.next_clause()?, Some((3, &[1, -2][..])));
//! assert_eq!(parser.next_clause()?, None);
//! # Ok::<(), latchtwig::Refusal>(())
//! ```

use crate::formula::{item, parser_of, Label};
use crate::Refusal;
use alloc::vec::Vec;

/// What the header says. A count of 0 leaves it open.
#[derive(Clone, Copy, Debug, Default, PartialEq, Eq, Hash)]
pub struct Header {
    /// How many variables there are. Above 2,147,483,647 it is not written.
    pub var_count: u64,
    /// How many clauses there are.
    pub clause_count: u64,
    /// How many groups there are. Group 0 is not counted, and is always allowed.
    pub group_count: u64,
}

parser_of!(Grouped);

impl Parser<'_> {
    /// The header, if there is one.
    pub fn header(&self) -> Option<Header> {
        self.parser.header().map(|header| Header {
            var_count: header.variables,
            clause_count: header.clauses,
            group_count: header.third,
        })
    }

    /// Reads the next clause, its group and its literals. `Ok(None)` is the end of the text, and is answered again; so is a refusal, which is final.
    pub fn next_clause(&mut self) -> Result<Option<(u64, &[i32])>, Refusal> {
        Ok(self
            .parser
            .next_clause()?
            .map(|clause| (group(clause.label), clause.lits)))
    }
}

/// The group of a clause. Each clause of this format has one.
fn group(label: Label) -> u64 {
    match label {
        Label::Group(group) => group,
        _ => 0,
    }
}

impl Iterator for Parser<'_> {
    type Item = Result<(u64, Vec<i32>), Refusal>;

    fn next(&mut self) -> Option<Self::Item> {
        let parser = &mut self.parser;
        item(&mut self.done, || {
            Ok(parser
                .next_clause()?
                .map(|clause| (group(clause.label), clause.lits.to_vec())))
        })
    }
}

#[cfg(feature = "std")]
pub use writing::{write_clause, write_header};

#[cfg(feature = "std")]
mod writing {
    use super::Header;
    use crate::{lent, Error, Format, Writer};
    use std::io::Write;

    /// Writes a header.
    ///
    /// ```
    /// use latchtwig::gcnf::{write_clause, write_header, Header};
    /// use latchtwig::Writer;
    ///
    /// let mut writer = Writer::new(Vec::new());
    /// write_header(&mut writer, Header { var_count: 2, clause_count: 1, group_count: 3 })?;
    /// write_clause(&mut writer, 3, &[1, -2])?;
    /// assert_eq!(writer.into_inner(), b"p gcnf 2 1 3\n{3} 1 -2 0\n");
    /// # Ok::<(), latchtwig::Error>(())
    /// ```
    pub fn write_header(writer: &mut Writer<impl Write>, header: Header) -> Result<(), Error> {
        writer.header(
            Format::Grouped,
            lent::Header {
                variables: header.var_count,
                clauses: header.clause_count,
                third: header.group_count,
            },
        )
    }

    /// Writes a clause with its group. A literal that is 0 or -2,147,483,648 is refused by 27, with its index as the place, and nothing is written.
    pub fn write_clause(
        writer: &mut Writer<impl Write>,
        group: u64,
        lits: &[i32],
    ) -> Result<(), Error> {
        writer.clause(Format::Grouped, group, lits)
    }
}
