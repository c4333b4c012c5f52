//! Parsing and writing of the weighted format, WCNF with a header of four words.
//!
//! ```
//! use latchtwig::wcnf::Parser;
//! use latchtwig::Config;
//!
//! let mut parser = Parser::new(b"p wcnf 2 1 9\n5 1 -2 0\n", Config::default())?;
//! assert_eq!(parser.header().unwrap().top_weight, 9);
//! assert_eq!(parser.next_clause()?, Some((5, &[1, -2][..])));
//! assert_eq!(parser.next_clause()?, None);
//! # Ok::<(), latchtwig::Refusal>(())
//! ```

use crate::formula::{item, parser_of, Label};
use crate::Refusal;
use alloc::vec::Vec;

/// What the header says. A count of 0 leaves it open.
#[derive(Clone, Copy, Debug, Default, PartialEq, Eq, Hash)]
pub struct Header {
    /// How many variables there are. Above 2,147,483,647 it is not written.
    pub var_count: u64,
    /// How many clauses there are.
    pub clause_count: u64,
    /// The weight of a hard clause. It is not compared with any other weight.
    pub top_weight: u64,
}

parser_of!(Weighted);

impl Parser<'_> {
    /// The header, if there is one.
    pub fn header(&self) -> Option<Header> {
        self.parser.header().map(|header| Header {
            var_count: header.variables,
            clause_count: header.clauses,
            top_weight: header.third,
        })
    }

    /// Reads the next clause, its weight and its literals. `Ok(None)` is the end of the text, and is answered again; so is a refusal, which is final.
    pub fn next_clause(&mut self) -> Result<Option<(u64, &[i32])>, Refusal> {
        Ok(self
            .parser
            .next_clause()?
            .map(|clause| (weight(clause.label), clause.lits)))
    }
}

/// The weight of a clause. Each clause of this format has one.
fn weight(label: Label) -> u64 {
    match label {
        Label::Weight(weight) => weight,
        _ => 0,
    }
}

impl Iterator for Parser<'_> {
    type Item = Result<(u64, Vec<i32>), Refusal>;

    fn next(&mut self) -> Option<Self::Item> {
        let parser = &mut self.parser;
        item(&mut self.done, || {
            Ok(parser
                .next_clause()?
                .map(|clause| (weight(clause.label), clause.lits.to_vec())))
        })
    }
}

#[cfg(feature = "std")]
pub use writing::{write_clause, write_header};

#[cfg(feature = "std")]
mod writing {
    use super::Header;
    use crate::{lent, Error, Format, Writer};
    use std::io::Write;

    /// Writes a header.
    ///
    /// ```
    /// use latchtwig::wcnf::{write_clause, write_header, Header};
    /// use latchtwig::Writer;
    ///
    /// let mut writer = Writer::new(Vec::new());
    /// write_header(&mut writer, Header { var_count: 2, clause_count: 1, top_weight: 9 })?;
    /// write_clause(&mut writer, 5, &[1, -2])?;
    /// assert_eq!(writer.into_inner(), b"p wcnf 2 1 9\n5 1 -2 0\n");
    /// # Ok::<(), latchtwig::Error>(())
    /// ```
    pub fn write_header(writer: &mut Writer<impl Write>, header: Header) -> Result<(), Error> {
        writer.header(
            Format::Weighted,
            lent::Header {
                variables: header.var_count,
                clauses: header.clause_count,
                third: header.top_weight,
            },
        )
    }

    /// Writes a clause with its weight. A literal that is 0 or -2,147,483,648 is refused by 27, with its index as the place, and nothing is written.
    pub fn write_clause(
        writer: &mut Writer<impl Write>,
        weight: u64,
        lits: &[i32],
    ) -> Result<(), Error> {
        writer.clause(Format::Weighted, weight, lits)
    }
}
