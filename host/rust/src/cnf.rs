//! Parsing and writing of the plain format, DIMACS CNF.
//!
//! ```
//! use latchtwig::cnf::Parser;
//! use latchtwig::Config;
//!
//! let mut parser = Parser::new(b"p cnf 3 2\n1 -3 0\n-2 0\n", Config::default())?;
//! assert_eq!(parser.header().unwrap().var_count, 3);
//! while let Some(lits) = parser.next_clause()? {
//!     println!("{lits:?}");
//! }
//!
//! // A literal beyond the header's variables: refused, unless its counts are ignored.
//! let order = b"p cnf 2 1\n3 0\n";
//! let refusal = Parser::new(order, Config::default())?.next_clause().unwrap_err();
//! assert_eq!((refusal.number, refusal.line, refusal.column), (15, 2, 1));
//! let clauses: Result<Vec<_>, _> = Parser::new(order, Config::default().ignore_header(true))?.collect();
//! assert_eq!(clauses?, [[3]]);
//! # Ok::<(), latchtwig::Refusal>(())
//! ```

use crate::formula::{item, parser_of};
use crate::Refusal;
use alloc::vec::Vec;

/// What the header says. A count of 0 leaves it open.
#[derive(Clone, Copy, Debug, Default, PartialEq, Eq, Hash)]
pub struct Header {
    /// How many variables there are. Above 2,147,483,647 it is not written.
    pub var_count: u64,
    /// How many clauses there are.
    pub clause_count: u64,
}

parser_of!(Plain);

impl Parser<'_> {
    /// The header, if there is one.
    pub fn header(&self) -> Option<Header> {
        self.parser.header().map(|header| Header {
            var_count: header.variables,
            clause_count: header.clauses,
        })
    }

    /// Reads the next clause. `Ok(None)` is the end of the text, and is answered again; so is a refusal, which is final.
    pub fn next_clause(&mut self) -> Result<Option<&[i32]>, Refusal> {
        Ok(self.parser.next_clause()?.map(|clause| clause.lits))
    }
}

impl Iterator for Parser<'_> {
    type Item = Result<Vec<i32>, Refusal>;

    fn next(&mut self) -> Option<Self::Item> {
        let parser = &mut self.parser;
        item(&mut self.done, || {
            Ok(parser.next_clause()?.map(|clause| clause.lits.to_vec()))
        })
    }
}

#[cfg(feature = "std")]
pub use writing::{write_clause, write_header};

#[cfg(feature = "std")]
mod writing {
    use super::Header;
    use crate::{lent, Error, Format, Writer};
    use std::io::Write;

    /// Writes a header.
    ///
    /// ```
    /// use latchtwig::cnf::{write_clause, write_header, Header};
    /// use latchtwig::Writer;
    ///
    /// let mut writer = Writer::new(Vec::new());
    /// write_header(&mut writer, Header { var_count: 3, clause_count: 1 })?;
    /// write_clause(&mut writer, &[1, -3])?;
    /// assert_eq!(writer.into_inner(), b"p cnf 3 1\n1 -3 0\n");
    /// # Ok::<(), latchtwig::Error>(())
    /// ```
    pub fn write_header(writer: &mut Writer<impl Write>, header: Header) -> Result<(), Error> {
        writer.header(
            Format::Plain,
            lent::Header {
                variables: header.var_count,
                clauses: header.clause_count,
                third: 0,
            },
        )
    }

    /// Writes a clause. A literal that is 0 or -2,147,483,648 is refused by 27, with its index as the place, and nothing is written.
    pub fn write_clause(writer: &mut Writer<impl Write>, lits: &[i32]) -> Result<(), Error> {
        writer.clause(Format::Plain, 0, lits)
    }
}
