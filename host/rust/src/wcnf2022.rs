//! Parsing and writing of the weighted form of the MaxSAT Evaluation's rules of 2022: no header, hard clauses and soft ones.
//!
//! ```
//! use latchtwig::wcnf2022::{Parser, Weight};
//! use latchtwig::Config;
//!
//! let mut parser = Parser::new(b"h 1 -2 0\n5 2 0\n", Config::default())?;
//! assert_eq!(parser.next_clause()?, Some((Weight::Hard, &[1, -2][..])));
//! assert_eq!(parser.next_clause()?, Some((Weight::Soft(5), &[2][..])));
//! assert_eq!(parser.next_clause()?, None);
//! # Ok::<(), latchtwig::Refusal>(())
//! ```

use crate::formula::{item, parser_of, Label};
use crate::Refusal;
use alloc::vec::Vec;

/// Whether a clause is hard, and what a soft one weighs.
#[derive(Clone, Copy, Debug, PartialEq, Eq, Hash)]
pub enum Weight {
    /// It must hold.
    Hard,
    /// It should hold, and weighs so much. No weight is 0.
    Soft(u64),
}

parser_of!(Weighted2022);

impl Parser<'_> {
    /// Reads the next clause, its weight and its literals. `Ok(None)` is the end of the text, and is answered again; so is a refusal, which is final.
    pub fn next_clause(&mut self) -> Result<Option<(Weight, &[i32])>, Refusal> {
        Ok(self
            .parser
            .next_clause()?
            .map(|clause| (weight(clause.label), clause.lits)))
    }
}

/// The weight of a clause. Each clause of this format is hard or has one.
fn weight(label: Label) -> Weight {
    match label {
        Label::Weight(weight) => Weight::Soft(weight),
        _ => Weight::Hard,
    }
}

impl Iterator for Parser<'_> {
    type Item = Result<(Weight, Vec<i32>), Refusal>;

    fn next(&mut self) -> Option<Self::Item> {
        let parser = &mut self.parser;
        item(&mut self.done, || {
            Ok(parser
                .next_clause()?
                .map(|clause| (weight(clause.label), clause.lits.to_vec())))
        })
    }
}

#[cfg(feature = "std")]
pub use writing::write_clause;

#[cfg(feature = "std")]
mod writing {
    use super::Weight;
    use crate::{Error, Format, Writer};
    use std::io::Write;

    /// Writes a clause. A weight of 0 is refused by 32; a literal that is 0 or -2,147,483,648 by 27, with its index as the place. Nothing is written then.
    ///
    /// ```
    /// use latchtwig::wcnf2022::{write_clause, Weight};
    /// use latchtwig::Writer;
    ///
    /// let mut writer = Writer::new(Vec::new());
    /// write_clause(&mut writer, Weight::Hard, &[1, -2])?;
    /// write_clause(&mut writer, Weight::Soft(5), &[2])?;
    /// assert_eq!(writer.into_inner(), b"h 1 -2 0\n5 2 0\n");
    /// # Ok::<(), latchtwig::Error>(())
    /// ```
    pub fn write_clause(
        writer: &mut Writer<impl Write>,
        weight: Weight,
        lits: &[i32],
    ) -> Result<(), Error> {
        match weight {
            Weight::Hard => writer.hard_clause(Format::Weighted2022, lits),
            Weight::Soft(weight) => writer.clause(Format::Weighted2022, weight, lits),
        }
    }
}
