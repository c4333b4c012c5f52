//! Reads and writes SAT formulas in the DIMACS formats, and reads the logs of SAT solvers, by code that is proved to follow its written definition.
//!
//! A parser answers the header and one clause after the other. A text is read to its end, or it is refused with a number that says why, and a place, a line and a column that say where:
//!
//! ```
//! use latchtwig::cnf::Parser;
//! use latchtwig::Config;
//!
//! let mut parser = Parser::new(b"p cnf 3 2\n1 -3 0\n-2 0\n", Config::default())?;
//! assert_eq!(parser.next_clause()?, Some(&[1, -3][..]));
//! assert_eq!(parser.next_clause()?, Some(&[-2][..]));
//! assert_eq!(parser.next_clause()?, None);
//!
//! // Two clauses on one line: a line end was expected after the first 0.
//! let refusal = Parser::new(b"1 0 2 0\n", Config::default())?.next_clause().unwrap_err();
//! assert_eq!((refusal.number, refusal.place), (5, 4));
//! assert_eq!(refusal.to_string(), "refusal 5 at line 1, column 5 (byte 4): a line end is expected");
//! # Ok::<(), latchtwig::Refusal>(())
//! ```
//!
//! | module | reads and writes |
//! |---|---|
//! | [`cnf`] | plain clauses |
//! | [`wcnf`] | weighted clauses, with a header |
//! | [`gcnf`] | grouped clauses |
//! | [`wcnf2022`] | hard and soft clauses, without a header |
//! | [`sat_solver_log`] | logs, which it reads only |
//! | [`formula`] | clauses in a format that is chosen while the program runs |
//! | [`lent`] | the calls underneath, over memory that the caller lends, with no heap |
//!
//! [`check`] judges a whole text. Reading is strict unless [`Config`] or [`Mode`] says otherwise.
//!
//! The readers and writers are written in Rattle and linked as a static library. What is proved of them: for any bytes and any numbers they return, stay within what is lent to them, and answer what
//! the definition says. This crate adds the foreign calls, in one file, the words, and buffers that grow. Its feature `std` is for `Read`, `Write` and the command; without it, it needs `alloc` alone.

#![cfg_attr(not(feature = "std"), no_std)]
#![deny(missing_docs)]
#![deny(unsafe_code)]
#![deny(unsafe_op_in_unsafe_fn)]

extern crate alloc;

#[allow(unsafe_code)]
mod calls;
mod config;
mod refusal;
#[cfg(feature = "std")]
mod writer;

pub mod cnf;
pub mod formula;
pub mod gcnf;
pub mod lent;
pub mod sat_solver_log;
pub mod wcnf;
pub mod wcnf2022;

pub use config::{Config, Format, Mode};
#[cfg(feature = "std")]
pub use refusal::Error;
pub use refusal::Refusal;
#[cfg(feature = "std")]
pub use writer::Writer;

/// Reads the whole text. `Ok` means that it was read to its end.
///
/// A clause, or a whole log, has room for 1,024 literals here; one more is refusal 16. The parsers have as much as they need.
///
/// ```
/// use latchtwig::{check, Format, Mode};
///
/// let order = b"p cnf 2 1\n3 0\n";
/// let refusal = check(Format::Plain, Mode::Strict, order).unwrap_err();
/// assert_eq!((refusal.number, refusal.place), (15, 10));
/// assert_eq!((refusal.line, refusal.column), (2, 1));
/// assert_eq!(&order[refusal.place..], b"3 0\n");
///
/// // The lenient mode applies no count of the header.
/// assert!(check(Format::Plain, Mode::Lenient, order).is_ok());
/// ```
pub fn check(format: Format, mode: Mode, text: &[u8]) -> Result<(), Refusal> {
    check_by_number(format as u32, mode as u32, text)
}

/// The same by numbers that come from elsewhere: formats 0 to 4 and modes 0 to 3, in the order of [`Format`] and [`Mode`]. Others are refusal 26 at place 0.
///
/// ```
/// assert_eq!(latchtwig::check_by_number(256, 0, b"1 0\n").unwrap_err().number, 26);
/// ```
pub fn check_by_number(format: u32, mode: u32, text: &[u8]) -> Result<(), Refusal> {
    match calls::check(format, mode, text) {
        (0, _) => Ok(()),
        (_, words) => Err(Refusal::of(&words)),
    }
}
