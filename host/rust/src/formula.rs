//! Parsing of a text of clauses whose format is chosen while the program runs. [`cnf`](crate::cnf), [`wcnf`](crate::wcnf), [`gcnf`](crate::gcnf) and [`wcnf2022`](crate::wcnf2022) have a
//! parser for each format.
//!
//! ```
//! use latchtwig::formula::{Label, Parser};
//! use latchtwig::{Config, Format};
//!
//! let mut parser = Parser::new(Format::Grouped, b"{2} 1 -2 0\n", Config::default())?;
//! let clause = parser.next_clause()?.unwrap();
//! assert_eq!((clause.label, clause.lits), (Label::Group(2), &[1, -2][..]));
//! assert!(parser.next_clause()?.is_none());
//! # Ok::<(), latchtwig::Refusal>(())
//! ```

use crate::config::Room;
use crate::lent::{self, Cursor, Next, Opening};
use crate::refusal::BUFFER_FULL;
use crate::{Config, Format, Mode, Refusal};
use alloc::borrow::Cow;
use alloc::vec;
use alloc::vec::Vec;
use core::fmt;

pub use crate::lent::Header;

/// What stands before the literals of a clause.
#[derive(Clone, Copy, Debug, PartialEq, Eq, Hash)]
pub enum Label {
    /// Nothing, in the plain format.
    None,
    /// A weight. In the 2022 form the clause is soft.
    Weight(u64),
    /// A group.
    Group(u64),
    /// `h`, in the 2022 form: the clause is hard.
    Hard,
}

impl Label {
    fn of(format: Format, extra: u64) -> Self {
        match format {
            Format::Plain | Format::Log => Label::None,
            Format::Grouped => Label::Group(extra),
            // No weight of the 2022 form is 0.
            Format::Weighted2022 if extra == 0 => Label::Hard,
            Format::Weighted | Format::Weighted2022 => Label::Weight(extra),
        }
    }
}

/// A clause, with its literals in the parser's own memory.
#[derive(Clone, Copy, Debug, PartialEq, Eq, Hash)]
pub struct Clause<'l> {
    /// Its weight or group.
    pub label: Label,
    /// Its literals, in the order in which they stand.
    pub lits: &'l [i32],
}

/// Parser of a text of clauses.
///
/// The text is lent or owned, and is whole in memory.
#[derive(Clone)]
pub struct Parser<'a> {
    text: Cow<'a, [u8]>,
    format: Format,
    mode: Mode,
    max_literals: Option<usize>,
    header: Option<Header>,
    cursor: Cursor,
    lits: Vec<i32>,
    count: usize,
}

impl<'a> Parser<'a> {
    /// Opens a lent text. A log is no text of clauses: its format is refused by 26.
    pub fn new(format: Format, text: &'a [u8], config: Config) -> Result<Self, Refusal> {
        Self::open(format, Cow::Borrowed(text), config)
    }

    /// Opens a text that the parser keeps.
    pub fn from_vec(
        format: Format,
        text: Vec<u8>,
        config: Config,
    ) -> Result<Parser<'static>, Refusal> {
        Parser::open(format, Cow::Owned(text), config)
    }

    /// Reads all bytes, and then opens them as a text. It holds the text whole in memory.
    #[cfg(feature = "std")]
    pub fn from_read(
        format: Format,
        mut read: impl std::io::Read,
        config: Config,
    ) -> Result<Parser<'static>, crate::Error> {
        let mut text = Vec::new();
        read.read_to_end(&mut text)?;
        Ok(Parser::from_vec(format, text, config)?)
    }

    fn open(format: Format, text: Cow<'a, [u8]>, config: Config) -> Result<Self, Refusal> {
        let mode = config.mode();
        let (opening, cursor) = lent::open(format as u32, mode as u32, &text);
        let header = match opening {
            Opening::NoHeader => None,
            Opening::Header(header) => Some(header),
            Opening::Refused(refusal) => return Err(refusal),
        };
        let room = Room::new(config.max_literals, &text);
        Ok(Parser {
            text,
            format,
            mode,
            max_literals: config.max_literals,
            header,
            cursor,
            lits: vec![0; room.first()],
            count: 0,
        })
    }

    /// The header, if there is one. A count of 0 leaves it open.
    pub fn header(&self) -> Option<Header> {
        self.header
    }

    /// Reads the next clause. `Ok(None)` is the end of the text, and is answered again; so is a refusal, which is final.
    pub fn next_clause(&mut self) -> Result<Option<Clause<'_>>, Refusal> {
        match self.step() {
            Next::Clause { extra, count } => {
                self.count = count;
                Ok(Some(Clause {
                    label: Label::of(self.format, extra),
                    lits: &self.lits[..count],
                }))
            }
            Next::Ended => {
                self.count = 0;
                Ok(None)
            }
            Next::Refused { refusal, count } => {
                self.count = count;
                Err(refusal)
            }
        }
    }

    /// The next answer. Where the buffer is too short, and a longer one is allowed, the same clause is read again.
    fn step(&mut self) -> Next {
        loop {
            let before = self.cursor;
            let next = self.cursor.next_clause(&self.text, &mut self.lits);
            let longer = match next {
                Next::Refused { refusal, .. } if refusal.number == BUFFER_FULL => {
                    Room::new(self.max_literals, &self.text).after(self.lits.len())
                }
                _ => None,
            };
            match longer {
                Some(length) => {
                    self.cursor = before;
                    self.lits.resize(length, 0);
                }
                None => return next,
            }
        }
    }

    /// The literals of the last clause, or, after a refusal, those of the unfinished clause that were read before it.
    pub fn lits(&self) -> &[i32] {
        &self.lits[..self.count]
    }

    /// The text.
    pub fn text(&self) -> &[u8] {
        &self.text
    }

    /// How many bytes of the text are read.
    pub fn place(&self) -> usize {
        self.cursor.place() as usize
    }

    /// The word at which the text was refused: up to the next blank or line end, and no more than 60 bytes. It is empty at a line end and at the end of the text.
    pub fn stopped_at(&self, refusal: &Refusal) -> &[u8] {
        lent::stopped_at(self.mode as u32, &self.text, refusal.place)
    }
}

impl fmt::Debug for Parser<'_> {
    fn fmt(&self, f: &mut fmt::Formatter<'_>) -> fmt::Result {
        f.debug_struct("Parser")
            .field("format", &self.format)
            .field("mode", &self.mode)
            .field("header", &self.header)
            .field("place", &self.place())
            .finish_non_exhaustive()
    }
}

/// What the parser of one format has besides its header and its clauses. Its field is the parser of any format, and whether its iterator is done.
macro_rules! parser_of {
    ($format:ident) => {
        /// Parser of a text in this format.
        ///
        /// As an iterator it answers each clause with literals of its own, and nothing after the end or a refusal.
        #[derive(Clone, Debug)]
        pub struct Parser<'a> {
            parser: crate::formula::Parser<'a>,
            done: bool,
        }

        impl<'a> Parser<'a> {
            /// Opens a lent text.
            pub fn new(text: &'a [u8], config: crate::Config) -> Result<Self, crate::Refusal> {
                let parser = crate::formula::Parser::new(crate::Format::$format, text, config)?;
                Ok(Self::of(parser))
            }

            /// Opens a text that the parser keeps.
            pub fn from_vec(
                text: alloc::vec::Vec<u8>,
                config: crate::Config,
            ) -> Result<Parser<'static>, crate::Refusal> {
                let parser =
                    crate::formula::Parser::from_vec(crate::Format::$format, text, config)?;
                Ok(Parser::of(parser))
            }

            /// Reads all bytes, and then opens them as a text. It holds the text whole in memory.
            #[cfg(feature = "std")]
            pub fn from_read(
                read: impl std::io::Read,
                config: crate::Config,
            ) -> Result<Parser<'static>, crate::Error> {
                let parser =
                    crate::formula::Parser::from_read(crate::Format::$format, read, config)?;
                Ok(Parser::of(parser))
            }

            fn of(parser: crate::formula::Parser<'a>) -> Self {
                Parser {
                    parser,
                    done: false,
                }
            }

            /// The parser without its format's types: places, the word at a refusal, and the literals read before one.
            pub fn as_formula(&self) -> &crate::formula::Parser<'a> {
                &self.parser
            }
        }

        impl core::iter::FusedIterator for Parser<'_> {}
    };
}
pub(crate) use parser_of;

/// The next clause of a parser as an item of an iterator: none after the end or a refusal.
pub(crate) fn item<T>(
    done: &mut bool,
    next: impl FnOnce() -> Result<Option<T>, Refusal>,
) -> Option<Result<T, Refusal>> {
    if *done {
        return None;
    }
    let item = next().transpose();
    *done = !matches!(item, Some(Ok(_)));
    item
}
