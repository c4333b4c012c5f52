//! The calls over lent memory, by number, as C has them: no heap, and room for as many literals as the lent buffer has.
//!
//! ```
//! use latchtwig::lent::{self, Next, Opening};
//! use latchtwig::{Format, Mode};
//!
//! let text = b"p cnf 3 2\n1 -3 0\n-2 0\n";
//! let (opening, mut cursor) = lent::open(Format::Plain as u32, Mode::Strict as u32, text);
//! assert!(matches!(opening, Opening::Header(header) if header.variables == 3));
//!
//! let mut lits = [0; 8];
//! while let Next::Clause { count, .. } = cursor.next_clause(text, &mut lits) {
//!     println!("{:?}", &lits[..count]);
//! }
//! // The end, once answered, is answered again.
//! assert_eq!(cursor.next_clause(text, &mut lits), Next::Ended);
//! ```

use crate::calls;
use crate::refusal::Refusal;
use crate::sat_solver_log::Verdict;

/// What a header says. A count of 0 leaves it open.
#[derive(Clone, Copy, Debug, Default, PartialEq, Eq, Hash)]
pub struct Header {
    /// How many variables there are.
    pub variables: u64,
    /// How many clauses there are.
    pub clauses: u64,
    /// The top weight or the count of groups. A plain header has none, and it is 0.
    pub third: u64,
}

/// How a text opens.
#[derive(Clone, Copy, Debug, PartialEq, Eq, Hash)]
pub enum Opening {
    /// Without a header.
    NoHeader,
    /// With this header.
    Header(Header),
    /// It is refused. The cursor repeats it.
    Refused(Refusal),
}

/// The answer to a call for a clause.
#[derive(Clone, Copy, Debug, PartialEq, Eq, Hash)]
pub enum Next {
    /// A clause, with so many literals at the buffer's front.
    Clause {
        /// The clause's weight or group. 0 in the plain format, and for a hard clause of the 2022 form.
        extra: u64,
        /// How many literals it has.
        count: usize,
    },
    /// The end of the text. It is answered again.
    Ended,
    /// The text is refused. The refusal is answered again, with no literals.
    Refused {
        /// Why, and where.
        refusal: Refusal,
        /// How many literals of the unfinished clause were read before it. They stand at the buffer's front.
        count: usize,
    },
}

/// The answer for a log.
#[derive(Clone, Copy, Debug, PartialEq, Eq, Hash)]
pub enum Log {
    /// It is read to its end.
    Accepted {
        /// What the solver says.
        verdict: Verdict,
        /// How many literals stand at the buffer's front.
        count: usize,
    },
    /// It is refused.
    Refused {
        /// Why, and where.
        refusal: Refusal,
        /// How many literals were read before it. They stand at the buffer's front.
        count: usize,
    },
}

/// Where to go on in a text. The default is no cursor of any text, and answers refusal 26.
///
/// It is a value: a copy of it asks for the same clause again, as with a larger buffer after refusal 16. It goes with the text that was opened. With another text a call is safe, and answers what stands
/// there from the same place on; a refusal's place may then be past that text's end.
#[derive(Clone, Copy, Debug, Default, PartialEq, Eq, Hash)]
pub struct Cursor([u64; calls::CURSOR]);

impl Cursor {
    /// The cursor in so many words. Any words are safe.
    pub fn from_words(words: [u64; calls::CURSOR]) -> Self {
        Cursor(words)
    }

    /// The cursor as words, to be kept or sent.
    pub fn to_words(self) -> [u64; calls::CURSOR] {
        self.0
    }

    /// How many bytes of the text are read.
    pub fn place(&self) -> u64 {
        self.0[0]
    }

    /// Reads the next clause into the buffer, and goes on behind it. Behind the literals that are told the buffer keeps what it held.
    pub fn next_clause(&mut self, text: &[u8], lits: &mut [i32]) -> Next {
        let (kind, words) = calls::next(text, &mut self.0, lits);
        let count = words[4] as usize;
        match kind {
            0 => Next::Ended,
            1 => Next::Clause {
                extra: words[5],
                count,
            },
            _ => Next::Refused {
                refusal: Refusal::of(&words),
                count,
            },
        }
    }
}

/// Opens a text of clauses by the numbers of a format and a mode.
pub fn open(format: u32, mode: u32, text: &[u8]) -> (Opening, Cursor) {
    let mut cursor = Cursor::default();
    let (kind, words) = calls::open(format, mode, text, &mut cursor.0);
    let opening = match kind {
        0 => Opening::NoHeader,
        1 => Opening::Header(Header {
            variables: words[4],
            clauses: words[5],
            third: words[6],
        }),
        _ => Opening::Refused(Refusal::of(&words)),
    };
    (opening, cursor)
}

/// Reads a log by the number of a mode, its literals into the buffer. Behind those that are told the buffer keeps what it held.
///
/// ```
/// use latchtwig::lent::{parse_log, Log};
/// use latchtwig::sat_solver_log::Verdict;
/// use latchtwig::Mode;
///
/// let mut lits = [0; 4];
/// let log = parse_log(Mode::Strict as u32, b"s SATISFIABLE\nv 1 -2 0\n", &mut lits);
/// assert_eq!(log, Log::Accepted { verdict: Verdict::Satisfiable, count: 2 });
/// assert_eq!(lits, [1, -2, 0, 0]);
/// ```
pub fn parse_log(mode: u32, text: &[u8], lits: &mut [i32]) -> Log {
    let (kind, words) = calls::log(mode, text, lits);
    let count = words[4] as usize;
    if kind == 1 {
        let verdict = Verdict::of(words[5]);
        return Log::Accepted { verdict, count };
    }
    Log::Refused {
        refusal: Refusal::of(&words),
        count,
    }
}

/// The word at a place where a reader stopped, by the number of its mode: up to the next blank or line end, and no more than 60 bytes. It is empty at a line end and at the end of the text.
///
/// ```
/// use latchtwig::{check, lent, Format, Mode};
///
/// let text = b"1 0 second\n";
/// let refusal = check(Format::Plain, Mode::Strict, text).unwrap_err();
/// assert_eq!(lent::stopped_at(Mode::Strict as u32, text, refusal.place), b"second");
/// ```
pub fn stopped_at(mode: u32, text: &[u8], place: usize) -> &[u8] {
    let length = calls::word(mode, text, place as u64) as usize;
    text.get(place..place + length).unwrap_or_default()
}

/// Writes the line of a header to the output's front, and answers how long it is. Where it is refused, by 10, 26 or 28, the output stays as it is. The 2022 form has no header, and is refused by 26.
pub fn write_header(format: u32, header: Header, out: &mut [u8]) -> Result<usize, Refusal> {
    let Header {
        variables,
        clauses,
        third,
    } = header;
    written(calls::write_header(format, variables, clauses, third, out))
}

/// Writes the line of a clause to the output's front, and answers how long it is. Where it is refused, by 26, 27, 28 or 32, the output stays as it is. `extra` is the weight or the group; the plain format writes
/// none.
///
/// ```
/// use latchtwig::{lent, Format};
///
/// let mut out = [0; 16];
/// let length = lent::write_clause(Format::Weighted as u32, 5, &[1, -2], &mut out)?;
/// assert_eq!(&out[..length], b"5 1 -2 0\n");
/// # Ok::<(), latchtwig::Refusal>(())
/// ```
pub fn write_clause(
    format: u32,
    extra: u64,
    lits: &[i32],
    out: &mut [u8],
) -> Result<usize, Refusal> {
    written(calls::write_clause(format, extra, lits, out))
}

/// The same for a hard clause. The 2022 form alone has them.
pub fn write_hard_clause(format: u32, lits: &[i32], out: &mut [u8]) -> Result<usize, Refusal> {
    written(calls::write_hard_clause(format, lits, out))
}

fn written((kind, words): (u32, [u64; calls::WRITTEN])) -> Result<usize, Refusal> {
    if kind == 1 {
        return Ok(words[4] as usize);
    }
    Err(Refusal::of(&words))
}
