//! One case: the text is read by the parser of its format, and what it answers is written down.

use std::io::{self, Write};

use flussab::{text::LineReader, DeferredReader};
use flussab_cnf::{cnf, gcnf, sat_solver_log, wcnf, ParseError};

use crate::{
    lit::{self, Lit},
    position::Kind,
    refusal::Refusal,
};

/// Answers one case. After the first refusal nothing more is read of it, although the crate would.
pub fn answer(
    format: u8,
    mode: u8,
    room: usize,
    text: &[u8],
    transcript: &mut Vec<u8>,
) -> io::Result<()> {
    lit::begin();
    let lenient = mode == 1;
    match (format, mode) {
        (0, 0 | 1) => clauses::<cnf::Parser<Lit>>(lenient, room, text, transcript),
        (1, 0 | 1) => clauses::<wcnf::Parser<Lit>>(lenient, room, text, transcript),
        (2, 0 | 1) => clauses::<gcnf::Parser<Lit>>(lenient, room, text, transcript),
        (3, 0 | 1) => log(lenient, room, text, transcript),
        _ => Refusal::unknown().write(&[], transcript),
    }
}

/// What the transcript says of a header.
struct Header {
    variables: usize,
    clauses: usize,
    third: Option<u64>,
}

/// What stands before a clause's literals.
enum Extra {
    Nothing,
    Weight(u64),
    Group(usize),
}

/// The three parsers of clauses, under one set of names.
trait Clauses<'a>: Sized {
    fn open(text: LineReader<'a>, lenient: bool) -> Result<Self, ParseError>;
    fn opened_header(&self) -> Option<Header>;
    fn next(&mut self) -> Result<Option<(Extra, &[Lit])>, ParseError>;
}

impl<'a> Clauses<'a> for cnf::Parser<'a, Lit> {
    fn open(text: LineReader<'a>, lenient: bool) -> Result<Self, ParseError> {
        Self::new(text, cnf::Config::default().ignore_header(lenient))
    }

    fn opened_header(&self) -> Option<Header> {
        self.header().map(|header| Header {
            variables: header.var_count,
            clauses: header.clause_count,
            third: None,
        })
    }

    fn next(&mut self) -> Result<Option<(Extra, &[Lit])>, ParseError> {
        Ok(self.next_clause()?.map(|lits| (Extra::Nothing, lits)))
    }
}

impl<'a> Clauses<'a> for wcnf::Parser<'a, Lit> {
    fn open(text: LineReader<'a>, lenient: bool) -> Result<Self, ParseError> {
        Self::new(text, wcnf::Config::default().ignore_header(lenient))
    }

    fn opened_header(&self) -> Option<Header> {
        self.header().map(|header| Header {
            variables: header.var_count,
            clauses: header.clause_count,
            third: Some(header.top_weight),
        })
    }

    fn next(&mut self) -> Result<Option<(Extra, &[Lit])>, ParseError> {
        let clause = self.next_clause()?;
        Ok(clause.map(|(weight, lits)| (Extra::Weight(weight), lits)))
    }
}

impl<'a> Clauses<'a> for gcnf::Parser<'a, Lit> {
    fn open(text: LineReader<'a>, lenient: bool) -> Result<Self, ParseError> {
        Self::new(text, gcnf::Config::default().ignore_header(lenient))
    }

    fn opened_header(&self) -> Option<Header> {
        self.header().map(|header| Header {
            variables: header.var_count,
            clauses: header.clause_count,
            third: Some(header.group_count as u64),
        })
    }

    fn next(&mut self) -> Result<Option<(Extra, &[Lit])>, ParseError> {
        let clause = self.next_clause()?;
        Ok(clause.map(|(group, lits)| (Extra::Group(group), lits)))
    }
}

fn clauses<'a, P: Clauses<'a>>(
    lenient: bool,
    room: usize,
    text: &'a [u8],
    transcript: &mut Vec<u8>,
) -> io::Result<()> {
    let mut parser = match P::open(LineReader::new(DeferredReader::from_slice(text)), lenient) {
        Ok(parser) => parser,
        Err(error) => {
            return Refusal::of(*error, room, text, Kind::Clauses).write(text, transcript)
        }
    };
    match parser.opened_header() {
        None => writeln!(transcript, "header none")?,
        Some(header) => {
            write!(transcript, "header {} {}", header.variables, header.clauses)?;
            if let Some(third) = header.third {
                write!(transcript, " {third}")?;
            }
            writeln!(transcript)?;
        }
    }
    loop {
        // Room and k count for each clause alone.
        lit::begin();
        let (extra, lits) = match parser.next() {
            Ok(Some(clause)) => clause,
            Ok(None) => return writeln!(transcript, "end"),
            Err(error) => {
                return Refusal::of(*error, room, text, Kind::Clauses).write(text, transcript)
            }
        };
        assert!(lit::are(lits), "literals noted and answered differ");
        if let Some(refusal) = Refusal::of_room(room) {
            return refusal.write(text, transcript);
        }
        write!(transcript, "clause")?;
        match extra {
            Extra::Nothing => {}
            Extra::Weight(weight) => write!(transcript, " {weight}:")?,
            Extra::Group(group) => write!(transcript, " {{{group}}}:")?,
        }
        write_lits(lits, transcript)?;
    }
}

fn log(lenient: bool, room: usize, text: &[u8], transcript: &mut Vec<u8>) -> io::Result<()> {
    let config = sat_solver_log::Config::default().ignore_unknown_lines(lenient);
    let kind = if lenient {
        Kind::LenientLog
    } else {
        Kind::StrictLog
    };
    let mut reader = LineReader::new(DeferredReader::from_slice(text));
    // Room and k count over the whole log.
    let log = match sat_solver_log::parse_log::<Lit>(&mut reader, config) {
        Ok(log) => log,
        Err(error) => return Refusal::of(*error, room, text, kind).write(text, transcript),
    };
    assert!(
        lit::are(&log.assignment),
        "literals noted and answered differ"
    );
    if let Some(refusal) = Refusal::of_room(room) {
        return refusal.write(text, transcript);
    }
    let verdict = match log.satisfiable {
        Some(true) => "yes",
        Some(false) => "no",
        None => "unknown",
    };
    writeln!(transcript, "verdict {verdict}")?;
    write!(transcript, "literals")?;
    write_lits(&log.assignment, transcript)
}

fn write_lits(lits: &[Lit], transcript: &mut Vec<u8>) -> io::Result<()> {
    for Lit(lit) in lits {
        write!(transcript, " {lit}")?;
    }
    writeln!(transcript)
}
