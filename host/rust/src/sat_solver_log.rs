//! Parsing of what a solver prints.
//!
//! ```
//! use latchtwig::sat_solver_log::{parse_log, Config, Verdict};
//!
//! let log = parse_log(b"c a comment\ns SATISFIABLE\nv 1 -2 0\n", Config::default())?;
//! assert_eq!((log.verdict, log.assignment), (Verdict::Satisfiable, vec![1, -2]));
//! # Ok::<(), latchtwig::Refusal>(())
//! ```

use crate::config::Room;
use crate::lent::{self, Log};
use crate::refusal::BUFFER_FULL;
use crate::{Mode, Refusal};
use alloc::vec;
use alloc::vec::Vec;

/// What a solver says of its formula.
#[derive(Clone, Copy, Debug, PartialEq, Eq, Hash)]
pub enum Verdict {
    /// `s SATISFIABLE`.
    Satisfiable,
    /// `s UNSATISFIABLE`.
    Unsatisfiable,
    /// `s UNKNOWN`: it gave up.
    Unknown,
    /// No solution line: it left no answer.
    Missing,
}

impl Verdict {
    pub(crate) fn of(word: u64) -> Self {
        match word {
            1 => Verdict::Satisfiable,
            2 => Verdict::Unsatisfiable,
            3 => Verdict::Unknown,
            _ => Verdict::Missing,
        }
    }
}

/// What a log says.
#[derive(Clone, Debug, PartialEq, Eq, Hash)]
pub struct SolverLog {
    /// What the solver says of its formula.
    pub verdict: Verdict,
    /// The literals of all value lines, in their order.
    pub assignment: Vec<i32>,
}

impl SolverLog {
    /// Whether the formula is satisfiable, if the solver knows.
    pub fn satisfiable(&self) -> Option<bool> {
        match self.verdict {
            Verdict::Satisfiable => Some(true),
            Verdict::Unsatisfiable => Some(false),
            Verdict::Unknown | Verdict::Missing => None,
        }
    }
}

/// How a log is read. The default is strict.
#[derive(Clone, Copy, Debug, Default, PartialEq, Eq, Hash)]
#[non_exhaustive]
pub struct Config {
    /// Lines of no permitted kind are passed over, a second solution line and value lines after the closing 0 among them. (Default: `false`)
    pub ignore_unknown_lines: bool,
    /// A CR without LF ends a line too. (Default: `false`)
    pub cr_ends_lines: bool,
    /// The most literals that a log may have; one more is refusal 16. (Default: `None`, as many as there are)
    pub max_literals: Option<usize>,
}

impl Config {
    /// Sets [`ignore_unknown_lines`](Self#structfield.ignore_unknown_lines).
    pub fn ignore_unknown_lines(mut self, value: bool) -> Self {
        self.ignore_unknown_lines = value;
        self
    }

    /// Sets [`cr_ends_lines`](Self#structfield.cr_ends_lines).
    pub fn cr_ends_lines(mut self, value: bool) -> Self {
        self.cr_ends_lines = value;
        self
    }

    /// Sets [`max_literals`](Self#structfield.max_literals).
    pub fn max_literals(mut self, value: impl Into<Option<usize>>) -> Self {
        self.max_literals = value.into();
        self
    }

    /// The mode that is meant.
    pub fn mode(&self) -> Mode {
        Mode::new(self.ignore_unknown_lines, self.cr_ends_lines)
    }
}

impl From<Mode> for Config {
    fn from(mode: Mode) -> Self {
        Config::default()
            .ignore_unknown_lines(mode.is_lenient())
            .cr_ends_lines(mode.cr_ends_lines())
    }
}

/// Reads a log.
pub fn parse_log(text: &[u8], config: Config) -> Result<SolverLog, Refusal> {
    let room = Room::new(config.max_literals, text);
    let mut lits = vec![0; room.first()];
    loop {
        match lent::parse_log(config.mode() as u32, text, &mut lits) {
            Log::Accepted { verdict, count } => {
                lits.truncate(count);
                return Ok(SolverLog {
                    verdict,
                    assignment: lits,
                });
            }
            Log::Refused { refusal, .. } => match room.after(lits.len()) {
                Some(length) if refusal.number == BUFFER_FULL => lits.resize(length, 0),
                _ => return Err(refusal),
            },
        }
    }
}

/// Reads all bytes, and then reads them as a log. It holds the text whole in memory.
#[cfg(feature = "std")]
pub fn parse_log_from_read(
    mut read: impl std::io::Read,
    config: Config,
) -> Result<SolverLog, crate::Error> {
    let mut text = Vec::new();
    read.read_to_end(&mut text)?;
    Ok(parse_log(&text, config)?)
}
