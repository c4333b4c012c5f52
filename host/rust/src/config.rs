//! How texts are read.

/// What kind of text is read.
#[derive(Clone, Copy, Debug, PartialEq, Eq, Hash)]
#[repr(u32)]
pub enum Format {
    /// Clauses: `p cnf V C`, if there is a header, then clauses as `1 -2 0`.
    Plain = 0,
    /// Clauses with a weight each: `p wcnf V C top`, then `5 1 -2 0`.
    Weighted = 1,
    /// Clauses with a group each: `p gcnf V C groups`, then `{3} 1 -2 0`.
    Grouped = 2,
    /// What a solver prints: `s SATISFIABLE`, then `v 1 -2 0`.
    Log = 3,
    /// Hard clauses and soft ones with a weight each, by the rules of 2022: no header, then `h 1 -2 0` and `5 1 -2 0`. Strict and lenient read alike.
    Weighted2022 = 4,
}

/// How odd texts are taken.
#[derive(Clone, Copy, Debug, Default, PartialEq, Eq, Hash)]
#[repr(u32)]
pub enum Mode {
    /// A header's counts bind its clauses, and each line of a log must be of a permitted kind.
    #[default]
    Strict = 0,
    /// A header is read but its counts are not applied, and log lines of no permitted kind are passed over. It never changes what [`Mode::Strict`] reads: a text taken strictly is taken
    /// leniently, and one refused leniently is refused strictly, at that place or before it.
    Lenient = 1,
    /// As [`Mode::Strict`], and a CR without LF ends a line too. Without this a text of such lines is one comment if it begins with one, and so a formula without clauses.
    StrictCr = 2,
    /// As [`Mode::Lenient`], and a CR without LF ends a line too.
    LenientCr = 3,
}

impl Mode {
    /// The mode that is lenient or not, and in which a CR alone ends a line or not.
    pub fn new(lenient: bool, cr_ends_lines: bool) -> Self {
        match (lenient, cr_ends_lines) {
            (false, false) => Mode::Strict,
            (true, false) => Mode::Lenient,
            (false, true) => Mode::StrictCr,
            (true, true) => Mode::LenientCr,
        }
    }

    /// Whether it is one of the lenient modes.
    pub fn is_lenient(self) -> bool {
        matches!(self, Mode::Lenient | Mode::LenientCr)
    }

    /// Whether a CR without LF ends a line too.
    pub fn cr_ends_lines(self) -> bool {
        matches!(self, Mode::StrictCr | Mode::LenientCr)
    }
}

/// How a text of clauses is read. The default is strict.
///
/// ```
/// use latchtwig::{Config, Mode};
///
/// let config = Config::default().ignore_header(true);
/// assert_eq!(config.mode(), Mode::Lenient);
/// assert_eq!(config, Config::from(Mode::Lenient));
/// ```
#[derive(Clone, Copy, Debug, Default, PartialEq, Eq, Hash)]
#[non_exhaustive]
pub struct Config {
    /// A header is read, and its counts are not applied. (Default: `false`)
    pub ignore_header: bool,
    /// A CR without LF ends a line too. (Default: `false`)
    pub cr_ends_lines: bool,
    /// The most literals that a clause may have; one more is refusal 16. (Default: `None`, as many as there are)
    pub max_literals: Option<usize>,
}

impl Config {
    /// Sets [`ignore_header`](Self#structfield.ignore_header).
    pub fn ignore_header(mut self, value: bool) -> Self {
        self.ignore_header = value;
        self
    }

    /// Sets [`cr_ends_lines`](Self#structfield.cr_ends_lines).
    pub fn cr_ends_lines(mut self, value: bool) -> Self {
        self.cr_ends_lines = value;
        self
    }

    /// Sets [`max_literals`](Self#structfield.max_literals).
    pub fn max_literals(mut self, value: impl Into<Option<usize>>) -> Self {
        self.max_literals = value.into();
        self
    }

    /// The mode that is meant.
    pub fn mode(&self) -> Mode {
        Mode::new(self.ignore_header, self.cr_ends_lines)
    }
}

impl From<Mode> for Config {
    fn from(mode: Mode) -> Self {
        Config::default()
            .ignore_header(mode.is_lenient())
            .cr_ends_lines(mode.cr_ends_lines())
    }
}

/// How long a buffer must be, and how it grows: from the first length on up to the room.
pub(crate) struct Room {
    most: usize,
}

impl Room {
    /// A buffer that is tried first. Clauses are short.
    const FIRST: usize = 64;

    /// Room for the literals of a text. Each takes a byte at least, and one to end it, so that half of its bytes are enough.
    pub(crate) fn new(max_literals: Option<usize>, text: &[u8]) -> Self {
        let all = text.len() / 2 + 1;
        Room {
            most: max_literals.map_or(all, |max| max.min(all)),
        }
    }

    pub(crate) fn first(&self) -> usize {
        self.most.min(Self::FIRST)
    }

    /// The length after one that was too short, if a longer one is allowed.
    pub(crate) fn after(&self, length: usize) -> Option<usize> {
        if length < self.most {
            return Some(length.saturating_mul(4).min(self.most));
        }
        None
    }
}
