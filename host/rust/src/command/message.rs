//! What is told of a refusal: what was expected, and what was found.

use super::excerpt::escaped;
use super::judge::Told;
use latchtwig::formula::Header;
use latchtwig::lent::{self, Next, Opening};
use latchtwig::{Format, Mode, Refusal};
use std::fmt;

/// The refusals that are told in words of their own.
const FORMAT_WORD_EXPECTED: u32 = 1;
const CLAUSE_EXPECTED: u32 = 9;
const GROUP_TOO_BIG: u32 = 14;
const LITERAL_TOO_BIG: u32 = 15;

/// A word is cut where it is longer.
const LONGEST_WORD: usize = 60;

/// A text, and what was read of it before it was refused.
pub struct Sofar<'t> {
    pub format: Format,
    pub mode: Mode,
    pub text: &'t [u8],
    pub header: Option<Header>,
    pub clauses: u64,
}

impl<'t> Sofar<'t> {
    /// A text of which nothing is read.
    pub fn nothing(format: Format, mode: Mode, text: &'t [u8]) -> Self {
        Sofar {
            format,
            mode,
            text,
            header: None,
            clauses: 0,
        }
    }

    /// What the header says, as far as it applies. A count of 0 never does.
    fn applied(&self) -> Header {
        match self.header {
            Some(header) if !self.mode.is_lenient() => header,
            _ => Header::default(),
        }
    }

    /// Whether as many clauses are read as the header has.
    fn is_counted(&self) -> bool {
        let of = self.applied().clauses;
        of != 0 && of == self.clauses
    }
}

/// What is told of a refusal.
pub fn told(sofar: &Sofar, refusal: &Refusal) -> Told {
    let expected = expected(sofar, refusal);
    let found = found(sofar, refusal.place);
    let message = match special(sofar, refusal, &found) {
        Some(message) => message,
        None => format!("{expected}, found {found}"),
    };
    Told {
        number: Some(refusal.number),
        place: refusal.place,
        line: refusal.line,
        column: refusal.column,
        message,
        expected,
        found: Some(found.words()),
    }
}

fn expected(sofar: &Sofar, refusal: &Refusal) -> String {
    match refusal.number {
        FORMAT_WORD_EXPECTED => format!("`{}` is expected after `p`", word_of(sofar.format)),
        CLAUSE_EXPECTED if sofar.is_counted() => format!(
            "a comment, a line end or the end of the text is expected after the {} of the header",
            counted(sofar.clauses, "clause")
        ),
        _ => refusal.words().to_owned(),
    }
}

/// The word of a format in its header.
fn word_of(format: Format) -> &'static str {
    match format {
        Format::Plain => "cnf",
        Format::Weighted => "wcnf",
        Format::Grouped => "gcnf",
        Format::Log | Format::Weighted2022 => "",
    }
}

/// The messages that tell a number.
fn special(sofar: &Sofar, refusal: &Refusal, found: &Found) -> Option<String> {
    match refusal.number {
        CLAUSE_EXPECTED => miscounted(sofar, refusal.place),
        GROUP_TOO_BIG => Some(group(sofar, refusal.place)),
        LITERAL_TOO_BIG => Some(literal(sofar, &found.words())),
        _ => None,
    }
}

/// Fewer clauses than the header has, or more.
fn miscounted(sofar: &Sofar, place: usize) -> Option<String> {
    let of = sofar.applied().clauses;
    if of == 0 {
        return None;
    }
    if place >= sofar.text.len() {
        let missing = of.saturating_sub(sofar.clauses);
        let are = if missing == 1 { "is" } else { "are" };
        return Some(format!(
            "{} of {of} {are} missing",
            counted(missing, "clause")
        ));
    }
    if sofar.is_counted() && begins_clause(sofar, place) {
        return Some(format!("a clause beyond the {of} of the header"));
    }
    None
}

/// Whether a clause stands at a place, or the beginning of one. The reader is asked, on the text from there on.
fn begins_clause(sofar: &Sofar, place: usize) -> bool {
    let rest = &sofar.text[place..];
    let (opening, mut cursor) = lent::open(sofar.format as u32, sofar.mode as u32, rest);
    // With no room for literals, refusal 16 is where the first one stands.
    let no_clause = match cursor.next_clause(rest, &mut []) {
        Next::Clause { .. } => false,
        Next::Ended => true,
        Next::Refused { refusal, .. } => refusal.number == CLAUSE_EXPECTED,
    };
    opening == Opening::NoHeader && !no_clause
}

fn group(sofar: &Sofar, place: usize) -> String {
    let group = digits(sofar.text.get(place + 1..).unwrap_or_default());
    match sofar.applied().third {
        0 => format!("group {group} is beyond {}", u64::MAX),
        groups => format!("group {group} is beyond the {groups} of the header"),
    }
}

fn literal(sofar: &Sofar, literal: &str) -> String {
    match sofar.applied().variables {
        0 => format!(
            "literal {literal} is beyond {}, the largest variable",
            i32::MAX
        ),
        variables => format!(
            "literal {literal} is beyond the {} of the header",
            counted(variables, "variable")
        ),
    }
}

/// The digits at the front.
fn digits(text: &[u8]) -> String {
    let end = text.iter().position(|byte| !byte.is_ascii_digit());
    cut(&text[..end.unwrap_or(text.len())])
}

/// So many of something.
pub fn counted(count: u64, what: &str) -> String {
    let ending = if count == 1 { "" } else { "s" };
    format!("{count} {what}{ending}")
}

/// What stands where something else was expected.
enum Found {
    Word(String),
    LineEnd,
    TextEnd,
    /// A CR without LF, in a mode where it ends no line.
    LoneReturn,
}

impl Found {
    /// It without quotes and hints.
    fn words(&self) -> String {
        match self {
            Found::Word(word) => word.clone(),
            Found::LineEnd => "the end of the line".to_owned(),
            Found::TextEnd => "the end of the text".to_owned(),
            Found::LoneReturn => "a CR without LF".to_owned(),
        }
    }
}

impl fmt::Display for Found {
    fn fmt(&self, f: &mut fmt::Formatter<'_>) -> fmt::Result {
        match self {
            Found::Word(word) => write!(f, "`{word}`"),
            Found::LoneReturn => write!(f, "{}; --cr takes it for a line end", self.words()),
            _ => f.write_str(&self.words()),
        }
    }
}

fn found(sofar: &Sofar, place: usize) -> Found {
    let word = lent::stopped_at(sofar.mode as u32, sofar.text, place);
    match word.first() {
        Some(b'\r') => Found::LoneReturn,
        Some(_) => Found::Word(cut(whole_word(&sofar.text[place..], word))),
        None if place < sofar.text.len() => Found::LineEnd,
        None => Found::TextEnd,
    }
}

/// The word with the byte behind it, if it goes on there.
fn whole_word<'t>(rest: &'t [u8], word: &[u8]) -> &'t [u8] {
    match rest.get(word.len()) {
        None | Some(b' ' | b'\t' | b'\r' | b'\n') => &rest[..word.len()],
        Some(_) => &rest[..word.len() + 1],
    }
}

/// A word, escaped, and cut if it is too long.
fn cut(word: &[u8]) -> String {
    if word.len() <= LONGEST_WORD {
        return escaped(word);
    }
    format!("{}...", escaped(&word[..LONGEST_WORD]))
}
