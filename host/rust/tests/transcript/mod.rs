//! What `crates/reader_cases` prints of framed texts, made by the calls over lent memory and by the parsers. `tests/steps.rs` and `examples/steps.rs` share it.

use crate::frames::front;
use latchtwig::formula::{Label, Parser};
use latchtwig::lent::{self, Header, Log, Next, Opening};
use latchtwig::sat_solver_log::{self, Verdict};
use latchtwig::{Config, Format, Mode, Refusal};

/// The longest text and the most room that the program has.
const LONGEST: usize = 65_536;
const MOST_ROOM: usize = 4_096;

pub const BUFFER_FULL: u32 = 16;
const UNKNOWN: u32 = 26;

/// A text to be read, with numbers for its format and mode, and room for literals.
#[derive(Debug)]
pub struct Case<'a> {
    pub format: u8,
    pub mode: u8,
    pub room: usize,
    pub text: &'a [u8],
}

/// What is told of a text: the refusal's number if there is one, the lines, and the literals that stood before a refusal.
#[derive(Debug, Default, PartialEq, Eq)]
pub struct Told {
    pub refused: Option<u32>,
    pub lines: String,
    pub left: Vec<i32>,
}

/// All that is printed of framed texts, with these lines of each.
pub fn transcript(mut frames: &[u8], mut lines: impl FnMut(&Case) -> String) -> String {
    let mut said = String::new();
    let mut number = 0;
    while !frames.is_empty() {
        said += &format!("case {number}\n");
        match framed(&mut frames) {
            Ok(case) => said += &lines(&case),
            Err(words) => said += words,
        }
        number += 1;
    }
    said
}

/// The case at the front, or what is said in its place.
fn framed<'a>(rest: &mut &'a [u8]) -> Result<Case<'a>, &'static str> {
    let head = |rest: &mut &[u8]| {
        let [format, mode] = front(rest)?;
        let room = u32::from_le_bytes(front(rest)?) as usize;
        let length = u32::from_le_bytes(front(rest)?) as usize;
        Some((format, mode, room.min(MOST_ROOM), length))
    };
    let (format, mode, room, length) = head(rest).ok_or_else(|| cut(rest, "cut\n"))?;
    let text = match rest.get(..length) {
        Some(text) => text,
        None if length > LONGEST => return Err(cut(rest, "long\ncut\n")),
        None => return Err(cut(rest, "cut\n")),
    };
    *rest = &rest[length..];
    if length > LONGEST {
        return Err("long\n");
    }
    Ok(Case {
        format,
        mode,
        room,
        text,
    })
}

/// Nothing follows a frame that is cut off.
fn cut(rest: &mut &[u8], words: &'static str) -> &'static str {
    *rest = &[];
    words
}

impl Told {
    fn header(&mut self, format: u8, header: Option<Header>) {
        self.lines += &match header {
            None => "header none\n".to_string(),
            Some(h) if format == 0 => format!("header {} {}\n", h.variables, h.clauses),
            Some(h) => format!("header {} {} {}\n", h.variables, h.clauses, h.third),
        };
    }

    /// A clause, after its weight or group as it is printed.
    fn clause(&mut self, lead: &str, lits: &[i32]) {
        self.lines += &format!("clause{lead}");
        self.literals(lits);
    }

    fn literals(&mut self, lits: &[i32]) {
        for lit in lits {
            self.lines += &format!(" {lit}");
        }
        self.lines.push('\n');
    }

    fn log(&mut self, verdict: Verdict, lits: &[i32]) {
        let verdict = match verdict {
            Verdict::Satisfiable => "yes",
            Verdict::Unsatisfiable => "no",
            Verdict::Unknown => "unknown",
            Verdict::Missing => "none",
        };
        self.lines += &format!("verdict {verdict}\nliterals");
        self.literals(lits);
    }

    /// A refusal, with the word that it stopped at. Where a format or mode is unknown no text is at fault, and there is no word.
    fn refused(&mut self, r: &Refusal, left: &[i32], word: &[u8]) {
        let k = left.len();
        self.lines += &format!(
            "refused {} {} {k} {} {}",
            r.number, r.place, r.line, r.column
        );
        if !word.is_empty() && r.number != UNKNOWN {
            self.lines.push(' ');
            word.iter()
                .for_each(|byte| self.lines += &format!("{byte:02x}"));
        }
        self.lines.push('\n');
        self.refused = Some(r.number);
        self.left = left.to_vec();
    }
}

/// A buffer that holds a pattern before each call.
struct Buffer {
    held: Vec<i32>,
    pattern: Vec<i32>,
}

impl Buffer {
    fn new(room: usize) -> Self {
        let pattern: Vec<i32> = (1_700_000_000..).take(room).collect();
        Buffer {
            held: pattern.clone(),
            pattern,
        }
    }

    fn lent(&mut self) -> &mut [i32] {
        self.held.copy_from_slice(&self.pattern);
        &mut self.held
    }

    /// The literals that were told. Behind them the pattern must stand.
    fn told(&self, count: usize) -> &[i32] {
        assert_eq!(self.held[count..], self.pattern[count..]);
        &self.held[..count]
    }
}

/// By the calls over lent memory. The end and a refusal are asked for twice.
pub fn by_lent(case: &Case) -> Told {
    let mut told = Told::default();
    let mut buffer = Buffer::new(case.room);
    if u32::from(case.format) == Format::Log as u32 {
        log_by_lent(case, &mut buffer, &mut told);
    } else {
        clauses_by_lent(case, &mut buffer, &mut told);
    }
    told
}

fn log_by_lent(case: &Case, buffer: &mut Buffer, told: &mut Told) {
    let mode = case.mode.into();
    match lent::parse_log(mode, case.text, buffer.lent()) {
        Log::Accepted { verdict, count } => told.log(verdict, buffer.told(count)),
        Log::Refused { refusal, count } => {
            let word = lent::stopped_at(mode, case.text, refusal.place);
            told.refused(&refusal, buffer.told(count), word);
        }
    }
}

fn clauses_by_lent(case: &Case, buffer: &mut Buffer, told: &mut Told) {
    let (text, mode) = (case.text, case.mode.into());
    let (opening, mut cursor) = lent::open(case.format.into(), mode, text);
    match opening {
        Opening::NoHeader => told.header(case.format, None),
        Opening::Header(header) => told.header(case.format, Some(header)),
        Opening::Refused(refusal) => assert_eq!(
            { cursor }.next_clause(text, buffer.lent()),
            Next::Refused { refusal, count: 0 }
        ),
    }
    loop {
        let next = cursor.next_clause(text, buffer.lent());
        match next {
            Next::Clause { extra, count } => {
                told.clause(&lead(case.format, extra), buffer.told(count));
                continue;
            }
            Next::Ended => told.lines += "end\n",
            Next::Refused { refusal, count } => {
                let word = lent::stopped_at(mode, text, refusal.place);
                told.refused(&refusal, buffer.told(count), word);
            }
        }
        let again = match next {
            Next::Refused { refusal, .. } => Next::Refused { refusal, count: 0 },
            other => other,
        };
        let last = cursor;
        assert_eq!(cursor.next_clause(text, buffer.lent()), again);
        assert_eq!((cursor, buffer.told(0)), (last, &[][..]));
        return;
    }
}

/// The weight or group of a clause, as it is printed in the format of this number.
fn lead(format: u8, extra: u64) -> String {
    match (format, extra) {
        (0, _) => String::new(),
        (2, group) => format!(" {{{group}}}:"),
        (4, 0) => " h:".to_string(),
        (_, weight) => format!(" {weight}:"),
    }
}

/// By the parsers, with the most literals that are allowed, or any. There is nothing where the numbers name no format or no mode, as no parser can be made then.
pub fn by_parser(case: &Case, most: Option<usize>) -> Option<Told> {
    let format = format_of(case.format)?;
    let mode = mode_of(case.mode)?;
    let mut told = Told::default();
    match format {
        Format::Log => log_by_parser(case.text, mode, most, &mut told),
        format => clauses_by_parser(format, case, mode, most, &mut told),
    }
    Some(told)
}

fn format_of(number: u8) -> Option<Format> {
    Some(match number {
        0 => Format::Plain,
        1 => Format::Weighted,
        2 => Format::Grouped,
        3 => Format::Log,
        4 => Format::Weighted2022,
        _ => return None,
    })
}

fn mode_of(number: u8) -> Option<Mode> {
    Some(match number {
        0 => Mode::Strict,
        1 => Mode::Lenient,
        2 => Mode::StrictCr,
        3 => Mode::LenientCr,
        _ => return None,
    })
}

/// The parser of logs does not tell which literals stood before a refusal. Those of the call over lent memory are told in their place, if it answers the same.
fn log_by_parser(text: &[u8], mode: Mode, most: Option<usize>, told: &mut Told) {
    let config = sat_solver_log::Config::from(mode).max_literals(most);
    let refused = match sat_solver_log::parse_log(text, config) {
        Ok(log) => return told.log(log.verdict, &log.assignment),
        Err(refused) => refused,
    };
    let mut buffer = vec![0; most.unwrap_or(text.len())];
    match lent::parse_log(mode as u32, text, &mut buffer) {
        Log::Refused { refusal, count } if refusal == refused => {
            let word = lent::stopped_at(mode as u32, text, refused.place);
            told.refused(&refused, &buffer[..count], word);
        }
        other => panic!("{refused:?} by the parser, and {other:?}"),
    }
}

fn clauses_by_parser(
    format: Format,
    case: &Case,
    mode: Mode,
    most: Option<usize>,
    told: &mut Told,
) {
    let text = case.text;
    let mut parser = match Parser::new(format, text, Config::from(mode).max_literals(most)) {
        Ok(parser) => parser,
        Err(refusal) => {
            let word = lent::stopped_at(mode as u32, text, refusal.place);
            return told.refused(&refusal, &[], word);
        }
    };
    told.header(case.format, parser.header());
    loop {
        match parser.next_clause() {
            Ok(Some(clause)) => told.clause(&label(clause.label), clause.lits),
            Ok(None) => {
                told.lines += "end\n";
                assert_eq!(parser.next_clause(), Ok(None));
                break;
            }
            Err(refusal) => {
                told.refused(&refusal, parser.lits(), parser.stopped_at(&refusal));
                assert_eq!(parser.next_clause(), Err(refusal));
                break;
            }
        }
    }
    assert_eq!(parser.lits(), []);
}

/// What stands before the literals of a clause, as it is printed.
fn label(label: Label) -> String {
    match label {
        Label::None => String::new(),
        Label::Weight(weight) => format!(" {weight}:"),
        Label::Group(group) => format!(" {{{group}}}:"),
        Label::Hard => " h:".to_string(),
    }
}

/// What the calls over lent memory tell, after the parsers have told the same.
pub fn by_both(case: &Case) -> Told {
    let told = by_lent(case);
    if let Some(limited) = by_parser(case, Some(case.room)) {
        assert_eq!(limited, told, "by the parser, and by lent memory: {case:?}");
    }
    if let Some(free) = by_parser(case, None) {
        assert_ne!(free.refused, Some(BUFFER_FULL), "{case:?}");
        if told.refused != Some(BUFFER_FULL) {
            assert_eq!(free, told, "without a limit, and with one: {case:?}");
        }
    }
    told
}
