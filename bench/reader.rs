//! A reader of the four formats as one would write it in Rust with no library, for bench/run to measure the host calls against. With `--cfg tuned` it reads its literals as tuned.rs does.
//!
//! It does what `latchtwig_refusal` and `latchtwig_place` do of formats 0 to 2 and 4: it reads every clause of a text into a buffer of 1,024 literals, applies the header's
//! counts, and answers a refusal's number and place, or 0 and the text's length.

#[cfg(tuned)]
mod tuned;
#[cfg(tuned)]
use tuned::literal;

const ROOM: usize = 1024;
const CEILING: u64 = i32::MAX as u64;

pub struct Outcome {
    pub number: u32,
    pub place: usize,
}

#[derive(Clone, Copy, PartialEq)]
enum Format {
    Plain,
    Weighted,
    Grouped,
    Weighted2022,
}

struct Refusal {
    number: u32,
    place: usize,
}

fn refused<T>(number: u32, place: usize) -> Result<T, Refusal> {
    Err(Refusal { number, place })
}

/// A number at a place: none, its value and the place past it and its blanks, or one beyond its limit.
enum Number<T> {
    Missing,
    Value(T, usize),
    TooBig,
}

fn skip_blanks(text: &[u8], mut at: usize) -> usize {
    while at < text.len() && (text[at] == b' ' || text[at] == b'\t') {
        at += 1;
    }
    at
}

fn word_ends(text: &[u8], at: usize) -> bool {
    at >= text.len() || matches!(text[at], b' ' | b'\t' | b'\r' | b'\n')
}

fn word(text: &[u8], at: usize, word: &[u8]) -> Option<usize> {
    let end = at + word.len();
    if text[at..].starts_with(word) && word_ends(text, end) {
        Some(skip_blanks(text, end))
    } else {
        None
    }
}

fn line_end(text: &[u8], at: usize) -> Option<usize> {
    match text.get(at) {
        Some(b'\n') => Some(at + 1),
        Some(b'\r') if text.get(at + 1) == Some(&b'\n') => Some(at + 2),
        _ => None,
    }
}

fn line_or_text_end(text: &[u8], at: usize) -> Result<usize, Refusal> {
    if at == text.len() {
        return Ok(at);
    }
    match line_end(text, at) {
        Some(next) => Ok(next),
        None => refused(5, at),
    }
}

/// Past comments and line ends, and the blanks after each.
fn skip_lines(text: &[u8], mut at: usize) -> usize {
    loop {
        if at < text.len() && text[at] == b'c' {
            while at < text.len() && text[at] != b'\n' {
                at += 1;
            }
            if at < text.len() {
                at += 1;
            }
        } else if let Some(next) = line_end(text, at) {
            at = next;
        } else {
            return at;
        }
        at = skip_blanks(text, at);
    }
}

/// Past one line end with further comments and line ends, if there is one.
fn skip_line_break(text: &[u8], at: usize) -> Option<usize> {
    let next = line_end(text, at)?;
    Some(skip_lines(text, skip_blanks(text, next)))
}

/// A run of digits of 64 bits: its value, none if it has more, and the place past it.
fn digits(text: &[u8], mut at: usize) -> (Option<u64>, usize) {
    let mut value = Some(0u64);
    while at < text.len() && text[at].is_ascii_digit() {
        let digit = u64::from(text[at] - b'0');
        value = value.and_then(|v| v.checked_mul(10)?.checked_add(digit));
        at += 1;
    }
    (value, at)
}

fn unsigned(text: &[u8], at: usize, limit: u64) -> Number<u64> {
    let (value, end) = digits(text, at);
    if end == at || !word_ends(text, end) {
        return Number::Missing;
    }
    match value {
        Some(value) if value <= limit => Number::Value(value, skip_blanks(text, end)),
        _ => Number::TooBig,
    }
}

fn group(text: &[u8], at: usize, limit: u64) -> Number<u64> {
    if text.get(at) != Some(&b'{') {
        return Number::Missing;
    }
    let (value, end) = digits(text, at + 1);
    if end == at + 1 || text.get(end) != Some(&b'}') {
        return Number::Missing;
    }
    match value {
        Some(value) if value <= limit => Number::Value(value, skip_blanks(text, end + 1)),
        _ => Number::TooBig,
    }
}

#[cfg(not(tuned))]
fn literal(text: &[u8], at: usize, limit: u64) -> Number<i32> {
    let negative = at < text.len() && text[at] == b'-';
    let start = if negative { at + 1 } else { at };
    let mut end = start;
    let mut size = 0u64;
    while end < text.len() && text[end].is_ascii_digit() {
        // A size above the ceiling is above every limit, and need not grow.
        if size <= CEILING {
            size = size * 10 + u64::from(text[end] - b'0');
        }
        end += 1;
    }
    if end == start || !word_ends(text, end) {
        return Number::Missing;
    }
    if size > limit {
        return Number::TooBig;
    }
    let value = if negative {
        -(size as i32)
    } else {
        size as i32
    };
    Number::Value(value, skip_blanks(text, end))
}

/// What begins a clause of the 2022 form: `h`, for which 0 stands, or a weight.
fn hard_or_weight(text: &[u8], at: usize) -> Result<Number<u64>, Refusal> {
    if word(text, at, b"p").is_some() {
        return refused(33, at);
    }
    if let Some(next) = word(text, at, b"h") {
        return Ok(Number::Value(0, next));
    }
    match unsigned(text, at, u64::MAX) {
        Number::Value(0, _) => refused(32, at),
        weight => Ok(weight),
    }
}

/// The literals up to the 0: how many there are and the place past the 0, or none if no number stands at the place.
fn literals(
    text: &[u8],
    mut at: usize,
    limit: u64,
    lits: &mut [i32],
) -> Result<Option<(usize, usize)>, Refusal> {
    let mut count = 0;
    let mut after_lines = false;
    loop {
        match literal(text, at, limit) {
            Number::Value(0, next) => return Ok(Some((count, next))),
            Number::Value(value, next) => {
                if count == lits.len() {
                    return refused(16, at);
                }
                lits[count] = value;
                count += 1;
                at = next;
                after_lines = false;
            }
            Number::TooBig => return refused(15, at),
            Number::Missing => {
                if count == 0 {
                    return Ok(None);
                }
                if after_lines {
                    return refused(7, at);
                }
                match skip_line_break(text, at) {
                    Some(next) => at = next,
                    None => return refused(6, at),
                }
                after_lines = true;
            }
        }
    }
}

pub struct Clause {
    pub extra: u64,
    pub count: usize,
}

struct Reader<'a> {
    text: &'a [u8],
    at: usize,
    format: Format,
    literal_limit: u64,
    group_limit: u64,
    /// How many clauses there must be, 0 if nothing says.
    clauses: u64,
    read: u64,
}

impl<'a> Reader<'a> {
    fn open(text: &'a [u8], format: Format, lenient: bool) -> Result<Self, Refusal> {
        let at = skip_lines(text, skip_blanks(text, 0));
        let mut reader = Reader {
            text,
            at,
            format,
            literal_limit: CEILING,
            group_limit: u64::MAX,
            clauses: 0,
            read: 0,
        };
        let name: &[u8] = match format {
            Format::Plain => b"cnf",
            Format::Weighted => b"wcnf",
            Format::Grouped => b"gcnf",
            Format::Weighted2022 => return Ok(reader),
        };
        let Some(at) = word(text, at, b"p") else {
            return Ok(reader);
        };
        let Some(at) = word(text, at, name) else {
            return refused(1, at);
        };
        let (variables, at) = match unsigned(text, at, CEILING) {
            Number::Missing => return refused(2, at),
            Number::TooBig => return refused(10, at),
            Number::Value(variables, next) => (variables, next),
        };
        let (clauses, at) = match unsigned(text, at, u64::MAX) {
            Number::Missing => return refused(3, at),
            Number::TooBig => return refused(11, at),
            Number::Value(clauses, next) => (clauses, next),
        };
        let (third, at) = if format == Format::Plain {
            (0, at)
        } else {
            match unsigned(text, at, u64::MAX) {
                Number::Missing => return refused(4, at),
                Number::TooBig => return refused(12, at),
                Number::Value(third, next) => (third, next),
            }
        };
        reader.at = line_or_text_end(text, at)?;
        if !lenient {
            if variables != 0 {
                reader.literal_limit = variables;
            }
            if format == Format::Grouped && third != 0 {
                reader.group_limit = third;
            }
            reader.clauses = clauses;
        }
        Ok(reader)
    }

    /// The next clause, or none at the end.
    fn next_clause(&mut self, lits: &mut [i32]) -> Result<Option<Clause>, Refusal> {
        let text = self.text;
        let at = skip_lines(text, skip_blanks(text, self.at));
        if self.clauses != 0 && self.read >= self.clauses {
            return self.no_clause(at);
        }
        let number = match self.format {
            Format::Plain => Number::Value(0, at),
            Format::Weighted => unsigned(text, at, u64::MAX),
            Format::Grouped => group(text, at, self.group_limit),
            Format::Weighted2022 => hard_or_weight(text, at)?,
        };
        let (extra, from) = match number {
            Number::Missing => return self.no_clause(at),
            Number::TooBig if self.format == Format::Grouped => return refused(14, at),
            Number::TooBig => return refused(13, at),
            Number::Value(extra, next) => (extra, next),
        };
        let from = if self.format == Format::Plain {
            from
        } else {
            skip_line_break(text, from).unwrap_or(from)
        };
        match literals(text, from, self.literal_limit, lits)? {
            Some((count, next)) => {
                self.at = line_or_text_end(text, next)?;
                self.read += 1;
                Ok(Some(Clause { extra, count }))
            }
            None if self.format == Format::Plain => self.no_clause(at),
            None => refused(8, from),
        }
    }

    fn no_clause(&self, at: usize) -> Result<Option<Clause>, Refusal> {
        if at == self.text.len() && self.read >= self.clauses {
            return Ok(None);
        }
        refused(9, at)
    }
}

/// The whole text into a lent buffer. Not inlined, so that the literals must be stored.
#[inline(never)]
fn read_into(text: &[u8], format: Format, lenient: bool, lits: &mut [i32]) -> Result<(), Refusal> {
    let mut reader = Reader::open(text, format, lenient)?;
    while reader.next_clause(lits)?.is_some() {}
    Ok(())
}

pub fn read(format: u32, mode: u32, text: &[u8]) -> Outcome {
    let format = match format {
        0 => Format::Plain,
        1 => Format::Weighted,
        2 => Format::Grouped,
        4 => Format::Weighted2022,
        _ => {
            return Outcome {
                number: 26,
                place: 0,
            }
        }
    };
    if mode > 1 {
        return Outcome {
            number: 26,
            place: 0,
        };
    }
    let mut lits = [0; ROOM];
    match read_into(text, format, mode == 1, &mut lits) {
        Ok(()) => Outcome {
            number: 0,
            place: text.len(),
        },
        Err(refusal) => Outcome {
            number: refusal.number,
            place: refusal.place,
        },
    }
}

/// The refusal's number, called as `latchtwig_refusal` is.
///
/// # Safety
/// As of `latchtwig_refusal`: `text` has `length` bytes.
#[cfg_attr(not(tuned), export_name = "rust_refusal")]
#[cfg_attr(tuned, export_name = "tuned_refusal")]
pub unsafe extern "C" fn refusal(format: u32, mode: u32, text: *const u8, length: usize) -> u32 {
    read(format, mode, unsafe {
        std::slice::from_raw_parts(text, length)
    })
    .number
}

/// The refusal's place, called as `latchtwig_place` is.
///
/// # Safety
/// As of `refusal`.
#[cfg_attr(not(tuned), export_name = "rust_place")]
#[cfg_attr(tuned, export_name = "tuned_place")]
pub unsafe extern "C" fn place(format: u32, mode: u32, text: *const u8, length: usize) -> u64 {
    read(format, mode, unsafe {
        std::slice::from_raw_parts(text, length)
    })
    .place as u64
}
