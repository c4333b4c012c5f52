//! What is written is read back, what is refused is not begun, and the stored calls of `crates/writer_cases` write the stored bytes.

mod frames;
mod random;

use frames::front;
use latchtwig::lent::{self, Header};
use latchtwig::wcnf2022::Weight;
use latchtwig::{cnf, gcnf, wcnf, wcnf2022, Config, Error, Format, Refusal, Writer};
use random::Random;
use std::io::{self, Write};

const FORMULAS: usize = 5_000;
const CEILING: u64 = i32::MAX as u64;

/// Random parts of a formula.
impl Random {
    fn literal(&mut self) -> i32 {
        let size = self.bits(31).max(1) as i32;
        [size, -size][self.below(2)]
    }

    /// Mostly few literals, and now and then more than the parsers' first buffers hold.
    fn literals(&mut self) -> Vec<i32> {
        let count = match self.below(200) {
            0 => 60 + self.below(10),
            1 => 250 + self.below(10),
            _ => self.below(12),
        };
        (0..count).map(|_| self.literal()).collect()
    }

    fn clauses<T>(&mut self, part: impl Fn(&mut Self) -> T) -> Vec<(T, Vec<i32>)> {
        (0..self.below(8))
            .map(|_| (part(self), self.literals()))
            .collect()
    }

    /// 0, which leaves a count open, or a limit that these numbers keep.
    fn limit(&mut self, most: u64, numbers: impl Iterator<Item = u64>) -> u64 {
        let least = numbers.max().unwrap_or(0);
        match self.below(4) {
            0 => 0,
            1 => least,
            2 => most,
            _ => least + self.bits(64) % (most - least).max(1),
        }
    }

    /// A count of clauses: 0, which leaves it open, or the true one.
    fn count(&mut self, clauses: usize) -> u64 {
        [0, clauses as u64][self.below(2)]
    }
}

fn variables<T>(clauses: &[(T, Vec<i32>)]) -> impl Iterator<Item = u64> + '_ {
    let lits = clauses.iter().flat_map(|(_, lits)| lits);
    lits.map(|lit| lit.unsigned_abs().into())
}

/// What a writer hands on.
fn written(write: impl FnOnce(&mut Writer<Vec<u8>>) -> Result<(), Error>) -> Vec<u8> {
    let mut writer = Writer::new(Vec::new());
    write(&mut writer).unwrap();
    writer.into_inner()
}

/// All clauses, or the refusal.
fn all<T>(clauses: impl Iterator<Item = Result<T, Refusal>>) -> Result<Vec<T>, Refusal> {
    clauses.collect()
}

/// Strictly, and with the counts ignored.
fn configs() -> [Config; 2] {
    [Config::default(), Config::default().ignore_header(true)]
}

#[test]
fn plain_formulas_are_read_back() {
    let random = &mut Random(1);
    for _ in 0..FORMULAS {
        let clauses = random.clauses(|_| ());
        let header = cnf::Header {
            var_count: random.limit(CEILING, variables(&clauses)),
            clause_count: random.count(clauses.len()),
        };
        let header = Some(header).filter(|_| random.below(4) > 0);
        let text = written(|writer| {
            header.map_or(Ok(()), |header| cnf::write_header(writer, header))?;
            let mut lines = clauses.iter();
            lines.try_for_each(|(_, lits)| cnf::write_clause(writer, lits))
        });
        for config in configs() {
            let parser = cnf::Parser::new(&text, config).unwrap();
            assert_eq!(parser.header(), header);
            let read = all(parser.map(|lits| Ok(((), lits?))));
            assert_eq!(read, Ok(clauses.clone()));
        }
    }
}

#[test]
fn weighted_formulas_are_read_back() {
    let random = &mut Random(2);
    for _ in 0..FORMULAS {
        let clauses = random.clauses(|random| random.bits(64));
        let header = wcnf::Header {
            var_count: random.limit(CEILING, variables(&clauses)),
            clause_count: random.count(clauses.len()),
            top_weight: random.bits(64),
        };
        let header = Some(header).filter(|_| random.below(4) > 0);
        let text = written(|writer| {
            header.map_or(Ok(()), |header| wcnf::write_header(writer, header))?;
            let mut lines = clauses.iter();
            lines.try_for_each(|(weight, lits)| wcnf::write_clause(writer, *weight, lits))
        });
        for config in configs() {
            let parser = wcnf::Parser::new(&text, config).unwrap();
            assert_eq!(parser.header(), header);
            assert_eq!(all(parser), Ok(clauses.clone()));
        }
    }
}

#[test]
fn grouped_formulas_are_read_back() {
    let random = &mut Random(3);
    for _ in 0..FORMULAS {
        let clauses = random.clauses(|random| random.bits(64));
        let header = gcnf::Header {
            var_count: random.limit(CEILING, variables(&clauses)),
            clause_count: random.count(clauses.len()),
            group_count: random.limit(u64::MAX, clauses.iter().map(|(group, _)| *group)),
        };
        let header = Some(header).filter(|_| random.below(4) > 0);
        let text = written(|writer| {
            header.map_or(Ok(()), |header| gcnf::write_header(writer, header))?;
            let mut lines = clauses.iter();
            lines.try_for_each(|(group, lits)| gcnf::write_clause(writer, *group, lits))
        });
        for config in configs() {
            let parser = gcnf::Parser::new(&text, config).unwrap();
            assert_eq!(parser.header(), header);
            assert_eq!(all(parser), Ok(clauses.clone()));
        }
    }
}

#[test]
fn formulas_of_the_2022_form_are_read_back() {
    let random = &mut Random(4);
    for _ in 0..FORMULAS {
        let clauses = random.clauses(|random| match random.below(2) {
            0 => Weight::Hard,
            _ => Weight::Soft(random.bits(64).max(1)),
        });
        let text = written(|writer| {
            let mut lines = clauses.iter();
            lines.try_for_each(|(weight, lits)| wcnf2022::write_clause(writer, *weight, lits))
        });
        for config in configs() {
            let parser = wcnf2022::Parser::new(&text, config).unwrap();
            assert_eq!(all(parser), Ok(clauses.clone()));
        }
    }
}

/// Counts that are not true are written as they stand, refused strictly, and read where they are ignored.
#[test]
fn untrue_counts_are_written_too() {
    let header = cnf::Header {
        var_count: 1,
        clause_count: 3,
    };
    let text = written(|writer| {
        cnf::write_header(writer, header)?;
        cnf::write_clause(writer, &[1])?;
        cnf::write_clause(writer, &[-2])
    });
    assert_eq!(text, b"p cnf 1 3\n1 0\n-2 0\n");
    let [strict, lenient] = configs().map(|config| {
        let parser = cnf::Parser::new(&text, config).unwrap();
        assert_eq!(parser.header(), Some(header));
        all(parser)
    });
    assert_eq!(strict.unwrap_err().number, 15);
    assert_eq!(lenient, Ok(vec![vec![1], vec![-2]]));
}

/// What an output holds before a call.
fn pattern(length: usize) -> Vec<u8> {
    (0..=250).cycle().take(length).collect()
}

/// The most literals and the longest output of the program `writer_cases`.
const MOST_LITERALS: usize = 8_192;
const LONGEST_OUTPUT: usize = 65_536;

/// A call of a writer, as `crates/writer_cases` takes it.
struct Call {
    format: u32,
    kind: u8,
    length: usize,
    numbers: [u64; 3],
    lits: Vec<i32>,
}

/// The call at the front, or what is said in its place: the literals are too many, or the frame is cut off.
fn framed(rest: &mut &[u8]) -> Result<Call, &'static str> {
    let mut head = || {
        let [format, kind] = front(rest)?;
        let length = u32::from_le_bytes(front(rest)?) as usize;
        let mut numbers = [0; 3];
        for number in &mut numbers {
            *number = u64::from_le_bytes(front(rest)?);
        }
        let count = u32::from_le_bytes(front(rest)?) as usize;
        let lits = (0..count).map(|_| Some(i32::from_le_bytes(front(rest)?)));
        Some(Call {
            format: format.into(),
            kind,
            length: length.min(LONGEST_OUTPUT),
            numbers,
            lits: lits.collect::<Option<_>>()?,
        })
    };
    match head() {
        Some(call) if call.lits.len() > MOST_LITERALS => Err("long\n"),
        Some(call) => Ok(call),
        None => {
            *rest = &[];
            Err("cut\n")
        }
    }
}

impl Call {
    /// The call made, of the kind that its number names. No other kind can be called.
    fn made(&self, out: &mut [u8]) -> Option<Result<usize, Refusal>> {
        let [variables, clauses, third] = self.numbers;
        let header = Header {
            variables,
            clauses,
            third,
        };
        match self.kind {
            0 => Some(lent::write_header(self.format, header, out)),
            1 => Some(lent::write_clause(self.format, variables, &self.lits, out)),
            2 => Some(lent::write_hard_clause(self.format, &self.lits, out)),
            _ => None,
        }
    }

    /// What the program prints of it. Behind the line, and where it is refused, the output must stay as it is.
    fn lines(&self) -> String {
        let mut out = pattern(self.length);
        let (length, said) = match self.made(&mut out) {
            Some(Ok(length)) => {
                let line: String = out[..length].iter().map(|b| format!("{b:02x}")).collect();
                (length, format!("written {length} {line}\n"))
            }
            Some(Err(r)) => {
                assert_eq!((r.line, r.column), (0, 0));
                (0, format!("refused {} {} 0 0 0\n", r.number, r.place))
            }
            None => (0, "refused 26 0 0 0 0\n".to_string()),
        };
        assert_eq!(out[length..], pattern(self.length)[length..]);
        said
    }
}

#[test]
fn stored_calls() {
    let mut given: &[u8] = include_bytes!("../../../crates/writer_cases/stdin");
    let mut said = String::new();
    let mut number = 0;
    while !given.is_empty() {
        said += &format!("case {number}\n");
        said += &framed(&mut given).map_or_else(str::to_string, |call| call.lines());
        number += 1;
    }
    assert!(said == include_str!("../../../crates/writer_cases/stdout"));
}

fn line_of(format: Format) -> impl Fn(u64, &[i32], &mut [u8]) -> Result<usize, Refusal> {
    move |extra, lits, out| lent::write_clause(format as u32, extra, lits, out)
}

/// The number and place by which a call is refused, with an output of this length left as it is.
fn refused(length: usize, call: impl FnOnce(&mut [u8]) -> Result<usize, Refusal>) -> (u32, usize) {
    let mut out = pattern(length);
    let refusal = call(&mut out).unwrap_err();
    assert_eq!(out, pattern(length));
    assert_eq!((refusal.line, refusal.column), (0, 0));
    (refusal.number, refusal.place)
}

fn header(variables: u64) -> Header {
    Header {
        variables,
        ..Header::default()
    }
}

#[test]
fn refused_lines_leave_the_output() {
    let (plain, soft) = (line_of(Format::Plain), line_of(Format::Weighted2022));
    for format in 0..3 {
        let counted = refused(99, |out| lent::write_header(format, header(1 << 31), out));
        assert_eq!(counted, (10, 0));
        let hard = refused(99, |out| lent::write_hard_clause(format, &[1], out));
        assert_eq!(hard, (26, 0));
    }
    for format in [3, 5, 256, u32::MAX] {
        let unknown = refused(99, |out| lent::write_clause(format, 1, &[1], out));
        assert_eq!(unknown, (26, 0));
        let unknown = refused(99, |out| lent::write_hard_clause(format, &[1], out));
        assert_eq!(unknown, (26, 0));
    }
    for format in 3..6 {
        let none = refused(99, |out| lent::write_header(format, header(1), out));
        assert_eq!(none, (26, 0));
    }
    assert_eq!(refused(99, |out| plain(0, &[1, 0], out)), (27, 1));
    assert_eq!(refused(99, |out| plain(0, &[i32::MIN, 0], out)), (27, 0));
    assert_eq!(refused(99, |out| soft(0, &[0], out)), (32, 0));
    assert_eq!(refused(0, |out| plain(0, &[1, 2, 0], out)), (27, 2));
    for length in 0..8 {
        assert_eq!(refused(length, |out| plain(0, &[1, -22], out)), (28, 0));
    }
    assert_eq!(plain(0, &[1, -22], &mut pattern(8)), Ok(8));
}

/// Takes a few bytes, at most two at once, and then no more.
struct Full(usize, Vec<u8>);

impl Write for Full {
    fn write(&mut self, bytes: &[u8]) -> io::Result<usize> {
        let taken = bytes.len().min(2).min(self.0 - self.1.len());
        if taken == 0 {
            return Err(io::Error::new(io::ErrorKind::Other, "the disk is full"));
        }
        self.1.extend_from_slice(&bytes[..taken]);
        Ok(taken)
    }

    fn flush(&mut self) -> io::Result<()> {
        Err(io::Error::new(io::ErrorKind::BrokenPipe, "no one listens"))
    }
}

#[test]
fn what_a_write_says_is_handed_on() {
    let mut writer = Writer::new(Full(12, Vec::new()));
    cnf::write_clause(&mut writer, &[1, -2, 3]).unwrap();
    assert_eq!(writer.get_ref().1, b"1 -2 3 0\n");
    // What is refused is not begun, so that the full disk is not met.
    let refused = cnf::write_clause(&mut writer, &[1, 0]).unwrap_err();
    assert!(
        matches!(
            refused,
            Error::Refused(Refusal {
                number: 27,
                place: 1,
                ..
            })
        ),
        "{refused:?}"
    );
    assert_eq!(
        refused.to_string(),
        "refusal 27: a literal other than 0 and -2147483648 is expected"
    );
    let full = cnf::write_clause(&mut writer, &[4, 5]).unwrap_err();
    assert!(
        matches!(&full, Error::Io(error) if error.kind() == io::ErrorKind::Other),
        "{full:?}"
    );
    assert_eq!(full.to_string(), "the disk is full");
    assert_eq!(writer.get_ref().1, b"1 -2 3 0\n4 5");
    assert_eq!(
        writer.flush().unwrap_err().kind(),
        io::ErrorKind::BrokenPipe
    );
}

/// The number by which a line is refused. Nothing is written of it, and the next line is written as if it had not been.
fn refused_by_writer(write: impl FnOnce(&mut Writer<Vec<u8>>) -> Result<(), Error>) -> u32 {
    let mut writer = Writer::new(b"before\n".to_vec());
    let refusal = match write(&mut writer) {
        Err(Error::Refused(refusal)) => refusal,
        other => panic!("{other:?}"),
    };
    cnf::write_clause(&mut writer, &[7]).unwrap();
    assert_eq!(writer.into_inner(), b"before\n7 0\n");
    refusal.number
}

#[test]
fn refused_lines_are_not_begun() {
    let variables = 1 << 31;
    let counts = cnf::Header {
        var_count: variables,
        clause_count: 0,
    };
    assert_eq!(refused_by_writer(|w| cnf::write_header(w, counts)), 10);
    for format in [Format::Plain, Format::Weighted, Format::Grouped] {
        assert_eq!(
            refused_by_writer(|w| w.header(format, header(variables))),
            10
        );
        assert_eq!(refused_by_writer(|w| w.hard_clause(format, &[1])), 26);
        assert_eq!(
            refused_by_writer(|w| w.clause(format, 0, &[1, i32::MIN])),
            27
        );
    }
    for format in [Format::Log, Format::Weighted2022] {
        assert_eq!(refused_by_writer(|w| w.header(format, header(1))), 26);
    }
    assert_eq!(refused_by_writer(|w| w.clause(Format::Log, 1, &[1])), 26);
    assert_eq!(
        refused_by_writer(|w| wcnf2022::write_clause(w, Weight::Soft(0), &[0])),
        32
    );
    assert_eq!(
        refused_by_writer(|w| wcnf2022::write_clause(w, Weight::Hard, &[0])),
        27
    );
    assert_eq!(refused_by_writer(|w| gcnf::write_clause(w, 1, &[2, 0])), 27);
    assert_eq!(refused_by_writer(|w| wcnf::write_clause(w, 1, &[2, 0])), 27);
}

/// The longest lines: all numbers at their largest.
#[test]
fn longest_lines() {
    let (var_count, most) = (CEILING, u64::MAX);
    let weighted = wcnf::Header {
        var_count,
        clause_count: most,
        top_weight: most,
    };
    let line = written(|writer| wcnf::write_header(writer, weighted));
    assert_eq!(
        line,
        format!("p wcnf 2147483647 {most} {most}\n").into_bytes()
    );
    assert_eq!(
        wcnf::Parser::new(&line, Config::default())
            .unwrap()
            .header(),
        Some(weighted)
    );
    let grouped = gcnf::Header {
        var_count,
        clause_count: most,
        group_count: most,
    };
    let line = written(|writer| gcnf::write_header(writer, grouped));
    assert_eq!(
        line,
        format!("p gcnf 2147483647 {most} {most}\n").into_bytes()
    );
    assert_eq!(
        gcnf::Parser::new(&line, Config::default())
            .unwrap()
            .header(),
        Some(grouped)
    );
    for count in [0, 1, 2, 3, 1000] {
        let lits = vec![-i32::MAX; count];
        let line = written(|writer| gcnf::write_clause(writer, most, &lits));
        assert_eq!(
            line,
            format!("{{{most}}} {}0\n", "-2147483647 ".repeat(count)).into_bytes()
        );
        let mut parser = gcnf::Parser::new(&line, Config::default()).unwrap();
        assert_eq!(parser.next_clause(), Ok(Some((most, &lits[..]))));
    }
}
