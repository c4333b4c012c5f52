//! One call of a writer: the line is the crate's, and whether it is written is judged here by
//! document 01, since the crate refuses nothing.

use std::io::{self, Read, Write};

use flussab::DeferredWriter;
use flussab_cnf::{cnf, gcnf, wcnf, Dimacs};

use crate::{lit::Lit, read_fully, skip};

/// A longer output counts as this one.
const LONGEST_OUTPUT: u32 = 65_536;

/// More literals are not read.
const MOST_LITERALS: u32 = 8_192;

/// The refusal of a number that names no format or no kind.
const UNKNOWN: Answer = Answer::Refused(26, 0);

/// What a call comes to: the line, or a refusal's number and place.
enum Answer {
    Line(Vec<u8>),
    Refused(u8, usize),
}

/// Reads and answers one call. Answers whether there may be another.
pub fn one_call(
    case: u64,
    input: &mut dyn Read,
    bytes: &mut Vec<u8>,
    transcript: &mut Vec<u8>,
) -> io::Result<bool> {
    // Format, kind, length of the output in four bytes, three numbers in eight each, count of
    // literals in four.
    let mut frame = [0; 34];
    let found = read_fully(input, &mut frame)?;
    if found == 0 {
        return Ok(false);
    }
    writeln!(transcript, "case {case}")?;
    if found < frame.len() {
        writeln!(transcript, "cut")?;
        return Ok(false);
    }

    let four = |at: usize| u32::from_le_bytes(frame[at..at + 4].try_into().unwrap());
    let eight = |at: usize| u64::from_le_bytes(frame[at..at + 8].try_into().unwrap());
    let (format, kind, length, count) = (frame[0], frame[1], four(2), four(30));
    let numbers = [6, 14, 22].map(eight);

    if count > MOST_LITERALS {
        writeln!(transcript, "long")?;
        return skip(u64::from(count) * 4, input, transcript);
    }
    bytes.resize(count as usize * 4, 0);
    if read_fully(input, bytes)? < bytes.len() {
        writeln!(transcript, "cut")?;
        return Ok(false);
    }
    let lits: Vec<i32> = bytes
        .chunks_exact(4)
        .map(|four| i32::from_le_bytes(four.try_into().unwrap()))
        .collect();

    let answer = match kind {
        0 => header(format, numbers),
        1 => clause(format, numbers[0], &lits),
        _ => UNKNOWN,
    };
    match answer {
        Answer::Line(line) if line.len() > length.min(LONGEST_OUTPUT) as usize => {
            writeln!(transcript, "refused 28 0 0 0 0")?
        }
        Answer::Line(line) => {
            write!(transcript, "written {} ", line.len())?;
            for byte in line {
                write!(transcript, "{byte:02x}")?;
            }
            writeln!(transcript)?;
        }
        Answer::Refused(number, place) => writeln!(transcript, "refused {number} {place} 0 0 0")?,
    }
    Ok(true)
}

/// The line of a header. The format is judged before the count of variables.
fn header(format: u8, [variables, clauses, third]: [u64; 3]) -> Answer {
    if format > 2 {
        return UNKNOWN;
    }
    if variables > Lit::MAX_DIMACS as u64 {
        return Answer::Refused(10, 0);
    }
    let [var_count, clause_count, count] = [variables, clauses, third].map(size);
    line(|writer| match format {
        0 => cnf::write_header(
            writer,
            cnf::Header {
                var_count,
                clause_count,
            },
        ),
        1 => wcnf::write_header(
            writer,
            wcnf::Header {
                var_count,
                clause_count,
                top_weight: third,
            },
        ),
        _ => gcnf::write_header(
            writer,
            gcnf::Header {
                var_count,
                clause_count,
                group_count: count,
            },
        ),
    })
}

/// The line of a clause. The format is judged before the literals.
fn clause(format: u8, extra: u64, lits: &[i32]) -> Answer {
    if format > 2 {
        return UNKNOWN;
    }
    if let Some(place) = lits.iter().position(|&lit| lit == 0 || lit == i32::MIN) {
        return Answer::Refused(27, place);
    }
    let lits: Vec<Lit> = lits.iter().copied().map(Lit).collect();
    line(|writer| match format {
        0 => cnf::write_clause(writer, &lits),
        1 => wcnf::write_clause(writer, extra, &lits),
        _ => gcnf::write_clause(writer, size(extra), &lits),
    })
}

/// What is written.
fn line(write: impl FnOnce(&mut DeferredWriter)) -> Answer {
    let mut bytes = Vec::new();
    let mut writer = DeferredWriter::from_write(&mut bytes);
    write(&mut writer);
    writer.flush().expect("a line in memory is written");
    drop(writer);
    Answer::Line(bytes)
}

fn size(number: u64) -> usize {
    number.try_into().expect("a count of 64 bits")
}
