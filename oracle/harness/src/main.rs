//! Reads framed cases from standard input, has flussab-cnf read each text, and writes what it
//! answered to standard output in document 01's terms. With the argument `written` the cases are
//! calls, and flussab-cnf writes the lines. README.md has the formats.

mod answer;
mod lit;
mod position;
mod refusal;
mod written;

use std::{
    env,
    io::{self, BufReader, Read, Write},
};

/// A longer text is not read.
const LONGEST: u32 = 65_536;

/// More room than this counts as this much.
const MOST_ROOM: u32 = 4_096;

/// Output is handed on when it has grown to this size.
const BLOCK: usize = 1 << 20;

fn main() -> io::Result<()> {
    let one_case = match env::args().nth(1).as_deref() {
        None => one_text,
        Some("written") => written::one_call,
        Some(other) => panic!("{other} is no kind of cases"),
    };
    let mut input = BufReader::with_capacity(BLOCK, io::stdin().lock());
    let mut output = io::stdout().lock();
    let mut transcript = Vec::with_capacity(2 * BLOCK);
    let mut text = Vec::new();

    for case in 0_u64.. {
        let more = one_case(case, &mut input, &mut text, &mut transcript)?;
        if !more || transcript.len() >= BLOCK {
            output.write_all(&transcript)?;
            transcript.clear();
        }
        if !more {
            break;
        }
    }
    output.flush()
}

/// Reads a text and answers it. Answers whether there may be another.
fn one_text(
    case: u64,
    input: &mut dyn Read,
    text: &mut Vec<u8>,
    transcript: &mut Vec<u8>,
) -> io::Result<bool> {
    // Format, mode, room in four bytes, length in four.
    let mut frame = [0; 10];
    let found = read_fully(input, &mut frame)?;
    if found == 0 {
        return Ok(false);
    }
    writeln!(transcript, "case {case}")?;
    if found < frame.len() {
        writeln!(transcript, "cut")?;
        return Ok(false);
    }

    let [format, mode, frame @ ..] = frame;
    let [room, length] = [0, 4]
        .map(|at| u32::from_le_bytes([frame[at], frame[at + 1], frame[at + 2], frame[at + 3]]));

    if length > LONGEST {
        writeln!(transcript, "long")?;
        return skip(length.into(), input, transcript);
    }

    text.resize(length as usize, 0);
    if read_fully(input, text)? < text.len() {
        writeln!(transcript, "cut")?;
        return Ok(false);
    }

    answer::answer(format, mode, room.min(MOST_ROOM) as usize, text, transcript)?;
    Ok(true)
}

/// Passes over so many bytes. Answers whether they came.
fn skip(length: u64, input: &mut dyn Read, transcript: &mut Vec<u8>) -> io::Result<bool> {
    let skipped = io::copy(&mut input.take(length), &mut io::sink())?;
    if skipped < length {
        writeln!(transcript, "cut")?;
    }
    Ok(skipped == length)
}

/// Fills the buffer as far as the input goes. Answers how many bytes came.
fn read_fully(input: &mut dyn Read, buffer: &mut [u8]) -> io::Result<usize> {
    let mut found = 0;
    while found < buffer.len() {
        match input.read(&mut buffer[found..]) {
            Ok(0) => break,
            Ok(more) => found += more,
            Err(error) if error.kind() == io::ErrorKind::Interrupted => {}
            Err(error) => return Err(error),
        }
    }
    Ok(found)
}
