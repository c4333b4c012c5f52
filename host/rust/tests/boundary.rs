//! The boundary from Rust: the stored cases, and texts at its edges.

use latchtwig::{check, check_by_number, Format, Mode, Refusal};
use std::error::Error;
use std::{env, fs, thread};

const FORMATS: [Format; 5] = [
    Format::Plain,
    Format::Weighted,
    Format::Grouped,
    Format::Log,
    Format::Weighted2022,
];
const MODES: [Mode; 4] = [Mode::Strict, Mode::Lenient, Mode::StrictCr, Mode::LenientCr];
const MEGABYTE: usize = 1 << 20;
const BUFFER_FULL: u32 = 16;

/// Number, place, line and column as the call leaves them: 0, the length, 0 and 0 for a text read to its end.
fn outcome(format: u32, mode: u32, text: &[u8]) -> (u32, usize, usize, usize) {
    match check_by_number(format, mode, text) {
        Ok(()) => (0, text.len(), 0, 0),
        Err(r) => (r.number, r.place, r.line, r.column),
    }
}

fn refused(number: u32, place: usize, line: usize, column: usize) -> Result<(), Refusal> {
    Err(Refusal {
        number,
        place,
        line,
        column,
    })
}

/// Refused at the text's start.
fn at_once(number: u32) -> Result<(), Refusal> {
    refused(number, 0, 1, 1)
}

fn stored(path: &str) -> Vec<u8> {
    let path = format!("{}/../../crates/{path}", env!("CARGO_MANIFEST_DIR"));
    fs::read(&path).unwrap_or_else(|error| panic!("{path}: {error}"))
}

/// Takes so many bytes from the front.
fn take<'a>(bytes: &mut &'a [u8], count: usize) -> &'a [u8] {
    let (front, rest) = bytes.split_at(count);
    *bytes = rest;
    front
}

fn take_u32(bytes: &mut &[u8]) -> u32 {
    u32::from_le_bytes(take(bytes, 4).try_into().unwrap())
}

/// The last line of each case of a transcript, as words.
fn last_lines(transcript: &str) -> Vec<Vec<&str>> {
    let cases = transcript.split("case ").skip(1);
    cases
        .map(|case| case.lines().last().unwrap().split(' ').collect())
        .collect()
}

/// Every case of crates/reader_cases. Where its own room ran out, the calls have more: they get further, and the buffer is not full.
#[test]
fn stored_cases() {
    let (given, said) = (stored("reader_cases/stdin"), stored("reader_cases/stdout"));
    let said = String::from_utf8(said).unwrap();
    let lines = last_lines(&said);
    let mut given = &given[..];
    let mut counts = [0, 0];
    for line in &lines {
        let (format, mode) = (take(&mut given, 1)[0].into(), take(&mut given, 1)[0].into());
        let _room = take_u32(&mut given);
        let length = take_u32(&mut given) as usize;
        let text = take(&mut given, length);
        let found = outcome(format, mode, text);
        if line[0] != "refused" {
            assert_eq!(found, (0, length, 0, 0), "{format} {mode} {text:?}");
            counts[0] += 1;
            continue;
        }
        let (number, place) = (line[1].parse().unwrap(), line[2].parse().unwrap());
        let (row, column) = (line[4].parse().unwrap(), line[5].parse().unwrap());
        if number == BUFFER_FULL {
            assert!(
                found.0 != BUFFER_FULL && found.1 > place,
                "{format} {mode} {text:?}: {found:?}"
            );
            counts[1] += 1;
        } else {
            assert_eq!(
                found,
                (number, place, row, column),
                "{format} {mode} {text:?}"
            );
            counts[0] += 1;
        }
    }
    assert!(given.is_empty());
    println!(
        "{} stored answers equal, {} where the stored room was too small",
        counts[0], counts[1]
    );
    assert!(counts[0] > 4000);
}

/// Every case of crates/host_cases: numbers above a byte, and clauses as long as the room, among them.
#[test]
fn host_cases() {
    let (given, said) = (stored("host_cases/stdin"), stored("host_cases/stdout"));
    let said = String::from_utf8(said).unwrap();
    let mut given = &given[..];
    for line in said.lines() {
        let (format, mode, length) = (
            take_u32(&mut given),
            take_u32(&mut given),
            take_u32(&mut given),
        );
        let text = take(&mut given, length as usize);
        let (number, place, row, column) = outcome(format, mode, text);
        assert_eq!(
            format!("{number} {place} {number} {place} {row} {column}"),
            line,
            "{format} {mode} {text:?}"
        );
    }
    assert!(given.is_empty());
}

#[test]
fn empty_text() {
    for format in FORMATS {
        for mode in MODES {
            assert_eq!(check(format, mode, b""), Ok(()));
            assert_eq!(check(format, mode, &Vec::new()), Ok(()));
        }
    }
}

#[test]
fn only_the_slice_is_read() {
    let text = b"1 0\n1 0 2 0\n";
    assert_eq!(check(Format::Plain, Mode::Strict, &text[..4]), Ok(()));
    assert_eq!(
        check(Format::Plain, Mode::Strict, &text[..9]),
        refused(5, 8, 2, 5)
    );
    assert_eq!(check(Format::Plain, Mode::Strict, &text[..3]), Ok(()));
    assert_eq!(
        check(Format::Plain, Mode::Strict, &text[..1]),
        refused(6, 1, 1, 2)
    );
}

/// A line again and again, as often as it fits the length.
fn lines(line: &str, length: usize) -> Vec<u8> {
    line.repeat(length / line.len()).into_bytes()
}

#[test]
fn megabytes() {
    for (format, line) in [
        (Format::Plain, "1 -2 3 0\n"),
        (Format::Weighted, "5 1 -2 3 0\n"),
        (Format::Grouped, "{7} 1 -2 3 0\n"),
        (Format::Log, "c 1 -2 3 0\n"),
        (Format::Weighted2022, "h 1 -2 3 0\n"),
        (Format::Weighted2022, "5 1 -2 3 0\n"),
        (Format::Plain, "c a comment\n"),
        (Format::Plain, "\r\n"),
        (Format::Plain, " "),
        (Format::Plain, "1 \n0\n"),
    ] {
        let mut text = lines(line, MEGABYTE);
        for mode in MODES {
            assert_eq!(check(format, mode, &text), Ok(()), "{line:?}");
        }
        let length = text.len();
        let (row, column) = match line {
            " " => (1, length + 1),
            _ => (text.iter().filter(|&&byte| byte == b'\n').count() + 1, 1),
        };
        text.extend_from_slice(b"x\n");
        let number = if format == Format::Log { 18 } else { 9 };
        assert_eq!(
            check(format, Mode::Strict, &text),
            refused(number, length, row, column),
            "{line:?}"
        );
    }
}

#[test]
fn one_word_of_a_megabyte() {
    let mut text = vec![b'9'; MEGABYTE];
    assert_eq!(check(Format::Plain, Mode::Strict, &text), at_once(15));
    assert_eq!(check(Format::Weighted, Mode::Strict, &text), at_once(13));
    text.push(b'x');
    assert_eq!(check(Format::Plain, Mode::Strict, &text), at_once(9));
    text.iter_mut().for_each(|byte| *byte = b'0');
    assert_eq!(check(Format::Plain, Mode::Strict, &text), Ok(()));
    text.iter_mut().for_each(|byte| *byte = 0);
    assert_eq!(check(Format::Plain, Mode::Strict, &text), at_once(9));
}

#[test]
fn empty_clauses() {
    let text = lines("0\n", 1 << 16);
    assert_eq!(check(Format::Plain, Mode::Strict, &text), Ok(()));
    assert_eq!(check(Format::Weighted, Mode::Strict, &text), Ok(()));
    assert_eq!(check(Format::Grouped, Mode::Strict, &text), at_once(9));
    assert_eq!(check(Format::Log, Mode::Strict, &text), at_once(18));
    assert_eq!(check(Format::Log, Mode::Lenient, &text), Ok(()));
    let weight_zero = check(Format::Weighted2022, Mode::Lenient, &text);
    assert_eq!(weight_zero, at_once(32));
}

#[test]
fn many_threads() {
    let text = lines("1 -2 3 0\n", MEGABYTE / 4);
    thread::scope(|scope| {
        for _ in 0..8 {
            scope.spawn(|| {
                assert_eq!(check(Format::Plain, Mode::Strict, &text), Ok(()));
                assert_eq!(check(Format::Grouped, Mode::Strict, &text), at_once(9));
            });
        }
    });
}

#[test]
fn words() {
    let numbers: Vec<u32> = (1..20).chain([26]).collect();
    let said: Vec<&str> = numbers
        .iter()
        .map(|&number| at_once(number).unwrap_err().words())
        .collect();
    let other = at_once(99).unwrap_err().words();
    for (at, words) in said.iter().enumerate() {
        assert!(
            words.ends_with("expected") || words.contains(" expected"),
            "{words}"
        );
        assert!(*words != other && !said[..at].contains(words), "{words}");
    }
    let refusal: Box<dyn Error + Send + Sync> =
        Box::new(check(Format::Log, Mode::Strict, b"v 1 -2\n").unwrap_err());
    assert_eq!(
        refusal.to_string(),
        "refusal 19 at line 2, column 1 (byte 7): the 0 that closes the assignment is expected"
    );
    assert_eq!(
        check_by_number(9, 0, b"").unwrap_err().to_string(),
        "refusal 26: a known format and a known mode are expected"
    );
}
