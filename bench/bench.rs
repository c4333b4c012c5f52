//! Measures `latchtwig_refusal` against the readers of reader.rs and tuned.rs, all linked into this program and called in the same way. bench/run builds it and says what it does.
//!
//!     bench check                 the readers answer the same, on every text measured and on damaged ones
//!     bench time LAYOUT TEXT..    eleven times each, by turns: `LAYOUT TEXT BYTES LATCHTWIG RUST TUNED TOUCH`, the medians in nanoseconds of the thread's time; the last only adds up the bytes
//!     bench text TEXT PART        prints a text of the bench with one clause for each PART of its clauses
//!     bench once FORMAT READER    one reader, `latchtwig`, `rust` or `tuned`, reads standard input once, for a tool that counts instructions

use std::fmt::Write as _;
use std::hint::black_box;
use std::io::{self, Read, Write};

type Refusal = unsafe extern "C" fn(u32, u32, *const u8, usize) -> u32;
type Place = unsafe extern "C" fn(u32, u32, *const u8, usize) -> u64;

extern "C" {
    fn latchtwig_refusal(format: u32, mode: u32, text: *const u8, length: usize) -> u32;
    fn latchtwig_place(format: u32, mode: u32, text: *const u8, length: usize) -> u64;
    fn rust_refusal(format: u32, mode: u32, text: *const u8, length: usize) -> u32;
    fn rust_place(format: u32, mode: u32, text: *const u8, length: usize) -> u64;
    fn tuned_refusal(format: u32, mode: u32, text: *const u8, length: usize) -> u32;
    fn tuned_place(format: u32, mode: u32, text: *const u8, length: usize) -> u64;
    fn clock_gettime(clock: i32, time: *mut Timespec) -> i32;
}

#[repr(C)]
struct Timespec {
    seconds: i64,
    nanoseconds: i64,
}

const CLOCK_THREAD_CPUTIME_ID: i32 = 3;

fn thread_time() -> u64 {
    let mut time = Timespec {
        seconds: 0,
        nanoseconds: 0,
    };
    assert_eq!(
        unsafe { clock_gettime(CLOCK_THREAD_CPUTIME_ID, &mut time) },
        0
    );
    time.seconds as u64 * 1_000_000_000 + time.nanoseconds as u64
}

/// splitmix64, so that every run has the same texts.
struct Random(u64);

impl Random {
    fn next(&mut self) -> u64 {
        self.0 = self.0.wrapping_add(0x9e37_79b9_7f4a_7c15);
        let mut z = self.0;
        z = (z ^ (z >> 30)).wrapping_mul(0xbf58_476d_1ce4_e5b9);
        z = (z ^ (z >> 27)).wrapping_mul(0x94d0_49bb_1331_11eb);
        z ^ (z >> 31)
    }

    fn below(&mut self, n: u64) -> u64 {
        self.next() % n
    }
}

/// A text to be made: its name, format, and counts of clauses, of literals in each, and of variables.
struct Text {
    name: &'static str,
    format: u32,
    clauses: u64,
    width: u64,
    variables: u64,
}

const WEIGHTS: u64 = 1_000_000;
const GROUPS: u64 = 1_000;

const fn text(name: &'static str, format: u32, clauses: u64, width: u64, variables: u64) -> Text {
    Text {
        name,
        format,
        clauses,
        width,
        variables,
    }
}

/// The texts of the bench. The last three are of 1, 10 and 100 MB.
const TEXTS: [Text; 11] = [
    text("plain-3", 0, 1_000_000, 3, 240_000),
    text("plain-100", 0, 1_000_000, 100, 100_000),
    text("weighted-3", 1, 1_000_000, 3, 240_000),
    text("weighted-100", 1, 200_000, 100, 100_000),
    text("grouped-3", 2, 1_000_000, 3, 240_000),
    text("grouped-100", 2, 200_000, 100, 100_000),
    text("weighted2022-3", 4, 1_000_000, 3, 240_000),
    text("weighted2022-100", 4, 200_000, 100, 100_000),
    text("grows-1", 0, 47_240, 3, 100_000),
    text("grows-10", 0, 472_400, 3, 100_000),
    text("grows-100", 0, 4_724_000, 3, 100_000),
];

impl Text {
    fn made(&self) -> Vec<u8> {
        let mut random = Random(self.clauses ^ (self.width << 32));
        let mut text = String::from("c a formula at random\n");
        let (variables, clauses) = (self.variables, self.clauses);
        match self.format {
            0 => writeln!(text, "p cnf {variables} {clauses}"),
            1 => writeln!(text, "p wcnf {variables} {clauses} {}", 10 * WEIGHTS),
            2 => writeln!(text, "p gcnf {variables} {clauses} {GROUPS}"),
            _ => writeln!(text, "c {variables} {clauses}"),
        }
        .unwrap();
        for _ in 0..clauses {
            match self.format {
                0 => Ok(()),
                1 => write!(text, "{} ", 1 + random.below(WEIGHTS)),
                2 => write!(text, "{{{}}} ", random.below(GROUPS + 1)),
                _ if random.below(2) == 0 => write!(text, "h "),
                _ => write!(text, "{} ", 1 + random.below(WEIGHTS)),
            }
            .unwrap();
            for _ in 0..self.width {
                let sign = if random.below(2) == 0 { "" } else { "-" };
                write!(text, "{sign}{} ", 1 + random.below(variables)).unwrap();
            }
            text.push_str("0\n");
        }
        text.into_bytes()
    }
}

fn calls(refusal: Refusal, place: Place, format: u32, mode: u32, text: &[u8]) -> (u32, u64) {
    unsafe {
        (
            refusal(format, mode, text.as_ptr(), text.len()),
            place(format, mode, text.as_ptr(), text.len()),
        )
    }
}

/// The answer that the readers give.
fn agreed(format: u32, mode: u32, text: &[u8]) -> u32 {
    let ours = calls(latchtwig_refusal, latchtwig_place, format, mode, text);
    for theirs in [
        calls(rust_refusal, rust_place, format, mode, text),
        calls(tuned_refusal, tuned_place, format, mode, text),
    ] {
        assert_eq!(
            ours,
            theirs,
            "format {format}, mode {mode}, text {:?}",
            String::from_utf8_lossy(&text[..text.len().min(200)])
        );
    }
    ours.0
}

/// A short text with some of its bytes put in another's place, taken out, or cut off.
fn damaged(random: &mut Random, text: &Text) -> Vec<u8> {
    const BYTES: &[u8] = b"0123456789-{} \t\r\ncphx\n0 ";
    let clauses = random.below(5);
    let short = Text {
        name: "",
        format: text.format,
        clauses: if random.below(4) == 0 { 0 } else { clauses },
        width: random.below(5),
        variables: [0, 9, 300, 2_147_483_647, 2_147_483_648][random.below(5) as usize].max(1),
    };
    let mut bytes = short.made();
    if random.below(3) == 0 {
        // Without its comment and header.
        let ends: Vec<usize> = (0..bytes.len()).filter(|&i| bytes[i] == b'\n').collect();
        bytes.drain(..=ends[1]);
    }
    for _ in 0..random.below(4) {
        if bytes.is_empty() {
            break;
        }
        let at = random.below(bytes.len() as u64) as usize;
        let byte = BYTES[random.below(BYTES.len() as u64) as usize];
        match random.below(4) {
            0 => bytes[at] = byte,
            1 => bytes.insert(at, byte),
            2 => drop(bytes.remove(at)),
            _ => {
                let digits = 1 + random.below(24) as usize;
                bytes.splice(at..at, (0..digits).map(|_| b'0' + random.below(10) as u8));
            }
        }
    }
    if random.below(5) == 0 {
        bytes.truncate(random.below(bytes.len() as u64 + 1) as usize);
    }
    bytes
}

fn check() {
    let mut refusals = [0u32; 34];
    let mut random = Random(1);
    let damages = 600_000;
    for i in 0..damages {
        let kind = &TEXTS[2 * (i % 4)];
        refusals[agreed(
            kind.format,
            random.below(2) as u32,
            &damaged(&mut random, kind),
        ) as usize] += 1;
    }
    // More literals than there is room for, and a number of no mode.
    let wide = text("", 0, 1, 1_025, 9).made();
    assert_eq!(agreed(0, 0, &wide), 16);
    assert_eq!(agreed(0, 4, &wide), 26);
    for text in TEXTS {
        assert_eq!(agreed(text.format, 0, &text.made()), 0, "{}", text.name);
    }
    let seen: Vec<String> = (0..34)
        .filter(|&n| refusals[n] != 0)
        .map(|n| format!("{n}: {}", refusals[n]))
        .collect();
    println!("the readers answer the same on {} texts of the bench and on {damages} damaged ones, by refusal number {}", TEXTS.len(), seen.join(", "));
}

/// No reader: it touches each byte, and always answers 0.
unsafe extern "C" fn touch(_format: u32, _mode: u32, text: *const u8, length: usize) -> u32 {
    let text = unsafe { std::slice::from_raw_parts(text, length) };
    black_box(text.iter().map(|&byte| u64::from(byte)).sum::<u64>());
    0
}

fn timed(refusal: Refusal, format: u32, text: &[u8]) -> u64 {
    let began = thread_time();
    let number = unsafe { refusal(black_box(format), black_box(0), text.as_ptr(), text.len()) };
    let ended = thread_time();
    assert_eq!(number, 0);
    ended - began
}

fn time(layout: &str, names: &[&str]) {
    const RUNS: usize = 11;
    let readers: [Refusal; 4] = [latchtwig_refusal, rust_refusal, tuned_refusal, touch];
    for kind in TEXTS
        .iter()
        .filter(|text| names.is_empty() || names.contains(&text.name))
    {
        let text = kind.made();
        let mut times: [Vec<u64>; 4] = Default::default();
        for reader in readers {
            timed(reader, kind.format, &text);
        }
        for run in 0..RUNS {
            for turn in 0..readers.len() {
                let at = (run + turn) % readers.len();
                times[at].push(timed(readers[at], kind.format, &text));
            }
        }
        print!("{layout} {} {}", kind.name, text.len());
        for mut runs in times {
            runs.sort();
            print!(" {}", runs[RUNS / 2]);
        }
        println!();
    }
}

fn print(name: &str, part: u64) {
    let kind = TEXTS
        .iter()
        .find(|text| text.name == name)
        .expect("a text of the bench");
    let less = Text {
        clauses: kind.clauses / part,
        ..*kind
    };
    io::stdout().write_all(&less.made()).unwrap();
}

fn once(format: u32, reader: &str) {
    let mut text = Vec::new();
    io::stdin().read_to_end(&mut text).unwrap();
    let refusal = match reader {
        "latchtwig" => latchtwig_refusal as Refusal,
        "rust" => rust_refusal,
        "tuned" => tuned_refusal,
        _ => panic!("the readers are latchtwig, rust and tuned"),
    };
    timed(refusal, format, &text);
}

fn main() {
    let words: Vec<String> = std::env::args().skip(1).collect();
    let words: Vec<&str> = words.iter().map(String::as_str).collect();
    match words[..] {
        ["check"] => check(),
        ["time", layout, ref names @ ..] => time(layout, names),
        ["text", name, part] => print(name, part.parse().unwrap()),
        ["once", format, reader] => once(format.parse().unwrap(), reader),
        _ => panic!(
            "usage: bench check | time LAYOUT [TEXT..] | text TEXT PART | once FORMAT READER"
        ),
    }
}
