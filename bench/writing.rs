//! Times headers and clauses written by the crates as they are and as they were (bench/writing makes both), and by a straightforward writer in Rust, over the same lent output.
//!
//! The Rust writer does the same work: it refuses a literal that cannot be written, measures the line, as one is written whole or not at all, and writes each number from its last digit by `%` and `/`.
//! Each line of the output is a text's name, its bytes, and nanoseconds of each writer: Rust, as it was, as it is.

type Clause = unsafe extern "C" fn(weighted: u32, extra: u64, lits: *const i32, count: usize, out: *mut u8, room: usize) -> u64;
type Header = unsafe extern "C" fn(variables: u64, clauses: u64, third: u64, out: *mut u8, room: usize) -> u64;

extern "C" {
    fn before_clause(weighted: u32, extra: u64, lits: *const i32, count: usize, out: *mut u8, room: usize) -> u64;
    fn before_header(variables: u64, clauses: u64, third: u64, out: *mut u8, room: usize) -> u64;
    fn now_clause(weighted: u32, extra: u64, lits: *const i32, count: usize, out: *mut u8, room: usize) -> u64;
    fn now_header(variables: u64, clauses: u64, third: u64, out: *mut u8, room: usize) -> u64;
    fn clock_gettime(clock: i32, time: *mut [i64; 2]) -> i32;
}

/// Nanoseconds of this thread's processor time.
fn time() -> i64 {
    let mut now = [0; 2];
    unsafe { clock_gettime(3, &mut now) };
    now[0] * 1_000_000_000 + now[1]
}

fn length(n: u64) -> usize {
    let (mut left, mut long) = (n, 1);
    while left >= 10 {
        left /= 10;
        long += 1;
    }
    long
}

fn put(out: &mut [u8], at: usize, n: u64) -> usize {
    let past = at + length(n);
    let (mut left, mut i) = (n, past);
    loop {
        i -= 1;
        out[i] = b'0' + (left % 10) as u8;
        left /= 10;
        if left == 0 {
            return past;
        }
    }
}

fn rust_clause(weight: Option<u64>, lits: &[i32], out: &mut [u8]) -> usize {
    if lits.iter().any(|&lit| lit == 0 || lit == i32::MIN) {
        return 0;
    }
    let lengths: usize = lits.iter().map(|&lit| length(lit.unsigned_abs() as u64) + (lit < 0) as usize + 1).sum();
    if out.len() < 2 + weight.map_or(0, |weight| length(weight) + 1) + lengths {
        return 0;
    }
    let mut at = 0;
    if let Some(weight) = weight {
        at = put(out, at, weight);
        out[at] = b' ';
        at += 1;
    }
    for &lit in lits {
        if lit < 0 {
            out[at] = b'-';
            at += 1;
        }
        at = put(out, at, lit.unsigned_abs() as u64);
        out[at] = b' ';
        at += 1;
    }
    out[at] = b'0';
    out[at + 1] = b'\n';
    at + 2
}

fn rust_header(counts: [u64; 3], out: &mut [u8]) -> usize {
    let lengths: usize = counts.iter().map(|&n| length(n) + 1).sum();
    if counts[0] > i32::MAX as u64 || out.len() < 7 + lengths {
        return 0;
    }
    out[..6].copy_from_slice(b"p wcnf");
    let mut at = 6;
    for n in counts {
        out[at] = b' ';
        at = put(out, at + 1, n);
    }
    out[at] = b'\n';
    at + 1
}

/// What a line is of, and how each writer writes it: the answer is its length, or 0 for a refusal.
trait Line {
    fn by_rust(&self, out: &mut [u8]) -> usize;
    fn by_other(&self, now: bool, out: &mut [u8]) -> usize;
}

struct ClauseOf<'a> {
    weight: Option<u64>,
    lits: &'a [i32],
}

impl Line for ClauseOf<'_> {
    fn by_rust(&self, out: &mut [u8]) -> usize {
        rust_clause(self.weight, self.lits, out)
    }

    fn by_other(&self, now: bool, out: &mut [u8]) -> usize {
        let write: Clause = if now { now_clause } else { before_clause };
        unsafe { write(self.weight.is_some() as u32, self.weight.unwrap_or(0), self.lits.as_ptr(), self.lits.len(), out.as_mut_ptr(), out.len()) as usize }
    }
}

impl Line for [u64; 3] {
    fn by_rust(&self, out: &mut [u8]) -> usize {
        rust_header(*self, out)
    }

    fn by_other(&self, now: bool, out: &mut [u8]) -> usize {
        let write: Header = if now { now_header } else { before_header };
        unsafe { write(self[0], self[1], self[2], out.as_mut_ptr(), out.len()) as usize }
    }
}

/// Numbers at random, the same in each run.
struct Draw(u64);

impl Draw {
    fn below(&mut self, limit: u64) -> u64 {
        self.0 ^= self.0 << 13;
        self.0 ^= self.0 >> 7;
        self.0 ^= self.0 << 17;
        self.0 % limit
    }

    /// A number of so many digits, up to a limit.
    fn number(&mut self, digits: u32, limit: u64) -> u64 {
        let low = 10u64.pow(digits - 1);
        let high = 10u64.checked_pow(digits).map_or(limit, |past| limit.min(past - 1));
        low + self.below(high - low + 1)
    }

    /// A number of so few to so many digits, each length as often.
    fn among(&mut self, few: u32, most: u32, limit: u64) -> u64 {
        let digits = few + self.below((most - few + 1) as u64) as u32;
        self.number(digits, limit)
    }

    fn literal(&mut self, few: u32, most: u32) -> i32 {
        let size = self.among(few, most, i32::MAX as u64) as i32;
        if self.below(2) == 0 { size } else { -size }
    }
}

const LITERALS: usize = 200_000;
const HEADERS: usize = 50_000;
const ROUNDS: usize = 11;
const LONGEST: usize = 1 << 12;

/// Every writer writes the same line where there is just the room for it, touches nothing behind it, and refuses it where there is a byte less.
fn compared(lines: &[impl Line]) {
    let mut right = [0; LONGEST];
    for line in lines {
        let long = line.by_rust(&mut right);
        assert!(long > 0);
        for now in [false, true] {
            let mut out = [7; LONGEST];
            assert_eq!(line.by_other(now, &mut out[..long]), long);
            assert!(out[..long] == right[..long] && out[long..].iter().all(|&byte| byte == 7));
            assert_eq!(line.by_other(now, &mut out[..long - 1]), 0);
        }
    }
}

/// The median of the rounds, in each of which every writer writes all lines.
fn timed(name: &str, lines: &[impl Line]) {
    compared(lines);
    let mut out = [0; LONGEST];
    let mut taken = [const { vec![] }; 3];
    let mut bytes = 0;
    for _ in 0..ROUNDS {
        for way in 0..3 {
            let (start, mut sum) = (time(), 0);
            match way {
                0 => lines.iter().for_each(|line| sum += line.by_rust(&mut out)),
                1 => lines.iter().for_each(|line| sum += line.by_other(false, &mut out)),
                _ => lines.iter().for_each(|line| sum += line.by_other(true, &mut out)),
            }
            taken[way].push(time() - start);
            std::hint::black_box(&mut out);
            bytes = sum;
        }
    }
    let [rust, before, now] = taken.map(|mut times| {
        times.sort();
        times[ROUNDS / 2]
    });
    println!("{name}\t{bytes}\t{rust}\t{before}\t{now}");
}

/// Clauses of so many literals, of so few to so many digits, with weights of so few to so many digits if any.
fn clauses(draw: &mut Draw, name: &str, size: usize, lits: (u32, u32), weights: Option<(u32, u32)>) {
    let lits: Vec<i32> = (0..LITERALS).map(|_| draw.literal(lits.0, lits.1)).collect();
    let lines: Vec<ClauseOf> = lits.chunks(size).map(|lits| ClauseOf { weight: weights.map(|(few, most)| draw.among(few, most, u64::MAX)), lits }).collect();
    timed(name, &lines);
}

fn headers(draw: &mut Draw, name: &str, few: u32, most: u32) {
    let lines: Vec<[u64; 3]> = (0..HEADERS).map(|_| [draw.among(few, most.min(10), i32::MAX as u64), draw.among(few, most, u64::MAX), draw.among(few, most, u64::MAX)]).collect();
    timed(name, &lines);
}

fn main() {
    let draw = &mut Draw(0x9e37_79b9_7f4a_7c15);
    clauses(draw, "literals of 1 to 10 digits, clauses of 100", 100, (1, 10), None);
    clauses(draw, "literals of 1 to 10 digits, clauses of 3", 3, (1, 10), None);
    for digits in 1..=10 {
        clauses(draw, &format!("literals of {digits} digit{}, clauses of 100", if digits > 1 { "s" } else { "" }), 100, (digits, digits), None);
    }
    clauses(draw, "weights of 20 digits, clauses of 3", 3, (1, 10), Some((20, 20)));
    clauses(draw, "weights of 20 digits, clauses of 1", 1, (1, 10), Some((20, 20)));
    clauses(draw, "weights of 1 to 20 digits, clauses of 1", 1, (1, 10), Some((1, 20)));
    headers(draw, "headers with counts of 1 to 20 digits", 1, 20);
    headers(draw, "headers with counts of 6 digits", 6, 6);
}
