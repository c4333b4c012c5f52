//! The foreign calls, as `host/latchtwig.h` declares them. All that is unsafe in this crate stands here.
//!
//! Each call takes any numbers and any words. It reads only the slices that it is given, writes only what is given to it as mutable, and keeps nothing.

/// How many words a cursor has.
pub const CURSOR: usize = 12;
/// How many words are left of a check, an opening, a step or a log, and a written line.
pub const CHECKED: usize = 4;
pub const OPENED: usize = 7;
pub const STEPPED: usize = 6;
pub const WRITTEN: usize = 5;

mod foreign {
    use super::{CHECKED, CURSOR, OPENED, STEPPED, WRITTEN};

    extern "C" {
        pub fn latchtwig_check(
            format: u32,
            mode: u32,
            text: *const u8,
            length: usize,
            answer: *mut [u64; CHECKED],
        ) -> u32;
        pub fn latchtwig_open(
            format: u32,
            mode: u32,
            text: *const u8,
            length: usize,
            cursor: *mut [u64; CURSOR],
            answer: *mut [u64; OPENED],
        ) -> u32;
        pub fn latchtwig_next(
            text: *const u8,
            length: usize,
            cursor: *mut [u64; CURSOR],
            lits: *mut i32,
            room: usize,
            answer: *mut [u64; STEPPED],
        ) -> u32;
        pub fn latchtwig_log(
            mode: u32,
            text: *const u8,
            length: usize,
            lits: *mut i32,
            room: usize,
            answer: *mut [u64; STEPPED],
        ) -> u32;
        pub fn latchtwig_word(mode: u32, text: *const u8, length: usize, place: u64) -> u64;
        pub fn latchtwig_write_header(
            format: u32,
            variables: u64,
            clauses: u64,
            third: u64,
            out: *mut u8,
            length: usize,
            answer: *mut [u64; WRITTEN],
        ) -> u32;
        pub fn latchtwig_write_clause(
            format: u32,
            extra: u64,
            lits: *const i32,
            count: usize,
            out: *mut u8,
            length: usize,
            answer: *mut [u64; WRITTEN],
        ) -> u32;
        pub fn latchtwig_write_hard_clause(
            format: u32,
            lits: *const i32,
            count: usize,
            out: *mut u8,
            length: usize,
            answer: *mut [u64; WRITTEN],
        ) -> u32;
    }
}

pub fn check(format: u32, mode: u32, text: &[u8]) -> (u32, [u64; CHECKED]) {
    let mut answer = [0; CHECKED];
    // SAFETY: the text is borrowed until the call returns, and the answer is this function's own.
    let kind =
        unsafe { foreign::latchtwig_check(format, mode, text.as_ptr(), text.len(), &mut answer) };
    (kind, answer)
}

pub fn open(
    format: u32,
    mode: u32,
    text: &[u8],
    cursor: &mut [u64; CURSOR],
) -> (u32, [u64; OPENED]) {
    let mut answer = [0; OPENED];
    // SAFETY: text and cursor are borrowed until the call returns, and the answer is this function's own.
    let kind = unsafe {
        foreign::latchtwig_open(format, mode, text.as_ptr(), text.len(), cursor, &mut answer)
    };
    (kind, answer)
}

pub fn next(text: &[u8], cursor: &mut [u64; CURSOR], lits: &mut [i32]) -> (u32, [u64; STEPPED]) {
    let mut answer = [0; STEPPED];
    // SAFETY: text, cursor and buffer are borrowed until the call returns, and the answer is this function's own.
    let kind = unsafe {
        foreign::latchtwig_next(
            text.as_ptr(),
            text.len(),
            cursor,
            lits.as_mut_ptr(),
            lits.len(),
            &mut answer,
        )
    };
    (kind, answer)
}

pub fn log(mode: u32, text: &[u8], lits: &mut [i32]) -> (u32, [u64; STEPPED]) {
    let mut answer = [0; STEPPED];
    // SAFETY: text and buffer are borrowed until the call returns, and the answer is this function's own.
    let kind = unsafe {
        foreign::latchtwig_log(
            mode,
            text.as_ptr(),
            text.len(),
            lits.as_mut_ptr(),
            lits.len(),
            &mut answer,
        )
    };
    (kind, answer)
}

pub fn word(mode: u32, text: &[u8], place: u64) -> u64 {
    // SAFETY: the text is borrowed until the call returns.
    unsafe { foreign::latchtwig_word(mode, text.as_ptr(), text.len(), place) }
}

pub fn write_header(
    format: u32,
    variables: u64,
    clauses: u64,
    third: u64,
    out: &mut [u8],
) -> (u32, [u64; WRITTEN]) {
    let mut answer = [0; WRITTEN];
    // SAFETY: the output is borrowed until the call returns, and the answer is this function's own.
    let kind = unsafe {
        foreign::latchtwig_write_header(
            format,
            variables,
            clauses,
            third,
            out.as_mut_ptr(),
            out.len(),
            &mut answer,
        )
    };
    (kind, answer)
}

pub fn write_clause(
    format: u32,
    extra: u64,
    lits: &[i32],
    out: &mut [u8],
) -> (u32, [u64; WRITTEN]) {
    let mut answer = [0; WRITTEN];
    // SAFETY: literals and output are borrowed until the call returns, and the answer is this function's own.
    let kind = unsafe {
        foreign::latchtwig_write_clause(
            format,
            extra,
            lits.as_ptr(),
            lits.len(),
            out.as_mut_ptr(),
            out.len(),
            &mut answer,
        )
    };
    (kind, answer)
}

pub fn write_hard_clause(format: u32, lits: &[i32], out: &mut [u8]) -> (u32, [u64; WRITTEN]) {
    let mut answer = [0; WRITTEN];
    // SAFETY: literals and output are borrowed until the call returns, and the answer is this function's own.
    let kind = unsafe {
        foreign::latchtwig_write_hard_clause(
            format,
            lits.as_ptr(),
            lits.len(),
            out.as_mut_ptr(),
            out.len(),
            &mut answer,
        )
    };
    (kind, answer)
}
