//! Literals as one would tune them by hand in an afternoon: sign and digits come from one load of eight bytes, with no branch on either, and a space after them is passed at once.

use super::{skip_blanks, word_ends, Number, CEILING};

/// The number that eight digits write, one to a byte, the first in the lowest.
fn eight_digits(digits: u64) -> u64 {
    const PAIRS: u64 = 0x0000_00ff_0000_00ff;
    let pairs = digits.wrapping_mul(10).wrapping_add(digits >> 8);
    let high = (pairs & PAIRS).wrapping_mul(100 + (1_000_000 << 32));
    let low = ((pairs >> 16) & PAIRS).wrapping_mul(1 + (10_000 << 32));
    high.wrapping_add(low) >> 32
}

/// A sign, a size and the place past its digits.
struct Written {
    negative: bool,
    size: u64,
    end: usize,
}

/// A literal of at least one digit whose sign, digits and next byte are among the eight bytes from a place on.
fn short(text: &[u8], at: usize) -> Option<Written> {
    let bytes = u64::from_le_bytes(text.get(at..at + 8)?.try_into().unwrap());
    let negative = bytes as u8 == b'-';
    let sign = negative as u32 * 8;
    let digits = (bytes >> sign) ^ 0x3030_3030_3030_3030;
    let others = (digits.wrapping_add(0x7676_7676_7676_7676) | digits) & 0x8080_8080_8080_8080;
    let bits = others.trailing_zeros() & !7;
    if bits == 0 || bits + sign >= 64 {
        return None;
    }
    Some(Written {
        negative,
        size: eight_digits(digits << (64 - bits)),
        end: at + (bits + sign) as usize / 8,
    })
}

/// Any literal: its size up to the ceiling, and one value above it for any size above; or none where no digit stands.
fn long(text: &[u8], at: usize) -> Option<Written> {
    let negative = at < text.len() && text[at] == b'-';
    let start = if negative { at + 1 } else { at };
    let mut end = start;
    let mut size = 0u64;
    while end < text.len() && text[end].is_ascii_digit() {
        // A size above the ceiling is above every limit, and need not grow.
        if size <= CEILING {
            size = size * 10 + u64::from(text[end] - b'0');
        }
        end += 1;
    }
    (end != start).then_some(Written {
        negative,
        size,
        end,
    })
}

pub fn literal(text: &[u8], at: usize, limit: u64) -> Number<i32> {
    let Some(written) = short(text, at).or_else(|| long(text, at)) else {
        return Number::Missing;
    };
    let next = if text.get(written.end) == Some(&b' ') {
        skip_blanks(text, written.end + 1)
    } else if word_ends(text, written.end) {
        skip_blanks(text, written.end)
    } else {
        return Number::Missing;
    };
    if written.size > limit {
        return Number::TooBig;
    }
    let size = written.size as i32;
    Number::Value(if written.negative { -size } else { size }, next)
}
