//! Texts of up to some hundreds of bytes, nearly all right before each is damaged one to four times,
//! in a run that the seed decides.

use std::io;

use crate::{
    damage::{any_number, number_at_limit, part, Change},
    frames::Frames,
    made::{self, Made},
    random::{any, known},
    rng::Rng,
};

/// Bytes that are put in many times.
const RUNS: &[u8] = b"  \t\t00019x-c{}\n\r\0\x80\xff";

/// How long such a run is: digits of the limits, words around 60 bytes, and far beyond.
const LENGTHS: [usize; 14] = [2, 3, 8, 9, 10, 18, 19, 20, 58, 59, 60, 61, 200, 1_000];

/// What a line end may be taken for.
const LINE_ENDS: [&str; 10] = [
    "", "", " ", "\t", "\r", "\n\r", "\r\r\n", "\r\n", "\n", "\n\n",
];

/// What may stand between a text's bytes, or may not.
const PUT: [&str; 30] = [
    " ", "\t", " \t ", "\r", "\r\n", "\n", "\u{b}", "\u{c}", "\0", "\u{e9}", "\u{feff}", "c",
    "c\n", "\nc\n", "\nc", " c x\n", "c 1\r\n", "\n c\n", "c \r", "%\n0\n", "-", "--", "+", "0",
    " 0 ", " 0\n", "-0", "p ", "v ", "\ns ",
];

/// Writes so many cases, of one format and mode or of all.
pub fn write(seed: u64, count: u64, of: Option<(u8, u8)>, frames: &mut Frames) -> io::Result<()> {
    let rng = &mut Rng::new(seed);
    while frames.count() < count {
        let (format, mode) = of.unwrap_or_else(|| any(rng));
        let written_as = known(format, rng);
        let most = *rng.pick(&[2, 4, 8, 16, 32]);
        let mut made = made::right(written_as, rng, most);
        for _ in 0..1 + rng.below(4) {
            harm(&mut made.text, rng);
        }
        let room = made::room(&made, rng);
        let Made { text, .. } = made;
        frames.put(format, mode, room, &text)?;
    }
    Ok(())
}

/// Damages the text once.
fn harm(text: &mut Vec<u8>, rng: &mut Rng) {
    if text.is_empty() {
        return text.extend(rng.pick(&PUT).bytes());
    }
    let place = rng.below(text.len());
    match rng.below(24) {
        0 | 1 => text[place] ^= 1 << rng.below(8),
        2 => text[place] = rng.below(256) as u8,
        3 => text.truncate(place),
        4 | 5 => *text = Change::any(rng).at(place, text),
        6 | 7 => number_at_limit(text, rng),
        8 | 9 => number_near(text, rng),
        10 | 11 => number_longer(text, rng),
        12 => part(text, rng),
        13 => parts_swapped(text, rng),
        14 | 15 => line_end(text, rng),
        16 | 17 => whole_line(text, rng),
        18 => run(text, rng),
        19 => part_of_another(text, rng),
        _ => put(text, rng.pick(&PUT).as_bytes(), rng),
    }
}

/// Puts the bytes anywhere.
fn put(text: &mut Vec<u8>, bytes: &[u8], rng: &mut Rng) {
    let to = rng.below(text.len() + 1);
    text.splice(to..to, bytes.iter().copied());
}

/// One of the text's numbers one higher or lower, a count of the header as likely as all the others.
fn number_near(text: &mut Vec<u8>, rng: &mut Rng) {
    let begins = text.windows(4).position(|part| part == b"cnf ");
    let header = begins.filter(|_| rng.percent(50)).map(|begin| {
        let length = text[begin..].iter().position(|&byte| byte == b'\n');
        begin..length.map_or(text.len(), |length| begin + length)
    });
    let within = header.unwrap_or(0..text.len());
    let Some(found) = any_number(&text[within.clone()], rng) else {
        return;
    };
    let number = within.start + found.start..within.start + found.end;
    let digits = String::from_utf8_lossy(&text[number.clone()]);
    let Ok(value) = digits.parse::<u64>() else {
        return;
    };
    let near = if rng.percent(50) {
        value.saturating_add(1)
    } else {
        value.saturating_sub(1)
    };
    text.splice(number, near.to_string().into_bytes());
}

/// One of the text's numbers with more digits, of which all, the first or the last may be 0.
fn number_longer(text: &mut Vec<u8>, rng: &mut Rng) {
    let Some(number) = any_number(text, rng) else {
        return;
    };
    let at = *rng.pick(&[number.start, number.end]);
    let digits = *rng.pick(&["0", "1", "9", "2147483647", "18446744073709551615"]);
    let more = digits.bytes().cycle().take(1 + rng.below(22));
    text.splice(at..at, more);
}

/// Two parts that stand side by side change places.
fn parts_swapped(text: &mut [u8], rng: &mut Rng) {
    let mut cuts = [0; 3].map(|_| rng.below(text.len() + 1));
    cuts.sort_unstable();
    let [begin, middle, end] = cuts;
    text[begin..end].rotate_left(middle - begin);
}

/// A line end becomes another, or joins the lines.
fn line_end(text: &mut Vec<u8>, rng: &mut Rng) {
    let ends: Vec<usize> = (0..text.len()).filter(|&at| text[at] == b'\n').collect();
    if ends.is_empty() {
        return text.extend(rng.pick(&LINE_ENDS).bytes());
    }
    let end = *rng.pick(&ends);
    let begin = if end > 0 && text[end - 1] == b'\r' {
        end - 1
    } else {
        end
    };
    text.splice(begin..=end, rng.pick(&LINE_ENDS).bytes());
}

/// A line comes twice, not at all, or elsewhere.
fn whole_line(text: &mut Vec<u8>, rng: &mut Rng) {
    let mut lines: Vec<&[u8]> = text.split_inclusive(|&byte| byte == b'\n').collect();
    let from = rng.below(lines.len());
    let line = lines[from];
    let how = rng.below(3);
    if how > 0 {
        lines.remove(from);
    }
    if how < 2 {
        lines.insert(rng.below(lines.len() + 1), line);
    }
    *text = lines.concat();
}

/// A long run of one byte.
fn run(text: &mut Vec<u8>, rng: &mut Rng) {
    let bytes = vec![*rng.pick(RUNS); *rng.pick(&LENGTHS)];
    put(text, &bytes, rng);
}

/// A part of a text of any format.
fn part_of_another(text: &mut Vec<u8>, rng: &mut Rng) {
    let format = rng.below(4) as u8;
    let Made { text: other, .. } = made::right(format, rng, 3);
    let begin = rng.below(other.len() + 1);
    let length = rng.below(other.len() - begin + 1);
    put(text, &other[begin..begin + length], rng);
}
