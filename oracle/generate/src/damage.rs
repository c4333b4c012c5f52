//! Texts with something wrong in them.

use std::ops::Range;

use crate::{made::LIMITS, rng::Rng};

/// Bytes that are put where they may not belong.
const STRANGE: &[u8] = b"\rx-+\0\xff \t\n01c{}pvs";

/// One change at one place of the text, which is not empty.
#[derive(Copy, Clone)]
pub enum Change {
    Truncate,
    Delete,
    Double,
    Swap,
    Insert(u8),
    Replace(u8),
}

impl Change {
    /// Any of them.
    pub fn any(rng: &mut Rng) -> Change {
        match rng.below(8) {
            0 => Change::Truncate,
            1 => Change::Delete,
            2 => Change::Double,
            3 => Change::Swap,
            4 | 5 => Change::Insert(*rng.pick(STRANGE)),
            _ => Change::Replace(*rng.pick(STRANGE)),
        }
    }

    /// The text changed at this place, which is within it.
    pub fn at(self, place: usize, text: &[u8]) -> Vec<u8> {
        let mut text = text.to_vec();
        match self {
            Change::Truncate => text.truncate(place),
            Change::Delete => {
                text.remove(place);
            }
            Change::Double => text.insert(place, text[place]),
            Change::Swap if place + 1 < text.len() => text.swap(place, place + 1),
            Change::Swap => {}
            Change::Insert(byte) => text.insert(place, byte),
            Change::Replace(byte) => text[place] = byte,
        }
        text
    }
}

/// Changes the text at up to three places.
pub fn damage(text: &mut Vec<u8>, rng: &mut Rng) {
    for _ in 0..1 + rng.below(3) {
        if text.is_empty() {
            text.push(*rng.pick(STRANGE));
        } else if rng.percent(10) {
            number_at_limit(text, rng);
        } else if rng.percent(10) {
            part(text, rng);
        } else {
            let place = rng.below(text.len());
            *text = Change::any(rng).at(place, text);
        }
    }
}

/// Replaces one of the text's numbers by one at a limit.
pub fn number_at_limit(text: &mut Vec<u8>, rng: &mut Rng) {
    if let Some(number) = any_number(text, rng) {
        text.splice(number, rng.pick(&LIMITS).bytes());
    }
}

/// Where one of the text's numbers stands, if it has any.
pub fn any_number(text: &[u8], rng: &mut Rng) -> Option<Range<usize>> {
    let begins: Vec<usize> = (0..text.len())
        .filter(|&at| text[at].is_ascii_digit() && (at == 0 || !text[at - 1].is_ascii_digit()))
        .collect();
    if begins.is_empty() {
        return None;
    }
    let begin = *rng.pick(&begins);
    let length = text[begin..]
        .iter()
        .take_while(|byte| byte.is_ascii_digit())
        .count();
    Some(begin..begin + length)
}

/// Takes a part of the text out, or puts it in a second time.
pub fn part(text: &mut Vec<u8>, rng: &mut Rng) {
    let begin = rng.below(text.len());
    let end = begin + 1 + rng.below((text.len() - begin).min(8));
    if rng.percent(50) {
        text.drain(begin..end);
    } else {
        let part = text[begin..end].to_vec();
        let to = rng.below(text.len() + 1);
        text.splice(to..to, part);
    }
}
