//! All texts of up to so many letters, where a letter may be several bytes.

use std::io;

use crate::frames::{Frames, AMPLE};

type Letters = &'static [&'static str];

/// For each format, beginnings of texts, each with the letters that go on.
const ALPHABETS: [&[(&str, Letters)]; 4] = [
    &[
        ("", &["0", "1", "-", " ", "\n", "\r", "c", "p", "x"]),
        ("p cnf", &[" ", " 1", " 2", " 0", "\n", "1", "c", "x"]),
    ],
    &[
        ("", &["0", "5", "1", " ", "\n", "\r", "c", "-"]),
        ("p wcnf", &[" ", " 1", " 2", " 0", "\n", "1", "c", "x"]),
        ("p wcnf 1 1", &[" ", " 1", " 2", " 0", "\n", "1", "c", "x"]),
    ],
    &[
        ("", &["{", "}", "{1}", "0", "1", " ", "\n", "\r", "c", "x"]),
        ("p gcnf", &[" ", " 1", " 2", " 0", "\n", "1", "c", "x"]),
        (
            "p gcnf 1 1",
            &[" 1", "\n", "{0}", "{1}", "{2}", "2", " 0", "c"],
        ),
    ],
    &[(
        "",
        &[
            "v ",
            "s ",
            "c ",
            "SATISFIABLE",
            "UNSATISFIABLE",
            "UNKNOWN",
            "1",
            "-2",
            "0",
            " ",
            "\n",
            "\r",
            "x",
        ],
    )],
];

pub fn write(format: u8, mode: u8, length: u32, frames: &mut Frames) -> io::Result<()> {
    let alphabets = ALPHABETS.get(format as usize).expect("formats are 0 to 3");
    for (beginning, letters) in *alphabets {
        for length in 0..=length {
            for index in 0..letters.len().pow(length) {
                let mut text = beginning.as_bytes().to_vec();
                let mut index = index;
                for _ in 0..length {
                    text.extend(letters[index % letters.len()].as_bytes());
                    index /= letters.len();
                }
                put(format, mode, beginning.len(), &text, frames)?;
            }
        }
    }
    Ok(())
}

/// Each text comes with ample room, and if there may be literals in it, also with room for one less
/// than there are digits for them.
fn put(format: u8, mode: u8, made: usize, text: &[u8], frames: &mut Frames) -> io::Result<()> {
    frames.put(format, mode, AMPLE, text)?;
    let digits = text[made..]
        .iter()
        .filter(|byte| matches!(byte, b'1'..=b'9'))
        .count();
    if digits > 0 {
        frames.put(format, mode, digits as u32 - 1, text)?;
    }
    Ok(())
}
