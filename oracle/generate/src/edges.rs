//! Cases that are rare because they are large, and cases about the frames themselves.

use std::io;

use crate::frames::{Frames, AMPLE};

/// The longest text that is read.
const LONGEST: usize = 65_536;

pub fn write(frames: &mut Frames) -> io::Result<()> {
    // Unknown formats and modes, with a text that would be refused for itself, and one too long.
    for format in 0..=255 {
        for mode in [0, 1, 4, 5, 127, 128, 255] {
            if format > 4 || mode > 1 {
                frames.put(format, mode, AMPLE, b"x")?;
            }
        }
    }
    frames.put(5, 0, AMPLE, &[b'\n'; LONGEST + 1])?;

    for format in 0..4 {
        for mode in 0..2 {
            // Texts of the greatest length, and those one byte shorter and longer.
            for length in [LONGEST - 1, LONGEST, LONGEST + 1] {
                for byte in [b"c\n", b"\n\n", b"  ", b"00", b"xx", b"v "] {
                    let text: Vec<u8> = byte.iter().copied().cycle().take(length).collect();
                    frames.put(format, mode, AMPLE, &text)?;
                }
            }
            // As many literals as there is room for, and one more, as room counts to 4,096 only.
            for literals in [AMPLE - 1, AMPLE, AMPLE + 1] {
                for room in [AMPLE - 1, AMPLE, AMPLE + 1, AMPLE + 2, u32::MAX] {
                    let mut text = ["", "5 ", "{1}", "v "][format as usize].as_bytes().to_vec();
                    text.extend("1 -2 ".repeat(literals as usize / 2).as_bytes());
                    text.extend("3 ".repeat(literals as usize % 2).as_bytes());
                    frames.put(format, mode, room, &text)?;
                    text.extend(b"0\n");
                    frames.put(format, mode, room, &text)?;
                }
            }
            // Words around the 60 bytes that are given of one.
            for length in 58..=62 {
                for beginning in ["", "v ", "s ", "1 ", "5 1\n", "{1} 2 ", "p ", "\u{e9}"] {
                    let text = [beginning.as_bytes(), &b"x".repeat(length), b" y"].concat();
                    frames.put(format, mode, AMPLE, &text)?;
                }
                let text = [&b"9".repeat(length)[..], b" 0"].concat();
                frames.put(format, mode, AMPLE, &text)?;
            }
        }
    }

    // The last frame announces eight bytes and has three.
    frames.put_cut(&[0, 0, 0, 16, 0, 0, 8, 0, 0, 0, b'1', b' ', b'0'])
}
