//! Writing of frames.

use std::io::{self, BufWriter, StdoutLock, Write};

/// Room that no short text fills.
pub const AMPLE: u32 = 4_096;

/// Standard output, and how many frames went there.
pub struct Frames {
    output: BufWriter<StdoutLock<'static>>,
    count: u64,
}

impl Frames {
    pub fn to_stdout() -> Self {
        Self {
            output: BufWriter::with_capacity(1 << 20, io::stdout().lock()),
            count: 0,
        }
    }

    /// Writes one case: format and mode in a byte each, room and length in four, little-endian, and
    /// the text.
    pub fn put(&mut self, format: u8, mode: u8, room: u32, text: &[u8]) -> io::Result<()> {
        let length = u32::try_from(text.len()).expect("texts are short");
        self.count += 1;
        self.output.write_all(&[format, mode])?;
        self.output.write_all(&room.to_le_bytes())?;
        self.output.write_all(&length.to_le_bytes())?;
        self.output.write_all(text)
    }

    /// Writes the beginning of a case that ends too early.
    pub fn put_cut(&mut self, bytes: &[u8]) -> io::Result<()> {
        self.output.write_all(bytes)
    }

    pub fn count(&self) -> u64 {
        self.count
    }

    pub fn finish(&mut self) -> io::Result<()> {
        self.output.flush()
    }
}
