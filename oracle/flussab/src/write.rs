//! Writing.

use std::io::{self, Write};

/// Writes to what it is given, and keeps the first error until it is asked for.
pub struct DeferredWriter<'a> {
    to: Box<dyn Write + 'a>,
    error: Option<io::Error>,
}

impl<'a> DeferredWriter<'a> {
    /// Writes to this writer.
    pub fn from_write(to: impl Write + 'a) -> Self {
        Self {
            to: Box::new(to),
            error: None,
        }
    }

    /// Writes the bytes; an error is kept for later and nothing more is written.
    pub fn write_all_defer_err(&mut self, bytes: &[u8]) {
        if self.error.is_none() {
            self.error = self.to.write_all(bytes).err();
        }
    }

    /// The first error, if there was one.
    pub fn check_io_error(&mut self) -> io::Result<()> {
        self.error.take().map_or(Ok(()), Err)
    }
}

impl Write for DeferredWriter<'_> {
    fn write(&mut self, bytes: &[u8]) -> io::Result<usize> {
        self.write_all_defer_err(bytes);
        Ok(bytes.len())
    }

    fn flush(&mut self) -> io::Result<()> {
        self.check_io_error()?;
        self.to.flush()
    }
}

/// Writing of texts.
pub mod text {
    use std::{fmt::Display, io::Write};

    use super::DeferredWriter;

    /// Writes a number in decimal, with a `-` before it if it is negative.
    pub fn ascii_digits(writer: &mut DeferredWriter, number: impl Display) {
        // The writer keeps its errors, so that this one never fails.
        let _ = write!(writer, "{number}");
    }
}
