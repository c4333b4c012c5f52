//! What is written on standard output and standard error, in the order in which it is told.

use super::progress::Progress;
use std::fmt::Display;
use std::io::{self, Write};

/// So many bytes are held back at most, and then some lines are written at once.
const FULL: usize = 1 << 16;

/// Whole lines for standard output, held back until there are many.
pub struct Output {
    held: Vec<u8>,
    progress: Progress,
}

impl Output {
    pub fn new(progress: Progress) -> Self {
        Output {
            held: Vec::new(),
            progress,
        }
    }

    pub fn progress(&self) -> &Progress {
        &self.progress
    }

    /// A line on standard output.
    pub fn line(&mut self, line: impl Display) -> io::Result<()> {
        writeln!(self.held, "{line}")?;
        if self.held.len() >= FULL {
            self.flush()?;
        }
        Ok(())
    }

    /// Writes what is held back.
    pub fn flush(&mut self) -> io::Result<()> {
        let held = &self.held;
        let written = self.progress.hidden(|| {
            // It is flushed too, as standard output holds lines back itself.
            let mut standard = io::stdout().lock();
            standard.write_all(held).and_then(|()| standard.flush())
        });
        self.held.clear();
        written
    }

    /// A line on standard error, after all that was told before it. If none takes it, the exit status tells too.
    pub fn complain(&mut self, why: &str) -> io::Result<()> {
        self.flush()?;
        self.progress.hidden(|| complaint(why));
        Ok(())
    }

    /// Tells that standard output takes no more. Who closed a pipe knows.
    pub fn give_up(&mut self, error: &io::Error) {
        if error.kind() != io::ErrorKind::BrokenPipe {
            let why = format!("standard output: {}", system_words(error));
            self.progress.hidden(|| complaint(&why));
        }
    }
}

fn complaint(why: &str) {
    let _ = writeln!(io::stderr(), "latchtwig: {why}");
}

/// What the system says, without the number that Rust puts behind it.
pub fn system_words(error: &io::Error) -> String {
    let words = error.to_string();
    match words.find(" (os error ") {
        Some(end) => words[..end].to_owned(),
        None => words,
    }
}
