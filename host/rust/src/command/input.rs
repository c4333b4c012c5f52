//! The bytes of a file, or why they cannot be had.

use super::output::system_words;
use super::progress::{Progress, Stage};
use super::terminal::is_terminal;
use std::ffi::OsStr;
use std::fs::{self, File, Metadata};
use std::io::{self, Read, Seek};
use std::os::unix::fs::{FileTypeExt, MetadataExt};
use std::os::unix::io::AsFd;

/// How many bytes are read at once.
const PIECE: usize = 1 << 20;

/// All bytes of a file, or of standard input where it is `-`.
pub fn whole(file: &OsStr, progress: &Progress) -> Result<Vec<u8>, String> {
    let mut source = opened(file).map_err(|error| system_words(&error))?;
    let about = source.metadata().map_err(|error| system_words(&error))?;
    if let Some(trouble) = unreadable(&source, &about, file == "-") {
        return Err(trouble.to_owned());
    }
    if about.is_file() {
        return of_file(&mut source, &about, progress);
    }
    if is_terminal(&source) {
        // Progress would stand among what is typed.
        return to_end(&mut source, Vec::new(), |_| {});
    }
    to_end(&mut source, Vec::new(), |done| {
        progress.at(Stage::Read { done, of: 0 });
    })
}

fn opened(file: &OsStr) -> io::Result<File> {
    if file == "-" {
        return Ok(File::from(io::stdin().as_fd().try_clone_to_owned()?));
    }
    File::open(file)
}

/// What is wrong with something that was opened, if it is nothing to read a text from. A device may have no end.
fn unreadable(source: &File, about: &Metadata, standard: bool) -> Option<&'static str> {
    let kind = about.file_type();
    if kind.is_dir() {
        return Some("it is a directory");
    }
    if !(kind.is_char_device() || kind.is_block_device()) || is_terminal(source) {
        return None;
    }
    if standard && is_null(about) {
        return Some("it is closed, or /dev/null");
    }
    Some("it is a device")
}

/// Whether a device is /dev/null, which Rust opens in the place of a standard input that is closed.
fn is_null(about: &Metadata) -> bool {
    fs::metadata("/dev/null").map_or(false, |null| null.rdev() == about.rdev())
}

/// The bytes of a regular file from where it stands, if it stays as it was.
fn of_file(file: &mut File, before: &Metadata, progress: &Progress) -> Result<Vec<u8>, String> {
    let from = file
        .stream_position()
        .map_err(|error| system_words(&error))?;
    let length = before.len().saturating_sub(from);
    let text = to_end(&mut file.take(limit(length)), room(length)?, |done| {
        progress.at(Stage::Read { done, of: length });
    })?;
    let after = file.metadata().map_err(|error| system_words(&error))?;
    match changed(before, &after, text.len() as u64, length) {
        Some(trouble) => Err(trouble),
        None => Ok(text),
    }
}

/// How many bytes are read of a file of some length: one more, which shows that it grew. A file that says 0 may have more, as those of /proc.
fn limit(length: u64) -> u64 {
    match length {
        0 => u64::MAX,
        _ => length.saturating_add(1),
    }
}

/// An empty text with room for so many bytes, and one more.
fn room(length: u64) -> Result<Vec<u8>, String> {
    let mut text = Vec::new();
    match usize::try_from(length).map(|length| text.try_reserve_exact(length.saturating_add(1))) {
        Ok(Ok(())) => Ok(text),
        _ => Err(format!("not enough memory for its {length} bytes")),
    }
}

/// How a file changed while it was read, of which so many bytes were read and so many expected.
fn changed(before: &Metadata, after: &Metadata, read: u64, expected: u64) -> Option<String> {
    let written = |about: &Metadata| (about.len(), about.mtime(), about.mtime_nsec());
    if after.len() < before.len() {
        Some("it shrank while it was read".to_owned())
    } else if written(after) != written(before) {
        Some("it changed while it was read".to_owned())
    } else if read < expected {
        Some(format!("only {read} of its {expected} bytes can be read"))
    } else {
        None
    }
}

/// The text, and behind it all that is still to be read. How long it is, is told after each piece.
fn to_end(
    source: &mut impl Read,
    mut text: Vec<u8>,
    mut told: impl FnMut(u64),
) -> Result<Vec<u8>, String> {
    loop {
        told(text.len() as u64);
        if piece(source, &mut text)? == 0 {
            return Ok(text);
        }
    }
}

/// Reads some bytes more, into the room that there is or into more of it, and answers how many.
fn piece(source: &mut impl Read, text: &mut Vec<u8>) -> Result<usize, String> {
    let length = text.len();
    if text.capacity() == length && text.try_reserve(PIECE).is_err() {
        return Err(format!("not enough memory for more than {length} bytes"));
    }
    text.resize(text.capacity().min(length + PIECE), 0);
    let read = loop {
        match source.read(&mut text[length..]) {
            Err(error) if error.kind() == io::ErrorKind::Interrupted => {}
            read => break read,
        }
    };
    text.truncate(length + *read.as_ref().unwrap_or(&0));
    read.map_err(|error| system_words(&error))
}
