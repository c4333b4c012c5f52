//! Takes a folder of order texts in turn. A good order moves to `accepted/`; a bad one moves to `refused/`, with the reason beside it in NAME.reason: the number of the refusal, its place, line and
//! column, what is expected there, and the word that was found. A bad order never holds up the rest.
//!
//!     queue [--header] FORMAT MODE FOLDER
//!
//! FORMAT is plain, weighted, grouped, log or weighted2022; MODE is strict, lenient, strict-cr or lenient-cr. The orders are the regular files of FOLDER, taken in the order of their names. Names that
//! begin with `.` or end in `.reason` are no orders: write an order under such a name, and rename it when it is whole. Folders are passed over.
//!
//! In the modes with `-cr` a CR without LF ends a line too. By the formats, a text without a header is a formula, also one of no bytes, as a copy that failed may leave it, and one that is all
//! comment, as a text with such lines is in the other modes if it begins with a comment; and a header's count of 0 leaves it open how much follows. With `--header` such texts are refused too. Logs
//! and texts of the 2022 form have no header.
//!
//! A clause, or a log, may have as many literals as it likes. A text of more than 268,435,456 bytes is not read, and stays.
//!
//! The program takes the orders that are there when it starts, and stops. An order that cannot be read or moved stays and is named on standard error, as is a link, a
//! pipe or whatever else is no file. Exit status: 0 if nothing stayed, 1 if something did, 2 if the words are wrong or the folder cannot be used.
//!
//! It may be killed at any moment and run again. An order is done when it is renamed, which happens at once or not at all, and after its reason is on the disk. What a
//! killed run leaves is an order that has not moved, and perhaps a reason that is written again, so that nothing is lost or done twice. A second run on a folder stops
//! at once, with status 2, while the first is at work.
//!
//! A name that is taken gets a number. One that is then too long for the folder, or for a reason beside it, is cut, and ends in `~`.

use latchtwig::formula::{Header, Parser};
use latchtwig::sat_solver_log::{parse_log, Verdict};
use latchtwig::{lent, Format, Mode, Refusal};
use std::ffi::{OsStr, OsString};
use std::fmt;
use std::fs::{self, File, FileType};
use std::io::{self, Read, Write};
use std::os::unix::ffi::{OsStrExt, OsStringExt};
use std::os::unix::fs::FileTypeExt;
use std::os::unix::io::AsRawFd;
use std::path::{Path, PathBuf};
use std::process::ExitCode;

const USAGE: &str =
    "usage: queue [--header] plain|weighted|grouped MODE FOLDER, or queue log|weighted2022 MODE FOLDER, where MODE is strict|lenient|strict-cr|lenient-cr";

/// What the name of a reason ends in, and the name it has while it is written.
const REASON: &str = ".reason";
const UNFINISHED: &str = ".part";

/// A longer text is not read, so that none takes up all memory.
const LONGEST: u64 = 256 << 20;

/// The longest name that a folder takes, in bytes.
const LONGEST_NAME: usize = 255;

fn main() -> ExitCode {
    let words: Vec<OsString> = std::env::args_os().skip(1).collect();
    let queue = match asked(&words) {
        Some(queue) => queue,
        None => {
            say(io::stderr(), USAGE);
            return ExitCode::from(2);
        }
    };
    match queue.run() {
        Ok(0) => ExitCode::SUCCESS,
        Ok(_) => ExitCode::FAILURE,
        Err(error) => {
            let folder = shown(queue.folder.as_os_str());
            say(io::stderr(), &format!("queue: {folder}: {error}"));
            ExitCode::from(2)
        }
    }
}

/// What the words of the command ask for.
fn asked(words: &[OsString]) -> Option<Queue> {
    let (header, words) = match words.split_first() {
        Some((first, rest)) if first == "--header" => (true, rest),
        _ => (false, words),
    };
    let (format, mode, folder) = match words {
        [format, mode, folder] => (format.to_str()?, mode.to_str()?, folder),
        _ => return None,
    };
    let format = match format {
        "plain" => Format::Plain,
        "weighted" => Format::Weighted,
        "grouped" => Format::Grouped,
        "log" if !header => Format::Log,
        "weighted2022" if !header => Format::Weighted2022,
        _ => return None,
    };
    let mode = match mode {
        "strict" => Mode::Strict,
        "lenient" => Mode::Lenient,
        "strict-cr" => Mode::StrictCr,
        "lenient-cr" => Mode::LenientCr,
        _ => return None,
    };
    Some(Queue {
        header,
        format,
        mode,
        folder: folder.into(),
    })
}

struct Queue {
    header: bool,
    format: Format,
    mode: Mode,
    folder: PathBuf,
}

/// Why an order is refused: by the reader, with the word that it stopped at, or for its header.
enum Why {
    Text { refusal: Refusal, found: String },
    Header(&'static str),
}

impl fmt::Display for Why {
    fn fmt(&self, f: &mut fmt::Formatter<'_>) -> fmt::Result {
        match self {
            Why::Text { refusal, .. } => refusal.fmt(f),
            Why::Header(words) => words.fmt(f),
        }
    }
}

impl Queue {
    /// Takes all orders in turn, and answers how many stayed.
    fn run(&self) -> io::Result<usize> {
        let _lock = locked(&self.folder)?;
        let orders = self.orders()?;
        fs::create_dir_all(self.accepted())?;
        fs::create_dir_all(self.refused())?;
        self.tidy()?;
        let mut stayed = 0;
        for (name, kind) in &orders {
            match self.take(name, kind) {
                Ok(done) => say(io::stdout(), &done),
                Err(error) => {
                    say(
                        io::stderr(),
                        &format!("queue: {} stays: {error}", shown(name)),
                    );
                    stayed += 1;
                }
            }
        }
        Ok(stayed)
    }

    fn accepted(&self) -> PathBuf {
        self.folder.join("accepted")
    }

    fn refused(&self) -> PathBuf {
        self.folder.join("refused")
    }

    /// What has the name of an order and is no folder, sorted by name.
    fn orders(&self) -> io::Result<Vec<(OsString, FileType)>> {
        let mut orders = Vec::new();
        for entry in fs::read_dir(&self.folder)? {
            let entry = entry?;
            let (name, kind) = (entry.file_name(), entry.file_type()?);
            if is_order(&name) && !kind.is_dir() {
                orders.push((name, kind));
            }
        }
        orders.sort_by(|(one, _), (other, _)| one.cmp(other));
        Ok(orders)
    }

    /// Removes the reason that a killed run left unfinished.
    fn tidy(&self) -> io::Result<()> {
        match fs::remove_file(self.refused().join(UNFINISHED)) {
            Err(error) if error.kind() != io::ErrorKind::NotFound => Err(error),
            _ => Ok(()),
        }
    }

    /// Judges one order, moves it, and answers what was done.
    fn take(&self, name: &OsStr, kind: &FileType) -> io::Result<String> {
        if !kind.is_file() {
            return Err(other(no_file(kind)));
        }
        let order = self.folder.join(name);
        match self.judged(&whole(&order)?) {
            Ok(read) => {
                let place = self.accepted();
                let free = free_name(&place, name, LONGEST_NAME)?;
                fs::rename(&order, place.join(&free))?;
                Ok(format!("accepted {}: {read}", moved(name, &free)))
            }
            Err(why) => {
                let place = self.refused();
                let free = free_name(&place, name, LONGEST_NAME - REASON.len())?;
                write_reason(&place, &free, &why)?;
                fs::rename(&order, place.join(&free))?;
                Ok(format!("refused {}: {why}", moved(name, &free)))
            }
        }
    }

    /// Reads a whole text, and answers what was read.
    fn judged(&self, text: &[u8]) -> Result<String, Why> {
        let read = match self.format {
            Format::Log => self.log(text),
            _ => self.formula(text),
        };
        let (header, said) = read.map_err(|refusal| self.stopped(text, refusal))?;
        if self.header {
            counted_header(self.format, header).map_err(Why::Header)?;
        }
        Ok(said)
    }

    /// The header of a formula, and how many clauses it has.
    fn formula(&self, text: &[u8]) -> Result<(Option<Header>, String), Refusal> {
        let mut parser = Parser::new(self.format, text, self.mode.into())?;
        let mut clauses = 0;
        while parser.next_clause()?.is_some() {
            clauses += 1;
        }
        Ok((parser.header(), counted(clauses, "clause")))
    }

    /// What a log says, and how many literals it has. It has no header.
    fn log(&self, text: &[u8]) -> Result<(Option<Header>, String), Refusal> {
        let log = parse_log(text, self.mode.into())?;
        let verdict = match log.verdict {
            Verdict::Satisfiable => "satisfiable",
            Verdict::Unsatisfiable => "unsatisfiable",
            Verdict::Unknown => "unknown",
            Verdict::Missing => "no verdict",
        };
        let literals = counted(log.assignment.len(), "literal");
        Ok((None, format!("{verdict}, {literals}")))
    }

    /// A refusal with the word that was found at its place, on one line whatever its bytes are.
    fn stopped(&self, text: &[u8], refusal: Refusal) -> Why {
        let word = lent::stopped_at(self.mode as u32, text, refusal.place);
        let found = word.escape_ascii().to_string();
        Why::Text { refusal, found }
    }
}

/// Whether there is a header, and no count of it is 0. The top weight is no count.
fn counted_header(format: Format, header: Option<Header>) -> Result<(), &'static str> {
    let header = header.ok_or("a header is expected")?;
    let groups_open = format == Format::Grouped && header.third == 0;
    if header.variables == 0 || header.clauses == 0 || groups_open {
        return Err("a header with no count of 0 is expected");
    }
    Ok(())
}

/// A number of things, as in `1 clause` and `2 clauses`.
fn counted(number: usize, thing: &str) -> String {
    let end = if number == 1 { "" } else { "s" };
    format!("{number} {thing}{end}")
}

extern "C" {
    /// The C library's lock on an open file.
    fn flock(file: i32, operation: i32) -> i32;
}

/// The folder, locked as long as it is open. The lock leaves nothing on the disk and ends with the program, also with one that is killed.
fn locked(folder: &Path) -> io::Result<File> {
    const EXCLUSIVE: i32 = 2;
    const WITHOUT_WAITING: i32 = 4;
    let file = File::open(folder)?;
    // SAFETY: the call is given an open file and a number, and no memory.
    if unsafe { flock(file.as_raw_fd(), EXCLUSIVE | WITHOUT_WAITING) } == 0 {
        return Ok(file);
    }
    match io::Error::last_os_error() {
        error if error.kind() == io::ErrorKind::WouldBlock => {
            Err(other("another queue is at work here"))
        }
        error => Err(error),
    }
}

/// Neither a file that is being written nor a reason.
fn is_order(name: &OsStr) -> bool {
    let name = name.to_string_lossy();
    !name.starts_with('.') && !name.ends_with(REASON)
}

fn no_file(kind: &FileType) -> &'static str {
    if kind.is_symlink() {
        "it is a link"
    } else if kind.is_fifo() {
        "it is a pipe"
    } else {
        "it is no file"
    }
}

/// The bytes of a file, if they are not too many.
fn whole(path: &Path) -> io::Result<Vec<u8>> {
    let mut text = Vec::new();
    File::open(path)?.take(LONGEST + 1).read_to_end(&mut text)?;
    if text.len() as u64 > LONGEST {
        return Err(other(&format!("it has more than {LONGEST} bytes")));
    }
    Ok(text)
}

/// The name, or, if an earlier order has it there, the name with the first number from 2 on that makes it free. A reason alone takes no name: it is left from
/// a killed run.
fn free_name(place: &Path, name: &OsStr, longest: usize) -> io::Result<OsString> {
    let mut free = fitted(name, "", longest);
    let mut number = 2u64;
    loop {
        match fs::symlink_metadata(place.join(&free)) {
            Err(error) if error.kind() == io::ErrorKind::NotFound => return Ok(free),
            Err(error) => return Err(error),
            Ok(_) => free = fitted(name, &format!(".{number}"), longest),
        }
        number += 1;
    }
}

/// The name with an ending. Where that is too long the name is cut between two characters and marked with `~`, so that it never ends as a reason does.
fn fitted(name: &OsStr, end: &str, longest: usize) -> OsString {
    let mut bytes = name.as_bytes().to_vec();
    if bytes.len() + end.len() > longest {
        let mut cut = longest - end.len() - 1;
        while cut > 0 && bytes[cut] & 0xC0 == 0x80 {
            cut -= 1;
        }
        bytes.truncate(cut);
        bytes.push(b'~');
    }
    bytes.extend_from_slice(end.as_bytes());
    OsString::from_vec(bytes)
}

/// Puts the reason beside where the order will be, whole or not at all.
fn write_reason(place: &Path, name: &OsStr, why: &Why) -> io::Result<()> {
    let unfinished = place.join(UNFINISHED);
    let mut file = File::create(&unfinished)?;
    match why {
        Why::Text { refusal, found } => {
            writeln!(
                file,
                "number {}\nplace {}\nline {}\ncolumn {}\nreason {}",
                refusal.number,
                refusal.place,
                refusal.line,
                refusal.column,
                refusal.words()
            )?;
            if !found.is_empty() {
                writeln!(file, "found {found}")?;
            }
        }
        Why::Header(words) => writeln!(file, "reason {words}")?,
    }
    file.sync_all()?;
    let mut reason = name.to_owned();
    reason.push(REASON);
    fs::rename(&unfinished, place.join(reason))?;
    File::open(place)?.sync_all()
}

fn other(why: &str) -> io::Error {
    io::Error::new(io::ErrorKind::Other, why)
}

/// A name, and the one that it has become, if that is another.
fn moved(name: &OsStr, free: &OsStr) -> String {
    if name == free {
        shown(name)
    } else {
        format!("{} as {}", shown(name), shown(free))
    }
}

/// A name on one line, whatever its bytes are.
fn shown(name: &OsStr) -> String {
    let mut line = String::new();
    for character in name.to_string_lossy().chars() {
        if character.is_control() {
            line.extend(character.escape_default());
        } else {
            line.push(character);
        }
    }
    line
}

/// A line of what was done. The folders are the record, so nothing stops if no one listens.
fn say(mut to: impl Write, line: &str) {
    let _ = writeln!(to, "{line}");
}
