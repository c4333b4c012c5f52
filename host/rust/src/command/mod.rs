//! What the command does with its words: each file in turn is read, judged and told.

mod asked;
mod compressed;
mod excerpt;
mod guess;
mod header;
mod help;
mod input;
mod json;
mod judge;
mod message;
mod names;
mod output;
mod progress;
mod report;
mod terminal;
mod words;

use asked::{Asked, Work};
use judge::Judged;
use output::Output;
use progress::Progress;
use report::{Judgement, Report};
use std::ffi::{OsStr, OsString};
use std::io;
use std::process::ExitCode;

/// The exit status where all is accepted, where something is refused, and where there is trouble. The greatest of all files is the command's.
const ACCEPTED: u8 = 0;
const REFUSED: u8 = 1;
const TROUBLE: u8 = 2;

/// Does what the words ask for.
pub fn run(words: Vec<OsString>) -> ExitCode {
    let mut output = Output::new(Progress::new());
    let done = match asked::asked(&words) {
        Ok(Asked::Help) => output.line(help::TEXT.trim_end()).map(|()| ACCEPTED),
        Ok(Asked::Version) => output.line(help::VERSION).map(|()| ACCEPTED),
        Ok(Asked::Work(work)) => all(&work, &mut output),
        Err(why) => output
            .complain(&format!("{why}; latchtwig --help tells more"))
            .map(|()| TROUBLE),
    };
    let status = done.and_then(|status| output.flush().map(|()| status));
    ExitCode::from(status.unwrap_or_else(|error| {
        output.give_up(&error);
        TROUBLE
    }))
}

/// Takes each file in turn, and answers the exit status. What is told of a file is not held back while the next is read. An error is one of standard output.
fn all(work: &Work, output: &mut Output) -> io::Result<u8> {
    let mut status = ACCEPTED;
    for file in &work.files {
        status = status.max(one(work, file, output)?);
        output.flush()?;
    }
    Ok(status)
}

/// Reads and judges one file, and tells of it.
fn one(work: &Work, file: &OsStr, output: &mut Output) -> io::Result<u8> {
    let progress = output.progress().clone();
    progress.begin(&names::shown(file));
    let text = input::whole(file, &progress).and_then(compressed::none);
    let mut report = Report::new(work, file, output);
    let status = match text {
        Ok(text) => judged(work, file, &text, &mut report),
        Err(trouble) => report.trouble(&trouble).map(|()| TROUBLE),
    };
    progress.end();
    status
}

/// Judges a text, and tells of it.
fn judged(work: &Work, file: &OsStr, text: &[u8], report: &mut Report) -> io::Result<u8> {
    let mode = work.mode;
    let format = work
        .format
        .unwrap_or_else(|| guess::format(file, text, mode));
    let mut judged = judge::judge(format, mode, text, report)?;
    if let (Judged::Accepted(accepted), true) = (&judged, work.require_header) {
        if let Some(told) = header::missing(format, mode, text, accepted) {
            judged = Judged::Refused(told);
        }
    }
    report.judgement(&Judgement {
        format,
        mode,
        text,
        judged: &judged,
    })?;
    Ok(match judged {
        Judged::Accepted(_) => ACCEPTED,
        Judged::Refused(_) => REFUSED,
    })
}
