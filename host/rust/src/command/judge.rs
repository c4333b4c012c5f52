//! A text read to its end, or as far as it is not refused.

use super::message::{self, Sofar};
use super::progress::Stage;
use super::report::Report;
use latchtwig::formula::{Header, Parser};
use latchtwig::sat_solver_log::{self, Verdict};
use latchtwig::{Config, Format, Mode, Refusal};
use std::io;

/// How often progress is told.
const CLAUSES: u64 = 1 << 12;

/// What a text comes to.
pub enum Judged {
    Accepted(Accepted),
    Refused(Told),
}

/// What is said of a text that is accepted.
pub enum Accepted {
    Clauses { header: Option<Header>, count: u64 },
    Log(Verdict),
}

/// What is said of a text that is refused, and where.
pub struct Told {
    /// None where the text keeps the rules of its format, and not those that were asked for.
    pub number: Option<u32>,
    pub place: usize,
    pub line: usize,
    pub column: usize,
    /// What is expected and found, in one.
    pub message: String,
    pub expected: String,
    pub found: Option<String>,
}

/// Reads the text, and lists what is read. An error is one of standard output.
pub fn judge(format: Format, mode: Mode, text: &[u8], report: &mut Report) -> io::Result<Judged> {
    match format {
        Format::Log => log(mode, text, report),
        _ => clauses(format, mode, text, report),
    }
}

fn log(mode: Mode, text: &[u8], report: &mut Report) -> io::Result<Judged> {
    report.progress(Stage::Log {
        of: text.len() as u64,
    });
    match sat_solver_log::parse_log(text, mode.into()) {
        Ok(log) => {
            report.log(log.verdict, &log.assignment)?;
            Ok(Judged::Accepted(Accepted::Log(log.verdict)))
        }
        Err(refusal) => {
            let sofar = Sofar::nothing(Format::Log, mode, text);
            Ok(Judged::Refused(message::told(&sofar, &refusal)))
        }
    }
}

fn clauses(format: Format, mode: Mode, text: &[u8], report: &mut Report) -> io::Result<Judged> {
    report.progress(Stage::Checked {
        done: 0,
        of: text.len() as u64,
    });
    let mut sofar = Sofar::nothing(format, mode, text);
    let mut parser = match Parser::new(format, text, Config::from(mode)) {
        Ok(parser) => parser,
        Err(refusal) => return Ok(Judged::Refused(message::told(&sofar, &refusal))),
    };
    sofar.header = parser.header();
    report.header(format, sofar.header)?;
    match each(&mut parser, report)? {
        (count, None) => Ok(Judged::Accepted(Accepted::Clauses {
            header: sofar.header,
            count,
        })),
        (count, Some(refusal)) => {
            sofar.clauses = count;
            Ok(Judged::Refused(message::told(&sofar, &refusal)))
        }
    }
}

/// Lists each clause, and answers how many there are, and the refusal after them.
fn each(parser: &mut Parser, report: &mut Report) -> io::Result<(u64, Option<Refusal>)> {
    let mut count = 0;
    loop {
        if count % CLAUSES == 0 {
            report.progress(Stage::Checked {
                done: parser.place() as u64,
                of: parser.text().len() as u64,
            });
        }
        match parser.next_clause() {
            Ok(Some(clause)) => report.clause(&clause)?,
            Ok(None) => return Ok((count, None)),
            Err(refusal) => return Ok((count, Some(refusal))),
        }
        count += 1;
    }
}
