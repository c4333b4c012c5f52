//! What is told of one file, in words or as JSON.

use super::asked::Work;
use super::judge::Judged;
use super::output::Output;
use super::progress::Stage;
use super::{json, words};
use latchtwig::formula::{Clause, Header};
use latchtwig::sat_solver_log::Verdict;
use latchtwig::{Format, Mode};
use std::ffi::OsStr;
use std::io;

/// What a text comes to, and how it was read.
pub struct Judgement<'t> {
    pub format: Format,
    pub mode: Mode,
    pub text: &'t [u8],
    pub judged: &'t Judged,
}

/// Where it is told. An error is one of standard output.
pub struct Report<'o> {
    file: &'o OsStr,
    list: bool,
    json: bool,
    output: &'o mut Output,
}

impl<'o> Report<'o> {
    pub fn new(work: &Work, file: &'o OsStr, output: &'o mut Output) -> Self {
        Report {
            file,
            list: work.list,
            json: work.json,
            output,
        }
    }

    pub fn progress(&self, stage: Stage) {
        self.output.progress().at(stage);
    }

    /// Lists how a text opens.
    pub fn header(&mut self, format: Format, header: Option<Header>) -> io::Result<()> {
        match (self.list, self.json) {
            (false, _) => Ok(()),
            (true, false) => self.output.line(words::Opening(format, header)),
            (true, true) => self.output.line(json::Opening(format, header)),
        }
    }

    /// Lists a clause.
    pub fn clause(&mut self, clause: &Clause) -> io::Result<()> {
        match (self.list, self.json) {
            (false, _) => Ok(()),
            (true, false) => self.output.line(words::Listed(clause)),
            (true, true) => self.output.line(json::Listed(clause)),
        }
    }

    /// Lists a log.
    pub fn log(&mut self, verdict: Verdict, lits: &[i32]) -> io::Result<()> {
        match (self.list, self.json) {
            (false, _) => Ok(()),
            (true, false) => self.output.line(words::Log(verdict, lits)),
            (true, true) => self.output.line(json::Log(lits)),
        }
    }

    /// Tells what a text comes to.
    pub fn judgement(&mut self, judgement: &Judgement) -> io::Result<()> {
        if self.json {
            return self.output.line(json::Whole(self.file, judgement));
        }
        self.output.line(words::Whole(self.file, judgement))
    }

    /// Tells why a file could not be read.
    pub fn trouble(&mut self, why: &str) -> io::Result<()> {
        if self.json {
            return self.output.line(json::Trouble(self.file, why));
        }
        self.output.complain(&words::trouble(self.file, why))
    }
}
