//! What is told, in lines for people.

use super::excerpt::excerpt;
use super::judge::{Accepted, Judged, Told};
use super::message::counted;
use super::names;
use super::report::Judgement;
use latchtwig::formula::{Clause, Header, Label};
use latchtwig::sat_solver_log::Verdict;
use latchtwig::Format;
use std::ffi::OsStr;
use std::fmt;

/// What stands before a line that is shown.
const INDENT: &str = "    ";

/// How a text opens.
pub struct Opening(pub Format, pub Option<Header>);

impl fmt::Display for Opening {
    fn fmt(&self, f: &mut fmt::Formatter<'_>) -> fmt::Result {
        let header = match self.1 {
            Some(header) => header,
            None => return f.write_str("header none"),
        };
        write!(f, "header {} {}", header.variables, header.clauses)?;
        match self.0 {
            Format::Plain => Ok(()),
            _ => write!(f, " {}", header.third),
        }
    }
}

/// A clause that was read.
pub struct Listed<'c>(pub &'c Clause<'c>);

impl fmt::Display for Listed<'_> {
    fn fmt(&self, f: &mut fmt::Formatter<'_>) -> fmt::Result {
        match self.0.label {
            Label::None => f.write_str("clause"),
            Label::Weight(weight) => write!(f, "clause {weight}:"),
            Label::Group(group) => write!(f, "clause {{{group}}}:"),
            Label::Hard => f.write_str("clause h:"),
        }?;
        literals(f, self.0.lits)
    }
}

/// A log that was read, in two lines.
pub struct Log<'l>(pub Verdict, pub &'l [i32]);

impl fmt::Display for Log<'_> {
    fn fmt(&self, f: &mut fmt::Formatter<'_>) -> fmt::Result {
        write!(f, "verdict {}\nliterals", names::name_of_verdict(self.0))?;
        literals(f, self.1)
    }
}

fn literals(f: &mut fmt::Formatter<'_>, lits: &[i32]) -> fmt::Result {
    lits.iter().try_for_each(|lit| write!(f, " {lit}"))
}

/// What a file comes to.
pub struct Whole<'t>(pub &'t OsStr, pub &'t Judgement<'t>);

impl fmt::Display for Whole<'_> {
    fn fmt(&self, f: &mut fmt::Formatter<'_>) -> fmt::Result {
        f.write_str(&names::shown(self.0))?;
        match self.1.judged {
            Judged::Accepted(accepted) => {
                let format = names::name_of_format(self.1.format);
                let hint = hint(self.1, accepted);
                write!(f, ": accepted as {format}: {}{hint}", said(accepted))
            }
            Judged::Refused(told) => refused(f, self.1, told),
        }
    }
}

/// What is said of a text of which nothing was read, if it may be that its lines end with CR alone: then all of it is one comment where it begins with one.
fn hint(judgement: &Judgement, accepted: &Accepted) -> &'static str {
    let nothing = match accepted {
        Accepted::Clauses { count, .. } => *count == 0,
        Accepted::Log(verdict) => *verdict == Verdict::Missing,
    };
    if nothing && !judgement.mode.cr_ends_lines() && has_lone_return(judgement.text) {
        return "; it has a CR without LF, which --cr takes for a line end";
    }
    ""
}

fn has_lone_return(text: &[u8]) -> bool {
    let is_return = |(at, &byte): (usize, &u8)| byte == b'\r' && text.get(at + 1) != Some(&b'\n');
    text.iter().enumerate().any(is_return)
}

fn said(accepted: &Accepted) -> String {
    match accepted {
        Accepted::Clauses { count, .. } => counted(*count, "clause"),
        Accepted::Log(verdict) => {
            format!("{}, {}", names::name_of_verdict(*verdict), order(*verdict))
        }
    }
}

/// What a verdict means for an order.
fn order(verdict: Verdict) -> &'static str {
    match verdict {
        Verdict::Satisfiable => "the order can be built",
        Verdict::Unsatisfiable => "the order cannot be built",
        Verdict::Unknown => "the solver gave up; whether the order can be built is not known",
        Verdict::Missing => "the solver left no answer; look why, and run it again",
    }
}

/// Line and column, the message, the line and a caret.
fn refused(f: &mut fmt::Formatter<'_>, judgement: &Judgement, told: &Told) -> fmt::Result {
    write!(f, ":{}:{}: refused", told.line, told.column)?;
    if let Some(number) = told.number {
        write!(f, " {number}")?;
    }
    writeln!(f, ": {}", told.message)?;
    let shown = excerpt(judgement.text, judgement.mode, told.place, told.column);
    writeln!(f, "{}", format!("{INDENT}{}", shown.line).trim_end())?;
    write!(f, "{INDENT}{:caret$}^", "", caret = shown.caret)
}

/// Why a file could not be read.
pub fn trouble(file: &OsStr, why: &str) -> String {
    format!("{}: {why}", names::shown(file))
}
