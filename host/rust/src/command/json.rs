//! What is told, in lines of JSON.

use super::judge::{Accepted, Judged, Told};
use super::names;
use super::report::Judgement;
use latchtwig::formula::{self, Clause, Label};
use latchtwig::Format;
use std::ffi::OsStr;
use std::fmt::{self, Write};

/// A string of JSON.
struct Quoted<'s>(&'s str);

impl fmt::Display for Quoted<'_> {
    fn fmt(&self, f: &mut fmt::Formatter<'_>) -> fmt::Result {
        f.write_char('"')?;
        for character in self.0.chars() {
            match character {
                '"' | '\\' => write!(f, "\\{character}")?,
                // JSON lets DEL and what is above it stand. Escaped, no control character reaches a terminal.
                _ if character.is_control() => write!(f, "\\u{:04x}", u32::from(character))?,
                _ => f.write_char(character)?,
            }
        }
        f.write_char('"')
    }
}

/// A file by its name.
struct File<'n>(&'n OsStr);

impl fmt::Display for File<'_> {
    fn fmt(&self, f: &mut fmt::Formatter<'_>) -> fmt::Result {
        write!(f, "\"file\":{}", Quoted(&names::lossy(self.0)))
    }
}

/// A header, or null.
struct Header(Format, Option<formula::Header>);

impl fmt::Display for Header {
    fn fmt(&self, f: &mut fmt::Formatter<'_>) -> fmt::Result {
        let header = match self.1 {
            Some(header) => header,
            None => return f.write_str("\"header\":null"),
        };
        let (variables, clauses) = (header.variables, header.clauses);
        write!(
            f,
            "\"header\":{{\"variables\":{variables},\"clauses\":{clauses}"
        )?;
        match self.0 {
            Format::Weighted => write!(f, ",\"top\":{}", header.third)?,
            Format::Grouped => write!(f, ",\"groups\":{}", header.third)?,
            _ => {}
        }
        f.write_char('}')
    }
}

/// How a text opens.
pub struct Opening(pub Format, pub Option<formula::Header>);

impl fmt::Display for Opening {
    fn fmt(&self, f: &mut fmt::Formatter<'_>) -> fmt::Result {
        write!(f, "{{{}}}", Header(self.0, self.1))
    }
}

/// A clause that was read.
pub struct Listed<'c>(pub &'c Clause<'c>);

impl fmt::Display for Listed<'_> {
    fn fmt(&self, f: &mut fmt::Formatter<'_>) -> fmt::Result {
        write!(f, "{{\"clause\":{}", Literals(self.0.lits))?;
        match self.0.label {
            Label::None => {}
            Label::Weight(weight) => write!(f, ",\"weight\":{weight}")?,
            Label::Group(group) => write!(f, ",\"group\":{group}")?,
            Label::Hard => f.write_str(",\"hard\":true")?,
        }
        f.write_char('}')
    }
}

/// The literals of a log.
pub struct Log<'l>(pub &'l [i32]);

impl fmt::Display for Log<'_> {
    fn fmt(&self, f: &mut fmt::Formatter<'_>) -> fmt::Result {
        write!(f, "{{\"literals\":{}}}", Literals(self.0))
    }
}

struct Literals<'l>(&'l [i32]);

impl fmt::Display for Literals<'_> {
    fn fmt(&self, f: &mut fmt::Formatter<'_>) -> fmt::Result {
        let mut before = '[';
        for lit in self.0 {
            write!(f, "{before}{lit}")?;
            before = ',';
        }
        f.write_str(if self.0.is_empty() { "[]" } else { "]" })
    }
}

/// What a file comes to.
pub struct Whole<'t>(pub &'t OsStr, pub &'t Judgement<'t>);

impl fmt::Display for Whole<'_> {
    fn fmt(&self, f: &mut fmt::Formatter<'_>) -> fmt::Result {
        let Judgement {
            format,
            mode,
            judged,
            ..
        } = self.1;
        write!(
            f,
            "{{{},\"format\":{},\"mode\":{}",
            File(self.0),
            Quoted(names::name_of_format(*format)),
            Quoted(names::name_of_mode(*mode))
        )?;
        match judged {
            Judged::Accepted(accepted) => fmt_accepted(f, *format, accepted)?,
            Judged::Refused(told) => fmt_refused(f, told)?,
        }
        f.write_char('}')
    }
}

fn fmt_accepted(f: &mut fmt::Formatter<'_>, format: Format, accepted: &Accepted) -> fmt::Result {
    f.write_str(",\"accepted\":true,")?;
    match accepted {
        Accepted::Clauses { header, count } => {
            write!(f, "{},\"clauses\":{count}", Header(format, *header))
        }
        Accepted::Log(verdict) => {
            write!(
                f,
                "\"verdict\":{}",
                Quoted(names::name_of_verdict(*verdict))
            )
        }
    }
}

fn fmt_refused(f: &mut fmt::Formatter<'_>, told: &Told) -> fmt::Result {
    f.write_str(",\"accepted\":false,\"refusal\":{\"number\":")?;
    match told.number {
        Some(number) => write!(f, "{number}")?,
        None => f.write_str("null")?,
    }
    let (place, line, column) = (told.place, told.line, told.column);
    write!(
        f,
        ",\"place\":{place},\"line\":{line},\"column\":{column},\"message\":{},\"expected\":{},\"found\":",
        Quoted(&told.message),
        Quoted(&told.expected)
    )?;
    match &told.found {
        Some(found) => write!(f, "{}}}", Quoted(found)),
        None => f.write_str("null}"),
    }
}

/// Why a file could not be read.
pub struct Trouble<'t>(pub &'t OsStr, pub &'t str);

impl fmt::Display for Trouble<'_> {
    fn fmt(&self, f: &mut fmt::Formatter<'_>) -> fmt::Result {
        write!(f, "{{{},\"trouble\":{}}}", File(self.0), Quoted(self.1))
    }
}
