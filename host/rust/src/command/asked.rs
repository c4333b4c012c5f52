//! What the words of the command ask for.

use super::names;
use latchtwig::{Format, Mode};
use std::ffi::{OsStr, OsString};
use std::os::unix::ffi::OsStrExt;

/// What is asked for.
pub enum Asked {
    Help,
    Version,
    Work(Work),
}

/// Files, and what to do with each.
pub struct Work {
    /// What was read is printed too.
    pub list: bool,
    pub json: bool,
    /// None where it is to be found out.
    pub format: Option<Format>,
    pub mode: Mode,
    pub require_header: bool,
    pub files: Vec<OsString>,
}

/// What the words ask for, or what is wrong with them.
pub fn asked(words: &[OsString]) -> Result<Asked, String> {
    let (command, rest) = match words.split_first() {
        Some(split) => split,
        None => return Err("no command is named: check, list or log".to_owned()),
    };
    match command.to_str() {
        Some("-h" | "--help") => Ok(Asked::Help),
        Some("--version") => Ok(Asked::Version),
        Some("check") => Options::default().asked(rest),
        Some("list") => Options::listing().asked(rest),
        Some("log") => Options::of_logs().asked(rest),
        _ => Err(format!(
            "{} is no command: check, list or log",
            names::escaped(command)
        )),
    }
}

/// The words of a command so far.
#[derive(Default)]
struct Options {
    list: bool,
    /// The command reads logs, and no other format can be named.
    logs: bool,
    json: bool,
    format: Option<Format>,
    lenient: bool,
    cr: bool,
    require_header: bool,
    files: Vec<OsString>,
    help: Option<Asked>,
}

impl Options {
    fn listing() -> Self {
        Options {
            list: true,
            ..Options::default()
        }
    }

    fn of_logs() -> Self {
        Options {
            logs: true,
            format: Some(Format::Log),
            ..Options::listing()
        }
    }

    fn asked(mut self, words: &[OsString]) -> Result<Asked, String> {
        let mut words = words.iter();
        while let Some(word) = words.next() {
            if word == "--" {
                self.files.extend(words.by_ref().cloned());
            } else if is_file(word) {
                self.files.push(word.clone());
            } else {
                self.option(word, &mut words)?;
            }
        }
        match self.help.take() {
            Some(help) => Ok(help),
            None => self.work().map(Asked::Work),
        }
    }

    /// Takes an option, and the word after it if that is its value.
    fn option<'w>(
        &mut self,
        word: &OsStr,
        rest: &mut impl Iterator<Item = &'w OsString>,
    ) -> Result<(), String> {
        match word.to_str() {
            Some("-h" | "--help") => self.help = Some(Asked::Help),
            Some("--version") => self.help = Some(Asked::Version),
            Some("--json") => self.json = true,
            Some("--lenient") => self.lenient = true,
            Some("--cr") => self.cr = true,
            Some("--require-header") => self.require_header = true,
            Some("--format") => self.format(rest.next().and_then(|word| word.to_str()))?,
            Some(word) if word.starts_with("--format=") => {
                self.format(word.strip_prefix("--format="))?;
            }
            _ => return Err(format!("{} is no option", names::escaped(word))),
        }
        Ok(())
    }

    fn format(&mut self, name: Option<&str>) -> Result<(), String> {
        if self.logs {
            return Err("log takes no --format".to_owned());
        }
        self.format = name.and_then(names::format_named);
        match self.format {
            Some(_) => Ok(()),
            None => Err("--format takes plain, weighted, grouped, log or weighted2022".to_owned()),
        }
    }

    fn work(self) -> Result<Work, String> {
        if self.files.is_empty() {
            return Err("no FILE is named (`-` is standard input)".to_owned());
        }
        if self.files.iter().filter(|file| *file == "-").count() > 1 {
            return Err("standard input can be read once only".to_owned());
        }
        if let (true, Some(Format::Log | Format::Weighted2022)) = (self.require_header, self.format)
        {
            return Err(
                "--require-header is for plain, weighted and grouped texts; others have no header"
                    .to_owned(),
            );
        }
        Ok(Work {
            list: self.list,
            json: self.json,
            format: self.format,
            mode: Mode::new(self.lenient, self.cr),
            require_header: self.require_header,
            files: self.files,
        })
    }
}

/// Whether a word names a file: `-`, or a word that does not begin so.
fn is_file(word: &OsStr) -> bool {
    word == "-" || !word.as_bytes().starts_with(b"-")
}
