//! How far a file is, on a terminal, where it takes more than a second.
//!
//! A thread of its own looks ten times a second, since a call of the reader may take long: a log is read by one.

use super::terminal::is_terminal;
use std::io::{self, Write};
use std::sync::{Arc, Mutex, MutexGuard, PoisonError};
use std::thread;
use std::time::{Duration, Instant};

const FIRST: Duration = Duration::from_secs(1);
const AGAIN: Duration = Duration::from_millis(100);

/// The most characters of a name, so that a line is no wider than a terminal.
const LONGEST_NAME: usize = 40;

/// To the front of the line, and what stands there is erased.
const ERASE: &str = "\r\x1b[K";

/// What is done with a file, and how many bytes of it are done, of how many. 0 is for a length that is not known.
#[derive(Clone, Copy)]
pub enum Stage {
    Read { done: u64, of: u64 },
    Checked { done: u64, of: u64 },
    Log { of: u64 },
}

/// What there is to show, if standard error is a terminal.
#[derive(Clone)]
pub struct Progress(Option<Arc<Mutex<State>>>);

struct State {
    file: Option<File>,
    shown: bool,
}

struct File {
    name: String,
    begun: Instant,
    /// None while there is nothing to tell.
    stage: Option<Stage>,
}

impl Progress {
    pub fn new() -> Self {
        if !is_terminal(&io::stderr()) {
            return Progress(None);
        }
        let state = Arc::new(Mutex::new(State {
            file: None,
            shown: false,
        }));
        let watched = Arc::clone(&state);
        let started = thread::Builder::new().spawn(move || loop {
            thread::sleep(AGAIN);
            locked(&watched).show();
        });
        Progress(started.ok().map(|_| state))
    }

    /// A file is begun.
    pub fn begin(&self, name: &str) {
        self.change(|state| {
            state.file = Some(File {
                name: shortened(name),
                begun: Instant::now(),
                stage: None,
            });
        });
    }

    /// A file is so far.
    pub fn at(&self, stage: Stage) {
        self.change(|state| {
            if let Some(file) = &mut state.file {
                file.stage = Some(stage);
            }
        });
    }

    /// A file is done.
    pub fn end(&self) {
        self.change(|state| {
            state.hide();
            state.file = None;
        });
    }

    /// Does something while nothing is shown.
    pub fn hidden<T>(&self, work: impl FnOnce() -> T) -> T {
        let mut guard = self.0.as_deref().map(locked);
        if let Some(state) = &mut guard {
            state.hide();
        }
        work()
    }

    fn change(&self, change: impl FnOnce(&mut State)) {
        if let Some(state) = &self.0 {
            change(&mut locked(state));
        }
    }
}

fn locked(state: &Mutex<State>) -> MutexGuard<'_, State> {
    state.lock().unwrap_or_else(PoisonError::into_inner)
}

impl State {
    fn show(&mut self) {
        if let Some(line) = self.file.as_ref().and_then(File::line) {
            say(&format!("{ERASE}{line}"));
            self.shown = true;
        }
    }

    fn hide(&mut self) {
        if self.shown {
            say(ERASE);
            self.shown = false;
        }
    }
}

impl File {
    /// What is shown, once there is something.
    fn line(&self) -> Option<String> {
        let elapsed = self.begun.elapsed();
        match self.stage {
            Some(stage) if elapsed >= FIRST => Some(format!(
                "latchtwig: {}: {}",
                self.name,
                stage.told(elapsed.as_secs())
            )),
            _ => None,
        }
    }
}

impl Stage {
    fn told(self, seconds: u64) -> String {
        match self {
            Stage::Read { done, of: 0 } => format!("{} MB read", megabytes(done)),
            Stage::Read { done, of } => format!("{}% read", percent(done, of)),
            Stage::Checked { done, of } => format!("{}% checked", percent(done, of)),
            Stage::Log { of } => {
                format!("a log of {} MB is checked, {seconds} s", megabytes(of))
            }
        }
    }
}

fn megabytes(bytes: u64) -> u64 {
    bytes / 1_000_000
}

/// The part that is done. A text of no bytes is done whole.
fn percent(done: u64, of: u64) -> u64 {
    (u128::from(done.min(of)) * 100 / u128::from(of.max(1))) as u64
}

/// The last characters of a name, if it is too long.
fn shortened(name: &str) -> String {
    let characters = name.chars().count();
    if characters <= LONGEST_NAME {
        return name.to_owned();
    }
    let end = name.chars().skip(characters - LONGEST_NAME);
    format!("...{}", end.collect::<String>())
}

fn say(what: &str) {
    let mut standard = io::stderr().lock();
    let _ = standard
        .write_all(what.as_bytes())
        .and_then(|()| standard.flush());
}
