//! Standard output and standard error: results, messages, colour and progress.

use atty::Stream;
use serde::Serialize;
use std::env;
use std::fmt::Display;
use std::io::{self, Write};
use std::time::{Duration, Instant};

/// Progress is drawn again after this long.
const REDRAWN: Duration = Duration::from_millis(100);

/// Where output was to go, and why it isn't there.
#[derive(Debug)]
pub struct Unwritten {
    pub place: String,
    pub error: io::Error,
}

/// The words of an error, without the number that the system has for it.
pub fn reason(error: &io::Error) -> String {
    let words = error.to_string();
    match words.rfind(" (os error ") {
        Some(end) => words[..end].to_string(),
        None => words,
    }
}

pub struct Output {
    colour: bool,
    /// Whether results are shown on a terminal, where progress may stand.
    is_shown: bool,
    progress: Progress,
}

struct Progress {
    is_wanted: bool,
    /// When it was last drawn, and how wide it stands on its line.
    drawn: Option<Instant>,
    width: usize,
}

impl Output {
    pub fn new() -> Output {
        let is_set = |name| env::var_os(name).map_or(false, |value| !value.is_empty());
        let is_dumb = env::var_os("TERM").map_or(false, |value| value == "dumb");
        let is_shown = atty::is(Stream::Stdout);
        let progress = Progress { is_wanted: atty::is(Stream::Stderr), drawn: None, width: 0 };
        Output { colour: is_shown && !is_set("NO_COLOR") && !is_dumb, is_shown, progress }
    }

    /// Prints a part of the result.
    pub fn print(&mut self, text: &[u8]) -> Result<(), Unwritten> {
        if self.is_shown {
            self.end_progress();
        }
        let mut out = io::stdout().lock();
        let written = out.write_all(text).and_then(|()| out.flush());
        written.map_err(|error| Unwritten { place: "standard output".to_string(), error })
    }

    /// Prints an object on a line of its own.
    pub fn print_json<T: Serialize>(&mut self, object: &T) -> Result<(), Unwritten> {
        let mut line = serde_json::to_vec(object).map_err(|error| Unwritten {
            place: "standard output".to_string(),
            error: error.into(),
        })?;
        line.push(b'\n');
        self.print(&line)
    }

    /// Says a line on standard error. Where that can't be written there is no other place for it.
    pub fn say(&mut self, words: impl Display) {
        self.end_progress();
        let _ = writeln!(io::stderr(), "{words}");
    }

    /// The words as something wrong is shown.
    pub fn red(&self, words: &str) -> String {
        if self.colour {
            format!("\x1b[31m{words}\x1b[0m")
        } else {
            words.to_string()
        }
    }

    /// Shows on a terminal how many of several folders are done.
    pub fn progress(&mut self, done: usize, total: usize) {
        let progress = &mut self.progress;
        let is_old = progress.drawn.map_or(true, |drawn| drawn.elapsed() >= REDRAWN);
        if progress.is_wanted && total > 1 && (is_old || progress.width == 0) {
            let words = format!("{done} of {total} folders");
            let _ = write!(io::stderr(), "\r{words}");
            progress.drawn = Some(Instant::now());
            progress.width = words.len();
        }
    }

    /// Takes the progress from its line, which is written on next.
    pub fn end_progress(&mut self) {
        let width = std::mem::take(&mut self.progress.width);
        if width > 0 {
            let _ = write!(io::stderr(), "\r{:width$}\r", "");
        }
    }
}
