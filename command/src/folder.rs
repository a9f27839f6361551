//! A folder: its files, what went wrong with them, and what is told of it.

use crate::fault::Fault;
use crate::files::{self, shown, Text, Unread};
use crate::output::{reason, Output, Unwritten};
use crate::status::Status;
use rewrites::{Stages, STAGES_BYTES};
use serde::Serialize;
use std::ffi::OsString;
use std::fs;
use std::io::ErrorKind;
use std::os::unix::ffi::OsStrExt;
use std::path::Path;

pub struct Folder<'a> {
    path: &'a Path,
    pub name: String,
    pub status: Status,
    pub faults: Vec<Fault>,
}

/// What JSON has of a call on a folder. Where there is an answer its own names stand beside these.
#[derive(Serialize)]
pub struct Report<'a, A> {
    call: &'static str,
    folder: &'a str,
    status: Status,
    faults: &'a [Fault],
    #[serde(flatten)]
    answer: Option<A>,
}

impl<'a> Folder<'a> {
    pub fn new(path: &'a Path) -> Folder<'a> {
        Folder { path, name: shown(path), status: Status::Result, faults: Vec::new() }
    }

    fn add(&mut self, status: Status, fault: Fault) {
        self.status = self.status.max(status);
        self.faults.push(fault);
    }

    /// Goes on where there is a folder, which should have these files.
    pub fn is_there(&mut self, files: &str) -> Option<()> {
        let why = match fs::metadata(self.path) {
            Ok(there) if there.is_dir() => return Some(()),
            Ok(_) => "not a folder".to_string(),
            Err(error) => reason(&error),
        };
        self.add(Status::Unread, Fault::no_folder(self.path, why, files));
        None
    }

    /// A file of the folder.
    pub fn read(&mut self, file: &str) -> Option<Text> {
        let path = self.path.join(file);
        match files::read(&path) {
            Ok(bytes) => Some(Text { name: shown(&path), bytes }),
            Err(why) => self.unread(&path, &why),
        }
    }

    /// The text of an option, or that of the file of its name, without a byte 10 at its end.
    pub fn option_or_bare(&mut self, option: &Option<OsString>, file: &str) -> Option<Text> {
        if let Some(text) = option {
            return Some(Text { name: format!("--{file}"), bytes: text.as_bytes().to_vec() });
        }
        let mut text = self.read(file)?;
        if text.bytes.ends_with(b"\n") {
            text.bytes.pop();
        }
        Some(text)
    }

    /// A file of the folder, or none where there is none.
    pub fn read_if_there(&mut self, file: &str) -> Option<Option<Text>> {
        let path = self.path.join(file);
        match files::read(&path) {
            Ok(bytes) => Some(Some(Text { name: shown(&path), bytes })),
            Err(Unread::Missing(error)) if error.kind() == ErrorKind::NotFound => Some(None),
            Err(why) => self.unread(&path, &why),
        }
    }

    /// A file of the folder; one that can't be opened reads as empty, as in the check program.
    pub fn read_or_empty(&mut self, file: &str) -> Option<Text> {
        let path = self.path.join(file);
        match files::read(&path) {
            Ok(bytes) => Some(Text { name: shown(&path), bytes }),
            Err(why @ Unread::Missing(_)) => {
                self.add(Status::Unread, Fault::read_as_empty(&path, &why));
                Some(Text { name: shown(&path), bytes: Vec::new() })
            }
            Err(why) => self.unread(&path, &why),
        }
    }

    /// The stages of a file of the folder, eight empty places where there is none.
    pub fn read_stages(&mut self, path: &Path) -> Option<Stages> {
        let why = match files::read_exactly(path, STAGES_BYTES) {
            Ok(bytes) => return Stages::from_bytes(&bytes),
            Err(Unread::Missing(error)) if error.kind() == ErrorKind::NotFound => {
                return Some(Stages::new());
            }
            Err(why) => why,
        };
        self.add(Status::Unread, Fault::not_stages(path, &why));
        None
    }

    /// A file isn't read.
    pub fn unread<T>(&mut self, path: &Path, why: &Unread) -> Option<T> {
        self.add(Status::Unread, Fault::unread(path, why));
        None
    }

    /// A call on the folder is refused.
    pub fn refuse(&mut self, fault: Fault) {
        self.add(Status::Refused, fault);
    }

    /// An option of a call doesn't suit the folder.
    pub fn misused(&mut self, fault: Fault) {
        self.add(Status::Unread, fault);
    }

    /// Says what went wrong.
    pub fn say(&self, output: &mut Output) {
        for fault in &self.faults {
            output.say(fault);
        }
    }

    pub fn report<A>(&self, call: &'static str, answer: Option<A>) -> Report<'_, A> {
        let Folder { name, status, faults, .. } = self;
        Report { call, folder: name, status: *status, faults, answer }
    }

    /// Says what went wrong, and prints the answer: with `json` as an object, else its text where there is one.
    pub fn print<A: Serialize>(
        &self,
        call: &'static str,
        json: bool,
        answer: Option<A>,
        text: impl Fn(&A) -> String,
        output: &mut Output,
    ) -> Result<Status, Unwritten> {
        self.say(output);
        self.print_quietly(call, json, answer, text, output)
    }

    /// The same, where what went wrong is said already.
    pub fn print_quietly<A: Serialize>(
        &self,
        call: &'static str,
        json: bool,
        answer: Option<A>,
        text: impl Fn(&A) -> String,
        output: &mut Output,
    ) -> Result<Status, Unwritten> {
        if json {
            output.print_json(&self.report(call, answer))?;
        } else if let Some(answer) = answer {
            output.print(text(&answer).as_bytes())?;
        }
        Ok(self.status)
    }
}
