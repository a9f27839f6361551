//! `rewrites stage`: programs kept under a name in the file `stages`, and returned to.

use crate::blame::lines;
use crate::fault::Fault;
use crate::files::{self, shown, Text};
use crate::folder::Folder;
use crate::output::{Output, Unwritten};
use crate::status::Status;
use clap::{Args, ValueEnum};
use rewrites::{Refusal, Stages, PLACES};
use serde::Serialize;
use std::ffi::OsString;
use std::os::unix::ffi::OsStrExt;
use std::path::PathBuf;

#[derive(Args)]
pub struct Arguments {
    /// A folder with stages in the file `stages`, or without it, and for `keep` a program in `given`
    #[arg(value_name = "DIR")]
    folder: PathBuf,
    /// `keep` the program of the folder, or `return` to a stage; without either, what is kept is listed
    #[arg(value_name = "ACTION", requires = "name")]
    action: Option<Action>,
    /// The name of the stage, 1 to 8 lower-case letters
    #[arg(value_name = "NAME")]
    name: Option<OsString>,
    /// Write the program that is returned to FILE, and print its size alone
    #[arg(short, long, value_name = "FILE")]
    output: Option<PathBuf>,
    /// Print a JSON object on a line
    #[arg(long)]
    json: bool,
}

#[derive(Clone, Copy, PartialEq, ValueEnum)]
enum Action {
    /// Keep the program in `given` under a name
    Keep,
    /// Print the program that is kept under a name
    Return,
}

/// A stage and its place, 1 to 8.
#[derive(Serialize)]
struct Stage {
    place: usize,
    name: String,
    lines: usize,
    bytes: usize,
}

#[derive(Serialize)]
#[serde(tag = "action", rename_all = "lowercase")]
enum Answer {
    List { stages: Vec<Stage>, empty: usize },
    Keep(Stage),
    Return(Returned),
}

#[derive(Serialize)]
struct Returned {
    name: String,
    lines: usize,
    bytes: usize,
    program: String,
}

impl Stage {
    fn new(place: usize, name: String, text: &[u8]) -> Stage {
        Stage { place, name, lines: lines(text).count(), bytes: text.len() }
    }

    fn line(&self) -> String {
        let Stage { place, name, lines, bytes } = self;
        format!("place {place} name {name} lines {lines} bytes {bytes}\n")
    }
}

/// What the places hold.
fn list(stages: &Stages) -> Answer {
    let held = stages.names().into_iter().enumerate().filter_map(|(at, name)| {
        let name = name?;
        let text = stages.go_back(&name).ok()?;
        Some(Stage::new(at + 1, name, &text))
    });
    let stages: Vec<Stage> = held.collect();
    Answer::List { empty: PLACES - stages.len(), stages }
}

/// What a refusal of a stage's name is about: the name itself, or the names that the file has.
fn fault(refusal: Refusal, name: &[u8], file: &str, stages: &Stages) -> Fault {
    let known: Vec<String> = stages.names().into_iter().flatten().collect();
    let file = if refusal == Refusal::StageName { "NAME" } else { file };
    Fault::of_stage(refusal, file, name, &known)
}

impl Arguments {
    /// What is wrong with the arguments taken together.
    pub fn wrong(&self) -> Option<&'static str> {
        let is_for_return = self.action == Some(Action::Return);
        (self.output.is_some() && !is_for_return).then_some("--output is for `return`")
    }

    /// The answer, or none where something is wrong with the folder. What is kept is written to its file before it is told.
    fn answer(&self, folder: &mut Folder) -> Result<Option<Answer>, Unwritten> {
        let files = match self.action {
            Some(Action::Keep) => "a program in `given`",
            _ => "stages in `stages`",
        };
        if folder.is_there(files).is_none() {
            return Ok(None);
        }
        let name = self.name.as_deref().map_or(&[][..], OsStrExt::as_bytes);
        let path = self.folder.join("stages");
        let stages = folder.read_stages(&path);
        let given = match self.action {
            Some(Action::Keep) => folder.read("given"),
            _ => Some(Text { name: String::new(), bytes: Vec::new() }),
        };
        let (mut stages, given) = match (stages, given) {
            (Some(stages), Some(given)) => (stages, given),
            _ => return Ok(None),
        };
        let answered = match self.action {
            None => Ok(list(&stages)),
            Some(Action::Keep) => stages.keep(name, &given.bytes).map(|place| {
                let name = String::from_utf8_lossy(name).into_owned();
                Answer::Keep(Stage::new(place as usize, name, &given.bytes))
            }),
            Some(Action::Return) => stages.go_back(name).map(|text| {
                Answer::Return(Returned {
                    name: String::from_utf8_lossy(name).into_owned(),
                    lines: lines(&text).count(),
                    bytes: text.len(),
                    program: String::from_utf8_lossy(&text).into_owned(),
                })
            }),
        };
        match answered {
            Ok(answer) => {
                if matches!(answer, Answer::Keep(_)) {
                    files::replace(&path, stages.as_bytes())?;
                }
                Ok(Some(answer))
            }
            Err(refusal) => {
                folder.refuse(match refusal {
                    Refusal::StageName | Refusal::StagesFull | Refusal::StageUnknown => {
                        fault(refusal, name, &shown(&path), &stages)
                    }
                    _ => Fault::refused(refusal, &given),
                });
                Ok(None)
            }
        }
    }

    fn text(&self, answer: &Answer) -> String {
        match answer {
            Answer::List { stages, empty } => {
                let rows: String = stages.iter().map(Stage::line).collect();
                format!("{rows}stages {} empty {empty}\n", stages.len())
            }
            Answer::Keep(stage) => stage.line(),
            Answer::Return(Returned { lines, bytes, .. }) if self.output.is_some() => {
                format!("lines {lines} bytes {bytes}\n")
            }
            Answer::Return(returned) => returned.program.clone(),
        }
    }

    /// Replaces the file that a returned program goes to, where there is one.
    fn replace(&self, answer: Option<&Answer>, output: &mut Output) -> Result<(), Unwritten> {
        match (&self.output, answer) {
            (Some(path), Some(Answer::Return(returned))) => {
                files::replace(path, returned.program.as_bytes())
            }
            (Some(path), _) => {
                output.say(format!("{}: not written, for the reason above", shown(path)));
                Ok(())
            }
            (None, _) => Ok(()),
        }
    }

    pub fn run(&self, output: &mut Output) -> Result<Status, Unwritten> {
        let mut folder = Folder::new(&self.folder);
        let answer = self.answer(&mut folder)?;
        folder.say(output);
        let replaced = self.replace(answer.as_ref(), output);
        folder.print_quietly("stage", self.json, answer, |answer| self.text(answer), output)?;
        replaced.map(|()| folder.status)
    }
}
