//! `rewrites join`: a road program and a creeper program as one.

use crate::fault::Fault;
use crate::files::{self, shown, Text};
use crate::output::{Output, Unwritten};
use crate::status::Status;
use clap::Args;
use rewrites::{Prices, Refusal, TEXT_BYTES, VARIABLES};
use serde::Serialize;
use std::path::{Path, PathBuf};

#[derive(Args)]
pub struct Arguments {
    /// A file with the road program, which runs first
    #[arg(value_name = "ROAD")]
    road: PathBuf,
    /// A file with the creeper program, which goes on with what the road program left
    #[arg(value_name = "CREEPER")]
    creeper: PathBuf,
    /// Write the joined program to FILE, and print its size alone
    #[arg(short, long, value_name = "FILE")]
    output: Option<PathBuf>,
    /// Print a JSON object on a line
    #[arg(long)]
    json: bool,
}

#[derive(Serialize)]
struct Answer {
    statements: u32,
    bytes: u32,
    program: String,
}

/// What JSON has of a pair. Where there is an answer its own names stand beside these.
#[derive(Serialize)]
struct Report<'a> {
    call: &'static str,
    road: String,
    creeper: String,
    status: Status,
    faults: &'a [Fault],
    #[serde(flatten)]
    answer: Option<&'a Answer>,
}

/// A file's text, or what is told of one that isn't read.
fn read(path: &Path) -> Result<Text, Fault> {
    match files::read(path) {
        Ok(bytes) => Ok(Text { name: shown(path), bytes }),
        Err(why) => Err(Fault::unread(path, &why)),
    }
}

/// What a refusal is about. Its number doesn't tell which program: it is the road program exactly where
/// that is refused by itself.
fn fault(refusal: Refusal, road: &Text, creeper: &Text) -> Fault {
    let alone = rewrites::run(&road.bytes, &[0; VARIABLES], 0, 0, &Prices::ours());
    match refusal {
        Refusal::JoinedCount => Fault::of_pair(road, creeper),
        _ if alone == Err(refusal) => {
            Fault { whose: "the author of the road program", ..Fault::refused(refusal, road) }
        }
        _ => {
            Fault { whose: "the author of the creeper program", ..Fault::refused(refusal, creeper) }
        }
    }
}

fn join(road: &Text, creeper: &Text) -> Result<Answer, Fault> {
    let mut text = [0; TEXT_BYTES];
    match rewrites::join(&road.bytes, &creeper.bytes, &mut text) {
        Ok(joined) => Ok(Answer {
            statements: joined.statements,
            bytes: joined.bytes,
            program: String::from_utf8_lossy(&text[..joined.bytes as usize]).into_owned(),
        }),
        Err(refusal) => Err(fault(refusal, road, creeper)),
    }
}

impl Arguments {
    /// The joined program, or the status and what is wrong: with the files, with one or both, or with what they hold.
    fn answer(&self) -> Result<Answer, (Status, Vec<Fault>)> {
        match (read(&self.road), read(&self.creeper)) {
            (Ok(road), Ok(creeper)) => {
                join(&road, &creeper).map_err(|fault| (Status::Refused, vec![fault]))
            }
            (road, creeper) => {
                let faults = [road.err(), creeper.err()].into_iter().flatten().collect();
                Err((Status::Unread, faults))
            }
        }
    }

    /// Replaces the file that the joined program goes to, where there is one.
    fn replace(&self, answer: Option<&Answer>, output: &mut Output) -> Result<(), Unwritten> {
        match (&self.output, answer) {
            (Some(path), Some(answer)) => files::replace(path, answer.program.as_bytes()),
            (Some(path), None) => {
                output.say(format!("{}: not written, for the reason above", shown(path)));
                Ok(())
            }
            (None, _) => Ok(()),
        }
    }

    fn print(
        &self,
        status: Status,
        faults: &[Fault],
        answer: Option<&Answer>,
        output: &mut Output,
    ) -> Result<(), Unwritten> {
        if self.json {
            let (road, creeper) = (shown(&self.road), shown(&self.creeper));
            return output.print_json(&Report {
                call: "join",
                road,
                creeper,
                status,
                faults,
                answer,
            });
        }
        match answer {
            Some(Answer { statements, bytes, .. }) if self.output.is_some() => {
                output.print(format!("statements {statements} bytes {bytes}\n").as_bytes())
            }
            Some(answer) => output.print(answer.program.as_bytes()),
            None => Ok(()),
        }
    }

    pub fn run(&self, output: &mut Output) -> Result<Status, Unwritten> {
        let (status, faults, answer) = match self.answer() {
            Ok(answer) => (Status::Result, Vec::new(), Some(answer)),
            Err((status, faults)) => (status, faults, None),
        };
        for fault in &faults {
            output.say(fault);
        }
        let replaced = self.replace(answer.as_ref(), output);
        self.print(status, &faults, answer.as_ref(), output)?;
        replaced.map(|()| status)
    }
}
