//! `rewrites run`: a program's run from a start.

use crate::fault::Fault;
use crate::files::Text;
use crate::folder::Folder;
use crate::output::{Output, Unwritten};
use crate::start::{self, Start};
use crate::status::Status;
use clap::Args;
use rewrites::{Outcome, Prices, Refusal, KEPT};
use serde::Serialize;
use std::path::PathBuf;

#[derive(Args)]
pub struct Arguments {
    /// A folder with a program in the file `given` and a start in `start`: the input, the budget
    /// and up to 64 values, one a line
    #[arg(value_name = "DIR")]
    folder: PathBuf,
    /// Take this input, and not the start's; the folder then needs no start
    #[arg(long, value_name = "N", value_parser = start::value, allow_negative_numbers = true)]
    input: Option<i32>,
    /// Take this budget of steps, and not the start's; 1000000 where there is no start
    #[arg(long, value_name = "N", value_parser = start::budget)]
    budget: Option<u32>,
    /// Start with this value of a variable, as in i13=40; may be given again for others
    #[arg(long, value_name = "iN=VALUE", value_parser = start::setting)]
    set: Vec<(usize, i32)>,
    /// Print a JSON object on a line
    #[arg(long)]
    json: bool,
}

#[derive(Serialize)]
struct Answer {
    input: i32,
    budget: u32,
    values: Vec<i32>,
    #[serde(flatten)]
    ending: Ending,
}

/// How a run ends.
#[derive(Serialize)]
#[serde(tag = "outcome", rename_all = "lowercase")]
pub enum Ending {
    Ended { value: i32, steps: u32, ticks: u64, kept: [i32; KEPT] },
    Spent { statement: u32, ticks: u64, left: Vec<i32> },
    Fault { statement: u32, steps: u32, ticks: u64 },
}

impl From<Outcome> for Ending {
    fn from(outcome: Outcome) -> Ending {
        match outcome {
            Outcome::Ended { value, steps, kept, ticks } => {
                Ending::Ended { value, steps, ticks, kept: kept.map(|value| value as i32) }
            }
            Outcome::Spent { statement, values, ticks } => {
                let left = values.iter().map(|&value| value as i32).collect();
                Ending::Spent { statement, ticks, left }
            }
            Outcome::Fault { statement, steps, ticks } => Ending::Fault { statement, steps, ticks },
        }
    }
}

impl Ending {
    /// The line of the answer.
    pub fn line(&self) -> String {
        match self {
            Ending::Ended { value, steps, ticks, kept } => {
                let kept = kept.map(|value| value.to_string()).join(" ");
                format!("ended {value} steps {steps} ticks {ticks} kept {kept}\n")
            }
            Ending::Spent { statement, ticks, .. } => {
                format!("spent at {statement} ticks {ticks}\n")
            }
            Ending::Fault { statement, steps, ticks } => {
                format!("fault at {statement} steps {steps} ticks {ticks}\n")
            }
        }
    }

    /// What the runner prints: that line, and the values of a run that is spent.
    fn text(&self) -> String {
        let mut text = self.line();
        if let Ending::Spent { left, .. } = self {
            for (x, value) in left.iter().enumerate() {
                text += &format!("i{x} = {value}\n");
            }
        }
        text
    }
}

impl Arguments {
    /// The folder's start with what the options replace, and the file that it is of.
    fn start(&self, folder: &mut Folder) -> Option<(Start, Option<Text>)> {
        let file = match self.input {
            Some(_) => folder.read_if_there("start")?,
            None => Some(folder.read("start")?),
        };
        let read = file.as_ref().map(|text| (text, Start::read(&text.bytes)));
        let mut start = match read {
            Some((_, Ok(start))) => start,
            Some((text, Err(wrong))) => {
                folder.refuse(Fault::of_start(wrong, text));
                return None;
            }
            None => Start::from_input(0),
        };
        start.input = self.input.unwrap_or(start.input);
        start.budget = self.budget.unwrap_or(start.budget);
        for &(x, value) in &self.set {
            start.values[x] = value;
        }
        Some((start, file))
    }

    fn outcome(&self, folder: &mut Folder) -> Option<Answer> {
        folder.is_there("a program in `given` and a start in `start`")?;
        let given = folder.read("given")?;
        let (start, file) = self.start(folder)?;
        match start.run(&given.bytes, &Prices::ours()) {
            Ok(outcome) => {
                let Start { input, budget, values } = start;
                let values = values.to_vec();
                Some(Answer { input, budget, values, ending: outcome.into() })
            }
            Err(Refusal::Budget) => {
                folder.refuse(self.budget_fault(start.budget, file));
                None
            }
            Err(refusal) => {
                folder.refuse(Fault::refused(refusal, &given));
                None
            }
        }
    }

    /// The budget is the option's, or stands on line 2 of the start.
    fn budget_fault(&self, budget: u32, file: Option<Text>) -> Fault {
        match (self.budget, file) {
            (None, Some(Text { name, .. })) => Fault::of_budget(budget, name),
            _ => {
                let bytes = budget.to_string().into_bytes();
                Fault::refused(Refusal::Budget, &Text { name: "--budget".to_string(), bytes })
            }
        }
    }

    pub fn run(&self, output: &mut Output) -> Result<Status, Unwritten> {
        let mut folder = Folder::new(&self.folder);
        let answer = self.outcome(&mut folder);
        folder.print("run", self.json, answer, |answer| answer.ending.text(), output)
    }
}
