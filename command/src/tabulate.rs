//! `rewrites tabulate`: the statements at which each part of a condition is true.

use crate::blame::lines;
use crate::fault::Fault;
use crate::files::Text;
use crate::folder::Folder;
use crate::output::{Output, Unwritten};
use crate::parts;
use crate::path::{self, At};
use crate::status::Status;
use clap::Args;
use rewrites::{Refusal, PART_WORDS, TABLE_WORDS};
use serde::Serialize;
use std::ffi::OsString;
use std::path::PathBuf;

#[derive(Args)]
pub struct Arguments {
    /// A folder with a program in the file `given` and a condition in `condition`
    #[arg(value_name = "DIR")]
    folder: PathBuf,
    /// Take this condition, and not the folder's
    #[arg(long, value_name = "TEXT")]
    condition: Option<OsString>,
    /// Show a path that tells why the condition is true at this statement, or false
    #[arg(long, value_name = "STATEMENT")]
    at: Option<u32>,
    /// Ask for the path of this part of the condition, as the table counts them, and not of the whole
    #[arg(long, value_name = "PART", requires = "at")]
    part: Option<u32>,
    /// Print a JSON object on a line
    #[arg(long)]
    json: bool,
}

#[derive(Serialize)]
pub struct Answer {
    condition: String,
    /// The number of the program's statements.
    statements: usize,
    parts: u32,
    satisfied: u32,
    first: u32,
    table: Vec<Row>,
    /// A path for the condition at a statement, where one is asked for.
    #[serde(skip_serializing_if = "Option::is_none")]
    at: Option<At>,
}

/// A part, and the statements at which it is true.
#[derive(Serialize)]
struct Row {
    part: usize,
    text: String,
    satisfied: usize,
    statements: Vec<usize>,
}

/// The statements that are set in the words of one part.
pub fn statements(words: &[u64]) -> Vec<usize> {
    let is_set = |at: &usize| words[at / 64] >> (at % 64) & 1 == 1;
    (0..64 * words.len()).filter(is_set).map(|at| at + 1).collect()
}

/// Statements as runs of such that follow each other: `1-2 4-8`.
fn ranges(statements: &[usize]) -> String {
    let mut runs: Vec<(usize, usize)> = Vec::new();
    for &statement in statements {
        match runs.last_mut() {
            Some((_, last)) if *last + 1 == statement => *last = statement,
            _ => runs.push((statement, statement)),
        }
    }
    let run = |&(first, last): &(usize, usize)| {
        if first == last {
            first.to_string()
        } else {
            format!("{first}-{last}")
        }
    };
    runs.iter().map(run).collect::<Vec<String>>().join(" ")
}

impl Answer {
    fn text(&self, program: &[u8]) -> String {
        let mut text = String::new();
        for Row { part, text: spelled, satisfied, statements } in &self.table {
            text += &format!("{part:2}  {spelled}: {satisfied} of {}", self.statements);
            if !statements.is_empty() {
                text += &format!(": {}", ranges(statements));
            }
            text.push('\n');
        }
        let Answer { parts, satisfied, first, .. } = self;
        text += &format!("parts {parts} satisfied {satisfied} first {first}\n");
        text + &self.at.as_ref().map_or_else(String::new, |at| at.text(program))
    }
}

/// The table of a condition over a program, or what is refused.
pub fn answer(given: &Text, condition: &Text) -> Result<Answer, Fault> {
    let mut table = [0; TABLE_WORDS];
    match rewrites::tabulate(&given.bytes, &condition.bytes, &mut table) {
        Ok(answer) => {
            let texts = parts::texts(&condition.bytes);
            let rows = texts.into_iter().zip(table.chunks(PART_WORDS)).enumerate();
            let table = rows.map(|(k, (text, words))| {
                let statements = statements(words);
                Row {
                    part: k + 1,
                    text: String::from_utf8_lossy(text).into_owned(),
                    satisfied: statements.len(),
                    statements,
                }
            });
            Ok(Answer {
                condition: String::from_utf8_lossy(&condition.bytes).into_owned(),
                statements: lines(&given.bytes).count(),
                parts: answer.parts,
                satisfied: answer.satisfied,
                first: answer.first,
                table: table.collect(),
                at: None,
            })
        }
        Err(refusal) => Err(refused(refusal, given, condition)),
    }
}

/// A call on a program and a condition is refused.
pub fn refused(refusal: Refusal, given: &Text, condition: &Text) -> Fault {
    let is_of_condition = matches!(
        refusal,
        Refusal::ConditionLength | Refusal::ConditionMisspelled | Refusal::ConditionParts
    );
    Fault::refused(refusal, if is_of_condition { condition } else { given })
}

impl Arguments {
    fn tabulate(&self, folder: &mut Folder) -> Option<(Answer, Text)> {
        folder.is_there("a program in `given` and a condition in `condition`")?;
        let given = folder.read("given")?;
        let condition = folder.option_or_bare(&self.condition, "condition")?;
        let mut answer = answer(&given, &condition).map_err(|fault| folder.refuse(fault)).ok()?;
        if let Some(statement) = self.at {
            let told = path::at(&given, &condition, self.part, statement);
            answer.at = Some(told.map_err(|fault| folder.misused(fault)).ok()?);
        }
        Some((answer, given))
    }

    pub fn run(&self, output: &mut Output) -> Result<Status, Unwritten> {
        let mut folder = Folder::new(&self.folder);
        let (answer, program) = match self.tabulate(&mut folder) {
            Some((answer, given)) => (Some(answer), given.bytes),
            None => (None, Vec::new()),
        };
        folder.print("tabulate", self.json, answer, |answer| answer.text(&program), output)
    }
}
