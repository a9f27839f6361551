//! `rewrites review`: the statements at which each condition of a review is true.

use crate::blame::lines;
use crate::fault::Fault;
use crate::files::Text;
use crate::folder::Folder;
use crate::output::{Output, Unwritten};
use crate::status::Status;
use crate::tabulate::statements;
use clap::Args;
use rewrites::{Refusal, Reviewed, PART_WORDS, REVIEW_WORDS};
use serde::Serialize;
use std::path::PathBuf;

/// The columns of a statement's number and of the longest statement, and those before the marks.
const NUMBER_COLUMNS: usize = 4;
const STATEMENT_COLUMNS: usize = 32;
const MARGIN: usize = NUMBER_COLUMNS + 2 + STATEMENT_COLUMNS + 2;

#[derive(Args)]
pub struct Arguments {
    /// A folder with a program in the file `given` and up to 32 conditions in `conditions`, one a
    /// line
    #[arg(value_name = "DIR")]
    folder: PathBuf,
    /// Print a JSON object on a line
    #[arg(long)]
    json: bool,
}

#[derive(Serialize)]
pub struct Answer {
    /// The number of the program's statements.
    statements: usize,
    tables: u32,
    lines: u32,
    conditions: Vec<Row>,
    /// The texts of the statements.
    #[serde(skip)]
    program: Vec<String>,
}

/// A line, and the statements at which its condition is true.
#[derive(Serialize)]
struct Row {
    line: usize,
    condition: String,
    table: u32,
    parts: u32,
    satisfied: u32,
    first: u32,
    statements: Vec<usize>,
}

/// A line without its byte 10.
fn shown(line: &[u8]) -> String {
    String::from_utf8_lossy(line.strip_suffix(b"\n").unwrap_or(line)).into_owned()
}

impl Answer {
    fn new(given: &[u8], conditions: &[u8], reviewed: &Reviewed, table: &[u64]) -> Answer {
        let row = |(j, line): (usize, &[u8])| {
            let first_word = PART_WORDS * reviewed.table_of[j] as usize;
            Row {
                line: j + 1,
                condition: shown(line),
                table: reviewed.table_of[j],
                parts: reviewed.parts[j],
                satisfied: reviewed.satisfied[j],
                first: reviewed.first[j],
                statements: statements(&table[first_word..first_word + PART_WORDS]),
            }
        };
        Answer {
            statements: lines(given).count(),
            tables: reviewed.tables,
            lines: reviewed.lines,
            conditions: lines(conditions).enumerate().map(row).collect(),
            program: lines(given).map(shown).collect(),
        }
    }

    /// The numbers of the lines above their columns, tens where there are some.
    fn heading(&self) -> String {
        let digit = |number: usize| char::from(b'0' + (number % 10) as u8);
        let tens = |row: &Row| if row.line < 10 { ' ' } else { digit(row.line / 10) };
        let mut text = String::new();
        if self.conditions.len() >= 10 {
            text += &format!(
                "{:MARGIN$}{}\n",
                "",
                self.conditions.iter().map(tens).collect::<String>()
            );
        }
        let ones: String = self.conditions.iter().map(|row| digit(row.line)).collect();
        text + &format!("{:MARGIN$}{ones}\n", "")
    }

    fn text(&self) -> String {
        let mut text = "line  table  satisfied  first\n".to_string();
        for Row { line, condition, table, satisfied, first, .. } in &self.conditions {
            text += &format!("{line:4}  {table:5}  {satisfied:9}  {first:5}  {condition}\n");
        }
        text += &self.heading();
        for (at, statement) in self.program.iter().enumerate() {
            let number = at + 1;
            let mark = |row: &Row| if row.statements.contains(&number) { '*' } else { '.' };
            let marks: String = self.conditions.iter().map(mark).collect();
            text += &format!("{number:NUMBER_COLUMNS$}  {statement:STATEMENT_COLUMNS$}  {marks}\n");
        }
        text + &format!("tables {} lines {}\n", self.tables, self.lines)
    }
}

/// The tables of a review over a program, or what is refused.
pub fn answer(given: &Text, conditions: &Text) -> Result<Answer, Fault> {
    let mut table = [0; REVIEW_WORDS];
    let reviewed = rewrites::review(&given.bytes, &conditions.bytes, &mut table);
    match reviewed {
        Ok(reviewed) => Ok(Answer::new(&given.bytes, &conditions.bytes, &reviewed, &table)),
        Err(
            refusal @ (Refusal::Misspelled
            | Refusal::LineCount
            | Refusal::Placement
            | Refusal::Target),
        ) => Err(Fault::refused(refusal, given)),
        Err(refusal) => Err(Fault::of_review(refusal, conditions)),
    }
}

impl Arguments {
    fn review(&self, folder: &mut Folder) -> Option<Answer> {
        folder.is_there("a program in `given` and conditions in `conditions`")?;
        let given = folder.read("given")?;
        let conditions = folder.read("conditions")?;
        answer(&given, &conditions).map_err(|fault| folder.refuse(fault)).ok()
    }

    pub fn run(&self, output: &mut Output) -> Result<Status, Unwritten> {
        let mut folder = Folder::new(&self.folder);
        let answer = self.review(&mut folder);
        folder.print("review", self.json, answer, |answer| answer.text(), output)
    }
}
