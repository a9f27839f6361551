//! `rewrites list`: for each variable the statements that define it and those that use it.

use crate::blame::lines;
use crate::fault::Fault;
use crate::folder::Folder;
use crate::output::{Output, Unwritten};
use crate::status::Status;
use crate::tabulate::statements;
use clap::Args;
use rewrites::{Listing, LIST_WORDS, PART_WORDS};
use serde::Serialize;
use std::path::PathBuf;

#[derive(Args)]
pub struct Arguments {
    /// A folder with a program in the file `given`
    #[arg(value_name = "DIR")]
    folder: PathBuf,
    /// Print a JSON object on a line
    #[arg(long)]
    json: bool,
}

#[derive(Serialize)]
struct Answer {
    /// The number of the program's statements.
    statements: usize,
    variables: Vec<Row>,
}

/// A variable that is defined or used, how often, and by which statements.
#[derive(Serialize)]
struct Row {
    variable: String,
    defined: u32,
    defining: Vec<usize>,
    used: u32,
    using: Vec<usize>,
}

/// How many statements, and which: `2: 1 6`, or `0`.
fn counted(count: u32, statements: &[usize]) -> String {
    let numbers: String = statements.iter().map(|number| format!(" {number}")).collect();
    if numbers.is_empty() {
        count.to_string()
    } else {
        format!("{count}:{numbers}")
    }
}

impl Answer {
    fn new(given: &[u8], listing: &Listing, list: &[u64]) -> Answer {
        let row = |(v, sets): (usize, &[u64])| {
            let (defining, using) = sets.split_at(PART_WORDS);
            Row {
                variable: format!("i{v}"),
                defined: listing.defined[v],
                defining: statements(defining),
                used: listing.used[v],
                using: statements(using),
            }
        };
        let rows = list.chunks(2 * PART_WORDS).enumerate().map(row);
        Answer {
            statements: lines(given).count(),
            variables: rows.filter(|row| row.defined > 0 || row.used > 0).collect(),
        }
    }

    fn text(&self) -> String {
        let mut text = String::new();
        for Row { variable, defined, defining, used, using } in &self.variables {
            let (defined, used) = (counted(*defined, defining), counted(*used, using));
            text += &format!("{variable} defined {defined} used {used}\n");
        }
        text
    }
}

impl Arguments {
    fn list(&self, folder: &mut Folder) -> Option<Answer> {
        folder.is_there("a program in `given`")?;
        let given = folder.read("given")?;
        let mut list = [0; LIST_WORDS];
        match rewrites::list(&given.bytes, &mut list) {
            Ok(listing) => Some(Answer::new(&given.bytes, &listing, &list)),
            Err(refusal) => {
                folder.refuse(Fault::refused(refusal, &given));
                None
            }
        }
    }

    pub fn run(&self, output: &mut Output) -> Result<Status, Unwritten> {
        let mut folder = Folder::new(&self.folder);
        let answer = self.list(&mut folder);
        folder.print("list", self.json, answer, |answer| answer.text(), output)
    }
}
