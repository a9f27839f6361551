//! `rewrites lines`: where each mark's line lies in its list.

use crate::fault::Fault;
use crate::folder::Folder;
use crate::output::{Output, Unwritten};
use crate::status::Status;
use clap::Args;
use rewrites::{mark_line, Refusal};
use serde::Serialize;
use std::path::PathBuf;

#[derive(Args)]
pub struct Arguments {
    /// A folder with a list of marks in the file `marks`
    #[arg(value_name = "DIR")]
    folder: PathBuf,
    /// Print a JSON object on a line
    #[arg(long)]
    json: bool,
}

#[derive(Serialize)]
struct Answer {
    marks: usize,
    bytes: usize,
    lines: Vec<Line>,
}

/// A mark, and where in the list its line begins and ends, byte 10 included.
#[derive(Serialize)]
struct Line {
    line: usize,
    begin: usize,
    end: usize,
    mark: String,
}

/// The lines of a list. No mark's line is empty, so an empty one stands beyond the last.
fn lines(list: &[u8]) -> Result<Vec<Line>, Refusal> {
    let mut lines = Vec::new();
    loop {
        let bounds = mark_line(list, lines.len() as u32)?;
        if bounds.is_empty() {
            return Ok(lines);
        }
        let (begin, end) = (bounds.start, bounds.end);
        let mark = String::from_utf8_lossy(&list[bounds]).trim_end().to_string();
        lines.push(Line { line: lines.len() + 1, begin, end, mark });
    }
}

impl Answer {
    fn text(&self) -> String {
        let mut text = String::new();
        for Line { line, begin, end, mark } in &self.lines {
            text += &format!("{line:4}  {begin:5} {end:5}  {mark}\n");
        }
        text + &format!("marks {} bytes {}\n", self.marks, self.bytes)
    }
}

impl Arguments {
    fn answer(&self, folder: &mut Folder) -> Option<Answer> {
        folder.is_there("a list of marks in `marks`")?;
        let list = folder.read("marks")?;
        match lines(&list.bytes) {
            Ok(lines) => Some(Answer { marks: lines.len(), bytes: list.bytes.len(), lines }),
            Err(refusal) => {
                folder.refuse(Fault::refused(refusal, &list));
                None
            }
        }
    }

    pub fn run(&self, output: &mut Output) -> Result<Status, Unwritten> {
        let mut folder = Folder::new(&self.folder);
        let answer = self.answer(&mut folder);
        folder.print("lines", self.json, answer, |answer| answer.text(), output)
    }
}
