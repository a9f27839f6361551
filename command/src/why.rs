//! `rewrites why`: the path that speaks against a mark, a statement a line with what it does.

use crate::blame::lines;
use crate::check::{self, Judged, Judgement, Paths};
use crate::fault::Fault;
use crate::folder::Folder;
use crate::marks::Mark;
use crate::output::{Output, Unwritten};
use crate::path::shown;
use crate::status::Status;
use clap::Args;
use rewrites::{Culprit, Reason, Table, LIST_WORDS, VARIABLES};
use serde::Serialize;
use std::path::PathBuf;

#[derive(Args)]
pub struct Arguments {
    /// A folder with a program in the file `given` and a list of marks in `marks`
    #[arg(value_name = "DIR")]
    folder: PathBuf,
    /// The line of the list, counted from 1
    #[arg(value_name = "LINE")]
    line: u32,
    /// Print a JSON object on a line
    #[arg(long)]
    json: bool,
}

/// The path of a refused mark.
#[derive(Serialize)]
pub struct Because {
    culprit: &'static str,
    path: Vec<Step>,
}

/// A statement of it, and what it does to the mark's variable, null where that is nothing.
#[derive(Serialize)]
struct Step {
    statement: u32,
    text: String,
    does: Option<String>,
}

#[derive(Serialize)]
pub struct Answer<'a> {
    #[serde(flatten)]
    judgement: Judgement<'a>,
}

fn name(culprit: Culprit) -> &'static str {
    match culprit {
        Culprit::Used => "used",
        Culprit::UsedByCse => "used_by_cse",
        Culprit::Redefined => "redefined",
        Culprit::OperandRedefined => "operand_redefined",
        Culprit::NothingCopied => "nothing_copied",
    }
}

/// What a statement does to the variables of a mark, by the lists of those that define and use them.
fn does(table: Table, mark: &Mark, statement: u32, culprit: Option<Culprit>) -> Option<String> {
    let x = mark.variable;
    let number = |name: &str| name.strip_prefix('i').and_then(|it| it.parse::<u32>().ok());
    let is = |name: &str, set: u32| {
        number(name).map_or(false, |v| table.part_at(2 * v + set, statement))
    };
    match culprit {
        Some(Culprit::UsedByCse) => {
            return Some(format!("uses {x}, by a `cse` of the list that is accepted"))
        }
        Some(Culprit::NothingCopied) => {
            let done = if mark.is_reuse() { "computed" } else { "copied" };
            return Some(format!("statement 1: nothing was {done} yet"));
        }
        Some(Culprit::OperandRedefined) => {
            let names = (0..VARIABLES).map(|v| format!("i{v}"));
            let mut spoilt = names.filter(|name| mark.names(name) && is(name, 0));
            return spoilt.next().map(|name| format!("defines {name}"));
        }
        _ => {}
    }
    match (is(x, 1), is(x, 0)) {
        (true, true) => Some(format!("uses {x} and defines it")),
        (true, false) => Some(format!("uses {x}")),
        (false, true) => Some(format!("defines {x}")),
        (false, false) => None,
    }
}

/// The path of a line, counted from 0, of a list that was judged; none where the mark gets another verdict than 14.
pub fn because(given: &[u8], list: &[u8], line: u32, mark: &Mark) -> Option<Because> {
    // Program and list are taken: they were judged.
    let Reason { path, culprit } = rewrites::why(given, list, line).ok()?.reason?;
    let mut words = [0; LIST_WORDS];
    rewrites::list(given, &mut words).ok()?;
    let (statements, last): (Vec<&[u8]>, usize) = (lines(given).collect(), path.len() - 1);
    let step = |(at, &statement): (usize, &u32)| Step {
        statement,
        text: shown(&statements, statement),
        does: does(Table(&words), mark, statement, (at == last).then_some(culprit)),
    };
    Some(Because { culprit: name(culprit), path: path.iter().enumerate().map(step).collect() })
}

impl Because {
    /// A statement a line, with what it does behind it.
    pub fn text(&self, indent: &str) -> String {
        let width = self.path.iter().map(|step| step.text.len()).max().unwrap_or(0);
        let line = |Step { statement, text, does }: &Step| match does {
            Some(does) => format!("{indent}{statement:4}  {text:width$}  {does}\n"),
            None => format!("{indent}{statement:4}  {text}\n"),
        };
        self.path.iter().map(line).collect()
    }
}

/// What is told of a line of a judged list, counted from 1; or that there is none.
pub fn answer(judged: &Judged, line: u32) -> Result<Answer<'_>, Fault> {
    let at = (line as usize).wrapping_sub(1);
    let judgements = judged.judgements(Paths::Of(at));
    let count = judgements.len() as u32;
    match judgements.into_iter().nth(at) {
        Some(judgement) => Ok(Answer { judgement }),
        None => Err(Fault::no_such("LINE", "line of the marks", line, count)),
    }
}

impl Answer<'_> {
    fn text(&self) -> String {
        check::explained(&self.judgement, "")
    }
}

impl Arguments {
    fn judged(&self, folder: &mut Folder) -> Option<Judged> {
        folder.is_there("a program in `given` and a list of marks in `marks`")?;
        let given = folder.read("given")?;
        let list = folder.read("marks")?;
        check::judged(given, list).map_err(|fault| folder.refuse(fault)).ok()
    }

    pub fn run(&self, output: &mut Output) -> Result<Status, Unwritten> {
        let mut folder = Folder::new(&self.folder);
        let judged = self.judged(&mut folder);
        let told = judged.as_ref().map(|judged| answer(judged, self.line));
        let answer = match told {
            Some(Ok(answer)) => Some(answer),
            Some(Err(fault)) => {
                folder.misused(fault);
                None
            }
            None => None,
        };
        folder.print("why", self.json, answer, |answer| answer.text(), output)
    }
}
