//! `rewrites price`: the report and both runs by a buyer's own prices.

use crate::costs::{self, Columns, Ticks};
use crate::fault::Fault;
use crate::files::Text;
use crate::folder::Folder;
use crate::output::{Output, Unwritten};
use crate::run::Ending;
use crate::start::Start;
use crate::status::Status;
use clap::Args;
use rewrites::{Prices, Refusal, Report, KINDS, TEXT_BYTES, VERDICT_BYTES};
use serde::Serialize;
use std::path::PathBuf;

#[derive(Args)]
pub struct Arguments {
    /// A folder with a program in the file `given`, a list of marks in `marks`, and eleven prices in
    /// `prices`, one a line: of read, write, skip, if, X := A, +, -, *, <, = and /. Where there is a
    /// start in `start`, both programs are run
    #[arg(value_name = "DIR")]
    folder: PathBuf,
    /// Print a JSON object on a line
    #[arg(long)]
    json: bool,
}

#[derive(Serialize)]
struct Answer<'a> {
    /// The buyer's prices.
    table: [u32; KINDS],
    prices: Columns<'a>,
    ticks: Ticks,
    runs: Option<&'a Runs>,
}

/// The runs of both programs from one start.
#[derive(Serialize)]
struct Runs {
    input: i32,
    budget: u32,
    values: Vec<i32>,
    given: Ending,
    rewritten: Ending,
}

/// What is told by a buyer's prices.
struct Told {
    prices: Prices,
    report: Report,
    runs: Option<Runs>,
}

/// The files of a folder.
struct Files {
    given: Text,
    list: Text,
    table: Text,
    start: Option<Text>,
}

impl Files {
    fn read(folder: &mut Folder) -> Option<Files> {
        folder
            .is_there("a program in `given`, a list of marks in `marks` and prices in `prices`")?;
        Some(Files {
            given: folder.read("given")?,
            list: folder.read("marks")?,
            table: folder.read("prices")?,
            start: folder.read_if_there("start")?,
        })
    }

    /// What is told, or what is wrong: with the prices, then with the program and the marks, then with the start.
    fn told(&self) -> Result<Told, Fault> {
        let (given, list) = (&self.given.bytes, &self.list.bytes);
        let mut prices = Prices::ours();
        let taken = prices.read(&self.table.bytes);
        taken.map_err(|refusal| Fault::refused(refusal, &self.table))?;
        let report = rewrites::report(given, list, &prices).map_err(|it| self.refused(it))?;
        let runs = match &self.start {
            Some(start) => Some(self.run(start, &prices)?),
            None => None,
        };
        Ok(Told { prices, report, runs })
    }

    fn run(&self, text: &Text, prices: &Prices) -> Result<Runs, Fault> {
        let start = Start::read(&text.bytes).map_err(|wrong| Fault::of_start(wrong, text))?;
        let mut new = [0; TEXT_BYTES];
        let (given, list) = (&self.given.bytes, &self.list.bytes);
        let judged = rewrites::judge(given, list, &mut [0; VERDICT_BYTES], &mut new);
        let judged = judged.map_err(|refusal| self.refused(refusal))?;
        let run = |program: &[u8]| match start.run(program, prices) {
            Ok(outcome) => Ok(Ending::from(outcome)),
            Err(Refusal::Budget) => Err(Fault::of_budget(start.budget, text.name.clone())),
            Err(refusal) => Err(self.refused(refusal)),
        };
        let (given, rewritten) = (run(given)?, run(&new[..judged.bytes as usize])?);
        let Start { input, budget, values } = start;
        Ok(Runs { input, budget, values: values.to_vec(), given, rewritten })
    }

    /// The program or the marks are refused.
    fn refused(&self, refusal: Refusal) -> Fault {
        let is_of_list = matches!(refusal, Refusal::MarkMisspelled | Refusal::MarkCount);
        Fault::refused(refusal, if is_of_list { &self.list } else { &self.given })
    }
}

impl Told {
    fn answer(&self) -> Answer<'_> {
        Answer {
            table: self.prices.0,
            prices: Columns::of(&self.report),
            ticks: Ticks::of(&self.report),
            runs: self.runs.as_ref(),
        }
    }

    fn text(&self) -> String {
        let mut text = costs::text(&self.report);
        if let Some(Runs { given, rewritten, .. }) = &self.runs {
            text += &format!("given {}rewritten {}", given.line(), rewritten.line());
        }
        text
    }
}

impl Arguments {
    fn told(&self, folder: &mut Folder) -> Option<Told> {
        match Files::read(folder)?.told() {
            Ok(told) => Some(told),
            Err(fault) => {
                folder.refuse(fault);
                None
            }
        }
    }

    pub fn run(&self, output: &mut Output) -> Result<Status, Unwritten> {
        let mut folder = Folder::new(&self.folder);
        let told = self.told(&mut folder);
        let (answer, text) = (told.as_ref().map(Told::answer), told.as_ref().map(Told::text));
        folder.print("price", self.json, answer, |_| text.clone().unwrap_or_default(), output)
    }
}
