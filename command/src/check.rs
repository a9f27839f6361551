//! `rewrites check`: judges the marks of folders, and writes the program with the accepted ones
//! made.

use crate::blame::lines;
use crate::costs::{self, Columns, Ticks};
use crate::fault::Fault;
use crate::files::{self, Text};
use crate::folder::Folder;
use crate::marks::{self, Counts, Mark};
use crate::output::{Output, Unwritten};
use crate::status::Status;
use crate::why::{self, Because};
use clap::Args;
use rewrites::{Prices, Refusal, Report, Verdict, TEXT_BYTES, VERDICT_BYTES};
use serde::Serialize;
use std::collections::HashMap;
use std::path::PathBuf;

#[derive(Args)]
pub struct Arguments {
    /// Folders, each with a program in the file `given` and a list of marks in `marks`
    #[arg(value_name = "DIR", required = true)]
    folders: Vec<PathBuf>,
    /// Print what the check program prints, byte for byte; for one folder
    #[arg(long, conflicts_with_all = ["explain", "json"])]
    text: bool,
    /// Write the program with the accepted marks made to FILE; for one folder
    #[arg(short, long, value_name = "FILE")]
    output: Option<PathBuf>,
    /// Give each mark's line, its verdict in words, its published condition, and where that is false a
    /// path that shows why
    #[arg(long)]
    explain: bool,
    /// Print a JSON object a folder, and one for the total, each on a line
    #[arg(long)]
    json: bool,
}

/// A list that was judged.
pub struct Judged {
    given: Text,
    list: Text,
    verdicts: Vec<Verdict>,
    counts: Counts,
    /// The program with the accepted marks made.
    pub program: Vec<u8>,
    report: Report,
}

#[derive(Serialize)]
pub struct Answer<'a> {
    marks: usize,
    accepted: usize,
    bytes: usize,
    counts: Counts,
    verdicts: Vec<Judgement<'a>>,
    program: String,
    prices: Columns<'a>,
    ticks: Ticks,
}

/// What is told of a mark.
#[derive(Serialize)]
pub struct Judgement<'a> {
    line: usize,
    mark: &'a str,
    statement: u32,
    verdict: u8,
    name: &'static str,
    words: String,
    condition: String,
    /// With verdict 14, where it is asked for, the path that speaks against the mark.
    #[serde(skip_serializing_if = "Option::is_none")]
    because: Option<Because>,
}

/// Of which marks a path is told where their condition is false.
#[derive(Clone, Copy, PartialEq, Eq)]
pub enum Paths {
    None,
    /// That of a line, counted from 0.
    Of(usize),
    All,
}

/// What is told of all folders.
#[derive(Default, Serialize)]
struct Sums {
    folders: usize,
    results: usize,
    refused: usize,
    unread: usize,
    marks: usize,
    accepted: usize,
    counts: Counts,
    ticks: Ticks,
}

#[derive(Serialize)]
struct Total<'a> {
    call: &'static str,
    status: Status,
    #[serde(flatten)]
    sums: &'a Sums,
}

/// Judges a list on a program; or what is refused.
pub fn judged(given: Text, list: Text) -> Result<Judged, Fault> {
    let (mut verdicts, mut text) = ([0; VERDICT_BYTES], [0; TEXT_BYTES]);
    let judged = rewrites::judge(&given.bytes, &list.bytes, &mut verdicts, &mut text);
    let ours = Prices::ours();
    let reported =
        judged.and_then(|judged| Ok((judged, rewrites::report(&given.bytes, &list.bytes, &ours)?)));
    match reported {
        Ok((judged, report)) => {
            let bytes = verdicts.into_iter().take(judged.marks as usize);
            let verdicts: Vec<Verdict> = bytes.filter_map(Verdict::from_byte).collect();
            let counts = Counts::of(&verdicts);
            let program = text[..judged.bytes as usize].to_vec();
            Ok(Judged { given, list, verdicts, counts, program, report })
        }
        Err(refusal) => {
            let is_of_list = matches!(refusal, Refusal::MarkMisspelled | Refusal::MarkCount);
            Err(Fault::refused(refusal, if is_of_list { &list } else { &given }))
        }
    }
}

/// Judges the list of a folder, whose files read as empty where they can't be opened.
fn judge(folder: &mut Folder) -> Option<Judged> {
    folder.is_there("a program in `given` and a list of marks in `marks`")?;
    let given = folder.read_or_empty("given")?;
    let list = folder.read_or_empty("marks")?;
    judged(given, list).map_err(|fault| folder.refuse(fault)).ok()
}

impl Judged {
    /// What the check program prints.
    fn text(&self) -> Vec<u8> {
        let (count, accepted) = (self.counts.marks(), self.counts.accepted);
        let mut text = format!("marks {count} accepted {accepted}\n");
        for (mark, verdict) in marks::of(&self.list.bytes).iter().zip(&self.verdicts) {
            text += &format!("{} {}\n", mark.statement, verdict.number());
        }
        [text.as_bytes(), &self.program, costs::text(&self.report).as_bytes()].concat()
    }

    pub fn judgements(&self, paths: Paths) -> Vec<Judgement<'_>> {
        let statements: Vec<&[u8]> = lines(&self.given.bytes).collect();
        // Each statement with the first line that names it.
        let mut named = HashMap::new();
        let marks = marks::of(&self.list.bytes).into_iter().zip(&self.verdicts).enumerate();
        marks
            .map(|(at, (mark, &verdict))| {
                let line = at + 1;
                let first = *named.entry(mark.statement).or_insert(line);
                let is_told =
                    verdict == Verdict::Unmet && [Paths::All, Paths::Of(at)].contains(&paths);
                let because = if is_told {
                    why::because(&self.given.bytes, &self.list.bytes, at as u32, &mark)
                } else {
                    None
                };
                Judgement {
                    line,
                    statement: mark.statement,
                    verdict: verdict.number(),
                    name: marks::name(verdict),
                    words: words(verdict, &mark, first, &statements),
                    condition: mark.condition(),
                    mark: mark.text,
                    because,
                }
            })
            .collect()
    }

    pub fn answer(&self, paths: Paths) -> Answer<'_> {
        Answer {
            marks: self.counts.marks(),
            accepted: self.counts.accepted,
            bytes: self.program.len(),
            counts: self.counts,
            verdicts: self.judgements(paths),
            program: String::from_utf8_lossy(&self.program).into_owned(),
            prices: Columns::of(&self.report),
            ticks: Ticks::of(&self.report),
        }
    }
}

/// A verdict in words; `first` is the first line that names the mark's statement.
fn words(verdict: Verdict, mark: &Mark, first: usize, statements: &[&[u8]]) -> String {
    let n = mark.statement;
    match verdict {
        Verdict::Accepted => "accepted".to_string(),
        Verdict::Missing => format!("no such statement: the program has 1 to {}", statements.len()),
        Verdict::Repeated => format!("named before: line {first} names {n}"),
        Verdict::Unfit => {
            let statement = statements.get((n as usize).wrapping_sub(1)).copied().unwrap_or(b"");
            let statement = String::from_utf8_lossy(statement);
            let more =
                if mark.is_reuse_of_operand() { ", and `cse` takes two operands" } else { "" };
            format!("doesn't fit: statement {n} is `{}`{more}", statement.trim_end())
        }
        Verdict::MayFault => {
            let divisor = mark.divisor().unwrap_or_default();
            format!("may fault: statement {n} divides by {divisor}")
        }
        Verdict::Unmet => format!("condition false at {n}"),
    }
}

/// The line of a folder.
fn line(folder: &Folder, judged: Option<&Judged>, output: &Output) -> String {
    let mut words: Vec<String> = judged.map(|it| it.counts.words()).into_iter().collect();
    for fault in folder.faults.iter().rev() {
        words.push(output.red(&summary(folder, fault)));
    }
    format!("{}: {}\n", folder.name, words.join("; "))
}

/// What went wrong, after the folder's name.
fn summary(folder: &Folder, fault: &Fault) -> String {
    let file = fault.file.rsplit('/').next().unwrap_or_default();
    match fault.refusal {
        Some(number) => format!("refused {number}: {}", fault.summary()),
        None if fault.file == folder.name => format!("not read: {}", fault.words),
        None => format!("{file} {}", fault.words),
    }
}

/// A mark, its verdict in words, its published condition, and the path where there is one.
pub fn explained(judgement: &Judgement, indent: &str) -> String {
    let Judgement { line, mark, words, condition, .. } = judgement;
    let path = judgement.because.as_ref().map(|because| because.text(indent));
    let path = path.unwrap_or_default();
    format!("{indent}line {line}: {mark}: {words}\n{indent}  condition {condition}\n{path}")
}

fn explanation(judged: &Judged) -> String {
    judged.judgements(Paths::All).iter().map(|judgement| explained(judgement, "  ")).collect()
}

impl Sums {
    fn add(&mut self, folder: &Folder, judged: Option<&Judged>) {
        self.folders += 1;
        match folder.status {
            Status::Result => self.results += 1,
            Status::Refused => self.refused += 1,
            _ => self.unread += 1,
        }
        if let Some(judged) = judged {
            self.counts += judged.counts;
            self.marks = self.counts.marks();
            self.accepted = self.counts.accepted;
            self.ticks += Ticks::of(&judged.report);
        }
    }

    fn line(&self) -> String {
        let mut line = format!("total: folders {}", self.folders);
        let others = [("refused", self.refused), ("not read", self.unread)];
        for (words, count) in others.into_iter().filter(|(_, count)| *count > 0) {
            line += &format!(", {words} {count}");
        }
        format!("{line}; {}\n", self.counts.words())
    }
}

impl Arguments {
    /// What is wrong with the arguments taken together.
    pub fn wrong(&self) -> Option<&'static str> {
        match (self.folders.len(), self.text, &self.output) {
            (0 | 1, ..) => None,
            (_, true, _) => Some("--text takes one folder"),
            (_, _, Some(_)) => Some("--output takes one folder"),
            _ => None,
        }
    }

    fn print(
        &self,
        folder: &Folder,
        judged: Option<&Judged>,
        output: &mut Output,
    ) -> Result<(), Unwritten> {
        if self.json {
            let paths = if self.explain { Paths::All } else { Paths::None };
            let answer = judged.map(|judged| judged.answer(paths));
            return output.print_json(&folder.report("check", answer));
        }
        if self.text {
            let refusal = folder.faults.iter().find_map(|fault| fault.refusal);
            let refused = refusal.map(|number| format!("refused {number}\n").into_bytes());
            return output.print(&judged.map(Judged::text).or(refused).unwrap_or_default());
        }
        let mut text = line(folder, judged, output);
        if let (true, Some(judged)) = (self.explain, judged) {
            text += &explanation(judged);
        }
        output.print(text.as_bytes())
    }

    fn print_total(
        &self,
        status: Status,
        sums: &Sums,
        output: &mut Output,
    ) -> Result<(), Unwritten> {
        if self.json {
            return output.print_json(&Total { call: "check", status, sums });
        }
        output.print(if self.text { String::new() } else { sums.line() }.as_bytes())
    }

    /// Replaces the file that the new program goes to, where nothing went wrong with the folder.
    fn replace(
        &self,
        folder: &Folder,
        judged: Option<&Judged>,
        output: &mut Output,
    ) -> Result<(), Unwritten> {
        match (&self.output, judged) {
            (Some(path), Some(judged)) if folder.status == Status::Result => {
                files::replace(path, &judged.program)
            }
            (Some(path), _) => {
                output.say(format!("{}: not written, for the reason above", files::shown(path)));
                Ok(())
            }
            _ => Ok(()),
        }
    }

    pub fn run(&self, output: &mut Output) -> Result<Status, Unwritten> {
        let mut status = Status::Result;
        let mut sums = Sums::default();
        let mut replaced = Ok(());
        for (done, path) in self.folders.iter().enumerate() {
            output.progress(done, self.folders.len());
            let mut folder = Folder::new(path);
            let judged = judge(&mut folder);
            status = status.max(folder.status);
            sums.add(&folder, judged.as_ref());
            folder.say(output);
            replaced = self.replace(&folder, judged.as_ref(), output);
            self.print(&folder, judged.as_ref(), output)?;
        }
        self.print_total(status, &sums, output)?;
        replaced.map(|()| status)
    }
}
