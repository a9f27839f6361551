//! The calls of the page, in JSON. Each reads `given` from the folder and takes the other texts as they are typed;
//! the answers are those that the command prints, with what is needed to show them beside the texts.

use super::papers::{self, Papers, CONDITION, GIVEN, MARKS, REVIEW, START};
use super::steps;
use crate::blame::{byte_of_condition, lines};
use crate::check;
use crate::fault::Fault;
use crate::files::{Text, Unread, MOST_BYTES};
use crate::folder::{Folder, Report};
use crate::output::reason;
use crate::{path, review, tabulate, why};
use rewrites::{Refusal, REVIEW_LINES};
use serde::de::DeserializeOwned;
use serde::{Deserialize, Serialize};
use std::collections::BTreeMap;
use std::io;
use std::path::{Path, PathBuf};
use std::sync::{Mutex, PoisonError};

/// A request that isn't answered: the status of HTTP, and why.
pub struct Refused {
    pub status: u16,
    pub words: String,
}

pub struct Desk {
    /// The folder as it was named.
    path: PathBuf,
    papers: Papers,
    name: String,
    /// One file is saved after the other.
    saving: Mutex<()>,
}

#[derive(Deserialize)]
#[serde(deny_unknown_fields)]
struct Nothing {}

#[derive(Deserialize)]
#[serde(deny_unknown_fields)]
struct OfCondition {
    condition: String,
}

#[derive(Deserialize)]
#[serde(deny_unknown_fields)]
struct OfPath {
    condition: String,
    /// Counted from 1; null for the whole condition.
    part: Option<u32>,
    statement: u32,
}

#[derive(Deserialize)]
#[serde(deny_unknown_fields)]
struct OfMarks {
    marks: String,
}

#[derive(Deserialize)]
#[serde(deny_unknown_fields)]
struct OfMark {
    marks: String,
    /// Counted from 1.
    line: u32,
}

#[derive(Deserialize)]
#[serde(deny_unknown_fields)]
struct OfReview {
    conditions: String,
}

#[derive(Deserialize)]
#[serde(deny_unknown_fields)]
struct OfSteps {
    marks: String,
    start: String,
    /// After how many steps the first state is told, and how many states.
    from: u32,
    count: u32,
}

#[derive(Deserialize)]
#[serde(deny_unknown_fields)]
struct OfFile {
    file: String,
}

#[derive(Deserialize)]
#[serde(deny_unknown_fields)]
struct Saved {
    file: String,
    text: String,
    /// The text that the page read from the file, null where there was none.
    was: Option<String>,
}

/// A file as it was read.
#[derive(Serialize)]
struct Paper {
    /// Null where there is no file, or it can't be read.
    text: Option<String>,
    fault: Option<Fault>,
}

#[derive(Serialize)]
struct Opened<'a> {
    name: &'a str,
    review_lines: usize,
    files: BTreeMap<&'static str, Paper>,
    reviews: Vec<String>,
}

/// A piece of a typed text, in the units by which a page counts it, those of UTF-16.
#[derive(Debug, PartialEq, Eq, Serialize)]
pub struct Place {
    field: &'static str,
    begin: usize,
    end: usize,
}

/// What is told of a call beside what the command tells.
#[derive(Serialize)]
struct Told<'a, A> {
    #[serde(flatten)]
    report: Report<'a, A>,
    /// The statements of `given`, a text each.
    source: &'a [String],
    /// Where in a typed text the mistake is.
    place: Option<Place>,
}

/// A judged list, with the new program beside the given one.
#[derive(Serialize)]
struct Judged<'a> {
    #[serde(flatten)]
    answer: check::Answer<'a>,
    rewritten: Vec<String>,
    /// The statements whose text the accepted marks changed.
    changed: Vec<usize>,
    /// Where each mark stands in the list.
    places: Vec<Place>,
}

/// A text that was typed, under the name of the file that it is for.
struct Typed {
    field: &'static str,
    text: Text,
}

/// The lines of a text, without byte 10.
pub fn shown_lines(text: &[u8]) -> Vec<String> {
    let bare = |line: &[u8]| String::from_utf8_lossy(line).trim_end_matches('\n').to_string();
    lines(text).map(bare).collect()
}

impl Place {
    /// The bytes of a typed text between two places.
    fn new(field: &'static str, text: &[u8], begin: usize, end: usize) -> Place {
        let units = |end: usize| {
            let before = String::from_utf8_lossy(&text[..end.min(text.len())]);
            before.encode_utf16().count()
        };
        Place { field, begin: units(begin), end: units(end) }
    }
}

/// The lines of a text, each with the byte at which it begins.
fn spans(text: &[u8]) -> impl Iterator<Item = (usize, &[u8])> {
    lines(text).scan(0, |at, line| {
        let begin = *at;
        *at += line.len();
        Some((begin, line))
    })
}

impl Typed {
    /// The piece of the text that a fault is about: from where the reading of a condition stopped, where that is known;
    /// else the line, or all of it. None where the fault is about another text.
    fn place(&self, fault: &Fault) -> Option<Place> {
        if fault.file != self.text.name {
            return None;
        }
        let bytes = &self.text.bytes;
        let is_spelling = fault.refusal == Some(Refusal::ConditionMisspelled.number());
        let (begin, line) = match fault.line {
            Some(k) => spans(bytes).nth(k.checked_sub(1)?)?,
            None => (0, &bytes[..]),
        };
        let line = line.strip_suffix(b"\n").unwrap_or(line);
        let stop = if is_spelling { byte_of_condition(line) } else { None };
        let from = stop.map_or(begin, |byte| begin + byte - 1);
        Some(Place::new(self.field, bytes, from, begin + line.len()))
    }
}

impl Desk {
    pub fn new(path: &Path) -> io::Result<Desk> {
        let papers = Papers::new(path)?;
        let name = papers.name();
        Ok(Desk { path: path.to_path_buf(), papers, name, saving: Mutex::new(()) })
    }

    pub fn name(&self) -> &str {
        &self.name
    }

    /// The answer of a call, in JSON.
    pub fn answer(&self, call: &str, body: &[u8]) -> Result<Vec<u8>, Refused> {
        match call {
            "open" => read(body).and_then(|Nothing {}| written(&self.open())),
            "tabulate" => read(body).and_then(|asked: OfCondition| self.tabulate(&asked.condition)),
            "witness" => read(body).and_then(|asked: OfPath| self.witness(&asked)),
            "check" => read(body).and_then(|asked: OfMarks| self.check(&asked.marks)),
            "why" => read(body).and_then(|asked: OfMark| self.why(&asked)),
            "review" => read(body).and_then(|asked: OfReview| self.review(&asked.conditions)),
            "steps" => read(body).and_then(|asked: OfSteps| self.steps(&asked)),
            "read" => read(body).and_then(|asked: OfFile| self.paper_of(&asked.file)),
            "save" => read(body).and_then(|asked: Saved| self.save(&asked)),
            _ => {
                let words = "no such call; expected open, tabulate, witness, check, why, review, steps, read or save";
                Err(Refused { status: 404, words: words.into() })
            }
        }
    }

    fn path_of(&self, file: &str) -> PathBuf {
        self.path.join(file)
    }

    fn paper(&self, file: &str) -> Paper {
        match self.papers.read(file) {
            Ok(bytes) => {
                let text = bytes.map(|bytes| String::from_utf8_lossy(&bytes).into_owned());
                Paper { text, fault: None }
            }
            Err(why) => Paper { text: None, fault: Some(Fault::unread(&self.path_of(file), &why)) },
        }
    }

    fn open(&self) -> Opened<'_> {
        let files = [GIVEN, MARKS, CONDITION, REVIEW, START];
        Opened {
            name: &self.name,
            review_lines: REVIEW_LINES,
            files: files.into_iter().map(|file| (file, self.paper(file))).collect(),
            reviews: self.papers.reviews(),
        }
    }

    fn paper_of(&self, file: &str) -> Result<Vec<u8>, Refused> {
        if !papers::is_read(file) {
            return Err(refused_name(file));
        }
        written(&self.paper(file))
    }

    /// Replaces a file, if it holds what the page read from it.
    fn save(&self, asked: &Saved) -> Result<Vec<u8>, Refused> {
        let Saved { file, text, was } = asked;
        if !papers::is_saved(file) {
            return Err(refused_name(file));
        }
        let text = ended(text);
        if text.len() > MOST_BYTES {
            let words = format!("{file}: {} bytes; expected at most {MOST_BYTES}", text.len());
            return Err(Refused { status: 413, words });
        }
        let _one = self.saving.lock().unwrap_or_else(PoisonError::into_inner);
        let Paper { text: there, fault } = self.paper(file);
        if let Some(fault) = fault {
            return Err(Refused { status: 403, words: fault.to_string() });
        }
        if there != *was {
            let words = format!(
                "{file}: not saved, since it was changed on the disk meanwhile; open the page anew"
            );
            return Err(Refused { status: 409, words });
        }
        match self.papers.save(file, text.as_bytes()) {
            Ok(()) => written(&Paper { text: Some(text), fault: None }),
            Err(error) => {
                let words = format!("{file}: not saved: {}", reason(&error));
                Err(Refused { status: 500, words })
            }
        }
    }

    /// The program of the folder.
    fn given(&self, folder: &mut Folder) -> Option<Text> {
        let path = self.path_of(GIVEN);
        let why = match self.papers.read(GIVEN) {
            Ok(Some(bytes)) => return Some(Text { name: crate::files::shown(&path), bytes }),
            Ok(None) => Unread::Missing(io::Error::from_raw_os_error(2)),
            Err(why) => why,
        };
        folder.unread(&path, &why)
    }

    /// A text as it would be read from its file.
    fn typed(&self, field: &'static str, text: String, folder: &mut Folder) -> Option<Typed> {
        let path = self.path_of(field);
        if text.len() > MOST_BYTES {
            return folder.unread(&path, &Unread::Long(MOST_BYTES));
        }
        let text = Text { name: crate::files::shown(&path), bytes: text.into_bytes() };
        Some(Typed { field, text })
    }

    /// What is told of a call: the answer, or what is wrong and where.
    fn told<A: Serialize>(
        &self,
        call: &'static str,
        folder: &mut Folder,
        given: Option<&Text>,
        typed: &[&Typed],
        answer: Option<Result<A, Fault>>,
    ) -> Result<Vec<u8>, Refused> {
        let source = given.map_or_else(Vec::new, |given| shown_lines(&given.bytes));
        let mut place = None;
        let answer = answer.and_then(|answer| {
            answer
                .map_err(|fault| {
                    place = typed.iter().find_map(|typed| typed.place(&fault));
                    folder.refuse(fault);
                })
                .ok()
        });
        written(&Told { report: folder.report(call, answer), source: &source, place })
    }

    /// A condition as it would be read from its file, where one byte 10 at the end doesn't count.
    fn condition(&self, condition: &str, folder: &mut Folder) -> Option<Typed> {
        let bare = condition.strip_suffix('\n').unwrap_or(condition).to_string();
        self.typed(CONDITION, bare, folder)
    }

    fn tabulate(&self, condition: &str) -> Result<Vec<u8>, Refused> {
        let folder = &mut Folder::new(&self.path);
        let given = self.given(folder);
        let typed = self.condition(condition, folder);
        let answer = match (&given, &typed) {
            (Some(given), Some(typed)) => Some(tabulate::answer(given, &typed.text)),
            _ => None,
        };
        let typed: Vec<&Typed> = typed.iter().collect();
        self.told("tabulate", folder, given.as_ref(), &typed, answer)
    }

    /// A path that shows a part of a condition at a statement.
    fn witness(&self, asked: &OfPath) -> Result<Vec<u8>, Refused> {
        let folder = &mut Folder::new(&self.path);
        let given = self.given(folder);
        let typed = self.condition(&asked.condition, folder);
        let answer = match (&given, &typed) {
            (Some(given), Some(typed)) => {
                Some(path::at(given, &typed.text, asked.part, asked.statement))
            }
            _ => None,
        };
        let typed: Vec<&Typed> = typed.iter().collect();
        self.told("witness", folder, given.as_ref(), &typed, answer)
    }

    fn review(&self, conditions: &str) -> Result<Vec<u8>, Refused> {
        let folder = &mut Folder::new(&self.path);
        let given = self.given(folder);
        let typed = self.typed(REVIEW, ended(conditions), folder);
        let answer = match (&given, &typed) {
            (Some(given), Some(typed)) => Some(review::answer(given, &typed.text)),
            _ => None,
        };
        let typed: Vec<&Typed> = typed.iter().collect();
        self.told("review", folder, given.as_ref(), &typed, answer)
    }

    fn check(&self, marks: &str) -> Result<Vec<u8>, Refused> {
        let folder = &mut Folder::new(&self.path);
        let given = self.given(folder);
        let typed = self.typed(MARKS, ended(marks), folder);
        let judged = judged(&given, &typed);
        let answer = judged.as_ref().map(|judged| match judged {
            Ok(judged) => {
                let list = typed.as_ref().map_or(&[][..], |typed| &typed.text.bytes);
                Ok(Judged::new(judged, given.as_ref().map_or(&[][..], |it| &it.bytes), list))
            }
            Err(fault) => Err(fault.clone()),
        });
        let typed: Vec<&Typed> = typed.iter().collect();
        self.told("check", folder, given.as_ref(), &typed, answer)
    }

    /// The path that speaks against a mark.
    fn why(&self, asked: &OfMark) -> Result<Vec<u8>, Refused> {
        let folder = &mut Folder::new(&self.path);
        let given = self.given(folder);
        let typed = self.typed(MARKS, ended(&asked.marks), folder);
        let judged = judged(&given, &typed);
        let answer = judged.as_ref().map(|judged| match judged {
            Ok(judged) => why::answer(judged, asked.line),
            Err(fault) => Err(fault.clone()),
        });
        let typed: Vec<&Typed> = typed.iter().collect();
        self.told("why", folder, given.as_ref(), &typed, answer)
    }

    fn steps(&self, asked: &OfSteps) -> Result<Vec<u8>, Refused> {
        let folder = &mut Folder::new(&self.path);
        let given = self.given(folder);
        let marks = self.typed(MARKS, ended(&asked.marks), folder);
        let start = self.typed(START, ended(&asked.start), folder);
        let answer = match (judged(&given, &marks), &given, &start) {
            (Some(Ok(judged)), Some(given), Some(start)) => {
                let programs = [&given.bytes[..], &judged.program];
                Some(steps::answer(programs, &start.text, asked.from, asked.count))
            }
            (Some(Err(fault)), ..) => Some(Err(fault)),
            _ => None,
        };
        let typed: Vec<&Typed> = marks.iter().chain(&start).collect();
        self.told("steps", folder, given.as_ref(), &typed, answer)
    }
}

fn judged(given: &Option<Text>, marks: &Option<Typed>) -> Option<Result<check::Judged, Fault>> {
    let list = marks.as_ref()?.text.clone();
    Some(check::judged(given.clone()?, list))
}

impl<'a> Judged<'a> {
    fn new(judged: &'a check::Judged, given: &[u8], list: &[u8]) -> Judged<'a> {
        let pairs = lines(given).zip(lines(&judged.program)).enumerate();
        let changed = pairs.filter(|(_, (before, after))| before != after).map(|(at, _)| at + 1);
        // A list that is taken has ASCII alone, so its bytes are the units of a page.
        let places = spans(list).map(|(begin, line)| {
            let end = begin + line.strip_suffix(b"\n").unwrap_or(line).len();
            Place { field: MARKS, begin, end }
        });
        Judged {
            answer: judged.answer(check::Paths::None),
            rewritten: shown_lines(&judged.program),
            changed: changed.collect(),
            places: places.collect(),
        }
    }
}

/// The text of a field whose lines each end with byte 10: the last line gets its own where it isn't typed.
fn ended(text: &str) -> String {
    let is_open = !text.is_empty() && !text.ends_with('\n');
    format!("{text}{}", if is_open { "\n" } else { "" })
}

fn refused_name(file: &str) -> Refused {
    let words = format!(
        "`{}` isn't a file of the desk; expected `{MARKS}`, `{CONDITION}`, `{START}`, `{REVIEW}`, or `{REVIEW}-` \
         and a name of 1 to 32 lower-case letters, digits, `-` and `_`; `{GIVEN}` is only read",
        file.chars().take(80).collect::<String>().escape_debug()
    );
    Refused { status: 403, words }
}

fn read<T: DeserializeOwned>(body: &[u8]) -> Result<T, Refused> {
    serde_json::from_slice(body)
        .map_err(|error| Refused { status: 400, words: format!("not such a call: {error}") })
}

fn written<T: Serialize>(answer: &T) -> Result<Vec<u8>, Refused> {
    serde_json::to_vec(answer)
        .map_err(|error| Refused { status: 500, words: format!("no answer: {error}") })
}
