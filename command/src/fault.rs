//! What went wrong, in words: which file and line, whose mistake it is, and what was expected.

use crate::blame::{
    byte_of_condition, line_of_marks, line_of_prices, line_of_program, line_of_review, lines,
};
use crate::files::{shown, Text, Unread};
use crate::{slip, start};
use rewrites::{Refusal, MARKS, MOST_STEPS, STAGES_BYTES, STATEMENTS};
use serde::Serialize;
use std::fmt;
use std::path::Path;

/// Something wrong with a folder: a refusal, or a file that isn't as it should be.
#[derive(Clone, Debug, Serialize)]
pub struct Fault {
    /// The number of a refused call.
    pub refusal: Option<u8>,
    pub file: String,
    pub line: Option<usize>,
    pub whose: &'static str,
    pub words: String,
    pub expected: String,
    pub found: Option<String>,
    /// The byte of what was found, counted from 1, at which its reading stopped.
    #[serde(skip_serializing_if = "Option::is_none")]
    pub byte: Option<usize>,
    /// The slip that is made there, where it is a usual one.
    #[serde(skip_serializing_if = "Option::is_none")]
    pub slip: Option<String>,
}

/// The bytes of a text for a message, on one line and not many.
fn quoted(text: &[u8]) -> String {
    const MOST: usize = 80;
    let text = text.strip_suffix(b"\n").unwrap_or(text);
    let start = text[..text.len().min(MOST)].escape_ascii();
    let rest = if text.len() > MOST { ".." } else { "" };
    format!("`{start}{rest}`")
}

/// A number with a comma before each three digits.
pub fn grouped(number: usize) -> String {
    let digits = number.to_string();
    let mut text = String::new();
    for (at, digit) in digits.chars().enumerate() {
        if at > 0 && (digits.len() - at) % 3 == 0 {
            text.push(',');
        }
        text.push(digit);
    }
    text
}

fn whose(refusal: Refusal) -> &'static str {
    match refusal {
        Refusal::Buffer | Refusal::Budget => "the host program",
        Refusal::Misspelled
        | Refusal::LineCount
        | Refusal::Placement
        | Refusal::Target
        | Refusal::JoinedCount => "the author of the shift program",
        Refusal::ConditionLength | Refusal::ConditionMisspelled | Refusal::ConditionParts => {
            "the author of the condition"
        }
        Refusal::Driver => "the author of the driver's list",
        Refusal::ReviewLines | Refusal::ReviewParts => "the author of the review",
        Refusal::MarkMisspelled | Refusal::MarkCount => "the optimiser",
        Refusal::PriceMisspelled | Refusal::PriceCount => "the buyer",
        Refusal::StageName | Refusal::StagesFull | Refusal::StageUnknown => "who names stages",
    }
}

/// Document 01's words. Those that speak of some line are said of the one that is named.
fn words(refusal: Refusal) -> String {
    match refusal {
        Refusal::Misspelled => "not spelled as a statement, or without its byte 10".to_string(),
        Refusal::MarkMisspelled => "misspelled, or without its byte 10".to_string(),
        Refusal::PriceMisspelled => "not such a price, or without its byte 10".to_string(),
        _ => refusal.to_string(),
    }
}

fn expected(refusal: Refusal, text: &[u8]) -> String {
    let words = match refusal {
        Refusal::Buffer => "larger buffers",
        Refusal::Budget => return format!("at most {}", grouped(MOST_STEPS as usize)),
        Refusal::Misspelled => {
            "`read X`, `write X`, `X := A`, `X := A o A`, `if X goto n else m` or `skip`, and byte 10"
        }
        Refusal::LineCount => return format!("2 to {} lines", grouped(STATEMENTS)),
        Refusal::Placement => {
            "`read X` on the first line, `write X` on the last, and neither elsewhere"
        }
        Refusal::Target => return format!("targets from 2 to {}", lines(text).count()),
        Refusal::ConditionLength => "at most 1,024 bytes",
        Refusal::ConditionMisspelled => {
            "`!p`, `(p & q)`, `(p | q)`, `EX p` and the like, `E[p U q]` and the like, or an atom"
        }
        Refusal::ConditionParts => "at most 64 parts",
        Refusal::Driver => {
            "variables, `i0` to `i63`, with single spaces between, none twice, or nothing"
        }
        Refusal::ReviewLines => "1 to 32 lines",
        Refusal::ReviewParts => "at most 128 differing parts",
        Refusal::MarkMisspelled => {
            "`n: mark(rm, X, E)`, `n: mark(rpl, X, A)` or `n: mark(cse, T, E)`, and byte 10"
        }
        Refusal::MarkCount => return format!("at most {} lines", grouped(MARKS)),
        Refusal::JoinedCount => {
            return format!("at most {} statements of both programs", grouped(STATEMENTS + 1))
        }
        Refusal::PriceMisspelled => "a whole number from 1 to 65535 without leading zeros, and byte 10",
        Refusal::PriceCount => {
            "the prices of `read`, `write`, `skip`, `if`, `X := A`, `+`, `-`, `*`, `<`, `=` and `/`, one a line"
        }
        Refusal::StageName => "1 to 8 lower-case letters",
        Refusal::StagesFull => "a name that a place holds",
        Refusal::StageUnknown => "a name that a place holds",
    };
    words.to_string()
}

impl Fault {
    /// A call is refused for this text: the program, the condition, the marks, the prices or the budget.
    pub fn refused(refusal: Refusal, text: &Text) -> Fault {
        let bytes = &text.bytes;
        let line = match refusal {
            Refusal::MarkMisspelled => line_of_marks(bytes),
            Refusal::PriceMisspelled => line_of_prices(bytes),
            _ => line_of_program(bytes, refusal),
        };
        let found = match (refusal, line.and_then(|line| lines(bytes).nth(line - 1))) {
            (_, Some(line)) => Some(quoted(line)),
            (
                Refusal::LineCount
                | Refusal::MarkCount
                | Refusal::ReviewLines
                | Refusal::PriceCount,
                _,
            ) => Some(grouped(lines(bytes).count()) + " lines"),
            (Refusal::ConditionLength, _) => Some(grouped(bytes.len()) + " bytes"),
            (Refusal::Budget | Refusal::ConditionMisspelled, _) => Some(quoted(bytes)),
            // A byte 10 at the end of a list is shown: it is what is wrong with it.
            (Refusal::Driver, _) => Some(quoted(&[bytes, &b"\n"[..]].concat())),
            _ => None,
        };
        let byte = match refusal {
            Refusal::ConditionMisspelled => byte_of_condition(bytes),
            _ => None,
        };
        let slip = match (refusal, line.and_then(|line| lines(bytes).nth(line - 1))) {
            (Refusal::Misspelled, Some(line)) => slip::in_statement(line),
            (Refusal::Target, Some(line)) => slip::in_target(line, bytes),
            (Refusal::MarkMisspelled, Some(line)) => slip::in_mark(line),
            (Refusal::PriceMisspelled, Some(line)) => slip::in_number(line),
            _ => byte.and_then(|byte| slip::at(bytes, byte - 1)),
        };
        Fault {
            refusal: Some(refusal.number()),
            file: text.name.clone(),
            line,
            whose: whose(refusal),
            words: words(refusal),
            expected: expected(refusal, bytes),
            found,
            byte,
            slip,
        }
    }

    /// A review is refused: for a line's condition, or as a whole.
    pub fn of_review(refusal: Refusal, text: &Text) -> Fault {
        let number = line_of_review(&text.bytes, refusal);
        let line = match number.and_then(|number| lines(&text.bytes).nth(number - 1)) {
            Some(line) => line,
            None => return Fault::refused(refusal, text),
        };
        let bytes = line.strip_suffix(b"\n").unwrap_or(line).to_vec();
        let is_unfinished = bytes.len() == line.len();
        let mut fault = Fault::refused(refusal, &Text { name: text.name.clone(), bytes });
        fault.line = number;
        if is_unfinished && refusal == Refusal::ConditionMisspelled {
            fault.words = "condition without its byte 10".to_string();
            fault.expected = "byte 10 at the end of each line".to_string();
        }
        fault
    }

    /// Two programs are too long to be joined. It is told of the second, which doesn't fit behind the first.
    pub fn of_pair(road: &Text, creeper: &Text) -> Fault {
        let [first, second] = [road, creeper].map(|text| grouped(lines(&text.bytes).count()));
        let found = Some(format!("{first} and {second}"));
        Fault { found, ..Fault::refused(Refusal::JoinedCount, creeper) }
    }

    /// The budget on line 2 of a start is too large.
    pub fn of_budget(budget: u32, file: String) -> Fault {
        let text = Text { name: file, bytes: budget.to_string().into_bytes() };
        Fault { line: Some(2), ..Fault::refused(Refusal::Budget, &text) }
    }

    /// A stage's name is refused, where these names are known.
    pub fn of_stage(refusal: Refusal, file: &str, name: &[u8], known: &[String]) -> Fault {
        let mut expected = expected(refusal, name);
        if refusal != Refusal::StageName && known.is_empty() {
            expected += ", of which there is none";
        } else if refusal != Refusal::StageName {
            let known: Vec<String> = known.iter().map(|name| format!("`{name}`")).collect();
            expected += &format!(", one of {}", known.join(" "));
        }
        Fault {
            refusal: Some(refusal.number()),
            file: file.to_string(),
            line: None,
            whose: whose(refusal),
            words: words(refusal),
            expected,
            // A byte 10 at the end of a name is shown: it is what is wrong with it.
            found: Some(quoted(&[name, &b"\n"[..]].concat())),
            byte: None,
            slip: None,
        }
    }

    /// A start is misspelled.
    pub fn of_start(wrong: start::Wrong, text: &Text) -> Fault {
        let line = wrong.line.and_then(|line| lines(&text.bytes).nth(line - 1));
        Fault {
            refusal: None,
            file: text.name.clone(),
            line: wrong.line,
            whose: "the start",
            words: wrong.words,
            expected: wrong.expected,
            found: line.map(quoted),
            byte: None,
            slip: line.and_then(slip::in_number),
        }
    }

    fn of_file(path: &Path, words: String, expected: &str) -> Fault {
        Fault {
            refusal: None,
            file: shown(path),
            line: None,
            whose: "the caller",
            words,
            expected: expected.to_string(),
            found: None,
            byte: None,
            slip: None,
        }
    }

    /// An option names one of a kind that there isn't: there are so many.
    pub fn no_such(option: &str, kind: &str, number: u32, most: u32) -> Fault {
        let words = format!("no such {kind}");
        let expected = match most {
            0 => "one that is there, of which there is none".to_string(),
            _ => format!("1 to {most}"),
        };
        let found = Some(number.to_string());
        Fault { found, ..Fault::of_file(Path::new(option), words, &expected) }
    }

    /// A file can't be read.
    pub fn unread(path: &Path, why: &Unread) -> Fault {
        let expected = "a file of at most 65,535 bytes";
        Fault::of_file(path, format!("can't be read: {}", why.reason()), expected)
    }

    /// A file has no stages: it can't be read, or has other than the bytes that stages have.
    pub fn not_stages(path: &Path, why: &Unread) -> Fault {
        let expected = format!("a file of {} bytes, or none", grouped(STAGES_BYTES));
        Fault::of_file(path, format!("can't be read: {}", why.reason()), &expected)
    }

    /// A file can't be opened, and the call goes on as if it were empty.
    pub fn read_as_empty(path: &Path, why: &Unread) -> Fault {
        let expected = "a file, which may be empty";
        Fault::of_file(path, format!("is read as empty: {}", why.reason()), expected)
    }

    /// There is no such folder.
    pub fn no_folder(path: &Path, reason: String, files: &str) -> Fault {
        Fault::of_file(path, reason, &format!("a folder with {files}"))
    }

    /// What is wrong, where the file is clear already.
    pub fn summary(&self) -> String {
        let Fault { whose, words, .. } = self;
        match self.line {
            Some(line) => format!("{whose}: line {line}: {words}"),
            None => format!("{whose}: {words}"),
        }
    }
}

impl fmt::Display for Fault {
    fn fmt(&self, f: &mut fmt::Formatter<'_>) -> fmt::Result {
        write!(f, "{}", self.file)?;
        if let Some(line) = self.line {
            write!(f, ":{line}")?;
        }
        write!(f, ": {}: {}; expected {}", self.whose, self.words, self.expected)?;
        if let Some(found) = &self.found {
            write!(f, ", found {found}")?;
        }
        if let Some(byte) = self.byte {
            write!(f, " wrong from byte {byte} on")?;
        }
        match &self.slip {
            Some(slip) => write!(f, ": {slip}"),
            None => Ok(()),
        }
    }
}
