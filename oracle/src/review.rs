//! Reviews: the conditions of a text, one a line. Parts spelled alike share a table, which is found by a map of
//! their texts.

use std::collections::HashMap;

use crate::condition::{words_of, Checker, Condition, LONGEST_TEXT, PART_WORDS};
use crate::program::Program;
use crate::steps::Steps;

/// The largest number of lines.
pub const REVIEW_LINES: usize = 32;

/// The largest number of tables.
pub const MOST_TABLES: usize = 128;

/// The smallest table that may be lent, in words.
pub const REVIEW_WORDS: usize = MOST_TABLES * PART_WORDS;

/// What a review answers beside the tables. Line j stands at j, counted from 0; entries past the lines are 0.
#[derive(Clone, Copy, Debug, PartialEq, Eq)]
pub struct Reviewed {
    /// The number of tables: of parts that are spelled differently.
    pub tables: u32,
    pub lines: u32,
    /// The table of each line's whole condition.
    pub table_of: [u32; REVIEW_LINES],
    /// The number of each line's parts, counted at each occurrence.
    pub parts: [u32; REVIEW_LINES],
    /// How many statements satisfy each line, and the first of them, 0 if none.
    pub satisfied: [u32; REVIEW_LINES],
    pub first: [u32; REVIEW_LINES],
}

impl Reviewed {
    pub(crate) fn new(tables: usize, lines: usize) -> Reviewed {
        let none = [0; REVIEW_LINES];
        let (tables, lines) = (tables as u32, lines as u32);
        Reviewed { tables, lines, table_of: none, parts: none, satisfied: none, first: none }
    }
}

/// The condition of a line, or the refusal, 6 to 8. A line without its byte 10 spells none.
fn condition(line: &[u8]) -> Result<Condition, u8> {
    match line.strip_suffix(b"\n") {
        Some(text) => Condition::read(text),
        None if line.len() > LONGEST_TEXT => Err(6),
        None => Err(7),
    }
}

/// The conditions of a text, or the refusal: 16, or that of the first faulty line.
pub fn conditions(text: &[u8]) -> Result<Vec<Condition>, u8> {
    let lines: Vec<&[u8]> = text.split_inclusive(|&byte| byte == b'\n').collect();
    if !(1..=REVIEW_LINES).contains(&lines.len()) {
        return Err(16);
    }
    lines.into_iter().map(condition).collect()
}

/// The table of each text of a part, counted from 0 in the order in which the first of its occurrences end.
pub fn tables(conditions: &[Condition]) -> HashMap<String, usize> {
    let mut tables = HashMap::new();
    for condition in conditions {
        for part in 0..condition.parts().len() {
            let next = tables.len();
            tables.entry(condition.text_of(part)).or_insert(next);
        }
    }
    tables
}

/// The call: fills the table; the refusal is 1, 2 to 5, 16, 6 to 8 or 17.
pub fn review(program: &[u8], text: &[u8], table: &mut [u64]) -> Result<Reviewed, u8> {
    if table.len() < REVIEW_WORDS {
        return Err(1);
    }
    let program = Program::read(program)?;
    let conditions = conditions(text)?;
    let tables = tables(&conditions);
    if tables.len() > MOST_TABLES {
        return Err(17);
    }
    let steps = Steps::new(&program);
    let mut reviewed = Reviewed::new(tables.len(), conditions.len());
    let mut filled = 0;
    for (line, condition) in conditions.iter().enumerate() {
        let mut checker = Checker::new(&program, &steps, condition);
        for part in 0..condition.parts().len() {
            // The first part of each table comes when all before are filled.
            if tables[&condition.text_of(part)] == filled {
                let words = words_of(table, filled);
                words.fill(0);
                for at in (0..program.statements().len()).filter(|&at| checker.holds(part, at)) {
                    words[at / 64] |= 1 << (at % 64);
                }
                filled += 1;
            }
        }
        let satisfying: Vec<u32> =
            (1..=program.count()).filter(|n| checker.whole_holds(*n as usize - 1)).collect();
        reviewed.table_of[line] = tables[&condition.text_of(condition.parts().len() - 1)] as u32;
        reviewed.parts[line] = condition.parts().len() as u32;
        reviewed.satisfied[line] = satisfying.len() as u32;
        reviewed.first[line] = satisfying.first().copied().unwrap_or(0);
    }
    Ok(reviewed)
}
