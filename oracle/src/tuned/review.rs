//! Reviews: the parts of all lines, numbered as they are read, each table filled once.

use std::hash::{Hash, Hasher};

use super::filled::Filled;
use super::flow::{is_short, Row, SHORT};
use super::read::Program;
use super::tabulate::{counted, put_row, read, Found, Parts};
use crate::condition::{Part, LONGEST_TEXT, MOST_PARTS, PART_WORDS};
use crate::review::{Reviewed, MOST_TABLES, REVIEW_LINES, REVIEW_WORDS};

const HASHES: usize = 256;

/// Parts that differ, in the order in which they first end. The operands of each are named by their tables, so
/// parts are equal where they are spelled alike.
struct Numbering {
    parts: Filled<Part, MOST_TABLES>,
    /// Whether there are more than there may be.
    is_over: bool,
    /// For each hash the parts that have it, each by its number and 1 more, 0 at the end of the list.
    heads: [u8; HASHES],
    links: [u8; MOST_TABLES],
    /// The parts of a line, counted at each occurrence.
    occurrences: usize,
}

/// Multiplies and rotates.
struct Mixer(u64);

impl Mixer {
    #[inline(always)]
    fn mix(&mut self, bits: u64) {
        self.0 = (self.0.rotate_left(5) ^ bits).wrapping_mul(0x9E37_79B9_7F4A_7C15);
    }
}

impl Hasher for Mixer {
    fn write(&mut self, bytes: &[u8]) {
        bytes.iter().for_each(|&byte| self.mix(u64::from(byte)));
    }

    fn write_u8(&mut self, byte: u8) {
        self.mix(u64::from(byte));
    }

    fn write_u32(&mut self, bits: u32) {
        self.mix(u64::from(bits));
    }

    fn write_usize(&mut self, number: usize) {
        self.mix(number as u64);
    }

    fn write_isize(&mut self, number: isize) {
        self.mix(number as u64);
    }

    /// The high bits, which all that was mixed in has moved.
    fn finish(&self) -> u64 {
        self.0 >> 56
    }
}

impl Parts for Numbering {
    fn add(&mut self, part: Part) -> usize {
        self.occurrences += 1;
        let mut mixer = Mixer(0);
        part.hash(&mut mixer);
        let hash = mixer.finish() as usize;
        let mut link = usize::from(self.heads[hash]);
        while link != 0 {
            if self.parts.items()[link - 1] == part {
                return link - 1;
            }
            link = usize::from(self.links[link - 1]);
        }
        let number = self.parts.count();
        if number >= MOST_TABLES {
            self.is_over = true;
            return 0;
        }
        self.parts.push(part);
        self.links[number] = self.heads[hash];
        self.heads[hash] = number as u8 + 1;
        number
    }
}

/// Numbers the parts of a line, which has its byte 10 or not; the table of the whole, or the refusal, 6 to 8.
fn number(numbering: &mut Numbering, line: &[u8]) -> Result<usize, u8> {
    numbering.occurrences = 0;
    match line.strip_suffix(b"\n") {
        Some(condition) => {
            let whole = read(numbering, condition)?;
            if numbering.occurrences > MOST_PARTS {
                return Err(8);
            }
            Ok(whole)
        }
        None if line.len() > LONGEST_TEXT => Err(6),
        None => Err(7),
    }
}

/// The call: fills the table; the refusal is 1, 2 to 5, 16, 6 to 8 or 17.
pub fn review(program: &[u8], conditions: &[u8], table: &mut [u64]) -> Result<Reviewed, u8> {
    if table.len() < REVIEW_WORDS {
        return Err(1);
    }
    let mut given = Program::empty();
    given.read(program)?;
    let is_unfinished = !conditions.is_empty() && !conditions.ends_with(b"\n");
    let ends = conditions.iter().filter(|&&byte| byte == b'\n').count();
    let lines = ends + usize::from(is_unfinished);
    if !(1..=REVIEW_LINES).contains(&lines) {
        return Err(16);
    }
    let mut numbering = Numbering {
        parts: Filled::new(),
        is_over: false,
        heads: [0; HASHES],
        links: [0; MOST_TABLES],
        occurrences: 0,
    };
    let mut reviewed = Reviewed::new(0, lines);
    for (j, line) in conditions.split_inclusive(|&byte| byte == b'\n').enumerate() {
        reviewed.table_of[j] = number(&mut numbering, line)? as u32;
        reviewed.parts[j] = numbering.occurrences as u32;
    }
    if numbering.is_over {
        return Err(17);
    }
    let parts = numbering.parts.items();
    reviewed.tables = parts.len() as u32;
    if is_short(&given) {
        fill::<SHORT>(&given, parts, table, &mut reviewed);
    } else {
        fill::<PART_WORDS>(&given, parts, table, &mut reviewed);
    }
    Ok(reviewed)
}

/// Fills the tables, and what is counted of each line's.
fn fill<const W: usize>(
    program: &Program,
    parts: &[Part],
    table: &mut [u64],
    reviewed: &mut Reviewed,
) {
    let found = Found::<W>::new(program);
    let mut done: Filled<Row<W>, MOST_TABLES> = Filled::new();
    for (k, part) in parts.iter().enumerate() {
        let row = found.row(part, done.items());
        done.push(row);
        put_row(table, k, &row);
    }
    for j in 0..reviewed.lines as usize {
        let (satisfied, first) = counted(&done.items()[reviewed.table_of[j] as usize]);
        reviewed.satisfied[j] = satisfied;
        reviewed.first[j] = first;
    }
}
