//! Marks, read as statements are.

use super::read::{
    as_set, read_lines, unset, word, Instruction, Lines, Program, Source, Window, Words,
};
use super::read::{COPY, EMPTY_TAIL, FIVE_BYTES, LINES, SEVEN_BYTES, SIX_BYTES};
use crate::marks::MOST_MARKS;
use crate::program::LARGEST;
use std::mem::MaybeUninit;

#[derive(Clone, Copy, PartialEq)]
pub enum Kind {
    Remove,
    Replace,
    Reuse,
}

#[derive(Clone, Copy)]
pub struct Mark {
    pub number: u32,
    pub kind: Kind,
    /// The assignment of its right side to its variable.
    pub step: Instruction,
}

const MARK_WORD: u64 = word(b": mark(");
const REMOVE_WORD: u64 = word(b"rm, i");
const REPLACE_WORD: u64 = word(b"rpl, i");
const REUSE_WORD: u64 = word(b"cse, i");
const COMMA_WORD: u32 = word(b", ") as u32;
const TWO_BYTES: u32 = 0xffff;

/// What a list's lines are read into.
struct Reader<'a> {
    words: Words<'a>,
    /// Where its constants begin.
    start: usize,
    marks: &'a mut [MaybeUninit<Mark>; LINES],
    count: usize,
}

impl Lines for Reader<'_> {
    #[inline(always)]
    fn make_room(&mut self) {
        if self.count > MOST_MARKS {
            (self.count, self.words.filled) = (MOST_MARKS + 1, self.start);
        }
    }

    #[inline(always)]
    fn line(&mut self, line: Window, end: usize, _: usize) {
        let words = &mut self.words;
        let (number, at) = words.number(line, 0, LARGEST);
        let opening = line.eight(at) & SEVEN_BYTES ^ MARK_WORD;
        let head = line.eight(at + 7);
        let (kind, length, wrong) = if head & FIVE_BYTES == REMOVE_WORD {
            (Kind::Remove, 4, 0)
        } else if head as u8 == b'c' {
            (Kind::Reuse, 5, head & SIX_BYTES ^ REUSE_WORD)
        } else {
            (Kind::Replace, 5, head & SIX_BYTES ^ REPLACE_WORD)
        };
        let (x, at) = words.variable(line, at + 7 + length);
        let comma = (line.four(at) & TWO_BYTES) ^ COMMA_WORD;
        let (code, [a, b], at) = if kind == Kind::Replace {
            let (a, at) = words.operand(line, at + 2);
            (COPY, [a, 0], at)
        } else {
            words.right(line, at + 2)
        };
        let close = line.four(at) as u8 ^ b')';
        words.wrong |= opening | wrong | u64::from(comma) | u64::from(close);
        words.wrong |= ((at + 1) ^ end) as u64;
        let mark = Mark { number, kind, step: Instruction::new(code, x, a, b) };
        debug_assert!(self.count < LINES);
        // SAFETY: at a block's start there is room for as many lines as it has bytes.
        unsafe { *self.marks.get_unchecked_mut(self.count) = MaybeUninit::new(mark) };
        self.count += 1;
    }

    #[inline(always)]
    fn is_wrong(&self) -> bool {
        self.words.wrong != 0
    }
}

/// A list that is taken.
pub struct List {
    marks: [MaybeUninit<Mark>; LINES],
    count: usize,
}

impl List {
    #[inline(always)]
    pub fn empty() -> List {
        List { marks: unset(), count: 0 }
    }

    /// Fills an empty list, with the constants behind those of the program; or the refusal, 9 or 10.
    pub fn read(&mut self, text: &[u8], program: &mut Program) -> Result<(), u8> {
        let words = program.words();
        let start = words.filled;
        let mut reader = Reader { words, start, marks: &mut self.marks, count: 0 };
        let mut tail = EMPTY_TAIL;
        if !read_lines(&mut reader, Source::new(text, &mut tail)) {
            return Err(9);
        }
        let Reader { words: Words { filled, .. }, count, .. } = reader;
        if count > MOST_MARKS {
            return Err(10);
        }
        program.fill_to(filled);
        self.count = count;
        Ok(())
    }

    pub fn marks(&self) -> &[Mark] {
        // SAFETY: `read` puts down a mark for each of the lines that it counts.
        unsafe { as_set(&self.marks[..self.count]) }
    }
}
