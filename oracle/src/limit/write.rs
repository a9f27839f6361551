//! New text: what stays is copied by stretches, what is changed is written.

use super::marks::{Kind, Mark};
use super::names::variable_at;
use super::names::NONE;
use super::read::{self, Instruction, COPY};
use crate::program::VARIABLES;

/// The bytes of a variable's name, and a byte that is written over where there are two.
const NAMES: [[u8; 3]; VARIABLES as usize] = {
    let (mut names, mut x) = ([[b'i'; 3]; VARIABLES as usize], 0);
    while x < VARIABLES as usize {
        let (tens, ones) = (b'0' + (x / 10) as u8, b'0' + (x % 10) as u8);
        names[x] = if x < 10 { [b'i', ones, 0] } else { [b'i', tens, ones] };
        x += 1;
    }
    names
};

/// Signs by code, from that of a sum on.
const SIGNS: [&[u8; 3]; 6] = [b" + ", b" - ", b" * ", b" < ", b" = ", b" / "];

/// Where the text of a program goes, with how much of it is copied or left out, and how much is written.
pub struct Writer<'a> {
    program: &'a [u8],
    copied: usize,
    text: &'a mut [u8],
    at: usize,
}

/// The bytes of a name.
#[inline(always)]
fn length_of(x: u8) -> usize {
    2 + usize::from(x >= 10)
}

impl<'a> Writer<'a> {
    #[inline(always)]
    pub fn new(program: &'a [u8], text: &'a mut [u8]) -> Writer<'a> {
        Writer { program, copied: 0, text, at: 0 }
    }

    #[inline(always)]
    fn word(&mut self, word: &[u8]) {
        self.text[self.at..][..word.len()].copy_from_slice(word);
        self.at += word.len();
    }

    /// A variable, behind which something is written in any case.
    #[inline(always)]
    fn variable(&mut self, x: u8) {
        self.text[self.at..][..3].copy_from_slice(&NAMES[usize::from(x)]);
        self.at += length_of(x);
    }

    fn constant(&mut self, bits: u32) {
        let value = bits as i32;
        if value < 0 {
            self.word(b"-");
        }
        let (mut digits, mut start, mut rest) = ([0; 10], 10, value.unsigned_abs());
        loop {
            start -= 1;
            digits[start] = b'0' + (rest % 10) as u8;
            rest /= 10;
            if rest == 0 {
                break;
            }
        }
        self.word(&digits[start..]);
    }

    #[inline(always)]
    fn operand(&mut self, place: u16, file: &[u32]) {
        match variable_at(place) {
            NONE => self.constant(file[usize::from(place)]),
            x => self.variable(x),
        }
    }

    /// Copies what stays before a line of the program that starts and ends here, and writes what a mark makes of it.
    #[inline(always)]
    pub fn line(
        &mut self,
        start: usize,
        end: usize,
        step: &Instruction,
        mark: &Mark,
        file: &[u32],
    ) {
        self.copy_to(start);
        self.copied = end;
        let Instruction { x, a: by, .. } = mark.step;
        match (mark.kind, step.code) {
            (Kind::Remove, _) => self.word(b"skip\n"),
            (Kind::Reuse, _) => {
                self.variable(step.x);
                self.word(b" := ");
                self.variable(x);
                self.word(b"\n");
            }
            (Kind::Replace, read::WRITE) => {
                self.word(b"write ");
                self.operand(by, file);
                self.word(b"\n");
            }
            (Kind::Replace, read::BRANCH) => {
                self.word(b"if ");
                self.operand(by, file);
                // The rest of the line stays.
                self.copied = start + 3 + length_of(x);
            }
            (Kind::Replace, code) => {
                let made = |place| if place == u16::from(x) { by } else { place };
                self.variable(step.x);
                self.word(b" := ");
                self.operand(made(step.a), file);
                if code > COPY {
                    self.word(SIGNS[usize::from(code - read::PLUS)]);
                    self.operand(made(step.b), file);
                }
                self.word(b"\n");
            }
        }
    }

    #[inline(always)]
    fn copy_to(&mut self, end: usize) {
        if self.copied < end {
            self.word(&self.program[self.copied..end]);
        }
    }

    /// Copies the rest; tells how much is written.
    #[inline(always)]
    pub fn end(mut self) -> u32 {
        self.copy_to(self.program.len());
        self.at as u32
    }
}
