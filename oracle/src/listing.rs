//! Lists of readers and writers: for each variable the statements that define it, and those that use it.
//!
//! A list is made and brought up to date bit by bit. What a round of marks changes is found by the lines of both texts.

use crate::condition::PART_WORDS;
use crate::marks::{self, TEXT_BYTES, VERDICT_BYTES};
use crate::program::{Program, Statement, VARIABLES};

/// The smallest list that may be lent, in words: two sets for each variable.
pub const LIST_WORDS: usize = 2 * PART_WORDS * VARIABLES as usize;

/// How many ones each set of a list has.
#[derive(Clone, Copy, Debug, PartialEq, Eq)]
pub struct Counts {
    pub defined: [u32; VARIABLES as usize],
    pub used: [u32; VARIABLES as usize],
}

/// One of a variable's two sets.
#[derive(Clone, Copy, Debug, PartialEq, Eq)]
pub enum Set {
    Defining,
    Using,
}

/// The word and the bit of statement index `at` in a set.
fn place(x: u8, set: Set, at: usize) -> (usize, usize) {
    let sets = match set {
        Set::Defining => 2 * usize::from(x),
        Set::Using => 2 * usize::from(x) + 1,
    };
    (PART_WORDS * sets + at / 64, at % 64)
}

/// Whether a list has statement index `at`, counted from 0, in a set.
pub fn has(list: &[u64], x: u8, set: Set, at: usize) -> bool {
    let (word, bit) = place(x, set, at);
    list[word] >> bit & 1 == 1
}

/// Writes a statement's bit of each set.
fn write_bits(list: &mut [u64], at: usize, statement: &Statement) {
    for x in 0..VARIABLES {
        for (set, is_in) in [(Set::Defining, statement.defines(x)), (Set::Using, statement.uses(x))]
        {
            let (word, bit) = place(x, set, at);
            list[word] = list[word] & !(1 << bit) | u64::from(is_in) << bit;
        }
    }
}

/// The ones of each set, whether they are a statement's or not.
fn counts(list: &[u64]) -> Counts {
    let ones = |x: usize, set: Set| {
        let (first, _) = place(x as u8, set, 0);
        list[first..first + PART_WORDS].iter().map(|word| word.count_ones()).sum()
    };
    Counts {
        defined: std::array::from_fn(|x| ones(x, Set::Defining)),
        used: std::array::from_fn(|x| ones(x, Set::Using)),
    }
}

/// The call: makes the program's list; its counts, or the refusal, 1 or 2 to 5.
pub fn list(program: &[u8], list: &mut [u64]) -> Result<Counts, u8> {
    if list.len() < LIST_WORDS {
        return Err(1);
    }
    let program = Program::read(program)?;
    list[..LIST_WORDS].fill(0);
    for (at, statement) in program.statements().iter().enumerate() {
        write_bits(list, at, statement);
    }
    Ok(counts(list))
}

/// The call: writes the bits of the statements whose text the accepted marks change, as in the new program's list; the counts
/// of the list as it is then, or the refusal, 1, 2 to 5, 9 or 10.
pub fn relist(program: &[u8], marks: &[u8], list: &mut [u64]) -> Result<Counts, u8> {
    if list.len() < LIST_WORDS {
        return Err(1);
    }
    let (mut verdicts, mut text) = ([0; VERDICT_BYTES], [0; TEXT_BYTES]);
    let (_, _, bytes) = marks::judge(program, marks, &mut verdicts, &mut text)?;
    let given = program.split(|&byte| byte == b'\n');
    let new = text[..bytes as usize].split(|&byte| byte == b'\n');
    for (at, (before, after)) in given.zip(new).enumerate() {
        if before != after {
            let statement = Statement::read(after).expect("new text is a program's");
            write_bits(list, at, &statement);
        }
    }
    Ok(counts(list))
}
