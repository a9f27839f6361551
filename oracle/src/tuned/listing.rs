//! Lists of readers and writers: a statement's bits set in the lent words, those of changed statements cleared before.

use super::flow::{for_each, put, At};
use super::judge::rewrite;
use super::read::{List, Program};
use crate::condition::PART_WORDS;
use crate::listing::{Counts, LIST_WORDS};
use crate::program::{Expression, Operand, Statement, FIRST_KEPT, KEPT, VARIABLES};

/// The words of a set.
const SET: usize = PART_WORDS;

/// Sets the bits of a statement, none of which is set.
#[inline(always)]
fn note(list: &mut [u64; LIST_WORDS], at: usize, statement: &Statement) {
    let (word, bit) = (at / 64, 1 << (at % 64));
    let mut define = |x: u8| list[2 * SET * usize::from(x % VARIABLES) + word] |= bit;
    match *statement {
        Statement::Read(x) | Statement::Assign(x, _) => define(x),
        _ => {}
    }
    let mut using = |x: u8| list[2 * SET * usize::from(x % VARIABLES) + SET + word] |= bit;
    match *statement {
        Statement::Write(x) => {
            using(x);
            (FIRST_KEPT..FIRST_KEPT + KEPT as u8).for_each(using);
        }
        Statement::Branch { tested, .. } => using(tested),
        Statement::Assign(_, Expression::Single(Operand::Variable(x))) => using(x),
        Statement::Assign(_, Expression::Pair(a, _, b)) => {
            for operand in [a, b] {
                if let Operand::Variable(x) = operand {
                    using(x);
                }
            }
        }
        _ => {}
    }
}

fn counts(list: &[u64; LIST_WORDS]) -> Counts {
    let mut counts = Counts { defined: [0; VARIABLES as usize], used: [0; VARIABLES as usize] };
    let ones = |set: &[u64]| set.iter().map(|word| word.count_ones()).sum();
    for (x, sets) in list.chunks_exact(2 * SET).enumerate() {
        counts.defined[x] = ones(&sets[..SET]);
        counts.used[x] = ones(&sets[SET..]);
    }
    counts
}

/// The words of a list, or the refusal, 1.
fn words(list: &mut [u64]) -> Result<&mut [u64; LIST_WORDS], u8> {
    let words = list.get_mut(..LIST_WORDS).ok_or(1)?;
    Ok(words.try_into().expect("so many words"))
}

/// The call: makes the program's list; its counts, or the refusal, 1 or 2 to 5.
pub fn list(program: &[u8], list: &mut [u64]) -> Result<Counts, u8> {
    let list = words(list)?;
    let mut given = Program::empty();
    given.read(program)?;
    list.fill(0);
    for (at, statement) in given.statements().iter().enumerate() {
        note(list, at, statement);
    }
    Ok(counts(list))
}

/// The call: writes the bits of the statements that the accepted marks change; the counts of the list then, or the refusal, 1,
/// 2 to 5, 9 or 10.
pub fn relist(program: &[u8], marks: &[u8], list: &mut [u64]) -> Result<Counts, u8> {
    let list = words(list)?;
    let mut given = Program::empty();
    given.read(program)?;
    let mut asked = List::empty();
    asked.read(marks)?;
    let mut new = given.clone();
    rewrite(&mut new, &asked);
    let mut changed = [0; SET];
    for (at, (before, after)) in given.statements().iter().zip(new.statements()).enumerate() {
        if before != after {
            put(&mut changed, at as At);
        }
    }
    for set in list.chunks_exact_mut(SET) {
        set.iter_mut().zip(changed).for_each(|(word, changed)| *word &= !changed);
    }
    for_each(&changed, |at| {
        let at = usize::from(at);
        note(list, at, &new.statements()[at]);
    });
    Ok(counts(list))
}
