//! Control flow as arrays, sets of statements as rows of bits, and labelling by worklists.

use super::filled::Filled;
use super::read::Program;
use crate::condition::Direction;
use crate::program::{Statement, MOST_LINES};

/// A statement's index from 0.
pub type At = u16;

/// A set of statements; statement index k is bit k % 64 of word k / 64. It has as many words as the program needs: `SHORT`, or those
/// of a part.
pub type Row<const W: usize> = [u64; W];

/// The words of a row for programs of up to 256 statements, which most are.
pub const SHORT: usize = 4;

/// Whether a program's sets have room in `SHORT` words.
#[inline(always)]
pub fn is_short(program: &Program) -> bool {
    program.statements().len() <= 64 * SHORT
}

#[inline(always)]
pub fn has<const W: usize>(row: &Row<W>, at: At) -> bool {
    row[usize::from(at >> 6) % W] >> (at & 63) & 1 == 1
}

#[inline(always)]
pub fn put<const W: usize>(row: &mut Row<W>, at: At) {
    row[usize::from(at >> 6) % W] |= 1 << (at & 63);
}

#[inline(always)]
fn each<const W: usize>(a: &Row<W>, b: &Row<W>, word: impl Fn(u64, u64) -> u64) -> Row<W> {
    let mut row = [0; W];
    for (k, place) in row.iter_mut().enumerate() {
        *place = word(a[k], b[k]);
    }
    row
}

#[inline(always)]
pub fn and<const W: usize>(a: &Row<W>, b: &Row<W>) -> Row<W> {
    each(a, b, |a, b| a & b)
}

#[inline(always)]
pub fn or<const W: usize>(a: &Row<W>, b: &Row<W>) -> Row<W> {
    each(a, b, |a, b| a | b)
}

/// What is in one set and not in the other.
#[inline(always)]
pub fn without<const W: usize>(a: &Row<W>, b: &Row<W>) -> Row<W> {
    each(a, b, |a, b| a & !b)
}

/// Does something with each statement of a row, from the first on.
#[inline(always)]
pub fn for_each<const W: usize>(row: &Row<W>, mut act: impl FnMut(At)) {
    for (word, mut bits) in row.iter().copied().enumerate() {
        while bits != 0 {
            act(64 * word as At + bits.trailing_zeros() as At);
            bits &= bits - 1;
        }
    }
}

/// A stack of statements, each put on it at most once.
pub type Worklist = Filled<At, MOST_LINES>;

#[inline(always)]
fn worklist_of<const W: usize>(row: &Row<W>) -> Worklist {
    let mut list = Worklist::new();
    for_each(row, |at| list.push(at));
    list
}

/// The steps of a program, both ways.
pub struct Flow<const W: usize> {
    pub count: usize,
    /// All statements.
    pub all: Row<W>,
    /// Where each statement steps to, both entries alike where that is one statement.
    successors: Filled<[At; 2], MOST_LINES>,
    /// How many of these entries are steps that count backward: none for `write`.
    arms: Filled<u8, MOST_LINES>,
    /// The statements that step to statement k: entries `first[k]` to `first[k + 1]`.
    predecessors: Filled<At, { 2 * MOST_LINES }>,
    first: Filled<u16, { MOST_LINES + 1 }>,
}

impl<const W: usize> Flow<W> {
    #[inline(always)]
    pub fn new(program: &Program) -> Flow<W> {
        let statements = program.statements();
        let count = statements.len();
        let mut flow = Flow {
            count,
            all: [0; W],
            successors: Filled::new(),
            arms: Filled::new(),
            predecessors: Filled::new(),
            first: Filled::of(0, count + 1),
        };
        for (word, bits) in flow.all.iter_mut().enumerate() {
            *bits = match count.saturating_sub(64 * word) {
                0 => 0,
                rest @ 1..=63 => (1 << rest) - 1,
                _ => u64::MAX,
            };
        }
        let first = flow.first.items_mut();
        for (at, statement) in statements.iter().enumerate() {
            let next = at as At + At::from(at + 1 < count);
            let (steps, arms) = match *statement {
                Statement::Branch { then, other, .. } => {
                    ([(then - 1) as At, (other - 1) as At], 1 + u8::from(then != other))
                }
                Statement::Write(_) => ([at as At; 2], 0),
                _ => ([next; 2], 1),
            };
            flow.successors.push(steps);
            flow.arms.push(arms);
            for &to in &steps[..usize::from(arms)] {
                first[usize::from(to) + 1] += 1;
            }
        }
        for at in 0..count {
            first[at + 1] += first[at];
        }
        flow.predecessors = Filled::of(0, usize::from(first[count]));
        // Behind each place that is taken stands the next; at the end each entry has become the one before it.
        let predecessors = flow.predecessors.items_mut();
        for (at, (steps, arms)) in flow.successors.items().iter().zip(flow.arms.items()).enumerate()
        {
            for &to in &steps[..usize::from(*arms)] {
                let place = &mut first[usize::from(to)];
                predecessors[usize::from(*place)] = at as At;
                *place += 1;
            }
        }
        first.copy_within(..count, 1);
        first[0] = 0;
        flow
    }

    #[inline(always)]
    pub fn successors(&self, at: At) -> &[At; 2] {
        &self.successors.items()[usize::from(at)]
    }

    /// The statements that step to one, the self-step of `write` not counted; none for some.
    #[inline(always)]
    pub fn predecessors(&self, at: At) -> &[At] {
        let (at, first) = (usize::from(at), self.first.items());
        &self.predecessors.items()[usize::from(first[at])..usize::from(first[at + 1])]
    }

    /// The statements from which a path comes to one, but for self-steps that lead nowhere else.
    #[inline(always)]
    fn sources(&self, direction: Direction, at: At) -> &[At] {
        match direction {
            Direction::Forward => self.predecessors(at),
            Direction::Backward => {
                &self.successors(at)[..usize::from(self.arms.items()[usize::from(at)])]
            }
        }
    }

    /// How many steps each statement has. One that steps to itself only never runs out of them.
    fn degree(&self, direction: Direction, at: usize) -> u16 {
        let count = match direction {
            Direction::Forward => u16::from(self.arms.items()[at]),
            Direction::Backward => self.first.items()[at + 1] - self.first.items()[at],
        };
        if count == 0 {
            u16::MAX
        } else {
            count
        }
    }

    /// Where some step leads into a set.
    pub fn some_next(&self, direction: Direction, p: &Row<W>) -> Row<W> {
        let mut row = [0; W];
        for at in 0..self.count {
            let at = at as At;
            let holds = match direction {
                Direction::Forward => {
                    let [a, b] = *self.successors(at);
                    has(p, a) | has(p, b)
                }
                Direction::Backward => match self.predecessors(at) {
                    [] => has(p, at),
                    sources => sources.iter().any(|&source| has(p, source)),
                },
            };
            row[usize::from(at >> 6) % W] |= u64::from(holds) << (at & 63);
        }
        row
    }

    /// Where some path has q, and p before it.
    pub fn some_until(&self, direction: Direction, p: &Row<W>, q: &Row<W>) -> Row<W> {
        let mut found = *q;
        let mut list = worklist_of(q);
        while let Some(at) = list.pop() {
            for &source in self.sources(direction, at) {
                if has(p, source) && !has(&found, source) {
                    put(&mut found, source);
                    list.push(source);
                }
            }
        }
        found
    }

    /// Where all paths have q, and p before it.
    pub fn all_until(&self, direction: Direction, p: &Row<W>, q: &Row<W>) -> Row<W> {
        let mut found = *q;
        let mut list = worklist_of(q);
        let mut left: Filled<u16, MOST_LINES> = Filled::new();
        (0..self.count).for_each(|at| left.push(self.degree(direction, at)));
        let left = left.items_mut();
        while let Some(at) = list.pop() {
            for &source in self.sources(direction, at) {
                let steps = &mut left[usize::from(source)];
                *steps -= 1;
                if *steps == 0 && has(p, source) && !has(&found, source) {
                    put(&mut found, source);
                    list.push(source);
                }
            }
        }
        found
    }
}
