//! Tables of conditions, whose rows are made in the lent table itself.

use super::condition::{self, Part, Parts, Paths};
use super::flow::{and, filter, for_statements, or, put, without, Flow, Row};
use super::names::{has_same_right, variable_at, MASKS, NONE, THEMSELVES};
use super::read::{self, unset, Instruction, Program, Window, WINDOW};
use crate::condition::{words_of, Direction, Quantifier, PART_WORDS, TABLE_WORDS};
use crate::program::is_kept;
use std::mem::MaybeUninit;

/// By statement: the variable that it defines, and those that it uses; 64 at once.
struct Names {
    defined: [MaybeUninit<[u8; WINDOW]>; PART_WORDS],
    used: [MaybeUninit<[[u8; WINDOW]; 2]>; PART_WORDS],
    words: usize,
}

impl Names {
    #[inline(always)]
    fn new(steps: &[Instruction]) -> Names {
        let mut names = Names { defined: unset(), used: unset(), words: 0 };
        for steps in steps.chunks(WINDOW) {
            let (mut defined, mut used) = ([NONE; WINDOW], [[NONE; WINDOW]; 2]);
            for (at, step) in steps.iter().enumerate() {
                let [defines, uses, first, second] = MASKS[usize::from(step.code)];
                defined[at] = step.x | defines;
                used[0][at] = (step.x | uses) & (variable_at(step.a) | first);
                used[1][at] = variable_at(step.b) | second;
            }
            names.defined[names.words] = MaybeUninit::new(defined);
            names.used[names.words] = MaybeUninit::new(used);
            names.words += 1;
        }
        names
    }

    /// What defines a variable.
    #[inline(always)]
    fn defining<const W: usize>(&self, x: u8) -> Row<W> {
        let mut row = [0; W];
        for (word, names) in row.iter_mut().zip(&self.defined[..self.words]) {
            // SAFETY: so many are set.
            *word = Window::new(unsafe { names.assume_init_ref() }).places_of(x);
        }
        row
    }

    /// What uses a variable, but for what is kept at the end.
    #[inline(always)]
    fn using<const W: usize>(&self, x: u8) -> Row<W> {
        let mut row = [0; W];
        for (word, names) in row.iter_mut().zip(&self.used[..self.words]) {
            // SAFETY: so many are set.
            let [one, other] = unsafe { names.assume_init_ref() };
            *word = Window::new(one).places_of(x) | Window::new(other).places_of(x);
        }
        row
    }
}

/// What rows are made from.
struct Maker<'a, const W: usize> {
    flow: Flow<'a, W>,
    names: Names,
    file: &'a [u32],
}

impl<const W: usize> Maker<'_, W> {
    /// Of some statements those that a test holds for.
    #[inline(always)]
    fn filter(&self, row: &Row<W>, test: impl Fn(&Instruction) -> bool) -> Row<W> {
        filter(row, |at| test(&self.flow.steps[at]))
    }

    fn stmt(&self, wanted: &Instruction) -> Row<W> {
        match wanted.code {
            read::SKIP => self.filter(&self.flow.all, |step| step.code == read::SKIP),
            read::BRANCH => self.filter(&self.flow.branches, |step| {
                (step.x, step.a, step.b) == (wanted.x, wanted.a, wanted.b)
            }),
            read::READ => self.at(0, |step| step.x == wanted.x),
            read::WRITE => self.at(self.flow.steps.len() - 1, |step| step.x == wanted.x),
            _ => self.filter(&self.names.defining(wanted.x), |step| {
                has_same_right(self.file, step, wanted)
            }),
        }
    }

    /// A statement, where a test holds for it.
    fn at(&self, at: usize, test: impl Fn(&Instruction) -> bool) -> Row<W> {
        let mut row = [0; W];
        if test(&self.flow.steps[at]) {
            put(&mut row, at);
        }
        row
    }

    fn using(&self, x: u8) -> Row<W> {
        let mut row = self.names.using(x);
        if is_kept(x) {
            put(&mut row, self.flow.steps.len() - 1);
        }
        row
    }

    fn transparent(&self, places: [u16; 2]) -> Row<W> {
        let mut row = self.flow.all;
        for x in places.map(variable_at) {
            if x != NONE {
                row = without(&row, &self.names.defining(x));
            }
        }
        row
    }

    fn node(&self, number: u32) -> Row<W> {
        let mut row = [0; W];
        if number != 0 && number <= self.flow.steps.len() as u32 {
            put(&mut row, number as usize - 1);
        }
        row
    }

    fn next(&self, paths: Paths, p: &Row<W>) -> Row<W> {
        let some = |p: &Row<W>| match paths.direction {
            Direction::Forward => self.flow.some_next(p),
            Direction::Backward => self.flow.some_previous(p),
        };
        match paths.quantifier {
            Quantifier::Some => some(p),
            Quantifier::All => self.not(&some(&self.not(p))),
        }
    }

    fn not(&self, p: &Row<W>) -> Row<W> {
        without(&self.flow.all, p)
    }

    fn until(&self, paths: Paths, p: &Row<W>, q: &Row<W>) -> Row<W> {
        match (paths.quantifier, paths.direction) {
            (Quantifier::Some, Direction::Forward) => self.flow.until::<false>(p, q),
            (Quantifier::All, Direction::Forward) => self.flow.until::<true>(p, q),
            (Quantifier::Some, Direction::Backward) => self.flow.some_since(p, q),
            (Quantifier::All, Direction::Backward) => self.flow.all_since(p, q),
        }
    }

    /// No path has `p W q` exactly where each has `!q` until neither.
    fn weak(&self, paths: Paths, p: &Row<W>, q: &Row<W>) -> Row<W> {
        let quantifier = match paths.quantifier {
            Quantifier::Some => Quantifier::All,
            Quantifier::All => Quantifier::Some,
        };
        let not_q = self.not(q);
        self.not(&self.until(Paths { quantifier, ..paths }, &not_q, &without(&not_q, p)))
    }

    /// The row of a part, from those before it.
    #[inline(always)]
    fn row(&self, part: &Part, last: &Row<W>, left: impl Fn(u16) -> Row<W>) -> Row<W> {
        match *part {
            Part::True => self.flow.all,
            Part::False => [0; W],
            Part::Entry => self.node(1),
            Part::Exit => self.node(self.flow.steps.len() as u32),
            Part::Node(number) => self.node(number),
            Part::Stmt(step) => self.stmt(&step),
            Part::Def(x) => self.names.defining(x),
            Part::Use(x) => self.using(x),
            Part::Trans(places) => self.transparent(places),
            Part::Not => self.not(last),
            Part::And(p) => and(&left(p), last),
            Part::Or(p) => or(&left(p), last),
            Part::Next(paths) => self.next(paths, last),
            Part::Finally(paths) => self.until(paths, &self.flow.all, last),
            Part::Globally(paths) => self.weak(paths, last, &[0; W]),
            Part::Until(paths, p) => self.until(paths, &left(p), last),
            Part::Weak(paths, p) => self.weak(paths, &left(p), last),
        }
    }
}

/// Fills the rows of all parts; tells how many statements satisfy the last, and the first of these.
#[inline(never)]
fn fill<const W: usize>(
    steps: &[Instruction],
    file: &[u32],
    parts: &[Part],
    table: &mut [u64],
) -> (u32, u32) {
    let maker = Maker::<W> { flow: Flow::new(steps), names: Names::new(steps), file };
    let mut last = [0; W];
    for (k, part) in parts.iter().enumerate() {
        let left = |p: u16| -> Row<W> {
            let words = &table[PART_WORDS * usize::from(p)..][..W];
            words.try_into().expect("so many words")
        };
        last = maker.row(part, &last, left);
        let (front, rest) = words_of(table, k).split_at_mut(W);
        front.copy_from_slice(&last);
        rest.fill(0);
    }
    let satisfied = last.iter().map(|word| word.count_ones()).sum();
    let first = last.iter().position(|&word| word != 0);
    (satisfied, first.map_or(0, |word| 64 * word as u32 + last[word].trailing_zeros() + 1))
}

/// The call: fills the table; the number of parts, of satisfying statements and the first of these, or the
/// refusal, 1, 2 to 5 or 6 to 8.
pub fn tabulate(
    program: &[u8],
    condition: &[u8],
    table: &mut [u64],
) -> Result<(u32, u32, u32), u8> {
    if table.len() < TABLE_WORDS {
        return Err(1);
    }
    let mut given = Program::empty();
    given.read(program, &THEMSELVES, 0)?;
    let mut parts = Parts::empty();
    let mut words = given.words();
    condition::read(condition, &mut words, &mut parts)?;
    let filled = words.filled;
    given.fill_to(filled);
    let (steps, file) = given.parts();
    let parts = parts.items();
    let fill = for_statements!(steps.len(), fill);
    let (satisfied, first) = fill(steps, file, parts, table);
    Ok((parts.len() as u32, satisfied, first))
}
