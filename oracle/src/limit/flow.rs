//! Sets of statements as rows of bits, spread along the steps of a program: straight stretches by shifts and the carry of an
//! addition, over whole words; jumps by a list of what has joined a set and jumps, or is jumped to.

use super::read::{unset, Instruction, BRANCH};
use crate::program::MOST_LINES;
use std::mem::MaybeUninit;

/// A set of statements; that with index k is bit k % 64 of word k / 64. It has as many words as the program needs, or somewhat more.
pub type Row<const W: usize> = [u64; W];

/// A function over rows of as many words as so many statements need, or somewhat more.
macro_rules! for_statements {
    ($count:expr, $function:ident) => {
        match ($count - 1) / 64 {
            0 => $function::<1>,
            1 => $function::<2>,
            2..=3 => $function::<4>,
            4..=7 => $function::<8>,
            _ => $function::<PART_WORDS>,
        }
    };
}
pub(super) use for_statements;

#[inline(always)]
pub fn has<const W: usize>(row: &Row<W>, at: usize) -> bool {
    row[at / 64 % W] >> (at % 64) & 1 == 1
}

#[inline(always)]
pub fn put<const W: usize>(row: &mut Row<W>, at: usize) {
    row[at / 64 % W] |= 1 << (at % 64);
}

#[inline(always)]
pub fn each<const W: usize>(a: &Row<W>, b: &Row<W>, word: impl Fn(u64, u64) -> u64) -> Row<W> {
    let mut row = [0; W];
    for (k, place) in row.iter_mut().enumerate() {
        *place = word(a[k], b[k]);
    }
    row
}

#[inline(always)]
pub fn and<const W: usize>(a: &Row<W>, b: &Row<W>) -> Row<W> {
    each(a, b, |a, b| a & b)
}

#[inline(always)]
pub fn or<const W: usize>(a: &Row<W>, b: &Row<W>) -> Row<W> {
    each(a, b, |a, b| a | b)
}

#[inline(always)]
pub fn without<const W: usize>(a: &Row<W>, b: &Row<W>) -> Row<W> {
    each(a, b, |a, b| a & !b)
}

#[inline(always)]
pub fn is_empty<const W: usize>(row: &Row<W>) -> bool {
    row.iter().fold(0, |all, word| all | word) == 0
}

#[inline(always)]
fn count<const W: usize>(row: &Row<W>) -> u32 {
    row.iter().map(|word| word.count_ones()).sum()
}

/// Does something with each statement of a set, from the first on.
#[inline(always)]
pub fn for_each<const W: usize>(row: &Row<W>, mut act: impl FnMut(usize)) {
    for (word, mut left) in row.iter().copied().enumerate() {
        while left != 0 {
            act(64 * word + left.trailing_zeros() as usize);
            left &= left - 1;
        }
    }
}

/// Of the statements of a set those that a test holds for.
#[inline(always)]
pub fn filter<const W: usize>(row: &Row<W>, test: impl Fn(usize) -> bool) -> Row<W> {
    let mut found = [0; W];
    for (word, place) in found.iter_mut().enumerate() {
        let mut left = row[word];
        while left != 0 {
            let bit = left.trailing_zeros();
            *place |= u64::from(test(64 * word + bit as usize)) << bit;
            left &= left - 1;
        }
    }
    found
}

/// The statements behind those of a set.
#[inline(always)]
fn behind<const W: usize>(row: &Row<W>) -> Row<W> {
    let (mut moved, mut top) = ([0; W], 0);
    for (place, word) in moved.iter_mut().zip(row) {
        *place = word << 1 | top;
        top = word >> 63;
    }
    moved
}

/// The statements before those of a set.
#[inline(always)]
fn before<const W: usize>(row: &Row<W>) -> Row<W> {
    let (mut moved, mut low) = ([0; W], 0);
    for (place, word) in moved.iter_mut().zip(row).rev() {
        *place = word >> 1 | low << 63;
        low = word & 1;
    }
    moved
}

/// Adds each statement of `open` that stands behind one of the set: a seed added to a run of ones carries to the run's end.
#[inline(always)]
fn fill_up<const W: usize>(row: &mut Row<W>, open: &Row<W>) {
    let mut top = 0;
    for (word, &open) in row.iter_mut().zip(open) {
        let seeds = (*word << 1 | top) & open;
        *word |= (open.wrapping_add(seeds) ^ open | seeds) & open;
        top = *word >> 63;
    }
}

/// Adds each statement of `open` that stands before one of the set. Carries go the other way, so runs are filled by doubling, each
/// word by itself; then from word to word.
#[inline(always)]
fn fill_down<const W: usize>(row: &mut Row<W>, open: &Row<W>) {
    for (word, &open) in row.iter_mut().zip(open) {
        let (mut filled, mut run) = (*word, open);
        for shift in [1, 2, 4, 8, 16, 32] {
            filled |= run & filled >> shift;
            run &= run >> shift;
        }
        *word = filled;
    }
    let mut low = 0;
    for (word, &open) in row.iter_mut().zip(open).rev() {
        let others = u64::MAX.checked_shr((!open).leading_zeros()).unwrap_or(0);
        *word |= !others & 0u64.wrapping_sub(low);
        low = *word & 1;
    }
}

/// Statements that are yet to be looked at, with a bit for each word that has some.
pub struct Pending<const W: usize> {
    row: Row<W>,
    words: u32,
}

impl<const W: usize> Pending<W> {
    #[inline(always)]
    pub fn new() -> Pending<W> {
        Pending { row: [0; W], words: 0 }
    }

    #[inline(always)]
    fn add_all(&mut self, row: &Row<W>) {
        row.iter().enumerate().for_each(|(word, &bits)| self.add(word, bits));
    }

    #[inline(always)]
    pub fn put(&mut self, at: usize) {
        self.add(at / 64, 1 << (at % 64));
    }

    #[inline(always)]
    fn add(&mut self, word: usize, bits: u64) {
        self.row[word % W] |= bits;
        self.words |= u32::from(bits != 0) << word;
    }

    #[inline(always)]
    pub fn first(&mut self) -> Option<usize> {
        if self.words == 0 {
            return None;
        }
        let word = self.words.trailing_zeros() as usize % W;
        let at = self.row[word].trailing_zeros();
        self.row[word] &= self.row[word] - 1;
        self.words &= !(u32::from(self.row[word] == 0) << word);
        Some(64 * word + at as usize)
    }

    #[inline(always)]
    pub fn last(&mut self) -> Option<usize> {
        if self.words == 0 {
            return None;
        }
        let word = (31 - self.words.leading_zeros()) as usize % W;
        let at = 63 - self.row[word].leading_zeros();
        self.row[word] ^= 1 << at;
        self.words &= !(u32::from(self.row[word] == 0) << word);
        Some(64 * word + at as usize)
    }
}

/// Adds a statement, and those of `open` in a run behind it; of all that join, those of `asked` are then pending.
#[inline(always)]
fn join_up<const W: usize>(
    row: &mut Row<W>,
    at: usize,
    open: &Row<W>,
    asked: &Row<W>,
    pending: &mut Pending<W>,
) {
    let (mut word, mut bit) = (at / 64 % W, at % 64);
    let mut new = 1 << bit;
    loop {
        // The run from the bit behind on, which ends where the set has the statement already.
        let rest = (open[word] & !row[word]).checked_shr(bit as u32 + 1).unwrap_or(0);
        let length = rest.trailing_ones() as usize;
        new |= run_of(length).checked_shl(bit as u32 + 1).unwrap_or(0);
        row[word] |= new;
        pending.add(word, new & asked[word]);
        if new >> 63 == 0 || word + 1 == W {
            return;
        }
        word += 1;
        if (open[word] & !row[word]) & 1 == 0 {
            return;
        }
        (bit, new) = (0, 1);
    }
}

/// The same before it.
#[inline(always)]
fn join_down<const W: usize>(
    row: &mut Row<W>,
    at: usize,
    open: &Row<W>,
    asked: &Row<W>,
    pending: &mut Pending<W>,
) {
    let (mut word, mut bit) = (at / 64 % W, at % 64);
    loop {
        let rest = (open[word] & !row[word]).checked_shl(64 - bit as u32).unwrap_or(0);
        let length = rest.leading_ones() as usize;
        let new = 1 << bit | run_of(length) << (bit - length);
        row[word] |= new;
        pending.add(word, new & asked[word]);
        if new & 1 == 0 || word == 0 {
            return;
        }
        word -= 1;
        if (open[word] & !row[word]) >> 63 == 0 {
            return;
        }
        bit = 63;
    }
}

/// So many ones, fewer than 64.
#[inline(always)]
fn run_of(length: usize) -> u64 {
    (1 << length) - 1
}

/// Targets are looked at so often before each waits for a source.
const ROUNDS: usize = 2;

/// No arm and no statement.
const NONE: u16 = u16::MAX;

/// The steps of a program.
pub struct Flow<'a, const W: usize> {
    pub steps: &'a [Instruction],
    pub all: Row<W>,
    /// All `if`s, and those with an arm that doesn't lead to the next line.
    pub branches: Row<W>,
    jumping: Row<W>,
    /// What steps to the next line alone, and what steps there.
    straight: Row<W>,
    falling: Row<W>,
    /// The targets of all arms, and of those that don't lead to the next line.
    targets: Row<W>,
    jumped: Row<W>,
    /// By target: its last arm, twice its `if` and 1 for `else`; by `if`: the arms before these with the same targets.
    last_arm: [MaybeUninit<u16>; MOST_LINES],
    arm_before: [MaybeUninit<[u16; 2]>; MOST_LINES],
}

impl<'a, const W: usize> Flow<'a, W> {
    #[inline(always)]
    pub fn new(steps: &'a [Instruction]) -> Flow<'a, W> {
        let mut flow = Flow {
            steps,
            all: [0; W],
            branches: [0; W],
            jumping: [0; W],
            straight: [0; W],
            falling: [0; W],
            targets: [0; W],
            jumped: [0; W],
            last_arm: unset(),
            arm_before: unset(),
        };
        for (word, steps) in steps.chunks(64).enumerate() {
            flow.all[word % W] = u64::MAX >> (64 - steps.len());
            let mut branches = 0;
            for (at, step) in steps.iter().enumerate() {
                branches |= u64::from(step.code == BRANCH) << at;
            }
            flow.branches[word % W] = branches;
            while branches != 0 {
                flow.add(64 * word + branches.trailing_zeros() as usize);
                branches &= branches - 1;
            }
        }
        flow.straight = without(&flow.all, &flow.branches);
        let last = steps.len() - 1;
        flow.straight[last / 64 % W] ^= 1 << (last % 64);
        flow.falling = or(&flow.falling, &flow.straight);
        flow
    }

    /// Adds the arms of an `if`.
    #[inline(always)]
    fn add(&mut self, at: usize) {
        let Instruction { a, b, .. } = self.steps[at];
        let mut before = [NONE; 2];
        let arms = if a == b { &[a][..] } else { &[a, b] };
        for (arm, &target) in arms.iter().enumerate() {
            let target = usize::from(target);
            if has(&self.targets, target) {
                // SAFETY: it was put with the target.
                before[arm] = unsafe { self.last_arm[target].assume_init() };
            }
            put(&mut self.targets, target);
            self.last_arm[target] = MaybeUninit::new((2 * at + arm) as u16);
            if target == at + 1 {
                put(&mut self.falling, at);
            } else {
                put(&mut self.jumping, at);
                put(&mut self.jumped, target);
            }
        }
        self.arm_before[at] = MaybeUninit::new(before);
    }

    #[inline(always)]
    pub fn arms(&self, at: usize) -> [usize; 2] {
        let Instruction { a, b, .. } = self.steps[at];
        [usize::from(a), usize::from(b)]
    }

    /// The last arm that leads to a target.
    #[inline(always)]
    fn last_arm(&self, target: usize) -> u16 {
        // SAFETY: each of `targets` has one.
        unsafe { self.last_arm[target].assume_init() }
    }

    /// The arm before this one that leads to the same target.
    #[inline(always)]
    fn arm_before(&self, arm: u16) -> u16 {
        // SAFETY: each `if` has them.
        unsafe { self.arm_before[usize::from(arm) / 2].assume_init()[usize::from(arm) % 2] }
    }

    /// Does something with each `if` of which an arm leads to a statement.
    #[inline(always)]
    pub fn for_each_source(&self, target: usize, mut act: impl FnMut(usize)) {
        if !has(&self.targets, target) {
            return;
        }
        let mut arm = self.last_arm(target);
        while arm != NONE {
            act(usize::from(arm / 2));
            arm = self.arm_before(arm);
        }
    }

    /// The first arm, from this one on to the same target, whose `if` is in a set or isn't.
    #[inline(always)]
    fn arm_from(&self, mut arm: u16, row: &Row<W>, is_in: bool) -> u16 {
        while arm != NONE && has(row, usize::from(arm / 2)) != is_in {
            arm = self.arm_before(arm);
        }
        arm
    }

    /// Whether an `if` of a set has an arm that leads to one of `targets`.
    #[inline(always)]
    fn has_source(&self, target: usize, row: &Row<W>) -> bool {
        self.arm_from(self.last_arm(target), row, true) != NONE
    }

    /// Whether a statement steps to the next line alone.
    #[inline(always)]
    pub fn is_straight(&self, at: usize) -> bool {
        has(&self.straight, at)
    }

    /// What no statement steps to.
    #[inline(always)]
    pub fn orphans(&self) -> Row<W> {
        without(&without(&self.all, &behind(&self.falling)), &self.targets)
    }

    /// Where some step leads into a set.
    #[inline(always)]
    pub fn some_next(&self, p: &Row<W>) -> Row<W> {
        let mut row = and(&before(p), &self.falling);
        let last = self.steps.len() - 1;
        row[last / 64 % W] |= p[last / 64 % W] & 1 << (last % 64);
        if is_empty(&and(p, &self.jumped)) {
            return row;
        }
        let jumping = without(&self.jumping, &row);
        or(
            &row,
            &filter(&jumping, |at| {
                let [a, b] = self.arms(at);
                has(p, a) | has(p, b)
            }),
        )
    }

    /// Where some step back leads into a set.
    #[inline(always)]
    pub fn some_previous(&self, p: &Row<W>) -> Row<W> {
        let mut row = or(&behind(&and(p, &self.falling)), &and(p, &self.orphans()));
        let (open, jumping) = (without(&self.jumped, &row), and(&self.jumping, p));
        if count(&open) < count(&jumping) {
            return or(&row, &filter(&open, |target| self.has_source(target, p)));
        }
        for_each(&jumping, |at| {
            self.arms(at).into_iter().for_each(|arm| put(&mut row, arm));
        });
        row
    }

    /// Where some path, or each if all are asked for, has q, and p before it.
    #[inline(always)]
    pub fn until<const ALL: bool>(&self, p: &Row<W>, q: &Row<W>) -> Row<W> {
        let (falling, jumping, asked) = if ALL {
            (&self.straight, &self.branches, &self.targets)
        } else {
            (&self.falling, &self.jumping, &self.jumped)
        };
        let (mut row, open) = (*q, and(p, falling));
        fill_down(&mut row, &open);
        let joins = |row: &Row<W>, at: usize| {
            let [a, b] = self.arms(at);
            if ALL {
                has(row, a) & has(row, b)
            } else {
                has(row, a) | has(row, b)
            }
        };
        // Either what may join is looked at, or what may be joined, whatever is less.
        let (joining, mut joined) = (without(&and(jumping, p), &row), and(&row, asked));
        let mut pending = Pending::new();
        if count(&joining) <= count(&joined) {
            joined = [0; W];
            for word in (0..W).rev() {
                let mut left = joining[word] & !row[word];
                while left != 0 {
                    let bit = 63 - left.leading_zeros();
                    left ^= 1 << bit;
                    let at = 64 * word + bit as usize;
                    if joins(&row, at) {
                        join_down(&mut row, at, &open, asked, &mut pending);
                        left &= !row[word];
                    }
                }
            }
        }
        pending.add_all(&joined);
        while let Some(at) = pending.last() {
            self.for_each_source(at, |source| {
                if has(p, source) && !has(&row, source) && joins(&row, source) {
                    join_down(&mut row, source, &open, asked, &mut pending);
                }
            });
        }
        row
    }

    /// Where some path back has q, and p before it.
    #[inline(always)]
    pub fn some_since(&self, p: &Row<W>, q: &Row<W>) -> Row<W> {
        let (mut row, open) = (*q, and(p, &behind(&self.falling)));
        fill_up(&mut row, &open);
        let (joining, jumping) = (without(&and(p, &self.jumped), &row), and(&row, &self.jumping));
        let mut pending = Pending::new();
        if count(&joining) <= count(&jumping) {
            for_each(&joining, |target| {
                if !has(&row, target) && self.has_source(target, &row) {
                    join_up(&mut row, target, &open, &self.jumping, &mut pending);
                }
            });
        } else {
            pending.add_all(&jumping);
        }
        while let Some(at) = pending.first() {
            for target in self.arms(at) {
                if has(p, target) && !has(&row, target) {
                    join_up(&mut row, target, &open, &self.jumping, &mut pending);
                }
            }
        }
        row
    }

    /// Where each path back has q, and p before it.
    #[inline(always)]
    pub fn all_since(&self, p: &Row<W>, q: &Row<W>) -> Row<W> {
        let behind_straight = behind(&self.straight);
        let (mut row, open) = (*q, without(&and(p, &behind_straight), &self.targets));
        fill_up(&mut row, &open);
        let joining = and(&self.targets, p);
        for _ in 0..ROUNDS {
            if !self.join_targets(&mut row, &joining, &behind_straight, &open) {
                return row;
            }
        }
        self.join_waiting(&mut row, &joining, &behind_straight, &open);
        row
    }

    /// Adds each of these targets, from the first on, whose sources are all in the set; whether there is one.
    #[inline(always)]
    fn join_targets(
        &self,
        row: &mut Row<W>,
        joining: &Row<W>,
        behind_straight: &Row<W>,
        open: &Row<W>,
    ) -> bool {
        let (mut top, mut has_joined) = (0, false);
        for word in 0..W {
            // Those but for which a straight step comes from elsewhere.
            let all = |row: &Row<W>| {
                joining[word] & !row[word] & !(behind_straight[word] & !(row[word] << 1 | top))
            };
            let mut left = all(row);
            while left != 0 {
                let bit = left.trailing_zeros();
                left &= left - 1;
                let at = 64 * word + bit as usize;
                if self.arm_from(self.last_arm(at), row, false) == NONE {
                    has_joined = true;
                    join_up(row, at, open, &[0; W], &mut Pending::new());
                    left = all(row) & u64::MAX << bit;
                }
            }
            top = row[word] >> 63;
        }
        has_joined
    }

    /// The same until there is none more: each that can't join waits for a source.
    fn join_waiting(
        &self,
        row: &mut Row<W>,
        joining: &Row<W>,
        behind_straight: &Row<W>,
        open: &Row<W>,
    ) {
        let mut waiting = Waiting::new();
        let mut pending = Pending::new();
        for_each(joining, |at| {
            if has(row, at) {
                return;
            }
            // Behind a straight step that isn't in the set there is nothing more to ask.
            if has(behind_straight, at) && !has(row, at - 1) {
                waiting.put(at, at - 1, self.last_arm(at));
            } else if self.is_met(row, &mut waiting, at, self.last_arm(at)) {
                join_up(row, at, open, &waiting.asked, &mut pending);
            }
            while let Some(source) = pending.first() {
                self.meet(source, row, open, &mut waiting, &mut pending);
            }
        });
    }

    /// Whether all sources of a target, from this arm on, are in a set; else the target waits for the first that isn't.
    #[inline(always)]
    fn is_met(&self, row: &Row<W>, waiting: &mut Waiting<W>, at: usize, arm: u16) -> bool {
        let arm = self.arm_from(arm, row, false);
        if arm != NONE {
            waiting.put(at, usize::from(arm / 2), arm);
        }
        arm == NONE
    }

    /// A statement has joined the set for which targets wait.
    #[inline(always)]
    fn meet(
        &self,
        source: usize,
        row: &mut Row<W>,
        open: &Row<W>,
        waiting: &mut Waiting<W>,
        pending: &mut Pending<W>,
    ) {
        let mut waits = waiting.take(source);
        while waits != NONE {
            let at = usize::from(waits);
            let (next, arm) = waiting.behind(at);
            if self.is_met(row, waiting, at, arm) {
                join_up(row, at, open, &waiting.asked, pending);
            }
            waits = next;
        }
    }
}

/// The targets that wait, each for one source.
struct Waiting<const W: usize> {
    asked: Row<W>,
    /// By source: the last target that waits for it.
    last: [MaybeUninit<u16>; MOST_LINES],
    /// By target: the one that waited before it, and the arm from which on its sources are looked at.
    rest: [MaybeUninit<(u16, u16)>; MOST_LINES],
}

impl<const W: usize> Waiting<W> {
    #[inline(always)]
    fn new() -> Waiting<W> {
        Waiting { asked: [0; W], last: unset(), rest: unset() }
    }

    #[inline(always)]
    fn put(&mut self, at: usize, source: usize, arm: u16) {
        let before = self.take(source);
        put(&mut self.asked, source);
        self.last[source] = MaybeUninit::new(at as u16);
        self.rest[at] = MaybeUninit::new((before, arm));
    }

    /// The last target that waits for a source, for which none does from now on.
    #[inline(always)]
    fn take(&mut self, source: usize) -> u16 {
        if !has(&self.asked, source) {
            return NONE;
        }
        self.asked[source / 64 % W] ^= 1 << (source % 64);
        // SAFETY: what is asked for was put.
        unsafe { self.last[source].assume_init() }
    }

    #[inline(always)]
    fn behind(&self, at: usize) -> (u16, u16) {
        // SAFETY: what waits was put.
        unsafe { self.rest[at].assume_init() }
    }
}
