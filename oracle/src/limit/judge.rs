//! Verdicts and rewriting: `rm` by one liveness of all variables at once, `rpl` and `cse` by what is lost of all their distinct
//! pairs of a variable and what it holds, some hundred at once. Lines that stay are copied by stretches.

use super::flow::{for_each, for_statements, has, put, Flow, Pending};
use super::marks::{Kind, List, Mark};
use super::names::{has_same_right, variable_at, MASKS, NONE, THEMSELVES};
use super::read::{self, unset, Instruction, Program, BRANCH, CONSTANTS, COPY};
use super::write::Writer;
use crate::condition::PART_WORDS;
use crate::marks::{MOST_MARKS, TEXT_BYTES, VERDICT_BYTES};
use crate::program::{FIRST_KEPT, KEPT, MOST_LINES, VARIABLES};
use std::mem::MaybeUninit;

/// No mark and no pair.
const NO: u16 = u16::MAX;

/// So many items of one value, at the front of an array of which nothing is set.
#[inline(always)]
fn filled<T: Copy, const N: usize>(
    array: &mut [MaybeUninit<T>; N],
    count: usize,
    value: T,
) -> &mut [T] {
    let front = &mut array[..count];
    front.iter_mut().for_each(|place| *place = MaybeUninit::new(value));
    // SAFETY: all of them are set.
    unsafe { &mut *(front as *mut [MaybeUninit<T>] as *mut [T]) }
}

fn fits(file: &[u32], mark: &Mark, step: &Instruction) -> bool {
    let (wanted, x) = (&mark.step, u16::from(mark.step.x));
    match mark.kind {
        Kind::Remove => step.x == wanted.x && has_same_right(file, step, wanted),
        Kind::Reuse => step.code > COPY && has_same_right(file, step, wanted),
        Kind::Replace => match step.code {
            read::READ | read::SKIP => false,
            read::WRITE | BRANCH => step.x == wanted.x && variable_at(wanted.a) != NONE,
            COPY => step.a == x,
            _ => step.a == x || step.b == x,
        },
    }
}

/// Whether a right side divides by a variable or by 0.
fn may_fault(file: &[u32], step: &Instruction) -> bool {
    let place = usize::from(step.b);
    step.code == read::DIVIDE && (place < CONSTANTS || file[place] == 0)
}

/// The pairs that marks ask for, each once, found by a table of slots that has at least two for each mark.
struct Pairs<'a> {
    file: &'a [u32],
    items: [MaybeUninit<Instruction>; MOST_MARKS],
    count: usize,
    /// By pair: the last mark that asks for it. By mark: the one before.
    last: [MaybeUninit<u16>; MOST_MARKS],
    before: [MaybeUninit<u16>; MOST_MARKS],
    slots: [MaybeUninit<u16>; 2 * MOST_MARKS],
    /// The size of the table, in bits.
    bits: u32,
    /// The variables of pairs with one operand, and with two.
    copied: u64,
    computed: u64,
}

impl<'a> Pairs<'a> {
    #[inline(always)]
    fn new(file: &'a [u32], marks: usize) -> Pairs<'a> {
        let bits = (2 * marks).next_power_of_two().trailing_zeros();
        let mut pairs = Pairs {
            file,
            items: unset(),
            count: 0,
            last: unset(),
            before: unset(),
            slots: unset(),
            bits,
            copied: 0,
            computed: 0,
        };
        filled(&mut pairs.slots, 1 << bits, NO);
        pairs
    }

    #[inline(always)]
    fn item(&self, pair: usize) -> &Instruction {
        debug_assert!(pair < self.count);
        // SAFETY: so many are set.
        unsafe { self.items[pair].assume_init_ref() }
    }

    /// The slot of an assignment's pair, and the pair, if there is one.
    #[inline(always)]
    fn find(&self, step: &Instruction) -> (usize, u16) {
        let value = |place: u16| u64::from(self.file[usize::from(place)]);
        let constants = [step.a, step.b].map(|place| u64::from(usize::from(place) >= CONSTANTS));
        let head = u64::from(step.x) << 8 | u64::from(step.code) << 4;
        let head = head | constants[0] << 1 | constants[1];
        let key = (value(step.a) << 32 | value(step.b)) ^ head.wrapping_mul(0x9E37_79B9_7F4A_7C15);
        let mixed = (key ^ key >> 29).wrapping_mul(0xBF58_476D_1CE4_E5B9);
        let (mask, mut slot) = ((1 << self.bits) - 1, (mixed >> (64 - self.bits)) as usize);
        loop {
            // SAFETY: all slots up to the table's size are set.
            let pair = unsafe { self.slots[slot].assume_init() };
            if pair == NO {
                return (slot, NO);
            }
            let item = self.item(usize::from(pair));
            if item.x == step.x && has_same_right(self.file, item, step) {
                return (slot, pair);
            }
            slot = (slot + 1) & mask;
        }
    }

    /// A mark asks for its pair.
    #[inline(always)]
    fn ask(&mut self, mark: usize, step: &Instruction) {
        let (slot, mut pair) = self.find(step);
        let mut before = NO;
        if pair == NO {
            pair = self.count as u16;
            self.slots[slot] = MaybeUninit::new(pair);
            self.items[self.count] = MaybeUninit::new(*step);
            self.count += 1;
            let variables = if step.code == COPY { &mut self.copied } else { &mut self.computed };
            *variables |= 1 << step.x;
        } else {
            // SAFETY: each pair has a mark.
            before = unsafe { self.last[usize::from(pair)].assume_init() };
        }
        self.last[usize::from(pair)] = MaybeUninit::new(mark as u16);
        self.before[mark] = MaybeUninit::new(before);
    }

    /// Does something with each mark that asks for a pair.
    #[inline(always)]
    fn for_each_mark(&self, pair: usize, mut act: impl FnMut(usize)) {
        // SAFETY: each pair has a mark, and each mark that asks has what is before it.
        let mut mark = unsafe { self.last[pair].assume_init() };
        while mark != NO {
            act(usize::from(mark));
            mark = unsafe { self.before[usize::from(mark)].assume_init() };
        }
    }

    /// The pair that a statement stores, if there is one. What computes with the variable that it stores to doesn't hold.
    #[inline(always)]
    fn stored_by(&self, step: &Instruction) -> u16 {
        let x = u16::from(step.x);
        let is_asked = match step.code {
            read::READ..=BRANCH => false,
            COPY => self.copied >> step.x & 1 == 1,
            _ => self.computed >> step.x & 1 == 1 && step.a != x && step.b != x,
        };
        if is_asked {
            self.find(step).1
        } else {
            NO
        }
    }
}

/// What is lost of some pairs, `C` words of them.
type Lost<const C: usize> = [u64; C];

#[inline(always)]
fn joined<const C: usize>(one: Lost<C>, other: Lost<C>) -> Lost<C> {
    std::array::from_fn(|k| one[k] | other[k])
}

/// The pairs of a program's list, from some pair on.
struct Losing<'a, const W: usize, const C: usize> {
    flow: &'a Flow<'a, W>,
    stored: &'a [u16],
    start: usize,
    /// By variable, and for none: what is lost where it is defined.
    by_variable: [Lost<C>; VARIABLES as usize + 1],
}

impl<'a, const W: usize, const C: usize> Losing<'a, W, C> {
    #[inline(always)]
    fn new(flow: &'a Flow<'a, W>, stored: &'a [u16], pairs: &Pairs, start: usize) -> Self {
        let mut by_variable = [[0; C]; VARIABLES as usize + 1];
        for pair in start..pairs.count.min(start + 64 * C) {
            let step = pairs.item(pair);
            let (word, bit) = ((pair - start) / 64, 1 << (pair % 64));
            by_variable[usize::from(step.x)][word] |= bit;
            let second = if step.code == COPY { NONE } else { variable_at(step.b) };
            for x in [variable_at(step.a), second] {
                if x != NONE {
                    by_variable[usize::from(x)][word] |= bit;
                }
            }
        }
        Losing { flow, stored, start, by_variable }
    }

    /// What is lost behind a statement, by what is lost before it.
    #[inline(always)]
    fn behind(&self, at: usize, before: Lost<C>) -> Lost<C> {
        if at == 0 {
            return [u64::MAX; C];
        }
        let step = &self.flow.steps[at];
        let defined = (step.x | MASKS[usize::from(step.code)][0]).min(VARIABLES);
        let mut lost = joined(before, self.by_variable[usize::from(defined)]);
        let stored = usize::from(self.stored[at]).wrapping_sub(self.start);
        if stored < 64 * C {
            lost[stored / 64] &= !(1 << (stored % 64));
        }
        lost
    }

    /// Fills what is lost before each statement.
    #[inline(always)]
    fn solve(&self, before: &mut [Lost<C>]) {
        let steps = self.flow.steps;
        let mut pending = Pending::<W>::new();
        let mut falls = [0; C];
        for at in 0..steps.len() {
            before[at] = joined(before[at], falls);
            let lost = self.behind(at, before[at]);
            falls = lost;
            if steps[at].code == BRANCH {
                for target in self.flow.arms(at) {
                    let more = joined(before[target], lost);
                    if target <= at && more != before[target] {
                        pending.put(target);
                    }
                    before[target] = more;
                }
                falls = [0; C];
            }
        }
        while let Some(mut at) = pending.first() {
            loop {
                let lost = self.behind(at, before[at]);
                if steps[at].code == BRANCH {
                    for target in self.flow.arms(at) {
                        let more = joined(before[target], lost);
                        if more != before[target] {
                            before[target] = more;
                            pending.put(target);
                        }
                    }
                    break;
                }
                at += 1;
                if at == steps.len() {
                    break;
                }
                let more = joined(before[at], lost);
                if more == before[at] {
                    break;
                }
                before[at] = more;
            }
        }
    }
}

/// A list on a program, with what is found of it.
struct Judge<'a, const W: usize> {
    flow: Flow<'a, W>,
    file: &'a [u32],
    marks: &'a [Mark],
    verdicts: &'a mut [u8],
}

/// Stands for the verdict of an `rm` until each `cse` is judged.
const UNDECIDED: u8 = u8::MAX;

impl<const W: usize> Judge<'_, W> {
    fn at(&self, mark: usize) -> usize {
        self.marks[mark].number as usize - 1
    }

    /// Fills the verdicts that need no condition; whether there is an `rm` that needs one.
    #[inline(always)]
    fn begin(&mut self, pairs: &mut Pairs) -> bool {
        let (mut named, mut is_open) = ([0; W], false);
        for (k, mark) in self.marks.iter().enumerate() {
            let at = (mark.number as usize).wrapping_sub(1);
            self.verdicts[k] = if at >= self.flow.steps.len() {
                11
            } else if has(&named, at) {
                12
            } else {
                put(&mut named, at);
                if !fits(self.file, mark, &self.flow.steps[at]) {
                    13
                } else if mark.kind != Kind::Remove {
                    pairs.ask(k, &mark.step);
                    0
                } else if may_fault(self.file, &mark.step) {
                    18
                } else {
                    is_open = true;
                    UNDECIDED
                }
            };
        }
        is_open
    }

    /// Refuses each `rpl` and `cse` whose pair is lost on some path.
    #[inline(always)]
    fn refuse_lost(&mut self, pairs: &Pairs) {
        let mut stored = unset::<u16, MOST_LINES>();
        let steps = self.flow.steps;
        let stored = filled(&mut stored, steps.len(), NO);
        for (place, step) in stored.iter_mut().zip(steps) {
            *place = pairs.stored_by(step);
        }
        match pairs.count {
            0..=64 => self.refuse_lost_of::<1>(pairs, stored),
            65..=128 => self.refuse_lost_of::<2>(pairs, stored),
            _ => self.refuse_lost_of::<4>(pairs, stored),
        }
    }

    fn refuse_lost_of<const C: usize>(&mut self, pairs: &Pairs, stored: &[u16]) {
        let mut before = unset::<Lost<C>, MOST_LINES>();
        let orphans = self.flow.orphans();
        for start in (0..pairs.count).step_by(64 * C) {
            let before = filled(&mut before, stored.len(), [0; C]);
            let losing = Losing::<W, C>::new(&self.flow, stored, pairs, start);
            losing.solve(before);
            for pair in start..pairs.count.min(start + 64 * C) {
                let (word, bit) = ((pair - start) / 64, pair % 64);
                pairs.for_each_mark(pair, |mark| {
                    let at = self.marks[mark].number as usize - 1;
                    // A statement with no predecessor steps back to itself.
                    let lost = match has(&orphans, at) {
                        true => losing.behind(at, before[at]),
                        false => before[at],
                    };
                    if lost[word] >> bit & 1 == 1 {
                        self.verdicts[mark] = 14;
                    }
                });
            }
        }
    }

    /// The variables that a statement uses.
    #[inline(always)]
    fn used(step: &Instruction) -> u64 {
        let [_, uses, first, second] = MASKS[usize::from(step.code)];
        let bit = |x: u8, none: u8| u64::from(x | none != NONE) << (x % 64);
        bit(step.x, uses) | bit(variable_at(step.a), first) | bit(variable_at(step.b), second)
    }

    /// Decides each `rm`, by what is used later on, uses that are gained included.
    #[inline(always)]
    fn decide(&mut self) {
        let steps = self.flow.steps;
        let mut live = unset::<u64, MOST_LINES>();
        let live = filled(&mut live, steps.len(), 0);
        for (place, step) in live.iter_mut().zip(steps) {
            *place = Self::used(step);
        }
        live[steps.len() - 1] |= ((1 << KEPT) - 1) << FIRST_KEPT;
        for (k, mark) in self.marks.iter().enumerate() {
            if mark.kind == Kind::Reuse && self.verdicts[k] == 0 {
                live[self.at(k)] |= 1 << mark.step.x;
            }
        }
        self.flow.spread_back(live);
        for (k, mark) in self.marks.iter().enumerate() {
            if self.verdicts[k] == UNDECIDED {
                let is_used = live[self.at(k) + 1] >> mark.step.x & 1 == 1;
                self.verdicts[k] = if is_used { 14 } else { 0 };
            }
        }
    }
}

impl<const W: usize> Flow<'_, W> {
    /// Adds to what is used at each statement what is used later on and not defined before.
    #[inline(always)]
    fn spread_back(&self, live: &mut [u64]) {
        let kept = |at: usize| {
            let step = &self.steps[at];
            let defined = step.x | MASKS[usize::from(step.code)][0];
            !(u64::from(defined != NONE) << (defined % 64))
        };
        let mut pending = Pending::<W>::new();
        let mut later = 0;
        for at in (0..self.steps.len()).rev() {
            if self.steps[at].code == BRANCH {
                let [a, b] = self.arms(at);
                later = live[a] | live[b];
                if a.min(b) <= at {
                    pending.put(at);
                }
            }
            live[at] |= later & kept(at);
            later = live[at];
        }
        while let Some(mut at) = pending.last() {
            let [a, b] = self.arms(at);
            let mut later = live[a] | live[b];
            loop {
                let more = live[at] | later & kept(at);
                if more == live[at] {
                    break;
                }
                live[at] = more;
                later = more;
                self.for_each_source(at, |source| {
                    if more & !live[source] != 0 {
                        pending.put(source);
                    }
                });
                if at == 0 || !self.is_straight(at - 1) {
                    break;
                }
                at -= 1;
            }
        }
    }
}

/// Fills verdicts and new text; how many marks are accepted, and how many bytes are filled.
#[inline(never)]
fn judge_in<const W: usize>(
    given: &Program,
    program: &[u8],
    marks: &[Mark],
    verdicts: &mut [u8],
    text: &mut [u8],
) -> (u32, u32) {
    let (steps, file, ends) = given.lines();
    let mut judge = Judge::<W> { flow: Flow::new(steps), file, marks, verdicts };
    let mut pairs = Pairs::new(file, marks.len());
    let is_open = judge.begin(&mut pairs);
    if pairs.count > 0 {
        judge.refuse_lost(&pairs);
    }
    if is_open {
        judge.decide();
    }
    let (mut changed, mut accepted) = ([0; W], 0);
    let mut made = unset::<u16, MOST_LINES>();
    for (k, mark) in marks.iter().enumerate() {
        if judge.verdicts[k] == 0 {
            let at = mark.number as usize - 1;
            put(&mut changed, at);
            made[at] = MaybeUninit::new(k as u16);
            accepted += 1;
        }
    }
    let mut writer = Writer::new(program, text);
    for_each(&changed, |at| {
        // SAFETY: it was put down for what is changed.
        let mark = &marks[usize::from(unsafe { made[at].assume_init() })];
        let start = if at == 0 { 0 } else { usize::from(ends[at - 1]) + 1 };
        writer.line(start, usize::from(ends[at]) + 1, &steps[at], mark, file);
    });
    (accepted, writer.end())
}

/// The call: fills verdicts and new text; the number of marks, of accepted ones and of bytes of new text, or the
/// refusal, 1, 2 to 5, 9 or 10.
pub fn judge(
    program: &[u8],
    marks: &[u8],
    verdicts: &mut [u8],
    text: &mut [u8],
) -> Result<(u32, u32, u32), u8> {
    if verdicts.len() < VERDICT_BYTES || text.len() < TEXT_BYTES {
        return Err(1);
    }
    let mut given = Program::empty();
    given.read_with_ends(program, &THEMSELVES)?;
    let mut list = List::empty();
    list.read(marks, &mut given)?;
    let marks = list.marks();
    if marks.is_empty() {
        text[..program.len()].copy_from_slice(program);
        return Ok((0, 0, program.len() as u32));
    }
    let judge = for_statements!(given.count(), judge_in);
    let (accepted, bytes) = judge(&given, program, marks, verdicts, text);
    Ok((marks.len() as u32, accepted, bytes))
}
