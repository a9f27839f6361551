//! Verdicts and rewriting.

use super::flow::{and, has, is_short, put, without, At, Flow, Row, Worklist, SHORT};
use super::read::{List, Program};
use super::tabulate::Rows;
use super::write::Writer;
use crate::condition::{Direction, PART_WORDS};
use crate::marks::{Kind, Mark, TEXT_BYTES, VERDICT_BYTES};
use crate::pricing::{price, Prices};
use crate::program::{Expression, Operand, Operator, Statement, MOST_LINES};

/// What verdicts are found from.
pub struct Judge<const W: usize> {
    pub flow: Flow<W>,
    /// `using` has also what statements gain by the accepted lines of `cse`.
    pub rows: Rows<W>,
}

/// The statements that a search has to look at yet, and all that it met.
struct Search<const W: usize> {
    met: Row<W>,
    list: Worklist,
}

impl<const W: usize> Search<W> {
    #[inline(always)]
    fn new() -> Search<W> {
        Search { met: [0; W], list: Worklist::new() }
    }

    #[inline(always)]
    fn meet(&mut self, at: At) {
        if !has(&self.met, at) {
            put(&mut self.met, at);
            self.list.push(at);
        }
    }

    #[inline(always)]
    fn next(&mut self) -> Option<At> {
        self.list.pop()
    }
}

/// The assignment that `rpl` and `cse` ask for on each path back.
pub trait Source: Copy {
    fn variable(self) -> u8;
    fn right(self) -> Expression;
    fn is(self, statement: &Statement) -> bool;
}

#[derive(Clone, Copy)]
pub struct Copied(pub u8, pub Operand);

impl Source for Copied {
    fn variable(self) -> u8 {
        self.0
    }

    fn right(self) -> Expression {
        Expression::Single(self.1)
    }

    #[inline(always)]
    fn is(self, statement: &Statement) -> bool {
        matches!(statement, Statement::Assign(x, Expression::Single(a)) if *x == self.0 && *a == self.1)
    }
}

/// One that doesn't set what it is computed from.
#[derive(Clone, Copy)]
pub struct Computed(pub u8, pub Expression);

impl Source for Computed {
    fn variable(self) -> u8 {
        self.0
    }

    fn right(self) -> Expression {
        self.1
    }

    #[inline(always)]
    fn is(self, statement: &Statement) -> bool {
        matches!(statement, Statement::Assign(t, e) if *t == self.0 && *e == self.1)
            && !self.1.mentions(self.0)
    }
}

impl<const W: usize> Judge<W> {
    /// Whether no path from behind a statement comes to a use before a definition.
    fn is_dead(&self, x: u8, at: At) -> bool {
        let (defining, using) =
            (&self.rows.defining[usize::from(x)], &self.rows.using[usize::from(x)]);
        let mut search = Search::<W>::new();
        self.flow.successors(at).iter().for_each(|&next| search.meet(next));
        while let Some(at) = search.next() {
            if has(using, at) {
                return false;
            }
            if !has(defining, at) {
                self.flow.successors(at).iter().for_each(|&next| search.meet(next));
            }
        }
        true
    }

    /// The same by labelling every statement.
    fn is_dead_by_labels(&self, x: u8, at: At) -> bool {
        let unchanged = without(&self.flow.all, &self.rows.defining[usize::from(x)]);
        let used =
            self.flow.some_until(Direction::Forward, &unchanged, &self.rows.using[usize::from(x)]);
        !self.flow.successors(at).iter().any(|&next| has(&used, next))
    }

    /// Where what an assignment before has stored still holds: nothing of it is defined, and the program has started.
    pub fn carrying(&self, source: impl Source) -> Row<W> {
        let mut row = self.rows.transparent(&self.flow.all, &source.right());
        row = without(&row, &self.rows.defining[usize::from(source.variable())]);
        row[0] &= !1;
        row
    }

    /// Whether each path back from before a statement comes to the source, or goes on for ever, and all its other
    /// places carry what it stores.
    fn is_held(&self, program: &Program, source: impl Source, at: At) -> bool {
        let carrying = self.carrying(source);
        let mut search = Search::<W>::new();
        let step = |search: &mut Search<W>, at: At| match self.flow.predecessors(at) {
            [] => search.meet(at),
            sources => sources.iter().for_each(|&source| search.meet(source)),
        };
        step(&mut search, at);
        while let Some(at) = search.next() {
            // The source defines its variable, so it doesn't carry.
            if has(&carrying, at) {
                step(&mut search, at);
            } else if !source.is(&program.statements()[usize::from(at)]) {
                return false;
            }
        }
        true
    }

    /// The same by labelling every statement.
    fn is_held_by_labels(&self, program: &Program, source: impl Source, at: At) -> bool {
        let mut sources = [0; W];
        for (at, statement) in program.statements().iter().enumerate() {
            if source.is(statement) {
                put(&mut sources, at as At);
            }
        }
        let others = without(&self.flow.all, &sources);
        let neither = and(&others, &without(&self.flow.all, &self.carrying(source)));
        let lost = self.flow.some_until(Direction::Backward, &others, &neither);
        match self.flow.predecessors(at) {
            [] => !has(&lost, at),
            sources => !sources.iter().any(|&source| has(&lost, source)),
        }
    }
}

fn fits(mark: &Mark, statement: &Statement) -> bool {
    match (mark.kind, statement) {
        (Kind::Remove(e), Statement::Assign(x, right)) => *x == mark.variable && *right == e,
        (Kind::Remove(_), _) => false,
        (Kind::Replace(_), Statement::Assign(_, right)) => right.mentions(mark.variable),
        (Kind::Replace(Operand::Variable(_)), Statement::Branch { tested: x, .. })
        | (Kind::Replace(Operand::Variable(_)), Statement::Write(x)) => *x == mark.variable,
        (Kind::Replace(_), _) => false,
        (Kind::Reuse(e @ Expression::Pair(..)), Statement::Assign(_, right)) => *right == e,
        (Kind::Reuse(_), _) => false,
    }
}

/// Whether a mark drops a division by a variable or by 0.
fn divides_by_what_may_be_0(mark: &Mark) -> bool {
    match mark.kind {
        Kind::Remove(Expression::Pair(_, Operator::Divide, divisor)) => {
            !matches!(divisor, Operand::Constant(1..))
        }
        _ => false,
    }
}

/// Makes of a statement what a mark that fits it says.
fn make(mark: &Mark, statement: &mut Statement) {
    match (mark.kind, statement) {
        (Kind::Remove(_), statement) => *statement = Statement::Skip,
        (Kind::Replace(a), Statement::Assign(_, right)) => {
            *right = right.replaced(mark.variable, a);
        }
        (Kind::Replace(Operand::Variable(y)), Statement::Branch { tested: x, .. })
        | (Kind::Replace(Operand::Variable(y)), Statement::Write(x)) => *x = y,
        (Kind::Reuse(_), Statement::Assign(_, right)) => {
            *right = Expression::Single(Operand::Variable(mark.variable));
        }
        _ => {}
    }
}

/// Stands for the verdict of an `rm` until each `cse` is judged.
const UNDECIDED: u8 = 255;

/// A way to find whether a mark's condition is true at its statement.
pub trait Way {
    fn is_true<const W: usize>(judge: &Judge<W>, program: &Program, mark: &Mark, at: At) -> bool;
}

/// By a search from the statement.
pub struct BySearch;

impl Way for BySearch {
    #[inline(always)]
    fn is_true<const W: usize>(judge: &Judge<W>, program: &Program, mark: &Mark, at: At) -> bool {
        match mark.kind {
            Kind::Remove(_) => judge.is_dead(mark.variable, at),
            Kind::Replace(a) => judge.is_held(program, Copied(mark.variable, a), at),
            Kind::Reuse(e) => judge.is_held(program, Computed(mark.variable, e), at),
        }
    }
}

/// By labelling every statement.
struct ByLabels;

impl Way for ByLabels {
    #[inline(always)]
    fn is_true<const W: usize>(judge: &Judge<W>, program: &Program, mark: &Mark, at: At) -> bool {
        match mark.kind {
            Kind::Remove(_) => judge.is_dead_by_labels(mark.variable, at),
            Kind::Replace(a) => judge.is_held_by_labels(program, Copied(mark.variable, a), at),
            Kind::Reuse(e) => judge.is_held_by_labels(program, Computed(mark.variable, e), at),
        }
    }
}

/// Judges the marks of a list, and makes the accepted ones in the program; how many there are, and how many are accepted.
fn make_all<T: Way>(program: &mut Program, list: &List, verdicts: &mut [u8]) -> (u32, u32) {
    if is_short(program) {
        make_in::<T, SHORT>(program, list, verdicts)
    } else {
        make_in::<T, PART_WORDS>(program, list, verdicts)
    }
}

#[inline(always)]
fn make_in<T: Way, const W: usize>(
    program: &mut Program,
    list: &List,
    verdicts: &mut [u8],
) -> (u32, u32) {
    let (_, accepted) = judge_in::<T, W>(program, list, verdicts);
    for (mark, verdict) in list.marks().iter().zip(verdicts.iter()) {
        if *verdict == 0 {
            make(mark, &mut program.statements_mut()[mark.number as usize - 1]);
        }
    }
    (list.marks().len() as u32, accepted)
}

/// Fills the verdicts of a list; what they are found from, and how many marks are accepted.
#[inline(always)]
pub fn judge_in<T: Way, const W: usize>(
    program: &Program,
    list: &List,
    verdicts: &mut [u8],
) -> (Judge<W>, u32) {
    let mut judge = Judge::<W> { flow: Flow::new(program), rows: Rows::new(program) };
    let (mut named, mut accepted) = ([0; W], 0);
    for (mark, verdict) in list.marks().iter().zip(verdicts.iter_mut()) {
        let count = judge.flow.count as u32;
        *verdict = if !(1..=count).contains(&mark.number) {
            11
        } else {
            let at = (mark.number - 1) as At;
            if has(&named, at) {
                12
            } else {
                put(&mut named, at);
                if !fits(mark, &program.statements()[usize::from(at)]) {
                    13
                } else if divides_by_what_may_be_0(mark) {
                    18
                } else if matches!(mark.kind, Kind::Remove(_)) {
                    UNDECIDED
                } else if T::is_true(&judge, program, mark, at) {
                    accepted += 1;
                    // Other kinds don't ask for uses.
                    if matches!(mark.kind, Kind::Reuse(_)) {
                        put(&mut judge.rows.using[usize::from(mark.variable)], at);
                    }
                    0
                } else {
                    14
                }
            }
        };
    }
    for (mark, verdict) in list.marks().iter().zip(verdicts.iter_mut()) {
        if *verdict == UNDECIDED {
            let is_true = T::is_true(&judge, program, mark, (mark.number - 1) as At);
            accepted += u32::from(is_true);
            *verdict = if is_true { 0 } else { 14 };
        }
    }
    (judge, accepted)
}

/// Makes the accepted marks of a list in the program.
pub fn rewrite(program: &mut Program, list: &List) {
    make_all::<BySearch>(program, list, &mut [0; VERDICT_BYTES]);
}

#[inline(always)]
fn judge_with<T: Way>(
    program: &[u8],
    marks: &[u8],
    verdicts: &mut [u8],
    text: &mut [u8],
) -> Result<(u32, u32, u32), u8> {
    if verdicts.len() < VERDICT_BYTES || text.len() < TEXT_BYTES {
        return Err(1);
    }
    let mut given = Program::empty();
    given.read(program)?;
    let mut list = List::empty();
    list.read(marks)?;
    let (count, accepted) = make_all::<T>(&mut given, &list, verdicts);
    let mut writer = Writer::new(text);
    given.statements().iter().for_each(|statement| writer.statement(statement));
    Ok((count, accepted, writer.written()))
}

/// The call: fills verdicts and new text; the number of marks, of accepted ones and of bytes of new text, or the
/// refusal, 1, 2 to 5, 9 or 10. Each mark's condition is found by a search from its statement.
pub fn judge(
    program: &[u8],
    marks: &[u8],
    verdicts: &mut [u8],
    text: &mut [u8],
) -> Result<(u32, u32, u32), u8> {
    judge_with::<BySearch>(program, marks, verdicts, text)
}

/// Puts the price of each statement, and tells their sum.
fn put_prices(prices: &Prices, program: &Program, places: &mut [u32; MOST_LINES]) -> u32 {
    let mut total = 0;
    for (place, statement) in places.iter_mut().zip(program.statements()) {
        *place = price(prices, statement);
        total += *place;
    }
    total
}

/// The call: fills the prices of the given and of the rewritten program; the number of statements, both totals, and given
/// less rewritten, or the refusal, 2 to 5, 9 or 10.
pub fn report(
    program: &[u8],
    marks: &[u8],
    prices: &Prices,
    before: &mut [u32; MOST_LINES],
    after: &mut [u32; MOST_LINES],
) -> Result<(u32, u32, u32, i32), u8> {
    let mut text = Program::empty();
    text.read(program)?;
    let mut list = List::empty();
    list.read(marks)?;
    let given = put_prices(prices, &text, before);
    rewrite(&mut text, &list);
    let rewritten = put_prices(prices, &text, after);
    let count = text.statements().len();
    Ok((count as u32, given, rewritten, given as i32 - rewritten as i32))
}

/// The same, with each mark's condition labelled at every statement.
pub fn judge_by_labels(
    program: &[u8],
    marks: &[u8],
    verdicts: &mut [u8],
    text: &mut [u8],
) -> Result<(u32, u32, u32), u8> {
    judge_with::<ByLabels>(program, marks, verdicts, text)
}
