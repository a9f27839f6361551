//! Paths, by a search breadth first from a statement, and by a walk where one has to go round.

use super::filled::Filled;
use super::flow::{and, has, is_short, without, At, Flow, Row, SHORT};
use super::judge::{judge_in, BySearch, Computed, Copied, Judge, Source};
use super::read::{List, Program};
use super::tabulate::{Found, List as Parts};
use crate::condition::{Demand, Direction, Part, Quantifier, MOST_PARTS, PART_WORDS};
use crate::marks::{Kind, Mark, VERDICT_BYTES};
use crate::paths::{NOTHING_COPIED, OPERAND_REDEFINED, PATH_WORDS, REDEFINED, USED, USED_BY_CSE};
use crate::program::{Statement, MOST_LINES};

/// What is told of a part at a statement, beside the path's words.
#[derive(Clone, Copy, Debug, PartialEq, Eq)]
pub enum Told {
    Path { length: u32, turn: u32 },
    None(bool),
}

/// Does something with each step of a statement.
#[inline(always)]
fn for_each_step<const W: usize>(
    flow: &Flow<W>,
    direction: Direction,
    at: At,
    mut act: impl FnMut(At),
) {
    match direction {
        Direction::Forward => flow.successors(at).iter().for_each(|&to| act(to)),
        Direction::Backward => match flow.predecessors(at) {
            [] => act(at),
            sources => sources.iter().for_each(|&to| act(to)),
        },
    }
}

/// Stands for no statement before another.
const NONE: At = At::MAX;

/// A search from a statement, or from all that it steps to: each place that it met, in order, with the one before it.
struct Search<'a, const W: usize> {
    flow: &'a Flow<W>,
    direction: Direction,
    queue: Filled<At, MOST_LINES>,
    before: Filled<At, MOST_LINES>,
    met: Row<W>,
}

impl<'a, const W: usize> Search<'a, W> {
    #[inline(always)]
    fn new(flow: &'a Flow<W>, direction: Direction) -> Search<'a, W> {
        let before = Filled::of(NONE, flow.count);
        Search { flow, direction, queue: Filled::new(), before, met: [0; W] }
    }

    #[inline(always)]
    fn meet(&mut self, at: At, before: At) {
        if !has(&self.met, at) {
            super::flow::put(&mut self.met, at);
            self.before.items_mut()[usize::from(at)] = before;
            self.queue.push(at);
        }
    }

    /// The first place that settles it, come to by places that may be passed.
    #[inline(always)]
    fn find(&mut self, pass: impl Fn(At) -> bool, arrive: impl Fn(At) -> bool) -> Option<At> {
        let (flow, direction, mut done) = (self.flow, self.direction, 0);
        while let Some(&at) = self.queue.items().get(done) {
            if arrive(at) {
                return Some(at);
            }
            done += 1;
            if pass(at) {
                for_each_step(flow, direction, at, |to| self.meet(to, at));
            }
        }
        None
    }

    /// Puts the way to a place that was found; how many words it has.
    #[inline(always)]
    fn put(&self, last: At, path: &mut [u32]) -> u32 {
        let mut length = 0;
        let mut at = last;
        while at != NONE {
            path[length] = u32::from(at) + 1;
            length += 1;
            at = self.before.items()[usize::from(at)];
        }
        path[..length].reverse();
        length as u32
    }
}

/// Walks within a set that can always be gone on in, until a place is met again; how many words there are, and the turn.
#[inline(always)]
fn walk<const W: usize>(
    flow: &Flow<W>,
    direction: Direction,
    within: &Row<W>,
    from: At,
    path: &mut [u32],
) -> (u32, u32) {
    let mut places: Filled<u16, MOST_LINES> = Filled::of(0, flow.count);
    let (mut at, mut length) = (from, 0);
    loop {
        let place = &mut places.items_mut()[usize::from(at)];
        if *place != 0 {
            return (length, u32::from(*place));
        }
        path[length as usize] = u32::from(at) + 1;
        length += 1;
        *place = length as u16;
        let mut next = at;
        for_each_step(flow, direction, at, |to| {
            if has(within, to) {
                next = to;
            }
        });
        at = next;
    }
}

fn told_in<const W: usize>(
    program: &Program,
    parts: &[Part],
    part: usize,
    from: At,
    path: &mut [u32],
) -> Told {
    let found = Found::<W>::new(program);
    let mut rows: Filled<Row<W>, MOST_PARTS> = Filled::new();
    for part in &parts[..=part] {
        let row = found.row(part, rows.items());
        rows.push(row);
    }
    let (rows, flow) = (rows.items(), &found.flow);
    let mut bare = part;
    while let Part::Not(inner) = parts[bare] {
        bare = inner;
    }
    let truth = has(&rows[part], from);
    let (quantifier, direction) = match parts[bare] {
        Part::Next(quantifier, direction, _) | Part::Path(quantifier, direction, _) => {
            (quantifier, direction)
        }
        _ => return Told::None(truth),
    };
    let is_some = quantifier == Quantifier::Some;
    if has(&rows[bare], from) != is_some {
        return Told::None(truth);
    }
    let not = |row: &Row<W>| without(&flow.all, row);
    let demand = match parts[bare] {
        Part::Next(_, _, p) => {
            let mut last = from;
            for_each_step(flow, direction, from, |to| {
                if has(&rows[p], to) == is_some {
                    last = to;
                }
            });
            (path[0], path[1]) = (u32::from(from) + 1, u32::from(last) + 1);
            return Told::Path { length: 2, turn: 0 };
        }
        Part::Path(_, _, demand) => demand,
        _ => return Told::None(truth),
    };
    let (p, q) = match demand {
        Demand::Finally(p) => (flow.all, rows[p]),
        Demand::Globally(p) => (rows[p], [0; W]),
        Demand::Until(p, q) | Demand::Weak(p, q) => (rows[p], rows[q]),
    };
    let (pass, arrive) = if is_some { (p, q) } else { (not(&q), and(&not(&p), &not(&q))) };
    let mut search = Search::new(flow, direction);
    search.meet(from, NONE);
    if let Some(last) = search.find(|at| has(&pass, at), |at| has(&arrive, at)) {
        return Told::Path { length: search.put(last, path), turn: 0 };
    }
    // No way is sought that settles it, so the path goes round where the operator is shown.
    let shown = if is_some { rows[bare] } else { not(&rows[bare]) };
    let (length, turn) = walk(flow, direction, &shown, from, path);
    Told::Path { length, turn }
}

/// The call: a path for a part of a condition, counted from 0, at a statement, counted from 1, or its truth; or the refusal, 1, 2 to 5
/// or 6 to 8.
pub fn witness(
    program: &[u8],
    condition: &[u8],
    part: u32,
    statement: u32,
    path: &mut [u32],
) -> Result<Told, u8> {
    if path.len() < PATH_WORDS {
        return Err(1);
    }
    let mut given = Program::empty();
    given.read(program)?;
    let mut list = Parts::new();
    list.read(condition)?;
    let (parts, count) = (list.parts.items(), given.statements().len() as u32);
    if part as usize >= parts.len() || !(1..=count).contains(&statement) {
        return Ok(Told::None(false));
    }
    let (part, from) = (part as usize, (statement - 1) as At);
    Ok(if is_short(&given) {
        told_in::<SHORT>(&given, parts, part, from, path)
    } else {
        told_in::<PART_WORDS>(&given, parts, part, from, path)
    })
}

/// Puts the way from a mark's statement to what speaks against it; how many words it has, and the culprit.
#[inline(always)]
fn departs<const W: usize>(
    flow: &Flow<W>,
    direction: Direction,
    from: At,
    pass: impl Fn(At) -> bool,
    culprit: impl Fn(At) -> u32,
    path: &mut [u32],
) -> (u32, u32) {
    let mut search = Search::new(flow, direction);
    for_each_step(flow, direction, from, |to| search.meet(to, NONE));
    match search.find(pass, |at| culprit(at) != 0) {
        Some(last) => {
            path[0] = u32::from(from) + 1;
            (1 + search.put(last, &mut path[1..]), culprit(last))
        }
        None => (0, 0),
    }
}

/// The way back from a mark to a place that isn't its source and doesn't carry it.
#[inline(always)]
fn back_to<const W: usize>(
    judge: &Judge<W>,
    program: &Program,
    mark: &Mark,
    source: impl Source,
    path: &mut [u32],
) -> (u32, u32) {
    let carrying = judge.carrying(source);
    let statement = |at: At| &program.statements()[usize::from(at)];
    let culprit = |at: At| {
        let defined = match statement(at) {
            Statement::Read(y) | Statement::Assign(y, _) => Some(*y),
            _ => None,
        };
        match defined {
            _ if has(&carrying, at) || source.is(statement(at)) => 0,
            Some(y) if y == mark.variable => REDEFINED,
            Some(y) if source.right().mentions(y) => OPERAND_REDEFINED,
            _ => NOTHING_COPIED,
        }
    };
    let from = (mark.number - 1) as At;
    departs(&judge.flow, Direction::Backward, from, |at| has(&carrying, at), culprit, path)
}

fn because_in<const W: usize>(
    program: &Program,
    list: &List,
    line: usize,
    path: &mut [u32],
) -> (u8, u32, u32) {
    let mut verdicts = [0; VERDICT_BYTES];
    let (judge, _) = judge_in::<BySearch, W>(program, list, &mut verdicts);
    let mark = match list.marks().get(line) {
        Some(mark) => mark,
        None => return (11, 0, 0),
    };
    let verdict = verdicts[line];
    if verdict != 14 {
        return (verdict, 0, 0);
    }
    let x = usize::from(mark.variable);
    let (length, culprit) = match mark.kind {
        Kind::Remove(_) => {
            let (using, defining) = (&judge.rows.using[x], &judge.rows.defining[x]);
            let shows = |at: At| program.statements()[usize::from(at)].uses(mark.variable);
            let culprit = |at: At| match has(using, at) {
                true if shows(at) => USED,
                true => USED_BY_CSE,
                false => 0,
            };
            let (from, pass) = ((mark.number - 1) as At, |at: At| !has(defining, at));
            departs(&judge.flow, Direction::Forward, from, pass, culprit, path)
        }
        Kind::Replace(a) => back_to(&judge, program, mark, Copied(mark.variable, a), path),
        Kind::Reuse(e) => back_to(&judge, program, mark, Computed(mark.variable, e), path),
    };
    (verdict, length, culprit)
}

/// The call: the verdict of a line of a list, counted from 0, and with 14 how many words the path has and the culprit's number; or the
/// refusal, 1, 2 to 5, 9 or 10.
pub fn why(
    program: &[u8],
    marks: &[u8],
    line: u32,
    path: &mut [u32],
) -> Result<(u8, u32, u32), u8> {
    if path.len() < PATH_WORDS {
        return Err(1);
    }
    let mut given = Program::empty();
    given.read(program)?;
    let mut list = List::empty();
    list.read(marks)?;
    let line = line as usize;
    Ok(if is_short(&given) {
        because_in::<SHORT>(&given, &list, line, path)
    } else {
        because_in::<PART_WORDS>(&given, &list, line, path)
    })
}
