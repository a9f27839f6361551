//! Paths that show a part of a condition, or why a mark is refused: checked by stepping through them.
//!
//! Nothing here finds a path that a call could tell. Each step of a told one is looked up among the program's, each statement's truth
//! is asked of the second implementation's own evaluation, and a search breadth first counts how long the shortest is.

use std::collections::VecDeque;

use crate::condition::{Checker, Condition, Demand, Direction, Part, Quantifier};
use crate::marks::{gained_uses, Judge, Kind, Mark};
use crate::program::{Expression, Operand, Program, Statement, MOST_LINES};
use crate::steps::Steps;

/// The smallest path that may be lent, in words.
pub const PATH_WORDS: usize = MOST_LINES + 1;

/// What is told of a part at a statement.
#[derive(Clone, Debug, PartialEq, Eq)]
pub enum Witnessed {
    /// The statements of a path, and the word, counted from 1, to which its last steps back, or 0.
    Path(Vec<u32>, u32),
    /// No path, and the truth of the part.
    None(bool),
}

/// What is told of a line of marks: its verdict, the statements of a path and the number of its culprit.
#[derive(Clone, Debug, PartialEq, Eq)]
pub struct Because {
    pub verdict: u8,
    pub path: Vec<u32>,
    pub culprit: u32,
}

/// What a path meets at its last statement, by the numbers that a call tells.
pub const USED: u32 = 1;
pub const USED_BY_CSE: u32 = 2;
pub const REDEFINED: u32 = 3;
pub const OPERAND_REDEFINED: u32 = 4;
pub const NOTHING_COPIED: u32 = 5;

/// What kind of answer was found right.
#[derive(Clone, Copy, Debug, PartialEq, Eq, PartialOrd, Ord)]
pub enum Shown {
    /// A way to the statement that settles it.
    Way,
    /// A path that goes round.
    Round,
    /// No path, and none is possible.
    Nothing,
}

/// Fails with these words where a claim doesn't hold.
fn require(holds: bool, words: impl FnOnce() -> String) -> Result<(), String> {
    if holds {
        Ok(())
    } else {
        Err(words())
    }
}

/// Where ways lead that are evidence: by statements that may be passed to one that settles it.
struct Ways {
    pass: Vec<bool>,
    arrive: Vec<bool>,
}

impl Ways {
    fn new(count: usize, pass: impl Fn(usize) -> bool, arrive: impl Fn(usize) -> bool) -> Ways {
        Ways { pass: (0..count).map(pass).collect(), arrive: (0..count).map(arrive).collect() }
    }

    /// How many statements the shortest has that starts at one of these, if there is one.
    fn shortest(&self, next: &[Vec<usize>], from: &[usize]) -> Option<usize> {
        let mut places: Vec<Option<usize>> = vec![None; next.len()];
        let mut queue = VecDeque::new();
        for &at in from {
            places[at] = Some(1);
            queue.push_back(at);
        }
        while let Some(at) = queue.pop_front() {
            if self.arrive[at] {
                return places[at];
            }
            for &to in next[at].iter().filter(|_| self.pass[at]) {
                if places[to].is_none() {
                    places[to] = places[at].map(|count| count + 1);
                    queue.push_back(to);
                }
            }
        }
        None
    }

    /// Whether these places, each a step from the one before, are such a way.
    fn holds(&self, path: &[usize]) -> Result<(), String> {
        let (last, before) = path.split_last().ok_or("a path has a statement")?;
        require(self.arrive[*last], || format!("statement {} doesn't settle it", last + 1))?;
        match before.iter().find(|&&at| !self.pass[at]) {
            Some(at) => Err(format!("statement {} can't be passed", at + 1)),
            None => Ok(()),
        }
    }
}

/// The paths that are evidence for an operator: ways, and those that go round by such statements.
struct Evidence {
    ways: Option<Ways>,
    round: Option<Vec<bool>>,
}

/// The places of a path's statements, each a step from the one before.
fn stepped(next: &[Vec<usize>], statement: u32, path: &[u32]) -> Result<Vec<usize>, String> {
    let count = next.len();
    let is_there = |&n: &u32| n >= 1 && n as usize <= count;
    require(path.iter().all(is_there), || format!("{path:?} leaves the program"))?;
    require(path.first() == Some(&statement), || format!("{path:?} starts elsewhere"))?;
    let places: Vec<usize> = path.iter().map(|&n| n as usize - 1).collect();
    match places.windows(2).find(|pair| !next[pair[0]].contains(&pair[1])) {
        Some(pair) => Err(format!("{} doesn't step to {}", pair[0] + 1, pair[1] + 1)),
        None => Ok(places),
    }
}

/// The part without the negations before it.
fn bare(condition: &Condition, mut part: usize) -> usize {
    while let Part::Not(inner) = condition.parts()[part] {
        part = inner;
    }
    part
}

/// What is evidence for a path operator, with its quantifier and direction; nothing for other parts.
fn evidence(
    checker: &mut Checker,
    condition: &Condition,
    part: usize,
    count: usize,
) -> Option<(Quantifier, Direction, Evidence)> {
    let mut truth = |part: usize| (0..count).map(|at| checker.holds(part, at)).collect::<Vec<_>>();
    let (quantifier, direction, demand) = match condition.parts()[part] {
        // What holds at the second statement is seen by `next` alone.
        Part::Next(quantifier, direction, _) => {
            return Some((quantifier, direction, Evidence { ways: None, round: None }))
        }
        Part::Path(quantifier, direction, demand) => (quantifier, direction, demand),
        _ => return None,
    };
    let (p, q) = match demand {
        Demand::Finally(p) => (vec![true; count], truth(p)),
        Demand::Globally(p) => (truth(p), vec![false; count]),
        Demand::Until(p, q) | Demand::Weak(p, q) => (truth(p), truth(q)),
    };
    let weak = matches!(demand, Demand::Globally(_) | Demand::Weak(..));
    // A path that never arrives bears out G and W, and speaks against F and U.
    let found = match quantifier {
        Quantifier::Some => Evidence {
            ways: (!matches!(demand, Demand::Globally(_)))
                .then(|| Ways::new(count, |at| p[at], |at| q[at])),
            round: weak.then(|| p.clone()),
        },
        Quantifier::All => Evidence {
            ways: (!matches!(demand, Demand::Finally(_)))
                .then(|| Ways::new(count, |at| !q[at], |at| !p[at] && !q[at])),
            round: (!weak).then(|| q.iter().map(|&holds| !holds).collect()),
        },
    };
    Some((quantifier, direction, found))
}

/// Whether an answer about a part, counted from 0, at a statement, counted from 1, is right: it has a path exactly where one can show
/// it, the path is one of the program's, it shows it, and no way that does is shorter.
pub fn check_witness(
    program: &Program,
    condition: &Condition,
    part: u32,
    statement: u32,
    told: &Witnessed,
) -> Result<Shown, String> {
    let (part, count) = (part as usize, program.statements().len());
    let no_path = |truth: bool| {
        require(*told == Witnessed::None(truth), || {
            format!("{told:?} where none and {truth} is right")
        })
        .map(|()| Shown::Nothing)
    };
    let steps = Steps::new(program);
    let mut checker = Checker::new(program, &steps, condition);
    if part >= condition.parts().len() || program.statement(statement).is_none() {
        return no_path(false);
    }
    let from = statement as usize - 1;
    let (truth, bare) = (checker.holds(part, from), bare(condition, part));
    let (quantifier, direction, evidence) = match evidence(&mut checker, condition, bare, count) {
        Some(found) => found,
        None => return no_path(truth),
    };
    let next = match direction {
        Direction::Forward => &steps.forward,
        Direction::Backward => &steps.backward,
    };
    if checker.holds(bare, from) != (quantifier == Quantifier::Some) {
        return no_path(truth);
    }
    let (path, turn) = match told {
        Witnessed::Path(path, turn) => (path, *turn as usize),
        Witnessed::None(_) => return Err("none where there is a path".to_string()),
    };
    let places = stepped(next, statement, path)?;
    require(places.len() <= count, || format!("{} statements of {count}", places.len()))?;
    if let Part::Next(_, _, p) = condition.parts()[bare] {
        require(places.len() == 2 && turn == 0, || format!("{path:?} isn't one step"))?;
        let settles = checker.holds(p, places[1]) == (quantifier == Quantifier::Some);
        return require(settles, || format!("{} doesn't settle it", path[1])).map(|()| Shown::Way);
    }
    if turn == 0 {
        let ways = evidence.ways.ok_or("a way shows nothing here")?;
        ways.holds(&places)?;
        let shortest = ways.shortest(next, &[from]);
        require(shortest == Some(places.len()), || {
            format!("{} statements where the shortest has {shortest:?}", places.len())
        })?;
        return Ok(Shown::Way);
    }
    require(turn <= places.len(), || format!("turn {turn} beyond {path:?}"))?;
    let (last, first) = (places[places.len() - 1], places[turn - 1]);
    require(next[last].contains(&first), || format!("{} doesn't step to {}", last + 1, first + 1))?;
    let round = evidence.round.ok_or("a path that goes round shows nothing here")?;
    match places.iter().find(|&&at| !round[at]) {
        Some(at) => Err(format!("statement {} speaks otherwise", at + 1)),
        None => Ok(Shown::Round),
    }
}

/// Whether a statement is the copy or the sum that a mark asks for, and keeps it.
fn is_copy(mark: &Mark, statement: &Statement) -> bool {
    match mark.kind {
        Kind::Remove(_) => false,
        Kind::Replace(a) => *statement == Statement::Assign(mark.variable, Expression::Single(a)),
        Kind::Reuse(e) => {
            *statement == Statement::Assign(mark.variable, e) && !e.mentions(mark.variable)
        }
    }
}

/// What speaks against a mark at a statement, by its number, 0 where nothing does.
fn culprit(mark: &Mark, program: &Program, gained: &[(u8, usize)], at: usize) -> u32 {
    let (statement, x) = (&program.statements()[at], mark.variable);
    let is_operand = |right: Expression| statement.defined().map_or(false, |y| right.mentions(y));
    match mark.kind {
        Kind::Remove(_) if statement.uses(x) => USED,
        Kind::Remove(_) if gained.contains(&(x, at)) => USED_BY_CSE,
        Kind::Remove(_) => 0,
        _ if is_copy(mark, statement) => 0,
        _ if statement.defines(x) => REDEFINED,
        Kind::Replace(Operand::Variable(y)) if statement.defines(y) => OPERAND_REDEFINED,
        Kind::Reuse(e) if is_operand(e) => OPERAND_REDEFINED,
        _ if at == 0 => NOTHING_COPIED,
        _ => 0,
    }
}

/// Whether an answer about line `line` of a list, counted from 0, is right: it has the verdict of the list, and with 14, and only then, a
/// shortest path of the program to what speaks against the mark.
pub fn check_why(
    program: &Program,
    marks: &[Mark],
    line: u32,
    told: &Because,
) -> Result<Shown, String> {
    let verdicts = Judge::new(program).verdicts(marks);
    let verdict = verdicts.get(line as usize).copied().unwrap_or(11);
    require(told.verdict == verdict, || {
        format!("verdict {} where {verdict} is right", told.verdict)
    })?;
    if verdict != 14 {
        let is_bare = told.path.is_empty() && told.culprit == 0;
        return require(is_bare, || format!("{told:?} has more than its verdict"))
            .map(|()| Shown::Nothing);
    }
    let (mark, steps) = (&marks[line as usize], Steps::new(program));
    let gained = gained_uses(marks, &verdicts);
    let statements = program.statements();
    let culprit_at = |at: usize| culprit(mark, program, &gained, at);
    let (next, ways) = match mark.kind {
        Kind::Remove(_) => {
            let pass = |at: usize| !statements[at].defines(mark.variable);
            (&steps.forward, Ways::new(statements.len(), pass, |at| culprit_at(at) != 0))
        }
        _ => {
            let pass = |at: usize| !is_copy(mark, &statements[at]);
            (&steps.backward, Ways::new(statements.len(), pass, |at| culprit_at(at) != 0))
        }
    };
    let places = stepped(next, mark.number, &told.path)?;
    // The mark's own statement may be passed whatever it does.
    let (from, behind) = places.split_first().ok_or("a path has a statement")?;
    ways.holds(behind)?;
    let shortest = ways.shortest(next, &next[*from]);
    require(shortest == Some(behind.len()), || {
        format!("{} steps where the shortest has {shortest:?}", behind.len())
    })?;
    let right = culprit_at(behind[behind.len() - 1]);
    require(told.culprit == right, || format!("culprit {} where {right} is right", told.culprit))?;
    Ok(Shown::Way)
}
