//! Two other ways to a condition's truth, each closer to the definition and slower.

use crate::condition::{Condition, Demand, Direction, Part, Quantifier};
use crate::program::{Program, Statement};

/// Whether statement index `from` steps forward to `to`.
fn steps_forward(program: &Program, from: usize, to: usize) -> bool {
    match program.statements()[from] {
        Statement::Branch { then, other, .. } => {
            to + 1 == then as usize || to + 1 == other as usize
        }
        Statement::Write(_) => from == to,
        _ => to == from + 1,
    }
}

fn is_write(program: &Program, at: usize) -> bool {
    matches!(program.statements()[at], Statement::Write(_))
}

/// The statements that one steps to, worked out afresh.
pub fn next(program: &Program, direction: Direction, at: usize) -> Vec<usize> {
    let all = 0..program.statements().len();
    if direction == Direction::Forward {
        return all.filter(|&to| steps_forward(program, at, to)).collect();
    }
    let before: Vec<usize> =
        all.filter(|&from| !is_write(program, from) && steps_forward(program, from, at)).collect();
    if before.is_empty() {
        vec![at]
    } else {
        before
    }
}

type Set = Vec<bool>;

/// The set of each part, operators by least and greatest fixpoints.
pub fn by_fixpoints(program: &Program, condition: &Condition) -> Vec<Set> {
    let count = program.statements().len();
    let steps: Vec<Vec<Vec<usize>>> = [Direction::Forward, Direction::Backward]
        .iter()
        .map(|&direction| (0..count).map(|at| next(program, direction, at)).collect())
        .collect();
    let mut sets: Vec<Set> = Vec::new();
    for part in condition.parts() {
        let each = |holds: &dyn Fn(usize) -> bool| -> Set { (0..count).map(holds).collect() };
        let set = match *part {
            Part::Atom(atom) => each(&|at| atom.holds(program, at)),
            Part::Not(p) => each(&|at| !sets[p][at]),
            Part::And(p, q) => each(&|at| sets[p][at] && sets[q][at]),
            Part::Or(p, q) => each(&|at| sets[p][at] || sets[q][at]),
            Part::Next(quantifier, direction, p) => {
                step_into(&steps[direction as usize], quantifier, &sets[p])
            }
            Part::Path(quantifier, direction, demand) => {
                let (p, q, greatest) = match demand {
                    Demand::Finally(p) => (vec![true; count], sets[p].clone(), false),
                    Demand::Globally(p) => (sets[p].clone(), vec![false; count], true),
                    Demand::Until(p, q) => (sets[p].clone(), sets[q].clone(), false),
                    Demand::Weak(p, q) => (sets[p].clone(), sets[q].clone(), true),
                };
                let mut set = vec![greatest; count];
                loop {
                    let into = step_into(&steps[direction as usize], quantifier, &set);
                    let round = each(&|at| q[at] || (p[at] && into[at]));
                    if round == set {
                        break set;
                    }
                    set = round;
                }
            }
        };
        sets.push(set);
    }
    sets
}

/// The statements of which some or all steps lead into a set.
fn step_into(steps: &[Vec<usize>], quantifier: Quantifier, set: &Set) -> Set {
    let into = |targets: &Vec<usize>| match quantifier {
        Quantifier::Some => targets.iter().any(|&to| set[to]),
        Quantifier::All => targets.iter().all(|&to| set[to]),
    };
    steps.iter().map(into).collect()
}

/// All beginnings with this number of places of the paths from one statement.
fn paths(program: &Program, direction: Direction, from: usize, places: usize) -> Vec<Vec<usize>> {
    let mut all = vec![vec![from]];
    for _ in 1..places {
        let longer = |path: &Vec<usize>| {
            let last = path[path.len() - 1];
            let path = path.clone();
            next(program, direction, last)
                .into_iter()
                .map(move |to| [path.as_slice(), &[to]].concat())
        };
        all = all.iter().flat_map(longer).collect();
    }
    all
}

/// The set of each part, operators by looking at all paths place by place. One place more than there are
/// statements is enough: a path that stays undecided so long has gone round a loop, which it may do for ever.
pub fn by_paths(program: &Program, condition: &Condition) -> Vec<Set> {
    let count = program.statements().len();
    let mut sets: Vec<Set> = Vec::new();
    for part in condition.parts() {
        let judge = |quantifier: Quantifier, direction, demand: &dyn Fn(&[usize]) -> bool| -> Set {
            let at_one = |from: usize| {
                let paths = paths(program, direction, from, count + 1);
                match quantifier {
                    Quantifier::Some => paths.iter().any(|path| demand(path)),
                    Quantifier::All => paths.iter().all(|path| demand(path)),
                }
            };
            (0..count).map(at_one).collect()
        };
        let holds = |p: usize, at: usize| sets[p][at];
        let until = |p: usize, q: usize, path: &[usize]| {
            (0..path.len()).any(|i| holds(q, path[i]) && (0..i).all(|j| holds(p, path[j])))
        };
        let set = match *part {
            Part::Atom(atom) => (0..count).map(|at| atom.holds(program, at)).collect(),
            Part::Not(p) => (0..count).map(|at| !holds(p, at)).collect(),
            Part::And(p, q) => (0..count).map(|at| holds(p, at) && holds(q, at)).collect(),
            Part::Or(p, q) => (0..count).map(|at| holds(p, at) || holds(q, at)).collect(),
            Part::Next(quantifier, direction, p) => {
                judge(quantifier, direction, &|path| holds(p, path[1]))
            }
            Part::Path(quantifier, direction, demand) => {
                judge(quantifier, direction, &|path| match demand {
                    Demand::Finally(p) => path.iter().any(|&at| holds(p, at)),
                    Demand::Globally(p) => path.iter().all(|&at| holds(p, at)),
                    Demand::Until(p, q) => until(p, q, path),
                    Demand::Weak(p, q) => until(p, q, path) || path.iter().all(|&at| holds(p, at)),
                })
            }
        };
        sets.push(set);
    }
    sets
}
