//! Live variables: those that a program may still use before it defines them.
//!
//! A set of variables for each statement, carried backward over the steps until nothing changes. No condition is read or searched.

use crate::machine::{self, Run, State, Values};
use crate::program::{Program, VARIABLES};
use crate::steps::Steps;

/// The live variables before each statement of a program, bit x of a set being variable x.
#[derive(Clone, Debug)]
pub struct Liveness {
    sets: Vec<u64>,
}

/// The variables of which a test is true.
fn set_of(test: impl Fn(u8) -> bool) -> u64 {
    (0..VARIABLES).filter(|&x| test(x)).fold(0, |set, x| set | 1 << x)
}

impl Liveness {
    pub fn new(program: &Program) -> Liveness {
        let statements = program.statements();
        let used: Vec<u64> =
            statements.iter().map(|statement| set_of(|x| statement.uses(x))).collect();
        let defined: Vec<u64> =
            statements.iter().map(|statement| set_of(|x| statement.defines(x))).collect();
        let steps = Steps::new(program);
        let mut sets = used;
        // Statements whose sets have grown and weren't carried on yet. One without a predecessor steps back to itself,
        // which adds nothing.
        let mut grown: Vec<usize> = (0..statements.len()).collect();
        while let Some(at) = grown.pop() {
            for &from in &steps.backward[at] {
                let carried = sets[at] & !defined[from];
                if sets[from] | carried != sets[from] {
                    sets[from] |= carried;
                    grown.push(from);
                }
            }
        }
        Liveness { sets }
    }

    /// Whether a variable is live before statement `n`, counted from 1.
    pub fn is_live(&self, n: u32, x: u8) -> bool {
        self.sets[n as usize - 1] >> x & 1 == 1
    }
}

/// The variables that hold different values.
pub fn differing(one: &Values, other: &Values) -> Vec<u8> {
    (0..VARIABLES).filter(|&x| one[usize::from(x)] != other[usize::from(x)]).collect()
}

/// Whether two runs stand at the same place, and before a statement with the same value of each variable that is
/// live there.
pub fn agrees(live: &Liveness, one: &State, other: &State) -> bool {
    machine::same_place(one, other)
        && match (one, other) {
            (State::Before { statement, values: a }, State::Before { values: b, .. }) => {
                differing(a, b).iter().all(|&x| !live.is_live(*statement, x))
            }
            _ => true,
        }
}

/// The first k up to `steps` after which the runs of two programs don't agree, by what is live in the first of them.
pub fn first_disagreement(
    given: &Program,
    other: &Program,
    values: Values,
    input: u32,
    steps: u32,
) -> Option<u32> {
    let live = Liveness::new(given);
    let (mut a, mut b) = (Run::start(given, values, input), Run::start(other, values, input));
    for k in 0..=steps {
        if !agrees(&live, a.state(), b.state()) {
            return Some(k);
        }
        a.step();
        b.step();
    }
    None
}
