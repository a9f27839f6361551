//! Runs by steps.

use crate::pricing::{price, Prices};
use crate::program::{
    Expression, Operand, Operator, Program, Statement, FIRST_KEPT, KEPT, VARIABLES,
};

/// The number of variables.
pub const VALUES: usize = VARIABLES as usize;

/// The values of all variables, `i0` first.
pub type Values = [u32; VALUES];

/// The values of `i24` to `i31`.
pub type Kept = [u32; KEPT];

/// The largest budget that isn't refused.
pub const LARGEST_BUDGET: u32 = 1_000_000;

/// What a run under a budget answers, each with the ticks of the statements that were performed.
#[derive(Clone, Copy, Debug, PartialEq, Eq)]
pub enum Outcome {
    Ended {
        value: i32,
        steps: u32,
        kept: Kept,
        ticks: u64,
    },
    Spent {
        statement: u32,
        values: Values,
        ticks: u64,
    },
    /// A statement divided by 0; its step is counted.
    Fault {
        statement: u32,
        steps: u32,
        ticks: u64,
    },
}

impl Outcome {
    /// The ticks of the statements that were performed.
    pub fn ticks(&self) -> u64 {
        match *self {
            Outcome::Ended { ticks, .. }
            | Outcome::Spent { ticks, .. }
            | Outcome::Fault { ticks, .. } => ticks,
        }
    }

    /// Whether a rewritten program may answer so where the given one answers this. Ticks, and the values told with
    /// 'spent', don't count.
    pub fn is_alike(&self, other: &Outcome) -> bool {
        match (*self, *other) {
            (
                Outcome::Ended { value: a, steps: m, kept: one, .. },
                Outcome::Ended { value: b, steps: n, kept: other, .. },
            ) => (a, m, one) == (b, n, other),
            (Outcome::Spent { statement: a, .. }, Outcome::Spent { statement: b, .. }) => a == b,
            (
                Outcome::Fault { statement: a, steps: m, .. },
                Outcome::Fault { statement: b, steps: n, .. },
            ) => (a, m) == (b, n),
            _ => false,
        }
    }
}

/// Where a run stands between two steps.
#[derive(Clone, Copy, Debug, PartialEq, Eq)]
pub enum State {
    Before { statement: u32, values: Values },
    Ended { value: i32, kept: Kept },
    Faulted { statement: u32 },
}

/// A run of a program without a budget.
#[derive(Clone, Debug)]
pub struct Run<'a> {
    program: &'a Program,
    input: u32,
    state: State,
}

/// The values that the unit keeps for its next pass.
pub fn kept_of(values: &Values) -> Kept {
    std::array::from_fn(|k| values[usize::from(FIRST_KEPT) + k])
}

fn operand_value(operand: Operand, values: &Values) -> u32 {
    match operand {
        Operand::Variable(x) => values[usize::from(x)],
        Operand::Constant(c) => c,
    }
}

/// The value of an expression, worked out in 64 bits and cut to the low 32; none where it divides by 0.
fn value(expression: &Expression, values: &Values) -> Option<u32> {
    let (a, operator, b) = match *expression {
        Expression::Single(a) => return Some(operand_value(a, values)),
        Expression::Pair(a, operator, b) => {
            (operand_value(a, values), operator, operand_value(b, values))
        }
    };
    let (wide_a, wide_b) = (i64::from(a as i32), i64::from(b as i32));
    Some(match operator {
        Operator::Plus => (wide_a + wide_b) as u32,
        Operator::Minus => (wide_a - wide_b) as u32,
        Operator::Times => (wide_a * wide_b) as u32,
        // The least number by -1 is 2147483648, whose low 32 bits are the least number's.
        Operator::Divide => wide_a.checked_div(wide_b)? as u32,
        Operator::Less => u32::from(wide_a < wide_b),
        Operator::Equal => u32::from(a == b),
    })
}

impl<'a> Run<'a> {
    pub fn start(program: &'a Program, values: Values, input: u32) -> Run<'a> {
        Run { program, input, state: State::Before { statement: 1, values } }
    }

    pub fn state(&self) -> &State {
        &self.state
    }

    /// The price of the statement that the next step performs, by this table; nothing once the run is over.
    pub fn cost(&self, prices: &Prices) -> u64 {
        match self.state {
            State::Before { statement, .. } => {
                let statement = &self.program.statements()[statement as usize - 1];
                u64::from(price(prices, statement))
            }
            State::Ended { .. } | State::Faulted { .. } => 0,
        }
    }

    /// Performs one statement; a run that has ended, or is over by a fault, stays so.
    pub fn step(&mut self) {
        let (at, values) = match &mut self.state {
            State::Before { statement, values } => (statement, values),
            State::Ended { .. } | State::Faulted { .. } => return,
        };
        match self.program.statements()[*at as usize - 1] {
            Statement::Read(x) => values[usize::from(x)] = self.input,
            Statement::Assign(x, ref right) => match value(right, values) {
                Some(value) => values[usize::from(x)] = value,
                None => {
                    self.state = State::Faulted { statement: *at };
                    return;
                }
            },
            Statement::Skip => {}
            Statement::Branch { tested, then, other } => {
                *at = if values[usize::from(tested)] != 0 { then } else { other };
                return;
            }
            Statement::Write(x) => {
                let value = values[usize::from(x)] as i32;
                self.state = State::Ended { value, kept: kept_of(values) };
                return;
            }
        }
        *at += 1;
    }
}

/// A run of a program that is taken, under a budget of any size, with its ticks by this table of prices.
pub fn run_program(
    program: &Program,
    values: Values,
    input: u32,
    budget: u32,
    prices: &Prices,
) -> Outcome {
    let mut run = Run::start(program, values, input);
    let (mut steps, mut ticks) = (0, 0);
    loop {
        match *run.state() {
            State::Ended { value, kept } => return Outcome::Ended { value, steps, kept, ticks },
            State::Faulted { statement } => return Outcome::Fault { statement, steps, ticks },
            State::Before { statement, values } if steps == budget => {
                return Outcome::Spent { statement, values, ticks };
            }
            State::Before { .. } => {}
        }
        ticks += run.cost(prices);
        run.step();
        steps += 1;
    }
}

/// The call: a run's outcome, or the refusal, 15 or 2 to 5.
pub fn run(
    program: &[u8],
    values: Values,
    input: u32,
    budget: u32,
    prices: &Prices,
) -> Result<Outcome, u8> {
    if budget > LARGEST_BUDGET {
        return Err(15);
    }
    Ok(run_program(&Program::read(program)?, values, input, budget, prices))
}

/// Whether two runs stand at the same place: before one statement, ended with one value and the same kept ones, or
/// over by a fault at one statement.
pub fn same_place(one: &State, other: &State) -> bool {
    match (one, other) {
        (State::Before { statement: a, .. }, State::Before { statement: b, .. }) => a == b,
        (State::Ended { .. }, State::Ended { .. })
        | (State::Faulted { .. }, State::Faulted { .. }) => one == other,
        _ => false,
    }
}

/// The first k up to `steps` after which the runs of two programs don't stand at the same place.
pub fn first_difference(
    one: &Program,
    other: &Program,
    values: Values,
    input: u32,
    steps: u32,
) -> Option<u32> {
    let (mut a, mut b) = (Run::start(one, values, input), Run::start(other, values, input));
    for k in 0..=steps {
        if !same_place(a.state(), b.state()) {
            return Some(k);
        }
        a.step();
        b.step();
    }
    None
}
