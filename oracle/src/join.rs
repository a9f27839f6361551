//! A road program and a creeper program joined, and their runs one after the other.

use crate::machine::{Outcome, Run, State, Values};
use crate::marks::TEXT_BYTES;
use crate::pricing::{price, Prices};
use crate::program::{Expression, Operand, Program, Statement, MOST_LINES};

/// The one program that two become, or the refusal 21. The road's `write X` and the creeper's `read Y` become `Y := X`, and
/// creeper statement k from 2 on becomes N+k-1.
pub fn joined(road: &Program, creeper: &Program) -> Result<Program, u8> {
    let (n, m) = (road.count(), creeper.count());
    if n + m - 1 > MOST_LINES as u32 {
        return Err(21);
    }
    let renumbered = |k: u32| n + k - 1;
    let statement = |number: u32| match (road.statement(number), number) {
        (Some(&Statement::Write(x)), _) => match creeper.statement(1) {
            Some(&Statement::Read(y)) => {
                Statement::Assign(y, Expression::Single(Operand::Variable(x)))
            }
            other => unreachable!("{other:?} stands first"),
        },
        (Some(&statement), _) => statement,
        (None, number) => match *creeper.statement(number + 1 - n).expect("one of the creeper's") {
            Statement::Branch { tested, then, other } => {
                Statement::Branch { tested, then: renumbered(then), other: renumbered(other) }
            }
            statement => statement,
        },
    };
    let statements = (1..n + m).map(statement).collect();
    Ok(Program::new(statements).expect("a joined program is taken"))
}

/// The call: fills the joined text; the number of its statements and of its bytes, or the refusal, 1, 2 to 5 of the road
/// text, 2 to 5 of the creeper text, or 21.
pub fn join(road: &[u8], creeper: &[u8], text: &mut [u8]) -> Result<(u32, u32), u8> {
    if text.len() < TEXT_BYTES {
        return Err(1);
    }
    let road = Program::read(road)?;
    let creeper = Program::read(creeper)?;
    let program = joined(&road, &creeper)?;
    let new_text = program.text();
    text[..new_text.len()].copy_from_slice(&new_text);
    Ok((program.count(), new_text.len() as u32))
}

/// The two programs run one after the other, told as the joined one tells its run: the creeper program starts with the values
/// that the road program left and its written value as input, and its statements are N-1 further on.
#[derive(Clone, Debug)]
pub struct InTurn<'a> {
    road: &'a Program,
    creeper: &'a Program,
    run: Run<'a>,
    is_second: bool,
}

impl<'a> InTurn<'a> {
    pub fn start(
        road: &'a Program,
        creeper: &'a Program,
        values: Values,
        input: u32,
    ) -> InTurn<'a> {
        InTurn { road, creeper, run: Run::start(road, values, input), is_second: false }
    }

    pub fn state(&self) -> State {
        let further = if self.is_second { self.road.count() - 1 } else { 0 };
        match *self.run.state() {
            State::Before { statement, values } => {
                State::Before { statement: statement + further, values }
            }
            State::Faulted { statement } => State::Faulted { statement: statement + further },
            ended => ended,
        }
    }

    /// The price of the next step. That of the seam is one assignment's, neither a `write`'s nor a `read`'s, so the ticks of both aren't the sum of
    /// the two programs' ticks.
    pub fn cost(&self, prices: &Prices) -> u64 {
        let seam = (self.road.statements().last(), self.creeper.statement(1));
        match (*self.run.state(), seam) {
            (
                State::Before { statement, .. },
                (Some(&Statement::Write(x)), Some(&Statement::Read(y))),
            ) if !self.is_second && statement == self.road.count() => {
                let copy = Statement::Assign(y, Expression::Single(Operand::Variable(x)));
                u64::from(price(prices, &copy))
            }
            _ => self.run.cost(prices),
        }
    }

    /// One step. What the road program writes is what the creeper program reads, in one step.
    pub fn step(&mut self) {
        let before = *self.run.state();
        self.run.step();
        if self.is_second {
            return;
        }
        if let (State::Before { values, .. }, State::Ended { value, .. }) =
            (before, *self.run.state())
        {
            self.run = Run::start(self.creeper, values, value as u32);
            self.run.step();
            self.is_second = true;
        }
    }
}

/// Both in turn under a budget, in terms of the answers of their runs: the steps of both are their sum less 1.
pub fn run_in_turn(
    road: &Program,
    creeper: &Program,
    values: Values,
    input: u32,
    budget: u32,
    prices: &Prices,
) -> Outcome {
    let mut both = InTurn::start(road, creeper, values, input);
    let (mut steps, mut ticks) = (0, 0);
    loop {
        match both.state() {
            State::Ended { value, kept } => return Outcome::Ended { value, steps, kept, ticks },
            State::Faulted { statement } => return Outcome::Fault { statement, steps, ticks },
            State::Before { statement, values } if steps == budget => {
                return Outcome::Spent { statement, values, ticks };
            }
            State::Before { .. } => {}
        }
        ticks += both.cost(prices);
        both.step();
        steps += 1;
    }
}
