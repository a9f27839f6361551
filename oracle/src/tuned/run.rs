//! Runs of a program that is made into small instructions first.

use super::filled::Filled;
use super::read::Program;
use crate::machine::{kept_of, Outcome, Values, LARGEST_BUDGET, VALUES};
use crate::pricing::{price, Prices};
use crate::program::{Expression, Operand, Operator, Statement, MOST_LINES};

#[derive(Clone, Copy)]
enum Code {
    Read,
    Write,
    Skip,
    Copy,
    Plus,
    Minus,
    Times,
    Divide,
    Less,
    Equal,
    Branch,
}

/// Operands are places among the values; behind those of the variables stand the constants.
#[derive(Clone, Copy)]
struct Instruction {
    code: Code,
    x: u8,
    price: u16,
    a: u16,
    b: u16,
}

/// The values of the variables, and two constants of each statement.
const PLACES: usize = VALUES + 2 * MOST_LINES;

struct Machine {
    instructions: Filled<Instruction, MOST_LINES>,
    values: Filled<u32, PLACES>,
}

impl Machine {
    fn place(&mut self, operand: Operand) -> u16 {
        match operand {
            Operand::Variable(x) => u16::from(x),
            Operand::Constant(c) => {
                self.values.push(c);
                self.values.count() as u16 - 1
            }
        }
    }

    fn new(program: &Program, values: &Values, prices: &Prices) -> Machine {
        let none = Instruction { code: Code::Skip, x: 0, price: 0, a: 0, b: 0 };
        let mut machine = Machine { instructions: Filled::new(), values: Filled::of(0, VALUES) };
        machine.values.items_mut().copy_from_slice(values);
        for statement in program.statements() {
            let skip = Instruction { price: price(prices, statement) as u16, ..none };
            let instruction = match *statement {
                Statement::Read(x) => Instruction { code: Code::Read, x, ..skip },
                Statement::Write(x) => Instruction { code: Code::Write, x, ..skip },
                Statement::Skip => skip,
                Statement::Branch { tested, then, other } => Instruction {
                    code: Code::Branch,
                    x: tested,
                    a: (then - 1) as u16,
                    b: (other - 1) as u16,
                    ..skip
                },
                Statement::Assign(x, Expression::Single(a)) => {
                    Instruction { code: Code::Copy, x, a: machine.place(a), ..skip }
                }
                Statement::Assign(x, Expression::Pair(a, operator, b)) => {
                    let code = match operator {
                        Operator::Plus => Code::Plus,
                        Operator::Minus => Code::Minus,
                        Operator::Times => Code::Times,
                        Operator::Divide => Code::Divide,
                        Operator::Less => Code::Less,
                        Operator::Equal => Code::Equal,
                    };
                    Instruction { code, x, a: machine.place(a), b: machine.place(b), ..skip }
                }
            };
            machine.instructions.push(instruction);
        }
        machine
    }

    fn run(&mut self, input: u32, budget: u32) -> Outcome {
        let (instructions, values) = (self.instructions.items(), self.values.items_mut());
        let variables =
            |values: &[u32]| -> Values { values[..VALUES].try_into().expect("so many values") };
        let (mut at, mut ticks) = (0, 0);
        for steps in 1..=budget {
            let Instruction { code, x, price, a, b } = instructions[at];
            ticks += u64::from(price);
            let value = match code {
                Code::Read => input,
                Code::Copy => values[usize::from(a)],
                Code::Plus => values[usize::from(a)].wrapping_add(values[usize::from(b)]),
                Code::Minus => values[usize::from(a)].wrapping_sub(values[usize::from(b)]),
                Code::Times => values[usize::from(a)].wrapping_mul(values[usize::from(b)]),
                Code::Divide => {
                    let divisor = values[usize::from(b)] as i32;
                    if divisor == 0 {
                        return Outcome::Fault { statement: at as u32 + 1, steps, ticks };
                    }
                    (values[usize::from(a)] as i32).wrapping_div(divisor) as u32
                }
                Code::Less => {
                    u32::from((values[usize::from(a)] as i32) < values[usize::from(b)] as i32)
                }
                Code::Equal => u32::from(values[usize::from(a)] == values[usize::from(b)]),
                Code::Skip => {
                    at += 1;
                    continue;
                }
                Code::Branch => {
                    at = usize::from(if values[usize::from(x)] != 0 { a } else { b });
                    continue;
                }
                Code::Write => {
                    let value = values[usize::from(x)] as i32;
                    let kept = kept_of(&variables(values));
                    return Outcome::Ended { value, steps, kept, ticks };
                }
            };
            values[usize::from(x)] = value;
            at += 1;
        }
        Outcome::Spent { statement: at as u32 + 1, values: variables(values), ticks }
    }
}

/// The call: a run's outcome, or the refusal, 15 or 2 to 5.
pub fn run(
    program: &[u8],
    values: &Values,
    input: u32,
    budget: u32,
    prices: &Prices,
) -> Result<Outcome, u8> {
    if budget > LARGEST_BUDGET {
        return Err(15);
    }
    let mut given = Program::empty();
    given.read(program)?;
    Ok(Machine::new(&given, values, prices).run(input, budget))
}
