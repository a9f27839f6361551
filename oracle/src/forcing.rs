//! What a driver can force: at an `if` on a variable of his list he picks the arm, at every other the unit does, without
//! regard to values. Numbers and arms are found by sweeps over all statements.

use crate::condition::{tabulate, words_of, TABLE_WORDS};
use crate::program::{Program, Statement, VARIABLES};
use crate::steps::Steps;

/// The number that stands for none.
pub const UNFORCED: u32 = u32::MAX;

/// Whose `if` a statement is.
#[derive(Clone, Copy, Debug, PartialEq, Eq)]
pub enum Player {
    Driver,
    Unit,
}

/// The arm that is told of an `if`.
#[derive(Clone, Copy, Debug, PartialEq, Eq)]
pub enum Arm {
    Goto,
    Else,
}

impl Arm {
    /// The number by which the call tells an arm, 0 where there is none.
    pub fn number(arm: Option<Arm>) -> u8 {
        match arm {
            None => 0,
            Some(Arm::Goto) => 1,
            Some(Arm::Else) => 2,
        }
    }
}

/// What the call answers beside the table. Statement n stands at n - 1.
#[derive(Clone, Debug, PartialEq, Eq)]
pub struct Forced {
    pub parts: u32,
    pub satisfied: u32,
    pub first: u32,
    /// The least number of steps that he can be sure of, where he can force the condition.
    pub number: Vec<Option<u32>>,
    pub arm: Vec<Option<Arm>>,
}

/// The variables that a list names, if it is one: none, or single spaces between, none of them twice.
pub fn names(list: &[u8]) -> Option<Vec<u8>> {
    let mut found = Vec::new();
    if list.is_empty() {
        return Some(found);
    }
    for word in list.split(|&byte| byte == b' ') {
        let x = (0..VARIABLES).find(|x| format!("i{x}").as_bytes() == word)?;
        if found.contains(&x) {
            return None;
        }
        found.push(x);
    }
    Some(found)
}

/// Whose `if` a statement is, if it is one.
pub fn player(statement: &Statement, his: &[u8]) -> Option<Player> {
    match statement {
        Statement::Branch { tested, .. } if his.contains(tested) => Some(Player::Driver),
        Statement::Branch { .. } => Some(Player::Unit),
        _ => None,
    }
}

/// The least numbers by which a driver with these variables can be sure of what holds at these statements.
///
/// Each sweep looks at all statements that have no number yet, and only then gives numbers, so that no statement sees one of
/// its own sweep.
pub fn numbers(program: &Program, his: &[u8], holds: &[bool]) -> Vec<Option<u32>> {
    let steps = Steps::new(program);
    let mut number: Vec<Option<u32>> = holds.iter().map(|&is_met| is_met.then_some(0)).collect();
    for sweep in 1.. {
        let joins = |at: &usize| {
            let mut next = steps.forward[*at].iter();
            let has_number = |&to: &usize| number[to].is_some();
            number[*at].is_none()
                && match player(&program.statements()[*at], his) {
                    Some(Player::Driver) => next.any(has_number),
                    _ => next.all(has_number),
                }
        };
        let joining: Vec<usize> = (0..holds.len()).filter(joins).collect();
        if joining.is_empty() {
            break;
        }
        joining.into_iter().for_each(|at| number[at] = Some(sweep));
    }
    number
}

/// The arm that is told of each statement: his, where he can force and it isn't met yet, that of the lower number; the unit's,
/// where he can't, one from which he can't either; `goto` where both serve.
pub fn arms(program: &Program, his: &[u8], number: &[Option<u32>]) -> Vec<Option<Arm>> {
    let of = |target: u32| number[target as usize - 1];
    let arm = |(statement, number): (&Statement, &Option<u32>)| {
        let (then, other) = match *statement {
            Statement::Branch { then, other, .. } => (of(then), of(other)),
            _ => return None,
        };
        match (player(statement, his)?, number) {
            (Player::Driver, Some(1..)) => {
                let is_better = other.map_or(false, |m| then.map_or(true, |n| m < n));
                Some(if is_better { Arm::Else } else { Arm::Goto })
            }
            (Player::Unit, None) => Some(if then.is_none() { Arm::Goto } else { Arm::Else }),
            _ => None,
        }
    };
    program.statements().iter().zip(number).map(arm).collect()
}

/// The call: fills the table as for the condition alone; or the refusal, 1, 2 to 5, 22 or 6 to 8.
pub fn force(
    program: &[u8],
    driver: &[u8],
    condition: &[u8],
    table: &mut [u64],
) -> Result<Forced, u8> {
    if table.len() < TABLE_WORDS {
        return Err(1);
    }
    let given = Program::read(program)?;
    let his = names(driver).ok_or(22)?;
    let (parts, satisfied, first) = tabulate(program, condition, table)?;
    let whole = words_of(table, parts as usize - 1);
    let holds: Vec<bool> =
        (0..given.statements().len()).map(|at| whole[at / 64] >> (at % 64) & 1 == 1).collect();
    let number = numbers(&given, &his, &holds);
    let arm = arms(&given, &his, &number);
    Ok(Forced { parts, satisfied, first, number, arm })
}
