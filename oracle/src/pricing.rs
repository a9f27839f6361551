//! Prices in ticks: of a statement, of a program, and the report on a list of marks; a buyer's table of prices.

use crate::marks::{self, Judge};
use crate::program::{Expression, Operator, Program, Statement};
use std::ops::RangeInclusive;

/// The number of kinds of statements that have a price of their own.
pub const KINDS: usize = 11;

/// The price of each kind, in the order of `KIND_NAMES`.
pub type Prices = [u32; KINDS];

/// How the request names the kinds.
pub const KIND_NAMES: [&str; KINDS] =
    ["read", "write", "skip", "if", "X := A", "+", "-", "*", "<", "=", "/"];

/// Our own prices.
pub const OURS: Prices = [4, 4, 1, 3, 2, 3, 3, 9, 3, 3, 24];

/// Which of the kinds a statement is.
pub fn kind(statement: &Statement) -> usize {
    match statement {
        Statement::Read(_) => 0,
        Statement::Write(_) => 1,
        Statement::Skip => 2,
        Statement::Branch { .. } => 3,
        Statement::Assign(_, Expression::Single(_)) => 4,
        Statement::Assign(_, Expression::Pair(_, operator, _)) => match operator {
            Operator::Plus => 5,
            Operator::Minus => 6,
            Operator::Times => 7,
            Operator::Less => 8,
            Operator::Equal => 9,
            Operator::Divide => 10,
        },
    }
}

/// The prices that a buyer's table may have.
pub const RANGE: RangeInclusive<u32> = 1..=65_535;

/// The price of a kind by the table in force: the table's own where it lies in the range, else ours.
pub fn in_force(prices: &Prices, kind: usize) -> u32 {
    Some(prices[kind]).filter(|price| RANGE.contains(price)).unwrap_or(OURS[kind])
}

pub fn price(prices: &Prices, statement: &Statement) -> u32 {
    in_force(prices, kind(statement))
}

/// The price that a line spells: the one number of the range whose decimal digits and byte 10 are this line.
fn read_price(line: &[u8]) -> Option<u32> {
    let digits = std::str::from_utf8(line.strip_suffix(b"\n")?).ok()?;
    let price = digits.parse().ok().filter(|price| RANGE.contains(price))?;
    Some(price).filter(|price| price.to_string() == digits)
}

/// The table that a text spells, or the refusal: 19 where a line is wrong, else 20 where there aren't eleven.
pub fn read_prices(text: &[u8]) -> Result<Prices, u8> {
    let lines = text.split_inclusive(|&byte| byte == b'\n');
    let prices: Vec<u32> = lines.map(read_price).collect::<Option<_>>().ok_or(19)?;
    prices.try_into().map_err(|_| 20)
}

/// The call: puts the text's table in place of the one that the caller holds, or keeps that, and tells the refusal.
pub fn replace(text: &[u8], prices: &mut Prices) -> Result<(), u8> {
    *prices = read_prices(text)?;
    Ok(())
}

/// The text that spells a table.
pub fn table_text(prices: &[u32]) -> Vec<u8> {
    prices.iter().map(|price| format!("{price}\n")).collect::<String>().into_bytes()
}

/// The price of each statement, in the order of lines.
pub fn prices_of(prices: &Prices, program: &Program) -> Vec<u32> {
    program.statements().iter().map(|statement| price(prices, statement)).collect()
}

/// What the report on a list of marks tells.
#[derive(Clone, Debug, PartialEq, Eq)]
pub struct Report {
    /// The price of each statement of the given program, and of the rewritten one.
    pub before: Vec<u32>,
    pub after: Vec<u32>,
    /// Their totals, and given less rewritten.
    pub given: u32,
    pub rewritten: u32,
    pub saved: i32,
}

impl Report {
    /// A line for each statement, then one for each total.
    pub fn text(&self) -> String {
        let mut text = String::new();
        for (at, (before, after)) in self.before.iter().zip(&self.after).enumerate() {
            text += &format!("{} {before} {after}\n", at + 1);
        }
        text + &format!("{}\n{}\n{}\n", self.given, self.rewritten, self.saved)
    }
}

/// The report on two programs, by any prices.
fn compared(prices: &Prices, given: &Program, rewritten: &Program) -> Report {
    let (before, after) = (prices_of(prices, given), prices_of(prices, rewritten));
    let (given, rewritten) = (before.iter().sum(), after.iter().sum());
    let saved = i64::from(given) - i64::from(rewritten);
    let saved = i32::try_from(saved).expect("256 prices of 16 bits differ by less than 31 bits");
    Report { before, after, given, rewritten, saved }
}

/// The call: the report on a list of marks by a table of prices, or the refusal, 2 to 5, 9 or 10.
pub fn report(program: &[u8], list: &[u8], prices: &Prices) -> Result<Report, u8> {
    let given = Program::read(program)?;
    let list = marks::read(list)?;
    let verdicts = Judge::new(&given).verdicts(&list);
    Ok(compared(prices, &given, &marks::rewritten(&given, &list, &verdicts)))
}
