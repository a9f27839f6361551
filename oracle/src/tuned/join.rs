//! Two programs joined.

use super::read::Program;
use super::write::Writer;
use crate::marks::TEXT_BYTES;
use crate::program::{Expression, Operand, Statement, MOST_LINES};

/// The call: fills the joined text; the number of its statements and of its bytes, or the refusal, 1, 2 to 5 or 21.
pub fn join(road: &[u8], creeper: &[u8], text: &mut [u8]) -> Result<(u32, u32), u8> {
    if text.len() < TEXT_BYTES {
        return Err(1);
    }
    let (mut one, mut other) = (Program::empty(), Program::empty());
    one.read(road)?;
    other.read(creeper)?;
    let (first, second) = (one.statements(), other.statements());
    let further = first.len() - 1;
    let count = further + second.len();
    if count > MOST_LINES {
        return Err(21);
    }
    let mut writer = Writer::new(text);
    first[..further].iter().for_each(|statement| writer.statement(statement));
    if let (Statement::Write(x), Statement::Read(y)) = (first[further], second[0]) {
        writer.statement(&Statement::Assign(y, Expression::Single(Operand::Variable(x))));
    }
    for statement in &second[1..] {
        match *statement {
            Statement::Branch { tested, then, other } => {
                let (then, other) = (then + further as u32, other + further as u32);
                writer.statement(&Statement::Branch { tested, then, other });
            }
            _ => writer.statement(statement),
        }
    }
    Ok((count as u32, writer.written()))
}
