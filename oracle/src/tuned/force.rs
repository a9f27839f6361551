//! What a driver can force, by a queue of the statements that have a number.

use super::filled::Filled;
use super::flow::{for_each, has, is_short, put, At, Flow, Row, SHORT};
use super::read::Program;
use super::tabulate::{tabulate_program, whole};
use crate::condition::{PART_WORDS, TABLE_WORDS};
use crate::forcing::UNFORCED;
use crate::program::{Statement, MOST_LINES, VARIABLES};

/// The variables of a list, as bits.
fn mask(list: &[u8]) -> Option<u64> {
    if list.is_empty() {
        return Some(0);
    }
    let (mut mask, mut at) = (0, 0);
    loop {
        if *list.get(at)? != b'i' {
            return None;
        }
        let digit = |at: usize| list.get(at).filter(|byte| byte.is_ascii_digit());
        let mut x = u32::from(digit(at + 1)? - b'0');
        at += 2;
        if x > 0 {
            if let Some(second) = digit(at) {
                x = 10 * x + u32::from(second - b'0');
                at += 1;
            }
        }
        if x >= u32::from(VARIABLES) || mask >> x & 1 == 1 {
            return None;
        }
        mask |= 1 << x;
        match list.get(at) {
            None => return Some(mask),
            Some(b' ') => at += 1,
            Some(_) => return None,
        }
    }
}

/// Fills the numbers and the arms of a program's statements.
fn fill<const W: usize>(
    program: &Program,
    mask: u64,
    met: &Row<W>,
    number: &mut [u32; MOST_LINES],
    arm: &mut [u8; MOST_LINES],
) {
    let flow = Flow::<W>::new(program);
    let statements = program.statements();
    let mut his: Row<W> = [0; W];
    for (at, statement) in statements.iter().enumerate() {
        if matches!(*statement, Statement::Branch { tested, .. } if mask >> tested & 1 == 1) {
            put(&mut his, at as At);
        }
    }
    number[..statements.len()].fill(UNFORCED);
    arm[..statements.len()].fill(0);
    let mut queue: Filled<At, MOST_LINES> = Filled::new();
    for_each(met, |at| {
        number[usize::from(at)] = 0;
        queue.push(at);
    });
    let mut start = 0;
    while let Some(&to) = queue.items().get(start) {
        start += 1;
        let here = number[usize::from(to)];
        for &at in flow.predecessors(to) {
            let [then, other] = *flow.successors(at);
            // The queue goes by numbers. His `if` joins by its first arm, the unit's by its last.
            let later = number[usize::from(then)].max(number[usize::from(other)]);
            if number[usize::from(at)] == UNFORCED && (has(&his, at) || later <= here) {
                number[usize::from(at)] = here + 1;
                queue.push(at);
            }
        }
    }
    for (at, statement) in statements.iter().enumerate() {
        if let Statement::Branch { then, other, .. } = *statement {
            let (then, other) = (number[then as usize - 1], number[other as usize - 1]);
            arm[at] = match (has(&his, at as At), number[at]) {
                (true, 0 | UNFORCED) => 0,
                (true, _) => 1 + u8::from(other < then),
                (false, UNFORCED) => 1 + u8::from(then != UNFORCED),
                (false, _) => 0,
            };
        }
    }
}

/// The call: fills the table, the numbers and the arms; the number of parts, of satisfying statements and the first of these,
/// or the refusal, 1, 2 to 5, 22 or 6 to 8.
pub fn force(
    program: &[u8],
    driver: &[u8],
    condition: &[u8],
    table: &mut [u64],
    number: &mut [u32; MOST_LINES],
    arm: &mut [u8; MOST_LINES],
) -> Result<(u32, u32, u32), u8> {
    if table.len() < TABLE_WORDS {
        return Err(1);
    }
    let mut given = Program::empty();
    given.read(program)?;
    let mask = mask(driver).ok_or(22)?;
    let answer = tabulate_program(&given, condition, table)?;
    if is_short(&given) {
        fill::<SHORT>(&given, mask, &whole(table, answer.0), number, arm);
    } else {
        fill::<PART_WORDS>(&given, mask, &whole(table, answer.0), number, arm);
    }
    Ok(answer)
}
