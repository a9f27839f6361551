//! Operands and variables of instructions.

use super::read::{self, Instruction, CONSTANTS};
use crate::machine::{Values, VALUES};
use crate::program::VARIABLES;

/// Each variable's own number for its value, so that operands are compared by what stands at their places.
pub const THEMSELVES: Values = themselves();

const fn themselves() -> Values {
    let (mut values, mut x) = ([0; VALUES], 0);
    while x < VALUES {
        values[x] = x as u32;
        x += 1;
    }
    values
}

/// Whether the operands at two places are the same.
#[inline(always)]
fn is_same(file: &[u32], a: u16, b: u16) -> bool {
    let (a, b) = (usize::from(a), usize::from(b));
    file[a] == file[b] && (a < CONSTANTS) == (b < CONSTANTS)
}

/// Whether two assignments have the same right side.
#[inline(always)]
pub fn has_same_right(file: &[u32], one: &Instruction, other: &Instruction) -> bool {
    one.code == other.code && is_same(file, one.a, other.a) && is_same(file, one.b, other.b)
}

/// No variable.
pub const NONE: u8 = u8::MAX;

/// By code of an instruction: `NONE` where its variable isn't defined, isn't used, and where it has no first and no second operand.
pub const MASKS: [[u8; 4]; 1 + read::DIVIDE as usize] = {
    let mut masks = [[0, NONE, 0, 0]; 1 + read::DIVIDE as usize];
    masks[read::READ as usize] = [0, NONE, NONE, NONE];
    masks[read::WRITE as usize] = [NONE, 0, NONE, NONE];
    masks[read::SKIP as usize] = [NONE; 4];
    masks[read::BRANCH as usize] = [NONE, 0, NONE, NONE];
    masks[read::COPY as usize] = [0, NONE, 0, NONE];
    masks
};

/// The variable at a place, or none.
#[inline(always)]
pub fn variable_at(place: u16) -> u8 {
    if place < u16::from(VARIABLES) {
        place as u8
    } else {
        NONE
    }
}
