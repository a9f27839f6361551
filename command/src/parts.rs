//! The texts of a condition's parts. The library tells how many parts there are and where each is
//! true; their texts are found by asking it which pieces of the condition are conditions
//! themselves. No condition is the front of another, and none stands within an atom, so these are
//! the parts.

use rewrites::{tabulate, Refusal, TABLE_WORDS};

/// The texts of the parts of a condition that the library took, in its order: by their ends, and of
/// those that end together the inner first.
pub fn texts(condition: &[u8]) -> Vec<&[u8]> {
    let mut table = [0; TABLE_WORDS];
    let mut is_condition = |piece: &[u8]| {
        let answer = tabulate(b"read i0\nwrite i0\n", piece, &mut table);
        answer != Err(Refusal::ConditionMisspelled)
    };
    let mut texts = Vec::new();
    // Where parts may start whose ends aren't found yet, the last first.
    let mut starts: Vec<usize> =
        (0..condition.len()).rev().filter(|&at| may_start(condition, at)).collect();
    for end in (1..=condition.len()).filter(|&at| may_end(condition, at)) {
        starts.retain(|&start| {
            let is_part = start < end && is_condition(&condition[start..end]);
            if is_part {
                texts.push(&condition[start..end]);
            }
            !is_part
        });
    }
    texts
}

/// Fewer pieces are tried by this: a part starts at the front, or after a bracket, a space or `!`,
/// and with one of a few bytes.
fn may_start(condition: &[u8], at: usize) -> bool {
    let after = at == 0 || b"([! ".contains(&condition[at - 1]);
    after && b"!(AEdefnstu".contains(&condition[at])
}

/// And it ends where the condition does, or before a bracket or a space.
fn may_end(condition: &[u8], at: usize) -> bool {
    at == condition.len() || b")] ".contains(&condition[at])
}
