//! Stages kept and returned to.

use super::read::Program;
use crate::marks::TEXT_BYTES;
use crate::stages::{HEAD_BYTES, NAME_BYTES, PLACES, PLACE_BYTES, STAGES_BYTES};

type Name = [u8; NAME_BYTES];

/// The bytes of a name in a place, if these name a stage.
fn filled(name: &[u8]) -> Option<Name> {
    let mut bytes = [0; NAME_BYTES];
    bytes.get_mut(..name.len())?.copy_from_slice(name);
    (!name.is_empty() && name.iter().all(u8::is_ascii_lowercase)).then_some(bytes)
}

/// The text of a place, if its length has room there and the text is taken.
fn text_of(place: &[u8; PLACE_BYTES]) -> Option<&[u8]> {
    let length = u16::from_le_bytes([place[NAME_BYTES], place[NAME_BYTES + 1]]);
    let text = place[HEAD_BYTES..].get(..usize::from(length))?;
    Program::empty().read(text).is_ok().then_some(text)
}

fn name_of(place: &[u8; PLACE_BYTES]) -> Name {
    let mut name = [0; NAME_BYTES];
    name.copy_from_slice(&place[..NAME_BYTES]);
    name
}

fn is_right(name: &Name) -> bool {
    let letters = name.iter().take_while(|byte| byte.is_ascii_lowercase()).count();
    letters > 0 && name[letters..].iter().all(|&byte| byte == 0)
}

fn place(stages: &[u8], at: usize) -> &[u8; PLACE_BYTES] {
    stages[at * PLACE_BYTES..][..PLACE_BYTES].try_into().expect("a place")
}

/// The first place that has the name and a text that is taken. Other places' texts aren't read.
fn known<'a>(stages: &'a [u8], name: &Name) -> Option<(usize, &'a [u8])> {
    (0..PLACES).find_map(|at| {
        let place = place(stages, at);
        if name_of(place) != *name {
            return None;
        }
        text_of(place).map(|text| (at, text))
    })
}

/// The first empty place. Nothing stands behind it that the answer hangs on, so texts are read up to it and no further.
fn first_empty(stages: &[u8]) -> Option<usize> {
    let mut names = [[0; NAME_BYTES]; PLACES];
    for at in 0..PLACES {
        let place = place(stages, at);
        let name = name_of(place);
        if !is_right(&name) || names[..at].contains(&name) || text_of(place).is_none() {
            return Some(at);
        }
        names[at] = name;
    }
    None
}

/// The call: keeps a program under a name; the place, counted from 1, or the refusal, 1, 2 to 5, 23 or 24.
pub fn keep(stages: &mut [u8], name: &[u8], program: &[u8]) -> Result<u32, u8> {
    if stages.len() < STAGES_BYTES {
        return Err(1);
    }
    Program::empty().read(program)?;
    let name = filled(name).ok_or(23)?;
    let at = match known(stages, &name) {
        Some((at, _)) => at,
        None => first_empty(stages).ok_or(24)?,
    };
    let place = &mut stages[at * PLACE_BYTES..][..PLACE_BYTES];
    place[..NAME_BYTES].copy_from_slice(&name);
    place[NAME_BYTES..HEAD_BYTES].copy_from_slice(&(program.len() as u16).to_le_bytes());
    place[HEAD_BYTES..][..program.len()].copy_from_slice(program);
    Ok(at as u32 + 1)
}

/// The call: fills the text of the program kept under a name; the number of its bytes, or the refusal, 1, 23 or 25.
pub fn go_back(stages: &[u8], name: &[u8], text: &mut [u8]) -> Result<u32, u8> {
    if stages.len() < STAGES_BYTES || text.len() < TEXT_BYTES {
        return Err(1);
    }
    let name = filled(name).ok_or(23)?;
    let (_, kept) = known(stages, &name).ok_or(25)?;
    text[..kept.len()].copy_from_slice(kept);
    Ok(kept.len() as u32)
}
