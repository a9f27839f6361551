//! Stages with a name: the eight places that a caller lends, by the sentences of the request.

use crate::marks::TEXT_BYTES;
use crate::program::Program;

/// The bytes that there must be for stages.
pub const STAGES_BYTES: usize = 280_000;

/// The places among them.
pub const PLACES: usize = 8;

/// The bytes of each place, an eighth of those that there must be.
pub const PLACE_BYTES: usize = STAGES_BYTES / PLACES;

/// A place has a name in its first bytes, filled up with zero bytes, and behind it the text's length in so many bytes.
pub const NAME_BYTES: usize = 8;
pub const LENGTH_BYTES: usize = 2;

/// The bytes before a place's text.
pub const HEAD_BYTES: usize = NAME_BYTES + LENGTH_BYTES;

/// Whether these bytes name a stage: 1 to 8 lower-case letters.
pub fn is_name(bytes: &[u8]) -> bool {
    (1..=NAME_BYTES).contains(&bytes.len()) && bytes.iter().all(u8::is_ascii_lowercase)
}

/// What a place holds.
#[derive(Clone, Debug, PartialEq, Eq)]
pub struct Stage {
    pub name: Vec<u8>,
    pub text: Vec<u8>,
}

/// What stands in a place, whatever stands before it: nothing where the name is wrong or the text isn't taken. A text longer than the
/// rest of its place is none.
fn standing(place: &[u8]) -> Option<Stage> {
    let (name, rest) = place.split_at(NAME_BYTES);
    let (length, rest) = rest.split_at(LENGTH_BYTES);
    let letters = name.iter().take_while(|&&byte| byte != 0).count();
    if !is_name(&name[..letters]) || name[letters..].iter().any(|&byte| byte != 0) {
        return None;
    }
    let text = rest.get(..usize::from(length[0]) + 256 * usize::from(length[1]))?;
    Program::read(text).ok()?;
    Some(Stage { name: name[..letters].to_vec(), text: text.to_vec() })
}

/// Whether a place, counted from 0, counts as empty: nothing stands there, or an earlier place that isn't empty has the name.
fn is_empty(stood: &[Option<Stage>], at: usize) -> bool {
    let holds = |earlier: usize, name: &[u8]| {
        !is_empty(stood, earlier) && stood[earlier].as_ref().map_or(false, |its| its.name == name)
    };
    match &stood[at] {
        None => true,
        Some(stage) => (0..at).any(|earlier| holds(earlier, &stage.name)),
    }
}

/// The stage of each place, none where it is empty; or the refusal 1.
pub fn held(stages: &[u8]) -> Result<Vec<Option<Stage>>, u8> {
    let places = stages.get(..STAGES_BYTES).ok_or(1)?;
    let stood: Vec<_> = places.chunks(PLACE_BYTES).map(standing).collect();
    let held = |at| if is_empty(&stood, at) { None } else { stood[at].clone() };
    Ok((0..PLACES).map(held).collect())
}

/// Where the place that holds a name is, counted from 0.
fn place_of(held: &[Option<Stage>], name: &[u8]) -> Option<usize> {
    held.iter().position(|stage| stage.as_ref().map_or(false, |stage| stage.name == name))
}

/// The call: keeps a program under a name; the place, counted from 1, or the refusal, 1, 2 to 5, 23 or 24.
pub fn keep(stages: &mut [u8], name: &[u8], program: &[u8]) -> Result<u32, u8> {
    let held = held(stages)?;
    Program::read(program)?;
    if !is_name(name) {
        return Err(23);
    }
    let first_empty = || held.iter().position(Option::is_none);
    let at = place_of(&held, name).or_else(first_empty).ok_or(24)?;
    let length = program.len();
    let mut record = name.to_vec();
    record.resize(NAME_BYTES, 0);
    record.extend([(length % 256) as u8, (length / 256) as u8]);
    record.extend(program);
    stages[at * PLACE_BYTES..][..record.len()].copy_from_slice(&record);
    Ok(at as u32 + 1)
}

/// The call: fills the text of the program kept under a name; the number of its bytes, or the refusal, 1, 23 or 25.
pub fn go_back(stages: &[u8], name: &[u8], text: &mut [u8]) -> Result<u32, u8> {
    let held = held(stages)?;
    if text.len() < TEXT_BYTES {
        return Err(1);
    }
    if !is_name(name) {
        return Err(23);
    }
    let stage = place_of(&held, name).and_then(|at| held[at].as_ref()).ok_or(25)?;
    text[..stage.text.len()].copy_from_slice(&stage.text);
    Ok(stage.text.len() as u32)
}
