//! A path that shows why a condition is true at a statement, or why it is false.

use crate::blame::lines;
use crate::fault::Fault;
use crate::files::Text;
use crate::tabulate::refused;
use rewrites::{Table, Witnessed, TABLE_WORDS};
use serde::Serialize;

/// What is told of a part of a condition at a statement.
#[derive(Serialize)]
pub struct At {
    statement: u32,
    /// The part, counted from 1.
    part: u32,
    truth: bool,
    /// The statements of a path that shows it, null where none can.
    path: Option<Vec<u32>>,
    /// The entry of these, counted from 1, to which the last one steps back; null where it doesn't matter how the path goes on.
    turn: Option<u32>,
}

/// How a path goes on behind its last statement.
fn rest(path: &[u32], turn: Option<u32>) -> String {
    match turn.and_then(|turn| path.get(turn as usize - 1)) {
        Some(statement) => format!("then {statement} again, and so on for ever"),
        None => "then by any steps".to_string(),
    }
}

impl At {
    /// A line of the truth, then a statement a line.
    pub fn text(&self, program: &[u8]) -> String {
        let At { statement, truth, .. } = self;
        let path = match &self.path {
            Some(path) => path,
            None => return format!("at {statement} {truth}: no path shows it\n"),
        };
        let statements: Vec<&[u8]> = lines(program).collect();
        let mut text = format!("at {statement} {truth}, as this path shows:\n");
        for &n in path {
            text += &format!("{n:4}  {}\n", shown(&statements, n));
        }
        text + &format!("      {}\n", rest(path, self.turn))
    }
}

/// The text of a statement, counted from 1.
pub fn shown(statements: &[&[u8]], n: u32) -> String {
    let statement = statements.get((n as usize).wrapping_sub(1)).copied().unwrap_or(b"");
    String::from_utf8_lossy(statement).trim_end().to_string()
}

/// What shows a part, counted from 1, or the whole condition, at a statement; or what is refused.
pub fn at(given: &Text, condition: &Text, part: Option<u32>, statement: u32) -> Result<At, Fault> {
    let refused = |refusal| refused(refusal, given, condition);
    let mut words = [0; TABLE_WORDS];
    let parts =
        rewrites::tabulate(&given.bytes, &condition.bytes, &mut words).map_err(refused)?.parts;
    let statements = lines(&given.bytes).count() as u32;
    let part = part.unwrap_or(parts);
    let asked = [("--at", "statement", statement, statements), ("--part", "part", part, parts)];
    for (option, kind, number, most) in asked {
        if number < 1 || number > most {
            return Err(Fault::no_such(option, kind, number, most));
        }
    }
    let told = rewrites::witness(&given.bytes, &condition.bytes, part - 1, statement);
    let truth = Table(&words).part_at(part - 1, statement);
    let (path, turn) = match told.map_err(refused)? {
        Witnessed::Path(path) => (Some(path.statements), path.turn),
        Witnessed::None(_) => (None, None),
    };
    Ok(At { statement, part, truth, path, turn })
}
