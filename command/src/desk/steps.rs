//! Two runs side by side, the given program's and the rewritten one's: where each stands after a number of steps, as
//! the library answers for a budget of as many, and the variables that are live there, by reviews of their conditions.

use crate::fault::Fault;
use crate::files::Text;
use crate::run::Ending;
use crate::start::Start;
use rewrites::{
    Outcome, Prices, Refusal, LIST_WORDS, PART_WORDS, REVIEW_LINES, REVIEW_WORDS, VARIABLES,
};
use serde::Serialize;

/// The most states that are told at once: each is a run from the start.
const MOST_STATES: u32 = 32;

#[derive(Serialize)]
pub struct Answer {
    input: i32,
    budget: u32,
    given: Ending,
    rewritten: Ending,
    /// How each run ends, in a line.
    given_line: String,
    rewritten_line: String,
    /// The steps of the longer run.
    steps: u32,
    /// The variables that either program names, or the unit keeps.
    variables: Vec<String>,
    states: Vec<State>,
}

/// Both runs after a number of steps.
#[derive(Serialize)]
struct State {
    steps: u32,
    given: Stand,
    rewritten: Stand,
    rows: Vec<Row>,
}

/// Where a run stands: before a statement, or over.
#[derive(Serialize)]
struct Stand {
    statement: Option<u32>,
    text: String,
}

/// A variable's values before the next step, null where a run is over.
#[derive(Serialize)]
struct Row {
    variable: String,
    given: Option<i32>,
    rewritten: Option<i32>,
    /// Whether the given program may still use the value before it defines the variable.
    live: bool,
    differs: bool,
}

/// For each variable the statements before which it is live.
struct Live(Vec<Vec<u64>>);

impl Live {
    fn new(program: &[u8]) -> Result<Live, Refusal> {
        let mut tables = Vec::new();
        let names: Vec<usize> = (0..VARIABLES).collect();
        for some in names.chunks(REVIEW_LINES) {
            let condition = |x: &usize| format!("E[!def(i{x}) U use(i{x})]\n");
            let conditions: String = some.iter().map(condition).collect();
            let mut table = [0; REVIEW_WORDS];
            let reviewed = rewrites::review(program, conditions.as_bytes(), &mut table)?;
            for at in 0..some.len() {
                let first = PART_WORDS * reviewed.table_of[at] as usize;
                tables.push(table[first..first + PART_WORDS].to_vec());
            }
        }
        Ok(Live(tables))
    }

    fn is_live(&self, x: usize, statement: u32) -> bool {
        let at = statement as usize - 1;
        self.0[x][at / 64] >> (at % 64) & 1 == 1
    }
}

/// The variables that some statement of a program defines or uses.
fn named(program: &[u8]) -> Result<Vec<bool>, Refusal> {
    let listing = rewrites::list(program, &mut [0; LIST_WORDS])?;
    Ok((0..VARIABLES).map(|x| listing.defined[x] + listing.used[x] > 0).collect())
}

fn steps_of(ending: &Ending, budget: u32) -> u32 {
    match *ending {
        Ending::Ended { steps, .. } | Ending::Fault { steps, .. } => steps,
        Ending::Spent { .. } => budget,
    }
}

impl Stand {
    fn new(outcome: &Outcome, program: &[String]) -> Stand {
        match *outcome {
            Outcome::Spent { statement, .. } => {
                let text = program.get(statement as usize - 1).cloned().unwrap_or_default();
                Stand { statement: Some(statement), text }
            }
            _ => Stand { statement: None, text: Ending::from(*outcome).line().trim_end().into() },
        }
    }
}

fn values(outcome: &Outcome) -> Option<&[u32; VARIABLES]> {
    match outcome {
        Outcome::Spent { values, .. } => Some(values),
        _ => None,
    }
}

/// The runs of the given and of the rewritten program from a start, with the states after so many steps and on.
pub fn answer(programs: [&[u8]; 2], text: &Text, from: u32, count: u32) -> Result<Answer, Fault> {
    let start = Start::read(&text.bytes).map_err(|wrong| Fault::of_start(wrong, text))?;
    let refused = |refusal| match refusal {
        Refusal::Budget => Fault::of_budget(start.budget, text.name.clone()),
        // Both programs are taken: one was judged, and the other is what the judging wrote.
        _ => Fault::refused(refusal, text),
    };
    let run = |program, budget| {
        Start { budget, ..start.clone() }.run(program, &Prices::ours()).map_err(refused)
    };
    let [given, rewritten] = programs;
    let ends = [Ending::from(run(given, start.budget)?), run(rewritten, start.budget)?.into()];
    let steps = ends.iter().map(|end| steps_of(end, start.budget)).max().unwrap_or(0);
    let live = Live::new(given).map_err(refused)?;
    let (one, other) = (named(given).map_err(refused)?, named(rewritten).map_err(refused)?);
    let shown: Vec<usize> = (0..VARIABLES).filter(|&x| one[x] || other[x]).collect();
    let texts = programs.map(super::calls::shown_lines);
    let mut states = Vec::new();
    for at in (from.min(steps)..=steps).take(count.min(MOST_STATES) as usize) {
        let outcomes = [run(given, at)?, run(rewritten, at)?];
        let stands = [Stand::new(&outcomes[0], &texts[0]), Stand::new(&outcomes[1], &texts[1])];
        let statement = stands[0].statement;
        let row = |&x: &usize| {
            let [given, rewritten] =
                [0, 1].map(|k: usize| values(&outcomes[k]).map(|values| values[x] as i32));
            Row {
                variable: format!("i{x}"),
                live: statement.map_or(false, |statement| live.is_live(x, statement)),
                differs: given != rewritten,
                given,
                rewritten,
            }
        };
        let rows = shown.iter().map(row).collect();
        let [given, rewritten] = stands;
        states.push(State { steps: at, given, rewritten, rows });
    }
    let [given, rewritten] = ends;
    let line = |end: &Ending| end.line().trim_end().to_string();
    Ok(Answer {
        input: start.input,
        budget: start.budget,
        given_line: line(&given),
        rewritten_line: line(&rewritten),
        given,
        rewritten,
        steps,
        variables: shown.iter().map(|x| format!("i{x}")).collect(),
        states,
    })
}
