//! `rewrites force`: what a driver can force, with whose `if` each statement is, the numbers and the
//! arms.

use crate::blame::lines;
use crate::fault::Fault;
use crate::files::Text;
use crate::folder::Folder;
use crate::output::{Output, Unwritten};
use crate::status::Status;
use clap::Args;
use rewrites::{Arm, Forced, Refusal, TABLE_WORDS};
use serde::Serialize;
use std::ffi::OsString;
use std::path::PathBuf;

const NUMBER_COLUMNS: usize = 4;
const STATEMENT_COLUMNS: usize = 32;
const PLAYER_COLUMNS: usize = 6;

#[derive(Args)]
pub struct Arguments {
    /// A folder with a program in the file `given`, the driver's variables in `driver` and a
    /// condition in `condition`
    #[arg(value_name = "DIR")]
    folder: PathBuf,
    /// Take these variables, with single spaces between, and not the folder's
    #[arg(long, value_name = "NAMES")]
    driver: Option<OsString>,
    /// Take this condition, and not the folder's
    #[arg(long, value_name = "TEXT")]
    condition: Option<OsString>,
    /// Print a JSON object on a line
    #[arg(long)]
    json: bool,
}

#[derive(Serialize)]
struct Answer {
    driver: Vec<String>,
    condition: String,
    parts: u32,
    satisfied: u32,
    first: u32,
    /// How many statements have a number.
    forced: usize,
    statements: Vec<Place>,
}

/// What is told of a statement.
#[derive(Serialize)]
struct Place {
    statement: u32,
    text: String,
    /// Whose `if` it is.
    player: Option<&'static str>,
    number: Option<u32>,
    arm: Option<&'static str>,
}

/// Whose `if` a statement of a program that is taken is.
fn player(statement: &str, driver: &[String]) -> Option<&'static str> {
    let tested = statement.strip_prefix("if ")?.split(' ').next()?;
    let is_his = driver.iter().any(|name| name == tested);
    Some(if is_his { "driver" } else { "unit" })
}

impl Answer {
    fn new(given: &[u8], driver: &[u8], condition: &[u8], told: &Forced) -> Answer {
        let shown = |bytes: &[u8]| String::from_utf8_lossy(bytes).trim_end().to_string();
        let driver: Vec<String> = shown(driver).split_terminator(' ').map(str::to_string).collect();
        let place = |(at, line): (usize, &[u8])| {
            let (statement, text) = (at as u32 + 1, shown(line));
            let arm = told.arm_at(statement).map(|arm| match arm {
                Arm::Goto => "goto",
                Arm::Else => "else",
            });
            let number = told.number_at(statement);
            Place { statement, player: player(&text, &driver), text, number, arm }
        };
        let statements: Vec<Place> = lines(given).enumerate().map(place).collect();
        Answer {
            condition: shown(condition),
            parts: told.parts,
            satisfied: told.satisfied,
            first: told.first,
            forced: statements.iter().filter(|place| place.number.is_some()).count(),
            driver,
            statements,
        }
    }

    fn text(&self) -> String {
        let mut text = String::new();
        for Place { statement, text: spelled, player, number, arm } in &self.statements {
            let number = number.map_or("-".to_string(), |number| number.to_string());
            let (player, arm) = (player.unwrap_or_default(), arm.unwrap_or_default());
            let line = format!(
                "{statement:NUMBER_COLUMNS$}  {spelled:STATEMENT_COLUMNS$}  \
                 {player:PLAYER_COLUMNS$}  {number:>NUMBER_COLUMNS$}  {arm}"
            );
            text += line.trim_end();
            text.push('\n');
        }
        let Answer { parts, satisfied, first, forced, .. } = self;
        text + &format!("parts {parts} satisfied {satisfied} first {first} forced {forced}\n")
    }
}

impl Arguments {
    fn force(&self, folder: &mut Folder) -> Option<Answer> {
        let files = "a program in `given`, variables in `driver` and a condition in `condition`";
        folder.is_there(files)?;
        let given = folder.read("given")?;
        let driver = folder.option_or_bare(&self.driver, "driver")?;
        let condition = folder.option_or_bare(&self.condition, "condition")?;
        let mut table = [0; TABLE_WORDS];
        let answer = rewrites::force(&given.bytes, &driver.bytes, &condition.bytes, &mut table);
        match answer {
            Ok(told) => Some(Answer::new(&given.bytes, &driver.bytes, &condition.bytes, &told)),
            Err(refusal) => {
                let text: &Text = match refusal {
                    Refusal::Driver => &driver,
                    Refusal::ConditionLength
                    | Refusal::ConditionMisspelled
                    | Refusal::ConditionParts => &condition,
                    _ => &given,
                };
                folder.refuse(Fault::refused(refusal, text));
                None
            }
        }
    }

    pub fn run(&self, output: &mut Output) -> Result<Status, Unwritten> {
        let mut folder = Folder::new(&self.folder);
        let answer = self.force(&mut folder);
        folder.print("force", self.json, answer, |answer| answer.text(), output)
    }
}
