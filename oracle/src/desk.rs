//! What the desk's programs print: the viewer, the runner, and the comparison of two runs.

use crate::condition::{stop, Checker, Condition, TABLE_WORDS};
use crate::forcing::{self, Arm, Player};
use crate::liveness::{differing, Liveness};
use crate::machine::{self, Kept, Outcome, Run, State, Values, VALUES};
use crate::marks::{self, MOST_MARKS, TEXT_BYTES, VERDICT_BYTES};
use crate::pricing::{read_prices, report, OURS};
use crate::program::{Program, Statement, MOST_LINES};
use crate::steps::Steps;
use std::ops::RangeInclusive;

/// The columns of a statement's number and of its text.
const NUMBER_COLUMNS: usize = 4;
const STATEMENT_COLUMNS: usize = 32;
/// The columns before the marks of a row.
const MARGIN: usize = NUMBER_COLUMNS + 2 + STATEMENT_COLUMNS + 2;
/// The columns of a step's number.
const STEP_COLUMNS: usize = 7;
/// The columns of a variable that differs, and of each of its values.
const DIFFERS_COLUMNS: usize = 7;
const VALUE_COLUMNS: usize = 11;
/// The most lines of a start.
const START_LINES: usize = 2 + VALUES;

// Refusals in words

/// The first line of a program's text, counted from 1, at which it is refused 2, 4 or 5.
fn line_of(program: &[u8], number: u8) -> usize {
    let lines: Vec<&[u8]> = program.split_inclusive(|&byte| byte == b'\n').collect();
    let read = |line: &&[u8]| line.strip_suffix(b"\n").and_then(Statement::read);
    let wrong = |(at, line): (usize, &&[u8])| match (number, read(line)) {
        (2, statement) => statement.is_none(),
        (4, Some(Statement::Read(_))) => at != 0,
        (4, Some(Statement::Write(_))) => at + 1 != lines.len(),
        (4, _) => at == 0 || at + 1 == lines.len(),
        (_, Some(Statement::Branch { then, other, .. })) => {
            [then, other].iter().any(|&target| target < 2 || target as usize > lines.len())
        }
        _ => false,
    };
    lines.iter().enumerate().position(wrong).expect("a refused line") + 1
}

/// A number below a million, with a comma behind its thousands.
fn grouped(number: usize) -> String {
    match number {
        0..=999 => number.to_string(),
        _ => format!("{},{:03}", number / 1_000, number % 1_000),
    }
}

/// The line that the refusal of a program's text is about; 0 where it is about none, or the text is taken.
pub fn blame(program: &[u8]) -> usize {
    match Program::read(program) {
        Err(number @ (2 | 4 | 5)) => line_of(program, number),
        _ => 0,
    }
}

/// The words of a refusal, on a line of their own. The other text is the condition, or the list of marks.
pub fn words(number: u8, program: &[u8], other: &[u8]) -> String {
    let line = || line_of(program, number);
    let words = match number {
        2 => format!("line {} isn't spelled as a statement, or lacks its byte 10", line()),
        3 => format!("under 2 or over {} lines", grouped(MOST_LINES)),
        4 => {
            format!("line {}: read or write missing from its place or standing elsewhere", line())
        }
        5 => format!("line {}: a target outside 2 to N", line()),
        6 => "longer than 1,024 bytes".into(),
        7 => format!("misspelled from byte {} on", stop(other)),
        8 => "over 64 parts".into(),
        9 => {
            let line = marks::first_wrong(other);
            format!("line {line} isn't spelled as a mark, or lacks its byte 10")
        }
        10 => format!("over {} lines", grouped(MOST_MARKS)),
        19 => "some line isn't a price from 1 to 65,535, or the last lacks its byte 10".into(),
        20 => "other than eleven lines".into(),
        22 => "a misspelled or repeated variable".into(),
        _ => "budget over 1,000,000".into(),
    };
    let author = match number {
        2..=5 => "the author of the shift program",
        6..=8 => "the author of the condition",
        9 | 10 => "the optimiser",
        19 | 20 => "the buyer",
        22 => "the author of the driver's list",
        _ => "the host program",
    };
    format!("{author}: {words}\n")
}

fn refused(number: u8, program: &[u8], other: &[u8]) -> String {
    format!("refused {number}\n{}", words(number, program, other))
}

// The viewer

/// One byte a part, that of the last set off.
fn columns(parts: usize, byte: impl FnMut(usize) -> char) -> String {
    let mut row: String = (0..parts).map(byte).collect();
    row.insert_str(parts - 1, "  ");
    row
}

/// What the viewer prints for a program and a condition.
pub fn view(program: &[u8], condition: &[u8]) -> String {
    let given = match Program::read(program) {
        Ok(given) => given,
        Err(number) => return refused(number, program, condition),
    };
    let condition = match Condition::read(condition) {
        Ok(condition) => condition,
        Err(number) => return refused(number, program, condition),
    };
    let (steps, parts) = (Steps::new(&given), condition.parts().len());
    let mut checker = Checker::new(&given, &steps, &condition);
    let mut text = String::new();
    for part in 0..parts {
        text += &format!("{:2}  {}\n", part + 1, condition.text_of(part));
    }
    let digit = |number: usize| char::from(b'0' + (number % 10) as u8);
    let tens = |part| if part < 9 { ' ' } else { digit((part + 1) / 10) };
    text += &format!("{:MARGIN$}{}\n", "", columns(parts, tens));
    text += &format!("{:MARGIN$}{}\n", "", columns(parts, |part| digit(part + 1)));
    let mut satisfied = Vec::new();
    for (at, statement) in given.statements().iter().enumerate() {
        let marks = columns(parts, |part| if checker.holds(part, at) { '*' } else { '.' });
        let (number, statement) = (at + 1, statement.to_string());
        text += &format!("{number:NUMBER_COLUMNS$}  {statement:STATEMENT_COLUMNS$}  {marks}\n");
        if marks.ends_with('*') {
            satisfied.push(at + 1);
        }
    }
    let first = satisfied.first().unwrap_or(&0);
    text + &format!("parts {parts} satisfied {} first {first}\n", satisfied.len())
}

// Games

/// What is shown of what a driver can force: for each statement whose `if` it is, the number or `-`, and the arm.
pub fn force(program: &[u8], driver: &[u8], condition: &[u8]) -> String {
    let told = match forcing::force(program, driver, condition, &mut [0; TABLE_WORDS]) {
        Ok(told) => told,
        Err(number) => return refused(number, program, condition),
    };
    let given = Program::read(program).expect("a program that is played is taken");
    let his = forcing::names(driver).expect("its list is taken");
    let mut text = String::new();
    for (at, statement) in given.statements().iter().enumerate() {
        let player = match forcing::player(statement, &his) {
            Some(Player::Driver) => "driver",
            Some(Player::Unit) => "unit  ",
            None => "      ",
        };
        let number = match told.number[at] {
            Some(number) => format!("{number:NUMBER_COLUMNS$}"),
            None => format!("{:>NUMBER_COLUMNS$}", "-"),
        };
        let arm = match told.arm[at] {
            Some(Arm::Goto) => "  goto",
            Some(Arm::Else) => "  else",
            None => "",
        };
        let (n, statement) = (at + 1, statement.to_string());
        text += &format!(
            "{n:NUMBER_COLUMNS$}  {statement:STATEMENT_COLUMNS$}  {player}  {number}{arm}\n"
        );
    }
    let forced = told.number.iter().flatten().count();
    let (parts, satisfied, first) = (told.parts, told.satisfied, told.first);
    text + &format!("parts {parts} satisfied {satisfied} first {first} forced {forced}\n")
}

// Runs

/// What a run starts from.
#[derive(Debug)]
pub struct Start {
    pub input: u32,
    pub budget: u32,
    pub values: Values,
}

const INTEGERS: RangeInclusive<i64> = i32::MIN as i64..=i32::MAX as i64;
const BUDGETS: RangeInclusive<i64> = 0..=i32::MAX as i64;

/// The number that a text spells exactly.
fn number(text: &[u8], range: &RangeInclusive<i64>) -> Option<u32> {
    let body = std::str::from_utf8(text).ok()?;
    let number: i64 = body.parse().ok()?;
    (range.contains(&number) && number.to_string() == body).then_some(number as u32)
}

/// Which number of a start a line gives where this one is next, and what it is: 0 is the input, 1 the budget, and 2 + x the
/// value of variable x.
fn start_line(line: &[u8], next: usize) -> Option<(usize, u32)> {
    let range = if next == 1 { BUDGETS } else { INTEGERS };
    if let Some(number) = number(line, &range) {
        return (next < START_LINES).then_some((next, number));
    }
    let equals = line.windows(3).position(|bytes| bytes == b" = ")?;
    let (name, value) = (line[..equals].strip_prefix(b"i")?, &line[equals + 3..]);
    let place = 2 + number(name, &(0..=VALUES as i64 - 1))? as usize;
    (next >= 2 && place >= next).then_some((place, number(value, &INTEGERS)?))
}

/// The start that a text is, or what is printed of one that is wrong.
pub fn read_start(text: &[u8]) -> Result<Start, String> {
    let refused = |words: String| Err(format!("refused start\nthe start: {words}\n"));
    let mut numbers = [0; START_LINES];
    let (mut next, mut count) = (0, 0);
    for line in text.split_inclusive(|&byte| byte == b'\n') {
        if count == START_LINES {
            return refused(format!("over {START_LINES} lines"));
        }
        count += 1;
        let Some((place, number)) = start_line(line.strip_suffix(b"\n").unwrap_or(line), next)
        else {
            let (low, high, or_named) = match count {
                1 => (i32::MIN, i32::MAX, ""),
                2 => (0, 1_000_000, ""),
                _ => (i32::MIN, i32::MAX, ", alone or behind a later variable: i13 = 40"),
            };
            return refused(format!(
                "line {count} isn't a whole number from {low} to {high}{or_named}"
            ));
        };
        if !line.ends_with(b"\n") {
            return refused(format!("line {count} lacks its line end, byte 10"));
        }
        numbers[place] = number;
        next = place + 1;
    }
    if count < 2 {
        return refused("under 2 lines".into());
    }
    let mut values = [0; VALUES];
    values.copy_from_slice(&numbers[2..]);
    Ok(Start { input: numbers[0], budget: numbers[1], values })
}

/// The statement and the values before each step of a run, with the values after it.
fn walk(program: &Program, start: &Start) -> Vec<(u32, Values, Values)> {
    let mut run = Run::start(program, start.values, start.input);
    let mut steps = Vec::new();
    while let State::Before { statement, values } = *run.state() {
        if steps.len() == start.budget as usize {
            break;
        }
        run.step();
        let after = match *run.state() {
            State::Before { values, .. } => values,
            State::Ended { .. } | State::Faulted { .. } => values,
        };
        steps.push((statement, values, after));
    }
    steps
}

fn spelled(program: &Program, statement: u32) -> String {
    program.statements()[statement as usize - 1].to_string()
}

/// The step's number, and the number and the text of its statement.
fn head(step: usize, at: u32, statement: &str) -> String {
    format!("{step:STEP_COLUMNS$}  {at:NUMBER_COLUMNS$}  {statement:STATEMENT_COLUMNS$}")
}

/// A name in each of the columns, of which the last has no width, on a line of their own.
fn heads(step: &str, line: &str, columns: &[(&str, usize)]) -> String {
    let mut text = format!("{step:>STEP_COLUMNS$}  {line:>NUMBER_COLUMNS$}");
    for (name, width) in columns {
        text += &format!("  {name:width$}");
    }
    text + "\n"
}

/// The line of a run that ended: the written value, the steps, the ticks, and the values that the unit keeps.
fn ended(value: i32, steps: u32, ticks: u64, kept: &Kept) -> String {
    let kept: String = kept.iter().map(|&value| format!(" {}", value as i32)).collect();
    format!("ended {value} steps {steps} ticks {ticks} kept{kept}\n")
}

/// The line of a run that a fault ended: the statement that divided by 0, the steps and the ticks, its own counted.
fn fault(statement: u32, steps: u32, ticks: u64) -> String {
    format!("fault at {statement} steps {steps} ticks {ticks}\n")
}

/// The line of a run that took all steps of its budget: the statement that comes next, and the ticks.
fn spent(statement: u32, ticks: u64) -> String {
    format!("spent at {statement} ticks {ticks}\n")
}

/// What the runner prints for a program and a start, with every step if `trace` says so.
pub fn run(program: &[u8], start: &[u8], trace: bool) -> String {
    let start = match read_start(start) {
        Ok(start) => start,
        Err(words) => return words,
    };
    let outcome = match machine::run(program, start.values, start.input, start.budget, &OURS) {
        Ok(outcome) => outcome,
        Err(number) => return refused(number, program, &[]),
    };
    let given = Program::read(program).expect("a program that ran is taken");
    let mut text = String::new();
    if trace {
        text += &heads("step", "line", &[("statement", STATEMENT_COLUMNS), ("assigned", 0)]);
        let steps = walk(&given, &start);
        let faults = matches!(outcome, Outcome::Fault { .. });
        for (k, (at, before, after)) in steps.iter().enumerate() {
            text += &head(k + 1, *at, &spelled(&given, *at));
            let performed = !(faults && k + 1 == steps.len());
            let assigned = given.statements()[*at as usize - 1].defined();
            if let Some(x) = assigned.map(usize::from).filter(|_| performed) {
                let same = if before[x] == after[x] { " (as before)" } else { "" };
                text += &format!("  i{x} = {}{same}", after[x] as i32);
            }
            text.push('\n');
        }
    }
    match outcome {
        Outcome::Ended { value, steps, kept, ticks } => text += &ended(value, steps, ticks, &kept),
        Outcome::Spent { statement, values, ticks } => {
            text += &spent(statement, ticks);
            for (x, &value) in values.iter().enumerate() {
                text += &format!("i{x} = {}\n", value as i32);
            }
        }
        Outcome::Fault { statement, steps, ticks } => text += &fault(statement, steps, ticks),
    }
    text
}

/// What the comparison prints for a program, a list of marks and a start. Before each step the live variables of the given
/// program agree, else the comparison itself is wrong.
pub fn compare(program: &[u8], list: &[u8], start: &[u8]) -> String {
    let start = match read_start(start) {
        Ok(start) => start,
        Err(words) => return words,
    };
    let run = |text: &[u8]| machine::run(text, start.values, start.input, start.budget, &OURS);
    let given_ends = match run(program) {
        Ok(outcome) => outcome,
        Err(number) => return refused(number, program, list),
    };
    let (mut verdicts, mut new) = (vec![0; VERDICT_BYTES], vec![0; TEXT_BYTES]);
    let (count, accepted, bytes) = match marks::judge(program, list, &mut verdicts, &mut new) {
        Ok(answer) => answer,
        Err(number) => return refused(number, program, list),
    };
    new.truncate(bytes as usize);
    let given = Program::read(program).expect("a program that was judged is taken");
    let rewritten = Program::read(&new).expect("a rewritten program is taken");
    let mut text = format!("marks {count} accepted {accepted}\n");
    let differs = [
        ("given", STATEMENT_COLUMNS),
        ("rewritten", STATEMENT_COLUMNS),
        ("differs", DIFFERS_COLUMNS),
        ("given", VALUE_COLUMNS),
        ("rewritten", 0),
    ];
    text += &heads("step", "line", &differs);
    let live = Liveness::new(&given);
    let both = walk(&given, &start).into_iter().zip(walk(&rewritten, &start));
    for (k, ((at, before, one), (there, before_there, other))) in both.enumerate() {
        let dead = |x: &u8| !live.is_live(at, *x);
        assert!(at == there && differing(&before, &before_there).iter().all(dead));
        let (old, new) = (spelled(&given, at), spelled(&rewritten, there));
        text += &format!("{}  {new:STATEMENT_COLUMNS$}", head(k + 1, at, &old));
        for x in differing(&one, &other).into_iter().map(usize::from) {
            let (name, one, other) = (format!("i{x}"), one[x] as i32, other[x] as i32);
            text += &format!("  {name:DIFFERS_COLUMNS$}");
            text += &format!("  {one:<VALUE_COLUMNS$}  {other:<VALUE_COLUMNS$}");
        }
        text.push('\n');
    }
    let rewritten_ends = run(&new).expect("a rewritten program is taken");
    for (name, outcome) in [("given", given_ends), ("rewritten", rewritten_ends)] {
        text += &format!("{name} {}", answer_line(&outcome));
    }
    text + "statements, outcome and live variables agree\n"
}

/// The line of a run's answer, without the values of one that is spent.
fn answer_line(outcome: &Outcome) -> String {
    match *outcome {
        Outcome::Ended { value, steps, kept, ticks } => ended(value, steps, ticks, &kept),
        Outcome::Spent { statement, ticks, .. } => spent(statement, ticks),
        Outcome::Fault { statement, steps, ticks } => fault(statement, steps, ticks),
    }
}

// A buyer's prices

/// What is shown of a program and a list by a buyer's prices: the report, and where there is a start the answers of both runs.
/// The table is read first, then the program and the list, then the start.
pub fn price(program: &[u8], list: &[u8], table: &[u8], start: Option<&[u8]>) -> String {
    let prices = match read_prices(table) {
        Ok(prices) => prices,
        Err(number) => return refused(number, program, list),
    };
    let text = match report(program, list, &prices) {
        Ok(report) => report.text(),
        Err(number) => return refused(number, program, list),
    };
    let start = match start.map(read_start) {
        None => return text,
        Some(Ok(start)) => start,
        Some(Err(words)) => return words,
    };
    let mut new = vec![0; TEXT_BYTES];
    let judged = marks::judge(program, list, &mut [0; VERDICT_BYTES], &mut new);
    let (_, _, bytes) = judged.expect("what is priced is judged");
    let run = |text: &[u8]| machine::run(text, start.values, start.input, start.budget, &prices);
    match (run(program), run(&new[..bytes as usize])) {
        (Ok(given), Ok(rewritten)) => {
            let (given, rewritten) = (answer_line(&given), answer_line(&rewritten));
            text + &format!("given {given}rewritten {rewritten}")
        }
        (Err(number), _) | (_, Err(number)) => refused(number, program, list),
    }
}
