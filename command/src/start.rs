//! A start: the input, the budget and up to 64 values, one a line, each ended by byte 10. A value may name its variable.

use crate::blame::lines;
use rewrites::{Outcome, Prices, Refusal, MOST_STEPS, VARIABLES};
use std::ops::RangeInclusive;

/// What a run starts from.
#[derive(Clone, Debug, PartialEq, Eq)]
pub struct Start {
    pub input: i32,
    pub budget: u32,
    pub values: [i32; VARIABLES],
}

/// What is wrong with the text of a start.
#[derive(Debug)]
pub struct Wrong {
    pub line: Option<usize>,
    pub words: String,
    pub expected: String,
}

const VALUES: RangeInclusive<i64> = i32::MIN as i64..=i32::MAX as i64;
const BUDGETS: RangeInclusive<i64> = 0..=i32::MAX as i64;
const MOST_LINES: usize = 2 + VARIABLES;

/// The number that a text spells exactly, without leading zeros and without `-0`.
fn number(text: &[u8], range: &RangeInclusive<i64>) -> Option<i64> {
    let text = std::str::from_utf8(text).ok()?;
    let number: i64 = text.parse().ok()?;
    (range.contains(&number) && number.to_string() == text).then_some(number)
}

/// A value of an option, from -2147483648 to 2147483647.
pub fn value(text: &str) -> Result<i32, String> {
    let found = number(text.as_bytes(), &VALUES).and_then(|number| i32::try_from(number).ok());
    found.ok_or_else(|| format!("expected {}", whole(&VALUES)))
}

/// A budget of an option, from 0 to 2147483647.
pub fn budget(text: &str) -> Result<u32, String> {
    let found = number(text.as_bytes(), &BUDGETS).and_then(|number| u32::try_from(number).ok());
    found.ok_or_else(|| format!("expected {}", whole(&BUDGETS)))
}

/// A variable and its value: `i13=40`.
pub fn setting(text: &str) -> Result<(usize, i32), String> {
    let expected = || format!("expected a variable, i0 to i{}, `=` and a value", VARIABLES - 1);
    let (variable, text) = text.split_once('=').ok_or_else(expected)?;
    let names = (0..VARIABLES).map(|x| format!("i{x}"));
    let x = names.into_iter().position(|name| name == variable).ok_or_else(expected)?;
    Ok((x, value(text)?))
}

fn whole(range: &RangeInclusive<i64>) -> String {
    format!("a whole number from {} to {}", range.start(), range.end())
}

impl Start {
    /// A start that has an input alone.
    pub fn from_input(input: i32) -> Start {
        Start { input, budget: MOST_STEPS, values: [0; VARIABLES] }
    }

    /// The run of a program from here.
    pub fn run(&self, program: &[u8], prices: &Prices) -> Result<Outcome, Refusal> {
        let values = self.values.map(|value| value as u32);
        rewrites::run(program, &values, self.input as u32, self.budget, prices)
    }

    /// The start that a text spells.
    pub fn read(text: &[u8]) -> Result<Start, Wrong> {
        // The input, the budget and the values, and how many of these lines gave or passed over.
        let (mut numbers, mut next) = ([0; MOST_LINES], 0);
        let mut count = 0;
        for line in lines(text) {
            if count == MOST_LINES {
                return Err(Wrong::of_count(&format!("over {MOST_LINES} lines")));
            }
            count += 1;
            let body = line.strip_suffix(b"\n").unwrap_or(line);
            let (place, number) = entry(body, next).ok_or_else(|| Wrong::of_line(count))?;
            if body.len() == line.len() {
                return Err(Wrong::of_end(count));
            }
            (numbers[place], next) = (number, place + 1);
        }
        if count < 2 {
            return Err(Wrong::of_count("under 2 lines"));
        }
        let mut values = [0; VARIABLES];
        for (value, &number) in values.iter_mut().zip(&numbers[2..]) {
            *value = number as i32;
        }
        Ok(Start { input: numbers[0] as i32, budget: numbers[1] as u32, values })
    }
}

/// Which number a line gives, where this one is next, and what it is: 0 is the input, 1 the budget, 2 + x the value of ix.
/// A value that names its variable may pass over others, and not come back to them.
fn entry(line: &[u8], next: usize) -> Option<(usize, i64)> {
    let range = if next == 1 { BUDGETS } else { VALUES };
    if let Some(number) = number(line, &range) {
        return (next < MOST_LINES).then_some((next, number));
    }
    let line = std::str::from_utf8(line).ok()?;
    let (name, value) = line.split_once(" = ")?;
    let x = (0..VARIABLES).find(|x| format!("i{x}") == name)?;
    (next >= 2 && 2 + x >= next).then_some((2 + x, number(value.as_bytes(), &VALUES)?))
}

impl Wrong {
    fn of_count(words: &str) -> Wrong {
        let expected = format!("the input, the budget and up to {VARIABLES} values, one a line");
        Wrong { line: None, words: words.to_string(), expected }
    }

    /// A line that isn't right, whether its byte 10 is there or not.
    fn of_line(line: usize) -> Wrong {
        let expected = match line {
            2 => whole(&(0..=i64::from(MOST_STEPS))),
            1 => whole(&VALUES),
            _ => whole(&VALUES) + ", alone or behind a later variable (i13 = 40)",
        };
        let words = "not such a number".into();
        Wrong { line: Some(line), words, expected: expected + ", and byte 10" }
    }

    /// The last line, which is right but for its end.
    fn of_end(line: usize) -> Wrong {
        Wrong {
            line: Some(line),
            words: "without its line end".into(),
            expected: "byte 10 behind the last line too".into(),
        }
    }
}
