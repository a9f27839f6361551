//! What a report tells, as text and for JSON: the price of each statement before and after, and the totals.

use rewrites::Report;
use serde::Serialize;
use std::ops::AddAssign;

/// The price of each statement, in ticks.
#[derive(Serialize)]
pub struct Columns<'a> {
    before: &'a [u32],
    after: &'a [u32],
}

/// The totals of prices: of the given program, of the rewritten one, and given less rewritten.
#[derive(Clone, Copy, Default, Serialize)]
pub struct Ticks {
    given: i64,
    rewritten: i64,
    saved: i64,
}

impl<'a> Columns<'a> {
    pub fn of(report: &'a Report) -> Columns<'a> {
        let count = report.statements as usize;
        Columns { before: &report.before[..count], after: &report.after[..count] }
    }
}

impl Ticks {
    pub fn of(report: &Report) -> Ticks {
        let Report { given, rewritten, saved, .. } = *report;
        Ticks { given: given.into(), rewritten: rewritten.into(), saved: saved.into() }
    }
}

impl AddAssign for Ticks {
    fn add_assign(&mut self, other: Ticks) {
        self.given += other.given;
        self.rewritten += other.rewritten;
        self.saved += other.saved;
    }
}

/// A line with number, price before and price after for each statement, then each total on its own line.
pub fn text(report: &Report) -> String {
    let mut text = String::new();
    let Columns { before, after } = Columns::of(report);
    for (at, (before, after)) in before.iter().zip(after).enumerate() {
        text += &format!("{} {before} {after}\n", at + 1);
    }
    let Report { given, rewritten, saved, .. } = report;
    text + &format!("{given}\n{rewritten}\n{saved}\n")
}
