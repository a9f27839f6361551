//! The marks of a list that the library took: each line is then `n: mark(rm, X, E)`,
//! `n: mark(rpl, X, A)` or `n: mark(cse, T, E)`, and is only taken apart here.

use rewrites::Verdict;
use serde::Serialize;
use std::ops::AddAssign;

/// A mark of a list.
pub struct Mark<'a> {
    /// Its line, without byte 10.
    pub text: &'a str,
    /// The statement that it names.
    pub statement: u32,
    kind: &'a str,
    /// X or T, and E or A.
    pub variable: &'a str,
    right: &'a str,
}

impl<'a> Mark<'a> {
    fn new(text: &'a str) -> Option<Mark<'a>> {
        let (number, rest) = text.split_once(": mark(")?;
        let mut pieces = rest.strip_suffix(')')?.splitn(3, ", ");
        let (kind, variable, right) = (pieces.next()?, pieces.next()?, pieces.next()?);
        Some(Mark { text, statement: number.parse().ok()?, kind, variable, right })
    }

    /// Its published condition, with its variables put in. In that of an `rm`, `use` holds also where a
    /// `cse` of the list with its variable is accepted, which isn't spelled here.
    pub fn condition(&self) -> String {
        let (x, a) = (self.variable, self.right);
        match self.kind {
            "rm" => format!("!EX E[!def({x}) U use({x})]"),
            "rpl" => format!("AY A[((!def({x}) & trans({a})) & !entry) B stmt({x} := {a})]"),
            _ => {
                format!(
                    "AY A[((!def({x}) & trans({a})) & !entry) B (stmt({x} := {a}) & trans({a}))]"
                )
            }
        }
    }

    pub fn is_reuse(&self) -> bool {
        self.kind == "cse"
    }

    /// Whether a variable stands in its right side.
    pub fn names(&self, variable: &str) -> bool {
        self.right.split(' ').any(|operand| operand == variable)
    }

    /// Whether it is a `cse` of one operand, which fits nowhere.
    pub fn is_reuse_of_operand(&self) -> bool {
        self.is_reuse() && !self.right.contains(' ')
    }

    /// What its right side divides by, if it is a division.
    pub fn divisor(&self) -> Option<&'a str> {
        self.right.split_once(" / ").map(|(_, divisor)| divisor)
    }
}

/// The marks of a list that was taken.
pub fn of(list: &[u8]) -> Vec<Mark<'_>> {
    let text = std::str::from_utf8(list).unwrap_or_default();
    text.lines().filter_map(Mark::new).collect()
}

/// The verdict's name in JSON.
pub fn name(verdict: Verdict) -> &'static str {
    match verdict {
        Verdict::Accepted => "accepted",
        Verdict::Missing => "missing",
        Verdict::Repeated => "repeated",
        Verdict::Unfit => "unfit",
        Verdict::MayFault => "may_fault",
        Verdict::Unmet => "unmet",
    }
}

/// How many marks got each verdict.
#[derive(Clone, Copy, Debug, Default, PartialEq, Eq, Serialize)]
pub struct Counts {
    pub accepted: usize,
    pub missing: usize,
    pub repeated: usize,
    pub unfit: usize,
    pub may_fault: usize,
    pub unmet: usize,
}

impl Counts {
    pub fn of(verdicts: &[Verdict]) -> Counts {
        let count = |wanted| verdicts.iter().filter(|&&verdict| verdict == wanted).count();
        Counts {
            accepted: count(Verdict::Accepted),
            missing: count(Verdict::Missing),
            repeated: count(Verdict::Repeated),
            unfit: count(Verdict::Unfit),
            may_fault: count(Verdict::MayFault),
            unmet: count(Verdict::Unmet),
        }
    }

    pub fn marks(&self) -> usize {
        self.accepted + self.missing + self.repeated + self.unfit + self.may_fault + self.unmet
    }

    /// The counts in words. A reason that no mark was refused for is left out.
    pub fn words(&self) -> String {
        let mut words = format!("marks {}, accepted {}", self.marks(), self.accepted);
        let refused = [
            ("no such statement", self.missing),
            ("named before", self.repeated),
            ("doesn't fit", self.unfit),
            ("may fault", self.may_fault),
            ("condition false", self.unmet),
        ];
        for (reason, count) in refused.into_iter().filter(|(_, count)| *count > 0) {
            words += &format!(", {reason} {count}");
        }
        words
    }
}

impl AddAssign for Counts {
    fn add_assign(&mut self, other: Counts) {
        self.accepted += other.accepted;
        self.missing += other.missing;
        self.repeated += other.repeated;
        self.unfit += other.unfit;
        self.may_fault += other.may_fault;
        self.unmet += other.unmet;
    }
}
