//! Marks: reading any bytes, verdicts, and rewriting.

use std::collections::HashMap;
use std::fmt;
use std::ops::Range;

use crate::condition::{Checker, Condition, GainedUse};
use crate::program::{
    expression, number, variable, Expression, Operand, Program, Statement, LINE_BYTES, MOST_LINES,
};
use crate::steps::Steps;

/// The largest number of lines of a list.
pub const MOST_MARKS: usize = 1_024;

/// The smallest buffers that may be lent, in bytes.
pub const VERDICT_BYTES: usize = MOST_MARKS;
pub const TEXT_BYTES: usize = MOST_LINES * LINE_BYTES;

#[derive(Clone, Copy, Debug, PartialEq, Eq)]
pub enum Kind {
    /// `rm`: an assignment of this right side is dropped.
    Remove(Expression),
    /// `rpl`: this operand stands for each use of the variable.
    Replace(Operand),
    /// `cse`: the variable, which holds the value of this right side already, stands for it.
    Reuse(Expression),
}

#[derive(Clone, Copy, Debug, PartialEq, Eq)]
pub struct Mark {
    /// The statement's number as spelled, whether the program has it or not.
    pub number: u32,
    pub variable: u8,
    pub kind: Kind,
}

/// A mark, its spaces and numbers read leniently.
fn lenient(line: &[u8]) -> Option<Mark> {
    let colon = line.iter().position(|&byte| byte == b':')?;
    let open = line.iter().position(|&byte| byte == b'(')?;
    let inner = line.get(open + 1..)?.strip_suffix(b")")?;
    let items: Vec<&[u8]> = inner.split(|&byte| byte == b',').take(4).collect();
    let (kind, x, right) = match items.as_slice() {
        [kind, x, right] => (kind, x, expression(right)?),
        _ => return None,
    };
    let kind = match (*kind, right) {
        (b"rm", _) => Kind::Remove(right),
        (b"rpl", Expression::Single(a)) => Kind::Replace(a),
        (b"cse", _) => Kind::Reuse(right),
        _ => return None,
    };
    let x = x.strip_prefix(b" ")?;
    Some(Mark { number: number(&line[..colon])?, variable: variable(x)?, kind })
}

impl Mark {
    /// The mark that these bytes spell exactly.
    pub fn read(line: &[u8]) -> Option<Mark> {
        lenient(line).filter(|mark| mark.to_string().as_bytes() == line)
    }

    pub fn is_reuse(&self) -> bool {
        matches!(self.kind, Kind::Reuse(_))
    }

    fn fits(&self, statement: &Statement) -> bool {
        match self.kind {
            Kind::Remove(e) => *statement == Statement::Assign(self.variable, e),
            Kind::Replace(a) => {
                let wants_variable =
                    matches!(statement, Statement::Branch { .. } | Statement::Write(_));
                statement.shows(self.variable)
                    && (matches!(a, Operand::Variable(_)) || !wants_variable)
            }
            Kind::Reuse(Expression::Single(_)) => false,
            Kind::Reuse(e) => matches!(statement, Statement::Assign(_, right) if *right == e),
        }
    }

    /// The condition that the mark has to meet at its statement. In that of `rm`, `use` holds also where a statement gains
    /// one by the list.
    pub fn condition(&self) -> Condition {
        let x = self.variable;
        let text = match self.kind {
            Kind::Remove(_) => format!("!EX E[!def(i{x}) U use(i{x})]"),
            Kind::Replace(a) => {
                format!("AY A[((!def(i{x}) & trans({a})) & !entry) B stmt(i{x} := {a})]")
            }
            Kind::Reuse(e) => format!(
                "AY A[((!def(i{x}) & trans({e})) & !entry) B (stmt(i{x} := {e}) & trans({e}))]"
            ),
        };
        Condition::read(text.as_bytes()).expect("each mark's condition is well spelled")
    }

    /// What the mark makes of a statement that it fits.
    fn made(&self, statement: &Statement) -> Statement {
        let x = self.variable;
        match (self.kind, *statement) {
            (Kind::Remove(_), _) => Statement::Skip,
            (Kind::Replace(a), Statement::Assign(defined, right)) => {
                Statement::Assign(defined, right.replaced(x, a))
            }
            (Kind::Replace(Operand::Variable(y)), Statement::Branch { then, other, .. }) => {
                Statement::Branch { tested: y, then, other }
            }
            (Kind::Replace(Operand::Variable(y)), Statement::Write(_)) => Statement::Write(y),
            (Kind::Reuse(_), Statement::Assign(defined, _)) => {
                Statement::Assign(defined, Expression::Single(Operand::Variable(x)))
            }
            (_, unchanged) => unchanged,
        }
    }
}

impl fmt::Display for Mark {
    fn fmt(&self, f: &mut fmt::Formatter<'_>) -> fmt::Result {
        let (number, x) = (self.number, self.variable);
        match self.kind {
            Kind::Remove(e) => write!(f, "{number}: mark(rm, i{x}, {e})"),
            Kind::Replace(a) => write!(f, "{number}: mark(rpl, i{x}, {a})"),
            Kind::Reuse(e) => write!(f, "{number}: mark(cse, i{x}, {e})"),
        }
    }
}

/// The marks that these bytes spell, or the refusal, 9 or 10.
pub fn read(text: &[u8]) -> Result<Vec<Mark>, u8> {
    let mut marks = Vec::new();
    for line in text.split_inclusive(|&byte| byte == b'\n') {
        let body = line.strip_suffix(b"\n").ok_or(9)?;
        marks.push(Mark::read(body).ok_or(9)?);
    }
    if marks.len() > MOST_MARKS {
        return Err(10);
    }
    Ok(marks)
}

/// The first line of a list, counted from 1, that isn't spelled as a mark; 0 where each is.
pub fn first_wrong(text: &[u8]) -> usize {
    let is_wrong = |line: &[u8]| line.strip_suffix(b"\n").and_then(Mark::read).is_none();
    text.split_inclusive(|&byte| byte == b'\n').position(is_wrong).map_or(0, |at| at + 1)
}

/// The text of a list of any length.
pub fn text(marks: &[Mark]) -> Vec<u8> {
    marks.iter().flat_map(|mark| format!("{mark}\n").into_bytes()).collect()
}

/// A program on which marks are judged.
pub struct Judge<'a> {
    program: &'a Program,
    steps: Steps,
}

impl<'a> Judge<'a> {
    pub fn new(program: &'a Program) -> Judge<'a> {
        Judge { program, steps: Steps::new(program) }
    }

    /// The verdict of a mark by itself; `named` tells whether an earlier line names its statement.
    pub fn verdict(&self, mark: &Mark, named: bool) -> u8 {
        self.verdict_beside(mark, named, &[])
    }

    /// The same in a list by which statements gain these uses.
    pub fn verdict_beside(&self, mark: &Mark, named: bool, gained: &[GainedUse]) -> u8 {
        let statement = match self.program.statement(mark.number) {
            Some(statement) => statement,
            None => return 11,
        };
        if named {
            return 12;
        }
        if !mark.fits(statement) {
            return 13;
        }
        if matches!(mark.kind, Kind::Remove(e) if e.may_fault()) {
            return 18;
        }
        let condition = mark.condition();
        let mut checker = Checker::with_uses(self.program, &self.steps, &condition, gained);
        if checker.whole_holds(mark.number as usize - 1) {
            0
        } else {
            14
        }
    }

    /// Whether an `rm` that fits is refused only because the unit keeps its variable: nothing that a text shows as
    /// used speaks against it.
    pub fn is_refused_for_kept_alone(&self, mark: &Mark) -> bool {
        let x = mark.variable;
        let shown = format!("!EX E[!def(i{x}) U ((use(i{x}) & !exit) | stmt(write i{x}))]");
        let shown = Condition::read(shown.as_bytes()).expect("a condition is well spelled");
        let mut checker = Checker::new(self.program, &self.steps, &shown);
        matches!(mark.kind, Kind::Remove(_))
            && self.verdict(mark, false) == 14
            && checker.whole_holds(mark.number as usize - 1)
    }

    /// The verdicts of a whole list, in its order. The lines of `cse` are judged first: where one is accepted, its
    /// statement gains a use, which counts for each `rm`.
    pub fn verdicts(&self, marks: &[Mark]) -> Vec<u8> {
        // The numbers that lines name, each with the first line that does.
        let mut first = HashMap::new();
        for (line, mark) in marks.iter().enumerate() {
            first.entry(mark.number).or_insert(line);
        }
        let is_named = |line: usize| first[&marks[line].number] < line;
        let (early, late): (Vec<usize>, Vec<usize>) =
            (0..marks.len()).partition(|&line| marks[line].is_reuse());
        let mut verdicts = vec![0; marks.len()];
        for line in early {
            verdicts[line] = self.verdict(&marks[line], is_named(line));
        }
        // No line that isn't judged yet is one of `cse`.
        let gained = gained_uses(marks, &verdicts);
        for line in late {
            verdicts[line] = self.verdict_beside(&marks[line], is_named(line), &gained);
        }
        verdicts
    }
}

/// The uses that statements gain by the `cse` lines among these that are accepted.
pub fn gained_uses(marks: &[Mark], verdicts: &[u8]) -> Vec<GainedUse> {
    let accepted = marks.iter().zip(verdicts).filter(|(_, &verdict)| verdict == 0);
    accepted
        .filter(|(mark, _)| mark.is_reuse())
        .map(|(mark, _)| (mark.variable, mark.number as usize - 1))
        .collect()
}

/// The program with all accepted marks made.
pub fn rewritten(program: &Program, marks: &[Mark], verdicts: &[u8]) -> Program {
    let mut statements = program.statements().to_vec();
    for (mark, _) in marks.iter().zip(verdicts).filter(|(_, &verdict)| verdict == 0) {
        let statement = &mut statements[mark.number as usize - 1];
        *statement = mark.made(statement);
    }
    Program::new(statements).expect("marks keep reads, writes and targets")
}

/// The call: fills verdicts and new text; the number of marks, of accepted ones and of bytes of new text,
/// or the refusal, 1, 2 to 5, 9 or 10.
pub fn judge(
    program: &[u8],
    marks: &[u8],
    verdicts: &mut [u8],
    text: &mut [u8],
) -> Result<(u32, u32, u32), u8> {
    if verdicts.len() < VERDICT_BYTES || text.len() < TEXT_BYTES {
        return Err(1);
    }
    let program = Program::read(program)?;
    let marks = read(marks)?;
    let found = Judge::new(&program).verdicts(&marks);
    let new_text = rewritten(&program, &marks, &found).text();
    verdicts[..found.len()].copy_from_slice(&found);
    text[..new_text.len()].copy_from_slice(&new_text);
    let accepted = found.iter().filter(|&&verdict| verdict == 0).count();
    Ok((marks.len() as u32, accepted as u32, new_text.len() as u32))
}

/// The call: where line `line` of a list lies, counted from 0, its byte 10 included; or the refusal, 9 or 10. A line begins
/// where the text of the marks before it ends, and ends where the next begins, so at and beyond the number of marks both are
/// the text's length.
pub fn mark_line(list: &[u8], line: u32) -> Result<Range<usize>, u8> {
    let marks = read(list)?;
    let begin_of = |line: usize| text(&marks[..line.min(marks.len())]).len();
    let line = line as usize;
    Ok(begin_of(line)..begin_of(line.saturating_add(1)))
}
