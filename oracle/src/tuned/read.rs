//! Readers of the one spelling of each thing.

use super::filled::Filled;
use crate::marks::{Kind, Mark, MOST_MARKS};
use crate::program::{
    Expression, Operand, Operator, Statement, LARGEST, LEAST, MOST_LINES, VARIABLES,
};

pub struct Cursor<'a> {
    text: &'a [u8],
    at: usize,
}

impl<'a> Cursor<'a> {
    pub fn new(text: &'a [u8]) -> Cursor<'a> {
        Cursor { text, at: 0 }
    }

    pub fn is_at_end(&self) -> bool {
        self.at == self.text.len()
    }

    /// The next byte, 0 at the end: no spelling has a 0.
    #[inline(always)]
    pub fn peek(&self) -> u8 {
        self.text.get(self.at).copied().unwrap_or(0)
    }

    #[inline(always)]
    pub fn pass(&mut self) {
        self.at += 1;
    }

    #[inline(always)]
    pub fn byte(&mut self, wanted: u8) -> Option<()> {
        if self.peek() != wanted {
            return None;
        }
        self.pass();
        Some(())
    }

    #[inline(always)]
    pub fn word(&mut self, wanted: &[u8]) -> Option<()> {
        if !self.text[self.at..].starts_with(wanted) {
            return None;
        }
        self.at += wanted.len();
        Some(())
    }

    #[inline(always)]
    fn digit(&self) -> Option<u32> {
        let digit = self.peek().wrapping_sub(b'0');
        (digit < 10).then_some(u32::from(digit))
    }

    pub fn number(&mut self) -> Option<u32> {
        self.number_up_to(LARGEST)
    }

    #[inline(always)]
    fn number_up_to(&mut self, most: u32) -> Option<u32> {
        let mut value = u64::from(self.digit()?);
        self.pass();
        if value == 0 {
            return Some(0);
        }
        while let Some(digit) = self.digit() {
            value = 10 * value + u64::from(digit);
            if value > u64::from(most) {
                return None;
            }
            self.pass();
        }
        Some(value as u32)
    }

    /// A constant below zero, as its bits. It is tried only where no digit stands.
    #[cold]
    fn negative(&mut self) -> Option<u32> {
        self.byte(b'-')?;
        self.number_up_to(LEAST).filter(|&number| number != 0).map(u32::wrapping_neg)
    }

    pub fn variable(&mut self) -> Option<u8> {
        self.byte(b'i')?;
        let mut value = self.digit()?;
        self.pass();
        if value != 0 {
            if let Some(digit) = self.digit() {
                value = 10 * value + digit;
                self.pass();
            }
        }
        (value < u32::from(VARIABLES)).then_some(value as u8)
    }

    fn operand(&mut self) -> Option<Operand> {
        if self.peek() == b'i' {
            self.variable().map(Operand::Variable)
        } else {
            self.number().or_else(|| self.negative()).map(Operand::Constant)
        }
    }

    pub fn expression(&mut self) -> Option<Expression> {
        let a = self.operand()?;
        if self.peek() != b' ' {
            return Some(Expression::Single(a));
        }
        self.pass();
        let operator = match self.peek() {
            b'+' => Operator::Plus,
            b'-' => Operator::Minus,
            b'*' => Operator::Times,
            b'/' => Operator::Divide,
            b'<' => Operator::Less,
            b'=' => Operator::Equal,
            _ => return None,
        };
        self.pass();
        self.byte(b' ')?;
        Some(Expression::Pair(a, operator, self.operand()?))
    }

    pub fn statement(&mut self) -> Option<Statement> {
        match self.peek() {
            b'i' => {
                if self.text.get(self.at + 1) == Some(&b'f') {
                    self.word(b"if ")?;
                    let tested = self.variable()?;
                    self.word(b" goto ")?;
                    let then = self.number()?;
                    self.word(b" else ")?;
                    let other = self.number()?;
                    return Some(Statement::Branch { tested, then, other });
                }
                let x = self.variable()?;
                self.word(b" := ")?;
                Some(Statement::Assign(x, self.expression()?))
            }
            b's' => self.word(b"skip").map(|_| Statement::Skip),
            b'r' => {
                self.word(b"read ")?;
                self.variable().map(Statement::Read)
            }
            b'w' => {
                self.word(b"write ")?;
                self.variable().map(Statement::Write)
            }
            _ => None,
        }
    }

    fn mark(&mut self) -> Option<Mark> {
        let number = self.number()?;
        self.word(b": mark(")?;
        // The kinds differ in their second letter.
        let letter = self.text.get(self.at + 1).copied().unwrap_or(0);
        match letter {
            b'm' => self.word(b"rm, ")?,
            b's' => self.word(b"cse, ")?,
            _ => self.word(b"rpl, ")?,
        }
        let variable = self.variable()?;
        self.word(b", ")?;
        let kind = match letter {
            b'm' => Kind::Remove(self.expression()?),
            b's' => Kind::Reuse(self.expression()?),
            _ => Kind::Replace(self.operand()?),
        };
        self.byte(b')')?;
        Some(Mark { number, variable, kind })
    }
}

/// A program that is taken.
#[derive(Clone)]
pub struct Program {
    statements: Filled<Statement, MOST_LINES>,
}

impl Program {
    pub fn empty() -> Program {
        Program { statements: Filled::new() }
    }

    /// Fills an empty program; or the refusal, 2 to 5. It isn't answered, as with `List`.
    pub fn read(&mut self, text: &[u8]) -> Result<(), u8> {
        let mut cursor = Cursor::new(text);
        while !cursor.is_at_end() {
            let statement = cursor.statement().ok_or(2)?;
            cursor.byte(b'\n').ok_or(2)?;
            self.statements.push(statement);
        }
        let count = self.statements.count();
        if !(2..=MOST_LINES).contains(&count) {
            return Err(3);
        }
        let targets = 2..=count as u32;
        let (mut misplaced, mut outside) = (false, false);
        for (at, statement) in self.statements().iter().enumerate() {
            let (mut is_read, mut is_write) = (false, false);
            match statement {
                Statement::Read(_) => is_read = true,
                Statement::Write(_) => is_write = true,
                Statement::Branch { then, other, .. } => {
                    outside |= !targets.contains(then) || !targets.contains(other);
                }
                _ => {}
            }
            misplaced |= is_read != (at == 0) || is_write != (at + 1 == count);
        }
        if misplaced {
            return Err(4);
        }
        if outside {
            return Err(5);
        }
        Ok(())
    }

    pub fn statements(&self) -> &[Statement] {
        self.statements.items()
    }

    pub fn statements_mut(&mut self) -> &mut [Statement] {
        self.statements.items_mut()
    }
}

/// A list that is taken.
pub struct List {
    marks: Filled<Mark, MOST_MARKS>,
}

impl List {
    pub fn empty() -> List {
        List { marks: Filled::new() }
    }

    /// Fills an empty list. It isn't answered, since to move one takes as long as to read a dozen lines.
    pub fn read(&mut self, text: &[u8]) -> Result<(), u8> {
        let mut cursor = Cursor::new(text);
        while !cursor.is_at_end() {
            let mark = cursor.mark().ok_or(9)?;
            cursor.byte(b'\n').ok_or(9)?;
            self.marks.push(mark);
        }
        if self.marks.count() > MOST_MARKS {
            return Err(10);
        }
        Ok(())
    }

    pub fn marks(&self) -> &[Mark] {
        self.marks.items()
    }
}
