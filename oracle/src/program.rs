//! Shift programs: reading any bytes and writing a program's text.
//!
//! Each thing has exactly one spelling. It is read leniently, spelled again, and taken only where that
//! spelling equals the bytes that were read.

use std::fmt;

/// The largest constant and the largest statement number that can be spelled.
pub const LARGEST: u32 = 2_147_483_647;

/// The bits of the least constant, -2147483648.
pub const LEAST: u32 = i32::MIN as u32;

/// The number of variables, `i0` to `i63`.
pub const VARIABLES: u8 = 64;

/// The first of the variables that the unit keeps from one pass to the next, and how many there are: `i24` to
/// `i31`.
pub const FIRST_KEPT: u8 = 24;
pub const KEPT: usize = 8;

/// The largest number of lines of a program.
pub const MOST_LINES: usize = 1_024;

/// The bytes in which a statement's line has room, its byte 10 included.
pub const LINE_BYTES: usize = 34;

/// Whether the unit keeps a variable from one pass to the next.
pub fn is_kept(x: u8) -> bool {
    x >= FIRST_KEPT && usize::from(x - FIRST_KEPT) < KEPT
}

#[derive(Clone, Copy, Debug, PartialEq, Eq, Hash)]
pub enum Operand {
    Variable(u8),
    /// The 32 bits of a number from -2147483648 to 2147483647.
    Constant(u32),
}

#[derive(Clone, Copy, Debug, PartialEq, Eq, Hash)]
pub enum Operator {
    Plus,
    Minus,
    Times,
    Divide,
    Less,
    Equal,
}

#[derive(Clone, Copy, Debug, PartialEq, Eq, Hash)]
pub enum Expression {
    Single(Operand),
    Pair(Operand, Operator, Operand),
}

#[derive(Clone, Copy, Debug, PartialEq, Eq, Hash)]
pub enum Statement {
    Read(u8),
    Write(u8),
    Assign(u8, Expression),
    Branch { tested: u8, then: u32, other: u32 },
    Skip,
}

/// A program that is taken: none of the refusals 2 to 5 applies to its text.
#[derive(Clone, Debug, PartialEq, Eq)]
pub struct Program {
    statements: Vec<Statement>,
}

/// A decimal number up to `LARGEST`; leading zeros and a plus sign pass here.
pub(crate) fn number(word: &[u8]) -> Option<u32> {
    let value: u32 = std::str::from_utf8(word).ok()?.parse().ok()?;
    Some(value).filter(|&value| value <= LARGEST)
}

/// A constant's bits; leading zeros and either sign pass here, also before a zero.
fn constant(word: &[u8]) -> Option<u32> {
    let value: i32 = std::str::from_utf8(word).ok()?.parse().ok()?;
    Some(value as u32)
}

/// A variable, its number read as leniently as any.
pub(crate) fn variable(word: &[u8]) -> Option<u8> {
    let value = number(word.strip_prefix(b"i")?)?;
    u8::try_from(value).ok().filter(|&x| x < VARIABLES)
}

fn operand(word: &[u8]) -> Option<Operand> {
    variable(word).map(Operand::Variable).or_else(|| constant(word).map(Operand::Constant))
}

fn operator(word: &[u8]) -> Option<Operator> {
    match word {
        b"+" => Some(Operator::Plus),
        b"-" => Some(Operator::Minus),
        b"*" => Some(Operator::Times),
        b"/" => Some(Operator::Divide),
        b"<" => Some(Operator::Less),
        b"=" => Some(Operator::Equal),
        _ => None,
    }
}

/// The first words of a text, one more than any statement has at most, without the spaces around them.
fn words(text: &[u8]) -> Vec<&[u8]> {
    text.split(|&byte| byte == b' ').filter(|word| !word.is_empty()).take(7).collect()
}

fn expression_of(words: &[&[u8]]) -> Option<Expression> {
    match words {
        [a] => Some(Expression::Single(operand(a)?)),
        [a, o, b] => Some(Expression::Pair(operand(a)?, operator(o)?, operand(b)?)),
        _ => None,
    }
}

/// An expression, its spaces and numbers read leniently.
pub(crate) fn expression(text: &[u8]) -> Option<Expression> {
    expression_of(&words(text))
}

/// A statement, its spaces and numbers read leniently.
fn statement(text: &[u8]) -> Option<Statement> {
    let words = words(text);
    match words.as_slice() {
        [b"skip"] => Some(Statement::Skip),
        [b"read", x] => Some(Statement::Read(variable(x)?)),
        [b"write", x] => Some(Statement::Write(variable(x)?)),
        [b"if", x, b"goto", n, b"else", m] => {
            Some(Statement::Branch { tested: variable(x)?, then: number(n)?, other: number(m)? })
        }
        [x, b":=", right @ ..] => Some(Statement::Assign(variable(x)?, expression_of(right)?)),
        _ => None,
    }
}

impl Operand {
    pub fn mentions(&self, x: u8) -> bool {
        *self == Operand::Variable(x)
    }
}

impl Expression {
    pub fn operands(&self) -> Vec<Operand> {
        match *self {
            Expression::Single(a) => vec![a],
            Expression::Pair(a, _, b) => vec![a, b],
        }
    }

    pub fn mentions(&self, x: u8) -> bool {
        match self {
            Expression::Single(a) => a.mentions(x),
            Expression::Pair(a, _, b) => a.mentions(x) || b.mentions(x),
        }
    }

    /// Whether there are values with which it has none: it divides, and not by a constant other than 0.
    pub fn may_fault(&self) -> bool {
        match *self {
            Expression::Pair(_, Operator::Divide, Operand::Variable(_)) => true,
            Expression::Pair(_, Operator::Divide, Operand::Constant(divisor)) => divisor == 0,
            _ => false,
        }
    }

    /// The expression with `by` for every mention of `x`.
    pub fn replaced(&self, x: u8, by: Operand) -> Expression {
        let change = |a: Operand| if a.mentions(x) { by } else { a };
        match *self {
            Expression::Single(a) => Expression::Single(change(a)),
            Expression::Pair(a, o, b) => Expression::Pair(change(a), o, change(b)),
        }
    }
}

impl Statement {
    /// The statement that these bytes spell exactly; its numbers may be any that can be spelled.
    pub fn read(text: &[u8]) -> Option<Statement> {
        statement(text).filter(|statement| statement.to_string().as_bytes() == text)
    }

    /// The variable that the statement defines.
    pub fn defined(&self) -> Option<u8> {
        match *self {
            Statement::Read(x) | Statement::Assign(x, _) => Some(x),
            _ => None,
        }
    }

    pub fn defines(&self, x: u8) -> bool {
        self.defined() == Some(x)
    }

    /// Whether the text shows a variable as used: in the right side, tested or written.
    pub fn shows(&self, x: u8) -> bool {
        match self {
            Statement::Assign(_, right) => right.mentions(x),
            Statement::Branch { tested, .. } => *tested == x,
            Statement::Write(written) => *written == x,
            Statement::Read(_) | Statement::Skip => false,
        }
    }

    /// Whether a variable is used: shown so, or kept when the run ends.
    pub fn uses(&self, x: u8) -> bool {
        self.shows(x) || (matches!(self, Statement::Write(_)) && is_kept(x))
    }
}

impl Program {
    /// The program that these bytes spell, or the refusal, 2 to 5.
    pub fn read(text: &[u8]) -> Result<Program, u8> {
        let mut statements = Vec::new();
        for line in text.split_inclusive(|&byte| byte == b'\n') {
            let body = line.strip_suffix(b"\n").ok_or(2)?;
            statements.push(Statement::read(body).ok_or(2)?);
        }
        Program::new(statements)
    }

    /// The program of these statements, all of which can be spelled, or the refusal, 3 to 5.
    pub fn new(statements: Vec<Statement>) -> Result<Program, u8> {
        let count = statements.len();
        if !(2..=MOST_LINES).contains(&count) {
            return Err(3);
        }
        let in_place = |(line, statement): (usize, &Statement)| {
            matches!(statement, Statement::Read(_)) == (line == 0)
                && matches!(statement, Statement::Write(_)) == (line == count - 1)
        };
        if !statements.iter().enumerate().all(in_place) {
            return Err(4);
        }
        let inside = |target: &u32| (2..=count).contains(&(*target as usize));
        let targets_inside = |statement: &Statement| match statement {
            Statement::Branch { then, other, .. } => inside(then) && inside(other),
            _ => true,
        };
        if !statements.iter().all(targets_inside) {
            return Err(5);
        }
        Ok(Program { statements })
    }

    /// All statements; number n stands at n - 1.
    pub fn statements(&self) -> &[Statement] {
        &self.statements
    }

    /// N, the number of statements.
    pub fn count(&self) -> u32 {
        self.statements.len() as u32
    }

    /// Statement `n`, counted from 1, if the program has it.
    pub fn statement(&self, n: u32) -> Option<&Statement> {
        self.statements.get((n as usize).checked_sub(1)?)
    }

    pub fn text(&self) -> Vec<u8> {
        self.to_string().into_bytes()
    }
}

impl fmt::Display for Operand {
    fn fmt(&self, f: &mut fmt::Formatter<'_>) -> fmt::Result {
        match self {
            Operand::Variable(x) => write!(f, "i{x}"),
            Operand::Constant(c) => write!(f, "{}", *c as i32),
        }
    }
}

impl fmt::Display for Operator {
    fn fmt(&self, f: &mut fmt::Formatter<'_>) -> fmt::Result {
        f.write_str(match self {
            Operator::Plus => "+",
            Operator::Minus => "-",
            Operator::Times => "*",
            Operator::Divide => "/",
            Operator::Less => "<",
            Operator::Equal => "=",
        })
    }
}

impl fmt::Display for Expression {
    fn fmt(&self, f: &mut fmt::Formatter<'_>) -> fmt::Result {
        match self {
            Expression::Single(a) => write!(f, "{a}"),
            Expression::Pair(a, o, b) => write!(f, "{a} {o} {b}"),
        }
    }
}

impl fmt::Display for Statement {
    fn fmt(&self, f: &mut fmt::Formatter<'_>) -> fmt::Result {
        match self {
            Statement::Read(x) => write!(f, "read i{x}"),
            Statement::Write(x) => write!(f, "write i{x}"),
            Statement::Assign(x, right) => write!(f, "i{x} := {right}"),
            Statement::Branch { tested, then, other } => {
                write!(f, "if i{tested} goto {then} else {other}")
            }
            Statement::Skip => f.write_str("skip"),
        }
    }
}

impl fmt::Display for Program {
    fn fmt(&self, f: &mut fmt::Formatter<'_>) -> fmt::Result {
        self.statements.iter().try_for_each(|statement| writeln!(f, "{statement}"))
    }
}
