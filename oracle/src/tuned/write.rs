//! A program's text written.

use crate::program::{Expression, Operand, Operator, Statement, LARGEST};

/// Writes into a lent text, which has room for any program.
pub struct Writer<'a> {
    text: &'a mut [u8],
    at: usize,
}

impl<'a> Writer<'a> {
    pub fn new(text: &'a mut [u8]) -> Writer<'a> {
        Writer { text, at: 0 }
    }

    /// The bytes written so far.
    pub fn written(&self) -> u32 {
        self.at as u32
    }

    #[inline(always)]
    fn word(&mut self, word: &[u8]) {
        self.text[self.at..self.at + word.len()].copy_from_slice(word);
        self.at += word.len();
    }

    fn number(&mut self, mut number: u32) {
        let (mut digits, mut start) = ([0; 10], 10);
        loop {
            start -= 1;
            digits[start] = b'0' + (number % 10) as u8;
            number /= 10;
            if number == 0 {
                break;
            }
        }
        self.word(&digits[start..]);
    }

    /// A constant below zero, from its bits.
    #[cold]
    fn negative(&mut self, bits: u32) {
        self.word(b"-");
        self.number(bits.wrapping_neg());
    }

    fn variable(&mut self, x: u8) {
        self.word(b"i");
        self.number(u32::from(x));
    }

    fn operand(&mut self, operand: Operand) {
        match operand {
            Operand::Variable(x) => self.variable(x),
            Operand::Constant(c) if c > LARGEST => self.negative(c),
            Operand::Constant(c) => self.number(c),
        }
    }

    /// A statement, and its byte 10.
    pub fn statement(&mut self, statement: &Statement) {
        match *statement {
            Statement::Read(x) => {
                self.word(b"read ");
                self.variable(x);
            }
            Statement::Write(x) => {
                self.word(b"write ");
                self.variable(x);
            }
            Statement::Skip => self.word(b"skip"),
            Statement::Branch { tested, then, other } => {
                self.word(b"if ");
                self.variable(tested);
                self.word(b" goto ");
                self.number(then);
                self.word(b" else ");
                self.number(other);
            }
            Statement::Assign(x, right) => {
                self.variable(x);
                self.word(b" := ");
                match right {
                    Expression::Single(a) => self.operand(a),
                    Expression::Pair(a, operator, b) => {
                        self.operand(a);
                        self.word(match operator {
                            Operator::Plus => b" + ",
                            Operator::Minus => b" - ",
                            Operator::Times => b" * ",
                            Operator::Divide => b" / ",
                            Operator::Less => b" < ",
                            Operator::Equal => b" = ",
                        });
                        self.operand(b);
                    }
                }
            }
        }
        self.word(b"\n");
    }
}
