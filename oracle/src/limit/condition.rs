//! Conditions to postfix: parts in the order in which their text ends, so that the right operand of each is the part before it.
//! What is open stands on a stack, and nothing is called again within itself.

use super::read::{as_set, unset, word, Instruction, Source, Window, Words};
use super::read::{COPY, EMPTY_TAIL, FIVE_BYTES, SIX_BYTES};
use crate::condition::{Direction, Quantifier, LONGEST_TEXT, MOST_PARTS};
use crate::program::{LARGEST, MOST_LINES};
use std::mem::MaybeUninit;

/// Paths of which an operator speaks.
#[derive(Clone, Copy)]
pub struct Paths {
    pub quantifier: Quantifier,
    pub direction: Direction,
}

/// A part; operators with two operands have the number of the left one.
#[derive(Clone, Copy)]
pub enum Part {
    True,
    False,
    Entry,
    Exit,
    Node(u32),
    Stmt(Instruction),
    Def(u8),
    Use(u8),
    /// The places of the operands, the same twice where there is one.
    Trans([u16; 2]),
    Not,
    And(u16),
    Or(u16),
    Next(Paths),
    Finally(Paths),
    Globally(Paths),
    Until(Paths, u16),
    Weak(Paths, u16),
}

/// As many parts as may be; further ones are counted and not held.
pub struct Parts {
    items: [MaybeUninit<Part>; MOST_PARTS],
    count: usize,
}

impl Parts {
    #[inline(always)]
    pub fn empty() -> Parts {
        Parts { items: unset(), count: 0 }
    }

    #[inline(always)]
    fn push(&mut self, part: Part) {
        if let Some(place) = self.items.get_mut(self.count) {
            *place = MaybeUninit::new(part);
        }
        self.count += 1;
    }

    pub fn items(&self) -> &[Part] {
        // SAFETY: so many were put.
        unsafe { as_set(&self.items[..self.count.min(MOST_PARTS)]) }
    }
}

/// What is open: an operator before its one operand or its right one, which a byte closes, or one before its left operand.
#[derive(Clone, Copy)]
enum Open {
    Unary(Part),
    Round,
    Square(Quantifier),
    Right(Part, u8),
}

/// What is open at a place; each takes a byte at least.
struct Stack {
    items: [MaybeUninit<Open>; LONGEST_TEXT],
    count: usize,
}

impl Stack {
    #[inline(always)]
    fn push(&mut self, open: Open) {
        self.items[self.count] = MaybeUninit::new(open);
        self.count += 1;
    }

    #[inline(always)]
    fn pop(&mut self) -> Option<Open> {
        self.count = self.count.checked_sub(1)?;
        // SAFETY: those up to the count were put.
        Some(unsafe { self.items[self.count].assume_init() })
    }
}

const TRUE_WORD: u32 = word(b"true") as u32;
const FALSE_WORD: u64 = word(b"false");
const ENTRY_WORD: u64 = word(b"entry");
const EXIT_WORD: u32 = word(b"exit") as u32;
const NODE_WORD: u64 = word(b"node(");
const STMT_WORD: u64 = word(b"stmt(");
const TRANS_WORD: u64 = word(b"trans(");
const DEF_WORD: u64 = word(b"def(i");
const USE_WORD: u64 = word(b"use(i");

/// The atom that stands here, and the place behind it.
#[inline(always)]
fn atom(words: &mut Words, text: Window) -> Option<(Part, usize)> {
    let head = text.eight(0);
    let five = head & FIVE_BYTES;
    let (part, at) = match five {
        DEF_WORD | USE_WORD => {
            let (x, at) = words.variable(text, 4);
            (if five == DEF_WORD { Part::Def(x) } else { Part::Use(x) }, at)
        }
        STMT_WORD => {
            words.farthest = 0;
            let (step, at) = words.statement(text, 5);
            // No program has such a target.
            let is_lacking = words.farthest > MOST_LINES as u32 - 2;
            (if is_lacking { Part::False } else { Part::Stmt(step) }, at)
        }
        NODE_WORD => {
            let (number, at) = words.number(text, 5, LARGEST);
            (Part::Node(number), at)
        }
        FALSE_WORD => return Some((Part::False, 5)),
        ENTRY_WORD => return Some((Part::Entry, 5)),
        _ if head as u32 == TRUE_WORD => return Some((Part::True, 4)),
        _ if head as u32 == EXIT_WORD => return Some((Part::Exit, 4)),
        _ if head & SIX_BYTES == TRANS_WORD => {
            let (code, [a, b], at) = words.right(text, 6);
            (Part::Trans([a, if code == COPY { a } else { b }]), at)
        }
        _ => return None,
    };
    words.wrong |= u64::from(text.four(at) as u8 ^ b')');
    Some((part, at + 1))
}

/// The operator of these letters and a space, before its one operand.
#[inline(always)]
fn unary(head: u32) -> Option<Part> {
    let quantifier = if head as u8 == b'E' { Quantifier::Some } else { Quantifier::All };
    let (forward, backward) = (Direction::Forward, Direction::Backward);
    let paths = |direction| Paths { quantifier, direction };
    if (head >> 16) as u8 != b' ' {
        return None;
    }
    Some(match (head >> 8) as u8 {
        b'X' => Part::Next(paths(forward)),
        b'F' => Part::Finally(paths(forward)),
        b'G' => Part::Globally(paths(forward)),
        b'Y' => Part::Next(paths(backward)),
        b'R' => Part::Finally(paths(backward)),
        b'M' => Part::Globally(paths(backward)),
        _ => return None,
    })
}

/// The operator between two operands, by a space, its sign and a space.
#[inline(always)]
fn between(head: u32, quantifier: Quantifier, left: u16) -> Option<Part> {
    let (forward, backward) = (Direction::Forward, Direction::Backward);
    let paths = |direction| Paths { quantifier, direction };
    if head & 0x00ff_00ff != 0x0020_0020 {
        return None;
    }
    Some(match (head >> 8) as u8 {
        b'U' => Part::Until(paths(forward), left),
        b'W' => Part::Weak(paths(forward), left),
        b'S' => Part::Until(paths(backward), left),
        b'B' => Part::Weak(paths(backward), left),
        _ => return None,
    })
}

/// The sign between two operands in round brackets.
#[inline(always)]
fn sign(head: u32, left: u16) -> Option<Part> {
    match head & 0x00ff_ffff {
        0x0020_2620 => Some(Part::And(left)),
        0x0020_7c20 => Some(Part::Or(left)),
        _ => None,
    }
}

/// Fills the parts; whether the text spells a condition.
fn postfix(text: &[u8], words: &mut Words, parts: &mut Parts) -> Option<()> {
    let mut tail = EMPTY_TAIL;
    let source = Source::new(text, &mut tail);
    let mut stack = Stack { items: unset(), count: 0 };
    let mut at = 0;
    while at < text.len() {
        let here = source.window(at);
        let head = here.four(0);
        match head as u8 {
            b'!' => {
                stack.push(Open::Unary(Part::Not));
                at += 1;
                continue;
            }
            b'(' => {
                stack.push(Open::Round);
                at += 1;
                continue;
            }
            b'E' | b'A' if (head >> 8) as u8 == b'[' => {
                let some = head as u8 == b'E';
                stack.push(Open::Square(if some { Quantifier::Some } else { Quantifier::All }));
                at += 2;
                continue;
            }
            b'E' | b'A' => {
                stack.push(Open::Unary(unary(head)?));
                at += 3;
                continue;
            }
            _ => {
                let (part, length) = atom(words, here)?;
                if words.wrong != 0 {
                    return None;
                }
                parts.push(part);
                at += length;
            }
        }
        // Behind an operand.
        loop {
            let open = match stack.pop() {
                Some(Open::Unary(part)) => {
                    parts.push(part);
                    continue;
                }
                None => return (at == text.len()).then_some(()),
                Some(open) if at < text.len() => open,
                Some(_) => return None,
            };
            let (head, left) = (source.window(at).four(0), parts.count as u16 - 1);
            match open {
                Open::Right(part, close) if head as u8 == close => {
                    parts.push(part);
                    at += 1;
                    continue;
                }
                Open::Round => stack.push(Open::Right(sign(head, left)?, b')')),
                Open::Square(quantifier) => {
                    stack.push(Open::Right(between(head, quantifier, left)?, b']'))
                }
                _ => return None,
            }
            at += 3;
            break;
        }
    }
    None
}

/// Fills the parts of a condition; or the refusal, 6 to 8.
pub fn read(text: &[u8], words: &mut Words, parts: &mut Parts) -> Result<(), u8> {
    if text.len() > LONGEST_TEXT {
        return Err(6);
    }
    postfix(text, words, parts).ok_or(7)?;
    if parts.count > MOST_PARTS {
        return Err(8);
    }
    Ok(())
}
