//! Tables of conditions, row by row.

use super::filled::Filled;
use super::flow::{and, is_short, or, put, without, At, Flow, Row, SHORT};
use super::read::{Cursor, Program};
use crate::condition::{words_of, LONGEST_TEXT, MOST_PARTS, PART_WORDS, TABLE_WORDS};
use crate::condition::{Atom, Demand, Direction, Part, Quantifier};
use crate::program::{Expression, Operand, FIRST_KEPT, KEPT, VARIABLES};

/// The statements that define each variable, and those that use it.
pub struct Rows<const W: usize> {
    pub defining: [Row<W>; VARIABLES as usize],
    pub using: [Row<W>; VARIABLES as usize],
}

impl<const W: usize> Rows<W> {
    pub fn new(program: &Program) -> Rows<W> {
        use crate::program::Statement;
        let none = [[0; W]; VARIABLES as usize];
        let mut rows = Rows { defining: none, using: none };
        for (at, statement) in program.statements().iter().enumerate() {
            let at = at as At;
            match *statement {
                Statement::Read(x) => put(&mut rows.defining[usize::from(x)], at),
                Statement::Write(x) => {
                    put(&mut rows.using[usize::from(x)], at);
                    // What the unit keeps is used when the run ends.
                    let first = usize::from(FIRST_KEPT);
                    rows.using[first..first + KEPT].iter_mut().for_each(|row| put(row, at));
                }
                Statement::Branch { tested, .. } => put(&mut rows.using[usize::from(tested)], at),
                Statement::Skip => {}
                Statement::Assign(x, right) => {
                    put(&mut rows.defining[usize::from(x)], at);
                    let (a, b) = operands(&right);
                    for operand in [a, b] {
                        if let Operand::Variable(y) = operand {
                            put(&mut rows.using[usize::from(y)], at);
                        }
                    }
                }
            }
        }
        rows
    }

    /// Where no variable of an expression is defined.
    pub fn transparent(&self, all: &Row<W>, expression: &Expression) -> Row<W> {
        let (a, b) = operands(expression);
        let mut row = *all;
        for operand in [a, b] {
            if let Operand::Variable(x) = operand {
                row = without(&row, &self.defining[usize::from(x)]);
            }
        }
        row
    }
}

/// Both operands; the same twice where there is one.
fn operands(expression: &Expression) -> (Operand, Operand) {
    match *expression {
        Expression::Single(a) => (a, a),
        Expression::Pair(a, _, b) => (a, b),
    }
}

/// Where the parts of a condition go as they are read.
pub trait Parts {
    /// Adds a part, and tells the number that names it as an operand.
    fn add(&mut self, part: Part) -> usize;
}

/// The parts of a condition, as many as may be; all are counted.
pub struct List {
    pub parts: Filled<Part, MOST_PARTS>,
}

impl Parts for List {
    fn add(&mut self, part: Part) -> usize {
        self.parts.push(part);
        self.parts.count() - 1
    }
}

impl List {
    pub fn new() -> List {
        List { parts: Filled::new() }
    }

    pub fn read(&mut self, text: &[u8]) -> Result<(), u8> {
        read(self, text)?;
        if self.parts.count() > MOST_PARTS {
            return Err(8);
        }
        Ok(())
    }
}

/// Adds the parts of a condition; the number of the whole, or the refusal, 6 or 7.
pub fn read(parts: &mut impl Parts, text: &[u8]) -> Result<usize, u8> {
    if text.len() > LONGEST_TEXT {
        return Err(6);
    }
    let mut cursor = Cursor::new(text);
    let whole = condition(parts, &mut cursor).ok_or(7)?;
    if !cursor.is_at_end() {
        return Err(7);
    }
    Ok(whole)
}

fn condition(parts: &mut impl Parts, cursor: &mut Cursor<'_>) -> Option<usize> {
    match cursor.peek() {
        b'!' => {
            cursor.pass();
            let p = condition(parts, cursor)?;
            Some(parts.add(Part::Not(p)))
        }
        b'(' => {
            cursor.pass();
            let p = condition(parts, cursor)?;
            cursor.byte(b' ')?;
            let sign = cursor.peek();
            cursor.pass();
            cursor.byte(b' ')?;
            let q = condition(parts, cursor)?;
            cursor.byte(b')')?;
            match sign {
                b'&' => Some(parts.add(Part::And(p, q))),
                b'|' => Some(parts.add(Part::Or(p, q))),
                _ => None,
            }
        }
        b'E' => {
            cursor.pass();
            paths(parts, cursor, Quantifier::Some)
        }
        b'A' => {
            cursor.pass();
            paths(parts, cursor, Quantifier::All)
        }
        _ => {
            let atom = atom(cursor)?;
            Some(parts.add(Part::Atom(atom)))
        }
    }
}

fn paths(parts: &mut impl Parts, cursor: &mut Cursor<'_>, quantifier: Quantifier) -> Option<usize> {
    let letter = cursor.peek();
    cursor.pass();
    if letter == b'[' {
        let p = condition(parts, cursor)?;
        cursor.byte(b' ')?;
        let letter = cursor.peek();
        cursor.pass();
        cursor.byte(b' ')?;
        let q = condition(parts, cursor)?;
        cursor.byte(b']')?;
        let (direction, demand) = match letter {
            b'U' => (Direction::Forward, Demand::Until(p, q)),
            b'W' => (Direction::Forward, Demand::Weak(p, q)),
            b'S' => (Direction::Backward, Demand::Until(p, q)),
            b'B' => (Direction::Backward, Demand::Weak(p, q)),
            _ => return None,
        };
        return Some(parts.add(Part::Path(quantifier, direction, demand)));
    }
    if !b"XFGYRM".contains(&letter) {
        return None;
    }
    cursor.byte(b' ')?;
    let p = condition(parts, cursor)?;
    Some(parts.add(match letter {
        b'X' => Part::Next(quantifier, Direction::Forward, p),
        b'Y' => Part::Next(quantifier, Direction::Backward, p),
        b'F' => Part::Path(quantifier, Direction::Forward, Demand::Finally(p)),
        b'R' => Part::Path(quantifier, Direction::Backward, Demand::Finally(p)),
        b'G' => Part::Path(quantifier, Direction::Forward, Demand::Globally(p)),
        _ => Part::Path(quantifier, Direction::Backward, Demand::Globally(p)),
    }))
}

fn atom(cursor: &mut Cursor<'_>) -> Option<Atom> {
    let atom = match cursor.peek() {
        b't' => {
            if cursor.word(b"true").is_some() {
                return Some(Atom::True);
            }
            cursor.word(b"trans(")?;
            Atom::Trans(cursor.expression()?)
        }
        b'f' => return cursor.word(b"false").map(|_| Atom::False),
        b'e' => {
            if cursor.word(b"entry").is_some() {
                return Some(Atom::Entry);
            }
            return cursor.word(b"exit").map(|_| Atom::Exit);
        }
        b'n' => {
            cursor.word(b"node(")?;
            Atom::Node(cursor.number()?)
        }
        b's' => {
            cursor.word(b"stmt(")?;
            Atom::Stmt(cursor.statement()?)
        }
        b'd' => {
            cursor.word(b"def(")?;
            Atom::Def(cursor.variable()?)
        }
        b'u' => {
            cursor.word(b"use(")?;
            Atom::Use(cursor.variable()?)
        }
        _ => return None,
    };
    cursor.byte(b')')?;
    Some(atom)
}

/// The statements at which an atom holds.
fn atom_row<const W: usize>(
    program: &Program,
    flow: &Flow<W>,
    rows: &Rows<W>,
    atom: &Atom,
) -> Row<W> {
    let mut row = [0; W];
    match atom {
        Atom::True => row = flow.all,
        Atom::False => {}
        Atom::Entry => put(&mut row, 0),
        Atom::Exit => put(&mut row, (flow.count - 1) as At),
        Atom::Node(n) => {
            if (1..=flow.count as u32).contains(n) {
                put(&mut row, (n - 1) as At);
            }
        }
        Atom::Stmt(wanted) => {
            for (at, statement) in program.statements().iter().enumerate() {
                if statement == wanted {
                    put(&mut row, at as At);
                }
            }
        }
        Atom::Def(x) => row = rows.defining[usize::from(*x)],
        Atom::Use(x) => row = rows.using[usize::from(*x)],
        Atom::Trans(e) => row = rows.transparent(&flow.all, e),
    }
    row
}

/// The statements at which an operator holds on paths: by E U and A U alone, since no path has `p W q` exactly
/// where each has `!q` until neither.
fn path_row<const W: usize>(
    flow: &Flow<W>,
    quantifier: Quantifier,
    direction: Direction,
    p: &Row<W>,
    q: &Row<W>,
    weak: bool,
) -> Row<W> {
    let all = &flow.all;
    let (not_q, neither) = (without(all, q), without(&without(all, p), q));
    match (quantifier, weak) {
        (Quantifier::Some, false) => flow.some_until(direction, p, q),
        (Quantifier::All, false) => flow.all_until(direction, p, q),
        (Quantifier::Some, true) => without(all, &flow.all_until(direction, &not_q, &neither)),
        (Quantifier::All, true) => without(all, &flow.some_until(direction, &not_q, &neither)),
    }
}

/// What rows are made from.
pub struct Found<'a, const W: usize> {
    pub program: &'a Program,
    pub flow: Flow<W>,
    rows: Rows<W>,
}

impl<'a, const W: usize> Found<'a, W> {
    pub fn new(program: &'a Program) -> Found<'a, W> {
        Found { program, flow: Flow::new(program), rows: Rows::new(program) }
    }

    /// The statements at which a part holds, from the rows of its operands.
    #[inline(always)]
    pub fn row(&self, part: &Part, done: &[Row<W>]) -> Row<W> {
        let flow = &self.flow;
        match *part {
            Part::Atom(atom) => atom_row(self.program, flow, &self.rows, &atom),
            Part::Not(p) => without(&flow.all, &done[p]),
            Part::And(p, q) => and(&done[p], &done[q]),
            Part::Or(p, q) => or(&done[p], &done[q]),
            Part::Next(Quantifier::Some, direction, p) => flow.some_next(direction, &done[p]),
            Part::Next(Quantifier::All, direction, p) => {
                let others = without(&flow.all, &done[p]);
                without(&flow.all, &flow.some_next(direction, &others))
            }
            Part::Path(quantifier, direction, demand) => {
                let (p, q, weak) = match demand {
                    Demand::Finally(p) => (&flow.all, &done[p], false),
                    Demand::Globally(p) => (&done[p], &[0; W], true),
                    Demand::Until(p, q) => (&done[p], &done[q], false),
                    Demand::Weak(p, q) => (&done[p], &done[q], true),
                };
                path_row(flow, quantifier, direction, p, q, weak)
            }
        }
    }
}

/// How many statements a row has, and the first of them, 0 if none.
pub fn counted<const W: usize>(row: &Row<W>) -> (u32, u32) {
    let satisfied = row.iter().map(|word| word.count_ones()).sum();
    let first = (0..W)
        .find(|&word| row[word] != 0)
        .map_or(0, |word| 64 * word as u32 + row[word].trailing_zeros() + 1);
    (satisfied, first)
}

/// The call: fills the table; the number of parts, of satisfying statements and the first of these, or the
/// refusal, 1, 2 to 5 or 6 to 8.
pub fn tabulate(
    program: &[u8],
    condition: &[u8],
    table: &mut [u64],
) -> Result<(u32, u32, u32), u8> {
    if table.len() < TABLE_WORDS {
        return Err(1);
    }
    let mut given = Program::empty();
    given.read(program)?;
    tabulate_program(&given, condition, table)
}

/// The row of the whole condition in a table of so many parts.
pub fn whole<const W: usize>(table: &[u64], parts: u32) -> Row<W> {
    let last = PART_WORDS * (parts as usize - 1);
    table[last..][..W].try_into().expect("so many words")
}

/// Puts a row into the words of a part.
#[inline(always)]
pub fn put_row<const W: usize>(table: &mut [u64], part: usize, row: &Row<W>) {
    let (front, rest) = words_of(table, part).split_at_mut(W);
    front.copy_from_slice(row);
    rest.fill(0);
}

/// The same of a program that is read, into a table that is large enough.
#[inline(always)]
pub fn tabulate_program(
    program: &Program,
    condition: &[u8],
    table: &mut [u64],
) -> Result<(u32, u32, u32), u8> {
    let mut list = List::new();
    list.read(condition)?;
    let parts = list.parts.items();
    let (satisfied, first) = if is_short(program) {
        fill::<SHORT>(program, parts, table)
    } else {
        fill::<PART_WORDS>(program, parts, table)
    };
    Ok((parts.len() as u32, satisfied, first))
}

/// Fills the rows of a condition's parts; tells how many statements satisfy the last, and the first of these.
fn fill<const W: usize>(program: &Program, parts: &[Part], table: &mut [u64]) -> (u32, u32) {
    let found = Found::<W>::new(program);
    let mut done: Filled<Row<W>, MOST_PARTS> = Filled::new();
    for (k, part) in parts.iter().enumerate() {
        let row = found.row(part, done.items());
        done.push(row);
        put_row(table, k, &row);
    }
    done.items().last().map_or((0, 0), counted)
}
