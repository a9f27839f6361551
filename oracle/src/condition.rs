//! Conditions: reading any bytes, and their truth by search for a path.
//!
//! An E operator holds where some path bears it out; the search looks for such a path. An A operator holds
//! where no path speaks against it; the search looks for one that does. A path that never arrives is found
//! as one that comes back to a statement it already holds.

use std::fmt::Write;
use std::ops::RangeInclusive;

use crate::program::{
    expression, number, variable, Expression, Program, Statement, MOST_LINES, VARIABLES,
};
use crate::steps::Steps;

/// The longest text of a condition, in bytes.
pub const LONGEST_TEXT: usize = 1_024;

/// The largest number of parts.
pub const MOST_PARTS: usize = 64;

/// The words of a part, in which each statement that a program may have is a bit.
pub const PART_WORDS: usize = MOST_LINES / 64;

/// The smallest table that may be lent, in words.
pub const TABLE_WORDS: usize = MOST_PARTS * PART_WORDS;

/// The words of a part of a table, counted from 0.
pub fn words_of(table: &mut [u64], part: usize) -> &mut [u64] {
    &mut table[PART_WORDS * part..][..PART_WORDS]
}

#[derive(Clone, Copy, Debug, PartialEq, Eq, Hash)]
pub enum Atom {
    True,
    False,
    Entry,
    Exit,
    Node(u32),
    Stmt(Statement),
    Def(u8),
    Use(u8),
    Trans(Expression),
}

#[derive(Clone, Copy, Debug, PartialEq, Eq, Hash)]
pub enum Quantifier {
    Some,
    All,
}

#[derive(Clone, Copy, Debug, PartialEq, Eq, Hash)]
pub enum Direction {
    Forward,
    Backward,
}

/// What is asked of a whole path: F, G, U and W, or R, M, S and B in their stead backward.
#[derive(Clone, Copy, Debug, PartialEq, Eq, Hash)]
pub enum Demand {
    Finally(usize),
    Globally(usize),
    Until(usize, usize),
    Weak(usize, usize),
}

/// A part of a condition; its operands are named by their own places in the list of parts.
#[derive(Clone, Copy, Debug, PartialEq, Eq, Hash)]
pub enum Part {
    Atom(Atom),
    Not(usize),
    And(usize, usize),
    Or(usize, usize),
    /// X, or Y backward.
    Next(Quantifier, Direction, usize),
    Path(Quantifier, Direction, Demand),
}

/// A condition: its parts in the order in which their text ends, so the last is the whole.
#[derive(Clone, Debug, PartialEq, Eq)]
pub struct Condition {
    parts: Vec<Part>,
}

/// Reads leniently: any number of spaces around each symbol, numbers as `program::number` takes them.
struct Reader<'a> {
    rest: &'a [u8],
    parts: Vec<Part>,
}

impl<'a> Reader<'a> {
    fn skip_spaces(&mut self) {
        while let Some(rest) = self.rest.strip_prefix(b" ") {
            self.rest = rest;
        }
    }

    /// The next byte behind spaces.
    fn symbol(&mut self) -> Option<u8> {
        self.skip_spaces();
        let (&first, rest) = self.rest.split_first()?;
        self.rest = rest;
        Some(first)
    }

    fn expect(&mut self, wanted: u8) -> Option<()> {
        self.symbol().filter(|&symbol| symbol == wanted).map(|_| ())
    }

    /// The letters next behind spaces, none if another byte stands there.
    fn word(&mut self) -> &'a [u8] {
        self.skip_spaces();
        let length = self.rest.iter().take_while(|byte| byte.is_ascii_alphabetic()).count();
        let (word, rest) = self.rest.split_at(length);
        self.rest = rest;
        word
    }

    /// What stands between an atom's brackets.
    fn argument(&mut self) -> Option<&'a [u8]> {
        self.expect(b'(')?;
        let length = self.rest.iter().position(|&byte| byte == b')')?;
        let (argument, rest) = self.rest.split_at(length);
        self.rest = &rest[1..];
        Some(argument)
    }

    fn add(&mut self, part: Part) -> usize {
        self.parts.push(part);
        self.parts.len() - 1
    }

    fn add_atom(&mut self, atom: Atom) -> usize {
        self.add(Part::Atom(atom))
    }

    /// The condition that comes next, as the place of its last part.
    fn condition(&mut self) -> Option<usize> {
        let word = self.word();
        match word {
            b"" => self.signed(),
            b"E" => self.bracketed(Quantifier::Some),
            b"A" => self.bracketed(Quantifier::All),
            [first @ (b'E' | b'A'), letter] => {
                let quantifier = if *first == b'E' { Quantifier::Some } else { Quantifier::All };
                let p = self.condition()?;
                Some(self.add(match letter {
                    b'X' => Part::Next(quantifier, Direction::Forward, p),
                    b'Y' => Part::Next(quantifier, Direction::Backward, p),
                    b'F' => Part::Path(quantifier, Direction::Forward, Demand::Finally(p)),
                    b'R' => Part::Path(quantifier, Direction::Backward, Demand::Finally(p)),
                    b'G' => Part::Path(quantifier, Direction::Forward, Demand::Globally(p)),
                    b'M' => Part::Path(quantifier, Direction::Backward, Demand::Globally(p)),
                    _ => return None,
                }))
            }
            b"true" => Some(self.add_atom(Atom::True)),
            b"false" => Some(self.add_atom(Atom::False)),
            b"entry" => Some(self.add_atom(Atom::Entry)),
            b"exit" => Some(self.add_atom(Atom::Exit)),
            _ => {
                let argument = self.argument()?;
                let atom = match word {
                    b"node" => Atom::Node(number(argument)?),
                    b"stmt" => Atom::Stmt(Statement::read(argument)?),
                    b"def" => Atom::Def(variable(argument)?),
                    b"use" => Atom::Use(variable(argument)?),
                    b"trans" => Atom::Trans(expression(argument)?),
                    _ => return None,
                };
                Some(self.add_atom(atom))
            }
        }
    }

    /// A condition that starts with `!` or `(`.
    fn signed(&mut self) -> Option<usize> {
        match self.symbol()? {
            b'!' => {
                let p = self.condition()?;
                Some(self.add(Part::Not(p)))
            }
            b'(' => {
                let p = self.condition()?;
                let sign = self.symbol()?;
                let q = self.condition()?;
                self.expect(b')')?;
                match sign {
                    b'&' => Some(self.add(Part::And(p, q))),
                    b'|' => Some(self.add(Part::Or(p, q))),
                    _ => None,
                }
            }
            _ => None,
        }
    }

    /// The rest of a condition that starts with `E[` or `A[`, behind its letter.
    fn bracketed(&mut self, quantifier: Quantifier) -> Option<usize> {
        self.expect(b'[')?;
        let p = self.condition()?;
        let letter = self.word();
        let q = self.condition()?;
        self.expect(b']')?;
        let (direction, demand) = match letter {
            b"U" => (Direction::Forward, Demand::Until(p, q)),
            b"W" => (Direction::Forward, Demand::Weak(p, q)),
            b"S" => (Direction::Backward, Demand::Until(p, q)),
            b"B" => (Direction::Backward, Demand::Weak(p, q)),
            _ => return None,
        };
        Some(self.add(Part::Path(quantifier, direction, demand)))
    }
}

/// How far a text can be read: every way to read it is tried, and the furthest byte that one of them came to
/// is kept. Each of them could have gone on there, so the text before that byte begins some spelling.
struct Trial<'a> {
    text: &'a [u8],
    furthest: usize,
}

impl Trial<'_> {
    /// Where the word ends that stands there.
    fn word(&mut self, at: usize, word: &str) -> Vec<usize> {
        let alike = self.text[at..].iter().zip(word.as_bytes()).take_while(|(a, b)| a == b).count();
        self.furthest = self.furthest.max(at + alike);
        if alike == word.len() {
            vec![at + alike]
        } else {
            Vec::new()
        }
    }

    /// Where a number in this range may end.
    fn number(&mut self, at: usize, range: RangeInclusive<u64>) -> Vec<usize> {
        let mut ends = Vec::new();
        for end in at + 1..=self.text.len() {
            let digits = &self.text[at..end];
            let value = std::str::from_utf8(digits).ok().and_then(|text| text.parse::<u64>().ok());
            match value {
                Some(value) if range.contains(&value) && value.to_string().as_bytes() == digits => {
                    ends.push(end);
                    self.furthest = self.furthest.max(end);
                }
                _ => break,
            }
        }
        ends
    }

    /// One of the spellings, in each of which `V`, `N`, `A`, `X`, `S` and `C` stand for a variable, a statement
    /// number, an operand, an expression, a statement and a condition.
    fn spellings(&mut self, at: usize, spellings: &[&str]) -> Vec<usize> {
        spellings.iter().flat_map(|spelling| self.spelling(at, spelling)).collect()
    }

    fn spelling(&mut self, at: usize, spelling: &str) -> Vec<usize> {
        self.each(vec![at], spelling)
    }

    /// The same from each of these places on.
    fn each(&mut self, mut ends: Vec<usize>, spelling: &str) -> Vec<usize> {
        for item in spelling.chars() {
            ends = ends.into_iter().flat_map(|at| self.item(at, item)).collect();
        }
        ends
    }

    fn item(&mut self, at: usize, item: char) -> Vec<usize> {
        match item {
            'V' => {
                let named = self.word(at, "i");
                let most = u64::from(VARIABLES) - 1;
                named.into_iter().flat_map(|at| self.number(at, 0..=most)).collect()
            }
            'N' => self.number(at, 0..=(1 << 31) - 1),
            'M' => self.number(at, 1..=1 << 31),
            'A' => self.spellings(at, &["V", "N", "-M"]),
            'X' => self.spellings(at, &["A", "A + A", "A - A", "A * A", "A < A", "A = A", "A / A"]),
            'S' => {
                let forms = ["read V", "write V", "V := X", "if V goto N else N", "skip"];
                self.spellings(at, &forms)
            }
            'C' => self.condition(at),
            _ => self.word(at, item.encode_utf8(&mut [0; 4])),
        }
    }

    fn condition(&mut self, at: usize) -> Vec<usize> {
        let mut ends = self.spellings(at, &["!C", "true", "false", "entry", "exit"]);
        ends.extend(self.spellings(at, &["node(N)", "stmt(S)", "def(V)", "use(V)", "trans(X)"]));
        // A capital letter of the spelling itself is no item here, so these are words.
        for quantifier in ["E", "A"] {
            for after in self.word(at, quantifier) {
                for letter in ["X", "F", "G", "Y", "R", "M"] {
                    let named = self.word(after, letter);
                    ends.extend(self.each(named, " C"));
                }
                let first = self.spelling(after, "[C ");
                for letter in ["U", "W", "S", "B"] {
                    for &at in &first {
                        let named = self.word(at, letter);
                        ends.extend(self.each(named, " C]"));
                    }
                }
            }
        }
        let first = self.spelling(at, "(C ");
        for sign in ["& C)", "| C)"] {
            for &at in &first {
                ends.extend(self.spelling(at, sign));
            }
        }
        ends
    }
}

/// The byte, counted from 1, at which the reading of a misspelled condition stops; 0 where it isn't refused as
/// misspelled. It may be the byte after the last.
pub fn stop(text: &[u8]) -> usize {
    if Condition::read(text).err() != Some(7) {
        return 0;
    }
    let mut trial = Trial { text, furthest: 0 };
    trial.condition(0);
    trial.furthest + 1
}

impl Condition {
    /// The condition that these bytes spell, or the refusal, 6 to 8.
    pub fn read(text: &[u8]) -> Result<Condition, u8> {
        if text.len() > LONGEST_TEXT {
            return Err(6);
        }
        let mut reader = Reader { rest: text, parts: Vec::new() };
        reader.condition().ok_or(7)?;
        let condition = Condition { parts: reader.parts };
        if condition.text() != text {
            return Err(7);
        }
        if condition.parts.len() > MOST_PARTS {
            return Err(8);
        }
        Ok(condition)
    }

    pub fn parts(&self) -> &[Part] {
        &self.parts
    }

    pub fn text(&self) -> Vec<u8> {
        self.text_of(self.parts.len() - 1).into_bytes()
    }

    /// The text of a part.
    pub fn text_of(&self, part: usize) -> String {
        let mut text = String::new();
        self.spell(part, &mut text);
        text
    }

    fn spell(&self, part: usize, text: &mut String) {
        match self.parts[part] {
            Part::Atom(atom) => spell_atom(&atom, text),
            Part::Not(p) => {
                text.push('!');
                self.spell(p, text);
            }
            Part::And(p, q) => self.spell_pair("(", p, " & ", q, ")", text),
            Part::Or(p, q) => self.spell_pair("(", p, " | ", q, ")", text),
            Part::Next(quantifier, direction, p) => {
                text.push_str(quantifier_letter(quantifier));
                self.spell_unary(["X ", "Y "], direction, p, text);
            }
            Part::Path(quantifier, direction, demand) => {
                text.push_str(quantifier_letter(quantifier));
                match demand {
                    Demand::Finally(p) => self.spell_unary(["F ", "R "], direction, p, text),
                    Demand::Globally(p) => self.spell_unary(["G ", "M "], direction, p, text),
                    Demand::Until(p, q) => {
                        self.spell_pair("[", p, [" U ", " S "][direction as usize], q, "]", text);
                    }
                    Demand::Weak(p, q) => {
                        self.spell_pair("[", p, [" W ", " B "][direction as usize], q, "]", text);
                    }
                }
            }
        }
    }

    fn spell_unary(&self, letters: [&str; 2], direction: Direction, p: usize, text: &mut String) {
        text.push_str(letters[direction as usize]);
        self.spell(p, text);
    }

    fn spell_pair(
        &self,
        open: &str,
        p: usize,
        sign: &str,
        q: usize,
        close: &str,
        text: &mut String,
    ) {
        text.push_str(open);
        self.spell(p, text);
        text.push_str(sign);
        self.spell(q, text);
        text.push_str(close);
    }
}

fn quantifier_letter(quantifier: Quantifier) -> &'static str {
    match quantifier {
        Quantifier::Some => "E",
        Quantifier::All => "A",
    }
}

fn spell_atom(atom: &Atom, text: &mut String) {
    let written = match atom {
        Atom::True => write!(text, "true"),
        Atom::False => write!(text, "false"),
        Atom::Entry => write!(text, "entry"),
        Atom::Exit => write!(text, "exit"),
        Atom::Node(n) => write!(text, "node({n})"),
        Atom::Stmt(statement) => write!(text, "stmt({statement})"),
        Atom::Def(x) => write!(text, "def(i{x})"),
        Atom::Use(x) => write!(text, "use(i{x})"),
        Atom::Trans(e) => write!(text, "trans({e})"),
    };
    written.expect("a string takes all text");
}

impl Atom {
    /// Whether the atom holds at the statement with this index from 0.
    pub fn holds(&self, program: &Program, at: usize) -> bool {
        let statement = &program.statements()[at];
        match self {
            Atom::True => true,
            Atom::False => false,
            Atom::Entry => at == 0,
            Atom::Exit => at + 1 == program.statements().len(),
            Atom::Node(n) => at + 1 == *n as usize,
            Atom::Stmt(wanted) => statement == wanted,
            Atom::Def(x) => statement.defines(*x),
            Atom::Use(x) => statement.uses(*x),
            Atom::Trans(e) => statement.defined().map_or(true, |x| !e.mentions(x)),
        }
    }
}

/// A use that no text shows: a variable, and the index from 0 of a statement at which it counts as used too.
pub type GainedUse = (u8, usize);

/// The truth of one condition's parts at a program's statements, found where it is asked for.
pub struct Checker<'a> {
    program: &'a Program,
    steps: &'a Steps,
    parts: &'a [Part],
    gained: &'a [GainedUse],
    /// What has been found, by part and statement index.
    known: Vec<Option<bool>>,
}

/// The paths that are sought for one operator: for E such that bear it out, for A such that speak against it.
struct Sought {
    part: usize,
    quantifier: Quantifier,
    direction: Direction,
    /// The operands of U or W; where there is none, `true` stands for p and `false` for q.
    p: Option<usize>,
    q: Option<usize>,
    /// Whether a path along which p holds and q doesn't, for ever, is one of them.
    endless: bool,
}

/// What a search makes of a statement as the next place of its path.
enum Place {
    /// The path is complete with it.
    Arrived,
    /// The path may go on through it.
    Passed,
    /// No path that is sought leads through it.
    Blocked,
}

impl<'a> Checker<'a> {
    pub fn new(program: &'a Program, steps: &'a Steps, condition: &'a Condition) -> Checker<'a> {
        Checker::with_uses(program, steps, condition, &[])
    }

    /// The same with `use` holding also where these say.
    pub fn with_uses(
        program: &'a Program,
        steps: &'a Steps,
        condition: &'a Condition,
        gained: &'a [GainedUse],
    ) -> Checker<'a> {
        let parts = condition.parts();
        let known = vec![None; parts.len() * program.statements().len()];
        Checker { program, steps, parts, gained, known }
    }

    fn slot(&self, part: usize, at: usize) -> usize {
        part * self.program.statements().len() + at
    }

    fn next(&self, direction: Direction) -> &'a [Vec<usize>] {
        match direction {
            Direction::Forward => &self.steps.forward,
            Direction::Backward => &self.steps.backward,
        }
    }

    /// Whether the whole condition holds at the statement with this index from 0.
    pub fn whole_holds(&mut self, at: usize) -> bool {
        self.holds(self.parts.len() - 1, at)
    }

    /// Whether a part holds at the statement with this index from 0.
    pub fn holds(&mut self, part: usize, at: usize) -> bool {
        let slot = self.slot(part, at);
        if let Some(answer) = self.known[slot] {
            return answer;
        }
        let answer = match self.parts[part] {
            Part::Atom(Atom::Use(x)) if self.gained.contains(&(x, at)) => true,
            Part::Atom(atom) => atom.holds(self.program, at),
            Part::Not(p) => !self.holds(p, at),
            Part::And(p, q) => self.holds(p, at) && self.holds(q, at),
            Part::Or(p, q) => self.holds(p, at) || self.holds(q, at),
            Part::Next(quantifier, direction, p) => {
                let mut targets = self.next(direction)[at].iter();
                match quantifier {
                    Quantifier::Some => targets.any(|&target| self.holds(p, target)),
                    Quantifier::All => targets.all(|&target| self.holds(p, target)),
                }
            }
            Part::Path(quantifier, direction, demand) => {
                let (p, q, weak) = match demand {
                    Demand::Finally(p) => (None, Some(p), false),
                    Demand::Globally(p) => (Some(p), None, true),
                    Demand::Until(p, q) => (Some(p), Some(q), false),
                    Demand::Weak(p, q) => (Some(p), Some(q), true),
                };
                let endless = weak == (quantifier == Quantifier::Some);
                let sought = Sought { part, quantifier, direction, p, q, endless };
                self.is_found(&sought, at) == (quantifier == Quantifier::Some)
            }
        };
        self.known[slot] = Some(answer);
        answer
    }

    /// E asks for q, and p before it. Against that speaks where p fails, if q doesn't hold there or before.
    fn place(&mut self, sought: &Sought, at: usize) -> Place {
        let (at_q, at_neither) = match sought.quantifier {
            Quantifier::Some => (Place::Arrived, Place::Blocked),
            Quantifier::All => (Place::Blocked, Place::Arrived),
        };
        match self.known[self.slot(sought.part, at)] {
            Some(true) => return at_q,
            Some(false) => return at_neither,
            None => {}
        }
        if sought.q.map_or(false, |q| self.holds(q, at)) {
            at_q
        } else if sought.p.map_or(true, |p| self.holds(p, at)) {
            Place::Passed
        } else {
            at_neither
        }
    }

    /// Whether a path that is sought starts at a statement.
    fn is_found(&mut self, sought: &Sought, from: usize) -> bool {
        match self.place(sought, from) {
            Place::Arrived => true,
            Place::Blocked => false,
            Place::Passed => self.search(sought, from),
        }
    }

    /// Searches depth first for a path from a statement that it may pass, and notes what it finds.
    fn search(&mut self, sought: &Sought, from: usize) -> bool {
        let next = self.next(sought.direction);
        // The path under trial, each statement with the number of its steps that were tried.
        let mut path = vec![(from, 0)];
        let (mut seen, mut on_path) = ([false; MOST_LINES], [false; MOST_LINES]);
        seen[from] = true;
        on_path[from] = true;
        while let Some((last, tried)) = path.last_mut() {
            if *tried == next[*last].len() {
                on_path[*last] = false;
                path.pop();
                continue;
            }
            let at = next[*last][*tried];
            *tried += 1;
            let place = if !seen[at] {
                self.place(sought, at)
            } else if on_path[at] && sought.endless {
                Place::Arrived
            } else {
                Place::Blocked
            };
            seen[at] = true;
            match place {
                Place::Arrived => {
                    // From each statement of the path the rest of it is sought too.
                    path.iter().for_each(|&(place, _)| self.note(sought, place, true));
                    return true;
                }
                Place::Passed => {
                    on_path[at] = true;
                    path.push((at, 0));
                }
                Place::Blocked => {}
            }
        }
        // No statement that was seen has such a path.
        (0..next.len()).filter(|&at| seen[at]).for_each(|at| self.note(sought, at, false));
        false
    }

    fn note(&mut self, sought: &Sought, at: usize, found: bool) {
        let slot = self.slot(sought.part, at);
        self.known[slot] = Some(found == (sought.quantifier == Quantifier::Some));
    }
}

/// The call: fills the table; the number of parts, of satisfying statements and the first of these, or the
/// refusal, 1, 2 to 5 or 6 to 8.
pub fn tabulate(
    program: &[u8],
    condition: &[u8],
    table: &mut [u64],
) -> Result<(u32, u32, u32), u8> {
    if table.len() < TABLE_WORDS {
        return Err(1);
    }
    let program = Program::read(program)?;
    let condition = Condition::read(condition)?;
    let steps = Steps::new(&program);
    let mut checker = Checker::new(&program, &steps, &condition);
    for part in 0..condition.parts().len() {
        let words = words_of(table, part);
        words.fill(0);
        for at in 0..program.statements().len() {
            if checker.holds(part, at) {
                words[at / 64] |= 1 << (at % 64);
            }
        }
    }
    let satisfying: Vec<u32> =
        (1..=program.count()).filter(|n| checker.whole_holds(*n as usize - 1)).collect();
    let first = satisfying.first().copied().unwrap_or(0);
    Ok((condition.parts().len() as u32, satisfying.len() as u32, first))
}
