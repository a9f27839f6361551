//! Random cases, the same for the same seed.

use crate::condition::{Condition, LONGEST_TEXT, MOST_PARTS};
use crate::machine::{Values, LARGEST_BUDGET, VALUES};
use crate::marks::{Judge, Kind, Mark};
use crate::pricing::{self, Prices, KINDS, OURS};
use crate::program::{
    is_kept, Expression, Operand, Operator, Program, Statement, FIRST_KEPT, KEPT, LARGEST, LEAST,
    MOST_LINES, VARIABLES,
};
use crate::review::{MOST_TABLES, REVIEW_LINES};
use crate::stages::{HEAD_BYTES, NAME_BYTES, PLACES, PLACE_BYTES, STAGES_BYTES};

/// A source of random numbers (splitmix64).
#[derive(Clone, Debug)]
pub struct Random {
    state: u64,
}

impl Random {
    pub fn new(seed: u64) -> Random {
        Random { state: seed }
    }

    /// 64 random bits.
    pub fn bits(&mut self) -> u64 {
        self.state = self.state.wrapping_add(0x9E37_79B9_7F4A_7C15);
        let mut z = self.state;
        z = (z ^ (z >> 30)).wrapping_mul(0xBF58_476D_1CE4_E5B9);
        z = (z ^ (z >> 27)).wrapping_mul(0x94D0_49BB_1331_11EB);
        z ^ (z >> 31)
    }

    /// A number from 0 to `bound` - 1.
    pub fn below(&mut self, bound: usize) -> usize {
        (self.bits() % bound as u64) as usize
    }

    /// A number from `low` to `high`, both included.
    pub fn between(&mut self, low: usize, high: usize) -> usize {
        low + self.below(high - low + 1)
    }

    pub fn chance(&mut self, percent: usize) -> bool {
        self.below(100) < percent
    }

    pub fn pick<T: Copy>(&mut self, items: &[T]) -> T {
        items[self.below(items.len())]
    }

    pub fn shuffle<T>(&mut self, items: &mut [T]) {
        for last in (1..items.len()).rev() {
            let other = self.below(last + 1);
            items.swap(last, other);
        }
    }
}

/// A 32-bit word, often one at an end of its range or near 0.
pub fn word(random: &mut Random) -> u32 {
    match random.below(8) {
        0 => 0,
        1 => 1,
        2 | 3 => random.below(12) as u32,
        4 => random.pick(&[u32::MAX, LARGEST, LARGEST + 1, LARGEST - 1, u32::MAX - 1]),
        _ => random.bits() as u32,
    }
}

pub fn values(random: &mut Random) -> Values {
    let mut values = [0; VALUES];
    values.iter_mut().for_each(|value| *value = word(random));
    values
}

/// A budget, mostly small, rarely at or over the largest.
pub fn budget(random: &mut Random) -> u32 {
    match random.below(1_000) {
        0 => LARGEST_BUDGET,
        1..=20 => LARGEST_BUDGET + 1 + word(random) % 1_000,
        21..=25 => u32::MAX - random.below(3) as u32,
        26..=100 => 0,
        101..=900 => random.below(60) as u32,
        _ => random.below(2_000) as u32,
    }
}

/// The most statements of earlier releases: up to so many have room in a row of 4 words.
pub const FORMER_LINES: usize = 256;

/// A number of statements, mostly small, in 2 of 100 cases a hundred and more: often close to either side of 256, and now and then the
/// most.
pub fn size(random: &mut Random) -> usize {
    match random.below(1_000) {
        0 => MOST_LINES,
        1 => random.between(MOST_LINES - 2, MOST_LINES),
        2 | 3 => random.between(FORMER_LINES + 1, MOST_LINES),
        4..=9 => random.between(FORMER_LINES - 2, FORMER_LINES + 3),
        10..=19 => random.between(100, FORMER_LINES),
        20..=209 => random.between(16, 40),
        210..=309 => random.between(2, 4),
        _ => random.between(4, 16),
    }
}

/// What the statements of one program are made of.
struct Style {
    variables: Vec<u8>,
    constants: Vec<u32>,
    /// The percentage of branches, and how far their targets lie at most.
    branches: usize,
    reach: usize,
}

impl Style {
    fn new(random: &mut Random) -> Style {
        let mut variables: Vec<u8> = match random.below(10) {
            0..=3 => (0..8).collect(),
            // Those that the unit keeps, and the last of the others.
            4..=6 => (FIRST_KEPT - 4..FIRST_KEPT + KEPT as u8).collect(),
            // The last, none of which it keeps.
            7 => (VARIABLES - KEPT as u8..VARIABLES).collect(),
            _ => (0..VARIABLES).collect(),
        };
        random.shuffle(&mut variables);
        variables.truncate(random.between(1, 6));
        let constants = (0..random.between(1, 3)).map(|_| constant(random)).collect();
        let branches = random.pick(&[0, 4, 10, 20, 45, 90]);
        let reach = random.pick(&[3, 10, MOST_LINES]);
        Style { variables, constants, branches, reach }
    }

    fn variable(&self, random: &mut Random) -> u8 {
        random.pick(&self.variables)
    }

    fn operand(&self, random: &mut Random) -> Operand {
        if random.chance(70) {
            Operand::Variable(self.variable(random))
        } else {
            Operand::Constant(random.pick(&self.constants))
        }
    }

    /// A branch that stands at statement `at` of `size`.
    fn branch(&self, random: &mut Random, at: usize, size: usize) -> Statement {
        let ahead = random.between(at + 1, at + self.reach).min(size);
        let behind = at.saturating_sub(random.below(self.reach)).max(2);
        let anywhere = random.between(2, size);
        let (then, other) = match random.below(10) {
            0 | 1 => (ahead, at + 1),
            2 => (at + 1, ahead),
            3 | 4 => (behind, at + 1),
            5 => (at + 1, behind),
            6 => (ahead, behind),
            7 => (ahead, ahead),
            8 => (anywhere, random.between(2, size)),
            _ => (anywhere, anywhere),
        };
        Statement::Branch { tested: self.variable(random), then: then as u32, other: other as u32 }
    }

    /// An `if` at statement `at` whose arms both set a kept variable and meet again behind them.
    fn kept_on_both_arms(&self, random: &mut Random, at: usize, lines: &mut Vec<Statement>) {
        let (tested, x) = (self.variable(random), kept(random));
        let mut set = || Statement::Assign(x, Expression::Single(self.operand(random)));
        let (one, other) = (set(), set());
        let goto =
            |n: usize, m: usize| Statement::Branch { tested, then: n as u32, other: m as u32 };
        lines.extend([goto(at + 3, at + 1), one, goto(at + 4, at + 4), other]);
    }

    /// Copies of variables and constants, then uses of what was copied.
    fn copies(&self, random: &mut Random, lines: &mut Vec<Statement>) {
        let copied: Vec<u8> = (0..random.between(1, 3)).map(|_| self.variable(random)).collect();
        for &x in &copied {
            let right = Expression::Single(self.operand(random));
            let right = if random.chance(5) { written_otherwise(right) } else { right };
            lines.push(Statement::Assign(x, right));
        }
        for _ in 0..random.between(0, 3) {
            let used = Operand::Variable(random.pick(&copied));
            let other = if random.chance(20) { used } else { self.operand(random) };
            let right = match random.below(4) {
                0 => Expression::Single(used),
                1 => joined(random, other, used),
                _ => joined(random, used, other),
            };
            lines.push(Statement::Assign(self.variable(random), right));
        }
    }

    /// What is computed twice: two operands, mostly such that nothing of them is set where they are computed.
    fn sum(&self, random: &mut Random) -> Expression {
        let (a, b) = (self.operand(random), self.operand(random));
        joined(random, a, b)
    }

    /// A variable for a sum: one of the program's, or any, which is then hardly used for anything else.
    fn holder(&self, random: &mut Random) -> u8 {
        if random.chance(50) {
            random.below(usize::from(VARIABLES)) as u8
        } else {
            self.variable(random)
        }
    }

    /// A statement between two computations of a sum: one that changes nothing of it, or sets a variable of it or
    /// the one that holds it.
    fn between(&self, random: &mut Random, holder: u8, sum: Expression) -> Statement {
        match random.below(8) {
            0 => Statement::Assign(holder, Expression::Single(self.operand(random))),
            1 => Statement::Assign(self.variable(random), sum),
            2 | 3 => {
                let used = Expression::Single(Operand::Variable(holder));
                Statement::Assign(self.holder(random), used)
            }
            4 | 5 => {
                Statement::Assign(self.holder(random), Expression::Single(self.operand(random)))
            }
            _ => Statement::Skip,
        }
    }

    /// A sum that is computed again, some statements on, mostly into another variable.
    fn repeated_sum(&self, random: &mut Random, lines: &mut Vec<Statement>) {
        let (holder, sum) = (self.holder(random), self.sum(random));
        lines.push(Statement::Assign(holder, sum));
        for _ in 0..random.between(1, 2) {
            for _ in 0..random.pick(&[0, 0, 0, 1, 2]) {
                lines.push(self.between(random, holder, sum));
            }
            let again = if random.chance(10) { holder } else { self.holder(random) };
            lines.push(Statement::Assign(again, sum));
        }
    }

    /// An `if` at statement `at` whose arms both compute a sum, or one of them something else, and meet where it is
    /// computed again.
    fn sum_on_both_arms(&self, random: &mut Random, at: usize, lines: &mut Vec<Statement>) {
        let (tested, holder, sum) = (self.variable(random), self.holder(random), self.sum(random));
        let one = Statement::Assign(holder, sum);
        let other = if random.chance(70) { one } else { self.between(random, holder, sum) };
        let goto =
            |n: usize, m: usize| Statement::Branch { tested, then: n as u32, other: m as u32 };
        let again = Statement::Assign(self.holder(random), sum);
        lines.extend([goto(at + 3, at + 1), one, goto(at + 4, at + 4), other, again]);
    }

    /// A sum at statement `at`, and a loop of three statements in which it is computed again.
    fn sum_before_a_loop(&self, random: &mut Random, at: usize, lines: &mut Vec<Statement>) {
        let (counter, holder, sum) = (self.holder(random), self.holder(random), self.sum(random));
        let less =
            Expression::Pair(Operand::Variable(counter), Operator::Minus, Operand::Constant(1));
        lines.extend([
            Statement::Assign(holder, sum),
            Statement::Assign(self.holder(random), sum),
            Statement::Assign(counter, less),
            Statement::Branch { tested: counter, then: at as u32 + 1, other: at as u32 + 4 },
        ]);
    }

    /// A division of any operand, often at an end of its range, by a divisor of any kind: a constant, or a variable
    /// that has just been set to it.
    fn division(&self, random: &mut Random, lines: &mut Vec<Statement>) {
        let a = match random.below(4) {
            0 => Operand::Constant(random.pick(&[LEAST, LEAST + 1, u32::MAX, 0, LARGEST])),
            _ => self.operand(random),
        };
        let mut by = Operand::Constant(divisor(random));
        if random.chance(50) {
            let y = self.variable(random);
            lines.push(Statement::Assign(y, Expression::Single(by)));
            by = Operand::Variable(y);
        }
        let right = Expression::Pair(a, Operator::Divide, by);
        lines.push(Statement::Assign(self.variable(random), right));
    }
}

/// A variable that the unit keeps.
fn kept(random: &mut Random) -> u8 {
    FIRST_KEPT + random.below(KEPT) as u8
}

/// A constant's bits, often those of one at an end of its range or near 0. Of three one is below zero.
fn constant(random: &mut Random) -> u32 {
    match random.below(24) {
        0 | 1 => 0,
        2..=5 => 1,
        6 | 7 => LARGEST,
        8 | 9 => random.bits() as u32 & LARGEST,
        10 | 11 => u32::MAX,
        12 | 13 => LEAST,
        14 | 15 => random.bits() as u32 | LEAST,
        16 | 17 => u32::MAX - random.below(60) as u32,
        _ => random.below(20) as u32,
    }
}

/// A divisor's bits: 1, -1, an end of the range, a small number on either side of 0, any constant, and now and then 0.
fn divisor(random: &mut Random) -> u32 {
    match random.below(16) {
        0 => 0,
        1 | 2 => 1,
        3 | 4 => u32::MAX,
        5 | 6 => LEAST,
        7 => LARGEST,
        8..=10 => 2 + random.below(10) as u32,
        11..=13 => u32::MAX - 1 - random.below(10) as u32,
        _ => constant(random),
    }
}

fn divides(e: &Expression) -> bool {
    matches!(e, Expression::Pair(_, Operator::Divide, _))
}

/// The other way to write a constant below zero: `0 - 40` for `-40`, and `-40` for `0 - 40`.
fn written_otherwise(e: Expression) -> Expression {
    match e {
        Expression::Single(Operand::Constant(c)) => Expression::Pair(
            Operand::Constant(0),
            Operator::Minus,
            Operand::Constant(c.wrapping_neg()),
        ),
        Expression::Pair(Operand::Constant(0), Operator::Minus, Operand::Constant(c)) => {
            Expression::Single(Operand::Constant(c.wrapping_neg()))
        }
        _ => e,
    }
}

fn operator(random: &mut Random) -> Operator {
    random.pick(&[
        Operator::Plus,
        Operator::Minus,
        Operator::Times,
        Operator::Divide,
        Operator::Less,
        Operator::Equal,
    ])
}

/// Two operands with an operator between them. What divides is mostly a constant, hardly ever 0, so that most runs go
/// on.
fn joined(random: &mut Random, a: Operand, b: Operand) -> Expression {
    match operator(random) {
        Operator::Divide if random.chance(60) => {
            Expression::Pair(a, Operator::Divide, Operand::Constant(divisor(random)))
        }
        operator => Expression::Pair(a, operator, b),
    }
}

/// Any expression over all variables.
fn expression(random: &mut Random) -> Expression {
    let mut operand = || {
        if random.chance(60) {
            Operand::Variable(random.below(usize::from(VARIABLES)) as u8)
        } else {
            Operand::Constant(constant(random))
        }
    };
    let (a, b) = (operand(), operand());
    if random.chance(50) {
        Expression::Single(a)
    } else {
        joined(random, a, b)
    }
}

/// A program of 2 to `MOST_LINES` statements with loops, copies, divisions, sums that are computed twice, dead assignments and
/// unreachable statements.
pub fn program(random: &mut Random, size: usize) -> Program {
    let style = Style::new(random);
    let mut lines = vec![Statement::Read(style.variable(random))];
    while lines.len() + 1 < size {
        let at = lines.len() + 1;
        if random.chance(style.branches) {
            lines.push(style.branch(random, at, size));
            continue;
        }
        match random.below(17) {
            0 => lines.push(Statement::Skip),
            // A loop that counts down.
            1 if style.branches > 0 && at + 2 < size => {
                let x = style.variable(random);
                let less =
                    Expression::Pair(Operand::Variable(x), Operator::Minus, Operand::Constant(1));
                let behind = at.saturating_sub(random.below(style.reach.min(8))).max(2);
                lines.push(Statement::Assign(x, less));
                lines.push(Statement::Branch {
                    tested: x,
                    then: behind as u32,
                    other: at as u32 + 2,
                });
            }
            // An assignment that the next one makes useless.
            2 => {
                let x = style.variable(random);
                lines.push(Statement::Assign(x, expression(random)));
                lines.push(Statement::Assign(x, Expression::Single(style.operand(random))));
            }
            // An assignment to a variable that is hardly used.
            3 => lines.push(Statement::Assign(
                random.below(usize::from(VARIABLES)) as u8,
                expression(random),
            )),
            4 => {
                let (a, b) = (style.operand(random), style.operand(random));
                let right = joined(random, a, b);
                lines.push(Statement::Assign(style.variable(random), right));
            }
            5 if style.branches > 0 && at + 4 <= size => {
                style.kept_on_both_arms(random, at, &mut lines);
            }
            6 | 7 => style.division(random, &mut lines),
            8..=10 => style.repeated_sum(random, &mut lines),
            11 if style.branches > 0 && at + 5 <= size => {
                style.sum_on_both_arms(random, at, &mut lines);
            }
            12 if style.branches > 0 && at + 4 <= size => {
                style.sum_before_a_loop(random, at, &mut lines);
            }
            _ => style.copies(random, &mut lines),
        }
    }
    lines.truncate(size - 1);
    lines.push(Statement::Write(style.variable(random)));
    Program::new(lines).expect("a generated program is taken")
}

/// A program of some statements that never ends: its last statement but `write` goes back, and none goes to `write`.
fn endless(random: &mut Random, size: usize) -> Program {
    let (program, last) = (program(random, size), size as u32 - 1);
    let mut lines = program.statements().to_vec();
    for statement in &mut lines {
        if let Statement::Branch { then, other, .. } = statement {
            *then = (*then).min(last);
            *other = (*other).min(last);
        }
    }
    let back = random.between(2, size - 1) as u32;
    let tested = random.below(usize::from(VARIABLES)) as u8;
    lines[size - 2] = Statement::Branch { tested, then: back, other: back };
    Program::new(lines).expect("a generated program is taken")
}

/// A program in which some statement divides by 0 where a run comes to it.
fn faulting(random: &mut Random, size: usize) -> Program {
    let mut lines = program(random, size).statements().to_vec();
    let at = random.between(1, size - 2);
    let (x, a) = (random.below(usize::from(VARIABLES)) as u8, Operand::Constant(constant(random)));
    let right = Expression::Pair(a, Operator::Divide, Operand::Constant(0));
    lines[at] = Statement::Assign(x, right);
    Program::new(lines).expect("a generated program is taken")
}

/// A program to be joined, at times one that never ends or is sure to divide by 0 if a run comes there.
fn one_of_pair(random: &mut Random, size: usize) -> Program {
    match random.below(12) {
        0 if size > 2 => endless(random, size),
        1 | 2 if size > 2 => faulting(random, size),
        _ => program(random, size),
    }
}

/// The statements of a road and of a creeper program: mostly small ones, else such that the joined program has
/// around `MOST_LINES`, or around 256.
fn pair_sizes(random: &mut Random) -> [usize; 2] {
    const HALF: usize = MOST_LINES / 2;
    let mut around = |most: usize| {
        let (first, joined) = (random.between(2, most), random.between(most - 4, most + 4));
        [first, (joined + 1).saturating_sub(first).clamp(2, most)]
    };
    let (at_most, at_former) = (around(MOST_LINES), around(FORMER_LINES));
    match random.below(80) {
        0 => random.pick(&[
            [HALF, HALF + 1],
            [HALF + 1, HALF],
            [HALF + 1, HALF + 1],
            [MOST_LINES, 2],
            [2, MOST_LINES],
            [MOST_LINES - 1, 2],
            [2, MOST_LINES - 1],
            [MOST_LINES, MOST_LINES],
        ]),
        1 | 2 => at_most,
        3..=6 => at_former,
        7..=10 => [size(random), size(random)],
        _ => [size(random).min(40), size(random).min(40)],
    }
}

/// A road and a creeper program. Now and then the creeper program reads what the road program writes.
pub fn road_and_creeper(random: &mut Random) -> [Program; 2] {
    let sizes = pair_sizes(random);
    let [road, creeper] = sizes.map(|size| one_of_pair(random, size));
    if !random.chance(20) {
        return [road, creeper];
    }
    let mut lines = creeper.statements().to_vec();
    if let Some(&Statement::Write(x)) = road.statements().last() {
        lines[0] = Statement::Read(x);
    }
    [road, Program::new(lines).expect("a generated program is taken")]
}

/// A variable, mostly one that the program names.
fn variable_near(random: &mut Random, program: &Program) -> u8 {
    let any = random.below(usize::from(VARIABLES)) as u8;
    if random.chance(10) {
        return any;
    }
    match random.pick(program.statements()) {
        Statement::Read(x) | Statement::Write(x) | Statement::Branch { tested: x, .. } => x,
        Statement::Assign(x, right) => match random.pick(&right.operands()) {
            Operand::Variable(y) if random.chance(50) => y,
            _ => x,
        },
        Statement::Skip => any,
    }
}

/// An expression, mostly one that the program holds or a variable of it.
fn expression_near(random: &mut Random, program: &Program) -> Expression {
    match random.pick(program.statements()) {
        Statement::Assign(_, right) if random.chance(10) => written_otherwise(right),
        Statement::Assign(_, right) if random.chance(80) => right,
        _ if random.chance(70) => {
            Expression::Single(Operand::Variable(variable_near(random, program)))
        }
        _ => expression(random),
    }
}

/// A statement number, mostly one of the program's.
fn number_near(random: &mut Random, program: &Program) -> u32 {
    let count = program.count();
    match random.below(20) {
        0 => 0,
        1 => count + 1,
        2 => random.pick(&[MOST_LINES as u32 + 1, 2_000, 65_536 + 2, LARGEST]),
        _ => 1 + random.below(count as usize) as u32,
    }
}

fn atom(random: &mut Random, program: &Program) -> String {
    match random.below(16) {
        0 => "true".to_string(),
        1 => "false".to_string(),
        2 => "entry".to_string(),
        3 => "exit".to_string(),
        4..=6 => format!("node({})", number_near(random, program)),
        7 => {
            let (x, e) = (variable_near(random, program), expression_near(random, program));
            format!("stmt({})", Statement::Assign(x, e))
        }
        8 => {
            let tested = variable_near(random, program);
            let (then, other) = (number_near(random, program), number_near(random, program));
            format!("stmt({})", Statement::Branch { tested, then, other })
        }
        9 => format!("stmt({})", random.pick(program.statements())),
        10 | 11 => format!("def(i{})", variable_near(random, program)),
        12 | 13 => format!("use(i{})", variable_near(random, program)),
        _ => format!("trans({})", expression_near(random, program)),
    }
}

const UNARY: [&str; 13] =
    ["!", "EX ", "AX ", "EF ", "AF ", "EG ", "AG ", "EY ", "AY ", "ER ", "AR ", "EM ", "AM "];

/// The first and the middle mark of operators with two operands.
const BINARY: [(&str, &str); 10] = [
    ("(", " & "),
    ("(", " | "),
    ("E[", " U "),
    ("A[", " U "),
    ("E[", " W "),
    ("A[", " W "),
    ("E[", " S "),
    ("A[", " S "),
    ("E[", " B "),
    ("A[", " B "),
];

fn pair(random: &mut Random, p: &str, q: &str) -> String {
    let (open, sign) = random.pick(&BINARY);
    let close = if open == "(" { ")" } else { "]" };
    format!("{open}{p}{sign}{q}{close}")
}

fn condition_text(random: &mut Random, program: &Program, parts: usize, unary: usize) -> String {
    if parts < 2 {
        return atom(random, program);
    }
    if parts == 2 || random.chance(unary) {
        let sign = if random.chance(25) { "!" } else { random.pick(&UNARY) };
        return format!("{sign}{}", condition_text(random, program, parts - 1, unary));
    }
    let left = random.between(1, parts - 2);
    let p = condition_text(random, program, left, unary);
    let q = condition_text(random, program, parts - 1 - left, unary);
    pair(random, &p, &q)
}

/// A well spelled condition of exactly this number of parts. Up to 150 parts it has at most 1,024 bytes.
pub fn condition(random: &mut Random, program: &Program, parts: usize) -> Vec<u8> {
    let mut unary = if parts > 64 { 60 } else { 35 };
    loop {
        let text = condition_text(random, program, parts, unary);
        if text.len() <= 1_024 || parts > 150 {
            return text.into_bytes();
        }
        unary = (unary + 5).min(95);
    }
}

/// A well spelled condition of exactly this number of bytes, at least 4; up to 1,024 it has at most 64 parts.
pub fn condition_of_length(random: &mut Random, program: &Program, length: usize) -> Vec<u8> {
    let mut text = atom(random, program);
    if text.len() > length {
        text = "true".to_string();
    }
    while text.len() < length {
        let room = length - text.len();
        text = match room {
            60.. => {
                let x = random.between(10, usize::from(VARIABLES) - 1);
                let c = Operand::Constant(random.pick(&[LARGEST, LEAST]));
                pair(random, &text, &format!("stmt(i{x} := {c} * {c})"))
            }
            12.. => {
                let number = LARGEST.to_string();
                format!("({text} & node({}))", &number[..(room - 11).min(number.len())])
            }
            _ => format!("!{text}"),
        };
    }
    text.into_bytes()
}

/// A line of a review that is made of pieces of those before: one again, under an operator, twice in a pair, or two
/// of them in a pair, or in both orders.
fn sharing_line(random: &mut Random, pieces: &[String]) -> String {
    let (p, q) = (&pieces[random.below(pieces.len())], &pieces[random.below(pieces.len())]);
    match random.below(8) {
        0 | 1 => p.clone(),
        2 | 3 => format!("{}{p}", random.pick(&UNARY)),
        4 => {
            let (open, sign) = random.pick(&BINARY);
            let close = if open == "(" { ")" } else { "]" };
            format!("({open}{p}{sign}{q}{close} | {open}{q}{sign}{p}{close})")
        }
        5 | 6 => pair(random, p, p),
        _ => pair(random, p, q),
    }
}

/// A review of so many lines that share parts, each line a condition that is taken by itself. New ones have up to
/// so many parts.
pub fn review(random: &mut Random, program: &Program, lines: usize, parts: usize) -> Vec<u8> {
    let mut text = Vec::new();
    let mut pieces: Vec<String> = Vec::new();
    let new = random.pick(&[5, 20, 50]);
    for _ in 0..lines {
        let shared = (!pieces.is_empty() && !random.chance(new))
            .then(|| sharing_line(random, &pieces))
            .filter(|line| Condition::read(line.as_bytes()).is_ok());
        let line = shared.map(String::into_bytes).unwrap_or_else(|| {
            let parts = random.between(1, parts);
            condition(random, program, parts)
        });
        let read = Condition::read(&line).expect("a generated condition is taken");
        pieces.extend((0..read.parts().len()).map(|part| read.text_of(part)));
        text.extend(line);
        text.push(b'\n');
    }
    text
}

/// The most parts of a line that is an atom behind operators.
const LONGEST_CHAIN: usize = 60;

/// A review that has so many differing parts: operators before atoms that differ, and some lines again.
pub fn review_of_tables(random: &mut Random, tables: usize) -> Vec<u8> {
    let fewest = (tables + LONGEST_CHAIN - 1) / LONGEST_CHAIN;
    let lines = random.between(fewest, REVIEW_LINES.min(tables));
    let mut sizes = vec![1; lines];
    for _ in lines..tables {
        let mut at = random.below(lines);
        while sizes[at] == LONGEST_CHAIN {
            at = (at + 1) % lines;
        }
        sizes[at] += 1;
    }
    let line = |random: &mut Random, (at, size): (usize, usize)| {
        let operators: String = (1..size).map(|_| random.pick(&UNARY)).collect();
        format!("{operators}node({at})\n")
    };
    let mut texts: Vec<String> =
        sizes.into_iter().enumerate().map(|sized| line(random, sized)).collect();
    for _ in 0..random.below(REVIEW_LINES - lines + 1) {
        let again = texts[random.below(lines)].clone();
        texts.push(again);
    }
    texts.concat().into_bytes()
}

/// A review of any kind: at the edges of lines and tables, with lines that are refused, with the last unfinished,
/// and mostly such that it is taken.
pub fn any_review(random: &mut Random, program: &Program) -> Vec<u8> {
    let mut text = match random.below(20) {
        0 => {
            let tables = random.between(MOST_TABLES - 2, MOST_TABLES + 2);
            review_of_tables(random, tables)
        }
        1 => {
            let tables = random.between(1, 2 * MOST_TABLES);
            review_of_tables(random, tables)
        }
        2 => {
            let lines = random.pick(&[0, 1, 30, 31, 32, 33, 34]);
            review(random, program, lines, 4)
        }
        3 => {
            let lines = random.between(20, REVIEW_LINES);
            review(random, program, lines, MOST_PARTS)
        }
        _ => {
            let (lines, parts) = (random.between(1, 12), random.between(1, 12));
            review(random, program, lines, parts)
        }
    };
    if random.chance(12) {
        let line = match random.below(6) {
            0 => condition_soup(random),
            1 => nested_condition(random),
            2 => {
                let parts = random.between(60, 70);
                condition(random, program, parts)
            }
            3 => Vec::new(),
            _ => {
                let length = random.between(LONGEST_TEXT - 2, LONGEST_TEXT + 2);
                condition_of_length(random, program, length)
            }
        };
        let mut lines = lines(&text);
        lines.insert(random.below(lines.len() + 1), [&line[..], b"\n"].concat());
        text = lines.concat();
    }
    // The last line lacks its byte 10.
    match random.below(50) {
        0 => drop(text.pop()),
        1 => text.extend(nested_condition(random)),
        _ => {}
    }
    text
}

/// The marks that fit a statement and that a copy, or the same right side, nearest before it, in line order, suggests.
fn fitting(random: &mut Random, program: &Program, number: u32) -> Vec<Mark> {
    let before = number as usize - 1;
    let statements = program.statements();
    let statement = statements[before];
    let mut marks = Vec::new();
    if let Statement::Assign(x, e) = statement {
        marks.push(Mark { number, variable: x, kind: Kind::Remove(e) });
        let computed = |at: usize| match statements[at] {
            Statement::Assign(t, right) if right == e => Some(t),
            _ => None,
        };
        let nearest = (0..before).rev().find_map(computed);
        let any = (0..statements.len()).find_map(computed).filter(|_| random.chance(30));
        if matches!(e, Expression::Pair(..)) {
            let kind = Kind::Reuse(e);
            let holders = nearest.into_iter().chain(any);
            marks.extend(holders.map(|variable| Mark { number, variable, kind }));
        }
    }
    for x in (0..VARIABLES).filter(|&x| statement.shows(x)) {
        let copied = |at: usize| match statements[at] {
            Statement::Assign(y, Expression::Single(a)) if y == x => Some(a),
            _ => None,
        };
        let nearest = (0..before).rev().find_map(copied);
        let any = (0..statements.len()).find_map(copied);
        for a in nearest.into_iter().chain(any.filter(|_| random.chance(30))) {
            let is_variable = matches!(a, Operand::Variable(_));
            if is_variable || matches!(statement, Statement::Assign(..)) {
                marks.push(Mark { number, variable: x, kind: Kind::Replace(a) });
            }
        }
    }
    random.shuffle(&mut marks);
    marks
}

/// A mark that fits a statement, and replaces a variable by anything, or its right side by any variable. Lists of such
/// marks have many different conditions, and some of them again.
fn fitting_by_any(random: &mut Random, program: &Program, number: u32) -> Option<Mark> {
    let statement = program.statement(number)?;
    match *statement {
        Statement::Assign(_, e @ Expression::Pair(..)) if random.chance(30) => {
            let variable = variable_near(random, program);
            return Some(Mark { number, variable, kind: Kind::Reuse(e) });
        }
        _ => {}
    }
    let used: Vec<u8> = (0..VARIABLES).filter(|&x| statement.shows(x)).collect();
    let by = match statement {
        Statement::Assign(..) if random.chance(60) => Operand::Constant(constant(random)),
        _ => Operand::Variable(random.below(usize::from(VARIABLES)) as u8),
    };
    let kind = Kind::Replace(by);
    (!used.is_empty()).then(|| Mark { number, variable: random.pick(&used), kind })
}

/// A mark that fits an assignment of this kind and drops it.
fn dropping(
    random: &mut Random,
    program: &Program,
    is_wanted: impl Fn(u8, &Expression) -> bool,
) -> Option<Mark> {
    let drop = |(at, statement): (usize, &Statement)| match *statement {
        Statement::Assign(variable, e) if is_wanted(variable, &e) => {
            Some(Mark { number: at as u32 + 1, variable, kind: Kind::Remove(e) })
        }
        _ => None,
    };
    let marks: Vec<Mark> = program.statements().iter().enumerate().filter_map(drop).collect();
    (!marks.is_empty()).then(|| random.pick(&marks))
}

/// A mark, on a statement that the list doesn't name, that reuses what another assignment computes: before it or not,
/// changed in between or not.
fn reusing(random: &mut Random, program: &Program, list: &[Mark]) -> Option<Mark> {
    let computed = |(at, statement): (usize, &Statement)| match *statement {
        Statement::Assign(x, e @ Expression::Pair(..)) => Some((at, x, e)),
        _ => None,
    };
    let all: Vec<(usize, u8, Expression)> =
        program.statements().iter().enumerate().filter_map(computed).collect();
    let is_named = |at: usize| list.iter().any(|mark| mark.number as usize == at + 1);
    let mut marks = Vec::new();
    for &(at, _, e) in all.iter().filter(|&&(at, ..)| !is_named(at)) {
        let others = all.iter().filter(|&&(other, _, right)| other != at && right == e);
        marks.extend(others.map(|&(_, variable, _)| Mark {
            number: at as u32 + 1,
            variable,
            kind: Kind::Reuse(e),
        }));
    }
    (!marks.is_empty()).then(|| random.pick(&marks))
}

/// A mark that drops what a `cse` of the list asks for: an assignment of its right side to its variable.
fn dropping_source(random: &mut Random, program: &Program, list: &[Mark]) -> Option<Mark> {
    let asked: Vec<(u8, Expression)> = list
        .iter()
        .filter_map(|mark| match mark.kind {
            Kind::Reuse(e) => Some((mark.variable, e)),
            _ => None,
        })
        .collect();
    if asked.is_empty() {
        return None;
    }
    let source = random.pick(&asked);
    dropping(random, program, |x, e| (x, *e) == source)
}

/// Any mark at all for this statement number.
fn any_mark(random: &mut Random, program: &Program, number: u32) -> Mark {
    let kind = match expression_near(random, program) {
        e if random.chance(20) => Kind::Reuse(e),
        Expression::Single(a) if random.chance(60) => Kind::Replace(a),
        e => Kind::Remove(e),
    };
    Mark { number, variable: variable_near(random, program), kind }
}

/// A list of marks for a program. In most lists most are such that they are accepted by themselves, if there are
/// such; the others fit only, drop what is kept, drop a division, reuse a sum, drop what a `cse` asks for, name a
/// statement again, name one that the program lacks, replace a kept variable at `write`, or are any.
pub fn marks(random: &mut Random, program: &Program, count: usize) -> Vec<Mark> {
    let judge = Judge::new(program);
    let mut unnamed: Vec<u32> = (1..=program.count()).collect();
    random.shuffle(&mut unnamed);
    let mut list: Vec<Mark> = Vec::with_capacity(count);
    let is_varied = random.chance(15);
    while list.len() < count {
        let somewhere = 1 + random.below(program.count() as usize) as u32;
        if random.chance(10) {
            // Above the `cse` or below it.
            if let Some(mark) = dropping_source(random, program, &list) {
                list.insert(random.below(list.len() + 1), mark);
                continue;
            }
        }
        let mark = match random.below(110) {
            0..=67 if is_varied => {
                unnamed.pop().and_then(|number| fitting_by_any(random, program, number))
            }
            0..=67 => loop {
                let candidates = match unnamed.pop() {
                    Some(number) => fitting(random, program, number),
                    None => break None,
                };
                let good = candidates.into_iter().find(|mark| judge.verdict(mark, false) == 0);
                if good.is_some() {
                    break good;
                }
            },
            68 | 69 => dropping(random, program, |x, _| is_kept(x)),
            70..=72 => dropping(random, program, |_, e| divides(e)),
            73..=82 => fitting(random, program, somewhere).pop(),
            83..=88 if !list.is_empty() => {
                let number = random.pick(&list).number;
                program.statement(number).and_then(|_| fitting(random, program, number).pop())
            }
            89..=94 => {
                let near = [program.count() + 1, program.count() + FORMER_LINES as u32];
                let lacking = [0, near[0], near[1], MOST_LINES as u32 + 1, LARGEST];
                let number = random.pick(&lacking);
                Some(any_mark(random, program, number))
            }
            95 | 96 => match program.statement(somewhere) {
                Some(&Statement::Assign(variable, e)) => {
                    let kind = Kind::Remove(written_otherwise(e));
                    Some(Mark { number: somewhere, variable, kind })
                }
                _ => None,
            },
            // It fits where that variable is written, and not where it is kept only.
            97 => {
                let by = Operand::Variable(variable_near(random, program));
                let (number, variable) = (program.count(), kept(random));
                Some(Mark { number, variable, kind: Kind::Replace(by) })
            }
            100.. => reusing(random, program, &list),
            _ => None,
        };
        list.push(mark.unwrap_or_else(|| any_mark(random, program, somewhere)));
    }
    list
}

/// The runs of digits in a text, each by its begin and end.
fn digit_runs(text: &[u8]) -> Vec<(usize, usize)> {
    let digit = |at: usize| text.get(at).map_or(false, u8::is_ascii_digit);
    let begins = (0..text.len()).filter(|&at| digit(at) && (at == 0 || !digit(at - 1)));
    begins.map(|begin| (begin, (begin..).find(|&at| !digit(at)).unwrap_or(begin))).collect()
}

/// The lines of a text, each with its byte 10.
fn lines(text: &[u8]) -> Vec<Vec<u8>> {
    text.split_inclusive(|&byte| byte == b'\n').map(<[u8]>::to_vec).collect()
}

/// Another spelling in place of a number's digits, often one that a reader could take wrongly.
fn wrong_number(random: &mut Random, digits: &[u8]) -> Vec<u8> {
    let value = digits.iter().fold(0_u128, |value, digit| {
        value.wrapping_mul(10).wrapping_add(u128::from(digit.wrapping_sub(b'0')))
    });
    let number = match random.below(14) {
        0 => 0,
        1 => value.wrapping_add(1),
        2 => u128::from(LARGEST),
        3 => u128::from(LARGEST) + 1,
        4 => value.wrapping_add(1 << 31),
        5 => value.wrapping_add(1 << 32),
        6 => value.wrapping_add(1 << 64),
        7 => u128::MAX,
        8 => return [b"0".as_slice(), digits].concat(),
        9 => return [b"+".as_slice(), digits].concat(),
        10 => return [b"-".as_slice(), digits].concat(),
        _ => random.below(300) as u128,
    };
    number.to_string().into_bytes()
}

fn many_digits(random: &mut Random, _: &[u8]) -> Vec<u8> {
    (0..random.between(11, 400)).map(|_| random.pick(b"0123456789")).collect()
}

/// A way to spell a number below zero, or its sign, that no text has.
#[derive(Clone, Copy, Debug, PartialEq, Eq, PartialOrd, Ord)]
pub enum WrongSign {
    /// `-0`.
    OfZero,
    /// `-01`.
    LeadingZero,
    /// `--1`.
    Twice,
    /// `- 1`.
    Apart,
    /// `+1`.
    Plus,
    /// `-`.
    Alone,
    /// `1-`.
    Behind,
    /// `i0 -1`.
    Unspaced,
    /// `-2147483649`.
    BelowLeast,
    /// `-21474836480`.
    DigitBehindLeast,
    /// `-4294967296`.
    Wrapping,
}

impl WrongSign {
    pub const ALL: [WrongSign; 11] = [
        WrongSign::OfZero,
        WrongSign::LeadingZero,
        WrongSign::Twice,
        WrongSign::Apart,
        WrongSign::Plus,
        WrongSign::Alone,
        WrongSign::Behind,
        WrongSign::Unspaced,
        WrongSign::BelowLeast,
        WrongSign::DigitBehindLeast,
        WrongSign::Wrapping,
    ];

    /// What it makes of a number of these digits.
    fn spelled(self, digits: &str) -> String {
        match self {
            WrongSign::OfZero => "-0".to_string(),
            WrongSign::LeadingZero => format!("-0{digits}"),
            WrongSign::Twice => format!("--{digits}"),
            WrongSign::Apart => format!("- {digits}"),
            WrongSign::Plus => format!("+{digits}"),
            WrongSign::Alone => "-".to_string(),
            WrongSign::Behind => format!("{digits}-"),
            WrongSign::Unspaced => format!("i0 -{digits}"),
            WrongSign::BelowLeast => "-2147483649".to_string(),
            WrongSign::DigitBehindLeast => "-21474836480".to_string(),
            WrongSign::Wrapping => "-4294967296".to_string(),
        }
    }
}

/// Spells one of a text's constants and statement numbers in such a way; where it has none, one is put at its
/// end.
pub fn wrong_sign(random: &mut Random, sign: WrongSign, text: &mut Vec<u8>) {
    let mut runs = digit_runs(text);
    runs.retain(|&(begin, _)| begin == 0 || text[begin - 1] != b'i');
    if runs.is_empty() {
        text.extend(sign.spelled("7").bytes());
        return;
    }
    let (begin, end) = random.pick(&runs);
    let number = sign.spelled(&String::from_utf8_lossy(&text[begin..end]));
    let is_signed = begin > 0 && text[begin - 1] == b'-';
    text.splice(begin - usize::from(is_signed)..end, number.into_bytes());
}

/// A way to spell a `cse` line that no list has.
#[derive(Clone, Copy, Debug, PartialEq, Eq, PartialOrd, Ord)]
pub enum WrongReuse {
    /// `i0 + 1 + 1`.
    ThreeOperands,
    /// `i0 +`.
    OperatorBehind,
    /// Nothing where the right side stands.
    NoOperand,
    /// `7` where the variable stands.
    NoVariable,
    /// `i1 := i0 + 1` where the right side stands.
    Statement,
    /// `cs`, `csee` and the like.
    Word,
    /// A space less.
    SpaceLess,
    /// A space more.
    SpaceMore,
    /// `i1, i1, i0 + 1`.
    FourItems,
}

impl WrongReuse {
    pub const ALL: [WrongReuse; 9] = [
        WrongReuse::ThreeOperands,
        WrongReuse::OperatorBehind,
        WrongReuse::NoOperand,
        WrongReuse::NoVariable,
        WrongReuse::Statement,
        WrongReuse::Word,
        WrongReuse::SpaceLess,
        WrongReuse::SpaceMore,
        WrongReuse::FourItems,
    ];

    /// What it makes of the line of a mark with this variable and right side.
    fn spelled(self, random: &mut Random, mark: &Mark, e: &Expression) -> String {
        let (n, t) = (mark.number, mark.variable);
        let sign = operator(random);
        match self {
            WrongReuse::ThreeOperands => {
                let a = random.pick(&e.operands());
                format!("{n}: mark(cse, i{t}, {a} {sign} {e} {sign} {a})")
            }
            WrongReuse::OperatorBehind => format!("{n}: mark(cse, i{t}, {e} {sign})"),
            WrongReuse::NoOperand => format!("{n}: mark(cse, i{t}, )"),
            WrongReuse::NoVariable => format!("{n}: mark(cse, 7, {e})"),
            WrongReuse::Statement => format!("{n}: mark(cse, i{t}, i{t} := {e})"),
            WrongReuse::Word => {
                let words =
                    ["cs", "se", "ce", "csee", "ccse", "ces", "CSE", "Cse", "rse", "cpl", "rcse"];
                format!("{n}: mark({}, i{t}, {e})", random.pick(&words))
            }
            WrongReuse::SpaceLess | WrongReuse::SpaceMore => {
                let line = mark.to_string();
                let spaces: Vec<usize> = line.match_indices(' ').map(|(at, _)| at).collect();
                let at = random.pick(&spaces);
                let space = if self == WrongReuse::SpaceLess { "" } else { "  " };
                format!("{}{space}{}", &line[..at], &line[at + 1..])
            }
            WrongReuse::FourItems => format!("{n}: mark(cse, i{t}, i{t}, {e})"),
        }
    }
}

/// Spells one of a list's `cse` lines in such a way; where it has none, one is put at its end.
pub fn wrong_reuse(random: &mut Random, wrong: WrongReuse, list: &mut Vec<u8>) {
    let reuse = |line: &[u8]| match line.strip_suffix(b"\n").and_then(Mark::read) {
        Some(mark @ Mark { kind: Kind::Reuse(e), .. }) => Some((mark, e)),
        _ => None,
    };
    let mut lines = lines(list);
    let mut found: Vec<usize> =
        (0..lines.len()).filter(|&at| reuse(&lines[at]).is_some()).collect();
    if found.is_empty() {
        found.push(lines.len());
        lines.push(b"2: mark(cse, i1, i0 + 1)\n".to_vec());
    }
    let at = random.pick(&found);
    let (mark, e) = reuse(&lines[at]).expect("such a line");
    lines[at] = format!("{}\n", wrong.spelled(random, &mark, &e)).into_bytes();
    *list = lines.concat();
}

/// A kind of damage to a text.
#[derive(Clone, Copy, Debug, PartialEq, Eq, PartialOrd, Ord)]
pub enum Damage {
    InsertByte,
    FlipBit,
    OverwriteByte,
    DropByte,
    DoubleByte,
    SwapBytes,
    CutEnd,
    DropLastByte,
    WrongNumber,
    WrongSign,
    ManyDigits,
    EmptyLine,
    SwapLines,
    DoubleLine,
    DropLine,
    ManyLines,
    LongLine,
    RepeatPiece,
}

impl Damage {
    pub const ALL: [Damage; 18] = [
        Damage::InsertByte,
        Damage::FlipBit,
        Damage::OverwriteByte,
        Damage::DropByte,
        Damage::DoubleByte,
        Damage::SwapBytes,
        Damage::CutEnd,
        Damage::DropLastByte,
        Damage::WrongNumber,
        Damage::WrongSign,
        Damage::ManyDigits,
        Damage::EmptyLine,
        Damage::SwapLines,
        Damage::DoubleLine,
        Damage::DropLine,
        Damage::ManyLines,
        Damage::LongLine,
        Damage::RepeatPiece,
    ];
}

/// Replaces the digits of one of a text's numbers; where it has none, another number is put at its end.
fn replace_number(
    random: &mut Random,
    text: &mut Vec<u8>,
    change: impl Fn(&mut Random, &[u8]) -> Vec<u8>,
) {
    let runs = digit_runs(text);
    if runs.is_empty() {
        text.extend(change(random, b"7"));
    } else {
        let (begin, end) = random.pick(&runs);
        let number = change(random, &text[begin..end]);
        text.splice(begin..end, number);
    }
}

fn damage_lines(random: &mut Random, kind: Damage, lines: &mut Vec<Vec<u8>>) {
    let (one, other) = (random.below(lines.len()), random.below(lines.len()));
    match kind {
        Damage::SwapLines => lines.swap(one, other),
        Damage::DoubleLine => lines.insert(one, lines[other].clone()),
        Damage::DropLine => drop(lines.remove(one)),
        // The edge of a program's and a list's lines is often met. A text of many long lines would only take time.
        Damage::ManyLines if lines[one].len() < 500 => {
            let most = MOST_LINES;
            let wanted =
                random.pick(&[FORMER_LINES, FORMER_LINES + 1, most - 1, most, most + 1, most + 2]);
            let missing = wanted.max(lines.len()) - lines.len();
            let copies = vec![lines[one].clone(); missing];
            lines.splice(one..one, copies);
        }
        _ => lines.insert(random.below(lines.len() + 1), b"\n".to_vec()),
    }
}

/// Does one damage to a text, which may leave it well spelled.
pub fn damage_by(random: &mut Random, kind: Damage, text: &mut Vec<u8>) {
    let bytes = b"\n\r\t\0 0123456789iEAX!&|()[]:=<+-*/,skiprdgoto\x80\xff";
    let byte = random.pick(bytes);
    if text.is_empty() {
        text.push(byte);
        return;
    }
    let (at, other) = (random.below(text.len()), random.below(text.len()));
    match kind {
        Damage::InsertByte => text.insert(random.below(text.len() + 1), byte),
        Damage::FlipBit => text[at] ^= 1 << random.below(8),
        Damage::OverwriteByte => text[at] = byte,
        Damage::DropByte => drop(text.remove(at)),
        Damage::DoubleByte => text.insert(at, text[at]),
        Damage::SwapBytes => text.swap(at, other),
        Damage::CutEnd => text.truncate(at),
        Damage::DropLastByte => drop(text.pop()),
        Damage::WrongNumber => replace_number(random, text, wrong_number),
        Damage::WrongSign => {
            let sign = random.pick(&WrongSign::ALL);
            wrong_sign(random, sign, text);
        }
        Damage::ManyDigits => replace_number(random, text, many_digits),
        Damage::LongLine => {
            let long = if random.chance(2) { 70_000 } else { random.between(100, 3_000) };
            text.splice(at..at, vec![byte; long]);
        }
        Damage::RepeatPiece => {
            let end = random.between(at, text.len().min(at + 40));
            let piece = text[at..end].repeat(random.between(1, 60));
            text.splice(at..at, piece);
        }
        _ => {
            let mut lines = lines(text);
            damage_lines(random, kind, &mut lines);
            *text = lines.concat();
        }
    }
}

/// A text with one to three damages, which may leave it well spelled.
pub fn damage(random: &mut Random, text: &[u8]) -> Vec<u8> {
    let mut text = text.to_vec();
    for _ in 0..random.pick(&[1, 1, 1, 2, 3]) {
        let kind = random.pick(&Damage::ALL);
        damage_by(random, kind, &mut text);
    }
    text
}

/// Some of these pieces, in any order.
fn soup(random: &mut Random, pieces: &[&str], most: usize) -> String {
    (0..random.between(1, most)).map(|_| random.pick(pieces)).collect()
}

#[rustfmt::skip]
const STATEMENT_PIECES: [&str; 29] = [
    "skip", "read", "write", "if", "goto", "else", " ", " ", " ", ":=", ":", "=", "i", "i0", "i1",
    "i32", "i63", "i64", "0", "2", "2147483647", "2147483648", "+", "-", "*", "/", "<", "-2", "-0",
];

#[rustfmt::skip]
const EXPRESSION_PIECES: [&str; 24] = [
    "i0", "i32", "i63", "i64", "0", "7", "2147483647", "2147483648", " ", " + ", " - ", " * ", " / ", " < ", " = ", "-",
    "/", " / 0", "-7", "-40", "-0", "-2147483648", "-2147483649", " - -",
];

/// A program of three lines, the middle one of pieces of statements in any order, now and then a statement.
pub fn statement_soup(random: &mut Random) -> Vec<u8> {
    let line = match random.below(4) {
        0 => soup(random, &STATEMENT_PIECES, 8),
        1 => format!("if i0 goto 2 else {}", soup(random, &EXPRESSION_PIECES, 2)),
        _ => format!("i0 := {}", soup(random, &EXPRESSION_PIECES, 4)),
    };
    format!("read i0\n{line}\nwrite i0\n").into_bytes()
}

#[rustfmt::skip]
const CONDITION_PIECES: [&str; 44] = [
    "true", "false", "entry", "exit", "node(", "stmt(", "def(", "use(", "trans(", "i0", "i63", "i64", "1",
    "skip", "i0 := 1", ")", ")", ")", "!", "(", " & ", " | ", "EX ", "AF ", "EG ", "AY ", "ER ",
    "AM ", "E[", "A[", " U ", " W ", " S ", " B ", "]", "]", " ", "true", "-1", "-0", "i0 := -1", "-",
    "i0 := 1 / i0", "/",
];

/// Pieces of conditions in any order, now and then such that they spell one.
pub fn condition_soup(random: &mut Random) -> Vec<u8> {
    let middle = soup(random, &CONDITION_PIECES, 6);
    match random.below(4) {
        0 => format!("E[{middle}]"),
        1 => format!("({middle})"),
        _ => middle,
    }
    .into_bytes()
}

/// A condition with one operator within itself many times, closed again or not.
pub fn nested_condition(random: &mut Random) -> Vec<u8> {
    let (open, close) = random.pick(&[
        ("!", ""),
        ("EX ", ""),
        ("AR ", ""),
        ("(", ""),
        ("(", ")"),
        ("(", " & true)"),
        ("(entry | ", ")"),
        ("E[", ""),
        ("E[", " U true]"),
        ("A[true B ", "]"),
    ]);
    let core = random.pick(&["true", "exit", "def(i0)", "node(2)", "", "x"]);
    let most = (LONGEST_TEXT + 8 - core.len()) / (open.len() + close.len());
    let depth = match random.below(3) {
        0 => random.between(30, 66).min(most),
        1 => random.between(1, most),
        _ => random.between(most - 8, most),
    };
    [open.repeat(depth), core.to_string(), close.repeat(depth)].concat().into_bytes()
}

#[rustfmt::skip]
const MARK_PIECES: [&str; 30] = [
    "1", "2", "0", "1025", ":", " ", "mark", "(", "rm", "rpl", "cse", ",", ", ", "i0", "i1", "i63", "i64", "7",
    " + ", "+", ")", "2147483648", "-7", "-0", "-2147483648", "-2147483649", " - ", "-", " / ", "/",
];

/// A line of pieces of marks in any order, now and then a mark.
pub fn mark_soup(random: &mut Random) -> Vec<u8> {
    let line = match random.below(3) {
        0 => soup(random, &MARK_PIECES, 10),
        1 => format!(
            "2: mark({}, i0, {})",
            random.pick(&["rm", "rpl", "cse"]),
            soup(random, &MARK_PIECES, 4)
        ),
        _ => format!("2: mark({})", soup(random, &MARK_PIECES, 6)),
    };
    format!("{line}\n").into_bytes()
}

// Games

/// A program of many `if`s, on few variables, whose targets lie anywhere.
pub fn game(random: &mut Random, size: usize) -> Program {
    let variables = random.between(1, 5);
    let branches = random.pick(&[20, 50, 70, 90, 100]);
    let reach = random.pick(&[3, 8, size]);
    let mut lines = vec![Statement::Read(0)];
    for at in 2..size {
        let target = |random: &mut Random| {
            let (low, high) = (at.saturating_sub(reach).max(2), (at + reach).min(size));
            random.between(low, high) as u32
        };
        if !random.chance(branches) {
            let x = random.below(variables) as u8;
            let right = Expression::Single(Operand::Constant(at as u32));
            lines.push(if random.chance(50) {
                Statement::Skip
            } else {
                Statement::Assign(x, right)
            });
            continue;
        }
        let (then, other) = (target(random), target(random));
        let other = match random.below(10) {
            0 => then,
            1 => size as u32,
            _ => other,
        };
        lines.push(Statement::Branch { tested: random.below(variables) as u8, then, other });
    }
    lines.push(Statement::Write(random.below(variables) as u8));
    Program::new(lines).expect("a generated program is taken")
}

/// Variables for a driver: none, some or all of those that a program tests, and at times others.
pub fn driver(random: &mut Random, program: &Program) -> Vec<u8> {
    let tested = |x: &u8| {
        let tests = |s: &Statement| matches!(s, Statement::Branch { tested, .. } if tested == x);
        program.statements().iter().any(tests)
    };
    let (mut his, others): (Vec<u8>, Vec<u8>) = (0..VARIABLES).partition(tested);
    match random.below(8) {
        0 => his.clear(),
        1 => {}
        _ => his.retain(|_| random.chance(50)),
    }
    if random.chance(20) {
        let percent = random.pick(&[10, 50, 100]);
        his.extend(others.into_iter().filter(|_| random.chance(percent)));
    }
    random.shuffle(&mut his);
    his
}

/// The text of a driver's list.
pub fn driver_text(his: &[u8]) -> Vec<u8> {
    let names: Vec<String> = his.iter().map(|x| format!("i{x}")).collect();
    names.join(" ").into_bytes()
}

/// What a driver may want of a program: a condition, mostly a small one.
pub fn goal(random: &mut Random, program: &Program) -> Vec<u8> {
    match random.below(12) {
        0..=2 => b"exit".to_vec(),
        3..=5 => format!("node({})", random.between(2, program.statements().len())).into_bytes(),
        6 => format!("use(i{})", variable_near(random, program)).into_bytes(),
        7 => format!("def(i{})", variable_near(random, program)).into_bytes(),
        8 => random.pick(&[&b"true"[..], b"false", b"entry"]).to_vec(),
        _ => {
            let parts = random.between(1, 8);
            condition(random, program, parts)
        }
    }
}

/// A way to spell a driver's list that is refused.
#[derive(Clone, Copy, Debug, PartialEq, Eq, PartialOrd, Ord)]
pub enum WrongDriver {
    SpaceBefore,
    SpaceBehind,
    TwoSpaces,
    /// A space and nothing else.
    Space,
    /// Byte 10 at the end.
    Byte10,
    /// A comma for a space.
    Comma,
    Tab,
    /// Nothing between two names.
    NoSpace,
    /// A name twice.
    Twice,
    /// `i00`, `i07`.
    LeadingZero,
    /// `i64` and larger numbers.
    TooLarge,
    /// A number that is a variable's only when it wraps.
    Wrapping,
    /// `I0`, `j0`, `0`.
    Letter,
    /// `i`.
    NoNumber,
    /// `i-1`, `i+1`.
    Sign,
    /// A byte that no list has.
    Byte,
}

impl WrongDriver {
    pub const ALL: [WrongDriver; 16] = [
        WrongDriver::SpaceBefore,
        WrongDriver::SpaceBehind,
        WrongDriver::TwoSpaces,
        WrongDriver::Space,
        WrongDriver::Byte10,
        WrongDriver::Comma,
        WrongDriver::Tab,
        WrongDriver::NoSpace,
        WrongDriver::Twice,
        WrongDriver::LeadingZero,
        WrongDriver::TooLarge,
        WrongDriver::Wrapping,
        WrongDriver::Letter,
        WrongDriver::NoNumber,
        WrongDriver::Sign,
        WrongDriver::Byte,
    ];
}

/// The text of a list, spelled in a wrong way. No such text is a list.
pub fn wrong_driver(random: &mut Random, wrong: WrongDriver, his: &[u8]) -> Vec<u8> {
    let mut names: Vec<String> = his.iter().map(|x| format!("i{x}")).collect();
    for x in [3, 17, VARIABLES - 1] {
        if names.len() < 2 && !his.contains(&x) {
            names.push(format!("i{x}"));
        }
    }
    let at = random.below(names.len());
    let joint = |between: &str, names: &[String]| {
        let after = at.clamp(1, names.len() - 1);
        format!("{}{between}{}", names[..after].join(" "), names[after..].join(" ")).into_bytes()
    };
    match wrong {
        WrongDriver::SpaceBefore => return format!(" {}", names.join(" ")).into_bytes(),
        WrongDriver::SpaceBehind => return format!("{} ", names.join(" ")).into_bytes(),
        WrongDriver::Byte10 => return format!("{}\n", names.join(" ")).into_bytes(),
        WrongDriver::Space => return b" ".to_vec(),
        WrongDriver::TwoSpaces => return joint("  ", &names),
        WrongDriver::Comma => return joint(", ", &names),
        WrongDriver::Tab => return joint("\t", &names),
        WrongDriver::NoSpace => return joint("", &names),
        WrongDriver::Twice => {
            let again = names[at].clone();
            let to = random.below(names.len() + 1);
            names.insert(to, again);
        }
        WrongDriver::LeadingZero => names[at].insert(1, '0'),
        WrongDriver::TooLarge => {
            names[at] = format!("i{}", random.pick(&[64, 65, 99, 100, 128, 255]))
        }
        WrongDriver::Wrapping => {
            let low = random.below(usize::from(VARIABLES)) as u64;
            let wide = random.pick(&[256, 1 << 16, 1 << 32]) + low;
            names[at] = format!("i{wide}");
        }
        WrongDriver::Letter => {
            let letter = random.pick(&["I", "j", "", "ii", "use(i"]);
            names[at].replace_range(..1, letter);
        }
        WrongDriver::NoNumber => names[at] = "i".to_string(),
        WrongDriver::Sign => names[at].insert(1, random.pick(&['-', '+'])),
        WrongDriver::Byte => names[at].push(random.pick(&['\0', '%', '\u{e9}', 'x', ':'])),
    }
    names.join(" ").into_bytes()
}

/// A price that a buyer's table may have, often at an end of the range or of a number of digits.
pub fn price(random: &mut Random) -> u32 {
    match random.below(4) {
        0 => random.pick(&[1, 2, 65_534, 65_535]),
        1 => random.pick(&[9, 10, 99, 100, 255, 256, 999, 1_000, 9_999, 10_000, 32_768, 65_530]),
        2 => random.between(1, 99) as u32,
        _ => random.between(1, 65_535) as u32,
    }
}

/// A number outside that range.
pub fn outside(random: &mut Random) -> u32 {
    match random.below(3) {
        0 => random.pick(&[0, 65_536, u32::MAX]),
        1 => random.pick(&[65_537, 65_540, 131_072, 131_073, 1 << 31, (1 << 31) - 1, u32::MAX - 1]),
        _ => (word(random) | 1 << random.between(16, 31)).max(65_536),
    }
}

/// A table of prices, ours among them, of equal ones, or with entries outside the range in places.
pub fn prices(random: &mut Random) -> Prices {
    match random.below(10) {
        0 => OURS,
        1 => [price(random); KINDS],
        2 => std::array::from_fn(|k| k as u32 + 1),
        3 => std::array::from_fn(|_| outside(random)),
        4..=6 => {
            let share = random.pick(&[10, 30, 60]);
            std::array::from_fn(|_| match random.chance(share) {
                true => outside(random),
                false => price(random),
            })
        }
        _ => std::array::from_fn(|_| price(random)),
    }
}

/// Right prices: eleven of them in most cases, else some other number.
pub fn price_list(random: &mut Random) -> Vec<u32> {
    let count = match random.below(10) {
        0 => random.pick(&[10, 12]),
        1 => random.below(14),
        2 => random.pick(&[0, 1, 22, 256, 300]),
        _ => KINDS,
    };
    (0..count).map(|_| price(random)).collect()
}

/// The text of a table of right prices.
pub fn table_text(random: &mut Random) -> Vec<u8> {
    let prices: Prices = std::array::from_fn(|_| price(random));
    pricing::table_text(&prices)
}

/// A wrong line of a table of prices.
#[derive(Clone, Copy, Debug, PartialEq, Eq, PartialOrd, Ord)]
pub enum WrongPrice {
    Zero,
    /// 65,536 and larger numbers.
    TooLarge,
    /// A number that lies in the range only when it wraps at 16, 32 or 64 bits.
    Wrapping,
    /// A thousand digits.
    ManyDigits,
    /// `07`, `007`.
    LeadingZero,
    /// `-1`, `+1`.
    Sign,
    /// No byte before its byte 10.
    Empty,
    /// A space before it, behind it or in it.
    Space,
    /// Byte 13 before its byte 10.
    Return,
    /// A fraction, an exponent, a comma, a letter or another byte.
    Byte,
    /// The last without its byte 10.
    Unfinished,
}

impl WrongPrice {
    pub const ALL: [WrongPrice; 11] = [
        WrongPrice::Zero,
        WrongPrice::TooLarge,
        WrongPrice::Wrapping,
        WrongPrice::ManyDigits,
        WrongPrice::LeadingZero,
        WrongPrice::Sign,
        WrongPrice::Empty,
        WrongPrice::Space,
        WrongPrice::Return,
        WrongPrice::Byte,
        WrongPrice::Unfinished,
    ];
}

/// The text of a list of prices with one line wrong, one more line where it has none. No such text is a table.
pub fn wrong_prices(random: &mut Random, wrong: WrongPrice, prices: &[u32]) -> Vec<u8> {
    let mut lines: Vec<String> = prices.iter().map(u32::to_string).collect();
    if lines.is_empty() {
        lines.push(price(random).to_string());
    }
    let at = random.below(lines.len());
    let place = random.below(lines[at].len() + 1);
    match wrong {
        WrongPrice::Zero => lines[at] = random.pick(&["0", "00", "-0"]).to_string(),
        WrongPrice::TooLarge => lines[at] = outside(random).max(65_536).to_string(),
        WrongPrice::Wrapping => {
            let wide = random.pick(&[1_u128 << 16, 1 << 32, 1 << 64]);
            lines[at] = (wide + u128::from(price(random))).to_string();
        }
        WrongPrice::ManyDigits => {
            let digit = random.pick(&["0", "1", "6", "9"]);
            lines[at] = digit.repeat(1_000) + random.pick(&["", "1", "65535"]);
        }
        WrongPrice::LeadingZero => lines[at].insert_str(0, random.pick(&["0", "00"])),
        WrongPrice::Sign => lines[at].insert(0, random.pick(&['-', '+'])),
        WrongPrice::Empty => lines[at].clear(),
        WrongPrice::Space => lines[at].insert(place, ' '),
        WrongPrice::Return => lines[at].push('\r'),
        WrongPrice::Byte => {
            let byte = random.pick(&['.', 'e', ',', 'x', '_', '\t', '\0', ':', '/', '\u{e9}']);
            lines[at].insert(place, byte);
        }
        WrongPrice::Unfinished => return lines.join("\n").into_bytes(),
    }
    lines.iter().map(|line| line.clone() + "\n").collect::<String>().into_bytes()
}

/// A buyer's text: a table in most cases, else other than eleven lines, a wrong line, or damaged.
pub fn price_text(random: &mut Random) -> Vec<u8> {
    let list = price_list(random);
    match random.below(10) {
        0..=2 => {
            let wrong = random.pick(&WrongPrice::ALL);
            wrong_prices(random, wrong, &list)
        }
        3 => damage(random, &pricing::table_text(&list)),
        _ => pricing::table_text(&list),
    }
}

/// Names of stages that meet again: some are another's front, or differ from it in the first or the eighth letter.
const STAGE_NAMES: [&str; 12] = [
    "a", "b", "aa", "first", "second", "third", "abcdefg", "abcdefgh", "abcdefgi", "bbcdefgh",
    "zzzzzzzz", "road",
];

/// A stage's name, mostly one of few.
pub fn stage_name(random: &mut Random) -> Vec<u8> {
    if random.chance(90) {
        return random.pick(&STAGE_NAMES).as_bytes().to_vec();
    }
    (0..random.between(1, NAME_BYTES)).map(|_| b'a' + random.below(26) as u8).collect()
}

/// A way in which a stage's name is wrong.
#[derive(Clone, Copy, Debug, PartialEq, Eq, PartialOrd, Ord)]
pub enum WrongName {
    /// No letter.
    Empty,
    /// Nine letters, of which eight are a name.
    Nine,
    /// More, as many as a record's bytes or a hundred.
    Long,
    /// A capital letter.
    Capital,
    /// A byte just below or above the letters.
    Beside,
    /// A zero byte behind the letters, as in a place.
    Zero,
    /// Letters behind a zero byte.
    LetterBehindZero,
    /// Any byte but a letter.
    OtherByte,
}

impl WrongName {
    pub const ALL: [WrongName; 8] = [
        WrongName::Empty,
        WrongName::Nine,
        WrongName::Long,
        WrongName::Capital,
        WrongName::Beside,
        WrongName::Zero,
        WrongName::LetterBehindZero,
        WrongName::OtherByte,
    ];
}

/// A wrong name, made of a right one.
pub fn wrong_name(random: &mut Random, wrong: WrongName, name: &[u8]) -> Vec<u8> {
    let mut name = name.to_vec();
    let at = random.below(name.len());
    let front = random.between(1, NAME_BYTES - 1).min(name.len());
    match wrong {
        WrongName::Empty => name.clear(),
        WrongName::Nine => name.resize(NAME_BYTES + 1, b'a'),
        WrongName::Long => name.resize(random.pick(&[HEAD_BYTES, 16, 100]), b'z'),
        WrongName::Capital => name[at] = name[at].to_ascii_uppercase(),
        WrongName::Beside => name[at] = random.pick(&[b'a' - 1, b'z' + 1]),
        WrongName::Zero => {
            name.truncate(front);
            name.resize(random.between(front + 1, NAME_BYTES), 0);
        }
        WrongName::LetterBehindZero => {
            name.truncate(front);
            name.resize(NAME_BYTES, 0);
            name[NAME_BYTES - 1] = b'a';
            if front == NAME_BYTES - 1 {
                name[front - 1] = 0;
            }
        }
        WrongName::OtherByte => {
            let other = random.below(256 - 26) as u8;
            name[at] = if other < b'a' { other } else { other.wrapping_add(26) };
        }
    }
    name
}

/// Puts a record into a place of stages, counted from 0.
fn put_stage(stages: &mut [u8], at: usize, name: &[u8], text: &[u8]) {
    let place = &mut stages[at * PLACE_BYTES..][..PLACE_BYTES];
    place[..NAME_BYTES].fill(0);
    place[..name.len()].copy_from_slice(name);
    place[NAME_BYTES..HEAD_BYTES].copy_from_slice(&(text.len() as u16).to_le_bytes());
    place[HEAD_BYTES..][..text.len()].copy_from_slice(text);
}

/// A program to be kept, mostly a short one.
pub fn kept_program(random: &mut Random) -> Program {
    let size = if random.chance(97) { random.between(2, 9) } else { size(random) };
    program(random, size)
}

/// The bytes that stages need: of zeros, letters or any bytes, with differing names in none to all of the places.
pub fn stages(random: &mut Random) -> Vec<u8> {
    let mut stages = vec![0; STAGES_BYTES];
    match random.below(8) {
        0 => stages.fill(b'a'),
        1 | 2 => stages.chunks_mut(8).for_each(|bytes| {
            bytes.copy_from_slice(&random.bits().to_le_bytes()[..bytes.len()]);
        }),
        _ => {}
    }
    let (mut names, mut places) = (STAGE_NAMES, [0, 1, 2, 3, 4, 5, 6, 7]);
    random.shuffle(&mut names);
    random.shuffle(&mut places);
    for &at in &places[..random.pick(&[0, 1, 3, 5, 6, 7, 8, 8, 8, 8])] {
        let text = kept_program(random).text();
        put_stage(&mut stages, at, names[at].as_bytes(), &text);
    }
    stages
}

/// What happens to a place of stages.
#[derive(Clone, Copy, Debug, PartialEq, Eq, PartialOrd, Ord)]
pub enum PlaceDamage {
    /// Its record stands in another place too.
    Copied,
    /// Its name does, with the text that the other has.
    Named,
    /// A byte of its name is another.
    NameByte,
    /// A letter stands behind the zero bytes of its name.
    LastLetter,
    /// Its name is gone.
    NameGone,
    /// Its length is one of those around the most that a place has room for.
    LengthMost,
    /// The largest that two bytes spell, or close to it: length bytes 0 255 among them.
    LengthFar,
    /// One more or less than it was.
    LengthNear,
    /// Its bytes stand in the other order.
    LengthTurned,
    /// A byte of its text is another.
    TextByte,
    /// The text is one that is refused, of its own length.
    TextRefused,
}

impl PlaceDamage {
    pub const ALL: [PlaceDamage; 11] = [
        PlaceDamage::Copied,
        PlaceDamage::Named,
        PlaceDamage::NameByte,
        PlaceDamage::LastLetter,
        PlaceDamage::NameGone,
        PlaceDamage::LengthMost,
        PlaceDamage::LengthFar,
        PlaceDamage::LengthNear,
        PlaceDamage::LengthTurned,
        PlaceDamage::TextByte,
        PlaceDamage::TextRefused,
    ];
}

/// Damages a place of stages, counted from 0.
pub fn damage_place(random: &mut Random, kind: PlaceDamage, stages: &mut [u8], at: usize) {
    let start = at * PLACE_BYTES;
    let other = random.below(PLACES) * PLACE_BYTES;
    let place = start..start + PLACE_BYTES;
    let head = &mut stages[start..][..HEAD_BYTES];
    let length = u16::from_le_bytes([head[NAME_BYTES], head[NAME_BYTES + 1]]);
    let put_length = |stages: &mut [u8], length: u16| {
        stages[start + NAME_BYTES..start + HEAD_BYTES].copy_from_slice(&length.to_le_bytes());
    };
    let most = (PLACE_BYTES - HEAD_BYTES) as u16;
    match kind {
        PlaceDamage::Copied => stages.copy_within(place, other),
        PlaceDamage::Named => stages.copy_within(start..start + NAME_BYTES, other),
        PlaceDamage::NameByte => {
            let byte = random.pick(&[0, 1, b'A', b'`', b'a', b'z', b'{', 255]);
            head[random.below(NAME_BYTES)] = byte;
        }
        PlaceDamage::LastLetter => head[NAME_BYTES - 1] = b'a',
        PlaceDamage::NameGone => head[..NAME_BYTES].fill(0),
        PlaceDamage::LengthMost => {
            put_length(stages, random.pick(&[most - 1, most, most + 1, most + HEAD_BYTES as u16]));
        }
        PlaceDamage::LengthFar => {
            put_length(stages, random.pick(&[0xff00, 0xffff, 0x8900, 0xc000]))
        }
        PlaceDamage::LengthNear => {
            put_length(stages, random.pick(&[length.wrapping_add(1), length.wrapping_sub(1)]));
        }
        PlaceDamage::LengthTurned => put_length(stages, length.swap_bytes()),
        PlaceDamage::TextByte => {
            let text = start + HEAD_BYTES + random.below(usize::from(length.min(most)).max(1));
            stages[text] = random.pick(&[b'x', b'\n', 0, b'0', b' ']);
        }
        PlaceDamage::TextRefused => {
            let text = random.pick(&[
                "",
                "read i0\n",
                "read i0\nskip\n",
                "read i0\nif i0 goto 1 else 2\nwrite i0\n",
                "rubbish",
            ]);
            put_length(stages, text.len() as u16);
            stages[start + HEAD_BYTES..][..text.len()].copy_from_slice(text.as_bytes());
        }
    }
}
