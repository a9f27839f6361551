//! Random cases of each call, through the exports for C. The library's answer and every lent byte
//! are held to those of the second implementation in `oracle`. A class of cases that was never met
//! fails the test; with `--nocapture` the counts are printed.
//!
//! The same seed gives the same cases. `DIFFERENTIAL_SEED` and `DIFFERENTIAL_CASES` choose another,
//! and how many cases of each call there are.

mod common;
mod coverage;
mod lent;

use common::{option, refused_programs, P};
use coverage::Tally;
use lent::{Lent, Text};
use oracle::condition::{self, Atom, Condition, Demand, Direction, Part, Quantifier};
use oracle::forcing::{self, player, Arm, Forced, Player};
use oracle::generate::{self, Damage, PlaceDamage, Random};
use oracle::generate::{WrongDriver, WrongName, WrongPrice, WrongReuse, WrongSign};
use oracle::join::{self, InTurn};
use oracle::listing::{self, Counts, Set};
use oracle::liveness::{differing, Liveness};
use oracle::machine::{self, kept_of, Outcome, Run, State, Values};
use oracle::marks::{self, Judge, Kind, Mark};
use oracle::paths::{self, check_why, check_witness, Because, Witnessed};
use oracle::pricing::{self, in_force, kind, Prices, KIND_NAMES, OURS};
use oracle::program::{is_kept, Expression, Operand, Operator, Program, Statement, LARGEST, LEAST};
use oracle::review::{self, Reviewed, MOST_TABLES};
use oracle::stages::{self, Stage};
use oracle::steps::Steps;
use rewrites::{
    raw, Outcome as Answer, Prices as Table, FIRST_KEPT, KEPT, KINDS, MOST_STEPS, VARIABLES,
};
use rewrites::{LIST_WORDS, MARKS, PART_WORDS, PATH_WORDS, REVIEW_LINES, REVIEW_WORDS, STATEMENTS};
use rewrites::{PLACES, PLACE_BYTES, STAGES_BYTES, UNFORCED, VERDICT_BYTES};
use rewrites::{TABLE_WORDS, TEXT_BYTES};
use std::cmp::Ordering;
use std::ops::Range;

const CASES: u64 = 100_000;
const SEED: u64 = 1;

/// The source of each case of a call, with the case's number.
fn cases(call: &str) -> impl Iterator<Item = (u64, Random)> {
    let (count, seed) = (option("DIFFERENTIAL_CASES", CASES), option("DIFFERENTIAL_SEED", SEED));
    println!("\n{count} cases of {call}, seed {seed}");
    let start = call
        .bytes()
        .fold(Random::new(seed).bits(), |sum, byte| Random::new(sum ^ u64::from(byte)).bits());
    (0..count).map(move |case| (case, Random::new(start.wrapping_add(case))))
}

fn escaped(text: &[u8]) -> String {
    text.escape_ascii().to_string()
}

// Texts

/// Every 16th case goes through the classes of one kind in turn, so that all are met.
fn in_turn(case: u64, kind: u64, classes: impl IntoIterator<Item = usize>) -> Option<usize> {
    let classes: Vec<usize> =
        if case % 16 == kind { classes.into_iter().collect() } else { Vec::new() };
    (!classes.is_empty()).then(|| classes[(case / 16) as usize % classes.len()])
}

/// The numbers of statements, from the fewest on, that are to be met: all up to both sides of 256, those beside each further word of a
/// row, and the last.
fn sizes_from(fewest: usize) -> impl Iterator<Item = usize> {
    let words = (320..STATEMENTS).step_by(64).flat_map(|size| size - 1..=size + 1);
    (fewest..=260).chain(words).chain(STATEMENTS - 2..=STATEMENTS)
}

/// The numbers of marks that are to be met.
fn mark_counts() -> impl Iterator<Item = usize> {
    (0..=66).chain(250..=260).chain([511, 512, 513]).chain(MARKS - 2..=MARKS)
}

/// A number of marks: each in turn, now and then around the most, and else up to this.
fn mark_count(random: &mut Random, case: u64, usual: usize) -> usize {
    in_turn(case, EACH_COUNT, mark_counts()).unwrap_or_else(|| match random.below(300) {
        0 => random.between(MARKS - 1, MARKS + 2),
        1..=5 => random.between(250, 258),
        _ => random.below(usual),
    })
}

/// Texts of no, one or too many lines.
fn miscounted(random: &mut Random) -> Vec<u8> {
    b"read i0\n".repeat(random.pick(&[0, 1, STATEMENTS + 1]))
}

const EACH_SIZE: u64 = 0;
const EACH_COUNT: u64 = 8;

/// Whether a case has its texts as they were made, and buffers that are large enough. The others
/// may have them damaged or too small.
fn is_whole(case: u64) -> bool {
    case % 8 == 0
}

/// The sizes of programs, as they tell them.
fn sizes_of_programs() -> impl Iterator<Item = u32> {
    sizes_from(2).map(|size| size as u32)
}

fn program(random: &mut Random, case: u64) -> Program {
    let size = in_turn(case, EACH_SIZE, sizes_from(2)).unwrap_or_else(|| generate::size(random));
    generate::program(random, size)
}

/// Damages a text once to three times, often such that it stays well spelled.
fn damaged(random: &mut Random, text: &mut Vec<u8>, met: &mut Tally<Shown<Damage>>) {
    for _ in 0..random.pick(&[1, 1, 1, 2, 3]) {
        let kind = random.pick(&Damage::ALL);
        generate::damage_by(random, kind, text);
        met.met(Shown(kind));
    }
}

/// A class that is printed as it is spelled in the code.
#[derive(Clone, Copy, PartialEq, Eq, PartialOrd, Ord)]
struct Shown<T>(T);

impl<T: std::fmt::Debug> std::fmt::Display for Shown<T> {
    fn fmt(&self, f: &mut std::fmt::Formatter<'_>) -> std::fmt::Result {
        write!(f, "{:?}", self.0)
    }
}

fn damages(kind: &'static str) -> Tally<Shown<Damage>> {
    Tally::new(kind, Damage::ALL.map(Shown))
}

/// Spells one of a text's numbers with a wrong sign, and tells which. No text that was well spelled
/// stays so.
fn wrongly_signed(random: &mut Random, text: &mut Vec<u8>) -> Option<WrongSign> {
    let sign = random.pick(&WrongSign::ALL);
    generate::wrong_sign(random, sign, text);
    Some(sign)
}

/// Spells one of a list's `cse` lines in a wrong way, and tells in which.
fn wrongly_reused(random: &mut Random, list: &mut Vec<u8>) -> Option<WrongReuse> {
    let wrong = random.pick(&WrongReuse::ALL);
    generate::wrong_reuse(random, wrong, list);
    Some(wrong)
}

/// The wrong ways to spell `cse` for which lists were refused.
fn wrong_reuses(kind: &'static str) -> Tally<Shown<WrongReuse>> {
    Tally::new(kind, WrongReuse::ALL.map(Shown))
}

/// The wrong signs for which texts were refused as misspelled.
struct Signs {
    met: Tally<Shown<WrongSign>>,
    misspelled: u8,
}

impl Signs {
    fn new(kind: &'static str, misspelled: u8) -> Signs {
        Signs { met: Tally::new(kind, WrongSign::ALL.map(Shown)), misspelled }
    }

    /// A text with this sign, if it has one, got this answer.
    fn met(&mut self, sign: Option<WrongSign>, number: u8) {
        if let Some(sign) = sign.filter(|_| number == self.misspelled) {
            self.met.met(Shown(sign));
        }
    }
}

/// Where in its range a constant lies.
fn constant_kind(operand: Operand) -> Option<&'static str> {
    match operand {
        Operand::Variable(_) => None,
        Operand::Constant(0) => Some("zero"),
        Operand::Constant(LARGEST) => Some("the largest"),
        Operand::Constant(LEAST) => Some("the least"),
        Operand::Constant(u32::MAX) => Some("-1"),
        Operand::Constant(bits) if bits < LARGEST => Some("above zero"),
        Operand::Constant(_) => Some("below zero"),
    }
}

/// The constants of right sides.
struct Constants(Tally<&'static str>);

impl Constants {
    fn new(kind: &'static str) -> Constants {
        let kinds = ["the least", "below zero", "-1", "zero", "above zero", "the largest"];
        Constants(Tally::new(kind, kinds))
    }

    fn met(&mut self, right: &Expression) {
        let kinds = right.operands().into_iter().filter_map(constant_kind);
        kinds.for_each(|kind| self.0.met(kind));
    }

    fn met_in(&mut self, statement: &Statement) {
        if let Statement::Assign(_, right) = statement {
            self.met(right);
        }
    }
}

/// A length for a buffer that must have `least`, often at an edge.
fn room(random: &mut Random, least: usize) -> usize {
    match random.below(40) {
        0 => 0,
        1 => random.pick(&[1, 4, least / 2]),
        2 => least - 1,
        3..=20 => least,
        21 => random.below(least),
        22..=24 => least + 1,
        25 => least * 2,
        _ => least + random.below(64),
    }
}

/// The lengths of a buffer that must have `least`, which are to be met.
fn rooms(kind: &'static str, least: usize) -> Tally<usize> {
    Tally::new(kind, [0, 1, least / 2, least - 1, least, least + 1, least * 2])
}

// Runs

/// The places that a run may set, with kept words between them.
const ENDED: usize = 0;
const VALUE: usize = 2;
const STEPS: usize = 4;
const STATEMENT: usize = 6;
const LEFT: usize = 8;
const KEPT_ONES: usize = LEFT + VARIABLES + 1;
const RUN_WORDS: usize = KEPT_ONES + KEPT;

/// A table of prices, lent to a call.
fn lent_prices(random: &mut Random, prices: &Prices) -> Lent<u32> {
    let mut lent = Lent::new(random, KINDS, |bits| bits as u32);
    lent.part().copy_from_slice(prices);
    lent
}

/// What is lent to a run beside the program and the values.
#[derive(Clone)]
struct RunPlaces {
    prices: Lent<u32>,
    words: Lent<u32>,
    ticks: Lent<u64>,
}

impl RunPlaces {
    fn new(random: &mut Random, prices: &Prices) -> RunPlaces {
        RunPlaces {
            prices: lent_prices(random, prices),
            words: Lent::new(random, RUN_WORDS, |bits| bits as u32),
            ticks: Lent::new(random, 1, |bits| bits),
        }
    }

    /// Fails where a word of what is lent differs.
    fn assert_same(&self, expected: &RunPlaces, name: &str, case: impl Fn() -> String) {
        self.words.assert_same(&expected.words, &format!("places of {name}"), &case);
        self.ticks.assert_same(&expected.ticks, &format!("ticks of {name}"), &case);
        self.prices.assert_same(&expected.prices, &format!("prices of {name}"), &case);
    }
}

fn lend_run(
    program: &[u8],
    values: &Values,
    input: u32,
    budget: u32,
    places: &mut RunPlaces,
) -> u8 {
    let (words, ticks, prices) = (places.words.part(), places.ticks.part(), places.prices.part());
    assert_eq!((words.len(), ticks.len(), prices.len()), (RUN_WORDS, 1, KINDS));
    let first = words.as_mut_ptr();
    // SAFETY: the pointers come from references, and no two of the written places overlap.
    unsafe {
        raw::rewrites_run(
            program.as_ptr(),
            program.len(),
            values,
            input,
            budget,
            prices.as_ptr().cast(),
            first.add(ENDED),
            first.add(VALUE).cast(),
            first.add(STEPS),
            first.add(STATEMENT),
            first.add(LEFT).cast(),
            first.add(KEPT_ONES).cast(),
            ticks.as_mut_ptr(),
        )
    }
}

/// Puts an outcome where a run does.
fn put_outcome(places: &mut RunPlaces, outcome: Outcome) {
    places.ticks.part()[0] = outcome.ticks();
    let places = places.words.part();
    match outcome {
        Outcome::Ended { value, steps, kept, .. } => {
            places[ENDED] = 1;
            places[VALUE] = value as u32;
            places[STEPS] = steps;
            places[KEPT_ONES..KEPT_ONES + KEPT].copy_from_slice(&kept);
        }
        Outcome::Spent { statement, values, .. } => {
            places[ENDED] = 0;
            places[STATEMENT] = statement;
            places[LEFT..LEFT + VARIABLES].copy_from_slice(&values);
        }
        Outcome::Fault { statement, steps, .. } => {
            places[ENDED] = 2;
            places[STATEMENT] = statement;
            places[STEPS] = steps;
        }
    }
}

/// Holds a run from random values, by random prices, to the oracle's, and tells its answer.
fn run_agrees(
    random: &mut Random,
    case: &str,
    text: &[u8],
    input: u32,
    budget: u32,
) -> Result<Outcome, u8> {
    let (values, prices) = (generate::values(random), generate::prices(random));
    run_from_agrees(random, case, text, (values, input), budget, &prices)
}

/// The same from these values and this input, by these prices.
fn run_from_agrees(
    random: &mut Random,
    case: &str,
    text: &[u8],
    (values, input): (Values, u32),
    budget: u32,
    prices: &Prices,
) -> Result<Outcome, u8> {
    let (mut program, lent) = (Text::new(random, text), values);
    let mut places = RunPlaces::new(random, prices);
    let mut expected = places.clone();
    let wanted = machine::run(text, values, input, budget, prices);
    if let Ok(outcome) = wanted {
        put_outcome(&mut expected, outcome);
    }
    let shown = || {
        let text = escaped(text);
        let start = format!("values {values:?} input {input} budget {budget}");
        format!("case {case}: {start} prices {prices:?} program {text}")
    };
    let number = lend_run(program.part(), &values, input, budget, &mut places);
    assert_eq!(number, wanted.err().unwrap_or(0), "number of {}", shown());
    places.assert_same(&expected, "a run", shown);
    program.assert_kept("program", shown);
    assert_eq!(values, lent, "{}", shown());
    wanted
}

/// The operator of an assignment of a program, and the kinds of its statements.
fn statement_kind(statement: &Statement) -> &'static str {
    match statement {
        Statement::Read(_) => "read",
        Statement::Write(_) => "write",
        Statement::Skip => "skip",
        Statement::Branch { then, other, .. } if then == other => "if with one target",
        Statement::Branch { .. } => "if",
        Statement::Assign(_, Expression::Single(Operand::Variable(_))) => "copy",
        Statement::Assign(_, Expression::Single(Operand::Constant(_))) => "constant",
        Statement::Assign(_, Expression::Pair(_, operator, _)) => operator_kind(*operator),
    }
}

fn operator_kind(operator: Operator) -> &'static str {
    match operator {
        Operator::Plus => "+",
        Operator::Minus => "-",
        Operator::Times => "*",
        Operator::Divide => "/",
        Operator::Less => "<",
        Operator::Equal => "=",
    }
}

const OPERATORS: [&str; 6] = ["+", "-", "*", "/", "<", "="];

#[rustfmt::skip]
const STATEMENT_KINDS: [&str; 13] = [
    "read", "write", "skip", "if", "if with one target", "copy", "constant",
    "+", "-", "*", "/", "<", "=",
];

/// The operands of a division.
fn division(right: &Expression) -> Option<(Operand, Operand)> {
    match *right {
        Expression::Pair(a, Operator::Divide, b) => Some((a, b)),
        _ => None,
    }
}

#[rustfmt::skip]
const QUOTIENTS: [&str; 16] = [
    "+ / +", "+ / -", "- / +", "- / -", "0 / +", "0 / -", "a remainder above zero",
    "a remainder below zero", "0 of a number below zero", "0 of a divisor below zero",
    "the end of the range", "the least by another", "by the least", "by -1", "+ / 0 or - / 0", "0 / 0",
];

/// What is told by a division of two numbers.
fn quotient_kinds(a: i32, b: i32) -> Vec<&'static str> {
    if b == 0 {
        return vec![if a == 0 { "0 / 0" } else { "+ / 0 or - / 0" }];
    }
    let signs = match (a.signum(), b.signum()) {
        (1, 1) => "+ / +",
        (1, _) => "+ / -",
        (-1, 1) => "- / +",
        (-1, _) => "- / -",
        (_, 1) => "0 / +",
        _ => "0 / -",
    };
    let (wide_a, wide_b) = (i64::from(a), i64::from(b));
    let is_smaller = wide_a.abs() < wide_b.abs();
    let kinds = [
        (signs, true),
        ("a remainder above zero", wide_a % wide_b > 0),
        ("a remainder below zero", wide_a % wide_b < 0),
        ("0 of a number below zero", a < 0 && b > 0 && is_smaller),
        ("0 of a divisor below zero", a > 0 && b < 0 && is_smaller),
        ("the end of the range", (a, b) == (i32::MIN, -1)),
        ("the least by another", a == i32::MIN && b != -1),
        ("by the least", b == i32::MIN),
        ("by -1", b == -1),
    ];
    kinds.into_iter().filter(|(_, is_met)| *is_met).map(|(kind, _)| kind).collect()
}

/// Counts the divisions of a run's first steps.
fn quotients_met(
    program: &Program,
    values: Values,
    input: u32,
    budget: u32,
    met: &mut Tally<&'static str>,
) {
    let mut run = Run::start(program, values, input);
    for _ in 0..budget.min(60) {
        if let State::Before { statement, values } = *run.state() {
            if let Some(Statement::Assign(_, right)) = program.statement(statement) {
                let value = |operand| match operand {
                    Operand::Variable(x) => values[usize::from(x)] as i32,
                    Operand::Constant(bits) => bits as i32,
                };
                let kinds = division(right).map(|(a, b)| quotient_kinds(value(a), value(b)));
                kinds.into_iter().flatten().for_each(|kind| met.met(kind));
            }
        }
        run.step();
    }
}

#[rustfmt::skip]
const FAULTS: [&str; 5] = [
    "by the second step", "by a later step", "by the last of the budget", "before the budget is spent",
    "after a step back",
];

/// Where a run faulted.
fn fault_kinds(statement: u32, steps: u32, budget: u32) -> [&'static str; 3] {
    [
        if steps == 2 { "by the second step" } else { "by a later step" },
        if steps == budget { "by the last of the budget" } else { "before the budget is spent" },
        // Otherwise each step goes at least one line on.
        if steps > statement { "after a step back" } else { "" },
    ]
}

const TICKS: [&str; 5] = ["none", "of 8 bits", "of 16 bits", "of 32 bits", "of more"];

/// How many ticks those are.
fn ticks_kind(ticks: u64) -> &'static str {
    match ticks {
        0 => "none",
        1..=0xff => "of 8 bits",
        0x100..=0xffff => "of 16 bits",
        0x1_0000..=0xffff_ffff => "of 32 bits",
        _ => "of more",
    }
}

/// The kinds of the statements that a run's first steps perform, each of which has its price.
fn performed_by(program: &Program, values: Values, input: u32, budget: u32) -> [bool; KINDS] {
    let mut run = Run::start(program, values, input);
    let mut performed = [false; KINDS];
    for _ in 0..budget.min(60) {
        if let State::Before { statement, .. } = *run.state() {
            performed[kind(program.statement(statement).expect("a statement"))] = true;
        }
        run.step();
    }
    performed
}

const PRICES: [&str; 4] =
    ["ours", "a buyer's", "partly outside the range", "all outside the range"];

/// What table of prices that is.
fn table_kind(prices: &Prices) -> &'static str {
    let outside = (0..KINDS).filter(|&kind| in_force(prices, kind) != prices[kind]).count();
    match outside {
        0 if *prices == OURS => "ours",
        0 => "a buyer's",
        KINDS => "all outside the range",
        _ => "partly outside the range",
    }
}

#[test]
fn runs_are_as_by_the_oracle() {
    let mut refusals = Tally::new("refusals of run", [15, 2, 3, 4, 5]);
    let mut outcomes = Tally::new("outcomes of run", ["ended", "spent", "fault"]);
    let mut faults = Tally::new("faults of run", FAULTS);
    let mut quotients = Tally::new("divisions of programs run", QUOTIENTS);
    let mut values = Tally::new("values", [i32::MIN, -1, 0, 1, i32::MAX]);
    let mut sizes = Tally::new("sizes of programs run", sizes_of_programs());
    let mut kinds = Tally::new("statements of programs run", STATEMENT_KINDS);
    let edges = [0, 1, 2, MOST_STEPS - 1, MOST_STEPS, MOST_STEPS + 1, 1 << 31, u32::MAX];
    let mut budgets = Tally::new("budgets", edges);
    let mut damages = damages("damages of programs run");
    let mut signs = Signs::new("wrong signs of programs run", 2);
    let mut constants = Constants::new("constants of programs run");
    let kept_variables = FIRST_KEPT..FIRST_KEPT + KEPT;
    let mut kept_set = Tally::new("kept variables that a run set", kept_variables);
    let mut ticks = Tally::new("ticks of runs", TICKS);
    let mut performed = Tally::new("statements that runs performed", KIND_NAMES);
    let mut tables = Tally::new("prices of runs", PRICES);
    let mut by_ours =
        Tally::new("statements performed at our price, which the table lacks", KIND_NAMES);
    for (case, mut random) in cases("run") {
        let random = &mut random;
        let program = program(random, case);
        let mut text = program.text();
        let mut sign = None;
        if !is_whole(case) {
            match random.below(20) {
                0 => text = generate::statement_soup(random),
                1..=6 => damaged(random, &mut text, &mut damages),
                7 => sign = wrongly_signed(random, &mut text),
                _ => {}
            }
        }
        let budget = match random.below(200) {
            0 => random.pick(&edges),
            _ => generate::budget(random),
        };
        let (values_given, input) = (generate::values(random), generate::word(random));
        let (start, prices) = ((values_given, input), generate::prices(random));
        let answer = run_from_agrees(random, &case.to_string(), &text, start, budget, &prices);
        budgets.met(budget);
        signs.met(sign, answer.err().unwrap_or(0));
        match answer {
            Err(number) => refusals.met(number),
            Ok(outcome) => {
                match outcome {
                    Outcome::Ended { value, kept, .. } => {
                        outcomes.met("ended");
                        values.met(value);
                        let given = kept_of(&values_given);
                        let set = (0..KEPT).filter(|&k| kept[k] != given[k]);
                        set.for_each(|k| kept_set.met(FIRST_KEPT + k));
                    }
                    Outcome::Spent { .. } => outcomes.met("spent"),
                    Outcome::Fault { statement, steps, .. } => {
                        outcomes.met("fault");
                        let kinds = fault_kinds(statement, steps, budget);
                        kinds.into_iter().for_each(|kind| faults.met(kind));
                    }
                }
                let program = Program::read(&text).expect("a program that was run is taken");
                quotients_met(&program, values_given, input, budget, &mut quotients);
                ticks.met(ticks_kind(outcome.ticks()));
                let was_performed = performed_by(&program, values_given, input, budget);
                for kind in (0..KINDS).filter(|&kind| was_performed[kind]) {
                    performed.met(KIND_NAMES[kind]);
                    if in_force(&prices, kind) != prices[kind] {
                        by_ours.met(KIND_NAMES[kind]);
                    }
                }
                tables.met(table_kind(&prices));
                sizes.met(program.count());
                program.statements().iter().for_each(|s| kinds.met(statement_kind(s)));
                program.statements().iter().for_each(|s| constants.met_in(s));
            }
        }
    }
    refusals.report();
    outcomes.report();
    faults.report();
    quotients.report();
    values.report();
    sizes.report();
    kinds.report();
    budgets.report();
    damages.report();
    signs.met.report();
    constants.0.report();
    kept_set.report();
    ticks.report();
    performed.report();
    tables.report();
    by_ours.report();
}

// Tables

/// The places that a tabulation sets, with kept words between them.
const PARTS: usize = 0;
const SATISFIED: usize = 2;
const FIRST: usize = 4;
const TABLE_PLACES: usize = 5;

/// Holds a tabulation to the oracle's, and tells its answer.
fn table_agrees(
    random: &mut Random,
    case: &str,
    program: &[u8],
    condition: &[u8],
    room: usize,
) -> Result<(u32, u32, u32), u8> {
    let (mut given, mut asked) = (Text::new(random, program), Text::new(random, condition));
    let mut table = Lent::new(random, room, |bits| bits);
    let mut places = Lent::new(random, TABLE_PLACES, |bits| bits as u32);
    let (mut expected, mut expected_places) = (table.clone(), places.clone());
    let wanted = condition::tabulate(program, condition, expected.part());
    if let Ok((parts, satisfied, first)) = wanted {
        let places = expected_places.part();
        places[PARTS] = parts;
        places[SATISFIED] = satisfied;
        places[FIRST] = first;
    }
    let shown = || {
        let (program, condition) = (escaped(program), escaped(condition));
        format!("case {case}: table of {room} words program {program} condition {condition}")
    };
    let (program, condition) = (given.part(), asked.part());
    let (words, set) = (table.part(), places.part());
    // SAFETY: the pointers come from references, and no two of the written places overlap.
    let number = unsafe {
        raw::rewrites_tabulate(
            program.as_ptr(),
            program.len(),
            condition.as_ptr(),
            condition.len(),
            words.as_mut_ptr(),
            words.len(),
            set.as_mut_ptr().add(PARTS),
            set.as_mut_ptr().add(SATISFIED),
            set.as_mut_ptr().add(FIRST),
        )
    };
    assert_eq!(number, wanted.err().unwrap_or(0), "number of {}", shown());
    table.assert_same(&expected, "table", shown);
    places.assert_same(&expected_places, "places", shown);
    given.assert_kept("program", shown);
    asked.assert_kept("condition", shown);
    wanted
}

/// The operator or the atom that a part is.
fn part_kind(part: &Part) -> &'static str {
    let (quantifier, direction, letters) = match part {
        Part::Atom(atom) => {
            return match atom {
                Atom::True => "true",
                Atom::False => "false",
                Atom::Entry => "entry",
                Atom::Exit => "exit",
                Atom::Node(_) => "node",
                Atom::Stmt(_) => "stmt",
                Atom::Def(_) => "def",
                Atom::Use(_) => "use",
                Atom::Trans(_) => "trans",
            }
        }
        Part::Not(_) => return "!",
        Part::And(..) => return "&",
        Part::Or(..) => return "|",
        Part::Next(quantifier, direction, _) => (quantifier, direction, ["EX", "AX", "EY", "AY"]),
        Part::Path(quantifier, direction, demand) => {
            let letters = match demand {
                Demand::Finally(_) => ["EF", "AF", "ER", "AR"],
                Demand::Globally(_) => ["EG", "AG", "EM", "AM"],
                Demand::Until(..) => ["EU", "AU", "ES", "AS"],
                Demand::Weak(..) => ["EW", "AW", "EB", "AB"],
            };
            (quantifier, direction, letters)
        }
    };
    let back = if *direction == Direction::Backward { 2 } else { 0 };
    letters[back + usize::from(*quantifier == Quantifier::All)]
}

#[rustfmt::skip]
const PART_KINDS: [&str; 32] = [
    "true", "false", "entry", "exit", "node", "stmt", "def", "use", "trans", "!", "&", "|",
    "EX", "AX", "EF", "AF", "EG", "AG", "EU", "AU", "EW", "AW",
    "EY", "AY", "ER", "AR", "EM", "AM", "ES", "AS", "EB", "AB",
];

const USES_AT_WRITE: [&str; 4] =
    ["written", "written and kept", "kept only", "neither written nor kept"];

/// How a variable is used at a program's last statement.
fn use_at_write(program: &Program, x: u8) -> &'static str {
    let is_written = program.statements().last().map_or(false, |last| last.shows(x));
    match (is_written, is_kept(x)) {
        (true, false) => "written",
        (true, true) => "written and kept",
        (false, true) => "kept only",
        (false, false) => "neither written nor kept",
    }
}

/// A condition over a program, of 1 to 64 parts in most cases.
fn condition_text(random: &mut Random, program: &Program) -> Vec<u8> {
    match random.below(40) {
        0 => generate::condition_soup(random),
        1 => generate::nested_condition(random),
        2 => {
            let parts = random.pick(&[63, 64, 65, 66]);
            generate::condition(random, program, parts)
        }
        3 => {
            let parts = random.between(65, 150);
            generate::condition(random, program, parts)
        }
        4 => {
            let length = random.pick(&[1_022, 1_023, 1_024, 1_025, 1_026]);
            generate::condition_of_length(random, program, length)
        }
        _ => {
            let parts = random.between(1, 64);
            generate::condition(random, program, parts)
        }
    }
}

#[test]
fn tables_are_as_by_the_oracle() {
    let mut refusals = Tally::new("refusals of tabulate", 1..=8);
    let mut sizes = Tally::new("sizes of programs tabulated", sizes_of_programs());
    let mut counts = Tally::new("parts of a condition", 1..=64);
    let mut kinds = Tally::new("parts tabulated", PART_KINDS);
    let mut taken = Tally::new("bytes of a condition taken", [4, 1_022, 1_023, 1_024]);
    let mut rooms = rooms("words of a table", TABLE_WORDS);
    let mut satisfied = Tally::new("satisfied", ["none", "some", "all"]);
    let mut of_programs = damages("damages of programs tabulated");
    let mut of_conditions = damages("damages of conditions");
    let mut program_signs = Signs::new("wrong signs of programs tabulated", 2);
    let mut condition_signs = Signs::new("wrong signs of conditions", 7);
    let mut of_stmt = Constants::new("constants of stmt");
    let mut of_trans = Constants::new("constants of trans");
    let mut stmt_operators = Tally::new("operators of stmt", OPERATORS);
    let mut trans_operators = Tally::new("operators of trans", OPERATORS);
    let mut uses = Tally::new("use at write", USES_AT_WRITE);
    for (case, mut random) in cases("tabulate") {
        let random = &mut random;
        let program = program(random, case);
        let mut text = program.text();
        let mut condition = if is_whole(case) {
            let parts = in_turn(case, EACH_COUNT, 1..=64).unwrap_or(random.between(1, 64));
            generate::condition(random, &program, parts)
        } else {
            condition_text(random, &program)
        };
        let mut words = TABLE_WORDS + random.below(3);
        let (mut program_sign, mut condition_sign) = (None, None);
        if !is_whole(case) {
            match random.below(40) {
                0..=3 => damaged(random, &mut text, &mut of_programs),
                4 => text = generate::statement_soup(random),
                5 => program_sign = wrongly_signed(random, &mut text),
                _ => {}
            }
            match random.below(20) {
                0..=3 => damaged(random, &mut condition, &mut of_conditions),
                4 => condition_sign = wrongly_signed(random, &mut condition),
                _ => {}
            }
            words = room(random, TABLE_WORDS);
        }
        rooms.met(words);
        let answer = table_agrees(random, &case.to_string(), &text, &condition, words);
        program_signs.met(program_sign, answer.err().unwrap_or(0));
        condition_signs.met(condition_sign, answer.err().unwrap_or(0));
        match answer {
            Err(number) => refusals.met(number),
            Ok((parts, count, _)) => {
                let program = Program::read(&text).expect("a program that was tabulated is taken");
                let asked = Condition::read(&condition).expect("its condition is taken");
                sizes.met(program.count());
                counts.met(parts);
                taken.met(condition.len());
                asked.parts().iter().for_each(|part| kinds.met(part_kind(part)));
                for part in asked.parts() {
                    match part {
                        Part::Atom(Atom::Stmt(statement)) => {
                            of_stmt.met_in(statement);
                            stmt_operators.met(statement_kind(statement));
                        }
                        Part::Atom(Atom::Trans(e)) => {
                            of_trans.met(e);
                            trans_operators.met(statement_kind(&Statement::Assign(0, *e)));
                        }
                        Part::Atom(Atom::Use(x)) => uses.met(use_at_write(&program, *x)),
                        _ => {}
                    }
                }
                satisfied.met(match count {
                    0 => "none",
                    _ if count == program.count() => "all",
                    _ => "some",
                });
            }
        }
    }
    refusals.report();
    sizes.report();
    counts.report();
    kinds.report();
    taken.report();
    rooms.report();
    satisfied.report();
    of_programs.report();
    of_conditions.report();
    program_signs.met.report();
    condition_signs.met.report();
    of_stmt.0.report();
    of_trans.0.report();
    stmt_operators.report();
    trans_operators.report();
    uses.report();
}

// Reviews

/// The places that a review sets, with kept words between them.
const TABLES: usize = 0;
const LINES: usize = 2;
const TABLE_OF: usize = 4;
const PARTS_OF: usize = TABLE_OF + REVIEW_LINES + 1;
const SATISFIED_OF: usize = PARTS_OF + REVIEW_LINES + 1;
const FIRST_OF: usize = SATISFIED_OF + REVIEW_LINES + 1;
const REVIEW_PLACES: usize = FIRST_OF + REVIEW_LINES;

/// Puts an answer where a review does. Entries past the lines are kept.
fn put_reviewed(places: &mut Lent<u32>, reviewed: &Reviewed) {
    let (places, lines) = (places.part(), reviewed.lines as usize);
    places[TABLES] = reviewed.tables;
    places[LINES] = reviewed.lines;
    places[TABLE_OF..TABLE_OF + lines].copy_from_slice(&reviewed.table_of[..lines]);
    places[PARTS_OF..PARTS_OF + lines].copy_from_slice(&reviewed.parts[..lines]);
    places[SATISFIED_OF..SATISFIED_OF + lines].copy_from_slice(&reviewed.satisfied[..lines]);
    places[FIRST_OF..FIRST_OF + lines].copy_from_slice(&reviewed.first[..lines]);
}

/// Holds a review to the oracle's, and tells its answer.
fn review_agrees(
    random: &mut Random,
    case: &str,
    program: &[u8],
    conditions: &[u8],
    room: usize,
) -> Result<Reviewed, u8> {
    let (mut given, mut asked) = (Text::new(random, program), Text::new(random, conditions));
    let mut table = Lent::new(random, room, |bits| bits);
    let mut places = Lent::new(random, REVIEW_PLACES, |bits| bits as u32);
    let (mut expected, mut expected_places) = (table.clone(), places.clone());
    let wanted = review::review(program, conditions, expected.part());
    if let Ok(reviewed) = &wanted {
        put_reviewed(&mut expected_places, reviewed);
    }
    let shown = || {
        let (program, conditions) = (escaped(program), escaped(conditions));
        format!("case {case}: table of {room} words program {program} review {conditions}")
    };
    let (program, conditions) = (given.part(), asked.part());
    let (words, set) = (table.part(), places.part().as_mut_ptr());
    // SAFETY: the pointers come from references, and no two of the written places overlap.
    let number = unsafe {
        raw::rewrites_review(
            program.as_ptr(),
            program.len(),
            conditions.as_ptr(),
            conditions.len(),
            words.as_mut_ptr(),
            words.len(),
            set.add(TABLES),
            set.add(LINES),
            set.add(TABLE_OF).cast(),
            set.add(PARTS_OF).cast(),
            set.add(SATISFIED_OF).cast(),
            set.add(FIRST_OF).cast(),
        )
    };
    assert_eq!(number, wanted.err().unwrap_or(0), "number of {}", shown());
    table.assert_same(&expected, "table", shown);
    places.assert_same(&expected_places, "places", shown);
    given.assert_kept("program", shown);
    asked.assert_kept("review", shown);
    wanted
}

/// A review. Those that go by counts have in turn so many tables, and so many lines.
fn review_text(random: &mut Random, case: u64, program: &Program) -> Vec<u8> {
    let round = case / (16 * MOST_TABLES as u64);
    match in_turn(case, EACH_COUNT, 1..=MOST_TABLES) {
        Some(tables) if round % 2 == 0 => generate::review_of_tables(random, tables),
        Some(lines) => generate::review(random, program, 1 + lines % REVIEW_LINES, 4),
        None => generate::any_review(random, program),
    }
}

const SHARED: [&str; 4] = ["nothing", "within a line", "by lines", "a whole line"];

/// How the lines of a review share parts.
fn shared_by(conditions: &[Condition]) -> Vec<&'static str> {
    let alone = |c: &Condition| review::tables(std::slice::from_ref(c)).len();
    let parts: usize = conditions.iter().map(|c| c.parts().len()).sum();
    let differing: usize = conditions.iter().map(alone).sum();
    let tables = review::tables(conditions).len();
    let texts: Vec<Vec<u8>> = conditions.iter().map(Condition::text).collect();
    let is_again = (1..texts.len()).any(|j| texts[..j].contains(&texts[j]));
    let met = [tables == parts, differing < parts, tables < differing, is_again];
    SHARED.into_iter().zip(met).filter(|(_, is_met)| *is_met).map(|(kind, _)| kind).collect()
}

#[test]
fn reviews_are_as_by_the_oracle() {
    let mut refusals = Tally::new("refusals of review", [1, 2, 3, 4, 5, 16, 6, 7, 8, 17]);
    let mut sizes = Tally::new("sizes of programs reviewed", sizes_of_programs());
    let mut tables = Tally::new("tables of a review", 1..=MOST_TABLES as u32);
    let mut lines = Tally::new("lines of a review", 1..=REVIEW_LINES as u32);
    let mut kinds = Tally::new("parts reviewed", PART_KINDS);
    let mut shared = Tally::new("parts shared", SHARED);
    let mut ends = Tally::new("unfinished lines refused", [6, 7, 16]);
    let mut rooms = rooms("words of a review's table", REVIEW_WORDS);
    let mut of_programs = damages("damages of programs reviewed");
    let mut of_reviews = damages("damages of reviews");
    for (case, mut random) in cases("review") {
        let random = &mut random;
        let program = program(random, case);
        let mut text = program.text();
        let mut conditions = review_text(random, case, &program);
        let mut words = REVIEW_WORDS + random.below(3);
        if !is_whole(case) {
            match random.below(40) {
                0..=3 => damaged(random, &mut text, &mut of_programs),
                4 => text = generate::statement_soup(random),
                _ => {}
            }
            if random.chance(15) {
                damaged(random, &mut conditions, &mut of_reviews);
            }
            words = room(random, REVIEW_WORDS);
        }
        rooms.met(words);
        match review_agrees(random, &case.to_string(), &text, &conditions, words) {
            Err(number) => {
                refusals.met(number);
                if !conditions.is_empty() && !conditions.ends_with(b"\n") {
                    ends.met(number);
                }
            }
            Ok(reviewed) => {
                let asked = review::conditions(&conditions).expect("each line is taken");
                sizes.met(Program::read(&text).expect("the program is taken").count());
                tables.met(reviewed.tables);
                lines.met(reviewed.lines);
                let parts = asked.iter().flat_map(Condition::parts);
                parts.for_each(|part| kinds.met(part_kind(part)));
                shared_by(&asked).into_iter().for_each(|kind| shared.met(kind));
            }
        }
    }
    refusals.report();
    sizes.report();
    tables.report();
    lines.report();
    kinds.report();
    shared.report();
    ends.report();
    rooms.report();
    of_programs.report();
    of_reviews.report();
}

// Judgements

/// The places that a judgement sets, with kept words between them.
const MARK_COUNT: usize = 0;
const ACCEPTED: usize = 2;
const BYTES: usize = 4;
const JUDGE_PLACES: usize = 5;

/// What a finished judgement leaves.
struct Judged {
    verdicts: Vec<u8>,
    text: Vec<u8>,
}

/// Holds a judgement to the oracle's, and tells what it leaves.
fn judgement_agrees(
    random: &mut Random,
    case: &str,
    program: &[u8],
    list: &[u8],
    rooms: (usize, usize),
) -> Result<Judged, u8> {
    let (mut given, mut asked) = (Text::new(random, program), Text::new(random, list));
    let mut verdicts = Lent::new(random, rooms.0, |bits| bits as u8);
    let mut text = Lent::new(random, rooms.1, |bits| bits as u8);
    let mut places = Lent::new(random, JUDGE_PLACES, |bits| bits as u32);
    let (mut expected_verdicts, mut expected_text) = (verdicts.clone(), text.clone());
    let mut expected_places = places.clone();
    let wanted = marks::judge(program, list, expected_verdicts.part(), expected_text.part());
    if let Ok((count, accepted, bytes)) = wanted {
        let places = expected_places.part();
        places[MARK_COUNT] = count;
        places[ACCEPTED] = accepted;
        places[BYTES] = bytes;
    }
    let shown = || {
        let (program, list) = (escaped(program), escaped(list));
        format!("case {case}: rooms {rooms:?} program {program} marks {list}")
    };
    let (program, list) = (given.part(), asked.part());
    let (bytes, new, set) = (verdicts.part(), text.part(), places.part());
    // SAFETY: the pointers come from references, and no two of the written places overlap.
    let number = unsafe {
        raw::rewrites_judge(
            program.as_ptr(),
            program.len(),
            list.as_ptr(),
            list.len(),
            bytes.as_mut_ptr(),
            bytes.len(),
            new.as_mut_ptr(),
            new.len(),
            set.as_mut_ptr().add(MARK_COUNT),
            set.as_mut_ptr().add(ACCEPTED),
            set.as_mut_ptr().add(BYTES),
        )
    };
    assert_eq!(number, wanted.err().unwrap_or(0), "number of {}", shown());
    verdicts.assert_same(&expected_verdicts, "verdicts", shown);
    text.assert_same(&expected_text, "new text", shown);
    places.assert_same(&expected_places, "places", shown);
    given.assert_kept("program", shown);
    asked.assert_kept("marks", shown);
    wanted.map(|(count, _, bytes)| Judged {
        verdicts: verdicts.part()[..count as usize].to_vec(),
        text: text.part()[..bytes as usize].to_vec(),
    })
}

/// What a run tells: its nine values and its steps, the statement and the steps of its fault, or the statement before
/// which it stands, with the values there.
#[derive(Debug, PartialEq)]
enum Stand {
    Ended { value: u32, steps: u32, kept: Vec<u32> },
    Faulted { statement: u32, steps: u32 },
    Before { statement: u32, values: Values },
}

/// That, and the ticks beside it.
fn stand(
    program: &[u8],
    values: &Values,
    input: u32,
    budget: u32,
    places: &mut RunPlaces,
) -> (Stand, u64) {
    let number = lend_run(program, values, input, budget, places);
    assert_eq!(number, 0, "refused: {}", escaped(program));
    let (places, ticks) = (places.words.part(), places.ticks.part()[0]);
    let stand = match places[ENDED] {
        1 => Stand::Ended {
            value: places[VALUE],
            steps: places[STEPS],
            kept: places[KEPT_ONES..KEPT_ONES + KEPT].to_vec(),
        },
        2 => Stand::Faulted { statement: places[STATEMENT], steps: places[STEPS] },
        _ => {
            let mut values = [0; VARIABLES];
            values.copy_from_slice(&places[LEFT..LEFT + VARIABLES]);
            Stand::Before { statement: places[STATEMENT], values }
        }
    };
    (stand, ticks)
}

/// What a rewriting must leave of a run as it is: all but the values of variables that aren't live in the given program
/// before the statement. Those that differ.
fn dead_and_differing(live: &Liveness, one: &Stand, other: &Stand) -> Option<Vec<u8>> {
    match (one, other) {
        (
            Stand::Before { statement, values },
            Stand::Before { statement: there, values: others },
        ) => {
            let differ = differing(values, others);
            let is_dead = |x: &u8| !live.is_live(*statement, *x);
            (statement == there && differ.iter().all(is_dead)).then_some(differ)
        }
        _ => (one == other).then(Vec::new),
    }
}

/// What steps of given and rewritten runs meet, each by the state before it.
const TRACES: [&str; 6] = [
    "no variable differs",
    "dead ones differ",
    "a kept one differs, dead",
    "dead ones differ at write",
    "dead ones differ before a fault",
    "dead ones differ in a loop",
];

/// Both programs, run side by side.
struct Traces<'a> {
    given: &'a [u8],
    new: &'a [u8],
    count: u32,
    live: Liveness,
}

impl<'a> Traces<'a> {
    fn new(given: &'a [u8], new: &'a [u8]) -> Traces<'a> {
        let program = Program::read(given).expect("a program that was judged is taken");
        Traces { given, new, count: program.count(), live: Liveness::new(&program) }
    }

    /// How both runs stand under a budget, which agrees, with the variables that differ and the ticks of both.
    fn stand(
        &self,
        case: &str,
        (values, input): (&Values, u32),
        budget: u32,
        places: &mut RunPlaces,
    ) -> (Stand, Vec<u8>, [u64; 2]) {
        let (one, ticks) = stand(self.given, values, input, budget, places);
        let (other, of_new) = stand(self.new, values, input, budget, places);
        match dead_and_differing(&self.live, &one, &other) {
            Some(differ) => (one, differ, [ticks, of_new]),
            None => panic!(
                "case {case}: values {values:?} input {input} budget {budget} given {} new {}: {one:?} {other:?}",
                escaped(self.given),
                escaped(self.new)
            ),
        }
    }

    /// What the state before a step is. `earlier` are the statements that were performed before.
    fn met(&self, at: u32, differ: &[u8], earlier: &[u32], met: &mut Tally<&str>) {
        if differ.is_empty() {
            met.met("no variable differs");
            return;
        }
        met.met("dead ones differ");
        if differ.iter().any(|&x| is_kept(x)) {
            met.met("a kept one differs, dead");
        }
        if at == self.count {
            met.met("dead ones differ at write");
        }
        if earlier.contains(&at) {
            met.met("dead ones differ in a loop");
        }
    }
}

/// Runs the given and the rewritten program by growing budgets, step by step first, until both have
/// ended or faulted.
fn runs_stay(random: &mut Random, case: &str, given: &[u8], new: &[u8], runs: &mut Tally<&str>) {
    // Under every table the two agree; by ours no mark makes a statement dearer.
    let prices = if random.chance(50) { OURS } else { generate::prices(random) };
    let mut places = RunPlaces::new(random, &prices);
    let by_steps = if given.len() < 1_000 { 30 } else { 6 };
    let starts = if given.len() < 1_000 { 2 } else { 1 };
    let traces = Traces::new(given, new);
    for _ in 0..starts {
        let (values, input) = (generate::values(random), generate::word(random));
        let further = random.between(by_steps as usize, 400) as u32;
        let far = random.pick(&[2_000, 2_000, 2_000, 20_000]);
        let budgets = (0..by_steps).chain(further..further + 6).chain([far]);
        for budget in budgets {
            let (one, differ, [ticks, fewer]) =
                traces.stand(case, (&values, input), budget, &mut places);
            runs.met("budgets");
            if !differ.is_empty() {
                runs.met("dead variables differ");
            }
            assert!(fewer <= ticks || prices != OURS, "case {case}: {fewer} ticks for {ticks}");
            runs.met(match fewer.cmp(&ticks) {
                Ordering::Less => "fewer ticks",
                Ordering::Equal => "the same ticks",
                Ordering::Greater => "more ticks, by a buyer's prices",
            });
            match one {
                Stand::Ended { kept, .. } => {
                    runs.met("ended");
                    if kept != kept_of(&values) {
                        runs.met("kept other values");
                    }
                    break;
                }
                Stand::Faulted { .. } => {
                    runs.met("fault");
                    break;
                }
                Stand::Before { .. } if budget == far => runs.met("spent"),
                Stand::Before { .. } => {}
            }
        }
    }
}

/// The statements at which each variable is live, by the library's reviews of `E[!def(x) U use(x)]` for all of them.
fn live_by_review(program: &[u8]) -> Vec<[u64; PART_WORDS]> {
    let mut rows = Vec::new();
    for first in (0..VARIABLES).step_by(REVIEW_LINES) {
        let variables = first..VARIABLES.min(first + REVIEW_LINES);
        let line = |x: usize| format!("E[!def(i{x}) U use(i{x})]\n");
        let lines: String = variables.clone().map(line).collect();
        let mut table = [0; REVIEW_WORDS];
        let answer = rewrites::review(program, lines.as_bytes(), &mut table);
        let reviewed = answer.expect("it is taken");
        assert_eq!(reviewed.tables as usize, 4 * variables.len());
        for &of_line in &reviewed.table_of[..variables.len()] {
            let first = PART_WORDS * of_line as usize;
            rows.push(std::array::from_fn(|word| table[first + word]));
        }
    }
    rows
}

/// Before each step, from the first to the run's end or 300 steps on, given and rewritten program hold the same value of
/// each variable that is live in the given one.
#[test]
fn live_variables_agree_before_each_step() {
    const LONGEST: u32 = 300;
    let mut met = Tally::new("states before a step of both programs", TRACES);
    let mut by_kinds = Tally::new("lists traced, by what is accepted", KINDS_MADE);
    let mut endings = Tally::new("traces", ["ended", "fault", "still running"]);
    let mut live_bits = Tally::new("variables at statements", ["live", "dead"]);
    for (case, mut random) in cases("traces").filter(|(case, _)| case % 20 == 0) {
        let random = &mut random;
        let size = if random.chance(90) { random.between(4, 40) } else { generate::size(random) };
        let program = generate::program(random, size);
        let (text, count) = (program.text(), random.between(1, size.min(40)));
        let list = marks::text(&generate::marks(random, &program, count));
        let case = case.to_string();
        let rooms = (VERDICT_BYTES, TEXT_BYTES);
        let judged = judgement_agrees(random, &case, &text, &list, rooms).expect("both are taken");
        let traces = Traces::new(&text, &judged.text);
        for (x, row) in live_by_review(&text).iter().enumerate() {
            for n in 1..=program.count() {
                let bit = row[(n as usize - 1) / 64] >> ((n - 1) % 64) & 1 == 1;
                assert_eq!(bit, traces.live.is_live(n, x as u8), "i{x} at {n}: {}", escaped(&text));
                live_bits.met(if bit { "live" } else { "dead" });
            }
        }
        let list = marks::read(&list).expect("it is taken");
        if judged.verdicts.iter().any(|&verdict| verdict == 0) {
            by_kinds.met(kinds_made(&list, &judged.verdicts));
        }
        let mut places = RunPlaces::new(random, &OURS);
        let (values, input) = (generate::values(random), generate::word(random));
        let (mut earlier, mut differed) = (Vec::new(), false);
        for budget in 0..=LONGEST {
            let (one, differ, _) = traces.stand(&case, (&values, input), budget, &mut places);
            match one {
                Stand::Before { statement, .. } => {
                    traces.met(statement, &differ, &earlier, &mut met);
                    earlier.push(statement);
                    differed = !differ.is_empty();
                    if budget == LONGEST {
                        endings.met("still running");
                    }
                }
                Stand::Ended { .. } => {
                    endings.met("ended");
                    break;
                }
                Stand::Faulted { .. } => {
                    endings.met("fault");
                    if differed {
                        met.met("dead ones differ before a fault");
                    }
                    break;
                }
            }
        }
    }
    met.report();
    by_kinds.report();
    endings.report();
    live_bits.report();
}

/// What an accepted mark does to its statement.
fn mark_kind(kind: Kind, statement: &Statement) -> &'static str {
    match (kind, statement) {
        (Kind::Remove(Expression::Single(Operand::Constant(bits))), _) if bits > LARGEST => {
            "rm of a constant below zero"
        }
        (Kind::Remove(_), _) => "rm",
        (Kind::Replace(_), Statement::Branch { .. }) => "rpl in if",
        (Kind::Replace(_), Statement::Write(_)) => "rpl in write",
        (Kind::Replace(Operand::Variable(_)), _) => "rpl by a variable in an assignment",
        (Kind::Replace(Operand::Constant(bits)), _) if bits > LARGEST => {
            "rpl by a constant below zero in an assignment"
        }
        (Kind::Replace(Operand::Constant(_)), _) => "rpl by a constant in an assignment",
        (Kind::Reuse(e), _) if division(&e).is_some() => "cse of a division",
        (Kind::Reuse(Expression::Pair(Operand::Constant(_), _, Operand::Constant(_))), _) => {
            "cse of two constants"
        }
        (Kind::Reuse(e), Statement::Assign(z, _)) if e.mentions(*z) => "cse into an operand",
        (Kind::Reuse(_), _) => "cse",
    }
}

#[rustfmt::skip]
const MARK_KINDS: [&str; 11] = [
    "rm", "rm of a constant below zero", "rpl in if", "rpl in write",
    "rpl by a variable in an assignment", "rpl by a constant in an assignment",
    "rpl by a constant below zero in an assignment", "cse", "cse of a division",
    "cse of two constants", "cse into an operand",
];

#[rustfmt::skip]
const CSE_VERDICTS: [&str; 9] = [
    "accepted", "accepted into the same variable", "refused 11", "refused 12",
    "refused 13 for one operand alone", "refused 13 for a right side", "refused 13 at another statement",
    "refused 14", "refused 14 though it was computed, by what it changes itself",
];

/// What became of a `cse`.
fn cse_verdict(program: &Program, mark: &Mark, verdict: u8) -> Option<&'static str> {
    let e = match mark.kind {
        Kind::Reuse(e) => e,
        _ => return None,
    };
    let statement = program.statement(mark.number);
    let source = Statement::Assign(mark.variable, e);
    Some(match (verdict, statement) {
        (0, Some(Statement::Assign(z, _))) if *z == mark.variable => {
            "accepted into the same variable"
        }
        (0, _) => "accepted",
        (11, _) => "refused 11",
        (12, _) => "refused 12",
        (13, Some(Statement::Assign(_, right))) if *right == e => {
            "refused 13 for one operand alone"
        }
        (13, Some(Statement::Assign(..))) => "refused 13 for a right side",
        (13, _) => "refused 13 at another statement",
        (_, _) if e.mentions(mark.variable) && program.statements().contains(&source) => {
            "refused 14 though it was computed, by what it changes itself"
        }
        _ => "refused 14",
    })
}

#[rustfmt::skip]
const RM_BESIDE_CSE: [&str; 5] = [
    "refused only by a cse above it", "refused only by a cse below it", "refused by another use too",
    "accepted beside an accepted cse of its variable", "accepted beside a refused cse that would refuse it",
];

/// What became of an `rm` in a list that has a `cse` of its variable, where it was judged by its condition.
fn rm_beside_cse(
    program: &Program,
    list: &[Mark],
    verdicts: &[u8],
    line: usize,
) -> Option<&'static str> {
    let mark = &list[line];
    let is_of_it = |other: &Mark| other.is_reuse() && other.variable == mark.variable;
    if !matches!(mark.kind, Kind::Remove(_)) || !list.iter().any(is_of_it) {
        return None;
    }
    let judge = Judge::new(program);
    let by = |list: &[Mark], verdicts: &[u8]| {
        judge.verdict_beside(mark, false, &marks::gained_uses(list, verdicts))
    };
    let is_reuse_made = || list.iter().zip(verdicts).any(|(other, &v)| v == 0 && is_of_it(other));
    let as_if_accepted = || {
        let all: Vec<u8> = verdicts.iter().map(|&v| if v == 11 { 11 } else { 0 }).collect();
        by(list, &all)
    };
    match verdicts[line] {
        14 if judge.verdict(mark, false) == 14 => Some("refused by another use too"),
        14 => match (by(&list[..line], verdicts), by(&list[line..], &verdicts[line..])) {
            (14, 0) => Some("refused only by a cse above it"),
            (0, 14) => Some("refused only by a cse below it"),
            _ => None,
        },
        0 if is_reuse_made() => Some("accepted beside an accepted cse of its variable"),
        0 if as_if_accepted() == 14 => Some("accepted beside a refused cse that would refuse it"),
        _ => None,
    }
}

/// The kinds of marks among which some are accepted.
fn kinds_made(list: &[Mark], verdicts: &[u8]) -> &'static str {
    let made = |kind: fn(&Kind) -> bool| {
        list.iter().zip(verdicts).any(|(mark, &verdict)| verdict == 0 && kind(&mark.kind))
    };
    let (removed, replaced, reused) = (
        made(|kind| matches!(kind, Kind::Remove(_))),
        made(|kind| matches!(kind, Kind::Replace(_))),
        made(|kind| matches!(kind, Kind::Reuse(_))),
    );
    match (removed, replaced, reused) {
        (true, true, true) => "rm, rpl and cse",
        (true, false, true) => "rm and cse",
        (false, true, true) => "rpl and cse",
        (false, false, true) => "cse alone",
        (_, _, false) => "no cse",
    }
}

const KINDS_MADE: [&str; 5] =
    ["no cse", "cse alone", "rm and cse", "rpl and cse", "rm, rpl and cse"];

#[rustfmt::skip]
const MARKS_ON_KEPT: [&str; 7] = [
    "rm accepted", "rm refused for what is kept alone", "rm refused for another use too",
    "rpl of what is written accepted", "rpl of what is written refused 14",
    "rpl of what is kept only refused 13", "rpl elsewhere accepted",
];

/// What became of a mark on a variable that the unit keeps, where it was judged by its fit or its condition.
fn mark_on_kept(program: &Program, mark: &Mark, verdict: u8) -> Option<&'static str> {
    let statement = program.statement(mark.number).filter(|_| is_kept(mark.variable))?;
    let is_last = matches!(statement, Statement::Write(_));
    match (mark.kind, verdict) {
        (Kind::Remove(_), 0) => Some("rm accepted"),
        (Kind::Remove(_), 14) if Judge::new(program).is_refused_for_kept_alone(mark) => {
            Some("rm refused for what is kept alone")
        }
        (Kind::Remove(_), 14) => Some("rm refused for another use too"),
        (Kind::Replace(_), 0) if is_last => Some("rpl of what is written accepted"),
        (Kind::Replace(_), 14) if is_last => Some("rpl of what is written refused 14"),
        (Kind::Replace(Operand::Variable(_)), 13) if is_last => {
            Some("rpl of what is kept only refused 13")
        }
        (Kind::Replace(_), 0) => Some("rpl elsewhere accepted"),
        _ => None,
    }
}

#[rustfmt::skip]
const MARKS_ON_DIVISIONS: [&str; 16] = [
    "rm by a constant accepted", "rm by a constant refused 14", "rm by a constant below zero accepted",
    "rm by a variable refused 18, unused", "rm by a variable refused 18, used",
    "rm by 0 refused 18, unused", "rm by 0 refused 18, used", "rm refused 13", "rm refused 12",
    "rpl of a dividend accepted", "rpl of a divisor by a variable accepted",
    "rpl of a divisor by 0 accepted", "rpl of a divisor by another constant accepted",
    "rpl of a divisor refused 14", "cse accepted", "cse refused 14",
];

/// What became of a mark on a statement that divides.
fn mark_on_division(program: &Program, mark: &Mark, verdict: u8) -> Option<&'static str> {
    let (a, b) = match program.statement(mark.number)? {
        Statement::Assign(_, right) => division(right)?,
        _ => return None,
    };
    let is_used = || {
        let condition = mark.condition().text();
        let mut table = [0; TABLE_WORDS];
        let answer = condition::tabulate(&program.text(), &condition, &mut table);
        let (parts, _, _) = answer.expect("a published condition is taken");
        let at = mark.number as usize - 1;
        table[PART_WORDS * (parts as usize - 1) + at / 64] >> (at % 64) & 1 == 0
    };
    Some(match (mark.kind, b, verdict) {
        (Kind::Remove(_), Operand::Constant(LEAST..), 0) => "rm by a constant below zero accepted",
        (Kind::Remove(_), _, 0) => "rm by a constant accepted",
        (Kind::Remove(_), _, 12) => "rm refused 12",
        (Kind::Remove(_), _, 13) => "rm refused 13",
        (Kind::Remove(_), _, 14) => "rm by a constant refused 14",
        (Kind::Remove(_), Operand::Variable(_), 18) if is_used() => {
            "rm by a variable refused 18, used"
        }
        (Kind::Remove(_), Operand::Variable(_), 18) => "rm by a variable refused 18, unused",
        (Kind::Remove(_), Operand::Constant(_), 18) if is_used() => "rm by 0 refused 18, used",
        (Kind::Remove(_), Operand::Constant(_), 18) => "rm by 0 refused 18, unused",
        (Kind::Replace(by), _, 0) if b.mentions(mark.variable) => match by {
            Operand::Variable(_) => "rpl of a divisor by a variable accepted",
            Operand::Constant(0) => "rpl of a divisor by 0 accepted",
            Operand::Constant(_) => "rpl of a divisor by another constant accepted",
        },
        (Kind::Replace(_), _, 0) if a.mentions(mark.variable) => "rpl of a dividend accepted",
        (Kind::Replace(_), _, 14) if b.mentions(mark.variable) => "rpl of a divisor refused 14",
        (Kind::Reuse(_), _, 0) => "cse accepted",
        (Kind::Reuse(_), _, 14) => "cse refused 14",
        _ => return None,
    })
}

/// Whether one of two right sides is a constant, and the other takes its negative from 0.
fn is_written_otherwise(one: &Expression, other: &Expression) -> bool {
    match (*one, *other) {
        (
            Expression::Single(Operand::Constant(a)),
            Expression::Pair(Operand::Constant(0), Operator::Minus, Operand::Constant(b)),
        )
        | (
            Expression::Pair(Operand::Constant(0), Operator::Minus, Operand::Constant(b)),
            Expression::Single(Operand::Constant(a)),
        ) => a == b.wrapping_neg() && a > LARGEST,
        _ => false,
    }
}

#[test]
fn judgements_are_as_by_the_oracle_and_keep_runs() {
    let mut refusals = Tally::new("refusals of judge", [1, 2, 3, 4, 5, 9, 10]);
    let mut verdicts = Tally::new("verdicts", [0, 11, 12, 13, 18, 14]);
    let mut accepted = Tally::new("marks accepted", MARK_KINDS);
    let mut sizes = Tally::new("sizes of programs judged", sizes_of_programs());
    let mut counts = Tally::new("marks of a list", mark_counts());
    let mut lists = Tally::new("lists accepted", ["not at all", "in part", "whole"]);
    let mut verdict_rooms = rooms("bytes of verdicts", VERDICT_BYTES);
    let mut text_rooms = rooms("bytes of new text", TEXT_BYTES);
    let mut of_programs = damages("damages of programs judged");
    let mut of_lists = damages("damages of marks");
    let classes = [
        "budgets",
        "dead variables differ",
        "ended",
        "kept other values",
        "fault",
        "spent",
        "fewer ticks",
        "the same ticks",
        "more ticks, by a buyer's prices",
    ];
    let mut runs = Tally::new("runs of both programs", classes);
    let mut on_kept = Tally::new("marks on what is kept", MARKS_ON_KEPT);
    let mut on_divisions = Tally::new("marks on divisions", MARKS_ON_DIVISIONS);
    let mut cses = Tally::new("cse", CSE_VERDICTS);
    let mut beside_cse = Tally::new("rm in a list with a cse of its variable", RM_BESIDE_CSE);
    let mut runs_by_kinds = Tally::new("lists made and run, by what is accepted", KINDS_MADE);
    let mut reuses = wrong_reuses("wrong cse lines refused");
    let mut program_signs = Signs::new("wrong signs of programs judged", 2);
    let mut mark_signs = Signs::new("wrong signs of marks", 9);
    let mut of_rm = Constants::new("constants of rm");
    let mut of_rpl = Constants::new("constants of rpl");
    let mut of_cse = Constants::new("constants of cse");
    let mut otherwise = Tally::new("rm of -40 at 0 - 40, or the other way round", [13]);
    let mut too_small = Tally::new("bytes of new text refused 1", [8_704, 34_815]);
    let mut enough = Tally::new("bytes of new text that do", [34_816, 34_817]);
    for (case, mut random) in cases("judge") {
        let random = &mut random;
        let program = program(random, case);
        let mut text = program.text();
        let count = mark_count(random, case, (program.count() as usize + 4).min(40));
        let mut list = marks::text(&generate::marks(random, &program, count));
        let mut rooms = (VERDICT_BYTES, TEXT_BYTES);
        let (mut program_sign, mut mark_sign, mut reuse) = (None, None, None);
        if !is_whole(case) {
            match random.below(40) {
                0..=3 => damaged(random, &mut text, &mut of_programs),
                4 => text = generate::statement_soup(random),
                5 => program_sign = wrongly_signed(random, &mut text),
                _ => {}
            }
            match random.below(20) {
                0..=2 => damaged(random, &mut list, &mut of_lists),
                3 => list = generate::mark_soup(random),
                4 => mark_sign = wrongly_signed(random, &mut list),
                5 => reuse = wrongly_reused(random, &mut list),
                _ => {}
            }
            match random.below(40) {
                0 | 1 => rooms.0 = room(random, VERDICT_BYTES),
                2 | 3 => rooms.1 = room(random, TEXT_BYTES),
                4 | 5 => rooms = (room(random, VERDICT_BYTES), room(random, TEXT_BYTES)),
                // Enough for 256 statements.
                6 => rooms.1 = random.between(8_704, TEXT_BYTES - 1),
                7 => rooms.1 = 8_704,
                _ => {}
            }
        }
        verdict_rooms.met(rooms.0);
        text_rooms.met(rooms.1);
        let answer = judgement_agrees(random, &case.to_string(), &text, &list, rooms);
        let number = answer.as_ref().err().copied().unwrap_or(0);
        program_signs.met(program_sign, number);
        mark_signs.met(mark_sign, number);
        if let Some(wrong) = reuse.filter(|_| number == 9) {
            reuses.met(Shown(wrong));
        }
        match answer {
            Err(1) if rooms.0 >= VERDICT_BYTES => too_small.met(rooms.1),
            Ok(_) => enough.met(rooms.1),
            _ => {}
        }
        match answer {
            Err(number) => refusals.met(number),
            Ok(judged) => {
                let program = Program::read(&text).expect("a program that was judged is taken");
                let list = marks::read(&list).expect("its marks are taken");
                sizes.met(program.count());
                counts.met(list.len());
                for (line, mark) in list.iter().enumerate() {
                    let verdict = judged.verdicts[line];
                    verdicts.met(verdict);
                    if let Some(class) = cse_verdict(&program, mark, verdict) {
                        cses.met(class);
                    }
                    if let Some(class) = rm_beside_cse(&program, &list, &judged.verdicts, line) {
                        beside_cse.met(class);
                    }
                    if let Some(class) = mark_on_kept(&program, mark, verdict) {
                        on_kept.met(class);
                    }
                    if let Some(class) = mark_on_division(&program, mark, verdict) {
                        on_divisions.met(class);
                    }
                    match mark.kind {
                        Kind::Remove(e) => {
                            of_rm.met(&e);
                            match program.statement(mark.number) {
                                Some(Statement::Assign(x, right))
                                    if *x == mark.variable && is_written_otherwise(&e, right) =>
                                {
                                    otherwise.met(verdict)
                                }
                                _ => {}
                            }
                        }
                        Kind::Replace(a) => of_rpl.met(&Expression::Single(a)),
                        Kind::Reuse(e) => of_cse.met(&e),
                    }
                    if verdict == 0 {
                        let statement = program.statement(mark.number).expect("it has a statement");
                        accepted.met(mark_kind(mark.kind, statement));
                    }
                }
                let made = judged.verdicts.iter().filter(|&&verdict| verdict == 0).count();
                lists.met(match made {
                    0 => "not at all",
                    _ if made == list.len() => "whole",
                    _ => "in part",
                });
                if made > 0 {
                    runs_by_kinds.met(kinds_made(&list, &judged.verdicts));
                    runs_stay(random, &case.to_string(), &text, &judged.text, &mut runs);
                }
            }
        }
    }
    refusals.report();
    verdicts.report();
    accepted.report();
    sizes.report();
    counts.report();
    lists.report();
    verdict_rooms.report();
    text_rooms.report();
    of_programs.report();
    of_lists.report();
    runs.report();
    program_signs.met.report();
    mark_signs.met.report();
    of_rm.0.report();
    of_rpl.0.report();
    of_cse.0.report();
    on_kept.report();
    on_divisions.report();
    cses.report();
    beside_cse.report();
    runs_by_kinds.report();
    reuses.report();
    otherwise.report();
    too_small.report();
    enough.report();
}

// Reports

/// The places that a report sets, with kept words between them.
const BEFORE: usize = 0;
const AFTER: usize = BEFORE + STATEMENTS + 1;
const COUNT: usize = AFTER + STATEMENTS + 1;
const GIVEN: usize = COUNT + 2;
const REWRITTEN: usize = GIVEN + 2;
const SAVED: usize = REWRITTEN + 2;
const REPORT_WORDS: usize = SAVED + 1;

/// Holds a report to the oracle's, and tells its answer.
fn report_agrees(
    random: &mut Random,
    case: &str,
    program: &[u8],
    list: &[u8],
    prices: &Prices,
) -> Result<pricing::Report, u8> {
    let (mut given, mut asked) = (Text::new(random, program), Text::new(random, list));
    let mut table = lent_prices(random, prices);
    let kept = table.clone();
    let mut places = Lent::new(random, REPORT_WORDS, |bits| bits as u32);
    let mut expected = places.clone();
    let wanted = pricing::report(program, list, prices);
    if let Ok(report) = &wanted {
        let (places, count) = (expected.part(), report.before.len());
        places[BEFORE..BEFORE + count].copy_from_slice(&report.before);
        places[AFTER..AFTER + count].copy_from_slice(&report.after);
        places[COUNT] = count as u32;
        places[GIVEN] = report.given;
        places[REWRITTEN] = report.rewritten;
        places[SAVED] = report.saved as u32;
    }
    let shown = || {
        let texts = format!("program {} marks {}", escaped(program), escaped(list));
        format!("case {case}: prices {prices:?} {texts}")
    };
    let (program, list) = (given.part(), asked.part());
    let first = places.part().as_mut_ptr();
    // SAFETY: the pointers come from references, and no two of the written places overlap.
    let number = unsafe {
        raw::rewrites_report(
            program.as_ptr(),
            program.len(),
            list.as_ptr(),
            list.len(),
            table.part().as_ptr().cast(),
            first.add(BEFORE).cast(),
            first.add(AFTER).cast(),
            first.add(COUNT),
            first.add(GIVEN),
            first.add(REWRITTEN),
            first.add(SAVED).cast(),
        )
    };
    assert_eq!(number, wanted.as_ref().err().copied().unwrap_or(0), "number of {}", shown());
    places.assert_same(&expected, "places", shown);
    table.assert_same(&kept, "prices", shown);
    given.assert_kept("program", shown);
    asked.assert_kept("marks", shown);
    wanted
}

/// What is dropped, or computed already, by the kinds of statements whose price changes.
#[rustfmt::skip]
const CHEAPER: [&str; 13] = [
    "rm of X := A", "rm of +", "rm of -", "rm of *", "rm of <", "rm of =", "rm of /",
    "cse of +", "cse of -", "cse of *", "cse of <", "cse of =", "cse of /",
];

#[rustfmt::skip]
const SAVED_TICKS: [&str; 7] =
    ["-65,536 and less", "below zero", "none", "1", "some", "over 255", "over 65,535"];

#[test]
fn reports_are_as_by_the_oracle() {
    let mut refusals = Tally::new("refusals of report", [2, 3, 4, 5, 9, 10]);
    let mut sizes = Tally::new("sizes of programs priced", sizes_of_programs());
    let mut counts = Tally::new("marks of a list that is priced", mark_counts());
    let mut priced = Tally::new("statements priced", KIND_NAMES);
    let mut cheaper = Tally::new("prices that change", CHEAPER);
    let mut saved = Tally::new("ticks saved", SAVED_TICKS);
    let mut tables = Tally::new("prices of reports", PRICES);
    let mut by_ours =
        Tally::new("statements listed at our price, which the table lacks", KIND_NAMES);
    let mut of_programs = damages("damages of programs priced");
    let mut of_lists = damages("damages of lists priced");
    for (case, mut random) in cases("report") {
        let random = &mut random;
        let program = program(random, case);
        let mut text = program.text();
        let count = mark_count(random, case, (program.count() as usize + 4).min(40));
        let mut list = marks::text(&generate::marks(random, &program, count));
        if !is_whole(case) {
            match random.below(40) {
                0..=3 => damaged(random, &mut text, &mut of_programs),
                4 => text = generate::statement_soup(random),
                _ => {}
            }
            match random.below(20) {
                0..=2 => damaged(random, &mut list, &mut of_lists),
                3 => list = generate::mark_soup(random),
                _ => {}
            }
        }
        let prices = if random.chance(50) { OURS } else { generate::prices(random) };
        match report_agrees(random, &case.to_string(), &text, &list, &prices) {
            Err(number) => refusals.met(number),
            Ok(report) => {
                tables.met(table_kind(&prices));
                let program = Program::read(&text).expect("a program that is priced is taken");
                sizes.met(program.count());
                counts.met(marks::read(&list).expect("its marks are taken").len());
                for (at, statement) in program.statements().iter().enumerate() {
                    let name = KIND_NAMES[kind(statement)];
                    priced.met(name);
                    if report.before[at] != prices[kind(statement)] {
                        by_ours.met(name);
                    }
                    match (report.before[at], report.after[at]) {
                        (before, after) if before == after || prices != OURS => {}
                        (_, 1) => cheaper.met(cheaper_kind("rm", name)),
                        _ => cheaper.met(cheaper_kind("cse", name)),
                    }
                }
                saved.met(match report.saved {
                    i32::MIN..=-65_536 => "-65,536 and less",
                    -65_535..=-1 => "below zero",
                    0 => "none",
                    1 => "1",
                    2..=255 => "some",
                    256..=65_535 => "over 255",
                    _ => "over 65,535",
                });
            }
        }
    }
    refusals.report();
    sizes.report();
    counts.report();
    priced.report();
    cheaper.report();
    saved.report();
    tables.report();
    by_ours.report();
    of_programs.report();
    of_lists.report();
}

/// The class of a price that changes.
fn cheaper_kind(mark: &str, kind: &str) -> &'static str {
    let class = CHEAPER.into_iter().find(|class| *class == format!("{mark} of {kind}"));
    class.unwrap_or_else(|| panic!("{mark} of {kind} changed a price"))
}

// Prices

/// Holds the reading of a table of prices to the oracle's, and tells its answer.
fn prices_agree(random: &mut Random, case: &str, text: &[u8], held: &Prices) -> Result<Prices, u8> {
    let mut read = Text::new(random, text);
    let mut table = lent_prices(random, held);
    let mut expected = table.clone();
    let mut wanted = *held;
    let answer = pricing::replace(text, &mut wanted);
    expected.part().copy_from_slice(&wanted);
    let shown = || format!("case {case}: held {held:?} text {}", escaped(text));
    let lent = read.part();
    // SAFETY: the pointers come from references, and they don't overlap.
    let number = unsafe {
        raw::rewrites_prices(lent.as_ptr(), lent.len(), table.part().as_mut_ptr().cast())
    };
    assert_eq!(number, answer.err().unwrap_or(0), "number of {}", shown());
    table.assert_same(&expected, "prices", shown);
    read.assert_kept("text", shown);
    answer.map(|()| wanted)
}

/// Where a price lies among those of the range.
fn price_kind(price: u32) -> &'static str {
    match price {
        1 => "1",
        2..=9 => "of one digit",
        10..=99 => "of two",
        100..=999 => "of three",
        1_000..=9_999 => "of four",
        65_535 => "65,535",
        _ => "of five",
    }
}

#[rustfmt::skip]
const PRICE_KINDS: [&str; 7] = ["1", "of one digit", "of two", "of three", "of four", "of five", "65,535"];

#[test]
fn tables_of_prices_are_as_by_the_oracle() {
    let mut answers = Tally::new("answers to tables of prices", [0, 19, 20]);
    let mut wrong_lines = Tally::new("wrong lines of prices refused", WrongPrice::ALL.map(Shown));
    let mut wrong_places = Tally::new("places of the wrong line of eleven", 0..KINDS);
    let mut before_20 = Tally::new("lines of a list with a wrong line", (1..14).chain([256, 300]));
    let mut counts = Tally::new("lines of a list that is refused 20", (0..11).chain([12, 13, 256]));
    let mut taken = Tally::new("prices read", PRICE_KINDS);
    let mut held_tables = Tally::new("tables that were held", PRICES);
    let mut of_texts = damages("damages of prices");
    for (case, mut random) in cases("prices") {
        let random = &mut random;
        let (held, list) = (generate::prices(random), generate::price_list(random));
        let mut text = pricing::table_text(&list);
        let mut wrong = None;
        if !is_whole(case) {
            match random.below(10) {
                0..=2 => {
                    let kind = random.pick(&WrongPrice::ALL);
                    text = generate::wrong_prices(random, kind, &list);
                    wrong = Some(kind);
                }
                3 => damaged(random, &mut text, &mut of_texts),
                _ => {}
            }
        }
        let answer = prices_agree(random, &case.to_string(), &text, &held);
        answers.met(answer.err().unwrap_or(0));
        held_tables.met(table_kind(&held));
        match (answer, wrong) {
            (Ok(prices), _) => prices.iter().for_each(|&price| taken.met(price_kind(price))),
            (Err(number), Some(wrong)) => {
                assert_eq!(number, 19, "{wrong:?}");
                wrong_lines.met(Shown(wrong));
                let lines: Vec<&[u8]> = text.split_inclusive(|&byte| byte == b'\n').collect();
                before_20.met(lines.len());
                if lines.len() == KINDS {
                    let is_wrong = |line: &&[u8]| pricing::read_prices(line) == Err(19);
                    wrong_places.met(lines.iter().position(is_wrong).expect("a wrong line"));
                }
            }
            (Err(20), None) => counts.met(text.iter().filter(|&&byte| byte == b'\n').count()),
            (Err(_), None) => {}
        }
    }
    answers.report();
    wrong_lines.report();
    wrong_places.report();
    before_20.report();
    counts.report();
    taken.report();
    held_tables.report();
    of_texts.report();
}

#[test]
fn our_prices_are_as_by_the_oracle() {
    let random = &mut Random::new(SEED);
    for _ in 0..100 {
        let held = generate::prices(random);
        let mut table = lent_prices(random, &held);
        let mut expected = table.clone();
        expected.part().copy_from_slice(&OURS);
        // SAFETY: the pointer comes from a reference.
        unsafe { raw::rewrites_our_prices(table.part().as_mut_ptr().cast()) };
        table.assert_same(&expected, "our prices", || format!("held {held:?}"));
    }
}

// Games

/// The places that a game sets, with kept words between them.
const GAME_PARTS: usize = 0;
const GAME_SATISFIED: usize = 2;
const GAME_FIRST: usize = 4;
const NUMBER: usize = 6;
const GAME_PLACES: usize = NUMBER + STATEMENTS;

/// Holds a game to the oracle's, and tells its answer.
fn game_agrees(
    random: &mut Random,
    case: &str,
    program: &[u8],
    driver: &[u8],
    condition: &[u8],
    room: usize,
) -> Result<Forced, u8> {
    let (mut given, mut asked) = (Text::new(random, program), Text::new(random, condition));
    let mut list = Text::new(random, driver);
    let mut table = Lent::new(random, room, |bits| bits);
    let mut places = Lent::new(random, GAME_PLACES, |bits| bits as u32);
    let mut arms = Lent::new(random, STATEMENTS, |bits| bits as u8);
    let (mut expected, mut expected_places) = (table.clone(), places.clone());
    let mut expected_arms = arms.clone();
    let wanted = forcing::force(program, driver, condition, expected.part());
    if let Ok(forced) = &wanted {
        let places = expected_places.part();
        places[GAME_PARTS] = forced.parts;
        places[GAME_SATISFIED] = forced.satisfied;
        places[GAME_FIRST] = forced.first;
        for (at, number) in forced.number.iter().enumerate() {
            places[NUMBER + at] = number.unwrap_or(UNFORCED);
            expected_arms.part()[at] = Arm::number(forced.arm[at]);
        }
    }
    let shown = || {
        let (program, driver) = (escaped(program), escaped(driver));
        let condition = escaped(condition);
        format!("case {case}: table of {room} words program {program} driver {driver} condition {condition}")
    };
    let (program, driver, condition) = (given.part(), list.part(), asked.part());
    let (words, set) = (table.part(), places.part().as_mut_ptr());
    // SAFETY: the pointers come from references, and no two of the written places overlap.
    let number = unsafe {
        raw::rewrites_force(
            program.as_ptr(),
            program.len(),
            driver.as_ptr(),
            driver.len(),
            condition.as_ptr(),
            condition.len(),
            words.as_mut_ptr(),
            words.len(),
            set.add(GAME_PARTS),
            set.add(GAME_SATISFIED),
            set.add(GAME_FIRST),
            set.add(NUMBER).cast(),
            arms.part().as_mut_ptr().cast(),
        )
    };
    assert_eq!(number, wanted.as_ref().err().copied().unwrap_or(0), "number of {}", shown());
    table.assert_same(&expected, "table", shown);
    places.assert_same(&expected_places, "places", shown);
    arms.assert_same(&expected_arms, "arms", shown);
    given.assert_kept("program", shown);
    list.assert_kept("driver", shown);
    asked.assert_kept("condition", shown);
    wanted
}

#[rustfmt::skip]
const GAME_IFS: [&str; 15] = [
    "driver's, goto by a lower number", "driver's, else by a lower number", "driver's, a tie", "driver's, equal targets",
    "driver's, only goto", "driver's, only else", "driver's, met", "driver's, lost",
    "unit's, both arms avoid", "unit's, only goto avoids", "unit's, only else avoids", "unit's, equal targets",
    "unit's, won by the driver", "unit's, met", "unit's, arms of different numbers",
];

/// What is told of an `if`, by whose it is and by the numbers of its arms.
fn game_if(program: &Program, his: &[u8], forced: &Forced, at: usize) -> Vec<&'static str> {
    let statement = &program.statements()[at];
    let (then, other) = match *statement {
        Statement::Branch { then, other, .. } => (then as usize - 1, other as usize - 1),
        _ => return Vec::new(),
    };
    let (n, m) = (forced.number[then], forced.number[other]);
    match (player(statement, his), forced.number[at]) {
        (Some(Player::Driver), Some(0)) => vec!["driver's, met"],
        (Some(Player::Driver), None) => vec!["driver's, lost"],
        (Some(Player::Driver), _) if then == other => vec!["driver's, equal targets"],
        (Some(Player::Driver), _) => match (n, m) {
            (Some(n), Some(m)) if n == m => vec!["driver's, a tie"],
            (Some(n), Some(m)) if n < m => vec!["driver's, goto by a lower number"],
            (Some(_), Some(_)) => vec!["driver's, else by a lower number"],
            (Some(_), None) => vec!["driver's, only goto"],
            _ => vec!["driver's, only else"],
        },
        (_, Some(0)) => vec!["unit's, met"],
        (_, Some(_)) if n != m => {
            vec!["unit's, won by the driver", "unit's, arms of different numbers"]
        }
        (_, Some(_)) => vec!["unit's, won by the driver"],
        (_, None) if then == other => vec!["unit's, equal targets"],
        (_, None) => match (n, m) {
            (None, None) => vec!["unit's, both arms avoid"],
            (None, _) => vec!["unit's, only goto avoids"],
            _ => vec!["unit's, only else avoids"],
        },
    }
}

#[test]
fn games_are_as_by_the_oracle() {
    let mut refusals = Tally::new("refusals of force", [1, 2, 3, 4, 5, 22, 6, 7, 8]);
    let mut sizes = Tally::new("sizes of programs played", sizes_of_programs());
    let mut names = Tally::new("names of a list", (0..=8).chain([VARIABLES]));
    let mut wrong_lists = Tally::new("wrong lists", WrongDriver::ALL.map(Shown));
    let mut before_7 = Tally::new("wrong lists before a misspelled condition", [22]);
    let mut numbers = Tally::new("numbers", 0..=40);
    let mut largest = Tally::new("numbers of size", ["255", "over 255", "1,023", "N - 1"]);
    let mut ifs = Tally::new("ifs", GAME_IFS);
    let mut wins = Tally::new("statements forced", ["none", "some", "all"]);
    let mut rooms = rooms("words of a table of a game", TABLE_WORDS);
    let mut of_programs = damages("damages of programs played");
    let mut of_lists = damages("damages of driver's lists");
    let mut of_conditions = damages("damages of goals");
    for (case, mut random) in cases("force") {
        let random = &mut random;
        let size =
            in_turn(case, EACH_SIZE, sizes_from(2)).unwrap_or_else(|| generate::size(random));
        let program = match random.below(8) {
            0 | 1 => generate::program(random, size),
            // A chain, at times with an `if` in it.
            2 => chain(random, size),
            _ => generate::game(random, size),
        };
        let mut text = program.text();
        let his = generate::driver(random, &program);
        let mut driver = generate::driver_text(&his);
        let mut condition = generate::goal(random, &program);
        let (mut words, mut wrong) = (TABLE_WORDS + random.below(3), None);
        if !is_whole(case) {
            match random.below(40) {
                0..=3 => damaged(random, &mut text, &mut of_programs),
                4 => text = generate::statement_soup(random),
                _ => {}
            }
            match random.below(20) {
                0 => damaged(random, &mut driver, &mut of_lists),
                1..=3 => {
                    let kind = random.pick(&WrongDriver::ALL);
                    driver = generate::wrong_driver(random, kind, &his);
                    wrong = Some(kind);
                }
                _ => {}
            }
            match random.below(20) {
                0 | 1 => damaged(random, &mut condition, &mut of_conditions),
                2 => condition = condition_text(random, &program),
                _ => {}
            }
            words = room(random, TABLE_WORDS);
        }
        rooms.met(words);
        let answer = game_agrees(random, &case.to_string(), &text, &driver, &condition, words);
        if let Some(wrong) = wrong.filter(|_| answer == Err(22)) {
            wrong_lists.met(Shown(wrong));
            if Condition::read(&condition) == Err(7) {
                before_7.met(22);
            }
        }
        match answer {
            Err(number) => refusals.met(number),
            Ok(forced) => {
                let program = Program::read(&text).expect("a program that was played is taken");
                let his = forcing::names(&driver).expect("its list is taken");
                let count = forced.number.len();
                sizes.met(program.count());
                names.met(his.len());
                for at in 0..count {
                    game_if(&program, &his, &forced, at).into_iter().for_each(|kind| ifs.met(kind));
                    if let Some(number) = forced.number[at] {
                        numbers.met(number);
                        match number {
                            255 => largest.met("255"),
                            1_023 => largest.met("1,023"),
                            256.. => largest.met("over 255"),
                            _ => {}
                        }
                        if number as usize == count - 1 {
                            largest.met("N - 1");
                        }
                    }
                }
                wins.met(match forced.number.iter().flatten().count() {
                    0 => "none",
                    won if won == count => "all",
                    _ => "some",
                });
            }
        }
    }
    refusals.report();
    sizes.report();
    names.report();
    wrong_lists.report();
    before_7.report();
    numbers.report();
    largest.report();
    ifs.report();
    wins.report();
    rooms.report();
    of_programs.report();
    of_lists.report();
    of_conditions.report();
}

/// `skip`s in a row, or `if`s each of which goes on or to a place before.
fn chain(random: &mut Random, size: usize) -> Program {
    let percent = random.pick(&[0, 0, 10, 100]);
    let mut lines = vec![Statement::Read(0)];
    for at in 2..size {
        let (next, back) = (at as u32 + 1, random.between(2, at) as u32);
        let (then, other) = if random.chance(50) { (next, back) } else { (back, next) };
        lines.push(if random.chance(percent) {
            Statement::Branch { tested: random.below(2) as u8, then, other }
        } else {
            Statement::Skip
        });
    }
    lines.push(Statement::Write(0));
    Program::new(lines).expect("a chain is taken")
}

// Paths

/// The places beside a path that a call sets, with kept words between them.
const LENGTH: usize = 0;
const TURN: usize = 2;
const TRUTH: usize = 4;
const VERDICT: usize = 2;
const CULPRIT: usize = 4;
const PATH_PLACES: usize = 5;

/// Steps through what is told of a part at a statement, and tells what it is.
fn witness_agrees(
    random: &mut Random,
    case: &str,
    (program, condition): (&[u8], &[u8]),
    (part, statement): (u32, u32),
    room: usize,
) -> Result<(paths::Shown, Witnessed), u8> {
    let (mut given, mut asked) = (Text::new(random, program), Text::new(random, condition));
    let mut path = Lent::new(random, room, |bits| bits as u32);
    let mut places = Lent::new(random, PATH_PLACES, |bits| bits as u32);
    let (mut expected, mut expected_places) = (path.clone(), places.clone());
    let read = if room < PATH_WORDS {
        Err(1)
    } else {
        Program::read(program).and_then(|read| Ok((read, Condition::read(condition)?)))
    };
    let shown = || {
        let (program, condition) = (escaped(program), escaped(condition));
        format!("case {case}: part {part} at {statement}, {room} words, program {program} condition {condition}")
    };
    let (program, condition) = (given.part(), asked.part());
    let (words, set) = (path.part(), places.part());
    // SAFETY: the pointers come from references, and no two of the written places overlap.
    let number = unsafe {
        raw::rewrites_witness(
            program.as_ptr(),
            program.len(),
            condition.as_ptr(),
            condition.len(),
            part,
            statement,
            words.as_mut_ptr(),
            words.len(),
            set.as_mut_ptr().add(LENGTH),
            set.as_mut_ptr().add(TURN),
            set.as_mut_ptr().add(TRUTH),
        )
    };
    assert_eq!(number, read.as_ref().err().copied().unwrap_or(0), "number of {}", shown());
    let answer = read.map(|(program, condition)| {
        let (length, turn, truth) = (set[LENGTH] as usize, set[TURN], set[TRUTH]);
        let expected_set = expected_places.part();
        (expected_set[LENGTH], expected_set[TURN]) = (length as u32, turn);
        let told = if length == 0 {
            assert!(turn == 0 && truth <= 1, "turn {turn} and truth {truth} of {}", shown());
            expected_set[TRUTH] = truth;
            Witnessed::None(truth == 1)
        } else {
            assert!(length <= room, "{length} statements of {}", shown());
            expected.part()[..length].copy_from_slice(&words[..length]);
            Witnessed::Path(words[..length].to_vec(), turn)
        };
        match check_witness(&program, &condition, part, statement, &told) {
            Ok(kind) => (kind, told),
            Err(wrong) => panic!("{wrong}: {told:?} of {}", shown()),
        }
    });
    path.assert_same(&expected, "path", shown);
    places.assert_same(&expected_places, "places", shown);
    given.assert_kept("program", shown);
    asked.assert_kept("condition", shown);
    answer
}

/// The part below a part's negations, and how many these are.
fn below_negations(condition: &Condition, mut part: usize) -> (usize, usize) {
    let mut negations = 0;
    while let Part::Not(inner) = condition.parts()[part] {
        (part, negations) = (inner, negations + 1);
    }
    (part, negations)
}

fn is_path_operator(part: &Part) -> bool {
    matches!(part, Part::Next(..) | Part::Path(..))
}

/// A part to ask for: mostly one with a path operator, now and then one that isn't there.
fn part_near(random: &mut Random, condition: &Condition) -> u32 {
    let count = condition.parts().len();
    let is_asked =
        |&part: &usize| is_path_operator(&condition.parts()[below_negations(condition, part).0]);
    let asked: Vec<usize> = (0..count).filter(is_asked).collect();
    match random.below(24) {
        0 => count as u32,
        1 => (count + 64) as u32,
        2 => random.pick(&[u32::MAX, 1 << 31, 1 << 16]),
        3..=5 => random.below(count) as u32,
        _ if asked.is_empty() => count as u32 - 1,
        _ => random.pick(&asked) as u32,
    }
}

/// A statement to ask for, now and then one that isn't there.
fn statement_near(random: &mut Random, count: u32) -> u32 {
    match random.below(24) {
        0 => 0,
        1 => count + 1,
        2 => random.pick(&[u32::MAX, 1 << 31, count + (1 << 10)]),
        3 => 1,
        4 => count,
        _ => random.between(1, count as usize) as u32,
    }
}

/// What may be told of each path operator: X, F, G, U and W of E, then of A, and the same of the past.
fn kinds_of_paths() -> impl Iterator<Item = Shown<(&'static str, paths::Shown)>> {
    let operators = [["EX", "EF", "EU", "AX", "AG", "AW"], ["EY", "ER", "ES", "AY", "AM", "AB"]];
    let rounds = [["EG", "AF"], ["EM", "AR"]];
    let both = [["EW", "AU"], ["EB", "AS"]];
    let with = |kinds: Vec<&'static str>, shown: paths::Shown| {
        kinds.into_iter().map(move |kind| Shown((kind, shown)))
    };
    let all = [operators.concat(), rounds.concat(), both.concat()].concat();
    with(all, paths::Shown::Nothing)
        .chain(with([operators.concat(), both.concat()].concat(), paths::Shown::Way))
        .chain(with([rounds.concat(), both.concat()].concat(), paths::Shown::Round))
}

const ASKED: [&str; 4] = ["both there", "no such part", "no such statement", "neither"];

#[test]
fn paths_of_conditions_are_right_when_stepped_through() {
    let mut refusals = Tally::new("refusals of witness", 1..=8);
    let mut sizes = Tally::new("sizes of programs with paths", sizes_of_programs());
    let mut kinds = Tally::new("paths", kinds_of_paths());
    let mut asked = Tally::new("parts and statements asked for", ASKED);
    let mut lengths = Tally::new("statements of a path", 1..=30);
    let mut turns = Tally::new("turns", 0..=16);
    let mut negations = Tally::new("negations before an operator with a path", 0..=3);
    let mut truths = Tally::new("truth where there is no path", [false, true]);
    let mut ends = Tally::new(
        "paths",
        ["back to a statement that nothing steps to", "by `write`", "by statement 1"],
    );
    let mut rooms = rooms("words of a path", PATH_WORDS);
    let mut of_programs = damages("damages of programs with paths");
    let mut of_conditions = damages("damages of conditions with paths");
    for (case, mut random) in cases("witness") {
        let random = &mut random;
        let program = match random.below(16) {
            0 if !is_whole(case) => {
                let size = random.between(3, 60);
                chain(random, size)
            }
            _ => program(random, case),
        };
        let mut text = program.text();
        let parts = random.between(1, 20);
        let mut condition = match random.below(40) {
            0 if !is_whole(case) => condition_text(random, &program),
            _ => generate::condition(random, &program, parts),
        };
        let mut words = PATH_WORDS + random.below(3);
        if !is_whole(case) {
            match random.below(40) {
                0 | 1 => damaged(random, &mut text, &mut of_programs),
                2 => text = miscounted(random),
                _ => {}
            }
            match random.below(20) {
                0 | 1 => damaged(random, &mut condition, &mut of_conditions),
                _ => {}
            }
            words = room(random, PATH_WORDS);
        }
        rooms.met(words);
        let read = Condition::read(&condition);
        let part = read.as_ref().map_or(0, |condition| part_near(random, condition));
        let statement = statement_near(random, program.count());
        let answer = witness_agrees(
            random,
            &case.to_string(),
            (&text, &condition),
            (part, statement),
            words,
        );
        let (kind, told) = match answer {
            Ok(answer) => answer,
            Err(number) => {
                refusals.met(number);
                continue;
            }
        };
        let (program, condition) =
            (Program::read(&text).expect("it is taken"), read.expect("it is taken"));
        sizes.met(program.count());
        let has_part = (part as usize) < condition.parts().len();
        asked.met(match (has_part, program.statement(statement).is_some()) {
            (true, true) => ASKED[0],
            (false, true) => ASKED[1],
            (true, false) => ASKED[2],
            (false, false) => ASKED[3],
        });
        let below = has_part.then(|| below_negations(&condition, part as usize));
        let operator = below.map(|(bare, _)| condition.parts()[bare]).filter(is_path_operator);
        if let Some(operator) = operator {
            kinds.met(Shown((part_kind(&operator), kind)));
        }
        match told {
            Witnessed::None(truth) => truths.met(truth),
            Witnessed::Path(path, turn) => {
                lengths.met(path.len());
                turns.met(turn);
                negations.met(below.map_or(0, |(_, count)| count));
                let steps = Steps::new(&program);
                let is_back = matches!(
                    operator,
                    Some(
                        Part::Next(_, Direction::Backward, _)
                            | Part::Path(_, Direction::Backward, _)
                    )
                );
                let is_alone =
                    |&n: &u32| n > 1 && steps.backward[n as usize - 1] == [n as usize - 1];
                if is_back && path.iter().any(is_alone) {
                    ends.met("back to a statement that nothing steps to");
                }
                if path.contains(&program.count()) {
                    ends.met("by `write`");
                }
                if path.contains(&1) {
                    ends.met("by statement 1");
                }
            }
        }
    }
    refusals.report();
    sizes.report();
    kinds.report();
    asked.report();
    lengths.report();
    turns.report();
    negations.report();
    truths.report();
    ends.report();
    rooms.report();
    of_programs.report();
    of_conditions.report();
}

/// Steps through what is told of a line of marks, and tells what it is.
fn why_agrees(
    random: &mut Random,
    case: &str,
    (program, list): (&[u8], &[u8]),
    line: u32,
    room: usize,
) -> Result<Because, u8> {
    let (mut given, mut asked) = (Text::new(random, program), Text::new(random, list));
    let mut path = Lent::new(random, room, |bits| bits as u32);
    let mut places = Lent::new(random, PATH_PLACES, |bits| bits as u32);
    let (mut expected, mut expected_places) = (path.clone(), places.clone());
    let read = if room < PATH_WORDS {
        Err(1)
    } else {
        Program::read(program).and_then(|read| Ok((read, marks::read(list)?)))
    };
    let shown = || {
        let (program, list) = (escaped(program), escaped(list));
        format!("case {case}: line {line}, {room} words, program {program} marks {list}")
    };
    let (program, list) = (given.part(), asked.part());
    let (words, set) = (path.part(), places.part());
    // SAFETY: the pointers come from references, and no two of the written places overlap.
    let number = unsafe {
        raw::rewrites_why(
            program.as_ptr(),
            program.len(),
            list.as_ptr(),
            list.len(),
            line,
            words.as_mut_ptr(),
            words.len(),
            set.as_mut_ptr().add(VERDICT),
            set.as_mut_ptr().add(LENGTH),
            set.as_mut_ptr().add(CULPRIT),
        )
    };
    assert_eq!(number, read.as_ref().err().copied().unwrap_or(0), "number of {}", shown());
    let answer = read.map(|(program, list)| {
        let (verdict, length, culprit) = (set[VERDICT], set[LENGTH] as usize, set[CULPRIT]);
        assert!(length <= room && verdict < 256, "{length} statements of {}", shown());
        let expected_set = expected_places.part();
        (expected_set[VERDICT], expected_set[LENGTH]) = (verdict, length as u32);
        expected_set[CULPRIT] = culprit;
        let path = words[..length].to_vec();
        expected.part()[..length].copy_from_slice(&path);
        let told = Because { verdict: verdict as u8, path, culprit };
        if let Err(wrong) = check_why(&program, &list, line, &told) {
            panic!("{wrong}: {told:?} of {}", shown());
        }
        told
    });
    path.assert_same(&expected, "path", shown);
    places.assert_same(&expected_places, "places", shown);
    given.assert_kept("program", shown);
    asked.assert_kept("marks", shown);
    answer
}

/// The marks with a path, by what its last statement does.
const REASONS: [&str; 8] = [
    "rm, used",
    "rm, used by an accepted cse",
    "rpl, redefined",
    "rpl, operand redefined",
    "rpl, nothing copied",
    "cse, redefined",
    "cse, operand redefined",
    "cse, nothing copied",
];

fn reason_kind(mark: &Mark, culprit: u32) -> &'static str {
    match (mark.kind, culprit) {
        (Kind::Remove(_), paths::USED) => REASONS[0],
        (Kind::Remove(_), _) => REASONS[1],
        (Kind::Replace(_), paths::REDEFINED) => REASONS[2],
        (Kind::Replace(_), paths::OPERAND_REDEFINED) => REASONS[3],
        (Kind::Replace(_), _) => REASONS[4],
        (Kind::Reuse(_), paths::REDEFINED) => REASONS[5],
        (Kind::Reuse(_), paths::OPERAND_REDEFINED) => REASONS[6],
        (Kind::Reuse(_), _) => REASONS[7],
    }
}

#[test]
fn reasons_of_refused_marks_are_right_when_stepped_through() {
    let mut refusals = Tally::new("refusals of why", [1, 2, 3, 4, 5, 9, 10]);
    let mut sizes = Tally::new("sizes of programs with reasons", sizes_of_programs());
    let mut counts = Tally::new("marks of a list with reasons", mark_counts());
    let mut kinds = Tally::new("lines asked why", LINE_KINDS);
    let mut verdicts = Tally::new("verdicts with reasons", [0, 11, 12, 13, 18, 14]);
    let mut reasons = Tally::new("reasons", REASONS);
    let mut lengths = Tally::new("statements of a reason", 2..=20);
    let mut rooms = rooms("words of a reason", PATH_WORDS);
    let mut of_programs = damages("damages of programs with reasons");
    let mut of_lists = damages("damages of lists with reasons");
    let mut ends = Tally::new(
        "reasons",
        ["round to the mark's statement", "back to a statement that nothing steps to"],
    );
    for (case, mut random) in cases("why") {
        let random = &mut random;
        let program = program(random, case);
        let mut text = program.text();
        let count = mark_count(random, case, (program.count() as usize + 4).min(40));
        let mut list = marks::text(&generate::marks(random, &program, count));
        let mut words = PATH_WORDS + random.below(3);
        if !is_whole(case) {
            match random.below(40) {
                0 | 1 => damaged(random, &mut text, &mut of_programs),
                2 => text = miscounted(random),
                _ => {}
            }
            match random.below(20) {
                0 => damaged(random, &mut list, &mut of_lists),
                _ => {}
            }
            words = room(random, PATH_WORDS);
        }
        rooms.met(words);
        // Mostly a line that gets 14, where there is one.
        let read = Program::read(&text).and_then(|read| Ok((read, marks::read(&list)?)));
        let unmet: Vec<usize> = read.as_ref().map_or_else(
            |_| Vec::new(),
            |(program, list)| {
                let verdicts = Judge::new(program).verdicts(list);
                (0..list.len()).filter(|&line| verdicts[line] == 14).collect()
            },
        );
        let line = match random.below(4) {
            0 => line_near(random, count),
            _ if unmet.is_empty() => line_near(random, count),
            _ => random.pick(&unmet) as u32,
        };
        let told = match why_agrees(random, &case.to_string(), (&text, &list), line, words) {
            Ok(told) => told,
            Err(number) => {
                refusals.met(number);
                continue;
            }
        };
        let (program, list) = read.expect("they are taken");
        sizes.met(program.count());
        counts.met(list.len());
        kinds.met(line_kind(line, list.len()));
        verdicts.met(told.verdict);
        if told.verdict != 14 {
            continue;
        }
        let mark = &list[line as usize];
        reasons.met(reason_kind(mark, told.culprit));
        lengths.met(told.path.len());
        if told.path[1..].contains(&mark.number) {
            ends.met("round to the mark's statement");
        }
        let steps = Steps::new(&program);
        let last = told.path[told.path.len() - 1] as usize;
        if last > 1
            && steps.backward[last - 1] == [last - 1]
            && !matches!(mark.kind, Kind::Remove(_))
        {
            ends.met("back to a statement that nothing steps to");
        }
    }
    refusals.report();
    sizes.report();
    counts.report();
    kinds.report();
    verdicts.report();
    reasons.report();
    lengths.report();
    rooms.report();
    of_programs.report();
    of_lists.report();
    ends.report();
}

// Lines of marks

/// The places that the call sets, with kept words between them.
const BEGIN: usize = 0;
const END: usize = 2;
const LINE_PLACES: usize = 3;

/// Holds the bounds of a line to the oracle's, and tells the answer.
fn mark_line_agrees(
    random: &mut Random,
    case: &str,
    list: &[u8],
    line: u32,
) -> Result<Range<usize>, u8> {
    let mut asked = Text::new(random, list);
    let mut places = Lent::new(random, LINE_PLACES, |bits| bits as usize);
    let mut expected = places.clone();
    let wanted = marks::mark_line(list, line);
    if let Ok(bounds) = &wanted {
        let places = expected.part();
        places[BEGIN] = bounds.start;
        places[END] = bounds.end;
    }
    let shown = || format!("case {case}: line {line} of marks {}", escaped(list));
    let (list, first) = (asked.part(), places.part().as_mut_ptr());
    // SAFETY: the pointers come from references, and the written places don't overlap.
    let number = unsafe {
        let (begin, end) = (first.add(BEGIN), first.add(END));
        raw::rewrites_mark_line(list.as_ptr(), list.len(), line, begin, end)
    };
    assert_eq!(number, wanted.as_ref().err().copied().unwrap_or(0), "number of {}", shown());
    places.assert_same(&expected, "places", shown);
    asked.assert_kept("marks", shown);
    wanted
}

/// A line of a list of so many marks, or one at or beyond its end, often with a line's low bits.
fn line_near(random: &mut Random, count: usize) -> u32 {
    let within = random.below(count.max(1)) as u32;
    match random.below(16) {
        0 => 0,
        1 => count.saturating_sub(1) as u32,
        2 => count as u32,
        3 => count as u32 + 1,
        4 => within + MARKS as u32,
        5 => within + (1 << 16),
        6 => within + (1 << 31),
        7 => u32::MAX,
        8 => random.bits() as u32,
        _ => within,
    }
}

/// Where a line stands in a list of so many marks.
fn line_kind(line: u32, count: usize) -> &'static str {
    match line as usize {
        at if at > count => "beyond",
        at if at == count => "at the number of marks",
        _ if count == 1 => "the only",
        0 => "the first",
        at if at + 1 == count => "the last",
        _ => "within",
    }
}

#[rustfmt::skip]
const LINE_KINDS: [&str; 6] =
    ["the only", "the first", "within", "the last", "at the number of marks", "beyond"];

#[test]
fn lines_of_marks_are_as_by_the_oracle() {
    let mut refusals = Tally::new("refusals of mark_line", [9, 10]);
    let mut counts = Tally::new("marks of a list with lines", mark_counts());
    let mut kinds = Tally::new("lines asked for", LINE_KINDS);
    let mut largest = Tally::new("largest line asked for", [u32::MAX]);
    let mut lengths = Tally::new("bytes of a line", 19..=37);
    let mut damages = damages("damages of lists with lines");
    let mut signs = Signs::new("wrong signs of lists with lines", 9);
    let mut reuses = wrong_reuses("wrong cse lines of lists with lines");
    for (case, mut random) in cases("mark_line") {
        let random = &mut random;
        // The marks needn't fit, so the program is small.
        let size = random.between(2, 12);
        let program = generate::program(random, size);
        let count = mark_count(random, case, 16);
        let mut list = marks::text(&generate::marks(random, &program, count));
        let (mut sign, mut reuse) = (None, None);
        if !is_whole(case) {
            match random.below(10) {
                0..=2 => damaged(random, &mut list, &mut damages),
                3 => list = generate::mark_soup(random),
                4 => sign = wrongly_signed(random, &mut list),
                5 => reuse = wrongly_reused(random, &mut list),
                _ => {}
            }
        }
        let line = line_near(random, count);
        let answer = mark_line_agrees(random, &case.to_string(), &list, line);
        signs.met(sign, answer.as_ref().err().copied().unwrap_or(0));
        if let Some(wrong) = reuse.filter(|_| answer == Err(9)) {
            reuses.met(Shown(wrong));
        }
        match answer {
            Err(number) => refusals.met(number),
            Ok(bounds) => {
                let count = marks::read(&list).expect("a list with lines is taken").len();
                counts.met(count);
                kinds.met(line_kind(line, count));
                largest.met(line);
                lengths.met(bounds.len());
            }
        }
    }
    refusals.report();
    counts.report();
    kinds.report();
    largest.report();
    lengths.report();
    damages.report();
    signs.met.report();
    reuses.report();
}

// Lists of readers and writers

/// The places of both counts, with kept words around them.
const DEFINED: usize = 1;
const USED: usize = DEFINED + VARIABLES + 1;
const COUNT_PLACES: usize = USED + VARIABLES + 1;

/// A list and the places of its counts, before a call or after it.
#[derive(Clone)]
struct LentList {
    words: Lent<u64>,
    places: Lent<u32>,
}

impl LentList {
    fn new(random: &mut Random, words: &[u64]) -> LentList {
        let mut list = LentList {
            words: Lent::new(random, words.len(), |bits| bits),
            places: Lent::new(random, COUNT_PLACES, |bits| bits as u32),
        };
        list.words.part().copy_from_slice(words);
        list
    }

    /// Puts counts where a call does.
    fn put(&mut self, counts: &Counts) {
        let places = self.places.part();
        places[DEFINED..DEFINED + VARIABLES].copy_from_slice(&counts.defined);
        places[USED..USED + VARIABLES].copy_from_slice(&counts.used);
    }

    fn assert_same(&self, expected: &LentList, shown: impl Fn() -> String) {
        self.words.assert_same(&expected.words, "list", &shown);
        self.places.assert_same(&expected.places, "counts", &shown);
    }
}

/// What a call leaves in a list, and its counts.
struct Listed {
    words: Vec<u64>,
    counts: Counts,
}

/// Holds a list that is made, in words that hold others, to the oracle's, and tells the answer.
fn list_agrees(random: &mut Random, case: &str, text: &[u8], words: &[u64]) -> Result<Listed, u8> {
    let mut program = Text::new(random, text);
    let mut lent = LentList::new(random, words);
    let mut expected = lent.clone();
    let wanted = listing::list(text, expected.words.part());
    if let Ok(counts) = &wanted {
        expected.put(counts);
    }
    let shown = || format!("case {case}: {} words, program {}", words.len(), escaped(text));
    let (program_part, first) = (program.part(), lent.words.part().as_mut_ptr());
    let places = lent.places.part().as_mut_ptr();
    // SAFETY: the pointers come from references, and no two of the written places overlap.
    let number = unsafe {
        raw::rewrites_list(
            program_part.as_ptr(),
            program_part.len(),
            first,
            words.len(),
            places.add(DEFINED).cast(),
            places.add(USED).cast(),
        )
    };
    assert_eq!(number, wanted.as_ref().err().copied().unwrap_or(0), "number of {}", shown());
    lent.assert_same(&expected, shown);
    program.assert_kept("program", shown);
    wanted.map(|counts| Listed { words: lent.words.part().to_vec(), counts })
}

/// The same of a list that is brought up to date.
fn relist_agrees(
    random: &mut Random,
    case: &str,
    text: &[u8],
    list: &[u8],
    words: &[u64],
) -> Result<Listed, u8> {
    let (mut program, mut asked) = (Text::new(random, text), Text::new(random, list));
    let mut lent = LentList::new(random, words);
    let mut expected = lent.clone();
    let wanted = listing::relist(text, list, expected.words.part());
    if let Ok(counts) = &wanted {
        expected.put(counts);
    }
    let shown = || {
        let (text, list) = (escaped(text), escaped(list));
        format!("case {case}: {} words, program {text} marks {list}", words.len())
    };
    let (program_part, asked_part) = (program.part(), asked.part());
    let (first, places) = (lent.words.part().as_mut_ptr(), lent.places.part().as_mut_ptr());
    // SAFETY: the pointers come from references, and no two of the written places overlap.
    let number = unsafe {
        raw::rewrites_relist(
            program_part.as_ptr(),
            program_part.len(),
            asked_part.as_ptr(),
            asked_part.len(),
            first,
            words.len(),
            places.add(DEFINED).cast(),
            places.add(USED).cast(),
        )
    };
    assert_eq!(number, wanted.as_ref().err().copied().unwrap_or(0), "number of {}", shown());
    lent.assert_same(&expected, shown);
    program.assert_kept("program", shown);
    asked.assert_kept("marks", shown);
    wanted.map(|counts| Listed { words: lent.words.part().to_vec(), counts })
}

#[rustfmt::skip]
const LIST_KINDS: [&str; 6] =
    ["right", "wrong in a bit", "wrong in some bits", "zeros", "ones", "random"];

/// Words for a list to be brought up to date, of this kind; right ones are those of the program's list.
fn list_of_kind(random: &mut Random, kind: &str, text: &[u8], room: usize) -> Vec<u64> {
    let mut words: Vec<u64> = (0..room).map(|_| random.bits()).collect();
    match kind {
        "zeros" => words.fill(0),
        "ones" => words.fill(u64::MAX),
        "random" => {}
        _ => {
            // Where the program or the room is refused the words stay random.
            let made = listing::list(text, &mut words);
            let wrong = match kind {
                "wrong in a bit" => 1,
                "wrong in some bits" => random.between(2, 200),
                _ => 0,
            };
            for _ in 0..if made.is_ok() { wrong } else { 0 } {
                words[random.below(LIST_WORDS)] ^= 1 << random.below(64);
            }
        }
    }
    words
}

/// What a mark that is accepted does to its statement's bits.
fn list_change(before: &Statement, after: &Statement) -> &'static str {
    match (before, after) {
        _ if before == after => "accepted, no text changed",
        (_, Statement::Skip) if before.defined().map_or(false, |x| before.uses(x)) => {
            "dropped, used and defined alike"
        }
        (_, Statement::Skip) => "dropped",
        (Statement::Branch { .. }, _) => "replaced in if",
        (Statement::Write(x), Statement::Write(y)) => match (is_kept(*x), is_kept(*y)) {
            (false, false) => "replaced in write",
            _ => "replaced in write, one kept",
        },
        (
            Statement::Assign(_, Expression::Pair(..)),
            Statement::Assign(_, Expression::Single(_)),
        ) => "read again",
        _ => "replaced in an assignment",
    }
}

#[rustfmt::skip]
const LIST_CHANGES: [&str; 8] = [
    "accepted, no text changed", "dropped", "dropped, used and defined alike", "replaced in if",
    "replaced in write", "replaced in write, one kept", "replaced in an assignment", "read again",
];

#[rustfmt::skip]
const WRITTEN_BITS: [&str; 5] = [
    "set", "cleared", "kept where wrong", "kept beyond N", "right and written",
];

/// Counts what became of bits: those of changed statements are as in the list made afresh, and all others as
/// they were.
fn bits_met(
    program: &Program,
    new: &Program,
    before: &[u64],
    after: &Listed,
    met: &mut Tally<&'static str>,
) {
    let mut afresh = [0; LIST_WORDS];
    listing::list(&new.text(), &mut afresh).expect("new text is taken");
    for at in 0..STATEMENTS {
        let is_changed = program.statements().get(at) != new.statements().get(at);
        for x in 0..VARIABLES as u8 {
            for set in [Set::Defining, Set::Using] {
                let [old, left, made] =
                    [before, &after.words, &afresh].map(|words| listing::has(words, x, set, at));
                assert_eq!(left, if is_changed { made } else { old });
                met.met(match (is_changed, old, made) {
                    (true, false, true) => "set",
                    (true, true, false) => "cleared",
                    (true, ..) => "right and written",
                    (false, old, _) if at >= new.statements().len() && old => "kept beyond N",
                    (false, old, made) if old != made => "kept where wrong",
                    _ => "",
                });
            }
        }
    }
}

#[test]
fn lists_are_as_by_the_oracle() {
    let mut refusals = Tally::new("refusals of list", [1, 2, 3, 4, 5]);
    let mut sizes = Tally::new("sizes of programs listed", sizes_of_programs());
    let mut kinds = Tally::new("statements of programs listed", STATEMENT_KINDS);
    let mut list_rooms = rooms("words of lists", LIST_WORDS);
    let mut damages = damages("damages of programs listed");
    let mut signs = Signs::new("wrong signs of programs listed", 2);
    let mut defined = Tally::new("variables that are defined", 0..VARIABLES);
    let mut used = Tally::new("variables that are used", 0..VARIABLES);
    for (case, mut random) in cases("list") {
        let random = &mut random;
        let program = program(random, case);
        let mut text = program.text();
        let (mut room_of, mut sign) = (LIST_WORDS, None);
        if !is_whole(case) {
            match random.below(20) {
                0 => text = generate::statement_soup(random),
                1..=4 => damaged(random, &mut text, &mut damages),
                5 => sign = wrongly_signed(random, &mut text),
                _ => {}
            }
            if random.chance(25) {
                room_of = room(random, LIST_WORDS);
            }
        }
        list_rooms.met(room_of);
        let words = list_of_kind(random, "random", &text, room_of);
        let answer = list_agrees(random, &case.to_string(), &text, &words);
        signs.met(sign, answer.as_ref().err().copied().unwrap_or(0));
        match answer {
            Err(number) => refusals.met(number),
            Ok(Listed { counts, .. }) => {
                let program = Program::read(&text).expect("a program that is listed is taken");
                sizes.met(program.count());
                program.statements().iter().for_each(|s| kinds.met(statement_kind(s)));
                for v in 0..VARIABLES {
                    defined.add(v, u64::from(counts.defined[v]));
                    used.add(v, u64::from(counts.used[v]));
                }
            }
        }
    }
    refusals.report();
    sizes.report();
    kinds.report();
    list_rooms.report();
    damages.report();
    signs.met.report();
    defined.report();
    used.report();
}

#[test]
fn lists_brought_up_to_date_are_as_by_the_oracle() {
    let mut refusals = Tally::new("refusals of relist", [1, 2, 3, 4, 5, 9, 10]);
    let mut sizes = Tally::new("sizes of programs relisted", sizes_of_programs());
    let mut counts = Tally::new("marks of a round", mark_counts());
    let mut kinds = Tally::new("lists before a round", LIST_KINDS);
    let mut changes = Tally::new("marks accepted in a round", LIST_CHANGES);
    let mut bits = Tally::new("bits of a list", WRITTEN_BITS);
    let mut rounds = Tally::new("right lists", ["made afresh", "with changes made afresh"]);
    let mut list_rooms = rooms("words of lists brought up to date", LIST_WORDS);
    let mut of_programs = damages("damages of programs relisted");
    let mut of_lists = damages("damages of marks of a round");
    for (case, mut random) in cases("relist") {
        let random = &mut random;
        let program = program(random, case);
        let mut text = program.text();
        let count = mark_count(random, case, (program.count() as usize + 4).min(40));
        let mut list = marks::text(&generate::marks(random, &program, count));
        let mut room_of = LIST_WORDS;
        if !is_whole(case) {
            match random.below(40) {
                0..=3 => damaged(random, &mut text, &mut of_programs),
                4 => text = generate::statement_soup(random),
                _ => {}
            }
            match random.below(20) {
                0..=2 => damaged(random, &mut list, &mut of_lists),
                3 => list = generate::mark_soup(random),
                _ => {}
            }
            if random.chance(15) {
                room_of = room(random, LIST_WORDS);
            }
        }
        list_rooms.met(room_of);
        let kind = random.pick(&LIST_KINDS);
        let words = list_of_kind(random, kind, &text, room_of);
        let case_name = case.to_string();
        let after = match relist_agrees(random, &case_name, &text, &list, &words) {
            Ok(after) => after,
            Err(number) => {
                refusals.met(number);
                continue;
            }
        };
        let program = Program::read(&text).expect("a program that is judged is taken");
        let list = marks::read(&list).expect("its marks are taken");
        sizes.met(program.count());
        counts.met(list.len());
        kinds.met(kind);
        let verdicts = Judge::new(&program).verdicts(&list);
        let new = marks::rewritten(&program, &list, &verdicts);
        for (mark, _) in list.iter().zip(&verdicts).filter(|(_, &verdict)| verdict == 0) {
            let of = |program: &Program| *program.statement(mark.number).expect("it has it");
            changes.met(list_change(&of(&program), &of(&new)));
        }
        if case % 64 < 2 {
            bits_met(&program, &new, &words, &after, &mut bits);
        }
        if kind == "right" {
            // What was the given program's list is the new program's.
            let blank = vec![random.bits(); room_of];
            let afresh = list_agrees(random, &case_name, &new.text(), &blank);
            let afresh = afresh.expect("new text is taken");
            assert_eq!(after.counts, afresh.counts, "case {case}");
            assert_eq!(after.words[..LIST_WORDS], afresh.words[..LIST_WORDS], "case {case}");
            rounds.met("made afresh");
            if new != program {
                rounds.met("with changes made afresh");
            }
        }
    }
    refusals.report();
    sizes.report();
    counts.report();
    kinds.report();
    changes.report();
    bits.report();
    rounds.report();
    list_rooms.report();
    of_programs.report();
    of_lists.report();
}

// Joined programs

/// The places that a join sets, with kept words between them.
const JOINED_STATEMENTS: usize = 0;
const JOINED_BYTES: usize = 2;
const JOIN_PLACES: usize = 3;

/// Holds a join to the oracle's, with every lent byte, and tells the joined text.
fn join_agrees(
    random: &mut Random,
    case: &str,
    road: &[u8],
    creeper: &[u8],
    room: usize,
) -> Result<Vec<u8>, u8> {
    let (mut first, mut second) = (Text::new(random, road), Text::new(random, creeper));
    let mut text = Lent::new(random, room, |bits| bits as u8);
    let mut places = Lent::new(random, JOIN_PLACES, |bits| bits as u32);
    let (mut expected_text, mut expected_places) = (text.clone(), places.clone());
    let wanted = join::join(road, creeper, expected_text.part());
    if let Ok((statements, bytes)) = wanted {
        expected_places.part()[JOINED_STATEMENTS] = statements;
        expected_places.part()[JOINED_BYTES] = bytes;
    }
    let shown = || {
        let (road, creeper) = (escaped(road), escaped(creeper));
        format!("case {case}: room {room} road {road} creeper {creeper}")
    };
    let place = places.part().as_mut_ptr();
    let (road_len, creeper_len) = (first.part().len(), second.part().len());
    // SAFETY: the pointers come from references, and no two of the written places overlap.
    let number = unsafe {
        raw::rewrites_join(
            first.part().as_ptr(),
            road_len,
            second.part().as_ptr(),
            creeper_len,
            text.part().as_mut_ptr(),
            room,
            place.add(JOINED_STATEMENTS),
            place.add(JOINED_BYTES),
        )
    };
    assert_eq!(number, wanted.err().unwrap_or(0), "number of {}", shown());
    places.assert_same(&expected_places, "places", shown);
    text.assert_same(&expected_text, "joined text", shown);
    first.assert_kept("road", shown);
    second.assert_kept("creeper", shown);
    wanted.map(|(_, bytes)| text.part()[..bytes as usize].to_vec())
}

/// How runs of joined programs end, by which of both does it. A run that is spent at the last budget goes on.
const JOINED_RUNS: [&str; 8] = [
    "steps",
    "steps behind the seam",
    "both ended",
    "kept other values",
    "the road goes on",
    "the creeper goes on",
    "the road faults",
    "the creeper faults",
];

/// The joined text's run, by the library, answers as the two programs do one after the other, by the oracle's machine:
/// under each of the first budgets, and further on.
fn run_in_turn(
    random: &mut Random,
    case: &str,
    text: &[u8],
    [road, creeper]: [&Program; 2],
    runs: &mut Tally<&str>,
) {
    let seam = road.count();
    let by_steps = if text.len() < 1_000 { 40 } else { 6 };
    let (values, input) = (generate::values(random), generate::word(random));
    let further = random.between(by_steps as usize, 600) as u32;
    let far = random.pick(&[2_000, 2_000, 2_000, 20_000]);
    let prices = generate::prices(random);
    let mut both = InTurn::start(road, creeper, values, input);
    let (mut steps, mut ticks) = (0, 0);
    for budget in (0..by_steps).chain(further..further + 6).chain([far]) {
        while steps < budget && matches!(both.state(), State::Before { .. }) {
            ticks += both.cost(&prices);
            both.step();
            steps += 1;
        }
        let wanted = match both.state() {
            State::Before { statement, values } => Outcome::Spent { statement, values, ticks },
            State::Ended { value, kept } => Outcome::Ended { value, steps, kept, ticks },
            State::Faulted { statement } => Outcome::Fault { statement, steps, ticks },
        };
        let mut places = RunPlaces::new(random, &prices);
        let mut expected = places.clone();
        put_outcome(&mut expected, wanted);
        let shown = || {
            let start = format!("values {values:?} input {input} budget {budget}");
            format!("case {case}: {start} prices {prices:?} joined {}", escaped(text))
        };
        assert_eq!(lend_run(text, &values, input, budget, &mut places), 0, "{}", shown());
        places.assert_same(&expected, "the joined run", shown);
        runs.met("steps");
        match wanted {
            Outcome::Spent { statement, .. } => {
                if statement > seam {
                    runs.met("steps behind the seam");
                }
                if budget == far {
                    let goes = ["the creeper goes on", "the road goes on"];
                    runs.met(goes[usize::from(statement <= seam)]);
                }
            }
            Outcome::Ended { kept, .. } => {
                runs.met("both ended");
                if kept != kept_of(&values) {
                    runs.met("kept other values");
                }
                return;
            }
            Outcome::Fault { statement, .. } => {
                let faults = ["the creeper faults", "the road faults"];
                runs.met(faults[usize::from(statement < seam)]);
                return;
            }
        }
    }
}

/// Which of the texts isn't taken.
const BAD_TEXTS: [&str; 4] = ["neither", "road", "creeper", "both"];

#[test]
fn joins_are_as_by_the_oracle_and_run_in_turn() {
    let mut refusals = Tally::new("refusals of join", [1, 2, 3, 4, 5, 21]);
    let mut of_creepers = Tally::new("refusals of the creeper text", [2, 3, 4, 5]);
    let mut late =
        Tally::new("creepers refused beside a road of the most statements", [2, 3, 4, 5]);
    let mut bad = Tally::new("texts that aren't taken", BAD_TEXTS);
    let mut sizes = Tally::new("statements of joined programs", sizes_from(3).map(|n| n as u32));
    let mut over = Tally::new("statements of pairs refused 21", 1_025..=1_027);
    let mut text_rooms = rooms("bytes of joined text", TEXT_BYTES);
    let mut of_roads = damages("damages of roads");
    let mut damaged_creepers = damages("damages of creepers");
    let mut runs = Tally::new("runs of joined programs", JOINED_RUNS);
    let mut seams = Tally::new("seams", ["one variable", "two variables", "an if goes there"]);
    for (case, mut random) in cases("join") {
        let random = &mut random;
        let mut pair = generate::road_and_creeper(random);
        if let Some(size) = in_turn(case, EACH_SIZE, sizes_from(3)) {
            let first = random.between(2, size - 1);
            pair = [first, size + 1 - first].map(|size| generate::program(random, size));
        }
        let [mut road, mut creeper] = [pair[0].text(), pair[1].text()];
        let mut bytes = TEXT_BYTES;
        if !is_whole(case) {
            match random.below(40) {
                0..=3 => damaged(random, &mut road, &mut of_roads),
                4 => road = generate::statement_soup(random),
                5 => road = miscounted(random),
                _ => {}
            }
            match random.below(40) {
                0..=3 => damaged(random, &mut creeper, &mut damaged_creepers),
                4 => creeper = generate::statement_soup(random),
                5 => creeper = miscounted(random),
                _ => {}
            }
            if random.below(20) == 0 {
                bytes = room(random, TEXT_BYTES);
            }
        }
        // Too many statements, if the creeper were taken.
        if case % 50 == 7 {
            let refused = refused_programs();
            road = generate::program(random, STATEMENTS).text();
            creeper = refused[(case / 50) as usize % refused.len()].0.clone();
        }
        text_rooms.met(bytes);
        let answer = join_agrees(random, &case.to_string(), &road, &creeper, bytes);
        let taken = [&road, &creeper].map(|text| Program::read(text));
        if bytes >= TEXT_BYTES {
            let which = usize::from(taken[0].is_err()) + 2 * usize::from(taken[1].is_err());
            bad.met(BAD_TEXTS[which]);
        }
        match (answer, taken) {
            (Err(number), taken) => {
                refusals.met(number);
                if let [Ok(road), Err(_)] = &taken {
                    of_creepers.met(number);
                    if road.count() as usize == STATEMENTS {
                        late.met(number);
                    }
                }
                if let (21, [Ok(road), Ok(creeper)]) = (number, &taken) {
                    over.met(road.count() + creeper.count() - 1);
                }
            }
            (Ok(text), [Ok(road), Ok(creeper)]) => {
                sizes.met(road.count() + creeper.count() - 1);
                match (road.statements().last(), &creeper.statements()[0]) {
                    (Some(Statement::Write(x)), Statement::Read(y)) if x == y => {
                        seams.met("one variable")
                    }
                    _ => seams.met("two variables"),
                }
                let last = road.count();
                let goes = |statement: &Statement| match statement {
                    Statement::Branch { then, other, .. } => *then == last || *other == last,
                    _ => false,
                };
                if road.statements().iter().any(goes) {
                    seams.met("an if goes there");
                }
                let case = case.to_string();
                run_in_turn(random, &case, &text, [&road, &creeper], &mut runs);
            }
            (Ok(_), _) => panic!("case {case}: joined, though a text isn't taken"),
        }
    }
    refusals.report();
    of_creepers.report();
    late.report();
    bad.report();
    sizes.report();
    over.report();
    text_rooms.report();
    of_roads.report();
    damaged_creepers.report();
    runs.report();
    seams.report();
}

// Stages

/// One case of stages stands for so many of other calls: each lends 70,000 bytes, up to eight programs among them.
const STAGES_FOR: u64 = 5;

/// Holds a keep to the oracle's, with every lent byte, and tells the place.
fn keep_agrees(
    random: &mut Random,
    case: &str,
    lent: &mut Lent<u8>,
    name: &[u8],
    program: &[u8],
) -> Result<u32, u8> {
    let (mut given, mut text) = (Text::new(random, name), Text::new(random, program));
    let mut place = Lent::new(random, 1, |bits| bits as u32);
    let (mut expected, mut expected_place) = (lent.clone(), place.clone());
    let wanted = stages::keep(expected.part(), name, program);
    if let Ok(at) = wanted {
        expected_place.part()[0] = at;
    }
    let room = lent.part().len();
    let shown = || {
        let (name, program) = (escaped(name), escaped(program));
        format!("case {case}: room {room} name {name} program {program}")
    };
    let (name_len, program_len) = (given.part().len(), text.part().len());
    // SAFETY: the pointers come from references, and no two of the written places overlap.
    let number = unsafe {
        raw::rewrites_keep(
            lent.part().as_mut_ptr(),
            room,
            given.part().as_ptr(),
            name_len,
            text.part().as_ptr(),
            program_len,
            place.part().as_mut_ptr(),
        )
    };
    assert_eq!(number, wanted.err().unwrap_or(0), "number of {}", shown());
    place.assert_same(&expected_place, "place", shown);
    lent.assert_same(&expected, "stages", shown);
    given.assert_kept("name", shown);
    text.assert_kept("program", shown);
    wanted
}

/// Holds a return to the oracle's, with every lent byte, and tells the text.
fn return_agrees(
    random: &mut Random,
    case: &str,
    lent: &mut Lent<u8>,
    name: &[u8],
    room: usize,
) -> Result<Vec<u8>, u8> {
    let mut given = Text::new(random, name);
    let mut text = Lent::new(random, room, |bits| bits as u8);
    let mut bytes = Lent::new(random, 1, |bits| bits as u32);
    let before = lent.clone();
    let (mut expected, mut expected_bytes) = (text.clone(), bytes.clone());
    let wanted = stages::go_back(lent.part(), name, expected.part());
    if let Ok(count) = wanted {
        expected_bytes.part()[0] = count;
    }
    let stages_room = lent.part().len();
    let shown = || format!("case {case}: rooms {stages_room} and {room} name {}", escaped(name));
    let name_len = given.part().len();
    // SAFETY: the pointers come from references, and no two of the written places overlap.
    let number = unsafe {
        raw::rewrites_return(
            lent.part().as_ptr(),
            stages_room,
            given.part().as_ptr(),
            name_len,
            text.part().as_mut_ptr(),
            room,
            bytes.part().as_mut_ptr(),
        )
    };
    assert_eq!(number, wanted.err().unwrap_or(0), "number of {}", shown());
    bytes.assert_same(&expected_bytes, "bytes", shown);
    text.assert_same(&expected, "returned text", shown);
    lent.assert_same(&before, "stages", shown);
    given.assert_kept("name", shown);
    wanted.map(|count| text.part()[..count as usize].to_vec())
}

/// Stages lent to calls, of so many bytes: those that are needed have this content, as far as there is room.
fn lent_stages(random: &mut Random, content: &[u8], room: usize) -> Lent<u8> {
    let mut lent = Lent::new(random, room, |bits| bits as u8);
    let front = room.min(content.len());
    lent.part()[..front].copy_from_slice(&content[..front]);
    lent
}

/// Where a name stands in the places.
const NAME_STANDS: [&str; 7] = [
    "new, the first place is empty",
    "new, an earlier place is held",
    "new, no place is empty",
    "known, in the first place",
    "known, behind held places",
    "known, behind an empty place",
    "known, behind a place with the name that is empty",
];

fn name_stands(held: &[Option<Stage>], content: &[u8], name: &[u8]) -> &'static str {
    let known = held.iter().position(|stage| matches!(stage, Some(stage) if stage.name == name));
    let first_empty = held.iter().position(Option::is_none);
    let mut field = name.to_vec();
    field.resize(stages::NAME_BYTES, 0);
    let is_named = |at: usize| content[at * PLACE_BYTES..].starts_with(&field);
    match (known, first_empty) {
        (None, Some(0)) => "new, the first place is empty",
        (None, Some(_)) => "new, an earlier place is held",
        (None, None) => "new, no place is empty",
        (Some(0), _) => "known, in the first place",
        (Some(at), _) if (0..at).any(is_named) => {
            "known, behind a place with the name that is empty"
        }
        (Some(at), Some(empty)) if empty < at => "known, behind an empty place",
        (Some(_), _) => "known, behind held places",
    }
}

#[test]
fn stages_are_as_by_the_oracle() {
    let mut keeps = Tally::new("refusals of keep", [1, 2, 3, 4, 5, 23, 24]);
    let mut returns = Tally::new("refusals of return", [1, 23, 25]);
    let mut late = Tally::new("refusals of keep with a wrong name", [1, 2, 3, 4, 5, 23]);
    let mut full_late = Tally::new("wrong names where no place is empty", [23]);
    let mut stands = Tally::new("names kept", NAME_STANDS);
    let mut taken = Tally::new("places written", 1..=8);
    let mut found = Tally::new("places returned to", 1..=8);
    let mut counts = Tally::new("places held", 0..=8);
    let mut wrong_names = Tally::new("wrong names", WrongName::ALL.map(Shown));
    let mut of_places = Tally::new("damages of places", PlaceDamage::ALL.map(Shown));
    let mut stages_rooms = rooms("bytes of stages", STAGES_BYTES);
    let mut text_rooms = rooms("bytes of returned text", TEXT_BYTES);
    let mut of_programs = damages("damages of programs kept");
    let mut texts = Tally::new(
        "programs kept",
        ["of over 255 bytes", "of 1,024 lines", "shorter than the last"],
    );
    for (case, mut random) in cases("stages").filter(|(case, _)| case % STAGES_FOR == 0) {
        let (case, random) = (case / STAGES_FOR, &mut random);
        let mut content = generate::stages(random);
        for _ in 0..random.pick(&[0, 0, 1, 1, 2, 4]) {
            let (kind, at) = (random.pick(&PlaceDamage::ALL), random.below(PLACES));
            generate::damage_place(random, kind, &mut content, at);
            of_places.met(Shown(kind));
        }
        let held = stages::held(&content).expect("there is room");
        counts.met(held.iter().flatten().count());
        let known: Vec<&Stage> = held.iter().flatten().collect();
        let mut name = match known[..] {
            [] => generate::stage_name(random),
            _ if random.chance(50) => generate::stage_name(random),
            _ => known[random.below(known.len())].name.clone(),
        };
        let mut program = generate::kept_program(random).text();
        let (mut bytes, mut text_bytes) = (STAGES_BYTES, TEXT_BYTES);
        if case % 100 == 0 {
            program = generate::program(random, STATEMENTS).text();
        }
        if !is_whole(case) {
            if random.below(6) == 0 {
                let wrong = random.pick(&WrongName::ALL);
                name = generate::wrong_name(random, wrong, &name);
                wrong_names.met(Shown(wrong));
            }
            match random.below(40) {
                0..=3 => damaged(random, &mut program, &mut of_programs),
                4 => program = generate::statement_soup(random),
                5 => program = miscounted(random),
                6 => {
                    program = random
                        .pick(&[
                            &b"read i0\nskip\n"[..],
                            b"read i0\nif i0 goto 1 else 2\nwrite i0\n",
                        ])
                        .to_vec()
                }
                _ => {}
            }
            if random.below(10) == 0 {
                bytes = room(random, STAGES_BYTES);
            }
            if random.below(10) == 0 {
                text_bytes = room(random, TEXT_BYTES);
            }
        }
        stages_rooms.met(bytes);
        text_rooms.met(text_bytes);
        let case_name = case.to_string();
        let mut lent = lent_stages(random, &content, bytes);
        match return_agrees(random, &case_name, &mut lent, &name, text_bytes) {
            Ok(text) => {
                let at = held
                    .iter()
                    .position(|stage| matches!(stage, Some(stage) if stage.name == name));
                let at = at.expect("a place holds it");
                assert_eq!(Some(text), held[at].as_ref().map(|stage| stage.text.clone()));
                found.met(at + 1);
            }
            Err(number) => returns.met(number),
        }
        let answer = keep_agrees(random, &case_name, &mut lent, &name, &program);
        let is_right = stages::is_name(&name);
        if !is_right {
            late.met(answer.expect_err("a wrong name is refused"));
            if known.len() == PLACES {
                full_late.met(answer.expect_err("a wrong name is refused"));
            }
        }
        match answer {
            Err(number) => {
                keeps.met(number);
                if number == 24 {
                    stands.met(name_stands(&held, &content, &name));
                }
            }
            Ok(place) => {
                taken.met(place);
                stands.met(name_stands(&held, &content, &name));
                if program.len() > 255 {
                    texts.met("of over 255 bytes");
                }
                if program.iter().filter(|&&byte| byte == b'\n').count() == STATEMENTS {
                    texts.met("of 1,024 lines");
                }
                let was = known.iter().find(|stage| stage.name == name);
                if was.map_or(false, |stage| stage.text.len() > program.len()) {
                    texts.met("shorter than the last");
                }
                // What was kept is returned, and so is each other stage as it was.
                let again = return_agrees(random, &case_name, &mut lent, &name, TEXT_BYTES);
                assert_eq!(again, Ok(program));
                let other = random.pick(&known.iter().map(Some).chain([None]).collect::<Vec<_>>());
                if let Some(stage) = other.filter(|stage| stage.name != name) {
                    let again =
                        return_agrees(random, &case_name, &mut lent, &stage.name, TEXT_BYTES);
                    assert_eq!(again.as_ref(), Ok(&stage.text));
                }
            }
        }
    }
    keeps.report();
    returns.report();
    late.report();
    full_late.report();
    stands.report();
    taken.report();
    found.report();
    counts.report();
    wrong_names.report();
    of_places.report();
    stages_rooms.report();
    text_rooms.report();
    of_programs.report();
    texts.report();
}

/// What happens between the rounds from a stage, and how its runs and those of the reached program end.
const BETWEEN_ROUNDS: [&str; 7] = [
    "kept under another name",
    "kept the reached program",
    "kept the stage's program",
    "refused for the name",
    "refused as all are held",
    "refused for the program",
    "nothing",
];

/// Three rounds of random lists from a stage, with other stages kept between them: the stage's program is returned as it
/// was kept, and the reached program runs as it does, by the library alone, under each of the first budgets and further on.
#[test]
fn rounds_from_a_stage_run_as_its_program() {
    let mut between = Tally::new("between rounds", BETWEEN_ROUNDS);
    let mut changes = Tally::new("rounds that changed the program", 0..=3);
    let mut endings =
        Tally::new("runs over rounds", ["budgets", "ended", "fault", "spent", "kept other values"]);
    for (case, mut random) in cases("rounds").filter(|(case, _)| case % (4 * STAGES_FOR) == 0) {
        let random = &mut random;
        let size = if random.chance(90) { random.between(4, 40) } else { generate::size(random) };
        let given = generate::program(random, size).text();
        let content = generate::stages(random);
        let mut lent = lent_stages(random, &content, STAGES_BYTES);
        let (name, case_name) = (generate::stage_name(random), case.to_string());
        let mut kept_as = keep_agrees(random, &case_name, &mut lent, &name, &given);
        if kept_as == Err(24) {
            // A place is made free.
            let at = random.below(PLACES) * PLACE_BYTES;
            lent.part()[at] = 0;
            kept_as = keep_agrees(random, &case_name, &mut lent, &name, &given);
        }
        kept_as.expect("it is kept");
        let (mut reached, mut changed) = (given.clone(), 0);
        for round in 1..=3 {
            let program = Program::read(&reached).expect("a reached program is taken");
            let count = random.between(0, size.min(30));
            let list = marks::text(&generate::marks(random, &program, count));
            let judged_as = (VERDICT_BYTES, TEXT_BYTES);
            let judged = judgement_agrees(random, &case_name, &reached, &list, judged_as);
            let new = judged.expect("both are taken").text;
            changed += usize::from(new != reached);
            reached = new;
            for _ in 0..random.below(4) {
                let other = generate::stage_name(random);
                if other == name {
                    between.met("nothing");
                    continue;
                }
                let (other, text, class) = match random.below(8) {
                    0 => (b"Other".to_vec(), reached.clone(), "refused for the name"),
                    1 => (other, b"read i0\n".to_vec(), "refused for the program"),
                    2..=4 => (other, reached.clone(), "kept the reached program"),
                    5 => (other, given.clone(), "kept the stage's program"),
                    _ => (other, generate::kept_program(random).text(), "kept under another name"),
                };
                match keep_agrees(random, &case_name, &mut lent, &other, &text) {
                    Err(24) => between.met("refused as all are held"),
                    answer => {
                        assert_eq!(answer.is_err(), class.starts_with("refused"));
                        between.met(class);
                    }
                }
            }
            let back = return_agrees(random, &case_name, &mut lent, &name, TEXT_BYTES);
            assert_eq!(back.as_ref(), Ok(&given), "round {round} of case {case}");
            let (values, input) = (generate::values(random), generate::word(random));
            let table = Table(generate::prices(random));
            let budgets = (0..40).chain([random.between(40, 400) as u32, 2_000]);
            for budget in budgets {
                let run = |text: &[u8]| rewrites::run(text, &values, input, budget, &table);
                let [one, two] = [&given, &reached].map(|text| run(text).expect("it is taken"));
                let shown = || {
                    let (given, reached) = (escaped(&given), escaped(&reached));
                    format!("case {case}: values {values:?} input {input} budget {budget} given {given} reached {reached}")
                };
                endings.met("budgets");
                match (one, two) {
                    (Answer::Spent { statement, .. }, Answer::Spent { statement: other, .. }) => {
                        assert_eq!(statement, other, "{}", shown());
                        if budget == 2_000 {
                            endings.met("spent");
                        }
                    }
                    (
                        Answer::Ended { value, steps, kept, .. },
                        Answer::Ended { value: w, steps: s, kept: k, .. },
                    ) => {
                        assert_eq!((value, steps, kept), (w, s, k), "{}", shown());
                        endings.met("ended");
                        if kept != kept_of(&values) {
                            endings.met("kept other values");
                        }
                        break;
                    }
                    (
                        Answer::Fault { statement, steps, .. },
                        Answer::Fault { statement: other, steps: s, .. },
                    ) => {
                        assert_eq!((statement, steps), (other, s), "{}", shown());
                        endings.met("fault");
                        break;
                    }
                    _ => panic!("{one:?} and {two:?} in {}", shown()),
                }
            }
        }
        changes.met(changed);
    }
    between.report();
    changes.report();
    endings.report();
}

// Whole ranges of cases

#[test]
fn runs_under_each_small_budget_are_as_by_the_oracle() {
    let random = &mut Random::new(1);
    let programs = [
        P,
        "read i0\nif i0 goto 2 else 2\nwrite i0\n",
        "read i0\nskip\nif i1 goto 2 else 2\nwrite i0\n",
        "read i0\ni1 := i1 * 3\ni0 := i0 - i1\nif i9 goto 2 else 5\nwrite i0\n",
        // Fibonacci's numbers, past 32 bits.
        "read i0\ni1 := i2 + i3\ni2 := i3\ni3 := i1\nif i0 goto 2 else 6\nwrite i1\n",
        // A fault when i0 has been counted down.
        "read i0\ni1 := i2 / i0\ni0 := i0 - 1\nif i3 goto 2 else 2\nwrite i1\n",
    ];
    for program in programs {
        for input in 0..10 {
            for budget in 0..60 {
                let answer = run_agrees(random, program, program.as_bytes(), input, budget);
                assert!(answer.is_ok());
            }
        }
    }
}

/// Each of some numbers by each, as variables and as constants.
#[test]
fn quotients_at_the_edges_are_as_by_the_oracle() {
    let random = &mut Random::new(7);
    let mut met = Tally::new("divisions at the edges", QUOTIENTS);
    let edges = [i32::MIN, i32::MIN + 1, -7, -2, -1, 0, 1, 2, 7, 65_536, i32::MAX - 1, i32::MAX];
    for a in edges {
        for b in edges {
            let mut values = generate::values(random);
            (values[1], values[2]) = (a as u32, b as u32);
            let rights = [
                "i1 / i2".to_string(),
                format!("{a} / i2"),
                format!("i1 / {b}"),
                format!("{a} / {b}"),
            ];
            for right in rights {
                let text = format!("read i0\ni3 := {right}\nwrite i3\n");
                let answer =
                    run_from_agrees(random, &right, text.as_bytes(), (values, 5), 3, &OURS);
                assert_eq!(
                    answer == Ok(Outcome::Fault { statement: 2, steps: 2, ticks: 28 }),
                    b == 0
                );
            }
            quotient_kinds(a, b).into_iter().for_each(|kind| met.met(kind));
        }
    }
    met.report();
}

/// Each divisor, dropped where nothing uses the quotient and where it is written.
#[test]
fn every_divisor_is_dropped_as_by_the_oracle() {
    let random = &mut Random::new(8);
    let mut verdicts = Tally::new("verdicts of dropped divisions", [0, 14, 18]);
    let variables = (0..VARIABLES).map(|x| format!("i{x}"));
    let constants = ["0", "1", "-1", "2", "-2", "256", "65536", "2147483647", "-2147483648"];
    for divisor in variables.chain(constants.map(str::to_string)) {
        for written in [1, 9] {
            let program = format!("read i0\ni9 := i1 / {divisor}\nwrite i{written}\n");
            let list = format!("2: mark(rm, i9, i1 / {divisor})\n");
            let rooms = (VERDICT_BYTES, TEXT_BYTES);
            let judged =
                judgement_agrees(random, &list, program.as_bytes(), list.as_bytes(), rooms);
            judged.expect("the list is taken").verdicts.iter().for_each(|&v| verdicts.met(v));
        }
    }
    verdicts.report();
}

/// Each variable holds a sum that is computed again into each, is read there and is to go.
#[test]
fn every_pair_of_variables_shares_a_sum_as_by_the_oracle() {
    let random = &mut Random::new(9);
    let mut alone = Tally::new("verdicts of an rm alone", [0, 14]);
    let mut of_rm = Tally::new("verdicts of the rm beside the cse", [14]);
    let mut of_cse = Tally::new("verdicts of the cse", [0, 14]);
    let mut runs = Tally::new("runs of sums that are shared", ["ended"]);
    for t in 0..VARIABLES {
        for z in 0..VARIABLES {
            let program = format!("read i0\ni{t} := i1 + 5\ni{z} := i1 + 5\nwrite i{z}\n");
            let rm = format!("2: mark(rm, i{t}, i1 + 5)\n");
            let cse = format!("3: mark(cse, i{t}, i1 + 5)\n");
            let mut judged = |list: String| {
                let rooms = (VERDICT_BYTES, TEXT_BYTES);
                let text = program.as_bytes();
                let judged = judgement_agrees(random, &list, text, list.as_bytes(), rooms);
                let judged = judged.expect("the list is taken");
                runs_stay(random, &list, text, &judged.text, &mut runs);
                judged.verdicts
            };
            alone.met(judged(rm.clone())[0]);
            let mut verdicts = judged(format!("{rm}{cse}"));
            of_rm.met(verdicts[0]);
            of_cse.met(verdicts[1]);
            verdicts.reverse();
            assert_eq!(judged(format!("{cse}{rm}")), verdicts, "{program}");
        }
    }
    alone.report();
    of_rm.report();
    of_cse.report();
    runs.report();
}

#[test]
fn every_operator_over_atoms_of_p_is_as_by_the_oracle() {
    let random = &mut Random::new(1);
    let atoms = ["true", "false", "entry", "exit", "node(4)", "def(i0)", "use(i0)", "trans(i1)"];
    let mut agrees = |condition: String| {
        let text = condition.as_bytes();
        assert!(table_agrees(random, &condition, P.as_bytes(), text, TABLE_WORDS).is_ok());
    };
    for p in atoms {
        for operator in ["X", "F", "G", "Y", "R", "M"] {
            agrees(format!("E{operator} {p}"));
            agrees(format!("A{operator} {p}"));
        }
        for q in atoms {
            for operator in ["U", "W", "S", "B"] {
                agrees(format!("E[{p} {operator} !{q}]"));
                agrees(format!("A[{p} {operator} !{q}]"));
            }
        }
    }
}

/// Each variable is set and carried just before each is written.
#[test]
fn every_variable_at_every_write_is_as_by_the_oracle() {
    let random = &mut Random::new(6);
    let mut verdicts = Tally::new("verdicts before and at write", [0, 13, 14]);
    let rooms = (VERDICT_BYTES, TEXT_BYTES);
    for written in 0..VARIABLES {
        for x in 0..VARIABLES {
            let program = format!("read i0\ni{x} := i1\nwrite i{written}\n");
            let (case, text) = (&program[..], program.as_bytes());
            for condition in [
                format!("use(i{x})"),
                format!("!EX E[!def(i{x}) U use(i{x})]"),
                format!("def(i{x})"),
            ] {
                let condition = condition.as_bytes();
                assert!(table_agrees(random, case, text, condition, TABLE_WORDS).is_ok());
            }
            for budget in 0..4 {
                assert!(run_agrees(random, case, text, 5, budget).is_ok());
            }
            let list = format!("2: mark(rm, i{x}, i1)\n3: mark(rpl, i{x}, i1)\n");
            let judged = judgement_agrees(random, case, text, list.as_bytes(), rooms);
            let judged = judged.expect("the list is taken");
            judged.verdicts.iter().for_each(|&verdict| verdicts.met(verdict));
        }
    }
    verdicts.report();
}

/// 1,022 lines of the longest statement between `read` and `write`.
fn longest_program() -> Vec<u8> {
    let longest = "i63 := -2147483648 + -2147483648\n";
    let text = format!("read i63\n{}write i63\n", longest.repeat(1_022));
    assert_eq!((longest.len(), text.len()), (33, 33_745));
    text.into_bytes()
}

#[test]
fn the_longest_programs_are_as_by_the_oracle() {
    let random = &mut Random::new(5);
    let longest = longest_program();
    for budget in [0, 1, 255, 256, 1_023, 1_024, 2_000] {
        assert!(run_agrees(random, "longest", &longest, 7, budget).is_ok());
    }
    let conditions = ["stmt(i63 := -2147483648 + -2147483648)", "AY trans(-2147483648 - i63)"];
    for condition in conditions {
        let text = condition.as_bytes();
        assert!(table_agrees(random, condition, &longest, text, TABLE_WORDS).is_ok());
    }
    // Without marks it is given back, where there is room.
    for room in [8_704, 33_744, 33_745, 33_746, 34_815, 34_816, 34_817] {
        match judgement_agrees(random, "longest", &longest, b"", (VERDICT_BYTES, room)) {
            Ok(judged) => assert!(room >= 34_816 && judged.text == longest),
            Err(number) => assert!(room < 34_816 && number == 1),
        }
    }
    // Each line but the first two and the last becomes the longest.
    let copied = "i63 := i62 + i62\n".repeat(1_021);
    let given = format!("read i63\ni62 := -2147483648\n{copied}write i63\n").into_bytes();
    let mark = |n| format!("{n}: mark(rpl, i62, -2147483648)\n");
    let list: String = (3..=1_023).map(mark).collect();
    let rooms = (VERDICT_BYTES, TEXT_BYTES);
    let judged = judgement_agrees(random, "longest", &given, list.as_bytes(), rooms);
    let judged = judged.expect("the list is taken");
    assert_eq!(judged.verdicts, [0; 1_021]);
    assert_eq!(judged.text.len(), 9 + 19 + 1_021 * 33 + 10);
    assert_eq!(judged.text[28..], longest[9 + 33..]);
    // A line more, or a byte, is one too many.
    let longer = [&longest[..longest.len() - 10], b"skip\nwrite i63\n"].concat();
    assert_eq!(run_agrees(random, "longest", &longer, 7, 9), Err(3));
    let longer = String::from_utf8_lossy(&longest).replacen("8 +", "80 +", 1).into_bytes();
    assert_eq!(run_agrees(random, "longest", &longer, 7, 9), Err(2));
}

/// A text with each byte dropped, replaced by each other byte, and each byte put in at each place.
fn edits(text: &[u8]) -> impl Iterator<Item = Vec<u8>> + '_ {
    (0..=text.len()).flat_map(move |at| {
        let removals = if at < text.len() { 0..2 } else { 0..1 };
        removals.flat_map(move |removed| {
            let pieces = (0..=255).map(Some).chain((removed == 1).then_some(None));
            pieces.map(move |byte: Option<u8>| {
                let (before, after) = (&text[..at], &text[at + removed..]);
                before.iter().copied().chain(byte).chain(after.iter().copied()).collect()
            })
        })
    })
}

/// A program with a statement of each kind.
const EACH_KIND: &[u8] = b"read i0\ni1 := i0\ni2 := i1 + 7\nif i2 goto 5 else 6\nskip\nwrite i2\n";

/// A program with constants below zero in each place.
const BELOW_ZERO: &[u8] = b"read i0\ni1 := -2147483648\ni2 := -1 - -40\ni2 := i1 - -7\nwrite i2\n";

/// A program that computes sums twice.
const TWICE: &[u8] =
    b"read i0\ni1 := i0 + 1\ni2 := i0 + 1\ni3 := i2 * i1\ni4 := i2 * i1\nwrite i4\n";

/// A program with divisions.
const DIVIDING: &[u8] = b"read i0\ni1 := i0 / i2\ni2 := -7 / -2\ni1 := 1 / 0\nwrite i2\n";

/// Each of them as road and as creeper.
#[test]
fn joins_edited_by_one_byte_are_as_by_the_oracle() {
    let random = &mut Random::new(SEED);
    for whole in [EACH_KIND, BELOW_ZERO, DIVIDING] {
        for edited in edits(whole) {
            let _ = join_agrees(random, "road", &edited, P.as_bytes(), TEXT_BYTES);
            let _ = join_agrees(random, "creeper", P.as_bytes(), &edited, TEXT_BYTES);
        }
    }
}

/// Each byte of a place's name and length, of the front of its text and of its last line, as each other byte; the place is the
/// only one, the first of two with the name, and the second.
#[test]
fn stages_edited_by_one_byte_are_as_by_the_oracle() {
    let random = &mut Random::new(11);
    let mut numbers = Tally::new("answers to edited stages", [0, 25]);
    let mut content = vec![0; STAGES_BYTES];
    let short = b"read i0\nwrite i0\n";
    stages::keep(&mut content, b"first", P.as_bytes()).expect("it is kept");
    let alone = content.clone();
    content.copy_within(..PLACE_BYTES, PLACE_BYTES);
    content[PLACE_BYTES + 8] = short.len() as u8;
    content[PLACE_BYTES + 10..PLACE_BYTES + 10 + short.len()].copy_from_slice(short);
    for (case, whole, place) in
        [("alone", &alone, 0), ("first", &content, 0), ("second", &content, 1)]
    {
        let mut lent = lent_stages(random, whole, STAGES_BYTES);
        for at in (place * PLACE_BYTES..).take(10 + 20) {
            for byte in 0..=255 {
                lent.part()[at] = byte;
                let answer = return_agrees(random, case, &mut lent, b"first", TEXT_BYTES);
                numbers.met(answer.err().unwrap_or(0));
            }
            lent.part()[at] = whole[at];
        }
    }
    numbers.report();
}

#[test]
fn stage_names_edited_by_one_byte_are_as_by_the_oracle() {
    let random = &mut Random::new(12);
    let mut numbers = Tally::new("answers to edited names", [0, 23, 25]);
    let mut content = vec![0; STAGES_BYTES];
    for name in ["a", "abcdefgh", "first"] {
        stages::keep(&mut content, name.as_bytes(), P.as_bytes()).expect("it is kept");
    }
    let mut lent = lent_stages(random, &content, STAGES_BYTES);
    for name in [&b"a"[..], b"abcdefgh", b"first"] {
        for edited in edits(name) {
            let answer = return_agrees(random, "edit", &mut lent, &edited, TEXT_BYTES);
            numbers.met(answer.err().unwrap_or(0));
        }
    }
    numbers.report();
}

#[test]
fn programs_edited_by_one_byte_are_as_by_the_oracle() {
    let random = &mut Random::new(2);
    let mut numbers = Tally::new("answers to edited programs", [0, 2, 5]);
    for text in edits(EACH_KIND).chain(edits(BELOW_ZERO)).chain(edits(DIVIDING)) {
        numbers.met(run_agrees(random, "edit", &text, 5, 20).err().unwrap_or(0));
        let prices = generate::prices(random);
        let _ = report_agrees(random, "edit", &text, b"2: mark(rm, i1, i0)\n", &prices);
    }
    numbers.report();
}

#[test]
fn prices_edited_by_one_byte_are_as_by_the_oracle() {
    let random = &mut Random::new(11);
    let mut numbers = Tally::new("answers to edited prices", [0, 19, 20]);
    let ours = pricing::table_text(&OURS);
    let wide =
        pricing::table_text(&[65_535, 1, 10, 99, 100, 999, 1_000, 9_999, 10_000, 65_529, 60_000]);
    for whole in [&ours[..], &wide, b"7\n", b""] {
        for text in edits(whole) {
            let held = generate::prices(random);
            let answer = prices_agree(random, "edit", &text, &held);
            numbers.met(answer.err().unwrap_or(0));
        }
    }
    numbers.report();
}

#[test]
fn lists_edited_by_one_byte_are_as_by_the_oracle() {
    let random = &mut Random::new(10);
    let mut numbers = Tally::new("answers to edited lists", [0, 22]);
    for list in [&b"i0 i63"[..], b"i1", b"i2 i20 i0", b""] {
        for driver in edits(list) {
            let answer =
                game_agrees(random, "edit", P.as_bytes(), &driver, b"use(i2)", TABLE_WORDS);
            numbers.met(answer.err().unwrap_or(0));
        }
    }
    numbers.report();
}

#[test]
fn conditions_edited_by_one_byte_are_as_by_the_oracle() {
    let random = &mut Random::new(3);
    let mut numbers = Tally::new("answers to edited conditions", [0, 7]);
    let conditions: [&[u8]; 6] = [
        b"AY A[((!def(i2) & trans(7)) & !entry) B stmt(i2 := 7)]",
        b"AY A[((!def(i3) & trans(i1 + i2)) & !entry) B (stmt(i3 := i1 + i2) & trans(i1 + i2))]",
        b"(trans(i1 / i2) & stmt(i3 := i1 / 0))",
        b"(trans(-7) & stmt(i2 := -2147483648 - -1))",
        b"E[EX exit S (node(4) | AM !stmt(if i0 goto 6 else 8))]",
        b"!A[EF use(i3) W (false | true)]",
    ];
    for condition in conditions {
        for text in edits(condition) {
            let answer = table_agrees(random, "edit", P.as_bytes(), &text, TABLE_WORDS);
            numbers.met(answer.err().unwrap_or(0));
        }
    }
    numbers.report();
}

#[test]
fn marks_edited_by_one_byte_are_as_by_the_oracle() {
    let random = &mut Random::new(4);
    let mut numbers = Tally::new("answers to edited marks", [0, 9]);
    let mut verdicts = Tally::new("verdicts of edited marks", [0, 11, 12, 13, 14, 18]);
    let list = b"4: mark(rpl, i2, 7)\n3: mark(rm, i2, 7)\n4: mark(rm, i3, i1 + i2)\n";
    let below_zero = b"4: mark(rpl, i2, -2147483648)\n3: mark(rm, i2, -7 - -40)\n";
    let dividing = b"2: mark(rm, i1, i0 / i2)\n3: mark(rm, i2, -7 / -2)\n4: mark(rm, i1, 1 / 0)\n";
    let twice = b"3: mark(cse, i1, i0 + 1)\n5: mark(cse, i3, i2 * i1)\n4: mark(rm, i3, i2 * i1)\n";
    let rooms = (VERDICT_BYTES, TEXT_BYTES);
    let of_p = edits(list).chain(edits(below_zero)).map(|text| (P.as_bytes(), text));
    let of_others =
        edits(dividing).map(|text| (DIVIDING, text)).chain(edits(twice).map(|text| (TWICE, text)));
    for (program, text) in of_p.chain(of_others) {
        for line in [0, 1, 2, 3, u32::MAX] {
            let _ = mark_line_agrees(random, "edit", &text, line);
        }
        let prices = generate::prices(random);
        let _ = report_agrees(random, "edit", program, &text, &prices);
        let answer = judgement_agrees(random, "edit", program, &text, rooms);
        numbers.met(answer.as_ref().err().copied().unwrap_or(0));
        if let Ok(judged) = answer {
            judged.verdicts.iter().for_each(|&verdict| verdicts.met(verdict));
        }
    }
    numbers.report();
    verdicts.report();
}
