//! The tuned calls against the plain ones.

use crate::condition::{tabulate, Condition, TABLE_WORDS};
use crate::forcing::{force, Arm, UNFORCED};
use crate::generate::{self, Random, WrongDriver};
use crate::machine::run;
use crate::marks::{self, judge, TEXT_BYTES, VERDICT_BYTES};
use crate::paths::{check_why, check_witness, Because, Witnessed, PATH_WORDS};
use crate::pricing;
use crate::program::{Program, MOST_LINES};
use crate::tuned::{self, Told};

/// A program's text, damaged or of pieces in some cases.
pub(super) fn program_text(random: &mut Random, program: &Program) -> Vec<u8> {
    match random.below(20) {
        0 => generate::statement_soup(random),
        1..=3 => generate::damage(random, &program.text()),
        _ => program.text(),
    }
}

/// A condition's text, damaged or of pieces in some cases.
pub(super) fn condition_text(random: &mut Random, program: &Program) -> Vec<u8> {
    let parts = random.between(1, 70);
    let condition = match random.below(20) {
        0 => generate::condition_soup(random),
        1 => generate::nested_condition(random),
        2 => generate::condition_of_length(random, program, 1_020 + parts % 8),
        _ => generate::condition(random, program, parts),
    };
    if random.chance(15) {
        generate::damage(random, &condition)
    } else {
        condition
    }
}

/// The text of a list, damaged or of pieces in some cases.
pub(super) fn list_text(random: &mut Random, program: &Program) -> Vec<u8> {
    let most = program.statements().len().min(60);
    let count = random.between(0, most) + random.pick(&[0, 0, 0, 0, 200]);
    let list = marks::text(&generate::marks(random, program, count));
    match random.below(20) {
        0 => generate::mark_soup(random),
        1..=3 => generate::damage(random, &list),
        _ => list,
    }
}

#[test]
fn tuned_runs_are_the_plain_ones() {
    let random = &mut Random::new(20);
    for _ in 0..20_000 {
        let size = generate::size(random);
        let program = generate::program(random, size);
        let text = program_text(random, &program);
        let (values, input) = (generate::values(random), generate::word(random));
        let (budget, prices) = (generate::budget(random), generate::prices(random));
        assert_eq!(
            tuned::run(&text, &values, input, budget, &prices),
            run(&text, values, input, budget, &prices),
            "{input} {budget} {prices:?} {}",
            text.escape_ascii()
        );
    }
}

#[test]
fn tuned_tables_are_the_plain_ones() {
    let random = &mut Random::new(21);
    for _ in 0..20_000 {
        let size = generate::size(random);
        let program = generate::program(random, size);
        let text = program_text(random, &program);
        let condition = condition_text(random, &program);
        let most = TABLE_WORDS;
        let room = random.pick(&[most, most, most, most + 1, most - 1]);
        let (mut one, mut other) = (vec![7; room], vec![7; room]);
        assert_eq!(
            tuned::tabulate(&text, &condition, &mut one),
            tabulate(&text, &condition, &mut other),
            "{} {}",
            text.escape_ascii(),
            condition.escape_ascii()
        );
        assert_eq!(one, other, "{} {}", text.escape_ascii(), condition.escape_ascii());
    }
}

#[test]
fn tuned_judgements_are_the_plain_ones() {
    let random = &mut Random::new(22);
    for _ in 0..10_000 {
        let size = generate::size(random);
        let program = generate::program(random, size);
        let text = program_text(random, &program);
        let list = list_text(random, &program);
        let most = VERDICT_BYTES;
        let verdict_room = random.pick(&[most, most, most, most + 44, most - 1]);
        let text_room =
            random.pick(&[TEXT_BYTES, TEXT_BYTES, TEXT_BYTES, TEXT_BYTES, TEXT_BYTES - 1, 8_704]);
        let wanted = {
            let (mut verdicts, mut new) = (vec![7; verdict_room], vec![7; text_room]);
            let answer = judge(&text, &list, &mut verdicts, &mut new);
            (answer, verdicts, new)
        };
        for way in [tuned::judge, tuned::judge_by_labels] {
            let (mut verdicts, mut new) = (vec![7; verdict_room], vec![7; text_room]);
            let answer = way(&text, &list, &mut verdicts, &mut new);
            assert!(
                (answer, verdicts, new) == wanted,
                "{} {}",
                text.escape_ascii(),
                list.escape_ascii()
            );
        }
    }
}

/// Both answers and all places lent to the tuned call, which keeps those past the statements.
#[test]
fn tuned_reports_are_the_plain_ones() {
    let random = &mut Random::new(70);
    let mut refused = 0;
    for _ in 0..10_000 {
        let size = generate::size(random);
        let program = generate::program(random, size);
        let text = program_text(random, &program);
        let list = list_text(random, &program);
        let prices = generate::prices(random);
        let (mut before, mut after) = ([7; MOST_LINES], [8; MOST_LINES]);
        let answer = tuned::report(&text, &list, &prices, &mut before, &mut after);
        let (mut wanted_before, mut wanted_after) = ([7; MOST_LINES], [8; MOST_LINES]);
        let wanted = pricing::report(&text, &list, &prices).map(|report| {
            let count = report.before.len();
            wanted_before[..count].copy_from_slice(&report.before);
            wanted_after[..count].copy_from_slice(&report.after);
            (count as u32, report.given, report.rewritten, report.saved)
        });
        let shown = || format!("{} {} {prices:?}", text.escape_ascii(), list.escape_ascii());
        assert_eq!(answer, wanted, "{}", shown());
        assert!(before == wanted_before && after == wanted_after, "{}", shown());
        refused += usize::from(answer.is_err());
    }
    assert!((1_000..5_000).contains(&refused), "{refused}");
}

#[test]
fn tuned_games_are_the_plain_ones() {
    let random = &mut Random::new(102);
    let (mut refused, mut lists) = (0, 0);
    for _ in 0..20_000 {
        let size = generate::size(random);
        let program = match random.below(3) {
            0 => generate::program(random, size),
            _ => generate::game(random, size),
        };
        let text = program_text(random, &program);
        let his = generate::driver(random, &program);
        let driver = match random.below(20) {
            0 | 1 => {
                let wrong = random.pick(&WrongDriver::ALL);
                generate::wrong_driver(random, wrong, &his)
            }
            2 => generate::damage(random, &generate::driver_text(&his)),
            _ => generate::driver_text(&his),
        };
        let condition = generate::goal(random, &program);
        let condition =
            if random.chance(10) { generate::damage(random, &condition) } else { condition };
        let most = TABLE_WORDS;
        let room = random.pick(&[most, most, most, most + 1, most - 1]);
        let (mut one, mut other) = (vec![7; room], vec![7; room]);
        let (mut number, mut arm) = ([7; MOST_LINES], [8; MOST_LINES]);
        let answer = tuned::force(&text, &driver, &condition, &mut one, &mut number, &mut arm);
        let (mut wanted_number, mut wanted_arm) = ([7; MOST_LINES], [8; MOST_LINES]);
        let wanted = force(&text, &driver, &condition, &mut other).map(|forced| {
            for (at, number) in forced.number.iter().enumerate() {
                wanted_number[at] = number.unwrap_or(UNFORCED);
                wanted_arm[at] = Arm::number(forced.arm[at]);
            }
            (forced.parts, forced.satisfied, forced.first)
        });
        let shown = || format!("{program}{} {}", driver.escape_ascii(), condition.escape_ascii());
        assert_eq!(answer, wanted, "{}", shown());
        assert_eq!(one, other, "{}", shown());
        assert_eq!((number, arm), (wanted_number, wanted_arm), "{}", shown());
        refused += usize::from(answer.is_err());
        lists += usize::from(answer == Err(22));
    }
    assert!((3_000..12_000).contains(&refused) && lists > 500, "{refused} {lists}");
}

/// Paths needn't be the same: each is stepped through.
#[test]
fn tuned_paths_are_right() {
    let random = &mut Random::new(29);
    for case in 0..20_000 {
        let size = generate::size(random);
        let program = generate::program(random, size);
        let (text, parts) = (program_text(random, &program), random.between(1, 20));
        let condition = generate::condition(random, &program, parts);
        let condition =
            if random.chance(10) { generate::damage(random, &condition) } else { condition };
        let (part, statement) = (random.below(parts + 1) as u32, random.below(size + 2) as u32);
        let room = random.pick(&[PATH_WORDS, PATH_WORDS, PATH_WORDS, PATH_WORDS - 1]);
        let mut path = vec![7; room];
        let told = tuned::witness(&text, &condition, part, statement, &mut path);
        let read = if room < PATH_WORDS {
            Err(1)
        } else {
            Program::read(&text).and_then(|read| Ok((read, Condition::read(&condition)?)))
        };
        assert_eq!(told.err(), read.as_ref().err().copied(), "case {case}");
        if let (Ok(told), Ok((program, condition))) = (told, read) {
            let told = match told {
                Told::Path { length, turn } => {
                    Witnessed::Path(path[..length as usize].to_vec(), turn)
                }
                Told::None(truth) => Witnessed::None(truth),
            };
            check_witness(&program, &condition, part, statement, &told)
                .unwrap_or_else(|wrong| panic!("case {case}: {wrong}"));
        }
    }
}

#[test]
fn tuned_reasons_are_right() {
    let random = &mut Random::new(30);
    for case in 0..20_000 {
        let size = generate::size(random);
        let program = generate::program(random, size);
        let (text, count) = (program_text(random, &program), random.below(20));
        let list = marks::text(&generate::marks(random, &program, count));
        let list = if random.chance(10) { generate::damage(random, &list) } else { list };
        let line = random.below(count + 2) as u32;
        let mut path = vec![7; PATH_WORDS];
        let told = tuned::why(&text, &list, line, &mut path);
        let read = Program::read(&text).and_then(|read| Ok((read, marks::read(&list)?)));
        assert_eq!(told.err(), read.as_ref().err().copied(), "case {case}");
        if let (Ok((verdict, length, culprit)), Ok((program, list))) = (told, read) {
            let path = path[..length as usize].to_vec();
            check_why(&program, &list, line, &Because { verdict, path, culprit })
                .unwrap_or_else(|wrong| panic!("case {case}: {wrong}"));
        }
    }
}
