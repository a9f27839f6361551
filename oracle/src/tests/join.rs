//! Road and creeper joined: the cases of the change request.

use super::{lines, ran, skips, P, ZEROS};
use crate::generate::{self, Random};
use crate::join::{join, joined, run_in_turn, InTurn};
use crate::machine::{run_program, Outcome, Run, Values, VALUES};
use crate::marks::TEXT_BYTES;
use crate::pricing::OURS;
use crate::program::{Program, Statement, MOST_LINES};
use crate::tuned;

/// The answer and the joined text, by the plain and by the tuned call.
fn all_joined(road: &str, creeper: &str) -> Result<(u32, String), u8> {
    let (mut text, mut other) = ([99; TEXT_BYTES], [99; TEXT_BYTES]);
    let answer = join(road.as_bytes(), creeper.as_bytes(), &mut text);
    assert_eq!(tuned::join(road.as_bytes(), creeper.as_bytes(), &mut other), answer);
    assert_eq!(text, other);
    let (statements, bytes) = answer?;
    assert!(text[bytes as usize..].iter().all(|&byte| byte == 99));
    let text = String::from_utf8(text[..bytes as usize].to_vec()).expect("joined text is ASCII");
    Ok((statements, text))
}

/// The number that a pair is refused with, 0 if it isn't.
fn refusal(road: &str, creeper: &str) -> u8 {
    all_joined(road, creeper).err().unwrap_or(0)
}

fn text_of(road: &str, creeper: &str) -> String {
    let (statements, text) = all_joined(road, creeper).expect("the pair is joined");
    assert_eq!(statements as usize, text.lines().count());
    text
}

fn program(text: &str) -> Program {
    Program::read(text.as_bytes()).expect("a program")
}

/// The joined program stands where both in turn stand, before each step and at the end.
fn assert_in_turn(road: &Program, creeper: &Program, values: Values, input: u32, steps: u32) {
    let whole = joined(road, creeper).expect("the pair is joined");
    let mut run = Run::start(&whole, values, input);
    let mut both = InTurn::start(road, creeper, values, input);
    for k in 0..=steps {
        assert_eq!(*run.state(), both.state(), "after {k} of\n{road}\n{creeper}");
        run.step();
        both.step();
    }
}

fn ended(value: i32, steps: u32, ticks: u64) -> Outcome {
    Outcome::Ended { value, steps, kept: ZEROS, ticks }
}

/// What the seam spares: a `write` and a `read` at 4 ticks each become an assignment at 2.
const SEAM: u64 = 4 + 4 - 2;

const ROAD: &str = "read i0 / i1 := i0 + 1 / write i1";
const CREEPER: &str = "read i2 / if i2 goto 3 else 4 / i1 := i1 * i2 / write i1";

#[test]
fn two_become_one() {
    let text = text_of(&lines(ROAD), &lines(CREEPER));
    let wanted =
        "read i0 / i1 := i0 + 1 / i2 := i1 / if i2 goto 5 else 6 / i1 := i1 * i2 / write i1";
    assert_eq!(text, lines(wanted));
    // Each by itself: 5 after 3 steps; 5 times 5 after 4, with i1 as the first left it.
    assert_eq!(ran(&lines(ROAD), [0; VALUES], 4, 100), ended(5, 3, 11));
    let mut left = [0; VALUES];
    left[0] = 4;
    left[1] = 5;
    assert_eq!(ran(&lines(CREEPER), left, 5, 100), ended(25, 4, 20));
    assert_eq!(ran(&text, [0; VALUES], 4, 100), ended(25, 6, 11 + 20 - SEAM));
    assert_eq!(ran(&text, [0; VALUES], u32::MAX, 100), ended(0, 5, 16));
    for input in [0, 1, 4, u32::MAX] {
        assert_in_turn(&program(&lines(ROAD)), &program(&lines(CREEPER)), [7; VALUES], input, 20);
    }
}

#[test]
fn p_with_itself() {
    let text = text_of(P, P);
    let found: Vec<&str> = text.lines().collect();
    assert_eq!(found.len(), 15);
    assert_eq!(found[7], "i0 := i3");
    assert_eq!((found[11], found[13]), ("if i0 goto 13 else 15", "if i0 goto 11 else 15"));
    assert_eq!((found[4], found[6]), ("if i0 goto 6 else 8", "if i0 goto 4 else 8"));
    assert_eq!(ran(&text, [0; VALUES], 0, 1_000), ended(14, 37, 18 + 96 - SEAM));
    assert_eq!(ran(&text, [0; VALUES], 2, 1_000), ended(16, 51, 36 + 120 - SEAM));
    // By themselves: 7 after 6 steps, then 14 after 32; 9 after 12, then 16 after 40.
    assert_eq!(
        (ran(P, [0; VALUES], 0, 99), ran(P, [0; VALUES], 2, 99)),
        (ended(7, 6, 18), ended(9, 12, 36))
    );
    let left = |input, steps: u32| match ran(P, [0; VALUES], input, steps - 1) {
        Outcome::Spent { values, .. } => values,
        other => panic!("{other:?}"),
    };
    assert_eq!(ran(P, left(0, 6), 7, 99), ended(14, 32, 96));
    assert_eq!(ran(P, left(2, 12), 9, 99), ended(16, 40, 120));
    for input in 0..6 {
        assert_in_turn(&program(P), &program(P), [3; VALUES], input, 200);
    }
}

#[test]
fn the_seam_stores_what_is_written() {
    // An `if` of the road goes to its last statement.
    let road = "read i0 / if i0 goto 4 else 3 / i1 := 9 / write i1";
    let text = text_of(&lines(road), &lines("read i2 / write i2"));
    let wanted = "read i0 / if i0 goto 4 else 3 / i1 := 9 / i2 := i1 / write i2";
    assert_eq!(text, lines(wanted));
    let keeps_fives = |value, steps, ticks| Outcome::Ended { value, steps, kept: [5; 8], ticks };
    assert_eq!(ran(&text, [5; VALUES], 1, 9), keeps_fives(5, 4, 13));
    assert_eq!(ran(&text, [5; VALUES], 0, 9), keeps_fives(9, 5, 15));
    // The same variable: its value is stored into itself.
    let text = text_of("read i3\nwrite i3\n", "read i3\ni3 := i3 + 1\nwrite i3\n");
    assert_eq!(text, "read i3\ni3 := i3\ni3 := i3 + 1\nwrite i3\n");
    assert_eq!(ran(&text, [0; VALUES], 6, 9), ended(7, 4, 13));
    // The other way round it would be another program.
    let text = text_of("read i3\nwrite i4\n", "read i5\nwrite i5\n");
    assert_eq!(text, "read i3\ni5 := i4\nwrite i5\n");
    // The least pair.
    let text = text_of("read i0\nwrite i1\n", "read i2\nwrite i3\n");
    assert_eq!(text, "read i0\ni2 := i1\nwrite i3\n");
    // A creeper that goes back to its second statement, which is the first behind the seam.
    let text = text_of(&lines(ROAD), "read i0\ni0 := i0 - 1\nif i0 goto 2 else 4\nwrite i0\n");
    let tail = "i0 := i1\ni0 := i0 - 1\nif i0 goto 4 else 6\nwrite i0\n";
    assert_eq!(text, format!("read i0\ni1 := i0 + 1\n{tail}"));
    assert_eq!(ran(&text, [0; VALUES], 1, 99), ended(0, 8, 25));
}

/// What the road keeps is what the creeper starts with; what the whole keeps is what the creeper left.
#[test]
fn kept_values_go_on() {
    let road = program(&lines("read i0 / i24 := i24 + i0 / write i0"));
    let creeper = program(&lines("read i1 / i25 := i24 * 2 / write i1"));
    let whole = joined(&road, &creeper).expect("they are joined");
    let mut values = [0; VALUES];
    values[24] = 1;
    let kept = [5, 10, 0, 0, 0, 0, 0, 0];
    let outcome = Outcome::Ended { value: 4, steps: 5, kept, ticks: 22 };
    assert_eq!(run_program(&whole, values, 4, 99, &OURS), outcome);
    assert_in_turn(&road, &creeper, values, 4, 9);
}

#[test]
fn endless_programs() {
    let endless = "read i0\nif i1 goto 2 else 2\nwrite i0\n";
    let ends = "read i0\nwrite i0\n";
    let spent = |text: &str| match ran(text, [0; VALUES], 5, 1_000_000) {
        Outcome::Spent { statement, .. } => statement,
        other => panic!("{other:?}"),
    };
    assert_eq!(spent(&text_of(endless, ends)), 2);
    assert_eq!(spent(&text_of(ends, endless)), 3);
    assert_eq!(spent(&text_of(endless, endless)), 2);
    // A creeper's fault isn't met where the road never ends.
    assert_eq!(spent(&text_of(endless, "read i0\ni0 := 1 / 0\nwrite i0\n")), 2);
    for (road, creeper) in [(endless, ends), (ends, endless), (endless, endless)] {
        assert_in_turn(&program(road), &program(creeper), [0; VALUES], 5, 300);
    }
}

#[test]
fn faults() {
    let divides = "read i0\nskip\ni1 := 7 / i0\nwrite i1\n";
    let ends = "read i0\nwrite i0\n";
    let fault = |statement, steps, ticks| Outcome::Fault { statement, steps, ticks };
    // In the first at the same number; in the second at its new one, N - 1 further, after the sum less 1.
    assert_eq!(ran(&text_of(divides, ends), [0; VALUES], 0, 99), fault(3, 3, 29));
    assert_eq!(ran(&text_of(ends, divides), [0; VALUES], 0, 99), fault(4, 4, 31));
    assert_eq!(ran(divides, [0; VALUES], 0, 99), fault(3, 3, 29));
    // 7 / 9 is 0, by which the second divides: 4 and 3 steps less 1.
    let text = text_of(divides, divides);
    assert_eq!(ran(&text, [0; VALUES], 9, 99), fault(6, 6, 56));
    assert_eq!(ran(&text, [0; VALUES], 0, 99), fault(3, 3, 29));
    assert_eq!(ran(&text, [0; VALUES], 3, 99), ended(3, 7, 60));
    for input in [0, 3, 9, 1] {
        assert_in_turn(&program(divides), &program(divides), [0; VALUES], input, 20);
    }
}

#[test]
fn up_to_1024_statements() {
    for (n, m) in [(512, 513), (513, 512), (2, 1_023), (1_023, 2)] {
        assert_eq!(text_of(&skips(n), &skips(m)).lines().count(), 1_024);
    }
    // Those that an earlier release refused.
    assert_eq!(text_of(&skips(129), &skips(129)).lines().count(), 257);
    for (n, m) in [(513, 513), (1_024, 2), (2, 1_024), (1_024, 1_024), (1_023, 3), (3, 1_023)] {
        assert_eq!(refusal(&skips(n), &skips(m)), 21, "{n} {m}");
    }
}

#[test]
fn refusals_in_order() {
    let (good, wrong) = ("read i0\nwrite i0\n", "rubbish");
    let bad = [
        ("rubbish", 2),
        ("", 3),
        ("read i0\nskip\n", 4),
        ("read i0\nif i0 goto 9 else 2\nwrite i0\n", 5),
    ];
    for (text, number) in bad {
        assert_eq!(refusal(text, good), number);
        assert_eq!(refusal(good, text), number);
        // Of two bad texts the road's number is told.
        for (other, _) in bad {
            assert_eq!(refusal(text, other), number);
        }
        // A creeper that isn't taken, with too many statements.
        assert_eq!(refusal(&skips(MOST_LINES), text), number);
        assert_eq!(refusal(text, &skips(MOST_LINES)), number);
    }
    assert_eq!(refusal(&skips(MOST_LINES), &(skips(MOST_LINES) + "x")), 2);
    assert_eq!(refusal(&skips(MOST_LINES + 1), &skips(MOST_LINES)), 3);
    // 1 comes before all.
    for room in [0, 8_704, TEXT_BYTES - 1] {
        for (road, creeper) in [(good, good), (wrong, good), (good, wrong)] {
            let mut text = vec![7; room];
            assert_eq!(join(road.as_bytes(), creeper.as_bytes(), &mut text), Err(1));
            assert_eq!(tuned::join(road.as_bytes(), creeper.as_bytes(), &mut text), Err(1));
            assert!(text.iter().all(|&byte| byte == 7));
        }
    }
    // A refused call keeps the text.
    let mut text = [7; TEXT_BYTES];
    assert_eq!(join(skips(MOST_LINES).as_bytes(), good.as_bytes(), &mut text), Err(21));
    assert_eq!(tuned::join(skips(MOST_LINES).as_bytes(), good.as_bytes(), &mut text), Err(21));
    assert!(text.iter().all(|&byte| byte == 7));
}

/// The joined text by the lines alone, words put for words.
fn by_lines(road: &str, creeper: &str) -> String {
    let first: Vec<&str> = road.lines().collect();
    let further = first.len() - 1;
    let x = first[further].strip_prefix("write ").expect("the last line");
    let mut text: String = first[..further].iter().map(|line| format!("{line}\n")).collect();
    for (at, line) in creeper.lines().enumerate() {
        let words: Vec<&str> = line.split(' ').collect();
        let moved = |word: &str| word.parse::<usize>().expect("a target") + further;
        text += &match words.as_slice() {
            ["read", y] if at == 0 => format!("{y} := {x}\n"),
            ["if", tested, "goto", n, "else", m] => {
                format!("if {tested} goto {} else {}\n", moved(n), moved(m))
            }
            _ => format!("{line}\n"),
        };
    }
    text
}

/// What random pairs met.
#[derive(Debug, Default)]
struct Met {
    joined: usize,
    refused: usize,
    of_most: usize,
    of_more: usize,
    above_256: usize,
    same_variable: usize,
    onto_seam: usize,
    both_ended: usize,
    road_endless: usize,
    creeper_endless: usize,
    road_fault: usize,
    creeper_fault: usize,
}

#[test]
fn random_pairs_run_in_turn() {
    let random = &mut Random::new(90);
    let mut met = Met::default();
    for _ in 0..6_000 {
        let [road, creeper] = generate::road_and_creeper(random);
        let (n, m) = (road.count(), creeper.count());
        let texts = [road.to_string(), creeper.to_string()];
        let answer = all_joined(&texts[0], &texts[1]);
        met.of_more += usize::from(n + m - 1 == MOST_LINES as u32 + 1);
        let (statements, text) = match answer {
            Ok(answer) => answer,
            Err(number) => {
                assert_eq!((number, n + m - 1 > MOST_LINES as u32), (21, true));
                met.refused += 1;
                continue;
            }
        };
        assert_eq!((statements, &text), (n + m - 1, &by_lines(&texts[0], &texts[1])));
        met.joined += 1;
        met.of_most += usize::from(statements == MOST_LINES as u32);
        met.above_256 += usize::from(statements > 256);
        let seam = (road.statements()[n as usize - 1], creeper.statements()[0]);
        met.same_variable +=
            usize::from(matches!(seam, (Statement::Write(x), Statement::Read(y)) if x == y));
        let goes = |statement: &Statement| matches!(statement, Statement::Branch { then, other, .. } if *then == n || *other == n);
        met.onto_seam += usize::from(road.statements().iter().any(goes));
        let whole = program(&text);
        for _ in 0..3 {
            let (values, input) = (generate::values(random), generate::word(random));
            assert_in_turn(&road, &creeper, values, input, 300);
            // Under budgets that suffice, in terms of both runs' answers.
            const LONG: u32 = 2_000;
            let first = run_program(&road, values, input, LONG, &OURS);
            let found = run_program(&whole, values, input, 2 * LONG, &OURS);
            assert_eq!(found, run_in_turn(&road, &creeper, values, input, 2 * LONG, &OURS));
            match first {
                Outcome::Fault { .. } => {
                    assert_eq!(found, first);
                    met.road_fault += 1;
                }
                Outcome::Spent { .. } => met.road_endless += 1,
                Outcome::Ended { value, steps, ticks, .. } => {
                    let left = match run_program(&road, values, input, steps - 1, &OURS) {
                        Outcome::Spent { values, .. } => values,
                        other => panic!("{other:?}"),
                    };
                    match run_program(&creeper, left, value as u32, LONG, &OURS) {
                        Outcome::Ended { value, steps: more, kept, ticks: later } => {
                            let (steps, ticks) = (steps + more - 1, ticks + later - SEAM);
                            assert_eq!(found, Outcome::Ended { value, steps, kept, ticks });
                            met.both_ended += 1;
                        }
                        Outcome::Fault { statement, steps: more, ticks: later } => {
                            let (statement, steps) = (statement + n - 1, steps + more - 1);
                            let ticks = ticks + later - SEAM;
                            assert_eq!(found, Outcome::Fault { statement, steps, ticks });
                            met.creeper_fault += 1;
                        }
                        Outcome::Spent { .. } => met.creeper_endless += 1,
                    }
                }
            }
        }
    }
    println!("{met:?}");
    assert!(met.joined > 4_000 && met.refused > 50 && met.of_most > 10 && met.of_more > 10);
    assert!(met.above_256 > 100);
    assert!(met.same_variable > 800 && met.onto_seam > 1_000 && met.both_ended > 3_000);
    assert!(met.road_endless > 1_000 && met.creeper_endless > 500);
    assert!(met.road_fault > 500 && met.creeper_fault > 300);
}

#[test]
fn tuned_joins_are_the_plain_ones() {
    let random = &mut Random::new(91);
    let mut refusals = [0; 22];
    for _ in 0..20_000 {
        let mut texts = generate::road_and_creeper(random).map(|program| program.text());
        for text in &mut texts {
            match random.below(16) {
                0 => *text = generate::statement_soup(random),
                1 | 2 => *text = generate::damage(random, text),
                _ => {}
            }
        }
        let room = random.pick(&[
            TEXT_BYTES,
            TEXT_BYTES,
            TEXT_BYTES,
            TEXT_BYTES,
            TEXT_BYTES + 296,
            TEXT_BYTES - 1,
            8_704,
        ]);
        let (mut one, mut other) = (vec![7; room], vec![7; room]);
        let answer = join(&texts[0], &texts[1], &mut one);
        assert_eq!(tuned::join(&texts[0], &texts[1], &mut other), answer);
        assert_eq!(one, other, "{} {}", texts[0].escape_ascii(), texts[1].escape_ascii());
        refusals[usize::from(answer.err().unwrap_or(0))] += 1;
    }
    println!("{refusals:?}");
    assert!([0, 1, 2, 3, 4, 5, 21].iter().all(|&number| refusals[number] > 10));
}
