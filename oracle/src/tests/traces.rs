//! Traces side by side: the cases of the change request.

use super::{all_judged, lines, naive};
use crate::condition::{Checker, Condition};
use crate::desk;
use crate::generate::{self, Random};
use crate::liveness::{agrees, differing, first_disagreement, Liveness};
use crate::machine::{Run, State, Values, VALUES};
use crate::marks::{self, Judge, Kind, Mark};
use crate::program::{is_kept, Program, Statement, VARIABLES};
use crate::steps::Steps;

fn program(statements: &str) -> Program {
    Program::read(lines(statements).as_bytes()).expect("a program")
}

/// The condition of a live variable.
fn condition(x: u8) -> Condition {
    let text = format!("E[!def(i{x}) U use(i{x})]");
    Condition::read(text.as_bytes()).expect("a condition is well spelled")
}

/// The live variables before each statement.
fn live(program: &Program) -> Vec<Vec<u8>> {
    let live = Liveness::new(program);
    let at = |n| (0..VARIABLES).filter(|&x| live.is_live(n, x)).collect();
    (1..=program.count()).map(at).collect()
}

/// The variables that the unit keeps are live to the end where nothing sets them.
fn with_kept(shown: &[u8]) -> Vec<u8> {
    [shown, &[24, 25, 26, 27, 28, 29, 30, 31]].concat()
}

#[test]
fn what_may_be_used_before_it_is_defined_is_live() {
    let given = program("read i0 / i1 := i0 + 1 / i2 := 5 / i1 := i1 * i2 / i2 := i2 / write i1");
    let expected: [&[u8]; 6] = [&[], &[0], &[1], &[1, 2], &[1, 2], &[1]];
    assert_eq!(live(&given), expected.map(with_kept));
    // A use and a definition of one statement: the use comes first.
    let given = program("read i0 / i0 := i0 - 1 / i0 := 3 / write i0");
    let expected: [&[u8]; 4] = [&[], &[0], &[], &[0]];
    assert_eq!(live(&given), expected.map(with_kept));
    // Some path is enough, and an arm that comes back here is one.
    let given =
        program("read i0 / if i0 goto 3 else 5 / i2 := i1 / if i2 goto 2 else 5 / write i0");
    let expected: [&[u8]; 5] = [&[1], &[0, 1], &[0, 1], &[0, 1, 2], &[0]];
    assert_eq!(live(&given), expected.map(with_kept));
    // An endless loop uses nothing, and what is kept isn't told behind it.
    let given = program("read i0 / i24 := i1 / if i2 goto 3 else 3 / write i0");
    assert_eq!(live(&given), [vec![1, 2], vec![1, 2], vec![2], with_kept(&[0])]);
    // Unreachable statements have live variables too.
    let given = program("read i0 / if i0 goto 4 else 4 / i1 := i2 / write i1");
    let expected: [&[u8]; 4] = [&[1], &[0, 1], &[2], &[1]];
    assert_eq!(live(&given), expected.map(with_kept));
}

/// The kept gears count at `write`; a gear that one arm sets is live before the other.
#[test]
fn kept_gears_are_live_to_the_end() {
    let given = program("read i0 / if i0 goto 3 else 4 / i24 := i0 / i25 := 1 / write i1");
    let found = live(&given);
    let is_live = |n: usize, x| found[n - 1].contains(&x);
    assert_eq!([1, 2, 3, 4, 5].map(|n| is_live(n, 24)), [true, true, false, true, true]);
    assert_eq!([1, 2, 3, 4, 5].map(|n| is_live(n, 25)), [false, false, false, false, true]);
    assert_eq!([1, 2, 3, 4, 5].map(|n| is_live(n, 23)), [false; 5]);
    assert_eq!([1, 2, 3, 4, 5].map(|n| is_live(n, 31)), [true; 5]);
}

/// The sets are those at which the condition of a live variable is true: by search on programs of each size, by
/// fixpoints and by all paths on small ones.
#[test]
fn sets_are_as_the_condition_says() {
    let random = &mut Random::new(140);
    let (mut live_places, mut dead_places, mut after_a_loop) = (0, 0, 0);
    for case in 0..3_000 {
        let size = if case % 3 == 0 { random.between(2, 7) } else { generate::size(random) };
        let given = generate::program(random, size);
        let (live, steps) = (Liveness::new(&given), Steps::new(&given));
        let few = if size > 40 { random.pick(&[0, 8, 16, 24])..VARIABLES } else { 0..VARIABLES };
        for x in few.take(if size > 40 { 8 } else { 64 }) {
            let condition = condition(x);
            let mut checker = Checker::new(&given, &steps, &condition);
            for n in 1..=given.count() {
                let is_live = live.is_live(n, x);
                assert_eq!(checker.whole_holds(n as usize - 1), is_live, "i{x} at {n} of\n{given}");
                live_places += usize::from(is_live);
                dead_places += usize::from(!is_live);
            }
        }
        if size < 8 {
            for x in 0..VARIABLES {
                let sets =
                    [naive::by_fixpoints, naive::by_paths].map(|by| by(&given, &condition(x)));
                let found: Vec<bool> = (1..=given.count()).map(|n| live.is_live(n, x)).collect();
                sets.iter().for_each(|sets| assert_eq!(sets.last(), Some(&found), "i{x}\n{given}"));
            }
        }
        // A step back to an earlier statement at which something is live that isn't used until the step.
        after_a_loop += given
            .statements()
            .iter()
            .filter(|statement| matches!(statement, Statement::Branch { then, .. } if *then < 4))
            .count();
    }
    println!("{live_places} {dead_places} {after_a_loop}");
    assert!(live_places > 100_000 && dead_places > 100_000 && after_a_loop > 1_000);
}

// The cases of the request

/// A run's values before each step, with the statements.
fn trace(program: &Program, values: Values, input: u32) -> Vec<(u32, Values)> {
    let mut run = Run::start(program, values, input);
    let mut steps = Vec::new();
    while let State::Before { statement, values } = *run.state() {
        steps.push((statement, values));
        run.step();
    }
    steps
}

/// The rewritten program of a list that is accepted whole.
fn made(given: &str, list: &str) -> Program {
    let (verdicts, new) = all_judged(&lines(given), &lines(list));
    assert!(verdicts.iter().all(|&verdict| verdict == 0), "{verdicts:?} {list}");
    Program::read(new.as_bytes()).expect("a rewritten program")
}

#[test]
fn a_sum_and_a_dropped_product() {
    let given = "read i0 / i1 := i0 + 1 / i5 := i0 * 2 / i2 := i0 + 1 / i5 := i2 / write i5";
    let list = "4: mark(cse, i1, i0 + 1) / 3: mark(rm, i5, i0 * 2)";
    let (one, other) = (program(given), made(given, list));
    assert_eq!(other, program("read i0 / i1 := i0 + 1 / skip / i2 := i1 / i5 := i2 / write i5"));
    let (a, b) = (trace(&one, [0; VALUES], 4), trace(&other, [0; VALUES], 4));
    let fives =
        |trace: &[(u32, Values)]| -> Vec<u32> { trace.iter().map(|step| step.1[5]).collect() };
    assert_eq!((fives(&a), fives(&b)), (vec![0, 0, 0, 8, 8, 5], vec![0, 0, 0, 0, 0, 5]));
    let live = Liveness::new(&one);
    assert_eq!(
        [1, 2, 3, 4, 5, 6].map(|n| live.is_live(n, 5)),
        [false, false, false, false, false, true]
    );
    for (one, other) in a.iter().zip(&b) {
        let wanted: &[u8] = if matches!(one.0, 4 | 5) { &[5] } else { &[] };
        assert_eq!(differing(&one.1, &other.1), wanted);
    }
    assert_eq!(first_disagreement(&one, &other, [0; VALUES], 4, 100), None);
    let compared = desk::compare(lines(given).as_bytes(), lines(list).as_bytes(), b"4\n100\n");
    let zeros = " 0".repeat(8);
    let ended = |ticks| format!("ended 5 steps 6 ticks {ticks} kept{zeros}\n");
    assert!(compared.ends_with(&format!(
        "given {}rewritten {}statements, outcome and live variables agree\n",
        ended(25),
        ended(16)
    )));
    assert_eq!(compared.matches("  i5       8            0          \n").count(), 2);
}

/// Both fault; the variable that differs before is dead.
#[test]
fn a_pair_that_faults() {
    let given = "read i0\ni3 := 9\ni1 := i2 - i2\ni4 := i0 / i1\ni3 := i4\nwrite i3\n";
    let list = "2: mark(rm, i3, 9)\n";
    let (verdicts, new) = all_judged(given, list);
    assert_eq!(verdicts, [0]);
    let [one, other] = [given, &new].map(|text| Program::read(text.as_bytes()).expect("a program"));
    assert_eq!(first_disagreement(&one, &other, [7; VALUES], 5, 100), None);
    let (a, b) = (trace(&one, [7; VALUES], 5), trace(&other, [7; VALUES], 5));
    let last = |trace: &[(u32, Values)]| *trace.last().expect("a step");
    assert_eq!((last(&a).0, last(&b).0), (4, 4));
    assert_eq!(differing(&last(&a).1, &last(&b).1), [3]);
    assert!(!Liveness::new(&one).is_live(4, 3));
    let compared = desk::compare(given.as_bytes(), list.as_bytes(), b"5\n100\n");
    assert!(compared.ends_with(
        "given fault at 4 steps 4 ticks 33\nrewritten fault at 4 steps 4 ticks 32\n\
         statements, outcome and live variables agree\n"
    ));
}

/// i24 is set on one arm only, so it is live on the other; where it is set again it isn't, and may differ.
#[test]
fn a_kept_gear_set_on_one_arm() {
    let given = "read i0 / i24 := i0 + 1 / if i0 goto 4 else 5 / i24 := 3 / write i0";
    let (verdicts, _) = all_judged(&lines(given), "2: mark(rm, i24, i0 + 1)\n");
    assert_eq!(verdicts, [14]);
    // Made all the same, the arm that doesn't set it shows it at once, before `write`.
    let wrong = program(&given.replacen("i24 := i0 + 1", "skip", 1));
    assert_eq!(first_disagreement(&program(given), &wrong, [7; VALUES], 1, 100), Some(2));
    assert_eq!(first_disagreement(&program(given), &wrong, [7; VALUES], 0, 100), Some(2));
    // Set on both arms it is dead before them.
    let given = "read i0 / i24 := i0 + 1 / if i0 goto 4 else 6 / i24 := 3 / if i0 goto 7 else 7 / i24 := i0 / write i0";
    let (one, other) = (program(given), made(given, "2: mark(rm, i24, i0 + 1)"));
    for input in [0, 1, 9] {
        assert_eq!(first_disagreement(&one, &other, [7; VALUES], input, 100), None);
        let (a, b) = (trace(&one, [7; VALUES], input), trace(&other, [7; VALUES], input));
        let differ: Vec<bool> = a.iter().zip(&b).map(|(a, b)| a.1 != b.1).collect();
        let wanted: &[bool] = match input {
            0 => &[false, false, true, true, false],
            _ => &[false, false, true, true, false, false],
        };
        assert_eq!(differ, wanted);
    }
}

/// The copy is made before the loop, its uses in it are replaced, and the copy stays: it is used in the given program.
#[test]
fn a_copy_before_a_loop() {
    let given = "read i0 / i1 := i2 / i6 := 1 / i3 := i3 + i1 / i6 := i3 * i1 / i0 := i0 - i1 / if i0 goto 4 else 8 / write i3";
    let list = "4: mark(rpl, i1, i2) / 5: mark(rm, i6, i3 * i1) / 3: mark(rm, i6, 1) / 6: mark(rpl, i1, i2)";
    let (one, other) = (program(given), made(given, list));
    let mut values = [0; VALUES];
    values[2] = 2;
    assert_eq!(first_disagreement(&one, &other, values, 8, 1_000), None);
    let (a, b) = (trace(&one, values, 8), trace(&other, values, 8));
    assert_eq!((a.len(), b.len()), (3 + 4 * 4 + 1, 3 + 4 * 4 + 1));
    let live = Liveness::new(&one);
    let mut met = 0;
    for (one, other) in a.iter().zip(&b) {
        let differ = differing(&one.1, &other.1);
        assert!(differ.iter().all(|&x| x == 6 && !live.is_live(one.0, x)));
        met += differ.len();
    }
    assert_eq!(met, a.len() - 3);
}

/// What is live in the given program decides, before this step: neither all variables, nor those of the next statement.
#[test]
fn other_readings_disagree() {
    let given = "read i0 / i5 := i0 / i5 := 7 / write i5";
    let (one, other) = (program(given), made(given, "2: mark(rm, i5, i0)"));
    let (a, b) = (trace(&one, [0; VALUES], 4), trace(&other, [0; VALUES], 4));
    assert_eq!(differing(&a[2].1, &b[2].1), [5]);
    let live = Liveness::new(&one);
    assert!(!live.is_live(3, 5) && live.is_live(4, 5));
    // Agreement with the other run a step later.
    let state = |step: &(u32, Values)| State::Before { statement: step.0, values: step.1 };
    assert!(agrees(&live, &state(&a[2]), &state(&b[2])));
    assert!(!agrees(&live, &state(&a[2]), &state(&b[3])));
}

// Random lists

/// What random lists met: steps before which variables differ, all of them dead.
#[derive(Debug, Default)]
struct Met {
    three_kinds: usize,
    steps: usize,
    differ: usize,
    kept_differ: usize,
    before_fault: usize,
    before_write: usize,
    wrong_shown: usize,
}

fn kinds(list: &[Mark], verdicts: &[u8]) -> [bool; 3] {
    let made = |kind: fn(&Kind) -> bool| {
        list.iter().zip(verdicts).any(|(mark, &verdict)| verdict == 0 && kind(&mark.kind))
    };
    [
        made(|kind| matches!(kind, Kind::Remove(_))),
        made(|kind| matches!(kind, Kind::Replace(_))),
        made(|kind| matches!(kind, Kind::Reuse(_))),
    ]
}

#[test]
fn live_variables_of_random_lists_agree_before_each_step() {
    let random = &mut Random::new(141);
    let mut met = Met::default();
    for _ in 0..4_000 {
        let size = generate::size(random).min(120);
        let given = generate::program(random, size);
        let count = random.between(1, size.min(40));
        let list = generate::marks(random, &given, count);
        let verdicts = Judge::new(&given).verdicts(&list);
        let rewritten = marks::rewritten(&given, &list, &verdicts);
        met.three_kinds += usize::from(kinds(&list, &verdicts) == [true; 3]);
        let live = Liveness::new(&given);
        for _ in 0..3 {
            let (values, input) = (generate::values(random), generate::word(random));
            let mut a = Run::start(&given, values, input);
            let mut b = Run::start(&rewritten, values, input);
            for _ in 0..300 {
                let (one, other) = (*a.state(), *b.state());
                assert!(agrees(&live, &one, &other), "{given}{rewritten}");
                a.step();
                b.step();
                let (statement, one, other) = match (one, other) {
                    (
                        State::Before { statement, values: one },
                        State::Before { values: other, .. },
                    ) => (statement, one, other),
                    _ => break,
                };
                met.steps += 1;
                let differ = differing(&one, &other);
                if differ.is_empty() {
                    continue;
                }
                met.differ += 1;
                met.kept_differ += usize::from(differ.iter().any(|&x| is_kept(x)));
                met.before_fault += usize::from(matches!(a.state(), State::Faulted { .. }));
                met.before_write += usize::from(statement == given.count());
            }
        }
        // With one refused mark made all the same, live variables often differ.
        if let Some((mark, _)) = list.iter().zip(&verdicts).find(|(_, &verdict)| verdict == 14) {
            let wrong = marks::rewritten(&given, &[*mark], &[0]);
            met.wrong_shown += usize::from((0..4).any(|_| {
                let (values, input) = (generate::values(random), generate::word(random));
                first_disagreement(&given, &wrong, values, input, 300).is_some()
            }));
        }
    }
    println!("{met:?}");
    assert!(met.three_kinds > 100 && met.steps > 50_000 && met.differ > 10_000);
    assert!(met.kept_differ > 100 && met.before_fault > 100 && met.before_write > 500);
    assert!(met.wrong_shown > 300);
}
