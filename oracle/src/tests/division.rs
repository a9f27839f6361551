//! Division, and runs that it ends by a fault: the cases of the change request.

use super::constants::{list_refusal, refusals_of_right_side};
use super::{all_judged, ran, table, ZEROS};
use crate::check::check;
use crate::condition::Checker;
use crate::desk;
use crate::generate::{self, Random};
use crate::machine::{
    first_difference, run_program, same_place, Outcome, Run, State, Values, VALUES,
};
use crate::marks::{self, Judge, Kind, Mark};
use crate::pricing::OURS;
use crate::program::{Expression, Operand, Operator, Program, Statement, LARGEST, LEAST};
use crate::steps::Steps;

/// The text of these statements.
fn text(statements: &[&str]) -> String {
    statements.iter().map(|statement| format!("{statement}\n")).collect()
}

fn fault(statement: u32, steps: u32, ticks: u64) -> Outcome {
    Outcome::Fault { statement, steps, ticks }
}

#[test]
fn a_slash_stands_where_the_other_operators_do() {
    for right in [
        "i0 / i1",
        "i63 / i63",
        "1 / 2",
        "i0 / 0",
        "0 / i0",
        "-7 / -2",
        "i0 / -1",
        "-2147483648 / -2147483648",
        "2147483647 / 2147483647",
    ] {
        assert_eq!(refusals_of_right_side(right), [0; 4], "{right}");
    }
}

#[test]
fn other_slashes_are_misspelled() {
    for right in [
        "i0 / i1 / i2",
        "i0/i1",
        "i0 /i1",
        "i0/ i1",
        "/ i1",
        " / i1",
        "/i1",
        "/",
        " / ",
        "i0 /",
        "i0 / ",
        "i0 // i1",
        "i0 / / i1",
        "i0  / i1",
        "i0 /  i1",
        "i0 / i1 ",
        "i0 / i1/",
        "i0 / i1 + i2",
        "i0 + i1 / i2",
        "i0 / -0",
        "i0 / +1",
        "i0 / - 1",
        "i0 /- 1",
        "i0 / --1",
        "i0 / -i1",
        "i0 / i64",
        "i0 / 01",
        "i0 / 2147483648",
        "i0 / -2147483649",
        "i0 \\ i1",
        "i0 % i1",
        "i0 : i1",
        "i0 \u{f7} i1",
        "i0 \u{2215} i1",
        "(i0 / i1)",
        "i0 /\ti1",
    ] {
        assert_eq!(refusals_of_right_side(right), [2, 7, 7, 9], "{right}");
    }
    // `rpl` takes an operand only.
    for right in ["i0 / i2", "1 / 1", "i0 /", "/ 2"] {
        assert_eq!(list_refusal(&format!("2: mark(rpl, i1, {right})\n")), 9, "{right}");
    }
}

/// What a division of two numbers ends a run with, each operand a constant or a variable.
fn quotient(a: i32, b: i32) -> Outcome {
    let mut values = [0; VALUES];
    (values[1], values[2]) = (a as u32, b as u32);
    let (one, other) = (a.to_string(), b.to_string());
    let mut outcomes = Vec::new();
    for x in ["i1", &one] {
        for y in ["i2", &other] {
            let program = text(&["read i0", &format!("i3 := {x} / {y}"), "write i3"]);
            outcomes.push(ran(&program, values, 5, 9));
        }
    }
    assert!(outcomes.iter().all(|outcome| *outcome == outcomes[0]), "{a} / {b}: {outcomes:?}");
    outcomes[0]
}

#[test]
fn quotients_are_signed_and_rounded_toward_zero() {
    for (a, b, expected) in [
        (7, 2, 3),
        (-7, 2, -3),
        (7, -2, -3),
        (-7, -2, 3),
        (-1, 2, 0),
        (1, -2, 0),
        (i32::MIN, -1, i32::MIN),
        (i32::MIN, 1, i32::MIN),
        (i32::MIN, i32::MAX, -1),
        (i32::MIN, i32::MIN, 1),
        (1, i32::MIN, 0),
        (i32::MAX, -1, -i32::MAX),
        (i32::MAX, i32::MIN, 0),
        (i32::MAX, i32::MAX, 1),
        (i32::MIN, 2, -1_073_741_824),
        (i32::MIN + 1, -1, i32::MAX),
        (-2, i32::MAX, 0),
        (0, -5, 0),
        (-1, -1, 1),
        (100, 7, 14),
    ] {
        let ended = Outcome::Ended { value: expected, steps: 3, kept: ZEROS, ticks: 32 };
        assert_eq!(quotient(a, b), ended, "{a} / {b}");
    }
}

/// The remainder is nearer to 0 than the divisor, and 0 or of the dividend's sign.
#[test]
fn quotients_leave_a_remainder_of_the_dividends_sign() {
    let random = &mut Random::new(50);
    let edges = [i32::MIN, i32::MIN + 1, -7, -2, -1, 0, 1, 2, 3, 7, i32::MAX - 1, i32::MAX];
    let mut pairs: Vec<(i32, i32)> = Vec::new();
    edges.iter().for_each(|&a| pairs.extend(edges.iter().map(|&b| (a, b))));
    pairs.extend((0..4_000).map(|_| {
        let shift = random.below(32);
        (generate::word(random) as i32, generate::word(random) as i32 >> shift)
    }));
    for (a, b) in pairs {
        match quotient(a, b) {
            Outcome::Ended { value, .. } if (a, b) == (i32::MIN, -1) => assert_eq!(value, i32::MIN),
            Outcome::Ended { value, .. } => {
                let rest = i64::from(a) - i64::from(value) * i64::from(b);
                assert!(rest.abs() < i64::from(b).abs(), "{a} / {b} = {value}");
                assert!(rest == 0 || (rest < 0) == (a < 0), "{a} / {b} = {value}");
            }
            outcome => assert_eq!((outcome, b), (fault(2, 2, 28), 0), "{a} / {b}"),
        }
    }
}

#[test]
fn a_zero_divisor_ends_the_run() {
    for a in [5, 0, -5, i32::MIN, i32::MAX] {
        assert_eq!(quotient(a, 0), fault(2, 2, 28), "{a} / 0");
    }
    let program = text(&["read i0", "i1 := 10 / i0", "write i1"]);
    let values: Values = std::array::from_fn(|x| 1000 + x as u32);
    let mut left = values;
    assert_eq!(ran(&program, values, 0, 0), Outcome::Spent { statement: 1, values, ticks: 0 });
    left[0] = 0;
    let spent = Outcome::Spent { statement: 2, values: left, ticks: 4 };
    assert_eq!(ran(&program, values, 0, 1), spent);
    for budget in [2, 3, 4, 1_000_000] {
        assert_eq!(ran(&program, values, 0, budget), fault(2, 2, 28), "budget {budget}");
    }
    assert!(matches!(ran(&program, values, 4, 3), Outcome::Ended { value: 2, steps: 3, .. }));
}

#[test]
fn steps_are_counted_up_to_the_fault() {
    // Two rounds of three steps end with i0 = 0.
    let program =
        text(&["read i0", "i1 := 10 / i0", "i0 := i0 - 1", "if i1 goto 2 else 2", "write i1"]);
    assert_eq!(ran(&program, [0; VALUES], 2, 100), fault(2, 8, 88));
    assert_eq!(ran(&program, [0; VALUES], 2, 8), fault(2, 8, 88));
    assert!(matches!(ran(&program, [0; VALUES], 2, 7), Outcome::Spent { statement: 2, .. }));
    // What no step reaches doesn't fault.
    let past =
        text(&["read i0", "if i0 goto 4 else 3", "i1 := 1 / 0", "i2 := i1 / i1", "write i0"]);
    assert_eq!(ran(&past, [0; VALUES], 0, 100), fault(3, 3, 31));
    assert_eq!(ran(&past, [0; VALUES], 1, 100), fault(4, 3, 31));
    let mut values = [0; VALUES];
    values[1] = 9;
    assert!(matches!(ran(&past, values, 1, 100), Outcome::Ended { value: 1, steps: 4, .. }));
}

#[test]
fn a_run_stays_at_its_fault() {
    let program = text(&["read i0", "i1 := i2 / i3", "write i1"]);
    let program = Program::read(program.as_bytes()).expect("a program");
    let mut run = Run::start(&program, [7; VALUES], 0);
    assert!(matches!(*run.state(), State::Before { statement: 1, .. }));
    let mut values = [7; VALUES];
    values[3] = 0;
    let mut faulting = Run::start(&program, values, 0);
    faulting.step();
    faulting.step();
    for _ in 0..3 {
        assert_eq!(*faulting.state(), State::Faulted { statement: 2 });
        faulting.step();
    }
    // It has not ended, and stands before no statement.
    for _ in 0..4 {
        assert!(!same_place(run.state(), faulting.state()));
        run.step();
    }
    assert!(same_place(&State::Faulted { statement: 2 }, faulting.state()));
    assert!(!same_place(&State::Faulted { statement: 3 }, faulting.state()));
}

/// The verdict of one mark.
fn verdict(program: &[&str], mark: &str) -> u8 {
    let (verdicts, new) = all_judged(&text(program), &format!("{mark}\n"));
    assert_eq!(verdicts.len(), 1);
    assert_eq!(verdicts[0] == 0, new != text(program), "{mark}");
    verdicts[0]
}

#[test]
fn a_division_is_dropped_only_by_a_constant_other_than_0() {
    let unused = |right: &str| {
        let program = ["read i0", &format!("i1 := {right}"), "write i0"];
        verdict(&program, &format!("2: mark(rm, i1, {right})"))
    };
    let written = |right: &str| {
        let program = ["read i0", &format!("i1 := {right}"), "write i1"];
        verdict(&program, &format!("2: mark(rm, i1, {right})"))
    };
    for right in ["i0 / i2", "i0 / 0", "0 / 0", "1 / i1", "i2 / i2", "5 / i0"] {
        assert_eq!((unused(right), written(right)), (18, 18), "{right}");
    }
    for right in
        ["i0 / 2", "i0 / -1", "i0 / 1", "0 / 7", "i0 / -2147483648", "-2147483648 / 2147483647"]
    {
        assert_eq!((unused(right), written(right)), (0, 14), "{right}");
    }
    // Other operators have values with any operands.
    for right in ["i0 * 0", "i0 - i2", "0 < 0", "i0 = i2", "i0 + 0", "i2", "0"] {
        assert_eq!((unused(right), written(right)), (0, 14), "{right}");
    }
}

#[test]
fn verdict_18_stands_between_13_and_14() {
    let program = ["read i0", "i1 := i0 / i2", "skip", "write i0"];
    for unfit in [
        "2: mark(rm, i1, i0 / i3)",
        "2: mark(rm, i1, i2 / i0)",
        "2: mark(rm, i3, i0 / i2)",
        "2: mark(rm, i1, i0 / 0)",
        "2: mark(rm, i1, i0 * i2)",
        "3: mark(rm, i1, i0 / i2)",
        "1: mark(rm, i0, i0 / 0)",
        "4: mark(rm, i0, 0 / 0)",
    ] {
        assert_eq!(verdict(&program, unfit), 13, "{unfit}");
    }
    assert_eq!(verdict(&program, "5: mark(rm, i1, i0 / i2)"), 11);
    assert_eq!(verdict(&program, "0: mark(rm, i1, i0 / i2)"), 11);
    let list = "2: mark(rm, i1, i0 / i2)\n2: mark(rm, i1, i0 / i2)\n2: mark(rm, i1, 1)\n\
                2: mark(rpl, i0, i3)\n5: mark(rm, i1, i0 / 0)\n";
    assert_eq!(all_judged(&text(&program), list), (vec![18, 12, 12, 12, 11], text(&program)));
    // Where nothing leads to the division, too.
    let unreachable = ["read i0", "if i0 goto 4 else 4", "i1 := i0 / 0", "write i0"];
    assert_eq!(verdict(&unreachable, "3: mark(rm, i1, i0 / 0)"), 18);
    // A kept variable is used at `write`, which 18 comes before.
    let kept = ["read i0", "i24 := i0 / i1", "i25 := i0 / 3", "write i0"];
    assert_eq!(verdict(&kept, "2: mark(rm, i24, i0 / i1)"), 18);
    assert_eq!(verdict(&kept, "3: mark(rm, i25, i0 / 3)"), 14);
}

#[test]
fn replacing_in_a_division_is_as_in_any_expression() {
    let program = text(&["read i0", "i1 := 0", "i2 := i0 / i1", "write i2"]);
    let (verdicts, new) = all_judged(&program, "3: mark(rpl, i1, 0)\n2: mark(rm, i1, 0)\n");
    assert_eq!((verdicts, &new), (vec![0, 14], &program.replace("i0 / i1", "i0 / 0")));
    for budget in [3, 4, 100] {
        assert_eq!(ran(&program, [0; VALUES], 5, budget), fault(3, 3, 30));
        assert_eq!(ran(&new, [0; VALUES], 5, budget), fault(3, 3, 30));
    }
    // `rpl` never gets 18.
    let program = text(&["read i0", "i1 := i3", "i2 := i1 / i1", "write i2"]);
    let (verdicts, new) = all_judged(&program, "3: mark(rpl, i1, i3)\n");
    assert_eq!((verdicts, new), (vec![0], program.replace("i1 / i1", "i3 / i3")));
    assert_eq!(all_judged(&program, "3: mark(rpl, i1, 0)\n").0, [14]);
    assert_eq!(all_judged(&program, "3: mark(rpl, i0, 0)\n").0, [13]);
}

#[test]
fn conditions_take_a_division_as_any_assignment() {
    let program = text(&["read i0", "i1 := i0 / 0", "i2 := 1", "write i2"]);
    for (condition, word) in [
        ("EX node(3)", 2),
        ("AX node(3)", 2),
        ("AY node(2)", 4),
        ("trans(i1 / i2)", 9),
        ("trans(1 / 0)", 15),
        ("trans(i0 / i1)", 12),
        ("A[true U exit]", 15),
        ("def(i1)", 2),
        ("use(i0)", 2),
        ("stmt(i1 := i0 / 0)", 2),
        ("stmt(i1 := i0 / -1)", 0),
        ("stmt(i1 := i0 * 0)", 0),
        ("!EX E[!def(i1) U use(i1)]", 15),
    ] {
        assert_eq!(table(&program, condition).last(), Some(&word), "{condition}");
    }
}

#[test]
fn desk_lines_tell_of_faults() {
    let program = text(&["read i0", "i1 := 10 / i0", "write i1"]);
    let run = |start: &str, trace| desk::run(program.as_bytes(), start.as_bytes(), trace);
    assert_eq!(run("0\n2\n", false), "fault at 2 steps 2 ticks 28\n");
    assert_eq!(run("0\n1000000\n", false), "fault at 2 steps 2 ticks 28\n");
    assert!(run("0\n1\n", false).starts_with("spent at 2 ticks 4\ni0 = 0\n"));
    assert_eq!(run("3\n9\n", false), "ended 3 steps 3 ticks 32 kept 0 0 0 0 0 0 0 0\n");
    assert_eq!(
        run("0\n9\n7\n7\n", true),
        "   step  line  statement                         assigned\n\
         \x20     1     1  read i0                           i0 = 0\n\
         \x20     2     2  i1 := 10 / i0                   \n\
         fault at 2 steps 2 ticks 28\n"
    );
    let given = text(&["read i0", "i3 := 9", "i1 := 0", "i2 := i0 / i1", "write i2"]);
    let list = b"2: mark(rm, i3, 9)\n4: mark(rpl, i1, 0)\n";
    assert_eq!(
        desk::compare(given.as_bytes(), list, b"5\n100\n"),
        "marks 2 accepted 2\n\
         \x20  step  line  given                             rewritten                         differs  given        rewritten\n\
         \x20     1     1  read i0                           read i0                         \n\
         \x20     2     2  i3 := 9                           skip                              i3       9            0          \n\
         \x20     3     3  i1 := 0                           i1 := 0                           i3       9            0          \n\
         \x20     4     4  i2 := i0 / i1                     i2 := i0 / 0                      i3       9            0          \n\
         given fault at 4 steps 4 ticks 32\nrewritten fault at 4 steps 4 ticks 31\nstatements, outcome and live variables agree\n"
    );
    assert!(desk::compare(given.as_bytes(), list, b"5\n3\n").ends_with(
        "given spent at 4 ticks 8\nrewritten spent at 4 ticks 7\nstatements, outcome and live variables agree\n"
    ));
    let prices = "1 4 4\n2 24 24\n3 4 4\n32\n32\n0\n";
    let report = format!("marks 1 accepted 0\n2 18\n{program}{prices}");
    assert_eq!(check(program.as_bytes(), b"2: mark(rm, i1, 10 / i0)\n"), report.as_bytes());
}

/// Where in its range a number lies.
fn place_of(bits: u32) -> usize {
    match bits {
        0 => 0,
        1 => 1,
        u32::MAX => 2,
        LEAST => 3,
        LARGEST => 4,
        _ if bits < LEAST => 5,
        _ => 6,
    }
}

/// What tests need of generated programs: dividends and divisors of each kind, spelled and met, and runs that fault.
#[test]
fn generated_programs_divide_by_numbers_of_every_kind() {
    let random = &mut Random::new(51);
    let (mut spelled, mut by_variable, mut met) = ([0; 7], 0, [[0; 7]; 7]);
    let (mut faults, mut ends, mut late) = (0, 0, 0);
    for _ in 0..6_000 {
        let size = generate::size(random).min(40);
        let program = generate::program(random, size);
        let division = |statement: &Statement| match *statement {
            Statement::Assign(_, Expression::Pair(a, Operator::Divide, b)) => Some((a, b)),
            _ => None,
        };
        for (_, b) in program.statements().iter().filter_map(division) {
            match b {
                Operand::Constant(bits) => spelled[place_of(bits)] += 1,
                Operand::Variable(_) => by_variable += 1,
            }
        }
        let (values, input) = (generate::values(random), generate::word(random));
        let mut run = Run::start(&program, values, input);
        for _ in 0..100 {
            if let State::Before { statement, values } = *run.state() {
                let value = |operand: Operand| match operand {
                    Operand::Variable(x) => values[usize::from(x)],
                    Operand::Constant(bits) => bits,
                };
                if let Some((a, b)) = program.statement(statement).and_then(division) {
                    met[place_of(value(a))][place_of(value(b))] += 1;
                }
            }
            run.step();
        }
        match run_program(&program, values, input, 100, &OURS) {
            Outcome::Fault { steps, .. } => {
                faults += 1;
                late += usize::from(steps > 5);
            }
            Outcome::Ended { .. } => ends += 1,
            Outcome::Spent { .. } => {}
        }
    }
    println!("{spelled:?} {by_variable} {met:?} {faults} {ends} {late}");
    assert!(spelled.iter().all(|&times| times > 50) && by_variable > 500);
    assert!(met.iter().flatten().all(|&times| times > 0), "{met:?}");
    assert!(faults > 300 && ends > 1_000 && late > 50);
}

/// Whether a mark, made though it is refused, shows in one of some runs.
fn is_told(random: &mut Random, given: &Program, mark: &Mark) -> bool {
    let wrong = marks::rewritten(given, &[*mark], &[0]);
    (0..4).any(|_| {
        let (values, input) = (generate::values(random), generate::word(random));
        first_difference(given, &wrong, values, input, 200).is_some()
    })
}

/// What tests need of generated marks: such that drop a division, with each verdict that it may get.
#[test]
fn generated_marks_drop_divisions() {
    let random = &mut Random::new(52);
    let (mut dropped, mut used, mut unused, mut both, mut told) = (0, 0, 0, 0, 0);
    for _ in 0..4_000 {
        let size = random.between(4, 20);
        let program = generate::program(random, size);
        let (judge, steps) = (Judge::new(&program), Steps::new(&program));
        for mark in generate::marks(random, &program, 8) {
            let verdict = judge.verdict(&mark, false);
            let (e, is_judged) = match mark.kind {
                Kind::Remove(e) => (e, matches!(verdict, 0 | 14 | 18)),
                Kind::Replace(a) => (Expression::Single(a), false),
                Kind::Reuse(e) => (e, false),
            };
            if !is_judged || !matches!(e, Expression::Pair(_, Operator::Divide, _)) {
                assert_ne!(verdict, 18, "{mark}");
                continue;
            }
            let condition = mark.condition();
            let is_true =
                Checker::new(&program, &steps, &condition).whole_holds(mark.number as usize - 1);
            match (verdict, is_true) {
                (0, true) => dropped += 1,
                (14, false) => used += 1,
                (18, false) => both += 1,
                (18, true) => {
                    unused += 1;
                    told += usize::from(is_told(random, &program, &mark));
                }
                _ => panic!("{verdict} of {mark}"),
            }
        }
    }
    println!("{dropped} {used} {unused} {both} {told}");
    assert!([dropped, used, unused, both].iter().all(|&times| times > 100) && told > 10);
}

/// A divisor becomes 0 where it was 0 before: both programs fault, or neither does.
#[test]
fn generated_marks_put_0_for_a_divisor() {
    let random = &mut Random::new(53);
    let (mut made, mut together) = (0, 0);
    for _ in 0..4_000 {
        let size = random.between(4, 20);
        let program = generate::program(random, size);
        let judge = Judge::new(&program);
        for mark in generate::marks(random, &program, 8) {
            let is_by_0 = mark.kind == Kind::Replace(Operand::Constant(0));
            if !is_by_0 || judge.verdict(&mark, false) != 0 {
                continue;
            }
            let new = marks::rewritten(&program, &[mark], &[0]);
            if matches!(new.statement(mark.number), Some(Statement::Assign(_, e)) if e.may_fault())
            {
                made += 1;
                let (values, input) = (generate::values(random), generate::word(random));
                let outcome = run_program(&new, values, input, 100, &OURS);
                assert_eq!(
                    outcome,
                    run_program(&program, values, input, 100, &OURS),
                    "{program}{mark}"
                );
                together += usize::from(matches!(outcome, Outcome::Fault { .. }));
            }
        }
    }
    println!("{made} {together}");
    assert!(made > 30 && together > 20);
}
