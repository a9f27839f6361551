//! Variables that the unit keeps from one pass to the next: the cases of the change request.

use super::{all_judged, lines, ran, table, P, ZEROS};
use crate::check::check;
use crate::desk;
use crate::generate::{self, Random};
use crate::machine::{first_difference, run_program, Outcome, Values, VALUES};
use crate::marks::{self, Judge, Kind, Mark};
use crate::pricing::OURS;
use crate::program::{is_kept, Program};

/// Values that are all different, none small.
fn different() -> Values {
    std::array::from_fn(|x| 1000 + x as u32)
}

#[test]
fn use_of_each_of_the_eight_holds_at_write() {
    let program = lines("read i0 / i24 := 5 / i1 := i0 / write i1");
    assert_eq!(table(&program, "use(i24)"), [8]);
    assert_eq!(table(&program, "use(i23)"), [0]);
    assert_eq!(table(&program, "E[!def(i24) U use(i24)]"), [2, 13, 8, 12]);
    assert_eq!(table(&program, "E[!def(i23) U use(i23)]"), [0, 15, 0, 0]);
    for x in 0..64 {
        let wanted = match x {
            0 => 4,
            1 | 24..=31 => 8,
            _ => 0,
        };
        assert_eq!(table(&program, &format!("use(i{x})")), [wanted], "i{x}");
    }
}

#[test]
fn other_atoms_and_statements_are_as_before() {
    let program = lines("read i24 / skip / if i24 goto 4 else 4 / i24 := i24 + i26 / write i24");
    assert_eq!(table(&program, "use(i24)"), [4 + 8 + 16]);
    assert_eq!(table(&program, "use(i25)"), [16]);
    assert_eq!(table(&program, "use(i26)"), [8 + 16]);
    assert_eq!(table(&program, "use(i23)"), [0]);
    assert_eq!(table(&program, "def(i24)"), [1 + 8]);
    assert_eq!(table(&program, "def(i25)"), [0]);
    assert_eq!(table(&program, "trans(i24)"), [2 + 4 + 16]);
    assert_eq!(table(&program, "trans(i25 + i31)"), [31]);
    assert_eq!(table(&program, "stmt(write i24)"), [16]);
    assert_eq!(table(&program, "stmt(write i25)"), [0]);
    assert_eq!(table(P, "use(i31)"), [128]);
    assert_eq!(table(P, "E[!def(i2) U use(i2)]"), [4, 251, 8, 120]);
}

#[test]
fn what_is_kept_is_not_dropped_before_the_end() {
    let program = lines("read i0 / i24 := 5 / i1 := i0 / write i1");
    assert_eq!(all_judged(&program, "2: mark(rm, i24, 5)\n"), (vec![14], program.clone()));
    for x in (2..64).map(|x: u8| format!("i{x}")) {
        let program = program.replace("i24", &x);
        let (verdict, made) = match &x[1..] {
            "24" | "25" | "26" | "27" | "28" | "29" | "30" | "31" => (14, program.clone()),
            _ => (0, program.replace(&format!("{x} := 5"), "skip")),
        };
        let list = format!("2: mark(rm, {x}, 5)\n");
        assert_eq!(all_judged(&program, &list), (vec![verdict], made), "{x}");
    }
}

#[test]
fn what_is_set_again_before_the_end_is_dropped() {
    let program = lines("read i0 / i24 := 5 / i24 := 6 / write i0");
    let (verdicts, new) = all_judged(&program, "2: mark(rm, i24, 5)\n3: mark(rm, i24, 6)\n");
    assert_eq!((verdicts, new), (vec![0, 14], program.replace("i24 := 5", "skip")));
    // A run that never ends keeps nothing.
    let endless = lines("read i0 / i24 := 5 / if i0 goto 3 else 3 / write i0");
    assert_eq!(all_judged(&endless, "2: mark(rm, i24, 5)\n").0, [0]);
    let may_end = endless.replace("else 3", "else 4");
    assert_eq!(all_judged(&may_end, "2: mark(rm, i24, 5)\n").0, [14]);
}

#[test]
fn replacing_at_write_goes_by_the_text() {
    let written = lines("read i0 / i24 := i0 / write i24");
    let (verdicts, new) = all_judged(&written, "3: mark(rpl, i24, i0)\n2: mark(rm, i24, i0)\n");
    assert_eq!((verdicts, new), (vec![0, 14], written.replace("write i24", "write i0")));
    let kept_only = lines("read i0 / i25 := i0 / write i24");
    assert_eq!(table(&kept_only, "use(i25)"), [4]);
    assert_eq!(all_judged(&kept_only, "3: mark(rpl, i25, i0)\n").0, [13]);
    for x in (0..64).filter(|&x| x != 24) {
        let list = format!("3: mark(rpl, i{x}, i0)\n");
        assert_eq!(all_judged(&kept_only, &list).0, [13], "i{x}");
    }
    assert_eq!(all_judged(&kept_only, "3: mark(rpl, i24, i0)\n").0, [14]);
}

#[test]
fn runs_end_with_what_is_kept() {
    let program = lines("read i0 / i24 := 5 / i31 := i0 - 1 / write i0");
    let mut values = [0; VALUES];
    values[25] = 7;
    let kept = [5, 7, 0, 0, 0, 0, 0, u32::MAX];
    let ended = Outcome::Ended { value: 0, steps: 4, kept, ticks: 13 };
    assert_eq!(ran(&program, values, 0, 4), ended);
    assert_eq!(ran(&program, values, 0, 1_000_000), ended);
    assert!(matches!(ran(&program, values, 0, 3), Outcome::Spent { statement: 4, .. }));
    assert!(matches!(
        ran(&lines("read i24 / write i24"), [0; VALUES], 9, 1),
        Outcome::Spent { statement: 2, .. }
    ));
    let bare = lines("read i0 / write i0");
    let kept = [1024, 1025, 1026, 1027, 1028, 1029, 1030, 1031];
    assert_eq!(
        ran(&bare, different(), 3, 2),
        Outcome::Ended { value: 3, steps: 2, kept, ticks: 8 }
    );
    for x in 24..32 {
        let mut kept = kept;
        kept[x - 24] = 3;
        let read = lines(&format!("read i{x} / write i{x}"));
        let ended = Outcome::Ended { value: 3, steps: 2, kept, ticks: 8 };
        assert_eq!(ran(&read, different(), 3, 2), ended);
    }
}

#[test]
fn both_arms_of_an_if_set_what_is_kept() {
    let arms = "read i0 / i24 := 9 / if i0 goto 6 else 4 / i24 := i1 / if i0 goto 7 else 7 / \
                i24 := i2 / write i24";
    let program = lines(arms);
    let mut values = [0; VALUES];
    (values[1], values[2]) = (5, 6);
    let ended = |value, steps, ticks| {
        let mut kept = ZEROS;
        kept[0] = value as u32;
        Outcome::Ended { value, steps, kept, ticks }
    };
    assert_eq!(ran(&program, values, 0, 100), ended(5, 6, 18));
    assert_eq!(ran(&program, values, 1, 100), ended(6, 5, 15));
    // Both set it again, so what stood before is dropped; neither of them is, and no one copy reaches the end.
    let list = "2: mark(rm, i24, 9)\n4: mark(rm, i24, i1)\n6: mark(rm, i24, i2)\n\
                7: mark(rpl, i24, i1)\n";
    let (verdicts, new) = all_judged(&program, list);
    assert_eq!((verdicts, new), (vec![0, 14, 14, 14], program.replace("i24 := 9", "skip")));
    // One arm leaves it as it was.
    let one = program.replace("i24 := i2", "skip");
    assert_eq!(all_judged(&one, "2: mark(rm, i24, 9)\n").0, [14]);
    // Both make the same copy.
    let same = program.replace("i24 := i2", "i24 := i1");
    let (verdicts, new) = all_judged(&same, "7: mark(rpl, i24, i1)\n4: mark(rm, i24, i1)\n");
    assert_eq!((verdicts, new), (vec![0, 14], same.replace("write i24", "write i1")));
    // What is written is another: the arms differ in what is kept alone.
    let beside = program.replace("write i24", "write i0");
    assert_eq!(all_judged(&beside, "4: mark(rm, i24, i1)\n6: mark(rm, i24, i2)\n").0, [14, 14]);
}

/// A mark that only what is kept speaks against, made all the same, ends with the same written value.
#[test]
fn runs_are_compared_in_what_is_kept() {
    let text = lines("read i0 / i24 := 5 / i1 := i0 / write i1");
    let given = Program::read(text.as_bytes()).expect("a program");
    let list = marks::read(b"2: mark(rm, i24, 5)\n").expect("a list");
    assert!(Judge::new(&given).is_refused_for_kept_alone(&list[0]));
    let wrong = marks::rewritten(&given, &list, &[0]);
    assert_eq!(first_difference(&given, &wrong, [0; VALUES], 3, 100), Some(4));
    let (one, other) = (
        run_program(&given, [0; VALUES], 3, 9, &OURS),
        run_program(&wrong, [0; VALUES], 3, 9, &OURS),
    );
    let kept = [5, 0, 0, 0, 0, 0, 0, 0];
    assert_eq!(one, Outcome::Ended { value: 3, steps: 4, kept, ticks: 12 });
    assert_eq!(other, Outcome::Ended { value: 3, steps: 4, kept: ZEROS, ticks: 11 });
    // From a start that has it already they don't differ.
    let mut values = [0; VALUES];
    values[24] = 5;
    assert_eq!(first_difference(&given, &wrong, values, 3, 100), None);
}

#[test]
fn desk_lines_tell_what_is_kept() {
    let program = lines("read i0 / i24 := 5 / i31 := i0 - 1 / write i0");
    let mut start = "0\n100\n".to_string() + &"0\n".repeat(25) + "7\n";
    let line = "ended 0 steps 4 ticks 13 kept 5 7 0 0 0 0 0 -1\n";
    assert_eq!(desk::run(program.as_bytes(), start.as_bytes(), false), line);
    assert!(desk::run(program.as_bytes(), start.as_bytes(), true).ends_with(line));
    let compared = desk::compare(program.as_bytes(), b"2: mark(rm, i24, 5)\n", start.as_bytes());
    assert!(compared.starts_with("marks 1 accepted 0\n"));
    assert!(compared.ends_with(&format!(
        "given {line}rewritten {line}statements, outcome and live variables agree\n"
    )));
    start = start.replace("100", "3");
    let spent = desk::run(program.as_bytes(), start.as_bytes(), false);
    assert!(spent.starts_with("spent at 4 ticks 9\ni0 = 0\n") && spent.contains("i31 = -1\n"));
    assert!(spent.ends_with("i63 = 0\n") && !spent.contains("kept"));
    let longest = "-2147483648\n2\n".to_string() + &"-2147483648\n".repeat(64);
    assert_eq!(
        desk::run(b"read i0\nwrite i0\n", longest.as_bytes(), false),
        format!("ended -2147483648 steps 2 ticks 8 kept{}\n", " -2147483648".repeat(8))
    );
    let prices = "1 4 4\n2 2 2\n3 3 3\n4 4 4\n13\n13\n0\n";
    let report = format!("marks 1 accepted 0\n2 14\n{program}{prices}");
    assert_eq!(check(program.as_bytes(), b"2: mark(rm, i24, 5)\n"), report.as_bytes());
}

/// What tests need of generated cases.
#[test]
fn generated_cases_name_what_is_kept() {
    let random = &mut Random::new(40);
    let (mut programs, mut set, mut edge) = (0, [0; 8], 0);
    let (mut for_kept, mut also_shown, mut dropped, mut differs) = (0, 0, 0, 0);
    let (mut written, mut kept_only) = (0, 0);
    for _ in 0..3_000 {
        let size = random.between(4, 30);
        let program = generate::program(random, size);
        let defined: Vec<u8> = program.statements().iter().filter_map(|s| s.defined()).collect();
        programs += usize::from(defined.iter().any(|&x| is_kept(x)));
        edge += usize::from(defined.contains(&23));
        defined.iter().filter(|&&x| is_kept(x)).for_each(|&x| set[usize::from(x) - 24] += 1);
        let judge = Judge::new(&program);
        for mark in generate::marks(random, &program, 8) {
            let verdict = judge.verdict(&mark, false);
            match (mark.kind, verdict) {
                _ if !is_kept(mark.variable) => {}
                (Kind::Remove(_), 0) => dropped += 1,
                (Kind::Remove(_), 14) if judge.is_refused_for_kept_alone(&mark) => {
                    for_kept += 1;
                    differs += usize::from(keeps_otherwise(random, &program, &mark));
                }
                (Kind::Remove(_), 14) => also_shown += 1,
                (Kind::Replace(_), verdict) if mark.number == program.count() => {
                    let is_shown = program.statements()[size - 1].shows(mark.variable);
                    written += usize::from(verdict == 0);
                    kept_only += usize::from(verdict == 13 && !is_shown);
                }
                _ => {}
            }
        }
    }
    println!("{programs} {set:?} {edge} {for_kept} {also_shown} {dropped} {differs} {written} {kept_only}");
    assert!(programs > 1_000 && set.iter().all(|&times| times > 500) && edge > 300);
    assert!([for_kept, also_shown, dropped].iter().all(|&times| times > 200));
    assert!(differs > 100 && written > 50 && kept_only > 200);
}

/// Whether a mark, made though it is refused, shows in what is kept and in nothing else.
fn keeps_otherwise(random: &mut Random, given: &Program, mark: &Mark) -> bool {
    let wrong = marks::rewritten(given, &[*mark], &[0]);
    (0..4).any(|_| {
        let (values, input) = (generate::values(random), generate::word(random));
        let answers = (
            run_program(given, values, input, 400, &OURS),
            run_program(&wrong, values, input, 400, &OURS),
        );
        match answers {
            (
                Outcome::Ended { value: a, steps: m, kept: one, .. },
                Outcome::Ended { value: b, steps: n, kept: other, .. },
            ) => {
                assert_eq!((a, m), (b, n), "{given}{mark}");
                one != other
            }
            (Outcome::Spent { statement: a, .. }, Outcome::Spent { statement: b, .. }) => {
                assert_eq!(a, b, "{given}{mark}");
                false
            }
            (Outcome::Fault { .. }, Outcome::Fault { .. }) => {
                assert!(answers.0.is_alike(&answers.1), "{given}{mark}");
                false
            }
            _ => panic!("one of the runs has ended: {given}{mark}"),
        }
    })
}
