//! Executed cases of `report`. Expected answers are worked out from the request's prices, by hand.

mod common;

use common::{lines, refused_programs, text, P};
use rewrites::{judge, Prices, Refusal, Report, STATEMENTS, TEXT_BYTES, VERDICT_BYTES};

/// A report by our prices.
fn report(program: &[u8], marks: &[u8]) -> Result<Report, Refusal> {
    rewrites::report(program, marks, &Prices::ours())
}

/// The report on a program of these lines and a list of these.
fn told<L: AsRef<str>>(program: &[L], marks: &[&str]) -> Report {
    let told = report(&text(program), &text(marks)).expect("program and list are taken");
    assert_eq!(told.statements as usize, program.len());
    let (before, after) = (&told.before, &told.after);
    assert_eq!((told.given, told.rewritten), (before.iter().sum(), after.iter().sum()));
    assert_eq!(i64::from(told.saved), i64::from(told.given) - i64::from(told.rewritten));
    assert!(before[program.len()..].iter().chain(&after[program.len()..]).all(|&price| price == 0));
    told
}

fn totals<L: AsRef<str>>(program: &[L], marks: &[&str]) -> (u32, u32, i32) {
    let told = told(program, marks);
    (told.given, told.rewritten, told.saved)
}

#[test]
fn prices_of_p() {
    let p: Vec<&str> = P.lines().collect();
    let marks = [
        "4: mark(rpl, i2, 7)",
        "3: mark(rm, i2, 7)",
        "4: mark(rpl, i1, i0)",
        "6: mark(rm, i0, 1)",
        "9: mark(rm, i2, 7)",
    ];
    for marks in [&marks[..], &marks[..1], &[]] {
        let told = told(&p, marks);
        assert_eq!(told.before[..8], [4, 2, 2, 3, 3, 3, 3, 4]);
        assert_eq!(told.after, told.before);
        assert_eq!((told.given, told.rewritten, told.saved), (24, 24, 0));
    }
}

#[test]
fn each_kind_of_statement_has_its_price() {
    for (statement, price) in [
        ("skip", 1),
        ("if i0 goto 3 else 3", 3),
        ("if i63 goto 2 else 3", 3),
        ("i1 := i0", 2),
        ("i1 := 7", 2),
        ("i1 := -2147483648", 2),
        ("i1 := i0 + i2", 3),
        ("i1 := 1 - -1", 3),
        ("i1 := i0 * 3", 9),
        ("i1 := 0 * 0", 9),
        ("i1 := i0 < 3", 3),
        ("i1 := i0 = i0", 3),
        ("i1 := i0 / i2", 24),
        ("i1 := 1 / 0", 24),
        ("i1 := 1 / 1", 24),
    ] {
        let told = told(&["read i0", statement, "write i1"], &[]);
        assert_eq!(told.before[..3], [4, price, 4], "{statement}");
        assert_eq!((told.given, told.saved), (8 + price, 0), "{statement}");
    }
    assert_eq!(totals(&["read i63", "write i63"], &[]), (8, 8, 0));
}

#[test]
fn a_dropped_assignment_costs_what_skip_does() {
    for (right, saved) in [
        ("i0", 1),
        ("-7", 1),
        ("i0 + 1", 2),
        ("i0 - i2", 2),
        ("i0 < i2", 2),
        ("i0 = 0", 2),
        ("i0 * i2", 8),
        ("i0 / 2", 23),
        // One that may fault stays.
        ("i0 / i2", 0),
        ("i0 / 0", 0),
    ] {
        let program = ["read i0", &format!("i1 := {right}"), "write i0"];
        let told = told(&program, &[&format!("2: mark(rm, i1, {right})")]);
        assert_eq!(told.saved, saved, "{right}");
        assert_eq!(told.after[1], if saved == 0 { 24 } else { 1 }, "{right}");
        // Where it is written it stays, and so does its price.
        let program = ["read i0", &format!("i1 := {right}"), "write i1"];
        assert_eq!(totals(&program, &[&format!("2: mark(rm, i1, {right})")]).2, 0, "{right}");
    }
}

#[test]
fn what_is_computed_already_costs_what_a_copy_does() {
    for (right, saved) in
        [("i0 + 1", 1), ("i0 - 1", 1), ("i0 < 1", 1), ("i0 = 1", 1), ("i0 * 1", 7), ("i0 / i3", 22)]
    {
        let second = format!("i2 := {right}");
        let program = ["read i0", &format!("i1 := {right}"), &second, "write i2"];
        let mark = format!("3: mark(cse, i1, {right})");
        assert_eq!(totals(&program, &[&mark]).2, saved, "{right}");
        assert_eq!(told(&program, &[&mark]).after[2], 2, "{right}");
    }
}

#[test]
fn rpl_changes_no_price() {
    let program = ["read i0", "i1 := i0", "i2 := i1 * i1", "if i1 goto 5 else 5", "write i1"];
    let marks = ["3: mark(rpl, i1, i0)", "4: mark(rpl, i1, i0)", "5: mark(rpl, i1, i0)"];
    assert_eq!(totals(&program, &marks), (22, 22, 0));
    let program = ["read i0", "i1 := 7", "i2 := i0 / i1", "write i2"];
    assert_eq!(totals(&program, &["3: mark(rpl, i1, 7)"]), (34, 34, 0));
}

#[test]
fn lists_of_all_kinds_and_refused_marks() {
    let program =
        ["read i0", "i1 := i0 + 1", "i2 := i0 + 1", "i3 := 7", "i4 := i2 * i3", "write i2"];
    let marks = [
        "3: mark(cse, i1, i0 + 1)",
        "5: mark(rm, i4, i2 * i3)",
        // Refused: 4 is used at 5, 2 is read at 3, 5 is named before, there is no 7.
        "4: mark(rm, i3, 7)",
        "2: mark(rm, i1, i0 + 1)",
        "5: mark(rpl, i3, 7)",
        "7: mark(rm, i3, 7)",
    ];
    let told = told(&program, &marks);
    assert_eq!(told.before[..6], [4, 3, 3, 2, 9, 4]);
    assert_eq!(told.after[..6], [4, 3, 2, 2, 1, 4]);
    assert_eq!((told.given, told.rewritten, told.saved), (25, 16, 9));
}

/// The prices after are those of the text that judging writes.
#[test]
fn the_prices_after_are_those_of_the_new_text() {
    let program = text(&["read i0", "i1 := i0 * 3", "i2 := i0 * 3", "i3 := i1", "write i2"]);
    let marks = text(&["3: mark(cse, i1, i0 * 3)", "4: mark(rm, i3, i1)"]);
    let mut new = [0; TEXT_BYTES];
    let judged = judge(&program, &marks, &mut [0; VERDICT_BYTES], &mut new).expect("it is taken");
    let alone = report(&new[..judged.bytes as usize], b"").expect("it is taken");
    let told = report(&program, &marks).expect("it is taken");
    assert_eq!((told.after, told.rewritten), (alone.before, alone.given));
    assert_eq!((told.given, told.rewritten, told.saved), (28, 20, 8));
}

#[test]
fn the_longest_program() {
    let mut program = vec!["i1 := 7 / 2"; STATEMENTS];
    (program[0], program[1_023]) = ("read i0", "write i0");
    let marks: Vec<String> = (2..1_024).map(|n| format!("{n}: mark(rm, i1, 7 / 2)")).collect();
    let marks: Vec<&str> = marks.iter().map(String::as_str).collect();
    assert_eq!(totals(&program, &marks), (24_536, 1_030, 23_506));
    assert_eq!(totals(&lines(1_024), &[]), (1_030, 1_030, 0));
}

#[test]
fn refusals_come_as_in_judging() {
    for (program, number) in refused_programs() {
        assert_eq!(report(&program, b"").map_err(Refusal::number), Err(number));
        assert_eq!(report(&program, b"rubbish").map_err(Refusal::number), Err(number));
    }
    let p = P.as_bytes();
    assert_eq!(report(p, b"rubbish"), Err(Refusal::MarkMisspelled));
    assert_eq!(report(p, b"3: mark(rm, i2, 7)"), Err(Refusal::MarkMisspelled));
    assert_eq!(report(p, &b"3: mark(rm, i2, 7)\n".repeat(1_025)), Err(Refusal::MarkCount));
    let wrong = [&b"3: mark(rm, i2, 7)\n".repeat(1_025)[..], b"x\n"].concat();
    assert_eq!(report(p, &wrong), Err(Refusal::MarkMisspelled));
    assert!(report(p, &b"3: mark(rm, i2, 7)\n".repeat(1_024)).is_ok());
}
