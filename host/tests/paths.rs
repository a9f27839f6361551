//! Executed cases of paths. Expected ones are worked out from the request's words, by hand; where the contract leaves a choice, what
//! the code tells is expected: a way before a path that goes round, and the shortest round.

mod common;

use common::{lines, refused_programs, text, P};
use oracle::marks;
use oracle::paths::{check_why, Shown};
use oracle::program::Program;
use rewrites::{tabulate, why, witness, Because, Culprit, Path, Reason, Refusal, Table, Verdict};
use rewrites::{Witnessed, STATEMENTS, TABLE_WORDS};
use std::fs;
use std::path::Path as File;

/// What is told of a whole condition at a statement.
fn told<L: AsRef<str>>(program: &[L], condition: &str, statement: u32) -> Witnessed {
    let program = text(program);
    let mut table = [0; TABLE_WORDS];
    let parts = tabulate(&program, condition.as_bytes(), &mut table).expect("it is taken").parts;
    let told = witness(&program, condition.as_bytes(), parts - 1, statement).expect("it is taken");
    if let Witnessed::None(truth) = told {
        assert_eq!(
            truth,
            Table(&table).part_at(parts - 1, statement),
            "{condition} at {statement}"
        );
    }
    told
}

/// The whole condition has this way at a path's first statement.
fn assert_way<L: AsRef<str>>(program: &[L], condition: &str, way: &[u32]) {
    let expected = Path { statements: way.to_vec(), turn: None };
    assert_eq!(told(program, condition, way[0]), Witnessed::Path(expected), "{condition}");
}

/// It has this path, whose last statement steps back to this entry of it, counted from 1.
fn assert_round<L: AsRef<str>>(program: &[L], condition: &str, path: &[u32], turn: u32) {
    let answer = told(program, condition, path[0]);
    let expected = Path { statements: path.to_vec(), turn: Some(turn) };
    assert_eq!(expected.round(), &path[turn as usize - 1..]);
    assert_eq!(answer.clone().path(), Some(expected.clone()));
    assert_eq!(answer, Witnessed::Path(expected), "{condition}");
}

/// It has none there, and this truth.
fn assert_none<L: AsRef<str>>(program: &[L], condition: &str, statement: u32, truth: bool) {
    let answer = told(program, condition, statement);
    assert_eq!(answer, Witnessed::None(truth), "{condition} at {statement}");
    assert_eq!(answer.path(), None);
}

fn p() -> Vec<&'static str> {
    P.lines().collect()
}

#[test]
fn every_operator_on_p() {
    let p = p();
    assert_way(&p, "EX def(i0)", &[5, 6]);
    assert_way(&p, "AX exit", &[5, 6]);
    assert_way(&p, "EY use(i0)", &[6, 5]);
    assert_way(&p, "AY def(i2)", &[4, 7]);
    assert_way(&p, "EF exit", &[1, 2, 3, 4, 5, 8]);
    assert_way(&p, "ER entry", &[6, 5, 4, 3, 2, 1]);
    assert_way(&p, "AG !exit", &[6, 7, 8]);
    assert_way(&p, "AM !entry", &[3, 2, 1]);
    assert_way(&p, "E[!exit U def(i3)]", &[6, 7, 4]);
    assert_way(&p, "E[!def(i2) S def(i1)]", &[2]);
    assert_way(&p, "E[!exit S def(i2)]", &[5, 4, 3]);
    assert_way(&p, "A[!def(i0) W exit]", &[5, 6]);
    assert_way(&p, "A[!def(i1) B entry]", &[4, 3, 2]);
    assert_round(&p, "AF exit", &[4, 5, 6, 7], 1);
    assert_round(&p, "EG !exit", &[6, 7, 4, 5], 1);
    assert_round(&p, "AR entry", &[7, 6, 5, 4], 1);
    assert_round(&p, "EM !entry", &[4, 7, 6, 5], 1);
    // Each of these has one of the two kinds of path.
    assert_way(&p, "E[!exit W exit]", &[7, 8]);
    assert_round(&p, "E[!exit W false]", &[5, 6, 7, 4], 1);
    assert_way(&p, "A[!def(i3) U exit]", &[2, 3, 4]);
    assert_round(&p, "A[true U exit]", &[5, 6, 7, 4], 1);
    assert_way(&p, "E[true B def(i2)]", &[4, 3]);
    assert_round(&p, "E[!entry B false]", &[5, 4, 7, 6], 1);
    assert_way(&p, "A[!def(i2) S entry]", &[4, 3]);
    assert_round(&p, "A[true S entry]", &[6, 5, 4, 7], 1);
}

/// "`EG true`, `AF exit` false on P with the loop 4 to 7 as its turn".
#[test]
fn the_loop_of_p() {
    let p = p();
    assert_round(&p, "AF exit", &[1, 2, 3, 4, 5, 6, 7], 4);
    for statement in 1..=8 {
        let path = told(&p, "EG true", statement).path().expect("a path goes on for ever");
        let mut round = path.round().to_vec();
        round.sort_unstable();
        assert!(round == [8] || (round == [4, 5, 6, 7] && statement < 8), "{path:?}");
    }
    assert_none(&p, "AF exit", 8, true);
    assert_none(&p, "EG !exit", 8, false);
}

#[test]
fn negations_are_looked_through() {
    let p = p();
    assert_way(&p, "!EX exit", &[5, 8]);
    assert_way(&p, "!!EX exit", &[5, 8]);
    assert_way(&p, "!!!AG !exit", &[7, 8]);
    assert_none(&p, "EX exit", 4, false);
    assert_none(&p, "!EX exit", 4, true);
    assert_none(&p, "!!EX exit", 4, false);
    assert_none(&p, "!AF exit", 8, false);
    // Below a conjunction none is looked through.
    assert_none(&p, "(EX exit & EX exit)", 5, true);
    assert_none(&p, "!(EX exit | AF exit)", 5, false);
    assert_none(&p, "exit", 8, true);
    assert_none(&p, "!exit", 8, false);
}

#[test]
fn parts_and_statements_that_do_not_exist() {
    let p = text(&p());
    for (part, statement) in
        [(2, 8), (2, 9), (1, 0), (1, 9), (1, 1_025), (64, 8), (u32::MAX, 8), (1, u32::MAX)]
    {
        assert_eq!(witness(&p, b"EF exit", part, statement), Ok(Witnessed::None(false)));
        assert_eq!(
            witness(&p, b"!EF exit", part + u32::from(part < 64), statement),
            Ok(Witnessed::None(false))
        );
    }
    // Each part is asked for by itself.
    assert_eq!(witness(&p, b"(EX exit | AF exit)", 0, 8), Ok(Witnessed::None(true)));
    assert_eq!(
        witness(&p, b"(EX exit | AF exit)", 1, 7)
            .expect("it is taken")
            .path()
            .expect("a path")
            .statements,
        [7, 8]
    );
    assert_eq!(
        witness(&p, b"(EX exit | AF exit)", 3, 7)
            .expect("it is taken")
            .path()
            .expect("a path")
            .round(),
        [7, 4, 5, 6]
    );
}

#[test]
fn a_program_of_two_statements() {
    let least = ["read i0", "write i0"];
    assert_way(&least, "EX exit", &[1, 2]);
    assert_way(&least, "EX exit", &[2, 2]);
    assert_way(&least, "AX entry", &[1, 2]);
    assert_way(&least, "EF exit", &[1, 2]);
    assert_way(&least, "ER entry", &[2, 1]);
    assert_way(&least, "EY entry", &[1, 1]);
    assert_round(&least, "EG true", &[1, 2], 2);
    assert_round(&least, "EM true", &[2, 1], 2);
    assert_round(&least, "AF entry", &[2], 1);
    assert_none(&least, "AF exit", 1, true);
}

/// Statement 4 is a `write` that nothing steps to, so backward it steps to itself.
#[test]
fn the_past_at_a_write_that_nothing_leads_to() {
    let program = ["read i0", "i1 := i0", "if i1 goto 2 else 2", "write i1"];
    assert_way(&program, "EY exit", &[4, 4]);
    assert_way(&program, "AY entry", &[4, 4]);
    assert_way(&program, "ER exit", &[4]);
    assert_round(&program, "EM exit", &[4], 1);
    assert_round(&program, "AR entry", &[4], 1);
    assert_round(&program, "E[exit B entry]", &[4], 1);
    assert_round(&program, "A[exit S entry]", &[4], 1);
    assert_none(&program, "ER entry", 4, false);
    assert_none(&program, "AM exit", 4, true);
    assert_none(&program, "A[exit B entry]", 4, true);
    // Forward it isn't come to either.
    assert_round(&program, "AF exit", &[2, 3], 1);
}

/// Statement 2 jumps over 3, to which nothing steps, and which steps to 4.
#[test]
fn an_unreachable_predecessor_on_a_path() {
    let program = ["read i0", "if i0 goto 4 else 4", "i1 := i0", "i2 := i1", "write i2"];
    assert_way(&program, "ER def(i1)", &[5, 4, 3]);
    assert_way(&program, "AM !def(i1)", &[4, 3]);
    assert_round(&program, "AR entry", &[5, 4, 3], 3);
    assert_way(&program, "ER entry", &[4, 2, 1]);
}

#[test]
fn a_path_through_statement_1() {
    let program = ["read i0", "i1 := 7", "i2 := i1", "write i2"];
    assert_way(&program, "ER def(i0)", &[4, 3, 2, 1]);
    assert_way(&program, "AM !entry", &[3, 2, 1]);
    assert_round(&program, "EM true", &[3, 2, 1], 3);
}

#[test]
fn chains_of_256_and_of_1024_statements() {
    for count in [256, STATEMENTS] {
        let chain = lines(count);
        let (all, back): (Vec<u32>, Vec<u32>) =
            ((1..=count as u32).collect(), (1..=count as u32).rev().collect());
        assert_way(&chain, "EF exit", &all);
        assert_way(&chain, "AG !exit", &all);
        assert_way(&chain, "E[!exit U exit]", &all);
        assert_way(&chain, "ER entry", &back);
        assert_round(&chain, "EG true", &all, count as u32);
        assert_round(&chain, "EM true", &back, count as u32);
        assert_none(&chain, "AF exit", 1, true);
    }
    // A loop by all but the first and the last.
    let mut circle = lines(STATEMENTS);
    circle[STATEMENTS - 2] = format!("if i0 goto 2 else {STATEMENTS}");
    let path: Vec<u32> = (1..STATEMENTS as u32).collect();
    assert_round(&circle, "AF exit", &path, 2);
}

#[test]
fn refused_texts() {
    for (program, number) in refused_programs() {
        let refused = witness(&program, b"(", 0, 0).expect_err("the program is refused");
        assert_eq!(refused.number(), number);
    }
    let p = text(&p());
    let long = "!".repeat(1_021) + "true";
    assert_eq!(witness(&p, long.as_bytes(), 0, 1), Err(Refusal::ConditionLength));
    assert_eq!(witness(&p, b"EX (exit)", 0, 1), Err(Refusal::ConditionMisspelled));
    let many = "!".repeat(64) + "true";
    assert_eq!(witness(&p, many.as_bytes(), 99, 99), Err(Refusal::ConditionParts));
}

// Reasons

/// The reason of a line, counted from 0, of marks that stand between slashes.
fn reason<L: AsRef<str>>(program: &[L], list: &str, line: u32) -> Option<Reason> {
    let list: Vec<&str> = list.split(" / ").filter(|mark| !mark.is_empty()).collect();
    let answer = why(&text(program), &text(&list), line).expect("they are taken");
    assert_eq!(answer.reason.is_some(), answer.verdict == Verdict::Unmet);
    answer.reason
}

/// The line's path and what its last statement does. No other path is as short.
fn assert_reason<L: AsRef<str>>(
    program: &[L],
    list: &str,
    line: u32,
    path: &[u32],
    culprit: Culprit,
) {
    let expected = Reason { path: path.to_vec(), culprit };
    assert_eq!(reason(program, list, line), Some(expected), "line {line} of {list}");
}

/// The statements between slashes.
fn lines_of(program: &str) -> Vec<&str> {
    program.split(" / ").collect()
}

#[test]
fn reasons_on_p() {
    let p = p();
    assert_reason(&p, "3: mark(rm, i2, 7)", 0, &[3, 4], Culprit::Used);
    assert_reason(&p, "2: mark(rm, i1, i0)", 0, &[2, 3, 4], Culprit::Used);
    assert_reason(&p, "4: mark(rm, i3, i1 + i2)", 0, &[4, 5, 8], Culprit::Used);
    // Round the loop 4 to 7, to where i0 is tested.
    assert_reason(&p, "6: mark(rm, i0, i0 - 1)", 0, &[6, 7], Culprit::Used);
    // A copy that was made before a loop is spoilt in it.
    assert_reason(&p, "4: mark(rpl, i1, i0)", 0, &[4, 7, 6], Culprit::OperandRedefined);
    assert_eq!(reason(&p, "4: mark(rpl, i2, 7)", 0), None);
}

#[test]
fn other_verdicts_have_none() {
    let (p, list) = (text(&p()), b"4: mark(rpl, i2, 7)\n3: mark(rm, i2, 7)\n4: mark(rm, i2, 7)\n5: mark(rm, i0, 7)\n9: mark(rm, i2, 7)\n");
    let verdicts =
        [Verdict::Accepted, Verdict::Unmet, Verdict::Repeated, Verdict::Unfit, Verdict::Missing];
    for line in (0..7).chain([1_024, u32::MAX]) {
        let answer = why(&p, list, line).expect("they are taken");
        let expected = verdicts.get(line as usize).copied().unwrap_or(Verdict::Missing);
        assert_eq!((answer.verdict, answer.reason.is_some()), (expected, line == 1), "line {line}");
    }
    let none = Because { verdict: Verdict::Missing, reason: None };
    assert_eq!(why(&p, b"", 0), Ok(none));
    let faulty = text(&["read i0", "i1 := i0 / i0", "write i0"]);
    let answer = why(&faulty, b"2: mark(rm, i1, i0 / i0)\n", 0).expect("they are taken");
    assert_eq!(answer, Because { verdict: Verdict::MayFault, reason: None });
}

/// The programs of examples/cases.txt on which a weakened rule goes wrong, as `examples/cases.txt` explains each.
#[test]
fn reasons_where_a_weakened_rule_goes_wrong() {
    use Culprit::*;
    #[rustfmt::skip]
    let cases: [(&str, &str, u32, &[u32], Culprit); 24] = [
        ("read i0 / i1 := 1 / write i1", "2: mark(rm, i1, 1)", 0, &[2, 3], Used),
        ("read i0 / i1 := 5 / if i0 goto 4 else 5 / i0 := i1 / write i0", "2: mark(rm, i1, 5)", 0, &[2, 3, 4], Used),
        ("read i0 / i1 := 1 / i2 := i1 + i0 / i1 := i1 + 1 / if i2 goto 3 else 6 / write i0", "4: mark(rm, i1, i1 + 1)", 0, &[4, 5, 3], Used),
        ("read i0 / i2 := i1 / write i2", "2: mark(rpl, i1, i5)", 0, &[2, 1], NothingCopied),
        ("read i0 / i1 := i2 / i2 := 5 / i3 := i1 + i2 / write i3", "4: mark(rpl, i1, i2)", 0, &[4, 3], OperandRedefined),
        ("read i0 / i1 := i2 / i1 := i1 + 1 / i3 := i1 / write i3", "4: mark(rpl, i1, i2)", 0, &[4, 3], Redefined),
        ("read i0 / i1 := i2 / i3 := i3 + i1 / i2 := i2 - 1 / if i2 goto 3 else 6 / write i3", "3: mark(rpl, i1, i2)", 0, &[3, 5, 4], OperandRedefined),
        ("read i0 / i1 := 3 / if i0 goto 4 else 5 / i1 := i2 / i3 := i1 / write i3", "5: mark(rpl, i1, i2)", 0, &[5, 3, 2], Redefined),
        ("read i0 / i1 := 3 / if i0 goto 4 else 5 / i1 := i2 / skip / i3 := i1 / write i3", "6: mark(rpl, i1, i2)", 0, &[6, 5, 3, 2], Redefined),
        ("read i0 / i1 := i0 / if i0 goto 5 else 5 / i1 := 3 / i2 := i1 / write i2", "5: mark(rpl, i1, i0)", 0, &[5, 4], Redefined),
        ("read i0 / if i0 goto 4 else 4 / i2 := i1 / write i2", "3: mark(rpl, i1, i2)", 0, &[3, 3], OperandRedefined),
        ("read i0 / i1 := 1 / i2 := i1 / i3 := i2 / write i0", "4: mark(rm, i3, i2) / 3: mark(rm, i2, i1) / 2: mark(rm, i1, 1)", 1, &[3, 4], Used),
        ("read i0 / i1 := i0 / i2 := i1 / write i2", "3: mark(rpl, i1, i0) / 2: mark(rm, i1, i0)", 1, &[2, 3], Used),
        ("read i0 / i24 := 5 / i1 := i0 / write i1", "2: mark(rm, i24, 5)", 0, &[2, 3, 4], Used),
        ("read i0 / i24 := 9 / if i0 goto 5 else 4 / if i0 goto 6 else 6 / i24 := i2 / write i0", "2: mark(rm, i24, 9)", 0, &[2, 3, 4, 6], Used),
        ("read i0 / i1 := i0 + 1 / i2 := i0 + 1 / write i2", "2: mark(rm, i1, i0 + 1) / 3: mark(cse, i1, i0 + 1)", 0, &[2, 3], UsedByCse),
        ("read i0 / i1 := i0 + 1 / i2 := i0 + 1 / write i2", "3: mark(cse, i1, i0 + 1) / 2: mark(rm, i1, i0 + 1)", 1, &[2, 3], UsedByCse),
        ("read i0 / i1 := i0 + 1 / i0 := 3 / i2 := i0 + 1 / write i2", "4: mark(cse, i1, i0 + 1)", 0, &[4, 3], OperandRedefined),
        ("read i0 / i0 := i0 < 7 / i0 := i0 < 7 / write i0", "3: mark(cse, i0, i0 < 7)", 0, &[3, 2], Redefined),
        ("read i0 / i1 := i2 * 3 / write i1", "2: mark(cse, i3, i2 * 3)", 0, &[2, 1], NothingCopied),
        ("read i0 / i1 := i0 + i2 / i3 := i2 + i0 / write i3", "3: mark(cse, i1, i2 + i0)", 0, &[3, 2], Redefined),
        ("read i0 / i1 := i0 + 1 / i1 := i0 + 1 / write i1", "3: mark(cse, i1, i0 + 1) / 2: mark(rm, i1, i0 + 1)", 1, &[2, 3], UsedByCse),
        ("read i0 / i1 := i0 + 1 / if i0 goto 4 else 5 / i1 := 3 / i2 := i0 + 1 / write i2", "5: mark(cse, i1, i0 + 1)", 0, &[5, 4], Redefined),
        ("read i0 / i24 := i0 + 1 / i2 := i0 + 1 / i24 := 3 / write i2", "3: mark(cse, i24, i0 + 1) / 2: mark(rm, i24, i0 + 1)", 1, &[2, 3], UsedByCse),
    ];
    for (program, list, line, path, culprit) in cases {
        assert_reason(&lines_of(program), list, line, path, culprit);
    }
}

/// Each verdict 14 that examples/cases.txt prints has a path, which is stepped through.
#[test]
fn reasons_of_all_examples() {
    let file = File::new(env!("CARGO_MANIFEST_DIR")).join("../examples/cases.txt");
    let cases = fs::read_to_string(file).expect("the cases are read");
    let (mut programs, mut reasons) = (0, 0);
    for case in cases.split("\n== ").skip(1) {
        let piece = |name: &str, next: &str| {
            let behind = case.split_once(&format!("\n-- {name}\n"))?.1;
            Some(behind.split_once(&format!("-- {next}\n")).map_or(behind, |(piece, _)| piece))
        };
        let (given, list, prints) =
            match (piece("given", "marks"), piece("marks", "prints"), piece("prints", "=")) {
                (Some(given), Some(list), Some(prints)) => (given, list, prints),
                _ => continue,
            };
        let told: Vec<&str> = prints.lines().skip(1).take(list.lines().count()).collect();
        if !prints.starts_with("marks ") || !told.iter().any(|line| line.ends_with(" 14")) {
            continue;
        }
        programs += 1;
        let program = Program::read(given.as_bytes()).expect("a program");
        let marks = marks::read(list.as_bytes()).expect("a list");
        for (line, told) in told.iter().enumerate() {
            let line = line as u32;
            let answer = why(given.as_bytes(), list.as_bytes(), line).expect("they are taken");
            let verdict = answer.verdict.number();
            assert!(told.ends_with(&format!(" {verdict}")), "line {line} of {case}");
            let (path, culprit) = answer.reason.map_or((Vec::new(), 0), |reason| {
                (reason.path, u32::from(reason.culprit.number()))
            });
            let because = oracle::paths::Because { verdict, path, culprit };
            let shown = check_why(&program, &marks, line, &because);
            let expected = if verdict == 14 { Shown::Way } else { Shown::Nothing };
            assert_eq!(shown, Ok(expected), "line {line} of {case}");
            reasons += u32::from(verdict == 14);
        }
    }
    assert!(programs >= 45 && reasons >= 56, "{programs} programs, {reasons} reasons");
}

/// Back through statement 1, to which nothing steps, and which is the entry.
#[test]
fn reasons_through_statement_1() {
    let program = ["read i9", "skip", "i2 := i1 + i3", "write i2"];
    assert_reason(&program, "3: mark(rpl, i1, i3)", 0, &[3, 2, 1], Culprit::NothingCopied);
    assert_reason(&program, "3: mark(rpl, i1, i9)", 0, &[3, 2, 1], Culprit::OperandRedefined);
    assert_reason(&program, "3: mark(cse, i9, i1 + i3)", 0, &[3, 2, 1], Culprit::Redefined);
    assert_reason(&program, "3: mark(cse, i4, i1 + i3)", 0, &[3, 2, 1], Culprit::NothingCopied);
    let program = ["read i1", "write i1"];
    assert_reason(&program, "2: mark(rpl, i1, i0)", 0, &[2, 1], Culprit::Redefined);
}

/// By 1,024 statements of a chain, and once round to the mark's own, the most that there are.
#[test]
fn the_longest_reasons() {
    for count in [256, STATEMENTS] {
        let mut chain = lines(count);
        chain[1] = "i1 := 7".to_string();
        chain[count - 1] = "write i1".to_string();
        let path: Vec<u32> = (2..=count as u32).collect();
        assert_reason(&chain, "2: mark(rm, i1, 7)", 0, &path, Culprit::Used);
        chain[count - 2] = "i2 := i5".to_string();
        let path: Vec<u32> = (1..count as u32).rev().collect();
        let mark = format!("{}: mark(rpl, i5, 7)", count - 1);
        assert_reason(&chain, &mark, 0, &path, Culprit::NothingCopied);
    }
    // All but the first and the last go round; 2 uses what it sets itself.
    let mut circle = lines(STATEMENTS);
    circle[1] = "i1 := i1 + 1".to_string();
    circle[STATEMENTS - 2] = format!("if i0 goto 2 else {STATEMENTS}");
    let path: Vec<u32> = (2..STATEMENTS as u32).chain([2]).collect();
    assert_reason(&circle, "2: mark(rm, i1, i1 + 1)", 0, &path, Culprit::Used);
}

#[test]
fn refused_lists() {
    for (program, number) in refused_programs() {
        let refused = why(&program, b"rubbish", 0).expect_err("the program is refused");
        assert_eq!(refused.number(), number);
    }
    let p = text(&p());
    assert_eq!(why(&p, b"3: mark(rm, i2, 7)", 0), Err(Refusal::MarkMisspelled));
    let many = b"3: mark(rm, i2, 7)\n".repeat(1_025);
    assert_eq!(why(&p, &many, 0), Err(Refusal::MarkCount));
}
