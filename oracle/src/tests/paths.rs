//! The check of paths: it takes right ones, and refuses each kind of wrong one.

use super::{lines, P};
use crate::condition::Condition;
use crate::marks;
use crate::paths::{check_why, check_witness, Because, Shown, Witnessed};
use crate::program::Program;

fn witnessed(program: &str, asked: (&str, u32, u32), told: Witnessed) -> Result<Shown, String> {
    let program = Program::read(program.as_bytes()).expect("a program");
    let condition = Condition::read(asked.0.as_bytes()).expect("a condition");
    check_witness(&program, &condition, asked.1, asked.2, &told)
}

fn path(statements: &[u32], turn: u32) -> Witnessed {
    Witnessed::Path(statements.to_vec(), turn)
}

#[test]
fn right_paths_are_taken() {
    let taken = |asked, told, shown| assert_eq!(witnessed(P, asked, told), Ok(shown), "{asked:?}");
    taken(("EX exit", 1, 5), path(&[5, 8], 0), Shown::Way);
    taken(("AX exit", 1, 5), path(&[5, 6], 0), Shown::Way);
    taken(("EF exit", 1, 1), path(&[1, 2, 3, 4, 5, 8], 0), Shown::Way);
    taken(("EG true", 1, 4), path(&[4, 5, 6, 7], 1), Shown::Round);
    taken(("EG true", 1, 4), path(&[4, 5, 8], 3), Shown::Round);
    taken(("!AF exit", 2, 3), path(&[3, 4, 5, 6, 7], 2), Shown::Round);
    taken(("AG !use(i3)", 2, 8), path(&[8], 0), Shown::Way);
    taken(("E[!def(i2) U use(i2)]", 3, 5), path(&[5, 6, 7, 4], 0), Shown::Way);
    taken(("E[!def(i2) W exit]", 3, 4), path(&[4, 5, 8], 0), Shown::Way);
    taken(("E[!def(i2) W exit]", 3, 4), path(&[4, 5, 6, 7], 1), Shown::Round);
    taken(("A[true U exit]", 2, 7), path(&[7, 4, 5, 6], 1), Shown::Round);
    taken(("A[use(i0) U exit]", 2, 5), path(&[5, 6, 7, 4], 0), Shown::Way);
    taken(("A[use(i0) W exit]", 2, 5), path(&[5, 6, 7, 4], 0), Shown::Way);
    taken(("ER entry", 1, 4), path(&[4, 3, 2, 1], 0), Shown::Way);
    taken(("EM true", 1, 2), path(&[2, 1], 2), Shown::Round);
    taken(("EY entry", 1, 1), path(&[1, 1], 0), Shown::Way);
    taken(("AF exit", 1, 8), Witnessed::None(true), Shown::Nothing);
    taken(("!EF exit", 2, 9), Witnessed::None(false), Shown::Nothing);
    taken(("(exit & EF exit)", 3, 8), Witnessed::None(true), Shown::Nothing);
}

#[test]
fn wrong_paths_are_refused() {
    let refused = |asked, told| assert!(witnessed(P, asked, told).is_err(), "{asked:?}");
    // It isn't told, or is told where there is none, or the truth is wrong.
    refused(("EF exit", 1, 1), Witnessed::None(true));
    refused(("AF exit", 1, 8), path(&[8], 1));
    refused(("AF exit", 1, 8), Witnessed::None(false));
    refused(("!AF exit", 2, 8), Witnessed::None(true));
    refused(("EF exit", 1, 9), Witnessed::None(true));
    refused(("EF exit", 2, 8), path(&[8], 0));
    // It starts elsewhere, leaves the program, or leaves a step out.
    refused(("EF exit", 1, 5), path(&[7, 8], 0));
    refused(("EF exit", 1, 5), path(&[], 0));
    refused(("EF exit", 1, 8), path(&[9], 0));
    refused(("EF exit", 1, 3), path(&[3, 5, 8], 0));
    // It goes forward where backward is asked for.
    refused(("ER entry", 1, 4), path(&[4, 5, 8], 0));
    refused(("ER use(i0)", 1, 4), path(&[4, 5], 0));
    // It isn't the shortest, or comes by what must not be passed, or doesn't come there.
    refused(("EF exit", 1, 5), path(&[5, 6, 7, 8], 0));
    refused(("E[use(i0) U exit]", 2, 5), path(&[5, 6, 7, 8], 0));
    refused(("E[!def(i0) U exit]", 3, 4), path(&[4, 5, 6, 7, 8], 0));
    refused(("EF exit", 1, 5), path(&[5, 6, 7], 0));
    refused(("AG !exit", 2, 5), path(&[5, 6], 0));
    refused(("AX exit", 1, 5), path(&[5, 8], 0));
    refused(("EX exit", 1, 5), path(&[5, 8, 8], 0));
    refused(("EX exit", 1, 5), path(&[5, 8], 2));
    // It turns to where its last statement doesn't step, or beyond its end.
    refused(("AF exit", 1, 4), path(&[4, 5, 6, 7], 2));
    refused(("AF exit", 1, 4), path(&[4, 5, 6, 7], 5));
    // It has no turn where it has to go round, and one where it must not.
    refused(("AF exit", 1, 4), path(&[4, 5, 6, 7], 0));
    refused(("EF exit", 1, 8), path(&[8], 1));
    refused(("A[true W false]", 2, 8), path(&[8], 1));
    // It goes round by what speaks otherwise.
    refused(("EG !def(i0)", 2, 4), path(&[4, 5, 6, 7], 1));
    // It has more statements than the program.
    refused(("AF exit", 1, 4), path(&[4, 5, 6, 7, 4, 5, 6, 7, 4, 5, 6, 7], 1));
}

fn because(program: &str, list: &str, line: u32, told: (u8, &[u32], u32)) -> Result<Shown, String> {
    let program = Program::read(program.as_bytes()).expect("a program");
    let list = marks::read(lines(list).as_bytes()).expect("a list");
    let (verdict, path, culprit) = told;
    check_why(&program, &list, line, &Because { verdict, path: path.to_vec(), culprit })
}

#[test]
fn right_reasons_are_taken() {
    let taken = |program: &str, list: &str, line, told: (u8, &[u32], u32)| {
        let shown = if told.0 == 14 { Shown::Way } else { Shown::Nothing };
        assert_eq!(because(program, list, line, told), Ok(shown), "{list}");
    };
    taken(P, "3: mark(rm, i2, 7)", 0, (14, &[3, 4], 1));
    taken(P, "3: mark(rm, i2, 7)", 1, (11, &[], 0));
    taken(P, "4: mark(rpl, i2, 7)", 0, (0, &[], 0));
    taken(P, "4: mark(rpl, i1, i0)", 0, (14, &[4, 7, 6], 4));
    taken(P, "6: mark(rpl, i0, i1)", 0, (14, &[6, 5, 4, 3, 2], 4));
    taken(P, "6: mark(rpl, i0, i1)", 0, (14, &[6, 5, 4, 7, 6], 3));
    taken(P, "4: mark(rpl, i1, 3)", 0, (14, &[4, 3, 2], 3));
    let sums = lines("read i0 / i1 := i0 + 1 / i2 := i0 + 1 / write i2");
    taken(&sums, "3: mark(cse, i1, i0 + 1)", 0, (0, &[], 0));
    taken(&sums, "2: mark(rm, i1, i0 + 1)", 0, (0, &[], 0));
    taken(&sums, "2: mark(rm, i1, i0 + 1) / 3: mark(cse, i1, i0 + 1)", 0, (14, &[2, 3], 2));
    taken(&sums, "2: mark(cse, i5, i3 + 1)", 0, (13, &[], 0));
    taken(&sums, "3: mark(cse, i3, i0 + 1)", 0, (14, &[3, 2, 1], 4));
    let start = lines("read i9 / i1 := i0 + 1 / write i1");
    taken(&start, "2: mark(cse, i5, i0 + 1)", 0, (14, &[2, 1], 5));
    taken(&start, "2: mark(rpl, i0, 4)", 0, (14, &[2, 1], 5));
    taken(&start, "2: mark(rpl, i0, i9)", 0, (14, &[2, 1], 4));
}

#[test]
fn wrong_reasons_are_refused() {
    let refused = |list: &str, line, told| assert!(because(P, list, line, told).is_err(), "{list}");
    refused("3: mark(rm, i2, 7)", 0, (14, &[], 0));
    refused("3: mark(rm, i2, 7)", 0, (0, &[], 0));
    refused("3: mark(rm, i2, 7)", 0, (14, &[3, 4], 2));
    refused("3: mark(rm, i2, 7)", 0, (14, &[3, 4], 3));
    refused("3: mark(rm, i2, 7)", 0, (14, &[3], 1));
    refused("3: mark(rm, i2, 7)", 0, (14, &[4], 1));
    refused("3: mark(rm, i2, 7)", 0, (14, &[3, 4, 5, 6, 7, 4], 1));
    refused("3: mark(rm, i2, 7)", 0, (14, &[3, 2], 1));
    refused("3: mark(rm, i2, 7)", 1, (11, &[3, 4], 1));
    refused("4: mark(rpl, i2, 7)", 0, (0, &[4], 0));
    refused("4: mark(rpl, i2, 7)", 0, (0, &[], 1));
    refused("4: mark(rpl, i1, i0)", 0, (14, &[4, 6], 4));
    refused("4: mark(rpl, i1, i0)", 0, (14, &[4, 7, 6], 3));
    refused("4: mark(rpl, i1, i0)", 0, (14, &[4, 5, 6], 4));
    // By a copy.
    refused("4: mark(rpl, i1, i0)", 0, (14, &[4, 3, 2, 1], 4));
    // By a definition of X.
    refused("2: mark(rm, i1, i0)", 0, (14, &[2, 3], 1));
}
