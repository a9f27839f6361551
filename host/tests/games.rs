//! Executed cases of `force`. Expected numbers and arms are worked out from the request's words, by hand.

mod common;

use common::{lines, refused_programs, text, P};
use rewrites::{force, tabulate, Arm, Forced, Refusal};
use rewrites::{STATEMENTS, TABLE_WORDS, UNFORCED};

const NONE: u32 = UNFORCED;
const GOTO: u8 = 1;
const ELSE: u8 = 2;

/// What is told; the table is that of the condition alone.
fn told<L: AsRef<str>>(program: &[L], driver: &str, condition: &str) -> Forced {
    let program = text(program);
    let (mut table, mut alone) = ([7; TABLE_WORDS], [7; TABLE_WORDS]);
    let told = force(&program, driver.as_bytes(), condition.as_bytes(), &mut table);
    let told = told.expect("all is taken");
    let answer = tabulate(&program, condition.as_bytes(), &mut alone).expect("it is taken");
    assert_eq!(
        (told.parts, told.satisfied, told.first),
        (answer.parts, answer.satisfied, answer.first)
    );
    assert!(table == alone, "{condition}");
    let count = program.iter().filter(|&&byte| byte == 10).count();
    assert!(told.number[count..].iter().all(|&number| number == UNFORCED));
    assert!(told.arm[count..].iter().all(|&arm| arm == 0));
    told
}

/// A program on which these numbers and arms are told, all others 0.
fn assert_told<L: AsRef<str>>(
    program: &[L],
    driver: &str,
    condition: &str,
    numbers: &[u32],
    arms: &[(usize, u8)],
) {
    let told = told(program, driver, condition);
    assert_eq!(told.number[..program.len()], *numbers, "{driver}, {condition}");
    let mut expected = [0; STATEMENTS];
    arms.iter().for_each(|&(n, arm)| expected[n - 1] = arm);
    assert_eq!(told.arm[..program.len()], expected[..program.len()], "{driver}, {condition}");
    for n in 0..=STATEMENTS as u32 + 1 {
        let at = (n as usize).checked_sub(1).filter(|&at| at < program.len());
        let number = at.map(|at| numbers[at]).filter(|&number| number != NONE);
        let arm = match at.map(|at| expected[at]) {
            Some(GOTO) => Some(Arm::Goto),
            Some(ELSE) => Some(Arm::Else),
            _ => None,
        };
        assert_eq!((told.number_at(n), told.arm_at(n)), (number, arm), "statement {n}");
    }
}

#[test]
fn games_on_p() {
    let p: Vec<&str> = P.lines().collect();
    let none = [NONE; 8];
    let only = |n: usize| {
        let mut numbers = none;
        numbers[n - 1] = 0;
        numbers
    };
    assert_told(&p, "i0", "exit", &[5, 4, 3, 2, 1, 2, 1, 0], &[(5, ELSE), (7, ELSE)]);
    assert_told(&p, "", "exit", &only(8), &[(5, GOTO), (7, GOTO)]);
    assert_told(&p, "i0", "node(6)", &[5, 4, 3, 2, 1, 0, 3, NONE], &[(5, GOTO), (7, GOTO)]);
    assert_told(&p, "", "node(6)", &only(6), &[(5, ELSE), (7, GOTO)]);
    assert_told(&p, "i1 i0", "use(i2)", &[3, 2, 1, 0, 3, 2, 1, NONE], &[(5, GOTO), (7, GOTO)]);
    let before = [3, 2, 1, 0, NONE, NONE, NONE, NONE];
    assert_told(&p, "", "use(i2)", &before, &[(5, GOTO), (7, ELSE)]);
    assert_told(&p, "i0", "true", &[0; 8], &[]);
    assert_told(&p, "", "true", &[0; 8], &[]);
    assert_told(&p, "i0", "false", &none, &[]);
    assert_told(&p, "", "false", &none, &[(5, GOTO), (7, GOTO)]);
    assert_told(&p, "i0", "EY node(6)", &[6, 5, 4, 3, 2, 1, 0, NONE], &[(5, GOTO)]);
}

/// The order of the names, and names that no `if` tests, make no difference.
#[test]
fn lists_that_name_the_same_ifs() {
    let p: Vec<&str> = P.lines().collect();
    let all: Vec<String> = (0..64).rev().map(|x| format!("i{x}")).collect();
    for driver in ["i0 i1", "i1 i0", "i63 i0 i9", &all.join(" ")] {
        assert_eq!(told(&p, driver, "exit"), told(&p, "i0", "exit"), "{driver}");
    }
    for driver in ["i1", "i1 i2 i3", "i63"] {
        assert_eq!(told(&p, driver, "exit"), told(&p, "", "exit"), "{driver}");
    }
}

#[test]
fn games_of_two_players() {
    let program = [
        "read i0",
        "if i1 goto 4 else 3",
        "if i0 goto 2 else 5",
        "if i2 goto 5 else 6",
        "i3 := 1",
        "if i1 goto 2 else 7",
        "write i3",
    ];
    assert_told(&program, "i1", "exit", &[5, 4, 5, 3, 2, 1, 0], &[(2, GOTO), (6, ELSE)]);
    assert_told(
        &program,
        "i1 i0",
        "def(i3)",
        &[3, 2, 1, 4, 0, 3, NONE],
        &[(2, ELSE), (3, ELSE), (6, GOTO)],
    );
    let only = [NONE, NONE, NONE, NONE, 0, NONE, NONE];
    assert_told(&program, "i1", "def(i3)", &only, &[(3, GOTO), (4, ELSE)]);
}

#[test]
fn a_chain_of_the_most_statements() {
    let numbers: Vec<u32> = (0..1_024).rev().collect();
    assert_eq!(numbers[0], 1_023);
    assert_told(&lines(1_024), "", "exit", &numbers, &[]);
    assert_told(&lines(1_024), "i0 i1", "exit", &numbers, &[]);
    // Against the order of lines: each `if` goes to the line before or round.
    let mut program: Vec<String> =
        (1..=1_024).map(|n| format!("if i0 goto {} else {}", (n - 1).max(2), n)).collect();
    (program[0], program[1_023]) = ("read i0".to_string(), "write i0".to_string());
    program[1] = "if i1 goto 1024 else 1024".to_string();
    let numbers: Vec<u32> = [vec![2, 1], (2..1_023).collect(), vec![0]].concat();
    let arms: Vec<(usize, u8)> = (3..1_024).map(|n| (n, GOTO)).collect();
    assert_told(&program, "i0", "exit", &numbers, &arms);
}

#[test]
fn arms_by_their_numbers() {
    let program = ["read i0", "if i0 goto 3 else 6", "skip", "skip", "skip", "write i0"];
    assert_told(&program, "i0", "exit", &[2, 1, 3, 2, 1, 0], &[(2, ELSE)]);
    assert_told(&program, "", "exit", &[5, 4, 3, 2, 1, 0], &[]);
    let turned = ["read i0", "if i0 goto 6 else 3", "skip", "skip", "skip", "write i0"];
    assert_told(&turned, "i0", "exit", &[2, 1, 3, 2, 1, 0], &[(2, GOTO)]);
    assert_told(&turned, "", "exit", &[5, 4, 3, 2, 1, 0], &[]);
    // A tie, and equal targets.
    let tie = ["read i0", "if i0 goto 4 else 3", "if i1 goto 5 else 5", "skip", "write i0"];
    assert_told(&tie, "i0", "exit", &[3, 2, 1, 1, 0], &[(2, GOTO)]);
    assert_told(&tie, "i1", "exit", &[3, 2, 1, 1, 0], &[(3, GOTO)]);
    assert_told(&tie, "", "entry", &[0, NONE, NONE, NONE, NONE], &[(2, GOTO), (3, GOTO)]);
    // The arm of the lower number isn't enough where the unit picks.
    let later =
        ["read i0", "if i0 goto 5 else 4", "skip", "if i1 goto 5 else 5", "skip", "write i0"];
    assert_told(&later, "", "exit", &[4, 3, 3, 2, 1, 0], &[]);
    assert_told(&later, "i0", "exit", &[3, 2, 3, 2, 1, 0], &[(2, GOTO)]);
    // The only arm that has a number.
    let one = ["read i0", "if i0 goto 2 else 3", "write i0"];
    assert_told(&one, "i0", "exit", &[2, 1, 0], &[(2, ELSE)]);
    assert_told(&one, "", "exit", &[NONE, NONE, 0], &[(2, GOTO)]);
}

/// What holds at an `if` leaves it without an arm, and `write` stays where it is.
#[test]
fn where_the_condition_is_true_there_is_no_arm() {
    let program = ["read i0", "if i0 goto 3 else 4", "skip", "write i0"];
    for driver in ["i0", ""] {
        assert_told(&program, driver, "node(2)", &[1, 0, NONE, NONE], &[]);
    }
    assert_told(&program, "i0", "node(3)", &[2, 1, 0, NONE], &[(2, GOTO)]);
    assert_told(&program, "", "node(3)", &[NONE, NONE, 0, NONE], &[(2, ELSE)]);
}

/// Values play no part: both tests of one variable are free.
#[test]
fn two_tests_of_a_variable_may_go_different_ways() {
    let program = ["read i0", "if i0 goto 3 else 5", "if i0 goto 5 else 4", "skip", "write i0"];
    assert_told(&program, "i0", "node(4)", &[3, 2, 1, 0, NONE], &[(2, GOTO), (3, ELSE)]);
}

#[test]
fn refusals_come_in_order() {
    let mut table = [7; TABLE_WORDS];
    let mut number = |program: &[u8], driver: &str, condition: &str, room: usize| {
        let (driver, condition) = (driver.as_bytes(), condition.as_bytes());
        let answer = force(program, driver, condition, &mut table[..room]);
        assert!(answer.is_ok() || table == [7; TABLE_WORDS]);
        answer.map_or_else(Refusal::number, |_| 0)
    };
    let p = P.as_bytes();
    let long = "!".repeat(1_025);
    for wrong in [
        " ",
        "i0 ",
        " i0",
        "i0  i1",
        "i0 i0",
        "i64",
        "i063",
        "i70",
        "i99",
        "i630",
        "i00",
        "i0\n",
        "\n",
        "i0,i1",
        "i",
        "0",
        "I0",
        "i01",
        "i-1",
        "i0\ti1",
        "i0 i1 i0",
        "i0i1",
        "i256",
        "i4294967296",
        "i0\0",
        "use(i0)",
        "i63 i63",
    ] {
        for condition in ["exit", "rubbish", &long] {
            assert_eq!(number(p, wrong, condition, TABLE_WORDS), 22, "{wrong:?}");
            assert_eq!(number(b"", wrong, condition, TABLE_WORDS - 1), 1, "{wrong:?}");
        }
        for (program, refused) in refused_programs() {
            assert_eq!(number(&program, wrong, "rubbish", TABLE_WORDS), refused, "{wrong:?}");
        }
    }
    assert_eq!(number(p, "i0", &long, TABLE_WORDS), 6);
    assert_eq!(number(p, "i0", "rubbish", TABLE_WORDS), 7);
    assert_eq!(number(p, "", "", TABLE_WORDS), 7);
    assert_eq!(number(p, "", &("!".repeat(64) + "true"), TABLE_WORDS), 8);
    assert_eq!(number(p, "", "exit", TABLE_WORDS - 1), 1);
    assert_eq!(number(p, "", "exit", TABLE_WORDS), 0);
    assert_eq!(Refusal::Driver.number(), 22);
}
