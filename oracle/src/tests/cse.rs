//! Work done twice: the cases of the change request.

use super::constants::list_refusal;
use super::{all_judged, naive};
use crate::condition::Condition;
use crate::generate::{self, Random, WrongReuse};
use crate::machine::{first_difference, VALUES};
use crate::marks::{self, gained_uses, Judge, Kind, Mark, MOST_MARKS};
use crate::program::{Expression, Program};

/// The text of these statements behind `read i0`.
fn text(statements: &[&str]) -> String {
    let lines = statements.iter().map(|statement| format!("{statement}\n"));
    "read i0\n".to_string() + &lines.collect::<String>()
}

/// Both programs run alike, step by step, from many starts.
fn assert_alike(given: &str, new: &str) {
    let programs = [given, new].map(|text| Program::read(text.as_bytes()).expect("a program"));
    let random = &mut Random::new(60);
    for case in 0..60_u32 {
        let values = match case {
            0 => [0; VALUES],
            1 => std::array::from_fn(|x| 1000 + x as u32),
            _ => generate::values(random),
        };
        let input = if case < 10 { case } else { generate::word(random) };
        let difference = first_difference(&programs[0], &programs[1], values, input, 200);
        assert_eq!(difference, None, "{given}{new}");
    }
}

/// The marks get these verdicts, and these statements are made. The programs run alike.
fn assert_judged(statements: &[&str], marks: &[(&str, u8)], made: &[(usize, &str)]) {
    let list: String = marks.iter().map(|(mark, _)| format!("{mark}\n")).collect();
    let wanted: Vec<u8> = marks.iter().map(|&(_, verdict)| verdict).collect();
    let mut new = statements.to_vec();
    made.iter().for_each(|&(n, statement)| new[n - 2] = statement);
    let given = text(statements);
    assert_eq!(all_judged(&given, &list), (wanted, text(&new)), "{given}{list}");
    assert_alike(&given, &text(&new));
}

/// The same with the lines in each order that turning and reversing them gives; they name different statements.
fn assert_judged_in_any_order(statements: &[&str], marks: &[(&str, u8)], made: &[(usize, &str)]) {
    let mut marks = marks.to_vec();
    for _ in 0..marks.len() {
        marks.rotate_left(1);
        assert_judged(statements, &marks, made);
        let back: Vec<(&str, u8)> = marks.iter().rev().copied().collect();
        assert_judged(statements, &back, made);
    }
}

#[test]
fn a_right_side_of_one_or_two_operands_is_spelled() {
    for right in [
        "i0",
        "7",
        "-40",
        "i0 + 1",
        "1 + i0",
        "i63 - i63",
        "5 * 6",
        "i0 / 0",
        "-1 < -1",
        "i0 = i1",
        "-2147483648 + -2147483648",
    ] {
        let line = format!("3: mark(cse, i1, {right})\n");
        assert_eq!(list_refusal(&line), 0, "{right}");
        let read = marks::read(line.as_bytes()).expect("a list");
        assert_eq!(marks::text(&read), line.as_bytes());
    }
    for wrong in [
        "i0 + 1 + 2",
        "i0 + i1 + i2",
        "",
        "i0 +",
        "+ 1",
        "i0+1",
        "i0 +1",
        "i0  + 1",
        "i0 + 1 ",
        " i0 + 1",
        "i64 + 1",
        "i063 + 1",
        "i0 + 01",
        "i0 + -0",
        "i0 + 2147483648",
        "i0 % 1",
        "i1 := i0 + 1",
        "(i0 + 1)",
        "i0 + 1, 7",
    ] {
        assert_eq!(list_refusal(&format!("3: mark(cse, i1, {wrong})\n")), 9, "{wrong}");
    }
    for wrong in [
        "3: mark(cs, i1, i0 + 1)",
        "3: mark(csee, i1, i0 + 1)",
        "3: mark(CSE, i1, i0 + 1)",
        "3: mark(cse , i1, i0 + 1)",
        "3: mark(cse,i1, i0 + 1)",
        "3: mark( cse, i1, i0 + 1)",
        "3: mark(cse, i1,i0 + 1)",
        "3: mark(cse, 1, i0 + 1)",
        "3: mark(cse, i64, i0 + 1)",
        "3: mark(cse, i1)",
        "3: mark(cse)",
        "3: mark(cse i1, i0 + 1)",
        "-3: mark(cse, i1, i0 + 1)",
        "3: mark(cse, i1, i0 + 1",
        "3: mark(cse, i1, i0 + 1))",
        "3: mark(rcse, i1, i0 + 1)",
        "3: mark(cpl, i1, i0)",
        "3: mark(rse, i1, i0 + 1)",
        "3: mark(cm, i1, i0 + 1)",
    ] {
        assert_eq!(list_refusal(&format!("{wrong}\n")), 9, "{wrong}");
    }
    // The longest line of a list.
    let longest = "2147483647: mark(cse, i63, -2147483648 + -2147483648)\n";
    assert_eq!(longest.len(), 54);
    assert_eq!(list_refusal(&longest.repeat(MOST_MARKS)), 0);
    assert_eq!(list_refusal(&longest.repeat(MOST_MARKS + 1)), 10);
}

#[test]
fn it_fits_the_same_right_side_of_two_operands() {
    let program =
        ["i1 := i0 + 1", "i2 := i0 + 1", "i3 := i0", "if i0 goto 6 else 6", "skip", "write i2"];
    for (mark, verdict) in [
        ("3: mark(cse, i1, i0 + 1)", 0),
        // Whatever variable is asked for.
        ("3: mark(cse, i2, i0 + 1)", 14),
        ("2: mark(cse, i1, i0 + 1)", 14),
        ("3: mark(cse, i1, 1 + i0)", 13),
        ("3: mark(cse, i1, i0 - 1)", 13),
        ("3: mark(cse, i1, i0 + 2)", 13),
        ("3: mark(cse, i1, i0 + i1)", 13),
        ("3: mark(cse, i1, i0)", 13),
        // One operand.
        ("4: mark(cse, i1, i0)", 13),
        ("4: mark(cse, i3, i0)", 13),
        ("1: mark(cse, i0, i0 + 1)", 13),
        ("5: mark(cse, i1, i0 + 1)", 13),
        ("6: mark(cse, i1, i0 + 1)", 13),
        ("7: mark(cse, i1, i0 + 1)", 13),
        ("7: mark(cse, i2, i2)", 13),
        ("0: mark(cse, i1, i0 + 1)", 11),
        ("8: mark(cse, i1, i0 + 1)", 11),
    ] {
        let made: &[(usize, &str)] = if verdict == 0 { &[(3, "i2 := i1")] } else { &[] };
        assert_judged(&program, &[(mark, verdict)], made);
    }
    // A copy that is there already.
    let copies = ["i1 := i0", "i2 := i0", "write i2"];
    assert_judged(&copies, &[("3: mark(cse, i1, i0)", 13)], &[]);
    let constants = ["i1 := 7", "i2 := 7", "write i2"];
    assert_judged(&constants, &[("3: mark(cse, i1, 7)", 13)], &[]);
}

#[test]
fn a_reader_that_a_list_adds_keeps_what_it_reads() {
    let program = ["i1 := i0 + 1", "i2 := i0 + 1", "write i2"];
    let rm = "2: mark(rm, i1, i0 + 1)";
    let cse = "3: mark(cse, i1, i0 + 1)";
    assert_judged(&program, &[(rm, 14), (cse, 0)], &[(3, "i2 := i1")]);
    assert_judged(&program, &[(cse, 0), (rm, 14)], &[(3, "i2 := i1")]);
    assert_judged(&program, &[(rm, 0)], &[(2, "skip")]);
    assert_judged(&program, &[(cse, 0)], &[(3, "i2 := i1")]);
    // An earlier line names 3, accepted or not: the `cse` isn't, and adds no use.
    let earlier = "3: mark(rm, i2, i0 + 1)";
    assert_judged(&program, &[(earlier, 14), (cse, 12), (rm, 0)], &[(2, "skip")]);
    assert_judged(&program, &[(rm, 0), (earlier, 14), (cse, 12)], &[(2, "skip")]);
    // A later one gets 12 itself.
    assert_judged(&program, &[(cse, 0), (earlier, 12), (rm, 14)], &[(3, "i2 := i1")]);
    // The new program is judged by what it shows.
    let new = ["i1 := i0 + 1", "i2 := i1", "write i2"];
    assert_judged(&new, &[(rm, 14)], &[]);
}

#[test]
fn a_cse_that_is_refused_adds_no_use() {
    // 14: i0 is set in between.
    let program = ["i1 := i0 + 1", "i0 := 3", "i2 := i0 + 1", "write i2"];
    let marks = [("4: mark(cse, i1, i0 + 1)", 14), ("2: mark(rm, i1, i0 + 1)", 0)];
    assert_judged_in_any_order(&program, &marks, &[(2, "skip")]);
    // 13.
    let program = ["i1 := i0 + 1", "i2 := i0 + 2", "write i2"];
    for unfit in ["3: mark(cse, i1, i0 + 1)", "4: mark(cse, i1, i0 + 1)"] {
        let marks = [(unfit, 13), ("2: mark(rm, i1, i0 + 1)", 0)];
        assert_judged_in_any_order(&program, &marks, &[(2, "skip")]);
    }
    let program = ["i1 := i0", "i2 := i0", "write i2"];
    let marks = [("3: mark(cse, i1, i0)", 13), ("2: mark(rm, i1, i0)", 0)];
    assert_judged_in_any_order(&program, &marks, &[(2, "skip")]);
    // 11.
    let program = ["i1 := i0 + 1", "i2 := i0 + 1", "write i2"];
    for lacking in ["0: mark(cse, i1, i0 + 1)", "5: mark(cse, i1, i0 + 1)"] {
        let marks = [(lacking, 11), ("2: mark(rm, i1, i0 + 1)", 0)];
        assert_judged_in_any_order(&program, &marks, &[(2, "skip")]);
    }
}

#[test]
fn the_use_is_of_that_variable_and_at_that_statement() {
    // i1 and i4 hold the sum, and i4 is read.
    let program = ["i1 := i0 + 1", "i4 := i0 + 1", "i2 := i0 + 1", "write i2"];
    let marks = [
        ("4: mark(cse, i4, i0 + 1)", 0),
        ("2: mark(rm, i1, i0 + 1)", 0),
        ("3: mark(rm, i4, i0 + 1)", 14),
    ];
    assert_judged_in_any_order(&program, &marks, &[(2, "skip"), (4, "i2 := i4")]);
    // 4 sets i1 again, for nothing: no path from it comes to 3.
    let program = ["i1 := i0 + 1", "i2 := i0 + 1", "i1 := 4", "write i2"];
    let marks = [("3: mark(cse, i1, i0 + 1)", 0), ("4: mark(rm, i1, 4)", 0)];
    assert_judged_in_any_order(&program, &marks, &[(3, "i2 := i1"), (4, "skip")]);
    // Neither a table nor a fit of `rpl` takes it for one.
    let program = text(&["i1 := i0 + 1", "i2 := i0 + 1", "write i2"]);
    assert_eq!(super::table(&program, "use(i1)"), [0]);
    let marks = [("3: mark(cse, i1, i0 + 1)", 0), ("3: mark(rpl, i1, i0)", 12)];
    assert_judged(&["i1 := i0 + 1", "i2 := i0 + 1", "write i2"], &marks, &[(3, "i2 := i1")]);
    assert_eq!(all_judged(&program, "3: mark(rpl, i1, i0)\n").0, [13]);
}

#[test]
fn the_source_stands_for_the_sum_on_every_path() {
    // Its own operand changes with it.
    let program = ["i0 := i0 < 7", "i0 := i0 < 7", "write i0"];
    assert_judged(&program, &[("3: mark(cse, i0, i0 < 7)", 14)], &[]);
    // No source.
    let program = ["i1 := i2 * 3", "write i1"];
    assert_judged(&program, &[("2: mark(cse, i3, i2 * 3)", 14)], &[]);
    assert_judged(&program, &[("2: mark(cse, i1, i2 * 3)", 14)], &[]);
    // The order of operands counts.
    let program = ["i1 := i0 + i2", "i3 := i2 + i0", "write i3"];
    assert_judged(&program, &[("3: mark(cse, i1, i2 + i0)", 14)], &[]);
    // The sum is set into one of its operands after the source has it.
    let program = ["i1 := i0 + 1", "i0 := i0 + 1", "write i0"];
    let marks = [("3: mark(cse, i1, i0 + 1)", 0), ("2: mark(rm, i1, i0 + 1)", 14)];
    assert_judged_in_any_order(&program, &marks, &[(3, "i0 := i1")]);
    // Constants alone.
    let program = ["i1 := 5 + 6", "i2 := 5 + 6", "write i2"];
    let marks = [("3: mark(cse, i1, 5 + 6)", 0), ("2: mark(rm, i1, 5 + 6)", 14)];
    assert_judged_in_any_order(&program, &marks, &[(3, "i2 := i1")]);
    // Set anew before it is read.
    for between in ["i1 := 5", "i0 := 5", "i1 := i1", "i0 := i0"] {
        let program = ["i1 := i0 + 1", between, "i2 := i0 + 1", "write i2"];
        assert_judged(&program, &[("4: mark(cse, i1, i0 + 1)", 14)], &[]);
    }
}

#[test]
fn the_same_variable_again() {
    let program = ["i1 := i0 + 1", "i1 := i0 + 1", "write i1"];
    let marks = [("3: mark(cse, i1, i0 + 1)", 0), ("2: mark(rm, i1, i0 + 1)", 14)];
    assert_judged_in_any_order(&program, &marks, &[(3, "i1 := i1")]);
    assert_judged(&program, &[("2: mark(rm, i1, i0 + 1)", 0)], &[(2, "skip")]);
}

#[test]
fn divisions_are_computed_once() {
    let program = ["i1 := i0 / i2", "i3 := i0 / i2", "write i3"];
    let marks = [("3: mark(cse, i1, i0 / i2)", 0), ("2: mark(rm, i1, i0 / i2)", 18)];
    assert_judged_in_any_order(&program, &marks, &[(3, "i3 := i1")]);
    let program = ["i1 := i0 / 2", "i3 := i0 / 2", "write i3"];
    let marks = [("3: mark(cse, i1, i0 / 2)", 0), ("2: mark(rm, i1, i0 / 2)", 14)];
    assert_judged_in_any_order(&program, &marks, &[(3, "i3 := i1")]);
    // A `cse` never gets 18.
    let program = ["i1 := i0 / i2", "write i1"];
    assert_judged(&program, &[("2: mark(cse, i3, i0 / i2)", 14)], &[]);
}

#[test]
fn arms_of_an_if() {
    // Set anew on one arm.
    let program = ["i1 := i0 + 1", "if i0 goto 4 else 5", "i1 := 3", "i2 := i0 + 1", "write i2"];
    assert_judged(&program, &[("5: mark(cse, i1, i0 + 1)", 14)], &[]);
    let program = ["i1 := i0 + 1", "if i0 goto 4 else 5", "i0 := 3", "i2 := i0 + 1", "write i2"];
    assert_judged(&program, &[("5: mark(cse, i1, i0 + 1)", 14)], &[]);
    // The source on both arms.
    let both = [
        "if i0 goto 3 else 5",
        "i1 := i0 + 1",
        "if i0 goto 6 else 6",
        "i1 := i0 + 1",
        "i2 := i0 + 1",
        "write i2",
    ];
    let marks = [
        ("6: mark(cse, i1, i0 + 1)", 0),
        ("3: mark(rm, i1, i0 + 1)", 14),
        ("5: mark(rm, i1, i0 + 1)", 14),
    ];
    assert_judged_in_any_order(&both, &marks, &[(6, "i2 := i1")]);
    // On one of them.
    let mut one = both;
    one[3] = "skip";
    assert_judged(&one, &[("6: mark(cse, i1, i0 + 1)", 14)], &[]);
}

#[test]
fn loops() {
    // The source before a loop, and the sum again in it.
    let program =
        ["i1 := i2 * i3", "i4 := i2 * i3", "i0 := i0 - 1", "if i0 goto 3 else 6", "write i4"];
    let marks = [("3: mark(cse, i1, i2 * i3)", 0), ("2: mark(rm, i1, i2 * i3)", 14)];
    assert_judged_in_any_order(&program, &marks, &[(3, "i4 := i1")]);
    // It is set anew at the loop's end, and 5 leads back to 3.
    let program = [
        "i1 := i2 * i3",
        "i4 := i2 * i3",
        "i1 := i2 * i3",
        "i0 := i0 - 1",
        "if i0 goto 3 else 7",
        "write i4",
    ];
    let marks = [
        ("3: mark(cse, i1, i2 * i3)", 0),
        ("2: mark(rm, i1, i2 * i3)", 14),
        ("4: mark(rm, i1, i2 * i3)", 14),
    ];
    assert_judged_in_any_order(&program, &marks, &[(3, "i4 := i1")]);
    // An operand is set in the loop.
    let program =
        ["i1 := i2 * i0", "i4 := i2 * i0", "i0 := i0 - 1", "if i0 goto 3 else 6", "write i4"];
    assert_judged(&program, &[("3: mark(cse, i1, i2 * i0)", 14)], &[]);
}

#[test]
fn what_is_kept_may_be_read_before_it_is_set_again() {
    let program = ["i24 := i0 + 1", "i2 := i0 + 1", "i24 := 3", "write i2"];
    let marks = [("3: mark(cse, i24, i0 + 1)", 0), ("2: mark(rm, i24, i0 + 1)", 14)];
    assert_judged_in_any_order(&program, &marks, &[(3, "i2 := i24")]);
    assert_judged(&program, &[("2: mark(rm, i24, i0 + 1)", 0)], &[(2, "skip")]);
}

#[test]
fn unreachable_statements() {
    // 3 steps back to itself for ever.
    let program = ["if i0 goto 4 else 4", "i1 := i2 + 3", "write i0"];
    assert_judged(&program, &[("3: mark(cse, i5, i2 + 3)", 0)], &[(3, "i1 := i5")]);
    // It is the source itself.
    assert_judged(&program, &[("3: mark(cse, i1, i2 + 3)", 0)], &[(3, "i1 := i1")]);
    let program = ["if i0 goto 4 else 4", "i2 := i2 + 3", "write i0"];
    assert_judged(&program, &[("3: mark(cse, i2, i2 + 3)", 14)], &[]);
    assert_judged(&program, &[("3: mark(cse, i5, i2 + 3)", 14)], &[]);
    // The source is the only predecessor.
    let program = ["if i0 goto 5 else 5", "i1 := i2 + 3", "i4 := i2 + 3", "write i0"];
    let marks = [("4: mark(cse, i1, i2 + 3)", 0), ("3: mark(rm, i1, i2 + 3)", 14)];
    assert_judged_in_any_order(&program, &marks, &[(4, "i4 := i1")]);
    assert_judged(&program, &[("3: mark(rm, i1, i2 + 3)", 0)], &[(3, "skip")]);
}

#[test]
fn sums_of_sums() {
    // 3 is a source, and is itself made a copy of 2's.
    let program = ["i1 := i0 + 1", "i2 := i0 + 1", "i3 := i0 + 1", "write i3"];
    let marks = [
        ("3: mark(cse, i1, i0 + 1)", 0),
        ("4: mark(cse, i2, i0 + 1)", 0),
        ("2: mark(rm, i1, i0 + 1)", 14),
    ];
    assert_judged_in_any_order(&program, &marks, &[(3, "i2 := i1"), (4, "i3 := i2")]);
    // Both read i1.
    let marks = [
        ("3: mark(cse, i1, i0 + 1)", 0),
        ("4: mark(cse, i1, i0 + 1)", 0),
        ("2: mark(rm, i1, i0 + 1)", 14),
    ];
    assert_judged_in_any_order(&program, &marks, &[(3, "i2 := i1"), (4, "i3 := i1")]);
    // 3 is to go, and is read by 4.
    let marks = [("3: mark(rm, i2, i0 + 1)", 14), ("4: mark(cse, i2, i0 + 1)", 0)];
    assert_judged_in_any_order(&program, &marks, &[(4, "i3 := i2")]);
}

#[test]
fn lists_of_all_three_kinds() {
    let program = [
        "i1 := i0 + 1",
        "i2 := i0 + 1",
        "i3 := 7",
        "i4 := i2 * i3",
        "i6 := i3",
        "i5 := i4",
        "write i5",
    ];
    let marks = [
        ("3: mark(cse, i1, i0 + 1)", 0),
        ("5: mark(rpl, i3, 7)", 0),
        ("2: mark(rm, i1, i0 + 1)", 14),
        ("6: mark(rm, i6, i3)", 0),
        ("8: mark(rpl, i5, i4)", 0),
        ("4: mark(rm, i3, 7)", 14),
    ];
    let made = [(3, "i2 := i1"), (5, "i4 := i2 * 7"), (6, "skip"), (8, "write i4")];
    assert_judged_in_any_order(&program, &marks, &made);
    // The source's operand is replaced, and it is a source all the same.
    let program = ["i5 := i0", "i1 := i5 + 1", "i2 := i5 + 1", "write i2"];
    let marks =
        [("3: mark(rpl, i5, i0)", 0), ("4: mark(cse, i1, i5 + 1)", 0), ("2: mark(rm, i5, i0)", 14)];
    assert_judged_in_any_order(&program, &marks, &[(3, "i1 := i0 + 1"), (4, "i2 := i1")]);
}

/// The most `cse` lines: all of one variable, and each of another sum.
#[test]
fn lists_of_1024_sums() {
    let mut program = vec!["i2 := i0 + 1"; 1_023];
    program[0] = "i1 := i0 + 1";
    program[1_022] = "write i2";
    let mut list: String = (3..1_024).map(|n| format!("{n}: mark(cse, i1, i0 + 1)\n")).collect();
    list += "2: mark(rm, i1, i0 + 1)\n";
    let (verdicts, new) = all_judged(&text(&program), &list);
    assert_eq!((verdicts.len(), verdicts[1_021]), (1_022, 14));
    assert!(verdicts[..1_021].iter().all(|&verdict| verdict == 0));
    assert_alike(&text(&program), &new);

    let sums: Vec<String> = (2..1_024).map(|n| format!("i{} := i0 + {}", n % 63, n / 2)).collect();
    let mut program: Vec<&str> = sums.iter().map(String::as_str).collect();
    program.push("write i0");
    let list: String = (2..1_024)
        .map(|n| format!("{n}: mark(cse, i{}, i0 + {})\n", (n - 1) % 63, n / 2))
        .collect();
    let (verdicts, new) = all_judged(&text(&program), &list);
    assert!(verdicts.iter().filter(|&&verdict| verdict == 0).count() > 100);
    assert_alike(&text(&program), &new);
}

/// The condition of an `rm` with the uses that these statements gain spelled out.
pub fn spelled_out(x: u8, statements: &[u32]) -> String {
    let mut used = format!("use(i{x})");
    for n in statements {
        used = format!("({used} | node({n}))");
    }
    format!("!EX E[!def(i{x}) U {used}]")
}

/// Whether the condition of an `rm` of a list with these verdicts is true, by fixpoints of the condition with the uses
/// spelled out; up to twenty `cse` lines.
pub fn is_dead_by_fixpoints(
    program: &Program,
    list: &[Mark],
    verdicts: &[u8],
    mark: &Mark,
) -> bool {
    let gained = gained_uses(list, verdicts).into_iter().filter(|use_| use_.0 == mark.variable);
    let statements: Vec<u32> = gained.map(|(_, at)| at as u32 + 1).collect();
    let condition = Condition::read(spelled_out(mark.variable, &statements).as_bytes());
    let sets = naive::by_fixpoints(program, &condition.expect("a condition is well spelled"));
    sets.last().expect("a condition has a part")[mark.number as usize - 1]
}

/// Each wrong spelling of a `cse` line is refused.
#[test]
fn damaged_lines_are_misspelled() {
    let random = &mut Random::new(61);
    for wrong in WrongReuse::ALL {
        for _ in 0..300 {
            let program = generate::program(random, 12);
            let count = random.below(8);
            let mut list = marks::text(&generate::marks(random, &program, count));
            generate::wrong_reuse(random, wrong, &mut list);
            assert_eq!(marks::read(&list), Err(9), "{wrong:?} {}", list.escape_ascii());
        }
    }
}

/// What became of a generated `rm` whose variable is that of a `cse` line of the list.
fn beside_cse(judge: &Judge, list: &[Mark], verdicts: &[u8], line: usize) -> Option<usize> {
    let mark = &list[line];
    let by = |lines: &[Mark], verdicts: &[u8]| {
        judge.verdict_beside(mark, false, &gained_uses(lines, verdicts))
    };
    let as_if_accepted = || {
        let all: Vec<u8> =
            verdicts.iter().map(|&verdict| if verdict == 11 { 11 } else { 0 }).collect();
        by(list, &all)
    };
    match verdicts[line] {
        14 if judge.verdict(mark, false) == 14 => None,
        14 => {
            let above = by(&list[..line], &verdicts[..line]) == 14;
            let below = by(&list[line + 1..], &verdicts[line + 1..]) == 14;
            assert!(above || below);
            Some(usize::from(above) + 2 * usize::from(below) - 1)
        }
        0 if as_if_accepted() == 14 => Some(3),
        _ => None,
    }
}

/// What tests need of generated lists: `cse` lines with each verdict, and `rm` lines that are refused by them alone.
#[test]
fn generated_lists_compute_sums_once() {
    let random = &mut Random::new(62);
    let mut verdicts_seen = [0; 15];
    // Refused by lines above, below and both; accepted beside a refused line.
    let (mut beside, mut told, mut three_kinds) = ([0; 4], 0, 0);
    let mut single = 0;
    for _ in 0..4_000 {
        let size = random.between(4, 24);
        let program = generate::program(random, size);
        let judge = Judge::new(&program);
        let list = generate::marks(random, &program, 10);
        let verdicts = judge.verdicts(&list);
        let accepted = |wanted: fn(&Kind) -> bool| {
            list.iter().zip(&verdicts).any(|(mark, &verdict)| verdict == 0 && wanted(&mark.kind))
        };
        three_kinds += usize::from(
            accepted(|kind| matches!(kind, Kind::Remove(_)))
                && accepted(|kind| matches!(kind, Kind::Replace(_)))
                && accepted(|kind| matches!(kind, Kind::Reuse(_))),
        );
        for (line, mark) in list.iter().enumerate() {
            match mark.kind {
                Kind::Reuse(e) => {
                    verdicts_seen[usize::from(verdicts[line])] += 1;
                    let is_single = matches!(e, Expression::Single(_));
                    single += usize::from(is_single && verdicts[line] == 13);
                }
                Kind::Remove(_) => {
                    if let Some(class) = beside_cse(&judge, &list, &verdicts, line) {
                        beside[class] += 1;
                        told += usize::from(
                            class < 3 && is_told(random, &program, &list, &verdicts, line),
                        );
                    }
                }
                Kind::Replace(_) => {}
            }
        }
    }
    println!("{verdicts_seen:?} {single} {beside:?} {told} {three_kinds}");
    assert!([0, 11, 12, 13, 14].iter().all(|&verdict| verdicts_seen[verdict] > 300));
    assert!(single > 50 && [0, 1, 3].iter().all(|&class| beside[class] > 100));
    assert!(told > 100 && three_kinds > 300);
}

/// Whether an `rm` that only `cse` lines refuse, made all the same, shows in one of some runs.
fn is_told(
    random: &mut Random,
    given: &Program,
    list: &[Mark],
    verdicts: &[u8],
    line: usize,
) -> bool {
    let mut wrongly = verdicts.to_vec();
    wrongly[line] = 0;
    let wrong = marks::rewritten(given, list, &wrongly);
    (0..6).any(|_| {
        let (values, input) = (generate::values(random), generate::word(random));
        first_difference(given, &wrong, values, input, 200).is_some()
    })
}
