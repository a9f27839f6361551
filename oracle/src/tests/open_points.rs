//! Points that the defining document leaves open, as they were decided.

use super::{condition_refusal, judged, lines, refusal, skips, whole, words, P, P_PRICES};
use crate::check::{check, said};
use crate::condition::{stop, LONGEST_TEXT, MOST_PARTS, TABLE_WORDS};
use crate::machine::{run, Outcome, VALUES};
use crate::marks::{self, first_wrong};
use crate::pricing::OURS;
use crate::program::{Program, VARIABLES};

#[test]
fn ends_of_program_text() {
    assert_eq!(refusal(""), 3);
    assert_eq!(refusal("read i0"), 2);
    assert_eq!(refusal("read i0\nwrite i0"), 2);
    assert_eq!(refusal("\n"), 2);
    assert_eq!(refusal("read i0\nwrite i0\n\n"), 2);
    assert_eq!(refusal("read i0\n"), 3);
    assert_eq!(refusal("read i0\nwrite i0\n"), 0);
}

#[test]
fn spelling_is_checked_on_every_line() {
    assert_eq!(refusal(&(skips(1_100) + "Skip\n")), 2);
    assert_eq!(refusal(&(skips(1_100) + "skip")), 2);
    assert_eq!(refusal(&skips(1_100)), 3);
    assert_eq!(refusal(&skips(1_025)), 3);
    assert_eq!(refusal(&skips(100_000)), 3);
    assert_eq!(refusal(&(skips(100_000) + "x\n")), 2);
}

#[test]
fn lines_and_digits_of_any_length() {
    for digits in [10, 11, 20, 39, 40, 100_000] {
        for digit in ["1", "9", "0"] {
            let number = digit.repeat(digits);
            let wanted = if number == "1111111111" { 0 } else { 2 };
            assert_eq!(
                refusal(&format!("read i0\ni0 := {number}\nwrite i0\n")),
                wanted,
                "{number}"
            );
            assert_eq!(refusal(&format!("read i{number}\nwrite i0\n")), 2, "{number}");
        }
    }
    for wrapping in ["4294967296", "4294967303", "18446744073709551616", "18446744073709551623"] {
        assert_eq!(refusal(&format!("read i0\ni0 := {wrapping}\nwrite i0\n")), 2);
        assert_eq!(refusal(&format!("read i0\nif i0 goto {wrapping} else 2\nwrite i0\n")), 2);
        assert_eq!(condition_refusal(&format!("node({wrapping})")), 7);
        assert_eq!(marks::read(format!("{wrapping}: mark(rm, i0, 1)\n").as_bytes()), Err(9));
    }
    assert_eq!(refusal(&format!("read i0\n{}skip\nwrite i0\n", " ".repeat(100_000))), 2);
    assert_eq!(refusal(&format!("read i0\nskip{}\nwrite i0\n", " ".repeat(100_000))), 2);
    assert_eq!(refusal(&format!("read i0\n{}\nwrite i0\n", "skip ".repeat(100_000))), 2);
}

#[test]
fn targets() {
    let with = |target: &str| refusal(&format!("read i0\nif i0 goto {target} else 2\nwrite i0\n"));
    let with_other =
        |target: &str| refusal(&format!("read i0\nif i0 goto 2 else {target}\nwrite i0\n"));
    for (target, wanted) in [
        ("2147483648", 2),
        ("0", 5),
        ("1", 5),
        ("2147483647", 5),
        ("4", 5),
        ("2", 0),
        ("3", 0),
        ("03", 2),
    ] {
        assert_eq!(with(target), wanted, "{target}");
        assert_eq!(with_other(target), wanted, "{target}");
    }
}

#[test]
fn refusals_go_by_number_not_by_line() {
    assert_eq!(refusal(&lines("read i0 / if i0 goto 9 else 9 / skip / skip")), 4);
    assert_eq!(refusal(&lines("skip / if i0 goto 9 else 9 / write i0")), 4);
    assert_eq!(refusal(&lines("read i0 / if i0 goto 9 else 9 / read i1 / write i0")), 4);
    assert_eq!(refusal(&lines("read i0 / write i0 / write i0")), 4);
    assert_eq!(refusal(&lines("write i0 / read i0")), 4);
    assert_eq!(refusal(&lines("if i0 goto 9 else 9")), 3);
    assert_eq!(refusal(&lines("if i0 goto 9 else 9 / rubbish")), 2);
    assert_eq!(refusal(&skips(1_025).replace("write", "read")), 3);
}

#[test]
fn one_spelling_each() {
    for wrong in [
        "i00 := 1",
        "i063 := 1",
        "i64 := 1",
        "i70 := 1",
        "i99 := 1",
        "i100 := 1",
        "i := 1",
        "I0 := 1",
        "i0 :=1",
        "i0:= 1",
        "i0 = 1",
        "i0 := 01",
        "i0 := 00",
        "i0 := +1",
        "i0 := 1 +2",
        "i0 := 1 + 2 ",
        " i0 := 1",
        "i0 := 1  + 2",
        "i0 := ",
        "i0 := 1 % 2",
        "i0 := 1 / 2 / 3",
        "i0 := 1/2",
        "i0 := 1 + 2 + 3",
        "i0 := 1 < = 2",
        "skip ",
        "Skip",
        "skip\r",
        "",
        " ",
        "skip skip",
        "if i0 goto 2 else 02",
        "if 1 goto 2 else 2",
        "if i0 goto 2",
        "if i0 goto 2 else 2 ",
        "if i0 goto -2 else 2",
        "if i0 goto i2 else 2",
        "i0 := 1\t",
        "i0 := \u{661}",
        "i0 := i-1",
        "i0 := i+1",
        "i+0 := 1",
    ] {
        assert_eq!(refusal(&format!("read i0\n{wrong}\nwrite i0\n")), 2, "{wrong:?}");
        assert_eq!(condition_refusal(&format!("stmt({wrong})")), 7, "{wrong:?}");
    }
    for wrong in
        ["read", "read ", "read  i0", "read 1", "read i0 i1", "read i0 ", "readi0", "read i01"]
    {
        assert_eq!(refusal(&format!("{wrong}\nwrite i0\n")), 2, "{wrong:?}");
    }
    assert_eq!(Program::read(b"read i0\nsk\xffp\nwrite i0\n"), Err(2));
    assert_eq!(Program::read(b"read i0\nskip\0\nwrite i0\n"), Err(2));
    assert_eq!(Program::read(b"read i0\r\nwrite i0\r\n"), Err(2));
}

#[test]
fn order_of_condition_refusals() {
    assert_eq!(condition_refusal(&format!("{} rubbish", "!".repeat(65))), 7);
    assert_eq!(condition_refusal(&"!".repeat(65)), 7);
    assert_eq!(condition_refusal(&format!("{}true)", "!".repeat(65))), 7);
    assert_eq!(condition_refusal(&format!("{}true", "!".repeat(65))), 8);
    assert_eq!(condition_refusal(&format!("{}true", "!".repeat(1_020))), 8);
    assert_eq!(condition_refusal(&format!("{}true", "!".repeat(1_021))), 6);
    assert_eq!(condition_refusal(&"(".repeat(1_024)), 7);
    assert_eq!(condition_refusal(&"E[".repeat(512)), 7);
    assert_eq!(condition_refusal(&"\n".repeat(1_025)), 6);
    assert_eq!(condition_refusal(""), 7);
    assert_eq!(condition_refusal("true\n"), 7);
    assert_eq!(condition_refusal("(true\n& true)"), 7);
}

#[test]
fn numbers_that_match_nothing() {
    for text in
        ["node(0)", "node(2000)", "node(9)", "stmt(if i0 goto 2000 else 0)", "node(2147483647)"]
    {
        assert_eq!(words(P, text), [0], "{text}");
    }
    assert_eq!(condition_refusal("node(2147483648)"), 7);
    assert_eq!(condition_refusal("node(01)"), 7);
    assert_eq!(condition_refusal("stmt(if i0 goto 2147483648 else 0)"), 7);
    assert_eq!(whole(P, "stmt(if i0 goto 6 else 8)"), 16);
    assert_eq!(whole(P, "stmt(if i0 goto 8 else 6)"), 0);
    assert_eq!(whole(P, "stmt(read i0)"), 1);
    assert_eq!(whole(P, "stmt(write i3)"), 128);
    assert_eq!(whole(P, "stmt(skip)"), 0);
}

#[test]
fn no_superfluous_brackets_or_spaces() {
    for wrong in [
        "(true)",
        "! true",
        "EX(true & true)",
        "EX  true",
        "EXtrue",
        " true",
        "true ",
        "(true&true)",
        "( true & true)",
        "(true & true )",
        "(true && true)",
        "(true & true & true)",
        "E [true U true]",
        "E[ true U true]",
        "E[true U true ]",
        "E[trueU true]",
        "E[true Utrue]",
        "E[true X true]",
        "EU true",
        "E[true U true",
        "E(true U true)",
        "EB true",
        "EZ true",
        "E",
        "EX",
        "!",
        "()",
        "(true",
        "true)",
        "true true",
        "true false",
        "True",
        "def(0)",
        "def (i0)",
        "def( i0)",
        "def(i0 )",
        "def(i00)",
        "def(i64)",
        "def(i063)",
        "def()",
        "def",
        "use(1)",
        "node()",
        "node(i1)",
        "node(+1)",
        "node",
        "trans()",
        "trans(i1 +2)",
        "trans(i1 + 2 + 3)",
        "stmt()",
        "stmt(i0 := 1",
        "stmt( skip)",
        "entry()",
        "exit(8)",
        "true()",
        "(true | true]",
        "E[true U true)",
        "[true U true]",
        "A[true R true]",
        "E[true Y true]",
        "(true U true)",
        "EX EX",
        "1",
        "i0",
        "\0",
    ] {
        assert_eq!(condition_refusal(wrong), 7, "{wrong:?}");
    }
    assert_eq!(condition_refusal("EX (true & true)"), 0);
    assert_eq!(condition_refusal("!EX !E[!true U (true | !true)]"), 0);
}

#[test]
fn parts_stand_in_the_order_of_their_ends() {
    let (first, second, third) = (1, 2, 4);
    assert_eq!(
        words(P, "((node(1) | node(2)) & !EX !node(3))"),
        [first, second, first | second, third, 255 - third, 255 - 2, 2, 2]
    );
    assert_eq!(words(P, "E[node(3) U node(3)]"), [4, 4, 4]);
    assert_eq!(words(P, "!!true"), [255, 0, 255]);
}

#[test]
fn backward_steps() {
    // Nothing else steps to this `write`.
    let apart = lines("read i0 / skip / if i0 goto 2 else 3 / write i0");
    assert_eq!(whole(&apart, "AY exit"), 0b1000);
    assert_eq!(whole(&apart, "EY exit"), 0b1000);
    assert_eq!(whole(&apart, "EX exit"), 0b1000);
    // The self-step of a `write` that has a predecessor isn't counted.
    let joined = lines("read i0 / skip / write i0");
    assert_eq!(whole(&joined, "EY exit"), 0);
    assert_eq!(whole(&joined, "AY node(2)"), 0b100);
    assert_eq!(whole(&joined, "AR entry"), 0b111);
    // An `if` on itself is its own predecessor, beside the line before.
    assert_eq!(whole(&apart, "EY node(3)"), 0b0110);
    assert_eq!(whole(&apart, "AY node(2)"), 0);
    let alone = lines("read i0 / if i0 goto 4 else 4 / if i0 goto 3 else 3 / write i0");
    assert_eq!(whole(&alone, "AY node(3)"), 0b0100);
    // An `if` that leads nowhere else, and statement 1, which never has a predecessor.
    assert_eq!(whole(&alone, "AY entry"), 0b0011);
    assert_eq!(whole(&alone, "AX node(3)"), 0b0100);
}

#[test]
fn unreachable_statements_count_on_paths() {
    let text = lines("read i0 / i1 := i0 / if i0 goto 5 else 5 / i1 := 3 / i2 := i1 / write i2");
    assert_eq!(judged(&text, "5: mark(rpl, i1, i0)\n").0, [14]);
    let reached = text.replace("i1 := 3", "skip");
    // The unreachable `skip` steps back to itself only and never meets `entry`.
    assert_eq!(judged(&reached, "5: mark(rpl, i1, i0)\n").0, [0]);
}

#[test]
fn until_and_weak_until() {
    let endless = lines("read i0 / if i0 goto 2 else 2 / write i0");
    assert_eq!(whole(&endless, "A[true W false]"), 0b111);
    assert_eq!(whole(&endless, "E[true W false]"), 0b111);
    assert_eq!(whole(&endless, "E[true U false]"), 0);
    assert_eq!(whole(&endless, "A[!exit W exit]"), 0b111);
    assert_eq!(whole(&endless, "A[!exit U exit]"), 0b100);
    assert_eq!(whole(&endless, "A[false W true]"), 0b111);
    assert_eq!(whole(&endless, "A[false B node(2)]"), 0b010);
    assert_eq!(whole(&endless, "A[!exit B entry]"), 0b011);
    assert_eq!(whole(&endless, "E[!entry S entry]"), 0b011);
    assert_eq!(whole(&endless, "A[!entry S entry]"), 0b001);
    assert_eq!(whole(&endless, "A[!entry B entry]"), 0b111);
}

#[test]
fn bits_beyond_n_are_zero() {
    assert_eq!(words(P, "!false"), [0, 255]);
    let mut table = [u64::MAX; TABLE_WORDS];
    assert_eq!(crate::condition::tabulate(P.as_bytes(), b"!false", &mut table), Ok((2, 8, 1)));
    assert_eq!((&table[..16], table[16], &table[17..32]), (&[0; 16][..], 255, &[0; 15][..]));
}

#[test]
fn lists_of_marks() {
    assert_eq!(marks::read(b""), Ok(vec![]));
    assert_eq!(marks::read(b"\n"), Err(9));
    assert_eq!(marks::read(b"1: mark(rm, i0, 1)"), Err(9));
    let line = "1: mark(rm, i0, 1)\n";
    assert_eq!(marks::read(line.repeat(1_024).as_bytes()).map(|list| list.len()), Ok(1_024));
    assert_eq!(marks::read(line.repeat(1_025).as_bytes()), Err(10));
    assert_eq!(marks::read((line.repeat(1_025) + "x\n").as_bytes()), Err(9));
    assert_eq!(marks::read((line.repeat(1_025) + "1: mark(rm, i0, 1)").as_bytes()), Err(9));
    for wrong in [
        "1: mark(rpl, i0, 1 + 2)",
        "1: mark(rpl, i0, i1 + 2)",
        "1 : mark(rm, i0, 1)",
        "1:mark(rm, i0, 1)",
        "1: mark (rm, i0, 1)",
        "1: mark(rm,i0, 1)",
        "1: mark(rm, i0,1)",
        "1: mark( rm, i0, 1)",
        "1: mark(rm, i0, 1 )",
        "1: mark(rm, i0, 1) ",
        " 1: mark(rm, i0, 1)",
        "01: mark(rm, i0, 1)",
        "2147483648: mark(rm, i0, 1)",
        "1: mark(rm, 1, i0)",
        "1: mark(rm, i64, 1)",
        "1: mark(rm, i063, 1)",
        "1: mark(rm, i0, )",
        "1: mark(rm, i0)",
        "1: mark(rm, i0, 1, 1)",
        "1: mark(cs, i0, 1)",
        "1: mark(rm , i0, 1)",
        "1: Mark(rm, i0, 1)",
        "1: mark(rm, i0, 1 % 2)",
        "1: mark(rm, i0, 1/2)",
        "1: mark(rpl, i0, 1 / 2)",
        ": mark(rm, i0, 1)",
        "i1: mark(rm, i0, 1)",
        "-1: mark(rm, i0, 1)",
        "+1: mark(rm, i0, 1)",
        "1: mark(rm, i0, 1))",
        "1: mark((rm, i0, 1)",
        "1: mark(rm, i0, 2147483648)",
        "1: mark(rpl, i0, 2147483648)",
        "1: mark(rpl, i0, 01)",
        "1: mark(rm, i0, skip)",
        "1; mark(rm, i0, 1)",
        "1: mark rm, i0, 1",
        "1::mark(rm, i0, 1)",
        "1: mark(rm, i0, 1)\r",
        "",
    ] {
        assert_eq!(marks::read(format!("{wrong}\n").as_bytes()), Err(9), "{wrong:?}");
    }
}

#[test]
fn order_of_verdicts() {
    let wrong = "0: mark(rm, i0, 1)\n0: mark(rm, i0, 1)\n9: mark(rm, i0, 1)\n9: mark(rm, i0, 1)\n";
    assert_eq!(judged(P, wrong).0, [11, 11, 11, 11]);
    // 12 whatever the earlier line's verdict or kind was.
    assert_eq!(
        judged(P, "4: mark(rm, i9, 1)\n4: mark(rpl, i2, 7)\n4: mark(rpl, i2, 7)\n").0,
        [13, 12, 12]
    );
    assert_eq!(judged(P, "3: mark(rm, i2, 7)\n3: mark(rm, i2, 7)\n").0, [14, 12]);
    assert_eq!(judged(P, "4: mark(rpl, i2, 7)\n4: mark(rm, i9, 1)\n").0, [0, 12]);
    assert_eq!(judged(P, "2147483647: mark(rpl, i2, 7)\n").0, [11]);
}

#[test]
fn fitting_of_marks() {
    let text = lines(
        "read i0 / i1 := i0 + 2 / i2 := 3 / i1 := i2 / if i1 goto 6 else 7 / skip / write i1",
    );
    let verdict = |mark: &str| judged(&text, &format!("{mark}\n")).0[0];
    assert_eq!(verdict("2: mark(rm, i1, i0 + 2)"), 0);
    assert_eq!(verdict("2: mark(rm, i1, 2 + i0)"), 13);
    assert_eq!(verdict("2: mark(rm, i2, i0 + 2)"), 13);
    assert_eq!(verdict("2: mark(rm, i1, i0)"), 13);
    assert_eq!(verdict("1: mark(rm, i0, 0)"), 13);
    assert_eq!(verdict("6: mark(rm, i0, 0)"), 13);
    assert_eq!(verdict("5: mark(rpl, i1, i2)"), 0);
    assert_eq!(verdict("7: mark(rpl, i1, i2)"), 0);
    assert_eq!(verdict("5: mark(rpl, i1, 3)"), 13);
    assert_eq!(verdict("7: mark(rpl, i1, 3)"), 13);
    assert_eq!(verdict("4: mark(rpl, i2, 3)"), 0);
    assert_eq!(verdict("4: mark(rpl, i2, 4)"), 14);
    assert_eq!(verdict("4: mark(rpl, i1, i2)"), 13);
    assert_eq!(verdict("1: mark(rpl, i0, i2)"), 13);
    assert_eq!(verdict("6: mark(rpl, i0, i2)"), 13);
}

#[test]
fn replacing_without_a_copy_at_a_statement_without_predecessor() {
    let text = lines("read i0 / if i0 goto 4 else 4 / i3 := i1 + i1 / write i0");
    let (verdicts, new) = judged(&text, "3: mark(rpl, i1, i2)\n");
    assert_eq!(verdicts, [0]);
    assert_eq!(new, text.replace("i1 + i1", "i2 + i2"));
    // One that defines X or A itself meets that definition on its way back.
    let defining = text.replace("i3 :=", "i1 :=");
    assert_eq!(judged(&defining, "3: mark(rpl, i1, i2)\n").0, [14]);
    assert_eq!(judged(&text, "3: mark(rpl, i1, i3)\n").0, [14]);
}

#[test]
fn replacing_a_variable_by_itself_and_at_a_definition() {
    let text = lines("read i0 / i1 := i1 / i2 := i1 + i1 / write i2");
    let (verdicts, new) = judged(&text, "3: mark(rpl, i1, i1)\n");
    assert_eq!((verdicts, new), (vec![0], text));
    // Every use is replaced, the defined variable never.
    let text = lines("read i0 / i1 := i0 / i1 := i1 * i1 / write i1");
    let (verdicts, new) = judged(&text, "3: mark(rpl, i1, i0)\n2: mark(rm, i1, i0)\n");
    assert_eq!((verdicts, new), (vec![0, 14], text.replace("i1 * i1", "i0 * i0")));
}

#[test]
fn accepted_marks_are_made_together() {
    let text = lines(
        "read i0 / i1 := i0 / i2 := i1 / i3 := 9 / if i2 goto 6 else 7 / i3 := i2 / write i2",
    );
    let list =
        "3: mark(rpl, i1, i0)\n4: mark(rm, i3, 9)\n5: mark(rpl, i2, i1)\n7: mark(rpl, i2, i1)\n\
                6: mark(rm, i3, i2)\n2: mark(rm, i1, i0)\n";
    let new = lines("read i0 / i1 := i0 / i2 := i0 / skip / if i1 goto 6 else 7 / skip / write i1");
    assert_eq!(judged(&text, list), (vec![0, 0, 0, 0, 0, 14], new));
}

#[test]
fn longest_texts() {
    let longest = "i63 := 2147483647 + 2147483647\n";
    assert_eq!(longest.len(), 31);
    let text = format!("read i63\n{}write i63\n", longest.repeat(1_022));
    assert_eq!(text.len(), 31_701);
    assert_eq!(judged(&text, ""), (vec![], text));
}

#[test]
fn budgets() {
    let mut values = [0; VALUES];
    values[0] = 3;
    values[31] = u32::MAX;
    let p = P.as_bytes();
    assert_eq!(run(p, values, 9, 0, &OURS), Ok(Outcome::Spent { statement: 1, values, ticks: 0 }));
    let after_one = {
        let mut values = values;
        values[0] = 9;
        values
    };
    let spent = Outcome::Spent { statement: 2, values: after_one, ticks: 4 };
    assert_eq!(run(p, values, 9, 1, &OURS), Ok(spent));
    let kept = [0, 0, 0, 0, 0, 0, 0, u32::MAX];
    assert_eq!(
        run(p, values, 0, 6, &OURS),
        Ok(Outcome::Ended { value: 7, steps: 6, kept, ticks: 18 })
    );
    assert!(matches!(run(p, values, 0, 5, &OURS), Ok(Outcome::Spent { statement: 8, .. })));
    assert_eq!(run(b"rubbish", values, 0, 1_000_001, &OURS), Err(15));
    assert_eq!(run(b"rubbish", values, 0, u32::MAX, &OURS), Err(15));
    assert_eq!(run(b"rubbish", values, 0, 0, &OURS), Err(2));
    // A run that could go on for ever.
    let endless = lines("read i0 / i1 := i1 + 1 / if i0 goto 2 else 4 / write i1");
    match run(endless.as_bytes(), [0; VALUES], 1, 1_000_000, &OURS) {
        Ok(Outcome::Spent { statement: 3, values, ticks }) => {
            // The input's step, 500,000 sums and one `if` less.
            assert_eq!((values[1], ticks), (500_000, 4 + 3 * 999_999));
        }
        other => panic!("{other:?}"),
    }
}

#[test]
fn files_of_the_check_program() {
    assert_eq!(check(b"", b""), b"refused 3\n");
    let report = format!("marks 0 accepted 0\n{P}{P_PRICES}");
    assert_eq!(check(P.as_bytes(), b""), report.as_bytes());
    // 65,535 bytes are read, and a longer file prints nothing, whatever it holds.
    assert_eq!(check(&"skip\n".repeat(13_107).into_bytes(), b""), b"refused 3\n");
    let longer = [skips(30_000), "i1 := 1\n".repeat(8_192), "rubbish\n".repeat(8_192)];
    for text in longer {
        assert!(text.len() > 65_535);
        assert_eq!(check(text.as_bytes(), b""), b"");
        assert_eq!(check(P.as_bytes(), text.as_bytes()), b"");
    }
}

#[test]
fn what_the_check_program_says() {
    let p = P.as_bytes();
    assert_eq!(said(Some(p), Some(b"")), "");
    assert_eq!(
        said(None, None),
        "given is read as empty: No such file or directory\n\
         marks is read as empty: No such file or directory\n\
         the author of the shift program: under 2 or over 1,024 lines\n"
    );
    assert_eq!(said(Some(p), None), "marks is read as empty: No such file or directory\n");
    let long = skips(65_536);
    assert_eq!(said(None, Some(long.as_bytes())), "given is read as empty: No such file or directory\nmarks can't be read: over 65,535 bytes\n");
    assert_eq!(said(Some(long.as_bytes()), None), "given can't be read: over 65,535 bytes\n");
    assert_eq!(
        said(Some(p), Some(b"x")),
        "the optimiser: line 1 isn't spelled as a mark, or lacks its byte 10\n"
    );
    assert_eq!(
        said(Some(b"read i0\nif i0 goto 9 else 3\nwrite i0\n"), Some(b"")),
        "the author of the shift program: line 2: a target outside 2 to N\n"
    );
}

#[test]
fn where_the_reading_of_a_condition_stops() {
    let out_of_range = format!("def(i{VARIABLES})");
    for (text, byte) in [
        ("true", 0),
        ("(true & !AM trans(i0 / -2147483648))", 0),
        ("", 1),
        ("tru", 4),
        ("true ", 5),
        ("true\n", 5),
        ("(true)", 6),
        ("! true", 2),
        ("EX(true & true)", 3),
        ("EX true & true", 8),
        ("E[true U true)", 14),
        ("A[true R true]", 8),
        ("(true U true)", 7),
        ("(true && true)", 8),
        ("node(05)", 7),
        ("node(2147483648)", 15),
        ("node(-1)", 6),
        (&out_of_range, 7),
        ("stmt(i1 := -0)", 13),
        ("stmt(i1 := 1 + 2 + 3)", 17),
        ("stmt(skip", 10),
        ("trans(-2147483649)", 17),
        ("\u{feff}true", 1),
        ("\ttrue", 1),
        ("true\r", 5),
    ] {
        assert_eq!(stop(text.as_bytes()), byte, "{text}");
    }
    assert_eq!(stop(&b"!".repeat(LONGEST_TEXT)), LONGEST_TEXT + 1);
    assert_eq!(stop(&b"!".repeat(LONGEST_TEXT + 1)), 0);
    // Over the most parts, which is no misspelling.
    assert_eq!(stop(&[b"!".repeat(MOST_PARTS), b"true".to_vec()].concat()), 0);
}

#[test]
fn the_first_wrong_line_of_a_list() {
    for (text, line) in [
        ("", 0),
        ("2: mark(rm, i0, 1)\n", 0),
        ("2: mark(rm, i0, 1)", 1),
        ("\n", 1),
        ("2: mark(rm, i0, 1)\nx\ny\n", 2),
        ("2: mark(rm, i0, 1)\r\n", 1),
    ] {
        assert_eq!(first_wrong(text.as_bytes()), line, "{text}");
    }
}
