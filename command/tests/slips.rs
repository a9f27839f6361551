//! The words for the usual slips, at the place that the library tells, and none where no usual one is made.

mod shell;

use shell::{folder, run_in, said, status};

const GIVEN: &[u8] = b"read i0\ni1 := 7\ni2 := i1 + i0\nif i0 goto 4 else 5\nwrite i2\n";

/// What is said of a folder's one fault behind what was expected.
fn told(name: &str, call: &str, files: &[(&str, &[u8])]) -> String {
    let folder = folder(name, files);
    let output = run_in(&folder, &[call, "."]);
    assert_eq!(status(&output), 1, "{}", said(&output));
    let said = said(&output);
    let line = said.lines().next().expect("a line");
    let (_, found) = line.rsplit_once(", found ").unwrap_or(("", line));
    found.to_string()
}

/// A program with this line in place of its second.
fn program_with(line: &str) -> Vec<u8> {
    let given = String::from_utf8(GIVEN.to_vec()).expect("text");
    given.replace("i1 := 7\n", line).into_bytes()
}

#[test]
fn slips_in_programs() {
    let slips = [
        ("i1 := 7\r\n", "`i1 := 7\\r`: a carriage return"),
        ("i1 :=\t7\n", "`i1 :=\\t7`: a tab"),
        ("i1 :=  7\n", "`i1 :=  7`: a space too many"),
        (" i1 := 7\n", "` i1 := 7`: a space too many"),
        ("i1 := 7 \n", "`i1 := 7 `: a space too many"),
        ("i64 := 7\n", "`i64 := 7`: `i64` is outside i0 to i63"),
        ("i1 := i99\n", "`i1 := i99`: `i99` is outside i0 to i63"),
        ("i01 := 7\n", "`i01 := 7`: `01` has a leading zero"),
        ("i1 := 07\n", "`i1 := 07`: `07` has a leading zero"),
        ("i1 := 2147483648\n", "`i1 := 2147483648`: `2147483648` is outside 0 to 2147483647"),
        (
            "i1 := -2147483649\n",
            "`i1 := -2147483649`: `-2147483649` is outside -2147483648 to 2147483647",
        ),
        ("i1 := i0 +\n", "`i1 := i0 +`: it ends too early"),
        ("if i0 goto 9 else 2\n", "`if i0 goto 9 else 2`: `9` is outside 2 to 5"),
        ("if i0 goto 2 else 1\n", "`if i0 goto 2 else 1`: `1` is outside 2 to 5"),
        ("\n", "``: it ends too early"),
        ("i1 = 7\n", "`i1 = 7`"),
        ("I1 := 7\n", "`I1 := 7`"),
    ];
    for (line, words) in slips {
        let found =
            told("slips_in_programs", "check", &[("given", &program_with(line)), ("marks", b"")]);
        assert_eq!(found, words);
    }
    let marked = [b"\xef\xbb\xbf", GIVEN].concat();
    assert_eq!(
        told("slips_in_programs", "check", &[("given", &marked), ("marks", b"")]),
        "`\\xef\\xbb\\xbfread i0`: a byte order mark"
    );
    let unended = GIVEN.strip_suffix(b"\n").expect("a byte 10");
    assert_eq!(
        told("slips_in_programs", "check", &[("given", unended), ("marks", b"")]),
        "`write i2`: its byte 10 is missing"
    );
}

#[test]
fn slips_in_marks() {
    let slips = [
        ("3: mark(rm, i2, i1 + i0)\r\n", "`3: mark(rm, i2, i1 + i0)\\r`: a carriage return"),
        ("3:\tmark(rm, i2, i1 + i0)\n", "`3:\\tmark(rm, i2, i1 + i0)`: a tab"),
        ("3:  mark(rm, i2, i1 + i0)\n", "`3:  mark(rm, i2, i1 + i0)`: a space too many"),
        ("3: mark(rm, i2, i1 + i0) \n", "`3: mark(rm, i2, i1 + i0) `: a space too many"),
        ("3: mark(rm, i2, i1 + i0)", "`3: mark(rm, i2, i1 + i0)`: its byte 10 is missing"),
        (
            "\u{feff}3: mark(rm, i2, i1 + i0)\n",
            "`\\xef\\xbb\\xbf3: mark(rm, i2, i1 + i0)`: a byte order mark",
        ),
        ("3: mark(mr, i2, i1 + i0)\n", "`3: mark(mr, i2, i1 + i0)`"),
    ];
    for (line, words) in slips {
        assert_eq!(
            told("slips_in_marks", "check", &[("given", GIVEN), ("marks", line.as_bytes())]),
            words
        );
    }
}

#[test]
fn slips_in_conditions() {
    let slips = [
        ("EX\texit", "`EX\\texit` wrong from byte 3 on: a tab"),
        ("EX exit\r", "`EX exit\\r` wrong from byte 8 on: a carriage return"),
        ("EX  exit", "`EX  exit` wrong from byte 4 on: a space too many"),
        ("\u{feff}EX exit", "`\\xef\\xbb\\xbfEX exit` wrong from byte 1 on: a byte order mark"),
        ("def(i64)", "`def(i64)` wrong from byte 7 on: `i64` is outside i0 to i63"),
        ("node(05)", "`node(05)` wrong from byte 7 on: `05` has a leading zero"),
        ("(exit)", "`(exit)` wrong from byte 6 on: superfluous brackets"),
        (
            "EX (AX (true & exit))",
            "`EX (AX (true & exit))` wrong from byte 21 on: superfluous brackets",
        ),
        ("E[true U exit", "`E[true U exit` wrong from byte 14 on: it ends too early"),
        ("def()", "`def()` wrong from byte 5 on"),
        ("stmt(i4 := -0)", "`stmt(i4 := -0)` wrong from byte 13 on"),
        ("trans(--1)", "`trans(--1)` wrong from byte 8 on"),
        ("node(-1)", "`node(-1)` wrong from byte 6 on"),
        ("trans(i0 -40)", "`trans(i0 -40)` wrong from byte 11 on"),
        ("node(99999999999999999999)", "`node(99999999999999999999)` wrong from byte 15 on: `99999999999999999999` is outside 0 to 2147483647"),
        ("(true&exit)", "`(true&exit)` wrong from byte 6 on"),
    ];
    for (condition, words) in slips {
        let found = told(
            "slips_in_conditions",
            "tabulate",
            &[("given", GIVEN), ("condition", condition.as_bytes())],
        );
        assert_eq!(found, words);
    }
}

#[test]
fn slips_in_starts_and_prices() {
    let starts = [
        ("2\n100", "`100`: its byte 10 is missing"),
        ("2\r\n100\n", "`2\\r`: a carriage return"),
        ("2\n 100\n", "` 100`: a space too many"),
        ("2\n1OO\n", "`1OO`"),
    ];
    for (start, words) in starts {
        let files = [("given", GIVEN), ("start", start.as_bytes())];
        assert_eq!(told("slips_in_starts", "run", &files), words);
    }
    let prices = "4\n4\n1\n3\n2\n3\n3\n9\n3\n3\n24";
    let files = [("given", GIVEN), ("marks", &b""[..]), ("prices", prices.as_bytes())];
    assert_eq!(told("slips_in_prices", "price", &files), "`24`: its byte 10 is missing");
}
