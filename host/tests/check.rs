//! The check program on random files: what it prints, and says on standard error, is held to the
//! second implementation's output.
//!
//! `DIFFERENTIAL_SEED` and `CHECK_CASES` choose other cases, and how many there are.

mod common;
mod coverage;

use common::{built, in_folder, option, shown, P};
use coverage::Tally;
use oracle::generate::Random;
use oracle::{check, folder};

const CASES: u64 = 4_000;

/// The first line of an output, or its first word. A file that is too long leaves nothing.
const FIRST: [&str; 8] =
    ["marks", "refused 2", "refused 3", "refused 4", "refused 5", "refused 9", "refused 10", ""];

#[test]
fn outputs_are_as_by_the_oracle() {
    let program = built("check_rewrites");
    let mut first = Tally::new("first lines of the outputs", FIRST);
    let mut missing = Tally::new("missing files", ["given", "marks"]);
    let seed = option("DIFFERENTIAL_SEED", 1);
    for case in 0..option("CHECK_CASES", CASES) {
        let random = &mut Random::new(Random::new(seed).bits() ^ case);
        let contents = folder::checked(random);
        let names = ["given", "marks"];
        let there = names.into_iter().zip(&contents);
        let files: Vec<_> =
            there.filter_map(|(name, file)| file.as_deref().map(|bytes| (name, bytes))).collect();
        for name in names.into_iter().filter(|&name| files.iter().all(|file| file.0 != name)) {
            missing.met(name);
        }
        let output = in_folder(&program, "check", &files, &[]);
        let said = check::said(contents[0].as_deref(), contents[1].as_deref());
        let [given, list] = contents.map(Option::unwrap_or_default);
        let expected = check::check(&given, &list);
        assert!(output.status.success(), "seed {seed} case {case}");
        assert_eq!(shown(&output.stderr), shown(said.as_bytes()), "seed {seed} case {case}");
        assert_eq!(
            shown(&output.stdout),
            shown(&expected),
            "seed {seed} case {case}: given {} marks {}",
            shown(&given),
            shown(&list)
        );
        assert!(output.stdout == expected, "seed {seed} case {case}");
        let line = String::from_utf8_lossy(expected.split(|&byte| byte == 10).next().unwrap());
        first.met(FIRST.into_iter().find(|&class| class == line).unwrap_or("marks"));
    }
    first.report();
    missing.report();
}

/// The longest report: 1,024 marks that name the largest number, on 1,022 of the longest statement.
#[test]
fn the_longest_report_is_printed() {
    let program = built("check_rewrites");
    let longest = "i63 := -2147483648 + -2147483648\n".repeat(1_022);
    let given = format!("read i63\n{longest}write i63\n");
    let marks = "2147483647: mark(rm, i63, -2147483648 + -2147483648)\n".repeat(1_024);
    let files = [("given", given.as_bytes()), ("marks", marks.as_bytes())];
    let output = in_folder(&program, "longest", &files, &[]);
    assert!(output.status.success());
    assert_eq!(shown(&output.stderr), "");
    let numbers = "2147483647 11\n".repeat(1_024);
    let inner: String = (2..1_024).map(|n| format!("{n} 3 3\n")).collect();
    let prices = format!("1 4 4\n{inner}1024 4 4\n3074\n3074\n0\n");
    let expected = format!("marks 1024 accepted 0\n{numbers}{given}{prices}");
    assert_eq!((given.len(), prices.len(), expected.len()), (33_745, 8_121, 56_224));
    assert_eq!(shown(&output.stdout), shown(expected.as_bytes()));
    assert!(output.stdout == expected.as_bytes());
    assert!(output.stdout == check::check(given.as_bytes(), marks.as_bytes()));
}

/// Verdict 18 stands in its place among the others, and what may be dropped is.
#[test]
fn divisions_are_checked() {
    let program = built("check_rewrites");
    let given = b"read i0\ni1 := i0 / i2\ni1 := i0 / 0\ni1 := i0 / -1\ni1 := i0 / 2\nwrite i1\n";
    let marks = b"2: mark(rm, i1, i0 / i2)\n2: mark(rm, i1, i0 / i2)\n3: mark(rm, i1, i0 / 0)\n\
        4: mark(rm, i1, i0 / -1)\n5: mark(rm, i1, i0 / 2)\n6: mark(rm, i1, i0 / 0)\n\
        7: mark(rm, i1, i0 / 0)\n";
    let expected = "marks 7 accepted 1\n2 18\n2 12\n3 18\n4 0\n5 14\n6 13\n7 11\n\
        read i0\ni1 := i0 / i2\ni1 := i0 / 0\nskip\ni1 := i0 / 2\nwrite i1\n\
        1 4 4\n2 24 24\n3 24 24\n4 24 1\n5 24 24\n6 4 4\n104\n81\n23\n";
    let output = in_folder(&program, "divisions", &[("given", given), ("marks", marks)], &[]);
    assert_eq!(shown(&output.stderr), "");
    assert_eq!(String::from_utf8_lossy(&output.stdout), expected);
    assert!(output.stdout == check::check(given, marks));
}

/// Marks of all three kinds: 2 stays for 3 to read, whichever line comes first.
#[test]
fn sums_are_checked() {
    let program = built("check_rewrites");
    let given = b"read i0\ni1 := i0 + 1\ni2 := i0 + 1\ni3 := 7\ni4 := i2 * i3\nwrite i4\n";
    let [rm, cse, rpl, single] = [
        "2: mark(rm, i1, i0 + 1)\n",
        "3: mark(cse, i1, i0 + 1)\n",
        "5: mark(rpl, i3, 7)\n",
        "4: mark(cse, i1, 7)\n",
    ];
    let made = "read i0\ni1 := i0 + 1\ni2 := i1\ni3 := 7\ni4 := i2 * 7\nwrite i4\n\
        1 4 4\n2 3 3\n3 3 2\n4 2 2\n5 9 9\n6 4 4\n25\n24\n1\n";
    let dropped = "read i0\nskip\ni2 := i0 + 1\ni3 := 7\ni4 := i2 * 7\nwrite i4\n\
        1 4 4\n2 3 1\n3 3 3\n4 2 2\n5 9 9\n6 4 4\n25\n23\n2\n";
    for (marks, expected) in [
        (
            format!("{rm}{cse}{rpl}{single}"),
            format!("marks 4 accepted 2\n2 14\n3 0\n5 0\n4 13\n{made}"),
        ),
        (
            format!("{single}{rpl}{cse}{rm}"),
            format!("marks 4 accepted 2\n4 13\n5 0\n3 0\n2 14\n{made}"),
        ),
        (format!("{rpl}{rm}"), format!("marks 2 accepted 2\n5 0\n2 0\n{dropped}")),
        (format!("{cse}5: mark(cse, i3, i2 * i3 * 7)\n"), "refused 9\n".to_string()),
    ] {
        let files = [("given", given.as_slice()), ("marks", marks.as_bytes())];
        let output = in_folder(&program, "sums", &files, &[]);
        assert_eq!(String::from_utf8_lossy(&output.stdout), expected, "{marks}");
        assert!(output.stdout == check::check(given, marks.as_bytes()));
    }
}

/// P with document 01's marks: `rpl` changes no price.
#[test]
fn the_prices_of_p_are_printed() {
    let program = built("check_rewrites");
    let marks =
        "4: mark(rpl, i2, 7)\n3: mark(rm, i2, 7)\n4: mark(rpl, i1, i0)\n6: mark(rm, i0, 1)\n\
        9: mark(rm, i2, 7)\n";
    let new = P.replace("i1 + i2", "i1 + 7");
    let expected = format!(
        "marks 5 accepted 1\n4 0\n3 14\n4 12\n6 13\n9 11\n{new}\
         1 4 4\n2 2 2\n3 2 2\n4 3 3\n5 3 3\n6 3 3\n7 3 3\n8 4 4\n24\n24\n0\n"
    );
    let files = [("given", P.as_bytes()), ("marks", marks.as_bytes())];
    let output = in_folder(&program, "prices", &files, &[]);
    assert_eq!(String::from_utf8_lossy(&output.stdout), expected);
    assert!(output.stdout == check::check(P.as_bytes(), marks.as_bytes()));
}

/// The longest numbers of ours: 1,022 divisions, all dropped but those that may fault.
#[test]
fn the_largest_totals_are_printed() {
    let program = built("check_rewrites");
    let given = format!("read i0\n{}write i0\n", "i1 := 7 / 2\n".repeat(1_022));
    let marks: String = (2..1_024).map(|n| format!("{n}: mark(rm, i1, 7 / 2)\n")).collect();
    let files = [("given", given.as_bytes()), ("marks", marks.as_bytes())];
    let output = in_folder(&program, "totals", &files, &[]);
    let printed = String::from_utf8_lossy(&output.stdout);
    assert!(printed.ends_with("\n1023 24 1\n1024 4 4\n24536\n1030\n23506\n"));
    assert!(output.stdout == check::check(given.as_bytes(), marks.as_bytes()));
}

/// Each sign that is misspelled, in either file.
#[test]
fn misspelled_signs_are_refused() {
    let program = built("check_rewrites");
    let wrong =
        ["-0", "-01", "--1", "- 40", "+1", "-", "-2147483649", "-21474836480", "-4294967296"];
    for right in wrong.into_iter().chain(["i0 -40"]) {
        let given = format!("read i0\ni1 := {right}\nwrite i1\n");
        let output =
            in_folder(&program, "signs", &[("given", given.as_bytes()), ("marks", b"")], &[]);
        assert_eq!(shown(&output.stdout), "refused 2\\n", "{right}");
        let said = "the author of the shift program: line 2 isn't spelled as a statement, or lacks its byte 10";
        assert_eq!(String::from_utf8_lossy(&output.stderr), format!("{said}\n"), "{right}");
        let marks = format!("2: mark(rm, i1, {right})\n");
        let files = [("given", b"read i0\nwrite i0\n".as_slice()), ("marks", marks.as_bytes())];
        let output = in_folder(&program, "signs", &files, &[]);
        assert_eq!(shown(&output.stdout), "refused 9\\n", "{right}");
    }
}
