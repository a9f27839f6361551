//! `rewrites check` on random folders: `--text` is held to the proved check program, JSON to the
//! second implementation, read by Python.
//!
//! `DIFFERENTIAL_SEED` and `COMMAND_CASES` choose other cases, and how many there are.

#[path = "../../host/tests/common/mod.rs"]
mod common;
#[path = "../../host/tests/coverage/mod.rs"]
mod coverage;
mod shell;

use common::{built, option};
use coverage::Tally;
use oracle::check::LARGEST_FILE;
use oracle::generate::{self, Random};
use oracle::{check, folder as random_folder, marks};
use shell::{example, folder, printed, run, run_in, said, status, told_again};
use std::ffi::OsString;
use std::fs;
use std::path::PathBuf;
use std::process::Command;
use std::time::Instant;

const CASES: u64 = 2_000;

/// The first line of an output, or its first word. A file that is too long leaves nothing.
const FIRST: [&str; 8] =
    ["marks", "refused 2", "refused 3", "refused 4", "refused 5", "refused 9", "refused 10", ""];

/// The contents of `given` and `marks`.
type Contents = [Option<Vec<u8>>; 2];

fn random(case: u64) -> Random {
    Random::new(Random::new(option("DIFFERENTIAL_SEED", 1) ^ 14).bits() ^ case)
}

fn files(contents: &Contents) -> Vec<(&str, &[u8])> {
    let named = ["given", "marks"].into_iter().zip(contents);
    named.filter_map(|(name, file)| file.as_deref().map(|bytes| (name, bytes))).collect()
}

/// The status that a folder should have, by its files and by what the check program prints.
fn expected_status(contents: &Contents, report: &[u8]) -> i32 {
    if contents.contains(&None) || report.is_empty() {
        2
    } else {
        i32::from(report.starts_with(b"refused"))
    }
}

#[test]
fn texts_are_as_by_the_check_program() {
    let program = built("check_rewrites");
    let mut first = Tally::new("first lines of the outputs", FIRST);
    let mut statuses = Tally::new("statuses", [0, 1, 2]);
    for case in 0..option("COMMAND_CASES", CASES) {
        let contents = random_folder::checked(&mut random(case));
        let folder = folder("text", &files(&contents));
        let proved = Command::new(&program).current_dir(&folder).output().expect("it runs");
        let output = run_in(&folder, &["check", "--text", "."]);
        assert_eq!(output.stdout, proved.stdout, "case {case}");
        assert_eq!(status(&output), expected_status(&contents, &proved.stdout), "case {case}");
        assert_eq!(output.stderr.is_empty(), status(&output) == 0, "case {case}");
        statuses.met(status(&output));
        let line = printed(&output).lines().next().unwrap_or_default().to_string();
        first.met(FIRST.into_iter().find(|&class| class == line).unwrap_or("marks"));
    }
    first.report();
    statuses.report();
}

#[test]
fn json_tells_what_the_check_program_prints() {
    let (mut words, mut expected) = (vec![OsString::from("check"), "--json".into()], Vec::new());
    let mut sums = [0; 5];
    for case in 0..400 {
        let contents = random_folder::checked(&mut random(1_000_000 + case));
        words.push(folder(&format!("json/{case}"), &files(&contents)).into());
        let status_of = |report: &[u8]| expected_status(&contents, report) as usize;
        let [given, list] = contents.clone().map(Option::unwrap_or_default);
        let report = check::check(&given, &list);
        sums[status_of(&report)] += 1;
        let text = String::from_utf8(report).expect("a text");
        if let Some(counts) = text.strip_prefix("marks ") {
            let mut words = counts.split_whitespace();
            sums[3] += words.next().expect("a count").parse::<usize>().expect("a count");
            sums[4] += words.nth(1).expect("a count").parse::<usize>().expect("a count");
        }
        expected.push(text);
    }
    let [results, refused, unread, marks, accepted] = sums;
    expected.push(format!("total 400 {results} {refused} {unread} {marks} {accepted} status 2\n"));
    let output = run(&words);
    assert_eq!(status(&output), 2);
    let told = told_again(&output.stdout);
    assert_eq!(told.len(), expected.len());
    for (case, (told, expected)) in told.iter().zip(&expected).enumerate() {
        assert_eq!(told, expected, "case {case}");
    }
}

/// A folder that has a good folder, a refused one, one with a long file, and one without marks.
fn folders(name: &str) -> PathBuf {
    let base = folder(name, &[]);
    let given = |name: &str| format!("{}/{name}", base.file_name().unwrap().to_string_lossy());
    let target = b"read i0\nif i0 goto 9 else 3\nwrite i0\n";
    folder(&given("refused"), &[("given", target), ("marks", b"")]);
    folder(&given("long"), &[("given", &b"skip\n".repeat(20_000)), ("marks", b"")]);
    folder(&given("unmarked"), &[("given", b"read i0\nwrite i0\n")]);
    let read = |file| fs::read(example("p").join(file)).expect("a file is read");
    folder(&given("p"), &[("given", &read("given")), ("marks", &read("marks"))]);
    base
}

#[test]
fn a_line_a_folder_and_a_total() {
    let base = folders("lines");
    let words = ["check", "p", "refused", "long", "unmarked", "nowhere", "p/given", "p"];
    let output = run_in(&base, &words);
    let of_p = "marks 5, accepted 1, no such statement 1, named before 1, doesn't fit 1, condition false 1";
    let expected = format!(
        "p: {of_p}\n\
         refused: refused 5: the author of the shift program: line 2: a target outside 2 to N\n\
         long: given can't be read: over 65,535 bytes\n\
         unmarked: marks 0, accepted 0; marks is read as empty: No such file or directory\n\
         nowhere: not read: No such file or directory\n\
         p/given: not read: not a folder\n\
         p: {of_p}\n\
         total: folders 7, refused 1, not read 4; marks 10, accepted 2, no such statement 2, \
         named before 2, doesn't fit 2, condition false 2\n"
    );
    assert_eq!(printed(&output), expected);
    let folders = "expected a folder with a program in `given` and a list of marks in `marks`";
    let messages = format!(
        "refused/given:2: the author of the shift program: a target outside 2 to N; \
         expected targets from 2 to 3, found `if i0 goto 9 else 3`: `9` is outside 2 to 3\n\
         long/given: the caller: can't be read: over 65,535 bytes; \
         expected a file of at most 65,535 bytes\n\
         unmarked/marks: the caller: is read as empty: No such file or directory; \
         expected a file, which may be empty\n\
         nowhere: the caller: No such file or directory; {folders}\n\
         p/given: the caller: not a folder; {folders}\n"
    );
    assert_eq!(said(&output), messages);
    assert_eq!(status(&output), 2);
}

/// Of many folders the worst status is told, wherever it stands.
#[test]
fn the_worst_status() {
    let base = folders("worst");
    for (words, expected) in [
        (&["p", "p"][..], 0),
        (&["p", "refused", "p"], 1),
        (&["refused", "p"], 1),
        (&["unmarked", "refused", "p"], 2),
        (&["p", "refused", "long"], 2),
    ] {
        for shape in [&[][..], &["--json"], &["--explain"]] {
            let output = run_in(&base, &[&["check"], words, shape].concat());
            assert_eq!(status(&output), expected, "{words:?} {shape:?}");
        }
    }
}

#[test]
fn an_explanation_of_each_mark() {
    let output = run_in(&folders("explained"), &["check", "--explain", "p"]);
    let expected = "\
p: marks 5, accepted 1, no such statement 1, named before 1, doesn't fit 1, condition false 1
  line 1: 4: mark(rpl, i2, 7): accepted
    condition AY A[((!def(i2) & trans(7)) & !entry) B stmt(i2 := 7)]
  line 2: 3: mark(rm, i2, 7): condition false at 3
    condition !EX E[!def(i2) U use(i2)]
     3  i2 := 7        defines i2
     4  i3 := i1 + i2  uses i2
  line 3: 4: mark(rpl, i1, i0): named before: line 1 names 4
    condition AY A[((!def(i1) & trans(i0)) & !entry) B stmt(i1 := i0)]
  line 4: 6: mark(rm, i0, 1): doesn't fit: statement 6 is `i0 := i0 - 1`
    condition !EX E[!def(i0) U use(i0)]
  line 5: 9: mark(rm, i2, 7): no such statement: the program has 1 to 8
    condition !EX E[!def(i2) U use(i2)]
total: folders 1; marks 5, accepted 1, no such statement 1, named before 1, doesn't fit 1, condition false 1
";
    assert_eq!(printed(&output), expected);
    assert_eq!(status(&output), 0);
    // The first line that names a statement is named, whatever its verdict.
    let marks = b"9: mark(rm, i0, 1)\n2: mark(rm, i0, 1)\n2: mark(rm, i0, 2)\n2: mark(rm, i0, 3)\n";
    let base = folder("named", &[("given", b"read i0\nskip\nwrite i0\n"), ("marks", marks)]);
    let text = printed(&run_in(&base, &["check", "--explain", "."]));
    for line in [
        "  line 2: 2: mark(rm, i0, 1): doesn't fit: statement 2 is `skip`\n",
        "  line 3: 2: mark(rm, i0, 2): named before: line 2 names 2\n",
        "  line 4: 2: mark(rm, i0, 3): named before: line 2 names 2\n",
    ] {
        assert!(text.contains(line), "{text}");
    }
}

/// Marks with constants below zero: the text, the explanations and the program that is written.
#[test]
fn constants_below_zero() {
    let read = |file: &str| fs::read(example("offset").join(file)).expect("a file is read");
    let base = folder("below", &[("given", &read("given")), ("marks", &read("marks"))]);
    let expected = read("expected");
    let output = run_in(&base, &["check", "--text", ".", "-o", "new"]);
    assert_eq!((status(&output), &output.stdout), (0, &expected));
    // Behind the counts and 11 verdicts, and before as many prices and three totals.
    let printed_lines: Vec<&str> = std::str::from_utf8(&expected).unwrap().lines().collect();
    let program = &printed_lines[12..24];
    let new = fs::read_to_string(base.join("new")).expect("a file is read");
    assert_eq!(new, program.join("\n") + "\n");
    let explained = printed(&run_in(&base, &["check", "--explain", "."]));
    for words in [
        "  line 1: 5: mark(rpl, i4, -40): accepted\n    \
         condition AY A[((!def(i4) & trans(-40)) & !entry) B stmt(i4 := -40)]\n",
        "  line 3: 7: mark(rpl, i5, -15): condition false at 7\n    \
         condition AY A[((!def(i5) & trans(-15)) & !entry) B stmt(i5 := -15)]\n",
        "  line 4: 3: mark(rm, i5, -15): doesn't fit: statement 3 is `i5 := 0 - 15`\n    \
         condition !EX E[!def(i5) U use(i5)]\n",
    ] {
        assert!(explained.contains(words), "{explained}");
    }
}

/// Marks on variables that the unit keeps: the text, and what is said of those that are refused.
#[test]
fn marks_on_what_is_kept() {
    let hold = example("hold");
    let expected = fs::read(hold.join("expected")).expect("a file is read");
    let output = run_in(&hold, &["check", "--text", "."]);
    assert_eq!((status(&output), &output.stdout), (0, &expected));
    let explained = printed(&run_in(&hold, &["check", "--explain", "."]));
    for words in [
        ".: marks 14, accepted 3, no such statement 1, named before 1, doesn't fit 2, condition false 7\n",
        "  line 2: 3: mark(rm, i26, i0): condition false at 3\n    \
         condition !EX E[!def(i26) U use(i26)]\n",
        "  line 8: 14: mark(rpl, i26, i0): doesn't fit: statement 14 is `write i3`\n",
    ] {
        assert!(explained.contains(words), "{explained}");
    }
}

/// Marks that drop a division: the text, the words and the JSON of those that may lose a fault.
#[test]
fn marks_on_divisions() {
    let given = b"read i0\ni1 := i0 / i2\ni1 := i0 / 0\ni1 := i0 / -1\ni1 := i0 / 2\nwrite i1\n";
    let marks = b"2: mark(rm, i1, i0 / i2)\n3: mark(rm, i1, i0 / 0)\n4: mark(rm, i1, i0 / -1)\n\
        5: mark(rm, i1, i0 / 2)\n2: mark(rm, i1, i0 / i2)\n";
    let base = folder("divisions", &[("given", given), ("marks", marks)]);
    let output = run_in(&base, &["check", "--text", "."]);
    assert_eq!((status(&output), &output.stdout), (0, &check::check(given, marks)));
    let counts = "marks 5, accepted 1, named before 1, may fault 2, condition false 1";
    let output = run_in(&base, &["check", "--explain", "."]);
    let expected = format!(
        "\
.: {counts}
  line 1: 2: mark(rm, i1, i0 / i2): may fault: statement 2 divides by i2
    condition !EX E[!def(i1) U use(i1)]
  line 2: 3: mark(rm, i1, i0 / 0): may fault: statement 3 divides by 0
    condition !EX E[!def(i1) U use(i1)]
  line 3: 4: mark(rm, i1, i0 / -1): accepted
    condition !EX E[!def(i1) U use(i1)]
  line 4: 5: mark(rm, i1, i0 / 2): condition false at 5
    condition !EX E[!def(i1) U use(i1)]
     5  i1 := i0 / 2  defines i1
     6  write i1      uses i1
  line 5: 2: mark(rm, i1, i0 / i2): named before: line 1 names 2
    condition !EX E[!def(i1) U use(i1)]
total: folders 1; {counts}
"
    );
    assert_eq!((status(&output), printed(&output)), (0, expected));
    let output = run_in(&base, &["check", "--json", ".", "."]);
    let json = printed(&output);
    for words in [
        "\"counts\":{\"accepted\":1,\"missing\":0,\"repeated\":1,\"unfit\":0,\"may_fault\":2,\"unmet\":1}",
        "\"counts\":{\"accepted\":2,\"missing\":0,\"repeated\":2,\"unfit\":0,\"may_fault\":4,\"unmet\":2}",
        "\"verdict\":18,\"name\":\"may_fault\",\"words\":\"may fault: statement 3 divides by 0\"",
    ] {
        assert!(json.contains(words), "{json}");
    }
    let told = told_again(&output.stdout);
    assert_eq!(told[0].as_bytes(), check::check(given, marks));
    assert_eq!(told[2], "total 2 2 0 0 10 2 status 0\n");
}

/// Marks of all three kinds, on sums that are computed twice.
#[test]
fn marks_on_sums() {
    let given = b"read i0\ni1 := i0 + 1\ni2 := i0 + 1\ni3 := 7\ni4 := i2 * i3\ni5 := 7\nwrite i4\n";
    let marks = b"2: mark(rm, i1, i0 + 1)\n3: mark(cse, i1, i0 + 1)\n5: mark(rpl, i3, 7)\n\
        6: mark(cse, i3, 7)\n4: mark(cse, i1, i0 + 1)\n3: mark(rm, i2, i0 + 1)\n";
    let base = folder("sums", &[("given", given), ("marks", marks)]);
    let output = run_in(&base, &["check", "--text", "."]);
    assert_eq!((status(&output), &output.stdout), (0, &check::check(given, marks)));
    let counts = "marks 6, accepted 2, named before 1, doesn't fit 2, condition false 1";
    let output = run_in(&base, &["check", "--explain", ".", "-o", "new"]);
    let expected = format!(
        "\
.: {counts}
  line 1: 2: mark(rm, i1, i0 + 1): condition false at 2
    condition !EX E[!def(i1) U use(i1)]
     2  i1 := i0 + 1  defines i1
     3  i2 := i0 + 1  uses i1, by a `cse` of the list that is accepted
  line 2: 3: mark(cse, i1, i0 + 1): accepted
    condition AY A[((!def(i1) & trans(i0 + 1)) & !entry) B (stmt(i1 := i0 + 1) & trans(i0 + 1))]
  line 3: 5: mark(rpl, i3, 7): accepted
    condition AY A[((!def(i3) & trans(7)) & !entry) B stmt(i3 := 7)]
  line 4: 6: mark(cse, i3, 7): doesn't fit: statement 6 is `i5 := 7`, and `cse` takes two operands
    condition AY A[((!def(i3) & trans(7)) & !entry) B (stmt(i3 := 7) & trans(7))]
  line 5: 4: mark(cse, i1, i0 + 1): doesn't fit: statement 4 is `i3 := 7`
    condition AY A[((!def(i1) & trans(i0 + 1)) & !entry) B (stmt(i1 := i0 + 1) & trans(i0 + 1))]
  line 6: 3: mark(rm, i2, i0 + 1): named before: line 2 names 3
    condition !EX E[!def(i2) U use(i2)]
total: folders 1; {counts}
"
    );
    assert_eq!((status(&output), printed(&output)), (0, expected));
    let new = fs::read_to_string(base.join("new")).expect("a file is read");
    let made = "read i0\ni1 := i0 + 1\ni2 := i1\ni3 := 7\ni4 := i2 * 7\ni5 := 7\nwrite i4\n";
    assert_eq!(new, made);
    let output = run_in(&base, &["check", "--json", "."]);
    let json = printed(&output);
    for words in [
        "\"counts\":{\"accepted\":2,\"missing\":0,\"repeated\":1,\"unfit\":2,\"may_fault\":0,\"unmet\":1}",
        "{\"line\":2,\"mark\":\"3: mark(cse, i1, i0 + 1)\",\"statement\":3,\"verdict\":0,\"name\":\"accepted\",\
         \"words\":\"accepted\",\"condition\":\"AY A[((!def(i1) & trans(i0 + 1)) & !entry) B \
         (stmt(i1 := i0 + 1) & trans(i0 + 1))]\"}",
        "{\"line\":1,\"mark\":\"2: mark(rm, i1, i0 + 1)\",\"statement\":2,\"verdict\":14,\"name\":\"unmet\",\
         \"words\":\"condition false at 2\",\"condition\":\"!EX E[!def(i1) U use(i1)]\"}",
    ] {
        assert!(json.contains(words), "{json}");
    }
    assert_eq!(told_again(&output.stdout)[0].as_bytes(), check::check(given, marks));
    // By itself the first line is accepted.
    let alone = b"2: mark(rm, i1, i0 + 1)\n";
    let base = folder("sum_alone", &[("given", given), ("marks", alone)]);
    let output = run_in(&base, &["check", "."]);
    assert!(printed(&output).starts_with(".: marks 1, accepted 1\n"));
}

/// The prices of the example P and of a program on which marks save: the text and the JSON, of folders and of the total.
#[test]
fn prices_and_totals() {
    let output = run_in(&example("p"), &["check", "--text", "."]);
    let prices = "1 4 4\n2 2 2\n3 2 2\n4 3 3\n5 3 3\n6 3 3\n7 3 3\n8 4 4\n24\n24\n0\n";
    assert!(printed(&output).ends_with(&format!("\nwrite i3\n{prices}")));
    let given = b"read i0\ni1 := i0 * 3\nwrite i0\n";
    let marks = b"2: mark(rm, i1, i0 * 3)\n";
    let base = folder("prices", &[("given", given), ("marks", marks)]);
    let output = run_in(&base, &["check", "--text", "."]);
    assert!(printed(&output).ends_with("\nwrite i0\n1 4 4\n2 9 1\n3 4 4\n17\n9\n8\n"));
    let p = example("p");
    let output = run_in(&base, &["check", "--json", ".", &p.to_string_lossy(), "nowhere", "."]);
    let json: Vec<String> = printed(&output).lines().map(str::to_string).collect();
    let of_folder = "\"prices\":{\"before\":[4,9,4],\"after\":[4,1,4]},\
                     \"ticks\":{\"given\":17,\"rewritten\":9,\"saved\":8}}";
    assert!(json[0].ends_with(of_folder) && json[3].ends_with(of_folder), "{}", json[0]);
    assert!(json[1].ends_with("\"ticks\":{\"given\":24,\"rewritten\":24,\"saved\":0}}"));
    assert!(!json[2].contains("ticks") && !json[2].contains("prices"));
    assert!(json[4].ends_with("\"ticks\":{\"given\":58,\"rewritten\":42,\"saved\":16}}"));
    assert_eq!(told_again(&output.stdout)[0].as_bytes(), check::check(given, marks));
    // Where the call is refused there is nothing of it.
    let base = folder("prices", &[("given", given), ("marks", b"2: mark(rm)\n")]);
    assert_eq!(printed(&run_in(&base, &["check", "--text", "."])), "refused 9\n");
}

#[test]
fn the_longest_report() {
    let longest = "i63 := -2147483648 + -2147483648\n".repeat(1_022);
    let given = format!("read i63\n{longest}write i63\n").into_bytes();
    let marks = "2147483647: mark(rm, i63, -2147483648 + -2147483648)\n".repeat(1_024).into_bytes();
    let base = folder("longest", &[("given", &given), ("marks", &marks)]);
    let output = run_in(&base, &["check", "--text", "."]);
    assert_eq!((status(&output), output.stdout.len()), (0, 56_224));
    assert!(output.stdout == check::check(&given, &marks));
    let output = run_in(&base, &["check", ".", "--json"]);
    assert!(told_again(&output.stdout)[0].as_bytes() == check::check(&given, &marks));
}

/// Each refusal names its file and line, whose mistake it is, what was expected and what was found.
#[test]
fn refusals_in_words() {
    let statement =
        "`read X`, `write X`, `X := A`, `X := A o A`, `if X goto n else m` or `skip`, and byte 10";
    let placed = "`read X` on the first line, `write X` on the last, and neither elsewhere";
    let mark = "`n: mark(rm, X, E)`, `n: mark(rpl, X, A)` or `n: mark(cse, T, E)`, and byte 10";
    let (author, optimiser) = ("the author of the shift program", "the optimiser");
    let misspelled = format!(
        "{author}: not spelled as a statement, or without its byte 10; expected {statement}"
    );
    let few = format!("{author}: under 2 or over 1,024 lines; expected 2 to 1,024 lines");
    let misplaced = format!(
        "{author}: `read` or `write` missing from its place or standing elsewhere; expected {placed}"
    );
    let of_mark = format!("{optimiser}: misspelled, or without its byte 10; expected {mark}");
    let good = "read i0\nwrite i0\n";
    let many_marks = "1: mark(rm, i0, 1)\n".repeat(1_025);
    let long_line = format!("read i0\n{}\nwrite i0\n", "é".repeat(50));
    for (given, marks, expected) in [
        ("read i0\nskip\nrubbish\nwrite i0\n", "", format!("given:3: {misspelled}, found `rubbish`")),
        (
            "read i0\nwrite i0",
            "",
            format!("given:2: {misspelled}, found `write i0`: its byte 10 is missing"),
        ),
        ("read i0\n\nwrite i0\n", "", format!("given:2: {misspelled}, found ``: it ends too early")),
        (&long_line, "", format!("given:2: {misspelled}, found `{}..`", "\\xc3\\xa9".repeat(40))),
        ("read i0\ni1 := -0\nwrite i1\n", "", format!("given:2: {misspelled}, found `i1 := -0`")),
        (
            "read i0\ni1 := -1\nif i1 goto -2 else 3\nwrite i1\n",
            "",
            format!("given:3: {misspelled}, found `if i1 goto -2 else 3`"),
        ),
        ("", "", format!("given: {few}, found 0 lines")),
        (&"skip\n".repeat(2_000), "", format!("given: {few}, found 2,000 lines")),
        ("read i0\nskip\n", "", format!("given:2: {misplaced}, found `skip`")),
        ("skip\nread i0\nwrite i0\n", "", format!("given:1: {misplaced}, found `skip`")),
        ("read i0\nwrite i1\nwrite i0\n", "", format!("given:2: {misplaced}, found `write i1`")),
        (
            "read i0\nskip\nif i0 goto 2 else 1\nwrite i0\n",
            "",
            format!(
                "given:3: {author}: a target outside 2 to N; expected targets from 2 to 4, \
                 found `if i0 goto 2 else 1`: `1` is outside 2 to 4"
            ),
        ),
        (good, "2: mark(rm, i0, 1)\n2: mark(rm, i0)\n", format!("marks:2: {of_mark}, found `2: mark(rm, i0)`")),
        (
            good,
            "2: mark(rm, i0, 1)",
            format!("marks:1: {of_mark}, found `2: mark(rm, i0, 1)`: its byte 10 is missing"),
        ),
        (
            good,
            "2: mark(rpl, i0, -1)\n2: mark(rpl, i0, --1)\n",
            format!("marks:2: {of_mark}, found `2: mark(rpl, i0, --1)`"),
        ),
        (
            good,
            "2: mark(rm, i0, -2147483648)\n-2: mark(rm, i0, 1)\n",
            format!("marks:2: {of_mark}, found `-2: mark(rm, i0, 1)`"),
        ),
        (
            good,
            &many_marks,
            format!(
                "marks: {optimiser}: over 1,024 lines of marks; expected at most 1,024 lines, found 1,025 lines"
            ),
        ),
    ] {
        let base = folder("words", &[("given", given.as_bytes()), ("marks", marks.as_bytes())]);
        let output = run_in(&base, &["check", "."]);
        assert_eq!(said(&output), format!("./{expected}\n"));
        assert_eq!(status(&output), 1);
    }
}

/// 61 folders of 256 statements and 256 marks, the sums as by the oracle. With `--nocapture` it
/// tells how long the command takes.
#[test]
fn many_large_folders() {
    let mut words = vec![OsString::from("check")];
    let (mut marked, mut accepted) = (0, 0);
    for case in 0..61 {
        let random = &mut random(2_000_000 + case);
        let program = generate::program(random, 256);
        let list = marks::text(&generate::marks(random, &program, 256));
        assert!(list.len() <= LARGEST_FILE);
        let given = program.text();
        let report = String::from_utf8(check::check(&given, &list)).expect("a text");
        let counts: Vec<&str> = report.lines().next().unwrap_or_default().split(' ').collect();
        marked += counts[1].parse::<usize>().expect("a count");
        accepted += counts[3].parse::<usize>().expect("a count");
        words.push(folder(&format!("large/{case}"), &[("given", &given), ("marks", &list)]).into());
    }
    let start = Instant::now();
    let output = run(&words);
    println!("61 folders of 256 statements and 256 marks: {:?}", start.elapsed());
    assert_eq!((status(&output), marked), (0, 61 * 256));
    let total = printed(&output).lines().last().unwrap_or_default().to_string();
    let expected = format!("total: folders 61; marks {marked}, accepted {accepted}, ");
    assert!(total.starts_with(&expected), "{total}");
    assert_eq!(printed(&output).lines().count(), 62);
}
