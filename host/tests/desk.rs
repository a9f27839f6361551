//! The viewer, the runner and the comparison on random files: what they print is held to the second
//! implementation's output. A file that is too long leaves nothing printed, and is told.
//!
//! `DIFFERENTIAL_SEED` and `DESK_CASES` choose other cases, and how many of each program there are.

mod common;
mod coverage;

use common::{built, in_folder, option, shown, P};
use coverage::Tally;
use oracle::check::LARGEST_FILE;
use oracle::generate::{self, Random};
use oracle::{desk, folder, marks};
use std::path::Path;

const CASES: u64 = 1_000;

fn cases(program: &str) -> impl Iterator<Item = (u64, Random)> {
    let (count, seed) = (option("DESK_CASES", CASES), option("DIFFERENTIAL_SEED", 1));
    let start = program.bytes().fold(seed, |sum, byte| Random::new(sum ^ u64::from(byte)).bits());
    (0..count).map(move |case| (case, Random::new(start.wrapping_add(case))))
}

/// What is said of the first file that is too long.
fn said(files: &[(&str, &[u8])]) -> Option<String> {
    let (name, _) = files.iter().find(|(_, bytes)| bytes.len() > LARGEST_FILE)?;
    Some(format!("{name} can't be read: over 65,535 bytes\n"))
}

/// Runs a program on files of these contents, by the folder's and the files' names.
fn printed(program: &Path, folder: &str, files: &[(&str, &[u8])], words: &[&str]) -> Vec<u8> {
    let output = in_folder(program, folder, files, words);
    assert!(output.status.success());
    assert_eq!(shown(&output.stderr), shown(said(files).unwrap_or_default().as_bytes()));
    output.stdout
}

/// What is printed for files of which none is too long is this.
fn of_whole_files(files: &[(&str, &[u8])], output: String) -> String {
    said(files).map_or(output, |_| String::new())
}

fn same(case: u64, output: &[u8], expected: &str, files: &[(&str, &[u8])]) {
    let shown_files: Vec<String> =
        files.iter().map(|(name, bytes)| format!("{name} {}", shown(bytes))).collect();
    assert_eq!(shown(output), shown(expected.as_bytes()), "case {case}: {shown_files:?}");
    assert!(output == expected.as_bytes(), "case {case}: {shown_files:?}");
}

/// What the first line of an output is: the refusal, or a result; nothing of files that are too long.
fn class(output: &str) -> &'static str {
    #[rustfmt::skip]
    let refusals = [
        "refused start", "refused 2", "refused 3", "refused 4", "refused 5", "refused 6",
        "refused 7", "refused 8", "refused 9", "refused 10", "refused 15",
    ];
    let Some(line) = output.lines().next() else {
        return "nothing";
    };
    refusals.into_iter().find(|&refusal| refusal == line).unwrap_or("result")
}

/// How a run or both runs of an output ended, if it tells that.
fn ending(output: &str) -> Option<&'static str> {
    let line = output.lines().find(|line| {
        let line = line.strip_prefix("given ").unwrap_or(line);
        ["ended ", "spent at ", "fault at "].iter().any(|words| line.starts_with(words))
    })?;
    Some(match line.split_once(" kept ") {
        Some((_, "0 0 0 0 0 0 0 0")) => "ended, kept zeros",
        Some(_) => "ended, kept others",
        None if line.contains("fault at ") => "fault",
        None => "spent",
    })
}

const ENDINGS: [&str; 4] = ["ended, kept zeros", "ended, kept others", "spent", "fault"];

/// The bytes of a step's line in which no variable differs: the step, the statement's number, and two statements.
const STEP_BYTES: usize = 7 + 2 + 4 + 2 + 32 + 2 + 32;

const OF_PROGRAMS: [&str; 5] = ["result", "refused 2", "refused 3", "refused 4", "refused 5"];
const OF_STARTS: [&str; 2] = ["refused start", "refused 15"];

#[test]
fn views_are_as_by_the_oracle() {
    let viewer = built("view_condition");
    let of_conditions = ["refused 6", "refused 7", "refused 8"];
    let mut met = Tally::new("views", OF_PROGRAMS.into_iter().chain(of_conditions));
    for (case, mut random) in cases("view") {
        let random = &mut random;
        let (given, text) = folder::given(random);
        let condition = folder::condition(random, &given);
        let (file, bare) = folder::condition_file(random, &condition);
        let files = [("given", &text[..]), ("condition", &file[..])];
        let expected = of_whole_files(&files, desk::view(&text, &bare));
        same(case, &printed(&viewer, "view", &files, &[]), &expected, &files);
        met.met(class(&expected));
    }
    met.report();
}

#[test]
fn runs_are_as_by_the_oracle() {
    let runner = built("run_program");
    let mut met = Tally::new("runs", OF_PROGRAMS.into_iter().chain(OF_STARTS));
    let mut endings = Tally::new("endings of runs", ENDINGS);
    for (case, mut random) in cases("run") {
        let random = &mut random;
        let ((_, text), start, trace) =
            (folder::given(random), folder::start(random), random.chance(70));
        let files = [("given", &text[..]), ("start", &start[..])];
        let words: &[&str] = if trace { &["given", "start", "trace"] } else { &[] };
        let expected = of_whole_files(&files, desk::run(&text, &start, trace));
        same(case, &printed(&runner, "run", &files, words), &expected, &files);
        met.met(class(&expected));
        ending(&expected).into_iter().for_each(|ending| endings.met(ending));
    }
    met.report();
    endings.report();
}

#[test]
fn comparisons_are_as_by_the_oracle() {
    let comparer = built("compare_runs");
    let classes = OF_PROGRAMS.into_iter().chain(OF_STARTS).chain(["refused 9"]);
    let mut met = Tally::new("comparisons", classes);
    let mut endings = Tally::new("endings of comparisons", ENDINGS);
    let mut differences = Tally::new("steps compared", ["alike", "dead variables differ"]);
    let mut fewer = Tally::new("ticks of comparisons", ["fewer", "the same"]);
    for (case, mut random) in cases("compare") {
        let random = &mut random;
        let ((given, text), start) = (folder::given(random), folder::start(random));
        let count = random.below(given.count() as usize + 4).min(60);
        let list = marks::text(&generate::marks(random, &given, count));
        let list = if random.below(12) == 0 { generate::damage(random, &list) } else { list };
        let files = [("given", &text[..]), ("marks", &list[..]), ("start", &start[..])];
        let expected = of_whole_files(&files, desk::compare(&text, &list, &start));
        same(case, &printed(&comparer, "compare", &files, &[]), &expected, &files);
        met.met(class(&expected));
        ending(&expected).into_iter().for_each(|ending| endings.met(ending));
        let is_step = |line: &&str| line.starts_with(' ') && !line.starts_with("   step");
        for line in expected.lines().filter(is_step) {
            // Both statements fill their columns, and the last of a line without differences ends there.
            let is_alike = line.len() == STEP_BYTES;
            differences.met(if is_alike { "alike" } else { "dead variables differ" });
        }
        let told = |name| expected.lines().find(|line| line.starts_with(name)).map(ticks);
        if let (Some(given), Some(rewritten)) = (told("given "), told("rewritten ")) {
            fewer.met(if rewritten < given { "fewer" } else { "the same" });
        }
    }
    met.report();
    endings.report();
    differences.report();
    fewer.report();
}

// Faults

/// A line for the step that faults, in which nothing is assigned, and the line of the outcome.
#[test]
fn faults_are_printed() {
    let runner = built("run_program");
    let given = b"read i0\ni1 := 10 / i0\nwrite i1\n";
    let outcome = "fault at 2 steps 2 ticks 28\n";
    let trace = "   step  line  statement                         assigned\n\
                 \x20     1     1  read i0                           i0 = 0\n\
                 \x20     2     2  i1 := 10 / i0                   \n";
    for (start, is_traced) in [("0\n2\n7\n7\n", false), ("0\n1000000\n7\n7\n", true)] {
        let files = [("given", &given[..]), ("start", start.as_bytes())];
        let words: &[&str] = if is_traced { &["given", "start", "trace"] } else { &[] };
        let expected = if is_traced { format!("{trace}{outcome}") } else { outcome.to_string() };
        assert_eq!(desk::run(given, start.as_bytes(), is_traced), expected);
        same(0, &printed(&runner, "fault", &files, words), &expected, &files);
    }
    // One step before it.
    let start = "0\n1\n";
    let files = [("given", &given[..]), ("start", start.as_bytes())];
    let expected = desk::run(given, start.as_bytes(), false);
    assert!(expected.starts_with("spent at 2 ticks 4\n"));
    same(1, &printed(&runner, "fault", &files, &[]), &expected, &files);
}

/// Both programs fault, one by `0` in place of the variable that holds it.
#[test]
fn faults_are_compared() {
    let comparer = built("compare_runs");
    let given = b"read i0\ni3 := 9\ni1 := 0\ni2 := i0 / i1\nwrite i2\n";
    let list = b"2: mark(rm, i3, 9)\n4: mark(rpl, i1, 0)\n";
    let expected = "marks 2 accepted 2\n\
         \x20  step  line  given                             rewritten                         differs  given        rewritten\n\
         \x20     1     1  read i0                           read i0                         \n\
         \x20     2     2  i3 := 9                           skip                              i3       9            0          \n\
         \x20     3     3  i1 := 0                           i1 := 0                           i3       9            0          \n\
         \x20     4     4  i2 := i0 / i1                     i2 := i0 / 0                      i3       9            0          \n\
         given fault at 4 steps 4 ticks 32\nrewritten fault at 4 steps 4 ticks 31\n\
         statements, outcome and live variables agree\n";
    for budget in ["4", "1000000"] {
        let start = format!("5\n{budget}\n");
        let files = [("given", &given[..]), ("marks", &list[..]), ("start", start.as_bytes())];
        assert_eq!(desk::compare(given, list, start.as_bytes()), expected);
        same(0, &printed(&comparer, "faults", &files, &[]), expected, &files);
    }
}

/// The longest line of a fault: four digits of a statement, after the most steps.
#[test]
fn the_longest_fault_is_printed() {
    let (runner, comparer) = (built("run_program"), built("compare_runs"));
    // `read`, 249,999 rounds of 4 steps, then `if` to the division.
    let mut given =
        "read i0\nif i0 goto 3 else 1022\ni0 := i0 - 1\nskip\nif i1 goto 2 else 2\n".to_string();
    given += &"skip\n".repeat(1_017);
    given += "i1 := i1 / i0\nwrite i1\n";
    let (given, start) = (given.as_bytes(), b"249999\n1000000\n-2147483648\n");
    let expected = "fault at 1023 steps 1000000 ticks 2500022\n";
    assert_eq!(desk::run(given, start, false), expected);
    let files = [("given", given), ("start", &start[..])];
    same(0, &printed(&runner, "longest_fault", &files, &[]), expected, &files);
    let start = b"0\n1000000\n";
    let expected = desk::compare(given, b"", start);
    let line = "fault at 1023 steps 4 ticks 32\n";
    assert!(expected.ends_with(&format!(
        "given {line}rewritten {line}statements, outcome and live variables agree\n"
    )));
    let files = [("given", given), ("marks", &b""[..]), ("start", &start[..])];
    same(1, &printed(&comparer, "longest_faults", &files, &[]), &expected, &files);
}

// Sums that are computed once

/// What is read holds the sum, so no variable differs but the one that another mark drops.
#[test]
fn sums_are_compared() {
    let comparer = built("compare_runs");
    let given = b"read i0\ni1 := i0 + 1\ni2 := i0 + 1\ni3 := i2\nwrite i2\n";
    let list = b"2: mark(rm, i1, i0 + 1)\n4: mark(rm, i3, i2)\n3: mark(cse, i1, i0 + 1)\n";
    let expected = "marks 3 accepted 2\n\
         \x20  step  line  given                             rewritten                         differs  given        rewritten\n\
         \x20     1     1  read i0                           read i0                         \n\
         \x20     2     2  i1 := i0 + 1                      i1 := i0 + 1                    \n\
         \x20     3     3  i2 := i0 + 1                      i2 := i1                        \n\
         \x20     4     4  i3 := i2                          skip                              i3       6            0          \n\
         \x20     5     5  write i2                          write i2                          i3       6            0          \n\
         given ended 6 steps 5 ticks 16 kept 0 0 0 0 0 0 0 0\n\
         rewritten ended 6 steps 5 ticks 14 kept 0 0 0 0 0 0 0 0\n\
         statements, outcome and live variables agree\n";
    let start = b"5\n100\n";
    let files = [("given", &given[..]), ("marks", &list[..]), ("start", &start[..])];
    assert_eq!(desk::compare(given, list, start), expected);
    same(0, &printed(&comparer, "sums", &files, &[]), expected, &files);
}

// Variables that aren't live

/// i5 is dropped and set anew: while it differs, before steps 4 and 5, nothing can use it.
#[test]
fn what_differs_is_dead() {
    let comparer = built("compare_runs");
    let given = b"read i0\ni1 := i0 + 1\ni5 := i0 * 2\ni2 := i0 + 1\ni5 := i2\nwrite i5\n";
    let list = b"4: mark(cse, i1, i0 + 1)\n3: mark(rm, i5, i0 * 2)\n";
    let expected = "marks 2 accepted 2\n\
         \x20  step  line  given                             rewritten                         differs  given        rewritten\n\
         \x20     1     1  read i0                           read i0                         \n\
         \x20     2     2  i1 := i0 + 1                      i1 := i0 + 1                    \n\
         \x20     3     3  i5 := i0 * 2                      skip                              i5       8            0          \n\
         \x20     4     4  i2 := i0 + 1                      i2 := i1                          i5       8            0          \n\
         \x20     5     5  i5 := i2                          i5 := i2                        \n\
         \x20     6     6  write i5                          write i5                        \n\
         given ended 5 steps 6 ticks 25 kept 0 0 0 0 0 0 0 0\n\
         rewritten ended 5 steps 6 ticks 16 kept 0 0 0 0 0 0 0 0\n\
         statements, outcome and live variables agree\n";
    let start = b"4\n100\n";
    let files = [("given", &given[..]), ("marks", &list[..]), ("start", &start[..])];
    assert_eq!(desk::compare(given, list, start), expected);
    same(0, &printed(&comparer, "dead", &files, &[]), expected, &files);
}

// Ticks

/// The ticks that a line tells.
fn ticks(line: &str) -> u64 {
    let (_, rest) = line.split_once(" ticks ").expect("each outcome has ticks");
    rest.split(' ').next().and_then(|word| word.parse().ok()).expect("a number")
}

/// P's runs: to the end from two inputs, and under smaller budgets.
#[test]
fn the_ticks_of_p_are_printed() {
    let runner = built("run_program");
    for (start, expected) in [
        ("0\n1000000\n", "ended 7 steps 6 ticks 18 kept 0 0 0 0 0 0 0 0\n"),
        ("2\n1000000\n", "ended 9 steps 12 ticks 36 kept 0 0 0 0 0 0 0 0\n"),
        ("2\n12\n", "ended 9 steps 12 ticks 36 kept 0 0 0 0 0 0 0 0\n"),
        ("2\n11\n", "spent at 8 ticks 32\ni0 = 0\ni1 = 2\ni2 = 7\ni3 = 9\ni4 = 0\n"),
        ("2\n0\n", "spent at 1 ticks 0\ni0 = 0\ni1 = 0\n"),
    ] {
        let files = [("given", P.as_bytes()), ("start", start.as_bytes())];
        let output = printed(&runner, "ticks", &files, &[]);
        assert!(output.starts_with(expected.as_bytes()), "{start}: {}", shown(&output));
        assert!(output == desk::run(P.as_bytes(), start.as_bytes(), false).as_bytes());
    }
}

/// The longest number of ticks: a division each step but the jumps.
#[test]
fn the_most_ticks_are_printed() {
    let (runner, divisions) = (built("run_program"), "i1 := 7 / 2\n".repeat(1_021));
    let given = format!("read i0\n{divisions}if i0 goto 2 else 2\nwrite i1\n");
    let files = [("given", given.as_bytes()), ("start", &b"0\n1000000\n"[..])];
    // 978 rounds of 1,022 statements between `read` and 483 divisions.
    let ticks = 4 + 978 * (1_021 * 24 + 3) + 483 * 24;
    let output = printed(&runner, "most_ticks", &files, &[]);
    assert!(output.starts_with(format!("spent at 485 ticks {ticks}\ni0 = 0\n").as_bytes()));
    assert!(output == desk::run(given.as_bytes(), b"0\n1000000\n", false).as_bytes());
}

/// The rewritten program takes fewer, and the runs agree.
#[test]
fn the_ticks_of_both_runs_are_printed() {
    let comparer = built("compare_runs");
    let given = b"read i0\ni1 := i0 * 3\nwrite i0\n";
    let list = b"2: mark(rm, i1, i0 * 3)\n";
    let kept = "kept 0 0 0 0 0 0 0 0";
    for (start, ends) in [
        (
            "5\n9\n",
            format!(
                "given ended 5 steps 3 ticks 17 {kept}\nrewritten ended 5 steps 3 ticks 9 {kept}\n"
            ),
        ),
        ("5\n2\n", "given spent at 3 ticks 13\nrewritten spent at 3 ticks 5\n".to_string()),
        ("5\n0\n", "given spent at 1 ticks 0\nrewritten spent at 1 ticks 0\n".to_string()),
    ] {
        let files = [("given", &given[..]), ("marks", &list[..]), ("start", start.as_bytes())];
        let expected = desk::compare(given, list, start.as_bytes());
        assert!(
            expected.ends_with(&format!("{ends}statements, outcome and live variables agree\n")),
            "{expected}"
        );
        same(0, &printed(&comparer, "ticks_of_both", &files, &[]), &expected, &files);
    }
}

// The longest statement fills its column

/// 1,021 of the longest statement and a copy, between `read` and `write`.
fn longest_program() -> Vec<u8> {
    let longest = "i63 := -2147483648 + -2147483648\n".repeat(1_021);
    format!("read i62\n{longest}i10 := i63\nwrite i10\n").into_bytes()
}

#[test]
fn the_longest_statements_are_viewed() {
    let (viewer, given) = (built("view_condition"), longest_program());
    let conditions = ["stmt(i63 := -2147483648 + -2147483648)", "EX (trans(-1) & use(i63))"];
    for condition in conditions {
        let files = [("given", &given[..]), ("condition", condition.as_bytes())];
        let expected = desk::view(&given, condition.as_bytes());
        same(0, &printed(&viewer, "longest_view", &files, &[]), &expected, &files);
        assert!(expected.contains("\n   2  i63 := -2147483648 + -2147483648  "));
    }
    // The most that is printed: 64 parts over 1,024 of the longest rows.
    let condition = "!".repeat(63) + "true";
    let files = [("given", &given[..]), ("condition", condition.as_bytes())];
    let expected = desk::view(&given, condition.as_bytes());
    same(1, &printed(&viewer, "longest_view", &files, &[]), &expected, &files);
}

#[test]
fn the_longest_statements_are_traced() {
    let (runner, given) = (built("run_program"), longest_program());
    let start = format!("-2147483648\n1024\n{}", "-2147483648\n".repeat(64));
    let files = [("given", &given[..]), ("start", start.as_bytes())];
    let expected = desk::run(&given, start.as_bytes(), true);
    same(
        0,
        &printed(&runner, "longest_run", &files, &["given", "start", "trace"]),
        &expected,
        &files,
    );
    assert!(expected.contains("\n      2     2  i63 := -2147483648 + -2147483648  i63 = 0\n"));
}

#[test]
fn the_longest_statements_are_compared() {
    let (comparer, given) = (built("compare_runs"), longest_program());
    let start = format!("-2147483648\n1024\n{}", "-2147483648\n".repeat(64));
    // All but the last of the sums are dropped.
    let list: String =
        (2..=1_023).map(|n| format!("{n}: mark(rm, i63, -2147483648 + -2147483648)\n")).collect();
    for marks in ["", &list] {
        let files =
            [("given", &given[..]), ("marks", marks.as_bytes()), ("start", start.as_bytes())];
        let expected = desk::compare(&given, marks.as_bytes(), start.as_bytes());
        same(0, &printed(&comparer, "longest_compare", &files, &[]), &expected, &files);
        let longest = "i63 := -2147483648 + -2147483648";
        let row = match marks {
            "" => format!("\n      2     2  {longest}  {longest}\n"),
            _ => format!(
                "\n      2     2  {longest}  {:32}  i63      0            -2147483648\n",
                "skip"
            ),
        };
        assert!(expected.contains(&row));
    }
}

/// The least value nine times, after the most steps.
#[test]
fn the_longest_endings_are_printed() {
    let (runner, comparer) = (built("run_program"), built("compare_runs"));
    let least = "-2147483648\n".repeat(64);
    let kept = format!("kept{}\n", " -2147483648".repeat(8));
    // `read`, 249,999 rounds of 4 steps, then `if`, `skip` and `write`.
    let given =
        b"read i0\nif i0 goto 3 else 6\ni0 := i0 - 1\nskip\nif i1 goto 2 else 2\nskip\nwrite i31\n";
    let start = format!("249999\n1000000\n{least}");
    let files = [("given", &given[..]), ("start", start.as_bytes())];
    let expected = format!("ended -2147483648 steps 1000000 ticks 2500002 {kept}");
    assert_eq!(desk::run(given, start.as_bytes(), false), expected);
    same(0, &printed(&runner, "longest_ending", &files, &[]), &expected, &files);
    let given = b"read i0\nwrite i31\n";
    let start = format!("0\n1000000\n{least}");
    let files = [("given", &given[..]), ("marks", &b""[..]), ("start", start.as_bytes())];
    let expected = desk::compare(given, b"", start.as_bytes());
    let line = format!("ended -2147483648 steps 2 ticks 8 {kept}");
    assert!(expected.ends_with(&format!(
        "given {line}rewritten {line}statements, outcome and live variables agree\n"
    )));
    same(1, &printed(&comparer, "longest_endings", &files, &[]), &expected, &files);
}
