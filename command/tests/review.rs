//! `rewrites review` on random folders, held to the second implementation: its text, and its JSON as
//! Python reads it.
//!
//! `DIFFERENTIAL_SEED` and `COMMAND_CASES` choose other cases, and how many there are.

#[path = "../../host/tests/common/mod.rs"]
mod common;
#[path = "../../host/tests/coverage/mod.rs"]
mod coverage;
mod shell;

use common::option;
use coverage::Tally;
use oracle::check::LARGEST_FILE;
use oracle::condition::PART_WORDS;
use oracle::folder as random_folder;
use oracle::generate::Random;
use oracle::review::{review, REVIEW_WORDS};
use shell::{example, folder, printed, run_in, said, status, told_again};

const CASES: u64 = 1_000;

/// The lines of a text, without their bytes 10.
fn lines(text: &[u8]) -> Vec<String> {
    String::from_utf8_lossy(text).lines().map(str::to_string).collect()
}

/// What is printed, and what Python tells of the JSON, or the refusal.
fn expected(given: &[u8], conditions: &[u8]) -> Result<(String, String), u8> {
    let mut table = [0; REVIEW_WORDS];
    let answer = review(given, conditions, &mut table)?;
    let (program, asked) = (lines(given), lines(conditions));
    let is_true = |j: usize, at: usize| {
        let first = PART_WORDS * answer.table_of[j] as usize;
        table[first + at / 64] >> (at % 64) & 1 == 1
    };
    let (mut text, mut told) = ("line  table  satisfied  first\n".to_string(), String::new());
    for (j, condition) in asked.iter().enumerate() {
        let (line, k, parts) = (j + 1, answer.table_of[j], answer.parts[j]);
        let (satisfied, first) = (answer.satisfied[j], answer.first[j]);
        text += &format!("{line:>4}{k:>7}{satisfied:>11}{first:>7}  {condition}\n");
        let statements: Vec<usize> =
            (0..program.len()).filter(|&at| is_true(j, at)).map(|at| at + 1).collect();
        told += &format!("{line} {k} {parts} {satisfied} {first} {condition} {statements:?}\n");
    }
    let numbers = (1..=asked.len()).map(|line| format!("{line:2}"));
    let (tens, ones): (String, String) =
        numbers.map(|n| (n[..1].to_string(), n[1..].to_string())).unzip();
    let margin = " ".repeat(40);
    if asked.len() > 9 {
        text += &format!("{margin}{tens}\n");
    }
    text += &format!("{margin}{ones}\n");
    for (at, statement) in program.iter().enumerate() {
        text += &format!("{:>4}  {statement:<34}", at + 1);
        (0..asked.len()).for_each(|j| text.push(if is_true(j, at) { '*' } else { '.' }));
        text.push('\n');
    }
    let last = format!("tables {} lines {}\n", answer.tables, answer.lines);
    Ok((text + &last, told + &last))
}

#[test]
fn reviews_are_as_by_the_oracle() {
    let classes = [0, 2, 3, 4, 5, 6, 7, 8, 16, 17];
    let mut met = Tally::new("reviews", classes);
    let mut counts = Tally::new("lines", 1..=32);
    let (mut json, mut texts) = (Vec::new(), Vec::new());
    let seed = Random::new(option("DIFFERENTIAL_SEED", 1) ^ 34).bits();
    for case in 0..option("COMMAND_CASES", CASES) {
        let random = &mut Random::new(seed ^ case);
        let (program, given) = random_folder::given(random);
        let conditions = random_folder::conditions(random, &program);
        let base = folder("review", &[("given", &given), ("conditions", &conditions)]);
        let output = run_in(&base, &["review", "."]);
        json.extend(run_in(&base, &["review", ".", "--json"]).stdout);
        if given.len() > LARGEST_FILE || conditions.len() > LARGEST_FILE {
            assert_eq!((status(&output), printed(&output).as_str()), (2, ""), "case {case}");
            texts.push(String::new());
            continue;
        }
        match expected(&given, &conditions) {
            Ok((text, told)) => {
                assert_eq!(printed(&output), text, "case {case}");
                assert_eq!((status(&output), said(&output).as_str()), (0, ""), "case {case}");
                texts.push(told);
                met.met(0);
                counts.met(lines(&conditions).len());
            }
            Err(number) => {
                assert_eq!((status(&output), printed(&output).as_str()), (1, ""), "case {case}");
                let author = match number {
                    2..=5 => "./given:the author of the shift program",
                    6..=8 => "./conditions:the author of the condition",
                    _ => "./conditions:the author of the review",
                };
                let (file, author) = author.split_once(':').expect("a file and an author");
                let said = said(&output);
                assert!(said.starts_with(file) && said.contains(author), "case {case}: {said}");
                texts.push(format!("refused {number}\n"));
                met.met(number);
            }
        }
    }
    assert_eq!(told_again(&json), texts);
    met.report();
    counts.report();
}

#[test]
fn the_review_of_an_example() {
    let expected = concat!(
        "line  table  satisfied  first\n",
        "   1      3          4      4  E[!def(i2) U use(i2)]\n",
        "   2      5          3      5  EX exit\n",
        "   3      6          2      5  (EX exit & E[!def(i2) U use(i2)])\n",
        "   4      2          1      4  use(i2)\n",
        "   5      5          3      5  EX exit\n",
        "                                        12345\n",
        "   1  read i0                           .....\n",
        "   2  i1 := i0                          .....\n",
        "   3  i2 := 7                           .....\n",
        "   4  i3 := i1 + i2                     *..*.\n",
        "   5  if i0 goto 6 else 8               ***.*\n",
        "   6  i0 := i0 - 1                      *....\n",
        "   7  if i0 goto 4 else 8               ***.*\n",
        "   8  write i3                          .*..*\n",
        "tables 7 lines 5\n",
    );
    let output = run_in(&example("p"), &["review", "."]);
    assert_eq!((status(&output), printed(&output).as_str()), (0, expected));
}

/// Tens stand above the columns from the tenth line on; the longest statement has its columns.
#[test]
fn many_lines() {
    let given = b"read i0\ni63 := -2147483648 + -2147483648\nwrite i0\n";
    let conditions = "false\n".repeat(9) + "entry\nexit\n";
    let base = folder("many", &[("given", given), ("conditions", conditions.as_bytes())]);
    let output = run_in(&base, &["review", "."]);
    let expected = concat!(
        "line  table  satisfied  first\n",
        "   1      0          0      0  false\n",
        "   2      0          0      0  false\n",
        "   3      0          0      0  false\n",
        "   4      0          0      0  false\n",
        "   5      0          0      0  false\n",
        "   6      0          0      0  false\n",
        "   7      0          0      0  false\n",
        "   8      0          0      0  false\n",
        "   9      0          0      0  false\n",
        "  10      1          1      1  entry\n",
        "  11      2          1      3  exit\n",
        "                                                 11\n",
        "                                        12345678901\n",
        "   1  read i0                           .........*.\n",
        "   2  i63 := -2147483648 + -2147483648  ...........\n",
        "   3  write i0                          ..........*\n",
        "tables 3 lines 11\n",
    );
    assert_eq!((status(&output), printed(&output).as_str()), (0, expected));
}

/// Each refusal of a review in words, with its line.
#[test]
fn refused_reviews_in_words() {
    let forms =
        "`!p`, `(p & q)`, `(p | q)`, `EX p` and the like, `E[p U q]` and the like, or an atom";
    let many: String = (0..3).map(|k| format!("{}node({k})\n", "!".repeat(60))).collect();
    let condition = "the author of the condition";
    let author = "the author of the review: ";
    for (conditions, expected) in [
        (String::new(), format!(": {author}no line or over 32 lines of a review; expected 1 to 32 lines, found 0 lines")),
        (
            "true\n".repeat(32) + "t",
            format!(": {author}no line or over 32 lines of a review; expected 1 to 32 lines, found 33 lines"),
        ),
        (
            many.clone(),
            format!(": {author}review of over 128 differing parts; expected at most 128 differing parts"),
        ),
        (many + "x\n", format!(":4: {condition}: condition misspelled; expected {forms}, found `x` wrong from byte 1 on")),
        (
            "true\n\nx\n".to_string(),
            format!(":2: {condition}: condition misspelled; expected {forms}, found `` wrong from byte 1 on: it ends too early"),
        ),
        (
            "exit\ntrue".to_string(),
            format!(
                ":2: {condition}: condition without its byte 10; \
                 expected byte 10 at the end of each line, found `true`"
            ),
        ),
        (
            "true\n".to_string() + &"!".repeat(1_025),
            format!(
                ":2: {condition}: condition longer than 1,024 bytes; \
                 expected at most 1,024 bytes, found 1,025 bytes"
            ),
        ),
        (
            "true\ntrue\n".to_string() + &"!".repeat(64) + "true\nx\n",
            format!(":3: {condition}: condition of over 64 parts; expected at most 64 parts"),
        ),
    ] {
        let files = [("given", &b"read i0\nwrite i0\n"[..]), ("conditions", conditions.as_bytes())];
        let output = run_in(&folder("words", &files), &["review", "."]);
        assert_eq!(said(&output), format!("./conditions{expected}\n"));
        assert_eq!((status(&output), printed(&output).as_str()), (1, ""));
    }
    // The program is read first.
    let files = [("given", &b"read i0\nx\nwrite i0\n"[..]), ("conditions", &b""[..])];
    let output = run_in(&folder("words", &files), &["review", "."]);
    assert!(said(&output).starts_with("./given:2: the author of the shift program: "));
}

/// A review has nothing to show where a file is missing.
#[test]
fn missing_files() {
    for (there, missing) in [("given", "conditions"), ("conditions", "given")] {
        let base = folder("missing_of_review", &[(there, b"true\n")]);
        let output = run_in(&base, &["review", "."]);
        let expected = format!(
            "./{missing}: the caller: can't be read: No such file or directory; \
             expected a file of at most 65,535 bytes\n"
        );
        assert_eq!(said(&output), expected);
        assert_eq!((status(&output), printed(&output).as_str()), (2, ""));
    }
    let output = run_in(&example("p"), &["review", "nowhere"]);
    let expected = "nowhere: the caller: No such file or directory; \
                    expected a folder with a program in `given` and conditions in `conditions`\n";
    assert_eq!((status(&output), said(&output).as_str()), (2, expected));
}
