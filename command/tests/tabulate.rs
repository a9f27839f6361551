//! `rewrites tabulate` on random folders, held to the second implementation: its text, and its JSON
//! as Python reads it.
//!
//! `DIFFERENTIAL_SEED` and `COMMAND_CASES` choose other cases, and how many there are.

#[path = "../../host/tests/common/mod.rs"]
mod common;
#[path = "../../host/tests/coverage/mod.rs"]
mod coverage;
mod shell;

use common::option;
use coverage::Tally;
use oracle::check::LARGEST_FILE;
use oracle::condition::{tabulate, Condition, PART_WORDS, TABLE_WORDS};
use oracle::folder as random_folder;
use oracle::generate::Random;
use oracle::program::MOST_LINES;
use shell::{example, folder, printed, run, run_in, said, status, told_again};
use std::ffi::OsStr;
use std::os::unix::ffi::OsStrExt;

const CASES: u64 = 1_000;

/// The texts of parts, with the statements at which each is true.
type Rows = Vec<(String, Vec<usize>)>;

/// The parts and the last line, or the refusal.
fn expected(given: &[u8], condition: &[u8]) -> Result<(Rows, String), u8> {
    let mut table = [0; TABLE_WORDS];
    let (parts, satisfied, first) = tabulate(given, condition, &mut table)?;
    let condition = Condition::read(condition)?;
    let of_part = |part: usize| {
        let is_true =
            |at: &usize| table[PART_WORDS * part + (at - 1) / 64] >> ((at - 1) % 64) & 1 == 1;
        (condition.text_of(part), (1..=MOST_LINES).filter(is_true).collect())
    };
    let rows = (0..parts as usize).map(of_part).collect();
    Ok((rows, format!("parts {parts} satisfied {satisfied} first {first}\n")))
}

/// Statements as the command prints them: each `first-last`, or one alone.
fn listed(statements: &[usize]) -> String {
    let is_in = |n: usize| statements.contains(&n);
    let mut text = String::new();
    for &n in statements {
        match (is_in(n - 1), is_in(n + 1)) {
            (false, true) => text += &format!(" {n}-"),
            (false, false) => text += &format!(" {n}"),
            (true, false) => text += &n.to_string(),
            (true, true) => {}
        }
    }
    text
}

#[test]
fn tables_are_as_by_the_oracle() {
    let classes = ["table", "2", "3", "4", "5", "6", "7", "8"];
    let mut met = Tally::new("tables", classes);
    let mut parts = Tally::new("parts", 1..=64);
    let (mut json, mut texts) = (Vec::new(), Vec::new());
    let seed = Random::new(option("DIFFERENTIAL_SEED", 1) ^ 24).bits();
    for case in 0..option("COMMAND_CASES", CASES) {
        let random = &mut Random::new(seed ^ case);
        let (program, given) = random_folder::given(random);
        let condition = random_folder::condition(random, &program);
        let (file, bare) = random_folder::condition_file(random, &condition);
        // An argument has no byte 0, and under 128 KiB.
        let as_option = random.chance(50) && !bare.contains(&0) && bare.len() < 100_000;
        let files = [("given", &given[..]), ("condition", &file[..])];
        let base = folder("table", if as_option { &files[..1] } else { &files });
        let mut words = vec![OsStr::new("tabulate"), OsStr::new(".")];
        // A text that starts with `-` looks like an option, but for one behind `=`.
        let joined = [b"--condition=", &bare[..]].concat();
        if as_option && (bare.starts_with(b"-") || random.chance(50)) {
            words.push(OsStr::from_bytes(&joined));
        } else if as_option {
            words.extend([OsStr::new("--condition"), OsStr::from_bytes(&bare)]);
        }
        let output = run_in(&base, &words);
        words.push(OsStr::new("--json"));
        json.extend(run_in(&base, &words).stdout);
        let is_long = files
            .iter()
            .any(|(name, bytes)| bytes.len() > LARGEST_FILE && (*name == "given" || !as_option));
        if is_long {
            assert_eq!((status(&output), printed(&output).as_str()), (2, ""), "case {case}");
            texts.push(String::new());
            continue;
        }
        match expected(&given, &bare) {
            Ok((rows, last)) => {
                let count = given.iter().filter(|&&byte| byte == 10).count();
                let (mut text, mut told) = (String::new(), String::new());
                for (k, (spelled, statements)) in rows.iter().enumerate() {
                    let colon = if statements.is_empty() { "" } else { ":" };
                    let (number, true_at) = (statements.len(), listed(statements));
                    text +=
                        &format!("{:2}  {spelled}: {number} of {count}{colon}{true_at}\n", k + 1);
                    told += &format!("{} {spelled} {statements:?}\n", k + 1);
                }
                assert_eq!(printed(&output), text + &last, "case {case}");
                assert_eq!((status(&output), said(&output).as_str()), (0, ""), "case {case}");
                texts.push(told + &last);
                met.met("table");
                parts.met(rows.len());
            }
            Err(number) => {
                assert_eq!((status(&output), printed(&output).as_str()), (1, ""), "case {case}");
                let author = if number < 6 { "the shift program" } else { "the condition" };
                assert!(said(&output).contains(author), "case {case}: {}", said(&output));
                texts.push(format!("refused {number}\n"));
                met.met(classes[usize::from(number) - 1]);
            }
        }
    }
    assert_eq!(told_again(&json), texts);
    met.report();
    parts.report();
}

#[test]
fn the_table_of_an_example() {
    let expected = concat!(
        " 1  def(i2): 1 of 8: 3\n",
        " 2  !def(i2): 7 of 8: 1-2 4-8\n",
        " 3  use(i2): 1 of 8: 4\n",
        " 4  E[!def(i2) U use(i2)]: 4 of 8: 4-7\n",
        "parts 4 satisfied 4 first 4\n",
    );
    let p = example("p").into_os_string();
    assert_eq!(printed(&run(&[OsStr::new("tabulate"), &p])), expected);
    let words = [OsStr::new("tabulate"), &p, OsStr::new("--condition"), OsStr::new("AX false")];
    let expected = " 1  false: 0 of 8\n 2  AX false: 0 of 8\nparts 2 satisfied 0 first 0\n";
    assert_eq!(printed(&run(&words)), expected);
    // One byte 10 at the end of the file doesn't count, and of the option each does.
    for (condition, expected) in [("true", 0), ("true\n", 0), ("true\n\n", 1)] {
        let base = folder(
            "ends",
            &[("given", b"read i0\nwrite i0\n"), ("condition", condition.as_bytes())],
        );
        assert_eq!(status(&run_in(&base, &["tabulate", "."])), expected, "{condition:?}");
        let as_option = run_in(&base, &["tabulate", ".", "--condition", condition]);
        assert_eq!(status(&as_option), i32::from(condition != "true"), "{condition:?}");
    }
}

/// Constants below zero stand in atoms, and parts are found around them.
#[test]
fn a_table_below_zero() {
    let expected = concat!(
        " 1  stmt(i4 := -40): 1 of 12: 2\n",
        " 2  stmt(i5 := -15): 0 of 12\n",
        " 3  trans(-1 - -1): 12 of 12: 1-12\n",
        " 4  E[stmt(i5 := -15) W trans(-1 - -1)]: 12 of 12: 1-12\n",
        " 5  (stmt(i4 := -40) & E[stmt(i5 := -15) W trans(-1 - -1)]): 1 of 12: 2\n",
        "parts 5 satisfied 1 first 2\n",
    );
    let condition = "(stmt(i4 := -40) & E[stmt(i5 := -15) W trans(-1 - -1)])";
    let output = run_in(&example("offset"), &["tabulate", ".", "--condition", condition]);
    assert_eq!((status(&output), printed(&output).as_str()), (0, expected));
    let expected = "parts 4 satisfied 11 first 2\n";
    assert!(printed(&run_in(&example("offset"), &["tabulate", "."])).ends_with(expected));
    for (condition, byte) in
        [("stmt(i4 := -0)", 13), ("trans(--1)", 8), ("node(-1)", 6), ("trans(i0 -40)", 11)]
    {
        let output = run_in(&example("offset"), &["tabulate", ".", "--condition", condition]);
        assert_eq!((status(&output), printed(&output).as_str()), (1, ""), "{condition}");
        let found = format!(", found `{condition}` wrong from byte {byte} on\n");
        assert!(said(&output).ends_with(&found), "{condition}");
    }
}

/// `use` of variables that the unit keeps holds at `write` too.
#[test]
fn a_table_of_what_is_kept() {
    let expected = concat!(
        " 1  def(i25): 2 of 14: 6 11\n",
        " 2  !def(i25): 12 of 14: 1-5 7-10 12-14\n",
        " 3  use(i25): 3 of 14: 4 6 14\n",
        " 4  E[!def(i25) U use(i25)]: 12 of 14: 1-9 12-14\n",
        "parts 4 satisfied 12 first 1\n",
    );
    let output = run_in(&example("hold"), &["tabulate", "."]);
    assert_eq!((status(&output), printed(&output).as_str()), (0, expected));
    for (condition, expected) in [
        ("use(i31)", " 1  use(i31): 1 of 14: 14\nparts 1 satisfied 1 first 14\n"),
        ("use(i23)", " 1  use(i23): 0 of 14\nparts 1 satisfied 0 first 0\n"),
    ] {
        let output = run_in(&example("hold"), &["tabulate", ".", "--condition", condition]);
        assert_eq!((status(&output), printed(&output).as_str()), (0, expected));
    }
}

/// Each refusal of a condition in words, from the file and from the option.
#[test]
fn refused_conditions_in_words() {
    let forms =
        "`!p`, `(p & q)`, `(p | q)`, `EX p` and the like, `E[p U q]` and the like, or an atom";
    let (long, parts) = ("!".repeat(1_021) + "true", "!".repeat(64) + "true");
    for (condition, words) in [
        ("EX (true)", format!("condition misspelled; expected {forms}, found `EX (true)` wrong from byte 9 on: superfluous brackets")),
        ("", format!("condition misspelled; expected {forms}, found `` wrong from byte 1 on: it ends too early")),
        (
            &long,
            "condition longer than 1,024 bytes; expected at most 1,024 bytes, found 1,025 bytes"
                .into(),
        ),
        (&parts, "condition of over 64 parts; expected at most 64 parts".into()),
    ] {
        let base = folder(
            "condition",
            &[("given", b"read i0\nwrite i0\n"), ("condition", condition.as_bytes())],
        );
        for (name, words_given) in [
            ("./condition", &["tabulate", "."][..]),
            ("--condition", &["tabulate", ".", "--condition", condition]),
        ] {
            let output = run_in(&base, words_given);
            assert_eq!(said(&output), format!("{name}: the author of the condition: {words}\n"));
            assert_eq!((status(&output), printed(&output).as_str()), (1, ""));
        }
    }
}

/// A table has nothing to show where a file is missing.
#[test]
fn missing_files() {
    let base = folder("missing", &[("given", b"read i0\nwrite i0\n")]);
    let output = run_in(&base, &["tabulate", "."]);
    let expected = "./condition: the caller: can't be read: No such file or directory; \
                    expected a file of at most 65,535 bytes\n";
    assert_eq!(said(&output), expected);
    assert_eq!((status(&output), printed(&output).as_str()), (2, ""));
    let output = run_in(&base, &["tabulate", "nowhere", "--condition", "true"]);
    let expected = "nowhere: the caller: No such file or directory; \
                    expected a folder with a program in `given` and a condition in `condition`\n";
    assert_eq!((status(&output), said(&output).as_str()), (2, expected));
}
