//! `rewrites force` on random folders, held to the second implementation: its text, and its JSON as
//! Python reads it; and what is said of lists that are refused.
//!
//! `DIFFERENTIAL_SEED` and `COMMAND_CASES` choose other cases, and how many there are.

#[path = "../../host/tests/common/mod.rs"]
mod common;
#[path = "../../host/tests/coverage/mod.rs"]
mod coverage;
mod shell;

use common::option;
use coverage::Tally;
use oracle::check::LARGEST_FILE;
use oracle::generate::{self, Random};
use oracle::{desk, folder as random_folder};
use shell::{example, folder, printed, run_in, said, status, told_again};
use std::fs;

const CASES: u64 = 1_000;

fn random(case: u64) -> Random {
    Random::new(Random::new(option("DIFFERENTIAL_SEED", 1) ^ 44).bits() ^ case)
}

#[test]
fn games_are_as_by_the_oracle() {
    let classes = ["told", "2", "3", "4", "5", "22", "6", "7", "8"];
    let mut met = Tally::new("games", classes);
    let mut ways = Tally::new("texts", ["files", "options"]);
    let mut words = Tally::new("words", ["driver", "unit", "goto", "else", "-"]);
    let (mut json, mut texts) = (Vec::new(), Vec::new());
    for case in 0..option("COMMAND_CASES", CASES) {
        let random = &mut random(case);
        let (program, given) = random_folder::game(random);
        let driver = random_folder::driver(random, &program);
        let condition = match random.below(5) {
            0 => random_folder::condition(random, &program),
            _ => generate::goal(random, &program),
        };
        let (driver_file, driver) = random_folder::condition_file(random, &driver);
        let (condition_file, condition) = random_folder::condition_file(random, &condition);
        let expected = desk::force(&given, &driver, &condition);
        // By the files, or by options in place of other files, where a text can be one.
        let texts_of = |bytes: &[u8]| String::from_utf8(bytes.to_vec()).ok();
        let as_options = match (texts_of(&driver), texts_of(&condition)) {
            (Some(driver), Some(condition))
                if random.chance(30) && !(driver.clone() + &condition).contains('\0') =>
            {
                Some([format!("--driver={driver}"), format!("--condition={condition}")])
            }
            _ => None,
        };
        let base = match &as_options {
            Some(_) => folder("force", &[("given", &given), ("driver", b"x"), ("condition", b"x")]),
            None => {
                let files: [(&str, &[u8]); 3] =
                    [("given", &given), ("driver", &driver_file), ("condition", &condition_file)];
                folder("force", &files)
            }
        };
        ways.met(if as_options.is_some() { "options" } else { "files" });
        let mut arguments = vec!["force".to_string(), ".".to_string()];
        arguments.extend(as_options.into_iter().flatten());
        let output = run_in(&base, &arguments);
        arguments.push("--json".to_string());
        json.extend(run_in(&base, &arguments).stdout);
        if [&given, &driver_file, &condition_file].iter().any(|text| text.len() > LARGEST_FILE) {
            assert_eq!((status(&output), printed(&output).as_str()), (2, ""), "case {case}");
            texts.push(String::new());
            continue;
        }
        match expected.strip_prefix("refused ").and_then(|rest| rest.split_once('\n')) {
            Some((number, _)) => {
                assert_eq!((status(&output), printed(&output).as_str()), (1, ""), "case {case}");
                let author = match number {
                    "22" => "the author of the driver's list: a misspelled or repeated variable",
                    "6" | "7" | "8" => "the author of the condition: condition",
                    _ => "the author of the shift program",
                };
                assert!(said(&output).contains(author), "case {case}: {}", said(&output));
                texts.push(format!("refused {number}\n"));
                met.met(classes.into_iter().find(|&class| class == number).unwrap_or("?"));
            }
            None => {
                assert_eq!(printed(&output), expected, "case {case}");
                assert_eq!((status(&output), said(&output).as_str()), (0, ""), "case {case}");
                met.met("told");
                for word in ["driver", "unit", "goto", "else", "-"] {
                    let is_last = |line: &str| {
                        line.get(37..).map_or(false, |rest| rest.split(' ').any(|it| it == word))
                    };
                    if expected.lines().any(is_last) {
                        words.met(word);
                    }
                }
                texts.push(expected);
            }
        }
    }
    assert_eq!(told_again(&json), texts);
    met.report();
    ways.report();
    words.report();
}

/// P, whose lever is i0, and whose unit answers everywhere.
#[test]
fn games_on_p() {
    let p = example("p");
    let exit = "   1  read i0                                      5
   2  i1 := i0                                     4
   3  i2 := 7                                      3
   4  i3 := i1 + i2                                2
   5  if i0 goto 6 else 8               driver     1  else
   6  i0 := i0 - 1                                 2
   7  if i0 goto 4 else 8               driver     1  else
   8  write i3                                     0
parts 1 satisfied 1 first 8 forced 8
";
    let output = run_in(&p, &["force", ".", "--driver", "i0", "--condition", "exit"]);
    assert_eq!((status(&output), printed(&output).as_str()), (0, exit));
    let output = run_in(&p, &["force", ".", "--driver", "", "--condition", "node(6)"]);
    let text = printed(&output);
    assert!(
        text.contains("\n   5  if i0 goto 6 else 8               unit       -  else\n"),
        "{text}"
    );
    assert!(text.contains("\n   6  i0 := i0 - 1                                 0\n"), "{text}");
    assert!(text.ends_with("parts 1 satisfied 1 first 6 forced 1\n"), "{text}");
    let words = ["force", ".", "--driver", "i1 i0", "--condition", "use(i2)", "--json"];
    let output = run_in(&p, &words);
    let json = printed(&output);
    for words in [
        "\"driver\":[\"i1\",\"i0\"],\"condition\":\"use(i2)\",\"parts\":1,\"satisfied\":1,\"first\":4,\"forced\":7,",
        "{\"statement\":5,\"text\":\"if i0 goto 6 else 8\",\"player\":\"driver\",\"number\":3,\"arm\":\"goto\"}",
        "{\"statement\":8,\"text\":\"write i3\",\"player\":null,\"number\":null,\"arm\":null}",
    ] {
        assert!(json.contains(words), "{json}");
    }
}

#[test]
fn the_example_with_a_lever() {
    let shuttle = example("shuttle");
    let output = run_in(&shuttle, &["force", "."]);
    let expected = fs::read_to_string(shuttle.join("expected_force")).expect("a file is read");
    assert_eq!((status(&output), said(&output).as_str()), (0, ""));
    assert_eq!(printed(&output), expected);
    let read = |file: &str| {
        let text = fs::read(shuttle.join(file)).expect("a file is read");
        text.strip_suffix(b"\n").unwrap_or(&text).to_vec()
    };
    let given = fs::read(shuttle.join("given")).expect("a file is read");
    assert_eq!(expected, desk::force(&given, &read("driver"), &read("condition")));
}

#[test]
fn refused_lists_in_words() {
    let given = b"read i0\nif i0 goto 2 else 3\nwrite i0\n";
    let expected = "the author of the driver's list: a misspelled or repeated variable of the driver; \
                    expected variables, `i0` to `i63`, with single spaces between, none twice, or nothing";
    for (list, found) in [
        ("i0 i0", "i0 i0"),
        (" ", " "),
        ("i64\n", "i64"),
        ("i0\n\n", "i0\\n"),
        ("i0 \n", "i0 "),
        ("i0,i1", "i0,i1"),
        ("\u{e9}", "\\xc3\\xa9"),
    ] {
        let base =
            folder("lists", &[("given", given), ("driver", list.as_bytes()), ("condition", b"x")]);
        let output = run_in(&base, &["force", "."]);
        assert_eq!(said(&output), format!("./driver: {expected}, found `{found}`\n"));
        assert_eq!((status(&output), printed(&output).as_str()), (1, ""));
    }
    let base = folder("lists", &[("given", given), ("condition", b"exit")]);
    let output = run_in(&base, &["force", ".", "--driver", "i00"]);
    assert_eq!(said(&output), format!("--driver: {expected}, found `i00`\n"));
    // The files are needed, but for those that options replace.
    let output = run_in(&base, &["force", "."]);
    let missing = "./driver: the caller: can't be read: No such file or directory; \
                   expected a file of at most 65,535 bytes\n";
    assert_eq!((status(&output), said(&output).as_str()), (2, missing));
    let output = run_in(&base, &["force", ".", "--driver="]);
    assert_eq!((status(&output), said(&output).as_str()), (0, ""));
}

/// One byte 10 at the end of the file is that of the file's line, as with a condition.
#[test]
fn a_list_may_end_its_line() {
    let given = b"read i0\nif i0 goto 2 else 3\nwrite i0\n";
    let text = |list: &[u8]| {
        let files: [(&str, &[u8]); 3] =
            [("given", given), ("driver", list), ("condition", b"exit\n")];
        printed(&run_in(&folder("ends", &files), &["force", "."]))
    };
    assert_eq!(text(b"i0\n"), text(b"i0"));
    assert_eq!(text(b"\n"), text(b""));
    assert_ne!(text(b"i0"), text(b""));
    assert!(text(b"i0").contains("driver     1  else\n"));
}
