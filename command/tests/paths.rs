//! Paths that the command shows: on the examples, and on random folders, where each is stepped through by the second implementation.
//!
//! `DIFFERENTIAL_SEED` and `COMMAND_CASES` choose other cases, and how many there are.

#[path = "../../host/tests/common/mod.rs"]
mod common;
#[path = "../../host/tests/coverage/mod.rs"]
mod coverage;
mod shell;

use common::option;
use coverage::Tally;
use oracle::condition::Condition;
use oracle::generate::{self, Random};
use oracle::marks::{self, Judge, Kind};
use oracle::paths::{check_why, check_witness, Because, Witnessed};
use oracle::program::Program;
use serde_json::Value;
use shell::{example, folder, printed, run_in, said, status};
use std::path::Path;

const CASES: u64 = 500;

/// The object that the command prints.
fn object(base: &Path, words: &[&str]) -> Value {
    let output = run_in(base, words);
    let first = printed(&output).lines().next().expect("a line").to_string();
    serde_json::from_str(&first).expect("JSON")
}

/// The numbers of a list, none where there is no list.
fn numbers(value: &Value) -> Vec<u32> {
    let number = |value: &Value| value.as_u64().expect("a number") as u32;
    value.as_array().map_or_else(Vec::new, |list| list.iter().map(number).collect())
}

#[test]
fn paths_of_conditions_are_right_when_stepped_through() {
    let mut met = Tally::new("paths shown", ["a way", "round", "none"]);
    let seed = Random::new(option("DIFFERENTIAL_SEED", 1) ^ 81).bits();
    for case in 0..option("COMMAND_CASES", CASES) {
        let random = &mut Random::new(seed ^ case);
        let size = random.between(2, 14);
        let program = generate::program(random, size);
        let parts = random.between(1, 9);
        let condition = generate::condition(random, &program, parts);
        let base = folder("paths", &[("given", &program.text()), ("condition", &condition)]);
        let condition = Condition::read(&condition).expect("it is taken");
        let at = random.between(1, size).to_string();
        let part = random.between(1, condition.parts().len()).to_string();
        let mut words = vec!["tabulate", ".", "--at", &at];
        let is_whole = random.chance(50);
        if !is_whole {
            words.extend(["--part", &part]);
        }
        let text = printed(&run_in(&base, &words));
        words.push("--json");
        let told = &object(&base, &words)["at"];
        let (statement, part) =
            (numbers(&told["path"]), told["part"].as_u64().expect("a part") as u32);
        let truth = told["truth"].as_bool().expect("a truth");
        assert!(!is_whole || part as usize == condition.parts().len(), "case {case}");
        let turn = told["turn"].as_u64().unwrap_or(0) as u32;
        let answer = match statement.is_empty() {
            true => Witnessed::None(truth),
            false => Witnessed::Path(statement.clone(), turn),
        };
        let n = at.parse().expect("a number");
        check_witness(&program, &condition, part - 1, n, &answer)
            .unwrap_or_else(|wrong| panic!("case {case}: {wrong}"));
        // Behind the table stand the truth, and the statements of the path.
        let lines: Vec<&str> = text.lines().skip(condition.parts().len() + 1).collect();
        let head =
            if statement.is_empty() { ": no path shows it" } else { ", as this path shows:" };
        assert_eq!(lines[0], format!("at {at} {truth}{head}"), "case {case}");
        for (line, n) in lines[1..].iter().zip(&statement) {
            let statement = program.statement(*n).expect("a statement of the program");
            assert_eq!(*line, format!("{n:4}  {statement}"), "case {case}");
        }
        let last = match (statement.is_empty(), turn) {
            (true, _) => None,
            (_, 0) => Some("      then by any steps".to_string()),
            (_, turn) => {
                let back = statement[turn as usize - 1];
                Some(format!("      then {back} again, and so on for ever"))
            }
        };
        assert_eq!(
            lines.get(1 + statement.len()).map(|line| line.to_string()),
            last,
            "case {case}"
        );
        met.met(match (statement.is_empty(), turn) {
            (true, _) => "none",
            (_, 0) => "a way",
            _ => "round",
        });
    }
    met.report();
}

#[test]
fn a_path_of_an_example() {
    let expected = concat!(
        "   5  if i0 goto 6 else 8\n",
        "   6  i0 := i0 - 1\n",
        "   7  if i0 goto 4 else 8\n",
        "   4  i3 := i1 + i2\n",
    );
    let p = example("p");
    let output = run_in(&p, &["tabulate", ".", "--at", "5"]);
    let way = format!("at 5 true, as this path shows:\n{expected}      then by any steps\n");
    assert!(printed(&output).ends_with(&way), "{}", printed(&output));
    let output = run_in(&p, &["tabulate", ".", "--condition", "AF exit", "--at", "5"]);
    let round = format!(
        "at 5 false, as this path shows:\n{expected}      then 5 again, and so on for ever\n"
    );
    assert!(printed(&output).ends_with(&round), "{}", printed(&output));
    let output = run_in(&p, &["tabulate", ".", "--at", "3", "--part", "1"]);
    assert!(printed(&output).ends_with("first 4\nat 3 true: no path shows it\n"));
    // Without it nothing is told of a path.
    assert!(object(&p, &["tabulate", ".", "--json"]).get("at").is_none());
}

/// A statement or a part that isn't there is the caller's mistake.
#[test]
fn what_is_not_there() {
    let p = example("p");
    for (words, name, kind, found, most) in [
        (&["--at", "0"][..], "--at", "statement", "0", 8),
        (&["--at", "9"], "--at", "statement", "9", 8),
        (&["--at", "8", "--part", "0"], "--part", "part", "0", 4),
        (&["--at", "8", "--part", "5"], "--part", "part", "5", 4),
    ] {
        let words = [&["tabulate", "."], words].concat();
        let output = run_in(&p, &words);
        let expected =
            format!("{name}: the caller: no such {kind}; expected 1 to {most}, found {found}\n");
        assert_eq!(
            (status(&output), said(&output), printed(&output)),
            (2, expected, String::new())
        );
        let told = object(&p, &[&words[..], &["--json"]].concat());
        assert_eq!((&told["status"], &told["faults"][0]["file"]), (&2.into(), &name.into()));
    }
    for words in [&["--at", "x"][..], &["--at", "-1"], &["--part", "1"], &["--at"]] {
        assert_eq!(status(&run_in(&p, &[&["tabulate", "."], words].concat())), 2, "{words:?}");
    }
}

/// The number of a culprit by its name.
fn culprit(name: &str) -> u32 {
    let names = ["used", "used_by_cse", "redefined", "operand_redefined", "nothing_copied"];
    1 + names.iter().position(|known| *known == name).expect("a culprit's name") as u32
}

/// What a statement of a path does, by the second implementation: its last words for the last statement.
fn does(program: &Program, mark: &marks::Mark, n: u32, culprit: Option<u32>) -> Option<String> {
    let (statement, x) = (program.statement(n).expect("a statement"), mark.variable);
    match (culprit, mark.kind, statement.defined()) {
        (Some(2), ..) => Some(format!("uses i{x}, by a `cse` of the list that is accepted")),
        (Some(4), _, Some(y)) => Some(format!("defines i{y}")),
        (Some(5), Kind::Reuse(_), _) => Some("statement 1: nothing was computed yet".to_string()),
        (Some(5), ..) => Some("statement 1: nothing was copied yet".to_string()),
        _ => match (statement.uses(x), statement.defines(x)) {
            (true, true) => Some(format!("uses i{x} and defines it")),
            (true, false) => Some(format!("uses i{x}")),
            (false, true) => Some(format!("defines i{x}")),
            (false, false) => None,
        },
    }
}

#[test]
fn reasons_are_right_when_stepped_through() {
    let mut met = Tally::new("reasons shown", 1..=5);
    let mut verdicts = Tally::new("verdicts asked for", [0, 11, 12, 13, 14]);
    let seed = Random::new(option("DIFFERENTIAL_SEED", 1) ^ 82).bits();
    for case in 0..option("COMMAND_CASES", CASES) {
        let random = &mut Random::new(seed ^ case);
        let (size, count) = (random.between(2, 14), random.between(1, 8));
        let program = generate::program(random, size);
        let list = generate::marks(random, &program, count);
        let base = folder("why", &[("given", &program.text()), ("marks", &marks::text(&list))]);
        let line = random.below(list.len());
        let number = (line + 1).to_string();
        let told = object(&base, &["why", ".", &number, "--json"]);
        let output = run_in(&base, &["why", ".", &number]);
        assert_eq!((status(&output), said(&output).as_str()), (0, ""), "case {case}");
        let verdict = told["verdict"].as_u64().expect("a verdict") as u8;
        assert_eq!(told["mark"], list[line].to_string(), "case {case}");
        let because = &told["because"];
        let steps = because["path"].as_array().cloned().unwrap_or_default();
        let path: Vec<u32> =
            steps.iter().map(|step| step["statement"].as_u64().expect("a number") as u32).collect();
        let culprit = because["culprit"].as_str().map_or(0, culprit);
        let answer = Because { verdict, path: path.clone(), culprit };
        check_why(&program, &list, line as u32, &answer)
            .unwrap_or_else(|wrong| panic!("case {case}: {wrong}"));
        // A line for the mark, one for its condition, and the statements of the path.
        let words = told["words"].as_str().expect("words");
        let condition = told["condition"].as_str().expect("a condition");
        let mut text = format!("line {number}: {}: {words}\n  condition {condition}\n", list[line]);
        let spelled = |n: u32| program.statement(n).expect("a statement").to_string();
        let width = path.iter().map(|&n| spelled(n).len()).max().unwrap_or(0);
        for (k, &n) in path.iter().enumerate() {
            let does = does(&program, &list[line], n, (k + 1 == path.len()).then_some(culprit));
            assert_eq!(steps[k]["text"], spelled(n), "case {case}");
            assert_eq!(steps[k]["does"].as_str().map(str::to_string), does, "case {case}");
            text += &match does {
                Some(does) => format!("{n:4}  {:width$}  {does}\n", spelled(n)),
                None => format!("{n:4}  {}\n", spelled(n)),
            };
        }
        assert_eq!(printed(&output), text, "case {case}");
        verdicts.met(verdict);
        met.met(culprit);
    }
    verdicts.report();
    met.report();
}

/// `check --explain` has the path of each mark whose condition is false, in text and in JSON, and without it there is none.
#[test]
fn explained_lists_have_all_reasons() {
    let seed = Random::new(option("DIFFERENTIAL_SEED", 1) ^ 83).bits();
    let mut met = Tally::new("reasons of lists", ["none", "one", "more"]);
    for case in 0..option("COMMAND_CASES", CASES) / 5 {
        let random = &mut Random::new(seed ^ case);
        let size = random.between(2, 14);
        let program = generate::program(random, size);
        let list = generate::marks(random, &program, 10);
        let base = folder("explain", &[("given", &program.text()), ("marks", &marks::text(&list))]);
        let explained = object(&base, &["check", ".", "--json", "--explain"]);
        let text = printed(&run_in(&base, &["check", ".", "--explain"]));
        let verdicts = Judge::new(&program).verdicts(&list);
        let mut expected = String::new();
        for (line, &verdict) in verdicts.iter().enumerate() {
            let number = (line + 1).to_string();
            let alone = object(&base, &["why", ".", &number, "--json"]);
            let told = &explained["verdicts"][line];
            assert_eq!(told["because"], alone["because"], "case {case}");
            assert_eq!(told.get("because").is_some(), verdict == 14, "case {case}");
            for line in printed(&run_in(&base, &["why", ".", &number])).lines() {
                expected += &format!("  {line}\n");
            }
        }
        assert!(text.contains(&expected), "case {case}: {text}");
        let plain = object(&base, &["check", ".", "--json"]);
        let all = plain["verdicts"].as_array().expect("a list");
        assert!(all.iter().all(|verdict| verdict.get("because").is_none()), "case {case}");
        met.met(match verdicts.iter().filter(|&&verdict| verdict == 14).count() {
            0 => "none",
            1 => "one",
            _ => "more",
        });
    }
    met.report();
}

#[test]
fn reasons_of_examples() {
    let output = run_in(&example("p"), &["why", ".", "2"]);
    let expected = concat!(
        "line 2: 3: mark(rm, i2, 7): condition false at 3\n",
        "  condition !EX E[!def(i2) U use(i2)]\n",
        "   3  i2 := 7        defines i2\n",
        "   4  i3 := i1 + i2  uses i2\n",
    );
    assert_eq!((status(&output), printed(&output).as_str()), (0, expected));
    let sums = b"read i9\ni1 := i0 + 1\ni2 := i0 + 1\ni0 := 4\ni3 := i0 + 1\nwrite i2\n";
    let list = b"2: mark(rm, i1, i0 + 1)\n3: mark(cse, i1, i0 + 1)\n5: mark(cse, i2, i0 + 1)\n4: mark(rpl, i7, 3)\n";
    let base = folder("sums", &[("given", sums), ("marks", list)]);
    for (line, last) in [
        ("1", "   3  i2 := i0 + 1  uses i1, by a `cse` of the list that is accepted\n"),
        ("3", "   4  i0 := 4       defines i0\n"),
    ] {
        let told = printed(&run_in(&base, &["why", ".", line]));
        assert!(told.ends_with(last), "{told}");
    }
    let base = folder(
        "start",
        &[
            ("given", b"read i9\ni1 := i0 + 1\nwrite i1\n"),
            ("marks", b"2: mark(rpl, i0, 3)\n2: mark(cse, i5, i0 + 1)\n"),
        ],
    );
    let told = printed(&run_in(&base, &["why", ".", "1"]));
    assert!(told.ends_with("   1  read i9       statement 1: nothing was copied yet\n"), "{told}");
    assert!(printed(&run_in(&base, &["why", ".", "2"]))
        .starts_with("line 2: 2: mark(cse, i5, i0 + 1): named before: line 1 names 2\n"));
}

/// A line that isn't there is the caller's mistake, and a list that isn't taken the optimiser's.
#[test]
fn lines_that_are_not_there() {
    let p = example("p");
    for (line, found) in [("0", "0"), ("6", "6"), ("4294967295", "4294967295")] {
        let output = run_in(&p, &["why", ".", line]);
        let expected = format!(
            "LINE: the caller: no such line of the marks; expected 1 to 5, found {found}\n"
        );
        assert_eq!(
            (status(&output), said(&output), printed(&output)),
            (2, expected, String::new())
        );
    }
    let base = folder("no_marks", &[("given", b"read i0\nwrite i0\n"), ("marks", b"")]);
    let output = run_in(&base, &["why", ".", "1"]);
    let expected = "LINE: the caller: no such line of the marks; expected one that is there, of which there is none, found 1\n";
    assert_eq!((status(&output), said(&output).as_str()), (2, expected));
    let base = folder(
        "wrong_marks",
        &[("given", b"read i0\nwrite i0\n"), ("marks", b"1: mark(rm, i0)\n")],
    );
    let output = run_in(&base, &["why", ".", "1"]);
    assert!(said(&output).starts_with("./marks:1: the optimiser: misspelled"), "{}", said(&output));
    assert_eq!(status(&output), 1);
    let output =
        run_in(&folder("no_list", &[("given", b"read i0\nwrite i0\n")]), &["why", ".", "1"]);
    assert!(said(&output).starts_with("./marks: the caller: can't be read"), "{}", said(&output));
    for words in [&["why", "."][..], &["why", ".", "x"], &["why"], &["why", ".", "1", "2"]] {
        assert_eq!(status(&run_in(&p, words)), 2, "{words:?}");
    }
}
