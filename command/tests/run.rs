//! `rewrites run` on random folders, held to the second implementation: its text, and its JSON as
//! Python reads it; and what the options put in place of a start.
//!
//! `DIFFERENTIAL_SEED` and `COMMAND_CASES` choose other cases, and how many there are.

#[path = "../../host/tests/common/mod.rs"]
mod common;
#[path = "../../host/tests/coverage/mod.rs"]
mod coverage;
mod shell;

use common::option;
use coverage::Tally;
use oracle::check::LARGEST_FILE;
use oracle::generate::{self, Random};
use oracle::{desk, folder as random_folder};
use rewrites::{Outcome, FIRST_KEPT, KEPT, VARIABLES};
use shell::{example, folder, printed, run_in, said, status, told_again};
use std::fs;

const CASES: u64 = 1_000;

fn random(case: u64) -> Random {
    Random::new(Random::new(option("DIFFERENTIAL_SEED", 1) ^ 34).bits() ^ case)
}

#[test]
fn runs_are_as_by_the_oracle() {
    let classes = ["ended", "spent", "fault", "start", "2", "3", "4", "5", "15"];
    let mut met = Tally::new("runs", classes);
    let mut kept = Tally::new("kept values", ["zeros", "others"]);
    let (mut json, mut texts) = (Vec::new(), Vec::new());
    for case in 0..option("COMMAND_CASES", CASES) {
        let random = &mut random(case);
        let ((_, given), start) = (random_folder::given(random), random_folder::start(random));
        let base = folder("run", &[("given", &given), ("start", &start)]);
        let output = run_in(&base, &["run", "."]);
        json.extend(run_in(&base, &["run", ".", "--json"]).stdout);
        if given.len().max(start.len()) > LARGEST_FILE {
            assert_eq!((status(&output), printed(&output).as_str()), (2, ""), "case {case}");
            texts.push(String::new());
            continue;
        }
        let expected = desk::run(&given, &start, false);
        match expected.strip_prefix("refused ").and_then(|rest| rest.split_once('\n')) {
            Some((number, _)) => {
                assert_eq!((status(&output), printed(&output).as_str()), (1, ""), "case {case}");
                let author = match number {
                    "start" => "./start",
                    "15" => "./start:2: the host program: budget over 1,000,000",
                    _ => "the author of the shift program",
                };
                assert!(said(&output).contains(author), "case {case}: {}", said(&output));
                texts.push(format!("refused {number}\n"));
                met.met(classes.into_iter().find(|&class| class == number).unwrap_or("?"));
            }
            None => {
                assert_eq!(printed(&output), expected, "case {case}");
                assert_eq!((status(&output), said(&output).as_str()), (0, ""), "case {case}");
                let word = expected.split(' ').next().unwrap_or_default();
                met.met(classes.into_iter().find(|&class| class == word).unwrap_or("?"));
                if let Some((_, values)) = expected.split_once(" kept ") {
                    kept.met(if values == "0 0 0 0 0 0 0 0\n" { "zeros" } else { "others" });
                }
                texts.push(expected);
            }
        }
    }
    assert_eq!(told_again(&json), texts);
    met.report();
    kept.report();
}

/// Options stand in place of the start's numbers, and of a start that isn't there.
#[test]
fn options_replace_the_start() {
    for case in 0..300 {
        let random = &mut random(1_000_000 + case);
        let size = generate::size(random);
        let given = generate::program(random, size).text();
        let mut numbers: Vec<i64> = vec![0, 1_000_000];
        numbers.resize(66, 0);
        let has_start = random.chance(50);
        if has_start {
            numbers[0] = i64::from(generate::word(random) as i32);
            numbers[1] = random.below(300) as i64;
            for value in &mut numbers[2..] {
                *value = i64::from(generate::word(random) as i32);
            }
        }
        let spelled = |numbers: &[i64]| -> Vec<u8> {
            numbers.iter().flat_map(|number| format!("{number}\n").into_bytes()).collect()
        };
        let start = spelled(&numbers);
        let files = [("given", &given[..]), ("start", &start[..])];
        let base = folder("options", if has_start { &files } else { &files[..1] });
        let mut words: Vec<String> = vec!["run".into(), ".".into()];
        if !has_start || random.chance(50) {
            numbers[0] = i64::from(generate::word(random) as i32);
            words.extend(["--input".to_string(), numbers[0].to_string()]);
        }
        if random.chance(50) {
            numbers[1] = random.below(300) as i64;
            words.push(format!("--budget={}", numbers[1]));
        }
        for _ in 0..random.below(4) {
            let (x, value) = (random.below(64), i64::from(generate::word(random) as i32));
            numbers[2 + x] = value;
            words.extend(["--set".to_string(), format!("i{x}={value}")]);
        }
        let output = run_in(&base, &words);
        assert_eq!(printed(&output), desk::run(&given, &spelled(&numbers), false), "{words:?}");
        assert_eq!((status(&output), said(&output).as_str()), (0, ""), "{words:?}");
    }
}

#[test]
fn runs_of_an_example() {
    let p = example("p");
    for (words, expected) in [
        (&["run", "."][..], "ended 9 steps 12 ticks 36 kept 0 0 0 0 0 0 0 0\n"),
        (&["run", ".", "--input", "0"], "ended 7 steps 6 ticks 18 kept 0 0 0 0 0 0 0 0\n"),
        (&["run", "--input=-1", "--budget", "11", ".", "--json"], "\"outcome\":\"spent\""),
        (&["run", ".", "--budget", "11"], "spent at 8 ticks 32\n"),
    ] {
        assert!(printed(&run_in(&p, words)).contains(expected), "{words:?}");
    }
}

/// Values by the names of their variables, between values in order.
#[test]
fn a_start_names_its_variables() {
    let given = b"read i1\ni2 := i0 * 100\ni2 := i2 + i13\ni2 := i2 + i14\nwrite i2\n";
    for (start, value) in
        [("1\n9\n7\ni13 = 40\n2\n", 742), ("1\n9\ni14 = 3\n", 3), ("1\n9\ni0 = -2\n5\n", -200)]
    {
        let base = folder("named", &[("given", &given[..]), ("start", start.as_bytes())]);
        let output = run_in(&base, &["run", "."]);
        assert!(printed(&output).starts_with(&format!("ended {value} steps 5 ")), "{start}");
        assert_eq!((status(&output), said(&output).as_str()), (0, ""), "{start}");
        assert_eq!(printed(&output), desk::run(given, start.as_bytes(), false), "{start}");
    }
}

/// A pass of the example that is held, and the next, which starts with what the first kept.
#[test]
fn what_one_pass_keeps_starts_the_next() {
    let hold = example("hold");
    let output = run_in(&hold, &["run", "."]);
    assert_eq!(printed(&output), "ended 4 steps 12 ticks 31 kept 4 3 4 0 0 0 0 0\n");
    let next = ["run", ".", "--input=2", "--set=i24=4", "--set=i25=3", "--set=i26=4"];
    let output = run_in(&hold, &next);
    // The gear is held, and a pass less is left.
    assert_eq!(printed(&output), "ended 4 steps 10 ticks 27 kept 4 2 2 0 0 0 0 0\n");
}

/// Numbers below zero, in the program and in options.
#[test]
fn runs_below_zero() {
    let offset = example("offset");
    for (words, expected) in [
        (&["run", "."][..], "ended -25 steps 12 ticks 35 kept 0 0 0 0 0 0 0 0\n"),
        (&["run", ".", "--input", "-5"], "ended -25 steps 12 ticks 35 kept 0 0 0 0 0 0 0 0\n"),
        (
            &["run", ".", "--input=-5", "--set=i2=-10"],
            "ended -25 steps 11 ticks 32 kept 0 0 0 0 0 0 0 0\n",
        ),
        (
            &["run", ".", "--input", "90", "--set", "i2=-10"],
            "ended 50 steps 10 ticks 30 kept 0 0 0 0 0 0 0 0\n",
        ),
        (
            &["run", ".", "--input", "90", "--set", "i2=-11"],
            "ended 35 steps 11 ticks 33 kept 0 0 0 0 0 0 0 0\n",
        ),
        (&["run", ".", "--input=-2147483648", "--budget=5"], "i3 = 2147483608\n"),
        (
            &["run", ".", "--json"],
            "\"outcome\":\"ended\",\"value\":-25,\"steps\":12,\"ticks\":35,\"kept\":[0,0,0,0,0,0,0,0]}\n",
        ),
    ] {
        let output = run_in(&offset, words);
        assert!(printed(&output).contains(expected), "{words:?}: {}", printed(&output));
        assert_eq!((status(&output), said(&output).as_str()), (0, ""), "{words:?}");
    }
    let base = folder("below", &[("given", b"read i0\ni1 := i0 - i13\nwrite i1\n")]);
    let output = run_in(&base, &["run", ".", "--set", "i13=-40", "--input", "-5"]);
    assert_eq!(printed(&output), "ended 35 steps 3 ticks 11 kept 0 0 0 0 0 0 0 0\n");
}

/// What the unit keeps: the values of the library's call, signed, in the text and in the JSON.
#[test]
fn runs_tell_what_is_kept() {
    let given = b"read i0\ni24 := 5\ni31 := i0 - 1\nwrite i0\n";
    let base = folder("kept", &[("given", given)]);
    let mut values = [0; VARIABLES];
    for (input, setting) in [(0, 7), (-2147483648, -2147483648), (1, 2147483647)] {
        values[FIRST_KEPT + 1] = setting as u32;
        let answer = common::run(given, &values, input as u32, 4);
        let kept = match answer {
            Ok(Outcome::Ended { value, steps: 4, kept, ticks: 13 }) if value == input => kept,
            other => panic!("{other:?}"),
        };
        let kept = kept.map(|value| (value as i32).to_string());
        assert_eq!((kept.len(), &kept[0][..], &kept[1]), (KEPT, "5", &setting.to_string()));
        let options = [format!("--input={input}"), format!("--set=i25={setting}")];
        let words = |last: &str| {
            let options = options.iter().map(String::as_str);
            ["run", "."].into_iter().chain(options).chain([last]).map(str::to_string).collect()
        };
        let text: Vec<String> = words("--budget=4");
        let output = run_in(&base, &text);
        let expected = format!("ended {input} steps 4 ticks 13 kept {}\n", kept.join(" "));
        assert_eq!((printed(&output), said(&output)), (expected.clone(), String::new()));
        let json: Vec<String> = words("--json");
        let output = run_in(&base, &json);
        let list = format!("\"steps\":4,\"ticks\":13,\"kept\":[{}]}}\n", kept.join(","));
        assert!(printed(&output).ends_with(&list), "{}", printed(&output));
        assert_eq!(told_again(&output.stdout), [expected]);
        // Where the budget is spent, nothing is told as kept.
        let text: Vec<String> = words("--budget=3");
        let output = printed(&run_in(&base, &text));
        assert!(output.starts_with("spent at 4 ticks 9\n") && !output.contains("kept"), "{output}");
    }
}

/// A division by 0 ends a run: its text and its JSON, which have neither a value nor what is kept.
#[test]
fn runs_tell_of_faults() {
    let base = folder("fault", &[("given", b"read i0\ni1 := 10 / i0\nwrite i1\n")]);
    for budget in ["2", "3", "1000000"] {
        let words = ["run", ".", "--input=0", "--budget", budget];
        let output = run_in(&base, &words);
        assert_eq!((status(&output), said(&output)), (0, String::new()));
        assert_eq!(printed(&output), "fault at 2 steps 2 ticks 28\n");
        let output = run_in(&base, &[&words[..], &["--json"]].concat());
        let end = "\"outcome\":\"fault\",\"statement\":2,\"steps\":2,\"ticks\":28}\n";
        assert!(printed(&output).ends_with(end), "{}", printed(&output));
        assert!(printed(&output).contains("\"status\":0,\"faults\":[],"), "{}", printed(&output));
        assert_eq!(told_again(&output.stdout), ["fault at 2 steps 2 ticks 28\n"]);
    }
    let output = run_in(&base, &["run", ".", "--input=0", "--budget=1"]);
    assert!(printed(&output).starts_with("spent at 2 ticks 4\ni0 = 0\n"));
    let output = run_in(&base, &["run", ".", "--input=-3"]);
    assert_eq!(printed(&output), "ended -3 steps 3 ticks 32 kept 0 0 0 0 0 0 0 0\n");
}

/// The example that divides, and its program with the accepted marks made: both fault at each divisor that is 0.
#[test]
fn both_programs_of_an_example_fault_alike() {
    let creeper = example("creeper");
    let start = fs::read(creeper.join("start")).expect("a file is read");
    let made = folder("made", &[("start", &start)]);
    let new = made.join("given");
    let output = run_in(&creeper, &["check", ".", "-o", &new.to_string_lossy()]);
    assert_eq!(
        printed(&output).lines().next(),
        Some(
            ".: marks 15, accepted 4, no such statement 1, named before 1, doesn't fit 1, \
             may fault 2, condition false 6"
        )
    );
    let kept = " kept 0 0 0 0 0 0 0 0";
    // The division of 10 is dropped: 23 ticks less for runs that come there.
    for (setting, answer, kept, of_given, of_made) in [
        ("i31=0", "ended 30 steps 14", kept, 187, 164),
        ("i2=4000", "ended 4 steps 15", kept, 189, 166),
        ("i1=0", "fault at 6 steps 6", "", 72, 72),
        ("i2=0", "fault at 8 steps 8", "", 105, 105),
        ("i12=0", "fault at 9 steps 9", "", 129, 129),
        ("i14=0", "fault at 11 steps 11", "", 177, 154),
    ] {
        for (base, ticks) in [(&creeper, of_given), (&made, of_made)] {
            let output = run_in(base, &["run", ".", "--set", setting]);
            let expected = format!("{answer} ticks {ticks}{kept}\n");
            assert_eq!((status(&output), printed(&output)), (0, expected), "{setting}");
        }
    }
}

/// Without a start the input must be given, and what the start would have is told.
#[test]
fn refused_starts_in_words() {
    let lines = "the input, the budget and up to 64 values, one a line";
    let number = "the start: not such a number; expected a whole number from";
    let input = format!("{number} -2147483648 to 2147483647, and byte 10");
    let budget = format!("{number} 0 to 1000000, and byte 10");
    let value = format!(
        "{number} -2147483648 to 2147483647, alone or behind a later variable (i13 = 40), and byte 10"
    );
    let end = "the start: without its line end; expected byte 10 behind the last line too";
    for (start, expected) in [
        ("", format!(": the start: under 2 lines; expected {lines}")),
        (&"1\n".repeat(67), format!(": the start: over 66 lines; expected {lines}")),
        ("1\n-1\n", format!(":2: {budget}, found `-1`")),
        ("1\n3000000000\n", format!(":2: {budget}, found `3000000000`")),
        ("1\n2\n3", format!(":3: {end}, found `3`: its byte 10 is missing")),
        ("1\n2\ni13 = 40", format!(":3: {end}, found `i13 = 40`")),
        ("01\n2\n", format!(":1: {input}, found `01`")),
        ("i0 = 1\n2\n", format!(":1: {input}, found `i0 = 1`")),
        ("1\n2\n03\n", format!(":3: {value}, found `03`")),
        ("1\n2\n3\ni0 = 4\n", format!(":4: {value}, found `i0 = 4`")),
        ("1\n2\ni64 = 4\n", format!(":3: {value}, found `i64 = 4`")),
        ("1\n2\ni63 = 4\n5\n", format!(":4: {value}, found `5`")),
        (
            "1\n1000001\n",
            ":2: the host program: budget over 1,000,000; expected at most 1,000,000, found `1000001`".into(),
        ),
    ] {
        let base = folder(
            "starts",
            &[("given", b"read i0\nwrite i0\n"), ("start", start.as_bytes())],
        );
        let output = run_in(&base, &["run", "."]);
        assert_eq!(said(&output), format!("./start{expected}\n"));
        assert_eq!((status(&output), printed(&output).as_str()), (1, ""));
    }
    let base = folder("starts", &[("given", b"read i0\nwrite i0\n")]);
    let output = run_in(&base, &["run", "."]);
    let missing = "./start: the caller: can't be read: No such file or directory; \
                   expected a file of at most 65,535 bytes\n";
    assert_eq!((status(&output), said(&output).as_str()), (2, missing));
    let output = run_in(&base, &["run", ".", "--input", "3"]);
    let ended = "ended 3 steps 2 ticks 8 kept 0 0 0 0 0 0 0 0\n";
    assert_eq!((status(&output), printed(&output).as_str()), (0, ended));
    let over = "--budget: the host program: budget over 1,000,000; expected at most 1,000,000, \
                found `1000001`\n";
    for base in [base, example("p")] {
        let output = run_in(&base, &["run", ".", "--input", "3", "--budget", "1000001"]);
        assert_eq!((status(&output), said(&output).as_str()), (1, over));
    }
}
