//! `rewrites list` on random folders, held to the second implementation: its text, and its JSON as
//! Python reads it.
//!
//! `DIFFERENTIAL_SEED` and `COMMAND_CASES` choose other cases, and how many there are.

#[path = "../../host/tests/common/mod.rs"]
mod common;
#[path = "../../host/tests/coverage/mod.rs"]
mod coverage;
mod shell;

use common::option;
use coverage::Tally;
use oracle::check::LARGEST_FILE;
use oracle::folder as random_folder;
use oracle::generate::Random;
use oracle::program::{Program, Statement, VARIABLES};
use shell::{example, folder, printed, run_in, said, status, told_again};
use std::fs;
use std::path::PathBuf;

const CASES: u64 = 800;

/// What is printed, from the statements alone, or the refusal. Python tells the JSON in the same words.
fn expected(given: &[u8]) -> Result<String, u8> {
    let program = Program::read(given)?;
    let told = |is_in: &dyn Fn(&Statement) -> bool| {
        let numbers: Vec<String> = (1..=program.count())
            .filter(|&n| program.statement(n).map_or(false, is_in))
            .map(|n| format!(" {n}"))
            .collect();
        let colon = if numbers.is_empty() { "" } else { ":" };
        format!("{}{colon}{}", numbers.len(), numbers.concat())
    };
    let mut text = String::new();
    for x in 0..VARIABLES {
        let (defined, used) = (told(&|s| s.defines(x)), told(&|s| s.uses(x)));
        if (defined.as_str(), used.as_str()) != ("0", "0") {
            text += &format!("i{x} defined {defined} used {used}\n");
        }
    }
    Ok(text)
}

#[test]
fn lists_are_as_by_the_oracle() {
    let mut met = Tally::new("programs listed", [0, 2, 3, 4, 5]);
    let mut lines = Tally::new("lines of lists", ["defined and used", "defined only", "used only"]);
    let (mut json, mut texts) = (Vec::new(), Vec::new());
    let seed = Random::new(option("DIFFERENTIAL_SEED", 1) ^ 64).bits();
    for case in 0..option("COMMAND_CASES", CASES) {
        let random = &mut Random::new(seed ^ case);
        let (_, given) = random_folder::given(random);
        let base = folder("listed", &[("given", &given)]);
        let output = run_in(&base, &["list", "."]);
        json.extend(run_in(&base, &["list", ".", "--json"]).stdout);
        if given.len() > LARGEST_FILE {
            assert_eq!((status(&output), printed(&output).as_str()), (2, ""), "case {case}");
            texts.push(String::new());
            continue;
        }
        match expected(&given) {
            Ok(text) => {
                assert_eq!(printed(&output), text, "case {case}");
                assert_eq!((status(&output), said(&output).as_str()), (0, ""), "case {case}");
                met.met(0);
                for line in text.lines() {
                    let is_never = |word: &str| line.contains(&format!(" {word} 0"));
                    lines.met(match (is_never("defined"), is_never("used")) {
                        (false, false) => "defined and used",
                        (false, true) => "defined only",
                        _ => "used only",
                    });
                }
                texts.push(text);
            }
            Err(number) => {
                assert_eq!((status(&output), printed(&output).as_str()), (1, ""), "case {case}");
                let said = said(&output);
                let is_blamed = said.contains(": the author of the shift program: ");
                assert!(said.starts_with("./given:") && is_blamed, "case {case}: {said}");
                met.met(number);
                texts.push(format!("refused {number}\n"));
            }
        }
    }
    assert_eq!(told_again(&json), texts);
    met.report();
    lines.report();
}

#[test]
fn the_list_of_p() {
    let kept: String = (24..32).map(|x| format!("i{x} defined 0 used 1: 8\n")).collect();
    let expected = "\
        i0 defined 2: 1 6 used 4: 2 5 6 7\n\
        i1 defined 1: 2 used 1: 4\n\
        i2 defined 1: 3 used 1: 4\n\
        i3 defined 1: 4 used 1: 8\n"
        .to_string()
        + &kept;
    let output = run_in(&example("p"), &["list", "."]);
    assert_eq!((status(&output), printed(&output)), (0, expected));

    let kept: Vec<String> = (24..32)
        .map(|x| format!(r#"{{"variable":"i{x}","defined":0,"defining":[],"used":1,"using":[8]}}"#))
        .collect();
    let expected = concat!(
        r#"{"call":"list","folder":".","status":0,"faults":[],"statements":8,"variables":["#,
        r#"{"variable":"i0","defined":2,"defining":[1,6],"used":4,"using":[2,5,6,7]},"#,
        r#"{"variable":"i1","defined":1,"defining":[2],"used":1,"using":[4]},"#,
        r#"{"variable":"i2","defined":1,"defining":[3],"used":1,"using":[4]},"#,
        r#"{"variable":"i3","defined":1,"defining":[4],"used":1,"using":[8]},"#,
    )
    .to_string()
        + &kept.join(",")
        + "]}\n";
    let output = run_in(&example("p"), &["list", ".", "--json"]);
    assert_eq!((status(&output), printed(&output)), (0, expected));
}

/// Each folder of the examples has what is printed of its program.
#[test]
fn the_lists_of_the_examples() {
    let folders = fs::read_dir(example("")).expect("there are examples");
    let folders: Vec<PathBuf> = folders
        .map(|entry| entry.expect("the folder is read").path())
        .filter(|path| path.is_dir())
        .collect();
    assert!(folders.len() >= 7);
    for folder in folders {
        let expected = fs::read_to_string(folder.join("expected_list")).expect("a file is read");
        let output = run_in(&folder, &["list", "."]);
        assert_eq!((status(&output), printed(&output)), (0, expected), "{}", folder.display());
    }
}

/// The program alone is read: what the other files hold is no matter.
#[test]
fn no_other_file_is_needed() {
    let given = b"read i31\ni5 := 7\nif i30 goto 3 else 4\nwrite i31\n";
    let kept: String = (24..30).map(|x| format!("i{x} defined 0 used 1: 4\n")).collect();
    let expected = "i5 defined 1: 2 used 0\n".to_string()
        + &kept
        + "i30 defined 0 used 2: 3 4\ni31 defined 1: 1 used 1: 4\n";
    let whole = folder("list_alone", &[("given", given)]);
    let other = folder("list_beside", &[("given", given), ("marks", b"rubbish")]);
    for base in [whole, other] {
        let output = run_in(&base, &["list", "."]);
        assert_eq!((status(&output), printed(&output).as_str()), (0, &expected[..]));
    }
}

/// Each variable is defined by one statement and used by the next.
#[test]
fn every_variable() {
    let inner: String = (1..64).map(|x| format!("i{x} := i{}\n", x - 1)).collect();
    let base = folder("every", &[("given", format!("read i0\n{inner}write i63\n").as_bytes())]);
    let line = |x: usize| {
        let (at, next) = (x + 1, x + 2);
        match x {
            24..=31 => format!("i{x} defined 1: {at} used 2: {next} 65\n"),
            _ => format!("i{x} defined 1: {at} used 1: {next}\n"),
        }
    };
    let expected: String = (0..64).map(line).collect();
    assert_eq!(printed(&run_in(&base, &["list", "."])), expected);
}

/// The longest lines: every statement but the last defines and uses one variable.
#[test]
fn the_longest_program() {
    let given = format!("read i9\n{}write i0\n", "i9 := i9 + i9\n".repeat(1_022));
    let base = folder("longest_list", &[("given", given.as_bytes())]);
    let text = printed(&run_in(&base, &["list", "."]));
    let numbers = |first: usize| (first..=1_023).map(|n| format!(" {n}")).collect::<String>();
    let line = format!("i9 defined 1023:{} used 1022:{}", numbers(1), numbers(2));
    assert_eq!(text.lines().nth(1), Some(&line[..]));
    assert_eq!(text.lines().next(), Some("i0 defined 0 used 1: 1024"));
    assert_eq!(text.lines().count(), 10);
}

#[test]
fn refused_programs_in_words() {
    let author = "the author of the shift program: ";
    for (given, words) in [
        (
            "",
            format!(
                ": {author}under 2 or over 1,024 lines; expected 2 to 1,024 lines, found 0 lines"
            ),
        ),
        (
            "read i0\nif i0 goto 9 else 3\nwrite i0\n",
            format!(
                ":2: {author}a target outside 2 to N; expected targets from 2 to 3, \
                 found `if i0 goto 9 else 3`: `9` is outside 2 to 3"
            ),
        ),
    ] {
        let output =
            run_in(&folder("refused_list", &[("given", given.as_bytes())]), &["list", "."]);
        assert_eq!(said(&output), format!("./given{words}\n"));
        assert_eq!((status(&output), printed(&output).as_str()), (1, ""));
    }
}

#[test]
fn missing_files() {
    let base = folder("programless", &[("marks", b"")]);
    let output = run_in(&base, &["list", "."]);
    let expected = "./given: the caller: can't be read: No such file or directory; \
                    expected a file of at most 65,535 bytes\n";
    assert_eq!(said(&output), expected);
    assert_eq!((status(&output), printed(&output).as_str()), (2, ""));
    let output = run_in(&base, &["list", "nowhere"]);
    let expected = "nowhere: the caller: No such file or directory; \
                    expected a folder with a program in `given`\n";
    assert_eq!((status(&output), said(&output).as_str()), (2, expected));
}
