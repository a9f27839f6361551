//! `rewrites join` on random files, held to the second implementation: its text, its file, and its JSON
//! as Python reads it.
//!
//! `DIFFERENTIAL_SEED` and `COMMAND_CASES` choose other cases, and how many there are.

#[path = "../../host/tests/common/mod.rs"]
mod common;
#[path = "../../host/tests/coverage/mod.rs"]
mod coverage;
mod shell;

use common::{option, P};
use coverage::Tally;
use oracle::check::LARGEST_FILE;
use oracle::generate::{self, Random};
use oracle::join::join;
use oracle::marks::TEXT_BYTES;
use oracle::program::Program;
use shell::{example, folder, printed, rewrites, run_in, said, status, told_again};
use std::fs::{self, File};

const CASES: u64 = 600;

/// The numbers of statements and bytes, and the joined text; or the refusal.
fn expected(road: &[u8], creeper: &[u8]) -> Result<(u32, u32, String), u8> {
    let mut text = vec![0; TEXT_BYTES];
    let (statements, bytes) = join(road, creeper, &mut text)?;
    text.truncate(bytes as usize);
    Ok((statements, bytes, String::from_utf8(text).expect("joined text is ASCII")))
}

/// A program's text, at times damaged, too long or missing.
fn file(random: &mut Random, program: &Program) -> Option<Vec<u8>> {
    match random.below(24) {
        0 => None,
        1 => Some(b"skip\n".repeat(LARGEST_FILE / 5 + random.below(3))),
        2 => Some(generate::statement_soup(random)),
        3 | 4 => Some(generate::damage(random, &program.text())),
        _ => Some(program.text()),
    }
}

#[test]
fn joins_are_as_by_the_oracle() {
    let classes = ["joined", "road refused", "creeper refused", "21", "unread"];
    let mut met = Tally::new("pairs", classes);
    let (mut json, mut texts) = (Vec::new(), Vec::new());
    let seed = Random::new(option("DIFFERENTIAL_SEED", 1) ^ 90).bits();
    for case in 0..option("COMMAND_CASES", CASES) {
        let random = &mut Random::new(seed ^ case);
        let [road, creeper] = generate::road_and_creeper(random);
        let (road, creeper) = (file(random, &road), file(random, &creeper));
        let files: Vec<(&str, &[u8])> = [("road", &road), ("creeper", &creeper)]
            .into_iter()
            .filter_map(|(name, bytes)| Some((name, &bytes.as_ref()?[..])))
            .collect();
        let base = folder("joined", &files);
        let output = run_in(&base, &["join", "road", "creeper"]);
        json.extend(run_in(&base, &["join", "road", "creeper", "--json"]).stdout);
        let filed = run_in(&base, &["join", "road", "creeper", "-o", "new"]);
        assert_eq!(status(&filed), status(&output), "case {case}");
        let is_read =
            |text: &Option<Vec<u8>>| matches!(text, Some(text) if text.len() <= LARGEST_FILE);
        let (road, creeper) = match (road, creeper) {
            (Some(road), Some(creeper)) if road.len().max(creeper.len()) <= LARGEST_FILE => {
                (road, creeper)
            }
            (road, creeper) => {
                assert_eq!((status(&output), printed(&output).as_str()), (2, ""), "case {case}");
                let unread = usize::from(!is_read(&road)) + usize::from(!is_read(&creeper));
                assert_eq!(said(&output).lines().count(), unread, "case {case}");
                met.met("unread");
                texts.push(String::new());
                continue;
            }
        };
        match expected(&road, &creeper) {
            Ok((statements, bytes, text)) => {
                assert_eq!((status(&output), said(&output).as_str()), (0, ""), "case {case}");
                assert_eq!(printed(&output), text, "case {case}");
                let new = fs::read(base.join("new")).expect("a file is read");
                assert!(new == text.as_bytes(), "case {case}");
                let size = format!("statements {statements} bytes {bytes}\n");
                assert_eq!((printed(&filed), said(&filed)), (size.clone(), String::new()));
                texts.push(size + &text);
                met.met("joined");
            }
            Err(number) => {
                assert_eq!((status(&output), printed(&output).as_str()), (1, ""), "case {case}");
                let said = said(&output);
                let (file, class, whose) = match (Program::read(&road), number) {
                    (Err(_), _) => ("road", "road refused", "road program"),
                    (_, 21) => ("creeper", "21", "shift program"),
                    _ => ("creeper", "creeper refused", "creeper program"),
                };
                assert!(said.starts_with(&format!("{file}:")), "case {case}: {said}");
                assert!(said.contains(&format!(": the author of the {whose}: ")), "{said}");
                assert!(!base.join("new").exists(), "case {case}");
                met.met(class);
                texts.push(format!("refused {number}\n"));
            }
        }
    }
    assert_eq!(told_again(&json), texts);
    met.report();
}

/// `given` of the example is its road program joined to its creeper program.
#[test]
fn the_example() {
    let base = example("joined");
    let text = fs::read_to_string(base.join("given")).expect("a file is read");
    let output = run_in(&base, &["join", "road", "creeper"]);
    assert_eq!((status(&output), printed(&output), said(&output)), (0, text, String::new()));
}

#[test]
fn p_with_itself() {
    let base = folder("twice", &[("p", P.as_bytes())]);
    let output = run_in(&base, &["join", "p", "p"]);
    let text = printed(&output);
    assert_eq!((status(&output), said(&output).as_str()), (0, ""));
    assert_eq!(text.lines().count(), 15);
    assert_eq!(text.lines().nth(7), Some("i0 := i3"));
    assert!(
        text.ends_with("if i0 goto 13 else 15\ni0 := i0 - 1\nif i0 goto 11 else 15\nwrite i3\n")
    );
    let output = run_in(&base, &["join", "p", "p", "--json"]);
    let head = r#"{"call":"join","road":"p","creeper":"p","status":0,"faults":[],"statements":15,"bytes":"#;
    assert!(printed(&output).starts_with(head), "{}", printed(&output));
    // The text may take the place of one that was read.
    let output = run_in(&base, &["join", "p", "p", "--output", "p"]);
    let size = format!("statements 15 bytes {}\n", text.len());
    assert_eq!((status(&output), printed(&output)), (0, size));
    assert_eq!(fs::read_to_string(base.join("p")).expect("a file is read"), text);
}

#[test]
fn refusals_in_words() {
    let skips = |n: usize| "read i0\n".to_string() + &"skip\n".repeat(n - 2) + "write i0\n";
    let (good, full) = (skips(2), skips(1_024));
    let target = "read i0\nskip\nif i0 goto 9 else 3\nwrite i0\n";
    let of_target =
        "a target outside 2 to N; expected targets from 2 to 4, found `if i0 goto 9 else 3`: `9` is outside 2 to 4";
    let lines = "under 2 or over 1,024 lines; expected 2 to 1,024 lines, found";
    let count =
        "joined program of over 1,024 statements; expected at most 1,025 statements of both programs";
    for (road, creeper, words) in [
        (target, &good[..], format!("road:3: the author of the road program: {of_target}")),
        (&good, target, format!("creeper:3: the author of the creeper program: {of_target}")),
        // Of two the road's; and the creeper's before 21.
        (target, "x", format!("road:3: the author of the road program: {of_target}")),
        (&full, target, format!("creeper:3: the author of the creeper program: {of_target}")),
        ("", &good, format!("road: the author of the road program: {lines} 0 lines")),
        (&good, "", format!("creeper: the author of the creeper program: {lines} 0 lines")),
        (
            &full,
            &good,
            format!("creeper: the author of the shift program: {count}, found 1,024 and 2"),
        ),
        (
            &good,
            &full,
            format!("creeper: the author of the shift program: {count}, found 2 and 1,024"),
        ),
    ] {
        let files = [("road", road.as_bytes()), ("creeper", creeper.as_bytes()), ("new", b"old")];
        let base = folder("refused_pair", &files);
        let output = run_in(&base, &["join", "road", "creeper"]);
        assert_eq!(said(&output), format!("{words}\n"));
        assert_eq!((status(&output), printed(&output).as_str()), (1, ""));
        let output = run_in(&base, &["join", "road", "creeper", "-o", "new"]);
        assert_eq!(said(&output), format!("{words}\nnew: not written, for the reason above\n"));
        assert_eq!((status(&output), printed(&output).as_str()), (1, ""));
        assert_eq!(fs::read(base.join("new")).expect("a file is read"), b"old");
    }
}

#[test]
fn files_that_are_not_read() {
    let base = folder("unread_pair", &[("road", b"read i0\nwrite i0\n")]);
    let expected = "the caller: can't be read:";
    let limit = "expected a file of at most 65,535 bytes";
    let missing = format!("{expected} No such file or directory; {limit}\n");
    let output = run_in(&base, &["join", "road", "nowhere"]);
    assert_eq!((status(&output), said(&output)), (2, format!("nowhere: {missing}")));
    let output = run_in(&base, &["join", "nowhere", "."]);
    let folder_words = format!(".: {expected} Is a directory; {limit}\n");
    assert_eq!((status(&output), said(&output)), (2, format!("nowhere: {missing}{folder_words}")));
    let output = run_in(&base, &["join", "road", "nowhere", "--json"]);
    assert!(printed(&output)
        .starts_with(r#"{"call":"join","road":"road","creeper":"nowhere","status":2,"#));
}

#[test]
fn output_that_is_not_written() {
    let base = folder("unwritten_pair", &[("p", P.as_bytes())]);
    let full = "No space left on device";
    let device = File::options().write(true).open("/dev/full").expect("there is /dev/full");
    let output = rewrites()
        .args(["join", "p", "p"])
        .current_dir(&base)
        .stdout(device)
        .output()
        .expect("the command runs");
    assert_eq!((status(&output), said(&output)), (3, format!("standard output: {full}\n")));
    let output = run_in(&base, &["join", "p", "p", "-o", "/dev/full"]);
    assert_eq!((status(&output), said(&output)), (3, format!("/dev/full: {full}\n")));
    let output = run_in(&base, &["join", "p", "p", "-o", "nowhere/new"]);
    let words = "nowhere/new: No such file or directory\n";
    assert_eq!((status(&output), said(&output).as_str()), (3, words));
}
