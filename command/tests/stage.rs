//! `rewrites stage` on random folders, held to the second implementation: its text, the file `stages`, and its JSON as
//! Python reads it. The file is replaced whole or kept, whatever goes wrong.
//!
//! `DIFFERENTIAL_SEED` and `COMMAND_CASES` choose other cases, and how many there are.

#[path = "../../host/tests/common/mod.rs"]
mod common;
#[path = "../../host/tests/coverage/mod.rs"]
mod coverage;
mod shell;

use common::{option, P};
use coverage::Tally;
use oracle::generate::{self, PlaceDamage, Random, WrongName};
use oracle::marks::TEXT_BYTES;
use oracle::stages::{self, PLACES, PLACE_BYTES, STAGES_BYTES};
use shell::{example, faults, folder, printed, rewrites, run_in, said, status, told_again};
use std::ffi::OsString;
use std::fs::{self, File, Permissions};
use std::os::unix::ffi::OsStringExt;
use std::os::unix::fs::{symlink, PermissionsExt};
use std::path::{Path, PathBuf};
use std::process::{Command, Output};

const CASES: u64 = 300;

/// The line of a stage.
fn line(place: usize, name: &[u8], text: &[u8]) -> String {
    let count = text.iter().filter(|&&byte| byte == b'\n').count();
    format!("place {place} name {} lines {count} bytes {}\n", name.escape_ascii(), text.len())
}

/// What the list of these bytes is.
fn listed(bytes: &[u8]) -> String {
    let held = stages::held(bytes).expect("there is room");
    let mut text = String::new();
    for (at, stage) in held.iter().enumerate() {
        if let Some(stage) = stage {
            text += &line(at + 1, &stage.name, &stage.text);
        }
    }
    let count = held.iter().flatten().count();
    format!("{text}stages {count} empty {}\n", PLACES - count)
}

/// The file after a call, which is no other than before where nothing was kept.
fn stages_in(base: &Path) -> Option<Vec<u8>> {
    fs::read(base.join("stages")).ok()
}

/// Nothing is left beside the files.
fn holds(base: &Path, names: &[&str]) {
    let mut there: Vec<String> = fs::read_dir(base)
        .expect("a folder is read")
        .map(|entry| entry.expect("an entry").file_name().to_string_lossy().into_owned())
        .collect();
    there.sort();
    assert_eq!(there, names);
}

const CLASSES: [&str; 11] = [
    "listed",
    "kept in a new file",
    "kept in a file that was there",
    "returned",
    "refused 2 to 5",
    "refused 23",
    "refused 24",
    "refused 25",
    "of another length",
    "no program",
    "unread",
];

#[test]
fn stages_are_as_by_the_oracle() {
    let mut met = Tally::new("calls of stage", CLASSES);
    let (mut json, mut texts) = (Vec::new(), Vec::new());
    let seed = Random::new(option("DIFFERENTIAL_SEED", 1) ^ 110).bits();
    for case in 0..option("COMMAND_CASES", CASES) {
        let random = &mut Random::new(seed ^ case);
        let mut content = generate::stages(random);
        for _ in 0..random.below(3) {
            let (kind, at) = (random.pick(&PlaceDamage::ALL), random.below(PLACES));
            generate::damage_place(random, kind, &mut content, at);
        }
        let mut program = Some(generate::kept_program(random).text());
        match random.below(20) {
            0 => program = None,
            1..=3 => program = program.map(|text| generate::damage(random, &text)),
            _ => {}
        }
        let is_there = random.chance(80);
        let length = match random.below(12) {
            0 => random.pick(&[0, 1, 65_535, STAGES_BYTES - 1]),
            1 => random.pick(&[STAGES_BYTES + 1, 2 * STAGES_BYTES]),
            _ => STAGES_BYTES,
        };
        content.resize(length, 0);
        let mut files: Vec<(&str, &[u8])> = Vec::new();
        if is_there {
            files.push(("stages", &content));
        }
        if let Some(text) = &program {
            files.push(("given", text));
        }
        let before = if is_there { content.clone() } else { vec![0; STAGES_BYTES] };
        let mut name = generate::stage_name(random);
        if random.chance(15) {
            let wrong = random.pick(&WrongName::ALL);
            name = generate::wrong_name(random, wrong, &name);
            // No argument has a byte 0.
            name.retain(|&byte| byte != 0);
        }
        let action = random.pick(&[None, Some("keep"), Some("keep"), Some("return")]);
        let mut words = vec![OsString::from("stage"), OsString::from(".")];
        if let Some(action) = action {
            words.push(action.into());
            // A name that looks like an option stands behind two dashes.
            words.push("--".into());
            words.push(OsString::from_vec(name.clone()));
        }
        let base = folder("staged", &files);
        let output = run_in(&base, &words);
        let after = stages_in(&base);
        let of_json = folder("staged_json", &files);
        words.insert(1, "--json".into());
        json.extend(run_in(&of_json, &words).stdout);
        assert!(stages_in(&of_json) == after, "case {case}");
        let unchanged = is_there.then(|| content.clone());
        if length != STAGES_BYTES && is_there || program.is_none() && action == Some("keep") {
            assert_eq!((status(&output), printed(&output).as_str()), (2, ""), "case {case}");
            assert!(after == unchanged, "case {case}");
            texts.push(String::new());
            met.met("unread");
            if length != STAGES_BYTES && is_there {
                assert!(said(&output).contains("expected a file of 280,000 bytes, or none\n"));
                met.met("of another length");
            }
            if program.is_none() && action == Some("keep") {
                assert!(said(&output).contains("./given: the caller: can't be read: "));
                met.met("no program");
            }
            continue;
        }
        let mut left = before.clone();
        let answer = match action {
            None => Ok(listed(&before)),
            Some("keep") => {
                let program = program.as_deref().unwrap_or_default();
                stages::keep(&mut left, &name, program)
                    .map(|place| line(place as usize, &name, program))
            }
            _ => {
                let mut text = vec![0; TEXT_BYTES];
                stages::go_back(&before, &name, &mut text)
                    .map(|bytes| String::from_utf8_lossy(&text[..bytes as usize]).into_owned())
            }
        };
        match answer {
            Ok(text) => {
                assert_eq!((status(&output), said(&output).as_str()), (0, ""), "case {case}");
                assert_eq!(printed(&output), text, "case {case}");
                texts.push(text);
                let kept = ["kept in a new file", "kept in a file that was there"];
                met.met(match action {
                    None => "listed",
                    Some("keep") => kept[usize::from(is_there)],
                    _ => "returned",
                });
            }
            Err(number) => {
                assert_eq!((status(&output), printed(&output).as_str()), (1, ""), "case {case}");
                let (start, class) = match number {
                    23 => ("NAME: who names stages: ", "refused 23"),
                    24 => ("./stages: who names stages: ", "refused 24"),
                    25 => ("./stages: who names stages: ", "refused 25"),
                    _ => ("./given", "refused 2 to 5"),
                };
                assert!(said(&output).starts_with(start), "case {case}: {}", said(&output));
                met.met(class);
                texts.push(format!("refused {number}\n"));
            }
        }
        let is_kept = action == Some("keep") && status(&output) == 0;
        assert!(after == if is_kept { Some(left) } else { unchanged }, "case {case}");
    }
    assert_eq!(told_again(&json), texts);
    met.report();
}

/// A folder with P, and stages where P is kept under these names.
fn ready(name: &str, names: &[&str]) -> PathBuf {
    let base = folder(name, &[("given", P.as_bytes())]);
    let mut bytes = vec![0; STAGES_BYTES];
    for name in names {
        stages::keep(&mut bytes, name.as_bytes(), P.as_bytes()).expect("it is kept");
    }
    if !names.is_empty() {
        fs::write(base.join("stages"), bytes).expect("a file is written");
    }
    base
}

const EIGHT: [&str; 8] = ["one", "two", "three", "four", "five", "six", "seven", "eight"];

#[test]
fn p_is_kept_and_returned() {
    let base = ready("first", &[]);
    let output = run_in(&base, &["stage", "."]);
    assert_eq!((status(&output), printed(&output).as_str()), (0, "stages 0 empty 8\n"));
    // A list and a return leave no file where there was none.
    let output = run_in(&base, &["stage", ".", "return", "first"]);
    let none = "./stages: who names stages: a name that no place holds; expected a name that a place holds, of which there is none, \
                found `first`\n";
    assert_eq!((status(&output), printed(&output).as_str(), said(&output).as_str()), (1, "", none));
    holds(&base, &["given"]);
    let output = run_in(&base, &["stage", ".", "keep", "first"]);
    let kept = "place 1 name first lines 8 bytes 101\n";
    assert_eq!((status(&output), printed(&output).as_str(), said(&output).as_str()), (0, kept, ""));
    holds(&base, &["given", "stages"]);
    let bytes = stages_in(&base).expect("there is one");
    assert_eq!((bytes.len(), &bytes[..10]), (STAGES_BYTES, &b"first\0\0\0\x65\0"[..]));
    assert_eq!(bytes[10..111], *P.as_bytes());
    assert!(bytes[111..].iter().all(|&byte| byte == 0));
    let output = run_in(&base, &["stage", ".", "return", "first"]);
    assert_eq!((status(&output), printed(&output).as_str()), (0, P));
    // The given program goes another way, and comes back.
    fs::write(base.join("given"), "read i0\nwrite i0\n").expect("a file is written");
    assert_eq!(status(&run_in(&base, &["stage", ".", "keep", "short"])), 0);
    let output = run_in(&base, &["stage", ".", "return", "first", "-o", "given"]);
    assert_eq!((status(&output), printed(&output).as_str()), (0, "lines 8 bytes 101\n"));
    assert_eq!(fs::read_to_string(base.join("given")).expect("a file is read"), P);
    let output = run_in(&base, &["stage", "."]);
    let list = format!("{kept}place 2 name short lines 2 bytes 17\nstages 2 empty 6\n");
    assert_eq!((status(&output), printed(&output)), (0, list));
    let output = run_in(&base, &["stage", ".", "--json"]);
    let object = r#"{"call":"stage","folder":".","status":0,"faults":[],"action":"list","stages":[{"place":1,"name":"first","lines":8,"bytes":101},{"place":2,"name":"short","lines":2,"bytes":17}],"empty":6}"#;
    assert_eq!(printed(&output), format!("{object}\n"));
    holds(&base, &["given", "stages"]);
}

#[test]
fn refusals_in_words() {
    let name = "NAME: who names stages: a stage's name that isn't 1 to 8 lower-case letters; expected 1 to 8 lower-case letters, found";
    let known = "expected a name that a place holds, one of";
    let eight = "`one` `two` `three` `four` `five` `six` `seven` `eight`";
    let few = "`one` `two`";
    for (names, action, given, words) in [
        (&EIGHT[..2], "keep", "First", format!("{name} `First`")),
        (&EIGHT[..], "keep", "", format!("{name} ``")),
        (&EIGHT[..], "return", "abcdefghi", format!("{name} `abcdefghi`")),
        (&EIGHT[..2], "return", "one\n", format!("{name} `one\\n`")),
        (
            &EIGHT[..],
            "keep",
            "nine",
            format!("./stages: who names stages: a new name, and all eight places hold others; {known} {eight}, found `nine`"),
        ),
        (
            &EIGHT[..2],
            "return",
            "nine",
            format!("./stages: who names stages: a name that no place holds; {known} {few}, found `nine`"),
        ),
    ] {
        let base = ready("refused_stage", names);
        let before = stages_in(&base);
        fs::write(base.join("new"), "old").expect("a file is written");
        let output = run_in(&base, &["stage", ".", action, given]);
        assert_eq!((status(&output), said(&output)), (1, format!("{words}\n")));
        assert_eq!(printed(&output), "");
        if action == "return" {
            let output = run_in(&base, &["stage", ".", action, given, "-o", "new"]);
            assert_eq!(said(&output), format!("{words}\nnew: not written, for the reason above\n"));
            assert_eq!(fs::read(base.join("new")).expect("a file is read"), b"old");
        }
        assert!(stages_in(&base) == before);
    }
    // The program is looked at before the name.
    let base = ready("refused_stage", &EIGHT);
    fs::write(base.join("given"), "").expect("a file is written");
    let output = run_in(&base, &["stage", ".", "keep", "First"]);
    let words = "./given: the author of the shift program: under 2 or over 1,024 lines; expected 2 to 1,024 lines, found 0 lines\n";
    assert_eq!((status(&output), said(&output).as_str()), (1, words));
}

/// Another length is told, and nothing is written.
#[test]
fn files_of_another_length() {
    for (length, words) in [
        (0, "0 bytes"),
        (279_999, "279,999 bytes"),
        (280_001, "over 280,000 bytes"),
        (1_000_000, "over 280,000 bytes"),
    ] {
        let base = folder("lengths", &[("given", P.as_bytes()), ("stages", &vec![0; length])]);
        for words_of in
            [&["stage", "."][..], &["stage", ".", "keep", "a"], &["stage", ".", "return", "a"]]
        {
            let output = run_in(&base, words_of);
            let expected = format!("./stages: the caller: can't be read: {words}; expected a file of 280,000 bytes, or none\n");
            assert_eq!((status(&output), said(&output)), (2, expected));
            assert_eq!(printed(&output), "");
            assert_eq!(stages_in(&base).map(|bytes| bytes.len()), Some(length));
        }
    }
    // What can't be read is told beside a program that isn't there.
    let base = folder("lengths", &[]);
    fs::create_dir(base.join("stages")).expect("a folder is made");
    let output = run_in(&base, &["stage", ".", "keep", "a"]);
    let words = "./stages: the caller: can't be read: Is a directory; expected a file of 280,000 bytes, or none\n\
                 ./given: the caller: can't be read: No such file or directory; expected a file of at most 65,535 bytes\n";
    assert_eq!((status(&output), said(&output).as_str()), (2, words));
    let output = run_in(&base, &["stage", "nowhere"]);
    let words = "nowhere: the caller: No such file or directory; expected a folder with stages in `stages`\n";
    assert_eq!((status(&output), said(&output).as_str()), (2, words));
}

#[test]
fn permissions_and_links_stay() {
    let base = ready("kept_stages", &["one"]);
    fs::rename(base.join("stages"), base.join("elsewhere")).expect("it is moved");
    fs::set_permissions(base.join("elsewhere"), Permissions::from_mode(0o640))
        .expect("they are set");
    symlink("elsewhere", base.join("stages")).expect("a link is made");
    assert_eq!(status(&run_in(&base, &["stage", ".", "keep", "two"])), 0);
    assert!(fs::symlink_metadata(base.join("stages")).expect("a link").file_type().is_symlink());
    let there = fs::metadata(base.join("elsewhere")).expect("a file");
    assert_eq!((there.permissions().mode() & 0o7777, there.len()), (0o640, 280_000));
    assert_eq!(printed(&run_in(&base, &["stage", "."])).lines().last(), Some("stages 2 empty 6"));
    holds(&base, &["elsewhere", "given", "stages"]);
}

/// The command under a limit on the size of files, which ends it by a signal, or fails the write where the signal is ignored.
fn limited(base: &Path, ignored: &str) -> Output {
    Command::new("bash")
        .args(["-c", "trap \"$2\" XFSZ; ulimit -f 8; exec \"$1\" stage . keep two", "bash"])
        .arg(env!("CARGO_BIN_EXE_rewrites"))
        .arg(ignored)
        .current_dir(base)
        .output()
        .expect("bash runs")
}

/// After a few of the 280,000 bytes are written.
#[test]
fn a_crash_leaves_the_old_file() {
    const SIGXFSZ: i32 = 25;
    for names in [&["one"][..], &[]] {
        let base = ready("crash_stages", names);
        let before = stages_in(&base);
        assert_eq!(status(&limited(&base, "-")), -SIGXFSZ);
        assert!(stages_in(&base) == before);
        let base = ready("crash_stages", names);
        let output = limited(&base, "");
        assert_eq!((status(&output), said(&output).as_str()), (3, "./stages: File too large\n"));
        assert_eq!(printed(&output), "");
        assert!(stages_in(&base) == before);
        holds(&base, if names.is_empty() { &["given"] } else { &["given", "stages"] });
    }
}

/// A disk that is full, that loses what was written, and that has no room for the new name; and a file that breaks off.
#[test]
fn faults_of_the_disk() {
    let library = faults("stage");
    let faulty = |base: &Path, fault: &str, place: &str| {
        rewrites()
            .args(["stage", ".", "keep", "two"])
            .current_dir(base)
            .env("LD_PRELOAD", &library)
            .envs([("FAULT", fault), ("PLACE", place)])
            .output()
            .expect("the command runs")
    };
    for (fault, place, reason) in [
        ("write", "/.rewrites-", "No space left on device"),
        ("fsync", "/.rewrites-", "Input/output error"),
        ("rename", "stages", "Disk quota exceeded"),
    ] {
        let base = ready("faulty_stages", &["one"]);
        let before = stages_in(&base);
        let output = faulty(&base, fault, place);
        assert_eq!(
            (status(&output), said(&output)),
            (3, format!("./stages: {reason}\n")),
            "{fault}"
        );
        assert_eq!(printed(&output), "", "{fault}");
        assert!(stages_in(&base) == before, "{fault}");
        holds(&base, &["given", "stages"]);
    }
    let base = ready("faulty_stages", &["one"]);
    let before = stages_in(&base);
    let output = faulty(&base, "read", "/stages");
    assert!(said(&output).starts_with("./stages: the caller: can't be read: Input/output error; "));
    assert_eq!(status(&output), 2);
    assert!(stages_in(&base) == before);
    let output = faulty(&base, "none", "/");
    assert_eq!(
        (status(&output), printed(&output).as_str()),
        (0, "place 2 name two lines 8 bytes 101\n")
    );
}

#[test]
fn output_that_is_not_written() {
    let base = ready("unwritten_stages", &["one"]);
    let full = "No space left on device";
    for words in [&["stage", "."][..], &["stage", ".", "return", "one"]] {
        let device = File::options().write(true).open("/dev/full").expect("there is /dev/full");
        let output = rewrites()
            .args(words)
            .current_dir(&base)
            .stdout(device)
            .output()
            .expect("the command runs");
        assert_eq!((status(&output), said(&output)), (3, format!("standard output: {full}\n")));
    }
    let output = run_in(&base, &["stage", ".", "return", "one", "-o", "/dev/full"]);
    assert_eq!((status(&output), said(&output)), (3, format!("/dev/full: {full}\n")));
}

/// The example's stages: its program, and what its marks make of it, one round after the other.
#[test]
fn the_example() {
    let base = example("slip");
    let read = |file: &str| fs::read_to_string(base.join(file)).expect("a file is read");
    let output = run_in(&base, &["stage", "."]);
    assert_eq!((status(&output), printed(&output)), (0, read("expected_stages")));
    let back = |name: &str| {
        let output = run_in(&base, &["stage", ".", "return", name]);
        assert_eq!((status(&output), said(&output).as_str()), (0, ""));
        printed(&output)
    };
    assert_eq!(back("given"), read("given"));
    // Each stage is the next round's given program.
    for (from, list, to) in
        [("given", read("marks"), "once"), ("once", read("marks_once"), "twice")]
    {
        let round =
            folder("round", &[("given", back(from).as_bytes()), ("marks", list.as_bytes())]);
        assert_eq!(status(&run_in(&round, &["check", ".", "-o", "new"])), 0);
        assert_eq!(
            fs::read_to_string(round.join("new")).expect("a file is read"),
            back(to),
            "{to}"
        );
    }
    // All run alike.
    let ran = |name: &str| {
        let (program, start) = (back(name), read("start"));
        let run =
            folder("run_stage", &[("given", program.as_bytes()), ("start", start.as_bytes())]);
        let text = printed(&run_in(&run, &["run", "."]));
        let words: Vec<String> = text.split(' ').map(str::to_string).collect();
        let at = words.iter().position(|word| word == "ticks").expect("ticks");
        // Ticks may differ.
        [&words[..at], &words[at + 2..]].concat()
    };
    assert!(ran("given")[0] == "ended");
    assert_eq!(ran("given"), ran("once"));
    assert_eq!(ran("given"), ran("twice"));
    let bytes = stages_in(&base).expect("a file is read");
    assert_eq!((bytes.len(), bytes.len() / PLACES), (280_000, PLACE_BYTES));
}
