//! Random arguments and files: the command ends by itself with one of its statuses, never by a
//! panic, and prints what it says it prints.
//!
//! `DIFFERENTIAL_SEED` and `RANDOM_CASES` choose other cases, and how many there are.

#[path = "../../host/tests/common/mod.rs"]
mod common;
#[path = "../../host/tests/coverage/mod.rs"]
mod coverage;
mod shell;

use common::option;
use coverage::Tally;
use oracle::folder as random_folder;
use oracle::generate::{self, Random};
use shell::{folder, printed, run_in, said, status, told_again};
use std::ffi::OsString;
use std::fs;
use std::os::unix::ffi::OsStringExt;
use std::path::Path;

const CASES: u64 = 3_000;

#[rustfmt::skip]
const WORDS: [&str; 47] = [
    "check", "why", "3", "--at", "--part", "tabulate", "review", "force", "run", "price", "lines", "list", "join", "stage", "keep", "return", "first", "stages", "help", ".", "a", "nowhere", "given", "--json", "--text", "--explain",
    "-o", "new", "--output=new", "-onew", "--condition", "E[", "--driver", "i0 i1", "--input", "-1", "2147483648", "--budget",
    "1000001", "--set", "--set=i64=1", "--", "-", "--help", "-V", "-x", "",
];

/// The options of each call, some of them such that they are refused.
const OPTIONS: [(&str, &[&[&str]]); 11] = [
    ("why", &[&["--json"]]),
    (
        "check",
        &[&["--json"], &["--explain"], &["--text"], &["."], &["a"], &["nowhere"], &["-o", "new"]],
    ),
    (
        "tabulate",
        &[
            &["--json"],
            &["--condition", "EF exit"],
            &["--condition=AG !def(i0)"],
            &["--condition", "E["],
            &["--at", "2"],
            &["--at=1", "--part", "1"],
            &["--at", "90"],
        ],
    ),
    ("review", &[&["--json"]]),
    (
        "force",
        &[
            &["--json"],
            &["--driver", "i0 i3"],
            &["--driver="],
            &["--driver", "i0 i0"],
            &["--condition", "exit"],
            &["--condition", "E["],
        ],
    ),
    (
        "run",
        &[
            &["--json"],
            &["--input", "-7"],
            &["--budget", "300"],
            &["--set", "i3=4"],
            &["--set=i63=-1"],
            &["--budget=1000001"],
        ],
    ),
    ("price", &[&["--json"]]),
    ("lines", &[&["--json"]]),
    ("list", &[&["--json"]]),
    ("join", &[&["--json"], &["-o", "new"]]),
    ("stage", &[&["--json"]]),
];

/// The words of a call, mostly such that it is made, at times damaged or any.
fn words(random: &mut Random) -> Vec<Vec<u8>> {
    let (call, options) = random.pick(&OPTIONS);
    let mut words: Vec<&str> = match call {
        "join" => {
            let road = random.pick(&["given", "given", "a/given", "a"]);
            vec![call, road, random.pick(&["given", "a/given", "a/given", "nowhere"])]
        }
        "why" => {
            let base = random.pick(&[".", ".", ".", "a", "a", "a", "given"]);
            vec![call, base, random.pick(&["1", "1", "2", "3", "4", "11", "0"])]
        }
        "stage" => {
            let mut words = vec![call, random.pick(&[".", ".", "a", "given"])];
            if random.chance(80) {
                words.push(random.pick(&["keep", "return"]));
                words.push(random.pick(&["first", "a", "abcdefgh", "First", ""]));
            }
            words
        }
        _ => vec![call, random.pick(&[".", ".", ".", "a", "a", "a", "given"])],
    };
    for option in options {
        if random.chance(25) {
            words.extend(*option);
        }
    }
    // Three calls write files; to the others the option is unknown.
    if random.chance(if ["check", "join", "stage"].contains(&call) { 20 } else { 5 }) {
        words.extend(["-o", random.pick(&["a", "nowhere/new", "a/given"])]);
    }
    if random.chance(20) {
        for _ in 0..random.below(4) {
            words.insert(random.below(words.len() + 1), random.pick(&WORDS));
        }
    }
    if random.chance(5) {
        random.shuffle(&mut words);
    }
    let mut words: Vec<Vec<u8>> = words.into_iter().map(Vec::from).collect();
    if random.chance(20) {
        let at = random.below(words.len());
        let word = generate::damage(random, &words[at]);
        // No argument has a byte 0, and no file is written outside the folder.
        words[at] = word.into_iter().filter(|byte| !b"\0/".contains(byte)).take(5_000).collect();
    }
    words
}

fn bytes(random: &mut Random) -> Vec<u8> {
    (0..random.below(400)).map(|_| random.bits() as u8).collect()
}

/// Fills a folder, at times with rubbish, with a folder in a file's place or with nothing.
fn fill(random: &mut Random, base: &Path) {
    let (program, given) = random_folder::given(random);
    let list = oracle::marks::text(&generate::marks(random, &program, 10));
    let condition = random_folder::condition(random, &program);
    let conditions = random_folder::conditions(random, &program);
    let start = random_folder::start(random);
    let driver = random_folder::driver(random, &program);
    let prices = random_folder::prices(random);
    let stages = generate::stages(random);
    for (name, content) in [
        ("given", given),
        ("marks", list),
        ("condition", condition),
        ("conditions", conditions),
        ("start", start),
        ("driver", driver),
        ("prices", prices),
        ("stages", stages),
    ] {
        let path = base.join(name);
        let content = match random.below(60) {
            // Stages are many bytes, and few calls read them.
            0 => continue,
            8..=50 if name == "stages" => continue,
            1 => {
                fs::create_dir(path).expect("a folder is made");
                continue;
            }
            2 => bytes(random),
            3 => b"1\n".repeat(500_000),
            4..=7 => generate::damage(random, &content),
            _ => content,
        };
        fs::write(path, content).expect("a file is written");
    }
}

#[test]
fn any_arguments_and_files() {
    let mut statuses = Tally::new("statuses", [0, 1, 2, 3]);
    let mut shapes = Tally::new("outputs", ["JSON", "text", "nothing"]);
    let mut json = Vec::new();
    let seed = Random::new(option("DIFFERENTIAL_SEED", 1) ^ 44).bits();
    for case in 0..option("RANDOM_CASES", CASES) {
        let random = &mut Random::new(seed ^ case);
        let base = folder("random", &[]);
        for inner in [base.clone(), base.join("a")] {
            fs::create_dir_all(&inner).expect("a folder is made");
            fill(random, &inner);
        }
        let words: Vec<OsString> = words(random).into_iter().map(OsString::from_vec).collect();
        let output = run_in(&base, &words);
        let text = printed(&output);
        if status(&output) == 0 {
            assert_eq!(said(&output), "", "case {case}: {words:?}");
            assert_ne!(text, "", "case {case}: {words:?}");
        } else {
            assert_ne!(said(&output), "", "case {case}: {words:?}");
        }
        statuses.met(status(&output));
        if text.starts_with('{') {
            json.extend(&output.stdout);
            shapes.met("JSON");
        } else {
            shapes.met(if text.is_empty() { "nothing" } else { "text" });
        }
    }
    let lines = json.iter().filter(|&&byte| byte == 10).count();
    assert_eq!(told_again(&json).len(), lines);
    statuses.report();
    shapes.report();
}
