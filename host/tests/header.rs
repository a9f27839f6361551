//! `include/rewrites.h`: a C program over it and README's lines, compiled as C and as C++, linked and run; its numbers are this crate's.

mod common;

use common::{compiled, installed, linked_by, P};
use rewrites::{Arm, Culprit, Refusal, Verdict};
use std::collections::BTreeMap;
use std::path::{Path, PathBuf};
use std::process::Command;
use std::{env, fs};

/// A file of the repository.
fn file(name: &str) -> PathBuf {
    Path::new(env!("CARGO_MANIFEST_DIR")).join("..").join(name)
}

fn read(name: &str) -> String {
    fs::read_to_string(file(name)).expect("the file is read")
}

fn succeeds(program: PathBuf) {
    assert!(Command::new(&program).status().expect("the program runs").success(), "{program:?}");
}

/// Compiles a C file as C++, where a compiler for it is installed, and runs it.
fn succeeds_in_cpp(name: &str, source: PathBuf) {
    if !installed("c++") {
        println!("no c++ is installed: {name} isn't compiled as C++");
        return;
    }
    succeeds(linked_by("c++", &["-std=c++11", "-x", "c++"], name, &[source]));
}

#[test]
fn a_c_program_calls_the_library_through_its_header() {
    succeeds(compiled("header"));
}

#[test]
fn the_same_program_is_cpp() {
    succeeds_in_cpp("header_cpp", file("host/tests/header.c"));
}

/// The header says that there is no state: the archive has neither data that can be written nor room for it.
#[test]
fn the_library_has_no_state() {
    let told = Command::new("size").arg(env!("REWRITES_ARCHIVE")).output().expect("size runs");
    let told = String::from_utf8(told.stdout).expect("size prints text");
    let mut lines = told.lines().map(|line| line.split_whitespace().collect::<Vec<_>>());
    assert_eq!(lines.next().expect("a heading")[1..3], ["data", "bss"]);
    let objects: Vec<_> = lines.collect();
    assert!(
        !objects.is_empty() && objects.iter().all(|object| object[1..3] == ["0", "0"]),
        "{told}"
    );
}

/// README's lines behind `From C`, without their indent.
fn snippet() -> Vec<String> {
    let readme = read("README.md");
    let lines = readme.lines().skip_while(|line| !line.starts_with("From C "));
    let lines = lines.skip_while(|line| !line.starts_with("    "));
    lines.take_while(|line| line.starts_with("    ")).map(|line| line[4..].to_string()).collect()
}

/// A C string with these bytes.
fn quoted(text: &str) -> String {
    format!("\"{}\"", text.replace('\n', "\\n"))
}

/// README's lines as a program, between the texts that README speaks of and what it says of the answers. It exits with 0 where these
/// are right and no call was refused.
fn snippet_program() -> String {
    let texts = [
        ("text", "length", P),
        ("condition", "condition_length", "E[!def(i2) U use(i2)]"),
        ("conditions", "conditions_length", "use(i2)\nE[!def(i2) U use(i2)]\nEX use(i2)\n"),
        ("list", "list_length", "4: mark(rpl, i2, 7)\n3: mark(rm, i2, 7)\n"),
        ("buyers", "buyers_length", "1\n2\n3\n4\n5\n6\n7\n8\n9\n10\n11\n"),
        ("road", "road_length", "read i0\ni1 := i0 + 1\nwrite i1\n"),
        ("creeper", "creeper_length", "read i2\nif i2 goto 3 else 4\ni1 := i1 * i2\nwrite i1\n"),
    ];
    let mut program =
        "#include \"rewrites.h\"\nint main(void) {\nunsigned refused = 0;\n".to_string();
    for (name, length, text) in texts {
        let value = quoted(text);
        program += &format!("const uint8_t *{name} = (const uint8_t *){value};\n");
        program += &format!("const size_t {length} = sizeof({value}) - 1;\n");
    }
    let (mut calls, mut checks) = (0, 0);
    for line in snippet() {
        if line.starts_with("rewrites_") && !line.starts_with("rewrites_our_prices(") {
            calls += 1;
            program += "refused |= ";
        }
        program += &line;
        program += "\n";
        // What is told is right where it is told: a later call may set the same place.
        if let Some((_, told)) = line.split_once("/* 0") {
            let told = told.trim_start_matches([';', ':']).trim_end_matches("*/").trim();
            checks += 1;
            program += &format!("if (!({})) return {checks};\n", held(told));
        }
    }
    assert_eq!((calls, checks), (15, 15));
    program + "return refused ? 100 : 0;\n}\n"
}

/// What README's words behind a call say in C.
fn held(told: &str) -> &'static str {
    match told {
        "REWRITES_ENDED, 9, 12, 36" => {
            "ended == REWRITES_ENDED && value == 9 && steps == 12 && ticks == 36"
        }
        "4, 4, 4" => "parts == 4 && satisfied == 4 && first == 4",
        "5 6 7 4, turn 0" => {
            "path_length == 4 && path[0] == 5 && path[1] == 6 && path[2] == 7 && path[3] == 4 && turn == 0"
        }
        "5, 3" => "tables == 5 && lines == 3",
        "1, 1, 8" => "parts == 1 && satisfied == 1 && first == 8",
        "2, 1, 100" => "marks == 2 && accepted == 1 && bytes == 100",
        "REWRITES_UNMET, 3 4, REWRITES_USED" => {
            "verdict == REWRITES_UNMET && path_length == 2 && path[0] == 3 && path[1] == 4 && culprit == REWRITES_USED"
        }
        "8, 24, 24, 0" => "statements == 8 && given == 24 && rewritten == 24 && saved == 0",
        "his are in force" => {
            "prices[REWRITES_KIND_READ] == 1 && prices[REWRITES_KIND_DIVIDE] == 11"
        }
        "20, 39" => "begin == 20 && end == 39",
        "defined[0] 2" => "defined[0] == 2",
        "used[2] 0" => "used[2] == 0",
        "6, 73" => "statements == 6 && bytes == 73",
        "1" => "place == 1",
        "101" => "bytes == 101",
        other => panic!("README's `{other}` isn't known here"),
    }
}

#[test]
fn readmes_lines_are_c_and_cpp() {
    let source = Path::new(env!("CARGO_TARGET_TMPDIR")).join("snippet.c");
    fs::write(&source, snippet_program()).expect("the file is written");
    succeeds(linked_by("cc", &["-std=c99"], "snippet", &[source.clone()]));
    succeeds_in_cpp("snippet_cpp", source);
}

/// The header's names with their numbers: those of `#define`, and those of enums.
fn numbers() -> BTreeMap<String, u64> {
    let mut numbers = BTreeMap::new();
    for line in read("include/rewrites.h").lines() {
        let words: Vec<&str> = line.split_whitespace().collect();
        if let ["#define", name, number, ..] = words[..] {
            let number = number.trim_start_matches("UINT32_C(").trim_end_matches(')');
            if let Ok(number) = number.parse() {
                numbers.insert(name.to_string(), number);
            }
        }
        let listed = line.split_once('{').map_or(line, |(_, listed)| listed);
        for item in listed.split(',') {
            let words: Vec<&str> = item.split_whitespace().collect();
            if let [name, "=", number, ..] = words[..] {
                if let (true, Ok(number)) = (name.starts_with("REWRITES_"), number.parse()) {
                    numbers.insert(name.to_string(), number);
                }
            }
        }
    }
    numbers
}

/// `ConditionLength` as `REWRITES_CONDITION_LENGTH`.
fn name_in_c(variant: &str) -> String {
    let mut name = "REWRITES".to_string();
    for letter in variant.chars() {
        if letter.is_ascii_uppercase() {
            name.push('_');
        }
        name.push(letter.to_ascii_uppercase());
    }
    name
}

#[test]
fn the_headers_sizes_are_this_crates() {
    let numbers = numbers();
    let expected = [
        ("STATEMENTS", rewrites::STATEMENTS),
        ("TEXT_BYTES", rewrites::TEXT_BYTES),
        ("VARIABLES", rewrites::VARIABLES),
        ("FIRST_KEPT", rewrites::FIRST_KEPT),
        ("KEPT", rewrites::KEPT),
        ("MOST_STEPS", rewrites::MOST_STEPS as usize),
        ("KINDS", rewrites::KINDS),
        ("MOST_PRICE", rewrites::MOST_PRICE as usize),
        ("CONDITION_BYTES", rewrites::CONDITION_BYTES),
        ("PARTS", rewrites::PARTS),
        ("PART_WORDS", rewrites::PART_WORDS),
        ("TABLE_WORDS", rewrites::TABLE_WORDS),
        ("PATH_WORDS", rewrites::PATH_WORDS),
        ("REVIEW_LINES", rewrites::REVIEW_LINES),
        ("REVIEW_TABLES", rewrites::REVIEW_TABLES),
        ("REVIEW_WORDS", rewrites::REVIEW_WORDS),
        ("LIST_WORDS", rewrites::LIST_WORDS),
        ("MARKS", rewrites::MARKS),
        ("VERDICT_BYTES", rewrites::VERDICT_BYTES),
        ("PLACES", rewrites::PLACES),
        ("PLACE_BYTES", rewrites::PLACE_BYTES),
        ("STAGES_BYTES", rewrites::STAGES_BYTES),
        ("NAME_BYTES", rewrites::NAME_BYTES),
        ("STACK_BYTES", rewrites::STACK_BYTES),
        ("UNFORCED", rewrites::UNFORCED as usize),
    ];
    for (name, size) in expected {
        assert_eq!(numbers.get(&format!("REWRITES_{name}")), Some(&(size as u64)), "{name}");
    }
    // No macro of the header is left out: the others are the version and its three numbers.
    let header = read("include/rewrites.h");
    let macros = header.lines().filter(|line| line.starts_with("#define REWRITES_"));
    assert_eq!(macros.filter(|line| *line != "#define REWRITES_H").count(), expected.len() + 4);
    let version = ["MAJOR", "MINOR", "PATCH"]
        .map(|part| numbers[&format!("REWRITES_VERSION_{part}")].to_string());
    assert_eq!(version.join("."), env!("CARGO_PKG_VERSION"));
    let [major, minor, patch] = version.map(|part| part.parse::<u32>().expect("a number"));
    assert_eq!(rewrites::version(), major * 10_000 + minor * 100 + patch);
}

#[test]
fn the_headers_refusals_verdicts_arms_and_culprits_are_this_crates() {
    let numbers = numbers();
    for refusal in Refusal::ALL {
        // The name of a size is taken.
        let name = match refusal {
            Refusal::ReviewLines => "REWRITES_REVIEW_LINE_COUNT".to_string(),
            _ => name_in_c(&format!("{refusal:?}")),
        };
        assert_eq!(numbers.get(&name), Some(&u64::from(refusal.number())), "{name}");
    }
    for verdict in Verdict::ALL {
        let name = name_in_c(&format!("{verdict:?}"));
        assert_eq!(numbers.get(&name), Some(&u64::from(verdict.number())), "{name}");
    }
    for culprit in Culprit::ALL {
        let name = name_in_c(&format!("{culprit:?}"));
        assert_eq!(numbers.get(&name), Some(&u64::from(culprit.number())), "{name}");
    }
    for arm in [Arm::Goto, Arm::Else] {
        assert_eq!(numbers.get(&name_in_c(&format!("{arm:?}"))), Some(&(arm as u64)));
    }
}
