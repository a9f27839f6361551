//! The examples of README.md and docs/REFERENCE.md are what the command prints.

mod shell;

use shell::{printed, run_in, said};
use std::fs;
use std::path::Path;

/// What stands below the line of a command, up to a line that isn't indented or the next command.
fn examples(text: &str) -> Vec<(String, String)> {
    let mut examples: Vec<(String, String)> = Vec::new();
    let mut is_open = false;
    for line in text.lines() {
        match (line.strip_prefix("    $ "), line.strip_prefix("    ")) {
            (Some(command), _) => {
                is_open = command.starts_with("rewrites ");
                if is_open {
                    examples.push((command.to_string(), String::new()));
                }
            }
            (None, Some(printed)) if is_open => {
                if let Some((_, expected)) = examples.last_mut() {
                    *expected += &format!("{printed}\n");
                }
            }
            _ => is_open = false,
        }
    }
    examples
}

#[test]
fn examples_are_what_is_printed() {
    let root = Path::new(env!("CARGO_MANIFEST_DIR")).join("..");
    for (document, least) in [("README.md", 2), ("docs/REFERENCE.md", 4)] {
        let text = fs::read_to_string(root.join(document)).expect("a document is read");
        let examples = examples(&text);
        assert!(examples.len() >= least, "{document}");
        for (command, expected) in examples {
            let words: Vec<&str> = command.split(' ').skip(1).collect();
            let output = run_in(&root, &words);
            // Two points stand for numbers like those before them.
            let printed = match expected.split_once(",..") {
                Some((start, end)) => {
                    let (first, rest) = (printed(&output), end.trim_start_matches(']'));
                    assert!(first.starts_with(start) && first.ends_with(rest), "{command}");
                    expected.clone()
                }
                None => printed(&output),
            };
            assert_eq!((printed, said(&output)), (expected, String::new()), "{command}");
        }
    }
}

/// The last cell of each row of a table, as code.
fn last_cells(text: &str) -> Vec<String> {
    let rows = text.lines().filter_map(|line| line.strip_prefix("| ")?.strip_suffix("` |"));
    let cell = |row: &str| row.rsplit_once("| `").map(|(_, cell)| cell.replace("\\|", "|"));
    rows.filter_map(cell).collect()
}

#[test]
fn conditions_of_the_reference_are_taken() {
    let root = Path::new(env!("CARGO_MANIFEST_DIR")).join("..");
    let text = fs::read_to_string(root.join("docs/REFERENCE.md")).expect("the reference is read");
    let (_, behind) = text.split_once("\n## Conditions\n").expect("the section");
    let (section, _) = behind.split_once("\n## ").expect("the next section");
    let conditions = last_cells(section);
    assert_eq!(conditions.len(), 29);
    for condition in conditions {
        let output = run_in(&root, &["tabulate", "examples/p", "--condition", &condition]);
        assert!(output.status.success(), "{condition}: {}", said(&output));
    }
}
