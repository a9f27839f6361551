//! `rewrites lines` on random folders, held to the second implementation: its text, and its JSON as
//! Python reads it.
//!
//! `DIFFERENTIAL_SEED` and `COMMAND_CASES` choose other cases, and how many there are.

#[path = "../../host/tests/common/mod.rs"]
mod common;
#[path = "../../host/tests/coverage/mod.rs"]
mod coverage;
mod shell;

use common::option;
use coverage::Tally;
use oracle::check::LARGEST_FILE;
use oracle::folder as random_folder;
use oracle::generate::Random;
use oracle::marks::{self, mark_line};
use shell::{example, folder, printed, run_in, said, status, told_again};
use std::fs;

const CASES: u64 = 600;

/// The lines with their bounds, and the last line of the output; or the refusal.
fn expected(list: &[u8]) -> Result<(Vec<String>, String), u8> {
    let marks = marks::read(list)?;
    let mut lines = Vec::new();
    for (at, mark) in marks.iter().enumerate() {
        let bounds = mark_line(list, at as u32)?;
        lines.push(format!("{} {} {} {mark}\n", at + 1, bounds.start, bounds.end));
    }
    Ok((lines, format!("marks {} bytes {}\n", marks.len(), list.len())))
}

/// A line with single spaces between its numbers, and none before them.
fn unspaced(line: &str) -> String {
    let (numbers, mark) = line.split_at(line.find(':').unwrap_or(0));
    numbers.split_whitespace().collect::<Vec<_>>().join(" ") + mark + "\n"
}

#[test]
fn lines_are_as_by_the_oracle() {
    let mut met = Tally::new("lists", ["taken", "taken of 1,024", "9", "10", "long", "missing"]);
    let (mut json, mut texts) = (Vec::new(), Vec::new());
    let seed = Random::new(option("DIFFERENTIAL_SEED", 1) ^ 54).bits();
    for case in 0..option("COMMAND_CASES", CASES) {
        let random = &mut Random::new(seed ^ case);
        let [_, mut list] = random_folder::checked(random);
        if random.chance(2) {
            list = Some(b"2: mark(rm, i0, 1)\n".repeat(random.pick(&[1_024, 1_024, 1_025])));
        }
        let files: Vec<(&str, &[u8])> = list.iter().map(|bytes| ("marks", &bytes[..])).collect();
        let base = folder("lined", &files);
        let output = run_in(&base, &["lines", "."]);
        json.extend(run_in(&base, &["lines", ".", "--json"]).stdout);
        let list = match list {
            Some(list) if list.len() <= LARGEST_FILE => list,
            other => {
                met.met(if other.is_some() { "long" } else { "missing" });
                assert_eq!((status(&output), printed(&output).as_str()), (2, ""), "case {case}");
                texts.push(String::new());
                continue;
            }
        };
        match expected(&list) {
            Ok((lines, last)) => {
                let text = printed(&output);
                let (told, end) = text.split_at(text.len() - last.len());
                assert_eq!(told.lines().map(unspaced).collect::<Vec<_>>(), lines, "case {case}");
                assert_eq!((end, status(&output)), (&last[..], 0), "case {case}");
                assert_eq!(said(&output), "", "case {case}");
                met.met(if lines.len() == 1_024 { "taken of 1,024" } else { "taken" });
                texts.push(lines.concat() + &last);
            }
            Err(number) => {
                assert_eq!((status(&output), printed(&output).as_str()), (1, ""), "case {case}");
                assert!(said(&output).contains(": the optimiser: "), "case {case}");
                met.met(if number == 9 { "9" } else { "10" });
                texts.push(format!("refused {number}\n"));
            }
        }
    }
    assert_eq!(told_again(&json), texts);
    met.report();
}

#[test]
fn the_lines_of_the_list_of_p() {
    let output = run_in(&example("p"), &["lines", "."]);
    let expected = concat!(
        "   1      0    20  4: mark(rpl, i2, 7)\n",
        "   2     20    39  3: mark(rm, i2, 7)\n",
        "   3     39    60  4: mark(rpl, i1, i0)\n",
        "   4     60    79  6: mark(rm, i0, 1)\n",
        "   5     79    98  9: mark(rm, i2, 7)\n",
        "marks 5 bytes 98\n",
    );
    assert_eq!((status(&output), printed(&output).as_str()), (0, expected));
    let output = run_in(&example("p"), &["lines", ".", "--json"]);
    let expected = concat!(
        r#"{"call":"lines","folder":".","status":0,"faults":[],"marks":5,"bytes":98,"lines":["#,
        r#"{"line":1,"begin":0,"end":20,"mark":"4: mark(rpl, i2, 7)"},"#,
        r#"{"line":2,"begin":20,"end":39,"mark":"3: mark(rm, i2, 7)"},"#,
        r#"{"line":3,"begin":39,"end":60,"mark":"4: mark(rpl, i1, i0)"},"#,
        r#"{"line":4,"begin":60,"end":79,"mark":"6: mark(rm, i0, 1)"},"#,
        r#"{"line":5,"begin":79,"end":98,"mark":"9: mark(rm, i2, 7)"}]}"#,
        "\n",
    );
    assert_eq!((status(&output), printed(&output).as_str()), (0, expected));
}

/// The list alone is read: what `given` holds is no matter.
#[test]
fn no_program_is_needed() {
    for given in [&b""[..], b"rubbish"] {
        let marks = fs::read(example("p").join("marks")).expect("a file is read");
        let base = folder("unprogrammed", &[("given", given), ("marks", &marks)]);
        assert!(printed(&run_in(&base, &["lines", "."])).ends_with("marks 5 bytes 98\n"));
    }
    let base = folder("unprogrammed", &[("marks", b"")]);
    let output = run_in(&base, &["lines", "."]);
    assert_eq!((status(&output), printed(&output).as_str()), (0, "marks 0 bytes 0\n"));
}

/// The longest list, whose numbers are the widest.
#[test]
fn the_longest_list() {
    let mark = "2147483647: mark(cse, i63, -2147483648 + -2147483648)";
    let list = format!("{mark}\n").repeat(1_024);
    let base = folder("longest_lines", &[("marks", list.as_bytes())]);
    let text = printed(&run_in(&base, &["lines", "."]));
    assert!(
        text.ends_with(&format!("1024  55242 55296  {mark}\nmarks 1024 bytes 55296\n")),
        "{text}"
    );
    assert_eq!(text.lines().count(), 1_025);
}

#[test]
fn refused_lists_in_words() {
    let forms = "`n: mark(rm, X, E)`, `n: mark(rpl, X, A)` or `n: mark(cse, T, E)`, and byte 10";
    let misspelled = format!("misspelled, or without its byte 10; expected {forms}, found ");
    let many = "1: mark(rm, i0, 1)\n".repeat(1_025);
    for (list, words) in [
        ("2: mark(rm, i0, 1)\nx\n", format!(":2: the optimiser: {misspelled}`x`")),
        (
            "2: mark(rm, i0, 1)",
            format!(":1: the optimiser: {misspelled}`2: mark(rm, i0, 1)`: its byte 10 is missing"),
        ),
        (
            &many,
            ": the optimiser: over 1,024 lines of marks; expected at most 1,024 lines, found 1,025 lines"
                .to_string(),
        ),
    ] {
        let output =
            run_in(&folder("refused_lines", &[("marks", list.as_bytes())]), &["lines", "."]);
        assert_eq!(said(&output), format!("./marks{words}\n"));
        assert_eq!((status(&output), printed(&output).as_str()), (1, ""));
    }
}

#[test]
fn missing_files() {
    let base = folder("listless", &[("given", b"read i0\nwrite i0\n")]);
    let output = run_in(&base, &["lines", "."]);
    let expected = "./marks: the caller: can't be read: No such file or directory; \
                    expected a file of at most 65,535 bytes\n";
    assert_eq!(said(&output), expected);
    assert_eq!((status(&output), printed(&output).as_str()), (2, ""));
    let output = run_in(&base, &["lines", "nowhere"]);
    let expected = "nowhere: the caller: No such file or directory; \
                    expected a folder with a list of marks in `marks`\n";
    assert_eq!((status(&output), said(&output).as_str()), (2, expected));
}
