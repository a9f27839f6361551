//! `rewrites price` on random folders, held to the second implementation: its text, and its JSON as Python reads it; and the tables of
//! `examples/prices.txt`.
//!
//! `DIFFERENTIAL_SEED` and `COMMAND_CASES` choose other cases, and how many there are.

#[path = "../../host/tests/common/mod.rs"]
mod common;
#[path = "../../host/tests/coverage/mod.rs"]
mod coverage;
mod shell;

use common::{option, P};
use coverage::Tally;
use oracle::check::LARGEST_FILE;
use oracle::generate::Random;
use oracle::{desk, folder as random_folder};
use shell::{example, folder, printed, run_in, said, status, told_again};
use std::fs;

const CASES: u64 = 1_000;

/// Document 01's marks.
const MARKS: &[u8] = b"4: mark(rpl, i2, 7)\n3: mark(rm, i2, 7)\n4: mark(rpl, i1, i0)\n\
    6: mark(rm, i0, 1)\n9: mark(rm, i2, 7)\n";

/// The prices 1 to 11.
const COUNTED: &[u8] = b"1\n2\n3\n4\n5\n6\n7\n8\n9\n10\n11\n";

/// Whose file is told, and how it is called, where a call is refused so.
fn blamed(number: &str) -> (&'static str, &'static str) {
    match number {
        "19" | "20" => ("prices", "the buyer"),
        "9" | "10" => ("marks", "the optimiser"),
        "start" => ("start", "the start"),
        "15" => ("start", "the host program"),
        _ => ("given", "the author of the shift program"),
    }
}

#[test]
fn prices_are_as_by_the_oracle() {
    #[rustfmt::skip]
    let classes = ["report", "runs", "unread", "start", "2", "3", "4", "5", "9", "10", "15", "19", "20"];
    let mut met = Tally::new("folders priced", classes);
    let mut saved = Tally::new("ticks saved", ["below zero", "none", "above zero"]);
    let (mut json, mut texts) = (Vec::new(), Vec::new());
    let seed = Random::new(option("DIFFERENTIAL_SEED", 1) ^ 80).bits();
    for case in 0..option("COMMAND_CASES", CASES) {
        let random = &mut Random::new(seed ^ case);
        let [given, list] = random_folder::checked(random);
        let prices = Some(random_folder::prices(random)).filter(|_| !random.chance(2));
        let start = random.chance(70).then(|| random_folder::start(random));
        let contents =
            [("given", &given), ("marks", &list), ("prices", &prices), ("start", &start)];
        let files: Vec<(&str, &[u8])> = contents
            .into_iter()
            .filter_map(|(name, bytes)| Some((name, &bytes.as_ref()?[..])))
            .collect();
        let base = folder("priced", &files);
        let output = run_in(&base, &["price", "."]);
        json.extend(run_in(&base, &["price", ".", "--json"]).stdout);
        let is_long = files.iter().any(|(_, bytes)| bytes.len() > LARGEST_FILE);
        let expected = match (&given, &list, &prices) {
            (Some(given), Some(list), Some(prices)) if !is_long => {
                desk::price(given, list, prices, start.as_deref())
            }
            _ => {
                assert_eq!((status(&output), printed(&output).as_str()), (2, ""), "case {case}");
                assert_eq!(said(&output).lines().count(), 1, "case {case}");
                met.met("unread");
                texts.push(String::new());
                continue;
            }
        };
        match expected.strip_prefix("refused ").and_then(|rest| rest.split_once('\n')) {
            Some((number, _)) => {
                assert_eq!((status(&output), printed(&output).as_str()), (1, ""), "case {case}");
                let ((file, whose), said) = (blamed(number), said(&output));
                assert!(said.starts_with(&format!("./{file}:")), "case {case}: {said}");
                assert!(said.contains(&format!(": {whose}: ")), "case {case}: {said}");
                texts.push(format!("refused {number}\n"));
                met.met(classes.into_iter().find(|&class| class == number).unwrap_or("?"));
            }
            None => {
                assert_eq!(printed(&output), expected, "case {case}");
                assert_eq!((status(&output), said(&output).as_str()), (0, ""), "case {case}");
                let is_total = |line: &&str| !line.contains(' ');
                let total = expected.lines().filter(is_total).nth(2).expect("a third total");
                saved.met(match total.parse::<i64>().expect("a number").signum() {
                    -1 => "below zero",
                    0 => "none",
                    _ => "above zero",
                });
                met.met(if start.is_some() { "runs" } else { "report" });
                texts.push(expected);
            }
        }
    }
    assert_eq!(told_again(&json), texts);
    met.report();
    saved.report();
}

/// The folders of the examples that have a buyer's prices, and what is printed of them.
#[test]
fn the_examples() {
    for name in ["p", "slip"] {
        let base = example(name);
        let expected = fs::read_to_string(base.join("expected_price")).expect("a file is read");
        let output = run_in(&base, &["price", "."]);
        assert_eq!((status(&output), printed(&output)), (0, expected), "{name}");
        assert_eq!(said(&output), "");
    }
}

/// The cases of `examples/prices.txt`.
#[test]
fn the_tables_of_the_examples() {
    let text = fs::read_to_string(example("prices.txt")).expect("a file is read");
    let mut cases = 0;
    for case in text.split("\n== ").skip(1) {
        let part = |name: &str| {
            let (_, rest) = case.split_once(&format!("\n-- {name}\n"))?;
            let end = ["\n-- ", "\n\n"].iter().filter_map(|end| rest.find(end)).min();
            Some(rest[..end.unwrap_or(rest.len() - 1)].to_string() + "\n")
        };
        let name = case.lines().next().unwrap_or_default();
        let prices = part("prices").expect("a table");
        let start = part("start");
        let mut files =
            vec![("given", P.as_bytes()), ("marks", MARKS), ("prices", prices.as_bytes())];
        files.extend(start.as_ref().map(|start| ("start", start.as_bytes())));
        let output = run_in(&folder("tables", &files), &["price", "."]);
        match part("says") {
            None => {
                let expected = part("prints").expect("what is printed");
                assert_eq!((printed(&output), said(&output)), (expected, String::new()), "{name}");
                assert_eq!(status(&output), 0, "{name}");
            }
            Some(words) => {
                let expected = (String::new(), format!("./{words}"));
                assert_eq!((printed(&output), said(&output)), expected, "{name}");
                assert_eq!(status(&output), 1, "{name}");
            }
        }
        cases += 1;
    }
    assert_eq!(cases, 10);
}

#[test]
fn the_json_of_p() {
    let files = [("given", P.as_bytes()), ("marks", MARKS), ("prices", COUNTED)];
    let output = run_in(&folder("priced_p", &files), &["price", ".", "--json"]);
    let expected = concat!(
        r#"{"call":"price","folder":".","status":0,"faults":[],"table":[1,2,3,4,5,6,7,8,9,10,11],"#,
        r#""prices":{"before":[1,5,5,6,4,7,4,2],"after":[1,5,5,6,4,7,4,2]},"#,
        r#""ticks":{"given":34,"rewritten":34,"saved":0},"runs":null}"#,
        "\n"
    );
    assert_eq!((status(&output), printed(&output).as_str()), (0, expected));
    let files = [files[0], files[1], ("prices", b"4\n"), ("start", b"2\n12\n")];
    let output = run_in(&folder("priced_p", &files), &["price", ".", "--json"]);
    let expected = concat!(
        r#"{"call":"price","folder":".","status":1,"faults":[{"refusal":20,"file":"./prices","line":null,"#,
        r#""whose":"the buyer","words":"other than eleven lines of prices","expected":"the prices of "#,
        r#"`read`, `write`, `skip`, `if`, `X := A`, `+`, `-`, `*`, `<`, `=` and `/`, one a line","found":"1 lines"}]}"#,
        "\n"
    );
    assert_eq!((status(&output), printed(&output).as_str()), (1, expected));
}

/// A table that lines of a file of cases can't show: a line without its byte 10, an empty one, one of many digits, no line.
#[test]
fn wrong_tables_in_words() {
    let digits = "9".repeat(1_000);
    let expected = "expected a whole number from 1 to 65535 without leading zeros, and byte 10";
    let wrong = "the buyer: not such a price, or without its byte 10";
    let eleven = String::from_utf8_lossy(COUNTED).into_owned();
    for (prices, words) in [
        (eleven.trim_end().to_string(), format!(":11: {wrong}; {expected}, found `11`: its byte 10 is missing")),
        (eleven.clone() + "12", format!(":12: {wrong}; {expected}, found `12`: its byte 10 is missing")),
        (eleven.clone() + "\n", format!(":12: {wrong}; {expected}, found ``")),
        (
            eleven.replace("7\n", &format!("{digits}\n")),
            format!(":7: {wrong}; {expected}, found `{}..`", &digits[..80]),
        ),
        (eleven.replace("7\n", "7\r\n"), format!(":7: {wrong}; {expected}, found `7\\r`: a carriage return")),
        (
            String::new(),
            ": the buyer: other than eleven lines of prices; expected the prices of `read`, `write`, \
             `skip`, `if`, `X := A`, `+`, `-`, `*`, `<`, `=` and `/`, one a line, found 0 lines"
                .to_string(),
        ),
    ] {
        let files = [("given", P.as_bytes()), ("marks", MARKS), ("prices", prices.as_bytes())];
        let output = run_in(&folder("wrong_table", &files), &["price", "."]);
        assert_eq!(said(&output), format!("./prices{words}\n"));
        assert_eq!((status(&output), printed(&output).as_str()), (1, ""));
    }
}

/// The table is read first, then the program, the marks and the start.
#[test]
fn the_first_mistake_is_told() {
    let told = |files: [&[u8]; 4]| {
        let names = ["prices", "given", "marks", "start"];
        let files: Vec<(&str, &[u8])> = names.into_iter().zip(files).collect();
        let output = run_in(&folder("mistakes", &files), &["price", "."]);
        assert_eq!((status(&output), printed(&output).as_str()), (1, ""));
        said(&output)
    };
    let p = P.as_bytes();
    assert!(told([b"0\n", b"x", b"x", b"x"]).starts_with("./prices:1: the buyer: "));
    assert!(told([b"", b"x", b"x", b"x"]).starts_with("./prices: the buyer: "));
    let author = "./given:1: the author of the shift program: ";
    assert!(told([COUNTED, b"x", b"x", b"x"]).starts_with(author));
    assert!(told([COUNTED, p, b"x", b"x"]).starts_with("./marks:1: the optimiser: "));
    assert!(told([COUNTED, p, MARKS, b"x"]).starts_with("./start:1: the start: "));
    let budget = "./start:2: the host program: budget over 1,000,000";
    assert!(told([COUNTED, p, MARKS, b"2\n1000001\n"]).starts_with(budget));
}

#[test]
fn missing_files() {
    let reason = "the caller: can't be read: No such file or directory; \
                  expected a file of at most 65,535 bytes\n";
    let files = [("given", P.as_bytes()), ("marks", MARKS), ("prices", COUNTED)];
    for missing in 0..files.len() {
        let mut others = files.to_vec();
        let (name, _) = others.remove(missing);
        let output = run_in(&folder("priceless", &others), &["price", "."]);
        assert_eq!(said(&output), format!("./{name}: {reason}"));
        assert_eq!((status(&output), printed(&output).as_str()), (2, ""));
    }
    let output = run_in(&folder("priceless", &[]), &["price", "nowhere"]);
    let expected = "nowhere: the caller: No such file or directory; expected a folder with \
                    a program in `given`, a list of marks in `marks` and prices in `prices`\n";
    assert_eq!((status(&output), said(&output).as_str()), (2, expected));
}
