//! `rewrites desk` over HTTP: its answers held to what the command prints of the same texts and to the second
//! implementation, what it reads and writes, and whom it refuses.
//!
//! `DIFFERENTIAL_SEED` and `DESK_CASES` choose other cases, and how many there are.

#[path = "../../host/tests/common/mod.rs"]
mod common;
#[path = "../../host/tests/coverage/mod.rs"]
mod coverage;
mod shell;

use common::option;
use coverage::Tally;
use oracle::check::LARGEST_FILE;
use oracle::condition::{stop, MOST_PARTS};
use oracle::desk::{read_start, Start};
use oracle::generate::{self, Random};
use oracle::liveness::Liveness;
use oracle::machine::{self, Outcome, LARGEST_BUDGET};
use oracle::program::{Program, VARIABLES};
use oracle::{folder as random_folder, marks, pricing};
use serde_json::{json, Value};
use shell::{folder, printed, rewrites, run, run_in, said, status};
use std::fs::{self, File};
use std::io::{BufRead, BufReader, Read, Write};
use std::net::TcpStream;
use std::os::unix::fs::symlink;
use std::path::{Path, PathBuf};
use std::process::{Child, Stdio};
use std::time::Duration;

const CASES: u64 = 400;

/// The most bytes of a body, as the desk has it.
const MOST_BODY: usize = 8 * 65_535;

/// A desk of a folder, ended with the test.
struct Desk {
    child: Child,
    address: String,
    folder: PathBuf,
}

impl Drop for Desk {
    fn drop(&mut self) {
        let _ = self.child.kill();
        let _ = self.child.wait();
    }
}

/// The status of an answer, its headers and its body.
struct Answer {
    status: u16,
    headers: String,
    body: Vec<u8>,
}

impl Answer {
    fn json(&self) -> Value {
        serde_json::from_slice(&self.body).expect("an answer in JSON")
    }

    fn error(&self) -> String {
        self.json()["error"].as_str().expect("why it is refused").to_string()
    }
}

fn read_answer(stream: &mut TcpStream) -> Answer {
    let mut bytes = Vec::new();
    let mut reader = BufReader::new(stream);
    let mut length = None;
    let mut goes_on = false;
    loop {
        let mut line = String::new();
        reader.read_line(&mut line).expect("a header");
        assert!(!line.is_empty(), "no answer");
        if let Some(number) = line.strip_prefix("Content-Length: ") {
            length = number.trim().parse().ok();
        }
        // An answer that goes on comes before the last one.
        goes_on |= line.starts_with("HTTP/1.1 100 ");
        if !goes_on {
            bytes.extend(line.as_bytes());
        }
        if line == "\r\n" && !goes_on {
            break;
        }
        goes_on &= line != "\r\n";
    }
    let mut body = vec![0; length.expect("a length")];
    reader.read_exact(&mut body).expect("a body");
    let headers = String::from_utf8(bytes).expect("headers");
    let status = headers.split(' ').nth(1).and_then(|it| it.parse().ok()).expect("a status");
    Answer { status, headers, body }
}

impl Desk {
    fn of(folder: PathBuf) -> Desk {
        let mut child = rewrites()
            .args(["desk", "."])
            .current_dir(&folder)
            .stdout(Stdio::piped())
            .spawn()
            .expect("the desk runs");
        let mut line = String::new();
        let out = child.stdout.take().expect("a pipe");
        BufReader::new(out).read_line(&mut line).expect("a line");
        let address = line.strip_prefix("http://").and_then(|it| it.strip_suffix("/\n"));
        Desk { address: address.expect("an address").to_string(), child, folder }
    }

    fn connect(&self) -> TcpStream {
        let stream = TcpStream::connect(&self.address).expect("the desk hears");
        stream.set_read_timeout(Some(Duration::from_secs(20))).expect("a limit");
        stream
    }

    /// Sends these bytes as they are.
    fn send(&self, bytes: &[u8]) -> Answer {
        let mut stream = self.connect();
        stream.write_all(bytes).expect("it is sent");
        read_answer(&mut stream)
    }

    fn get(&self, path: &str) -> Answer {
        let address = &self.address;
        self.send(format!("GET {path} HTTP/1.1\r\nHost: {address}\r\n\r\n").as_bytes())
    }

    /// The head of a call, as the desk's page sends it.
    fn head(&self, call: &str, length: usize) -> String {
        let address = &self.address;
        format!(
            "POST /api/{call} HTTP/1.1\r\nHost: {address}\r\nOrigin: http://{address}\r\n\
             Sec-Fetch-Site: same-origin\r\nContent-Type: application/json\r\nContent-Length: {length}\r\n\r\n"
        )
    }

    fn post(&self, call: &str, body: &[u8]) -> Answer {
        self.send(&[self.head(call, body.len()).as_bytes(), body].concat())
    }

    /// The answer of a call that isn't refused by HTTP.
    fn ask(&self, call: &str, body: Value) -> Value {
        let answer = self.post(call, body.to_string().as_bytes());
        assert_eq!(answer.status, 200, "{}", String::from_utf8_lossy(&answer.body));
        answer.json()
    }

    fn write(&self, file: &str, bytes: &[u8]) {
        fs::write(self.folder.join(file), bytes).expect("a file is written");
    }

    /// The object that the command prints for the folder's files.
    fn command(&self, call: &str) -> Value {
        let output = run_in(&self.folder, &[call, ".", "--json"]);
        let first = printed(&output).lines().next().expect("a line").to_string();
        serde_json::from_str(&first).expect("JSON")
    }

    /// The names and bytes of all that is in the folder.
    fn content(&self) -> Vec<(String, Vec<u8>)> {
        content(&self.folder)
    }
}

fn content(folder: &Path) -> Vec<(String, Vec<u8>)> {
    let entries = fs::read_dir(folder).expect("a folder").map(|entry| entry.expect("a file"));
    let mut content: Vec<_> = entries
        .map(|entry| {
            let name = entry.file_name().to_string_lossy().into_owned();
            (name, fs::read(entry.path()).unwrap_or_default())
        })
        .collect();
    content.sort();
    content
}

/// The lines of a text, without byte 10.
fn lines(text: &[u8]) -> Vec<String> {
    let text = String::from_utf8_lossy(text);
    text.split_inclusive('\n').map(|line| line.trim_end_matches('\n').to_string()).collect()
}

/// Takes what the desk adds from an answer: the statements of the program, and the place of a mistake.
fn taken(answer: &mut Value, names: &[&str]) -> Vec<Value> {
    let object = answer.as_object_mut().expect("an object");
    names.iter().map(|name| object.remove(*name).unwrap_or(Value::Null)).collect()
}

/// The piece of a text that a place names.
fn piece(place: &Value, text: &str) -> String {
    let at = |name: &str| place[name].as_u64().expect("a number") as usize;
    let units: Vec<u16> = text.encode_utf16().collect();
    String::from_utf16_lossy(&units[at("begin")..at("end")])
}

/// Of a misspelled condition what stands from the byte on at which its reading stopped, of another that is refused all of it.
fn wrong_piece(refusal: Option<u64>, condition: &str) -> &str {
    let from = if refusal == Some(7) { stop(condition.as_bytes()) - 1 } else { 0 };
    &condition[from..]
}

fn seeded(number: u64) -> u64 {
    Random::new(option("DIFFERENTIAL_SEED", 1) ^ number).bits()
}

#[test]
fn tables_are_those_that_the_command_prints() {
    let desk = Desk::of(folder("desk_tables", &[]));
    let mut met = Tally::new("tables of the desk", ["table", "2", "3", "4", "5", "6", "7", "8"]);
    let seed = seeded(71);
    for case in 0..option("DESK_CASES", CASES) {
        let random = &mut Random::new(seed ^ case);
        let (program, given) = random_folder::given(random);
        let bytes = random_folder::condition(random, &program);
        let typed = match String::from_utf8(bytes) {
            Ok(typed) => typed,
            // What isn't text can't be typed.
            Err(_) => continue,
        };
        desk.write("given", &given);
        desk.write("condition", typed.as_bytes());
        let before = desk.content();
        let mut answer = desk.ask("tabulate", json!({ "condition": typed }));
        let added = taken(&mut answer, &["source", "place"]);
        assert_eq!(answer, desk.command("tabulate"), "case {case}");
        if answer["status"] == 2 {
            continue;
        }
        assert_eq!(added[0], json!(lines(&given)), "case {case}");
        let refusal = answer["faults"][0]["refusal"].as_u64();
        match refusal {
            Some(6..=8) => {
                let bare = typed.strip_suffix('\n').unwrap_or(&typed);
                assert_eq!(added[1]["field"], "condition", "case {case}");
                assert_eq!(piece(&added[1], &typed), wrong_piece(refusal, bare), "case {case}");
            }
            _ => assert_eq!(added[1], Value::Null, "case {case}"),
        }
        met.met(match refusal {
            Some(number) => ["2", "3", "4", "5", "6", "7", "8"][number as usize - 2],
            None => "table",
        });
        assert_eq!(desk.content(), before, "case {case}");
    }
    met.report();
}

#[test]
fn paths_are_those_that_the_command_prints() {
    let desk = Desk::of(folder("desk_paths", &[]));
    let mut met = Tally::new("paths of the desk", ["a path", "none", "refused"]);
    let seed = seeded(75);
    for case in 0..option("DESK_CASES", CASES) {
        let random = &mut Random::new(seed ^ case);
        let size = random.between(2, 12);
        let program = generate::program(random, size);
        let parts = random.between(1, 6);
        let mut condition = generate::condition(random, &program, parts);
        if random.chance(10) {
            condition.push(b'!');
        }
        let typed = String::from_utf8(condition).expect("a condition is text");
        let (statement, part) = (random.between(1, size), random.between(1, parts));
        desk.write("given", &program.text());
        desk.write("condition", typed.as_bytes());
        let asked = json!({ "condition": typed, "part": part, "statement": statement });
        let mut answer = desk.ask("witness", asked);
        let added = taken(&mut answer, &["source", "place", "call", "folder", "status", "faults"]);
        let (at, part) = (statement.to_string(), part.to_string());
        let words = ["tabulate", ".", "--json", "--at", &at, "--part", &part];
        let told: Value =
            serde_json::from_str(printed(&run_in(&desk.folder, &words)).trim_end()).expect("JSON");
        assert_eq!((&added[4], &added[5]), (&told["status"], &told["faults"]), "case {case}");
        if told["status"] == 0 {
            assert_eq!(answer, told["at"], "case {case}");
            met.met(if answer["path"].is_null() { "none" } else { "a path" });
        } else {
            assert_eq!(added[1]["field"], "condition", "case {case}");
            met.met("refused");
        }
    }
    met.report();
    // Without a part it is the whole condition's.
    desk.write("given", b"read i0\nwrite i0\n");
    let answer =
        desk.ask("witness", json!({ "condition": "EF exit", "statement": 1, "part": null }));
    assert_eq!((&answer["part"], &answer["path"]), (&json!(2), &json!([1, 2])));
    let answer =
        desk.ask("witness", json!({ "condition": "EF exit", "statement": 3, "part": null }));
    assert_eq!(answer["faults"][0]["words"], "no such statement");
}

#[test]
fn verdicts_and_programs_are_those_that_the_command_prints() {
    let desk = Desk::of(folder("desk_marks", &[]));
    let mut met =
        Tally::new("lists of the desk", ["judged", "changed", "2", "3", "4", "5", "9", "10"]);
    let seed = seeded(72);
    for case in 0..option("DESK_CASES", CASES) {
        let random = &mut Random::new(seed ^ case);
        let (program, given) = random_folder::given(random);
        let most = if random.chance(4) { 2 * marks::MOST_MARKS } else { 12 };
        let list = marks::text(&generate::marks(random, &program, most));
        let list = if random.chance(20) { generate::damage(random, &list) } else { list };
        let typed = match String::from_utf8(list) {
            Ok(typed) if typed.len() <= 65_535 => typed,
            _ => continue,
        };
        // Who types needn't end the last line.
        let file = if typed.is_empty() || typed.ends_with('\n') {
            typed.clone()
        } else {
            typed.clone() + "\n"
        };
        desk.write("given", &given);
        desk.write("marks", file.as_bytes());
        let mut answer = desk.ask("check", json!({ "marks": typed }));
        let added = taken(&mut answer, &["source", "place", "rewritten", "changed", "places"]);
        assert_eq!(answer, desk.command("check"), "case {case}");
        if answer["status"] == 2 {
            continue;
        }
        let fault = &answer["faults"][0];
        if let Some(number) = fault["refusal"].as_u64() {
            met.met(match number {
                2 => "2",
                3 => "3",
                4 => "4",
                5 => "5",
                9 => "9",
                _ => "10",
            });
            let wrong = match (number, fault["line"].as_u64()) {
                (9, Some(line)) => lines(file.as_bytes())[line as usize - 1].clone(),
                (10, _) => file.trim_end_matches('\n').to_string(),
                _ => continue,
            };
            assert_eq!(piece(&added[1], &file), wrong, "case {case}");
            continue;
        }
        met.met("judged");
        let new = answer["program"].as_str().expect("a program");
        let (before, after) = (lines(&given), lines(new.as_bytes()));
        assert_eq!((&added[0], &added[2]), (&json!(before), &json!(after)), "case {case}");
        let changed: Vec<usize> =
            (1..=before.len()).filter(|n| before[n - 1] != after[n - 1]).collect();
        assert_eq!(added[3], json!(changed), "case {case}");
        if !changed.is_empty() {
            met.met("changed");
        }
        let places: Vec<String> =
            added[4].as_array().expect("a list").iter().map(|place| piece(place, &file)).collect();
        assert_eq!(places, lines(file.as_bytes()), "case {case}");
    }
    met.report();
}

#[test]
fn reasons_are_those_that_the_command_prints() {
    let desk = Desk::of(folder("desk_why", &[]));
    let mut met = Tally::new("reasons of the desk", ["a path", "none", "refused", "no such line"]);
    let seed = seeded(76);
    for case in 0..option("DESK_CASES", CASES) {
        let random = &mut Random::new(seed ^ case);
        let size = random.between(2, 12);
        let program = generate::program(random, size);
        let list = marks::text(&generate::marks(random, &program, 6));
        let list = if random.chance(10) { [&list, &b"x"[..]].concat() } else { list };
        let typed = String::from_utf8(list).expect("marks are text");
        let file = if typed.ends_with('\n') { typed.clone() } else { typed.clone() + "\n" };
        let line = random.between(1, 8);
        desk.write("given", &program.text());
        desk.write("marks", file.as_bytes());
        let mut answer = desk.ask("why", json!({ "marks": typed, "line": line }));
        let added = taken(&mut answer, &["source", "place", "status"]);
        let words = ["why", ".", &line.to_string(), "--json"];
        let mut told: Value =
            serde_json::from_str(printed(&run_in(&desk.folder, &words)).trim_end()).expect("JSON");
        taken(&mut told, &["status"]);
        assert_eq!(answer, told, "case {case}");
        assert_eq!(added[0], json!(lines(&program.text())), "case {case}");
        met.met(match (answer["faults"][0]["refusal"].as_u64(), answer["faults"].as_array()) {
            (Some(_), _) => "refused",
            (None, Some(faults)) if !faults.is_empty() => "no such line",
            _ if answer.get("because").is_some() => "a path",
            _ => "none",
        });
    }
    met.report();
}

#[test]
fn reviews_are_those_that_the_command_prints() {
    let desk = Desk::of(folder("desk_reviews", &[]));
    let mut met = Tally::new("reviews of the desk", ["tables", "16", "6", "7", "8", "17"]);
    let seed = seeded(73);
    for case in 0..option("DESK_CASES", CASES) {
        let random = &mut Random::new(seed ^ case);
        let (program, given) = random_folder::given(random);
        let mut typed = match String::from_utf8(random_folder::conditions(random, &program)) {
            Ok(typed) => typed,
            Err(_) => continue,
        };
        // Random lines of too many parts are few.
        if random.chance(8) {
            typed = "!".repeat(MOST_PARTS) + "true\n" + &typed;
        }
        let file = if typed.is_empty() || typed.ends_with('\n') {
            typed.clone()
        } else {
            typed.clone() + "\n"
        };
        desk.write("given", &given);
        desk.write("conditions", file.as_bytes());
        let mut answer = desk.ask("review", json!({ "conditions": typed }));
        let added = taken(&mut answer, &["source", "place"]);
        assert_eq!(answer, desk.command("review"), "case {case}");
        let fault = &answer["faults"][0];
        match fault["refusal"].as_u64() {
            None => met.met("tables"),
            Some(number) => {
                for (class, of_class) in [("16", 16), ("6", 6), ("7", 7), ("8", 8), ("17", 17)] {
                    if number == of_class {
                        met.met(class);
                    }
                }
                if let (6..=8, Some(line)) = (number, fault["line"].as_u64()) {
                    let wrong = lines(file.as_bytes())[line as usize - 1].clone();
                    assert_eq!(
                        piece(&added[1], &file),
                        wrong_piece(Some(number), &wrong),
                        "case {case}"
                    );
                }
            }
        }
    }
    met.report();
}

/// The 32 conditions that a review may have, and one more.
#[test]
fn a_review_has_as_many_lines_as_the_library_takes() {
    let desk = Desk::of(folder("desk_full", &[("given", b"read i0\nwrite i0\n")]));
    let most = desk.ask("open", json!({}))["review_lines"].as_u64().expect("a number") as usize;
    assert_eq!(most, rewrites_lines());
    let answer = desk.ask("review", json!({ "conditions": "EX exit\n".repeat(most) }));
    assert_eq!((&answer["status"], &answer["lines"]), (&json!(0), &json!(most)));
    let answer = desk.ask("review", json!({ "conditions": "EX exit\n".repeat(most + 1) }));
    assert_eq!(answer["faults"][0]["refusal"], 16);
}

fn rewrites_lines() -> usize {
    ::rewrites::REVIEW_LINES
}

/// Where a run stands after its outcome under a budget, as the desk tells it.
fn stand(outcome: &Outcome, program: &[String]) -> Value {
    match *outcome {
        Outcome::Spent { statement, .. } => {
            json!({ "statement": statement, "text": program[statement as usize - 1] })
        }
        Outcome::Ended { value, steps, kept, ticks } => {
            let kept: Vec<String> = kept.iter().map(|&value| (value as i32).to_string()).collect();
            let text = format!("ended {value} steps {steps} ticks {ticks} kept {}", kept.join(" "));
            json!({ "statement": null, "text": text })
        }
        Outcome::Fault { statement, steps, ticks } => {
            let text = format!("fault at {statement} steps {steps} ticks {ticks}");
            json!({ "statement": null, "text": text })
        }
    }
}

fn value_of(outcome: &Outcome, x: u8) -> Option<i32> {
    match outcome {
        Outcome::Spent { values, .. } => Some(values[usize::from(x)] as i32),
        _ => None,
    }
}

#[test]
fn steps_are_as_by_the_oracle() {
    let desk = Desk::of(folder("desk_steps", &[]));
    let mut met =
        Tally::new("runs of the desk", ["ended", "spent", "fault", "start", "15", "9", "differs"]);
    let seed = seeded(74);
    for case in 0..option("DESK_CASES", CASES) {
        let random = &mut Random::new(seed ^ case);
        let size = generate::size(random).min(60);
        let program = generate::program(random, size);
        let list = marks::text(&generate::marks(random, &program, 12));
        let list = if random.chance(10) { generate::damage(random, &list) } else { list };
        let start = random_folder::start(random);
        let (list, start) = match (String::from_utf8(list), String::from_utf8(start)) {
            (Ok(list), Ok(start)) => (list, start),
            _ => continue,
        };
        let given = program.text();
        desk.write("given", &given);
        let from = random.below(40) as u32;
        let body = json!({ "marks": list, "start": start, "from": from, "count": 9 });
        let answer = desk.ask("steps", body);
        let fault = &answer["faults"][0];
        if answer["status"] == 2 {
            // More than a file may have.
            assert!(list.len() + 1 > LARGEST_FILE || start.len() + 1 > LARGEST_FILE, "case {case}");
            continue;
        }
        if answer["status"] != 0 {
            assert!(answer.get("states").is_none(), "case {case}");
            let field = answer["place"]["field"].as_str().expect("a place");
            if fault["refusal"] == 9 || fault["refusal"] == 10 {
                assert_eq!(field, "marks", "case {case}");
                met.met("9");
            } else {
                assert_eq!(field, "start", "case {case}");
                met.met(if fault["refusal"] == 15 { "15" } else { "start" });
            }
            continue;
        }
        // What the runner would take is a start here, the last line ended.
        let start = if start.ends_with('\n') { start } else { start + "\n" };
        let Start { input, budget, values } =
            read_start(start.as_bytes()).expect("a start that is taken");
        assert!(budget <= LARGEST_BUDGET);
        let file = if list.is_empty() || list.ends_with('\n') { list } else { list + "\n" };
        let marked = marks::read(file.as_bytes()).expect("a list that is taken");
        let verdicts = marks::Judge::new(&program).verdicts(&marked);
        let new = marks::rewritten(&program, &marked, &verdicts);
        let run =
            |of: &Program, budget| machine::run_program(of, values, input, budget, &pricing::OURS);
        let (last, other) = (run(&program, budget), run(&new, budget));
        let texts = [lines(&given), lines(&new.text())];
        let steps = match last {
            Outcome::Ended { steps, .. } | Outcome::Fault { steps, .. } => steps,
            Outcome::Spent { .. } => budget,
        };
        met.met(match last {
            Outcome::Ended { .. } => "ended",
            Outcome::Spent { .. } => "spent",
            Outcome::Fault { .. } => "fault",
        });
        assert_eq!(answer["steps"], json!(steps), "case {case}");
        if !matches!(last, Outcome::Spent { .. }) {
            assert_eq!(answer["given_line"], stand(&last, &texts[0])["text"], "case {case}");
            assert_eq!(answer["rewritten_line"], stand(&other, &texts[1])["text"], "case {case}");
        }
        let live = Liveness::new(&program);
        let states = answer["states"].as_array().expect("states");
        let first = from.min(steps);
        assert_eq!(states.len() as u32, (steps + 1 - first).min(9), "case {case}");
        for (k, state) in states.iter().enumerate() {
            let at = first + k as u32;
            let (one, two) = (run(&program, at), run(&new, at));
            assert_eq!(state["steps"], json!(at), "case {case}");
            assert_eq!(state["given"], stand(&one, &texts[0]), "case {case}");
            assert_eq!(state["rewritten"], stand(&two, &texts[1]), "case {case}");
            for row in state["rows"].as_array().expect("rows") {
                let name = row["variable"].as_str().expect("a name");
                let x: u8 = name[1..].parse().expect("a number");
                let is_live = match one {
                    Outcome::Spent { statement, .. } => live.is_live(statement, x),
                    _ => false,
                };
                let (a, b) = (value_of(&one, x), value_of(&two, x));
                let expected = json!({
                    "variable": name, "given": a, "rewritten": b, "live": is_live, "differs": a != b,
                });
                assert_eq!(*row, expected, "case {case}");
                assert!(!(is_live && a != b), "case {case}: a live variable differs");
                if a != b {
                    met.met("differs");
                }
            }
            // Every variable that a statement names has a row.
            let shown: Vec<&str> = state["rows"]
                .as_array()
                .map(|rows| rows.iter().filter_map(|row| row["variable"].as_str()).collect())
                .unwrap_or_default();
            for x in 0..VARIABLES {
                let is_named = program.statements().iter().any(|it| it.defines(x) || it.uses(x));
                assert!(!is_named || shown.contains(&format!("i{x}").as_str()), "case {case}");
            }
        }
    }
    met.report();
}

/// At most so many states are told at once, and none beyond the end.
#[test]
fn states_are_few_at_once() {
    let loops = b"read i0\ni1 := i1 + 1\nif i0 goto 2 else 4\nwrite i1\n";
    let desk = Desk::of(folder("desk_states", &[("given", loops)]));
    let ask = |from: u32, count: u32| {
        desk.ask(
            "steps",
            json!({ "marks": "", "start": "1\n1000000", "from": from, "count": count }),
        )
    };
    assert_eq!(ask(0, u32::MAX)["states"].as_array().map(Vec::len), Some(32));
    assert_eq!(ask(0, 0)["states"].as_array().map(Vec::len), Some(0));
    let last = ask(u32::MAX, 5);
    assert_eq!(last["states"].as_array().map(Vec::len), Some(1));
    assert_eq!(last["states"][0]["steps"], 1_000_000);
    assert_eq!(last["given"]["outcome"], "spent");
}

/// A file is written where it is saved, and only then, whole, and only where it is as the page knows it.
#[test]
fn saving() {
    let files: [(&str, &[u8]); 4] = [
        ("given", b"read i0\ni1 := 1\nwrite i0\n"),
        ("marks", b"2: mark(rm, i1, 1)\n"),
        ("other", b"kept"),
        ("conditions-long", b"true\n"),
    ];
    let desk = Desk::of(folder("desk_saving", &files));
    let before = desk.content();
    let opened = desk.ask("open", json!({}));
    assert_eq!(opened["name"], "desk_saving");
    assert_eq!(opened["files"]["marks"], json!({ "text": "2: mark(rm, i1, 1)\n", "fault": null }));
    assert_eq!(opened["files"]["start"], json!({ "text": null, "fault": null }));
    assert_eq!(opened["reviews"], json!(["conditions-long"]));
    assert!(opened["files"].get("other").is_none());
    desk.ask("check", json!({ "marks": "" }));
    desk.ask("steps", json!({ "marks": "", "start": "1\n9\n", "from": 0, "count": 1 }));
    desk.ask("read", json!({ "file": "conditions-long" }));
    assert_eq!(desk.content(), before);

    // A line that was typed without its end gets it.
    let save = |file: &str, text: &str, was: Value| {
        desk.post("save", json!({ "file": file, "text": text, "was": was }).to_string().as_bytes())
    };
    let answer = save("marks", "2: mark(rm, i1, 2)", json!("2: mark(rm, i1, 1)\n"));
    assert_eq!((answer.status, &answer.json()["text"]), (200, &json!("2: mark(rm, i1, 2)\n")));
    for (file, text) in [
        ("condition", "EX exit"),
        ("start", "1\n9\n"),
        ("conditions", "true\nexit\n"),
        ("conditions-a_1", "exit"),
    ] {
        assert_eq!(save(file, text, Value::Null).status, 200, "{file}");
        let text = if text.ends_with('\n') { text.to_string() } else { format!("{text}\n") };
        assert_eq!(fs::read_to_string(desk.folder.join(file)).expect("a file"), text);
    }
    let opened = desk.ask("open", json!({}));
    assert_eq!(opened["reviews"], json!(["conditions", "conditions-a_1", "conditions-long"]));
    let saved = desk.content();
    assert_eq!(saved.len(), before.len() + 4);
    assert!(saved.contains(&before[1]) && saved.contains(&("other".into(), b"kept".to_vec())));

    // Somebody else wrote it meanwhile, took it away, or made it.
    for was in [json!("2: mark(rm, i1, 1)\n"), Value::Null] {
        let answer = save("marks", "", was);
        assert_eq!(answer.status, 409);
        assert!(answer.error().contains("changed on the disk"), "{}", answer.error());
    }
    assert_eq!(save("conditions-new", "true\n", json!("true\n")).status, 409);
    assert_eq!(desk.content(), saved);

    // More than can be read again isn't saved.
    let answer = save("marks", &"x".repeat(65_536), json!("2: mark(rm, i1, 2)\n"));
    assert_eq!(answer.status, 413);
    assert_eq!(desk.content(), saved);
}

#[test]
fn files_of_other_names_and_places() {
    let base = folder("desk_places", &[("secret", b"read i7\nwrite i7\n")]);
    let inner = base.join("inner");
    fs::create_dir_all(inner.join("conditions-folder")).expect("a folder is made");
    fs::write(inner.join("given"), b"read i0\nwrite i0\n").expect("a file is written");
    fs::write(inner.join("secret"), b"kept").expect("a file is written");
    symlink("../secret", inner.join("marks")).expect("a link is made");
    symlink("secret", inner.join("start")).expect("a link is made");
    symlink("nowhere", inner.join("condition")).expect("a link is made");
    let desk = Desk::of(inner.clone());
    let (before, outside) = (desk.content(), content(&base));
    let secret = base.join("secret");
    let secret = secret.to_str().expect("a path");
    for name in [
        "..",
        ".",
        "",
        "/",
        "../secret",
        "./marks",
        "inner/../secret",
        secret,
        "/etc/passwd",
        "secret",
        "given\0",
        "marks/",
        "Marks",
        "marks ",
        "conditions-",
        "conditions-A",
        "conditions-../secret",
        "conditions-.",
        "conditions/x",
        ".rewrites-x",
        "stages",
        "conditions-aaaaaaaaaaaaaaaaaaaaaaaaaaaaaaaaa",
        "conditions-\u{e4}",
    ] {
        let read = desk.post("read", json!({ "file": name }).to_string().as_bytes());
        assert_eq!(read.status, 403, "{name}");
        let body = json!({ "file": name, "text": "x\n", "was": null }).to_string();
        let saved = desk.post("save", body.as_bytes());
        assert_eq!(saved.status, 403, "{name}");
        assert!(saved.error().contains("isn't a file of the desk"), "{name}");
    }
    // The program itself is read, and not written.
    let body =
        json!({ "file": "given", "text": "read i1\nwrite i1\n", "was": "read i0\nwrite i0\n" });
    assert_eq!(desk.post("save", body.to_string().as_bytes()).status, 403);
    // A link isn't followed, wherever it leads, and a folder is no file.
    for name in ["marks", "start", "condition", "conditions-folder"] {
        let read = desk.ask("read", json!({ "file": name }));
        assert_eq!(read["text"], Value::Null, "{name}");
        assert_eq!(read["fault"]["words"], "can't be read: a link, or no file", "{name}");
        let body = json!({ "file": name, "text": "x\n", "was": null }).to_string();
        let saved = desk.post("save", body.as_bytes());
        assert_eq!(saved.status, 403, "{name}");
        assert!(saved.error().contains("a link, or no file"), "{name}: {}", saved.error());
    }
    let opened = desk.ask("open", json!({})).to_string();
    assert!(!opened.contains("i7") && !opened.contains("kept"), "{opened}");
    assert_eq!((desk.content(), content(&base)), (before, outside));
    // Paths of the address lead to no file.
    for path in [
        "/given",
        "/../secret",
        "/%2e%2e/secret",
        "/api",
        "/api/",
        "/api/open/",
        "//",
        "/page.css/..",
        "/?x",
        "/page.js?",
        "*",
        "http://127.0.0.1/",
    ] {
        let answer = desk.get(path);
        assert!(matches!(answer.status, 404 | 405), "{path}: {}", answer.status);
    }
    // A program that is a link is no program of the folder.
    fs::remove_file(inner.join("given")).expect("a file is removed");
    symlink("../secret", inner.join("given")).expect("a link is made");
    let answer = desk.ask("tabulate", json!({ "condition": "true" }));
    assert_eq!((&answer["status"], &answer["source"]), (&json!(2), &json!([])));
    assert_eq!(answer["faults"][0]["words"], "can't be read: a link, or no file");
    fs::remove_file(inner.join("given")).expect("a link is removed");
    let answer = desk.ask("tabulate", json!({ "condition": "true" }));
    assert_eq!(answer["faults"][0]["words"], "can't be read: No such file or directory");
}

/// What another page's requests, or those of another name for this machine, look like.
#[test]
fn requests_from_elsewhere() {
    let desk = Desk::of(folder("desk_origins", &[("given", b"read i0\nwrite i0\n")]));
    let address = desk.address.clone();
    let port = address.split(':').nth(1).expect("a port").to_string();
    let before = desk.content();
    let body = json!({ "file": "marks", "text": "", "was": null }).to_string();
    let head = |lines: &[String]| {
        let lines: String = lines.iter().map(|line| format!("{line}\r\n")).collect();
        let length = body.len();
        format!("POST /api/save HTTP/1.1\r\n{lines}Content-Length: {length}\r\n\r\n{body}")
            .into_bytes()
    };
    let host = format!("Host: {address}");
    let origin = format!("Origin: http://{address}");
    let json_kind = "Content-Type: application/json".to_string();
    let wrong: [(&[String], u16); 16] = [
        (&[origin.clone(), json_kind.clone()], 403),
        (&[host.clone(), json_kind.clone()], 403),
        (&["Host: example.org".into(), origin.clone(), json_kind.clone()], 403),
        (&[format!("Host: localhost:{port}"), origin.clone(), json_kind.clone()], 403),
        (&["Host: 127.0.0.1".into(), origin.clone(), json_kind.clone()], 403),
        (
            &[
                format!("Host: evil.example:{port}"),
                format!("Origin: http://evil.example:{port}"),
                json_kind.clone(),
            ],
            403,
        ),
        (&[host.clone(), host.clone(), origin.clone(), json_kind.clone()], 403),
        (&[host.clone(), "Origin: null".into(), json_kind.clone()], 403),
        (&[host.clone(), "Origin: http://example.org".into(), json_kind.clone()], 403),
        (&[host.clone(), "Origin: http://127.0.0.1:1".into(), json_kind.clone()], 403),
        (&[host.clone(), format!("Origin: https://{address}"), json_kind.clone()], 403),
        (&[host.clone(), format!("Origin: http://{address}.example.org"), json_kind.clone()], 403),
        (&[host.clone(), origin.clone(), origin.clone(), json_kind.clone()], 403),
        (
            &[host.clone(), origin.clone(), json_kind.clone(), "Sec-Fetch-Site: cross-site".into()],
            403,
        ),
        (
            &[host.clone(), origin.clone(), json_kind.clone(), "Sec-Fetch-Site: same-site".into()],
            403,
        ),
        (&[host.clone(), origin.clone(), "Content-Type: text/plain".into()], 415),
    ];
    for (lines, status) in wrong {
        let answer = desk.send(&head(lines));
        assert_eq!(answer.status, status, "{lines:?}");
        assert!(answer.error().contains("expected"), "{lines:?}");
        assert!(!answer.headers.contains("Access-Control"), "{lines:?}");
    }
    // The page itself goes to who types its address, and to no other site.
    for (lines, status) in [
        (vec![host.clone()], 200),
        (vec![host.clone(), "Sec-Fetch-Site: none".into()], 200),
        (vec![host.clone(), "Sec-Fetch-Site: cross-site".into()], 403),
        (vec![host.clone(), "Origin: http://example.org".into()], 403),
        (vec![format!("Host: rebound.example:{port}")], 403),
        (vec![], 403),
    ] {
        let request = format!(
            "GET / HTTP/1.1\r\n{}\r\n",
            lines.iter().map(|it| it.clone() + "\r\n").collect::<String>()
        );
        assert_eq!(desk.send(request.as_bytes()).status, status, "{lines:?}");
    }
    // A request within the body of another is none.
    let inner =
        String::from_utf8(head(&[host.clone(), origin.clone(), json_kind.clone()])).expect("text");
    for filling in [0, 2_000] {
        let body = inner.clone() + &" ".repeat(filling);
        let outer = format!(
            "POST /api/open HTTP/1.1\r\n{host}\r\nOrigin: http://example.org\r\nContent-Type: text/plain\r\nContent-Length: {}\r\n\r\n{body}",
            body.len()
        );
        let mut stream = desk.connect();
        stream.write_all(outer.as_bytes()).expect("it is sent");
        assert_eq!(read_answer(&mut stream).status, 403);
        // What comes next is the next request.
        stream
            .write_all(format!("GET /page.css HTTP/1.1\r\n{host}\r\n\r\n").as_bytes())
            .expect("it is sent");
        let next = read_answer(&mut stream);
        assert!(next.status == 200 && next.body.starts_with(b"body {"), "{}", next.status);
    }
    assert_eq!(desk.content(), before);
    assert_eq!(desk.send(&head(&[host, origin, json_kind])).status, 200);
}

/// The desk hears on this machine's own address, and on no other.
#[test]
fn only_this_machine() {
    let desk = Desk::of(folder("desk_address", &[("given", b"read i0\nwrite i0\n")]));
    let port: u16 =
        desk.address.strip_prefix("127.0.0.1:").and_then(|it| it.parse().ok()).expect("a port");
    let ending = format!(":{port:04X}");
    let mut heard = Vec::new();
    for table in ["/proc/net/tcp", "/proc/net/tcp6"] {
        for line in fs::read_to_string(table).unwrap_or_default().lines().skip(1) {
            let words: Vec<&str> = line.split_whitespace().collect();
            // 0A: it listens.
            if words[1].ends_with(&ending) && words[3] == "0A" {
                heard.push(words[1].to_string());
            }
        }
    }
    assert_eq!(heard, [format!("0100007F{ending}")]);
}

#[test]
fn bodies_that_are_no_calls() {
    let desk = Desk::of(folder("desk_bodies", &[("given", b"read i0\nwrite i0\n")]));
    for (call, body) in [
        ("open", ""),
        ("open", "[]x"),
        ("open", "{\"x\":1}"),
        ("tabulate", "{}"),
        ("tabulate", "{\"condition\":1}"),
        ("tabulate", "{\"condition\":\"true\",\"more\":1}"),
        ("tabulate", "{\"condition\":\"\u{0}\"}"),
        ("tabulate", "{\"condition\":\"true\""),
        ("steps", "{\"marks\":\"\",\"start\":\"\",\"from\":-1,\"count\":1}"),
        ("steps", "{\"marks\":\"\",\"start\":\"\",\"from\":4294967296,\"count\":1}"),
        ("save", "{\"file\":\"marks\"}"),
    ] {
        let answer = desk.post(call, body.as_bytes());
        assert_eq!(answer.status, 400, "{call} {body}");
        assert!(answer.error().starts_with("not such a call: "), "{}", answer.error());
    }
    assert_eq!(desk.post("open", b"\xff\xfe").status, 400);
    assert_eq!(desk.post("open", "[".repeat(100_000).as_bytes()).status, 400);
    assert_eq!(desk.post("nothing", b"{}").status, 404);
    let address = &desk.address;
    for method in ["GET", "PUT", "DELETE", "HEAD", "OPTIONS"] {
        let kept = if method == "HEAD" { continue } else { method };
        let request = format!(
            "{kept} /api/open HTTP/1.1\r\nHost: {address}\r\nOrigin: http://{address}\r\n\r\n"
        );
        assert_eq!(desk.send(request.as_bytes()).status, 405, "{method}");
    }
    // Without a length, or with a length and pieces.
    for more in ["", "Transfer-Encoding: chunked\r\n"] {
        let request = format!(
            "POST /api/open HTTP/1.1\r\nHost: {address}\r\nOrigin: http://{address}\r\nContent-Type: application/json\r\n{more}\r\n2\r\n{{}}\r\n0\r\n\r\n"
        );
        assert_eq!(desk.send(request.as_bytes()).status, 411);
    }
}

#[test]
fn large_bodies() {
    let desk = Desk::of(folder("desk_large", &[("given", b"read i0\nwrite i0\n")]));
    // The longest text that can be typed, its last line unended, each byte spelled by six.
    let text = "\\u0001".repeat(65_534);
    let body = format!("{{\"marks\":\"{text}\"}}");
    assert!(body.len() < MOST_BODY);
    let answer = desk.post("check", body.as_bytes());
    assert_eq!((answer.status, &answer.json()["faults"][0]["refusal"]), (200, &json!(9)));
    let long = json!({ "marks": "x".repeat(65_536) }).to_string();
    let answer = desk.post("check", long.as_bytes()).json();
    assert_eq!(answer["faults"][0]["words"], "can't be read: over 65,535 bytes");
    // One byte more than a body may have, and many more.
    for length in [MOST_BODY + 1, 5_000_000] {
        let answer = desk.post("check", &vec![b' '; length]);
        assert_eq!(answer.status, 413);
        assert!(
            answer.error().contains(&format!("expected at most {MOST_BODY}")),
            "{}",
            answer.error()
        );
    }
    // Lengths that nobody sends the bytes of, up to the largest number.
    for length in ["100000000000", "10000000000000000", "18446744073709551615"] {
        let head = desk
            .head("check", 0)
            .replace("Content-Length: 0", &format!("Content-Length: {length}"));
        assert_eq!(desk.send(head.as_bytes()).status, 413, "{length}");
    }
    let head =
        desk.head("check", 0).replace("Content-Length: 0", "Content-Length: 18446744073709551616");
    assert_eq!(desk.send(head.as_bytes()).status, 411);
    // Those who don't send what they said hold up no other.
    let held: Vec<TcpStream> = (0..20)
        .map(|_| {
            let mut stream = desk.connect();
            stream.write_all(desk.head("check", 5_000).as_bytes()).expect("it is sent");
            stream
        })
        .collect();
    assert_eq!(desk.ask("check", json!({ "marks": "" }))["status"], 0);
    drop(held);
    assert_eq!(desk.ask("check", json!({ "marks": "" }))["status"], 0);
}

/// Connections that come together are each answered soon, while others stay open and idle, as a browser keeps them.
#[test]
fn many_at_once() {
    let desk = Desk::of(folder("desk_many", &[("given", b"read i0\nwrite i0\n")]));
    let mut idle = Vec::new();
    for round in 0..12 {
        let mut burst: Vec<TcpStream> = (0..6).map(|_| desk.connect()).collect();
        let request = format!("GET /page.css HTTP/1.1\r\nHost: {}\r\n\r\n", desk.address);
        for stream in &mut burst {
            stream.set_read_timeout(Some(Duration::from_secs(10))).expect("a limit");
            stream.write_all(request.as_bytes()).expect("it is sent");
        }
        for stream in &mut burst {
            assert_eq!(read_answer(stream).status, 200, "round {round}");
        }
        idle.extend(burst);
    }
    assert_eq!(idle.len(), 72);
}

#[test]
fn the_page_loads_nothing_from_elsewhere() {
    let name = "desk_<b>&\"x\"";
    let desk = Desk::of(folder(name, &[("given", b"read i0\nwrite i0\n")]));
    let page = desk.get("/");
    let text = String::from_utf8(page.body).expect("a page");
    let shown = "desk_&lt;b&gt;&amp;&quot;x&quot;";
    assert!(text.contains(&format!("<title>{shown}: desk</title>")));
    assert!(text.contains(&format!("<h1>{shown}</h1>")));
    assert!(!text.contains("<b>"));
    for header in [
        "default-src 'none'",
        "frame-ancestors 'none'",
        "X-Content-Type-Options: nosniff",
        "Cache-Control: no-store",
    ] {
        assert!(page.headers.contains(header), "{header}");
    }
    for (path, kind) in
        [("/", "text/html"), ("/page.css", "text/css"), ("/page.js", "text/javascript")]
    {
        let answer = desk.get(path);
        assert_eq!(answer.status, 200, "{path}");
        assert!(answer.headers.contains(&format!("Content-Type: {kind}")), "{path}");
        let text = String::from_utf8(answer.body).expect("text");
        for elsewhere in [
            "http:",
            "https:",
            "url(",
            "@import",
            "import(",
            "src=\"h",
            "href=\"h",
            "src=\"//",
            "href=\"//",
            "innerHTML",
            "eval(",
        ] {
            assert!(!text.contains(elsewhere), "{path}: {elsewhere}");
        }
    }
}

#[test]
fn what_is_no_folder() {
    for (words, said_words) in [
        (&["desk", "nowhere"][..], "nowhere: the caller: No such file or directory; expected a folder with a program in `given`\n"),
        (&["desk", "/dev/null"], "/dev/null: the caller: not a folder; expected a folder with a program in `given`\n"),
    ] {
        let output = run(words);
        assert_eq!((status(&output), said(&output).as_str()), (2, said_words));
        assert_eq!(printed(&output), "");
    }
    for words in [&["desk"][..], &["desk", ".", "."], &["desk", ".", "--json"]] {
        assert_eq!(status(&run(words)), 2, "{words:?}");
    }
    // Where the address can't be told there is no desk.
    let full = File::options().write(true).open("/dev/full").expect("a full disk");
    let base = folder("desk_full_disk", &[("given", b"read i0\nwrite i0\n")]);
    let output = rewrites().arg("desk").arg(&base).stdout(full).output().expect("the command runs");
    assert_eq!(status(&output), 3);
    assert_eq!(said(&output), "standard output: No space left on device\n");
}
