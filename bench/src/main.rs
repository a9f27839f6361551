//! Prints times of the library's calls beside those of the tuned calls in `oracle`, on the same
//! inputs, with their ratios.

mod inputs;
mod time;

use inputs::{atoms_condition, binary_condition, text, unary_condition, OPERATORS};
use inputs::{cse_and_rm_marks_for, cse_marks_for, different_marks_for, marks_for};
use oracle::pricing::{table_text, OURS};
use oracle::{limit, tuned};
use rewrites::{force, join, judge, list, relist, report, review, run, tabulate, why, witness};
use rewrites::{go_back, keep, Prices, PLACES, PLACE_BYTES, STAGES_BYTES};
use rewrites::{
    LIST_WORDS, MOST_STEPS, PATH_WORDS, REVIEW_WORDS, STATEMENTS, TABLE_WORDS, TEXT_BYTES,
};
use rewrites::{UNFORCED, VARIABLES, VERDICT_BYTES};
use std::collections::HashMap;
use std::fs;
use time::medians;

const RUN_TIMES: usize = 101;
const TIMES: usize = 301;
const SIZES: [usize; 4] = [16, 64, 256, STATEMENTS];

fn machine() -> String {
    let info = fs::read_to_string("/proc/cpuinfo").unwrap_or_default();
    let models: Vec<&str> = info
        .lines()
        .filter(|line| line.starts_with("model name"))
        .filter_map(|line| line.split(": ").nth(1))
        .collect();
    match models.first() {
        Some(model) => format!("{}, {} processors", model, models.len()),
        None => "unknown".to_string(),
    }
}

/// A kind of control flow, by which programs of any size are made.
struct Flow {
    name: &'static str,
    is_ordinary: bool,
    program: fn(usize) -> Vec<u8>,
}

const FLOWS: [Flow; 4] = [
    Flow { name: "ordinary", is_ordinary: true, program: inputs::ordinary },
    Flow { name: "straight", is_ordinary: false, program: inputs::straight },
    Flow { name: "backward jumps", is_ordinary: false, program: inputs::backward },
    Flow { name: "scattered jumps", is_ordinary: false, program: inputs::scattered },
];

/// The largest ratio of ordinary inputs, and of the others.
#[derive(Default)]
struct Worst {
    ordinary: (f64, String),
    adversarial: (f64, String),
    /// The times of calls over 256 statements, and the largest ratio to one of them over four times as many.
    shorter: HashMap<String, f64>,
    growth: (f64, String),
}

impl Worst {
    fn meet(&mut self, is_ordinary: bool, ratio: f64, name: String) {
        let worst = if is_ordinary { &mut self.ordinary } else { &mut self.adversarial };
        if ratio > worst.0 {
            *worst = (ratio, name);
        }
    }

    /// A call over an ordinary program of so many statements takes so many seconds.
    fn grow(&mut self, is_ordinary: bool, name: &str, size: usize, seconds: f64) {
        if !is_ordinary {
            return;
        }
        if size == 256 {
            self.shorter.insert(name.to_string(), seconds);
        }
        let ratio = self.shorter.get(name).map_or(0.0, |shorter| seconds / shorter);
        if size == STATEMENTS && ratio > self.growth.0 {
            self.growth = (ratio, name.to_string());
        }
    }
}

/// Prints a line of times, in microseconds, and their ratio.
fn print_line(name: &str, [ours, tuned]: [f64; 2], rest: &str) -> f64 {
    let ratio = ours / tuned;
    println!("{:<52} {:>10.2} {:>10.2} {:>7.2} {}", name, ours * 1e6, tuned * 1e6, ratio, rest);
    ratio
}

fn print_heading(title: &str, last: &str) {
    println!("\n{}\n{:<52} {:>10} {:>10} {:>7} {}", title, "", "ours", "tuned", "ratio", last);
}

// Runs

/// A buyer's prices.
const BUYERS: Prices = Prices([6, 6, 9, 5, 2, 2, 2, 3, 2, 2, 18]);

/// What loops are made of, which never end.
const LOOPS: [(&str, &[&str]); 9] = [
    ("skip", &["skip", "skip", "skip", "skip"]),
    ("copies", &["i1 := i0", "i2 := 7", "i3 := i2", "i4 := i1"]),
    ("sums and differences", &["i1 := i1 + i0", "i2 := i2 - 1"]),
    ("products", &["i1 := i1 * i0", "i2 := i1 * 7"]),
    ("quotients by constants", &["i1 := i0 / 3", "i2 := i1 / -1"]),
    ("quotients by variables", &["i1 := 1000 / i0", "i2 := i1 / i0"]),
    ("comparisons", &["i1 := i2 < i0", "i2 := i1 = 0"]),
    ("jumps", &["if i1 goto 3 else 4", "skip", "if i0 goto 5 else 2", "skip"]),
    ("all of them", &["i1 := i1 + i0", "i2 := i1 * 7", "i3 := i2 < i1", "skip", "i4 := i3"]),
];

fn loop_of(statements: &[&str]) -> Vec<u8> {
    let mut lines = vec!["read i0"];
    lines.extend(statements);
    lines.extend(["if i31 goto 2 else 2", "write i0"]);
    text(&lines)
}

/// By our prices, by the tuned call, and by a buyer's prices, whose time is told beside ours.
fn print_runs(worst: &mut Worst) {
    print_heading(
        "Runs of 1,000,000 steps, ticks counted, in microseconds",
        "    ns/step    buyer's  to ours",
    );
    let ours = Prices::ours();
    let mut largest = (0.0, "");
    for (name, statements) in LOOPS {
        let program = loop_of(statements);
        let values = [0; VARIABLES];
        for prices in [ours, BUYERS] {
            let ticks = run(&program, &values, 7, MOST_STEPS, &prices).map(|it| it.ticks());
            let wanted =
                tuned::run(&program, &values, 7, MOST_STEPS, &prices.0).map(|it| it.ticks());
            assert_eq!(ticks.ok(), wanted.ok());
        }
        let [by_ours, tuned, by_buyers] = medians(
            RUN_TIMES,
            [
                &mut || run(&program, &values, 7, MOST_STEPS, &ours).is_ok(),
                &mut || tuned::run(&program, &values, 7, MOST_STEPS, &OURS).is_ok(),
                &mut || run(&program, &values, 7, MOST_STEPS, &BUYERS).is_ok(),
            ],
        );
        let each = by_ours * 1e9 / f64::from(MOST_STEPS);
        let beside = by_buyers / by_ours;
        let rest = format!("{:>11.2} {:>10.2} {:>8.3}", each, by_buyers * 1e6, beside);
        let ratio = print_line(&format!("loop of {}", name), [by_ours, tuned], &rest);
        worst.meet(true, ratio, format!("run, loop of {}", name));
        if beside > largest.0 {
            largest = (beside, name);
        }
    }
    println!("largest ratio of a buyer's prices to ours: {:.3} (loop of {})", largest.0, largest.1);
}

/// Tables of prices read.
fn print_prices(worst: &mut Worst) {
    print_heading("Reading prices, in microseconds", "    ns/byte");
    let texts = [
        ("eleven lines", table_text(&BUYERS.0)),
        ("eleven lines of five digits", table_text(&[65_535; 11])),
        ("12,000 lines, refused 20", table_text(&[65_535; 12_000])),
    ];
    for (name, prices) in texts {
        let (mut ours, mut theirs) = (Prices::ours(), OURS);
        let times = medians(
            TIMES,
            [&mut || ours.read(&prices).is_ok(), &mut || {
                tuned::replace(&prices, &mut theirs).is_ok()
            }],
        );
        assert_eq!(ours.0, theirs);
        let each = format!("{:>11.2}", times[0] * 1e9 / prices.len() as f64);
        let ratio = print_line(name, times, &each);
        worst.meet(!name.contains("refused"), ratio, format!("prices, {}", name));
    }
}

// Reading and writing

/// A text of so many good lines, of every kind.
fn good_text(lines: usize) -> Vec<u8> {
    const INNER: [&str; 5] = [
        "i1 := i0",
        "i12 := i1 + 1234567",
        "if i12 goto 2 else 15",
        "skip",
        "i3 := 2147483647 < i31",
    ];
    repeated(&INNER, lines)
}

/// The same with constants below zero.
fn signed_text(lines: usize) -> Vec<u8> {
    const INNER: [&str; 5] = [
        "i1 := i0",
        "i12 := i1 + -123456",
        "if i12 goto 2 else 15",
        "skip",
        "i3 := -214748364 < i31",
    ];
    repeated(&INNER, lines)
}

/// The inner lines in turn, so many with the first and the last.
fn repeated(inner: &[&str], lines: usize) -> Vec<u8> {
    let mut text_lines: Vec<&str> = inner.iter().copied().cycle().take(lines).collect();
    text_lines[0] = "read i0";
    text_lines[lines - 1] = "write i3";
    text(&text_lines)
}

/// A text of the most lines, all but the first and the last with this one statement.
fn longest_text(statement: &str) -> Vec<u8> {
    let mut lines = vec![statement; STATEMENTS];
    lines[0] = "read i63";
    lines[STATEMENTS - 1] = "write i63";
    text(&lines)
}

fn print_reading(worst: &mut Worst) {
    print_heading(
        "Reading (run under budget 0; over 1,024 lines are refused after all are read), in microseconds",
        "    ns/byte",
    );
    let unsigned =
        SIZES.into_iter().chain([4_000, 16_000]).map(|lines| (lines, "", good_text(lines)));
    let signed = SIZES.map(|lines| (lines, ", constants below zero", signed_text(lines)));
    for (lines, kind, program) in unsigned.chain(signed) {
        let (values, ours) = ([0; VARIABLES], Prices::ours());
        let times = medians(
            TIMES,
            [&mut || run(&program, &values, 7, 0, &ours).is_ok(), &mut || {
                tuned::run(&program, &values, 7, 0, &OURS).is_ok()
            }],
        );
        let each = format!("{:>11.2}", times[0] * 1e9 / program.len() as f64);
        let name = format!("{} lines, {} bytes{}", lines, program.len(), kind);
        let ratio = print_line(&name, times, &each);
        worst.grow(true, &format!("reading{}", kind), lines, times[0]);
        worst.meet(lines <= STATEMENTS, ratio, format!("reading {}", name));
    }
}

fn print_writing(worst: &mut Worst) {
    print_heading("Reading and writing (judge without marks), in microseconds", "    ns/byte");
    let mut programs: Vec<(&str, Vec<u8>)> = SIZES.map(|lines| ("", good_text(lines))).to_vec();
    programs.push(("", longest_text("i63 := 2147483647 + 2147483647")));
    programs.push((", constants below zero", signed_text(STATEMENTS)));
    programs.push((", the longest", longest_text("i63 := -2147483648 + -2147483648")));
    for (kind, program) in programs {
        let (mut verdicts, mut new) = ([0; VERDICT_BYTES], [0; TEXT_BYTES]);
        let (mut verdicts_2, mut new_2) = (verdicts, new);
        let times = medians(
            TIMES,
            [&mut || judge(&program, b"", &mut verdicts, &mut new).is_ok(), &mut || {
                tuned::judge(&program, b"", &mut verdicts_2, &mut new_2).is_ok()
            }],
        );
        assert!(new == new_2);
        let each = format!("{:>11.2}", times[0] * 1e9 / program.len() as f64);
        let lines = program.iter().filter(|&&byte| byte == 10).count();
        let name = format!("{} lines, {} bytes{}", lines, program.len(), kind);
        let ratio = print_line(&name, times, &each);
        worst.meet(true, ratio, format!("reading and writing {}", name));
    }
}

// Joining

/// Joins a pair, which has so many statements together, and prints the times.
fn print_pair(worst: &mut Worst, kind: &str, is_ordinary: bool, road: &[u8], creeper: &[u8]) {
    let (mut text, mut text_2) = ([0; TEXT_BYTES], [0; TEXT_BYTES]);
    let times = medians(
        TIMES,
        [&mut || join(road, creeper, &mut text).is_ok(), &mut || {
            tuned::join(road, creeper, &mut text_2).is_ok()
        }],
    );
    assert!(text == text_2);
    let bytes = road.len() + creeper.len();
    let each = format!("{:>11.2}", times[0] * 1e9 / bytes as f64);
    let lines = [road, creeper].map(|text| text.iter().filter(|&&byte| byte == 10).count());
    let name = format!("{} and {} lines, {} bytes{}", lines[0], lines[1], bytes, kind);
    let ratio = print_line(&name, times, &each);
    worst.meet(is_ordinary, ratio, format!("joining {}", name));
}

fn print_joining(worst: &mut Worst) {
    print_heading("Joining, in microseconds", "    ns/byte");
    for (n, m) in [(16, 16), (64, 64), (128, 129), (512, 513), (16, 1_009), (1_009, 16)] {
        print_pair(worst, "", true, &inputs::ordinary(n), &inputs::ordinary(m));
    }
    let jumps = [512, 513].map(inputs::scattered);
    print_pair(worst, ", scattered jumps", false, &jumps[0], &jumps[1]);
    let signed = [512, 513].map(signed_text);
    print_pair(worst, ", constants below zero", true, &signed[0], &signed[1]);
    // Each is read whole before both are found too long.
    let longest = longest_text("i63 := -2147483648 + -2147483648");
    print_pair(worst, ", the longest, refused", false, &longest, &longest);
}

// Stages

const STAGE_NAMES: [&[u8]; PLACES] =
    [b"one", b"two", b"three", b"four", b"five", b"six", b"seven", b"eight"];

/// Stages whose places all hold this program.
fn full_stages(program: &[u8]) -> Vec<u8> {
    let mut stages = vec![0; STAGES_BYTES];
    for name in STAGE_NAMES {
        keep(&mut stages, name, program).expect("there is a place");
    }
    stages
}

/// Keeps a program under a name in stages of which one place is emptied before, and prints the times.
fn time_keep(stages: &[u8], emptied: Option<usize>, name: &[u8], program: &[u8]) -> [f64; 2] {
    let (mut ours, mut other) = (stages.to_vec(), stages.to_vec());
    // Without its first letter a place has no name.
    let empty = |stages: &mut [u8]| {
        if let Some(at) = emptied {
            stages[at * PLACE_BYTES] = 0;
        }
    };
    let times = medians(
        TIMES,
        [
            &mut || {
                empty(&mut ours);
                keep(&mut ours, name, program).is_ok()
            },
            &mut || {
                empty(&mut other);
                tuned::keep(&mut other, name, program).is_ok()
            },
        ],
    );
    assert!(ours == other);
    times
}

fn time_return(stages: &[u8], name: &[u8]) -> [f64; 2] {
    let (mut text, mut text_2) = ([0; TEXT_BYTES], [0; TEXT_BYTES]);
    let times = medians(
        TIMES,
        [&mut || go_back(stages, name, &mut text).is_ok(), &mut || {
            tuned::go_back(stages, name, &mut text_2).is_ok()
        }],
    );
    assert!(text == text_2);
    times
}

fn print_stages(worst: &mut Worst) {
    print_heading("Stages, in microseconds", "    ns/byte");
    let longest = longest_text("i63 := -2147483648 + -2147483648");
    let ordinary = SIZES.map(|lines| ("", true, inputs::ordinary(lines)));
    for (kind, is_ordinary, program) in
        ordinary.into_iter().chain([(", the longest", false, longest)])
    {
        let (empty, full) = (vec![0; STAGES_BYTES], full_stages(&program));
        let lines = program.iter().filter(|&&byte| byte == 10).count();
        // With how many texts are read whole: that of the program, and those in places.
        let rows = [
            ("keep, into empty places", 1, time_keep(&empty, Some(0), b"one", &program)),
            ("keep, into the last empty place", 8, time_keep(&full, Some(7), b"nine", &program)),
            ("keep, a known name", 2, time_keep(&full, None, b"eight", &program)),
            ("keep, a ninth name", 9, time_keep(&full, None, b"nine", &program)),
            ("return, the first place", 1, time_return(&full, b"one")),
            ("return, the eighth place", 1, time_return(&full, b"eight")),
            ("return, no such name", 0, time_return(&full, b"nine")),
        ];
        for (call, texts, times) in rows {
            let each = match texts {
                0 => String::new(),
                _ => format!("{:>11.2}", times[0] * 1e9 / (texts * program.len()) as f64),
            };
            let name = format!("{}, {} lines{}", call, lines, kind);
            let ratio = print_line(&name, times, &each);
            worst.grow(is_ordinary, call, lines, times[0]);
            worst.meet(is_ordinary, ratio, name);
        }
    }
}

// Tables

/// A call of `oracle` that tabulates.
type Tabulate = fn(&[u8], &[u8], &mut [u64]) -> Result<(u32, u32, u32), u8>;

/// Ours, and beside it this one.
fn time_table(program: &[u8], condition: &str, other: Tabulate) -> [f64; 2] {
    let condition = condition.as_bytes();
    let (mut table, mut table_2) = ([0; TABLE_WORDS], [0; TABLE_WORDS]);
    let times = medians(
        TIMES,
        [&mut || tabulate(program, condition, &mut table).is_ok(), &mut || {
            other(program, condition, &mut table_2).is_ok()
        }],
    );
    assert!(matches!(tabulate(program, condition, &mut table), Ok(answer) if answer.parts == 64));
    assert!(table == table_2);
    times
}

fn print_tables(worst: &mut Worst) {
    for (flow, size) in FLOWS.iter().flat_map(|flow| [256, STATEMENTS].map(|size| (flow, size))) {
        let program = (flow.program)(size);
        let title = format!("Tables of 64 parts over {} statements, {}", size, flow.name);
        print_heading(&format!("{}, in microseconds", title), "");
        let mut print = |name: &str, condition: &str| {
            let times = time_table(&program, condition, tuned::tabulate);
            let ratio = print_line(name, times, "");
            let name = format!("table, {}, {}", flow.name, name);
            worst.grow(flow.is_ordinary, &name, size, times[0]);
            worst.meet(flow.is_ordinary, ratio, format!("{}, {} statements", name, size));
        };
        if flow.is_ordinary || flow.name == "backward jumps" {
            for operator in OPERATORS {
                print(&format!("63 {}", operator), &unary_condition(&[operator]));
            }
        }
        print("63 operators in turn", &unary_condition(&OPERATORS));
        print("31 of U, S, W, B", &binary_condition());
        print("32 atoms", &atoms_condition());
    }
}

/// Conditions of 64 parts, with their names.
fn conditions_by_size() -> [(&'static str, String); 2] {
    [("operators in turn", unary_condition(&OPERATORS)), ("U, S, W, B", binary_condition())]
}

fn print_table_growth(worst: &mut Worst) {
    print_heading("Tables of 64 parts by size, in microseconds", "ns a statement and part");
    for flow in &FLOWS {
        for (condition_name, condition) in &conditions_by_size() {
            for size in SIZES {
                let times = time_table(&(flow.program)(size), condition, tuned::tabulate);
                let each = format!("{:>11.2}", times[0] * 1e9 / (64 * size) as f64);
                let name = format!("{}, {}, {} statements", flow.name, condition_name, size);
                let ratio = print_line(&name, times, &each);
                worst.meet(flow.is_ordinary, ratio, format!("table, {}", name));
                let name = format!("table by size, {}, {}", flow.name, condition_name);
                worst.grow(flow.is_ordinary, &name, size, times[0]);
            }
        }
    }
}

// Reviews

/// A review of one kind.
struct Review {
    name: &'static str,
    is_ordinary: bool,
    lines: fn() -> Vec<u8>,
}

const REVIEWS: [Review; 9] = [
    Review { name: "5 lines", is_ordinary: true, lines: inputs::short_review },
    Review { name: "liveness", is_ordinary: true, lines: inputs::liveness_review },
    Review { name: "conditions of marks", is_ordinary: true, lines: inputs::marks_review },
    Review { name: "60 parts, all shared", is_ordinary: false, lines: inputs::same_review },
    Review { name: "`!` one more a line", is_ordinary: false, lines: inputs::growing_review },
    Review { name: "128 differing parts", is_ordinary: false, lines: inputs::differing_review },
    Review { name: "2 chains of 63 `!`", is_ordinary: false, lines: inputs::chains_review },
    Review { name: "32 chains, refused 17", is_ordinary: false, lines: inputs::refused_review },
    Review { name: "long atoms", is_ordinary: false, lines: inputs::atoms_review },
];

/// The times of a review, ours and tuned, and of as many calls of `tabulate` as it has lines.
fn time_review(program: &[u8], conditions: &[u8]) -> [f64; 3] {
    let (mut table, mut table_2) = ([0; REVIEW_WORDS], [0; REVIEW_WORDS]);
    let mut alone = [0; TABLE_WORDS];
    let lines: Vec<&[u8]> =
        conditions.split(|&byte| byte == 10).filter(|line| !line.is_empty()).collect();
    let times = medians(
        TIMES,
        [
            &mut || review(program, conditions, &mut table).is_ok(),
            &mut || tuned::review(program, conditions, &mut table_2).is_ok(),
            &mut || lines.iter().all(|line| tabulate(program, line, &mut alone).is_ok()),
        ],
    );
    assert!(table == table_2);
    times
}

fn print_reviews(worst: &mut Worst) {
    println!(
        "\nReviews, in microseconds; beside the tuned call, and beside a call of tabulate for each line. No table is\n\
         filled where a review is refused"
    );
    println!(
        "{:<60} {:>6} {:>6} {:>9} {:>9} {:>7} {:>9} {:>7}",
        "", "lines", "tables", "ours", "tuned", "ratio", "alone", "ratio"
    );
    let mut largest = (0.0, String::new());
    for flow in &FLOWS {
        for asked in &REVIEWS {
            for size in SIZES {
                let (program, conditions) = ((flow.program)(size), (asked.lines)());
                let [ours, tuned, alone] = time_review(&program, &conditions);
                let answer = review(&program, &conditions, &mut [0; REVIEW_WORDS]);
                let lines = conditions.iter().filter(|&&byte| byte == 10).count();
                let tables = answer.map_or(0, |answer| answer.tables);
                let name = format!("{}, {}, {} statements", flow.name, asked.name, size);
                println!(
                    "{:<60} {:>6} {:>6} {:>9.2} {:>9.2} {:>7.2} {:>9.2} {:>7.2}",
                    name,
                    lines,
                    tables,
                    ours * 1e6,
                    tuned * 1e6,
                    ours / tuned,
                    alone * 1e6,
                    ours / alone
                );
                if ours / alone > largest.0 {
                    largest = (ours / alone, name.clone());
                }
                let is_ordinary = flow.is_ordinary && asked.is_ordinary;
                worst.grow(is_ordinary, &format!("review, {}", asked.name), size, ours);
                worst.meet(is_ordinary, ours / tuned, format!("review, {}", name));
            }
        }
    }
    println!("largest ratio to a call for each line: {:.2} ({})", largest.0, largest.1);
}

// Games

/// A driver's list and a condition, and whether they are ordinary ones.
struct Game {
    name: &'static str,
    is_ordinary: bool,
    driver: &'static str,
    condition: &'static str,
}

const GAMES: [Game; 4] = [
    Game { name: "two levers, the end", is_ordinary: true, driver: "i1 i12", condition: "exit" },
    Game { name: "no lever, a use", is_ordinary: true, driver: "", condition: "use(i3)" },
    Game {
        name: "all even levers, the end",
        is_ordinary: false,
        driver: "i0 i2 i4 i6",
        condition: "exit",
    },
    Game {
        name: "all levers, line 2",
        is_ordinary: false,
        driver: "i0 i1 i2 i3 i4 i5 i6 i7",
        condition: "node(2)",
    },
];

fn time_game(program: &[u8], game: &Game) -> [f64; 2] {
    let (driver, condition) = (game.driver.as_bytes(), game.condition.as_bytes());
    let (mut table, mut table_2) = ([0; TABLE_WORDS], [0; TABLE_WORDS]);
    let (mut number, mut arm) = ([UNFORCED; STATEMENTS], [0; STATEMENTS]);
    let times = medians(
        TIMES,
        [&mut || force(program, driver, condition, &mut table).is_ok(), &mut || {
            tuned::force(program, driver, condition, &mut table_2, &mut number, &mut arm).is_ok()
        }],
    );
    let answer = force(program, driver, condition, &mut table).expect("the game is taken");
    assert!(table == table_2 && answer.number == number && answer.arm == arm);
    times
}

/// A chain of `if`s, each of which goes to the next line or back to itself.
fn chain(size: usize) -> Vec<u8> {
    let inner = |n: usize| format!("if i{} goto {} else {}", n % 2 * 2, n + 1, n);
    let lines: Vec<String> = (2..size).map(inner).collect();
    let lines: Vec<&str> = lines.iter().map(String::as_str).collect();
    text(&[&["read i0"], &lines[..], &["write i3"]].concat())
}

fn print_games(worst: &mut Worst) {
    print_heading(
        "What a driver can force, reading included, in microseconds; tuned by a queue",
        "     forced",
    );
    let chain = Flow { name: "chain of ifs", is_ordinary: false, program: chain };
    for flow in FLOWS.iter().chain([&chain]) {
        for game in &GAMES {
            for size in SIZES {
                let program = (flow.program)(size);
                let name = format!("{}, {}, {}", flow.name, game.name, size);
                let (driver, condition) = (game.driver.as_bytes(), game.condition.as_bytes());
                let answer = force(&program, driver, condition, &mut [0; TABLE_WORDS]);
                let numbers = answer.expect("the game is taken").number;
                let forced = numbers.iter().filter(|&&number| number != UNFORCED).count();
                let times = time_game(&program, game);
                let ratio = print_line(&name, times, &format!("{forced:>11}"));
                let is_ordinary = flow.is_ordinary && game.is_ordinary;
                worst.grow(is_ordinary, &format!("force, {}", game.name), size, times[0]);
                worst.meet(is_ordinary, ratio, format!("force, {}", name));
            }
        }
    }
}

// Paths

/// A condition with one path operator, which is asked for at the first statement, or at the last where it looks back.
struct Shown {
    condition: &'static str,
    is_back: bool,
}

const SHOWN: [Shown; 10] = [
    Shown { condition: "EX true", is_back: false },
    Shown { condition: "EF exit", is_back: false },
    Shown { condition: "AG !exit", is_back: false },
    Shown { condition: "E[!exit U exit]", is_back: false },
    Shown { condition: "EG true", is_back: false },
    Shown { condition: "AF false", is_back: false },
    Shown { condition: "E[true W false]", is_back: false },
    Shown { condition: "A[true U false]", is_back: false },
    Shown { condition: "ER entry", is_back: true },
    Shown { condition: "EM true", is_back: true },
];

/// The times of a path, ours and tuned, and of tabulating the same condition.
fn time_path(program: &[u8], condition: &[u8], part: u32, statement: u32) -> [f64; 3] {
    let (mut path, mut table) = ([0; PATH_WORDS], [0; TABLE_WORDS]);
    medians(
        TIMES,
        [
            &mut || witness(program, condition, part, statement).is_ok(),
            &mut || tuned::witness(program, condition, part, statement, &mut path).is_ok(),
            &mut || tabulate(program, condition, &mut table).is_ok(),
        ],
    )
}

fn print_paths(worst: &mut Worst) {
    println!(
        "\nPaths that show an operator, reading and tabulating included, in microseconds; tuned by a search breadth first,\n\
         and beside tabulating the same condition"
    );
    println!(
        "{:<52} {:>6} {:>10} {:>10} {:>7} {:>10} {:>7}",
        "", "length", "ours", "tuned", "ratio", "tabulate", "ratio"
    );
    let mut largest = (0.0, String::new());
    for flow in &FLOWS {
        for asked in &SHOWN {
            for size in SIZES {
                let (program, condition) = ((flow.program)(size), asked.condition.as_bytes());
                let statement = if asked.is_back { size as u32 } else { 1 };
                let parts = tabulate(&program, condition, &mut [0; TABLE_WORDS]);
                let part = parts.expect("the condition is taken").parts - 1;
                let told = witness(&program, condition, part, statement).expect("it is taken");
                let length = told.path().map_or(0, |path| path.statements.len());
                let [ours, tuned, table] = time_path(&program, condition, part, statement);
                let name = format!("{}, {}, {}", flow.name, asked.condition, size);
                println!(
                    "{:<52} {:>6} {:>10.2} {:>10.2} {:>7.2} {:>10.2} {:>7.2}",
                    name,
                    length,
                    ours * 1e6,
                    tuned * 1e6,
                    ours / tuned,
                    table * 1e6,
                    ours / table
                );
                if ours / table > largest.0 {
                    largest = (ours / table, name.clone());
                }
                worst.grow(flow.is_ordinary, &format!("path, {}", asked.condition), size, ours);
                worst.meet(flow.is_ordinary, ours / tuned, format!("path, {}", name));
            }
        }
    }
    println!("largest ratio to tabulating: {:.2} ({})", largest.0, largest.1);
}

// Marks

fn time_judging(program: &[u8], marks: &[u8]) -> [f64; 3] {
    let (mut verdicts, mut new) = ([0; VERDICT_BYTES], [0; TEXT_BYTES]);
    let (mut verdicts_2, mut new_2) = (verdicts, new);
    let (mut verdicts_3, mut new_3) = (verdicts, new);
    let times = medians(
        TIMES,
        [
            &mut || judge(program, marks, &mut verdicts, &mut new).is_ok(),
            &mut || tuned::judge(program, marks, &mut verdicts_2, &mut new_2).is_ok(),
            &mut || tuned::judge_by_labels(program, marks, &mut verdicts_3, &mut new_3).is_ok(),
        ],
    );
    assert!(verdicts == verdicts_2 && verdicts == verdicts_3);
    assert!(new == new_2 && new == new_3);
    times
}

/// A list of marks for a program.
type List = fn(&[u8]) -> Vec<u8>;

/// Prints the times of a list by size.
fn print_list(worst: &mut Worst, flow: &Flow, kind: &str, list: List) {
    for size in SIZES {
        let program = (flow.program)(size);
        let marks = list(&program);
        let [ours, search, labels] = time_judging(&program, &marks);
        let answer = judge(&program, &marks, &mut [0; VERDICT_BYTES], &mut [0; TEXT_BYTES]);
        let answer = answer.expect("the list is taken");
        let name = format!("{}, {} {}marks, {} statements", flow.name, answer.marks, kind, size);
        println!(
            "{:<54} {:>8} {:>10.2} {:>10.2} {:>7.2} {:>10.2} {:>7.2}",
            name,
            answer.accepted,
            ours * 1e6,
            search * 1e6,
            ours / search,
            labels * 1e6,
            ours / labels
        );
        let is_ordinary = flow.is_ordinary && kind.is_empty();
        worst.grow(is_ordinary, &format!("judge, {}", flow.name), size, ours);
        worst.meet(is_ordinary, ours / search, format!("judge, {}", name));
    }
}

/// Programs that compute each sum twice.
const SUMS: [Flow; 2] = [
    Flow { name: "sums", is_ordinary: false, program: inputs::sums },
    Flow { name: "sums in loops", is_ordinary: false, program: inputs::looped_sums },
];

/// The kinds of control flow that lists are judged on, with the lists and their names.
fn judged_lists() -> impl Iterator<Item = (&'static Flow, &'static str, List)> {
    let lists: [(&str, List); 2] = [("", marks_for), ("different ", different_marks_for)];
    let sums: [(&str, List); 2] =
        [("different cse ", cse_marks_for), ("rm and cse ", cse_and_rm_marks_for)];
    let of = |flows: &'static [Flow], lists: [(&'static str, List); 2]| {
        flows.iter().flat_map(move |flow| lists.map(|(kind, list)| (flow, kind, list)))
    };
    of(&FLOWS, lists).chain(of(&SUMS, sums))
}

fn print_judging(worst: &mut Worst) {
    println!(
        "\nJudging, in microseconds; tuned by a search from each mark's statement, and by labelling all statements for\n\
         each mark. A mark for each statement; then such that no two have the same condition; then on sums that are\n\
         computed twice, each to be reused, no two by the same condition, or the first dropped and the second reused"
    );
    println!(
        "{:<54} {:>8} {:>10} {:>10} {:>7} {:>10} {:>7}",
        "", "accepted", "ours", "search", "ratio", "labels", "ratio"
    );
    for (flow, kind, list) in judged_lists() {
        print_list(worst, flow, kind, list);
    }
}

// Reasons

/// The times of a mark's reason, ours and tuned, and of judging the same list.
fn time_reason(program: &[u8], marks: &[u8], line: u32) -> [f64; 3] {
    let mut path = [0; PATH_WORDS];
    let (mut verdicts, mut new) = ([0; VERDICT_BYTES], [0; TEXT_BYTES]);
    medians(
        TIMES,
        [
            &mut || why(program, marks, line).is_ok(),
            &mut || tuned::why(program, marks, line, &mut path).is_ok(),
            &mut || judge(program, marks, &mut verdicts, &mut new).is_ok(),
        ],
    )
}

/// Of each list the mark whose path is longest.
fn print_reasons(worst: &mut Worst) {
    println!(
        "\nWhy a mark is refused, the list judged, in microseconds; tuned by a search breadth first, and beside judging the list"
    );
    println!(
        "{:<52} {:>6} {:>10} {:>10} {:>7} {:>10} {:>7}",
        "", "length", "ours", "tuned", "ratio", "judge", "ratio"
    );
    let lists: [(&str, List); 2] = [("", marks_for), ("different ", different_marks_for)];
    let sums: [(&str, List); 1] = [("rm and cse ", cse_and_rm_marks_for)];
    let rows = FLOWS.iter().flat_map(|flow| lists.map(|list| (flow, list)));
    let mut largest = (0.0, String::new());
    for (flow, (kind, list)) in rows.chain(SUMS.iter().map(|flow| (flow, sums[0]))) {
        for size in SIZES {
            let program = (flow.program)(size);
            let marks = list(&program);
            let length = |line: u32| {
                let told = why(&program, &marks, line).expect("the list is taken");
                told.reason.map_or(0, |reason| reason.path.len())
            };
            let count = marks.iter().filter(|&&byte| byte == 10).count() as u32;
            let line = (0..count).max_by_key(|&line| length(line)).expect("there are marks");
            let [ours, tuned, judging] = time_reason(&program, &marks, line);
            let name = format!("{}, {}marks, {} statements", flow.name, kind, size);
            println!(
                "{:<52} {:>6} {:>10.2} {:>10.2} {:>7.2} {:>10.2} {:>7.2}",
                name,
                length(line),
                ours * 1e6,
                tuned * 1e6,
                ours / tuned,
                judging * 1e6,
                ours / judging
            );
            if ours / judging > largest.0 {
                largest = (ours / judging, name.clone());
            }
            let is_ordinary = flow.is_ordinary && kind.is_empty();
            worst.grow(is_ordinary, &format!("why, {}", flow.name), size, ours);
            worst.meet(is_ordinary, ours / tuned, format!("why, {}", name));
        }
    }
    println!("largest ratio to judging: {:.2} ({})", largest.0, largest.1);
}

// Reports

fn time_report(program: &[u8], marks: &[u8]) -> [f64; 2] {
    let (mut before, mut after) = ([0; STATEMENTS], [0; STATEMENTS]);
    let ours = Prices::ours();
    let times = medians(
        TIMES,
        [&mut || report(program, marks, &ours).is_ok(), &mut || {
            tuned::report(program, marks, &OURS, &mut before, &mut after).is_ok()
        }],
    );
    let answer = report(program, marks, &ours).expect("program and list are taken");
    assert!(answer.before == before && answer.after == after);
    times
}

fn print_reports(worst: &mut Worst) {
    print_heading(
        "Reports on the same lists, no text written, in microseconds; tuned by a search",
        "      saved",
    );
    let lists: [(&str, List); 2] = [("", marks_for), ("different ", different_marks_for)];
    let sums: [(&str, List); 1] = [("rm and cse ", cse_and_rm_marks_for)];
    let rows = FLOWS.iter().flat_map(|flow| lists.map(|list| (flow, list)));
    for (flow, (kind, list)) in rows.chain(SUMS.iter().map(|flow| (flow, sums[0]))) {
        for size in SIZES {
            let program = (flow.program)(size);
            let marks = list(&program);
            let report = report(&program, &marks, &Prices::ours());
            let saved = report.expect("the list is taken").saved;
            let name = format!("{}, {}marks, {} statements", flow.name, kind, size);
            let times = time_report(&program, &marks);
            let ratio = print_line(&name, times, &format!("{saved:>11}"));
            let is_ordinary = flow.is_ordinary && kind.is_empty();
            worst.grow(is_ordinary, &format!("report, {}", flow.name), size, times[0]);
            worst.meet(is_ordinary, ratio, format!("report, {}", name));
        }
    }
}

// Lists of readers and writers

/// The times of a list, ours and tuned, and of reading the program alone, ours and tuned.
fn time_list(program: &[u8]) -> [f64; 4] {
    let (mut words, mut words_2) = ([0; LIST_WORDS], [0; LIST_WORDS]);
    let (values, ours) = ([0; VARIABLES], Prices::ours());
    let times = medians(
        TIMES,
        [
            &mut || list(program, &mut words).is_ok(),
            &mut || tuned::list(program, &mut words_2).is_ok(),
            &mut || run(program, &values, 7, 0, &ours).is_ok(),
            &mut || tuned::run(program, &values, 7, 0, &OURS).is_ok(),
        ],
    );
    assert!(words == words_2);
    times
}

/// The times of a list brought up to date, ours and tuned, and of judging the same marks.
fn time_relist(program: &[u8], marks: &[u8]) -> [f64; 3] {
    let mut words = [0; LIST_WORDS];
    list(program, &mut words).expect("the program is taken");
    let mut words_2 = words;
    let (mut verdicts, mut new) = ([0; VERDICT_BYTES], [0; TEXT_BYTES]);
    let times = medians(
        TIMES,
        [
            &mut || relist(program, marks, &mut words).is_ok(),
            &mut || tuned::relist(program, marks, &mut words_2).is_ok(),
            &mut || judge(program, marks, &mut verdicts, &mut new).is_ok(),
        ],
    );
    let bytes = judge(program, marks, &mut verdicts, &mut new).expect("the list is taken").bytes;
    let mut afresh = [0; LIST_WORDS];
    list(&new[..bytes as usize], &mut afresh).expect("new text is taken");
    assert!(words == words_2 && words == afresh);
    times
}

fn print_lists(worst: &mut Worst) {
    println!(
        "\nLists of readers and writers, in microseconds; then reading alone (run under budget 0), which is a part of them"
    );
    println!(
        "{:<40} {:>10} {:>10} {:>7} {:>10} {:>10} {:>7}",
        "", "ours", "tuned", "ratio", "reading", "tuned", "ratio"
    );
    for flow in &FLOWS {
        for size in SIZES {
            let name = format!("{}, {} statements", flow.name, size);
            let [ours, tuned, reading, tuned_reading] = time_list(&(flow.program)(size));
            println!(
                "{:<40} {:>10.2} {:>10.2} {:>7.2} {:>10.2} {:>10.2} {:>7.2}",
                name,
                ours * 1e6,
                tuned * 1e6,
                ours / tuned,
                reading * 1e6,
                tuned_reading * 1e6,
                reading / tuned_reading
            );
            worst.grow(flow.is_ordinary, &format!("list, {}", flow.name), size, ours);
            worst.meet(flow.is_ordinary, ours / tuned, format!("list, {}", name));
        }
    }
}

fn print_relists(worst: &mut Worst) {
    println!(
        "\nLists brought up to date after a round of marks, in microseconds; beside judging them. No marks, a mark for\n\
         each statement, and such that no two have the same condition"
    );
    println!(
        "{:<54} {:>10} {:>10} {:>7} {:>10} {:>7}",
        "", "ours", "tuned", "ratio", "judge", "ratio"
    );
    let lists: [(&str, List); 3] =
        [("no ", |_| Vec::new()), ("", marks_for), ("different ", different_marks_for)];
    let mut largest = (0.0, String::new());
    for flow in &FLOWS {
        for (kind, marks) in lists {
            for size in SIZES {
                let program = (flow.program)(size);
                let name = format!("{}, {}marks, {} statements", flow.name, kind, size);
                let [ours, tuned, judging] = time_relist(&program, &marks(&program));
                println!(
                    "{:<54} {:>10.2} {:>10.2} {:>7.2} {:>10.2} {:>7.2}",
                    name,
                    ours * 1e6,
                    tuned * 1e6,
                    ours / tuned,
                    judging * 1e6,
                    ours / judging
                );
                if ours / judging > largest.0 {
                    largest = (ours / judging, name.clone());
                }
                let is_ordinary = flow.is_ordinary && kind != "different ";
                worst.grow(is_ordinary, &format!("relist, {}marks", kind), size, ours);
                worst.meet(is_ordinary, ours / tuned, format!("relist, {}", name));
            }
        }
    }
    println!("largest ratio to judging: {:.2} ({})", largest.0, largest.1);
}

// At the limit

/// The same loops, texts, tables and lists, beside the calls that are as fast as plain Rust can be.
fn print_limit() {
    println!(
        "\nAt the limit: runs of 1,000,000 steps, reading (run under budget 0), tables of 64 parts, and judging, in microseconds\n\
         {:<52} {:>10} {:>10} {:>7}",
        "", "ours", "limit", "ratio"
    );
    print_limit_of_runs();
    print_limit_of_tables();
    print_limit_of_judging();
}

fn print_limit_of_runs() {
    let loops = LOOPS.map(|(name, statements)| {
        (format!("loop of {}", name), loop_of(statements), MOST_STEPS, RUN_TIMES)
    });
    let texts = SIZES.map(|lines| {
        let program = good_text(lines);
        (format!("reading {} lines, {} bytes", lines, program.len()), program, 0, TIMES)
    });
    for (name, program, budget, times) in loops.into_iter().chain(texts) {
        let (values, ours) = ([0; VARIABLES], Prices::ours());
        let ticks = run(&program, &values, 7, budget, &ours).map(|it| it.ticks());
        let wanted = limit::run(&program, &values, 7, budget, &OURS).map(|it| it.ticks());
        assert_eq!(ticks.ok(), wanted.ok());
        let found = medians(
            times,
            [&mut || run(&program, &values, 7, budget, &ours).is_ok(), &mut || {
                limit::run(&program, &values, 7, budget, &OURS).is_ok()
            }],
        );
        print_line(&name, found, "");
    }
}

fn print_limit_of_tables() {
    for flow in &FLOWS {
        for (condition_name, condition) in &conditions_by_size() {
            for size in SIZES {
                let times = time_table(&(flow.program)(size), condition, limit::tabulate);
                let name = format!("{}, {}, {} statements", flow.name, condition_name, size);
                print_line(&name, times, "");
            }
        }
    }
}

fn print_limit_of_judging() {
    for (flow, kind, list) in judged_lists() {
        for size in SIZES {
            let program = (flow.program)(size);
            let marks = list(&program);
            let (mut verdicts, mut new) = ([0; VERDICT_BYTES], [0; TEXT_BYTES]);
            let (mut verdicts_2, mut new_2) = (verdicts, new);
            let times = medians(
                TIMES,
                [&mut || judge(&program, &marks, &mut verdicts, &mut new).is_ok(), &mut || {
                    limit::judge(&program, &marks, &mut verdicts_2, &mut new_2).is_ok()
                }],
            );
            assert!(verdicts == verdicts_2 && new == new_2);
            print_line(&format!("{}, {}marks, {} statements", flow.name, kind, size), times, "");
        }
    }
}

fn main() {
    let mut worst = Worst::default();
    println!("machine: {}", machine());
    println!(
        "medians of {} times of each call, of {} times of runs; of fewer where they take long",
        TIMES, RUN_TIMES
    );
    print_runs(&mut worst);
    print_prices(&mut worst);
    print_reading(&mut worst);
    print_writing(&mut worst);
    print_joining(&mut worst);
    print_stages(&mut worst);
    print_tables(&mut worst);
    print_table_growth(&mut worst);
    print_reviews(&mut worst);
    print_games(&mut worst);
    print_paths(&mut worst);
    print_judging(&mut worst);
    print_reasons(&mut worst);
    print_reports(&mut worst);
    print_lists(&mut worst);
    print_relists(&mut worst);
    print_limit();
    println!("\nlargest ratio, ordinary inputs:    {:.2} ({})", worst.ordinary.0, worst.ordinary.1);
    println!(
        "largest ratio, adversarial inputs: {:.2} ({})",
        worst.adversarial.0, worst.adversarial.1
    );
    println!(
        "largest time over 1,024 statements by that over 256, ordinary inputs: {:.2} ({})",
        worst.growth.0, worst.growth.1
    );
}
