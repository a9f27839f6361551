//! Prices, the report and the ticks of runs: the cases of the change request.

use super::{lines, ran, P, P_PRICES};
use crate::check::check;
use crate::desk;
use crate::generate::{self, Random};
use crate::machine::{run_program, Outcome, Run, State, VALUES};
use crate::marks::{self, Judge};
use crate::pricing::{kind, price, prices_of, report, Report, KINDS, KIND_NAMES, OURS};
use crate::program::{Program, Statement};

fn statement(text: &str) -> Statement {
    Statement::read(text.as_bytes()).expect("a statement")
}

/// A statement of each kind, and its price as the request says it.
const PRICED: [(&str, u32); KINDS] = [
    ("read i0", 4),
    ("write i31", 4),
    ("skip", 1),
    ("if i0 goto 2 else 3", 3),
    ("i0 := i1", 2),
    ("i0 := i1 + i2", 3),
    ("i0 := i1 - 4", 3),
    ("i0 := 3 * i2", 9),
    ("i0 := i1 < i2", 3),
    ("i0 := i1 = 1", 3),
    ("i0 := i1 / i2", 24),
];

#[test]
fn each_kind_has_its_price() {
    for (at, (text, wanted)) in PRICED.into_iter().enumerate() {
        let statement = statement(text);
        assert_eq!((kind(&statement), price(&OURS, &statement)), (at, wanted), "{text}");
        assert!(text.contains(KIND_NAMES[at]) || KIND_NAMES[at] == "X := A", "{text}");
        // By another table it is that table's entry.
        let other = std::array::from_fn(|k| 65_535 - k as u32);
        assert_eq!(price(&other, &statement), 65_535 - at as u32, "{text}");
    }
}

#[test]
fn the_price_goes_by_the_kind_alone() {
    for (text, wanted) in [
        ("i0 := 7", 2),
        ("i0 := -2147483648", 2),
        ("i0 := i0", 2),
        ("if i31 goto 2 else 2", 3),
        ("i0 := 1 / 0", 24),
        ("i0 := i1 / 1", 24),
        ("i0 := 0 * 0", 9),
        ("i0 := -1 - -1", 3),
        ("read i31", 4),
    ] {
        assert_eq!(price(&OURS, &statement(text)), wanted, "{text}");
    }
}

/// What the report tells of a program and a list, by the call and by what the check program prints.
fn told(program: &str, list: &str) -> Report {
    let told =
        report(program.as_bytes(), list.as_bytes(), &OURS).expect("program and list are taken");
    let printed = check(program.as_bytes(), list.as_bytes());
    assert!(String::from_utf8_lossy(&printed).ends_with(&format!("\n{}", told.text())));
    told
}

/// The three totals.
fn totals(program: &str, list: &str) -> (u32, u32, i32) {
    let told = told(program, list);
    (told.given, told.rewritten, told.saved)
}

#[test]
fn the_report_on_p() {
    let list =
        "4: mark(rpl, i2, 7)\n3: mark(rm, i2, 7)\n4: mark(rpl, i1, i0)\n6: mark(rm, i0, 1)\n\
                9: mark(rm, i2, 7)\n";
    for list in [list, "", "4: mark(rpl, i2, 7)\n"] {
        let told = told(P, list);
        assert_eq!(told.before, [4, 2, 2, 3, 3, 3, 3, 4]);
        assert_eq!(told.after, told.before);
        assert_eq!((told.given, told.rewritten, told.saved), (24, 24, 0));
        assert_eq!(told.text(), P_PRICES);
    }
    assert_eq!(totals("read i0\nwrite i0\n", ""), (8, 8, 0));
}

#[test]
fn marks_save_ticks() {
    let unused = |right: &str| {
        let program = format!("read i0\ni1 := {right}\nwrite i0\n");
        totals(&program, &format!("2: mark(rm, i1, {right})\n"))
    };
    assert_eq!(unused("i0 * 3"), (17, 9, 8));
    assert_eq!(unused("i0"), (10, 9, 1));
    assert_eq!(unused("7"), (10, 9, 1));
    assert_eq!(unused("i0 + 7"), (11, 9, 2));
    assert_eq!(unused("i0 < 7"), (11, 9, 2));
    assert_eq!(unused("i0 / 7"), (32, 9, 23));
    // A division that may fault stays, and so does its price.
    assert_eq!(unused("i0 / i2"), (32, 32, 0));
    let twice = |right: &str| {
        let program = format!("read i0\ni1 := {right}\ni2 := {right}\nwrite i2\n");
        totals(&program, &format!("3: mark(cse, i1, {right})\n"))
    };
    assert_eq!(twice("i0 + 1"), (14, 13, 1));
    assert_eq!(twice("i0 - 1"), (14, 13, 1));
    assert_eq!(twice("i0 * 3"), (26, 19, 7));
    assert_eq!(twice("i0 / i3"), (56, 34, 22));
    // `rpl` changes no price.
    let copied = lines("read i0 / i1 := i0 / i2 := i1 * i1 / if i1 goto 5 else 5 / write i1");
    let list = "3: mark(rpl, i1, i0)\n4: mark(rpl, i1, i0)\n5: mark(rpl, i1, i0)\n";
    assert_eq!(totals(&copied, list), (22, 22, 0));
    // All three kinds.
    let three = lines("read i0 / i1 := i0 + 1 / i2 := i0 + 1 / i3 := 7 / i4 := i2 * i3 / write i2");
    let list = "3: mark(cse, i1, i0 + 1)\n5: mark(rm, i4, i2 * i3)\n4: mark(rm, i3, 7)\n";
    let told = told(&three, list);
    assert_eq!((told.before, told.after), (vec![4, 3, 3, 2, 9, 4], vec![4, 3, 2, 2, 1, 4]));
    assert_eq!((told.given, told.rewritten, told.saved), (25, 16, 9));
}

#[test]
fn reports_are_refused_as_judging_is() {
    let p = P.as_bytes();
    assert_eq!(report(b"rubbish", b"", &OURS), Err(2));
    assert_eq!(report(b"", b"x", &OURS), Err(3));
    assert_eq!(report(b"read i0\nskip\n", b"x", &OURS), Err(4));
    assert_eq!(report(b"read i0\nif i0 goto 1 else 2\nwrite i0\n", b"x", &OURS), Err(5));
    assert_eq!(report(p, b"x", &OURS), Err(9));
    assert_eq!(report(p, b"3: mark(rm, i2, 7)", &OURS), Err(9));
    assert_eq!(report(p, &b"3: mark(rm, i2, 7)\n".repeat(1_025), &OURS), Err(10));
    // After a refused call nothing of the report is printed.
    assert_eq!(check(p, b"x"), b"refused 9\n");
    assert_eq!(check(b"", b""), b"refused 3\n");
}

#[test]
fn the_largest_totals() {
    let given = format!("read i0\n{}write i0\n", "i1 := 7 / 2\n".repeat(1_022));
    let list: String = (2..1_024).map(|n| format!("{n}: mark(rm, i1, 7 / 2)\n")).collect();
    assert_eq!(totals(&given, &list), (24_536, 1_030, 23_506));
    assert_eq!(totals(&given, ""), (24_536, 24_536, 0));
    let told = told(&given, &list);
    assert_eq!((told.before.len(), told.before[1_023], told.after[1_022]), (1_024, 4, 1));
    assert!(told.text().starts_with("1 4 4\n2 24 1\n"));
    assert!(told.text().ends_with("\n1023 24 1\n1024 4 4\n24536\n1030\n23506\n"));
}

#[test]
fn ticks_of_runs() {
    let ticks = |input, budget| ran(P, [0; VALUES], input, budget).ticks();
    assert_eq!((ticks(0, 1_000_000), ticks(0, 6), ticks(0, 5)), (18, 18, 14));
    assert_eq!((ticks(2, 1_000_000), ticks(2, 12), ticks(2, 11)), (36, 36, 32));
    assert_eq!((ticks(2, 0), ticks(2, 1), ticks(2, 2)), (0, 4, 6));
    // A statement once for each time, and the last step counts.
    let products = lines("read i0 / i1 := i1 * i0 / if i2 goto 2 else 2 / write i1");
    assert_eq!(ran(&products, [0; VALUES], 3, 1_000_000).ticks(), 4 + 500_000 * 9 + 499_999 * 3);
    let wide =
        format!("read i0\n{}if i2 goto 2 else 2\nwrite i1\n", "i1 := i1 * i0\n".repeat(1_021));
    // 978 rounds of 1,022 statements, and 483 products more.
    assert_eq!(978 * 1_022 + 483, 999_999);
    let wanted = 4 + 978 * (1_021 * 9 + 3) + 483 * 9;
    assert_eq!(ran(&wide, [0; VALUES], 3, 1_000_000).ticks(), wanted);
    // A faulting statement counts.
    let divided = "read i0\ni1 := 10 / i0\nwrite i1\n";
    assert_eq!(
        ran(divided, [0; VALUES], 0, 100),
        Outcome::Fault { statement: 2, steps: 2, ticks: 28 }
    );
    assert_eq!(ran(divided, [0; VALUES], 0, 1).ticks(), 4);
    assert_eq!(ran(divided, [0; VALUES], 5, 3).ticks(), 32);
}

#[test]
fn desk_lines_tell_ticks() {
    let run = |start: &str| desk::run(P.as_bytes(), start.as_bytes(), false);
    assert_eq!(run("2\n12\n"), "ended 9 steps 12 ticks 36 kept 0 0 0 0 0 0 0 0\n");
    assert!(run("2\n11\n").starts_with("spent at 8 ticks 32\ni0 = 0\n"));
    assert!(run("2\n0\n").starts_with("spent at 1 ticks 0\ni0 = 0\n"));
    let fault = "read i0\ni1 := 10 / i0\nwrite i1\n";
    assert_eq!(desk::run(fault.as_bytes(), b"0\n9\n", false), "fault at 2 steps 2 ticks 28\n");
    // The rewritten program takes fewer.
    let given = lines("read i0 / i1 := i0 * 3 / write i0");
    let compared = desk::compare(given.as_bytes(), b"2: mark(rm, i1, i0 * 3)\n", b"5\n9\n");
    let kept = "kept 0 0 0 0 0 0 0 0";
    assert!(compared.ends_with(&format!(
        "\ngiven ended 5 steps 3 ticks 17 {kept}\nrewritten ended 5 steps 3 ticks 9 {kept}\n\
         statements, outcome and live variables agree\n"
    )));
    let compared = desk::compare(given.as_bytes(), b"2: mark(rm, i1, i0 * 3)\n", b"5\n2\n");
    assert!(compared.contains("\ngiven spent at 3 ticks 13\nrewritten spent at 3 ticks 5\n"));
}

/// The totals are the sums of the printed columns, and the third is the first less the second.
#[test]
fn printed_totals_are_the_sums_of_the_lines_above() {
    let random = &mut Random::new(71);
    let (mut saved, mut kept) = (0, 0);
    for _ in 0..3_000 {
        let size = generate::size(random);
        let program = generate::program(random, size);
        let count = random.below(size + 4).min(60);
        let list = generate::marks(random, &program, count);
        let printed = check(&program.text(), &marks::text(&list));
        let printed = String::from_utf8(printed).expect("what is printed is ASCII");
        let printed: Vec<&str> = printed.lines().collect();
        let (lines, totals) = printed[1 + count + size..].split_at(size);
        let totals: Vec<i64> = totals.iter().map(|total| total.parse().expect("a total")).collect();
        let mut sums = [0, 0];
        for (at, line) in lines.iter().enumerate() {
            let words: Vec<i64> = line.split(' ').map(|word| word.parse().expect("one")).collect();
            assert_eq!((words.len(), words[0]), (3, at as i64 + 1), "{line}");
            assert!(words[1] >= words[2] && words[2] > 0, "{line}");
            sums = [sums[0] + words[1], sums[1] + words[2]];
        }
        assert_eq!(totals, [sums[0], sums[1], sums[0] - sums[1]]);
        *(if totals[2] > 0 { &mut saved } else { &mut kept }) += 1;
    }
    println!("{saved} {kept}");
    assert!(saved > 500 && kept > 100);
}

/// A price changes only where an accepted mark makes another statement, and never by `rpl`.
#[test]
fn prices_change_by_accepted_marks_alone() {
    let random = &mut Random::new(72);
    for _ in 0..2_000 {
        let size = random.between(3, 40);
        let program = generate::program(random, size);
        let list = generate::marks(random, &program, 12);
        let told = told(&program.to_string(), &String::from_utf8_lossy(&marks::text(&list)));
        let verdicts = Judge::new(&program).verdicts(&list);
        let mut wanted = prices_of(&OURS, &program);
        for (mark, _) in list.iter().zip(&verdicts).filter(|(_, &verdict)| verdict == 0) {
            match mark.kind {
                marks::Kind::Remove(_) => wanted[mark.number as usize - 1] = 1,
                marks::Kind::Reuse(_) => wanted[mark.number as usize - 1] = 2,
                marks::Kind::Replace(_) => {}
            }
        }
        assert_eq!((told.before, told.after), (prices_of(&OURS, &program), wanted));
    }
}

/// The ticks under a budget are those of one step less and the price of the statement that comes next.
#[test]
fn each_step_adds_the_price_of_its_statement() {
    let random = &mut Random::new(73);
    for _ in 0..1_000 {
        let size = generate::size(random).min(60);
        let program = generate::program(random, size);
        let (values, input) = (generate::values(random), generate::word(random));
        let mut run = Run::start(&program, values, input);
        let mut performed = [0_u64; KINDS];
        for budget in 0..60 {
            let ticks: u64 =
                performed.iter().zip(OURS).map(|(n, price)| n * u64::from(price)).sum();
            assert_eq!(run_program(&program, values, input, budget, &OURS).ticks(), ticks);
            if let State::Before { statement, .. } = *run.state() {
                performed[kind(program.statement(statement).expect("a statement"))] += 1;
            }
            run.step();
        }
    }
}

/// What tests need of generated programs: a text of each kind, all met by runs.
#[test]
fn generated_runs_perform_every_kind() {
    let random = &mut Random::new(74);
    let mut met = [0; KINDS];
    for _ in 0..2_000 {
        let size = generate::size(random).min(60);
        let program: Program = generate::program(random, size);
        let (values, input) = (generate::values(random), generate::word(random));
        let mut run = Run::start(&program, values, input);
        for _ in 0..60 {
            if let State::Before { statement, .. } = *run.state() {
                met[kind(program.statement(statement).expect("a statement"))] += 1;
            }
            run.step();
        }
    }
    assert!(met.iter().all(|&times| times > 100), "{met:?}");
}
