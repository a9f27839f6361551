//! A buyer's own prices: the cases of the change request.

use super::{lines, skips, P};
use crate::check::check;
use crate::generate::{self, Random, WrongPrice};
use crate::machine::{run, run_program, Outcome, Run, State, VALUES};
use crate::marks::{self, Judge};
use crate::pricing::{in_force, kind, prices_of, report, table_text};
use crate::pricing::{Prices, Report, KINDS, OURS, RANGE};
use crate::program::MOST_LINES;
use crate::tuned;

/// The prices 1 to 11.
fn counted() -> Prices {
    std::array::from_fn(|k| k as u32 + 1)
}

/// What the plain and the tuned call answer, with the table in force afterwards.
fn replaced(text: &[u8], held: Prices) -> (u8, Prices) {
    let (mut one, mut other) = (held, held);
    let answer = crate::pricing::replace(text, &mut one);
    assert_eq!(tuned::replace(text, &mut other), answer, "{}", text.escape_ascii());
    assert_eq!(one, other, "{}", text.escape_ascii());
    (answer.err().unwrap_or(0), one)
}

/// The number of a text, which leaves a table alone where it is refused.
fn number(text: &str) -> u8 {
    let held = [9, 8, 0, 7, 65_536, 5, 4, u32::MAX, 2, 1, 3];
    let (number, prices) = replaced(text.as_bytes(), held);
    assert!(number == 0 || prices == held, "{text:?}");
    number
}

/// Eleven lines, line k, counted from 0, in this spelling, byte 10 included.
fn with_line(k: usize, line: &str) -> String {
    (0..KINDS).map(|at| if at == k { line.to_string() } else { format!("{}\n", at + 1) }).collect()
}

#[test]
fn tables_are_read() {
    let ours = "4\n4\n1\n3\n2\n3\n3\n9\n3\n3\n24\n";
    assert_eq!(replaced(ours.as_bytes(), counted()), (0, OURS));
    assert_eq!(table_text(&OURS), ours.as_bytes());
    assert_eq!(replaced(b"1\n2\n3\n4\n5\n6\n7\n8\n9\n10\n11\n", OURS), (0, counted()));
    assert_eq!(replaced(&b"65535\n".repeat(11), OURS), (0, [65_535; KINDS]));
    assert_eq!(replaced(&b"1\n".repeat(11), OURS), (0, [1; KINDS]));
}

#[test]
fn wrong_lines_are_refused() {
    for k in 0..KINDS {
        for right in ["1\n", "9\n", "10\n", "65535\n", "60000\n"] {
            assert_eq!(number(&with_line(k, right)), 0, "{right:?}");
        }
        #[rustfmt::skip]
        let wrong = [
            "0\n", "65536\n", "007\n", "07\n", "00\n", "-1\n", "+1\n", "\n", " \n", " 1\n", "1 \n", "1\r\n", "1 1\n", "1,000\n", "1.0\n", "0x1\n",
            "1e1\n", "a\n", "\t1\n", "65537\n", "99999\n", "100000\n", "131073\n", "4294967297\n", "4294967295\n", "18446744073709551617\n",
            "\0\n", "\u{e9}\n", "/\n", ":\n", "-0\n", "- 1\n", "1\n\n", "1\0\n",
        ];
        for line in wrong {
            assert_eq!(number(&with_line(k, line)), 19, "{line:?}");
        }
        for digit in ["1", "0", "9"] {
            assert_eq!(number(&with_line(k, &(digit.repeat(1_000) + "\n"))), 19);
        }
    }
}

#[test]
fn other_numbers_of_lines_are_refused() {
    for count in (0..=40).chain([255, 256, 257, 300, 10_000]) {
        let wanted = if count == KINDS { 0 } else { 20 };
        assert_eq!(number(&"7\n".repeat(count)), wanted, "{count}");
        // Every line is read first: a wrong one is told, wherever it stands.
        for at in [0, count / 2, count] {
            let text = "7\n".repeat(at) + "0\n" + &"7\n".repeat(count - at);
            assert_eq!(number(&text), 19, "{count} {at}");
        }
        // So is one that isn't finished, also the twelfth, and the eleventh.
        assert_eq!(number(&("7\n".repeat(count) + "7")), 19, "{count}");
    }
    assert_eq!((number(""), number("\n"), number("7")), (20, 19, 19));
}

/// The report by a table, by the plain and by the tuned call.
fn told(program: &str, list: &str, prices: &Prices) -> Report {
    let (program, list) = (program.as_bytes(), list.as_bytes());
    let told = report(program, list, prices).expect("program and list are taken");
    let (mut before, mut after) = ([0; MOST_LINES], [0; MOST_LINES]);
    let answer = tuned::report(program, list, prices, &mut before, &mut after);
    let count = told.before.len();
    assert_eq!(answer, Ok((count as u32, told.given, told.rewritten, told.saved)));
    assert_eq!((&before[..count], &after[..count]), (&told.before[..], &told.after[..]));
    told
}

/// The ticks of a run by a table, by the plain and by the tuned call.
fn ticks(program: &str, input: u32, budget: u32, prices: &Prices) -> u64 {
    let plain = run(program.as_bytes(), [0; VALUES], input, budget, prices);
    assert_eq!(tuned::run(program.as_bytes(), &[0; VALUES], input, budget, prices), plain);
    plain.expect("the program is taken").ticks()
}

const P_MARKS: &str = "4: mark(rpl, i2, 7)\n3: mark(rm, i2, 7)\n4: mark(rpl, i1, i0)\n6: mark(rm, i0, 1)\n9: mark(rm, i2, 7)\n";

#[test]
fn p_by_the_prices_1_to_11() {
    let told = told(P, P_MARKS, &counted());
    assert_eq!(told.before, [1, 5, 5, 6, 4, 7, 4, 2]);
    assert_eq!(told.after, told.before);
    assert_eq!((told.given, told.rewritten, told.saved), (34, 34, 0));
    let p = |input, budget| ticks(P, input, budget, &counted());
    assert_eq!((p(2, 1_000_000), p(2, 12), p(2, 11)), (55, 55, 53));
    assert_eq!((p(0, 1_000_000), p(2, 0), p(2, 1), p(2, 2)), (23, 0, 1, 6));
}

#[test]
fn the_largest_prices() {
    let most = [65_535; KINDS];
    let endless = lines("read i0 / i1 := i1 * i0 / if i2 goto 2 else 2 / write i1");
    assert_eq!(ticks(&endless, 3, 1_000_000, &most), 65_535_000_000);
    assert_eq!(ticks(&endless, 3, 65_537, &most), 65_535 * 65_537);
    // 1,024 statements: the totals fit 32 bits.
    let told = told(&skips(1_024), "", &most);
    assert_eq!((told.given, told.rewritten, told.saved), (67_107_840, 67_107_840, 0));
}

#[test]
fn a_dropped_copy_may_cost_more() {
    let mut prices = [1; KINDS];
    prices[2] = 65_535;
    let (program, list) = ("read i0\ni1 := i0\nwrite i0\n", "2: mark(rm, i1, i0)\n");
    let dropped = told(program, list, &prices);
    assert_eq!((dropped.before, dropped.after), (vec![1, 1, 1], vec![1, 65_535, 1]));
    assert_eq!((dropped.given, dropped.rewritten, dropped.saved), (3, 65_537, -65_534));
    // The most that a program can lose.
    let given = format!("read i0\n{}write i0\n", "i1 := i0\n".repeat(1_022));
    let list: String = (2..1_024).map(|n| format!("{n}: mark(rm, i1, i0)\n")).collect();
    let dropped = told(&given, &list, &prices);
    assert_eq!((dropped.given, dropped.rewritten), (1_024, 1_022 * 65_535 + 2));
    assert_eq!(dropped.saved, -1_022 * 65_534);
}

/// An entry outside the range counts as ours, singly, and at each use.
#[test]
fn entries_outside_count_as_ours() {
    let mixed = [0, 65_536, 7, u32::MAX, 50, 65_535, 1, 65_537, 2, 1 << 31, 3];
    let wanted = [4, 4, 7, 3, 50, 65_535, 1, 9, 2, 3, 3];
    for k in 0..KINDS {
        assert_eq!(in_force(&mixed, k), wanted[k]);
        for outside in [0, 65_536, 65_537, 131_072, 1 << 31, u32::MAX] {
            let mut prices = counted();
            prices[k] = outside;
            for at in 0..KINDS {
                let wanted = if at == k { OURS[at] } else { at as u32 + 1 };
                assert_eq!(in_force(&prices, at), wanted, "{k} {outside} {at}");
            }
        }
    }
    let told = told(P, P_MARKS, &mixed);
    assert_eq!(told.before, [4, 50, 50, 65_535, 3, 1, 3, 4]);
    assert_eq!(ticks(P, 2, 1_000_000, &mixed), ticks(P, 2, 1_000_000, &wanted));
    // A table that was handed in stays as it is: what counts as ours isn't put there.
    assert_eq!(replaced(b"0\n", mixed), (19, mixed));
    assert_eq!(replaced(b"1\n", mixed), (20, mixed));
}

#[test]
fn the_check_program_stays_with_ours() {
    let printed = String::from_utf8(check(P.as_bytes(), P_MARKS.as_bytes())).expect("ASCII");
    assert!(printed.ends_with(&told(P, P_MARKS, &OURS).text()));
}

/// Budgets, outcomes and steps don't go by prices, and the ticks of each step are of the table in force.
#[test]
fn random_tables() {
    let random = &mut Random::new(80);
    let (mut outside, mut below, mut above) = (0, 0, 0);
    for _ in 0..3_000 {
        let size = generate::size(random).min(60);
        let program = generate::program(random, size);
        let prices = generate::prices(random);
        let forced: Prices = std::array::from_fn(|k| in_force(&prices, k));
        assert!(forced.iter().all(|price| RANGE.contains(price)));
        outside += usize::from(forced != prices);
        let (values, input) = (generate::values(random), generate::word(random));
        let mut run = Run::start(&program, values, input);
        let mut performed = [0_u64; KINDS];
        for budget in 0..40 {
            let wanted: u64 = (0..KINDS).map(|k| performed[k] * u64::from(forced[k])).sum();
            let outcome = run_program(&program, values, input, budget, &prices);
            assert_eq!(outcome.ticks(), wanted);
            assert!(outcome.is_alike(&run_program(&program, values, input, budget, &OURS)));
            if let State::Before { statement, .. } = *run.state() {
                performed[kind(program.statement(statement).expect("a statement"))] += 1;
            }
            run.step();
        }
        let list = generate::marks(random, &program, 12);
        let told =
            told(&program.to_string(), &String::from_utf8_lossy(&marks::text(&list)), &prices);
        let verdicts = Judge::new(&program).verdicts(&list);
        let rewritten = marks::rewritten(&program, &list, &verdicts);
        assert_eq!(
            (told.before, told.after),
            (prices_of(&forced, &program), prices_of(&forced, &rewritten))
        );
        let one = run_program(&program, values, input, 40, &prices);
        let other = run_program(&rewritten, values, input, 40, &prices);
        assert!(one.is_alike(&other));
        if let (Outcome::Ended { ticks: a, .. }, Outcome::Ended { ticks: b, .. }) = (one, other) {
            above += usize::from(a > b);
            below += usize::from(a < b);
        }
    }
    println!("{outside} {above} {below}");
    assert!(outside > 500 && above > 100 && below > 100);
}

#[test]
fn random_texts() {
    let random = &mut Random::new(81);
    let mut met = [0; 21];
    for _ in 0..20_000 {
        let held = generate::prices(random);
        let text = generate::price_text(random);
        let (number, prices) = replaced(&text, held);
        met[usize::from(number)] += 1;
        match number {
            0 => assert_eq!(table_text(&prices), text),
            _ => assert_eq!(prices, held),
        }
    }
    println!("{met:?}");
    assert!([0, 19, 20].iter().all(|&number| met[number] > 2_000));
    // Each wrong line is refused 19, whatever the number of lines.
    for wrong in WrongPrice::ALL {
        for _ in 0..500 {
            let list = generate::price_list(random);
            let text = generate::wrong_prices(random, wrong, &list);
            assert_eq!(replaced(&text, OURS), (19, OURS), "{wrong:?} {}", text.escape_ascii());
        }
    }
}
