//! Executed cases of a buyer's own prices: the table read, and runs and reports by it. Expected answers are worked out from the
//! request, by hand; `differential.rs` holds the calls to a second implementation.

mod common;

use common::{lines, text, P};
use rewrites::{raw, report, run, Outcome, Prices, Refusal, Report, KINDS, MOST_STEPS, VARIABLES};

/// The marks to check against.
const MARKS: &[u8] = b"4: mark(rpl, i2, 7)\n3: mark(rm, i2, 7)\n4: mark(rpl, i1, i0)\n\
    6: mark(rm, i0, 1)\n9: mark(rm, i2, 7)\n";

/// Our eleven prices, as a buyer would write them.
const OURS: &str = "4\n4\n1\n3\n2\n3\n3\n9\n3\n3\n24\n";

/// The prices 1 to 11.
const COUNTED: Prices = Prices([1, 2, 3, 4, 5, 6, 7, 8, 9, 10, 11]);

/// Words on both sides of the table that is lent.
const GUARD: usize = 4;

/// The number that the export returns, and the eleven words afterwards; those around them are kept.
fn lend(text: &[u8], held: Prices) -> (u8, Prices) {
    let mut words = [0xeeee_0001; KINDS + 2 * GUARD];
    words[GUARD..GUARD + KINDS].copy_from_slice(&held.0);
    let given = text.to_vec();
    let place = words[GUARD..].as_mut_ptr().cast();
    // SAFETY: the pointers come from references, and they don't overlap.
    let number = unsafe { raw::rewrites_prices(given.as_ptr(), given.len(), place) };
    let around = words[..GUARD].iter().chain(&words[GUARD + KINDS..]);
    assert!(around.into_iter().all(|&word| word == 0xeeee_0001));
    assert_eq!(given, text);
    (number, Prices(std::array::from_fn(|k| words[GUARD + k])))
}

/// What a text does to a table, by the export and by the safe function.
fn replaced(text: &str, held: Prices) -> (u8, Prices) {
    let mut prices = held;
    let answer = prices.read(text.as_bytes());
    let number = answer.map_or_else(Refusal::number, |()| 0);
    assert_eq!(lend(text.as_bytes(), held), (number, prices), "{text:?}");
    (number, prices)
}

/// The number of a text. One that is refused leaves every entry of a table as it was, also those outside the range.
fn number(text: &str) -> u8 {
    let held = Prices([9, 8, 0, 7, 65_536, 5, 4, u32::MAX, 2, 1, 3]);
    let (number, prices) = replaced(text, held);
    assert!(number == 0 || prices == held, "{text:?}");
    number
}

/// The lines 1 to 11, line k, counted from 0, in this spelling.
fn with_line(k: usize, line: &str) -> String {
    (0..KINDS).map(|at| if at == k { line.to_string() } else { format!("{}\n", at + 1) }).collect()
}

// The table

#[test]
fn the_first_table_is_ours() {
    let ours = Prices([4, 4, 1, 3, 2, 3, 3, 9, 3, 3, 24]);
    assert_eq!((Prices::ours(), Prices::default()), (ours, ours));
    // All eleven are set, and no other word.
    let mut words = [7; KINDS + 2];
    // SAFETY: the pointer comes from a reference.
    unsafe { raw::rewrites_our_prices(words[1..].as_mut_ptr().cast()) };
    assert_eq!((words[0], words[KINDS + 1]), (7, 7));
    assert_eq!(words[1..=KINDS], ours.0);
}

#[test]
fn a_table_that_is_taken_sets_all_eleven() {
    assert_eq!(replaced(OURS, COUNTED), (0, Prices::ours()));
    assert_eq!(replaced("1\n2\n3\n4\n5\n6\n7\n8\n9\n10\n11\n", Prices::ours()), (0, COUNTED));
    assert_eq!(replaced(&"65535\n".repeat(11), COUNTED), (0, Prices([65_535; KINDS])));
    assert_eq!(replaced(&"1\n".repeat(11), COUNTED), (0, Prices([1; KINDS])));
    // It is the text's, whatever was held.
    assert_eq!(replaced(OURS, Prices([0; KINDS])), (0, Prices::ours()));
}

#[test]
fn a_wrong_line_is_19_wherever_it_stands() {
    #[rustfmt::skip]
    let wrong = [
        "0\n", "65536\n", "007\n", "07\n", "00\n", "-1\n", "+1\n", "-0\n", "\n", " \n", " 1\n", "1 \n", "1 1\n", "1\r\n", "\t1\n",
        "1.\n", "1,0\n", "1e1\n", "0x1\n", "a\n", "\0\n", "1\0\n", "\u{e9}\n", "/\n", ":\n", "1\n\n",
        "65537\n", "66000\n", "70000\n", "99999\n", "100000\n", "655350\n", "131073\n",
        // What would lie in the range if it wrapped.
        "4294967295\n", "4294967296\n", "4294967297\n", "18446744073709551617\n", "340282366920938463463374607431768211457\n",
    ];
    for k in 0..KINDS {
        for line in wrong {
            assert_eq!(number(&with_line(k, line)), 19, "line {k}: {line:?}");
        }
        for digit in ["0", "1", "6", "9"] {
            assert_eq!(number(&with_line(k, &(digit.repeat(1_000) + "\n"))), 19, "line {k}");
        }
        for line in
            ["1\n", "9\n", "10\n", "99\n", "100\n", "9999\n", "10000\n", "65529\n", "65535\n"]
        {
            assert_eq!(number(&with_line(k, line)), 0, "line {k}: {line:?}");
        }
    }
}

#[test]
fn other_than_eleven_lines_are_20() {
    for count in (0..=30).chain([255, 256, 257, 5_000]) {
        assert_eq!(number(&"7\n".repeat(count)), if count == 11 { 0 } else { 20 }, "{count}");
    }
}

#[test]
fn every_line_is_read_before_lines_are_counted() {
    for count in (0..=30).chain([255, 256, 257, 5_000]) {
        for wrong in ["0\n", "65536\n", "\n", "x\n"] {
            for at in [0, count / 2, count] {
                let text = "7\n".repeat(at) + wrong + &"7\n".repeat(count - at);
                assert_eq!(number(&text), 19, "{wrong:?} behind {at} of {count}");
            }
        }
        // An unfinished last line is wrong, also where it is the eleventh, the twelfth or the first.
        assert_eq!(number(&("7\n".repeat(count) + "7")), 19, "{count}");
    }
    assert_eq!(number(&(OURS.to_string() + "7")), 19);
    assert_eq!(number(&OURS[..OURS.len() - 1]), 19);
    assert_eq!((number(""), number("\n"), number("7")), (20, 19, 19));
}

#[test]
fn no_text_may_be_null() {
    let mut prices = COUNTED;
    // SAFETY: a text of no bytes isn't read.
    let number = unsafe { raw::rewrites_prices(std::ptr::null(), 0, &mut prices.0) };
    assert_eq!((number, prices), (20, COUNTED));
}

// Reports

fn told(program: &[u8], marks: &[u8], prices: &Prices) -> Report {
    let told = report(program, marks, prices).expect("program and list are taken");
    let (before, after) = (&told.before, &told.after);
    assert_eq!((told.given, told.rewritten), (before.iter().sum(), after.iter().sum()));
    assert_eq!(i64::from(told.saved), i64::from(told.given) - i64::from(told.rewritten));
    told
}

#[test]
fn the_report_on_p_by_the_prices_1_to_11() {
    let told = told(P.as_bytes(), MARKS, &COUNTED);
    assert_eq!(told.before[..8], [1, 5, 5, 6, 4, 7, 4, 2]);
    assert_eq!(told.after, told.before);
    assert_eq!((told.given, told.rewritten, told.saved), (34, 34, 0));
}

/// Each kind has its entry, in the order of the request.
#[test]
fn each_kind_of_statement_has_its_entry() {
    let statements = [
        "skip",
        "if i0 goto 3 else 3",
        "i1 := i0",
        "i1 := i0 + i2",
        "i1 := i0 - i2",
        "i1 := i0 * i2",
        "i1 := i0 < i2",
        "i1 := i0 = i2",
        "i1 := i0 / i2",
    ];
    let prices = Prices([101, 202, 303, 404, 505, 606, 707, 808, 909, 1_010, 1_111]);
    for (k, statement) in statements.into_iter().enumerate() {
        let program = text(&["read i0", statement, "write i1"]);
        let told = told(&program, b"", &prices);
        assert_eq!(told.before[..3], [101, 101 * (k as u32 + 3), 202], "{statement}");
    }
}

/// Both columns are of the table in force.
#[test]
fn marks_save_and_cost_by_the_table() {
    let dropped = b"read i0\ni1 := i0 * 3\nwrite i0\n";
    let mark = b"2: mark(rm, i1, i0 * 3)\n";
    let prices = Prices([10, 20, 30, 40, 50, 60, 70, 80, 90, 100, 110]);
    let answer = told(dropped, mark, &prices);
    assert_eq!((answer.given, answer.rewritten, answer.saved), (110, 60, 50));
    let twice = b"read i0\ni1 := i0 - 1\ni2 := i0 - 1\nwrite i2\n";
    let answer = told(twice, b"3: mark(cse, i1, i0 - 1)\n", &prices);
    assert_eq!(answer.before[..4], [10, 70, 70, 20]);
    assert_eq!(answer.after[..4], [10, 70, 50, 20]);
    assert_eq!((answer.given, answer.rewritten, answer.saved), (170, 150, 20));
}

#[test]
fn a_difference_may_be_below_zero() {
    let mut prices = Prices([1; KINDS]);
    prices.0[2] = 65_535;
    let answer = told(b"read i0\ni1 := i0\nwrite i0\n", b"2: mark(rm, i1, i0)\n", &prices);
    assert_eq!(answer.before[..3], [1, 1, 1]);
    assert_eq!(answer.after[..3], [1, 65_535, 1]);
    assert_eq!((answer.given, answer.rewritten, answer.saved), (3, 65_537, -65_534));
    // The most that a list can cost.
    let mut program = vec!["i1 := i0"; 1_024];
    (program[0], program[1_023]) = ("read i0", "write i0");
    let marks: Vec<String> = (2..1_024).map(|n| format!("{n}: mark(rm, i1, i0)")).collect();
    let answer = told(&text(&program), &text(&marks), &prices);
    assert_eq!((answer.given, answer.rewritten, answer.saved), (1_024, 66_976_772, -66_975_748));
}

#[test]
fn the_largest_totals() {
    let answer = told(&text(&lines(1_024)), b"", &Prices([65_535; KINDS]));
    assert_eq!((answer.given, answer.rewritten, answer.saved), (67_107_840, 67_107_840, 0));
}

// Runs

fn ticks(program: &[u8], input: u32, budget: u32, prices: &Prices) -> u64 {
    run(program, &[0; VARIABLES], input, budget, prices).expect("the program is taken").ticks()
}

#[test]
fn runs_of_p_by_the_prices_1_to_11() {
    let p = |input, budget| ticks(P.as_bytes(), input, budget, &COUNTED);
    // 1 to 5, 6 7 4 5, 6 7, 8.
    let spent = [0, 1, 6, 11, 17, 21, 28, 32, 38, 42, 49, 53, 55];
    for (budget, wanted) in spent.into_iter().enumerate() {
        assert_eq!(p(2, budget as u32), wanted, "budget {budget}");
    }
    assert_eq!((p(2, MOST_STEPS), p(0, MOST_STEPS)), (55, 23));
}

/// Prices tell ticks alone: a budget is of steps.
#[test]
fn all_but_ticks_stays() {
    for prices in [Prices::ours(), COUNTED, Prices([65_535; KINDS]), Prices([0; KINDS])] {
        match run(P.as_bytes(), &[0; VARIABLES], 2, 12, &prices) {
            Ok(Outcome::Ended { value: 9, steps: 12, kept, .. }) => assert_eq!(kept, [0; 8]),
            other => panic!("{other:?}"),
        }
        let spent = run(P.as_bytes(), &[0; VARIABLES], 2, 11, &prices);
        assert!(matches!(spent, Ok(Outcome::Spent { statement: 8, .. })));
        assert_eq!(run(P.as_bytes(), &[0; VARIABLES], 2, 1_000_001, &prices), Err(Refusal::Budget));
        assert_eq!(run(b"", &[0; VARIABLES], 2, 9, &prices), Err(Refusal::LineCount));
        assert_eq!(report(b"", b"", &prices), Err(Refusal::LineCount));
        assert_eq!(report(P.as_bytes(), b"x", &prices), Err(Refusal::MarkMisspelled));
    }
}

#[test]
fn a_million_steps_at_the_largest_price() {
    let most = Prices([65_535; KINDS]);
    let endless = text(&["read i0", "i1 := i1 * i0", "if i2 goto 2 else 2", "write i1"]);
    assert_eq!(ticks(&endless, 3, MOST_STEPS, &most), 65_535_000_000);
    // Around the largest number of 32 bits.
    assert_eq!(ticks(&endless, 3, 65_537, &most), u64::from(u32::MAX));
    assert_eq!(ticks(&endless, 3, 65_538, &most), u64::from(u32::MAX) + 65_535);
    // A fault and an end count their last step.
    let faulting = text(&["read i0", "i1 := i0 / 0", "write i1"]);
    assert_eq!(ticks(&faulting, 3, MOST_STEPS, &most), 2 * 65_535);
    assert_eq!(ticks(&text(&lines(1_024)), 3, 1_024, &most), 1_024 * 65_535);
}

// Entries outside the range

#[test]
fn entries_outside_count_as_ours_one_by_one() {
    // `read` 4, `write` 4, `if` 3, `*` 9 and `=` 3 are ours.
    let mixed = Prices([0, 65_536, 7, u32::MAX, 50, 65_535, 1, 65_537, 2, 1 << 31, 3]);
    let in_force = Prices([4, 4, 7, 3, 50, 65_535, 1, 9, 2, 3, 3]);
    let all = text(&[
        "read i0",
        "skip",
        "i1 := i0",
        "i2 := i0 + i1",
        "i2 := i0 - i1",
        "i2 := i0 * i1",
        "i2 := i0 < i1",
        "i2 := i0 = i1",
        "i2 := i0 / 5",
        "if i0 goto 11 else 11",
        "write i2",
    ]);
    let told_all = told(&all, b"", &mixed);
    assert_eq!(told_all.before[..11], [4, 7, 50, 65_535, 1, 9, 2, 3, 3, 3, 4]);
    assert_eq!(told_all, told(&all, b"", &in_force));
    assert_eq!(ticks(&all, 5, 100, &mixed), u64::from(told_all.given));
    assert_eq!(told(P.as_bytes(), MARKS, &mixed).before[..8], [4, 50, 50, 65_535, 3, 1, 3, 4]);
    assert_eq!(ticks(P.as_bytes(), 2, 12, &mixed), ticks(P.as_bytes(), 2, 12, &in_force));
    // Each entry singly: it is ours, and all others are the table's.
    for k in 0..KINDS {
        for outside in [0, 65_536, 65_537, 131_072, 1 << 31, u32::MAX] {
            let (mut one, mut wanted) = (COUNTED, COUNTED);
            one.0[k] = outside;
            wanted.0[k] = Prices::ours().0[k];
            assert_eq!(told(&all, b"", &one), told(&all, b"", &wanted), "{k} {outside}");
            assert_eq!(ticks(&all, 5, 100, &one), ticks(&all, 5, 100, &wanted), "{k} {outside}");
        }
    }
    // None is in the range: all are ours.
    let none = Prices([0; KINDS]);
    assert_eq!(told(P.as_bytes(), MARKS, &none), told(P.as_bytes(), MARKS, &Prices::ours()));
    assert_eq!(ticks(P.as_bytes(), 2, 12, &none), 36);
}
