//! Cases from the defining documents, decided open points, and random cross tests.

mod buyer;
mod constants;
mod cse;
mod division;
mod document;
mod forcing;
mod generated;
mod join;
mod kept;
mod limit;
mod limit_marks;
mod limit_tables;
mod listing;
mod mark_lines;
mod naive;
mod open_points;
mod paths;
mod pricing;
mod review;
mod stages;
mod traces;
mod tuned;

use crate::condition::{self, PART_WORDS, TABLE_WORDS};
use crate::machine::{run, Kept, Outcome, Values};
use crate::marks::{self, TEXT_BYTES, VERDICT_BYTES};
use crate::pricing::OURS;
use crate::program::{Program, KEPT};

/// The document's program P.
const P: &str = "read i0\ni1 := i0\ni2 := 7\ni3 := i1 + i2\nif i0 goto 6 else 8\ni0 := i0 - 1\n\
                 if i0 goto 4 else 8\nwrite i3\n";

/// What the report on P tells where no mark changes a price.
const P_PRICES: &str = "1 4 4\n2 2 2\n3 2 2\n4 3 3\n5 3 3\n6 3 3\n7 3 3\n8 4 4\n24\n24\n0\n";

/// What is kept where no statement and no start sets it.
const ZEROS: Kept = [0; KEPT];

/// The text of the statements that are named between slashes.
fn lines(statements: &str) -> String {
    statements.split(" / ").map(|statement| format!("{statement}\n")).collect()
}

/// `read`, as many `skip` as make `count` lines, `write`.
fn skips(count: usize) -> String {
    format!("read i0\n{}write i0\n", "skip\n".repeat(count - 2))
}

fn refusal(program: &str) -> u8 {
    Program::read(program.as_bytes()).map_or_else(|number| number, |_| 0)
}

fn condition_refusal(text: &str) -> u8 {
    condition::Condition::read(text.as_bytes()).map_or_else(|number| number, |_| 0)
}

/// Word 0 of each part of a condition over a program.
fn words(program: &str, text: &str) -> Vec<u64> {
    let mut table = [0; TABLE_WORDS];
    let answer = condition::tabulate(program.as_bytes(), text.as_bytes(), &mut table);
    let (parts, _, _) = answer.unwrap_or_else(|number| panic!("{text}: refused {number}"));
    (0..parts as usize).map(|part| table[PART_WORDS * part]).collect()
}

/// Word 0 of a whole condition over a program.
fn whole(program: &str, text: &str) -> u64 {
    *words(program, text).last().expect("a condition has a part")
}

/// The verdicts of a list and the new text.
fn judged(program: &str, list: &str) -> (Vec<u8>, String) {
    let (mut verdicts, mut text) = ([99; VERDICT_BYTES], [99; TEXT_BYTES]);
    let answer = marks::judge(program.as_bytes(), list.as_bytes(), &mut verdicts, &mut text);
    let (count, accepted, bytes) = answer.unwrap_or_else(|number| panic!("refused {number}"));
    let verdicts = verdicts[..count as usize].to_vec();
    assert_eq!(accepted as usize, verdicts.iter().filter(|&&verdict| verdict == 0).count());
    (verdicts, String::from_utf8(text[..bytes as usize].to_vec()).expect("new text is ASCII"))
}

/// Word 0 of each part of a condition, by the plain, by the tuned call, and by that at the limit.
fn table(program: &str, condition: &str) -> Vec<u64> {
    let plain = words(program, condition);
    for tabulate in [crate::tuned::tabulate, crate::limit::tabulate] {
        let mut filled = [0; TABLE_WORDS];
        let answer = tabulate(program.as_bytes(), condition.as_bytes(), &mut filled);
        let (parts, _, _) = answer.expect("program and condition are taken");
        let found: Vec<u64> = (0..parts as usize).map(|part| filled[PART_WORDS * part]).collect();
        assert_eq!(plain, found, "{condition}");
    }
    plain
}

/// The verdicts of a list and the new text, by the plain, by both tuned calls, and by that at the limit.
fn all_judged(program: &str, list: &str) -> (Vec<u8>, String) {
    let plain = judged(program, list);
    let judges = [crate::tuned::judge, crate::tuned::judge_by_labels, crate::limit::judge];
    for judge in judges {
        let (mut verdicts, mut text) = ([99; VERDICT_BYTES], [99; TEXT_BYTES]);
        let answer = judge(program.as_bytes(), list.as_bytes(), &mut verdicts, &mut text);
        let (count, _, bytes) = answer.expect("program and list are taken");
        assert_eq!(verdicts[..count as usize], plain.0, "{list}");
        assert_eq!(text[..bytes as usize], *plain.1.as_bytes(), "{list}");
    }
    plain
}

/// A run by the plain, by the tuned call, and by that at the limit.
fn ran(program: &str, values: Values, input: u32, budget: u32) -> Outcome {
    let plain = run(program.as_bytes(), values, input, budget, &OURS);
    for run in [crate::tuned::run, crate::limit::run] {
        assert_eq!(run(program.as_bytes(), &values, input, budget, &OURS), plain);
    }
    plain.expect("the program is taken")
}
