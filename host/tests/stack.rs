//! The stack that the deepest calls take: the figures in `README.md`. With `--nocapture` they are
//! printed.

mod common;

use common::{lines, text};
use rewrites::{force, join, judge, list, relist, report, review, run, tabulate};
use rewrites::{
    Prices, Refusal, Stages, LIST_WORDS, MARKS, MOST_STEPS, REVIEW_LINES, REVIEW_WORDS,
};
use rewrites::{STATEMENTS, TABLE_WORDS, TEXT_BYTES, VARIABLES, VERDICT_BYTES};
use std::process::Command;
use std::thread;

/// What `run`, `judge`, `tabulate`, `review`, `mark_line`, `report`, `force`, `list`, `relist`, `join`, `prices`, `keep`, `return`,
/// `blame_program`, `blame_marks`, `blame_condition`, `witness` and `why` take at most, in KiB, as `include/rewrites.h` tells.
const MOST: [u32; 18] =
    [256, 384, 384, 384, 16, 512, 384, 256, 384, 256, 16, 256, 256, 256, 16, 32, 384, 256];

#[test]
fn no_call_takes_more_stack_than_is_told() {
    let bytes = MOST.map(|kib| (kib << 10).to_string());
    let measured =
        Command::new(common::compiled("stack")).args(bytes).output().expect("the C program runs");
    println!("{}", String::from_utf8_lossy(&measured.stdout));
    assert!(measured.status.success());
}

#[test]
fn the_deepest_conditions_are_read_in_a_thread_with_512_kib_of_stack() {
    let cases = [
        ("!".repeat(1020) + "true", Refusal::ConditionParts),
        ("!".repeat(1024), Refusal::ConditionMisspelled),
        ("EX ".repeat(340) + "true", Refusal::ConditionParts),
        ("E[".repeat(512), Refusal::ConditionMisspelled),
        ("(".repeat(1020) + "true", Refusal::ConditionMisspelled),
        ("(".repeat(1024), Refusal::ConditionMisspelled),
    ];
    for (condition, refusal) in cases {
        let program = text(&lines(STATEMENTS));
        let mut table = vec![0; TABLE_WORDS];
        let last = "true\n".repeat(REVIEW_LINES - 1) + &condition + "\n";
        let deepest = condition.clone();
        let call = move || tabulate(&program, condition.as_bytes(), &mut table);
        assert_eq!(in_small_thread(call), Err(refusal));

        let program = text(&lines(STATEMENTS));
        let mut table = vec![0; TABLE_WORDS];
        let call = move || force(&program, b"i0", deepest.as_bytes(), &mut table);
        assert_eq!(in_small_thread(call), Err(refusal));

        let program = text(&lines(STATEMENTS));
        let mut table = vec![0; REVIEW_WORDS];
        let call = move || review(&program, last.as_bytes(), &mut table);
        assert_eq!(in_small_thread(call), Err(refusal));
    }
}

/// The programs and lists that take the most, by the safe functions, which have the answers in their own frames too.
#[test]
fn the_longest_programs_are_taken_in_a_thread_with_512_kib_of_stack() {
    let mut program: Vec<String> =
        (1..=STATEMENTS).map(|n| format!("i{} := i63 + {}", n % 2, n / 2)).collect();
    (program[0], program[STATEMENTS - 1]) = ("read i63".to_string(), "write i63".to_string());
    let kind = |n: usize| if n % 2 == 0 { "rm" } else { "cse" };
    let marks: Vec<String> =
        (1..=MARKS).map(|n| format!("{n}: mark({}, i0, i63 + {})", kind(n), n / 2)).collect();
    let (program, marks) = (text(&program), text(&marks));
    let accepted = in_small_thread(move || {
        let (mut verdicts, mut new) = (vec![0; VERDICT_BYTES], vec![0; TEXT_BYTES]);
        let judged = judge(&program, &marks, &mut verdicts, &mut new)?;
        let told = report(&program, &marks, &Prices::ours())?;
        assert_eq!(told.statements as usize, STATEMENTS);
        let mut words = vec![0; LIST_WORDS];
        list(&program, &mut words)?;
        relist(&program, &marks, &mut words)?;
        run(&program, &[0; VARIABLES], 5, MOST_STEPS, &Prices::ours())?;
        let half = text(&lines(STATEMENTS / 2));
        join(&half, &half, &mut new)?;
        let mut stages = Stages::new();
        stages.keep("given", &program)?;
        assert_eq!(stages.go_back("given")?, program);
        Ok::<_, Refusal>(judged.accepted)
    });
    assert_eq!(accepted, Ok(511));
}

/// What a call answers in a thread with 512 KiB of stack.
fn in_small_thread<A: Send + 'static>(call: impl FnOnce() -> A + Send + 'static) -> A {
    let thread = thread::Builder::new().stack_size(512 << 10).spawn(call);
    thread.expect("the thread starts").join().expect("the thread ends")
}
