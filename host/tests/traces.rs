//! Executed cases of given and rewritten programs side by side: before each step every variable that the given program
//! may still use before defining it holds the same value in both. Which others differ, and where, is worked out by hand;
//! `differential.rs` has the random cases, by the second implementation's liveness.

mod common;

use common::{run, text};
use rewrites::{judge, review, Outcome};
use rewrites::{
    KEPT, PART_WORDS, REVIEW_LINES, REVIEW_WORDS, TEXT_BYTES, VARIABLES, VERDICT_BYTES,
};

/// The states before each step of a run, from the first to the last, each a statement and the values there; and how the
/// run ends, without its ticks, which a rewriting may change.
fn trace(
    program: &[u8],
    values: &[u32; VARIABLES],
    input: u32,
) -> (Vec<(u32, [u32; VARIABLES])>, Outcome) {
    let mut states = Vec::new();
    for budget in 0..1_000 {
        match run(program, values, input, budget).expect("a program is taken") {
            Outcome::Spent { statement, values, .. } => states.push((statement, values)),
            over => return (states, without_ticks(over)),
        }
    }
    panic!("the run goes on");
}

fn without_ticks(mut outcome: Outcome) -> Outcome {
    match &mut outcome {
        Outcome::Ended { ticks, .. }
        | Outcome::Fault { ticks, .. }
        | Outcome::Spent { ticks, .. } => {
            *ticks = 0;
        }
    }
    outcome
}

/// For each variable whether it is live at each statement, statement n at n - 1.
fn live(program: &[u8], count: usize) -> Vec<Vec<bool>> {
    let lines: Vec<String> = (0..VARIABLES).map(|x| format!("E[!def(i{x}) U use(i{x})]")).collect();
    let mut live = Vec::new();
    for lines in lines.chunks(REVIEW_LINES) {
        let mut table = [0; REVIEW_WORDS];
        let reviewed = review(program, &text(lines), &mut table).expect("a program is taken");
        for &of_line in &reviewed.table_of[..lines.len()] {
            let row = &table[PART_WORDS * of_line as usize..];
            live.push((0..count).map(|at| row[at / 64] >> (at % 64) & 1 == 1).collect());
        }
    }
    live
}

/// The new text of a list with these verdicts.
fn judged(program: &[&str], marks: &[(&str, u8)]) -> Vec<u8> {
    let lines: Vec<&str> = marks.iter().map(|mark| mark.0).collect();
    let wanted: Vec<u8> = marks.iter().map(|mark| mark.1).collect();
    let (mut verdicts, mut new) = ([99; VERDICT_BYTES], [0; TEXT_BYTES]);
    let answer = judge(&text(program), &text(&lines), &mut verdicts, &mut new);
    let answer = answer.expect("program and list are taken");
    assert_eq!(verdicts[..answer.marks as usize], wanted, "{marks:?}");
    new[..answer.bytes as usize].to_vec()
}

/// A variable, and its values in the given and in the rewritten program.
type Difference = (usize, i32, i32);

/// These marks are judged so, and make these statements. From this start both programs run with these differences before
/// steps, counted from 1, and none elsewhere; none of the variables that differ is live there. How both end.
fn side_by_side(
    program: &[&str],
    marks: &[(&str, u8)],
    made: &[(usize, &str)],
    (values, input): (&[u32; VARIABLES], u32),
    differences: &[(usize, &[Difference])],
) -> Outcome {
    let mut rewritten = program.to_vec();
    made.iter().for_each(|&(n, statement)| rewritten[n - 1] = statement);
    let (given, new) = (text(program), judged(program, marks));
    assert_eq!(new, text(&rewritten), "{}", String::from_utf8_lossy(&new));
    let live = live(&given, program.len());
    let ((one, ends), (other, other_ends)) =
        (trace(&given, values, input), trace(&new, values, input));
    assert_eq!(ends, other_ends);
    assert_eq!(one.len(), other.len());
    for (k, ((at, a), (there, b))) in one.iter().zip(&other).enumerate() {
        assert_eq!(at, there, "before step {}", k + 1);
        let found: Vec<Difference> = (0..VARIABLES)
            .filter(|&x| a[x] != b[x])
            .map(|x| (x, a[x] as i32, b[x] as i32))
            .collect();
        let wanted = differences.iter().find(|(step, _)| *step == k + 1);
        assert_eq!(found, wanted.map_or(&[][..], |wanted| wanted.1), "before step {}", k + 1);
        assert!(found.iter().all(|&(x, ..)| !live[x][*at as usize - 1]), "before step {}", k + 1);
    }
    ends
}

/// All the same difference, before so many steps from the first of them on.
fn from<'a>(first: usize, last: usize, at: &'a [Difference]) -> Vec<(usize, &'a [Difference])> {
    (first..=last).map(|step| (step, at)).collect()
}

fn ended(value: i32, steps: u32) -> Outcome {
    Outcome::Ended { value, steps, ticks: 0, kept: [0; KEPT] }
}

#[test]
fn a_sum_and_a_dropped_product() {
    let program =
        ["read i0", "i1 := i0 + 1", "i5 := i0 * 2", "i2 := i0 + 1", "i5 := i2", "write i5"];
    let marks = [("4: mark(cse, i1, i0 + 1)", 0), ("3: mark(rm, i5, i0 * 2)", 0)];
    let made = [(3, "skip"), (4, "i2 := i1")];
    // i5 is set anew by 5, so it is dead from 3 to 5.
    let differences = from(4, 5, &[(5, 8, 0)]);
    let start = (&[0; VARIABLES], 4);
    assert_eq!(side_by_side(&program, &marks, &made, start, &differences), ended(5, 6));
    let live = live(&text(&program), 6);
    assert_eq!(live[5], [false, false, false, false, false, true]);
    assert_eq!(live[1], [false; 6]);
}

#[test]
fn a_pair_that_faults() {
    let program = ["read i0", "i3 := 9", "i1 := i2 - i2", "i4 := i0 / i1", "i3 := i4", "write i3"];
    let marks = [("2: mark(rm, i3, 9)", 0), ("4: mark(rm, i4, i0 / i1)", 18)];
    let differences = from(3, 4, &[(3, 9, 0)]);
    let ends = side_by_side(&program, &marks, &[(2, "skip")], (&[0; VARIABLES], 5), &differences);
    assert_eq!(ends, Outcome::Fault { statement: 4, steps: 4, ticks: 0 });
    // The same by 0 in place of i1, where i1 is a copy of it.
    let program = ["read i0", "i3 := 9", "i1 := 0", "i4 := i0 / i1", "i3 := i4", "write i3"];
    let marks = [("2: mark(rm, i3, 9)", 0), ("4: mark(rpl, i1, 0)", 0)];
    let made = [(2, "skip"), (4, "i4 := i0 / 0")];
    let ends = side_by_side(&program, &marks, &made, (&[0; VARIABLES], 5), &differences);
    assert_eq!(ends, Outcome::Fault { statement: 4, steps: 4, ticks: 0 });
}

#[test]
fn a_kept_gear_set_on_one_arm() {
    // The other arm comes to `write` with 2's value.
    let program = ["read i0", "i24 := i0 + 1", "if i0 goto 4 else 5", "i24 := 3", "write i0"];
    let marks = [("2: mark(rm, i24, i0 + 1)", 14)];
    let mut kept = [0; KEPT];
    for (input, gear, steps) in [(0, 1, 4), (7, 3, 5)] {
        kept[0] = gear;
        let ends = side_by_side(&program, &marks, &[], (&[0; VARIABLES], input), &[]);
        assert_eq!(ends, Outcome::Ended { value: input as i32, steps, ticks: 0, kept });
    }
    // i24 is live there, but for the arm that sets it.
    assert_eq!(live(&text(&program), 5)[24], [false, false, true, false, true]);
    // Here it is set on one arm, and on the other the run goes round before it ends: dead before each of them.
    let program = [
        "read i0",
        "i24 := i0 + 1",
        "if i0 goto 4 else 6",
        "i24 := i0 * 2",
        "if i0 goto 8 else 8",
        "i0 := 5",
        "if i0 goto 4 else 4",
        "write i0",
    ];
    let marks = [("2: mark(rm, i24, i0 + 1)", 0)];
    let made = [(2, "skip")];
    kept[0] = 14;
    let ends =
        side_by_side(&program, &marks, &made, (&[0; VARIABLES], 7), &from(3, 4, &[(24, 8, 0)]));
    assert_eq!(ends, Outcome::Ended { value: 7, steps: 6, ticks: 0, kept });
    kept[0] = 10;
    let ends =
        side_by_side(&program, &marks, &made, (&[0; VARIABLES], 0), &from(3, 6, &[(24, 1, 0)]));
    assert_eq!(ends, Outcome::Ended { value: 5, steps: 8, ticks: 0, kept });
}

#[test]
fn a_copy_before_a_loop() {
    let program = [
        "read i0",
        "i1 := i2",
        "i6 := 1",
        "i3 := i3 + i1",
        "i6 := i3 * i1",
        "i0 := i0 - i1",
        "if i0 goto 4 else 8",
        "write i3",
    ];
    let marks = [
        ("4: mark(rpl, i1, i2)", 0),
        ("5: mark(rm, i6, i3 * i1)", 0),
        ("3: mark(rm, i6, 1)", 0),
        ("6: mark(rpl, i1, i2)", 0),
        ("2: mark(rm, i1, i2)", 14),
    ];
    let made = [(3, "skip"), (4, "i3 := i3 + i2"), (5, "skip"), (6, "i0 := i0 - i2")];
    let mut values = [0; VARIABLES];
    values[2] = 2;
    // Two rounds of four steps. i6 is 1, then 4, then 8 in the given program.
    let differences =
        [from(4, 5, &[(6, 1, 0)]), from(6, 9, &[(6, 4, 0)]), from(10, 12, &[(6, 8, 0)])].concat();
    let ends = side_by_side(&program, &marks, &made, (&values, 4), &differences);
    assert_eq!(ends, ended(4, 12));
}

/// A `cse` reads i1 where nothing else does. That isn't a use of the given program, in which i1 is dead from 3 on; it holds
/// the same value all the same, for nothing drops it.
#[test]
fn the_uses_that_a_list_adds_are_not_the_given_programs() {
    let program = ["read i0", "i1 := i0 + 1", "i3 := i0", "i2 := i0 + 1", "i1 := 4", "write i2"];
    let marks = [
        ("2: mark(rm, i1, i0 + 1)", 14),
        ("4: mark(cse, i1, i0 + 1)", 0),
        ("5: mark(rm, i1, 4)", 0),
        ("3: mark(rm, i3, i0)", 0),
    ];
    let made = [(3, "skip"), (4, "i2 := i1"), (5, "skip")];
    let (three, both): (&[Difference], &[Difference]) = (&[(3, 6, 0)], &[(1, 4, 7), (3, 6, 0)]);
    let differences = [from(4, 5, three), from(6, 6, both)].concat();
    let ends = side_by_side(&program, &marks, &made, (&[0; VARIABLES], 6), &differences);
    assert_eq!(ends, ended(7, 6));
    assert_eq!(live(&text(&program), 6)[1], [false; 6]);
}
