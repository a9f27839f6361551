//! Executed cases of `join`. Joined texts and their runs are worked out from the description, by hand;
//! `differential.rs` holds the call to a second implementation. Each joined program is also run beside the two
//! programs one after the other, by the calls alone.

mod common;

use common::{given, lines, refused_programs, run, shown, text, P};
use rewrites::{join, raw, Joined, Outcome, Refusal, KEPT, TEXT_BYTES, VARIABLES};

// What is lent

/// Bytes on either side of the lent ones.
const GUARD: usize = 8;

/// The places lent to a raw call, with guards around them.
#[derive(Clone, Debug, PartialEq)]
struct Lent {
    text: Vec<u8>,
    places: [u32; 5],
}

fn unchanged(room: usize) -> Lent {
    let bytes = (0..room + 2 * GUARD).map(|k| 0x80 | (k % 127) as u8).collect();
    let places = [0xeeee_0001, 0xeeee_0002, 0xeeee_0003, 0xeeee_0004, 0xeeee_0005];
    Lent { text: bytes, places }
}

/// The number that a raw call returns, and the lent places after it.
fn lend(road: &[u8], creeper: &[u8], room: usize) -> (u8, Lent) {
    let mut lent = unchanged(room);
    let (first, second) = (road.to_vec(), creeper.to_vec());
    let text = &mut lent.text[GUARD..GUARD + room];
    let [_, statements, _, bytes, _] = &mut lent.places;
    // SAFETY: the pointers come from references, and no two of the written places overlap.
    let number = unsafe {
        raw::rewrites_join(
            first.as_ptr(),
            first.len(),
            second.as_ptr(),
            second.len(),
            text.as_mut_ptr(),
            text.len(),
            statements,
            bytes,
        )
    };
    assert_eq!((&first[..], &second[..]), (road, creeper));
    (number, lent)
}

/// A pair is refused, and all that is lent is kept.
fn assert_refused(road: &[u8], creeper: &[u8], room: usize, refusal: Refusal) {
    let about = || format!("{} {}", shown(road), shown(creeper));
    assert_eq!(lend(road, creeper, room), (refusal.number(), unchanged(room)), "{}", about());
    let mut lent = vec![7; room];
    assert_eq!(join(road, creeper, &mut lent), Err(refusal), "{}", about());
    assert!(lent.iter().all(|&byte| byte == 7));
}

/// The text that a pair is joined to; no other byte is set.
fn joined(road: &[u8], creeper: &[u8]) -> Vec<u8> {
    let mut new = [0; TEXT_BYTES];
    let answer = join(road, creeper, &mut new);
    let Joined { statements, bytes } = answer.unwrap_or_else(|refusal| panic!("{refusal}"));
    let found = new[..bytes as usize].to_vec();
    assert_eq!(found.iter().filter(|&&byte| byte == 10).count(), statements as usize);
    for room in [TEXT_BYTES, TEXT_BYTES + 1, 2 * TEXT_BYTES] {
        let mut expected = unchanged(room);
        expected.text[GUARD..GUARD + found.len()].copy_from_slice(&found);
        expected.places[1] = statements;
        expected.places[3] = bytes;
        assert_eq!(lend(road, creeper, room), (0, expected));
    }
    found
}

// Both programs in turn

fn outcome(program: &[u8], values: &[u32; VARIABLES], input: u32, budget: u32) -> Outcome {
    run(program, values, input, budget).unwrap_or_else(|refusal| panic!("{refusal}"))
}

/// What the seam spares: a `write` and a `read` at 4 ticks each become an assignment at 2.
const SEAM: u64 = 4 + 4 - 2;

/// How the two programs stand one after the other under a budget, as the joined one is to tell it.
fn in_turn(
    road: &[u8],
    creeper: &[u8],
    values: &[u32; VARIABLES],
    input: u32,
    budget: u32,
) -> Outcome {
    let further = road.iter().filter(|&&byte| byte == 10).count() as u32 - 1;
    let (value, steps, ticks) = match outcome(road, values, input, budget) {
        Outcome::Ended { value, steps, ticks, .. } => (value, steps, ticks),
        other => return other,
    };
    // What the road program left are its values before `write`.
    let left = match outcome(road, values, input, steps - 1) {
        Outcome::Spent { values, .. } => values,
        other => panic!("{other:?}"),
    };
    match outcome(creeper, &left, value as u32, budget + 1 - steps) {
        Outcome::Ended { value, steps: more, kept, ticks: later } => {
            let (steps, ticks) = (steps + more - 1, ticks + later - SEAM);
            Outcome::Ended { value, steps, kept, ticks }
        }
        Outcome::Fault { statement, steps: more, ticks: later } => {
            let (steps, ticks) = (steps + more - 1, ticks + later - SEAM);
            Outcome::Fault { statement: statement + further, steps, ticks }
        }
        Outcome::Spent { statement, values, ticks: later } => {
            let ticks = ticks + later - SEAM;
            Outcome::Spent { statement: statement + further, values, ticks }
        }
    }
}

/// The joined program answers as both do in turn, under each of some budgets from some starts.
fn assert_in_turn(road: &[u8], creeper: &[u8]) {
    let new = joined(road, creeper);
    for values in [[0; VARIABLES], given(), [u32::MAX; VARIABLES]] {
        for input in [0, 1, 2, 3, 5, 1000, 1 << 31, u32::MAX] {
            for budget in (0..60).chain([300, 1000]) {
                assert_eq!(
                    outcome(&new, &values, input, budget),
                    in_turn(road, creeper, &values, input, budget),
                    "input {input} budget {budget}: {} {}",
                    shown(road),
                    shown(creeper)
                );
            }
        }
    }
}

fn ended(value: i32, steps: u32, ticks: u64) -> Outcome {
    Outcome::Ended { value, steps, kept: [0; KEPT], ticks }
}

const ZERO: [u32; VARIABLES] = [0; VARIABLES];

#[test]
fn two_become_one() {
    let road = text(&["read i0", "i1 := i0 + 1", "write i1"]);
    let creeper = text(&["read i2", "if i2 goto 3 else 4", "i1 := i1 * i2", "write i1"]);
    let new = joined(&road, &creeper);
    let expected =
        ["read i0", "i1 := i0 + 1", "i2 := i1", "if i2 goto 5 else 6", "i1 := i1 * i2", "write i1"];
    assert_eq!(shown(&new), shown(&text(&expected)));
    assert_eq!(outcome(&new, &ZERO, 4, 100), ended(25, 6, 25));
    assert_eq!(outcome(&new, &ZERO, u32::MAX, 100), ended(0, 5, 16));
    assert_in_turn(&road, &creeper);
}

#[test]
fn p_with_itself() {
    let new = joined(P.as_bytes(), P.as_bytes());
    let expected = [
        "read i0",
        "i1 := i0",
        "i2 := 7",
        "i3 := i1 + i2",
        "if i0 goto 6 else 8",
        "i0 := i0 - 1",
        "if i0 goto 4 else 8",
        "i0 := i3",
        "i1 := i0",
        "i2 := 7",
        "i3 := i1 + i2",
        "if i0 goto 13 else 15",
        "i0 := i0 - 1",
        "if i0 goto 11 else 15",
        "write i3",
    ];
    assert_eq!(shown(&new), shown(&text(&expected)));
    assert_eq!(outcome(&new, &ZERO, 0, 1000), ended(14, 37, 108));
    assert_eq!(outcome(&new, &ZERO, 2, 1000), ended(16, 51, 150));
    // One step less is not enough.
    assert!(matches!(outcome(&new, &ZERO, 2, 50), Outcome::Spent { statement: 15, .. }));
    assert_in_turn(P.as_bytes(), P.as_bytes());
}

#[test]
fn an_if_on_the_last_statement_of_the_road_goes_to_the_seam() {
    let road = text(&["read i0", "if i0 goto 4 else 3", "i1 := 9", "write i1"]);
    let creeper = text(&["read i2", "write i2"]);
    let new = joined(&road, &creeper);
    let expected = ["read i0", "if i0 goto 4 else 3", "i1 := 9", "i2 := i1", "write i2"];
    assert_eq!(shown(&new), shown(&text(&expected)));
    assert_eq!(outcome(&new, &ZERO, 1, 9), ended(0, 4, 13));
    assert_eq!(outcome(&new, &ZERO, 0, 9), ended(9, 5, 15));
    assert_in_turn(&road, &creeper);
    // The last statement of the creeper program is the joined one's, and its second the one behind the seam.
    let creeper = text(&["read i0", "i0 := i0 - 1", "if i0 goto 2 else 4", "write i0"]);
    let new = joined(&road, &creeper);
    assert!(new.ends_with(b"i0 := i1\ni0 := i0 - 1\nif i0 goto 5 else 7\nwrite i0\n"));
    let creeper = text(&["read i0", "if i0 goto 3 else 2", "i1 := i0", "write i1"]);
    assert_in_turn(&road, &creeper);
}

#[test]
fn the_same_variable_on_both_sides() {
    let road = text(&["read i3", "write i3"]);
    let creeper = text(&["read i3", "i3 := i3 + 1", "write i3"]);
    let new = joined(&road, &creeper);
    assert_eq!(shown(&new), shown(b"read i3\ni3 := i3\ni3 := i3 + 1\nwrite i3\n"));
    assert_eq!(outcome(&new, &ZERO, 6, 9), ended(7, 4, 13));
    assert_in_turn(&road, &creeper);
    // Which is set by which: the written one isn't.
    let new = joined(b"read i3\nwrite i4\n", b"read i5\nwrite i4\n");
    assert_eq!(shown(&new), shown(b"read i3\ni5 := i4\nwrite i4\n"));
    assert_in_turn(b"read i3\nwrite i4\n", b"read i5\nwrite i4\n");
}

#[test]
fn what_is_kept_goes_on() {
    let road = text(&["read i0", "i24 := i24 + i0", "write i0"]);
    let creeper = text(&["read i1", "i25 := i24 * 2", "write i1"]);
    let new = joined(&road, &creeper);
    let mut values = ZERO;
    values[24] = 1;
    let kept = [5, 10, 0, 0, 0, 0, 0, 0];
    let expected = Outcome::Ended { value: 4, steps: 5, kept, ticks: 22 };
    assert_eq!(outcome(&new, &values, 4, 9), expected);
    assert_in_turn(&road, &creeper);
}

#[test]
fn endless_programs() {
    let endless = text(&["read i0", "skip", "if i1 goto 2 else 2", "write i0"]);
    let ends = text(&["read i0", "write i0"]);
    let faults = text(&["read i0", "i0 := 1 / 0", "write i0"]);
    let spent = |road: &[u8], creeper: &[u8]| {
        assert_in_turn(road, creeper);
        match outcome(&joined(road, creeper), &ZERO, 5, 1_000_000) {
            Outcome::Spent { statement, .. } => statement,
            other => panic!("{other:?}"),
        }
    };
    // A round has two steps.
    assert_eq!(spent(&endless, &ends), 3);
    assert_eq!(spent(&endless, &endless), 3);
    assert_eq!(spent(&endless, &faults), 3);
    // 999,998 steps of the creeper program's loop, behind `read` and the seam.
    assert_eq!(spent(&ends, &endless), 3);
}

#[test]
fn a_fault_of_each() {
    let divides = text(&["read i0", "skip", "i1 := 7 / i0", "write i1"]);
    let ends = text(&["read i0", "write i0"]);
    let fault = |statement, steps, ticks| Outcome::Fault { statement, steps, ticks };
    assert_eq!(outcome(&joined(&divides, &ends), &ZERO, 0, 99), fault(3, 3, 29));
    // Its 3 is 4 now, behind 2 and 3 steps less 1.
    assert_eq!(outcome(&joined(&ends, &divides), &ZERO, 0, 99), fault(4, 4, 31));
    // 7 / 9 is 0, by which the second divides.
    let new = joined(&divides, &divides);
    assert_eq!(outcome(&new, &ZERO, 0, 99), fault(3, 3, 29));
    assert_eq!(outcome(&new, &ZERO, 9, 99), fault(6, 6, 56));
    assert_eq!(outcome(&new, &ZERO, 3, 99), ended(3, 7, 60));
    for (road, creeper) in [(&divides, &ends), (&ends, &divides), (&divides, &divides)] {
        assert_in_turn(road, creeper);
    }
}

#[test]
fn up_to_1024_statements() {
    let skips = |n| text(&lines(n));
    for (n, m) in [(512, 513), (513, 512), (2, 1_023), (1_023, 2)] {
        let new = joined(&skips(n), &skips(m));
        let mut expected = lines(1_024);
        expected[n - 1] = "i0 := i0".to_string();
        assert_eq!(new, text(&expected));
        assert_eq!(outcome(&new, &ZERO, 7, 1_024), ended(7, 1_024, 1_031));
    }
    // Those that an earlier release refused.
    for (n, m) in [(129, 129), (256, 2), (2, 256), (256, 256)] {
        assert_eq!(
            joined(&skips(n), &skips(m)).iter().filter(|&&byte| byte == 10).count(),
            n + m - 1
        );
    }
    for (n, m) in [(513, 513), (1_024, 2), (2, 1_024), (1_023, 3), (3, 1_023), (1_024, 1_024)] {
        assert_refused(&skips(n), &skips(m), TEXT_BYTES, Refusal::JoinedCount);
    }
    // Targets of three digits that get four.
    let mut creeper = lines(513);
    creeper[1] = "if i0 goto 513 else 489".to_string();
    let new = joined(&skips(512), &text(&creeper));
    let mut expected = lines(1_024);
    expected[511] = "i0 := i0".to_string();
    expected[512] = "if i0 goto 1024 else 1000".to_string();
    assert_eq!(new, text(&expected));
}

/// The longest texts: every byte that new text may have.
#[test]
fn the_longest_programs_are_joined() {
    let program = |n: usize| {
        let mut lines = vec!["i63 := -2147483648 + -2147483648"; n];
        lines[0] = "read i63";
        lines[n - 1] = "write i63";
        text(&lines)
    };
    let new = joined(&program(512), &program(513));
    let mut expected = vec!["i63 := -2147483648 + -2147483648"; 1_024];
    expected[0] = "read i63";
    expected[511] = "i63 := i63";
    expected[1_023] = "write i63";
    assert_eq!(new, text(&expected));
}

#[test]
fn refusals_come_in_order() {
    let good = text(&["read i0", "write i0"]);
    let full = text(&lines(1_024));
    let numbered = |number| *Refusal::ALL.iter().find(|r| r.number() == number).expect("a refusal");
    for (wrong, number) in refused_programs() {
        let refusal = numbered(number);
        assert_refused(&wrong, &good, TEXT_BYTES, refusal);
        assert_refused(&good, &wrong, TEXT_BYTES, refusal);
        // Also where too many statements are met, or would be.
        assert_refused(&wrong, &full, TEXT_BYTES, refusal);
        assert_refused(&full, &wrong, TEXT_BYTES, refusal);
        // Of two the road program's.
        for (other, _) in refused_programs() {
            assert_refused(&wrong, &other, TEXT_BYTES, refusal);
        }
    }
    for room in [0, 1, 8_704, TEXT_BYTES - 1] {
        assert_refused(&good, &good, room, Refusal::Buffer);
        assert_refused(b"rubbish", &good, room, Refusal::Buffer);
        assert_refused(&good, b"rubbish", room, Refusal::Buffer);
        assert_refused(&full, &full, room, Refusal::Buffer);
    }
    assert_refused(&full, &good, TEXT_BYTES, Refusal::JoinedCount);
    assert_eq!(Refusal::JoinedCount.number(), 21);
}
