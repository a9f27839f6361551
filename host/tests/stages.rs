//! Executed cases of `keep` and `go_back`, worked out from the description, by hand; `differential.rs` holds both
//! calls to a second implementation, and random rounds from a stage to its program.

mod common;

use common::{lines, refused_programs, text, P};
use rewrites::{go_back, judge, keep, raw, run, Outcome, Prices, Refusal, Stages};
use rewrites::{
    NAME_BYTES, PLACES, PLACE_BYTES, STAGES_BYTES, TEXT_BYTES, VARIABLES, VERDICT_BYTES,
};

// What is lent

/// Bytes on either side of the lent ones, and what they and the places hold before a call.
const GUARD: usize = 16;
const MARK: u8 = 0xee;
const PLACE: u32 = 0xeeee_0001;

/// Memory that ends with these bytes and guards on both sides.
fn guarded(bytes: &[u8]) -> Vec<u8> {
    let guard = [MARK; GUARD];
    [&guard[..], bytes, &guard].concat()
}

/// Keeps a program by the export and by the safe function, which leave the same. Tells the bytes of the stages after it;
/// nothing else was changed.
fn kept(stages: &[u8], name: &[u8], program: &[u8]) -> (Result<u32, Refusal>, Vec<u8>) {
    let mut memory = guarded(stages);
    let (given, text) = (name.to_vec(), program.to_vec());
    let mut places = [PLACE; 3];
    // SAFETY: the pointers come from references, and no two of the written places overlap.
    let number = unsafe {
        raw::rewrites_keep(
            memory[GUARD..].as_mut_ptr(),
            stages.len(),
            given.as_ptr(),
            given.len(),
            text.as_ptr(),
            text.len(),
            &mut places[1],
        )
    };
    assert_eq!((&given[..], &text[..]), (name, program));
    let left = memory[GUARD..GUARD + stages.len()].to_vec();
    assert!(memory == guarded(&left), "a guard is kept");
    let mut same = stages.to_vec();
    let answer = keep(&mut same, name, program);
    assert!(same == left);
    assert_eq!(answer.map_or_else(Refusal::number, |_| 0), number);
    assert_eq!(places, [PLACE, answer.unwrap_or(PLACE), PLACE]);
    if answer.is_err() {
        assert!(left == stages, "a refused call keeps the stages");
    }
    (answer, left)
}

/// Keeps a program, and tells the place. Beside its record no byte of the stages is changed.
fn keep_in(stages: &mut Vec<u8>, name: &str, program: &[u8]) -> Result<u32, Refusal> {
    let (answer, left) = kept(stages, name.as_bytes(), program);
    let place = answer?;
    let at = (place as usize - 1) * PLACE_BYTES;
    let mut expected = stages.clone();
    expected[at..at + NAME_BYTES].fill(0);
    expected[at..at + name.len()].copy_from_slice(name.as_bytes());
    expected[at + 8] = (program.len() % 256) as u8;
    expected[at + 9] = (program.len() / 256) as u8;
    expected[at + 10..at + 10 + program.len()].copy_from_slice(program);
    assert!(left == expected, "{name} in place {place}");
    *stages = left;
    Ok(place)
}

/// Returns to a stage by the export and by the safe function; the stages and all further bytes are kept.
fn returned_with(stages: &[u8], name: &[u8], room: usize) -> Result<Vec<u8>, Refusal> {
    let (memory, given) = (guarded(stages), name.to_vec());
    let before: Vec<u8> = (0..room).map(|k| 0x80 | (k % 127) as u8).collect();
    let mut text = guarded(&before);
    let mut places = [PLACE; 3];
    // SAFETY: the pointers come from references, and no two of the written places overlap.
    let number = unsafe {
        raw::rewrites_return(
            memory[GUARD..].as_ptr(),
            stages.len(),
            given.as_ptr(),
            given.len(),
            text[GUARD..].as_mut_ptr(),
            room,
            &mut places[1],
        )
    };
    assert!(memory == guarded(stages) && given == name, "what is lent to be read is kept");
    let mut same = before.clone();
    let answer = go_back(stages, name, &mut same);
    assert!(text == guarded(&same), "a guard is kept");
    assert_eq!(answer.map_or_else(Refusal::number, |_| 0), number);
    assert_eq!(places, [PLACE, answer.unwrap_or(PLACE), PLACE]);
    let bytes = answer.unwrap_or(0) as usize;
    assert!(same[bytes..] == before[bytes..], "further bytes are kept");
    answer.map(|_| same[..bytes].to_vec())
}

fn returned(stages: &[u8], name: &str) -> Result<Vec<u8>, Refusal> {
    let answer = returned_with(stages, name.as_bytes(), TEXT_BYTES);
    assert_eq!(returned_with(stages, name.as_bytes(), TEXT_BYTES + 9), answer);
    answer
}

fn empty() -> Vec<u8> {
    vec![0; STAGES_BYTES]
}

const EIGHT: [&str; 8] = ["one", "two", "three", "four", "five", "six", "seven", "eight"];

/// Eight places, each with a name of its own and a program of its own.
fn full() -> Vec<u8> {
    let mut stages = empty();
    for (at, name) in EIGHT.iter().enumerate() {
        assert_eq!(keep_in(&mut stages, name, &text(&lines(at + 2))), Ok(at as u32 + 1));
    }
    stages
}

/// The names that the places hold, `-` for an empty one.
fn names(stages: &[u8]) -> [String; PLACES] {
    let stages = Stages::from_bytes(&stages[..STAGES_BYTES]).expect("there are so many bytes");
    stages.names().map(|name| name.unwrap_or_else(|| "-".to_string()))
}

// Cases

#[test]
fn p_is_kept_and_returned() {
    let mut stages = empty();
    assert_eq!(keep_in(&mut stages, "first", P.as_bytes()), Ok(1));
    assert_eq!(stages[..10], *b"first\0\0\0\x65\0");
    assert_eq!(stages[10..111], *P.as_bytes());
    assert!(stages[111..].iter().all(|&byte| byte == 0));
    let returned = returned(&stages, "first").expect("it is kept");
    assert_eq!((returned.len(), &returned[..]), (101, P.as_bytes()));
}

/// Length bytes 0 255 are 65,280, past the place; behind the eighth of exactly 280,000 bytes nothing may be read.
#[test]
fn a_length_past_the_place_is_an_empty_place() {
    let whole = full();
    for (at, name) in EIGHT.iter().enumerate() {
        let mut stages = whole.clone();
        let length = at * PLACE_BYTES + NAME_BYTES;
        let right = stages[length];
        let wrong = [
            [0, 255],
            [255, 255],
            // 34,990, the last that has room, and one more.
            [0xae, 0x88],
            [0xaf, 0x88],
            [0, right],
            [right - 1, 0],
            [right + 1, 0],
        ];
        for wrong in wrong {
            stages[length..length + 2].copy_from_slice(&wrong);
            assert_eq!(returned(&stages, name), Err(Refusal::StageUnknown), "{wrong:?}");
            assert_eq!(names(&stages)[at], "-");
            assert_eq!(keep_in(&mut stages.clone(), "nine", P.as_bytes()), Ok(at as u32 + 1));
        }
        stages[length..length + 2].copy_from_slice(&[right, 0]);
        assert!(stages == whole);
    }
}

#[test]
fn of_two_equal_names_the_first_holds() {
    let mut stages = empty();
    keep_in(&mut stages, "first", P.as_bytes()).expect("it is kept");
    stages.copy_within(..PLACE_BYTES, PLACE_BYTES);
    assert_eq!(names(&stages)[..3], ["first", "-", "-"]);
    // Also where the second has another program.
    let other = text(&lines(5));
    stages[PLACE_BYTES + 8] = other.len() as u8;
    stages[PLACE_BYTES + 10..PLACE_BYTES + 10 + other.len()].copy_from_slice(&other);
    assert_eq!(returned(&stages, "first"), Ok(P.as_bytes().to_vec()));
    assert_eq!(keep_in(&mut stages.clone(), "first", &other), Ok(1));
    // A new name takes the second place, which is empty.
    assert_eq!(keep_in(&mut stages.clone(), "second", &other), Ok(2));
    // The first place's text is damaged: the second holds the name, and is replaced where it stands.
    stages[10] = b'x';
    assert_eq!(names(&stages)[..3], ["-", "first", "-"]);
    assert_eq!(returned(&stages, "first"), Ok(other));
    assert_eq!(keep_in(&mut stages, "first", P.as_bytes()), Ok(2));
    assert_eq!(keep_in(&mut stages, "second", P.as_bytes()), Ok(1));
    // An empty place between two of one name doesn't part them.
    let mut stages = full();
    stages.copy_within(..PLACE_BYTES, 2 * PLACE_BYTES);
    stages[PLACE_BYTES] = 0;
    assert_eq!(names(&stages)[..4], ["one", "-", "-", "four"]);
    assert_eq!(keep_in(&mut stages, "nine", P.as_bytes()), Ok(2));
    assert_eq!(keep_in(&mut stages, "ten", P.as_bytes()), Ok(3));
    assert_eq!(keep_in(&mut stages, "eleven", P.as_bytes()), Err(Refusal::StagesFull));
}

#[test]
fn wrong_names() {
    let wrong: [&[u8]; 12] = [
        b"",
        b"abcdefghi",
        b"A",
        b"a\0b",
        b"a\0",
        b"\0",
        b"\0a",
        b"a1",
        b"a b",
        b"a`",
        b"{",
        b"\xe9",
    ];
    for stages in [empty(), full()] {
        for name in wrong {
            assert_eq!(kept(&stages, name, P.as_bytes()).0, Err(Refusal::StageName));
            assert_eq!(returned_with(&stages, name, TEXT_BYTES), Err(Refusal::StageName));
            // The program is looked at before the name, and the room before both.
            for (program, number) in refused_programs() {
                assert_eq!(kept(&stages, name, &program).0.map_err(Refusal::number), Err(number));
                let (answer, _) = kept(&stages[..STAGES_BYTES - 1], name, &program);
                assert_eq!(answer, Err(Refusal::Buffer));
            }
            let short = returned_with(&stages[..STAGES_BYTES - 1], name, TEXT_BYTES);
            assert_eq!(short, Err(Refusal::Buffer));
            assert_eq!(returned_with(&stages, name, TEXT_BYTES - 1), Err(Refusal::Buffer));
        }
        for name in [&b""[..], b"A"] {
            assert_eq!(kept(&stages, name, b"").0, Err(Refusal::LineCount));
        }
    }
    // The same in a place.
    for field in [
        *b"\0\0\0\0\0\0\0\0",
        *b"A\0\0\0\0\0\0\0",
        *b"a\0b\0\0\0\0\0",
        *b"a\0\0\0\0\0\0b",
        *b"a{\0\0\0\0\0\0",
    ] {
        let mut stages = full();
        stages[PLACE_BYTES..PLACE_BYTES + 8].copy_from_slice(&field);
        assert_eq!(names(&stages)[1], "-");
        assert_eq!(returned(&stages, "a"), Err(Refusal::StageUnknown));
        assert_eq!(keep_in(&mut stages, "a", P.as_bytes()), Ok(2));
    }
}

/// The ends of what a name may be.
#[test]
fn right_names() {
    let mut stages = empty();
    for (at, name) in ["a", "z", "abcdefgh", "abcdefgi", "abcdefg", "zzzzzzzz", "aa", "bbcdefgh"]
        .iter()
        .enumerate()
    {
        assert_eq!(keep_in(&mut stages, name, &text(&lines(at + 2))), Ok(at as u32 + 1));
    }
    for (at, name) in ["a", "z", "abcdefgh", "abcdefgi", "abcdefg", "zzzzzzzz", "aa", "bbcdefgh"]
        .iter()
        .enumerate()
    {
        assert_eq!(returned(&stages, name), Ok(text(&lines(at + 2))));
    }
    for name in ["abcdefgj", "ab", "zz", "zzzzzzz"] {
        assert_eq!(returned(&stages, name), Err(Refusal::StageUnknown));
        assert_eq!(kept(&stages, name.as_bytes(), P.as_bytes()).0, Err(Refusal::StagesFull));
    }
}

#[test]
fn a_ninth_name_is_refused_and_known_ones_are_kept() {
    let mut stages = full();
    assert_eq!(keep_in(&mut stages, "nine", P.as_bytes()), Err(Refusal::StagesFull));
    assert_eq!(returned(&stages, "nine"), Err(Refusal::StageUnknown));
    for (at, name) in EIGHT.iter().enumerate() {
        assert_eq!(returned(&stages, name), Ok(text(&lines(at + 2))));
        assert_eq!(keep_in(&mut stages, name, P.as_bytes()), Ok(at as u32 + 1));
        assert_eq!(returned(&stages, name), Ok(P.as_bytes().to_vec()));
    }
    assert_eq!(names(&stages), EIGHT);
    // The first empty place, though a later one is empty too.
    for at in [6, 3] {
        stages[at * PLACE_BYTES + 10] = b'x';
    }
    assert_eq!(keep_in(&mut stages, "seven", P.as_bytes()), Ok(4));
    assert_eq!(keep_in(&mut stages, "nine", P.as_bytes()), Ok(7));
    assert_eq!(keep_in(&mut stages, "four", P.as_bytes()), Err(Refusal::StagesFull));
}

#[test]
fn a_shorter_program_keeps_the_old_tail() {
    let mut stages = empty();
    keep_in(&mut stages, "first", P.as_bytes()).expect("it is kept");
    let shorter = text(&lines(2));
    assert_eq!(keep_in(&mut stages, "first", &shorter), Ok(1));
    assert_eq!(stages[8..10], [shorter.len() as u8, 0]);
    assert_eq!(stages[10 + shorter.len()..111], P.as_bytes()[shorter.len()..]);
    assert_eq!(returned(&stages, "first"), Ok(shorter));
}

/// Places are eighths of 280,000 bytes, and the rest is kept.
#[test]
fn longer_buffers() {
    let mut stages = vec![MARK; STAGES_BYTES + 1_000];
    stages[..STAGES_BYTES].fill(0);
    for (at, name) in EIGHT.iter().enumerate() {
        assert_eq!(keep_in(&mut stages, name, P.as_bytes()), Ok(at as u32 + 1));
        assert_eq!(&stages[at * 35_000..at * 35_000 + name.len()], name.as_bytes());
    }
    assert!(stages[STAGES_BYTES..].iter().all(|&byte| byte == MARK));
    assert_eq!(returned(&stages, "eight"), Ok(P.as_bytes().to_vec()));
    // A ninth place, of which nothing is held.
    let mut stages = full();
    stages.extend_from_within(..PLACE_BYTES);
    stages[STAGES_BYTES..STAGES_BYTES + 4].copy_from_slice(b"nine");
    assert_eq!(returned(&stages, "nine"), Err(Refusal::StageUnknown));
    assert_eq!(keep_in(&mut stages, "nine", P.as_bytes()), Err(Refusal::StagesFull));
}

#[test]
fn rooms() {
    let stages = full();
    for room in [0, 1, 35_000, 70_000, 279_999] {
        for name in [&b"one"[..], b"nine", b""] {
            assert_eq!(kept(&stages[..room], name, P.as_bytes()).0, Err(Refusal::Buffer));
            assert_eq!(kept(&stages[..room], name, b"rubbish").0, Err(Refusal::Buffer));
            assert_eq!(returned_with(&stages[..room], name, TEXT_BYTES), Err(Refusal::Buffer));
        }
    }
    for room in [0, 1, 8_704, 34_815] {
        for name in [&b"one"[..], b"nine", b""] {
            assert_eq!(returned_with(&stages, name, room), Err(Refusal::Buffer));
        }
    }
    assert_eq!((STAGES_BYTES, TEXT_BYTES), (280_000, 34_816));
    let numbers =
        [Refusal::StageName, Refusal::StagesFull, Refusal::StageUnknown].map(Refusal::number);
    assert_eq!(numbers, [23, 24, 25]);
}

/// The longest program fills 33,755 bytes of its place; both bytes of its length are needed.
#[test]
fn the_longest_program() {
    let mut lines = vec!["i63 := -2147483648 + -2147483648"; 1_024];
    lines[0] = "read i63";
    lines[1_023] = "write i63";
    let longest = text(&lines);
    assert_eq!(longest.len(), 33_745);
    let mut stages = full();
    for (at, name) in EIGHT.iter().enumerate() {
        assert_eq!(keep_in(&mut stages, name, &longest), Ok(at as u32 + 1));
        assert_eq!(stages[at * PLACE_BYTES + 8..at * PLACE_BYTES + 10], [209, 131]);
    }
    assert_eq!(returned(&stages, "eight"), Ok(longest));
}

#[test]
fn bytes_of_any_kind_are_eight_empty_places() {
    for byte in [0, b'a', b'\n', 255] {
        let mut stages = vec![byte; STAGES_BYTES];
        assert_eq!(names(&stages), ["-"; 8]);
        assert_eq!(returned(&stages, "aaaaaaaa"), Err(Refusal::StageUnknown));
        for (at, name) in EIGHT.iter().enumerate() {
            assert_eq!(keep_in(&mut stages, name, P.as_bytes()), Ok(at as u32 + 1));
        }
    }
}

/// Two rounds: the live `i1` of the stage's program differs before its third step, the outcomes don't.
#[test]
fn outcomes_last_over_rounds_and_live_variables_do_not() {
    let given = text(&["read i0", "i1 := i0", "i2 := i1", "write i0"]);
    let mut stages = Stages::new();
    stages.keep("given", &given).expect("it is kept");
    let round = |program: &[u8], list: &[u8]| {
        let mut text = [0; TEXT_BYTES];
        let judged =
            judge(program, list, &mut [0; VERDICT_BYTES], &mut text).expect("it is judged");
        assert_eq!(judged.accepted, 1);
        text[..judged.bytes as usize].to_vec()
    };
    let once = round(&given, b"3: mark(rm, i2, i1)\n");
    stages.keep("once", &once).expect("it is kept");
    let twice = round(&once, b"2: mark(rm, i1, i0)\n");
    stages.keep("twice", &twice).expect("it is kept");
    let back = stages.go_back("given").expect("it is kept");
    assert_eq!(back, given);
    let ours = Prices::ours();
    let outcome = |program: &[u8], budget| {
        run(program, &[5; VARIABLES], 3, budget, &ours).expect("it is taken")
    };
    for budget in 0..8 {
        match [&given, &twice].map(|program| outcome(program, budget)) {
            [Outcome::Spent { statement, values, .. }, Outcome::Spent { statement: other, values: left, .. }] =>
            {
                assert_eq!(statement, other);
                assert_eq!(values[1] == left[1], budget < 2, "{budget}");
            }
            [Outcome::Ended { value, steps, kept, .. }, Outcome::Ended { value: w, steps: s, kept: k, .. }] =>
            {
                assert_eq!((value, steps, kept), (w, s, k));
            }
            other => panic!("{other:?}"),
        }
    }
}

#[test]
fn stages_own_their_bytes() {
    let mut stages = Stages::default();
    assert_eq!(stages.as_bytes(), &empty()[..]);
    assert_eq!(stages.names(), <[Option<String>; PLACES]>::default());
    assert_eq!(stages.keep("first", P.as_bytes()), Ok(1));
    assert_eq!(stages.keep(b"second", P.as_bytes()), Ok(2));
    assert_eq!(stages.keep("First", P.as_bytes()), Err(Refusal::StageName));
    assert_eq!(stages.go_back(b"First"), Err(Refusal::StageName));
    let mut others = empty();
    keep_in(&mut others, "first", P.as_bytes()).expect("it is kept");
    keep_in(&mut others, "second", P.as_bytes()).expect("it is kept");
    assert!(stages.as_bytes() == others);
    assert_eq!(Stages::from_bytes(&others), Some(stages.clone()));
    others.push(0);
    assert_eq!(Stages::from_bytes(&others), None);
    assert_eq!(Stages::from_bytes(&others[..STAGES_BYTES - 1]), None);
    let shown = format!("{stages:?}");
    assert!(shown.starts_with("Stages([Some(\"first\"), Some(\"second\"), None"), "{shown}");
    // Every place whose name isn't letters, and a name that isn't text.
    others.truncate(STAGES_BYTES);
    others[0] = 0xff;
    others[PLACE_BYTES + 9] = 0xff;
    assert_eq!(names(&others), ["-"; 8]);
}
