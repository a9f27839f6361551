//! Stages with a name: the cases of the change request.

use super::{lines, skips, P};
use crate::generate::{self, PlaceDamage, Random, WrongName};
use crate::machine::{self, first_difference, VALUES};
use crate::marks::{self, TEXT_BYTES, VERDICT_BYTES};
use crate::pricing::OURS;
use crate::program::Program;
use crate::stages::{
    go_back, held, is_name, keep, Stage, HEAD_BYTES, PLACES, PLACE_BYTES, STAGES_BYTES,
};
use crate::tuned;

/// The answer of `keep`, by the plain and by the tuned call, which leave the same bytes.
fn all_kept(stages: &mut [u8], name: &[u8], program: &[u8]) -> Result<u32, u8> {
    let mut other = stages.to_vec();
    let answer = keep(stages, name, program);
    assert_eq!(tuned::keep(&mut other, name, program), answer);
    assert!(other == stages);
    answer
}

/// The text that `go_back` fills, by the plain and by the tuned call.
fn returned(stages: &[u8], name: &[u8]) -> Result<Vec<u8>, u8> {
    let (mut text, mut other) = ([99; TEXT_BYTES], [99; TEXT_BYTES]);
    let answer = go_back(stages, name, &mut text);
    assert_eq!(tuned::go_back(stages, name, &mut other), answer);
    assert_eq!(text, other);
    let bytes = answer? as usize;
    assert!(text[bytes..].iter().all(|&byte| byte == 99));
    Ok(text[..bytes].to_vec())
}

fn empty() -> Vec<u8> {
    vec![0; STAGES_BYTES]
}

/// The names that the places hold, `-` for an empty one.
fn names(stages: &[u8]) -> Vec<String> {
    let name = |stage: Option<Stage>| {
        stage.map_or("-".to_string(), |stage| String::from_utf8(stage.name).expect("letters"))
    };
    held(stages).expect("there is room").into_iter().map(name).collect()
}

const EIGHT: [&str; 8] = ["one", "two", "three", "four", "five", "six", "seven", "eight"];

/// Eight places, each with a name of its own.
fn full() -> Vec<u8> {
    let mut stages = empty();
    for (at, name) in EIGHT.iter().enumerate() {
        assert_eq!(all_kept(&mut stages, name.as_bytes(), P.as_bytes()), Ok(at as u32 + 1));
    }
    stages
}

#[test]
fn figures() {
    assert_eq!((PLACES, PLACE_BYTES, HEAD_BYTES), (8, 35_000, 10));
    assert_eq!(PLACE_BYTES - HEAD_BYTES, 34_990);
}

#[test]
fn the_first_stage() {
    let mut stages = empty();
    assert_eq!(all_kept(&mut stages, b"first", P.as_bytes()), Ok(1));
    assert_eq!(stages[..10], *b"first\0\0\0\x65\0");
    assert_eq!(stages[10..111], *P.as_bytes());
    assert!(stages[111..].iter().all(|&byte| byte == 0));
    assert_eq!(returned(&stages, b"first"), Ok(P.as_bytes().to_vec()));
    assert_eq!(P.len(), 101);
    assert_eq!(returned(&stages, b"firs"), Err(25));
    assert_eq!(returned(&stages, b"firsta"), Err(25));
}

#[test]
fn lengths() {
    let mut stages = full();
    for at in 0..PLACES {
        let length = at * PLACE_BYTES + 8;
        let kept = [stages[length], stages[length + 1]];
        // 0 255 is 65,280, far past the place, and 0xae 0x88 is 34,990, all of it; the last place has nothing behind it.
        for wrong in
            [[0, 255], [255, 255], [0xaf, 0x88], [0xae, 0x88], [102, 0], [100, 0], [0, 101], [0, 0]]
        {
            stages[length..length + 2].copy_from_slice(&wrong);
            assert_eq!(returned(&stages, EIGHT[at].as_bytes()), Err(25), "{wrong:?}");
            assert_eq!(names(&stages)[at], "-");
        }
        stages[length..length + 2].copy_from_slice(&kept);
        assert_eq!(returned(&stages, EIGHT[at].as_bytes()), Ok(P.as_bytes().to_vec()));
    }
    // The longest program, of 33,745 bytes: low byte first.
    let longest =
        format!("read i63\n{}write i63\n", "i63 := -2147483648 + -2147483648\n".repeat(1_022));
    assert_eq!(all_kept(&mut stages, b"eight", longest.as_bytes()), Ok(8));
    assert_eq!(stages[7 * PLACE_BYTES + 8..][..2], [209, 131]);
    assert_eq!(returned(&stages, b"eight"), Ok(longest.into_bytes()));
}

#[test]
fn equal_names() {
    let mut stages = empty();
    all_kept(&mut stages, b"first", P.as_bytes()).expect("it is kept");
    stages.copy_within(..PLACE_BYTES, PLACE_BYTES);
    assert_eq!(names(&stages)[..3], ["first", "-", "-"]);
    // The second is empty, though it has another program.
    let other = skips(5);
    stages[PLACE_BYTES + 8..][..2].copy_from_slice(&[other.len() as u8, 0]);
    stages[PLACE_BYTES + 10..][..other.len()].copy_from_slice(other.as_bytes());
    assert_eq!(returned(&stages, b"first"), Ok(P.as_bytes().to_vec()));
    let mut taken = stages.clone();
    assert_eq!(all_kept(&mut taken, b"second", P.as_bytes()), Ok(2));
    // The first one's text is damaged: it is empty, and the second holds the name.
    stages[10] = b'x';
    assert_eq!(names(&stages)[..3], ["-", "first", "-"]);
    assert_eq!(returned(&stages, b"first"), Ok(other.into_bytes()));
    // A known name is replaced where it stands, though an earlier place is empty.
    assert_eq!(all_kept(&mut stages, b"first", P.as_bytes()), Ok(2));
    assert_eq!(all_kept(&mut stages, b"second", P.as_bytes()), Ok(1));
    // Three of one name: the second is empty, so the third isn't held by it but by the first.
    let mut stages = empty();
    all_kept(&mut stages, b"a", P.as_bytes()).expect("it is kept");
    stages.copy_within(..PLACE_BYTES, PLACE_BYTES);
    stages.copy_within(..PLACE_BYTES, 2 * PLACE_BYTES);
    assert_eq!(names(&stages)[..4], ["a", "-", "-", "-"]);
    assert_eq!(all_kept(&mut stages, b"b", P.as_bytes()), Ok(2));
    assert_eq!(names(&stages)[..4], ["a", "b", "-", "-"]);
}

#[test]
fn wrong_names() {
    let wrong: [&[u8]; 10] =
        [b"", b"abcdefghi", b"A", b"a\0", b"a\0b", b"\0", b"a1", b"a b", b"`", b"{"];
    let mut stages = full();
    for name in wrong {
        assert!(!is_name(name));
        for stages in [&mut stages, &mut empty()] {
            let before = stages.clone();
            assert_eq!(all_kept(stages, name, P.as_bytes()), Err(23));
            assert_eq!(returned(stages, name), Err(23));
            // The program is read first, and the room before it.
            assert_eq!(all_kept(stages, name, b""), Err(3));
            assert_eq!(all_kept(&mut stages[..STAGES_BYTES - 1], name, b""), Err(1));
            assert_eq!(returned(&stages[..STAGES_BYTES - 1], name), Err(1));
            assert!(*stages == before);
        }
        // In a place, filled up with zero bytes.
        let mut damaged = stages.clone();
        let mut field = name.to_vec();
        field.resize(8.max(name.len()), 0);
        damaged[PLACE_BYTES..][..8].copy_from_slice(&field[..8]);
        let expected = match name {
            b"abcdefghi" => "abcdefgh",
            b"a\0" => "a",
            _ => "-",
        };
        assert_eq!(names(&damaged)[1], expected);
    }
    for name in [&b"a"[..], b"z", b"abcdefgh", b"zzzzzzzz"] {
        assert!(is_name(name));
        assert_eq!(all_kept(&mut empty(), name, P.as_bytes()), Ok(1));
    }
}

#[test]
fn nine_names() {
    let mut stages = full();
    let before = stages.clone();
    assert_eq!(all_kept(&mut stages, b"nine", P.as_bytes()), Err(24));
    assert_eq!(returned(&stages, b"nine"), Err(25));
    assert!(stages == before);
    for (at, name) in EIGHT.iter().enumerate() {
        let shorter = skips(at + 2);
        assert_eq!(all_kept(&mut stages, name.as_bytes(), shorter.as_bytes()), Ok(at as u32 + 1));
        assert_eq!(returned(&stages, name.as_bytes()), Ok(shorter.into_bytes()));
    }
    assert_eq!(names(&stages), EIGHT);
    // Differing in the eighth letter alone.
    assert_eq!(all_kept(&mut stages, b"abcdefgh", P.as_bytes()), Err(24));
    stages[5 * PLACE_BYTES] = 0;
    stages[2 * PLACE_BYTES] = 0;
    assert_eq!(all_kept(&mut stages, b"abcdefgh", P.as_bytes()), Ok(3));
    assert_eq!(all_kept(&mut stages, b"abcdefgi", P.as_bytes()), Ok(6));
    assert_eq!(all_kept(&mut stages, b"abcdefg", P.as_bytes()), Err(24));
}

#[test]
fn bytes_beyond_are_kept() {
    let mut stages = vec![7; STAGES_BYTES + 100];
    assert_eq!(all_kept(&mut stages, b"first", P.as_bytes()), Ok(1));
    assert_eq!(all_kept(&mut stages, b"second", P.as_bytes()), Ok(2));
    // Eighths of 280,000, however many bytes are lent.
    assert_eq!(stages[35_000..35_010], *b"second\0\0\x65\0");
    let shorter = skips(2);
    assert_eq!(all_kept(&mut stages, b"first", shorter.as_bytes()), Ok(1));
    let tail = 10 + shorter.len();
    assert_eq!(stages[10..tail], *shorter.as_bytes());
    assert_eq!(stages[tail..111], P.as_bytes()[shorter.len()..]);
    assert!(stages[111..PLACE_BYTES].iter().all(|&byte| byte == 7));
    assert!(stages[PLACE_BYTES + 111..].iter().all(|&byte| byte == 7));
    assert_eq!(returned(&stages, b"second"), Ok(P.as_bytes().to_vec()));
}

#[test]
fn refusals_in_order() {
    let mut stages = full();
    for (text, number) in [("rubbish", 2), ("", 3), ("read i0\nskip\n", 4)] {
        for name in [&b"one"[..], b"nine", b"", b"A"] {
            assert_eq!(all_kept(&mut stages, name, text.as_bytes()), Err(number));
        }
    }
    for room in [0, 8_704, TEXT_BYTES - 1] {
        for (name, number) in [(&b"one"[..], 1), (b"nine", 1), (b"", 1)] {
            let mut text = vec![7; room];
            assert_eq!(go_back(&stages, name, &mut text), Err(number));
            assert_eq!(tuned::go_back(&stages, name, &mut text), Err(number));
            assert!(text.iter().all(|&byte| byte == 7));
        }
    }
    for room in [0, 35_000, 70_000, STAGES_BYTES - 1] {
        assert_eq!(all_kept(&mut stages[..room], b"one", P.as_bytes()), Err(1));
        assert_eq!(returned(&stages[..room], b"one"), Err(1));
    }
    assert!(stages == full());
}

/// Without recursion: of the places that stand right with one name the first isn't empty.
fn by_first_standing(stages: &[u8]) -> Vec<Option<Stage>> {
    let mut found: Vec<Option<Stage>> = Vec::new();
    for place in stages[..STAGES_BYTES].chunks(PLACE_BYTES) {
        let field = std::str::from_utf8(&place[..8]).unwrap_or("");
        let name = field.trim_end_matches('\0');
        let length = usize::from(u16::from_le_bytes([place[8], place[9]]));
        let text = place.get(10..10 + length);
        let is_new = |name: &str| found.iter().flatten().all(|stage| stage.name != name.as_bytes());
        let stage = text
            .filter(|text| is_name(name.as_bytes()) && is_new(name) && Program::read(text).is_ok());
        let name = name.as_bytes().to_vec();
        found.push(stage.map(|text| Stage { name, text: text.to_vec() }));
    }
    found
}

#[test]
fn random_stages() {
    let random = &mut Random::new(110);
    let (mut keeps, mut returns, mut counts) = ([0; 26], [0; 26], [0; 9]);
    for _ in 0..10_000 {
        let mut stages = generate::stages(random);
        for _ in 0..random.pick(&[0, 0, 1, 2, 5]) {
            let (kind, at) = (random.pick(&PlaceDamage::ALL), random.below(PLACES));
            generate::damage_place(random, kind, &mut stages, at);
        }
        let found = held(&stages).expect("there is room");
        assert_eq!(found, by_first_standing(&stages));
        counts[found.iter().flatten().count()] += 1;
        let mut name = generate::stage_name(random);
        if random.chance(15) {
            let wrong = random.pick(&WrongName::ALL);
            name = generate::wrong_name(random, wrong, &name);
            assert!(!is_name(&name), "{wrong:?} {}", name.escape_ascii());
        }
        let mut program = generate::kept_program(random).text();
        if random.chance(25) {
            program = generate::damage(random, &program);
        }
        returns[usize::from(returned(&stages, &name).err().unwrap_or(0))] += 1;
        let before = found.iter().flatten().cloned().collect::<Vec<_>>();
        let answer = all_kept(&mut stages, &name, &program);
        keeps[usize::from(answer.err().unwrap_or(0))] += 1;
        if answer.is_err() {
            continue;
        }
        // What was kept is there, and each other name is what it was.
        assert_eq!(returned(&stages, &name), Ok(program));
        for stage in before.iter().filter(|stage| stage.name != name) {
            assert_eq!(returned(&stages, &stage.name), Ok(stage.text.clone()));
        }
    }
    println!("{keeps:?} {returns:?} {counts:?}");
    assert!([0, 2, 5, 23, 24].iter().all(|&number| keeps[number] > 10));
    assert!([0, 23, 25].iter().all(|&number| returns[number] > 100));
    assert!(counts.iter().all(|&count| count > 50));
}

#[test]
fn rounds_from_a_stage() {
    let random = &mut Random::new(111);
    let mut changed = 0;
    for _ in 0..400 {
        let size = random.between(3, 30);
        let given = generate::program(random, size);
        let mut stages = generate::stages(random);
        let name = generate::stage_name(random);
        if keep(&mut stages, &name, &given.text()).is_err() {
            continue;
        }
        let mut reached = given.text();
        for _ in 0..3 {
            let program = Program::read(&reached).expect("a reached program is taken");
            let count = random.below(12);
            let list = marks::text(&generate::marks(random, &program, count));
            let (mut verdicts, mut text) = ([0; VERDICT_BYTES], [0; TEXT_BYTES]);
            let (_, _, bytes) =
                marks::judge(&reached, &list, &mut verdicts, &mut text).expect("it is judged");
            reached = text[..bytes as usize].to_vec();
            let other = generate::stage_name(random);
            if other != name {
                let _ = all_kept(&mut stages, &other, &reached);
            }
            assert_eq!(returned(&stages, &name), Ok(given.text()));
            let now = Program::read(&reached).expect("a reached program is taken");
            let (values, input) = (generate::values(random), generate::word(random));
            assert_eq!(first_difference(&given, &now, values, input, 300), None);
            let [one, two] = [&given, &now]
                .map(|program| machine::run_program(program, values, input, 300, &OURS));
            assert!(one.is_alike(&two), "{one:?} {two:?}");
        }
        changed += usize::from(reached != given.text());
    }
    assert!(changed > 100, "{changed}");
}

/// The request's text on what lasts over rounds: the live i1 differs before step 3, the outcome doesn't.
#[test]
fn live_variables_may_differ_after_two_rounds() {
    let given = lines("read i0 / i1 := i0 / i2 := i1 / write i0");
    let judged = |text: &str, list: &str| super::all_judged(text, list);
    let (verdicts, once) = judged(&given, "3: mark(rm, i2, i1)\n");
    assert_eq!(verdicts, [0]);
    let (verdicts, twice) = judged(&once, "2: mark(rm, i1, i0)\n");
    assert_eq!((verdicts, &twice[..]), (vec![0], "read i0\nskip\nskip\nwrite i0\n"));
    let [one, two] =
        [given, twice].map(|text| Program::read(text.as_bytes()).expect("it is taken"));
    assert_eq!(first_difference(&one, &two, [5; VALUES], 3, 20), None);
}
