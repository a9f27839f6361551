//! Executed cases of `list` and `relist`. Words and counts are worked out by hand; `differential.rs` holds both
//! calls to a second implementation.

mod common;

use common::{lines, refused_programs, shown, text, P};
use oracle::generate::{self, Random};
use rewrites::{judge, list, raw, relist, tabulate, Listing, Refusal};
use rewrites::{LIST_WORDS, MARKS as MOST, PART_WORDS, STATEMENTS, TABLE_WORDS};
use rewrites::{TEXT_BYTES, VARIABLES, VERDICT_BYTES};

/// The marks to check against.
const MARKS: &[u8] = b"4: mark(rpl, i2, 7)\n3: mark(rm, i2, 7)\n4: mark(rpl, i1, i0)\n\
    6: mark(rm, i0, 1)\n9: mark(rm, i2, 7)\n";

/// Words on both sides of what is lent, and what they and the places hold before a call.
const GUARD: usize = 8;
const MARK: u64 = 0xeeee_eeee_0000_0001;
const PLACE: u32 = 0xeeee_0001;

/// The places of both counts, with a word on both sides of each.
const PLACES: usize = 2 * VARIABLES + 3;
const USED: usize = VARIABLES + 2;

/// What a raw call leaves: its number, the words that were lent, and the counts or none.
type Left = (u8, Vec<u64>, Option<Listing>);

/// Lends words and places between guards to a call, which gets where they begin.
fn lend(words: &[u64], call: impl Fn(*mut u64, *mut u32) -> u8) -> Left {
    let mut memory = vec![MARK; words.len() + 2 * GUARD];
    memory[GUARD..GUARD + words.len()].copy_from_slice(words);
    let mut places = [PLACE; PLACES];
    let number = call(memory[GUARD..].as_mut_ptr(), places.as_mut_ptr());
    let (front, rest) = memory.split_at(GUARD);
    let (words, behind) = rest.split_at(words.len());
    assert!(front.iter().chain(behind).all(|&word| word == MARK));
    assert_eq!([places[0], places[VARIABLES + 1], places[PLACES - 1]], [PLACE; 3]);
    let counts = |from: usize| -> [u32; VARIABLES] { std::array::from_fn(|v| places[from + v]) };
    let listing = Listing { defined: counts(1), used: counts(USED) };
    if number == 0 {
        return (number, words.to_vec(), Some(listing));
    }
    assert!(places.iter().all(|&place| place == PLACE), "a refusal keeps the counts");
    (number, words.to_vec(), None)
}

/// Makes a list by the export and by the safe function, which leave the same.
fn make(program: &[u8], words: &[u64]) -> Left {
    let given = program.to_vec();
    let left = lend(words, |first, places| {
        // SAFETY: the pointers come from references, and no two of the written places overlap.
        unsafe {
            raw::rewrites_list(
                given.as_ptr(),
                given.len(),
                first,
                words.len(),
                places.add(1).cast(),
                places.add(USED).cast(),
            )
        }
    });
    assert_eq!(given, program);
    let mut again = words.to_vec();
    let answer = list(program, &mut again);
    assert_eq!((answer.map_or_else(Refusal::number, |_| 0), &again), (left.0, &left.1));
    assert_eq!(answer.ok(), left.2);
    left
}

/// Brings a list up to date by the export and by the safe function, which leave the same.
fn update(program: &[u8], marks: &[u8], words: &[u64]) -> Left {
    let (given, asked) = (program.to_vec(), marks.to_vec());
    let left = lend(words, |first, places| {
        // SAFETY: the pointers come from references, and no two of the written places overlap.
        unsafe {
            raw::rewrites_relist(
                given.as_ptr(),
                given.len(),
                asked.as_ptr(),
                asked.len(),
                first,
                words.len(),
                places.add(1).cast(),
                places.add(USED).cast(),
            )
        }
    });
    assert_eq!((&given[..], &asked[..]), (program, marks));
    let mut again = words.to_vec();
    let answer = relist(program, marks, &mut again);
    assert_eq!((answer.map_or_else(Refusal::number, |_| 0), &again), (left.0, &left.1));
    assert_eq!(answer.ok(), left.2);
    left
}

/// The list of a program that is taken, and its counts.
fn made(program: &[u8]) -> (Vec<u64>, Listing) {
    let (number, words, listing) = make(program, &[0x0123_4567_89ab_cdef; LIST_WORDS]);
    assert_eq!(number, 0, "{}", shown(program));
    (words, listing.expect("a list that is made is counted"))
}

/// A list after a round of marks that are taken, and its counts.
fn updated(program: &[u8], marks: &[u8], words: &[u64]) -> (Vec<u64>, Listing) {
    let (number, words, listing) = update(program, marks, words);
    assert_eq!(number, 0, "{} {}", shown(program), shown(marks));
    (words, listing.expect("a list that is brought up to date is counted"))
}

/// The program with the accepted marks made.
fn rewritten(program: &[u8], marks: &[u8]) -> Vec<u8> {
    let mut text = [0; TEXT_BYTES];
    let answer = judge(program, marks, &mut [0; VERDICT_BYTES], &mut text);
    text[..answer.expect("the marks are taken").bytes as usize].to_vec()
}

/// The verdicts of a list.
fn verdicts(program: &[u8], marks: &[u8]) -> Vec<u8> {
    let mut verdicts = [0; VERDICT_BYTES];
    let answer = judge(program, marks, &mut verdicts, &mut [0; TEXT_BYTES]);
    verdicts[..answer.expect("the marks are taken").marks as usize].to_vec()
}

/// The words that differ, with what the second list has.
fn changed(before: &[u64], after: &[u64]) -> Vec<(usize, u64)> {
    assert_eq!(before.len(), after.len());
    (0..before.len()).filter(|&k| before[k] != after[k]).map(|k| (k, after[k])).collect()
}

/// A bit in word 0 of the using set of each variable that the unit keeps.
fn kept_uses(word: u64) -> impl Iterator<Item = (usize, u64)> {
    [784, 816, 848, 880, 912, 944, 976, 1_008].into_iter().map(move |k| (k, word))
}

/// The numbers of ones of a variable's two sets.
fn of(listing: &Listing, v: usize) -> (u32, u32) {
    (listing.defined[v], listing.used[v])
}

/// The first words of a variable's two sets.
fn defining(v: usize) -> usize {
    32 * v
}

fn using(v: usize) -> usize {
    32 * v + 16
}

/// The ones of each set, counted from the words.
fn counted(words: &[u64]) -> Listing {
    let ones = |k: usize| words[k..k + PART_WORDS].iter().map(|word| word.count_ones()).sum();
    Listing {
        defined: std::array::from_fn(|v| ones(defining(v))),
        used: std::array::from_fn(|v| ones(using(v))),
    }
}

const ZEROS: [u64; LIST_WORDS] = [0; LIST_WORDS];
const ONES: [u64; LIST_WORDS] = [u64::MAX; LIST_WORDS];

#[test]
fn the_list_of_p() {
    let (words, listing) = made(P.as_bytes());
    let mut expected =
        vec![(0, 33), (16, 114), (32, 2), (48, 8), (64, 4), (80, 8), (96, 8), (112, 128)];
    expected.extend(kept_uses(128));
    assert_eq!(changed(&ZEROS, &words), expected);
    for v in 0..VARIABLES {
        let expected = match v {
            0 => (2, 4),
            1..=3 => (1, 1),
            24..=31 => (0, 1),
            _ => (0, 0),
        };
        assert_eq!(of(&listing, v), expected, "i{v}");
    }
}

#[test]
fn the_marks_of_p_on_its_list() {
    let (given, before) = made(P.as_bytes());
    let (words, listing) = updated(P.as_bytes(), MARKS, &given);
    assert_eq!(changed(&given, &words), [(80, 0)]);
    let mut expected = before;
    expected.used[2] = 0;
    assert_eq!(listing, expected);
    assert_eq!(made(&rewritten(P.as_bytes(), MARKS)), (words, listing));
}

#[test]
fn the_marks_of_p_on_zeros() {
    let (words, listing) = updated(P.as_bytes(), MARKS, &ZEROS);
    assert_eq!(changed(&ZEROS, &words), [(48, 8), (96, 8)]);
    for v in 0..VARIABLES {
        let expected = match v {
            1 => (0, 1),
            3 => (1, 0),
            _ => (0, 0),
        };
        assert_eq!(of(&listing, v), expected, "i{v}");
    }
}

#[test]
fn the_marks_of_p_on_ones() {
    let (words, listing) = updated(P.as_bytes(), MARKS, &ONES);
    for (k, &word) in words.iter().enumerate() {
        let is_cleared = k % 16 == 0 && k != 48 && k != 96;
        assert_eq!(word, if is_cleared { !8 } else { u64::MAX }, "word {k}");
    }
    for v in 0..VARIABLES {
        let expected = match v {
            1 => (1_023, 1_024),
            3 => (1_024, 1_023),
            _ => (1_023, 1_023),
        };
        assert_eq!(of(&listing, v), expected, "i{v}");
    }
}

/// Under 2,048 words the texts are no matter.
#[test]
fn a_short_list_is_refused_1() {
    let mut programs: Vec<Vec<u8>> = refused_programs().into_iter().map(|(p, _)| p).collect();
    programs.extend([P.as_bytes().to_vec(), b"raed i0\nwrite i0\n".to_vec()]);
    for room in [0, 1, 16, 32, 256, 2_046, 2_047] {
        let words = vec![7; room];
        for program in &programs {
            assert_eq!(make(program, &words), (1, words.clone(), None));
            for marks in [MARKS, b"", b"x"] {
                assert_eq!(update(program, marks, &words), (1, words.clone(), None));
            }
        }
    }
}

#[test]
fn words_from_2048_on_are_kept() {
    let (given, listing) = made(P.as_bytes());
    let behind: Vec<u64> = (0..44).map(|k| 0x1111_0000 + k).collect();
    let before = [&ONES[..], &behind].concat();
    assert_eq!(before.len(), 2_092);
    let (number, words, counts) = make(P.as_bytes(), &before);
    assert_eq!((number, &words[..2_048], counts), (0, &given[..], Some(listing)));
    assert_eq!(words[2_048..], behind);
    let (number, after, counts) = update(P.as_bytes(), MARKS, &words);
    assert_eq!((number, changed(&words, &after)), (0, vec![(80, 0)]));
    let mut expected = listing;
    expected.used[2] = 0;
    assert_eq!(counts, Some(expected));
    // Ones there are in no count.
    let before = vec![u64::MAX; 2_092];
    let (_, after, counts) = update(P.as_bytes(), MARKS, &before);
    assert_eq!(after[2_048..], before[2_048..]);
    assert_eq!(counts.map(|counts| of(&counts, 63)), Some((1_023, 1_023)));
}

#[test]
fn refused_texts_keep_all() {
    for (program, number) in refused_programs() {
        assert_eq!(make(&program, &ONES), (number, ONES.to_vec(), None));
        // The program is read before the marks.
        for marks in [MARKS, b"x"] {
            assert_eq!(update(&program, marks, &ONES), (number, ONES.to_vec(), None));
        }
    }
    let many = b"4: mark(rpl, i2, 7)\n".repeat(MOST + 1);
    let both = [&many[..], b"x\n"].concat();
    for (marks, number) in [
        (&b"x\n"[..], 9),
        (&MARKS[..MARKS.len() - 1], 9),
        (b"\n", 9),
        (&many[..], 10),
        (&both[..], 9),
    ] {
        assert_eq!(update(P.as_bytes(), marks, &ONES), (number, ONES.to_vec(), None));
    }
    // 1,024 lines are taken: the first is accepted, the others name 4 again.
    let (words, _) = updated(P.as_bytes(), &many[..MOST * 20], &ZEROS);
    assert_eq!(changed(&ZEROS, &words), [(48, 8), (96, 8)]);
}

#[test]
fn two_statements() {
    let (words, listing) = made(b"read i0\nwrite i0\n");
    let expected: Vec<_> = [(0, 1), (16, 2)].into_iter().chain(kept_uses(2)).collect();
    assert_eq!(changed(&ZEROS, &words), expected);
    assert_eq!((of(&listing, 0), of(&listing, 1), of(&listing, 24)), ((1, 1), (0, 0), (0, 1)));

    let (words, listing) = made(b"read i31\nwrite i30\n");
    let expected: Vec<_> = kept_uses(2).take(7).chain([(992, 1), (1_008, 2)]).collect();
    assert_eq!(changed(&ZEROS, &words), expected);
    assert_eq!((of(&listing, 30), of(&listing, 31)), ((0, 1), (1, 1)));

    let (words, listing) = made(b"read i63\nwrite i62\n");
    let expected: Vec<_> = kept_uses(2).chain([(2_000, 2), (2_016, 1)]).collect();
    assert_eq!(changed(&ZEROS, &words), expected);
    assert_eq!((of(&listing, 62), of(&listing, 63)), ((0, 1), (1, 0)));
}

/// Each bit of each word is a statement.
#[test]
fn one_thousand_and_twenty_four_statements() {
    let last = 1 << 63;
    let (words, listing) = made(&text(&lines(1_024)));
    assert_eq!(changed(&ZEROS, &words)[..2], [(0, 1), (31, last)]);
    let kept: Vec<_> = kept_uses(last).map(|(k, word)| (k + 15, word)).collect();
    assert_eq!(changed(&ZEROS, &words)[2..], kept);
    assert_eq!(of(&listing, 0), (1, 1));

    let mut program = vec!["i5 := i5 + i5"; 1_024];
    (program[0], program[1_023]) = ("read i0", "write i63");
    let (words, listing) = made(&text(&program));
    let mut inner = [u64::MAX; PART_WORDS];
    (inner[0], inner[15]) = (!1, u64::MAX >> 1);
    assert_eq!((&words[160..176], &words[176..192]), (&inner[..], &inner[..]));
    assert_eq!((words[0], &words[1..32]), (1, &[0; 31][..]));
    assert_eq!((&words[2_032..2_047], words[2_047]), (&[0; 15][..], last));
    assert_eq!((of(&listing, 5), of(&listing, 63)), ((1_022, 1_022), (0, 1)));

    // Each statement is dropped in turn, where its value isn't used later on.
    for at in (2..=70).chain(250..=260).chain(1_018..=1_023) {
        let mut program = lines(STATEMENTS);
        program[at - 1] = "i5 := i6 + i7".to_string();
        let program = text(&program);
        let marks = format!("{at}: mark(rm, i5, i6 + i7)\n").into_bytes();
        let (given, _) = made(&program);
        let (word, bit) = ((at - 1) / 64, 1 << ((at - 1) % 64));
        for k in [defining(5), using(6), using(7)] {
            assert_eq!(given[k + word], bit);
        }
        let (words, _) = updated(&program, &marks, &given);
        assert_eq!(words, made(&text(&lines(STATEMENTS))).0);
        let (words, listing) = updated(&program, &marks, &ONES);
        let expected: Vec<_> =
            (0..2 * VARIABLES).map(|set| (PART_WORDS * set + word, !bit)).collect();
        assert_eq!(changed(&ONES, &words), expected);
        assert_eq!((listing.defined, listing.used), ([1_023; VARIABLES], [1_023; VARIABLES]));
    }
}

#[test]
fn a_variable_on_both_sides() {
    let (words, listing) = made(b"read i1\ni0 := i0 + i0\nwrite i1\n");
    let expected: Vec<_> =
        [(0, 2), (16, 2), (32, 1), (48, 4)].into_iter().chain(kept_uses(4)).collect();
    assert_eq!(changed(&ZEROS, &words), expected);
    assert_eq!((of(&listing, 0), of(&listing, 1)), ((1, 1), (1, 1)));
    // Both uses go with one mark.
    let program = b"read i1\ni0 := i1\ni0 := i0 + i0\nwrite i0\n";
    let marks = b"3: mark(rpl, i0, i1)\n";
    let (given, _) = made(program);
    let (words, listing) = updated(program, marks, &given);
    assert_eq!(changed(&given, &words), [(16, 8), (48, 6)]);
    assert_eq!((of(&listing, 0), of(&listing, 1)), ((2, 1), (1, 2)));
}

/// Each statement's variables, by kind of statement; constants are none.
#[test]
fn every_kind_of_statement() {
    let kinds = [
        ("i1 := i2", &[1][..], &[2][..]),
        ("i1 := 2", &[1], &[]),
        ("i1 := i1", &[1], &[1]),
        ("i1 := i2 + i3", &[1], &[2, 3]),
        ("i1 := 2 - i3", &[1], &[3]),
        ("i1 := i2 * -3", &[1], &[2]),
        ("i1 := i2 / i3", &[1], &[2, 3]),
        ("i1 := 1 / 0", &[1], &[]),
        ("i31 := i24 < i25", &[31], &[24, 25]),
        ("i63 := i32 < i62", &[63], &[32, 62]),
        ("i1 := i2 = i2", &[1], &[2]),
        ("if i9 goto 3 else 3", &[], &[9]),
        ("skip", &[], &[]),
    ];
    for (statement, defined, used) in kinds {
        let (words, listing) = made(&text(&["read i0", statement, "write i0"]));
        for v in 0..VARIABLES {
            let bit = |is_in: bool, at: usize| u64::from(is_in) << at;
            let (first, last) = (v == 0, v == 0 || (24..32).contains(&v));
            let expected = (
                bit(first, 0) | bit(defined.contains(&v), 1),
                bit(used.contains(&v), 1) | bit(last, 2),
            );
            assert_eq!((words[defining(v)], words[using(v)]), expected, "{statement}: i{v}");
            let ones = (expected.0.count_ones(), expected.1.count_ones());
            assert_eq!(of(&listing, v), ones, "{statement}: i{v}");
        }
        assert!((0..LIST_WORDS).all(|k| k % PART_WORDS == 0 || words[k] == 0), "{statement}");
    }
}

/// What is written is replaced; the uses of what the unit keeps are there still.
#[test]
fn a_replacement_at_write_leaves_the_kept_uses() {
    let program = b"read i0\ni9 := i0\nwrite i9\n";
    let marks = b"3: mark(rpl, i9, i0)\n";
    assert_eq!(rewritten(program, marks), b"read i0\ni9 := i0\nwrite i0\n");
    let (given, _) = made(program);
    let (words, listing) = updated(program, marks, &given);
    assert_eq!(changed(&given, &words), [(16, 6), (304, 0)]);
    assert_eq!((of(&listing, 0), of(&listing, 9), of(&listing, 24)), ((1, 2), (1, 0), (0, 1)));
    // They are written too: set where they were missing.
    let (words, _) = updated(program, marks, &ZEROS);
    let expected: Vec<_> = [(16, 4)].into_iter().chain(kept_uses(4)).collect();
    assert_eq!(changed(&ZEROS, &words), expected);

    // One that is kept is used there, written or not.
    let program = b"read i0\ni24 := i0\nwrite i24\n";
    let marks = b"3: mark(rpl, i24, i0)\n";
    assert_eq!(rewritten(program, marks), b"read i0\ni24 := i0\nwrite i0\n");
    let (given, _) = made(program);
    let (words, listing) = updated(program, marks, &given);
    assert_eq!(changed(&given, &words), [(16, 6)]);
    assert_eq!(of(&listing, 24), (1, 1));
}

#[test]
fn a_dropped_assignment_loses_all_its_bits() {
    let program = b"read i0\ni1 := i2 + i3\nwrite i0\n";
    let marks = b"2: mark(rm, i1, i2 + i3)\n";
    let (given, _) = made(program);
    let (words, _) = updated(program, marks, &given);
    assert_eq!(changed(&given, &words), [(32, 0), (80, 0), (112, 0)]);
    let (words, listing) = updated(program, marks, &ONES);
    let expected: Vec<_> = (0..2 * VARIABLES).map(|set| (PART_WORDS * set, !2)).collect();
    assert_eq!(changed(&ONES, &words), expected);
    assert_eq!((listing.defined, listing.used), ([1_023; VARIABLES], [1_023; VARIABLES]));
    assert_eq!(updated(program, marks, &ZEROS).0, ZEROS);
}

/// A mark that is accepted and changes no text changes no bit, and a refused one neither.
#[test]
fn a_statement_whose_text_stays_is_kept() {
    let program = b"read i0\ni1 := i1\ni2 := i1\nwrite i2\n";
    let odd = [0x5555_5555_5555_5555; LIST_WORDS];
    for (marks, verdict) in [
        (&b"3: mark(rpl, i1, i1)\n"[..], 0),
        (b"3: mark(rm, i2, i1)\n", 14),
        (b"3: mark(rm, i2, i0)\n", 13),
        (b"9: mark(rm, i2, i1)\n", 11),
    ] {
        assert_eq!(verdicts(program, marks), [verdict]);
        for words in [ZEROS, ONES, odd] {
            assert_eq!(updated(program, marks, &words), (words.to_vec(), counted(&words)));
        }
    }
    for words in [ZEROS, ONES, odd] {
        assert_eq!(updated(program, b"", &words), (words.to_vec(), counted(&words)));
    }
}

/// A `cse` has its use of T in the new program, and the operands of E lose theirs.
#[test]
fn a_value_that_is_read_again_is_used() {
    let program = b"read i0\ni1 := i0 + i2\ni3 := i0 + i2\nwrite i3\n";
    let marks = b"2: mark(rm, i1, i0 + i2)\n3: mark(cse, i1, i0 + i2)\n";
    assert_eq!(verdicts(program, marks), [14, 0]);
    assert_eq!(rewritten(program, marks), b"read i0\ni1 := i0 + i2\ni3 := i1\nwrite i3\n");
    let (given, _) = made(program);
    assert_eq!((given[16], given[48], given[80]), (6, 0, 6));
    let (words, listing) = updated(program, marks, &given);
    assert_eq!(changed(&given, &words), [(16, 2), (48, 4), (80, 2)]);
    assert_eq!((of(&listing, 0), of(&listing, 1), of(&listing, 2)), ((1, 1), (1, 1), (0, 1)));
    assert_eq!(made(&rewritten(program, marks)), (words, listing));
    // Statement 3 alone is written.
    let (words, _) = updated(program, marks, &ZEROS);
    assert_eq!(changed(&ZEROS, &words), [(48, 4), (96, 4)]);
    let (words, _) = updated(program, marks, &ONES);
    let cleared = (0..2 * VARIABLES).map(|set| PART_WORDS * set).filter(|&k| k != 48 && k != 96);
    assert_eq!(changed(&ONES, &words), cleared.map(|k| (k, !4)).collect::<Vec<_>>());
    // One that is refused gives T no use.
    let marks = b"3: mark(cse, i4, i0 + i2)\n";
    assert_eq!(verdicts(program, marks), [14]);
    assert_eq!(updated(program, marks, &given), (given.clone(), counted(&given)));
}

/// Statements in different words are changed, and one between them isn't.
#[test]
fn marks_on_several_statements() {
    let mut program = lines(200);
    (program[1], program[69], program[129], program[189]) = (
        "i1 := 7".to_string(),
        "i2 := i1 + i3".to_string(),
        "i4 := i1".to_string(),
        "i5 := i1 * i1".to_string(),
    );
    let program = text(&program);
    let marks = b"190: mark(rpl, i1, 7)\n130: mark(rpl, i3, 7)\n70: mark(rpl, i1, 7)\n";
    assert_eq!(verdicts(&program, marks), [0, 13, 0]);
    let (given, _) = made(&program);
    let (words, listing) = updated(&program, marks, &given);
    assert_eq!(changed(&given, &words), [(49, 0), (50, 2)]);
    assert_eq!((of(&listing, 1), of(&listing, 3)), ((1, 1), (0, 1)));
    assert_eq!(made(&rewritten(&program, marks)), (words, listing));

    // Statement 70 defines i2 and uses i3, 190 defines i5; 130 isn't changed.
    let (words, _) = updated(&program, marks, &ONES);
    for set in 0..2 * VARIABLES {
        let of_70 = if set == 4 || set == 7 { 0 } else { 1 << 5 };
        let of_190 = if set == 10 { 0 } else { 1 << 61 };
        let mut expected = [u64::MAX; PART_WORDS];
        (expected[1], expected[2]) = (!of_70, !of_190);
        assert_eq!(words[PART_WORDS * set..][..PART_WORDS], expected, "{set}");
    }
}

/// A set is the row of `def` or of `use` of its variable, and its count is what satisfies that condition.
#[test]
fn sets_are_rows_of_conditions() {
    let mut random = Random::new(12);
    for size in [2, 3, 8, 63, 64, 65, 128, 129, 200, 256, 257, 1_023, 1_024] {
        let program = generate::program(&mut random, size).text();
        let (words, listing) = made(&program);
        for v in 0..VARIABLES {
            for (first, count, atom) in
                [(defining(v), listing.defined[v], "def"), (using(v), listing.used[v], "use")]
            {
                let mut table = [0; TABLE_WORDS];
                let answer = tabulate(&program, format!("{atom}(i{v})").as_bytes(), &mut table);
                let satisfied = answer.expect("the condition is taken").satisfied;
                assert_eq!(
                    (&words[first..][..PART_WORDS], count),
                    (&table[..PART_WORDS], satisfied)
                );
            }
        }
    }
}

/// Three rounds of random marks: the list that is brought up to date is the one made afresh.
#[test]
fn three_rounds_against_lists_made_afresh() {
    let mut random = Random::new(13);
    let mut rounds = [0; 4];
    for _ in 0..2_000 {
        let size = generate::size(&mut random);
        let mut program = generate::program(&mut random, size);
        let mut words = [random.bits(); LIST_WORDS];
        list(&program.text(), &mut words).expect("the program is taken");
        let mut changing = 0;
        for _ in 0..3 {
            let count = random.between(1, 2 * size.min(60));
            let marks: Vec<String> = generate::marks(&mut random, &program, count)
                .iter()
                .map(|mark| mark.to_string())
                .collect();
            let (given, marks) = (program.text(), text(&marks));
            let listing = relist(&given, &marks, &mut words).expect("the marks are taken");
            let new = rewritten(&given, &marks);
            let mut afresh = [random.bits(); LIST_WORDS];
            assert_eq!(list(&new, &mut afresh), Ok(listing), "{}", shown(&given));
            assert_eq!(words, afresh, "{} {}", shown(&given), shown(&marks));
            changing += usize::from(new != given);
            program = oracle::program::Program::read(&new).expect("new text is taken");
        }
        rounds[changing] += 1;
    }
    assert!(rounds[3] > 100, "{rounds:?}");
}
