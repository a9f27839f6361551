//! Lists of readers and writers: document 02's Wish 12, and random lists against lists made afresh.

use super::{lines, P};
use crate::condition::{tabulate, TABLE_WORDS};
use crate::generate::{self, Random};
use crate::listing::{has, list, relist, Counts, Set, LIST_WORDS};
use crate::marks::{self, judge, TEXT_BYTES, VERDICT_BYTES};
use crate::program::{Program, MOST_LINES, VARIABLES};
use crate::tuned;

/// The document's marks.
const MARKS: &str = "4: mark(rpl, i2, 7)\n3: mark(rm, i2, 7)\n4: mark(rpl, i1, i0)\n\
                     6: mark(rm, i0, 1)\n9: mark(rm, i2, 7)\n";

/// A list that is nobody's.
fn filled(word: u64) -> [u64; LIST_WORDS] {
    [word; LIST_WORDS]
}

/// A program's list and its counts, by the plain and by the tuned call, in words that hold others before.
fn listed(program: &str) -> ([u64; LIST_WORDS], Counts) {
    let (mut one, mut other) = (filled(0x0123_4567_89ab_cdef), filled(u64::MAX));
    let counts = list(program.as_bytes(), &mut one);
    assert_eq!(tuned::list(program.as_bytes(), &mut other), counts);
    assert_eq!(one, other);
    (one, counts.expect("the program is taken"))
}

/// A list after a round, and its counts, by both calls.
fn relisted(program: &str, marks: &str, before: &[u64]) -> (Vec<u64>, Counts) {
    let (mut one, mut other) = (before.to_vec(), before.to_vec());
    let (program, marks) = (program.as_bytes(), marks.as_bytes());
    let counts = relist(program, marks, &mut one);
    assert_eq!(tuned::relist(program, marks, &mut other), counts);
    assert_eq!(one, other);
    (one, counts.expect("program and marks are taken"))
}

/// The words that two lists have differently, with what the second has.
fn changed(before: &[u64], after: &[u64]) -> Vec<(usize, u64)> {
    (0..before.len()).filter(|&k| before[k] != after[k]).map(|k| (k, after[k])).collect()
}

/// The number of ones of a variable's two sets.
fn of(counts: &Counts, x: usize) -> (u32, u32) {
    (counts.defined[x], counts.used[x])
}

/// The new text of a finished call.
fn rewritten(program: &str, marks: &str) -> String {
    super::judged(program, marks).1
}

#[test]
fn the_list_of_p() {
    let (words, counts) = listed(P);
    let mut expected =
        vec![(0, 33), (16, 114), (32, 2), (48, 8), (64, 4), (80, 8), (96, 8), (112, 128)];
    expected.extend((24..32).map(|v| (32 * v + 16, 128)));
    assert_eq!(expected[8], (784, 128));
    assert_eq!(changed(&filled(0), &words), expected);
    for x in 0..64 {
        let expected = match x {
            0 => (2, 4),
            1..=3 => (1, 1),
            24..=31 => (0, 1),
            _ => (0, 0),
        };
        assert_eq!(of(&counts, x), expected, "i{x}");
    }
}

#[test]
fn the_documents_marks() {
    let (given, before) = listed(P);
    let (words, counts) = relisted(P, MARKS, &given);
    assert_eq!(changed(&given, &words), [(80, 0)]);
    let mut expected = before;
    expected.used[2] = 0;
    assert_eq!(counts, expected);
    assert_eq!(words, listed(&rewritten(P, MARKS)).0);

    let (words, counts) = relisted(P, MARKS, &filled(0));
    assert_eq!(changed(&filled(0), &words), [(48, 8), (96, 8)]);
    assert_eq!((of(&counts, 1), of(&counts, 3)), ((0, 1), (1, 0)));
    assert_eq!(counts.defined.iter().chain(&counts.used).sum::<u32>(), 2);

    let (words, counts) = relisted(P, MARKS, &filled(u64::MAX));
    for (k, &word) in words.iter().enumerate() {
        let is_kept = k % 16 != 0 || k == 48 || k == 96;
        assert_eq!(word, if is_kept { u64::MAX } else { !8 }, "word {k}");
    }
    for x in 0..64 {
        let expected = match x {
            1 => (1_023, 1_024),
            3 => (1_024, 1_023),
            _ => (1_023, 1_023),
        };
        assert_eq!(of(&counts, x), expected, "i{x}");
    }
}

#[test]
fn small_and_large_programs() {
    let (words, counts) = listed("read i0\nwrite i0\n");
    let mut expected = vec![(0, 1), (16, 2)];
    expected.extend((24..32).map(|v| (32 * v + 16, 2)));
    assert_eq!(changed(&filled(0), &words), expected);
    assert_eq!(of(&counts, 0), (1, 1));

    let program = format!("read i0\n{}write i63\n", "i0 := i0 + i0\n".repeat(1_022));
    let (words, counts) = listed(&program);
    assert_eq!((&words[..15], words[15]), (&[u64::MAX; 15][..], u64::MAX >> 1));
    assert_eq!((words[16], &words[17..31], words[31]), (!1, &[u64::MAX; 14][..], u64::MAX >> 1));
    assert_eq!((words[2_046], words[2_047]), (0, 1 << 63));
    assert_eq!((of(&counts, 0), of(&counts, 63)), ((1_023, 1_022), (0, 1)));
    assert_eq!((of(&counts, 31), of(&counts, 32)), ((0, 1), (0, 0)));
}

#[test]
fn a_variable_on_both_sides() {
    let (words, counts) = listed("read i1\ni0 := i0 + i0\nwrite i1\n");
    assert_eq!((words[0], words[16]), (2, 2));
    assert_eq!(of(&counts, 0), (1, 1));
}

/// What is written is replaced; the kept ones are used there still, also the one that was written.
#[test]
fn replaced_at_write() {
    let program = "read i0\ni24 := i0\nwrite i24\n";
    let marks = "3: mark(rpl, i24, i0)\n";
    assert_eq!(rewritten(program, marks), "read i0\ni24 := i0\nwrite i0\n");
    let (given, _) = listed(program);
    let (words, counts) = relisted(program, marks, &given);
    assert_eq!(changed(&given, &words), [(16, 6)]);
    assert_eq!((of(&counts, 0), of(&counts, 24)), ((1, 2), (1, 1)));
    // One that isn't kept loses its use, and the kept ones are set where they were missing.
    let program = "read i0\ni9 := i0\nwrite i9\n";
    let marks = "3: mark(rpl, i9, i0)\n";
    let (given, _) = listed(program);
    assert_eq!(changed(&given, &relisted(program, marks, &given).0), [(16, 6), (304, 0)]);
    let (words, _) = relisted(program, marks, &filled(0));
    let mut expected = vec![(16, 4)];
    expected.extend((24..32).map(|v| (32 * v + 16, 4)));
    assert_eq!(changed(&filled(0), &words), expected);
}

/// A mark that is accepted and changes no text writes no bit, and a refused one neither.
#[test]
fn unchanged_statements_are_kept() {
    let program = lines("read i0 / i1 := i1 / i2 := i1 / write i2");
    for (marks, verdict) in [("3: mark(rpl, i1, i1)\n", 0), ("3: mark(rm, i2, i1)\n", 14)] {
        assert_eq!(super::judged(&program, marks).0, [verdict]);
        for word in [0, u64::MAX, 0x5555_5555_5555_5555] {
            assert_eq!(relisted(&program, marks, &filled(word)).0, filled(word));
        }
    }
    assert_eq!(relisted(P, "", &filled(7)).0, filled(7));
}

#[test]
fn refusals_in_their_order() {
    let p = P.as_bytes();
    for room in [0, 1, 256, LIST_WORDS - 1] {
        let mut words = vec![7; room];
        for program in [p, b"rubbish", b""] {
            assert_eq!(list(program, &mut words), Err(1));
            for marks in [&b""[..], b"x"] {
                assert_eq!(relist(program, marks, &mut words), Err(1));
            }
        }
        assert_eq!(words, vec![7; room]);
    }
    let mut words = filled(7);
    for (program, number) in [("x", 2), ("", 3), ("read i0\nskip\n", 4)] {
        assert_eq!(list(program.as_bytes(), &mut words), Err(number));
        assert_eq!(relist(program.as_bytes(), b"x", &mut words), Err(number));
    }
    assert_eq!(relist(p, b"x\n", &mut words), Err(9));
    assert_eq!(relist(p, &b"4: mark(rm, i0, 1)\n".repeat(1_025), &mut words), Err(10));
    assert_eq!(words, filled(7));
}

#[test]
fn words_beyond_are_kept() {
    let mut words = vec![7; LIST_WORDS + 44];
    let counts = list(P.as_bytes(), &mut words);
    assert_eq!((&words[..LIST_WORDS], counts.ok()), (&listed(P).0[..], Some(listed(P).1)));
    assert_eq!(words[LIST_WORDS..], [7; 44]);
    relist(P.as_bytes(), MARKS.as_bytes(), &mut words).expect("the marks are taken");
    assert_eq!((words[80], &words[LIST_WORDS..]), (0, &[7; 44][..]));
}

/// A set is the row of `def` or of `use` of its variable, and its count is what satisfies that condition.
#[test]
fn sets_are_rows_of_conditions() {
    let random = &mut Random::new(40);
    for _ in 0..300 {
        let size = generate::size(random);
        let program = generate::program(random, size);
        let mut words = filled(random.bits());
        let counts = list(&program.text(), &mut words).expect("the program is taken");
        for x in 0..usize::from(VARIABLES) {
            for (first, count, atom) in
                [(32 * x, counts.defined[x], "def"), (32 * x + 16, counts.used[x], "use")]
            {
                let mut table = [0; TABLE_WORDS];
                let condition = format!("{atom}(i{x})");
                let answer = tabulate(&program.text(), condition.as_bytes(), &mut table);
                let (_, satisfied, _) = answer.expect("the condition is taken");
                assert_eq!((&words[first..first + 16], count), (&table[..16], satisfied));
            }
        }
    }
}

/// Three rounds: a list that is brought up to date is the new program's.
#[test]
fn rounds_against_lists_made_afresh() {
    let random = &mut Random::new(41);
    let mut rounds = [0; 4];
    for _ in 0..1_500 {
        let size = generate::size(random);
        let mut program = generate::program(random, size);
        let mut words = filled(random.bits());
        list(&program.text(), &mut words).expect("the program is taken");
        let mut changing = 0;
        for _ in 0..3 {
            let count = random.between(1, 2 * size.min(40));
            let marks = marks::text(&generate::marks(random, &program, count));
            let text = program.text();
            let counts = relist(&text, &marks, &mut words).expect("the marks are taken");
            let (mut verdicts, mut new) = ([0; VERDICT_BYTES], [0; TEXT_BYTES]);
            let answer = judge(&text, &marks, &mut verdicts, &mut new);
            let (_, _, bytes) = answer.expect("the marks are taken");
            let new = &new[..bytes as usize];
            let mut afresh = filled(random.bits());
            assert_eq!(list(new, &mut afresh), Ok(counts), "{}", text.escape_ascii());
            assert_eq!(words, afresh, "{} {}", text.escape_ascii(), marks.escape_ascii());
            changing += usize::from(new != text);
            program = Program::read(new).expect("new text is a program's");
        }
        rounds[changing] += 1;
    }
    assert!(rounds[3] > 100, "{rounds:?}");
}

/// Every bit of a changed statement is as in the list made afresh, and every other as it was.
#[test]
fn any_list_is_written_at_changed_statements_alone() {
    let random = &mut Random::new(42);
    let (mut written, mut wrong) = (0, 0);
    for _ in 0..1_500 {
        let size = generate::size(random);
        let program = generate::program(random, size);
        let count = random.between(1, 2 * size.min(40));
        let marks = generate::marks(random, &program, count);
        let verdicts = marks::Judge::new(&program).verdicts(&marks);
        let new = marks::rewritten(&program, &marks, &verdicts);
        let before: Vec<u64> = (0..LIST_WORDS).map(|_| random.bits()).collect();
        let (mut words, mut afresh) = (before.clone(), filled(0));
        relist(&program.text(), &marks::text(&marks), &mut words).expect("the marks are taken");
        list(&new.text(), &mut afresh).expect("new text is a program's");
        for at in 0..MOST_LINES {
            let (given, made) = (program.statements().get(at), new.statements().get(at));
            let expected = if given == made { &before[..] } else { &afresh };
            written += usize::from(given != made);
            for x in 0..VARIABLES {
                for set in [Set::Defining, Set::Using] {
                    assert_eq!(has(&words, x, set, at), has(expected, x, set, at));
                }
            }
            wrong += usize::from(given == made && given.is_some());
        }
    }
    assert!(written > 1_000 && wrong > 1_000, "{written} {wrong}");
}

#[test]
fn tuned_lists_are_the_plain_ones() {
    let random = &mut Random::new(43);
    let mut met = [0; 11];
    for _ in 0..10_000 {
        let size = generate::size(random);
        let program = generate::program(random, size);
        let count = random.between(0, size.min(60)) + random.pick(&[0, 0, 0, 0, 200]);
        let (mut text, mut marks) =
            (program.text(), marks::text(&generate::marks(random, &program, count)));
        match random.below(20) {
            0 => text = generate::statement_soup(random),
            1..=3 => text = generate::damage(random, &text),
            4 => marks = generate::mark_soup(random),
            5..=7 => marks = generate::damage(random, &marks),
            _ => {}
        }
        let most = LIST_WORDS;
        let room = random.pick(&[most, most, most, most + 44, most - 1]);
        let before: Vec<u64> = match random.below(3) {
            0 => vec![random.pick(&[0, u64::MAX]); room],
            _ => (0..room).map(|_| random.bits()).collect(),
        };
        let shown = || format!("{} {}", text.escape_ascii(), marks.escape_ascii());
        let (mut one, mut other) = (before.clone(), before);
        let answer = relist(&text, &marks, &mut one);
        assert_eq!(tuned::relist(&text, &marks, &mut other), answer, "{}", shown());
        assert_eq!(one, other, "{}", shown());
        assert_eq!(tuned::list(&text, &mut other), list(&text, &mut one), "{}", shown());
        assert_eq!(one, other, "{}", shown());
        met[usize::from(answer.err().unwrap_or(0))] += 1;
    }
    println!("{met:?}");
    for number in [0, 1, 2, 3, 4, 5, 9, 10] {
        assert!(met[number] > 5, "{number}: {met:?}");
    }
}
