//! Executed cases of `mark_line`. Bounds are counted by hand or by splitting the list at byte 10;
//! `differential.rs` holds the call to a second implementation.

mod common;

use common::{shown, text, P};
use oracle::generate::{self, Random};
use rewrites::{judge, mark_line, raw, Refusal, MARKS, TEXT_BYTES, VERDICT_BYTES};
use std::ops::Range;

/// The list to check against.
const LIST: &[u8] = b"4: mark(rpl, i2, 7)\n3: mark(rm, i2, 7)\n4: mark(rpl, i1, i0)\n\
    6: mark(rm, i0, 1)\n9: mark(rm, i2, 7)\n";

/// Lines at and beyond the most marks. Most have the low bits of a line that there is.
const BEYOND: [u32; 12] = [
    1_024,
    1_025,
    1_028,
    2_048,
    1 << 16,
    (1 << 16) + 1,
    (1 << 16) + 1_024,
    1 << 24,
    1 << 31,
    (1 << 31) + 1,
    u32::MAX - 1,
    u32::MAX,
];

/// The lines that are asked for in a list of any size.
fn lines() -> impl Iterator<Item = u32> {
    [0, 1, 2, 4, 5, 255, 256, 1_022, 1_023].into_iter().chain(BEYOND)
}

/// What the places hold before a call, and the words on both sides of each.
const PLACES: [usize; 5] = [
    0xeeee_eeee_0000_0001,
    0xeeee_eeee_0000_0002,
    0xeeee_eeee_0000_0003,
    0xeeee_eeee_0000_0004,
    0xeeee_eeee_0000_0005,
];

/// The number that a raw call returns, and the places after it.
fn lend(marks: &[u8], line: u32) -> (u8, [usize; 5]) {
    let list = marks.to_vec();
    let mut places = PLACES;
    let [_, begin, _, end, _] = &mut places;
    // SAFETY: the pointers come from references, and no two of the written places overlap.
    let number = unsafe { raw::rewrites_mark_line(list.as_ptr(), list.len(), line, begin, end) };
    assert_eq!(list, marks);
    (number, places)
}

/// The line lies here, and nothing but the two places is set.
fn assert_lies(marks: &[u8], line: u32, bounds: Range<usize>) {
    let places = [PLACES[0], bounds.start, PLACES[2], bounds.end, PLACES[4]];
    assert_eq!(lend(marks, line), (0, places), "line {} of {}", line, shown(marks));
    assert_eq!(mark_line(marks, line), Ok(bounds));
}

/// The list is refused, whichever line is asked for, and the places are kept.
fn assert_refused(marks: &[u8], refusal: Refusal) {
    for line in lines() {
        let expected = (refusal.number(), PLACES);
        assert_eq!(lend(marks, line), expected, "line {} of {}", line, shown(marks));
        assert_eq!(mark_line(marks, line), Err(refusal));
    }
}

/// The same line so many times.
fn repeated(line: &str, times: usize) -> Vec<u8> {
    text(&vec![line; times])
}

#[test]
fn the_lines_of_the_list_of_p() {
    for (line, bounds) in [0..20, 20..39, 39..60, 60..79, 79..98].into_iter().enumerate() {
        assert_lies(LIST, line as u32, bounds);
    }
    for line in [5, 6, 7, 255, 256, 1_023].into_iter().chain(BEYOND) {
        assert_lies(LIST, line, 98..98);
    }
}

#[test]
fn the_empty_list_has_no_line() {
    for line in lines() {
        assert_lies(b"", line, 0..0);
    }
}

#[test]
fn marks_up_to_1024_have_their_lines_and_1025_are_refused_10() {
    for (line, bytes) in [
        ("0: mark(rm, i0, 0)", 19),
        ("2147483647: mark(rm, i63, 2147483647 + 2147483647)", 51),
        ("2147483647: mark(rm, i63, -2147483648 + -2147483648)", 53),
        // The longest.
        ("2147483647: mark(cse, i63, -2147483648 + -2147483648)", 54),
    ] {
        for count in [1, 2, 257, MARKS] {
            let list = repeated(line, count);
            assert_eq!(list.len(), bytes * count);
            for at in 0..count {
                assert_lies(&list, at as u32, bytes * at..bytes * (at + 1));
            }
            for at in [count as u32].into_iter().chain(BEYOND) {
                assert_lies(&list, at, list.len()..list.len());
            }
        }
        for count in [1_025, 1_026, 2_048] {
            assert_refused(&repeated(line, count), Refusal::MarkCount);
        }
    }
    // 66,560 lines are 1,024 by the low 16 bits of their count.
    for count in [65_536, 66_560] {
        let list = repeated("0: mark(rm, i0, 0)", count);
        assert_eq!(mark_line(&list, 0), Err(Refusal::MarkCount));
    }
}

#[test]
fn lines_of_every_length_lie_end_to_end() {
    let numbers = (0..10).map(|digits| 2_147_483_647 / 10_u32.pow(digits));
    let marks: Vec<String> = numbers
        .flat_map(|n| {
            ["0", "i31", "-40", "i0 + i1", "-2147483648 < 2147483647"]
                .map(|right| format!("{}: mark(rm, i9, {})", n, right))
        })
        .chain(
            ["9: mark(rpl, i31, -40)", "9: mark(cse, i9, i0)", "10: mark(cse, i9, i0 + i1)"]
                .map(Into::into),
        )
        .collect();
    let list = text(&marks);
    let mut begin = 0;
    for (line, mark) in marks.iter().enumerate() {
        let end = begin + mark.len() + 1;
        assert_lies(&list, line as u32, begin..end);
        begin = end;
    }
    assert_lies(&list, marks.len() as u32, list.len()..list.len());
}

#[test]
fn a_last_line_without_byte_10_is_refused_9() {
    assert_refused(b"4", Refusal::MarkMisspelled);
    assert_refused(&LIST[..LIST.len() - 1], Refusal::MarkMisspelled);
    for count in [1, 2, 257, 1_023, 1_024, 1_025, 1_100] {
        let mut list = repeated("4: mark(rpl, i2, 7)", count);
        list.pop();
        assert_refused(&list, Refusal::MarkMisspelled);
    }
}

#[test]
fn the_list_ends_at_its_length() {
    // The bytes that follow in memory would make each beginning of the list one that is taken.
    for end in 0..=LIST.len() {
        if end == 0 || LIST[end - 1] == 10 {
            let count = LIST[..end].iter().filter(|&&byte| byte == 10).count();
            assert_eq!(mark_line(&LIST[..end], count as u32), Ok(end..end));
        } else {
            assert_eq!(mark_line(&LIST[..end], 0), Err(Refusal::MarkMisspelled));
        }
    }
}

#[test]
fn a_misspelled_line_is_refused_9_whichever_is_asked_for() {
    #[rustfmt::skip]
    let bad = [
        "", " ", "x", "4: mark(rm, i2)", "4: mark(rm, i2, 7)\r", "4: mark(rm, i2, -0)", "4: mark(cs, i2, 7)",
        "4: mark(cse, i2, i0 + 1 + 2)", "4: mark(cse, i2, i0 +)",
    ];
    for bad in bad {
        for at in 0..=5 {
            let mut marks: Vec<&str> = std::str::from_utf8(LIST).expect("a text").lines().collect();
            marks.insert(at, bad);
            assert_refused(&text(&marks), Refusal::MarkMisspelled);
        }
    }
}

#[test]
fn refusal_9_comes_before_10() {
    for at in [0, 256, 1_023, 1_024, 1_025, 1_099] {
        let mut marks = vec!["4: mark(rpl, i2, 7)"; 1_100];
        assert_refused(&text(&marks), Refusal::MarkCount);
        marks[at] = "4: mark(rpl, i2, 7) ";
        assert_refused(&text(&marks), Refusal::MarkMisspelled);
    }
}

#[test]
fn verdicts_stand_beside_their_lines() {
    let mut verdicts = [0; VERDICT_BYTES];
    let answer = judge(P.as_bytes(), LIST, &mut verdicts, &mut [0; TEXT_BYTES]);
    let marks = answer.expect("the list is taken").marks;
    let beside: Vec<String> = (0..marks)
        .map(|line| {
            let bounds = mark_line(LIST, line).expect("the list is taken");
            format!("{} {}", verdicts[line as usize], shown(&LIST[bounds]))
        })
        .collect();
    let expected = [
        r"0 4: mark(rpl, i2, 7)\n",
        r"14 3: mark(rm, i2, 7)\n",
        r"12 4: mark(rpl, i1, i0)\n",
        r"13 6: mark(rm, i0, 1)\n",
        r"11 9: mark(rm, i2, 7)\n",
    ];
    assert_eq!(beside, expected);
}

/// The lines, one after another, are the list, and each is its mark's text with byte 10.
#[test]
fn random_lists_are_put_together_from_their_lines() {
    let mut random = Random::new(0x1f83_d9ab_fb41_bd6b);
    let (mut most, mut empty) = (0, 0);
    for case in 0..4_000 {
        let size = 2 + random.below(12);
        let program = generate::program(&mut random, size);
        let count = match case % 100 {
            0 => random.between(MARKS - 2, MARKS),
            _ => random.below(24),
        };
        let marks = generate::marks(&mut random, &program, count);
        let list = text(&marks.iter().map(|mark| mark.to_string()).collect::<Vec<_>>());
        let mut whole = Vec::new();
        for (line, mark) in marks.iter().enumerate() {
            let bounds = mark_line(&list, line as u32).expect("the list is taken");
            assert_eq!(bounds.start, whole.len(), "line {} of {}", line, shown(&list));
            let bytes = &list[bounds];
            assert_eq!(bytes, format!("{}\n", mark).as_bytes());
            whole.extend_from_slice(bytes);
        }
        assert_eq!(whole, list);
        let far = random.bits() as u32 | MARKS as u32;
        for line in [count as u32, count as u32 + 1, far] {
            assert_lies(&list, line, list.len()..list.len());
        }
        most += usize::from(count == MARKS);
        empty += usize::from(count == 0);
    }
    assert!(most > 5 && empty > 50, "{} {}", most, empty);
}
