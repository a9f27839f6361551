//! Where the lines of a list of marks lie: the cases of the change request.

use crate::generate::{self, Random};
use crate::marks::{self, mark_line, MOST_MARKS};

/// The document's marks.
const MARKS: &[u8] =
    b"4: mark(rpl, i2, 7)\n3: mark(rm, i2, 7)\n4: mark(rpl, i1, i0)\n6: mark(rm, i0, 1)\n\
      9: mark(rm, i2, 7)\n";

/// Numbers of lines at and beyond the most marks, some of them with the low bits of a line within.
const BEYOND: [u32; 8] = [1_024, 1_025, 1_026, 2_048, 1 << 16, (1 << 16) + 1, 1 << 31, u32::MAX];

/// A text's lines as they are split at byte 10.
fn split(text: &[u8]) -> Vec<&[u8]> {
    text.split_inclusive(|&byte| byte == 10).collect()
}

#[test]
fn lines_of_the_documents_marks() {
    for (line, bounds) in [0..20, 20..39, 39..60, 60..79, 79..98].into_iter().enumerate() {
        assert_eq!(mark_line(MARKS, line as u32), Ok(bounds));
    }
    for line in [5, 6, 255, 256, 1_023].into_iter().chain(BEYOND) {
        assert_eq!(mark_line(MARKS, line), Ok(98..98), "{line}");
    }
}

#[test]
fn the_empty_list_has_no_line() {
    for line in [0, 1, 255, 256, 1_023].into_iter().chain(BEYOND) {
        assert_eq!(mark_line(b"", line), Ok(0..0), "{line}");
    }
}

#[test]
fn lists_of_the_most_marks() {
    for (line, bytes) in [
        ("0: mark(rm, i0, 0)\n", 19),
        ("2147483647: mark(rm, i63, 2147483647 + 2147483647)\n", 51),
        ("2147483647: mark(rm, i63, -2147483648 + -2147483648)\n", 53),
        ("2147483647: mark(cse, i63, -2147483648 + -2147483648)\n", 54),
    ] {
        assert_eq!(line.len(), bytes);
        let list = line.repeat(MOST_MARKS).into_bytes();
        for at in 0..MOST_MARKS {
            assert_eq!(mark_line(&list, at as u32), Ok(bytes * at..bytes * (at + 1)));
        }
        for at in BEYOND {
            assert_eq!(mark_line(&list, at), Ok(list.len()..list.len()), "{at}");
        }
        let longer = line.repeat(MOST_MARKS + 1).into_bytes();
        for at in [0, 1, 255, 256, 1_023].into_iter().chain(BEYOND) {
            assert_eq!(mark_line(&longer, at), Err(10), "{at}");
            assert_eq!(mark_line(&longer[..longer.len() - 1], at), Err(9), "{at}");
            assert_eq!(mark_line(&[&longer[..], b"x\n"].concat(), at), Err(9), "{at}");
        }
    }
}

#[test]
fn refused_lists_have_no_lines() {
    for end in 0..=MARKS.len() {
        let list = &MARKS[..end];
        for line in [0, 1, 4, 5, u32::MAX] {
            let answer = mark_line(list, line);
            if list.is_empty() || list.ends_with(b"\n") {
                let bounds = answer.expect("a front of whole lines is taken");
                assert_eq!(&list[bounds], *split(list).get(line as usize).unwrap_or(&&b""[..]));
            } else {
                assert_eq!(answer, Err(9), "{end} {line}");
            }
        }
    }
    for wrong in [&b"\n"[..], b"x\n", b"4: mark(rpl, i2, 7)\r\n", b"4: mark(rpl, i2, 7)\n\n"] {
        for line in [0, 1, 2, u32::MAX] {
            assert_eq!(mark_line(wrong, line), Err(9), "{}", wrong.escape_ascii());
        }
    }
}

#[test]
fn random_lists_are_their_lines() {
    let random = &mut Random::new(31);
    let (mut taken, mut refused) = (0, [0; 11]);
    for _ in 0..4_000 {
        let size = random.between(2, 12);
        let program = generate::program(random, size);
        let count = match random.below(100) {
            0 => random.between(MOST_MARKS, MOST_MARKS + 2),
            _ => random.below(20),
        };
        let list = marks::text(&generate::marks(random, &program, count));
        let list = if random.chance(75) { list } else { generate::damage(random, &list) };
        match marks::read(&list) {
            Err(number) => {
                let line = random.pick(&[0, 1, count as u32, u32::MAX]);
                assert_eq!(mark_line(&list, line), Err(number), "{}", list.escape_ascii());
                refused[usize::from(number)] += 1;
            }
            Ok(marks) => {
                let bounds = (0..marks.len() as u32).map(|line| mark_line(&list, line));
                let lines: Vec<&[u8]> =
                    bounds.map(|bounds| &list[bounds.expect("the list is taken")]).collect();
                assert_eq!(lines, split(&list));
                assert_eq!(lines.concat(), list);
                taken += 1;
            }
        }
    }
    assert!(taken > 2_000 && refused[9] > 200 && refused[10] > 10, "{taken} {refused:?}");
}
