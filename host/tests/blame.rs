//! Where texts are wrong, held to the second implementation, which tries every way to read a condition.

use oracle::condition::{self, LONGEST_TEXT};
use oracle::generate::{self, Random};
use oracle::{desk, folder, marks};
use rewrites::{blame_condition, blame_marks, blame_program};

fn cases(count: u64) -> impl Iterator<Item = Random> {
    (0..count).map(|case| Random::new(29 + case))
}

fn place(told: Option<u32>) -> usize {
    told.map_or(0, |number| number as usize)
}

#[test]
fn programs() {
    let mut wrong = 0;
    for mut random in cases(4_000) {
        let (_, text) = folder::given(&mut random);
        assert_eq!(place(blame_program(&text)), desk::blame(&text), "{}", text.escape_ascii());
        wrong += usize::from(blame_program(&text).is_some());
    }
    assert!(wrong > 200, "{wrong}");
}

#[test]
fn lists_of_marks() {
    let mut wrong = 0;
    for mut random in cases(4_000) {
        let program = generate::program(&mut random, 12);
        let count = random.below(30);
        let list = marks::text(&generate::marks(&mut random, &program, count));
        let list = if random.chance(70) { generate::damage(&mut random, &list) } else { list };
        let line = marks::first_wrong(&list);
        assert_eq!(place(blame_marks(&list)), line, "{}", list.escape_ascii());
        wrong += usize::from(line > 1);
        let soup = generate::mark_soup(&mut random);
        assert_eq!(place(blame_marks(&soup)), marks::first_wrong(&soup), "{}", soup.escape_ascii());
    }
    assert!(wrong > 500, "{wrong}");
}

/// All texts are the beginning of a condition, a condition, or one that is damaged.
#[test]
fn conditions() {
    let mut wrong = 0;
    for mut random in cases(6_000) {
        let program = generate::program(&mut random, 8);
        let parts = random.between(1, 12);
        let whole = generate::condition(&mut random, &program, parts);
        let cut = whole[..random.below(whole.len() + 1)].to_vec();
        let soup = generate::condition_soup(&mut random);
        for text in [generate::damage(&mut random, &whole), cut, soup, whole] {
            let byte = condition::stop(&text);
            assert_eq!(place(blame_condition(&text)), byte, "{}", text.escape_ascii());
            wrong += usize::from(byte > 1);
        }
    }
    assert!(wrong > 6_000, "{wrong}");
}

#[test]
fn long_conditions() {
    for length in [LONGEST_TEXT - 1, LONGEST_TEXT] {
        let told = Some(length as u32 + 1);
        assert_eq!(blame_condition(&b"!".repeat(length)), told);
        assert_eq!(blame_condition(&b"(".repeat(length)), told);
        assert_eq!(blame_condition(&b"E[".repeat(length)[..length]), told);
        let mut wrong = b"(".repeat(length);
        wrong[length - 1] = b')';
        assert_eq!(blame_condition(&wrong), Some(length as u32));
    }
    assert_eq!(blame_condition(&b"!".repeat(LONGEST_TEXT + 1)), None);
    assert_eq!(blame_condition(&b"x".repeat(LONGEST_TEXT + 1)), None);
}

#[test]
fn empty_texts() {
    assert_eq!(blame_program(b""), None);
    assert_eq!(blame_marks(b""), None);
    assert_eq!(blame_condition(b""), Some(1));
}
