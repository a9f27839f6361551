//! Random contents of a folder's files: whole, damaged, too long or missing.

use crate::check::LARGEST_FILE;
use crate::generate::{self, Random, WrongDriver};
use crate::machine::VALUES;
use crate::marks::{self, MOST_MARKS};
use crate::program::{Program, MOST_LINES};
use crate::review::REVIEW_LINES;

/// A line again and again, until there are so many bytes.
fn long(line: &str, bytes: usize) -> Vec<u8> {
    line.as_bytes().iter().copied().cycle().take(bytes).collect()
}

/// The contents of `given` and `marks`; `None`: there is no such file.
pub fn checked(random: &mut Random) -> [Option<Vec<u8>>; 2] {
    let size = generate::size(random);
    let program = generate::program(random, size);
    let count = match random.below(60) {
        0 => random.between(MOST_MARKS - 2, MOST_MARKS + 2),
        1 => random.between(250, 258),
        _ => random.below(size + 4).min(60),
    };
    let (mut given, mut list) =
        (program.text(), marks::text(&generate::marks(random, &program, count)));
    match random.below(40) {
        0..=4 => given = generate::damage(random, &given),
        5 => given = generate::statement_soup(random),
        6 => given = long("skip\n", LARGEST_FILE + random.below(5)),
        7 => return [None, Some(list)],
        8..=12 => list = generate::damage(random, &list),
        13 => list = generate::mark_soup(random),
        14 => list = long("2: mark(rm, i0, 1)\n", LARGEST_FILE + random.below(5)),
        15 => return [Some(given), None],
        _ => {}
    }
    [Some(given), Some(list)]
}

/// A program, and its text or one that is refused, 2 to 5.
pub fn given(random: &mut Random) -> (Program, Vec<u8>) {
    let size = generate::size(random);
    let program = generate::program(random, size);
    let whole = program.text();
    let text = match random.below(24) {
        0 | 1 => generate::damage(random, &whole),
        2 => generate::statement_soup(random),
        3 => b"read i0\n".repeat(random.pick(&[0, 1, MOST_LINES + 1])),
        4 => [&whole[..], b"skip\n"].concat(),
        5 => b"read i0\nskip\nif i0 goto 2 else 5\nwrite i0\n".to_vec(),
        _ => whole,
    };
    (program, text)
}

/// A condition for a program, at times refused, 6 to 8.
pub fn condition(random: &mut Random, given: &Program) -> Vec<u8> {
    match random.below(12) {
        0 => generate::condition_soup(random),
        1 => generate::nested_condition(random),
        2 => {
            let length = random.between(1_000, 1_030);
            generate::condition_of_length(random, given, length)
        }
        3 => {
            let whole = generate::condition(random, given, 5);
            generate::damage(random, &whole)
        }
        _ => {
            let parts = random.between(1, 66);
            generate::condition(random, given, parts)
        }
    }
}

/// The file of a condition or of a driver's list, and what is read of it: one byte 10 at the file's end doesn't count.
pub fn condition_file(random: &mut Random, condition: &[u8]) -> (Vec<u8>, Vec<u8>) {
    let mut file = condition.to_vec();
    let bare = condition.strip_suffix(b"\n").unwrap_or(condition);
    if random.chance(50) && bare.len() == condition.len() {
        file.push(10);
    }
    (file, bare.to_vec())
}

/// A driver's list for a program, at times refused, 22.
pub fn driver(random: &mut Random, given: &Program) -> Vec<u8> {
    let his = generate::driver(random, given);
    match random.below(10) {
        0 => {
            let wrong = random.pick(&WrongDriver::ALL);
            generate::wrong_driver(random, wrong, &his)
        }
        1 => {
            let list = generate::driver_text(&his);
            generate::damage(random, &list)
        }
        _ => generate::driver_text(&his),
    }
}

/// A program of many `if`s, and its text or one that is refused, 2 to 5.
pub fn game(random: &mut Random) -> (Program, Vec<u8>) {
    let size = generate::size(random);
    let program = generate::game(random, size);
    let whole = program.text();
    match random.below(12) {
        0 => (program, generate::damage(random, &whole)),
        1 => given(random),
        _ => (program, whole),
    }
}

/// A review for a program, at times damaged.
pub fn conditions(random: &mut Random, given: &Program) -> Vec<u8> {
    match random.below(10) {
        0 => {
            let text = generate::any_review(random, given);
            generate::damage(random, &text)
        }
        1..=5 => {
            let lines = random.between(1, REVIEW_LINES);
            generate::review(random, given, lines, 3)
        }
        _ => generate::any_review(random, given),
    }
}

/// A buyer's prices, at times refused, 19 or 20.
pub fn prices(random: &mut Random) -> Vec<u8> {
    match random.below(60) {
        0 => long("7\n", LARGEST_FILE + random.below(5)),
        1..=20 => generate::price_text(random),
        _ => generate::table_text(random),
    }
}

/// A start, at times damaged; budgets are small, so that traces are.
pub fn start(random: &mut Random) -> Vec<u8> {
    let budget = match random.below(20) {
        0 => 0,
        1 => 1_000_001,
        _ => random.below(300),
    };
    let mut text = format!("{}\n{budget}\n", generate::word(random) as i32);
    let count = random.pick(&[0, 0, 1, 5, 32, VALUES - 1, VALUES, VALUES + 1]);
    // Variables are named in about half of the starts: most after those before them, some not.
    let names = random.pick(&[0, 0, 30, 100]);
    let mut next = 0;
    for _ in 0..count {
        if random.below(100) < names {
            next += random.pick(&[0, 0, 0, 1, 2, 20]);
            if random.below(200) == 0 {
                next = random.below(VALUES + 1);
            }
            text += &format!("i{next} = ");
        }
        text += &format!("{}\n", generate::word(random) as i32);
        next += 1;
    }
    if random.below(40) == 0 {
        text.pop();
    }
    match random.below(10) {
        0 => generate::damage(random, text.as_bytes()),
        _ => text.into_bytes(),
    }
}
