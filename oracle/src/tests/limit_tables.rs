//! Tables at the limit against the plain ones.

use super::tuned::{condition_text, program_text};
use super::{skips, P};
use crate::condition::{tabulate, LONGEST_TEXT, MOST_PARTS, TABLE_WORDS};
use crate::generate::{self, Random};
use crate::limit;
use crate::program::{Program, MOST_LINES};

/// Sizes around those of a row's words, and of rows with as many words as are chosen between.
pub(super) const BORDERS: [usize; 22] = [
    2, 3, 62, 63, 64, 65, 66, 127, 128, 129, 191, 192, 193, 255, 256, 257, 511, 512, 513, 1_022,
    1_023, MOST_LINES,
];

const UNARY: [&str; 12] = ["EX", "AX", "EF", "AF", "EG", "AG", "EY", "AY", "ER", "AR", "EM", "AM"];

/// What both calls answer with a table of so many words, and that they leave it alike.
fn same_in(text: &[u8], condition: &[u8], room: usize) -> Result<(u32, u32, u32), u8> {
    let (mut one, mut other) = (vec![7; room], vec![7; room]);
    let plain = tabulate(text, condition, &mut other);
    let shown = || format!("{} {}", text.escape_ascii(), condition.escape_ascii());
    assert_eq!(limit::tabulate(text, condition, &mut one), plain, "{}", shown());
    assert!(one == other, "{}", shown());
    plain
}

fn same(text: &[u8], condition: &[u8]) -> Result<(u32, u32, u32), u8> {
    same_in(text, condition, TABLE_WORDS + 1)
}

/// The refusal of a condition over P, 0 where it is taken.
fn refused(condition: &[u8]) -> u8 {
    same(P.as_bytes(), condition).err().unwrap_or(0)
}

/// So many random programs and conditions.
fn random_tables(random: &mut Random, cases: usize) {
    let mut refusals = [0; 9];
    for _ in 0..cases {
        let size = generate::size(random);
        let program = match random.below(3) {
            0 => generate::game(random, size),
            _ => generate::program(random, size),
        };
        let text = program_text(random, &program);
        let condition = condition_text(random, &program);
        let most = TABLE_WORDS;
        let room = random.pick(&[most, most, most, most, most + 1, most - 1]);
        if let Err(number) = same_in(&text, &condition, room) {
            refusals[usize::from(number)] += 1;
        }
    }
    assert!((1..9).all(|number| refusals[number] > cases / 2_000), "{refusals:?}");
}

#[test]
fn tables_at_the_limit_are_the_plain_ones() {
    random_tables(&mut Random::new(321), 10_000);
}

#[test]
#[ignore = "takes minutes"]
fn many_tables_at_the_limit_are_the_plain_ones() {
    random_tables(&mut Random::new(322), 1_000_000);
}

/// Programs of a size: straight, with jumps of all kinds, and with steps against the order of lines.
pub(super) fn flows(random: &mut Random, size: usize) -> Vec<Program> {
    let of = |inner: &dyn Fn(usize) -> String| {
        let lines: String = (2..size).map(|n| inner(n) + "\n").collect();
        let text = format!("read i0\n{lines}write i3\n");
        Program::read(text.as_bytes()).expect("a program")
    };
    let place = |n: usize, by: usize| 2 + n * by % (size - 1);
    vec![
        of(&|n| format!("i{} := i{} + {n}", n % 8, (n + 3) % 8)),
        of(&|n| format!("if i{} goto {} else {size}", n % 8, if n == 2 { size } else { n - 1 })),
        of(&|n| format!("if i{} goto {} else {}", n % 8, n + 1, n)),
        of(&|n| format!("if i{} goto {} else {}", n % 8, place(n, 97), place(n, 61))),
        of(&|n| match n % 8 {
            0 => format!("if i12 goto {} else {}", n - 6, n + 1),
            4 => format!("if i1 goto {} else {}", n + 1, (n + 40).min(size)),
            5 => "skip".to_string(),
            k => format!("i{k} := i{} * {n}", k + 1),
        }),
        generate::game(random, size),
        generate::program(random, size),
        generate::program(random, size),
    ]
}

/// Each operator over all kinds of steps, at words' borders.
#[test]
fn every_operator_is_the_plain_one_at_words_borders() {
    let random = &mut Random::new(323);
    for size in BORDERS {
        for program in flows(random, size) {
            let text = program.text();
            let node = random.between(1, size);
            let atoms = ["def(i1)", "use(i3)", "exit", "trans(i2 + i3)"];
            let [p, q] = [random.pick(&atoms), random.pick(&atoms)];
            let near = format!("(node({node}) | use(i{}))", random.below(8));
            for operator in UNARY {
                let _ = same(&text, format!("{operator} {operator} {near}").as_bytes());
                let _ = same(&text, format!("{operator} !{q}").as_bytes());
            }
            for letter in ["U", "W", "S", "B"] {
                for quantifier in ["E", "A"] {
                    for [p, q] in [[p, q], [&format!("!{p}"), &near]] {
                        let condition = format!("{quantifier}[{p} {letter} {q}]");
                        let _ = same(&text, condition.as_bytes());
                    }
                }
            }
        }
    }
}

/// A tree of `if`s against the order of lines, the root last, in which two targets at once wait for each source.
#[test]
fn targets_that_wait_for_one_source_are_the_plain_ones() {
    for size in [4, 9, 40, 63, 64, 65, 66, 130, 257, 700] {
        // Line n has number size - n in the tree, and k's children have 2k and 2k + 1; the leaves lead to the end.
        let line = |k: usize| if k + 2 <= size { size - k } else { size };
        let inner: String = (2..size)
            .map(|n| (size - n, format!("if i{} goto", n % 5)))
            .map(|(k, test)| format!("{test} {} else {}\n", line(2 * k), line(2 * k + 1)))
            .collect();
        let text = format!("read i0\n{inner}write i3\n");
        for q in [size - 1, size - 2, size / 2, 2, size].map(|n| format!("node({n})")) {
            for operators in ["AR ", "ER ", "AM !", "EM !", "AF ", "EF ", "AG !", "EG !"] {
                assert!(same(text.as_bytes(), format!("{operators}{q}").as_bytes()).is_ok());
            }
            for [quantifier, letter] in [["A", "S"], ["E", "S"], ["A", "B"], ["A", "U"]] {
                let condition = format!("{quantifier}[!use(i0) {letter} {q}]");
                assert!(same(text.as_bytes(), condition.as_bytes()).is_ok());
            }
        }
    }
}

/// Every statement of a program, and some that aren't its own, as atoms.
#[test]
fn every_statement_is_matched_as_by_the_plain_call() {
    let random = &mut Random::new(324);
    for size in [2, 3, 17, 64, 65, 200] {
        for program in flows(random, size) {
            let text = program.text();
            for statement in program.statements() {
                let spelled = statement.to_string();
                for other in [
                    spelled.clone(),
                    spelled.replacen("i1", "i2", 1),
                    spelled.replace("+", "-"),
                    spelled.replace("goto 2", "goto 65538"),
                    spelled.replace("else 3", "else 0"),
                ] {
                    let _ = same(&text, format!("stmt({other})").as_bytes());
                }
            }
        }
    }
    let program =
        "read i0\ni1 := 7\ni1 := i7\ni1 := 7 - i0\ni1 := 7 - 0\ni1 := -7\nskip\nwrite i0\n";
    for right in ["7", "i7", "7 - i0", "7 - 0", "-7", "0", "i0", "i7 - i0", "i7 - 0", "7 + 0"] {
        let _ = same(program.as_bytes(), format!("stmt(i1 := {right})").as_bytes());
        let _ = same(program.as_bytes(), format!("trans({right})").as_bytes());
    }
    for atom in ["stmt(skip)", "stmt(read i0)", "stmt(read i1)", "stmt(write i0)", "use(i24)"] {
        let _ = same(program.as_bytes(), atom.as_bytes());
    }
}

#[test]
fn parts_and_lengths_have_their_ends() {
    for parts in [1, 2, MOST_PARTS - 1, MOST_PARTS, MOST_PARTS + 1, 200, 1_000] {
        let wanted = if parts <= MOST_PARTS { 0 } else { 8 };
        assert_eq!(refused(("!".repeat(parts - 1) + "true").as_bytes()), wanted);
        assert_eq!(refused(("!".repeat(parts - 1) + "tru").as_bytes()), 7);
    }
    for length in LONGEST_TEXT - 2..=LONGEST_TEXT + 2 {
        let wanted = if length <= LONGEST_TEXT { 8 } else { 6 };
        assert_eq!(refused(("!".repeat(length - 4) + "exit").as_bytes()), wanted);
        assert_eq!(refused("!".repeat(length).as_bytes()), wanted.min(7));
        assert_eq!(refused("(".repeat(length).as_bytes()), wanted.min(7));
    }
    for depth in 1..40 {
        let wanted = if 2 * depth < MOST_PARTS { 0 } else { 8 };
        let left = "(".repeat(depth) + "use(i0)" + &" & exit)".repeat(depth);
        let right = "E[exit S ".repeat(depth) + "use(i0)" + &"]".repeat(depth);
        assert_eq!((refused(left.as_bytes()), refused(right.as_bytes())), (wanted, wanted));
    }
}

/// The table first, then the program, then the condition.
#[test]
fn refusals_of_tables_come_in_order() {
    let long = " ".repeat(LONGEST_TEXT + 1);
    let texts = [
        "",
        "read i0\n",
        "rubbish\n",
        "skip\nskip\n",
        "read i0\nif i0 goto 1 else 2\nwrite i0\n",
        P,
    ];
    for text in texts {
        for condition in ["", "true", "rubbish", &long, "node(0)", "node(2147483648)", "EXtrue"] {
            let _ = same(text.as_bytes(), condition.as_bytes());
            let small = same_in(text.as_bytes(), condition.as_bytes(), TABLE_WORDS - 1);
            assert_eq!(small, Err(1));
            let _ = same_in(text.as_bytes(), condition.as_bytes(), TABLE_WORDS);
        }
    }
    for count in [1_025, 2_000] {
        assert_eq!(same(skips(count).as_bytes(), b"rubbish"), Err(3));
    }
}

/// Every byte in place of every byte, and in between.
#[test]
fn any_byte_of_a_condition_is_read_as_by_the_plain_call() {
    let text =
        b"E[!def(i10) U ((EX use(i63) & AM trans(i7 - -10)) | A[stmt(if i0 goto 6 else 8) B \
        !(node(12345) | stmt(i63 := -2147483648 * i0))])]";
    assert_eq!(refused(text), 0);
    for at in 0..text.len() {
        for byte in 0..=255 {
            let mut changed = text.to_vec();
            changed[at] = byte;
            refused(&changed);
            changed.insert(at, text[at]);
            refused(&changed);
        }
        let mut shorter = text.to_vec();
        shorter.remove(at);
        refused(&shorter);
        refused(&text[..at]);
        refused(&text[at..]);
    }
    for atom in ["true", "false", "entry", "exit", "stmt(skip)", "stmt(read i1)", "stmt(write i31)"]
    {
        for at in 0..atom.len() {
            for byte in 0..=255 {
                let mut changed = atom.as_bytes().to_vec();
                changed[at] = byte;
                refused(&changed);
            }
            refused(&atom.as_bytes()[..at]);
            refused(&atom.as_bytes()[at..]);
        }
    }
}
