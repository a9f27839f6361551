//! Constants below zero: the cases of the change request, in programs, conditions and marks.

use super::{judged, lines, whole, words, ZEROS};
use crate::check::check;
use crate::condition::{self, Condition, TABLE_WORDS};
use crate::desk;
use crate::generate::{self, Random, WrongSign};
use crate::machine::{self, Outcome, VALUES};
use crate::marks::{self, Kind, Mark, TEXT_BYTES, VERDICT_BYTES};
use crate::pricing::OURS;
use crate::program::{Expression, Operand, Operator, Program, Statement};
use crate::tuned;

/// The refusal of a program by the plain and the tuned reader, 0 where it is taken.
fn program_refusal(text: &str) -> u8 {
    let plain = machine::run(text.as_bytes(), [0; VALUES], 0, 0, &OURS).err().unwrap_or(0);
    let tuned = tuned::run(text.as_bytes(), &[0; VALUES], 0, 0, &OURS).err().unwrap_or(0);
    assert_eq!(plain, tuned, "{text}");
    plain
}

/// The same of a condition.
fn condition_refusal(text: &str) -> u8 {
    let (mut one, mut other) = ([0; TABLE_WORDS], [0; TABLE_WORDS]);
    let program = b"read i0\nwrite i0\n";
    let plain = condition::tabulate(program, text.as_bytes(), &mut one).err().unwrap_or(0);
    let tuned = tuned::tabulate(program, text.as_bytes(), &mut other).err().unwrap_or(0);
    assert_eq!((plain, one), (tuned, other), "{text}");
    plain
}

/// The same of a list of marks.
pub fn list_refusal(text: &str) -> u8 {
    let mut answers = [marks::judge, tuned::judge, tuned::judge_by_labels].map(|judge| {
        let answer = judge(
            b"read i0\nwrite i0\n",
            text.as_bytes(),
            &mut [0; VERDICT_BYTES],
            &mut [0; TEXT_BYTES],
        );
        answer.err().unwrap_or(0)
    });
    answers.sort_unstable();
    assert_eq!(answers[0], answers[2], "{text}");
    answers[0]
}

/// The refusals of a right side in a program, in `stmt`, in `trans` and in a mark that drops it.
pub fn refusals_of_right_side(right: &str) -> [u8; 4] {
    [
        program_refusal(&format!("read i0\ni1 := {right}\nwrite i0\n")),
        condition_refusal(&format!("stmt(i1 := {right})")),
        condition_refusal(&format!("trans({right})")),
        list_refusal(&format!("2: mark(rm, i1, {right})\n")),
    ]
}

/// An operand alone, and as each of two.
fn places(operand: &str) -> [String; 5] {
    [
        operand.to_string(),
        format!("{operand} + i0"),
        format!("i0 - {operand}"),
        format!("{operand} = {operand}"),
        format!("7 < {operand}"),
    ]
}

#[test]
fn constants_of_the_whole_range_are_right() {
    for constant in [
        "-1",
        "-2",
        "-9",
        "-10",
        "-40",
        "-100",
        "-1000000000",
        "-2147483639",
        "-2147483640",
        "-2147483647",
        "-2147483648",
        "0",
        "7",
        "2147483647",
    ] {
        for right in places(constant) {
            assert_eq!(refusals_of_right_side(&right), [0; 4], "{right}");
        }
        assert_eq!(list_refusal(&format!("2: mark(rpl, i1, {constant})\n")), 0, "{constant}");
    }
    for right in ["i0 - -40", "-1 - -1", "-40", "0 - 40", "-2147483648 + -2147483648"] {
        assert_eq!(refusals_of_right_side(right), [0; 4], "{right}");
    }
}

#[test]
fn other_signs_are_misspelled() {
    for operand in [
        "-0",
        "-00",
        "-01",
        "-007",
        "--1",
        "---1",
        "- 40",
        "-  40",
        "+1",
        "+0",
        "+-1",
        "-+1",
        "-",
        "+",
        "--",
        "1-",
        "-1-",
        "4-0",
        "-i0",
        "-i",
        "i-1",
        "i-0",
        "-2147483649",
        "-2147483650",
        "-2147483658",
        "-3000000000",
        "-9999999999",
        "-21474836480",
        "-21474836481",
        "-4294967295",
        "-4294967296",
        "-4294967297",
        "-4294967336",
        "-18446744073709551616",
        "-18446744073709551617",
        "-99999999999999999999999999999999999999999",
        "-0000000001",
        "-1_000",
        "-1.0",
        "-1e1",
        "-0x1",
        "\u{2212}1",
        "-\u{661}",
        "~1",
        "(-1)",
    ] {
        for right in places(operand) {
            assert_eq!(refusals_of_right_side(&right), [2, 7, 7, 9], "{right}");
        }
        assert_eq!(list_refusal(&format!("2: mark(rpl, i1, {operand})\n")), 9, "{operand}");
    }
    for right in [
        "i0 -40",
        "i0 - - 40",
        "i0 --40",
        "i0- 40",
        "i0-40",
        "0 -40",
        "-40 -40",
        "-1 --1",
        "-1 -1",
        "-1 - -1 - -1",
        "-1 - ",
        "-1 -",
        " -1",
        "-1 ",
    ] {
        assert_eq!(refusals_of_right_side(right), [2, 7, 7, 9], "{right}");
    }
    // `rpl` takes an operand only.
    assert_eq!(list_refusal("3: mark(rpl, i1, 0 - 40)\n"), 9);
    assert_eq!(list_refusal("3: mark(rpl, i1, -1 - -1)\n"), 9);
}

#[test]
fn statement_numbers_take_no_sign() {
    for number in ["-0", "-1", "-2", "-3", "+2", "--2", "-", "-2147483648", "-4294967294"] {
        for branch in [format!("if i0 goto {number} else 3"), format!("if i0 goto 3 else {number}")]
        {
            assert_eq!(program_refusal(&format!("read i0\n{branch}\nwrite i0\n")), 2, "{branch}");
            assert_eq!(condition_refusal(&format!("stmt({branch})")), 7, "{branch}");
        }
        assert_eq!(condition_refusal(&format!("node({number})")), 7, "{number}");
        assert_eq!(list_refusal(&format!("{number}: mark(rm, i0, 1)\n")), 9, "{number}");
        assert_eq!(list_refusal(&format!("{number}: mark(rpl, i0, i1)\n")), 9, "{number}");
    }
}

fn ends(program: &str, input: u32) -> (i32, u32) {
    let text = lines(program);
    let plain = machine::run(text.as_bytes(), [0; VALUES], input, 100, &OURS);
    assert_eq!(tuned::run(text.as_bytes(), &[0; VALUES], input, 100, &OURS), plain);
    match plain {
        Ok(Outcome::Ended { value, steps, kept: ZEROS, .. }) => (value, steps),
        other => panic!("{other:?}"),
    }
}

#[test]
fn runs() {
    assert_eq!(ends("read i0 / i1 := i0 - -40 / write i1", 2), (42, 3));
    assert_eq!(ends("read i0 / i1 := -40 / write i1", 2), (-40, 3));
    assert_eq!(ends("read i0 / i1 := 0 - 40 / write i1", 2), (-40, 3));
    assert_eq!(ends("read i0 / i1 := -1 - -1 / write i1", 2), (0, 3));
    let ends_of_range = "read i0 / i1 := -2147483648 < 2147483647 / i2 := -2147483648 - 1 / \
                         i3 := i1 + i2 / write i3";
    assert_eq!(ends(ends_of_range, 2), (-2147483648, 5));
    // A loop that counts up to zero.
    let counting = "read i0 / i0 := i0 - -1 / if i0 goto 2 else 4 / write i0";
    assert_eq!(ends(counting, 3_u32.wrapping_neg()), (0, 8));
}

#[test]
fn tables() {
    let both = lines("read i0 / i0 := -1 / i0 := 0 - 1 / write i0");
    assert_eq!(words(&both, "stmt(i0 := -1)"), [2]);
    assert_eq!(words(&both, "stmt(i0 := 0 - 1)"), [4]);
    assert_eq!(words(&both, "stmt(i0 := -2)"), [0]);
    assert_eq!(words(&both, "stmt(i0 := 1)"), [0]);
    // A constant has no variable that could be defined.
    assert_eq!(words(&both, "trans(-1)"), [15]);
    assert_eq!(words(&both, "trans(-1 - -1)"), [15]);
    assert_eq!(words(&both, "trans(i0 - -1)"), [8]);
    let wide = lines("read i0 / i1 := -2147483648 / i1 := 2147483647 / i1 := -1 / write i1");
    assert_eq!(whole(&wide, "stmt(i1 := -2147483648)"), 2);
    assert_eq!(whole(&wide, "stmt(i1 := 2147483647)"), 4);
    assert_eq!(whole(&wide, "stmt(i1 := -1)"), 8);
    assert_eq!(whole(&wide, "stmt(i1 := -2147483647)"), 0);
}

#[test]
fn verdicts() {
    let list = "3: mark(rpl, i1, -40)\n2: mark(rm, i1, -40)\n";
    let below = lines("read i0 / i1 := -40 / i2 := i1 + i0 / write i2");
    let new = lines("read i0 / i1 := -40 / i2 := -40 + i0 / write i2");
    assert_eq!(new.len(), 42);
    assert_eq!(judged(&below, list), (vec![0, 14], new));
    // `0 - 40` is another statement.
    let taken_away = lines("read i0 / i1 := 0 - 40 / i2 := i1 + i0 / write i2");
    assert_eq!(judged(&taken_away, list), (vec![14, 13], taken_away.clone()));
    let list = "3: mark(rpl, i1, -40)\n2: mark(rm, i1, 0 - 40)\n";
    assert_eq!(judged(&taken_away, list).0, [14, 14]);
    assert_eq!(judged(&below, "2: mark(rm, i1, 0 - 40)\n").0, [13]);
    assert_eq!(judged(&below, "2: mark(rm, i1, 40)\n").0, [13]);
    // Where nothing uses it any more it is dropped.
    let dead = lines("read i0 / i1 := -2147483648 / i1 := -1 / write i1");
    let (verdicts, new) = judged(&dead, "2: mark(rm, i1, -2147483648)\n3: mark(rm, i1, -1)\n");
    assert_eq!(verdicts, [0, 14]);
    assert_eq!(new, dead.replace("i1 := -2147483648", "skip"));
    // An `if` and a `write` have no place for a constant.
    let tested = lines("read i0 / i1 := -1 / if i1 goto 4 else 4 / write i1");
    assert_eq!(judged(&tested, "3: mark(rpl, i1, -1)\n4: mark(rpl, i1, -1)\n").0, [13, 13]);
}

#[test]
fn longest_program_and_report() {
    let longest = "i63 := -2147483648 + -2147483648";
    assert_eq!(longest.len(), 32);
    let text = format!("read i63\n{}write i63\n", format!("{longest}\n").repeat(1_022));
    assert_eq!(text.len(), 33_745);
    assert_eq!(judged(&text, ""), (vec![], text.clone()));
    // A program that becomes as long.
    let shorter =
        format!("read i63\ni62 := -2147483648\n{}write i63\n", "i63 := i62 + i62\n".repeat(1_021));
    let list: String = (3..1_024).map(|n| format!("{n}: mark(rpl, i62, -2147483648)\n")).collect();
    let (verdicts, new) = judged(&shorter, &list);
    assert_eq!(verdicts, [0; 1_021]);
    assert_eq!(new, shorter.replace("i62 + i62", "-2147483648 + -2147483648"));
    assert_eq!(new.len(), 9 + 19 + 1_021 * 33 + 10);
    // The longest report.
    let list = "2147483647: mark(rpl, i63, -2147483648)\n".repeat(1_024);
    let report = check(text.as_bytes(), list.as_bytes());
    let first = "marks 1024 accepted 0\n";
    let middle: String = (2..1_024).map(|n| format!("{n} 3 3\n")).collect();
    let prices = format!("1 4 4\n{middle}1024 4 4\n3074\n3074\n0\n");
    let pieces = [first, &"2147483647 11\n".repeat(1_024), &text, &prices];
    assert_eq!(report, pieces.concat().into_bytes());
    let most = "marks 1024 accepted 1024\n".len() + 1_024 * "2147483647 11\n".len() + 34_816;
    assert_eq!(most, 49_177);
    assert!(report.len() - prices.len() <= most);
}

#[test]
fn new_text_needs_34816_bytes() {
    let program = b"read i0\nwrite i0\n";
    for judge in [marks::judge, tuned::judge, tuned::judge_by_labels] {
        let (mut verdicts, mut text) = ([7; VERDICT_BYTES], vec![7; 35_000]);
        for room in [0, 1, 17, 8_192, 8_703, 8_704, 8_705, 33_745, 34_815] {
            assert_eq!(judge(program, b"", &mut verdicts, &mut text[..room]), Err(1), "{room}");
            assert_eq!(judge(b"", b"x", &mut verdicts, &mut text[..room]), Err(1), "{room}");
        }
        assert_eq!((&verdicts[..], &text[..]), (&[7; VERDICT_BYTES][..], &[7; 35_000][..]));
        for room in [34_816, 34_817, 35_000] {
            let answer = judge(program, b"", &mut verdicts, &mut text[..room]);
            assert_eq!(answer, Ok((0, 0, 17)), "{room}");
        }
    }
}

/// The columns stay apart on the longest line.
#[test]
fn columns_of_the_desk() {
    let text = "read i0\ni10 := -2147483648 + -2147483648\nwrite i10\n";
    let blanks = " ".repeat(42);
    assert_eq!(
        desk::view(text.as_bytes(), b"true"),
        format!(
            " 1  true\n\
             {blanks} \n\
             {blanks}1\n\
             \x20  1  read i0                             *\n\
             \x20  2  i10 := -2147483648 + -2147483648    *\n\
             \x20  3  write i10                           *\n\
             parts 1 satisfied 3 first 1\n"
        )
    );
    assert_eq!(
        desk::run(text.as_bytes(), b"-5\n9\n", true),
        "   step  line  statement                         assigned\n\
         \x20     1     1  read i0                           i0 = -5\n\
         \x20     2     2  i10 := -2147483648 + -2147483648  i10 = 0 (as before)\n\
         \x20     3     3  write i10                       \n\
         ended 0 steps 3 ticks 11 kept 0 0 0 0 0 0 0 0\n"
    );
    assert_eq!(
        desk::compare(text.as_bytes(), b"2: mark(rm, i10, -2147483648)\n", b"-5\n2\n"),
        "marks 1 accepted 0\n\
         \x20  step  line  given                             rewritten                         differs  given        rewritten\n\
         \x20     1     1  read i0                           read i0                         \n\
         \x20     2     2  i10 := -2147483648 + -2147483648  i10 := -2147483648 + -2147483648\n\
         given spent at 3 ticks 7\nrewritten spent at 3 ticks 7\nstatements, outcome and live variables agree\n"
    );
}

fn constant(bits: u32) -> Expression {
    Expression::Single(Operand::Constant(bits))
}

/// Constants up to 2147483647 are spelled as numbers without a sign are; the others have theirs.
#[test]
fn bits_and_their_spelling() {
    let random = &mut Random::new(30);
    for _ in 0..20_000 {
        let bits = generate::word(random);
        let wanted = match bits {
            0..=2_147_483_647 => bits.to_string(),
            _ => format!("-{}", (1_u64 << 32) - u64::from(bits)),
        };
        assert_eq!(constant(bits).to_string(), wanted);
        let text = format!("read i0\ni0 := {wanted}\nwrite i0\n");
        let program = Program::read(text.as_bytes()).expect("it is taken");
        assert_eq!(program.statements()[1], Statement::Assign(0, constant(bits)));
        assert_eq!(
            tuned::run(text.as_bytes(), &[0; VALUES], 0, 3, &OURS),
            Ok(Outcome::Ended { value: bits as i32, steps: 3, kept: ZEROS, ticks: 10 })
        );
    }
}

fn is_below_zero(e: &Expression) -> bool {
    let below = |a: &Operand| matches!(a, Operand::Constant(bits) if *bits > i32::MAX as u32);
    e.operands().iter().any(below)
}

/// What tests need of generated texts: constants below zero in each, the least among them.
#[test]
fn generated_texts_have_constants_below_zero() {
    let random = &mut Random::new(31);
    let (mut programs, mut conditions, mut lists) = ([0; 2], [0; 2], [0; 3]);
    for _ in 0..2_000 {
        let size = random.between(4, 30);
        let program = generate::program(random, size);
        for statement in program.statements() {
            if let Statement::Assign(_, right) = statement {
                programs[0] += usize::from(is_below_zero(right));
                programs[1] += usize::from(*right == constant(1 << 31));
            }
        }
        let text = generate::condition(random, &program, 30);
        let text = String::from_utf8(text).expect("a condition is ASCII");
        for (count, atom) in conditions.iter_mut().zip(["stmt(", "trans("]) {
            let mut arguments = text.split(atom).skip(1).filter_map(|rest| rest.split(')').next());
            let signed =
                |argument: &str| argument.split(' ').any(|w| w.len() > 1 && w.starts_with('-'));
            *count += usize::from(arguments.any(signed));
        }
        for Mark { kind, number, .. } in generate::marks(random, &program, 8) {
            match (kind, program.statement(number)) {
                (Kind::Replace(a), _) => {
                    lists[0] += usize::from(is_below_zero(&Expression::Single(a)))
                }
                (Kind::Remove(e), Some(Statement::Assign(_, right))) if is_below_zero(right) => {
                    lists[1] += usize::from(e == *right);
                    let zero = Operand::Constant(0);
                    lists[2] += usize::from(
                        matches!(e, Expression::Pair(a, Operator::Minus, _) if a == zero),
                    );
                }
                _ => {}
            }
        }
    }
    println!("{programs:?} {conditions:?} {lists:?}");
    assert!(programs.iter().chain(&lists[..2]).all(|&times| times > 200));
    assert!(conditions.iter().all(|&times| times > 100) && lists[2] > 10);
}

/// Each damage of a sign makes a text misspelled.
#[test]
fn damaged_signs_are_misspelled() {
    let random = &mut Random::new(32);
    for sign in WrongSign::ALL {
        for _ in 0..300 {
            let size = random.between(4, 16);
            let program = generate::program(random, size);
            let mut text = program.text();
            generate::wrong_sign(random, sign, &mut text);
            assert_eq!(Program::read(&text), Err(2), "{}", text.escape_ascii());
            assert_eq!(
                tuned::run(&text, &[0; VALUES], 0, 0, &OURS),
                Err(2),
                "{}",
                text.escape_ascii()
            );
            let parts = random.between(1, 20);
            let mut text = generate::condition(random, &program, parts);
            generate::wrong_sign(random, sign, &mut text);
            if text.len() <= 1_024 {
                assert_eq!(Condition::read(&text), Err(7), "{}", text.escape_ascii());
            }
            let mut text = marks::text(&generate::marks(random, &program, 4));
            generate::wrong_sign(random, sign, &mut text);
            assert_eq!(marks::read(&text), Err(9), "{}", text.escape_ascii());
        }
    }
}
