//! Judging at the limit against the plain call.

use super::limit_tables::{flows, BORDERS};
use super::tuned::{list_text, program_text};
use super::{skips, P};
use crate::generate::{self, Random};
use crate::limit;
use crate::marks::{self, judge, Kind, Mark, MOST_MARKS, TEXT_BYTES, VERDICT_BYTES};
use crate::program::{Expression, Operand, Operator, Program, Statement, VARIABLES};

/// What a call answers, and what it leaves in what it is lent.
type Answer = (Result<(u32, u32, u32), u8>, Vec<u8>, Vec<u8>);

/// What both calls answer, with so many verdicts and bytes of text lent, and that they leave these alike.
fn same_in(program: &[u8], list: &[u8], rooms: [usize; 2]) -> Answer {
    let lent = || (vec![7; rooms[0]], vec![7; rooms[1]]);
    let ((mut verdicts, mut text), (mut wanted, mut new)) = (lent(), lent());
    let plain = judge(program, list, &mut wanted, &mut new);
    let shown = || format!("{} {}", program.escape_ascii(), list.escape_ascii());
    assert_eq!(limit::judge(program, list, &mut verdicts, &mut text), plain, "{}", shown());
    assert!(verdicts == wanted, "{}", shown());
    assert!(text == new, "{}", shown());
    (plain, verdicts, text)
}

fn same(program: &[u8], list: &[u8]) -> Answer {
    same_in(program, list, [VERDICT_BYTES + 1, TEXT_BYTES + 1])
}

/// The verdicts of a list, by both calls.
fn verdicts(program: &str, list: &str) -> Vec<u8> {
    let (answer, verdicts, _) = same(program.as_bytes(), list.as_bytes());
    let (count, _, _) = answer.expect("program and list are taken");
    verdicts[..count as usize].to_vec()
}

/// The refusal of a list on P, 0 where it is taken.
fn refused(list: &[u8]) -> u8 {
    same(P.as_bytes(), list).0.err().unwrap_or(0)
}

/// So many random programs and lists.
fn random_judgements(random: &mut Random, cases: usize) {
    let (mut refusals, mut met) = ([0; 11], [0; 19]);
    for _ in 0..cases {
        let size = generate::size(random);
        let program = generate::program(random, size);
        let text = program_text(random, &program);
        let list = list_text(random, &program);
        let most = [VERDICT_BYTES, TEXT_BYTES];
        let rooms = match random.below(20) {
            0 => [most[0] - 1, most[1]],
            1 => [most[0], most[1] - 1],
            2 => [most[0] + 44, most[1] + 3],
            _ => most,
        };
        let (answer, verdicts, _) = same_in(&text, &list, rooms);
        match answer {
            Ok((count, _, _)) => {
                verdicts[..count as usize].iter().for_each(|&it| met[usize::from(it)] += 1);
            }
            Err(number) => refusals[usize::from(number)] += 1,
        }
    }
    let enough = cases / 2_000;
    assert!([1, 2, 3, 4, 5, 9].into_iter().all(|it: usize| refusals[it] > enough), "{refusals:?}");
    assert!([0, 11, 12, 13, 14, 18].into_iter().all(|it: usize| met[it] > enough), "{met:?}");
}

#[test]
fn judgements_at_the_limit_are_the_plain_ones() {
    random_judgements(&mut Random::new(331), 10_000);
}

#[test]
#[ignore = "takes minutes"]
fn many_judgements_at_the_limit_are_the_plain_ones() {
    random_judgements(&mut Random::new(332), 300_000);
}

/// A mark that fits, if one can: what the statement stores dropped, the first variable that it uses replaced by one of few operands,
/// or what it computes reused.
fn fitting(random: &mut Random, program: &Program, number: usize) -> Mark {
    let statement = program.statements()[number - 1];
    let used = (0..VARIABLES).find(|&x| statement.shows(x)).unwrap_or(0);
    let by = match random.below(3) {
        0 => Operand::Constant(random.below(3) as u32),
        _ => Operand::Variable(random.below(12) as u8),
    };
    let (variable, kind) = match (statement, random.below(3)) {
        (Statement::Assign(x, e), 0) => (x, Kind::Remove(e)),
        (Statement::Assign(_, e), 1) => (random.below(10) as u8, Kind::Reuse(e)),
        _ => (used, Kind::Replace(by)),
    };
    Mark { number: number as u32, variable, kind }
}

/// Lists with a mark for each statement, of all kinds, at words' borders; the pairs that are asked for go over them too.
#[test]
fn full_lists_are_the_plain_ones_at_words_borders() {
    let random = &mut Random::new(333);
    for size in BORDERS {
        for program in flows(random, size) {
            let mut list: Vec<Mark> =
                (1..=size).map(|number| fitting(random, &program, number)).collect();
            random.shuffle(&mut list);
            same(&program.text(), &marks::text(&list)).0.expect("the list is taken");
        }
    }
}

/// Statements that copy or compute all the pairs of a list, each asked for at the next line, in loops or straight.
#[test]
fn any_number_of_pairs_is_the_plain_ones() {
    for pairs in [1, 2, 3, 62, 63, 64, 65, 66, 127, 128, 129, 192, 255, 256, 257, 300, 509] {
        for back in [0, 3, 7] {
            for is_copy in [false, true] {
                let mut lines = vec!["read i0".to_string()];
                let mut list = Vec::new();
                for k in 0..pairs {
                    let (x, number) = (1 + k % 23, lines.len() as u32 + 2);
                    let (e, use_line, mark) = match is_copy {
                        true => (format!("{k}"), format!("i40 := i{x}"), format!("rpl, i{x}, {k}")),
                        false => {
                            let e = format!("i30 - {k}");
                            (
                                e.clone(),
                                format!("i{} := {e}", 41 + k % 3),
                                format!("cse, i{x}, {e}"),
                            )
                        }
                    };
                    lines.extend([format!("i{x} := {e}"), use_line]);
                    list.push(format!("{number}: mark({mark})\n"));
                    if back > 0 && k % back == back - 1 && lines.len() < 900 {
                        let target = (lines.len() / (k % 5 + 2)).max(2);
                        lines.push(format!("if i0 goto {target} else {}", lines.len() + 2));
                    }
                }
                lines.push("write i0".to_string());
                let program: String =
                    lines.iter().take(1_024).map(|line| line.clone() + "\n").collect();
                let (answer, _, _) = same(program.as_bytes(), list.concat().as_bytes());
                assert!(answer.is_ok() || lines.len() > 1_024, "{answer:?}");
            }
        }
    }
}

/// A list of the most lines, one more, and a mark for each of as many statements.
#[test]
fn lists_of_the_most_lines_are_the_plain_ones() {
    let line = "3: mark(rm, i2, 7)\n";
    for count in [0, 1, MOST_MARKS - 1, MOST_MARKS, MOST_MARKS + 1, 3_000, 20_000] {
        let list = line.repeat(count);
        assert_eq!(refused(list.as_bytes()), if count <= MOST_MARKS { 0 } else { 10 });
        assert_eq!(refused((list.clone() + "\n").as_bytes()), 9);
        let unended = &list.as_bytes()[..list.len().saturating_sub(1)];
        assert_eq!(refused(unended), if count == 0 { 0 } else { 9 });
    }
    let longest: String = (2..1_024).map(|_| "i63 := -2147483648 - -2147483647\n").collect();
    let program = format!("read i63\n{longest}write i63\n");
    for mark in ["rm, i63", "cse, i62", "cse, i1"] {
        let list: String =
            (2..1_026).map(|n| format!("{n}: mark({mark}, -2147483648 - -2147483647)\n")).collect();
        let (answer, _, _) = same(program.as_bytes(), list.as_bytes());
        assert!(answer.is_ok());
    }
}

/// `cse` gives its variable a reader, so that what stores it is kept: above and below in the list, and only where it is accepted.
#[test]
fn gained_uses_keep_what_is_stored() {
    let program = "read i0\ni1 := i0 + 7\ni2 := i0 + 7\nwrite i2\n";
    let (drop, reuse) = ("2: mark(rm, i1, i0 + 7)\n", "3: mark(cse, i1, i0 + 7)\n");
    assert_eq!(verdicts(program, drop), [0]);
    assert_eq!(verdicts(program, &(drop.to_string() + reuse)), [14, 0]);
    assert_eq!(verdicts(program, &(reuse.to_string() + drop)), [0, 14]);
    let changed = program.replace("read i0\n", "read i0\nif i0 goto 3 else 4\n");
    let list = "3: mark(rm, i1, i0 + 7)\n4: mark(cse, i1, i0 + 7)\n";
    assert_eq!(verdicts(&changed, list), [0, 14]);
    let all = "read i0\ni3 := i0\ni1 := i3 + 7\ni2 := i3 + 7\ni4 := 9\nwrite i2\n";
    let list =
        "5: mark(rm, i4, 9)\n3: mark(rpl, i3, i0)\n4: mark(cse, i1, i3 + 7)\n2: mark(rm, i3, i0)\n";
    assert_eq!(verdicts(all, list), [0, 0, 0, 14]);
}

#[test]
fn verdicts_come_in_order() {
    let program = "read i0\ni1 := 5 / i0\ni2 := 5 / 0\ni3 := 5 / -5\ni4 := i1\ni5 := i4 + i4\nif i4 goto 8 else 9\nskip\nwrite i4\n";
    let cases = [
        ("0: mark(rm, i1, 5 / i0)", 11),
        ("10: mark(rm, i1, 5 / i0)", 11),
        ("65538: mark(rm, i1, 5 / i0)", 11),
        ("2147483647: mark(rm, i1, 5 / i0)", 11),
        ("2: mark(rm, i1, 5 / i0)", 18),
        ("3: mark(rm, i2, 5 / 0)", 18),
        ("3: mark(rm, i1, 5 / 0)", 13),
        ("4: mark(rm, i3, 5 / -5)", 0),
        ("5: mark(rm, i4, i1)", 14),
        ("5: mark(rpl, i4, 7)", 13),
        ("6: mark(rpl, i4, i1)", 0),
        ("6: mark(rpl, i4, 1)", 14),
        ("7: mark(rpl, i4, i1)", 0),
        ("7: mark(rpl, i4, 7)", 13),
        ("8: mark(rpl, i0, 7)", 13),
        ("9: mark(rpl, i4, i1)", 0),
        ("9: mark(rpl, i24, i1)", 13),
        ("5: mark(cse, i4, i1)", 13),
        ("6: mark(cse, i5, i4 + i4)", 14),
        ("1: mark(rpl, i0, 7)", 13),
    ];
    for (line, verdict) in cases {
        assert_eq!(verdicts(program, &format!("{line}\n")), [verdict], "{line}");
        let twice = verdicts(program, &format!("{line}\n{line}\n"));
        assert_eq!(twice[1], if verdict == 11 { 11 } else { 12 }, "{line}");
    }
    let list: String = cases.iter().map(|(line, _)| format!("{line}\n")).collect();
    verdicts(program, &list);
}

/// A statement that none steps to steps back to itself.
#[test]
fn marks_on_what_is_not_reached_are_the_plain_ones() {
    let program = "read i0\nif i0 goto 4 else 4\ni1 := i2 + i3\nwrite i1\n";
    for mark in [
        "rpl, i2, i4",
        "rpl, i2, i1",
        "rpl, i2, 7",
        "cse, i5, i2 + i3",
        "cse, i2, i2 + i3",
        "rm, i1, i2 + i3",
    ] {
        let list = format!("3: mark({mark})\n");
        verdicts(program, &list);
        let looped = program
            .replace("i1 := i2 + i3\n", "i1 := i2 + i3\nif i0 goto 3 else 3\n")
            .replace("goto 4 else 4", "goto 5 else 5");
        verdicts(&looped, &list);
    }
}

#[test]
fn refusals_of_lists_come_in_order() {
    let texts = [
        "",
        "read i0\n",
        "rubbish\n",
        "skip\nskip\n",
        "read i0\nif i0 goto 1 else 2\nwrite i0\n",
        P,
    ];
    let many = "1: mark(rm, i0, 1)\n".repeat(MOST_MARKS + 1);
    for program in texts {
        for list in ["", "\n", "rubbish\n", "1: mark(rm, i0, 1)\n", "1: mark(rm, i0, 1)", &many] {
            let _ = same(program.as_bytes(), list.as_bytes());
            for rooms in [[VERDICT_BYTES - 1, TEXT_BYTES], [VERDICT_BYTES, TEXT_BYTES - 1]] {
                assert_eq!(same_in(program.as_bytes(), list.as_bytes(), rooms).0, Err(1));
            }
            let _ = same_in(program.as_bytes(), list.as_bytes(), [VERDICT_BYTES, TEXT_BYTES]);
        }
    }
    assert_eq!(same(skips(1_025).as_bytes(), b"rubbish").0, Err(3));
}

/// Every byte in place of every byte, and in between.
#[test]
fn any_byte_of_a_list_is_read_as_by_the_plain_call() {
    let text = b"4: mark(rpl, i2, 7)\n3: mark(rm, i63, -2147483648 / i10)\n2147483647: mark(cse, i31, 123456789 < -1)\n4: mark(rpl, i1, i0)\n";
    assert_eq!(refused(text), 0);
    for at in 0..text.len() {
        for byte in 0..=255 {
            let mut changed = text.to_vec();
            changed[at] = byte;
            refused(&changed);
            changed.insert(at, text[at]);
            refused(&changed);
        }
        let mut shorter = text.to_vec();
        shorter.remove(at);
        refused(&shorter);
        refused(&text[..at]);
        refused(&text[at..]);
    }
}

/// Numbers, variables and operands of a mark by all their lengths.
#[test]
fn words_of_marks_are_read_as_by_the_plain_call() {
    let mut words: Vec<String> =
        ["", "-", "-0", "00", "i", "i07", "i64", "i100", "x", "i1 + ", " "]
            .map(String::from)
            .to_vec();
    for length in 1..=60 {
        for digit in ["0", "1", "2", "9", "i", "-"] {
            words.push(digit.repeat(length));
            words.push(format!("1{}", "0".repeat(length)));
        }
    }
    for middle in [1 << 31, 1 << 32, 10_000_000, 100_000_000, 10_000_000_000u64] {
        words.extend((middle - 2..middle + 2).flat_map(|n| [n.to_string(), format!("-{n}")]));
    }
    for word in &words {
        for line in [
            format!("{word}: mark(rm, i1, i0)"),
            format!("2: mark(rm, {word}, i0)"),
            format!("2: mark(cse, i1, {word})"),
            format!("2: mark(rpl, i1, {word})"),
            format!("2: mark(rm, i1, {word} * {word})"),
            format!("2: mark(rm, i1, i0{word})"),
            format!("2: mark({word}, i1, i0)"),
        ] {
            refused(format!("{line}\n").as_bytes());
        }
    }
}

/// What every kind of mark makes of every kind of statement is written as by the plain call.
#[test]
fn what_marks_make_is_written_as_by_the_plain_call() {
    let operators = [
        Operator::Plus,
        Operator::Minus,
        Operator::Times,
        Operator::Divide,
        Operator::Less,
        Operator::Equal,
    ];
    let operands = [
        Operand::Variable(3),
        Operand::Variable(63),
        Operand::Constant(0),
        Operand::Constant(10),
        Operand::Constant(i32::MAX as u32),
        Operand::Constant(u32::MAX),
        Operand::Constant(1 << 31),
    ];
    for by in operands {
        for x in [5, 50] {
            let used = Operand::Variable(x);
            let mut inner = vec![Statement::Assign(x, Expression::Single(by))];
            inner.push(Statement::Assign(9, Expression::Single(used)));
            for operator in operators {
                for other in operands {
                    inner.push(Statement::Assign(9, Expression::Pair(used, operator, other)));
                    inner.push(Statement::Assign(10, Expression::Pair(other, operator, used)));
                }
                inner.push(Statement::Assign(9, Expression::Pair(used, operator, used)));
            }
            let end = inner.len() as u32 + 3;
            inner.push(Statement::Branch { tested: x, then: end, other: 2 });
            let mut statements = vec![Statement::Read(0)];
            statements.extend(inner);
            statements.push(Statement::Write(x));
            let program = Program::new(statements).expect("a program");
            let list: Vec<Mark> = (3..=end)
                .map(|number| Mark { number, variable: x, kind: Kind::Replace(by) })
                .collect();
            let (answer, _, _) = same(&program.text(), &marks::text(&list));
            let accepted = answer.expect("the list is taken").1;
            assert!(accepted + 2 >= list.len() as u32, "{accepted}");
        }
    }
}
