//! Random cases.

use super::cse::is_dead_by_fixpoints;
use super::naive;
use crate::check::{check, LARGEST_FILE};
use crate::condition::{
    tabulate, Atom, Checker, Condition, Demand, Direction, Part, Quantifier, PART_WORDS,
    TABLE_WORDS,
};
use crate::generate::{self, Random};
use crate::machine::{first_difference, kept_of, run, run_program, Outcome, Run, State};
use crate::marks::{self, judge, Judge, Kind, TEXT_BYTES, VERDICT_BYTES};
use crate::pricing::{report, OURS};
use crate::program::{Expression, Operand, Operator, Program, Statement, MOST_LINES, VARIABLES};
use crate::steps::Steps;

/// The sets of a condition's parts as the call leaves them in a table of all ones.
fn table_sets(program: &Program, text: &[u8]) -> Vec<Vec<bool>> {
    let mut table = [u64::MAX; TABLE_WORDS + 4];
    let answer = tabulate(&program.text(), text, &mut table);
    let (parts, satisfied, first) = answer.expect("program and condition are taken");
    let filled = PART_WORDS * parts as usize;
    assert!(table[filled..].iter().all(|&word| word == u64::MAX));
    let count = program.statements().len();
    let bit = |part: usize, at: usize| table[PART_WORDS * part + at / 64] >> (at % 64) & 1 == 1;
    for part in 0..parts as usize {
        assert!((count..MOST_LINES).all(|at| !bit(part, at)), "bits beyond N");
    }
    let sets: Vec<Vec<bool>> =
        (0..parts as usize).map(|part| (0..count).map(|at| bit(part, at)).collect()).collect();
    let whole = sets.last().expect("a condition has a part");
    assert_eq!(satisfied as usize, whole.iter().filter(|&&holds| holds).count());
    assert_eq!(first as usize, whole.iter().position(|&holds| holds).map_or(0, |at| at + 1));
    sets
}

#[test]
fn search_agrees_with_fixpoints() {
    let random = &mut Random::new(1);
    for _ in 0..4_000 {
        let size = generate::size(random);
        let program = generate::program(random, size);
        let parts = if size > 64 { random.between(1, 16) } else { random.between(1, 64) };
        let text = generate::condition(random, &program, parts);
        let condition = Condition::read(&text).expect("a generated condition is taken");
        let sets = table_sets(&program, &text);
        assert_eq!(sets.len(), parts);
        assert_eq!(
            sets,
            naive::by_fixpoints(&program, &condition),
            "{program}{}",
            String::from_utf8_lossy(&text)
        );
    }
}

#[test]
fn search_agrees_with_all_paths() {
    let random = &mut Random::new(2);
    for _ in 0..3_000 {
        let size = random.between(2, 6);
        let program = generate::program(random, size);
        let parts = random.between(1, 6);
        let text = generate::condition(random, &program, parts);
        let condition = Condition::read(&text).expect("a generated condition is taken");
        let sets = table_sets(&program, &text);
        assert_eq!(
            sets,
            naive::by_paths(&program, &condition),
            "{program}{}",
            String::from_utf8_lossy(&text)
        );
    }
}

/// What a part is, without its operands.
fn label(part: &Part) -> String {
    let text = |quantifier: Quantifier, direction: Direction, letters: &str| {
        let first = if quantifier == Quantifier::Some { 'E' } else { 'A' };
        let letter = if direction == Direction::Forward { &letters[..1] } else { &letters[1..] };
        format!("{first}{letter}")
    };
    match *part {
        Part::Atom(_) => "atom".to_string(),
        Part::Not(_) => "!".to_string(),
        Part::And(..) => "&".to_string(),
        Part::Or(..) => "|".to_string(),
        Part::Next(quantifier, direction, _) => text(quantifier, direction, "XY"),
        Part::Path(quantifier, direction, Demand::Finally(_)) => text(quantifier, direction, "FR"),
        Part::Path(quantifier, direction, Demand::Globally(_)) => text(quantifier, direction, "GM"),
        Part::Path(quantifier, direction, Demand::Until(..)) => text(quantifier, direction, "US"),
        Part::Path(quantifier, direction, Demand::Weak(..)) => text(quantifier, direction, "WB"),
    }
}

/// The labels of a well spelled condition's parts in the order of their ends, from a walk over its text.
fn labels_by_ends(text: &str) -> Vec<String> {
    let (mut labels, mut open) = (Vec::new(), Vec::<String>::new());
    let mut rest = text;
    while let Some(first) = rest.chars().next() {
        let atom_end =
            ["true", "false", "entry", "exit"].iter().find(|atom| rest.starts_with(**atom));
        let ended = match first {
            '!' => {
                open.push("!".to_string());
                rest = &rest[1..];
                false
            }
            '(' => {
                open.push(String::new());
                rest = &rest[1..];
                false
            }
            'E' | 'A' if rest[1..].starts_with('[') => {
                open.push(first.to_string());
                rest = &rest[2..];
                false
            }
            'E' | 'A' => {
                open.push(rest[..2].to_string());
                rest = &rest[3..];
                false
            }
            ' ' => {
                open.last_mut().expect("an open bracket").push_str(&rest[1..2]);
                rest = &rest[3..];
                false
            }
            ')' | ']' => {
                labels.push(open.pop().expect("an open bracket"));
                rest = &rest[1..];
                true
            }
            _ => {
                labels.push("atom".to_string());
                let length = atom_end
                    .map_or_else(|| rest.find(')').map_or(0, |at| at + 1), |atom| atom.len());
                rest = &rest[length..];
                true
            }
        };
        // Operators before what has just ended end with it, the inner first.
        let is_unary = |label: &String| {
            label == "!" || UNARY_LETTERS.iter().any(|unary| label.ends_with(*unary))
        };
        while ended && open.last().map_or(false, is_unary) {
            labels.extend(open.pop());
        }
    }
    labels
}

const UNARY_LETTERS: [char; 6] = ['X', 'F', 'G', 'Y', 'R', 'M'];

#[test]
fn parts_stand_in_the_order_of_their_ends() {
    let random = &mut Random::new(12);
    for _ in 0..4_000 {
        let size = random.between(2, 12);
        let program = generate::program(random, size);
        let parts = random.between(1, 64);
        let text = generate::condition(random, &program, parts);
        let condition = Condition::read(&text).expect("a generated condition is taken");
        let labels: Vec<String> = condition.parts().iter().map(label).collect();
        let text = String::from_utf8(text).expect("a condition is ASCII");
        assert_eq!(labels, labels_by_ends(&text), "{text}");
    }
}

/// Atoms of variables against the words of the statements' text.
#[test]
fn atoms_agree_with_the_text() {
    let random = &mut Random::new(13);
    for _ in 0..300 {
        let size = random.between(2, 30);
        let program = generate::program(random, size);
        for (at, statement) in program.statements().iter().enumerate() {
            let line = statement.to_string();
            let words: Vec<&str> = line.split(' ').collect();
            let (defined, used): (&[&str], &[&str]) = match words[0] {
                "read" => (&words[1..2], &[]),
                "write" | "if" => (&[], &words[1..2]),
                "skip" => (&[], &[]),
                _ => (&words[..1], &words[2..]),
            };
            for x in 0..VARIABLES {
                let name = format!("i{x}");
                let is_kept_here = words[0] == "write" && (24..32).contains(&x);
                assert_eq!(
                    Atom::Def(x).holds(&program, at),
                    defined.contains(&name.as_str()),
                    "{line}"
                );
                assert_eq!(
                    Atom::Use(x).holds(&program, at),
                    used.contains(&name.as_str()) || is_kept_here,
                    "{line}"
                );
                assert_eq!(statement.shows(x), used.contains(&name.as_str()), "{line}");
                let pair = Expression::Pair(
                    Operand::Constant(x.into()),
                    Operator::Plus,
                    Operand::Variable(x),
                );
                for e in [Expression::Single(Operand::Variable(x)), pair] {
                    assert_eq!(
                        Atom::Trans(e).holds(&program, at),
                        !defined.contains(&name.as_str()),
                        "{line}"
                    );
                }
                let constant = Expression::Single(Operand::Constant(x.into()));
                assert!(Atom::Trans(constant).holds(&program, at));
            }
            for (other, wanted) in program.statements().iter().enumerate() {
                let same = line == wanted.to_string();
                assert_eq!(Atom::Stmt(*wanted).holds(&program, at), same);
                assert_eq!(Atom::Node(other as u32 + 1).holds(&program, at), at == other);
            }
            assert_eq!(Atom::Entry.holds(&program, at), line.starts_with("read"));
            assert_eq!(Atom::Exit.holds(&program, at), line.starts_with("write"));
        }
    }
}

#[test]
fn steps_agree_with_their_definition() {
    let random = &mut Random::new(3);
    for _ in 0..2_000 {
        let size = random.between(2, 24);
        let program = generate::program(random, size);
        let steps = Steps::new(&program);
        for at in 0..size {
            for (direction, found) in
                [(Direction::Forward, &steps.forward), (Direction::Backward, &steps.backward)]
            {
                let mut found = found[at].clone();
                found.sort_unstable();
                assert_eq!(found, naive::next(&program, direction, at));
            }
        }
    }
}

#[test]
fn given_and_rewritten_program_agree_step_by_step() {
    let random = &mut Random::new(4);
    let (mut removed, mut replaced, mut reused, mut would_matter) = (0, 0, 0, 0);
    let (mut faults, mut cheaper) = (0, 0);
    let mut verdicts_seen = [0_usize; 19];
    for _ in 0..4_000 {
        let size = generate::size(random);
        let given = generate::program(random, size);
        let count = random.between(0, size.min(60));
        let list = generate::marks(random, &given, count);
        let (mut verdicts, mut text) = ([99; VERDICT_BYTES], [99; TEXT_BYTES]);
        let answer = judge(&given.text(), &marks::text(&list), &mut verdicts, &mut text);
        let (_, accepted, bytes) = answer.expect("program and list are taken");
        assert!(verdicts[count..].iter().all(|&byte| byte == 99));
        assert!(text[bytes as usize..].iter().all(|&byte| byte == 99));
        let rewritten = Program::read(&text[..bytes as usize]).expect("the new text is taken");
        assert_eq!(rewritten.count(), given.count());
        for (mark, &verdict) in list.iter().zip(&verdicts) {
            verdicts_seen[usize::from(verdict)] += 1;
            match mark.kind {
                _ if verdict != 0 => {}
                Kind::Remove(_) => removed += 1,
                Kind::Replace(_) => replaced += 1,
                Kind::Reuse(_) => reused += 1,
            }
        }
        assert_eq!(accepted as usize, verdicts.iter().filter(|&&verdict| verdict == 0).count());
        for _ in 0..4 {
            let (values, input) = (generate::values(random), generate::word(random));
            assert_eq!(
                first_difference(&given, &rewritten, values, input, 400),
                None,
                "{given}{rewritten}"
            );
            let budget = generate::budget(random) % 1_000;
            let one = run_program(&given, values, input, budget, &OURS);
            let other = run_program(&rewritten, values, input, budget, &OURS);
            assert!(one.is_alike(&other), "{one:?} {other:?}");
            // No mark makes a statement dearer, by our prices.
            assert!(one.ticks() >= other.ticks(), "{given}{rewritten}");
            cheaper += usize::from(one.ticks() > other.ticks());
            faults += usize::from(matches!(one, Outcome::Fault { .. }));
        }
        // With one refused mark made all the same, runs often differ.
        let refused_one = list.iter().zip(&verdicts).find(|(_, &verdict)| verdict == 14);
        if let Some((mark, _)) = refused_one {
            let wrong = marks::rewritten(&given, &[*mark], &[0]);
            let differs = (0..4).any(|_| {
                let (values, input) = (generate::values(random), generate::word(random));
                first_difference(&given, &wrong, values, input, 400).is_some()
            });
            would_matter += usize::from(differs);
        }
    }
    println!("removed {removed} replaced {replaced} reused {reused} would matter {would_matter} faults {faults} cheaper {cheaper} verdicts {verdicts_seen:?}");
    assert!(removed > 4_000 && replaced > 4_000 && reused > 1_000);
    assert!(would_matter > 200 && faults > 500 && cheaper > 500);
    assert!(verdicts_seen[11..=14].iter().all(|&seen| seen > 500) && verdicts_seen[18] > 100);
}

/// The condition of `rm` and wrong readings of it, x standing for the variable.
const REMOVE_READINGS: [&str; 6] = [
    "!EX E[!def(x) U use(x)]",
    "!E[!def(x) U use(x)]",
    "!EX EF use(x)",
    "!EX A[!def(x) U use(x)]",
    "!EX E[!def(x) W use(x)]",
    "!EX E[!def(x) U (use(x) & !def(x))]",
];

/// The condition of `rpl` and wrong readings of it, the last one without paths from unreachable statements.
const REPLACE_READINGS: [&str; 9] = [
    "AY A[((!def(x) & trans(a)) & !entry) B stmt(x := a)]",
    "AY A[((!def(x) & trans(a)) & !entry) S stmt(x := a)]",
    "AY A[(!def(x) & trans(a)) B stmt(x := a)]",
    "AY A[(trans(a) & !entry) B stmt(x := a)]",
    "AY A[(!def(x) & !entry) B stmt(x := a)]",
    "EY A[((!def(x) & trans(a)) & !entry) B stmt(x := a)]",
    "AY E[((!def(x) & trans(a)) & !entry) B stmt(x := a)]",
    "A[((!def(x) & trans(a)) & !entry) B stmt(x := a)]",
    "AY A[((!def(x) & trans(a)) & !entry) B (stmt(x := a) | !ER entry)]",
];

/// The condition of `cse` and wrong readings of it, x standing for the variable and a for the right side.
const REUSE_READINGS: [&str; 11] = [
    "AY A[((!def(x) & trans(a)) & !entry) B (stmt(x := a) & trans(a))]",
    "AY A[((!def(x) & trans(a)) & !entry) S (stmt(x := a) & trans(a))]",
    "AY A[(!def(x) & trans(a)) B (stmt(x := a) & trans(a))]",
    "AY A[(trans(a) & !entry) B (stmt(x := a) & trans(a))]",
    "AY A[(!def(x) & !entry) B (stmt(x := a) & trans(a))]",
    "AY A[((!def(x) & trans(a)) & !entry) B stmt(x := a)]",
    "EY E[((!def(x) & trans(a)) & !entry) B (stmt(x := a) & trans(a))]",
    "EY A[((!def(x) & trans(a)) & !entry) B (stmt(x := a) & trans(a))]",
    "AY E[((!def(x) & trans(a)) & !entry) B (stmt(x := a) & trans(a))]",
    "A[((!def(x) & trans(a)) & !entry) B (stmt(x := a) & trans(a))]",
    "AY A[((!def(x) & trans(a)) & !entry) B ((stmt(x := a) & trans(a)) | !ER entry)]",
];

/// Generated marks tell the right conditions from wrong readings of them.
#[test]
fn wrong_readings_of_marks_are_told_apart() {
    let random = &mut Random::new(11);
    let mut told = [[0_usize; 11]; 3];
    for _ in 0..2_000 {
        let size = random.between(3, 24);
        let program = generate::program(random, size);
        let steps = Steps::new(&program);
        for mark in generate::marks(random, &program, 12) {
            let verdict = Judge::new(&program).verdict(&mark, false);
            if verdict != 0 && verdict != 14 {
                continue;
            }
            let x = format!("i{}", mark.variable);
            let (told, readings, a) = match mark.kind {
                Kind::Remove(_) => (&mut told[0], &REMOVE_READINGS[..], String::new()),
                Kind::Replace(a) => (&mut told[1], &REPLACE_READINGS[..], a.to_string()),
                Kind::Reuse(e) => (&mut told[2], &REUSE_READINGS[..], e.to_string()),
            };
            for (told, reading) in told.iter_mut().zip(readings) {
                let text = reading
                    .replace("(x", &format!("({x}"))
                    .replace("(a)", &format!("({a})"))
                    .replace(":= a", &format!(":= {a}"));
                let condition = Condition::read(text.as_bytes()).expect("well spelled");
                let holds = Checker::new(&program, &steps, &condition)
                    .whole_holds(mark.number as usize - 1);
                *told += usize::from(holds != (verdict == 0));
            }
        }
    }
    println!("told apart {told:?}");
    assert_eq!((told[0][0], told[1][0], told[2][0]), (0, 0, 0));
    let wrong = told[0][1..6].iter().chain(&told[1][1..9]).chain(&told[2][1..]);
    assert!(wrong.into_iter().all(|&times| times > 20), "{told:?}");
}

/// But for `rm`: there `use` holds also where a `cse` with its variable is accepted.
#[test]
fn verdicts_of_a_list_are_those_of_single_marks() {
    let random = &mut Random::new(5);
    let mut by_list = 0;
    for _ in 0..1_000 {
        let size = random.between(2, 20);
        let program = generate::program(random, size);
        let list = generate::marks(random, &program, 20);
        let judge = Judge::new(&program);
        let verdicts = judge.verdicts(&list);
        for (line, mark) in list.iter().enumerate() {
            let named = list[..line].iter().any(|earlier| earlier.number == mark.number);
            let inside = (1..=program.count()).contains(&mark.number);
            let alone = judge.verdicts(&[*mark])[0];
            let wanted = match mark.kind {
                _ if inside && named => 12,
                Kind::Remove(_) if alone == 0 => {
                    let is_dead = is_dead_by_fixpoints(&program, &list, &verdicts, mark);
                    by_list += usize::from(!is_dead);
                    if is_dead {
                        0
                    } else {
                        14
                    }
                }
                _ => alone,
            };
            assert_eq!(verdicts[line], wanted, "{program}{}", marks::text(&list).escape_ascii());
        }
    }
    assert!(by_list > 50, "{by_list}");
}

#[test]
fn runs_are_their_steps() {
    let random = &mut Random::new(6);
    let mut ended = 0;
    for _ in 0..2_000 {
        let size = generate::size(random);
        let program = generate::program(random, size);
        let (values, input) = (generate::values(random), generate::word(random));
        let budget = random.below(80) as u32;
        let mut walk = Run::start(&program, values, input);
        let (mut taken, mut before, mut ticks) = (0, values, 0);
        while let State::Before { values, .. } = *walk.state() {
            if taken == budget {
                break;
            }
            before = values;
            ticks += walk.cost(&OURS);
            walk.step();
            taken += 1;
        }
        let wanted = match *walk.state() {
            State::Before { statement, values } => Outcome::Spent { statement, values, ticks },
            State::Ended { value, kept } => {
                // The last step changes no value.
                assert_eq!(kept, kept_of(&before));
                Outcome::Ended { value, steps: taken, kept, ticks }
            }
            State::Faulted { statement } => Outcome::Fault { statement, steps: taken, ticks },
        };
        assert_eq!(run(&program.text(), values, input, budget, &OURS), Ok(wanted));
        ended += usize::from(matches!(wanted, Outcome::Ended { .. }));
        let last = *walk.state();
        assert_eq!(walk.cost(&OURS) == 0, !matches!(last, State::Before { .. }));
        walk.step();
        assert!(matches!(last, State::Before { .. }) || *walk.state() == last);
    }
    assert!((200..1_900).contains(&ended), "{ended}");
}

#[test]
fn what_is_taken_is_spelled_as_it_was_read() {
    let random = &mut Random::new(7);
    let mut refusals = [0_usize; 16];
    for _ in 0..6_000 {
        let size = generate::size(random).min(40);
        let program = generate::program(random, size);
        let text = generate::damage(random, &program.text());
        match Program::read(&text) {
            Ok(read) => assert_eq!(read.text(), text),
            Err(number) => refusals[usize::from(number)] += 1,
        }
        let parts = random.between(1, 80);
        let text = generate::condition(random, &program, parts);
        let text = if random.chance(20) { text } else { generate::damage(random, &text) };
        match Condition::read(&text) {
            Ok(read) => assert_eq!(read.text(), text),
            Err(number) => refusals[usize::from(number)] += 1,
        }
        let count = random.between(0, 20);
        let list = generate::marks(random, &program, count);
        let text = generate::damage(random, &marks::text(&list));
        match marks::read(&text) {
            Ok(read) => assert_eq!(marks::text(&read), text),
            Err(number) => refusals[usize::from(number)] += 1,
        }
    }
    println!("refusals {refusals:?}");
    assert!(refusals[2..=10].iter().all(|&seen| seen >= 20), "{refusals:?}");
}

#[test]
fn refused_calls_keep_what_is_lent() {
    let random = &mut Random::new(8);
    for _ in 0..2_000 {
        let size = random.between(2, 12);
        let program = generate::program(random, size);
        let text = generate::damage(random, &program.text());
        let parts = random.between(1, 70);
        let condition = generate::condition(random, &program, parts);
        let mut table = [5; TABLE_WORDS];
        if tabulate(&text, &condition, &mut table).is_err() {
            assert_eq!(table, [5; TABLE_WORDS]);
        }
        let list = marks::text(&generate::marks(random, &program, 3));
        let list = if random.chance(50) { list } else { generate::damage(random, &list) };
        let (mut verdicts, mut new_text) = ([5; VERDICT_BYTES], [5; TEXT_BYTES]);
        match judge(&text, &list, &mut verdicts, &mut new_text) {
            Err(number) => {
                assert_eq!((verdicts, new_text), ([5; VERDICT_BYTES], [5; TEXT_BYTES]));
                let long = text.len().max(list.len()) > LARGEST_FILE;
                let line = if long { String::new() } else { format!("refused {number}\n") };
                assert_eq!(check(&text, &list), line.as_bytes());
            }
            Ok((count, accepted, bytes)) => {
                let output = check(&text, &list);
                let first = format!("marks {count} accepted {accepted}\n");
                assert!(output.starts_with(first.as_bytes()));
                let prices = report(&text, &list, &OURS).expect("what is judged is priced").text();
                let before = output.len() - prices.len();
                assert_eq!(output[before..], *prices.as_bytes());
                assert!(output[..before].ends_with(&new_text[..bytes as usize]));
                let lines = output.iter().filter(|&&byte| byte == b'\n').count();
                let statements = text.iter().filter(|&&byte| byte == b'\n').count();
                assert_eq!(lines, 1 + count as usize + 2 * statements + 3);
            }
        }
    }
}

#[test]
fn generated_conditions_have_the_parts_and_lengths_asked_for() {
    let random = &mut Random::new(9);
    for parts in 1..=150 {
        let size = generate::size(random);
        let program = generate::program(random, size);
        let text = generate::condition(random, &program, parts);
        match Condition::read(&text) {
            Ok(condition) => assert_eq!(condition.parts().len(), parts),
            Err(number) => assert!(number == 8 && parts > 64),
        }
    }
    for length in (4..60).chain(900..=1_026) {
        let size = generate::size(random);
        let program = generate::program(random, size);
        let text = generate::condition_of_length(random, &program, length);
        assert_eq!(text.len(), length);
        let wanted = if length > 1_024 { Err(6) } else { Ok(()) };
        assert_eq!(
            Condition::read(&text).map(|_| ()),
            wanted,
            "{}",
            String::from_utf8_lossy(&text)
        );
    }
}

#[test]
fn generated_programs_hold_what_tests_need() {
    let random = &mut Random::new(10);
    let (mut unreachable, mut loops, mut copies, mut constants, mut equal_arms) = (0, 0, 0, 0, 0);
    for _ in 0..500 {
        let size = random.between(2, MOST_LINES);
        let program = generate::program(random, size);
        assert_eq!(program.statements().len(), size);
        let mut reached = vec![false; size];
        let steps = Steps::new(&program);
        let mut waiting = vec![0];
        while let Some(at) = waiting.pop() {
            if !reached[at] {
                reached[at] = true;
                waiting.extend(&steps.forward[at]);
            }
        }
        unreachable += usize::from(reached.contains(&false));
        for (at, statement) in program.statements().iter().enumerate() {
            match statement {
                Statement::Branch { then, other, .. } => {
                    loops += usize::from(*then as usize <= at + 1 || *other as usize <= at + 1);
                    equal_arms += usize::from(then == other);
                }
                Statement::Assign(_, right) if right.operands().len() == 1 => {
                    match right.operands()[0] {
                        Operand::Variable(_) => copies += 1,
                        Operand::Constant(_) => constants += 1,
                    }
                }
                _ => {}
            }
        }
    }
    println!("{unreachable} {loops} {copies} {constants} {equal_arms}");
    assert!(
        unreachable > 100
            && loops > 1_000
            && copies > 1_000
            && constants > 1_000
            && equal_arms > 500
    );
}

#[test]
fn the_same_seed_gives_the_same_cases() {
    let case = |seed| {
        let random = &mut Random::new(seed);
        let program = generate::program(random, 30);
        let marks = generate::marks(random, &program, 9);
        (program.text(), marks::text(&marks), generate::condition(random, &program, 20))
    };
    assert_eq!(case(77), case(77));
    assert_ne!(case(77), case(78));
}

#[test]
fn soups_are_spelled_now_and_then() {
    let random = &mut Random::new(14);
    let (mut programs, mut conditions, mut nested, mut lists) = (0, 0, [0; 9], 0);
    for _ in 0..20_000 {
        let program = Program::read(&generate::statement_soup(random));
        programs += usize::from(program != Err(2));
        conditions += usize::from(Condition::read(&generate::condition_soup(random)).is_ok());
        let answer = Condition::read(&generate::nested_condition(random));
        nested[usize::from(answer.err().unwrap_or(0))] += 1;
        lists += usize::from(marks::read(&generate::mark_soup(random)).is_ok());
    }
    println!("{programs} {conditions} {nested:?} {lists}");
    assert!(programs > 200 && conditions > 200 && lists > 200);
    assert!([0, 6, 7, 8].iter().all(|&number| nested[number] > 200));
}
