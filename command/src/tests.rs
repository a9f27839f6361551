//! What is found by asking the library, or read here, held to the second implementation.

use crate::blame::{line_of_marks, line_of_prices, line_of_program, line_of_review, lines};
use crate::fault::grouped;
use crate::files::shown;
use crate::start::{self, Start};
use crate::{marks, parts};
use oracle::condition::Condition;
use oracle::generate::{self, Random};
use oracle::marks::Mark;
use oracle::{desk, folder, pricing};
use rewrites::{mark_line, review, tabulate, Prices, Refusal, REVIEW_WORDS};
use rewrites::{PART_WORDS, TABLE_WORDS, TEXT_BYTES, VARIABLES, VERDICT_BYTES};
use std::ffi::OsStr;
use std::os::unix::ffi::OsStrExt;
use std::path::Path;

fn cases(count: u64) -> impl Iterator<Item = Random> {
    (0..count).map(|case| Random::new(14 + case))
}

/// The line that the second implementation names in its words of a refusal.
fn line_in_words(refusal: Refusal, program: &[u8]) -> Option<usize> {
    let words = desk::words(refusal.number(), program, &[]);
    let (_, rest) = words.split_once(": line ")?;
    rest.split(|c: char| !c.is_ascii_digit()).next()?.parse().ok()
}

#[test]
fn lines_of_programs_are_as_by_the_oracle() {
    let mut met = [0; 6];
    for mut random in cases(6_000) {
        let (_, text) = folder::given(&mut random);
        if let Err(refusal) = rewrites::run(&text, &[0; VARIABLES], 0, 0, &Prices::ours()) {
            let line = line_of_program(&text, refusal);
            assert_eq!(line, line_in_words(refusal, &text), "{}", text.escape_ascii());
            met[usize::from(refusal.number())] += 1;
        }
    }
    assert!(met[2..=5].iter().all(|&count| count > 50), "{met:?}");
}

#[test]
fn lines_of_misspelled_programs_of_any_length_are_found() {
    for (text, line) in [
        (b"read i0".to_vec(), 1),
        (b"\n".repeat(65_535), 1),
        ([b"skip\n".repeat(13_000), b"x\n".to_vec()].concat(), 13_001),
        (b"read i0\nwrite i0\nskip".to_vec(), 3),
        // A line without its byte 10 runs into the plain one after it.
        (b"read i0\ni0 := i0 + ".to_vec(), 2),
        (b"read i0\nwrite i0\n ".to_vec(), 3),
    ] {
        assert_eq!(line_of_program(&text, Refusal::Misspelled), Some(line));
    }
}

#[test]
fn lines_of_prices_are_the_first_that_is_none() {
    let (mut met, mut whole) = (0, 0);
    for mut random in cases(4_000) {
        let text = generate::price_text(&mut random);
        let is_wrong = |line: &[u8]| pricing::read_prices(line) == Err(19);
        let expected = lines(&text).position(is_wrong).map(|at| at + 1);
        assert_eq!(line_of_prices(&text), expected, "{}", text.escape_ascii());
        let answer = Prices::ours().read(&text);
        assert_eq!(answer == Err(Refusal::PriceMisspelled), expected.is_some());
        met += usize::from(expected.is_some());
        whole += usize::from(answer.is_ok());
    }
    assert!(met > 500 && whole > 500, "{met} {whole}");
}

#[test]
fn lines_of_marks_are_the_first_misspelled() {
    let (mut met, mut whole) = (0, 0);
    for mut random in cases(4_000) {
        let program = generate::program(&mut random, 12);
        let count = random.between(1, 20);
        let list = oracle::marks::text(&generate::marks(&mut random, &program, count));
        let list = generate::damage(&mut random, &list);
        let is_mark = |line: &[u8]| line.strip_suffix(b"\n").and_then(Mark::read).is_some();
        let expected = lines(&list).position(|line| !is_mark(line)).map(|at| at + 1);
        assert_eq!(line_of_marks(&list), expected, "{}", list.escape_ascii());
        let (mut verdicts, mut text) = ([0; VERDICT_BYTES], [0; TEXT_BYTES]);
        let answer = rewrites::judge(&program.text(), &list, &mut verdicts, &mut text);
        assert_eq!(answer == Err(Refusal::MarkMisspelled), expected.is_some());
        met += usize::from(expected.is_some());
        whole += usize::from(answer.is_ok());
    }
    assert!(met > 500 && whole > 500, "{met} {whole}");
}

#[test]
fn lines_of_reviews_are_the_first_faulty() {
    let mut met = [0; 18];
    for mut random in cases(6_000) {
        let program = generate::program(&mut random, 12);
        let text = folder::conditions(&mut random, &program);
        let is_taken = |line: &[u8]| {
            line.strip_suffix(b"\n").map_or(false, |condition| Condition::read(condition).is_ok())
        };
        let faulty = lines(&text).position(|line| !is_taken(line)).map(|at| at + 1);
        if let Err(refusal) = review(&program.text(), &text, &mut [0; REVIEW_WORDS]) {
            let is_counted = matches!(refusal, Refusal::ReviewLines | Refusal::ReviewParts);
            let expected = faulty.filter(|_| !is_counted);
            assert_eq!(line_of_review(&text, refusal), expected, "{}", text.escape_ascii());
            met[usize::from(refusal.number())] += 1;
        }
    }
    assert!([6, 7, 8, 16, 17].iter().all(|&number| met[number] > 20), "{met:?}");
}

#[test]
fn conditions_of_marks_are_as_by_the_oracle() {
    for mut random in cases(1_000) {
        let program = generate::program(&mut random, 20);
        let list = generate::marks(&mut random, &program, 20);
        let text = oracle::marks::text(&list);
        let found = marks::of(&text);
        assert_eq!(found.len(), list.len());
        for (found, mark) in found.iter().zip(&list) {
            assert_eq!(found.condition().into_bytes(), mark.condition().text());
            assert_eq!((found.statement, found.text), (mark.number, mark.to_string().as_str()));
        }
    }
}

/// What is shown of a mark is its line in the list, without byte 10.
#[test]
fn texts_of_marks_are_their_lines() {
    for mut random in cases(300) {
        let program = generate::program(&mut random, 20);
        let count = random.below(40);
        let list = oracle::marks::text(&generate::marks(&mut random, &program, count));
        let found = marks::of(&list);
        assert_eq!(found.len(), count);
        for (line, mark) in found.iter().enumerate() {
            let bounds = mark_line(&list, line as u32).expect("a list that is taken");
            assert_eq!([mark.text.as_bytes(), b"\n"].concat(), list[bounds]);
        }
    }
}

/// The condition that is shown for a mark; in that of an `rm` these statements, which are to read its variable, are
/// uses.
fn condition_beside(mark: &marks::Mark, readers: &[u32]) -> String {
    let shown = mark.condition();
    match shown.split_once(" U use(") {
        Some((before, variable)) => {
            let used = format!("use({}", variable.trim_end_matches(']'));
            let used = readers.iter().fold(used, |used, n| format!("({used} | node({n}))"));
            format!("{before} U {used}]")
        }
        None => shown,
    }
}

/// A mark that fits, and can't drop a fault, is accepted exactly where the condition that is shown for it is
/// true, what the accepted `cse` lines of the list are to read counted as used.
#[test]
fn conditions_of_marks_decide_their_verdicts() {
    let (mut met, mut by_list) = ([0; 19], 0);
    for mut random in cases(500) {
        let program = generate::program(&mut random, 40);
        let given = program.text();
        let list = oracle::marks::text(&generate::marks(&mut random, &program, 40));
        let (mut verdicts, mut text) = ([0; VERDICT_BYTES], [0; TEXT_BYTES]);
        rewrites::judge(&given, &list, &mut verdicts, &mut text).expect("a list that is taken");
        let found = marks::of(&list);
        for (mark, verdict) in found.iter().zip(verdicts) {
            met[usize::from(verdict)] += 1;
            let divides_by = mark.divisor().filter(|_| verdict == 18);
            let may_be_0 = |divisor: &str| divisor == "0" || divisor.starts_with('i');
            assert_eq!(divides_by.map_or(false, may_be_0), verdict == 18, "{}", mark.text);
            let variable = mark.text.split(", ").nth(1).expect("a variable");
            let reuse = format!("(cse, {variable},");
            let accepted = found.iter().zip(verdicts).filter(|(_, verdict)| *verdict == 0);
            let readers: Vec<u32> = accepted
                .filter(|(other, _)| other.text.contains(&reuse))
                .map(|(other, _)| other.statement)
                .collect();
            if (verdict == 0 || verdict == 14) && readers.len() <= 20 {
                let is_true = |condition: String| {
                    let mut table = [0; TABLE_WORDS];
                    let answer = tabulate(&given, condition.as_bytes(), &mut table);
                    let answer = answer.expect("a condition that is taken");
                    let last = PART_WORDS * (answer.parts as usize - 1);
                    let at = mark.statement as usize - 1;
                    table[last + at / 64] >> (at % 64) & 1 == 1
                };
                assert_eq!(
                    is_true(condition_beside(mark, &readers)),
                    verdict == 0,
                    "{}",
                    mark.text
                );
                by_list += usize::from(is_true(mark.condition()) != (verdict == 0));
            }
        }
    }
    assert!([0, 11, 12, 13, 14, 18].iter().all(|&verdict| met[verdict] > 50), "{met:?}");
    assert!(by_list > 50, "{by_list}");
}

#[test]
fn parts_are_as_by_the_oracle() {
    let mut met = [0; 65];
    for mut random in cases(1_500) {
        let program = generate::program(&mut random, 10);
        let text = folder::condition(&mut random, &program);
        if let Ok(condition) = Condition::read(&text) {
            let count = condition.parts().len();
            let expected: Vec<Vec<u8>> =
                (0..count).map(|part| condition.text_of(part).into_bytes()).collect();
            assert_eq!(parts::texts(&text), expected, "{}", text.escape_ascii());
            met[count] += 1;
        }
    }
    assert!(met[1..].iter().all(|&count| count > 0), "{met:?}");
}

/// A start for the library from one that was read here, as the second implementation reads it.
#[test]
fn starts_are_as_by_the_oracle() {
    let program = b"read i0\nwrite i0\n";
    let (mut taken, mut refused) = (0, 0);
    for mut random in cases(5_000) {
        let text = folder::start(&mut random);
        let printed = desk::run(program, &text, false);
        match Start::read(&text) {
            Ok(Start { input, budget, values }) => {
                let mut lines = vec![input.to_string(), budget.to_string()];
                lines.extend(values.iter().map(i32::to_string));
                let whole = lines.join("\n") + "\n";
                assert_eq!(desk::run(program, whole.as_bytes(), false), printed);
                assert!(!printed.starts_with("refused start"), "{}", text.escape_ascii());
                taken += 1;
            }
            Err(wrong) => {
                let words = match wrong.line {
                    Some(line) if wrong.words == "without its line end" => {
                        format!("the start: line {line} lacks its line end")
                    }
                    Some(line) => format!("the start: line {line} isn't"),
                    None => format!("the start: {}", wrong.words),
                };
                assert!(printed.starts_with(&format!("refused start\n{words}")), "{printed}");
                refused += 1;
            }
        }
    }
    assert!(taken > 500 && refused > 500, "{taken} {refused}");
}

#[test]
fn options_are_spelled_as_lines_of_a_start() {
    assert_eq!(start::value("-2147483648"), Ok(i32::MIN));
    assert_eq!(start::value("2147483647"), Ok(i32::MAX));
    assert_eq!(start::budget("0"), Ok(0));
    assert_eq!(start::budget("2147483647"), Ok(2_147_483_647));
    assert_eq!(start::setting("i13=40"), Ok((13, 40)));
    assert_eq!(start::setting("i13=-40"), Ok((13, -40)));
    assert_eq!(start::setting("i0=-1"), Ok((0, -1)));
    for wrong in ["", "-", "-0", "00", "+1", " 1", "1 ", "2147483648", "-2147483649", "1e3", "٣"] {
        assert!(start::value(wrong).is_err(), "{wrong}");
        assert!(start::budget(wrong).is_err(), "{wrong}");
        assert!(start::setting(&format!("i1={wrong}")).is_err(), "{wrong}");
    }
    assert!(start::budget("-1").is_err());
    for wrong in
        ["", "=", "i1", "i64=1", "i063=1", "i01=1", "1=1", "I1=1", "i-1=1", "i1==1", "i1=1=1"]
    {
        assert!(start::setting(wrong).is_err(), "{wrong}");
    }
}

#[test]
fn names_stay_on_one_line() {
    let name = OsStr::from_bytes(b"a\nb\x1b[31m\xff\xc3\xa4");
    assert_eq!(shown(Path::new(name)), "a\\nb\\u{1b}[31m\u{fffd}ä");
    assert_eq!(grouped(999), "999");
    assert_eq!(grouped(1_024), "1,024");
    assert_eq!(grouped(1_234_567), "1,234,567");
}
