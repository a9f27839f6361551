//! The call at the limit against the plain one.

use super::tuned::program_text;
use super::{lines, skips};
use crate::generate::{self, Random};
use crate::limit;
use crate::machine::{run, Outcome, Values, LARGEST_BUDGET, VALUES};
use crate::pricing::{Prices, KINDS, OURS};
use crate::program::{Program, MOST_LINES};

/// Prices of which each kind has another, so that ticks tell kinds apart.
const ODD: Prices = [1, 3, 7, 31, 127, 1_009, 2_003, 65_535, 4_001, 8_009, 16_001];

const ZEROS: Values = [0; VALUES];

/// What both calls answer.
fn same(
    text: &[u8],
    values: &Values,
    input: u32,
    budget: u32,
    prices: &Prices,
) -> Result<Outcome, u8> {
    let plain = run(text, *values, input, budget, prices);
    let shown = || format!("{input} {budget} {prices:?} {}", text.escape_ascii());
    assert_eq!(limit::run(text, values, input, budget, prices), plain, "{}", shown());
    plain
}

/// The refusal of a text, 0 where it is taken.
fn refused(text: &[u8]) -> u8 {
    same(text, &ZEROS, 7, 3, &OURS).err().unwrap_or(0)
}

#[test]
fn runs_at_the_limit_are_the_plain_ones() {
    let random = &mut Random::new(311);
    let mut refusals = [0; 16];
    for _ in 0..40_000 {
        let size = generate::size(random);
        let program = generate::program(random, size);
        let text = program_text(random, &program);
        let (values, input) = (generate::values(random), generate::word(random));
        let (budget, prices) = (generate::budget(random), generate::prices(random));
        if let Err(number) = same(&text, &values, input, budget, &prices) {
            refusals[usize::from(number)] += 1;
        }
    }
    assert!(
        [2, 3, 4, 5, 15].into_iter().all(|number: usize| refusals[number] > 20),
        "{refusals:?}"
    );
}

/// Budgets around the steps that a run takes, and around those after which it goes on by stretches.
#[test]
fn budgets_around_an_end_are_the_plain_ones() {
    let random = &mut Random::new(312);
    let mut met = [0; 3];
    for _ in 0..6_000 {
        let size = generate::size(random).min(40);
        let text = generate::program(random, size).text();
        let (values, input) = (generate::values(random), generate::word(random));
        let prices = generate::prices(random);
        let (way, steps) = match same(&text, &values, input, 3_000, &prices) {
            Ok(Outcome::Ended { steps, .. }) => (0, steps),
            Ok(Outcome::Fault { steps, .. }) => (1, steps),
            Ok(Outcome::Spent { .. }) => (2, random.between(0, 3_000) as u32),
            Err(number) => panic!("refused {number}"),
        };
        met[way] += 1;
        for middle in [steps, 2 * size as u32] {
            for budget in middle.saturating_sub(3)..middle + 4 {
                let _ = same(&text, &values, input, budget, &prices);
            }
        }
    }
    assert!(met.into_iter().all(|count| count > 200), "{met:?}");
}

/// All budgets up to some hundred, over loops with every pair of statements in them.
#[test]
fn every_pair_of_steps_is_the_plain_ones() {
    const STEPS: [&str; 10] = [
        "skip",
        "i1 := i3",
        "i3 := i1 + i2",
        "i1 := i2 - 7",
        "i3 := -3 * i1",
        "i2 := i3 < i1",
        "i1 := i3 = i2",
        "i3 := 1000 DIV i0",
        "if i1 goto 4 else 5",
        "if i3 goto 4 else 4",
    ];
    for one in STEPS {
        for other in STEPS {
            let text = lines(&format!(
                "read i0 / i4 := i4 + 1 / {one} / {other} / i0 := i0 - 1 / if i0 goto 2 else 7 / write i3"
            ));
            let text = text.replace("DIV", "/");
            for budget in (0..90).chain([LARGEST_BUDGET]) {
                for input in [0, 3, 11, u32::MAX] {
                    let budget = if budget > 90 && input > 11 { 5_000 } else { budget };
                    let _ = same(text.as_bytes(), &ZEROS, input, budget, &ODD);
                }
            }
        }
    }
}

#[test]
fn the_largest_budget_is_the_plain_ones() {
    let texts = [
        "read i0 / if i0 goto 2 else 2 / write i0",
        "read i0 / skip / skip / if i0 goto 2 else 3 / write i0",
        "read i0 / i1 := i1 + 1 / i2 := i1 * i1 / if i2 goto 2 else 5 / write i1",
        "read i0 / i1 := i1 + 1 / i2 := i1 < 333332 / if i2 goto 2 else 5 / write i1",
        "read i0 / i1 := i1 + 1 / i2 := 200000 - i1 / i3 := i1 DIV i2 / if i0 goto 2 else 6 / write i1",
    ];
    for text in texts {
        for budget in LARGEST_BUDGET - 3..LARGEST_BUDGET + 2 {
            for prices in [OURS, ODD, [65_535; KINDS]] {
                let text = lines(text).replace("DIV", "/");
                let _ = same(text.as_bytes(), &ZEROS, 5, budget, &prices);
            }
        }
    }
}

/// Every two operators at the start of a stretch, of which the second uses what the first assigns or doesn't, with neither jump nor
/// branch behind them, a jump, and a branch: all codes that steps are joined to.
#[test]
fn every_joined_code_is_the_plain_steps() {
    const OPERATORS: [&str; 7] = ["", "+", "-", "*", "<", "=", "/"];
    const USED: [[&str; 2]; 4] = [["i2", "i3"], ["i1", "i3"], ["i2", "i1"], ["i1", "i1"]];
    const BEHIND: [&str; 3] = ["i6 := i6 + 1", "if i0 goto 6 else 6", "if i4 goto 6 else 7"];
    let spelled = |operator: &str, [a, b]: [&str; 2]| match operator {
        "" => a.to_string(),
        _ => format!("{a} {operator} {b}"),
    };
    let starts = [[7, 3], [0, 5], [1 << 31, u32::MAX], [4, 0]];
    for first in OPERATORS.map(|operator| spelled(operator, USED[0])) {
        for second in OPERATORS.into_iter().flat_map(|o| USED.map(|used| spelled(o, used))) {
            for behind in BEHIND {
                let text = format!(
                    "read i5\nif i5 goto 3 else 9\ni1 := {first}\ni4 := {second}\n{behind}\n\
                     i2 := i2 + i4\ni5 := i5 - 1\nif i0 goto 2 else 2\nwrite i4\n"
                );
                for [i2, i3] in starts {
                    let mut values = ZEROS;
                    (values[2], values[3]) = (i2, i3);
                    for budget in [57, 58, 59, 60, 61, 1_000] {
                        let _ = same(text.as_bytes(), &values, 12, budget, &ODD);
                    }
                }
            }
        }
    }
}

/// A division that faults after some rounds, at every place of its stretch.
#[test]
fn faults_within_stretches_are_the_plain_ones() {
    const AROUND: [&str; 4] = ["i4 := i4 + i0", "skip", "i5 := i4", "i6 := i5 < 3"];
    for before in 0..=AROUND.len() {
        for behind in 0..=AROUND.len() {
            let mut inner = vec!["i0 := i0 - 1"];
            inner.extend(&AROUND[..before]);
            inner.push("i1 := 100 / i0");
            inner.extend(&AROUND[AROUND.len() - behind..]);
            let text = format!("read i0\n{}\nif i0 goto 2 else 2\nwrite i1\n", inner.join("\n"));
            let statement = before as u32 + 3;
            for rounds in [1, 2, 3, 4, 50] {
                let outcome = same(text.as_bytes(), &ZEROS, rounds, 1_000, &ODD);
                let steps = match outcome {
                    Ok(Outcome::Fault { statement: told, steps, .. }) if told == statement => steps,
                    _ => panic!("{outcome:?} {text}"),
                };
                for budget in steps.saturating_sub(9)..steps + 9 {
                    let _ = same(text.as_bytes(), &ZEROS, rounds, budget, &ODD);
                }
            }
        }
    }
}

#[test]
fn quotients_are_the_plain_ones() {
    let ends = ["-2147483648", "-2147483647", "-7", "-1", "0", "1", "2", "2147483647"];
    for a in ends {
        for b in ends {
            let text = format!("read i0\ni1 := {a} / {b}\ni2 := i0 / {b}\nwrite i1\n");
            for input in [0, 1, u32::MAX, 1 << 31, 12_345] {
                let _ = same(text.as_bytes(), &ZEROS, input, 10, &ODD);
            }
        }
    }
}

/// Every number of lines that is taken, and some that aren't; the line ends fall at every place among those found at once.
#[test]
fn all_lengths_are_the_plain_ones() {
    for count in 2..=MOST_LINES + 2 {
        let text = skips(count);
        let wanted = if count <= MOST_LINES { 0 } else { 3 };
        assert_eq!(refused(text.as_bytes()), wanted);
        let longest = text.replace("skip", "i63 := -2147483648 * -2147483647");
        assert_eq!(refused(longest.as_bytes()), wanted);
        let _ = same(text.as_bytes(), &ZEROS, 7, count as u32, &ODD);
        let target = format!("if i63 goto {count} else {}", count + 1);
        assert_eq!(
            refused(text.replacen("skip", &target, 1).as_bytes()),
            match count {
                2 => 0,
                _ if count <= MOST_LINES => 5,
                _ => 3,
            }
        );
    }
    for count in [4_000, 16_000] {
        let text = skips(count);
        assert_eq!(refused(text.as_bytes()), 3);
        assert_eq!(refused(&text.as_bytes()[..text.len() - 1]), 2);
        assert_eq!(refused(text.replacen("write i0", "write i64", 1).as_bytes()), 2);
    }
}

#[test]
fn refusals_come_in_order() {
    let cases = [
        ("", 3),
        ("read i0\n", 3),
        ("\n", 2),
        ("read i0", 2),
        ("read i0\nwrite i0", 2),
        ("read i0\nwrite i0\n\n", 2),
        ("write i0\nread i0\n", 4),
        ("read i0\nread i0\nwrite i0\n", 4),
        ("read i0\nwrite i0\nwrite i0\n", 4),
        ("skip\nskip\n", 4),
        ("skip\nif i0 goto 9 else 9\n", 4),
        ("read i0\nif i0 goto 1 else 2\nwrite i0\n", 5),
        ("read i0\nif i0 goto 0 else 2\nwrite i0\n", 5),
        ("read i0\nif i0 goto 3 else 4\nwrite i0\n", 5),
        ("read i0\nif i0 goto 65538 else 2\nwrite i0\n", 5),
        ("read i0\nif i0 goto 2147483647 else 2\nwrite i0\n", 5),
        ("read i0\nif i0 goto 2147483648 else 2\nwrite i0\n", 2),
        ("read i0\nif i0 goto 2 else 4294967298\nwrite i0\n", 2),
        ("read i0\nif i0 goto 2 else -2\nwrite i0\n", 2),
        ("read i0\nif i0 goto 2 else 3\nwrite i0\n", 0),
    ];
    for (text, number) in cases {
        assert_eq!(refused(text.as_bytes()), number, "{text}");
        assert_eq!(same(text.as_bytes(), &ZEROS, 7, LARGEST_BUDGET + 1, &OURS), Err(15));
    }
}

/// Every byte in place of every byte, and in between.
#[test]
fn any_byte_anywhere_is_read_as_by_the_plain_call() {
    let text = lines(
        "read i63 / i10 := -2147483648 * i7 / if i63 goto 10 else 2 / i0 := 123456789 / skip / i6 := i1 - -10 / \
         i9 := 12345678 = 0 / if i1 goto 9 else 100000000 / skip / write i31",
    );
    let text = text.as_bytes();
    for at in 0..text.len() {
        for byte in 0..=255 {
            let mut changed = text.to_vec();
            changed[at] = byte;
            refused(&changed);
            changed.insert(at, text[at]);
            refused(&changed);
        }
        let mut shorter = text.to_vec();
        shorter.remove(at);
        refused(&shorter);
        refused(&text[..at]);
        refused(&text[at..]);
    }
}

/// Operands, targets and variables by all their lengths.
#[test]
fn words_of_all_lengths_are_read_as_by_the_plain_call() {
    let mut words: Vec<String> = [
        "", "-", "--1", "+1", "-0", "00", "-00", "i", "I1", "i-1", "i 1", "i00", "i07", "i100",
        "i1000",
    ]
    .map(String::from)
    .to_vec();
    words.extend((0..110).map(|x| format!("i{x}")));
    for length in 1..=40 {
        for digit in ["0", "1", "2", "9"] {
            words.push(digit.repeat(length));
            words.push(format!("0{}", digit.repeat(length)));
            words.push(format!("1{}", "0".repeat(length)));
        }
    }
    for middle in [1 << 31, 1 << 32, 10_000_000, 100_000_000, 1_000_000_000, 10_000_000_000u64] {
        words.extend((middle - 3..middle + 3).map(|number| number.to_string()));
    }
    let signed: Vec<String> = words.iter().map(|word| format!("-{word}")).collect();
    words.extend(signed);
    for word in &words {
        for line in [
            format!("i1 := {word}"),
            format!("i1 := {word} + i1"),
            format!("i1 := i1 + {word}"),
            format!("i1 := {word} < {word}"),
            format!("{word} := i1 * 3"),
            format!("if {word} goto 2 else 3"),
            format!("if i1 goto {word} else 3"),
            format!("if i1 goto 3 else {word}"),
            format!("skip{word}"),
        ] {
            let text = format!("read i0\n{line}\nwrite i1\n");
            let _ = same(text.as_bytes(), &ZEROS, 7, 8, &ODD);
        }
        refused(format!("read {word}\nwrite i0\n").as_bytes());
        refused(format!("read i0\nwrite {word}\n").as_bytes());
    }
}

/// Values are the given ones where nothing sets them, and constants of many statements keep apart.
#[test]
fn constants_have_places_of_their_own() {
    let inner: String =
        (2..MOST_LINES).map(|n| format!("i{} := {} - -{}\n", n % 64, 3 * n, 5 * n)).collect();
    let text = format!("read i0\n{inner}write i1\n");
    let values: Values = std::array::from_fn(|x| x as u32 * 1_000_003);
    for budget in [0, 1, 2, 500, 1_023, 1_024, 5_000] {
        let outcome = same(text.as_bytes(), &values, 9, budget, &ODD);
        assert!(Program::read(text.as_bytes()).is_ok() && outcome.is_ok());
    }
}
