//! Executed cases of `run`. Expected answers are worked out from the language's description, by
//! hand.

mod common;

use common::{given, lines, shown, text, P};
use oracle::machine;
use oracle::pricing::OURS;
use rewrites::{raw, Outcome, Prices, Refusal, FIRST_KEPT, KEPT, VARIABLES};

/// What stands for the ticks of an answer that is compared without them.
const ANY: u64 = u64::MAX;

/// A run. Its ticks are held to the second implementation's and left out, so that only the tests of ticks have to add them up.
fn run(
    program: &[u8],
    values: &[u32; VARIABLES],
    input: u32,
    budget: u32,
) -> Result<Outcome, Refusal> {
    let mut answer = common::run(program, values, input, budget);
    if let Ok(outcome) = &mut answer {
        let counted = machine::run(program, *values, input, budget, &OURS).map(|it| it.ticks());
        assert_eq!(Ok(outcome.ticks()), counted, "{}", shown(program));
        match outcome {
            Outcome::Ended { ticks, .. }
            | Outcome::Spent { ticks, .. }
            | Outcome::Fault { ticks, .. } => *ticks = ANY,
        }
    }
    answer
}

/// The given values with some of them replaced.
fn given_but(changes: &[(usize, u32)]) -> [u32; VARIABLES] {
    let mut values = given();
    for &(x, v) in changes {
        values[x] = v;
    }
    values
}

/// What is kept of values at the end of a run.
fn kept(values: [u32; VARIABLES]) -> [u32; KEPT] {
    std::array::from_fn(|k| values[FIRST_KEPT + k])
}

/// A run from the given values that ended and kept i24 to i31 as they were.
fn ended(value: i32, steps: u32) -> Result<Outcome, Refusal> {
    ended_with(value, steps, &[])
}

/// The same where these values are other than the given ones.
fn ended_with(value: i32, steps: u32, changes: &[(usize, u32)]) -> Result<Outcome, Refusal> {
    Ok(Outcome::Ended { value, steps, kept: kept(given_but(changes)), ticks: ANY })
}

fn spent(statement: u32, values: [u32; VARIABLES]) -> Result<Outcome, Refusal> {
    Ok(Outcome::Spent { statement, values, ticks: ANY })
}

fn fault(statement: u32, steps: u32) -> Result<Outcome, Refusal> {
    Ok(Outcome::Fault { statement, steps, ticks: ANY })
}

/// The number of the refusal, or 0 where the program is taken; it doesn't depend on the budget.
fn number(text: &[u8]) -> u8 {
    let numbers = [0, 1, 300].map(|budget| match run(text, &given(), 0, budget) {
        Ok(_) => 0,
        Err(refusal) => refusal.number(),
    });
    assert_eq!(numbers, [numbers[0]; 3], "{}", shown(text));
    numbers[0]
}

fn assert_number(text: &[u8], expected: u8) {
    assert_eq!(number(text), expected, "{}", shown(text));
}

/// The run of the lines from the given values.
fn run_lines(lines: &[&str], input: u32, budget: u32) -> Result<Outcome, Refusal> {
    run(&text(lines), &given(), input, budget)
}

// Runs of P

#[test]
fn p_with_input_0_ends_with_7_after_6_steps() {
    assert_eq!(run(P.as_bytes(), &given(), 0, 100), ended(7, 6));
}

#[test]
fn p_with_input_2_ends_with_9_after_12_steps() {
    assert_eq!(run(P.as_bytes(), &given(), 2, 100), ended(9, 12));
}

#[test]
fn p_with_input_2_is_spent_by_budget_11() {
    // Only `write` is left: i0 has been counted down to 0.
    let left = given_but(&[(0, 0), (1, 2), (2, 7), (3, 9)]);
    assert_eq!(run(P.as_bytes(), &given(), 2, 11), spent(8, left));
}

#[test]
fn p_with_input_2_ends_by_budget_12() {
    assert_eq!(run(P.as_bytes(), &given(), 2, 12), ended(9, 12));
}

#[test]
fn p_with_input_0_is_spent_by_budget_5() {
    let left = given_but(&[(0, 0), (1, 0), (2, 7), (3, 7)]);
    assert_eq!(run(P.as_bytes(), &given(), 0, 5), spent(8, left));
    assert_eq!(run(P.as_bytes(), &given(), 0, 6), ended(7, 6));
}

#[test]
fn p_stands_where_its_trace_says_after_each_step() {
    // After so many steps with input 2: the next statement and i0 to i3.
    let trace: [(u32, [u32; 4]); 12] = [
        (1, [1000, 1001, 1002, 1003]),
        (2, [2, 1001, 1002, 1003]),
        (3, [2, 2, 1002, 1003]),
        (4, [2, 2, 7, 1003]),
        (5, [2, 2, 7, 9]),
        (6, [2, 2, 7, 9]),
        (7, [1, 2, 7, 9]),
        (4, [1, 2, 7, 9]),
        (5, [1, 2, 7, 9]),
        (6, [1, 2, 7, 9]),
        (7, [0, 2, 7, 9]),
        (8, [0, 2, 7, 9]),
    ];
    for (budget, (statement, first)) in trace.iter().enumerate() {
        let mut left = given();
        left[..4].copy_from_slice(first);
        let answer = run(P.as_bytes(), &given(), 2, budget as u32);
        assert_eq!(answer, spent(*statement, left), "budget {}", budget);
    }
}

// Budgets

#[test]
fn budget_0_is_spent_at_statement_1_with_the_given_values() {
    assert_eq!(run(P.as_bytes(), &given(), 2, 0), spent(1, given()));
    assert_eq!(run_lines(&["read i9", "write i9"], 5, 0), spent(1, given()));
}

#[test]
fn budget_1000000_is_answered() {
    assert_eq!(run(P.as_bytes(), &given(), 0, 1_000_000), ended(7, 6));
}

#[test]
fn budget_over_1000000_is_refused_15() {
    for budget in [1_000_001, 1_000_002, 1 << 31, u32::MAX] {
        assert_eq!(run(P.as_bytes(), &given(), 0, budget), Err(Refusal::Budget));
    }
}

#[test]
fn refusal_15_comes_before_any_of_the_text() {
    let texts = [
        text(&["rubbish"]),
        Vec::new(),
        text(&["skip", "skip"]),
        text(&["read i0", "if i0 goto 9 else 9", "write i0"]),
        text(&lines(1_025)),
    ];
    for (text, expected) in texts.iter().zip([2, 3, 4, 5, 3]) {
        assert_number(text, expected);
        let at_most = run(text, &given(), 0, 1_000_000).map_err(Refusal::number);
        assert_eq!(at_most, Err(expected));
        let above = run(text, &given(), 0, 1_000_001).map_err(Refusal::number);
        assert_eq!(above, Err(15));
    }
}

#[test]
fn write_as_the_last_budgeted_step_ends_the_run() {
    let program = ["read i0", "skip", "write i0"];
    assert_eq!(run_lines(&program, 5, 2), spent(3, given_but(&[(0, 5)])));
    for budget in [3, 4, 1_000_000] {
        assert_eq!(run_lines(&program, 5, budget), ended(5, 3));
    }
}

#[test]
fn a_run_may_take_1000000_steps() {
    // `read`, 249,999 rounds of 4 steps, then `if`, `skip` and `write`.
    let program = text(&[
        "read i0",
        "if i0 goto 3 else 6",
        "i0 := i0 - 1",
        "skip",
        "if i1 goto 2 else 2",
        "skip",
        "write i0",
    ]);
    assert_eq!(run(&program, &given(), 249_999, 1_000_000), ended(0, 1 + 249_999 * 4 + 3));
    // One round more: 4 steps are left over.
    assert_eq!(run(&program, &given(), 250_000, 1_000_000), spent(5, given_but(&[(0, 0)])));
}

// Lines

#[test]
fn programs_of_2_to_1024_lines_are_taken() {
    for n in [2, 3, 255, 256, 257, 512, 1_023, 1_024] {
        assert_eq!(run(&text(&lines(n)), &given(), 5, 2_000), ended(5, n as u32));
    }
}

#[test]
fn over_1024_lines_are_refused_3() {
    // 65,538 lines are 2 lines by the low 16 bits of their count.
    for n in [1_025, 1_026, 1_280, 2_048, 65_538] {
        assert_number(&text(&lines(n)), 3);
    }
}

#[test]
fn under_2_lines_are_refused_3() {
    assert_number(b"", 3);
    for line in ["read i0", "write i0", "i0 := 1", "skip", "if i0 goto 9 else 9"] {
        assert_number(&text(&[line]), 3);
    }
}

#[test]
fn every_line_is_read_also_beyond_1024() {
    let mut program = lines(1_100);
    program.push("skip ".to_string());
    assert_number(&text(&program), 2);
    for bad in [0, 256, 1_023, 1_024, 1_025, 1_099] {
        let mut program = lines(1_100);
        program[bad] = "skop".to_string();
        assert_number(&text(&program), 2);
    }
    // 1,025 lines, the last of which is misspelled.
    let mut program = lines(1_025);
    assert_number(&text(&program), 3);
    program[1_024] = "write i64".to_string();
    assert_number(&text(&program), 2);
    let mut program = lines(100_000);
    assert_number(&text(&program), 3);
    program[99_999] = "write i64".to_string();
    assert_number(&text(&program), 2);
}

#[test]
fn an_empty_line_is_refused_2() {
    for text in
        ["\n", "\n\n", "\nread i0\nwrite i0\n", "read i0\n\nwrite i0\n", "read i0\nwrite i0\n\n"]
    {
        assert_number(text.as_bytes(), 2);
    }
}

#[test]
fn a_last_line_without_byte_10_is_refused_2() {
    for text in ["r", "skip", "read i0", "read i0\nwrite i0", "read i0\nskip\nwrite i0"] {
        assert_number(text.as_bytes(), 2);
    }
    for n in [256, 1_024, 1_025, 1_100] {
        let mut program = text(&lines(n));
        program.pop();
        assert_number(&program, 2);
    }
}

#[test]
fn the_text_ends_at_its_length() {
    // The bytes that follow in memory would make each beginning of P a program.
    let ends: Vec<usize> = (0..P.len()).filter(|&k| P.as_bytes()[k] == 10).map(|k| k + 1).collect();
    for length in 0..=P.len() {
        let expected = match ends.iter().position(|&end| end == length) {
            None if length == 0 => 3,
            None => 2,
            Some(0) => 3,
            Some(7) => 0,
            Some(_) => 4,
        };
        assert_number(&P.as_bytes()[..length], expected);
    }
}

#[test]
fn the_longest_program_is_taken() {
    let mut program = vec!["i63 := -2147483648 + -2147483648"; 1_024];
    program[0] = "read i63";
    program[1_023] = "write i63";
    assert_eq!(program[1].len(), 32);
    let program = text(&program);
    assert_eq!(program.len(), 33_745);
    // -2147483648 twice is -2^32.
    assert_eq!(run(&program, &given(), 5, 1_024), ended_with(0, 1_024, &[(63, 0)]));
    assert_eq!(run(&program, &given(), 5, 1_023), spent(1_024, given_but(&[(63, 0)])));
}

#[test]
fn the_longest_program_without_signs_is_taken() {
    let mut program = vec!["i63 := 2147483647 + 2147483647"; 1_024];
    program[0] = "read i63";
    program[1_023] = "write i63";
    let program = text(&program);
    assert_eq!(program.len(), 31_701);
    // 2147483647 twice is 2^32 - 2.
    assert_eq!(run(&program, &given(), 5, 1_024), ended_with(-2, 1_024, &[(63, MINUS_2)]));
}

// Spelling

/// Programs with a variable in each place that takes one, spelled V.
const VARIABLE_PLACES: [&str; 7] = [
    "read V\nwrite i0\n",
    "read i0\nwrite V\n",
    "read i0\nV := 1\nwrite i0\n",
    "read i0\ni0 := V\nwrite i0\n",
    "read i0\ni0 := V + 1\nwrite i0\n",
    "read i0\ni0 := 1 + V\nwrite i0\n",
    "read i0\nif V goto 2 else 3\nwrite i0\n",
];

/// Programs with a constant in each place that takes one, spelled C.
const CONSTANT_PLACES: [&str; 4] = [
    "read i0\ni0 := C\nwrite i0\n",
    "read i0\ni0 := C + i0\nwrite i0\n",
    "read i0\ni0 := i0 + C\nwrite i0\n",
    "read i0\ni0 := C * C\nwrite i0\n",
];

/// Programs with a target in each place that takes one, spelled T. They have 4 statements.
const TARGET_PLACES: [&str; 4] = [
    "read i0\nif i0 goto T else 3\nskip\nwrite i0\n",
    "read i0\nif i0 goto 3 else T\nskip\nwrite i0\n",
    "read i0\nskip\nif i0 goto T else 2\nwrite i0\n",
    "read i0\nskip\nif i0 goto T else T\nwrite i0\n",
];

fn assert_number_at(places: &[&str], mark: &str, spelling: &str, expected: u8) {
    for place in places {
        assert_number(place.replace(mark, spelling).as_bytes(), expected);
    }
}

#[test]
fn variables_i0_to_i63_are_taken() {
    for x in 0..64 {
        assert_number_at(&VARIABLE_PLACES, "V", &format!("i{}", x), 0);
    }
}

#[test]
fn other_variables_are_refused_2() {
    #[rustfmt::skip]
    let wrong = [
        "i64", "i65", "i69", "i70", "i80", "i99", "i100", "i630", "i256", "i319", "i4294967296",
        "i18446744073709551616", "i00", "i01", "i063", "i000", "i", "I0", "j0", "x", "ii0", "i0i",
        "i 0", "i-1", "i+1", "i0x", "0i", "i١", "",
    ];
    for spelling in wrong {
        assert_number_at(&VARIABLE_PLACES, "V", spelling, 2);
    }
    assert_number_at(&VARIABLE_PLACES, "V", &format!("i{}", "1".repeat(5000)), 2);
}

#[test]
fn a_constant_in_place_of_a_variable_is_refused_2() {
    // Right sides take both.
    for place in [0, 1, 2, 6] {
        assert_number_at(&VARIABLE_PLACES[place..=place], "V", "7", 2);
    }
    assert_number_at(&VARIABLE_PLACES[3..6], "V", "7", 0);
}

#[test]
fn constants_0_to_2147483647_are_taken() {
    for constant in ["0", "1", "9", "10", "99", "100", "1000000000", "2147483646", "2147483647"] {
        assert_number_at(&CONSTANT_PLACES, "C", constant, 0);
    }
    let answer = run_lines(&["read i0", "i0 := 2147483647", "write i0"], 5, 9);
    assert_eq!(answer, ended(2147483647, 3));
}

#[test]
fn constants_over_2147483647_are_refused_2() {
    let wrong = [
        "2147483648",
        "2147483649",
        "2147483650",
        "2999999999",
        "3000000000",
        "4294967295",
        "4294967296",
        "4294967297",
        "9999999999",
        "10000000000",
        "21474836470",
        "9223372036854775807",
        "9223372036854775808",
        "18446744073709551615",
        "18446744073709551616",
        "18446744073709551617",
        "340282366920938463463374607431768211457",
    ];
    for constant in wrong {
        assert_number_at(&CONSTANT_PLACES, "C", constant, 2);
    }
}

#[test]
fn strings_of_thousands_of_digits_are_refused_2() {
    for digits in [11, 20, 21, 40, 1000, 5000, 100_000] {
        for digit in ["0", "1", "9"] {
            let constant = digit.repeat(digits);
            assert_number_at(&CONSTANT_PLACES, "C", &constant, 2);
            assert_number_at(&TARGET_PLACES, "T", &constant, 2);
        }
        // 2^64 with zeros after it.
        let constant = format!("18446744073709551616{}", "0".repeat(digits));
        assert_number_at(&CONSTANT_PLACES, "C", &constant, 2);
    }
}

#[test]
fn other_spellings_of_numbers_are_refused_2() {
    #[rustfmt::skip]
    let wrong = [
        "00", "01", "007", "0000000000", "02147483647", "-0", "+1", "1_000", "1,000", "1.0",
        "0x10", "1e3", "1 0", " 1", "1 ", "٣", "a", "",
    ];
    for number in wrong {
        assert_number_at(&CONSTANT_PLACES, "C", number, 2);
        assert_number_at(&TARGET_PLACES, "T", number, 2);
    }
}

#[test]
fn constants_down_to_the_least_are_taken() {
    #[rustfmt::skip]
    let constants = [
        "-1", "-2", "-9", "-10", "-40", "-99", "-100", "-1000000000", "-2147483639", "-2147483640",
        "-2147483647", "-2147483648",
    ];
    for constant in constants {
        assert_number_at(&CONSTANT_PLACES, "C", constant, 0);
        let expected = constant.parse().unwrap();
        let answer = run_lines(&["read i0", &format!("i0 := {}", constant), "write i0"], 5, 9);
        assert_eq!(answer, ended(expected, 3));
        // An input of these bits equals it.
        let equal = format!("i0 := {} = i0", constant);
        let answer = run_lines(&["read i0", &equal, "write i0"], expected as u32, 9);
        assert_eq!(answer, ended(1, 3));
    }
}

#[test]
fn constants_under_the_least_are_refused_2() {
    let wrong = [
        "-2147483649",
        "-2147483650",
        "-2147483658",
        "-2999999999",
        "-3000000000",
        "-4294967295",
        "-4294967296",
        "-4294967297",
        "-4294967336",
        "-9999999999",
        "-10000000000",
        "-21474836480",
        "-21474836481",
        "-21474836470",
        "-9223372036854775808",
        "-18446744073709551615",
        "-18446744073709551616",
        "-18446744073709551617",
        "-340282366920938463463374607431768211457",
    ];
    for constant in wrong {
        assert_number_at(&CONSTANT_PLACES, "C", constant, 2);
    }
    for digits in [11, 20, 21, 40, 1000, 100_000] {
        for digit in ["0", "1", "9"] {
            assert_number_at(&CONSTANT_PLACES, "C", &format!("-{}", digit.repeat(digits)), 2);
        }
    }
}

#[test]
fn other_signs_are_refused_2() {
    #[rustfmt::skip]
    let wrong = [
        "-0", "-00", "-01", "-007", "-0000000000", "-02147483648", "--1", "---1", "- 40", "-  40",
        "-\t40", "+1", "+0", "+2147483647", "+-1", "-+1", "-", "--", "+", "1-", "-1-", "4-0", "-i0",
        "-i", "-x", "-1_000", "-1,000", "-1.0", "-0x10", "-1e3", "-1 0", " -1", "-1 ", "-٣", "−1",
        "(-1)", "~1", "!1", "-\0", "-\x001",
    ];
    for constant in wrong {
        assert_number_at(&CONSTANT_PLACES, "C", constant, 2);
    }
    #[rustfmt::skip]
    let right_sides = [
        "i0 -40", "i0 --40", "i0 - - 40", "i0 - --40", "i0- 40", "i0-40", "i0- -40", "0 -40",
        "-40 -40", "-1 -1", "-1 --1", "-1- -1", "-1 - -1 - -1", "-1 -", "-1 - ", "-1 - -",
        "- 1 - 1", "i0 - -0", "-0 - i0", "i0 + -", "- + i0", "i0 - -i0", "-i0 - i0",
    ];
    for right in right_sides {
        assert_number(&text(&["read i0", &format!("i1 := {}", right), "write i0"]), 2);
    }
}

#[test]
fn a_minus_before_a_constant_below_zero_is_taken() {
    for (right, expected) in [
        ("i0 - -40", 42),
        ("-1 - -1", 0),
        ("-40 - 2", -42),
        ("-40", -40),
        ("0 - 40", -40),
        ("0 - -40", 40),
        ("i0 * -1", -2),
        ("-3 < -2", 1),
        ("-2 < -3", 0),
        ("-1 < 0", 1),
        ("-1 = 1", 0),
        ("0 - -2147483648", -2147483648),
    ] {
        let line = format!("i1 := {}", right);
        assert_eq!(
            run_lines(&["read i0", &line, "write i1"], 2, 3),
            ended(expected, 3),
            "{}",
            line
        );
    }
}

#[test]
fn input_2_less_minus_40_ends_with_42_after_3() {
    let answer = run_lines(&["read i0", "i1 := i0 - -40", "write i1"], 2, 1_000_000);
    assert_eq!(answer, ended(42, 3));
}

#[test]
fn the_least_constant_is_below_the_largest_and_wraps() {
    let program = [
        "read i0",
        "i1 := -2147483648 < 2147483647",
        // -2147483648 - 1 is 2147483647.
        "i2 := -2147483648 - 1",
        "i3 := i1 + i2",
        "write i3",
    ];
    assert_eq!(run_lines(&program, 2, 1_000_000), ended(-2147483648, 5));
    let left = given_but(&[(0, 2), (1, 1), (2, 2147483647), (3, 1 << 31)]);
    assert_eq!(run_lines(&program, 2, 4), spent(5, left));
}

#[test]
fn targets_take_no_sign() {
    for target in ["-0", "-1", "-2", "-3", "-4", "+2", "--2", "-", "-2147483648", "-4294967294"] {
        assert_number_at(&TARGET_PLACES, "T", target, 2);
    }
    assert_number(&text(&["read i0", "if i0 goto -2 else 3", "write i0"]), 2);
}

/// A program with each kind of statement, and damaged forms of each of its lines.
#[rustfmt::skip]
const KINDS: [(&str, &[&str]); 6] = [
    (
        "read i0",
        &[
            "", "r", "read", "read ", "readi0", "read  i0", "read i", "read 0", "ead i0", "rea i0",
            "rread i0", "reead i0", "read i00", "read i0 ", " read i0", "read i0i", "read\ti0",
            "read i0\t", "READ i0", "Read i0", "read I0", "read i0\r", "read i0 i1", "read i0;",
            "read i0,i1", "read := i0", "read(i0)", "read\0i0", "read i0\0", "\0read i0", "read é",
            "\u{feff}read i0", "read i0 + 1", "skipread i0",
        ],
    ),
    (
        "i1 := i0",
        &[
            "i1", "i1 ", "i1 :=", "i1 := ", "i1 := i", "i := i0", "1 := i0", "i1 : = i0",
            "i1 = i0", "i1 : i0", "i1 =: i0", "i1 :== i0", "i1 ::= i0", "i1 == i0", "i1:= i0",
            "i1 :=i0", "i1:=i0", "i1  := i0", "i1 :=  i0", "i1 := i0 ", " i1 := i0", "i1\t:= i0",
            "i1 :=\ti0", "I1 := i0", "i1 := I0", "i1 := i0\r", "i1 := i0\0", "i1 := \0i0",
            "i1 := i0 i0", "i1 := (i0)", "i1 := -i0", "i1 := !i0", "i1 := i0;", "i1, i2 := i0",
            "i1 := i2 := i0", "i1 := skip", "i1 := é", "i1 ≔ i0", "let i1 := i0",
        ],
    ),
    (
        "i2 := i1 + 7",
        &[
            "i2 := i1 +", "i2 := i1 + ", "i2 := + 7", "i2 :=  + 7", "i2 := i1 7", "i2 := i1  7",
            "i2 := i1+7", "i2 := i1 +7", "i2 := i1+ 7", "i2 := i1  + 7", "i2 := i1 +  7",
            "i2 := i1 + 7 ", "i2 := i1 + 7\t", "i2 := i1\t+ 7", "i2 := i1 ++ 7", "i2 := i1 + + 7",
            "i2 := i1 + 7 + 1", "i2 := i1 + 7 +", "i2 := i1 + --7", "i2 := i1 <= 7", "i2 := i1 == 7",
            "i2 := i1 > 7", "i2 := i1 % 7", "i2 := i1 & 7", "i2 := i1 ^ 7", "i2 := i1 << 7",
            "i2 := i1 , 7", "i2 := i1 . 7", "i2 := i1 x 7", "i2 := i1 plus 7", "i2 : = i1 + 7",
            "i2 = i1 + 7", "i2 : i1 + 7", "i2 := i1 + 7\r", "i2 := i1 + 7\0", "i2 := i1 \0 7",
            "i2 := i1 × 7", "i2 := i1 − 7", "i2 + 7 := i1", "7 := i1 + i2", "i2 := i1 + I1",
        ],
    ),
    (
        "if i2 goto 5 else 6",
        &[
            "if", "if ", "if i2", "if i2 goto", "if i2 goto 5", "if i2 goto 5 ", "if i2 goto 5 else",
            "if i2 goto 5 else ", "if i2 goto else 6", "if i2 goto  else 6", "if i2 5 else 6",
            "if i2 goto 5 6", "if goto 5 else 6", "if  goto 5 else 6", "i2 goto 5 else 6",
            "f i2 goto 5 else 6", "iif i2 goto 5 else 6", "if i2 got 5 else 6",
            "if i2 gotoo 5 else 6", "if i2 go to 5 else 6", "if i2 goto 5 els 6",
            "if i2 goto 5 elsee 6", "ifi2 goto 5 else 6", "if i2goto 5 else 6",
            "if i2 goto5 else 6", "if i2 goto 5else 6", "if i2 goto 5 else6", "if  i2 goto 5 else 6",
            "if i2  goto 5 else 6", "if i2 goto  5 else 6", "if i2 goto 5  else 6",
            "if i2 goto 5 else  6", "if i2 goto 5 else 6 ", " if i2 goto 5 else 6",
            "if\ti2 goto 5 else 6", "if i2 goto 5\telse 6", "IF i2 goto 5 else 6",
            "if i2 GOTO 5 else 6", "if i2 goto 5 ELSE 6", "If i2 Goto 5 Else 6",
            "if I2 goto 5 else 6", "if i2 goto 5 else 6\r", "if i2 goto 5 else 6\0",
            "if i2 goto i5 else 6", "if i2 goto 5 else i6", "if 7 goto 5 else 6",
            "if !i2 goto 5 else 6", "if i2 + 1 goto 5 else 6", "if i2 = 0 goto 5 else 6",
            "if i2 goto -5 else 6", "if i2 goto 5 else 6 else 6", "if i2 goto 5 goto 6",
            "if i2 else 5 goto 6", "if i2 then goto 5 else 6", "if i2 goto é else 6",
        ],
    ),
    (
        "skip",
        &[
            "s", "ski", "kip", "sip", "skp", "sskip", "skkip", "skiip", "skipp", "skip ", " skip",
            "  skip", "skip skip", "skipskip", "skip\t", "\tskip", "SKIP", "Skip", "skiP", "skip\r",
            "skip\0", "\0skip", "\0", "skip;", "skip i0", "nop", "é", "// skip", "#",
        ],
    ),
    (
        "write i2",
        &[
            "", "w", "write", "write ", "writei2", "write  i2", "write i", "write 2", "rite i2",
            "writ i2", "wwrite i2", "writee i2", "write i2 ", " write i2", "write\ti2", "WRITE i2",
            "Write i2", "write I2", "write i2\r", "write i2 i2", "write 7", "write i2 + 1",
            "write -i2", "write i2;", "write i2\0", "write\0i2", "write é", "write := i2",
            "write i2write i2",
        ],
    ),
];

#[test]
fn a_damaged_line_of_any_kind_is_refused_2() {
    let good = KINDS.map(|(line, _)| line);
    assert_number(&text(&good), 0);
    for (k, (_, damaged)) in KINDS.iter().enumerate() {
        for line in *damaged {
            let mut program = good;
            program[k] = line;
            assert_number(&text(&program), 2);
        }
    }
}

#[test]
fn bytes_above_127_are_refused_2() {
    let good = text(&KINDS.map(|(line, _)| line));
    for at in 0..=good.len() {
        for byte in [0x80, 0xa0, 0xc2, 0xe9, 0xff] {
            let mut damaged = good.clone();
            damaged.insert(at, byte);
            assert_number(&damaged, 2);
        }
        // The byte that stands there, with its high bit set.
        if at < good.len() {
            let mut damaged = good.clone();
            damaged[at] |= 0x80;
            assert_number(&damaged, 2);
        }
    }
}

#[test]
fn byte_13_before_byte_10_is_refused_2() {
    assert_number(b"read i0\nskip\nwrite i0\n", 0);
    assert_number(b"read i0\r\nskip\nwrite i0\n", 2);
    assert_number(b"read i0\nskip\r\nwrite i0\n", 2);
    assert_number(b"read i0\nskip\nwrite i0\r\n", 2);
    assert_number(b"read i0\rskip\rwrite i0\r", 2);
}

/// A program of three lines, one of them the given line, in a place for its kind.
fn holding(line: &str) -> Vec<u8> {
    match line {
        "read i0" => text(&[line, "skip", "write i0"]),
        "write i0" => text(&["read i0", "skip", line]),
        _ => text(&["read i0", line, "write i0"]),
    }
}

/// Lines in which no byte can be doubled to give another statement, bar digits of targets.
const PLAIN: [&str; 6] =
    ["read i0", "write i0", "i0 := i0", "i0 := i0 + 0", "if i0 goto 2 else 3", "skip"];

/// Where the line begins in the text that holds it.
fn start_of(line: &str) -> usize {
    let program = String::from_utf8(holding(line)).unwrap();
    program.find(line).unwrap()
}

#[test]
fn a_dropped_byte_is_refused_2_unless_a_statement_is_left() {
    for line in PLAIN {
        for at in 0..line.len() {
            let mut damaged = holding(line);
            damaged.remove(start_of(line) + at);
            // `i0 := i0` without its second `i` is `i0 := 0`.
            let expected = if line.starts_with("i0 := i0") && at == 6 { 0 } else { 2 };
            assert_number(&damaged, expected);
        }
    }
}

#[test]
fn a_doubled_byte_is_refused_2_unless_it_stands_in_a_target() {
    for line in PLAIN {
        for (at, &byte) in line.as_bytes().iter().enumerate() {
            let mut damaged = holding(line);
            damaged.insert(start_of(line) + at, byte);
            // Targets 22 and 33 are spelled, and lie outside the program.
            let expected = if matches!(byte, b'2' | b'3') { 5 } else { 2 };
            assert_number(&damaged, expected);
        }
    }
}

// Places and targets

#[test]
fn read_missing_or_elsewhere_is_refused_4() {
    let programs: [&[&str]; 10] = [
        &["skip", "write i0"],
        &["i0 := 1", "write i0"],
        &["if i0 goto 2 else 2", "write i0"],
        &["write i0", "write i0"],
        &["write i0", "read i0"],
        &["skip", "read i0", "write i0"],
        &["read i0", "read i0", "write i0"],
        &["read i0", "skip", "read i1", "write i0"],
        &["read i0", "read i1"],
        &["skip", "read i0", "skip", "write i0"],
    ];
    for program in programs {
        assert_number(&text(program), 4);
    }
}

#[test]
fn write_missing_or_elsewhere_is_refused_4() {
    let programs: [&[&str]; 9] = [
        &["read i0", "skip"],
        &["read i0", "i0 := 1"],
        &["read i0", "skip", "if i0 goto 2 else 3"],
        &["read i0", "write i0", "skip"],
        &["read i0", "write i0", "write i0"],
        &["read i0", "skip", "write i0", "skip", "write i0"],
        &["write i0", "skip"],
        &["skip", "skip"],
        &["skip", "write i0", "skip"],
    ];
    for program in programs {
        assert_number(&text(program), 4);
    }
}

#[test]
fn the_1024th_line_must_be_write() {
    let mut program = lines(1_024);
    program[1_023] = "skip".to_string();
    assert_number(&text(&program), 4);
    program[1_023] = "read i0".to_string();
    assert_number(&text(&program), 4);
    program[1_022] = "write i0".to_string();
    program[1_023] = "write i0".to_string();
    assert_number(&text(&program), 4);
}

#[test]
fn targets_2_to_n_are_taken() {
    for target in ["2", "3", "4"] {
        assert_number_at(&TARGET_PLACES, "T", target, 0);
    }
    let mut program = lines(1_024);
    for line in ["if i0 goto 1024 else 2", "if i63 goto 1024 else 1024"] {
        program[1] = line.to_string();
        assert_eq!(run(&text(&program), &given(), 5, 9), ended(5, 3));
    }
}

#[test]
fn targets_outside_2_to_n_are_refused_5() {
    // 258 and 65538 are 2 by their low bits.
    for target in
        ["0", "1", "5", "6", "255", "256", "257", "258", "65538", "2147483646", "2147483647"]
    {
        assert_number_at(&TARGET_PLACES, "T", target, 5);
    }
    for n in [256, 257, 1_024] {
        let mut program = lines(n);
        for (target, expected) in
            [(0, 5), (1, 5), (2, 0), (n - 1, 0), (n, 0), (n + 1, 5), (n + 2, 5)]
        {
            program[n - 2] = format!("if i0 goto {} else 2", target);
            assert_number(&text(&program), expected);
            program[n - 2] = format!("if i0 goto 2 else {}", target);
            assert_number(&text(&program), expected);
        }
    }
}

#[test]
fn targets_over_2147483647_are_refused_2() {
    for target in ["2147483648", "4294967295", "4294967298", "9999999999", "18446744073709551618"] {
        assert_number_at(&TARGET_PLACES, "T", target, 2);
    }
}

// Order of refusals

#[test]
fn refusal_4_comes_before_5_whatever_the_line_order() {
    let programs: [&[&str]; 7] = [
        &["read i0", "if i0 goto 9 else 9", "read i0", "write i0"],
        &["read i0", "read i0", "if i0 goto 9 else 9", "write i0"],
        &["skip", "if i0 goto 0 else 0", "write i0"],
        &["read i0", "if i0 goto 0 else 0", "skip"],
        &["if i0 goto 9 else 9", "write i0"],
        &["read i0", "if i0 goto 9 else 9"],
        &["read i0", "write i0", "if i0 goto 9 else 1", "write i0"],
    ];
    for program in programs {
        assert_number(&text(program), 4);
    }
}

#[test]
fn refusal_3_comes_before_4_and_5() {
    assert_number(&text(&["write i0"]), 3);
    assert_number(&text(&["if i0 goto 0 else 9"]), 3);
    assert_number(&text(&vec!["skip"; 1_025]), 3);
    assert_number(&text(&vec!["if i0 goto 0 else 1"; 1_025]), 3);
}

#[test]
fn refusal_2_comes_before_3_4_and_5_whatever_the_line_order() {
    assert_number(&text(&["skop"]), 2);
    assert_number(&text(&["skip", "skop"]), 2);
    assert_number(&text(&["skop", "skip"]), 2);
    assert_number(&text(&["read i0", "if i0 goto 0 else 0", "write i64"]), 2);
    assert_number(&text(&["read i64", "if i0 goto 0 else 0", "write i0"]), 2);
    assert_number(&text(&["read i0", "if i0 goto 0 else 2147483648", "write i0"]), 2);
}

// Values

/// Holds an operator to rows of left operand, right operand and value, once for each way to spell
/// the operands: as variables and as constants.
fn operator_gives(operator: &str, rows: &[(u32, u32, i32)]) {
    for &(a, b, expected) in rows {
        let values = given_but(&[(1, a), (2, b)]);
        let spellings = |v: u32, variable: &str| [variable.to_string(), (v as i32).to_string()];
        for left in spellings(a, "i1") {
            for right in spellings(b, "i2") {
                // The last two write over an operand.
                for x in ["i3", "i1", "i2"] {
                    let line = format!("{} := {} {} {}", x, left, operator, right);
                    let program = text(&["read i0", &line, &format!("write {}", x)]);
                    assert_eq!(run(&program, &values, 5, 3), ended(expected, 3), "{}", line);
                }
            }
        }
    }
}

/// -2147483648 and -1, -2 and so on, as bits.
const LEAST: u32 = 1 << 31;
const MINUS_1: u32 = u32::MAX;
const MINUS_2: u32 = u32::MAX - 1;
const MOST: u32 = i32::MAX as u32;

#[test]
fn plus_keeps_the_low_32_bits() {
    operator_gives(
        "+",
        &[
            (0, 0, 0),
            (5, 7, 12),
            (MOST, 1, i32::MIN),
            (1, MOST, i32::MIN),
            (MOST, MOST, -2),
            (MINUS_1, 1, 0),
            (MINUS_1, MINUS_1, -2),
            (LEAST, LEAST, 0),
            (LEAST, MINUS_1, i32::MAX),
            (LEAST, MOST, -1),
            (65535, 1, 65536),
        ],
    );
}

#[test]
fn minus_keeps_the_low_32_bits() {
    operator_gives(
        "-",
        &[
            (0, 0, 0),
            (7, 5, 2),
            (5, 7, -2),
            (0, 1, -1),
            (0, LEAST, i32::MIN),
            (LEAST, 1, i32::MAX),
            (MOST, MINUS_1, i32::MIN),
            (0, MOST, -2147483647),
            (MINUS_1, MINUS_1, 0),
            (MINUS_1, LEAST, i32::MAX),
            (65536, 1, 65535),
        ],
    );
}

#[test]
fn times_keeps_the_low_32_bits() {
    operator_gives(
        "*",
        &[
            (0, 5, 0),
            (3, 5, 15),
            (1, MOST, i32::MAX),
            (65536, 65536, 0),
            // 2^32 - 1
            (65535, 65537, -1),
            // 2147395600 fits; 2147488281 is 2^32 - 2147479015.
            (46340, 46340, 2147395600),
            (46341, 46341, -2147479015),
            (MINUS_1, MINUS_1, 1),
            (MINUS_1, 7, -7),
            (MINUS_1, MOST, -2147483647),
            (LEAST, MINUS_1, i32::MIN),
            (LEAST, 2, 0),
            (LEAST, LEAST, 0),
            (MOST, 2, -2),
            // (2^31 - 1)^2 is 2^62 - 2^32 + 1.
            (MOST, MOST, 1),
            // 121932631112635269
            (123456789, 987654321, -67153019),
        ],
    );
}

#[test]
fn less_compares_as_signed() {
    operator_gives(
        "<",
        &[
            (0, 0, 0),
            (1, 2, 1),
            (2, 1, 0),
            (MINUS_1, 0, 1),
            (0, MINUS_1, 0),
            (MINUS_2, MINUS_1, 1),
            (MINUS_1, MINUS_2, 0),
            (LEAST, MOST, 1),
            (MOST, LEAST, 0),
            (LEAST, LEAST, 0),
            (LEAST, LEAST + 1, 1),
            (LEAST + 1, LEAST, 0),
            (LEAST, 0, 1),
            (0, LEAST, 0),
            (MOST - 1, MOST, 1),
            (MOST, MOST, 0),
            (MINUS_1, LEAST, 0),
        ],
    );
}

#[test]
fn equal_compares_as_bits() {
    operator_gives(
        "=",
        &[
            (0, 0, 1),
            (7, 7, 1),
            (7, 8, 0),
            (MINUS_1, MINUS_1, 1),
            (MINUS_1, MOST, 0),
            (LEAST, LEAST, 1),
            // Alike in their low 31, 16 and 8 bits.
            (LEAST, 0, 0),
            (65537, 1, 0),
            (257, 1, 0),
        ],
    );
}

#[test]
fn a_sum_past_the_end_is_below_0() {
    let answer = run_lines(&["read i0", "i1 := 2147483647 + 1", "i2 := i1 < 0", "write i2"], 5, 9);
    assert_eq!(answer, ended(1, 4));
}

#[test]
fn an_operand_may_be_the_assigned_variable() {
    for (right, expected) in [
        ("i0", 21),
        ("i0 + i0", 42),
        ("i0 - i0", 0),
        ("i0 * i0", 441),
        ("i0 < i0", 0),
        ("i0 = i0", 1),
        ("1 - i0", -20),
    ] {
        let line = format!("i0 := {}", right);
        let answer = run_lines(&["read i0", &line, "write i0"], 21, 3);
        assert_eq!(answer, ended(expected, 3), "{}", line);
    }
}

#[test]
fn the_written_value_is_signed() {
    for input in [0, 1, MOST, LEAST, LEAST + 1, MINUS_2, MINUS_1] {
        let answer = run_lines(&["read i4", "write i4"], input, 2);
        assert_eq!(answer, ended(input as i32, 2));
    }
}

// Statements

#[test]
fn read_stores_the_input_and_keeps_the_other_values() {
    for x in 0..64 {
        let first = format!("read i{}", x);
        for input in [0, 5, MINUS_1] {
            let left = given_but(&[(x, input)]);
            assert_eq!(run_lines(&[&first, "write i0"], input, 1), spent(2, left));
        }
    }
}

#[test]
fn write_writes_its_own_variable() {
    for x in 0..64 {
        for y in 0..64 {
            let program = [format!("read i{}", x), format!("write i{}", y)];
            let expected = if x == y { 5 } else { 1000 + y };
            let answer = run(&text(&program), &given(), 5, 2);
            assert_eq!(answer, ended_with(expected, 2, &[(x as usize, 5)]), "{:?}", program);
        }
    }
}

#[test]
fn an_assignment_changes_its_own_variable_alone() {
    for x in 0..64 {
        let line = format!("i{} := 77", x);
        let left = given_but(&[(0, 5), (x, 77)]);
        assert_eq!(run_lines(&["read i0", &line, "write i0"], 5, 2), spent(3, left));
        for y in 1..64 {
            let line = format!("i{} := i{} + 1", x, y);
            let left = given_but(&[(0, 5), (x, 1001 + y)]);
            let answer = run_lines(&["read i0", &line, "write i0"], 5, 2);
            assert_eq!(answer, spent(3, left), "{}", line);
        }
    }
}

#[test]
fn skip_changes_no_value() {
    let answer = run_lines(&["read i0", "skip", "skip", "write i0"], 5, 3);
    assert_eq!(answer, spent(4, given_but(&[(0, 5)])));
}

#[test]
fn if_goes_to_n_where_its_variable_is_not_0_else_to_m() {
    let program =
        ["read i0", "if i0 goto 3 else 5", "i1 := 1", "if i1 goto 6 else 6", "i1 := 2", "write i1"];
    // Bits of every byte count.
    for input in [1, 2, 256, 65536, 1 << 24, MOST, LEAST, MINUS_1] {
        assert_eq!(run_lines(&program, input, 9), ended(1, 5));
    }
    assert_eq!(run_lines(&program, 0, 9), ended(2, 4));
}

#[test]
fn if_changes_no_value() {
    let program = ["read i0", "if i7 goto 3 else 3", "write i0"];
    assert_eq!(run_lines(&program, 5, 2), spent(3, given_but(&[(0, 5)])));
}

#[test]
fn if_may_go_to_the_next_statement_both_ways() {
    for input in [0, 1] {
        let program = ["read i0", "if i0 goto 3 else 3", "i0 := i0 + 8", "write i0"];
        assert_eq!(run_lines(&program, input, 9), ended(input as i32 + 8, 4));
    }
}

#[test]
fn if_may_go_to_itself_and_the_run_is_spent() {
    let program = ["read i0", "if i0 goto 2 else 3", "write i0"];
    for budget in [1, 2, 3, 4, 5, 100, 999_999, 1_000_000] {
        let left = given_but(&[(0, 1)]);
        assert_eq!(run_lines(&program, 1, budget), spent(2, left));
    }
    assert_eq!(run_lines(&program, 0, 1_000_000), ended(0, 3));
    let program = ["read i0", "if i0 goto 3 else 2", "write i0"];
    assert_eq!(run_lines(&program, 0, 1_000_000), spent(2, given_but(&[(0, 0)])));
    assert_eq!(run_lines(&program, 1, 1_000_000), ended(1, 3));
}

#[test]
fn an_endless_loop_is_spent_after_exactly_its_budget() {
    // Step 2 and every second step after it add 1 to i1.
    let program = ["read i0", "i1 := i1 + 1", "if i2 goto 2 else 2", "write i1"];
    for budget in (1..=50).chain([999_999, 1_000_000]) {
        let left = given_but(&[(0, 5), (1, 1001 + budget / 2)]);
        let statement = if budget % 2 == 0 { 3 } else { 2 };
        assert_eq!(run_lines(&program, 5, budget), spent(statement, left));
    }
}

#[test]
fn statements_that_no_step_reaches_are_not_performed() {
    let program = ["read i0", "if i0 goto 4 else 4", "i0 := 9", "write i0"];
    assert_eq!(run_lines(&program, 5, 9), ended(5, 3));
}

// Division

#[test]
fn quotients_are_signed_and_rounded_toward_zero() {
    const MINUS_7: u32 = -7_i32 as u32;
    operator_gives(
        "/",
        &[
            (7, 2, 3),
            (MINUS_7, 2, -3),
            (7, MINUS_2, -3),
            (MINUS_7, MINUS_2, 3),
            (MINUS_1, 2, 0),
            (1, MINUS_2, 0),
            (8, 2, 4),
            (MINUS_7, 7, -1),
            (0, MINUS_7, 0),
            (0, LEAST, 0),
            (MINUS_1, MINUS_1, 1),
            (2, 3, 0),
            (100, 7, 14),
            (65536, 256, 256),
            (1_000_000_007, 10_007, 99_930),
        ],
    );
}

#[test]
fn quotients_at_the_ends_of_the_range() {
    operator_gives(
        "/",
        &[
            (LEAST, MINUS_1, i32::MIN),
            (LEAST, 1, i32::MIN),
            (LEAST, MOST, -1),
            (LEAST, LEAST, 1),
            (LEAST, 2, -1_073_741_824),
            (LEAST, MINUS_2, 1_073_741_824),
            (LEAST + 1, MINUS_1, i32::MAX),
            (LEAST + 1, LEAST, 0),
            (MOST, MINUS_1, -2_147_483_647),
            (MOST, 1, i32::MAX),
            (MOST, MOST, 1),
            (MOST, LEAST, 0),
            (MOST, 2, 1_073_741_823),
            (1, LEAST, 0),
            (1, MOST, 0),
            (MINUS_1, LEAST, 0),
            (MINUS_1, MOST, 0),
        ],
    );
}

#[test]
fn a_slash_is_taken_where_the_other_operators_are() {
    for right in ["i0 / i1", "1 / i1", "i0 / 1", "7 / 2", "i0 / 0", "-7 / -2", "i63 / i63"] {
        assert_number(&text(&["read i0", &format!("i1 := {}", right), "write i0"]), 0);
    }
    // The longest statement.
    let mut program = vec!["i63 := -2147483648 / -2147483648"; 1_024];
    program[0] = "read i63";
    program[1_023] = "write i63";
    assert_eq!(run(&text(&program), &given(), 5, 1_024), ended_with(1, 1_024, &[(63, 1)]));
}

#[test]
fn other_slashes_are_refused_2() {
    #[rustfmt::skip]
    let right_sides = [
        "i0 / i1 / i2", "i0/i1", "/ i1", "i0 /i1", "i0/ i1", "/i1", "/", " / ", " / i1", "i0 /",
        "i0 / ", "i0 // i1", "i0 / / i1", "i0  / i1", "i0 /  i1", "i0 / i1 ", "i0 / i1 /",
        "i0 / i1 + i2", "i0 + i1 / i2", "i0 / -0", "i0 / +1", "i0 / - 1", "i0 / -i1", "i0 / i64",
        "i0 / 01", "i0 / 2147483648", "i0 / -2147483649", "i0 \\ i1", "i0 % i1", "i0 : i1",
        "i0 ÷ i1", "i0 ∕ i1", "(i0 / i1)", "i0\t/ i1", "i0 /\ti1", "i0 \0 i1", "i0 / i1\r",
    ];
    for right in right_sides {
        assert_number(&text(&["read i0", &format!("i1 := {}", right), "write i0"]), 2);
    }
    for line in ["i1 / i0 := 2", "i1 /= 2", "read i0 / 2", "if i0 / 2 goto 2 else 3", "skip / 2"] {
        assert_number(&text(&["read i0", line, "write i0"]), 2);
    }
}

#[test]
fn a_zero_divisor_is_a_fault() {
    for a in [5, 0, 1, MINUS_1, LEAST, MOST] {
        let values = given_but(&[(1, a), (2, 0)]);
        for left in ["i1".to_string(), (a as i32).to_string()] {
            for right in ["i2", "0"] {
                let line = format!("i3 := {} / {}", left, right);
                let program = text(&["read i0", &line, "write i3"]);
                assert_eq!(run(&program, &values, 7, 9), fault(2, 2), "{}", line);
            }
        }
    }
    // The dividend, the divisor and the assigned variable may be one.
    assert_eq!(run_lines(&["read i0", "i0 := i0 / i0", "write i0"], 0, 9), fault(2, 2));
    assert_eq!(run_lines(&["read i0", "i0 := i0 / i0", "write i0"], LEAST, 9), ended(1, 3));
}

#[test]
fn the_step_that_faults_is_counted() {
    let program = ["read i0", "i1 := 10 / i0", "write i1"];
    assert_eq!(run_lines(&program, 0, 0), spent(1, given()));
    assert_eq!(run_lines(&program, 0, 1), spent(2, given_but(&[(0, 0)])));
    for budget in [2, 3, 4, 1_000_000] {
        assert_eq!(run_lines(&program, 0, budget), fault(2, 2));
    }
    assert_eq!(run_lines(&program, 4, 2), spent(3, given_but(&[(0, 4), (1, 2)])));
    assert_eq!(run_lines(&program, 4, 3), ended(2, 3));
}

#[test]
fn a_fault_may_come_after_any_number_of_steps() {
    // Rounds of three steps, the last division by 0.
    let program = ["read i0", "i1 := 10 / i0", "i0 := i0 - 1", "if i9 goto 2 else 2", "write i1"];
    for input in [0, 1, 2, 7, 100] {
        let steps = 2 + 3 * input;
        assert_eq!(run_lines(&program, input, 1_000_000), fault(2, steps));
        assert_eq!(run_lines(&program, input, steps), fault(2, steps));
        assert!(matches!(
            run_lines(&program, input, steps - 1),
            Ok(Outcome::Spent { statement: 2, .. })
        ));
    }
    // Up to the largest budget: `read`, 249,999 rounds of 4 steps, then `if`, `skip` and the division.
    let program = text(&[
        "read i0",
        "if i0 goto 3 else 6",
        "i0 := i0 - 1",
        "skip",
        "if i1 goto 2 else 2",
        "skip",
        "i0 := i1 / i0",
        "write i0",
    ]);
    assert_eq!(run(&program, &given(), 249_999, 1_000_000), fault(7, 1_000_000));
    assert_eq!(run(&program, &given(), 249_999, 999_999), spent(7, given_but(&[(0, 0)])));
}

#[test]
fn a_fault_is_told_at_the_statement_that_divides() {
    // Any line between the first and the last.
    for n in [2, 3, 128, 255, 256, 257, 1_023] {
        let mut program = lines(1_024);
        program[n - 1] = "i1 := i2 / 0".to_string();
        assert_eq!(run(&text(&program), &given(), 5, 1_100), fault(n as u32, n as u32));
    }
    // The first that a run comes to, whatever stands before it.
    let program = ["read i0", "if i0 goto 4 else 3", "i1 := 1 / 0", "i1 := 2 / 0", "write i1"];
    assert_eq!(run_lines(&program, 0, 9), fault(3, 3));
    assert_eq!(run_lines(&program, 1, 9), fault(4, 3));
}

#[test]
fn a_division_that_no_step_reaches_is_no_fault() {
    let program = ["read i0", "if i0 goto 4 else 4", "i1 := 1 / 0", "write i0"];
    assert_eq!(run_lines(&program, 5, 9), ended(5, 3));
}

// What is kept

#[test]
fn an_ended_run_tells_i24_to_i31_in_order() {
    let kept = [1024, 1025, 1026, 1027, 1028, 1029, 1030, 1031];
    let answer = run_lines(&["read i0", "write i0"], 5, 2);
    assert_eq!(answer, Ok(Outcome::Ended { value: 5, steps: 2, kept, ticks: ANY }));
    assert_eq!((FIRST_KEPT, KEPT), (24, 8));
}

#[test]
fn what_is_kept_is_what_the_run_left() {
    let program = ["read i0", "i24 := 5", "i31 := i0 - 1", "write i0"];
    let mut values = [0; VARIABLES];
    values[25] = 7;
    let kept = [5, 7, 0, 0, 0, 0, 0, MINUS_1];
    for budget in [4, 5, 1_000_000] {
        let answer = run(&text(&program), &values, 0, budget);
        assert_eq!(answer, Ok(Outcome::Ended { value: 0, steps: 4, kept, ticks: ANY }));
    }
    let mut left = values;
    left[24] = 5;
    left[31] = MINUS_1;
    assert_eq!(run(&text(&program), &values, 0, 3), spent(4, left));
}

#[test]
fn each_kept_variable_is_told_in_its_place_and_no_other_is() {
    for x in 0..64 {
        // Set before the end, read, and set twice.
        for program in [
            [format!("read i{}", (x + 1) % 24), format!("i{} := -77", x), "write i23".to_string()],
            [format!("read i{}", x), "skip".to_string(), "write i31".to_string()],
            [format!("read i{}", x), format!("i{} := i{} * -1", x, x), "write i0".to_string()],
        ] {
            let mut values = given();
            let input = 77;
            values[program[0][6..].parse::<usize>().unwrap()] = input;
            if program[1] != "skip" {
                values[x] = -77_i32 as u32;
            }
            let written: usize = program[2][7..].parse().unwrap();
            let (value, kept) = (values[written] as i32, kept(values));
            let expected = Outcome::Ended { value, steps: 3, kept, ticks: ANY };
            assert_eq!(run(&text(&program), &given(), input, 3), Ok(expected), "{:?}", program);
        }
    }
}

#[test]
fn all_32_bits_are_kept() {
    let program = text(&["read i24", "i31 := i24 + i25", "write i0"]);
    for input in [1, 255, 256, 65535, 65536, 1 << 24, MOST, LEAST, LEAST + 1, MINUS_2, MINUS_1] {
        let values = [input; VARIABLES];
        let mut kept = [input; KEPT];
        kept[7] = input.wrapping_add(input);
        let expected = Outcome::Ended { value: input as i32, steps: 3, kept, ticks: ANY };
        assert_eq!(run(&program, &values, input, 3), Ok(expected));
    }
}

#[test]
fn both_arms_of_an_if_set_what_is_kept() {
    let program = [
        "read i0",
        "if i0 goto 5 else 3",
        "i27 := 5",
        "if i0 goto 6 else 6",
        "i27 := 6",
        "write i0",
    ];
    assert_eq!(run_lines(&program, 0, 9), ended_with(0, 5, &[(27, 5)]));
    assert_eq!(run_lines(&program, 2, 9), ended_with(2, 4, &[(27, 6)]));
}

#[test]
fn what_one_pass_keeps_starts_the_next() {
    // i30 counts passes, and i24 sums up the inputs.
    let program = text(&["read i0", "i30 := i30 + 1", "i24 := i24 + i0", "write i24"]);
    let mut values = [0; VARIABLES];
    for (pass, (input, sum)) in [(5, 5), (7, 12), (MINUS_1, 11)].into_iter().enumerate() {
        let kept = [sum, 0, 0, 0, 0, 0, pass as u32 + 1, 0];
        let answer = run(&program, &values, input, 4);
        let ended = Outcome::Ended { value: sum as i32, steps: 4, kept, ticks: ANY };
        assert_eq!(answer, Ok(ended));
        values[FIRST_KEPT..FIRST_KEPT + KEPT].copy_from_slice(&kept);
    }
}

// Ticks

/// The ticks of a run of the lines from the given values.
fn ticks<L: AsRef<str>>(lines: &[L], input: u32, budget: u32) -> u64 {
    let answer = common::run(&text(lines), &given(), input, budget);
    answer.expect("the program is taken").ticks()
}

#[test]
fn ticks_of_p() {
    let p: Vec<&str> = P.lines().collect();
    // 1 2 3 4 5 8: 4 2 2 3 3 4.
    assert_eq!((ticks(&p, 0, 6), ticks(&p, 0, 1_000_000)), (18, 18));
    // 1 to 5, 6 7 4 5, 6 7, 8.
    assert_eq!((ticks(&p, 2, 12), ticks(&p, 2, 1_000_000)), (36, 36));
    let spent = [0, 4, 6, 8, 11, 14, 17, 20, 23, 26, 29, 32];
    for (budget, wanted) in spent.into_iter().enumerate() {
        assert_eq!(ticks(&p, 2, budget as u32), wanted, "budget {budget}");
    }
}

#[test]
fn each_kind_of_statement_has_its_price() {
    for (statement, price) in [
        ("skip", 1),
        ("if i0 goto 3 else 3", 3),
        ("if i0 goto 3 else 2", 3),
        ("i1 := i0", 2),
        ("i1 := -2147483648", 2),
        ("i1 := i0 + 1", 3),
        ("i1 := i0 - i2", 3),
        ("i1 := 0 * 0", 9),
        ("i1 := i0 < i2", 3),
        ("i1 := i0 = i2", 3),
        ("i1 := i0 / i2", 24),
        ("i1 := 1 / 1", 24),
        // One that ends the run, before `write`.
        ("i1 := i0 / 0", 20),
    ] {
        assert_eq!(ticks(&["read i0", statement, "write i1"], 5, 9), 8 + price, "{statement}");
        let fault = if statement.ends_with("/ 0") { 24 } else { price };
        assert_eq!(ticks(&["read i0", statement, "write i1"], 5, 2), 4 + fault, "{statement}");
    }
    assert_eq!(
        (ticks(&["read i0", "write i0"], 5, 1), ticks(&["read i0", "write i0"], 5, 2)),
        (4, 8)
    );
}

#[test]
fn a_statement_counts_once_for_each_time() {
    let program = ["read i0", "i1 := i1 * i0", "i0 := i0 - 1", "if i0 goto 2 else 5", "write i1"];
    for input in [1, 2, 3, 100, 100_000] {
        assert_eq!(ticks(&program, input, 1_000_000), 8 + 15 * u64::from(input));
    }
    // No statement behind the end, and none that is jumped over.
    let program = ["read i0", "if i0 goto 4 else 4", "i1 := 1 / 0", "write i0"];
    assert_eq!(ticks(&program, 5, 1_000_000), 11);
}

#[test]
fn ticks_of_a_million_steps() {
    // 1,022 statements a round: 1,021 products and an `if`; the last round stops behind 483 products.
    let mut program = vec!["i1 := i1 * i0"; 1_024];
    (program[0], program[1_022], program[1_023]) = ("read i0", "if i2 goto 2 else 2", "write i1");
    let rounds = 978;
    assert_eq!(1 + 1_022 * rounds + 483, 1_000_000);
    assert_eq!(ticks(&program, 3, 1_000_000), 4 + rounds * (1_021 * 9 + 3) + 483 * 9);
    let divided = ["read i0", "i1 := i0 / 3", "if i2 goto 2 else 2", "write i1"];
    assert_eq!(ticks(&divided, 9, 1_000_000), 4 + 500_000 * 24 + 499_999 * 3);
}

#[test]
fn a_fault_counts_its_division() {
    let program = ["read i0", "i1 := 10 / i0", "i0 := i0 - 1", "if i1 goto 2 else 2", "write i1"];
    for (input, rounds) in [(0, 0), (1, 1), (2, 2), (7, 7)] {
        assert_eq!(ticks(&program, input, 1_000), 4 + 30 * rounds + 24, "input {input}");
    }
}

// What is lent

/// The places lent to a raw call, with guards around the values.
#[derive(Clone, Debug, PartialEq)]
#[repr(C)]
struct Lent {
    ended: u32,
    value: i32,
    steps: u32,
    statement: u32,
    before: [u32; VARIABLES],
    left: [u32; VARIABLES],
    between: [u32; VARIABLES],
    kept: [u32; KEPT],
    after: [u32; VARIABLES],
    ticks: u64,
    last: [u32; VARIABLES],
}

const LENT: Lent = Lent {
    ended: 0xeeee_0001,
    value: -0x0eee_0002,
    steps: 0xeeee_0003,
    statement: 0xeeee_0004,
    before: [0xbbbb_bbbb; VARIABLES],
    left: [0xcccc_cccc; VARIABLES],
    between: [0xaaaa_aaaa; VARIABLES],
    kept: [0x9999_9999; KEPT],
    after: [0xdddd_dddd; VARIABLES],
    ticks: 0x8888_8888_7777_7777,
    last: [0x6666_6666; VARIABLES],
};

/// The number that a raw call returns, and the lent places after it.
fn lend(text: &[u8], input: u32, budget: u32) -> (u8, Lent) {
    let mut lent = LENT;
    let program = text.to_vec();
    let (values, prices) = (given(), Prices::ours());
    // SAFETY: the pointers come from references, and no two of the written places overlap.
    let number = unsafe {
        raw::rewrites_run(
            program.as_ptr(),
            program.len(),
            &values,
            input,
            budget,
            &prices.0,
            &mut lent.ended,
            &mut lent.value,
            &mut lent.steps,
            &mut lent.statement,
            &mut lent.left,
            &mut lent.kept,
            &mut lent.ticks,
        )
    };
    assert_eq!(program, text);
    assert_eq!((values, prices), (given(), Prices::ours()));
    (number, lent)
}

#[test]
fn a_refused_call_changes_nothing_lent() {
    let cases: [(&str, u32, u8); 8] = [
        (P, 1_000_001, 15),
        ("rubbish", 1_000_001, 15),
        ("rubbish", 100, 2),
        ("read i0\nskip\nwrite i0", 100, 2),
        ("", 100, 3),
        ("read i0\n", 100, 3),
        ("read i0\nskip\n", 100, 4),
        ("read i0\nif i0 goto 1 else 2\nwrite i0\n", 100, 5),
    ];
    for (text, budget, expected) in cases {
        assert_eq!(lend(text.as_bytes(), 2, budget), (expected, LENT), "{:?}", text);
    }
    assert_eq!(lend(&text(&lines(1_025)), 2, 100), (3, LENT));
}

#[test]
fn an_ended_run_sets_value_steps_kept_values_and_ticks_and_keeps_the_rest() {
    let kept = kept(given());
    let expected = Lent { ended: 1, value: 9, steps: 12, kept, ticks: 36, ..LENT };
    assert_eq!(lend(P.as_bytes(), 2, 12), (0, expected.clone()));
    assert_eq!(lend(P.as_bytes(), 2, 1_000_000), (0, expected));
}

#[test]
fn a_spent_run_sets_statement_values_and_ticks_and_keeps_the_rest() {
    let left = given_but(&[(0, 0), (1, 2), (2, 7), (3, 9)]);
    let expected = Lent { ended: 0, statement: 8, left, ticks: 32, ..LENT };
    assert_eq!(lend(P.as_bytes(), 2, 11), (0, expected));
    let expected = Lent { ended: 0, statement: 1, left: given(), ticks: 0, ..LENT };
    assert_eq!(lend(P.as_bytes(), 2, 0), (0, expected));
    // One step before the end.
    let left = given_but(&[(24, 9)]);
    let expected = Lent { ended: 0, statement: 2, left, ticks: 4, ..LENT };
    assert_eq!(lend(b"read i24\nwrite i24\n", 9, 1), (0, expected));
    let kept = kept(left);
    let expected = Lent { ended: 1, value: 9, steps: 2, kept, ticks: 8, ..LENT };
    assert_eq!(lend(b"read i24\nwrite i24\n", 9, 2), (0, expected));
}

#[test]
fn a_faulting_run_sets_statement_steps_and_ticks_and_keeps_the_rest() {
    let program = b"read i24\ni25 := 7\ni1 := i25 / i24\nwrite i1\n";
    let expected = Lent { ended: 2, statement: 3, steps: 3, ticks: 30, ..LENT };
    assert_eq!(lend(program, 0, 3), (0, expected.clone()));
    assert_eq!(lend(program, 0, 1_000_000), (0, expected));
    // One step before, and by another divisor.
    let left = given_but(&[(24, 0), (25, 7)]);
    let expected = Lent { ended: 0, statement: 3, left, ticks: 6, ..LENT };
    assert_eq!(lend(program, 0, 2), (0, expected));
    let kept = kept(given_but(&[(24, MINUS_2), (25, 7)]));
    let expected = Lent { ended: 1, value: -3, steps: 4, kept, ticks: 34, ..LENT };
    assert_eq!(lend(program, MINUS_2, 4), (0, expected));
}

// Refusals

#[test]
fn refusals_print_their_words() {
    let words = [
        (
            1,
            "table under 1,024 words, or 2,048 of a review or a list, path under 1,025 words, verdicts \
             under 1,024 bytes, new text under 34,816 bytes or stages under 280,000 bytes",
        ),
        (15, "budget over 1,000,000"),
        (2, "some line isn't spelled as a statement, or the last lacks its byte 10"),
        (3, "under 2 or over 1,024 lines"),
        (4, "`read` or `write` missing from its place or standing elsewhere"),
        (5, "a target outside 2 to N"),
        (22, "a misspelled or repeated variable of the driver"),
        (16, "no line or over 32 lines of a review"),
        (6, "condition longer than 1,024 bytes"),
        (7, "condition misspelled"),
        (8, "condition of over 64 parts"),
        (17, "review of over 128 differing parts"),
        (9, "some line of the marks misspelled, or the last without its byte 10"),
        (10, "over 1,024 lines of marks"),
        (21, "joined program of over 1,024 statements"),
        (19, "some line of the prices isn't a number from 1 to 65,535, or the last lacks its byte 10"),
        (20, "other than eleven lines of prices"),
        (23, "a stage's name that isn't 1 to 8 lower-case letters"),
        (24, "a new name, and all eight places hold others"),
        (25, "a name that no place holds"),
    ];
    let printed = Refusal::ALL.map(|r| (r.number(), r.to_string()));
    assert_eq!(printed, words.map(|(number, words)| (number, words.to_string())));
}
