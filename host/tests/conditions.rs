//! Executed cases of `tabulate`. Expected rows are worked out from the description of conditions,
//! by hand.

mod common;

use common::{lines, refused_programs, shown, text, P};
use rewrites::{raw, tabulate, Refusal, Tabulated, PART_WORDS, STATEMENTS, TABLE_WORDS};

const ALL: u64 = u64::MAX;

type Row = [u64; PART_WORDS];

/// A row that begins with these words, the others being 0.
fn row(words: &[u64]) -> Row {
    let mut row = [0; PART_WORDS];
    row[..words.len()].copy_from_slice(words);
    row
}

/// A row of one statement.
fn only(n: usize) -> Row {
    let mut row = [0; PART_WORDS];
    row[(n - 1) / 64] = 1 << ((n - 1) % 64);
    row
}

/// The row of the statements up to one, or from one on.
fn up_to(n: usize) -> Row {
    (1..=n).map(only).fold([0; PART_WORDS], |row, one| std::array::from_fn(|w| row[w] | one[w]))
}

fn from(n: usize) -> Row {
    up_to(n - 1).map(|word| !word)
}

// What is lent

/// Words on either side of the lent table.
const GUARD: usize = 8;

/// The places lent to a raw call, with guards around them.
#[derive(Clone, Debug, PartialEq)]
struct Lent {
    words: Vec<u64>,
    places: [u32; 5],
}

fn unchanged(room: usize) -> Lent {
    let words = (0..room + 2 * GUARD).map(|k| 0x9e37_79b9_7f4a_7c15 ^ k as u64).collect();
    Lent { words, places: [0xeeee_0001, 0xeeee_0002, 0xeeee_0003, 0xeeee_0004, 0xeeee_0005] }
}

fn filled(room: usize, words: &[u64], satisfied: u32, first: u32) -> Lent {
    let mut lent = unchanged(room);
    lent.words[GUARD..GUARD + words.len()].copy_from_slice(words);
    lent.places[1..4].copy_from_slice(&[(words.len() / PART_WORDS) as u32, satisfied, first]);
    lent
}

/// The number that a raw call returns, and the lent places after it.
fn lend(program: &[u8], condition: &[u8], room: usize) -> (u8, Lent) {
    let mut lent = unchanged(room);
    let (given, asked) = (program.to_vec(), condition.to_vec());
    let table = &mut lent.words[GUARD..GUARD + room];
    let [_, parts, satisfied, first, _] = &mut lent.places;
    // SAFETY: the pointers come from references, and no two of the written places overlap.
    let number = unsafe {
        raw::rewrites_tabulate(
            given.as_ptr(),
            given.len(),
            asked.as_ptr(),
            asked.len(),
            table.as_mut_ptr(),
            table.len(),
            parts,
            satisfied,
            first,
        )
    };
    assert_eq!((&given[..], &asked[..]), (program, condition));
    (number, lent)
}

/// The number of the refusal, which changes nothing that was lent, or 0.
fn number(program: &[u8], condition: &[u8], room: usize) -> u8 {
    let (number, lent) = lend(program, condition, room);
    if number != 0 {
        assert_eq!(lent, unchanged(room), "{}", shown(condition));
    }
    let safe = tabulate(program, condition, &mut vec![0; room]);
    assert_eq!(safe.map_or_else(Refusal::number, |_| 0), number, "{}", shown(condition));
    number
}

fn assert_number(condition: &[u8], expected: u8) {
    assert_eq!(number(P.as_bytes(), condition, TABLE_WORDS), expected, "{}", shown(condition));
}

/// Each part's words are these; the answer is that of the last part. All else is kept.
fn assert_rows(program: &[u8], condition: &str, rows: &[Row]) {
    let whole = rows[rows.len() - 1];
    let statements: Vec<usize> =
        (0..STATEMENTS).filter(|s| whole[s / 64] >> (s % 64) & 1 == 1).map(|s| s + 1).collect();
    let satisfied = statements.len() as u32;
    let first = statements.first().map_or(0, |&s| s as u32);
    for room in [TABLE_WORDS, TABLE_WORDS + 1, 3_000] {
        let expected = (0, filled(room, &rows.concat(), satisfied, first));
        assert_eq!(lend(program, condition.as_bytes(), room), expected, "{}", condition);
    }
    let parts = rows.len() as u32;
    let answer = tabulate(program, condition.as_bytes(), &mut [0; TABLE_WORDS]);
    assert_eq!(answer, Ok(Tabulated { parts, satisfied, first }), "{}", condition);
}

/// The rows of a program of up to 64 statements: word 0 of each, the others being 0.
fn assert_words(program: &[u8], condition: &str, words: &[u64]) {
    let rows: Vec<Row> = words.iter().map(|&word| row(&[word])).collect();
    assert_rows(program, condition, &rows);
}

fn assert_on_p(cases: &[(&str, &[u64])]) {
    for (condition, words) in cases {
        assert_words(P.as_bytes(), condition, words);
    }
}

// The starred cases. Statement n of P is worth 2 to the n - 1: 1, 2, 4, 8, 16, 32, 64, 128.
// P goes 1 2 3 4 5, then 5 to 6 or 8, 6 to 7, 7 to 4 or 8, 8 to 8.
// Backward 1 goes to itself, 2 to 1, 3 to 2, 4 to 3 or 7, 5 to 4, 6 to 5, 7 to 6, 8 to 5 or 7.

#[test]
fn i2_is_used_next_from_4_to_7_of_p() {
    assert_on_p(&[("E[!def(i2) U use(i2)]", &[4, 251, 8, 120])]);
    let answer = tabulate(P.as_bytes(), b"E[!def(i2) U use(i2)]", &mut [0; TABLE_WORDS]);
    assert_eq!(answer, Ok(Tabulated { parts: 4, satisfied: 4, first: 4 }));
}

#[test]
fn all_paths_of_p_come_to_its_exit_from_8_alone() {
    assert_on_p(&[("A[true U exit]", &[255, 128, 128]), ("A[true W exit]", &[255, 128, 255])]);
    let answer = tabulate(P.as_bytes(), b"A[true U exit]", &mut [0; TABLE_WORDS]);
    assert_eq!(answer, Ok(Tabulated { parts: 3, satisfied: 1, first: 8 }));
}

#[test]
fn steps_of_p_lead_to_its_exit_and_from_its_entry() {
    assert_on_p(&[
        ("EX exit", &[128, 208]),
        ("AX exit", &[128, 128]),
        // 1 has no predecessor, and steps back to itself.
        ("EY entry", &[1, 3]),
    ]);
}

#[test]
fn paths_back_from_p_miss_the_definition_of_i2() {
    assert_on_p(&[("AM !def(i2)", &[4, 251, 3]), ("EM !def(i2)", &[4, 251, 251])]);
}

// More of P

#[test]
fn atoms_of_p() {
    assert_on_p(&[
        ("true", &[255]),
        ("false", &[0]),
        ("entry", &[1]),
        ("exit", &[128]),
        ("node(1)", &[1]),
        ("node(5)", &[16]),
        ("node(8)", &[128]),
        ("stmt(read i0)", &[1]),
        ("stmt(i1 := i0)", &[2]),
        ("stmt(i2 := 7)", &[4]),
        ("stmt(i3 := i1 + i2)", &[8]),
        ("stmt(if i0 goto 6 else 8)", &[16]),
        ("stmt(write i3)", &[128]),
        // `read i0` and `i0 := i0 - 1`.
        ("def(i0)", &[1 + 32]),
        ("def(i1)", &[2]),
        ("def(i3)", &[8]),
        // `i1 := i0`, both `if` and `i0 := i0 - 1`; what is read is not used.
        ("use(i0)", &[2 + 16 + 32 + 64]),
        ("use(i1)", &[8]),
        ("use(i3)", &[128]),
        // The unit keeps i24 to i31, so `write` uses them.
        ("use(i24)", &[128]),
        ("use(i31)", &[128]),
        ("trans(7)", &[255]),
        ("trans(i0)", &[255 - 1 - 32]),
        ("trans(i1 + i2)", &[255 - 2 - 4]),
        ("trans(i2 * i2)", &[255 - 4]),
        ("trans(5 < i3)", &[255 - 8]),
    ]);
}

#[test]
fn atoms_that_p_lacks_match_nothing() {
    let nowhere = [
        "node(0)",
        "node(9)",
        "node(300)",
        "node(1025)",
        "node(2147483647)",
        "stmt(if i0 goto 300 else 0)",
        "stmt(if i0 goto 8 else 6)",
        "stmt(if i1 goto 6 else 8)",
        "stmt(i3 := i2 + i1)",
        "stmt(i3 := i1 - i2)",
        "stmt(i3 := i1)",
        "stmt(i2 := i7)",
        "stmt(i2 := 8)",
        "stmt(read i1)",
        "stmt(write i0)",
        "stmt(skip)",
        "def(i9)",
        "def(i31)",
        "def(i63)",
        "use(i9)",
        "use(i23)",
        "use(i32)",
        "use(i63)",
    ];
    for atom in nowhere {
        assert_words(P.as_bytes(), atom, &[0]);
    }
    // An expression need not occur in the program.
    assert_words(P.as_bytes(), "trans(i9 * i10)", &[255]);
}

#[test]
fn minus_1_and_0_less_1_are_different_statements() {
    let program = text(&["read i0", "i0 := -1", "i0 := 0 - 1", "write i0"]);
    assert_words(&program, "stmt(i0 := -1)", &[2]);
    assert_words(&program, "stmt(i0 := 0 - 1)", &[4]);
    assert_words(&program, "(stmt(i0 := -1) | stmt(i0 := 0 - 1))", &[2, 4, 6]);
    for atom in ["stmt(i0 := 1)", "stmt(i0 := -2)", "stmt(i0 := 0 + -1)", "stmt(i1 := -1)"] {
        assert_words(&program, atom, &[0]);
    }
    // No statement defines a variable of a constant.
    assert_words(&program, "trans(-1)", &[15]);
    assert_words(&program, "trans(-2147483648 - -1)", &[15]);
    assert_words(&program, "trans(i0 - -1)", &[8]);
    assert_words(&program, "trans(-1 * i1)", &[15]);
}

#[test]
fn the_ends_of_the_range_are_told_apart() {
    let constants = ["-2147483648", "-2147483647", "-1", "0", "1", "2147483647"];
    let mut program = vec!["read i0".to_string()];
    program.extend(constants.map(|constant| format!("i1 := {}", constant)));
    program.push("write i1".to_string());
    for (k, constant) in constants.iter().enumerate() {
        assert_words(&text(&program), &format!("stmt(i1 := {})", constant), &[2 << k]);
    }
}

#[test]
fn q_now_is_enough_for_u_and_s() {
    assert_on_p(&[
        ("E[false U use(i2)]", &[0, 8, 8]),
        ("A[false U exit]", &[0, 128, 128]),
        ("E[false S use(i2)]", &[0, 8, 8]),
        ("A[false S entry]", &[0, 1, 1]),
        ("E[false W exit]", &[0, 128, 128]),
        ("A[false B entry]", &[0, 1, 1]),
    ]);
}

#[test]
fn every_statement_has_a_step_each_way() {
    assert_on_p(&[
        ("AY false", &[0, 0]),
        ("AX false", &[0, 0]),
        ("EY true", &[255, 255]),
        ("EX true", &[255, 255]),
        // The self-step of `write` is not counted backward.
        ("EY exit", &[128, 0]),
        ("ER exit", &[128, 128]),
    ]);
}

#[test]
fn paths_back_from_the_loop_may_go_round_it() {
    assert_on_p(&[
        // From 4 on a path may go 4 7 6 5 4 for ever.
        ("AR entry", &[1, 7]),
        ("ER entry", &[1, 255]),
        ("AR def(i2)", &[4, 4]),
        ("ER def(i2)", &[4, 252]),
        ("EM !entry", &[1, 254, 248]),
        ("AM !entry", &[1, 254, 0]),
    ]);
}

#[test]
fn paths_on_may_go_round_the_loop() {
    assert_on_p(&[
        ("AF exit", &[128, 128]),
        ("EF exit", &[128, 255]),
        ("EG !exit", &[128, 127, 127]),
        ("AG !exit", &[128, 127, 0]),
        ("AG exit", &[128, 128]),
        // 1, 2 and 3 come to 4; 5 and 7 may go to 8 instead.
        ("AF use(i2)", &[8, 15]),
        ("EF use(i2)", &[8, 127]),
        // 1 and 2 come to 3, the others don't.
        ("EG !def(i2)", &[4, 251, 248]),
        ("AG !def(i2)", &[4, 251, 248]),
        ("EF def(i2)", &[4, 7]),
    ]);
}

#[test]
fn steps_of_p_lead_to_and_from_uses_of_i0() {
    // Uses stand at 2, 5, 6 and 7.
    assert_on_p(&[
        // 1 goes to 2, 4 to 5, 5 to 6, 6 to 7.
        ("EX use(i0)", &[114, 1 + 8 + 16 + 32]),
        // 5 may go to 8.
        ("AX use(i0)", &[114, 1 + 8 + 32]),
        // 3 is gone to from 2, 6 from 5, 8 from 5 and 7, 7 from 6, 4 from 7.
        ("EY use(i0)", &[114, 4 + 32 + 128 + 64 + 8]),
        // 4 is gone to from 3 as well.
        ("AY use(i0)", &[114, 4 + 32 + 128 + 64]),
    ]);
}

#[test]
fn u_asks_for_q_and_w_does_not() {
    // i0 is used at 2, 5, 6 and 7; 3 and 4 come to 5 without a definition. 1 defines it, and 8 has
    // neither a definition nor a use.
    assert_on_p(&[
        ("A[trans(i0) U use(i0)]", &[222, 114, 126]),
        ("E[trans(i0) U use(i0)]", &[222, 114, 126]),
        ("A[trans(i0) W use(i0)]", &[222, 114, 254]),
        ("E[trans(i0) W use(i0)]", &[222, 114, 254]),
        // No exit at all places: on the loop, and on the way to it.
        ("E[!exit W false]", &[128, 127, 0, 127]),
        ("A[!exit W false]", &[128, 127, 0, 0]),
        ("E[!exit U false]", &[128, 127, 0, 0]),
    ]);
}

#[test]
fn s_asks_for_q_and_b_does_not() {
    assert_on_p(&[
        // From 4 to 8 a path may go round the loop, or come to 3; 2 comes to 1.
        ("A[!entry S def(i2)]", &[1, 254, 4, 4]),
        ("A[!entry B def(i2)]", &[1, 254, 4, 252]),
        ("E[!entry S def(i2)]", &[1, 254, 4, 252]),
        ("E[!entry B def(i2)]", &[1, 254, 4, 252]),
        // i0 is defined at 1 and 6. 3 is no def(i0) and not !def(i2); 4, 5 and 8 may come to 3
        // first, or to 6 first.
        ("A[!def(i2) S def(i0)]", &[4, 251, 33, 1 + 2 + 32 + 64]),
        ("A[!def(i2) B def(i0)]", &[4, 251, 33, 1 + 2 + 32 + 64]),
        ("E[!def(i2) S def(i0)]", &[4, 251, 33, 251]),
        ("E[!def(i2) B def(i0)]", &[4, 251, 33, 251]),
    ]);
}

#[test]
fn conditions_of_marks_on_p() {
    assert_on_p(&[
        // To drop `i2 := 7` at 3. Used next from 4 to 7, to which 3 to 7 go; 1, 2 and 8 are left.
        ("!EX E[!def(i2) U use(i2)]", &[4, 251, 8, 120, 124, 131]),
        // To carry 7 to 4. All but 1 and 3 may lie between. 3 to 8 come back to 3, or go round the
        // loop, and one step on are 4 to 8.
        (
            "AY A[((!def(i2) & trans(7)) & !entry) B stmt(i2 := 7)]",
            &[4, 251, 255, 251, 1, 254, 250, 4, 252, 248],
        ),
        // To carry i0 to 4, for i1. Paths back from 4 to 8 may come to 6, which changes i0. So 2
        // and 3 alone come back to 2, and one step on is 3.
        (
            "AY A[((!def(i1) & trans(i0)) & !entry) B stmt(i1 := i0)]",
            &[2, 253, 222, 220, 1, 254, 220, 2, 6, 4],
        ),
    ]);
}

#[test]
fn operators_are_nested() {
    assert_on_p(&[
        ("(def(i2) | use(i2))", &[4, 8, 12]),
        ("(use(i0) & def(i0))", &[114, 33, 32]),
        ("!!!true", &[255, 0, 255, 0]),
        // To 5 goes 4, to 7 goes 6, to 8 go 5, 7 and 8.
        ("EX EX exit", &[128, 208, 8 + 32 + 16 + 64 + 128]),
        ("AX AX exit", &[128, 128, 128]),
        // Back to 1 go 1 and 2, to 2 goes 3.
        ("EY EY entry", &[1, 3, 7]),
        ("AG EF exit", &[128, 255, 255]),
        ("EF AG exit", &[128, 128, 255]),
        // Round the loop no exit is met, and all of 1 to 7 lead there.
        ("AF EG !exit", &[128, 127, 127, 127]),
        ("((entry | exit) | (node(3) & !node(3)))", &[1, 128, 129, 4, 4, 251, 0, 129]),
        // On to 4 from 3 and 4. Back to one of these from 3 to 8.
        ("E[A[true B def(i2)] S E[def(i2) U use(i2)]]", &[255, 4, 255, 4, 8, 12, 252]),
    ]);
}

#[test]
fn each_occurrence_is_a_part() {
    assert_on_p(&[
        ("(exit & exit)", &[128, 128, 128]),
        ("(EX exit | EX exit)", &[128, 208, 128, 208, 208]),
    ]);
}

// Other programs

#[test]
fn a_program_of_two_statements() {
    let program = text(&["read i0", "write i0"]);
    let cases: [(&str, &[u64]); 13] = [
        ("true", &[3]),
        ("!false", &[0, 3]),
        ("!true", &[3, 0]),
        ("entry", &[1]),
        ("exit", &[2]),
        ("EX exit", &[2, 3]),
        ("AX entry", &[1, 0]),
        ("AY entry", &[1, 3]),
        ("EY exit", &[2, 0]),
        ("AF exit", &[2, 3]),
        ("AR entry", &[1, 3]),
        ("EG !exit", &[2, 1, 0]),
        ("AM true", &[3, 3]),
    ];
    for (condition, words) in cases {
        assert_words(&program, condition, words);
    }
}

#[test]
fn an_if_may_step_to_itself() {
    let program = text(&["read i0", "if i0 goto 2 else 3", "write i0"]);
    let cases: [(&str, &[u64]); 11] = [
        ("AF exit", &[4, 4]),
        ("EF exit", &[4, 7]),
        ("EG node(2)", &[2, 2]),
        ("AG node(2)", &[2, 0]),
        // It is its own predecessor, beside 1.
        ("EY node(2)", &[2, 6]),
        ("AY node(2)", &[2, 4]),
        ("EM node(2)", &[2, 2]),
        ("AM node(2)", &[2, 0]),
        ("ER entry", &[1, 7]),
        ("AR entry", &[1, 1]),
        ("A[!entry B false]", &[1, 6, 0, 0]),
    ];
    for (condition, words) in cases {
        assert_words(&program, condition, words);
    }
}

#[test]
fn a_write_that_nothing_steps_to_steps_back_to_itself() {
    let program = text(&["read i0", "if i0 goto 2 else 2", "write i0"]);
    let cases: [(&str, &[u64]); 8] = [
        ("EY exit", &[4, 4]),
        ("AY exit", &[4, 4]),
        ("AM exit", &[4, 4]),
        ("ER entry", &[1, 3]),
        // Back from 2 a path may stay at 2.
        ("AR entry", &[1, 1]),
        ("EF exit", &[4, 4]),
        ("AG !exit", &[4, 3, 3]),
        ("EY node(2)", &[2, 2]),
    ];
    for (condition, words) in cases {
        assert_words(&program, condition, words);
    }
}

#[test]
fn unreachable_statements_count_as_predecessors() {
    // 3 is gone to from nowhere, and goes to 4.
    let program = text(&["read i0", "if i0 goto 4 else 4", "i1 := 3", "write i1"]);
    let cases: [(&str, &[u64]); 7] = [
        ("EY def(i1)", &[4, 4 + 8]),
        ("AY def(i1)", &[4, 4]),
        ("AM def(i1)", &[4, 4]),
        ("ER entry", &[1, 1 + 2 + 8]),
        ("AR entry", &[1, 1 + 2]),
        ("EF def(i1)", &[4, 4]),
        ("AF exit", &[8, 15]),
    ];
    for (condition, words) in cases {
        assert_words(&program, condition, words);
    }
}

#[test]
fn an_unreachable_definition_stops_a_copy() {
    // 4 is unreachable, defines i1, and goes to 5, so the copy of 2 isn't carried there.
    // Back: 3 to 2, 4 to 4, 5 to 3 or 4, 6 to 5.
    let program =
        text(&["read i0", "i1 := i0", "if i0 goto 5 else 5", "i1 := 3", "i2 := i1", "write i2"]);
    let condition = "AY A[((!def(i1) & trans(i0)) & !entry) B stmt(i1 := i0)]";
    // def 2 and 4; trans but 1; between 3, 5, 6; the copy 2; back to it 2 and 3; a step on 3.
    assert_words(&program, condition, &[10, 53, 62, 52, 1, 62, 52, 2, 6, 4]);
}

#[test]
fn bits_beyond_the_statements_are_0() {
    // n, and the row of all statements.
    let programs = [
        (2, row(&[3])),
        (63, row(&[ALL >> 1])),
        (64, row(&[ALL])),
        (65, row(&[ALL, 1])),
        (128, row(&[ALL, ALL])),
        (129, row(&[ALL, ALL, 1])),
        (192, row(&[ALL, ALL, ALL])),
        (193, row(&[ALL, ALL, ALL, 1])),
        (255, row(&[ALL, ALL, ALL, ALL >> 1])),
        (256, row(&[ALL; 4])),
        (257, row(&[ALL, ALL, ALL, ALL, 1])),
        (511, row(&[ALL, ALL, ALL, ALL, ALL, ALL, ALL, ALL >> 1])),
        (512, row(&[ALL; 8])),
        (960, row(&[ALL; 15])),
        (1_023, up_to(1_023)),
        (1_024, [ALL; PART_WORDS]),
    ];
    for (n, all) in programs {
        let program = text(&lines(n));
        let none = [0; PART_WORDS];
        let exit = only(n);
        let others = std::array::from_fn(|w| all[w] ^ exit[w]);
        assert_rows(&program, "true", &[all]);
        assert_rows(&program, "false", &[none]);
        assert_rows(&program, "exit", &[exit]);
        assert_rows(&program, &format!("node({})", n), &[exit]);
        assert_rows(&program, &format!("node({})", n + 1), &[none]);
        assert_rows(&program, "!false", &[none, all]);
        assert_rows(&program, "!!true", &[all, none, all]);
        assert_rows(&program, "!exit", &[exit, others]);
        assert_rows(&program, "!EX false", &[none, none, all]);
        // There is one path from each statement, to the end, and one back, to the start.
        assert_rows(&program, "AF exit", &[exit, all]);
        assert_rows(&program, "AR entry", &[only(1), all]);
        assert_rows(&program, "EG true", &[all, all]);
        assert_rows(&program, "AM true", &[all, all]);
        assert_rows(&program, "AG false", &[none, none]);
        assert_rows(&program, "E[false W false]", &[none, none, none]);
        assert_rows(&program, "A[true B false]", &[all, none, all]);
        assert_rows(&program, "EG !exit", &[exit, others, none]);
    }
}

#[test]
fn a_straight_program_of_1024_statements() {
    let program = text(&lines(1_024));
    let told = |condition: &str, satisfied: u32, first: u32| {
        let answer = tabulate(&program, condition.as_bytes(), &mut [0; TABLE_WORDS]);
        let parts = condition.split(' ').count() as u32;
        assert_eq!(answer, Ok(Tabulated { parts, satisfied, first }), "{condition}");
    };
    // 64 is bit 63 of word 0, 65 bit 0 of word 1; 256 is the last bit of word 3, 257 the first of word 4.
    assert_eq!((only(64)[0], only(65)[1], only(256)[3], only(257)[4]), (1 << 63, 1, 1 << 63, 1));
    for n in [63, 64, 65, 128, 129, 192, 255, 256, 257, 512, 513, 960, 961, 1_022, 1_023] {
        let one = n as u32;
        assert_rows(&program, &format!("ER node({n})"), &[only(n), from(n)]);
        told(&format!("ER node({n})"), 1_025 - one, one);
        assert_rows(&program, &format!("AF node({n})"), &[only(n), up_to(n)]);
        told(&format!("AF node({n})"), one, 1);
        assert_rows(&program, &format!("EX node({n})"), &[only(n), only(n - 1)]);
        told(&format!("EX node({n})"), 1, one - 1);
        assert_rows(&program, &format!("AY node({n})"), &[only(n), only(n + 1)]);
        told(&format!("AY node({n})"), 1, one + 1);
    }
    told("stmt(skip)", 1_022, 2);
    told("EX entry", 0, 0);
}

// What the unit keeps

#[test]
fn use_of_i24_to_i31_holds_at_write() {
    let program = text(&["read i0", "i24 := 5", "i1 := i0", "write i1"]);
    assert_words(&program, "use(i24)", &[8]);
    assert_words(&program, "use(i23)", &[0]);
    // 4 uses i24, and 3 comes to it; 2 defines it.
    assert_words(&program, "E[!def(i24) U use(i24)]", &[2, 13, 8, 12]);
    assert_words(&program, "E[!def(i23) U use(i23)]", &[0, 15, 0, 0]);
    for x in 0..64 {
        // 3 uses i0, and 4 uses i1 and what is kept.
        let word = match x {
            0 => 4,
            1 | 24..=31 => 8,
            _ => 0,
        };
        assert_words(&program, &format!("use(i{})", x), &[word]);
    }
}

#[test]
fn other_statements_use_what_they_show() {
    let program =
        text(&["read i24", "skip", "if i24 goto 4 else 4", "i24 := i24 + i26", "write i24"]);
    let cases: [(&str, &[u64]); 12] = [
        ("use(i24)", &[4 + 8 + 16]),
        ("use(i25)", &[16]),
        ("use(i26)", &[8 + 16]),
        ("use(i23)", &[0]),
        ("def(i24)", &[1 + 8]),
        ("def(i25)", &[0]),
        ("trans(i24)", &[2 + 4 + 16]),
        ("trans(i25 - i31)", &[31]),
        ("stmt(write i24)", &[16]),
        ("stmt(write i25)", &[0]),
        // `write` steps to itself forward, and not backward.
        ("EX use(i25)", &[16, 8 + 16]),
        ("EY use(i25)", &[16, 0]),
    ];
    for (condition, words) in cases {
        assert_words(&program, condition, words);
    }
}

#[test]
fn use_of_what_is_kept_holds_at_a_write_that_nothing_comes_to() {
    let program = text(&["read i0", "if i0 goto 2 else 2", "write i0"]);
    assert_words(&program, "EF use(i25)", &[4, 4]);
    assert_words(&program, "E[!def(i25) U use(i25)]", &[0, 7, 4, 4]);
}

#[test]
fn use_of_what_is_kept_holds_at_the_1024th_statement() {
    let program = text(&lines(1_024));
    for x in [24, 27, 31] {
        assert_rows(&program, &format!("use(i{})", x), &[only(1_024)]);
        assert_rows(&program, &format!("EF use(i{})", x), &[only(1_024), [ALL; PART_WORDS]]);
    }
    for x in [23, 32, 56, 63] {
        assert_rows(&program, &format!("use(i{})", x), &[[0; PART_WORDS]]);
    }
}

#[test]
fn conditions_of_marks_on_what_is_kept() {
    let program = text(&["read i0", "i24 := 5", "i24 := 6", "write i0"]);
    // 4 alone comes to a use with no definition before it, and 3 and 4 step to 4.
    assert_words(&program, "!EX E[!def(i24) U use(i24)]", &[6, 9, 8, 8, 12, 3]);
    assert_words(&program, "!EX E[!def(i23) U use(i23)]", &[0, 15, 0, 0, 0, 15]);
}

// Divisions

#[test]
fn a_division_steps_to_the_next_line_whatever_divides() {
    for divisor in ["0", "i5", "1", "-1", "-2147483648"] {
        let line = format!("i1 := i0 / {}", divisor);
        let program = text(&["read i0", &line, "i2 := 1", "write i2"]);
        assert_words(&program, "EX node(3)", &[4, 2]);
        assert_words(&program, "AX node(3)", &[4, 2]);
        assert_words(&program, "AY node(2)", &[2, 4]);
        assert_words(&program, "A[true U exit]", &[15, 8, 15]);
        assert_words(&program, "AF exit", &[8, 15]);
        assert_words(&program, "EG !exit", &[8, 7, 0]);
    }
}

#[test]
fn a_division_defines_and_uses_as_other_operators_do() {
    let program = text(&["read i0", "i1 := i0 / 0", "i2 := 1", "write i2"]);
    assert_words(&program, "def(i1)", &[2]);
    assert_words(&program, "use(i0)", &[2]);
    assert_words(&program, "use(i1)", &[0]);
    // Statements 2 and 3 define i1 and i2.
    assert_words(&program, "trans(i1 / i2)", &[9]);
    assert_words(&program, "trans(i0 / 0)", &[14]);
    assert_words(&program, "trans(1 / 0)", &[15]);
    let program = text(&["read i0", "i1 := i2 / i3", "i1 := i3 / i2", "write i1"]);
    assert_words(&program, "use(i2)", &[6]);
    assert_words(&program, "use(i3)", &[6]);
    assert_words(&program, "use(i1)", &[8]);
}

#[test]
fn stmt_tells_divisions_apart() {
    #[rustfmt::skip]
    let program = text(&[
        "read i0", "i1 := i0 / i2", "i1 := i2 / i0", "i1 := i0 / 0", "i1 := i0 * i2", "i1 := i0 - 0",
        "i1 := i0 / -1", "write i1",
    ]);
    assert_words(&program, "stmt(i1 := i0 / i2)", &[2]);
    assert_words(&program, "stmt(i1 := i2 / i0)", &[4]);
    assert_words(&program, "stmt(i1 := i0 / 0)", &[8]);
    assert_words(&program, "stmt(i1 := i0 * i2)", &[16]);
    assert_words(&program, "stmt(i1 := i0 - 0)", &[32]);
    assert_words(&program, "stmt(i1 := i0 / -1)", &[64]);
    assert_words(&program, "stmt(i1 := i0 / 1)", &[0]);
    assert_words(&program, "stmt(i2 := i0 / i2)", &[0]);
}

// Sums that are computed twice

#[test]
fn conditions_of_marks_on_a_sum_that_is_computed_twice() {
    let program = text(&["read i0", "i1 := i0 + 1", "i2 := i0 + 1", "write i2"]);
    // i1 holds the sum behind 2.
    assert_words(
        &program,
        "AY A[((!def(i1) & trans(i0 + 1)) & !entry) B (stmt(i1 := i0 + 1) & trans(i0 + 1))]",
        &[2, 13, 14, 12, 1, 14, 12, 2, 14, 2, 14, 12],
    );
    // A table shows what the program uses. That 3 shall read i1 is spelled out below.
    assert_words(&program, "!EX E[!def(i1) U use(i1)]", &[2, 13, 0, 0, 0, 15]);
    assert_words(&program, "!EX E[!def(i1) U (use(i1) | node(3))]", &[2, 13, 0, 4, 4, 4, 2, 13]);
    // 2 and 3 change what they compute.
    let program = text(&["read i0", "i0 := i0 < 7", "i0 := i0 < 7", "write i0"]);
    assert_words(
        &program,
        "AY A[((!def(i0) & trans(i0 < 7)) & !entry) B (stmt(i0 := i0 < 7) & trans(i0 < 7))]",
        &[7, 8, 8, 8, 1, 14, 8, 6, 8, 0, 0, 0],
    );
    // The longest.
    let e = "-2147483648 + -2147483648";
    let longest = format!(
        "AY A[((!def(i63) & trans({e})) & !entry) B (stmt(i63 := {e}) & trans({e}))]",
        e = e
    );
    assert_eq!(longest.len(), 141);
    assert_number(longest.as_bytes(), 0);
}

// Parts, lengths and spelling

/// `true` after so many `!`.
fn negations(n: usize) -> String {
    "!".repeat(n) + "true"
}

#[test]
fn parts_1_to_64_are_taken_and_65_refused_8() {
    for n in 0..64 {
        let words: Vec<u64> = (0..=n).map(|k| if k % 2 == 0 { 255 } else { 0 }).collect();
        assert_words(P.as_bytes(), &negations(n), &words);
    }
    assert_number(negations(64).as_bytes(), 8);
    assert_number(negations(1020).as_bytes(), 8);
    // 32 atoms and 31 operators between them; one operator more; one more.
    let tree = "(".repeat(31) + "exit" + &" | exit)".repeat(31);
    assert_words(P.as_bytes(), &tree, &[128; 63]);
    assert_words(P.as_bytes(), &format!("EG {}", tree), &[128; 64]);
    assert_number(format!("AG EG {}", tree).as_bytes(), 8);
    assert_number(format!("({} | exit)", tree).as_bytes(), 8);
    // The same with brackets of paths: back from 8 to 1 and 1.
    let tree = "E[true S ".repeat(31) + "entry" + &"]".repeat(31);
    let words: Vec<u64> = [[255; 31].as_slice(), &[1], &[255; 31]].concat();
    assert_words(P.as_bytes(), &tree, &words);
    assert_number(format!("!!{}", tree).as_bytes(), 8);
}

#[test]
fn a_condition_is_read_to_its_end_before_its_parts_are_counted() {
    for rubbish in ["x", " ", "!", ")", "]", "\n", "true"] {
        assert_number((negations(64) + rubbish).as_bytes(), 7);
        assert_number((negations(63) + rubbish).as_bytes(), 7);
        assert_number((negations(900) + rubbish).as_bytes(), 7);
    }
    assert_number("!".repeat(65).as_bytes(), 7);
    assert_number("!".repeat(1024).as_bytes(), 7);
    assert_number("E[".repeat(512).as_bytes(), 7);
    assert_number("(".repeat(1024).as_bytes(), 7);
}

#[test]
fn bytes_up_to_1024_are_taken_and_1025_refused_6() {
    // No atom is true anywhere in P. 25 of 36 bytes and 24 operators of 5: 1,020 bytes, 49 parts.
    for atom in ["stmt(i63 := 2147483647 + 2147483647)", "stmt(i63 := -214748364 + -214748364)"] {
        let tree = "(".repeat(24) + atom + &format!(" & {})", atom).repeat(24);
        assert_eq!(tree.len(), 1020);
        assert_words(P.as_bytes(), &tree, &[0; 49]);
        for n in 1..=4 {
            let signs: Vec<u64> = (0..n).map(|k| if k % 2 == 0 { 255 } else { 0 }).collect();
            let condition = "!".repeat(n) + &tree;
            assert_words(P.as_bytes(), &condition, &[vec![0; 49], signs].concat());
        }
        assert_number(("!!!!!".to_string() + &tree).as_bytes(), 6);
    }
    // Whatever it holds.
    assert_number(negations(1020).as_bytes(), 8);
    assert_number(negations(1021).as_bytes(), 6);
    for byte in [0, 10, b'!', b'(', b'x', 255] {
        assert_number(&[byte; 1024], 7);
        assert_number(&[byte; 1025], 6);
        assert_number(&[byte; 100_000], 6);
    }
}

#[rustfmt::skip]
const MISSPELLED: &[&str] = &[
    "", " ", "\n", "x", "(", ")", "!", "()", "(true)", "((true & true))", "!(true)", "! true",
    "true ", " true", "true\n", "\ntrue", "true\0", "truetrue", "TRUE", "tru", "fals", "Entry",
    "true & true", "(true & true", "(true &true)", "(true& true)", "(true  & true)",
    "(true & true )", "( true & true)", "(true && true)", "(true ^ true)", "(true & true))",
    "(true & true & true)", "(true -> true)", "(true U true)", "EX", "EX ", "EXtrue", "EX  true",
    "EX(true & true)", "EX !", "EU true", "EW true", "ES true", "EB true", "EE true", "AA true",
    "EZ true", "E true", "E X true", "ex true", "eX true", "X true", "E[true X true]",
    "E[true R true]", "E[true F true]", "E[true u true]", "E[trueU true]", "E[true U true",
    "E[true U]", "E[true]", "E[]", "E[true U true)", "E [true U true]", "E[ true U true]",
    "E[true  U true]", "E[true U true ]", "E[true U true]]", "E(true U true)", "[true U true]",
    "E[true U true U true]", "E[(true) U true]", "E[true & true]", "X[true U true]", "node",
    "node()", "node(", "node(1", "node(01)", "node(-1)", "node(+1)", "node(i1)", "node( 1)",
    "node(1 )", "node (1)", "node(2147483648)", "node(99999999999999999999)", "def()", "def(0)",
    "def(i64)", "def(i063)", "def(i00)", "def(i01)", "def(i1", "def(i 1)", "use(7)", "use(i)", "use(i1 )",
    "use(I1)", "stmt()", "stmt(", "stmt", "stmt(skip", "stmt(skip )", "stmt(skip\n)", "stmt( skip)",
    "stmt(i0:=1)", "stmt(i0 := )", "stmt(i0 := -0)", "stmt(i0 := 1 % 2)", "stmt(i0 := 1 + 2 + 3)",
    "stmt(i0 := 1/2)", "stmt(i0 := 1 / 2 / 3)", "stmt(i0 := / 2)", "stmt(i0 := 1 /)", "stmt(i0 / 2 := 1)",
    "trans(i0/i1)", "trans(i0 / i1 / i2)", "trans(/ i1)", "trans(i0 /)", "trans(i0 / -0)", "def(i0 / 2)",
    "stmt(i0 := 2147483648)", "stmt(1 := i0)", "stmt(if i0 goto 1)", "stmt(if 1 goto 2 else 3)",
    "stmt(true)", "stmt(if i0 goto 2 else 2147483648)", "stmt(read 1)", "stmt(write)", "trans()",
    "trans(i0 := 1)", "trans(true)", "trans(i0+i1)", "trans(i0 +)", "trans(i0 & i1)",
    "trans(i0 + i1 + i2)", "trans(i64)", "trans(skip)", "entry()", "exit(1)", "true()",
];

#[test]
fn misspelled_conditions_are_refused_7() {
    for condition in MISSPELLED {
        assert_number(condition.as_bytes(), 7);
    }
    for byte in 0..=255 {
        // No byte may follow, and only the letters of the operators may stand second.
        assert_number(&[b't', b'r', b'u', b'e', byte], 7);
        let known = b"XFGYRM".contains(&byte);
        assert_number(&[b'E', byte, b' ', b't', b'r', b'u', b'e'], if known { 0 } else { 7 });
        let known = b"UWSB".contains(&byte);
        let bracket = [b"A[true ".as_slice(), &[byte], b" true]"].concat();
        assert_number(&bracket, if known { 0 } else { 7 });
    }
}

/// Conditions with a constant in each place that takes one, spelled C.
const CONSTANT_PLACES: [&str; 7] = [
    "stmt(i1 := C)",
    "stmt(i1 := C + i0)",
    "stmt(i1 := i0 - C)",
    "stmt(i1 := C = C)",
    "trans(C)",
    "!trans(C < i0)",
    "E[trans(i0 * C) U stmt(i1 := C)]",
];

fn assert_number_at_places(constant: &str, expected: u8) {
    for place in CONSTANT_PLACES {
        assert_number(place.replace('C', constant).as_bytes(), expected);
    }
}

#[test]
fn constants_below_zero_are_taken() {
    #[rustfmt::skip]
    let constants = [
        "-1", "-9", "-10", "-40", "-100", "-1000000000", "-2147483639", "-2147483640",
        "-2147483647", "-2147483648",
    ];
    for constant in constants {
        assert_number_at_places(constant, 0);
    }
    for right in ["i0 - -40", "-1 - -1", "0 - 40", "-40"] {
        assert_number(format!("stmt(i1 := {})", right).as_bytes(), 0);
        assert_number(format!("trans({})", right).as_bytes(), 0);
    }
}

#[test]
fn other_signs_are_refused_7() {
    #[rustfmt::skip]
    let wrong = [
        "-0", "-00", "-01", "-007", "-02147483648", "--1", "---1", "- 40", "-  40", "+1", "+0",
        "+-1", "-+1", "-", "--", "1-", "-1-", "-i0", "-i", "-1_000", "-1.0", "-0x10", "-1 0", " -1",
        "-1 ", "-٣", "−1", "(-1)", "-2147483649", "-2147483658", "-3000000000", "-4294967295",
        "-4294967296", "-4294967336", "-9999999999", "-21474836480", "-21474836481",
        "-18446744073709551615", "-18446744073709551617",
    ];
    for constant in wrong {
        assert_number_at_places(constant, 7);
    }
    for digits in [11, 20, 21, 400] {
        assert_number_at_places(&format!("-{}", "1".repeat(digits)), 7);
        assert_number_at_places(&format!("-{}", "0".repeat(digits)), 7);
    }
    for right in ["i0 -40", "i0 --40", "i0 - - 40", "i0-40", "0 -40", "-1 -1", "-1 --1", "-1 - -0"]
    {
        assert_number(format!("stmt(i1 := {})", right).as_bytes(), 7);
        assert_number(format!("trans({})", right).as_bytes(), 7);
    }
}

#[test]
fn statement_numbers_take_no_sign() {
    for n in ["-0", "-1", "-2", "+2", "--2", "-", "- 2", "-2147483648", "-4294967294"] {
        assert_number(format!("node({})", n).as_bytes(), 7);
        assert_number(format!("stmt(if i0 goto {} else 3)", n).as_bytes(), 7);
        assert_number(format!("stmt(if i0 goto 3 else {})", n).as_bytes(), 7);
    }
}

#[test]
fn a_prefix_or_a_condition_and_a_byte_is_misspelled() {
    let conditions = [
        "E[!def(i2) U use(i2)]",
        "AY A[((!def(i2) & trans(7)) & !entry) B stmt(i2 := 7)]",
        "AY A[((!def(i2) & trans(-40)) & !entry) B stmt(i2 := -40)]",
        "(EX exit | AM !stmt(if i0 goto 300 else 0))",
    ];
    for condition in conditions {
        assert_number(condition.as_bytes(), 0);
        for end in 0..condition.len() {
            assert_number(&condition.as_bytes()[..end], 7);
        }
        for byte in 0..=255 {
            assert_number(&[condition.as_bytes(), &[byte]].concat(), 7);
        }
    }
}

// The order of refusals, and what they keep

#[test]
fn a_table_under_1024_words_is_refused_1() {
    for room in [0, 1, 16, 256, 1_023] {
        assert_eq!(number(P.as_bytes(), b"exit", room), 1);
    }
    for room in [1_024, 1_025, 3_000] {
        assert_eq!(number(P.as_bytes(), b"exit", room), 0);
    }
}

/// Conditions that are refused 6 to 8.
fn refused_conditions() -> Vec<(Vec<u8>, u8)> {
    vec![
        (negations(1021).into_bytes(), 6),
        (vec![b'x'; 1025], 6),
        (Vec::new(), 7),
        (b"(true)".to_vec(), 7),
        ((negations(64) + "x").into_bytes(), 7),
        (negations(64).into_bytes(), 8),
    ]
}

#[test]
fn refusals_come_in_order_and_change_nothing_lent() {
    let good = (b"exit".to_vec(), 0);
    let conditions = [vec![good], refused_conditions()].concat();
    for (condition, of_condition) in &conditions {
        assert_number(condition, *of_condition);
        assert_eq!(number(P.as_bytes(), condition, TABLE_WORDS - 1), 1);
        for (program, of_program) in refused_programs() {
            assert_eq!(number(&program, condition, TABLE_WORDS), of_program);
            assert_eq!(number(&program, condition, TABLE_WORDS - 1), 1);
            assert_eq!(number(&program, condition, 0), 1);
        }
    }
}

#[test]
fn a_second_call_keeps_what_the_first_filled_beyond_its_parts() {
    let mut table = vec![7; 1_100];
    let rows = |words: [u64; 4]| words.map(|word| row(&[word])).concat();
    let longer = b"E[!def(i2) U use(i2)]";
    let answer = tabulate(P.as_bytes(), longer, &mut table);
    assert_eq!(answer, Ok(Tabulated { parts: 4, satisfied: 4, first: 4 }));
    assert_eq!(table[..64], rows([4, 251, 8, 120]));
    assert!(table[64..].iter().all(|&word| word == 7));
    let answer = tabulate(P.as_bytes(), b"EX exit", &mut table);
    assert_eq!(answer, Ok(Tabulated { parts: 2, satisfied: 3, first: 5 }));
    assert_eq!(table[..64], rows([128, 208, 8, 120]));
    assert!(table[64..].iter().all(|&word| word == 7));
    assert_eq!(tabulate(P.as_bytes(), b"EX", &mut table), Err(Refusal::ConditionMisspelled));
    assert_eq!(table[..64], rows([128, 208, 8, 120]));
}
