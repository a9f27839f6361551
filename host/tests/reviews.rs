//! Executed cases of `review`. Expected rows are worked out from the description of conditions, by
//! hand, or are what `tabulate` answers for a line alone.

mod common;

use common::{lines, option, refused_programs, shown, text, P};
use oracle::generate::{self, Random};
use rewrites::{raw, review, tabulate, Refusal, Reviewed};
use rewrites::{PART_WORDS, REVIEW_LINES, REVIEW_WORDS, TABLE_WORDS};

// What is lent

/// Words on either side of the lent table, and of each array.
const GUARD: usize = 8;

/// Where the places that a call sets stand, each with words around it that are kept.
const TABLES: usize = 1;
const LINES: usize = 3;
const TABLE_OF: usize = 5;
const PARTS: usize = TABLE_OF + REVIEW_LINES + 1;
const SATISFIED: usize = PARTS + REVIEW_LINES + 1;
const FIRST: usize = SATISFIED + REVIEW_LINES + 1;
const PLACES: usize = FIRST + REVIEW_LINES + 1;

/// The places lent to a raw call, with guards around them.
#[derive(Clone, Debug, PartialEq)]
struct Lent {
    words: Vec<u64>,
    places: Vec<u32>,
}

fn unchanged(room: usize) -> Lent {
    let words = (0..room + 2 * GUARD).map(|k| 0x9e37_79b9_7f4a_7c15 ^ k as u64).collect();
    Lent { words, places: (0..PLACES).map(|k| 0xeeee_0000 + k as u32).collect() }
}

/// What a line is told to be.
#[derive(Clone, Copy, Debug, PartialEq)]
struct Line {
    table: u32,
    parts: u32,
    satisfied: u32,
    first: u32,
}

/// A line's table, its parts, how many statements satisfy it, and the first.
fn line(table: u32, parts: u32, satisfied: u32, first: u32) -> Line {
    Line { table, parts, satisfied, first }
}

/// The lent places after a call that filled these rows for these lines.
fn filled(room: usize, rows: &[[u64; PART_WORDS]], lines: &[Line]) -> Lent {
    let mut lent = unchanged(room);
    let words = rows.concat();
    lent.words[GUARD..GUARD + words.len()].copy_from_slice(&words);
    lent.places[TABLES] = rows.len() as u32;
    lent.places[LINES] = lines.len() as u32;
    for (j, line) in lines.iter().enumerate() {
        lent.places[TABLE_OF + j] = line.table;
        lent.places[PARTS + j] = line.parts;
        lent.places[SATISFIED + j] = line.satisfied;
        lent.places[FIRST + j] = line.first;
    }
    lent
}

/// The number that a raw call returns, and the lent places after it.
fn lend(program: &[u8], conditions: &[u8], room: usize) -> (u8, Lent) {
    let mut lent = unchanged(room);
    let (given, asked) = (program.to_vec(), conditions.to_vec());
    let table = &mut lent.words[GUARD..GUARD + room];
    let places = lent.places.as_mut_ptr();
    // SAFETY: the pointers come from references, and no two of the written places overlap.
    let number = unsafe {
        raw::rewrites_review(
            given.as_ptr(),
            given.len(),
            asked.as_ptr(),
            asked.len(),
            table.as_mut_ptr(),
            table.len(),
            places.add(TABLES),
            places.add(LINES),
            places.add(TABLE_OF).cast(),
            places.add(PARTS).cast(),
            places.add(SATISFIED).cast(),
            places.add(FIRST).cast(),
        )
    };
    assert_eq!((&given[..], &asked[..]), (program, conditions));
    (number, lent)
}

/// The number of the refusal, which changes nothing that was lent, or 0.
fn number(program: &[u8], conditions: &[u8], room: usize) -> u8 {
    let (number, lent) = lend(program, conditions, room);
    if number != 0 {
        assert_eq!(lent, unchanged(room), "{}", shown(conditions));
    }
    let safe = review(program, conditions, &mut vec![0; room]);
    assert_eq!(safe.map_or_else(Refusal::number, |_| 0), number, "{}", shown(conditions));
    number
}

fn assert_number(conditions: &str, expected: u8) {
    let found = number(P.as_bytes(), conditions.as_bytes(), REVIEW_WORDS);
    assert_eq!(found, expected, "{}", shown(conditions.as_bytes()));
}

/// The tables are these rows, and the lines are so; all else is kept.
fn assert_rows(program: &[u8], conditions: &str, rows: &[[u64; PART_WORDS]], lines: &[Line]) {
    for room in [REVIEW_WORDS, REVIEW_WORDS + 1, 4_000] {
        let expected = (0, filled(room, rows, lines));
        assert_eq!(lend(program, conditions.as_bytes(), room), expected, "{}", conditions);
    }
    let answer = review(program, conditions.as_bytes(), &mut [0; REVIEW_WORDS]);
    assert_eq!(answer, Ok(reviewed(rows.len(), lines)), "{}", conditions);
}

/// A row that has these words, each in its place, the others being 0.
fn row(words: &[(usize, u64)]) -> [u64; PART_WORDS] {
    let mut row = [0; PART_WORDS];
    words.iter().for_each(|&(k, word)| row[k] = word);
    row
}

/// The rows of P: word 0 of each, the others being 0.
fn assert_on_p(conditions: &str, words: &[u64], lines: &[Line]) {
    let rows: Vec<[u64; PART_WORDS]> = words.iter().map(|&word| row(&[(0, word)])).collect();
    assert_rows(P.as_bytes(), conditions, &rows, lines);
}

/// What the safe call answers: entries past the lines are 0.
fn reviewed(tables: usize, lines: &[Line]) -> Reviewed {
    let each = |of: fn(&Line) -> u32| std::array::from_fn(|j| lines.get(j).map_or(0, of));
    Reviewed {
        tables: tables as u32,
        lines: lines.len() as u32,
        table_of: each(|line| line.table),
        parts: each(|line| line.parts),
        satisfied: each(|line| line.satisfied),
        first: each(|line| line.first),
    }
}

/// How many tables a review of P fills.
fn tables(conditions: &str) -> u32 {
    let answer = review(P.as_bytes(), conditions.as_bytes(), &mut [0; REVIEW_WORDS]);
    answer.unwrap_or_else(|refusal| panic!("{}: {}", conditions, refusal)).tables
}

/// `node(k)` for each k, each behind so many `!`.
fn negated(numbers: std::ops::Range<u32>, times: usize) -> String {
    numbers.map(|k| format!("{}node({k})\n", "!".repeat(times))).collect()
}

// Tables. Statement n of P is worth 2 to the n - 1: 1, 2, 4, 8, 16, 32, 64, 128.

#[test]
fn five_lines_of_p_share_seven_tables() {
    let conditions = concat!(
        "E[!def(i2) U use(i2)]\n",
        "EX exit\n",
        "(EX exit & E[!def(i2) U use(i2)])\n",
        "use(i2)\n",
        "EX exit\n",
    );
    let lines =
        [line(3, 4, 4, 4), line(5, 2, 3, 5), line(6, 7, 2, 5), line(2, 1, 1, 4), line(5, 2, 3, 5)];
    assert_on_p(conditions, &[4, 251, 8, 120, 128, 208, 80], &lines);
}

#[test]
fn one_line_reads_as_its_condition() {
    assert_on_p("E[!def(i2) U use(i2)]\n", &[4, 251, 8, 120], &[line(3, 4, 4, 4)]);
    assert_on_p("true\n", &[255], &[line(0, 1, 8, 1)]);
    assert_on_p("false\n", &[0], &[line(0, 1, 0, 0)]);
    assert_on_p("AX false\n", &[0, 0], &[line(1, 2, 0, 0)]);
}

#[test]
fn operands_the_other_way_round_are_another_part() {
    let lines = [line(2, 3, 0, 0), line(3, 3, 0, 0)];
    assert_on_p("(exit & entry)\n(entry & exit)\n", &[128, 1, 0, 0], &lines);
    let lines = [line(2, 3, 2, 1), line(3, 3, 2, 1)];
    assert_on_p("(exit | entry)\n(entry | exit)\n", &[128, 1, 129, 129], &lines);
    assert_eq!(tables("E[exit U entry]\nE[entry U exit]\n"), 4);
    assert_eq!(tables("((exit & entry) | (entry & exit))\n"), 5);
}

#[test]
fn parts_of_one_line_share_too() {
    assert_on_p("(EX exit & EX exit)\n", &[128, 208, 208], &[line(2, 5, 3, 5)]);
    assert_on_p("((exit & exit) | (exit & exit))\n", &[128, 128, 128], &[line(2, 7, 1, 8)]);
    assert_on_p("E[true U true]\n", &[255, 255], &[line(1, 3, 8, 1)]);
}

#[test]
fn a_line_again_has_its_table_again() {
    let lines = [line(1, 3, 8, 1); 32];
    assert_on_p(&"(true & true)\n".repeat(32), &[255, 255], &lines);
    let lines = [line(0, 1, 1, 8), line(1, 1, 1, 1), line(0, 1, 1, 8), line(1, 1, 1, 1)];
    assert_on_p("exit\nentry\nexit\nentry\n", &[128, 1], &lines);
}

#[test]
fn tables_stand_in_the_order_of_first_endings() {
    // `exit` ends first on line 1 and last on line 3.
    let lines = [line(0, 1, 1, 8), line(2, 3, 0, 0), line(1, 1, 1, 1), line(0, 1, 1, 8)];
    assert_on_p("exit\n(entry & exit)\nentry\nexit\n", &[128, 1, 0], &lines);
    // A part of a later line that a whole line was before.
    let lines = [line(1, 2, 7, 1), line(2, 3, 1, 8)];
    assert_on_p("!exit\n!!exit\n", &[128, 127, 128], &lines);
    // The inner of two that end together comes first.
    assert_on_p("!!exit\n!exit\n", &[128, 127, 128], &[line(2, 3, 1, 8), line(1, 2, 7, 1)]);
}

#[test]
fn parts_that_are_true_alike_but_spelled_otherwise_differ() {
    let lines = [line(0, 1, 1, 1), line(1, 1, 1, 1), line(2, 1, 1, 1), line(3, 1, 1, 1)];
    assert_on_p("entry\nnode(1)\nstmt(read i0)\n", &[1, 1, 1], &lines[..3]);
    assert_eq!(tables("trans(7)\ntrans(i31)\ntrans(7 + 7)\n"), 3);
    assert_eq!(tables("stmt(i1 := -1)\nstmt(i1 := 0 - 1)\nstmt(i1 := 1)\n"), 3);
}

/// Every operator and every kind of atom is told from the others, with the same operands.
#[test]
fn operators_and_atoms_are_told_apart() {
    let unary =
        ["!", "EX ", "AX ", "EF ", "AF ", "EG ", "AG ", "EY ", "AY ", "ER ", "AR ", "EM ", "AM "];
    let conditions: String = unary.iter().map(|sign| format!("{sign}use(i2)\n")).collect();
    assert_eq!(tables(&conditions), 14);
    let mut conditions = "(exit & entry)\n(exit | entry)\n".to_string();
    for letter in ["U", "W", "S", "B"] {
        conditions += &format!("E[exit {letter} entry]\nA[exit {letter} entry]\n");
    }
    assert_eq!(tables(&conditions), 12);
    #[rustfmt::skip]
    let atoms = [
        "true", "false", "entry", "exit", "node(1)", "node(2)", "node(12)", "def(i1)", "def(i12)",
        "use(i1)", "use(i2)", "trans(i1)", "trans(i2)", "trans(1)", "trans(i1 + i2)",
        "trans(i1 - i2)", "trans(i2 + i1)", "stmt(skip)", "stmt(read i1)", "stmt(write i1)",
        "stmt(i1 := i2)", "stmt(i1 := 2)", "stmt(i2 := 2)", "stmt(i1 := -2)", "stmt(i1 := i1 + i2)",
        "stmt(i1 := i1 * i2)", "stmt(if i1 goto 2 else 3)", "stmt(if i1 goto 3 else 2)",
        "stmt(if i2 goto 2 else 3)", "stmt(if i1 goto 2 else 2)",
    ];
    assert_eq!(tables(&String::from_utf8_lossy(&text(&atoms))), atoms.len() as u32);
}

/// The same of the operators of right sides.
#[test]
fn operators_of_right_sides_are_told_apart() {
    let mut atoms = Vec::new();
    for operator in ["+", "-", "*", "/", "<", "="] {
        atoms.push(format!("trans(i1 {operator} i2)"));
        atoms.push(format!("stmt(i3 := i1 {operator} i2)"));
    }
    let others = ["trans(i2 / i1)", "trans(i1 / 2)", "trans(i1 / 0)", "stmt(i3 := i2 / i1)"];
    atoms.extend(others.map(str::to_string));
    let once = text(&atoms);
    for conditions in [once.clone(), once.repeat(2)] {
        assert_eq!(tables(&String::from_utf8_lossy(&conditions)), atoms.len() as u32);
    }
    let lines = [line(0, 1, 6, 1), line(1, 1, 6, 1), line(0, 1, 6, 1)];
    assert_on_p("trans(i1 / i2)\ntrans(i1 * i2)\ntrans(i1 / i2)\n", &[249, 249], &lines);
}

#[test]
fn rows_have_a_bit_for_each_of_1024_statements() {
    let program = text(&lines(1_024));
    let mut not_last = [u64::MAX; PART_WORDS];
    not_last[15] >>= 1;
    let rows = [row(&[(15, 1 << 63)]), not_last, row(&[(1, 1)]), row(&[(4, 1)])];
    let lines = [line(1, 2, 1_023, 1), line(0, 1, 1, 1_024), line(2, 1, 1, 65), line(3, 1, 1, 257)];
    assert_rows(&program, "!exit\nexit\nnode(65)\nnode(257)\n", &rows, &lines);
}

/// `use` of variables that the unit keeps holds at `write` too.
#[test]
fn use_of_what_is_kept() {
    let lines = [line(0, 1, 1, 8), line(1, 1, 0, 0), line(2, 1, 1, 8)];
    assert_on_p("use(i24)\nuse(i23)\nuse(i31)\n", &[128, 0, 128], &lines);
}

// Edges and refusals

#[test]
fn differing_parts_up_to_128_are_taken_and_129_refused_17() {
    let conditions = negated(0..32, 3);
    let mut words = Vec::new();
    let mut of_lines = Vec::new();
    for k in 0..32_u32 {
        let row = if (1..=8).contains(&k) { 1 << (k - 1) } else { 0 };
        words.extend([row, 255 ^ row, row, 255 ^ row]);
        let (satisfied, first) = match k {
            1 => (7, 2),
            2..=8 => (7, 1),
            _ => (8, 1),
        };
        of_lines.push(line(4 * k + 3, 4, satisfied, first));
    }
    assert_on_p(&conditions, &words, &of_lines);
    assert_eq!(of_lines[31], line(127, 4, 8, 1));
    assert_number(&(negated(0..31, 3) + &negated(31..32, 4)), 17);
    assert_number(&(negated(0..1, 4) + &negated(1..32, 3)), 17);
    assert_eq!(tables(&(negated(0..31, 3) + &negated(31..32, 2))), 127);
    // 129 and more occurrences are no matter where they are alike.
    assert_eq!(tables(&negated(7..8, 63).repeat(32)), 64);
    assert_eq!(tables(&(negated(0..2, 63) + &negated(0..2, 50).repeat(15))), 128);
    assert_number(&(negated(0..2, 63) + "true\n"), 17);
    assert_number(&negated(0..32, 63), 17);
}

#[test]
fn lines_are_read_before_differing_parts_are_counted() {
    assert_number(&negated(0..3, 60), 17);
    assert_number(&(negated(0..3, 60) + "x\n"), 7);
    assert_number(&(negated(0..3, 60) + "true"), 7);
    assert_number(&(negated(0..3, 60) + "\n"), 7);
    assert_number(&(negated(0..3, 60) + &negated(0..1, 64)), 8);
    assert_number(&(negated(0..3, 60) + &"!".repeat(1_025) + "\n"), 6);
    assert_number(&(negated(0..3, 60) + &"!".repeat(1_025)), 6);
}

#[test]
fn lines_1_to_32_are_taken_and_others_refused_16() {
    for count in [1, 2, 31, 32] {
        assert_number(&"true\n".repeat(count), 0);
    }
    for count in [0, 33, 34, 64, 255, 256, 288, 20_000] {
        assert_number(&"true\n".repeat(count), 16);
    }
    // An unfinished last one counts.
    assert_number(&("true\n".repeat(32) + "t"), 16);
    assert_number(&("true\n".repeat(32) + "true"), 16);
    assert_number(&("true\n".repeat(31) + "true"), 7);
    // It comes before any line is read.
    assert_number(&"x\n".repeat(33), 16);
    assert_number(&"\n".repeat(33), 16);
    assert_number(&("!".repeat(2_000) + "\n").repeat(33), 16);
    assert_number(&(negated(0..3, 60) + &"true\n".repeat(30)), 16);
}

#[test]
fn the_first_faulty_line_decides() {
    let long = "!".repeat(1_025);
    let many = "!".repeat(64) + "true";
    for (one, first) in [(long.as_str(), 6), ("x", 7), ("", 7), (many.as_str(), 8)] {
        assert_number(&format!("{one}\n"), first);
        assert_number(&format!("true\n{one}\ntrue\n"), first);
        for other in [long.as_str(), "x", "", many.as_str()] {
            assert_number(&format!("{one}\n{other}\n"), first);
            assert_number(&format!("true\n{one}\ntrue\n{other}"), first);
        }
    }
}

#[test]
fn an_unfinished_last_line_is_misspelled() {
    assert_number("true", 7);
    assert_number("true\ntrue", 7);
    assert_number("t", 7);
    assert_number(&"!".repeat(1_024), 7);
    assert_number(&"!".repeat(1_025), 6);
    assert_number(&("!".repeat(1_020) + "true"), 7);
    assert_number(&("!".repeat(1_021) + "true"), 6);
    assert_number(&("!".repeat(64) + "true"), 7);
    assert_number(&("!\n".to_string() + &"!".repeat(1_025)), 7);
    assert_number(&"x".repeat(70_000), 6);
    // Byte 10 ends a line, and no other byte does.
    for end in ["\r", "\0", " ", "\r\n", "\n\n", " \n", "\n "] {
        assert_number(&format!("true{end}"), 7);
    }
}

#[test]
fn a_line_has_up_to_1024_bytes_and_64_parts() {
    let wide = |parts: usize| "!".repeat(parts - 1) + "true\n";
    assert_number(&wide(64), 0);
    assert_number(&wide(65), 8);
    assert_number(&(wide(64).repeat(31) + &wide(65)), 8);
    // They are counted at each occurrence.
    let pairs =
        |depth: usize| (0..depth).fold("true".to_string(), |text, _| format!("({text} & {text})"));
    assert_number(&(pairs(5) + "\n"), 0);
    assert_eq!(tables(&(pairs(5) + "\n")), 6);
    assert_number(&("!".to_string() + &pairs(5) + "\n"), 0);
    assert_number(&("!!".to_string() + &pairs(5) + "\n"), 8);
    // The byte 10 doesn't count.
    let longest = longest();
    assert_eq!(longest.len(), 1_024);
    assert_number(&format!("{longest}\n"), 0);
    assert_number(&format!("true\n{longest}\ntrue\n"), 0);
    assert_number(&format!("{longest} \n"), 6);
    assert_number(&format!("{longest}x\n"), 6);
    let all = format!("{longest}\n").repeat(32);
    assert_number(&all, 0);
}

/// A condition of 1,024 bytes that is taken.
fn longest() -> String {
    let atom = "stmt(i10 := -2147483648 + -2147483648)";
    let mut text = atom.to_string();
    while text.len() + atom.len() + 5 <= 1_024 {
        text = format!("({text} & {atom})");
    }
    let missing = 1_024 - text.len();
    "EX ".repeat(missing / 3) + &"!".repeat(missing % 3) + &text
}

#[test]
fn a_table_under_2048_words_is_refused_1() {
    for room in [0, 1, 16, 511, 512, 1_024, 2_047] {
        assert_eq!(number(P.as_bytes(), b"true\n", room), 1);
    }
    for room in [2_048, 2_049, 4_096] {
        assert_eq!(number(P.as_bytes(), b"true\n", room), 0);
    }
}

#[test]
fn refusals_come_in_order_and_change_nothing_lent() {
    let many = "true\n".repeat(33);
    let refused = [("", 16), (many.as_str(), 16), ("x\n", 7), ("true", 7)];
    let full = negated(0..3, 60);
    for (conditions, expected) in refused.into_iter().chain([(full.as_str(), 17), ("true\n", 0)]) {
        let conditions = conditions.as_bytes();
        assert_eq!(number(P.as_bytes(), conditions, REVIEW_WORDS), expected);
        assert_eq!(number(P.as_bytes(), conditions, REVIEW_WORDS - 1), 1);
        assert_eq!(number(b"", conditions, REVIEW_WORDS), 3);
        assert_eq!(number(b"", conditions, REVIEW_WORDS - 1), 1);
        for (program, number_of_program) in refused_programs() {
            assert_eq!(number(&program, conditions, REVIEW_WORDS), number_of_program);
            assert_eq!(number(&program, conditions, REVIEW_WORDS - 1), 1);
        }
    }
}

#[test]
fn a_second_call_keeps_what_the_first_filled_beyond_its_tables() {
    let mut table = [9; REVIEW_WORDS];
    let answer = review(P.as_bytes(), b"!exit\nentry\n", &mut table).expect("it is taken");
    assert_eq!(answer, reviewed(3, &[line(1, 2, 7, 1), line(2, 1, 1, 1)]));
    let answer = review(P.as_bytes(), b"true\n", &mut table).expect("it is taken");
    assert_eq!(answer, reviewed(1, &[line(0, 1, 8, 1)]));
    let rows = [row(&[(0, 255)]), row(&[(0, 127)]), row(&[(0, 1)])].concat();
    assert_eq!(table[..rows.len()], rows);
    assert!(table[rows.len()..].iter().all(|&word| word == 9));
}

// Each line by itself

const CASES: u64 = 4_000;

/// The table, the parts, the count and the first of a line are what `tabulate` answers for that line
/// alone, and each of its parts has a table.
#[test]
fn lines_read_as_they_do_alone() {
    let (mut taken, mut shared) = (0, 0);
    for case in 0..option("REVIEW_CASES", CASES) {
        let random = &mut Random::new(option("DIFFERENTIAL_SEED", 1) ^ (case << 8));
        let size = generate::size(random);
        let program = generate::program(random, size);
        let (count, parts) = (random.between(1, REVIEW_LINES), random.between(1, 20));
        let conditions = generate::review(random, &program, count, parts);
        let given = program.text();
        let mut table = [0; REVIEW_WORDS];
        let answer = match review(&given, &conditions, &mut table) {
            Ok(answer) => answer,
            Err(refusal) => {
                assert_eq!(refusal, Refusal::ReviewParts, "{}", shown(&conditions));
                continue;
            }
        };
        assert_eq!(answer.lines as usize, count);
        let rows: Vec<&[u64]> = table.chunks(PART_WORDS).take(answer.tables as usize).collect();
        let mut occurrences = 0;
        for (j, line) in conditions.split(|&byte| byte == 10).take(count).enumerate() {
            let mut alone = [0; TABLE_WORDS];
            let told = tabulate(&given, line, &mut alone).expect("a line is taken alone");
            let of_line = (answer.parts[j], answer.satisfied[j], answer.first[j]);
            assert_eq!(of_line, (told.parts, told.satisfied, told.first), "{}", shown(line));
            let alone: Vec<&[u64]> = alone.chunks(PART_WORDS).take(told.parts as usize).collect();
            let row = rows[answer.table_of[j] as usize];
            assert_eq!(Some(&row), alone.last(), "{}", shown(line));
            assert!(alone.iter().all(|row| rows.contains(row)), "{}", shown(line));
            occurrences += told.parts;
        }
        taken += 1;
        shared += u64::from(answer.tables < occurrences);
    }
    println!("{taken} reviews, {shared} with parts that are shared");
    assert!(taken > 0 && shared > 0);
}
