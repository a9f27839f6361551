//! What the calls are timed on.

use oracle::marks::{self, Kind, Mark};
use oracle::program::{Expression, Operand, Program, Statement, VARIABLES};

/// The lines, each ended by byte 10.
pub fn text<L: AsRef<str>>(lines: &[L]) -> Vec<u8> {
    lines.iter().flat_map(|line| line.as_ref().bytes().chain([10])).collect()
}

/// The first and the last statement around those that are made for the numbers between.
fn program(size: usize, inner: impl Fn(usize) -> String) -> Vec<u8> {
    let mut lines = vec!["read i0".to_string()];
    lines.extend((2..size).map(inner));
    lines.push("write i3".to_string());
    text(&lines)
}

/// Statements of every kind, with loops of some lines and jumps ahead.
pub fn ordinary(size: usize) -> Vec<u8> {
    program(size, |n| match n % 8 {
        0 => format!("if i12 goto {} else {}", n - 6, n + 1),
        1 => "i1 := i0".to_string(),
        2 => format!("i12 := i1 + {}", n),
        3 => "i0 := i0 - 1".to_string(),
        4 => format!("if i1 goto {} else {}", n + 1, (n + 40).min(size)),
        5 => "skip".to_string(),
        6 => "i3 := i12 < i0".to_string(),
        _ => "i2 := i3 * i1".to_string(),
    })
}

/// No jump: the longest paths, each way.
pub fn straight(size: usize) -> Vec<u8> {
    program(size, |n| format!("i{} := i{} + {}", n % 8, (n + 3) % 8, n))
}

/// Each statement is an `if` that goes to the line before or to the end: the most steps that a
/// program can have, and long paths against the order of lines.
pub fn backward(size: usize) -> Vec<u8> {
    program(size, |n| {
        let before = if n == 2 { size - 1 } else { n - 1 };
        format!("if i{} goto {} else {}", n % 8, before, size)
    })
}

/// Each statement is an `if` whose targets lie far apart, so that no order of lines is one of steps.
pub fn scattered(size: usize) -> Vec<u8> {
    let place = |n: usize, by: usize| 2 + n * by % (size - 1);
    program(size, |n| format!("if i{} goto {} else {}", n % 8, place(n, 97), place(n, 61)))
}

/// Each sum is computed twice, one line after the other, the first time into one of `i0` to `i15`.
pub fn sums(size: usize) -> Vec<u8> {
    program(size, |n| sum(n / 2, n % 2))
}

/// The same with a jump back in place of every ninth and tenth line, for loops within loops.
pub fn looped_sums(size: usize) -> Vec<u8> {
    program(size, |n| match n % 10 {
        8 => format!("if i29 goto {} else {}", n - 6, n + 1),
        9 => format!("if i28 goto {} else {}", (n / 20 * 10).max(2), n + 1),
        _ => sum(n / 2, n % 2),
    })
}

/// Sum k, into the variable that holds it first or again.
fn sum(k: usize, again: usize) -> String {
    let x = if again == 0 { k % 16 } else { 16 + k % 8 };
    format!("i{} := i30 + {}", x, k)
}

pub const OPERATORS: [&str; 12] =
    ["EX", "AX", "EF", "AF", "EG", "AG", "EY", "AY", "ER", "AR", "EM", "AM"];

/// The operators in turn, 63 of them, before an atom.
pub fn unary_condition(operators: &[&str]) -> String {
    let mut condition = String::new();
    for operator in operators.iter().cycle().take(63) {
        condition += operator;
        condition += " ";
    }
    condition + "node(9)"
}

/// 31 brackets, each the right side of the next, around two parts.
pub fn binary_condition() -> String {
    let mut condition = "!use(i1)".to_string();
    for k in 0..31 {
        let quantifier = ["E", "A"][k % 2];
        let p = ["true", "trans(i1)"][k % 2];
        let letter = ["U", "S", "W", "B"][k % 4];
        condition = format!("{}[{} {} {}]", quantifier, p, letter, condition);
    }
    condition
}

/// 32 atoms of every kind, joined by 31 signs; one sign more.
pub fn atoms_condition() -> String {
    const ATOMS: [&str; 8] = [
        "def(i1)",
        "use(i0)",
        "trans(i1 + i2)",
        "stmt(i1 := i0)",
        "node(9)",
        "entry",
        "stmt(i3 := i12 < i0)",
        "true",
    ];
    let mut condition = ATOMS[0].to_string();
    for k in 1..32 {
        condition = format!("({} {} {})", condition, ["&", "|"][k % 2], ATOMS[k % 8]);
    }
    format!("!{}", condition)
}

/// A mark for each statement, which fits where one can: of assignments, every other one is to be
/// dropped, and in the others the first variable that is used is to be replaced by what the nearest
/// line before copies to it, if one does.
pub fn marks_for(program: &[u8]) -> Vec<u8> {
    let program = Program::read(program).expect("the program is taken");
    let statements = program.statements();
    let copied = |x: u8, before: usize| {
        let copy = statements[..before].iter().rev().find_map(|statement| match statement {
            Statement::Assign(y, Expression::Single(a)) if *y == x => Some(*a),
            _ => None,
        });
        copy.unwrap_or(Operand::Variable(31))
    };
    let mark = |(at, statement): (usize, &Statement)| {
        let used = (0..VARIABLES).find(|&x| statement.shows(x));
        let (variable, kind) = match (*statement, used) {
            (Statement::Assign(x, e), None) => (x, Kind::Remove(e)),
            (Statement::Assign(x, e), _) if at % 2 == 0 => (x, Kind::Remove(e)),
            (_, Some(x)) => (x, Kind::Replace(copied(x, at))),
            _ => (0, Kind::Replace(Operand::Variable(1))),
        };
        Mark { number: at as u32 + 1, variable, kind }
    };
    let list: Vec<Mark> = statements.iter().enumerate().map(mark).collect();
    marks::text(&list)
}

/// A mark for each statement that uses a variable, no two of which have the same condition, but where there are more jumps than pairs of
/// variables.
pub fn different_marks_for(program: &[u8]) -> Vec<u8> {
    let program = Program::read(program).expect("the program is taken");
    let mark = |(at, statement): (usize, &Statement)| {
        let variable = (0..VARIABLES).find(|&x| statement.shows(x))?;
        let a = match statement {
            Statement::Assign(..) => Operand::Constant(at as u32),
            _ => Operand::Variable((at / 8) as u8 % VARIABLES),
        };
        Some(Mark { number: at as u32 + 1, variable, kind: Kind::Replace(a) })
    };
    let list: Vec<Mark> = program.statements().iter().enumerate().filter_map(mark).collect();
    marks::text(&list)
}

/// A `cse` for each statement, by the variable that the nearest line before computes its right side into, or else by
/// one that none does. No two have the same condition.
pub fn cse_marks_for(program: &[u8]) -> Vec<u8> {
    marks_on_sums(program, |_, _, e| Kind::Reuse(e))
}

/// The same, with a mark that drops it for each sum that is computed the first time.
pub fn cse_and_rm_marks_for(program: &[u8]) -> Vec<u8> {
    marks_on_sums(program, |x, holder, e| match holder {
        Some(holder) if holder != x => Kind::Reuse(e),
        _ => Kind::Remove(e),
    })
}

/// A mark for each statement, of the kind that is chosen by the variable of an assignment, the one that holds its right
/// side already, and that right side.
fn marks_on_sums(program: &[u8], kind: impl Fn(u8, Option<u8>, Expression) -> Kind) -> Vec<u8> {
    let program = Program::read(program).expect("the program is taken");
    let statements = program.statements();
    let holder = |e: Expression, before: usize| {
        statements[..before].iter().rev().find_map(|statement| match *statement {
            Statement::Assign(t, right) if right == e => Some(t),
            _ => None,
        })
    };
    let mark = |(at, statement): (usize, &Statement)| {
        let number = at as u32 + 1;
        match *statement {
            Statement::Assign(x, e) => {
                let held = holder(e, at);
                let kind = kind(x, held, e);
                let variable = match kind {
                    Kind::Reuse(_) => held.unwrap_or(31),
                    _ => x,
                };
                Mark { number, variable, kind }
            }
            _ => {
                let right = Expression::Single(Operand::Constant(number));
                Mark { number, variable: 31, kind: Kind::Reuse(right) }
            }
        }
    };
    let list: Vec<Mark> = statements.iter().enumerate().map(mark).collect();
    marks::text(&list)
}

// Reviews

/// For each of eight variables: its value is used later on, after the statement, not after it, and is
/// stored for nothing. Each line holds the one before.
pub fn liveness_review() -> Vec<u8> {
    let lines: Vec<String> = (0..8)
        .flat_map(|x| {
            let live = format!("E[!def(i{x}) U use(i{x})]");
            let dead = format!("!EX {live}");
            [live.clone(), format!("EX {live}"), dead.clone(), format!("(def(i{x}) & {dead})")]
        })
        .collect();
    text(&lines)
}

/// The published conditions of marks: a copy or a constant for each of six variables, and its
/// assignment dropped.
pub fn marks_review() -> Vec<u8> {
    let lines: Vec<String> = (0..6)
        .flat_map(|x| {
            let copy =
                |a: &str| format!("AY A[((!def(i{x}) & trans({a})) & !entry) B stmt(i{x} := {a})]");
            [copy("i12"), copy("7"), format!("!EX E[!def(i{x}) U use(i{x})]")]
        })
        .collect();
    text(&lines)
}

/// Five lines that share parts.
pub fn short_review() -> Vec<u8> {
    let live = "E[!def(i2) U use(i2)]";
    text(&[live, "EX exit", &format!("(EX exit & {live})"), "use(i2)", "EX exit"])
}

/// A line of so many parts, operators in turn before an atom.
fn operators_line(operators: &[&str], parts: usize, atom: &str) -> String {
    let words = operators.iter().cycle().take(parts - 1);
    words.map(|operator| format!("{operator} ")).collect::<String>() + atom
}

/// 32 lines of 60 parts that share all.
pub fn same_review() -> Vec<u8> {
    text(&vec![operators_line(&OPERATORS, 60, "node(9)"); 32])
}

/// Chains of 28 to 59 `!`, each one longer than the line before: no two lines are alike, and 61 parts
/// differ.
pub fn growing_review() -> Vec<u8> {
    let line = |k: usize| "!".repeat(k) + &"!".repeat(28) + "EX use(i1)";
    text(&(0..32).map(line).collect::<Vec<String>>())
}

/// 128 parts that differ, four a line.
pub fn differing_review() -> Vec<u8> {
    let operators =
        |k: usize| [OPERATORS[k % 12], OPERATORS[(k + 5) % 12], OPERATORS[(k + 7) % 12]];
    let line = |k: usize| operators_line(&operators(k), 4, &format!("node({k})"));
    text(&(0..32).map(line).collect::<Vec<String>>())
}

/// Two chains of 63 `!`, each 16 times: 128 parts that differ, among 2,048.
pub fn chains_review() -> Vec<u8> {
    let line = |k: usize| format!("{}node({})", "!".repeat(63), k % 2);
    text(&(0..32).map(line).collect::<Vec<String>>())
}

/// 32 chains of 59 `!` whose parts all differ: refused when all are read.
pub fn refused_review() -> Vec<u8> {
    let line = |k: usize| format!("{}node({})", "!".repeat(59), k);
    text(&(0..32).map(line).collect::<Vec<String>>())
}

/// Long atoms of which each two differ in a digit at the end.
pub fn atoms_review() -> Vec<u8> {
    let atom = |k: usize| format!("stmt(i31 := -2147483640 + -21474836{:02})", k);
    let line = |k: usize| format!("({} & {})", atom(2 * k % 48), atom((2 * k + 1) % 48));
    text(&(0..32).map(line).collect::<Vec<String>>())
}
