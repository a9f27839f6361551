//! Shift programs: up to 1,024 statements over 64 variables, run under a budget of steps; conditions on the
//! paths through them; and marks, which propose rewrites of them.
//!
//! The calls are those of a library that is proved to meet its contracts. This package links it and
//! gives each call a safe form. A call takes no memory but the stack of its thread, at most 512 KiB. There
//! is no state: any number of calls may be under way at once. The build links the archive `librewrites.a`
//! of the folder that the environment variable `REWRITES_LIB_DIR` names, else that of the repository.
//!
//! A program is ASCII text, one statement a line, each line ended by byte 10. The first statement
//! is `read X`, the last `write X`; between them stand `X := A`, `X := A o A` with `+`, `-`, `*`,
//! `/`, `<` or `=` for o, `if X goto n else m` and `skip`. X is a variable, `i0` to `i63`; A is one, or
//! a constant from -2147483648 to 2147483647, such as `-40`. A quotient is signed and rounded toward
//! zero; a division by 0 ends the run with a fault.
//!
//! ```
//! use rewrites::{run, Outcome, Prices, Refusal, KEPT};
//!
//! // The sum 1 + 2 + .. + i0.
//! let program = b"read i0\n\
//!     if i0 goto 3 else 6\n\
//!     i1 := i1 + i0\n\
//!     i0 := i0 - 1\n\
//!     if i0 goto 3 else 6\n\
//!     write i1\n";
//! let values = [0; 64];
//!
//! // By our prices `read` and `write` take 4 ticks each, the other 13 steps 3.
//! let ours = Prices::ours();
//! let ended = Outcome::Ended { value: 10, steps: 15, kept: [0; KEPT], ticks: 47 };
//! assert_eq!(run(program, &values, 4, 100, &ours), Ok(ended));
//!
//! // Two steps read 4 into i0 and go to statement 3.
//! let mut left = values;
//! left[0] = 4;
//! let spent = Outcome::Spent { statement: 3, values: left, ticks: 7 };
//! assert_eq!(run(program, &values, 4, 2, &ours), Ok(spent));
//!
//! assert_eq!(run(b"read i0\n", &values, 4, 100, &ours), Err(Refusal::LineCount));
//! ```
//!
//! A condition is a formula of branching-time logic, with past and future. It is true or false at
//! each statement of a program.
//!
//! ```
//! use rewrites::{tabulate, Tabulated, TABLE_WORDS};
//!
//! // Which statements store a value of i1 that no path uses?
//! let program = b"read i0\ni1 := i0\ni1 := 7\nwrite i1\n";
//! let condition = b"(def(i1) & !EX E[!def(i1) U use(i1)])";
//! let mut table = [0; TABLE_WORDS];
//! let answer = tabulate(program, condition, &mut table);
//!
//! // Statement 2 alone.
//! assert_eq!(answer, Ok(Tabulated { parts: 8, satisfied: 1, first: 2 }));
//! ```
//!
//! A review has many conditions, one a line. Parts spelled alike are worked out once.
//!
//! ```
//! use rewrites::{review, REVIEW_WORDS};
//!
//! // Two lines that share `use(i1)`: four operators and atoms, three of them different.
//! let program = b"read i0\ni1 := i0\ni1 := 7\nwrite i1\n";
//! let mut table = [0; REVIEW_WORDS];
//! let answer = review(program, b"EF use(i1)\nAX use(i1)\n", &mut table).unwrap();
//! assert_eq!((answer.lines, answer.tables), (2, 3));
//!
//! // The first line is true at all four statements, the second at 3 and 4.
//! assert_eq!(answer.satisfied[..2], [4, 2]);
//! assert_eq!(answer.first[..2], [1, 3]);
//! ```
//!
//! A driver picks the arm at each `if` on a variable of his, and the unit at all others. Can he force a
//! condition, however the unit answers, and within how many steps?
//!
//! ```
//! use rewrites::{force, Arm, TABLE_WORDS};
//!
//! // He holds the lever i0, the unit tests i1: from statement 2 he gets to the end in two steps.
//! let program = b"read i0\nif i0 goto 4 else 3\nif i1 goto 2 else 2\nskip\nwrite i0\n";
//! let answer = force(program, b"i0", b"exit", &mut [0; TABLE_WORDS]).unwrap();
//! assert_eq!(answer.number[..5], [3, 2, 3, 1, 0]);
//! assert_eq!(answer.arm_at(2), Some(Arm::Goto));
//! ```
//!
//! A mark proposes to drop an assignment, to put a copied variable or a constant in place of a
//! variable that is used, or to put a variable in place of a right side whose value it holds already.
//! Each mark is judged by a condition. The accepted ones are made, and runs of the two programs answer
//! alike.
//!
//! ```
//! use rewrites::{judge, Judged, TEXT_BYTES, VERDICT_BYTES};
//!
//! // Drop statement 2, whose value no path uses, and write what statement 3 copied.
//! let program = b"read i0\ni1 := i0\ni1 := i2\nwrite i1\n";
//! let marks = b"2: mark(rm, i1, i0)\n4: mark(rpl, i1, i2)\n";
//! let mut verdicts = [0; VERDICT_BYTES];
//! let mut text = [0; TEXT_BYTES];
//! let answer = judge(program, marks, &mut verdicts, &mut text);
//!
//! assert_eq!(answer, Ok(Judged { marks: 2, accepted: 2, bytes: 31 }));
//! assert_eq!(text[..31], *b"read i0\nskip\ni1 := i2\nwrite i2\n");
//! ```
//!
//! A road program and a creeper program become one that does what the second does with what the first
//! left.
//!
//! ```
//! use rewrites::{join, Joined, TEXT_BYTES};
//!
//! let (road, creeper) = (b"read i0\ni1 := i0 + 1\nwrite i1\n", b"read i2\nwrite i2\n");
//! let mut text = [0; TEXT_BYTES];
//! let answer = join(road, creeper, &mut text);
//!
//! // `write i1` and `read i2` become one statement.
//! assert_eq!(answer, Ok(Joined { statements: 4, bytes: 39 }));
//! assert_eq!(text[..39], *b"read i0\ni1 := i0 + 1\ni2 := i1\nwrite i2\n");
//! ```
//!
//! [`report`] tells the price of each statement in ticks, before and after the accepted marks are made.
//!
//! ```
//! use rewrites::{report, Prices};
//!
//! // Without the product, 9 ticks, statement 2 is `skip`, 1 tick.
//! let program = b"read i0\ni1 := i0 * 3\nwrite i0\n";
//! let marks = b"2: mark(rm, i1, i0 * 3)\n";
//! let mut prices = Prices::ours();
//! let answer = report(program, marks, &prices).unwrap();
//! assert_eq!((answer.given, answer.rewritten, answer.saved), (17, 9, 8));
//!
//! // A buyer with another processor brings prices of his own. There `skip` takes 6, `*` takes 5.
//! prices.read(b"2\n2\n6\n4\n3\n4\n4\n5\n4\n4\n30\n").unwrap();
//! let answer = report(program, marks, &prices).unwrap();
//! assert_eq!((answer.given, answer.rewritten, answer.saved), (9, 10, -1));
//! ```
//!
//! [`mark_line`] tells where a mark's line lies in the list, to show its verdict beside it.
//!
//! A list of readers and writers has, for each variable, the statements that define it and those that
//! use it. After a round of marks it is brought up to date.
//!
//! ```
//! use rewrites::{list, relist, LIST_WORDS};
//!
//! let program = b"read i0\ni1 := i0\nwrite i1\n";
//! let mut words = [0; LIST_WORDS];
//! let answer = list(program, &mut words).unwrap();
//!
//! // i1 is defined by statement 2 and used by statement 3.
//! assert_eq!((answer.defined[1], answer.used[1]), (1, 1));
//!
//! // `write i0` uses i0 in its place.
//! let answer = relist(program, b"3: mark(rpl, i1, i0)\n", &mut words).unwrap();
//! assert_eq!((answer.used[1], answer.used[0]), (0, 2));
//! ```
//!
//! Programs are kept as stages with a name, up to eight of them, to go back to after rounds of marks.
//!
//! ```
//! use rewrites::{Refusal, Stages};
//!
//! let program = b"read i0\ni1 := i0\nwrite i1\n";
//! let mut stages = Stages::new();
//! assert_eq!(stages.keep("given", program), Ok(1));
//! assert_eq!(stages.go_back("given").unwrap(), program);
//! assert_eq!(stages.go_back("other"), Err(Refusal::StageUnknown));
//! ```

#![warn(missing_docs)]

use std::error::Error;
use std::fmt;
use std::ops::Range;

pub mod raw;

/// The most statements of a program.
pub const STATEMENTS: usize = 1024;

/// The variables of a program, `i0` to `i63`, each with one value.
pub const VARIABLES: usize = 64;

/// The first variable that the unit keeps from one pass to the next, `i24`.
pub const FIRST_KEPT: usize = 24;

/// The number of variables that it keeps, `i24` to `i31`.
pub const KEPT: usize = 8;

/// The largest budget, in steps.
pub const MOST_STEPS: u32 = 1_000_000;

/// The words of one part in a table: a bit for each of the most statements.
pub const PART_WORDS: usize = STATEMENTS / 64;

/// The most bytes of a condition.
pub const CONDITION_BYTES: usize = 1024;

/// The most parts of a condition.
pub const PARTS: usize = 64;

/// The words that a table must have: [`PART_WORDS`] for each of the most parts.
pub const TABLE_WORDS: usize = PARTS * PART_WORDS;

/// The words that there must be for a path: one for each of the most statements, and one more.
pub const PATH_WORDS: usize = STATEMENTS + 1;

/// The most differing parts of a review.
pub const REVIEW_TABLES: usize = 128;

/// The words that the table of a review must have: [`PART_WORDS`] for each of the most differing parts.
pub const REVIEW_WORDS: usize = REVIEW_TABLES * PART_WORDS;

/// The most lines of a review.
pub const REVIEW_LINES: usize = 32;

/// What stands in [`Forced::number`] where the driver can't force the condition.
pub const UNFORCED: u32 = u32::MAX;

/// The words that a list of readers and writers must have: two sets of [`PART_WORDS`] for each variable.
pub const LIST_WORDS: usize = 2 * PART_WORDS * VARIABLES;

/// The most marks of a list.
pub const MARKS: usize = 1024;

/// The bytes that there must be for verdicts: one for each of the most marks.
pub const VERDICT_BYTES: usize = MARKS;

/// The bytes that there must be for new text: 34 for the line of each of the most statements.
pub const TEXT_BYTES: usize = 34 * STATEMENTS;

/// The kinds of statements that have a price of their own.
pub const KINDS: usize = 11;

/// The largest price, in ticks; the least is 1.
pub const MOST_PRICE: u32 = 65_535;

/// The bytes of stack that are enough for every call.
pub const STACK_BYTES: usize = 512 << 10;

/// A table of prices in ticks, which the caller holds and hands to each [`run`] and [`report`]; at first it is
/// [`ours`](Prices::ours). The library remembers none.
///
/// The entries are the prices of `read`, `write`, `skip`, `if`, `X := A`, `+`, `-`, `*`, `<`, `=` and `/`, in this
/// order. They may be any numbers. At each use one outside 1 to 65,535 counts as our price of that kind, and the
/// others as they are.
///
/// ```
/// use rewrites::{report, Prices};
///
/// // No price of a `read` is 0, so ours is taken, 4; `write` takes 70.
/// let prices = Prices([0, 70, 1, 1, 1, 1, 1, 1, 1, 1, 1]);
/// let answer = report(b"read i0\nwrite i0\n", b"", &prices)?;
/// assert_eq!(answer.before[..2], [4, 70]);
/// # Ok::<(), rewrites::Refusal>(())
/// ```
#[derive(Clone, Copy, Debug, PartialEq, Eq, Hash)]
pub struct Prices(pub [u32; KINDS]);

impl Prices {
    /// Our own prices: `read` 4, `write` 4, `skip` 1, `if` 3, `X := A` 2, `+` 3, `-` 3, `*` 9, `<` 3, `=` 3, `/` 24.
    ///
    /// ```
    /// use rewrites::Prices;
    ///
    /// assert_eq!(Prices::ours(), Prices([4, 4, 1, 3, 2, 3, 3, 9, 3, 3, 24]));
    /// assert_eq!(Prices::default(), Prices::ours());
    /// ```
    pub fn ours() -> Prices {
        let mut prices = Prices([0; KINDS]);
        // SAFETY: the pointer comes from a reference.
        unsafe { raw::rewrites_our_prices(&mut prices.0) };
        prices
    }

    /// Puts the table that a text spells in place of this one: eleven lines in the order of the entries, each a
    /// decimal number from 1 to 65,535 without leading zeros, ended by byte 10. A text that is refused leaves
    /// this table as it was.
    ///
    /// Takes at most 16 KiB of stack.
    ///
    /// # Errors
    ///
    /// [`Refusal::PriceMisspelled`] where some line is wrong, however many there are; else
    /// [`Refusal::PriceCount`] for other than eleven lines.
    ///
    /// ```
    /// use rewrites::{Prices, Refusal};
    ///
    /// let mut prices = Prices::ours();
    /// assert_eq!(prices.read(b"5\n5\n1\n2\n2\n4\n4\n12\n4\n4\n0\n"), Err(Refusal::PriceMisspelled));
    /// assert_eq!(prices.read(b"5\n5\n1\n2\n2\n4\n4\n12\n4\n4\n"), Err(Refusal::PriceCount));
    /// assert_eq!(prices, Prices::ours());
    ///
    /// prices.read(b"5\n5\n1\n2\n2\n4\n4\n12\n4\n4\n40\n")?;
    /// assert_eq!(prices, Prices([5, 5, 1, 2, 2, 4, 4, 12, 4, 4, 40]));
    /// # Ok::<(), Refusal>(())
    /// ```
    pub fn read(&mut self, text: &[u8]) -> Result<(), Refusal> {
        // SAFETY: the pointers come from references, so none is null, and the one that is written through is the
        // only one to its place.
        match unsafe { raw::rewrites_prices(text.as_ptr(), text.len(), &mut self.0) } {
            0 => Ok(()),
            number => Err(Refusal::returned(number)),
        }
    }
}

impl Default for Prices {
    fn default() -> Prices {
        Prices::ours()
    }
}

/// The bytes that there must be for stages: eight places of [`PLACE_BYTES`].
pub const STAGES_BYTES: usize = 280_000;

/// The places of stages, each of which holds a program under a name or is empty.
pub const PLACES: usize = 8;

/// The bytes of a place: a name, a length and a text.
pub const PLACE_BYTES: usize = STAGES_BYTES / PLACES;

/// The most letters of a stage's name, and the bytes that it has in a place.
pub const NAME_BYTES: usize = 8;

/// What a run answers. Each answer tells the ticks of the statements that were performed: the price of
/// each by the table in force, a statement once for each time.
#[derive(Clone, Copy, Debug, PartialEq, Eq)]
pub enum Outcome {
    /// The run ended within the budget.
    Ended {
        /// What `write` wrote.
        value: i32,
        /// The steps taken, the one of `write` among them.
        steps: u32,
        /// The values of `i24` to `i31` at the end, which the unit keeps for its next pass.
        kept: [u32; KEPT],
        /// The price of all steps taken.
        ticks: u64,
    },
    /// The run took all steps of the budget without ending.
    Spent {
        /// The statement, numbered from 1, that would be performed next.
        statement: u32,
        /// The values of `i0` to `i63` after the last step.
        values: [u32; VARIABLES],
        /// The price of all steps of the budget.
        ticks: u64,
    },
    /// A statement divided by 0 within the budget, which ended the run. Nothing is written or kept.
    Fault {
        /// The statement, numbered from 1, that divided.
        statement: u32,
        /// The steps taken, its own among them.
        steps: u32,
        /// The price of all steps taken, that of its own among them.
        ticks: u64,
    },
}

impl Outcome {
    /// The ticks of the statements that were performed.
    pub fn ticks(&self) -> u64 {
        match *self {
            Outcome::Ended { ticks, .. }
            | Outcome::Spent { ticks, .. }
            | Outcome::Fault { ticks, .. } => ticks,
        }
    }
}

/// What the tabulation of a condition answers beside the table.
#[derive(Clone, Copy, Debug, PartialEq, Eq)]
pub struct Tabulated {
    /// The number of parts, 1 to 64. The last part is the whole condition.
    pub parts: u32,
    /// How many statements satisfy the whole condition.
    pub satisfied: u32,
    /// The first of them, numbered from 1; 0 if none.
    pub first: u32,
}

/// The words that a call filled, read by statement: the parts of [`tabulate`] and [`force`], the tables of
/// [`review`], the sets of [`list()`], each [`PART_WORDS`] words.
///
/// Words that a call keeps are what they were: an answer tells how many parts or tables it filled.
///
/// ```
/// use rewrites::{list, review, tabulate, Table, LIST_WORDS, REVIEW_WORDS, TABLE_WORDS};
///
/// let program = b"read i0\nif i0 goto 2 else 3\nwrite i0\n";
///
/// // Part 0 is `exit`, part 1 is `AF exit`: statement 2 may go round for ever.
/// let mut words = [0; TABLE_WORDS];
/// let answer = tabulate(program, b"AF exit", &mut words)?;
/// let table = Table(&words);
/// assert!(table.part_at(1, 3));
/// assert!(!table.part_at(1, 2));
///
/// // The whole condition is the last part.
/// let whole: Vec<u32> = table.statements_of(answer.parts - 1).collect();
/// assert_eq!(whole, [3]);
///
/// // Of a review: the table of its second line.
/// let mut words = [0; REVIEW_WORDS];
/// let answer = review(program, b"exit\nEX exit\n", &mut words)?;
/// assert!(Table(&words).part_at(answer.table_of[1], 2));
///
/// // Of a list: variable v has set 2v, the statements that define it, and 2v + 1, those that use it.
/// let mut words = [0; LIST_WORDS];
/// list(program, &mut words)?;
/// assert_eq!(Table(&words).statements_of(0).collect::<Vec<_>>(), [1]);
/// assert_eq!(Table(&words).statements_of(1).collect::<Vec<_>>(), [2, 3]);
/// # Ok::<(), rewrites::Refusal>(())
/// ```
#[derive(Clone, Copy, Debug, PartialEq, Eq)]
pub struct Table<'t>(pub &'t [u64]);

impl<'t> Table<'t> {
    /// Whether a part, counted from 0, is true at a statement, counted from 1. False where the words have
    /// no such part, and at 0 and beyond [`STATEMENTS`].
    ///
    /// ```
    /// use rewrites::{tabulate, Table, STATEMENTS, TABLE_WORDS};
    ///
    /// let mut words = [0; TABLE_WORDS];
    /// tabulate(b"read i0\nwrite i0\n", b"EX exit", &mut words)?;
    /// let table = Table(&words);
    /// assert_eq!((table.part_at(0, 1), table.part_at(0, 2)), (false, true));
    /// assert_eq!((table.part_at(1, 1), table.part_at(1, 2)), (true, true));
    ///
    /// assert!(!table.part_at(0, 0) && !table.part_at(0, STATEMENTS as u32 + 1));
    /// assert!(!table.part_at(u32::MAX, 2));
    /// # Ok::<(), rewrites::Refusal>(())
    /// ```
    pub fn part_at(self, part: u32, statement: u32) -> bool {
        let at = (statement as usize).wrapping_sub(1);
        at < STATEMENTS
            && self.part(part).map_or(false, |words| words[at / 64] >> (at % 64) & 1 == 1)
    }

    /// The statements at which a part, counted from 0, is true, in order.
    pub fn statements_of(self, part: u32) -> impl Iterator<Item = u32> + 't {
        (1..=STATEMENTS as u32).filter(move |&statement| self.part_at(part, statement))
    }

    /// The words of a part, if there is room for it.
    pub fn part(self, part: u32) -> Option<&'t [u64]> {
        let begin = (part as usize).checked_mul(PART_WORDS)?;
        self.0.get(begin..begin.checked_add(PART_WORDS)?)
    }
}

/// What a review answers beside the tables. Entry j of an array is that of line j, counted from 0;
/// entries past the lines are 0.
#[derive(Clone, Copy, Debug, PartialEq, Eq)]
pub struct Reviewed {
    /// The number of tables, 1 to 128: that of parts that are spelled differently.
    pub tables: u32,
    /// The number of lines, 1 to 32.
    pub lines: u32,
    /// The table of each line's whole condition, counted from 0.
    pub table_of: [u32; REVIEW_LINES],
    /// The number of each line's parts, counted at each occurrence, 1 to 64.
    pub parts: [u32; REVIEW_LINES],
    /// How many statements satisfy each line.
    pub satisfied: [u32; REVIEW_LINES],
    /// The first of them, numbered from 1; 0 if none.
    pub first: [u32; REVIEW_LINES],
}

/// A path through a program: the statements that it comes by, counted from 1, and how it goes on.
#[derive(Clone, Debug, PartialEq, Eq, Hash)]
pub struct Path {
    /// The statements, from the one that was asked for on; at least one.
    pub statements: Vec<u32>,
    /// Where the path goes round for ever: the entry of `statements`, counted from 1, to which the last one steps
    /// back. Else it goes on by any steps that exist: what it shows is settled by then.
    pub turn: Option<u32>,
}

impl Path {
    /// The statements that the path goes round by, none where it has no turn.
    ///
    /// ```
    /// use rewrites::{witness, Witnessed};
    ///
    /// // Statement 2 may go round for ever.
    /// let program = b"read i0\nif i0 goto 2 else 3\nwrite i0\n";
    /// match witness(program, b"AF exit", 1, 1)? {
    ///     Witnessed::Path(path) => assert_eq!((&path.statements[..], path.round()), (&[1, 2][..], &[2][..])),
    ///     other => panic!("{:?}", other),
    /// }
    /// # Ok::<(), rewrites::Refusal>(())
    /// ```
    pub fn round(&self) -> &[u32] {
        self.turn.map_or(&[], |turn| &self.statements[turn as usize - 1..])
    }
}

/// What [`witness`] answers.
#[derive(Clone, Debug, PartialEq, Eq, Hash)]
pub enum Witnessed {
    /// A path that bears out E of the part's path operator, or speaks against A of it.
    Path(Path),
    /// There is none. Tells whether the part is true at the statement; false for one that doesn't exist.
    None(bool),
}

impl Witnessed {
    /// The path, if there is one.
    pub fn path(self) -> Option<Path> {
        match self {
            Witnessed::Path(path) => Some(path),
            Witnessed::None(_) => None,
        }
    }
}

/// An arm of an `if`.
#[derive(Clone, Copy, Debug, PartialEq, Eq, Hash)]
#[repr(u8)]
pub enum Arm {
    /// That behind `goto`.
    Goto = 1,
    /// That behind `else`.
    Else = 2,
}

/// What a driver can force, beside the table. Entry k of an array is that of statement k + 1; of entries
/// past the statements those of `number` are [`UNFORCED`], those of `arm` 0.
#[derive(Clone, Copy, Debug, PartialEq, Eq)]
pub struct Forced {
    /// The number of parts of the condition, 1 to 64.
    pub parts: u32,
    /// How many statements satisfy it.
    pub satisfied: u32,
    /// The first of them, numbered from 1; 0 if none.
    pub first: u32,
    /// The least number of steps within which the driver can be sure of the condition, however the unit
    /// answers, 0 where it is true already; [`UNFORCED`] where the unit can avoid it for ever.
    pub number: [u32; STATEMENTS],
    /// The arm that does so, as the number of [`Arm`]: the driver's where he can force the condition and
    /// it isn't true yet, the unit's where it can avoid it; else 0.
    pub arm: [u8; STATEMENTS],
}

impl Forced {
    /// The least number of steps from a statement, counted from 1, if the driver can force the condition.
    pub fn number_at(&self, statement: u32) -> Option<u32> {
        let at = usize::try_from(statement).ok()?.checked_sub(1)?;
        self.number.get(at).copied().filter(|&number| number != UNFORCED)
    }

    /// The arm that is told of a statement, counted from 1.
    pub fn arm_at(&self, statement: u32) -> Option<Arm> {
        let at = usize::try_from(statement).ok()?.checked_sub(1)?;
        match self.arm.get(at) {
            Some(1) => Some(Arm::Goto),
            Some(2) => Some(Arm::Else),
            _ => None,
        }
    }
}

/// What the judging of a list of marks answers beside the verdicts and the new text.
#[derive(Clone, Copy, Debug, PartialEq, Eq)]
pub struct Judged {
    /// The number of marks, 0 to 1,024.
    pub marks: u32,
    /// The number of accepted marks.
    pub accepted: u32,
    /// The number of bytes of new text.
    pub bytes: u32,
}

impl Judged {
    /// The new program, of the text that [`judge`] filled.
    ///
    /// # Panics
    ///
    /// Where the text is shorter than the new program, so isn't the one that was filled.
    ///
    /// ```
    /// use rewrites::{judge, Verdict, TEXT_BYTES, VERDICT_BYTES};
    ///
    /// let (mut verdicts, mut text) = ([0; VERDICT_BYTES], [0; TEXT_BYTES]);
    /// let program = b"read i0\ni1 := 7\nwrite i0\n";
    /// let marks = b"2: mark(rm, i1, 7)\n4: mark(rm, i1, 7)\n";
    /// let answer = judge(program, marks, &mut verdicts, &mut text)?;
    /// assert_eq!(answer.text(&text), b"read i0\nskip\nwrite i0\n");
    /// let told: Vec<Verdict> = answer.verdicts(&verdicts).collect();
    /// assert_eq!(told, [Verdict::Accepted, Verdict::Missing]);
    /// # Ok::<(), rewrites::Refusal>(())
    /// ```
    pub fn text<'t>(&self, text: &'t [u8]) -> &'t [u8] {
        &text[..self.bytes as usize]
    }

    /// The verdict of each mark, of the bytes that [`judge`] filled.
    ///
    /// # Panics
    ///
    /// Where there are fewer bytes than marks, or one that is no verdict: they aren't those that were filled.
    pub fn verdicts<'v>(&self, verdicts: &'v [u8]) -> impl Iterator<Item = Verdict> + 'v {
        let verdict = |&byte: &u8| Verdict::from_byte(byte).expect("a byte that judge filled");
        verdicts[..self.marks as usize].iter().map(verdict)
    }
}

/// The prices of a program's statements before and after the accepted marks of a list are made, in ticks.
///
/// Entry k of an array is that of statement k + 1; entries past the statements are 0.
#[derive(Clone, Copy, Debug, PartialEq, Eq)]
pub struct Report {
    /// The number of statements, 2 to 1,024, the same in both programs.
    pub statements: u32,
    /// The price of each statement of the given program.
    pub before: [u32; STATEMENTS],
    /// The price of each statement of the rewritten program.
    pub after: [u32; STATEMENTS],
    /// The sum of the prices before.
    pub given: u32,
    /// The sum of the prices after.
    pub rewritten: u32,
    /// The sum before less the sum after, below zero where a buyer's prices make the rewritten program dearer.
    pub saved: i32,
}

/// What a list of readers and writers has, counted as the call leaves it.
#[derive(Clone, Copy, Debug, PartialEq, Eq)]
pub struct Listing {
    /// How many ones each variable's set of defining statements has.
    pub defined: [u32; VARIABLES],
    /// How many its set of using statements has.
    pub used: [u32; VARIABLES],
}

/// What a mark on statement n of a program of N statements gets. Where it isn't accepted, it gets
/// the first that applies, in the order of the variants.
#[derive(Clone, Copy, Debug, PartialEq, Eq, Hash)]
#[repr(u8)]
pub enum Verdict {
    /// The mark is accepted, and made.
    Accepted = 0,
    /// n is 0 or above N.
    Missing = 11,
    /// An earlier line names n, accepted or not.
    Repeated = 12,
    /// The mark doesn't fit.
    Unfit = 13,
    /// It is an `rm`, and n divides by anything but a constant other than 0.
    MayFault = 18,
    /// Its condition is false at n.
    Unmet = 14,
}

impl Verdict {
    /// Every verdict, in the order in which they apply.
    pub const ALL: [Verdict; 6] = [
        Verdict::Accepted,
        Verdict::Missing,
        Verdict::Repeated,
        Verdict::Unfit,
        Verdict::MayFault,
        Verdict::Unmet,
    ];

    /// The number that is the verdict's byte.
    pub fn number(self) -> u8 {
        self as u8
    }

    /// The verdict with this byte, if it is one.
    ///
    /// ```
    /// use rewrites::Verdict;
    ///
    /// assert_eq!(Verdict::from_byte(0), Some(Verdict::Accepted));
    /// assert_eq!(Verdict::from_byte(14), Some(Verdict::Unmet));
    /// assert_eq!(Verdict::from_byte(18), Some(Verdict::MayFault));
    /// assert_eq!(Verdict::from_byte(15), None);
    /// assert_eq!(Verdict::Unmet.to_string(), "its condition is false at n");
    /// ```
    pub fn from_byte(byte: u8) -> Option<Verdict> {
        Verdict::ALL.into_iter().find(|v| v.number() == byte)
    }
}

impl fmt::Display for Verdict {
    fn fmt(&self, f: &mut fmt::Formatter<'_>) -> fmt::Result {
        f.write_str(match self {
            Verdict::Accepted => "accepted",
            Verdict::Missing => "n is 0 or above N",
            Verdict::Repeated => "an earlier line names n, accepted or not",
            Verdict::Unfit => "the mark doesn't fit",
            Verdict::MayFault => "it drops a division by anything but a constant other than 0",
            Verdict::Unmet => "its condition is false at n",
        })
    }
}

/// What the last statement of a path does that speaks against a mark.
#[derive(Clone, Copy, Debug, PartialEq, Eq, Hash)]
#[repr(u8)]
pub enum Culprit {
    /// It uses the variable that an `rm` would leave unset.
    Used = 1,
    /// An accepted `cse` of the list makes it use that variable.
    UsedByCse = 2,
    /// It defines the variable of an `rpl` or a `cse` otherwise.
    Redefined = 3,
    /// It defines a variable of A or E.
    OperandRedefined = 4,
    /// It is statement 1: nothing was copied yet.
    NothingCopied = 5,
}

impl Culprit {
    /// Every culprit, in the order of their numbers.
    pub const ALL: [Culprit; 5] = [
        Culprit::Used,
        Culprit::UsedByCse,
        Culprit::Redefined,
        Culprit::OperandRedefined,
        Culprit::NothingCopied,
    ];

    /// The number by which the library names the culprit.
    pub fn number(self) -> u8 {
        self as u8
    }
}

impl fmt::Display for Culprit {
    fn fmt(&self, f: &mut fmt::Formatter<'_>) -> fmt::Result {
        f.write_str(match self {
            Culprit::Used => "the last statement uses the variable",
            Culprit::UsedByCse => "an accepted cse makes the last statement use the variable",
            Culprit::Redefined => "the last statement defines the variable",
            Culprit::OperandRedefined => "the last statement defines a variable of the right side",
            Culprit::NothingCopied => "statement 1: nothing was copied yet",
        })
    }
}

/// A path that speaks against a mark.
#[derive(Clone, Debug, PartialEq, Eq, Hash)]
pub struct Reason {
    /// Its statements, counted from 1: the mark's own first, and the culprit last.
    pub path: Vec<u32>,
    /// What the last of them does.
    pub culprit: Culprit,
}

/// What [`why`] answers.
#[derive(Clone, Debug, PartialEq, Eq, Hash)]
pub struct Because {
    /// The verdict of the line.
    pub verdict: Verdict,
    /// With [`Verdict::Unmet`], and only then, a path.
    pub reason: Option<Reason>,
}

/// What a finished [`join`] answers.
#[derive(Clone, Copy, Debug, PartialEq, Eq)]
pub struct Joined {
    /// The number of statements of the joined program: those of both programs, less 1.
    pub statements: u32,
    /// The number of bytes of its text.
    pub bytes: u32,
}

impl Joined {
    /// The joined program, of the text that [`join`] filled.
    ///
    /// # Panics
    ///
    /// Where the text is shorter than the joined program, so isn't the one that was filled.
    ///
    /// ```
    /// use rewrites::{join, TEXT_BYTES};
    ///
    /// let mut text = [0; TEXT_BYTES];
    /// let answer = join(b"read i0\nwrite i0\n", b"read i1\nwrite i1\n", &mut text)?;
    /// assert_eq!(answer.text(&text), b"read i0\ni1 := i0\nwrite i1\n");
    /// # Ok::<(), rewrites::Refusal>(())
    /// ```
    pub fn text<'t>(&self, text: &'t [u8]) -> &'t [u8] {
        &text[..self.bytes as usize]
    }
}

/// Why a call is refused. The first that applies is answered, in the order of the variants.
#[derive(Clone, Copy, Debug, PartialEq, Eq, Hash)]
#[repr(u8)]
pub enum Refusal {
    /// A lent buffer is too small.
    Buffer = 1,
    /// The budget is over [`MOST_STEPS`].
    Budget = 15,
    /// A line of the program isn't a statement, or the last lacks its byte 10.
    Misspelled = 2,
    /// The program has under 2 or over 1,024 lines.
    LineCount = 3,
    /// `read` isn't first, `write` isn't last, or one of them stands elsewhere.
    Placement = 4,
    /// A target of an `if` is 0, 1 or above the count of statements.
    Target = 5,
    /// A driver's list isn't variables with single spaces between, or names one twice.
    Driver = 22,
    /// A review has no line, or over [`REVIEW_LINES`] lines.
    ReviewLines = 16,
    /// The condition, or a line of a review, is longer than 1,024 bytes.
    ConditionLength = 6,
    /// The condition is misspelled, or the last line of a review lacks its byte 10.
    ConditionMisspelled = 7,
    /// The condition has over 64 parts.
    ConditionParts = 8,
    /// A review has over 128 differing parts.
    ReviewParts = 17,
    /// A line of the marks is misspelled, or the last lacks its byte 10.
    MarkMisspelled = 9,
    /// There are over 1,024 lines of marks.
    MarkCount = 10,
    /// The joined program would have over 1,024 statements.
    JoinedCount = 21,
    /// A line of a table of prices isn't a number from 1 to 65,535, or the last lacks its byte 10.
    PriceMisspelled = 19,
    /// A table of prices has other than eleven lines.
    PriceCount = 20,
    /// The name of a stage isn't 1 to 8 lower-case letters.
    StageName = 23,
    /// The name of a stage to be kept is new, and all [`PLACES`] hold others.
    StagesFull = 24,
    /// No place holds the name of the stage to return to.
    StageUnknown = 25,
}

impl Refusal {
    /// Every refusal, in the order in which they apply.
    pub const ALL: [Refusal; 20] = [
        Refusal::Buffer,
        Refusal::Budget,
        Refusal::Misspelled,
        Refusal::LineCount,
        Refusal::Placement,
        Refusal::Target,
        Refusal::Driver,
        Refusal::ReviewLines,
        Refusal::ConditionLength,
        Refusal::ConditionMisspelled,
        Refusal::ConditionParts,
        Refusal::ReviewParts,
        Refusal::MarkMisspelled,
        Refusal::MarkCount,
        Refusal::JoinedCount,
        Refusal::PriceMisspelled,
        Refusal::PriceCount,
        Refusal::StageName,
        Refusal::StagesFull,
        Refusal::StageUnknown,
    ];

    /// The number by which the library names the refusal.
    pub fn number(self) -> u8 {
        self as u8
    }

    /// The refusal that a call of the library returned, which is never another number.
    fn returned(number: u8) -> Refusal {
        let found = Refusal::ALL.iter().find(|r| r.number() == number);
        *found.unwrap_or_else(|| unreachable!("{} is no refusal", number))
    }
}

impl fmt::Display for Refusal {
    fn fmt(&self, f: &mut fmt::Formatter<'_>) -> fmt::Result {
        f.write_str(match self {
            Refusal::Buffer => {
                "table under 1,024 words, or 2,048 of a review or a list, path under 1,025 words, verdicts \
                 under 1,024 bytes, new text under 34,816 bytes or stages under 280,000 bytes"
            }
            Refusal::Budget => "budget over 1,000,000",
            Refusal::Misspelled => {
                "some line isn't spelled as a statement, or the last lacks its byte 10"
            }
            Refusal::LineCount => "under 2 or over 1,024 lines",
            Refusal::Placement => "`read` or `write` missing from its place or standing elsewhere",
            Refusal::Target => "a target outside 2 to N",
            Refusal::Driver => "a misspelled or repeated variable of the driver",
            Refusal::ReviewLines => "no line or over 32 lines of a review",
            Refusal::ConditionLength => "condition longer than 1,024 bytes",
            Refusal::ConditionMisspelled => "condition misspelled",
            Refusal::ConditionParts => "condition of over 64 parts",
            Refusal::ReviewParts => "review of over 128 differing parts",
            Refusal::MarkMisspelled => {
                "some line of the marks misspelled, or the last without its byte 10"
            }
            Refusal::MarkCount => "over 1,024 lines of marks",
            Refusal::JoinedCount => "joined program of over 1,024 statements",
            Refusal::PriceMisspelled => {
                "some line of the prices isn't a number from 1 to 65,535, or the last lacks its byte 10"
            }
            Refusal::PriceCount => "other than eleven lines of prices",
            Refusal::StageName => "a stage's name that isn't 1 to 8 lower-case letters",
            Refusal::StagesFull => "a new name, and all eight places hold others",
            Refusal::StageUnknown => "a name that no place holds",
        })
    }
}

impl Error for Refusal {}

/// Runs the program that the text spells, from the given values of `i0` to `i63` and one input
/// value, for at most `budget` steps. Takes at most 256 KiB of stack.
///
/// A run that ends tells what `write` wrote, and the values that the unit keeps for its next pass: those
/// of the [`KEPT`] variables from [`FIRST_KEPT`] on. One that divides by 0 ends there with a fault, and
/// tells the statement. Every answer tells the ticks of the statements performed, by the table of prices that is
/// handed in. Budgets are of steps, whatever these take.
///
/// # Errors
///
/// [`Refusal::Budget`] for a budget over [`MOST_STEPS`], whatever the text holds; else, for the
/// text, [`Refusal::Misspelled`], [`Refusal::LineCount`], [`Refusal::Placement`] or
/// [`Refusal::Target`].
///
/// ```
/// use rewrites::{run, Outcome, Prices, FIRST_KEPT, KEPT};
///
/// let ours = Prices::ours();
///
/// // Values keep their low 32 bits, and the written value is signed.
/// let program = b"read i0\ni0 := i0 + 1\nwrite i0\n";
/// let answer = run(program, &[0; 64], 2147483647, 3, &ours);
/// let ended = |value, ticks| Ok(Outcome::Ended { value, steps: 3, kept: [0; KEPT], ticks });
/// assert_eq!(answer, ended(-2147483648, 11));
///
/// // A constant may be below zero.
/// let program = b"read i0\ni1 := i0 - -40\nwrite i1\n";
/// let answer = run(program, &[0; 64], 2, 3, &ours);
/// assert_eq!(answer, ended(42, 11));
///
/// // Quotients are rounded toward zero. By 0 there is none: the second step ends the run.
/// let program = b"read i0\ni1 := -7 / i0\nwrite i1\n";
/// let answer = run(program, &[0; 64], 2, 3, &ours);
/// assert_eq!(answer, ended(-3, 32));
/// let answer = run(program, &[0; 64], 0, 3, &ours);
/// assert_eq!(answer, Ok(Outcome::Fault { statement: 2, steps: 2, ticks: 28 }));
///
/// // Where every statement takes 100 ticks, the same run takes 200.
/// let answer = run(program, &[0; 64], 0, 3, &Prices([100; 11]));
/// assert_eq!(answer, Ok(Outcome::Fault { statement: 2, steps: 2, ticks: 200 }));
///
/// // i24 counts the passes: what one keeps is handed to the next.
/// let program = b"read i0\ni24 := i24 + 1\nwrite i0\n";
/// let mut values = [0; 64];
/// for pass in 1..=3 {
///     match run(program, &values, 5, 3, &ours) {
///         Ok(Outcome::Ended { value: 5, steps: 3, kept, ticks: 11 }) => {
///             assert_eq!(kept, [pass, 0, 0, 0, 0, 0, 0, 0]);
///             values[FIRST_KEPT..FIRST_KEPT + KEPT].copy_from_slice(&kept);
///         }
///         other => panic!("{:?}", other),
///     }
/// }
/// ```
pub fn run(
    program: &[u8],
    values: &[u32; VARIABLES],
    input: u32,
    budget: u32,
    prices: &Prices,
) -> Result<Outcome, Refusal> {
    let mut ended = 0;
    let mut value = 0;
    let mut steps = 0;
    let mut statement = 0;
    let mut left = [0; VARIABLES];
    let mut kept = [0; KEPT];
    let mut ticks = 0;
    // SAFETY: the pointers come from references, so none is null, and those that are written
    // through are the only ones to their places.
    let number = unsafe {
        raw::rewrites_run(
            program.as_ptr(),
            program.len(),
            values,
            input,
            budget,
            &prices.0,
            &mut ended,
            &mut value,
            &mut steps,
            &mut statement,
            &mut left,
            &mut kept,
            &mut ticks,
        )
    };
    if number != 0 {
        return Err(Refusal::returned(number));
    }
    Ok(match ended {
        1 => Outcome::Ended { value, steps, kept, ticks },
        2 => Outcome::Fault { statement, steps, ticks },
        _ => Outcome::Spent { statement, values: left, ticks },
    })
}

/// Tabulates a condition over the statements of a program: fills the table with the statements at
/// which each part of the condition is true.
///
/// The parts of a condition are its operators and atoms, counted at each occurrence, in the order
/// in which their text ends; of those that end together the inner comes first. Part k, counted from
/// 0, fills words 16k to 16k+15 of the table: bit b of word w of these is statement 64w+b+1, and
/// bits beyond the program's statements are 0. All further words of the table are kept.
///
/// Takes at most 384 KiB of stack, most where brackets stand within one another.
///
/// With p and q for conditions, a condition is `!p`, `(p & q)`, `(p | q)`; one of `EX AX EF AF EG AG
/// EY AY ER AR EM AM`, a space, p; `E[p U q]`, `A[p U q]`, the same with `W`, `S` or `B`; or an atom:
/// `true`, `false`, `entry`, `exit`, `node(n)`, `stmt(I)`, `def(X)`, `use(X)`, `trans(E)`. E means
/// some path, A all paths. X, F, G, U and W look forward, and Y, R, M, S and B, in that order, are
/// the same backward.
///
/// `use(X)` holds where X stands in the right side, is tested or is written; for X from `i24` to `i31`,
/// which the unit keeps from one pass to the next, it holds at `write` too.
///
/// # Errors
///
/// [`Refusal::Buffer`] for a table of under [`TABLE_WORDS`] words, whatever the texts hold; else,
/// for the program, [`Refusal::Misspelled`], [`Refusal::LineCount`], [`Refusal::Placement`] or
/// [`Refusal::Target`]; else, for the condition, [`Refusal::ConditionLength`],
/// [`Refusal::ConditionMisspelled`] or [`Refusal::ConditionParts`]. The table is then kept.
///
/// ```
/// use rewrites::{tabulate, Refusal, Tabulated, PART_WORDS, TABLE_WORDS};
///
/// let program = b"read i0\nif i0 goto 2 else 3\nwrite i0\n";
/// let mut table = [0; TABLE_WORDS];
///
/// // Every path comes to the end from statement 3 alone: statement 2 may go round for ever.
/// let answer = tabulate(program, b"AF exit", &mut table);
/// assert_eq!(answer, Ok(Tabulated { parts: 2, satisfied: 1, first: 3 }));
///
/// // Some path does from each statement. Part 0 is `exit`, part 1 is `EF exit`.
/// let answer = tabulate(program, b"EF exit", &mut table);
/// assert_eq!(answer, Ok(Tabulated { parts: 2, satisfied: 3, first: 1 }));
/// assert_eq!(table[0], 0b100);
/// assert_eq!(table[PART_WORDS], 0b111);
///
/// assert_eq!(tabulate(program, b"EF (exit)", &mut table), Err(Refusal::ConditionMisspelled));
/// ```
pub fn tabulate(program: &[u8], condition: &[u8], table: &mut [u64]) -> Result<Tabulated, Refusal> {
    let mut parts = 0;
    let mut satisfied = 0;
    let mut first = 0;
    // SAFETY: the pointers come from references, so none is null, and those that are written
    // through are the only ones to their places.
    let number = unsafe {
        raw::rewrites_tabulate(
            program.as_ptr(),
            program.len(),
            condition.as_ptr(),
            condition.len(),
            table.as_mut_ptr(),
            table.len(),
            &mut parts,
            &mut satisfied,
            &mut first,
        )
    };
    if number != 0 {
        return Err(Refusal::returned(number));
    }
    Ok(Tabulated { parts, satisfied, first })
}

/// Tabulates the conditions of a review together: 1 to [`REVIEW_LINES`] lines, each a condition ended
/// by byte 10.
///
/// Parts spelled alike, byte for byte, in one line or in several, get one table; tables are filled in
/// the order in which their parts first end. Table k, counted from 0, fills words 16k to 16k+15, as part k
/// does in [`tabulate`]. All further words are kept. Each line reads as it would by itself: its
/// table, its number of parts, how many statements satisfy it and the first of them are what
/// [`tabulate`] answers for that line alone.
///
/// Takes at most 384 KiB of stack, most where brackets stand within one another.
///
/// # Errors
///
/// [`Refusal::Buffer`] for a table of under [`REVIEW_WORDS`] words, whatever the texts hold; else,
/// for the program, [`Refusal::Misspelled`], [`Refusal::LineCount`], [`Refusal::Placement`] or
/// [`Refusal::Target`]; else [`Refusal::ReviewLines`] for no line or over 32, an unfinished last one
/// counted; else, for the first faulty line, [`Refusal::ConditionLength`],
/// [`Refusal::ConditionMisspelled`] or [`Refusal::ConditionParts`], where a last line without its
/// byte 10 is misspelled; else [`Refusal::ReviewParts`] for over 128 differing parts. The table is
/// then kept.
///
/// ```
/// use rewrites::{review, Refusal, PART_WORDS, REVIEW_WORDS};
///
/// let program = b"read i0\nif i0 goto 2 else 3\nwrite i0\n";
/// let mut table = [0; REVIEW_WORDS];
///
/// // `exit`, `EF exit` and `AF exit` get tables 0 to 2; the last line is the second again.
/// let answer = review(program, b"exit\nEF exit\nAF exit\nEF exit\n", &mut table).unwrap();
/// assert_eq!((answer.tables, answer.lines), (3, 4));
/// assert_eq!(answer.table_of[..4], [0, 1, 2, 1]);
/// assert_eq!(answer.satisfied[..4], [1, 3, 1, 3]);
/// assert_eq!(table[PART_WORDS], 0b111);
///
/// // Spelled otherwise is another part.
/// let answer = review(program, b"(entry & exit)\n(exit & entry)\n", &mut table).unwrap();
/// assert_eq!(answer.tables, 4);
///
/// assert_eq!(review(program, b"", &mut table), Err(Refusal::ReviewLines));
/// assert_eq!(review(program, b"exit", &mut table), Err(Refusal::ConditionMisspelled));
/// ```
pub fn review(program: &[u8], conditions: &[u8], table: &mut [u64]) -> Result<Reviewed, Refusal> {
    let none = [0; REVIEW_LINES];
    let mut reviewed =
        Reviewed { tables: 0, lines: 0, table_of: none, parts: none, satisfied: none, first: none };
    // SAFETY: the pointers come from references, so none is null, and those that are written
    // through are the only ones to their places.
    let number = unsafe {
        raw::rewrites_review(
            program.as_ptr(),
            program.len(),
            conditions.as_ptr(),
            conditions.len(),
            table.as_mut_ptr(),
            table.len(),
            &mut reviewed.tables,
            &mut reviewed.lines,
            &mut reviewed.table_of,
            &mut reviewed.parts,
            &mut reviewed.satisfied,
            &mut reviewed.first,
        )
    };
    if number != 0 {
        return Err(Refusal::returned(number));
    }
    Ok(reviewed)
}

/// Tells a path that shows why a part of a condition, counted from 0 as in [`tabulate`]'s table, is true at a
/// statement, counted from 1, or why it is false.
///
/// Negations before a path operator are looked through: the path is about the operator below them. It bears out E
/// of that operator, or speaks against A of it. What a finite way settles, as for `EF`, `E[p U q]` or against `AG`,
/// gets the shortest one that there is. Against `AF`, and for `EG`, the path goes round for ever: [`Path::turn`] tells
/// where. `E[p W q]`, and against `A[p U q]`, may get either. Past operators have paths that go backward.
///
/// Where E is true or A false there is such a path, and it is told. Else there is none, as for a part without a path
/// operator outside: [`Witnessed::None`] has the truth of the part, with all its negations.
///
/// Takes at most 384 KiB of stack, most where brackets stand within one another.
///
/// # Errors
///
/// For the program, [`Refusal::Misspelled`], [`Refusal::LineCount`], [`Refusal::Placement`] or
/// [`Refusal::Target`]; else, for the condition, [`Refusal::ConditionLength`],
/// [`Refusal::ConditionMisspelled`] or [`Refusal::ConditionParts`].
///
/// ```
/// use rewrites::{witness, Path, Witnessed};
///
/// let program = b"read i0\ni1 := 7\nif i0 goto 2 else 4\nwrite i1\n";
///
/// // Part 2 is the whole. Statement 2 comes to the end by 3; statement 1 defines no i1.
/// let answer = witness(program, b"E[def(i1) U use(i0)]", 2, 2)?;
/// assert_eq!(answer, Witnessed::Path(Path { statements: vec![2, 3], turn: None }));
/// assert_eq!(witness(program, b"E[def(i1) U use(i0)]", 2, 1)?, Witnessed::None(false));
///
/// // From 1 some path never ends: it goes round from 3 to the second statement of these.
/// let answer = witness(program, b"!AF exit", 2, 1)?;
/// assert_eq!(answer, Witnessed::Path(Path { statements: vec![1, 2, 3], turn: Some(2) }));
/// # Ok::<(), rewrites::Refusal>(())
/// ```
pub fn witness(
    program: &[u8],
    condition: &[u8],
    part: u32,
    statement: u32,
) -> Result<Witnessed, Refusal> {
    let mut words = vec![0; PATH_WORDS];
    let (mut length, mut turn, mut truth) = (0, 0, 0);
    // SAFETY: the pointers come from references, so none is null, and those that are written
    // through are the only ones to their places.
    let number = unsafe {
        raw::rewrites_witness(
            program.as_ptr(),
            program.len(),
            condition.as_ptr(),
            condition.len(),
            part,
            statement,
            words.as_mut_ptr(),
            words.len(),
            &mut length,
            &mut turn,
            &mut truth,
        )
    };
    if number != 0 {
        return Err(Refusal::returned(number));
    }
    if length == 0 {
        return Ok(Witnessed::None(truth == 1));
    }
    words.truncate(length as usize);
    Ok(Witnessed::Path(Path { statements: words, turn: place(turn) }))
}

/// Tells what a driver can force on a program. The list, empty or with single spaces between, names the
/// variables that are his: at an `if` on one of them he picks the arm, at every other the unit does,
/// without regard to values.
///
/// For each statement the answer has the least number of steps within which he can bring about the
/// condition, however the unit answers: he has a way to pick arms such that every run that keeps to it
/// has met the condition by then, and none for a smaller number. From every other statement the unit
/// has a way to avoid the condition for ever. [`Forced::arm`] has the arms of both: at his `if` that from
/// which the number is lower, or the only one that has a number; at the unit's one from which he can't
/// force it either; the one behind `goto` where both serve alike. `write` stays where it is.
///
/// The table is filled as by [`tabulate`]. Takes at most 384 KiB of stack, most where brackets stand
/// within one another.
///
/// # Errors
///
/// [`Refusal::Buffer`] for a table of under [`TABLE_WORDS`] words, whatever the texts hold; else, for
/// the program, [`Refusal::Misspelled`], [`Refusal::LineCount`], [`Refusal::Placement`] or
/// [`Refusal::Target`]; else [`Refusal::Driver`] for the list; else, for the condition,
/// [`Refusal::ConditionLength`], [`Refusal::ConditionMisspelled`] or [`Refusal::ConditionParts`]. The
/// table is then kept.
///
/// ```
/// use rewrites::{force, Arm, Refusal, TABLE_WORDS, UNFORCED};
///
/// // A loop that goes round while i0 isn't 0.
/// let program = b"read i0\ni0 := i0 - 1\nif i0 goto 2 else 4\nwrite i0\n";
/// let mut table = [0; TABLE_WORDS];
///
/// // If i0 is the driver's he leaves it; if not, the unit can go round for ever.
/// let answer = force(program, b"i0", b"exit", &mut table)?;
/// assert_eq!(answer.number[..4], [3, 2, 1, 0]);
/// assert_eq!(answer.arm_at(3), Some(Arm::Else));
/// let answer = force(program, b"", b"exit", &mut table)?;
/// assert_eq!(answer.number[..4], [UNFORCED, UNFORCED, UNFORCED, 0]);
/// assert_eq!((answer.number_at(3), answer.arm_at(3)), (None, Some(Arm::Goto)));
///
/// assert_eq!(force(program, b"i0 i0", b"exit", &mut table), Err(Refusal::Driver));
/// # Ok::<(), Refusal>(())
/// ```
pub fn force(
    program: &[u8],
    driver: &[u8],
    condition: &[u8],
    table: &mut [u64],
) -> Result<Forced, Refusal> {
    let (number, arm) = ([UNFORCED; STATEMENTS], [0; STATEMENTS]);
    let mut forced = Forced { parts: 0, satisfied: 0, first: 0, number, arm };
    // SAFETY: the pointers come from references, so none is null, and those that are written
    // through are the only ones to their places.
    let number = unsafe {
        raw::rewrites_force(
            program.as_ptr(),
            program.len(),
            driver.as_ptr(),
            driver.len(),
            condition.as_ptr(),
            condition.len(),
            table.as_mut_ptr(),
            table.len(),
            &mut forced.parts,
            &mut forced.satisfied,
            &mut forced.first,
            &mut forced.number,
            &mut forced.arm,
        )
    };
    if number != 0 {
        return Err(Refusal::returned(number));
    }
    Ok(forced)
}

/// Judges each mark of a list on a program, and writes the program with the accepted marks made.
///
/// A list has zero to 1,024 lines, each ended by byte 10: `n: mark(rm, X, E)`, `n: mark(rpl, X, A)` or
/// `n: mark(cse, T, E)`, in any order.
///
/// - `rm` fits where statement n is `X := E`. Where E is `A / B`, B must be a constant other than 0.
///   Condition: `!EX E[!def(X) U use(X)]`, where `use(X)` holds also at each statement whose `cse` with
///   X for T is accepted, in whatever line of the list it stands: there X gains a reader. Made: `skip`.
/// - `rpl` fits where n uses X, and A is a variable if n is an `if` or a `write`; at `write` it fits
///   only for the X that is written. Condition: `AY A[((!def(X) & trans(A)) & !entry) B stmt(X := A)]`.
///   Made: A for every use of X in n.
/// - `cse` fits where n is `Z := E`, and E has two operands. Condition:
///   `AY A[((!def(T) & trans(E)) & !entry) B (stmt(T := E) & trans(E))]`. Made: `Z := T`.
///
/// Each mark is judged on the given program, `cse` lines before any `rm`. [`tabulate`] knows no list: it
/// tells the condition of an `rm` true also where a `cse` of the list refuses the `rm`. Line j's verdict
/// fills byte j of the verdicts, counted from 0: [`Verdict`] names it. Accepted marks are all made
/// together, refused ones aren't. The new program has the same line count, and fills the front of the
/// text. All further bytes of the verdicts and of the text are kept.
///
/// From every start, and under every budget that isn't refused, runs of the two programs answer the
/// same value, the same steps and the same kept values, a fault at the same statement after the same
/// steps, or 'spent' at the same statement. Of the values told with 'spent', those of every variable that
/// the given program may still use before defining it, its live variables, are the same in both: those x
/// for which `E[!def(x) U use(x)]` is true at that statement of the given program. The others may differ,
/// and so may the ticks of all runs.
///
/// Takes at most 384 KiB of stack.
///
/// # Errors
///
/// [`Refusal::Buffer`] for verdicts of under [`VERDICT_BYTES`] or a text of under [`TEXT_BYTES`]
/// bytes, whatever the program and the marks hold; else, for the program, [`Refusal::Misspelled`],
/// [`Refusal::LineCount`], [`Refusal::Placement`] or [`Refusal::Target`]; else, for the marks,
/// [`Refusal::MarkMisspelled`] or [`Refusal::MarkCount`]. The verdicts and the text are then kept.
///
/// ```
/// use rewrites::{judge, Judged, Verdict, TEXT_BYTES, VERDICT_BYTES};
///
/// let program = b"read i0\n\
///     i1 := i0\n\
///     i2 := 7\n\
///     i3 := i1 + i2\n\
///     if i0 goto 6 else 8\n\
///     i0 := i0 - 1\n\
///     if i0 goto 4 else 8\n\
///     write i3\n";
/// let marks = b"4: mark(rpl, i2, 7)\n\
///     3: mark(rm, i2, 7)\n\
///     4: mark(rpl, i1, i0)\n\
///     6: mark(rm, i0, 1)\n\
///     9: mark(rm, i2, 7)\n";
/// let mut verdicts = [0; VERDICT_BYTES];
/// let mut text = [0; TEXT_BYTES];
/// let answer = judge(program, marks, &mut verdicts, &mut text);
///
/// // The first mark is made: statement 4 adds 7.
/// assert_eq!(answer, Ok(Judged { marks: 5, accepted: 1, bytes: 100 }));
/// let rewritten = b"read i0\n\
///     i1 := i0\n\
///     i2 := 7\n\
///     i3 := i1 + 7\n\
///     if i0 goto 6 else 8\n\
///     i0 := i0 - 1\n\
///     if i0 goto 4 else 8\n\
///     write i3\n";
/// assert_eq!(text[..100], *rewritten);
///
/// // i2 is still used by the given program; 4 is named before; 6 isn't `i0 := 1`; there is no 9.
/// let expected =
///     [Verdict::Accepted, Verdict::Unmet, Verdict::Repeated, Verdict::Unfit, Verdict::Missing];
/// for (byte, verdict) in verdicts.into_iter().zip(expected) {
///     assert_eq!(Verdict::from_byte(byte), Some(verdict));
/// }
///
/// // Nothing uses i1 and i2. Without statement 2 a run with 0 in i3 would go on.
/// let program = b"read i0\ni1 := i0 / i3\ni2 := i0 / 2\nwrite i0\n";
/// let marks = b"2: mark(rm, i1, i0 / i3)\n3: mark(rm, i2, i0 / 2)\n";
/// let answer = judge(program, marks, &mut verdicts, &mut text)?;
/// assert_eq!(answer.accepted, 1);
/// assert_eq!(Verdict::from_byte(verdicts[0]), Some(Verdict::MayFault));
/// assert_eq!(Verdict::from_byte(verdicts[1]), Some(Verdict::Accepted));
///
/// // Statement 3 computes what i1 holds. It may read i1 instead, so statement 2 stays.
/// let program = b"read i0\ni1 := i0 + 1\ni2 := i0 + 1\nwrite i2\n";
/// let marks = b"2: mark(rm, i1, i0 + 1)\n3: mark(cse, i1, i0 + 1)\n";
/// let answer = judge(program, marks, &mut verdicts, &mut text)?;
/// assert_eq!(answer, Judged { marks: 2, accepted: 1, bytes: 39 });
/// assert_eq!(verdicts[..2], [14, 0]);
/// assert_eq!(text[..39], *b"read i0\ni1 := i0 + 1\ni2 := i1\nwrite i2\n");
///
/// // By itself the first mark is accepted: the given program never uses i1.
/// let answer = judge(program, &marks[..24], &mut verdicts, &mut text)?;
/// assert_eq!((answer.accepted, verdicts[0]), (1, 0));
///
/// // Before statement 3, i1 isn't live, and differs; i0, which 3 uses, is the same.
/// use rewrites::{run, Outcome, Prices};
/// let left = |program: &[u8]| match run(program, &[0; 64], 6, 2, &Prices::ours()) {
///     Ok(Outcome::Spent { statement: 3, values, .. }) => (values[0], values[1]),
///     other => panic!("{:?}", other),
/// };
/// assert_eq!(left(program), (6, 7));
/// assert_eq!(left(answer.text(&text)), (6, 0));
/// # Ok::<(), rewrites::Refusal>(())
/// ```
pub fn judge(
    program: &[u8],
    marks: &[u8],
    verdicts: &mut [u8],
    text: &mut [u8],
) -> Result<Judged, Refusal> {
    let mut mark_count = 0;
    let mut accepted = 0;
    let mut bytes = 0;
    // SAFETY: the pointers come from references, so none is null, and those that are written
    // through are the only ones to their places.
    let number = unsafe {
        raw::rewrites_judge(
            program.as_ptr(),
            program.len(),
            marks.as_ptr(),
            marks.len(),
            verdicts.as_mut_ptr(),
            verdicts.len(),
            text.as_mut_ptr(),
            text.len(),
            &mut mark_count,
            &mut accepted,
            &mut bytes,
        )
    };
    if number != 0 {
        return Err(Refusal::returned(number));
    }
    Ok(Judged { marks: mark_count, accepted, bytes })
}

/// Tells why a line of a list of marks, counted from 0, gets [`Verdict::Unmet`]: a path from its statement on that
/// speaks against its condition. The list is judged as by [`judge`].
///
/// For `rm` the path goes forward to a statement that uses X, none between defining X; a use that an accepted `cse` of
/// the list adds counts. For `rpl` and `cse` it goes backward to a statement that defines X or a variable of A or E, or
/// to statement 1, with no copy on the way. It has at least one step, and no such path is shorter.
///
/// A line that the list hasn't gets [`Verdict::Missing`].
///
/// Takes at most 256 KiB of stack.
///
/// # Errors
///
/// For the program, [`Refusal::Misspelled`], [`Refusal::LineCount`], [`Refusal::Placement`] or
/// [`Refusal::Target`]; else, for the marks, [`Refusal::MarkMisspelled`] or [`Refusal::MarkCount`].
///
/// ```
/// use rewrites::{why, Because, Culprit, Reason, Verdict};
///
/// let program = b"read i0\ni1 := 7\nif i0 goto 4 else 5\ni1 := i1 + i0\ni2 := i1\nwrite i2\n";
/// let marks = b"2: mark(rm, i1, 7)\n5: mark(rpl, i1, 7)\n4: mark(rpl, i1, 7)\n";
///
/// // Statement 4 uses i1, by way of 3; and so does 5.
/// let answer = why(program, marks, 0)?;
/// assert_eq!(answer.verdict, Verdict::Unmet);
/// let reason = answer.reason.unwrap();
/// assert_eq!((reason.path.len(), reason.culprit), (3, Culprit::Used));
///
/// // Before 5, statement 4 may have set i1 otherwise.
/// let reason = Reason { path: vec![5, 4], culprit: Culprit::Redefined };
/// assert_eq!(why(program, marks, 1)?, Because { verdict: Verdict::Unmet, reason: Some(reason) });
/// assert_eq!(why(program, marks, 2)?, Because { verdict: Verdict::Accepted, reason: None });
/// # Ok::<(), rewrites::Refusal>(())
/// ```
pub fn why(program: &[u8], marks: &[u8], line: u32) -> Result<Because, Refusal> {
    let mut path = vec![0; PATH_WORDS];
    let (mut verdict, mut length, mut culprit) = (0, 0, 0);
    // SAFETY: the pointers come from references, so none is null, and those that are written
    // through are the only ones to their places.
    let number = unsafe {
        raw::rewrites_why(
            program.as_ptr(),
            program.len(),
            marks.as_ptr(),
            marks.len(),
            line,
            path.as_mut_ptr(),
            path.len(),
            &mut verdict,
            &mut length,
            &mut culprit,
        )
    };
    if number != 0 {
        return Err(Refusal::returned(number));
    }
    path.truncate(length as usize);
    let found = Verdict::ALL.iter().find(|v| u32::from(v.number()) == verdict);
    let verdict = *found.unwrap_or_else(|| unreachable!("{} is no verdict", verdict));
    let culprit = Culprit::ALL.iter().find(|c| u32::from(c.number()) == culprit);
    Ok(Because { verdict, reason: culprit.map(|&culprit| Reason { path, culprit }) })
}

/// Tells the price of each statement of a program in ticks, before and after the accepted marks of a list
/// are made, and the totals, by the table of prices that is handed in. The list is judged as by [`judge`].
///
/// Takes at most 512 KiB of stack.
///
/// # Errors
///
/// For the program, [`Refusal::Misspelled`], [`Refusal::LineCount`], [`Refusal::Placement`] or
/// [`Refusal::Target`]; else, for the marks, [`Refusal::MarkMisspelled`] or [`Refusal::MarkCount`].
///
/// ```
/// use rewrites::{report, Prices, Refusal};
///
/// // A sum that is computed twice, and a product that nothing uses.
/// let program = b"read i0\ni1 := i0 + 1\ni2 := i0 + 1\ni3 := i2 * i2\nwrite i2\n";
/// let marks = b"3: mark(cse, i1, i0 + 1)\n4: mark(rm, i3, i2 * i2)\n";
/// let ours = Prices::ours();
/// let answer = report(program, marks, &ours)?;
/// assert_eq!(answer.statements, 5);
/// assert_eq!(answer.before[..5], [4, 3, 3, 9, 4]);
/// assert_eq!(answer.after[..5], [4, 3, 2, 1, 4]);
/// assert_eq!((answer.given, answer.rewritten, answer.saved), (23, 14, 9));
///
/// // Where `skip` takes 100 ticks and all else 1, the list makes the program dearer.
/// let answer = report(program, marks, &Prices([1, 1, 100, 1, 1, 1, 1, 1, 1, 1, 1]))?;
/// assert_eq!((answer.given, answer.rewritten, answer.saved), (5, 104, -99));
///
/// assert_eq!(report(program, b"4: mark(rm, i3)\n", &ours), Err(Refusal::MarkMisspelled));
/// # Ok::<(), Refusal>(())
/// ```
pub fn report(program: &[u8], marks: &[u8], prices: &Prices) -> Result<Report, Refusal> {
    let none = [0; STATEMENTS];
    let mut report =
        Report { statements: 0, before: none, after: none, given: 0, rewritten: 0, saved: 0 };
    // SAFETY: the pointers come from references, so none is null, and those that are written
    // through are the only ones to their places.
    let number = unsafe {
        raw::rewrites_report(
            program.as_ptr(),
            program.len(),
            marks.as_ptr(),
            marks.len(),
            &prices.0,
            &mut report.before,
            &mut report.after,
            &mut report.statements,
            &mut report.given,
            &mut report.rewritten,
            &mut report.saved,
        )
    };
    if number != 0 {
        return Err(Refusal::returned(number));
    }
    Ok(report)
}

/// Tells where line `line` of a list of marks, counted from 0, lies in the list: the bytes from its first
/// to its byte 10. [`judge`] puts the line's verdict into byte `line` of the verdicts.
///
/// The lines lie end to end: the first begins at 0, each ends where the next begins, and the last ends at
/// the list's length. At and beyond the number of marks the range is empty and stands there.
///
/// Takes at most 16 KiB of stack.
///
/// # Errors
///
/// [`Refusal::MarkMisspelled`] or [`Refusal::MarkCount`] for the list, whichever line is asked for.
///
/// ```
/// use rewrites::{judge, mark_line, Refusal, Verdict, TEXT_BYTES, VERDICT_BYTES};
///
/// let program = b"read i0\ni1 := i0\ni1 := i2\nwrite i1\n";
/// let marks = b"3: mark(rm, i1, i2)\n4: mark(rpl, i1, i2)\n";
/// let mut verdicts = [0; VERDICT_BYTES];
/// let answer = judge(program, marks, &mut verdicts, &mut [0; TEXT_BYTES])?;
///
/// // The marks that are refused, as they stand in the list.
/// for line in 0..answer.marks {
///     if verdicts[line as usize] != Verdict::Accepted.number() {
///         assert_eq!(marks[mark_line(marks, line)?], *b"3: mark(rm, i1, i2)\n");
///     }
/// }
///
/// assert_eq!(mark_line(marks, 0), Ok(0..20));
/// assert_eq!(mark_line(marks, 1), Ok(20..41));
/// assert_eq!(mark_line(marks, 2), Ok(41..41));
/// assert_eq!(mark_line(&marks[..40], 0), Err(Refusal::MarkMisspelled));
/// # Ok::<(), Refusal>(())
/// ```
pub fn mark_line(marks: &[u8], line: u32) -> Result<Range<usize>, Refusal> {
    let mut begin = 0;
    let mut end = 0;
    // SAFETY: the pointers come from references, so none is null, and those that are written
    // through are the only ones to their places.
    let number =
        unsafe { raw::rewrites_mark_line(marks.as_ptr(), marks.len(), line, &mut begin, &mut end) };
    if number != 0 {
        return Err(Refusal::returned(number));
    }
    Ok(begin..end)
}

/// The line of a program's text, counted from 1, that its refusal is about, if it is about one.
///
/// It is the first that isn't spelled as a statement, else the first whose `read` or `write` stands wrong, else
/// the first with a target outside 2 to N. A wrong number of lines is about no line.
///
/// ```
/// use rewrites::blame_program;
///
/// assert_eq!(blame_program(b"read i0\nskip\nif i0 goto 9 else 2\nwrite i0\n"), Some(3));
/// assert_eq!(blame_program(b"read i0\n"), None);
/// assert_eq!(blame_program(b"read i0\nwrite i0\n"), None);
/// ```
pub fn blame_program(program: &[u8]) -> Option<u32> {
    // SAFETY: the pointer comes from a reference, so it isn't null.
    place(unsafe { raw::rewrites_blame_program(program.as_ptr(), program.len()) })
}

/// The first line of a list of marks, counted from 1, that isn't spelled as a mark or lacks its byte 10.
///
/// ```
/// use rewrites::blame_marks;
///
/// assert_eq!(blame_marks(b"2: mark(rm, i0, 1)\n3: mark(rm, i0)\n"), Some(2));
/// assert_eq!(blame_marks(b"2: mark(rm, i0, 1)"), Some(1));
/// assert_eq!(blame_marks(b"2: mark(rm, i0, 1)\n"), None);
/// ```
pub fn blame_marks(marks: &[u8]) -> Option<u32> {
    // SAFETY: the pointer comes from a reference, so it isn't null.
    place(unsafe { raw::rewrites_blame_marks(marks.as_ptr(), marks.len()) })
}

/// The byte, counted from 1, at which the reading of a misspelled condition stops.
///
/// What stands before it begins the spelling of some condition, and with that byte it begins none. Where the
/// whole text only begins one it is the byte after the last. A condition that is too long or has too many parts
/// is wrong at no byte.
///
/// ```
/// use rewrites::blame_condition;
///
/// assert_eq!(blame_condition(b"E[true U node(05)]"), Some(16));
/// assert_eq!(blame_condition(b"(true & fal"), Some(12));
/// assert_eq!(blame_condition(b"(true & false)"), None);
/// ```
pub fn blame_condition(condition: &[u8]) -> Option<u32> {
    // SAFETY: the pointer comes from a reference, so it isn't null.
    place(unsafe { raw::rewrites_blame_condition(condition.as_ptr(), condition.len()) })
}

/// A place that is counted from 1, as a call tells it: 0 is none.
fn place(number: u32) -> Option<u32> {
    (number != 0).then_some(number)
}

/// The version of the library that is linked, as one number that grows with it: 10,000 for each major version, 100
/// for each minor one, and 1 for each patch.
///
/// ```
/// assert_eq!(rewrites::version(), 100);
/// ```
pub fn version() -> u32 {
    // SAFETY: nothing is lent.
    unsafe { raw::rewrites_version() }
}

/// Makes the list of a program's readers and writers: for each variable the statements that define it,
/// `read X` or `X := E`, and those that use it.
///
/// Words 32v to 32v+15 of the list are the statements that define variable v, words 32v+16 to 32v+31 those
/// that use it, as the rows of `def` and `use` are in [`tabulate`]: bit b of word w of those sixteen is statement
/// 64w+b+1, and bits beyond the program's statements are 0. `i24` to `i31`, which the unit keeps from one
/// pass to the next, are used at `write` too. Words from [`LIST_WORDS`] on are kept.
///
/// Takes at most 256 KiB of stack.
///
/// # Errors
///
/// [`Refusal::Buffer`] for a list of under [`LIST_WORDS`] words, whatever the text holds; else, for the
/// program, [`Refusal::Misspelled`], [`Refusal::LineCount`], [`Refusal::Placement`] or
/// [`Refusal::Target`]. The list is then kept.
///
/// ```
/// use rewrites::{list, Refusal, LIST_WORDS, PART_WORDS};
///
/// // i0 is defined by statements 1 and 2, and used by 2, twice, and by 3.
/// let program = b"read i0\ni0 := i0 + i0\nwrite i0\n";
/// let mut words = [0; LIST_WORDS];
/// let answer = list(program, &mut words)?;
/// assert_eq!((words[0], words[PART_WORDS]), (0b011, 0b110));
/// assert_eq!((answer.defined[0], answer.used[0]), (2, 2));
///
/// // The unit keeps i24.
/// assert_eq!((answer.defined[24], answer.used[24]), (0, 1));
///
/// assert_eq!(list(program, &mut words[..2047]), Err(Refusal::Buffer));
/// # Ok::<(), Refusal>(())
/// ```
pub fn list(program: &[u8], list: &mut [u64]) -> Result<Listing, Refusal> {
    let mut listing = Listing { defined: [0; VARIABLES], used: [0; VARIABLES] };
    // SAFETY: the pointers come from references, so none is null, and those that are written
    // through are the only ones to their places.
    let number = unsafe {
        raw::rewrites_list(
            program.as_ptr(),
            program.len(),
            list.as_mut_ptr(),
            list.len(),
            &mut listing.defined,
            &mut listing.used,
        )
    };
    if number != 0 {
        return Err(Refusal::returned(number));
    }
    Ok(listing)
}

/// Brings a list of readers and writers up to date after a round of marks.
///
/// The marks are judged on the program as [`judge`] does. For each statement whose text the accepted ones
/// change, its bit in each of the 128 sets is written as in the list of the new program, set or cleared.
/// Every other bit, and every word from [`LIST_WORDS`] on, is kept. So a list that was the given program's
/// is then the new program's, word for word; one that was wrong at a statement that stays as it was is
/// wrong there still. The counts are those of the words as they are then.
///
/// Takes at most 384 KiB of stack.
///
/// # Errors
///
/// [`Refusal::Buffer`] for a list of under [`LIST_WORDS`] words, whatever the texts hold; else, for the
/// program, [`Refusal::Misspelled`], [`Refusal::LineCount`], [`Refusal::Placement`] or
/// [`Refusal::Target`]; else, for the marks, [`Refusal::MarkMisspelled`] or [`Refusal::MarkCount`]. The
/// list is then kept.
///
/// ```
/// use rewrites::{judge, list, relist, Refusal, LIST_WORDS, TEXT_BYTES, VERDICT_BYTES};
///
/// let program = b"read i0\ni1 := i0\ni2 := i1\nwrite i2\n";
/// let marks = b"3: mark(rpl, i1, i0)\n";
/// let mut words = [0; LIST_WORDS];
/// list(program, &mut words)?;
/// let answer = relist(program, marks, &mut words)?;
///
/// // Statement 3 uses i0 now, so nothing uses i1.
/// assert_eq!((answer.used[0], answer.used[1]), (2, 0));
///
/// // The list made afresh is the same.
/// let mut text = [0; TEXT_BYTES];
/// let judged = judge(program, marks, &mut [0; VERDICT_BYTES], &mut text)?;
/// let mut afresh = [0; LIST_WORDS];
/// assert_eq!(list(judged.text(&text), &mut afresh), Ok(answer));
/// assert_eq!(words, afresh);
/// # Ok::<(), Refusal>(())
/// ```
pub fn relist(program: &[u8], marks: &[u8], list: &mut [u64]) -> Result<Listing, Refusal> {
    let mut listing = Listing { defined: [0; VARIABLES], used: [0; VARIABLES] };
    // SAFETY: the pointers come from references, so none is null, and those that are written
    // through are the only ones to their places.
    let number = unsafe {
        raw::rewrites_relist(
            program.as_ptr(),
            program.len(),
            marks.as_ptr(),
            marks.len(),
            list.as_mut_ptr(),
            list.len(),
            &mut listing.defined,
            &mut listing.used,
        )
    };
    if number != 0 {
        return Err(Refusal::returned(number));
    }
    Ok(listing)
}

/// Joins a road program of N statements and a creeper program of M to one of N+M-1, and writes its text
/// to the front of `text`. All further bytes of the text are kept.
///
/// The road program's `write X` and the creeper program's `read Y` become the one statement `Y := X`,
/// number N. Creeper statement k from 2 on becomes N+k-1, and its targets likewise.
///
/// From every start the joined program runs as the road program does, up to its `write`, and then as the
/// creeper program does, started with the values that the road program left and its written value as
/// input. Where both end, it ends as the creeper program does, after the sum of their steps less 1. Where
/// one never ends, neither does the whole. A fault of the road program is a fault of the whole, at the
/// same statement after the same steps; one of the creeper program has its new number, and the sum of the
/// steps less 1.
///
/// Takes at most 256 KiB of stack.
///
/// # Errors
///
/// [`Refusal::Buffer`] for a text of under [`TEXT_BYTES`] bytes, whatever the programs hold; else, for the
/// road program, [`Refusal::Misspelled`], [`Refusal::LineCount`], [`Refusal::Placement`] or
/// [`Refusal::Target`]; else one of these for the creeper program; else [`Refusal::JoinedCount`] where
/// N+M-1 is above 1,024. The text is then kept. The refusal doesn't tell which program is meant: it is the
/// road program exactly where that by itself is refused, with [`run`] for one.
///
/// ```
/// use rewrites::{join, run, Joined, Outcome, Prices, Refusal, KEPT, TEXT_BYTES};
///
/// let road = b"read i0\ni1 := i0 + 1\nwrite i1\n";
/// let creeper = b"read i2\nif i2 goto 3 else 4\ni1 := i1 * i2\nwrite i1\n";
/// let mut text = [0; TEXT_BYTES];
/// let answer = join(road, creeper, &mut text)?;
/// assert_eq!(answer, Joined { statements: 6, bytes: 73 });
/// let joined = answer.text(&text);
/// assert_eq!(
///     joined,
///     b"read i0\n\
///     i1 := i0 + 1\n\
///     i2 := i1\n\
///     if i2 goto 5 else 6\n\
///     i1 := i1 * i2\n\
///     write i1\n"
/// );
///
/// // 3 steps write 5, and with 5 in i1 and as input 4 steps write 25: 3 + 4 - 1 steps.
/// let ended = Outcome::Ended { value: 25, steps: 6, ticks: 25, kept: [0; KEPT] };
/// assert_eq!(run(joined, &[0; 64], 4, 100, &Prices::ours())?, ended);
///
/// // The creeper program isn't taken: its `write` is missing.
/// assert_eq!(join(road, b"read i2\nskip\n", &mut text), Err(Refusal::Placement));
/// # Ok::<(), Refusal>(())
/// ```
pub fn join(road: &[u8], creeper: &[u8], text: &mut [u8]) -> Result<Joined, Refusal> {
    let mut joined = Joined { statements: 0, bytes: 0 };
    // SAFETY: the pointers come from references, so none is null, and those that are written
    // through are the only ones to their places.
    let number = unsafe {
        raw::rewrites_join(
            road.as_ptr(),
            road.len(),
            creeper.as_ptr(),
            creeper.len(),
            text.as_mut_ptr(),
            text.len(),
            &mut joined.statements,
            &mut joined.bytes,
        )
    };
    if number != 0 {
        return Err(Refusal::returned(number));
    }
    Ok(joined)
}

/// Keeps a program under a name, as a stage to go back to, in bytes that the caller holds; tells the
/// place, 1 to [`PLACES`]. [`Stages`] holds such bytes.
///
/// Stages are eight places in the first [`STAGES_BYTES`] bytes, place k, counted from 1, in the
/// [`PLACE_BYTES`] bytes from 35,000(k-1) on: the name, filled up with zero bytes to [`NAME_BYTES`], the
/// text's length in 2 bytes, low byte first, then the text. So zero bytes are eight empty places.
///
/// A place is empty where its name isn't 1 to 8 lower-case letters with zero bytes behind them, its length
/// is above 34,990, its text isn't a program, or an earlier place that isn't empty has its name. A name that
/// a place holds is known, and is replaced there; a new name takes the first empty place. Name, length and
/// text are written; the other bytes of the place, all other places and all bytes from [`STAGES_BYTES`] on
/// are kept.
///
/// Takes at most 256 KiB of stack.
///
/// # Errors
///
/// [`Refusal::Buffer`] for stages of under [`STAGES_BYTES`] bytes, whatever the rest holds; else, for the
/// program, [`Refusal::Misspelled`], [`Refusal::LineCount`], [`Refusal::Placement`] or
/// [`Refusal::Target`]; else [`Refusal::StageName`] for a wrong name; else [`Refusal::StagesFull`] where
/// the name is new and no place is empty. The stages are then kept.
///
/// ```
/// use rewrites::{go_back, keep, Refusal, STAGES_BYTES, TEXT_BYTES};
///
/// let program = b"read i0\ni1 := i0\nwrite i1\n";
/// let mut stages = vec![0; STAGES_BYTES];
/// assert_eq!(keep(&mut stages, b"given", program)?, 1);
/// assert_eq!(stages[..10], *b"given\0\0\0\x1a\0");
/// assert_eq!(stages[10..36], *program);
///
/// // Another name takes another place, and a known one its own.
/// assert_eq!(keep(&mut stages, b"short", b"read i0\nwrite i0\n")?, 2);
/// assert_eq!(keep(&mut stages, b"given", b"read i5\nwrite i5\n")?, 1);
///
/// let mut text = [0; TEXT_BYTES];
/// assert_eq!(go_back(&stages, b"given", &mut text)?, 17);
/// assert_eq!(text[..17], *b"read i5\nwrite i5\n");
///
/// assert_eq!(keep(&mut stages, b"Given", program), Err(Refusal::StageName));
/// # Ok::<(), Refusal>(())
/// ```
pub fn keep(stages: &mut [u8], name: &[u8], program: &[u8]) -> Result<u32, Refusal> {
    let mut place = 0;
    // SAFETY: the pointers come from references, so none is null, and those that are written
    // through are the only ones to their places.
    let number = unsafe {
        raw::rewrites_keep(
            stages.as_mut_ptr(),
            stages.len(),
            name.as_ptr(),
            name.len(),
            program.as_ptr(),
            program.len(),
            &mut place,
        )
    };
    if number != 0 {
        return Err(Refusal::returned(number));
    }
    Ok(place)
}

/// Returns to a stage: writes the text of the program that is kept under a name to the front of `text`,
/// and tells the number of its bytes. All further bytes of the text are kept. The stages are as with
/// [`keep`].
///
/// A program that was reached from the stage by rounds of [`judge`], each on the text that the last one
/// wrote, runs as the returned program does, from every start, as long as the stage wasn't replaced in
/// between. Other stages may have been kept. The values of variables, and the ticks, may differ.
///
/// Takes at most 256 KiB of stack.
///
/// # Errors
///
/// [`Refusal::Buffer`] for stages of under [`STAGES_BYTES`] bytes or a text of under [`TEXT_BYTES`],
/// whatever the rest holds; else [`Refusal::StageName`] for a wrong name; else [`Refusal::StageUnknown`]
/// where no place holds it. The text is then kept.
///
/// ```
/// use rewrites::{go_back, keep, Refusal, STAGES_BYTES, TEXT_BYTES};
///
/// let mut stages = vec![0; STAGES_BYTES];
/// let mut text = [0; TEXT_BYTES];
/// assert_eq!(go_back(&stages, b"given", &mut text), Err(Refusal::StageUnknown));
///
/// keep(&mut stages, b"given", b"read i0\nwrite i0\n")?;
/// assert_eq!(go_back(&stages, b"given", &mut text)?, 17);
/// assert_eq!(go_back(&stages, b"given", &mut text[..34_815]), Err(Refusal::Buffer));
/// # Ok::<(), Refusal>(())
/// ```
pub fn go_back(stages: &[u8], name: &[u8], text: &mut [u8]) -> Result<u32, Refusal> {
    let mut bytes = 0;
    // SAFETY: the pointers come from references, so none is null, and those that are written
    // through are the only ones to their places.
    let number = unsafe {
        raw::rewrites_return(
            stages.as_ptr(),
            stages.len(),
            name.as_ptr(),
            name.len(),
            text.as_mut_ptr(),
            text.len(),
            &mut bytes,
        )
    };
    if number != 0 {
        return Err(Refusal::returned(number));
    }
    Ok(bytes)
}

/// Up to [`PLACES`] programs, each kept under a name, in the [`STAGES_BYTES`] bytes of [`keep`] and
/// [`go_back`].
///
/// ```
/// use rewrites::{judge, Refusal, Stages, TEXT_BYTES, VERDICT_BYTES};
///
/// let program = b"read i0\ni1 := i0\ni2 := i1\nwrite i2\n";
/// let mut stages = Stages::new();
/// stages.keep("given", program)?;
///
/// // A round of marks, and its result under a name of its own.
/// let mut text = [0; TEXT_BYTES];
/// let judged = judge(program, b"3: mark(rpl, i1, i0)\n", &mut [0; VERDICT_BYTES], &mut text)?;
/// assert_eq!(stages.keep("copied", judged.text(&text))?, 2);
///
/// assert_eq!(stages.go_back("given")?, program);
/// assert_eq!(stages.go_back("copied")?, b"read i0\ni1 := i0\ni2 := i0\nwrite i2\n");
/// assert_eq!(stages.names()[..3], [Some("given".into()), Some("copied".into()), None]);
///
/// // The bytes may be put into a file, and taken from it again.
/// assert_eq!(Stages::from_bytes(stages.as_bytes()), Some(stages));
/// # Ok::<(), Refusal>(())
/// ```
#[derive(Clone, PartialEq, Eq)]
pub struct Stages {
    bytes: Box<[u8]>,
}

impl Stages {
    /// Eight empty places.
    pub fn new() -> Stages {
        Stages { bytes: vec![0; STAGES_BYTES].into_boxed_slice() }
    }

    /// The stages that these bytes hold, if there are [`STAGES_BYTES`]. No other bytes are wrong: a place
    /// that holds no program under a right name is empty.
    pub fn from_bytes(bytes: &[u8]) -> Option<Stages> {
        (bytes.len() == STAGES_BYTES).then(|| Stages { bytes: bytes.into() })
    }

    /// All [`STAGES_BYTES`] bytes.
    pub fn as_bytes(&self) -> &[u8] {
        &self.bytes
    }

    /// Keeps a program under a name; tells the place, 1 to [`PLACES`]. See [`keep`].
    ///
    /// # Errors
    ///
    /// Those of [`keep`] but for [`Refusal::Buffer`].
    pub fn keep(&mut self, name: impl AsRef<[u8]>, program: &[u8]) -> Result<u32, Refusal> {
        keep(&mut self.bytes, name.as_ref(), program)
    }

    /// The text of the program that is kept under a name. See [`go_back`].
    ///
    /// # Errors
    ///
    /// [`Refusal::StageName`] for a wrong name; else [`Refusal::StageUnknown`] where no place holds it.
    pub fn go_back(&self, name: impl AsRef<[u8]>) -> Result<Vec<u8>, Refusal> {
        let mut text = vec![0; TEXT_BYTES];
        let bytes = go_back(&self.bytes, name.as_ref(), &mut text)?;
        text.truncate(bytes as usize);
        Ok(text)
    }

    /// The name that each place holds, none where it is empty; place k is entry k-1.
    pub fn names(&self) -> [Option<String>; PLACES] {
        let mut names: [Option<String>; PLACES] = Default::default();
        let mut alone = Stages::new();
        for (at, place) in self.bytes.chunks(PLACE_BYTES).enumerate() {
            // What the place holds where no other stands before it.
            alone.bytes[..PLACE_BYTES].copy_from_slice(place);
            let letters = place[..NAME_BYTES].split(|&byte| byte == 0).next().unwrap_or(&[]);
            let name = String::from_utf8_lossy(letters).into_owned();
            if alone.go_back(&name).is_ok() && !names.contains(&Some(name.clone())) {
                names[at] = Some(name);
            }
        }
        names
    }
}

impl Default for Stages {
    fn default() -> Stages {
        Stages::new()
    }
}

impl fmt::Debug for Stages {
    fn fmt(&self, f: &mut fmt::Formatter<'_>) -> fmt::Result {
        f.debug_tuple("Stages").field(&self.names()).finish()
    }
}
