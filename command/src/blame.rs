//! The line or the byte of a text that a refusal is about. The library tells it of programs, marks and
//! conditions; about prices and reviews it is asked one line at a time. Nothing is read here.

use rewrites::{blame_condition, blame_marks, blame_program, Prices, Refusal, REVIEW_WORDS};

/// The lines of a text, each with its byte 10 if it has one.
pub fn lines(text: &[u8]) -> impl Iterator<Item = &[u8]> {
    text.split_inclusive(|&byte| byte == b'\n')
}

/// The first line of a program, counted from 1, at which it is refused so. A count of lines that is
/// refused is about no line.
pub fn line_of_program(text: &[u8], refusal: Refusal) -> Option<usize> {
    match refusal {
        Refusal::Misspelled | Refusal::Placement | Refusal::Target => {
            blame_program(text).map(|line| line as usize)
        }
        _ => None,
    }
}

/// The first line of a list of marks, counted from 1, that is misspelled.
pub fn line_of_marks(text: &[u8]) -> Option<usize> {
    blame_marks(text).map(|line| line as usize)
}

/// The first line of a table of prices, counted from 1, that isn't a price.
pub fn line_of_prices(text: &[u8]) -> Option<usize> {
    let is_wrong = |line: &[u8]| Prices::ours().read(line) == Err(Refusal::PriceMisspelled);
    lines(text).position(is_wrong).map(|at| at + 1)
}

/// The first line of a review, counted from 1, that is refused so by itself. A count of lines or of
/// parts that is refused is about no line.
pub fn line_of_review(text: &[u8], refusal: Refusal) -> Option<usize> {
    let mut table = [0; REVIEW_WORDS];
    let is_wrong =
        |line: &[u8]| rewrites::review(b"read i0\nwrite i0\n", line, &mut table) == Err(refusal);
    lines(text).position(is_wrong).map(|at| at + 1)
}

/// The byte of a condition, counted from 1, at which its reading stopped: one past its end where it
/// only begins a condition.
pub fn byte_of_condition(condition: &[u8]) -> Option<usize> {
    blame_condition(condition).map(|byte| byte as usize)
}
