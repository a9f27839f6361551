//! The usual slips, in words: what stands at the byte where a text's reading stopped. The library tells that byte; here only the
//! bytes around it are looked at.

use crate::blame::{byte_of_condition, lines};
use rewrites::VARIABLES;

const BYTE_ORDER_MARK: &[u8] = b"\xef\xbb\xbf";
const LARGEST: u64 = 2_147_483_647;

/// The digits around a place of a text, and what stands before them.
fn digits(text: &[u8], at: usize) -> (&[u8], Option<u8>) {
    let is_digit = |byte: &u8| byte.is_ascii_digit();
    let before = text[..at].iter().rev().take_while(|byte| is_digit(byte)).count();
    let behind = text[at..].iter().take_while(|byte| is_digit(byte)).count();
    let begin = at - before;
    (&text[begin..at + behind], begin.checked_sub(1).map(|k| text[k]))
}

/// What is wrong with a number, if it has a leading zero or is out of range.
fn number(digits: &[u8], before: Option<u8>) -> Option<String> {
    let text = String::from_utf8_lossy(digits);
    // A number of more digits than these 64 bits hold is out of every range.
    let value = text.parse().unwrap_or(u64::MAX);
    match before {
        _ if digits.len() > 1 && digits[0] == b'0' => Some(format!("`{text}` has a leading zero")),
        Some(b'i') if value >= VARIABLES as u64 => {
            Some(format!("`i{text}` is outside i0 to i{}", VARIABLES - 1))
        }
        Some(b'-') if value > LARGEST + 1 => {
            Some(format!("`-{text}` is outside -{} to {LARGEST}", LARGEST + 1))
        }
        Some(b'i' | b'-') => None,
        _ if value > LARGEST => Some(format!("`{text}` is outside 0 to {LARGEST}")),
        _ => None,
    }
}

/// Whether the bracket that a `)` closes holds a condition, and so nothing that a bracket is for.
fn closes_one(text: &[u8], at: usize) -> bool {
    let mut depth = 0;
    let open = text[..at].iter().rposition(|byte| match byte {
        b')' => {
            depth += 1;
            false
        }
        b'(' if depth > 0 => {
            depth -= 1;
            false
        }
        byte => *byte == b'(',
    });
    open.map_or(false, |open| byte_of_condition(&text[open + 1..at]).is_none())
}

/// What is wrong at a place of a text, counted from 0, where its reading stopped.
pub fn at(text: &[u8], place: usize) -> Option<String> {
    if place == 0 && text.starts_with(BYTE_ORDER_MARK) {
        return Some("a byte order mark".to_string());
    }
    let words = match text.get(place) {
        None => "it ends too early",
        Some(b'\r') => "a carriage return",
        Some(b'\t') => "a tab",
        Some(b'\n') => "a line end",
        Some(b' ') => "a space too many",
        Some(b')') if closes_one(text, place) => "superfluous brackets",
        Some(byte) if byte.is_ascii_digit() => {
            let (digits, before) = digits(text, place);
            return number(digits, before);
        }
        _ => return None,
    };
    Some(words.to_string())
}

/// The place in a line of a program, counted from 0, at which the reading of its statement stopped: that of a condition which asks
/// for just this statement.
fn stop_of_statement(statement: &[u8]) -> Option<usize> {
    const BEFORE: &[u8] = b"stmt(";
    let asked = [BEFORE, statement, b")"].concat();
    byte_of_condition(&asked)
        .map(|byte| (byte - 1).saturating_sub(BEFORE.len()).min(statement.len()))
}

/// What is wrong with a line of a program that isn't spelled.
pub fn in_statement(line: &[u8]) -> Option<String> {
    let statement = line.strip_suffix(b"\n").unwrap_or(line);
    let is_spelled = |text: &[u8]| stop_of_statement(text).is_none();
    match stop_of_statement(statement) {
        // What goes on behind a first operand has a space there, so its reading doesn't stop at it.
        Some(_) if statement.strip_suffix(b" ").map_or(false, is_spelled) => {
            Some("a space too many".to_string())
        }
        Some(place) => at(statement, place),
        None if statement.len() == line.len() => Some("its byte 10 is missing".to_string()),
        None => None,
    }
}

/// What is wrong with a line, where a byte alone tells it: some byte, or the one that is missing behind what is whole otherwise.
fn in_line(line: &[u8], is_whole: impl Fn(&[u8]) -> bool) -> Option<String> {
    let text = line.strip_suffix(b"\n").unwrap_or(line);
    if text.starts_with(BYTE_ORDER_MARK) {
        return at(text, 0);
    }
    let byte = text.iter().position(|byte| b"\r\t".contains(byte));
    let double = text.windows(2).position(|two| two == b"  ").map(|k| k + 1);
    let outer = match text {
        [b' ', ..] => Some(0),
        [.., b' '] => Some(text.len() - 1),
        _ => None,
    };
    match byte.or(double).or(outer) {
        Some(place) => at(text, place),
        None if text.len() == line.len() && is_whole(text) => {
            Some("its byte 10 is missing".to_string())
        }
        None => None,
    }
}

/// What is wrong with a line of a list of marks that isn't spelled.
pub fn in_mark(line: &[u8]) -> Option<String> {
    in_line(line, |mark| mark.ends_with(b")"))
}

/// What is wrong with a line that isn't the number which it should be.
pub fn in_number(line: &[u8]) -> Option<String> {
    let is_number = |text: &[u8]| {
        let digits = text.strip_prefix(b"-").unwrap_or(text);
        !digits.is_empty() && digits.iter().all(u8::is_ascii_digit)
    };
    in_line(line, is_number)
}

/// The first target of a branch that lies outside a program.
pub fn in_target(line: &[u8], program: &[u8]) -> Option<String> {
    let most = lines(program).count();
    let text = String::from_utf8_lossy(line);
    let targets = text.split_whitespace().filter_map(|word| word.parse::<u64>().ok());
    let outside = targets.into_iter().find(|target| !(2..=most as u64).contains(target))?;
    Some(format!("`{outside}` is outside 2 to {most}"))
}
