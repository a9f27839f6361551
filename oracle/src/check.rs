//! What the check program prints, and what it says on standard error.

use crate::desk;
use crate::marks::{self, TEXT_BYTES, VERDICT_BYTES};
use crate::pricing::{self, OURS};

/// The largest file that is read.
pub const LARGEST_FILE: usize = 65_535;

/// All that the check program prints for these contents of the files `given` and `marks`: nothing
/// where one is too long.
pub fn check(given: &[u8], marks: &[u8]) -> Vec<u8> {
    if given.len().max(marks.len()) > LARGEST_FILE {
        return Vec::new();
    }
    let (mut verdicts, mut text) = (vec![0; VERDICT_BYTES], vec![0; TEXT_BYTES]);
    match marks::judge(given, marks, &mut verdicts, &mut text) {
        Err(number) => format!("refused {number}\n").into_bytes(),
        Ok((count, accepted, bytes)) => {
            let list = marks::read(marks).expect("a list that was judged is taken");
            let mut output = format!("marks {count} accepted {accepted}\n").into_bytes();
            for (mark, verdict) in list.iter().zip(&verdicts) {
                output.extend(format!("{} {verdict}\n", mark.number).into_bytes());
            }
            output.extend(&text[..bytes as usize]);
            let report = pricing::report(given, marks, &OURS).expect("what was judged is priced");
            output.extend(report.text().into_bytes());
            output
        }
    }
}

/// What it says of these files on standard error. One that is missing reads as empty.
pub fn said(given: Option<&[u8]>, marks: Option<&[u8]>) -> String {
    let mut said = String::new();
    for (name, file) in [("given", given), ("marks", marks)] {
        match file {
            None => said += &format!("{name} is read as empty: No such file or directory\n"),
            Some(bytes) if bytes.len() > LARGEST_FILE => {
                return said + &format!("{name} can't be read: over 65,535 bytes\n");
            }
            Some(_) => {}
        }
    }
    let (given, marks) = (given.unwrap_or_default(), marks.unwrap_or_default());
    match marks::judge(given, marks, &mut [0; VERDICT_BYTES], &mut [0; TEXT_BYTES]) {
        Err(number) => said + &desk::words(number, given, marks),
        Ok(_) => said,
    }
}
