//! A buyer's table of prices, read by bytes.

use crate::pricing::{Prices, KINDS};

/// The largest price.
const MOST: u32 = 65_535;

/// The price at the front of a text, and the bytes of its line, byte 10 included.
fn read_line(text: &[u8]) -> Option<(u32, usize)> {
    let mut price = match text.first() {
        Some(digit @ b'1'..=b'9') => u32::from(digit - b'0'),
        _ => return None,
    };
    for (at, byte) in text.iter().enumerate().skip(1) {
        match byte {
            b'\n' => return Some((price, at + 1)),
            b'0'..=b'9' => price = 10 * price + u32::from(byte - b'0'),
            _ => return None,
        }
        if price > MOST {
            return None;
        }
    }
    None
}

/// The call: puts the text's table in place of the one that is lent, or keeps that, and tells the refusal, 19 or 20.
pub fn replace(text: &[u8], prices: &mut Prices) -> Result<(), u8> {
    let (mut read, mut count, mut rest) = ([0; KINDS], 0, text);
    while !rest.is_empty() {
        let (price, bytes) = read_line(rest).ok_or(19)?;
        if let Some(place) = read.get_mut(count) {
            *place = price;
        }
        count += 1;
        rest = &rest[bytes..];
    }
    if count != KINDS {
        return Err(20);
    }
    *prices = read;
    Ok(())
}
