//! What a token is to a simple type: a value, a text without its form, or outside what it allows.

use crate::record::{Record, ASCII, BOOL, DATE, INT, TIME, UNQUOTED_ASCII};
use crate::text::number;
use crate::tokens::Shape;

/// "24 shall mean a text without the type's form".
pub const NO_FORM: u32 = 24;
/// "30 a right form whose number, length, date or time lies outside what is allowed".
pub const OUTSIDE: u32 = 30;

/// The number that refuses the token, its bytes with any quotes, as a value of the record's simple
/// type; none where it is one.
pub fn fault(record: &Record, shape: Shape, bytes: &[u8]) -> Option<u32> {
    match allowed(record, shape, bytes) {
        None => Some(NO_FORM),
        Some(false) => Some(OUTSIDE),
        Some(true) => None,
    }
}

/// Whether the token is one that the type allows; nothing where it hasn't the type's form.
fn allowed(record: &Record, shape: Shape, bytes: &[u8]) -> Option<bool> {
    match (record.kind, shape) {
        // "Ascii: a string, length without quotes."
        (ASCII, Shape::String) => Some(length_fits(record, bytes.len() - 2)),
        // "Unquoted-ascii: a word."
        (UNQUOTED_ASCII, Shape::Word) => Some(length_fits(record, bytes.len())),
        // "Int: a word, digits without leading zero, `-` before all but 0."
        (INT, Shape::Word) => number(bytes).map(|value| in_range(record, value)),
        // "Bool: `true`, `false`."
        (BOOL, Shape::Word) => matches!(bytes, b"true" | b"false").then_some(true),
        // "Date: eight digits", "Time: six digits".
        (DATE, Shape::Word) => all_digits(bytes, 8).then(|| is_date(bytes)),
        (TIME, Shape::Word) => all_digits(bytes, 6).then(|| is_time(bytes)),
        _ => None,
    }
}

fn all_digits(bytes: &[u8], count: usize) -> bool {
    bytes.len() == count && bytes.iter().all(u8::is_ascii_digit)
}

/// "Ints and lengths lie in the type's range."
fn in_range(record: &Record, value: i64) -> bool {
    (i64::from(record.lo)..=i64::from(record.hi)).contains(&value)
}

fn length_fits(record: &Record, length: usize) -> bool {
    i64::try_from(length).is_ok_and(|length| in_range(record, length))
}

/// The number that these digits write, leading zeros included.
fn digits(bytes: &[u8]) -> u32 {
    bytes
        .iter()
        .fold(0, |value, digit| value * 10 + u32::from(digit - b'0'))
}

/// Eight digits: "year 0001 to 9999, month, day".
fn is_date(bytes: &[u8]) -> bool {
    let (year, month, day) = (
        digits(&bytes[..4]),
        digits(&bytes[4..6]),
        digits(&bytes[6..]),
    );
    year >= 1 && (1..=days(year, month)).contains(&day)
}

/// The days of a month, none for a month that isn't. "February has 29 days in each year that
/// four divides"; and "A year that 100 divides and 400 doesn't has 28 days in February."
fn days(year: u32, month: u32) -> u32 {
    match month {
        2 if year.is_multiple_of(100) && !year.is_multiple_of(400) => 28,
        2 if year.is_multiple_of(4) => 29,
        2 => 28,
        4 | 6 | 9 | 11 => 30,
        1..=12 => 31,
        _ => 0,
    }
}

/// Six digits: "00 to 23, 00 to 59, 00 to 59".
fn is_time(bytes: &[u8]) -> bool {
    digits(&bytes[..2]) <= 23 && digits(&bytes[2..4]) <= 59 && digits(&bytes[4..]) <= 59
}

#[cfg(test)]
mod tests {
    use super::*;

    /// The Gregorian calendar has 3,652,059 days from 1 January 0001 to 31 December 9999, and 2,424
    /// of its years a 29 February.
    #[test]
    fn the_calendar_has_its_days() {
        let (mut days, mut leap_years) = (0, 0);
        for year in 0..10_000 {
            for month in 0..=13 {
                for day in 0..=32 {
                    let word = format!("{year:04}{month:02}{day:02}");
                    days += u32::from(is_date(word.as_bytes()));
                }
            }
            leap_years += u32::from(is_date(format!("{year:04}0229").as_bytes()));
        }
        assert_eq!((days, leap_years), (3_652_059, 2_424));
    }
}
