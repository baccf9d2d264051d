//! An independent reference for Lumas definitions, compiled tables and messages.

#![deny(unsafe_code)]

pub mod bench;
pub mod brute;
pub mod cases;
pub mod definition;
pub mod finite;
pub mod forms;
pub mod frames;
pub mod generate;
pub mod message;
pub mod plain;
pub mod record;
pub mod table;
pub mod text;
pub mod tokens;
pub mod values;

/// A refusal: the paper's number and place.
#[derive(Clone, Copy, Debug, PartialEq, Eq)]
pub struct Refusal {
    pub number: u32,
    pub place: usize,
}

impl Refusal {
    pub const fn new(number: u32, place: usize) -> Refusal {
        Refusal { number, place }
    }
}

/// The numbers of a row.
pub const ROW_WIDTH: usize = 5;

/// One row of an accepted message: parameter, parent row, start, end, index (the place of the value
/// in its list).
pub type Row = [u32; ROW_WIDTH];
