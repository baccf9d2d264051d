//! Safe functions over the four of include/lumas.h. A slice meets all that the header asks of a
//! pointer and a length, and a `&mut` overlaps nothing, so that there is nothing left to check here.

/// A table is never longer.
pub const TABLE_MOST: usize = 22_272;

/// The numbers of a row: parameter, parent row, start, end, index (the place of the value in its
/// list, from 0).
pub const ROW_WIDTH: usize = 5;

/// Why a definition (1 to 11) or a message (20 to 30) is refused, and the place that goes with it.
#[derive(Clone, Copy, Debug, PartialEq, Eq)]
pub struct Refusal {
    pub number: u32,
    pub place: usize,
}

/// Compiles a definition into the lent table; answers the table's length. After a refusal the lent
/// bytes are as they were.
pub fn compile(text: &[u8], table: &mut [u8]) -> Result<usize, Refusal> {
    let mut value = 0;
    // SAFETY: each pointer and length are a slice's, and the lent ones are exclusive.
    let number = unsafe {
        lumas_compile(
            text.as_ptr(),
            text.len(),
            table.as_mut_ptr(),
            table.len(),
            &mut value,
        )
    };
    answer(number, value)
}

/// Whether some definition compiles to the table.
pub fn table_ok(table: &[u8]) -> bool {
    // SAFETY: the pointer and the length are a slice's.
    unsafe { lumas_table_ok(table.as_ptr(), table.len()) }
}

/// Reads a message by a table into the lent numbers, `ROW_WIDTH` for each row; answers how many rows
/// there are. After a refusal the lent numbers are as they were.
pub fn read(table: &[u8], message: &[u8], rows: &mut [u32]) -> Result<usize, Refusal> {
    let mut value = 0;
    // SAFETY: each pointer and length are a slice's, and the lent ones are exclusive.
    let number = unsafe {
        lumas_read(
            table.as_ptr(),
            table.len(),
            message.as_ptr(),
            message.len(),
            rows.as_mut_ptr(),
            rows.len(),
            &mut value,
        )
    };
    answer(number, value)
}

/// A row's part of the message, empty where the row or its span isn't there.
pub fn row_bytes<'a>(message: &'a [u8], rows: &[u32], row: usize) -> &'a [u8] {
    let mut start = 0;
    // SAFETY: each pointer and length are a slice's, and the lent number is exclusive.
    let count = unsafe {
        lumas_row(
            message.as_ptr(),
            message.len(),
            rows.as_ptr(),
            rows.len(),
            row,
            &mut start,
        )
    };
    &message[start..start + count]
}

/// A number of 0 is success, with the value; any other goes with its place.
fn answer(number: u32, value: usize) -> Result<usize, Refusal> {
    match number {
        0 => Ok(value),
        _ => Err(Refusal {
            number,
            place: value,
        }),
    }
}

extern "C" {
    fn lumas_compile(
        text: *const u8,
        text_len: usize,
        table: *mut u8,
        table_len: usize,
        value: *mut usize,
    ) -> u32;

    fn lumas_table_ok(table: *const u8, table_len: usize) -> bool;

    fn lumas_read(
        table: *const u8,
        table_len: usize,
        message: *const u8,
        message_len: usize,
        rows: *mut u32,
        rows_len: usize,
        value: *mut usize,
    ) -> u32;

    fn lumas_row(
        message: *const u8,
        message_len: usize,
        rows: *const u32,
        rows_len: usize,
        row: usize,
        start: *mut usize,
    ) -> usize;
}
