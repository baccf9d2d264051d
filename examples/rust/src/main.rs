//! Compiles examples/tile.lumas, reads examples/tile.msg by it, and prints the rows.

mod lumas;

use lumas::{Refusal, ROW_WIDTH, TABLE_MOST};

const ROWS_MOST: usize = 64;

fn print_reading(table: &[u8], message: &[u8]) {
    let mut rows = [0; ROW_WIDTH * ROWS_MOST];
    let count = match lumas::read(table, message, &mut rows) {
        Ok(count) => count,
        Err(Refusal { number, place }) => {
            println!("message refused: {number} at {place}");
            return;
        }
    };
    println!("rows: {count}");
    for (row, r) in rows.chunks(ROW_WIDTH).take(count).enumerate() {
        let part = String::from_utf8_lossy(lumas::row_bytes(message, &rows, row));
        println!("{} {} {} {} {}: {part}", r[0], r[1], r[2], r[3], r[4]);
    }
}

fn ok(table: &[u8]) -> &str {
    if lumas::table_ok(table) {
        "ok"
    } else {
        "not ok"
    }
}

fn main() {
    let text = include_bytes!("../../tile.lumas");
    let message = include_bytes!("../../tile.msg");
    let mut table = [0; TABLE_MOST];
    let length = match lumas::compile(text, &mut table) {
        Ok(length) => length,
        Err(Refusal { number, place }) => {
            println!("definition refused: {number} at {place}");
            std::process::exit(1);
        }
    };
    println!("table: {length} bytes, {}", ok(&table[..length]));
    print_reading(&table[..length], message);

    // A required field is absent.
    print_reading(&table[..length], b"17 d=812");
    // A definition that no message can meet; the table stays as it is.
    if let Err(Refusal { number, place }) = lumas::compile(b"struct a { a b; };", &mut table) {
        println!("definition refused: {number} at {place}");
    }
    println!("table: {}", ok(&table[..length]));
}
