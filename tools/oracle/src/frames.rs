//! Frames from standard input, one line to standard output for each.
//!
//! A frame, all numbers little-endian: kind u8, room u32, a u32, b u32 (two lengths), then a bytes
//! and b bytes.
//!
//! - Kind 1, compile: a is the text, and a table of room bytes is lent, each 0xA5 before. The line
//!   is `ok LENGTH HEX` or `refused NUMBER PLACE`, then ` kept` or ` touched`.
//! - Kind 2, read: a is the table, b the message, and room numbers are lent, each 0xA5A5A5A5 before.
//!   The line is `ok COUNT n n n n n ..` with five numbers a row, or `refused NUMBER PLACE`, then
//!   ` kept` or ` touched`.
//! - Kind 3, table: does some definition compile to the table a? `yes` or `no`.
//! - Kind 4, row bytes: a is rows as u32s, b the message, room the row's number. `bytes HEX`, or
//!   `bytes` alone for the empty part.
//!
//! `kept` says that each lent byte or number that must stay is as it was: all of them after a
//! refusal, those beyond the table or the rows after success. HEX is lowercase. In kind 4 one to
//! three bytes at the end of the rows that make no whole u32 are ignored. What a kind doesn't use
//! is read and ignored.
//!
//! A frame whose room, a or b is over 100,000 gets `too long`, whatever its kind, and its bytes
//! are skipped. An unknown kind gets `unknown`. Where the input ends inside a frame, skipped bytes
//! included, the line is `short` and the program ends.

use crate::{definition, message, table, Refusal, ROW_WIDTH};
use std::fmt::Write as _;
use std::io::{self, BufRead, Read, Write};

pub const COMPILE: u8 = 1;
pub const READ: u8 = 2;
pub const TABLE: u8 = 3;
pub const ROW_BYTES: u8 = 4;

/// The most that room, a and b may be.
pub const LIMIT: u32 = 100_000;
/// What a lent byte holds before.
const LENT: u8 = 0xA5;
/// The bytes of a frame before a and b.
const HEAD: usize = 13;

/// The bytes of a frame.
pub fn frame(kind: u8, room: u32, a: &[u8], b: &[u8]) -> Vec<u8> {
    let mut frame = vec![kind];
    for number in [room, a.len() as u32, b.len() as u32] {
        frame.extend(number.to_le_bytes());
    }
    frame.extend(a);
    frame.extend(b);
    frame
}

/// What stands next in the input.
enum Next {
    End,
    Short,
    TooLong,
    Frame(Frame),
}

struct Frame {
    kind: u8,
    room: usize,
    a: Vec<u8>,
    b: Vec<u8>,
}

/// Answers every frame of the input.
pub fn answer(mut input: impl BufRead, mut output: impl Write) -> io::Result<()> {
    loop {
        let line = match next(&mut input)? {
            Next::End => break,
            Next::Short => {
                output.write_all(b"short\n")?;
                break;
            }
            Next::TooLong => "too long".to_string(),
            Next::Frame(frame) => line(&frame),
        };
        output.write_all(line.as_bytes())?;
        output.write_all(b"\n")?;
    }
    output.flush()
}

fn next(input: &mut impl BufRead) -> io::Result<Next> {
    let head = bytes(input, HEAD)?;
    if head.is_empty() {
        return Ok(Next::End);
    }
    if head.len() < HEAD {
        return Ok(Next::Short);
    }
    let number =
        |at: usize| u32::from_le_bytes([head[at], head[at + 1], head[at + 2], head[at + 3]]);
    let (room, a, b) = (number(1), number(5), number(9));
    if room.max(a).max(b) > LIMIT {
        return skip(input, u64::from(a) + u64::from(b));
    }
    let mut rest = bytes(input, (a + b) as usize)?;
    if rest.len() < (a + b) as usize {
        return Ok(Next::Short);
    }
    let b = rest.split_off(a as usize);
    Ok(Next::Frame(Frame {
        kind: head[0],
        room: room as usize,
        a: rest,
        b,
    }))
}

/// The next bytes, fewer where the input ends.
fn bytes(input: &mut impl BufRead, count: usize) -> io::Result<Vec<u8>> {
    let mut bytes = Vec::with_capacity(count);
    input.by_ref().take(count as u64).read_to_end(&mut bytes)?;
    Ok(bytes)
}

fn skip(input: &mut impl BufRead, count: u64) -> io::Result<Next> {
    let skipped = io::copy(&mut input.by_ref().take(count), &mut io::sink())?;
    Ok(if skipped < count {
        Next::Short
    } else {
        Next::TooLong
    })
}

/// The answer to one whole frame.
fn line(frame: &Frame) -> String {
    match frame.kind {
        COMPILE => compile_line(&frame.a, frame.room),
        READ => read_line(&frame.a, &frame.b, frame.room),
        TABLE if table::table_ok(&frame.a) => "yes".to_string(),
        TABLE => "no".to_string(),
        ROW_BYTES => row_line(&frame.a, &frame.b, frame.room),
        _ => "unknown".to_string(),
    }
}

fn compile_line(text: &[u8], room: usize) -> String {
    let mut lent = vec![LENT; room];
    let answer = definition::compile_into(text, &mut lent);
    let mut line = String::new();
    match answer {
        Ok(length) => {
            put(&mut line, format_args!("ok {length} "));
            put_hex(&mut line, &lent[..length]);
        }
        Err(refusal) => put_refusal(&mut line, refusal),
    }
    let stays = &lent[answer.unwrap_or(0)..];
    put_kept(&mut line, stays.iter().all(|&byte| byte == LENT));
    line
}

fn read_line(table: &[u8], message: &[u8], room: usize) -> String {
    let before = u32::from_le_bytes([LENT; 4]);
    let mut lent = vec![before; room];
    let answer = message::read_into(table, message, &mut lent);
    let mut line = String::new();
    match answer {
        Ok(count) => {
            put(&mut line, format_args!("ok {count}"));
            for number in &lent[..ROW_WIDTH * count] {
                put(&mut line, format_args!(" {number}"));
            }
        }
        Err(refusal) => put_refusal(&mut line, refusal),
    }
    let stays = &lent[ROW_WIDTH * answer.unwrap_or(0)..];
    put_kept(&mut line, stays.iter().all(|&number| number == before));
    line
}

fn row_line(rows: &[u8], message: &[u8], row: usize) -> String {
    let numbers = rows.chunks_exact(4);
    let rows: Vec<u32> = numbers
        .map(|n| u32::from_le_bytes([n[0], n[1], n[2], n[3]]))
        .collect();
    let part = message::row_bytes(message, &rows, row);
    let mut line = "bytes".to_string();
    if !part.is_empty() {
        line.push(' ');
        put_hex(&mut line, part);
    }
    line
}

fn put(line: &mut String, part: std::fmt::Arguments) {
    line.write_fmt(part).expect("a string takes all");
}

fn put_hex(line: &mut String, bytes: &[u8]) {
    const DIGITS: &[u8; 16] = b"0123456789abcdef";
    for byte in bytes {
        line.push(char::from(DIGITS[usize::from(byte >> 4)]));
        line.push(char::from(DIGITS[usize::from(byte & 15)]));
    }
}

fn put_refusal(line: &mut String, refusal: Refusal) {
    put(
        line,
        format_args!("refused {} {}", refusal.number, refusal.place),
    );
}

fn put_kept(line: &mut String, kept: bool) {
    line.push_str(if kept { " kept" } else { " touched" });
}

#[cfg(test)]
mod tests {
    use super::*;

    fn lines(input: &[u8]) -> String {
        let mut output = Vec::new();
        answer(input, &mut output).unwrap();
        String::from_utf8(output).unwrap()
    }

    #[test]
    fn frames_are_answered_in_order() {
        let mut input = frame(COMPILE, 30, b"struct r {};", b"ignored");
        input.extend(frame(9, 0, b"x", b"y"));
        input.extend(frame(ROW_BYTES, 0, &[1; 17], b"abc"));
        input.extend(frame(TABLE, 0, b"", b""));
        input.extend(frame(COMPILE, LIMIT + 1, b"struct r {};", b"x"));
        input.extend(frame(READ, 0, b"", b""));
        let table = "19000800ffff0000010001000000000000000000ffff010072";
        let wanted =
            format!("ok 25 {table} kept\nunknown\nbytes\nno\ntoo long\nrefused 20 0 kept\n");
        assert_eq!(lines(&input), wanted);
    }

    #[test]
    fn a_cut_frame_is_short() {
        let whole = frame(TABLE, 0, b"abc", b"de");
        assert_eq!(lines(b""), "");
        for length in 1..whole.len() {
            assert_eq!(lines(&whole[..length]), "short\n");
        }
        let long = frame(TABLE, LIMIT + 1, b"abc", b"de");
        assert_eq!(lines(&long[..long.len() - 1]), "short\n");
        assert_eq!(
            lines(&[whole.clone(), whole[..5].to_vec()].concat()),
            "no\nshort\n"
        );
    }

    #[test]
    fn a_long_frame_is_passed_over() {
        let longest = vec![0; LIMIT as usize];
        let longer = vec![0; LIMIT as usize + 1];
        let no = frame(TABLE, LIMIT, &longest, &longest);
        for long in [
            frame(READ, 0, &longer, b"x"),
            frame(9, 0, b"x", &longer),
            frame(ROW_BYTES, LIMIT + 1, b"x", b"y"),
        ] {
            assert_eq!(lines(&[long, no.clone()].concat()), "too long\nno\n");
        }
    }
}
