//! A message's tokens, or 22.

use crate::text::{count_brace, is_blank};
use crate::Refusal;

/// "`{` with 16 open" is refused.
pub const MOST_OPEN: usize = 16;

#[derive(Clone, Copy, Debug, PartialEq, Eq)]
pub enum Shape {
    Word,
    String,
    Equals,
    Comma,
    Open,
    Close,
}

/// A token and its span; the end is not included.
#[derive(Clone, Copy, Debug)]
pub struct Token {
    pub shape: Shape,
    pub start: usize,
    pub end: usize,
}

/// The tokens, or 22 "at its smallest place".
pub fn scan(message: &[u8]) -> Result<Vec<Token>, Refusal> {
    let mut tokens = Vec::new();
    let mut open = 0;
    let mut start = 0;
    while start < message.len() {
        if is_blank(message[start]) {
            start += 1;
            continue;
        }
        let fault = Refusal::new(22, start);
        open = count_brace(open, message[start], MOST_OPEN).ok_or(fault)?;
        let (shape, length) = token(&message[start..]).ok_or(fault)?;
        let end = start + length;
        tokens.push(Token { shape, start, end });
        start = end;
    }
    Ok(tokens)
}

/// The shape and length of the token at the beginning of these bytes.
fn token(bytes: &[u8]) -> Option<(Shape, usize)> {
    match bytes[0] {
        b'=' => Some((Shape::Equals, 1)),
        b',' => Some((Shape::Comma, 1)),
        b'{' => Some((Shape::Open, 1)),
        b'}' => Some((Shape::Close, 1)),
        b'"' => Some((Shape::String, string_length(bytes)?)),
        byte if is_word_byte(byte) => Some((Shape::Word, word_length(bytes))),
        _ => None,
    }
}

/// "0x21 to 0x7E without `= , " ' { } ( ) ?`"
fn is_word_byte(byte: u8) -> bool {
    (0x21..=0x7E).contains(&byte) && !b"=,\"'{}()?".contains(&byte)
}

/// "a word (longest row of" word bytes)
fn word_length(bytes: &[u8]) -> usize {
    bytes.iter().take_while(|&&byte| is_word_byte(byte)).count()
}

/// "a string (`"`, bytes 0x20 to 0x7E but `"`, `"`)"; none for a "`"` that begins no string".
fn string_length(bytes: &[u8]) -> Option<usize> {
    let inside = |&&byte: &&u8| (0x20..=0x7E).contains(&byte) && byte != b'"';
    let close = 1 + bytes[1..].iter().take_while(inside).count();
    (bytes.get(close) == Some(&b'"')).then_some(close + 1)
}
