//! The definition's text: its tokens, and the forms of single runs.

use crate::record;
use crate::Refusal;

/// "At most 65,535 bytes."
pub const LIMIT: usize = 65_535;
/// "`{` with 8 already open" is refused.
pub const MOST_OPEN: usize = 8;

/// A run or a mark, and the place of its first byte.
#[derive(Clone, Copy, Debug)]
pub struct Token<'a> {
    pub place: usize,
    pub bytes: &'a [u8],
}

/// "Blanks are space, tab, CR, LF."
pub fn is_blank(byte: u8) -> bool {
    matches!(byte, b' ' | b'\t' | b'\r' | b'\n')
}

/// "letters, digits, `-`, `_`, `.`, `*`"
pub fn is_run_byte(byte: u8) -> bool {
    byte.is_ascii_alphanumeric() || matches!(byte, b'-' | b'_' | b'.' | b'*')
}

/// "the single bytes `< > [ ] { } ; ?`"
fn is_mark(byte: u8) -> bool {
    b"<>[]{};?".contains(&byte)
}

/// The tokens, or "bad byte, `/*` without end, or `{` with 8 already open" at its smallest place.
pub fn scan(text: &[u8]) -> Result<Vec<Token<'_>>, Refusal> {
    let mut tokens = Vec::new();
    let mut open = 0;
    let mut at = 0;
    while at < text.len() {
        let fault = Refusal::new(2, at);
        let byte = text[at];
        if is_blank(byte) {
            at += 1;
        } else if byte == b'/' {
            at = comment_end(text, at).ok_or(fault)?;
        } else {
            open = count_brace(open, byte, MOST_OPEN).ok_or(fault)?;
            let end = token_end(text, at).ok_or(fault)?;
            let bytes = &text[at..end];
            tokens.push(Token { place: at, bytes });
            at = end;
        }
    }
    Ok(tokens)
}

/// "`//` runs to LF or the end; `/*` runs to the first `*/` after those two bytes."
fn comment_end(text: &[u8], at: usize) -> Option<usize> {
    let inside = at + 2;
    match text.get(at + 1)? {
        b'/' => {
            let feed = text[inside..].iter().position(|&byte| byte == b'\n');
            Some(feed.map_or(text.len(), |offset| inside + offset))
        }
        b'*' => {
            let close = text[inside..].windows(2).position(|pair| pair == b"*/");
            close.map(|offset| inside + offset + 2)
        }
        _ => None,
    }
}

/// "A run is the longest row of" run bytes; a mark is a single byte; "any other byte is bad".
fn token_end(text: &[u8], at: usize) -> Option<usize> {
    if is_mark(text[at]) {
        return Some(at + 1);
    }
    let run = text[at..].iter().take_while(|&&byte| is_run_byte(byte));
    Some(at + run.count()).filter(|&end| end > at)
}

/// The open braces after this byte, "opened less closed, never under 0";
/// none for a `{` with the limit already open.
pub fn count_brace(open: usize, byte: u8, limit: usize) -> Option<usize> {
    match byte {
        b'{' if open >= limit => None,
        b'{' => Some(open + 1),
        b'}' => Some(open.saturating_sub(1)),
        _ => Some(open),
    }
}

/// A run that no name and no reference may be.
fn is_keyword(run: &[u8]) -> bool {
    const KEYWORDS: [&[u8]; 11] = [
        b"void",
        b"bool",
        b"int",
        b"ascii",
        b"unquoted-ascii",
        b"date",
        b"time",
        b"struct",
        b"union",
        b"as",
        b"plugin",
    ];
    KEYWORDS.contains(&run)
}

/// "1 to 63 bytes"
fn has_length(run: &[u8]) -> bool {
    (1..=63).contains(&run.len())
}

/// "A name: a letter, then letters, digits, `-`, `_`; 1 to 63 bytes; none of" the keywords.
pub fn is_name(run: &[u8]) -> bool {
    let fits = |byte: &u8| byte.is_ascii_alphanumeric() || matches!(byte, b'-' | b'_');
    has_length(run) && run[0].is_ascii_alphabetic() && run.iter().all(fits) && !is_keyword(run)
}

/// "A tag: 1 to 63 letters, digits, `-`, `_`, `.`."
pub fn is_tag(run: &[u8]) -> bool {
    let fits = |byte: &u8| byte.is_ascii_alphanumeric() || matches!(byte, b'-' | b'_' | b'.');
    has_length(run) && run.iter().all(fits)
}

/// "an optional `-` with one or more digits only"
pub fn is_digits(run: &[u8]) -> bool {
    let digits = run.strip_prefix(b"-").unwrap_or(run);
    !digits.is_empty() && digits.iter().all(u8::is_ascii_digit)
}

/// A number "without leading zero or `-0`"; one beyond all limits is held at the ends of i64.
pub fn number(run: &[u8]) -> Option<i64> {
    if !is_digits(run) {
        return None;
    }
    let negative = run[0] == b'-';
    let digits = if negative { &run[1..] } else { run };
    if digits[0] == b'0' && (negative || digits.len() > 1) {
        return None;
    }
    let size = digits.iter().fold(0i64, |size, &digit| {
        size.saturating_mul(10)
            .saturating_add(i64::from(digit - b'0'))
    });
    Some(if negative { -size } else { size })
}

/// "A range is `lo..hi`, one run": the parts round the first two dots.
fn split_range(run: &[u8]) -> Option<(&[u8], &[u8])> {
    let dots = run.windows(2).position(|pair| pair == b"..")?;
    Some((&run[..dots], &run[dots + 2..]))
}

/// The range of an int, or of the length of an ascii or unquoted-ascii: "lo ≤ hi", within limits.
pub fn type_range(kind: u16, run: &[u8]) -> Option<(i32, i32)> {
    let (least, most) = record::limits(kind)?;
    let (lo, hi) = split_range(run)?;
    let lo = i32::try_from(number(lo)?).ok()?;
    let hi = i32::try_from(number(hi)?).ok()?;
    (least <= lo && lo <= hi && hi <= most).then_some((lo, hi))
}

/// "Cardinality: lo 0 to 65,534; hi 1 to 65,534, or `*` for no limit".
pub fn cardinality(run: &[u8]) -> Option<(u16, u16)> {
    let (lo, hi) = split_range(run)?;
    let count = |run: &[u8]| {
        let count = u16::try_from(number(run)?).ok()?;
        (count < record::NO_LIMIT).then_some(count)
    };
    let lo = count(lo)?;
    let hi = if hi == b"*" {
        record::NO_LIMIT
    } else {
        count(hi)?
    };
    (lo <= hi && hi >= 1).then_some((lo, hi))
}
