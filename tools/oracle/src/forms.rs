//! The forms of a definition: its tokens read as parameters, or 3.

use crate::record::{self, ASCII, INT, REFERENCE, STRUCT, UNION, UNQUOTED_ASCII, VOID};
use crate::text::{is_run_byte, Token};
use crate::Refusal;

/// What stands after `as`, if anything.
#[derive(Clone, Copy, Debug)]
pub enum Tag<'a> {
    /// No `as`: "else the name".
    Name,
    Explicit(Token<'a>),
    /// "`as ?` means untagged".
    Untagged,
}

/// One parameter as it stands in the text.
#[derive(Clone, Copy, Debug)]
pub struct Param<'a> {
    pub kind: u16,
    /// The type's run, which for a reference is the reference.
    pub word: Token<'a>,
    pub range: Option<Token<'a>>,
    pub name: Token<'a>,
    pub parent: Option<usize>,
    pub extension: bool,
    pub count: Option<Token<'a>>,
    pub tag: Tag<'a>,
    pub plugin: bool,
}

impl<'a> Param<'a> {
    pub fn is_untagged(&self) -> bool {
        matches!(self.tag, Tag::Untagged)
    }

    /// "The wire tag is the explicit tag, else the name"; an untagged field has none.
    pub fn wire_tag(&self) -> Option<Token<'a>> {
        match self.tag {
            Tag::Name => Some(self.name),
            Tag::Explicit(tag) => Some(tag),
            Tag::Untagged => None,
        }
    }
}

/// The kind of a type keyword.
fn keyword_kind(run: &[u8]) -> Option<u16> {
    match run {
        b"void" => Some(VOID),
        b"bool" => Some(record::BOOL),
        b"int" => Some(INT),
        b"ascii" => Some(ASCII),
        b"unquoted-ascii" => Some(UNQUOTED_ASCII),
        b"date" => Some(record::DATE),
        b"time" => Some(record::TIME),
        b"struct" => Some(STRUCT),
        b"union" => Some(UNION),
        _ => None,
    }
}

/// The parameters in order of their names, or 3 at the "first token that can't go on, or the
/// text's length". Each step takes a token exactly when some row that fits goes on with it.
pub fn parse<'a>(tokens: &[Token<'a>], length: usize) -> Result<Vec<Param<'a>>, Refusal> {
    let mut cursor = Cursor {
        tokens,
        length,
        params: Vec::new(),
    };
    cursor.top()?;
    while !cursor.tokens.is_empty() {
        cursor.top()?;
    }
    Ok(cursor.params)
}

/// The tokens left, and the parameters so far.
struct Cursor<'t, 'a> {
    tokens: &'t [Token<'a>],
    length: usize,
    params: Vec<Param<'a>>,
}

impl<'a> Cursor<'_, 'a> {
    fn stuck(&self) -> Refusal {
        let place = self.tokens.first().map_or(self.length, |token| token.place);
        Refusal::new(3, place)
    }

    fn stands(&self, bytes: &[u8]) -> bool {
        self.tokens
            .first()
            .is_some_and(|token| token.bytes == bytes)
    }

    /// Takes this very token, if it stands here.
    fn take(&mut self, bytes: &[u8]) -> bool {
        let stands = self.stands(bytes);
        if stands {
            self.tokens = &self.tokens[1..];
        }
        stands
    }

    fn need(&mut self, bytes: &[u8]) -> Result<(), Refusal> {
        if self.take(bytes) {
            Ok(())
        } else {
            Err(self.stuck())
        }
    }

    /// "any run may stand as name, reference, tag or range"
    fn run(&mut self) -> Result<Token<'a>, Refusal> {
        match self.tokens.split_first() {
            Some((&token, rest)) if is_run_byte(token.bytes[0]) => {
                self.tokens = rest;
                Ok(token)
            }
            _ => Err(self.stuck()),
        }
    }

    /// "a simple type, a name, `;` or `struct`/`union`, a name, `{` body `}` `;`"
    fn top(&mut self) -> Result<(), Refusal> {
        let known = |token: &Token| keyword_kind(token.bytes).is_some();
        if !self.tokens.first().is_some_and(known) {
            return Err(self.stuck());
        }
        let number = self.typed_name(None, false)?;
        self.rest(number)
    }

    /// "type, name, optional `[` range `]`, optional `as` followed by a tag run or `?`, optional
    /// `plugin`, for struct and union then `{` body `}`, then `;`"
    fn field(&mut self, parent: usize, extension: bool) -> Result<(), Refusal> {
        let number = self.typed_name(Some(parent), extension)?;
        if self.take(b"[") {
            self.params[number].count = Some(self.run()?);
            self.need(b"]")?;
        }
        if self.take(b"as") {
            self.params[number].tag = self.tag()?;
        }
        self.params[number].plugin = self.take(b"plugin");
        self.rest(number)
    }

    /// The type, with its range, and the name, which numbers the parameter.
    fn typed_name(&mut self, parent: Option<usize>, extension: bool) -> Result<usize, Refusal> {
        let word = self.run()?;
        // "Any type run that is no type keyword is a reference."
        let kind = keyword_kind(word.bytes).unwrap_or(REFERENCE);
        let range = self.range(kind)?;
        let name = self.run()?;
        self.params.push(Param {
            kind,
            word,
            range,
            name,
            parent,
            extension,
            count: None,
            tag: Tag::Name,
            plugin: false,
        });
        Ok(self.params.len() - 1)
    }

    /// "int, ascii and unquoted-ascii may have `<` range `>` after the type."
    fn range(&mut self, kind: u16) -> Result<Option<Token<'a>>, Refusal> {
        if record::limits(kind).is_none() || !self.take(b"<") {
            return Ok(None);
        }
        let range = self.run()?;
        self.need(b">")?;
        Ok(Some(range))
    }

    fn tag(&mut self) -> Result<Tag<'a>, Refusal> {
        if self.take(b"?") {
            return Ok(Tag::Untagged);
        }
        Ok(Tag::Explicit(self.run()?))
    }

    /// The braces of a struct or union, and the `;`.
    fn rest(&mut self, number: usize) -> Result<(), Refusal> {
        if matches!(self.params[number].kind, STRUCT | UNION) {
            self.need(b"{")?;
            self.body(number)?;
            self.need(b"}")?;
        }
        self.need(b";")
    }

    /// "any number of fields, none included, then extension groups, each `[` one or more fields
    /// `]`"
    fn body(&mut self, parent: usize) -> Result<(), Refusal> {
        while !self.stands(b"[") && !self.stands(b"}") {
            self.field(parent, false)?;
        }
        while self.take(b"[") {
            self.field(parent, true)?;
            while !self.take(b"]") {
                self.field(parent, true)?;
            }
        }
        Ok(())
    }
}

#[cfg(test)]
mod tests {
    use super::*;

    /// How many tokens of a row go on; none where the whole row fits the forms.
    fn stuck(row: &[&str]) -> Option<usize> {
        let mut tokens = Vec::new();
        for (place, word) in row.iter().enumerate() {
            let bytes = word.as_bytes();
            tokens.push(Token { place, bytes });
        }
        parse(&tokens, row.len()).err().map(|refusal| refusal.place)
    }

    /// Whether the row with this token is still the beginning of one that fits.
    fn goes_on<'a>(row: &[&'a str], token: &'a str) -> bool {
        let longer = [row, &[token]].concat();
        stuck(&longer).is_none_or(|place| place == longer.len())
    }

    /// Adds tokens, each one that goes on, until the row fits the forms.
    fn can_be_completed(mut row: Vec<&str>) -> bool {
        while stuck(&row).is_some() {
            let tokens = [";", "}", "]", ">", "x", "{", "struct"];
            match tokens.iter().find(|token| goes_on(&row, token)) {
                Some(token) if row.len() < 300 => row.push(token),
                _ => return false,
            }
        }
        true
    }

    /// The tokens before the place of 3 are the beginning of some row that fits.
    #[test]
    fn what_stands_before_the_place_of_3_goes_on() {
        let words = "struct struct union int x x as plugin void { { } ; ; [ ] < > ?";
        let words: Vec<&str> = words.split(' ').collect();
        let mut seed = 1u64;
        let mut row = Vec::new();
        for _ in 0..10_000 {
            seed = seed.wrapping_mul(6_364_136_223_846_793_005).wrapping_add(1);
            let word = words[(seed >> 33) as usize % words.len()];
            if row.len() > 40 {
                row.clear();
            }
            if goes_on(&row, word) {
                row.push(word);
                assert!(can_be_completed(row.clone()), "{row:?}");
            }
        }
    }
}
