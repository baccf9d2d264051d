//! A message's lawful reading, its rows, and refusals 20 to 30.

use crate::record::{self, Record, NO_LIMIT, STRUCT, UNION, VOID};
use crate::table;
use crate::text::is_digits;
use crate::tokens::{self, Shape, Token};
use crate::values;
use crate::{Refusal, Row, ROW_WIDTH};

/// "At most 16,384 bytes."
pub const LIMIT: usize = 16_384;
/// The parent of the root's row.
const NO_ROW: u32 = u32::MAX;

/// The rows of a message, with `room` numbers lent.
pub fn read(table: &[u8], message: &[u8], room: usize) -> Result<Vec<Row>, Refusal> {
    // 20: "no definition compiles to this table".
    let records = table::taken(table).ok_or(Refusal::new(20, 0))?;
    // 21: "over 16,384 bytes".
    if message.len() > LIMIT {
        return Err(Refusal::new(21, LIMIT));
    }
    let tokens = tokens::scan(message)?;
    let rows = Reader::new(&records, message, &tokens).read()?;
    // 29: "rows don't fit", at the "rows needed".
    if rows.len() > room / ROW_WIDTH {
        return Err(Refusal::new(29, rows.len()));
    }
    Ok(rows)
}

/// Reads into lent numbers. "Success gives the row count; lent numbers beyond those rows stay."
pub fn read_into(table: &[u8], message: &[u8], lent: &mut [u32]) -> Result<usize, Refusal> {
    let rows = read(table, message, lent.len())?;
    lent[..ROW_WIDTH * rows.len()].copy_from_slice(rows.as_flattened());
    Ok(rows.len())
}

/// That part of the message that row `row` spans, or the empty part.
pub fn row_bytes<'a>(message: &'a [u8], rows: &[u32], row: usize) -> &'a [u8] {
    // "If the whole row isn't there, or its span ends before it starts or doesn't lie in the
    // message, the empty part comes back."
    let span = rows
        .chunks_exact(ROW_WIDTH)
        .nth(row)
        .map(|row| row[2] as usize..row[3] as usize);
    span.and_then(|span| message.get(span)).unwrap_or(&[])
}

/// The fields of a struct or the alternatives of a union.
#[derive(Default)]
struct Body<'a> {
    untagged: Vec<usize>,
    /// The tagged ones, in order of tags.
    tagged: Vec<(&'a [u8], usize)>,
    /// How many tagged fields must appear.
    required: usize,
}

impl<'a> Body<'a> {
    fn new(records: &'a [Record], fields: &[usize]) -> Body<'a> {
        let mut body = Body::default();
        for &field in fields {
            let record = &records[field];
            if record.untagged {
                body.untagged.push(field);
            } else {
                body.tagged.push((&record.name, field));
                body.required += usize::from(is_required(record));
            }
        }
        body.tagged.sort_unstable();
        body
    }

    /// The index in `tagged` of the field with this tag.
    fn find(&self, tag: &[u8]) -> Option<usize> {
        self.tagged
            .binary_search_by(|(own, _)| (*own).cmp(tag))
            .ok()
    }
}

/// "A field, untagged or tagged, that isn't directly in an extension, isn't plugin and has lo over
/// 0 must appear".
fn is_required(record: &Record) -> bool {
    record.lo_count > 0 && !record.extension && !record.plugin
}

/// What a word chooses where a union is due.
enum Choice {
    /// The alternative's value is due: after the tag and `=`, or at the untagged int itself.
    Value(usize),
    /// A void alternative, whose tag is read.
    Void(usize),
}

struct Reader<'a> {
    records: &'a [Record],
    bodies: Vec<Body<'a>>,
    message: &'a [u8],
    tokens: &'a [Token],
    /// The number of the next token.
    at: usize,
    rows: Vec<Row>,
}

impl<'a> Reader<'a> {
    fn new(records: &'a [Record], message: &'a [u8], tokens: &'a [Token]) -> Reader<'a> {
        let bodies = record::record_bodies(records);
        let bodies = bodies
            .iter()
            .map(|fields| Body::new(records, fields))
            .collect();
        Reader {
            records,
            bodies,
            message,
            tokens,
            at: 0,
            rows: Vec::new(),
        }
    }

    /// "A message is the root's body without braces."
    fn read(mut self) -> Result<Vec<Row>, Refusal> {
        self.rows.push([0, NO_ROW, 0, self.message.len() as u32, 0]);
        self.body(0, 0, false)?;
        Ok(self.rows)
    }

    fn peek(&self) -> Option<Token> {
        self.tokens.get(self.at).copied()
    }

    fn shape(&self) -> Option<Shape> {
        self.peek().map(|token| token.shape)
    }

    fn bytes(&self, token: Token) -> &'a [u8] {
        &self.message[token.start..token.end]
    }

    /// A refusal at the next token, or at the length.
    fn refuse<T>(&self, number: u32) -> Result<T, Refusal> {
        let place = self.peek().map_or(self.message.len(), |token| token.start);
        Err(Refusal::new(number, place))
    }

    /// Takes the next token if it has this shape.
    fn take(&mut self, shape: Shape) -> bool {
        let stands = self.shape() == Some(shape);
        self.at += usize::from(stands);
        stands
    }

    fn need(&mut self, shape: Shape) -> Result<(), Refusal> {
        if self.take(shape) {
            Ok(())
        } else {
            self.refuse(23)
        }
    }

    fn push_row(&mut self, number: usize, parent: usize, token: Token, index: usize) {
        let row = [number, parent, token.start, token.end, index];
        self.rows.push(row.map(|part| part as u32));
    }

    /// "A body is its untagged fields' lists in order, then items in any order." It ends before
    /// its `}`, or at the end.
    fn body(&mut self, number: usize, row: usize, in_braces: bool) -> Result<(), Refusal> {
        for index in 0..self.bodies[number].untagged.len() {
            let field = self.bodies[number].untagged[index];
            if !self.body_ends(in_braces) {
                self.list(field, row)?;
            } else if is_required(&self.records[field]) {
                return self.refuse(27);
            } else {
                // "if its lo is 0, the body is then complete and nothing later is required"
                return Ok(());
            }
        }
        self.items(number, row, in_braces)
    }

    /// Whether `}` in braces, or the end outside them, stands here.
    fn body_ends(&self, in_braces: bool) -> bool {
        let end = if in_braces { Some(Shape::Close) } else { None };
        self.shape() == end
    }

    /// The items, and 27 for a required field absent.
    fn items(&mut self, number: usize, row: usize, in_braces: bool) -> Result<(), Refusal> {
        let mut seen = vec![false; self.bodies[number].tagged.len()];
        let mut missing = self.bodies[number].required;
        while !self.body_ends(in_braces) {
            let Some(token) = self.peek().filter(|token| token.shape == Shape::Word) else {
                return self.refuse(23);
            };
            let Some(index) = self.bodies[number].find(self.bytes(token)) else {
                self.unknown_item()?;
                continue;
            };
            // 26: "a known tag again in one body".
            if seen[index] {
                return self.refuse(26);
            }
            seen[index] = true;
            let field = self.bodies[number].tagged[index].1;
            missing -= usize::from(is_required(&self.records[field]));
            self.item(field, row, token)?;
        }
        if missing > 0 {
            return self.refuse(27);
        }
        Ok(())
    }

    /// "An item is a void field's tag alone, or a tag, `=`, a list."
    fn item(&mut self, field: usize, row: usize, tag: Token) -> Result<(), Refusal> {
        self.at += 1;
        if self.records[field].kind == VOID {
            // "the root, voids and chosen alternatives have 0"
            self.push_row(field, row, tag, 0);
            return Ok(());
        }
        self.need(Shape::Equals)?;
        self.list(field, row)
    }

    /// "A list is one or more values with commas between", "lo to hi values".
    fn list(&mut self, field: usize, row: usize) -> Result<(), Refusal> {
        let (lo, hi) = (self.records[field].lo_count, self.records[field].hi_count);
        let mut count = 0;
        loop {
            self.value(field, row, count)?;
            count += 1;
            if self.shape() != Some(Shape::Comma) {
                break;
            }
            // 25: "the comma too many".
            if hi != NO_LIMIT && count == usize::from(hi) {
                return self.refuse(25);
            }
            self.at += 1;
        }
        // 25: "the token after a short list".
        if count < usize::from(lo) {
            return self.refuse(25);
        }
        Ok(())
    }

    /// One value, with its index, and its rows. A chain of choices is a loop: its rows
    /// are neighbours that end together.
    fn value(&mut self, field: usize, parent: usize, index: usize) -> Result<(), Refusal> {
        let first = self.rows.len();
        let (mut field, mut parent, mut index) = (field, parent, index);
        loop {
            let token = self.value_token()?;
            let row = self.rows.len();
            self.push_row(field, parent, token, index);
            let number = self.resolve(field);
            if self.records[number].kind != UNION {
                self.plain_value(number, row, token)?;
                self.end_rows(first, row);
                return Ok(());
            }
            match self.choose(number, token)? {
                Choice::Value(alternative) => (field, parent, index) = (alternative, row, 0),
                Choice::Void(alternative) => {
                    self.push_row(alternative, row, token, 0);
                    self.end_rows(first, row + 1);
                    return Ok(());
                }
            }
        }
    }

    /// The word, string or `{` that a value begins with; another token is 23.
    fn value_token(&self) -> Result<Token, Refusal> {
        match self.peek() {
            Some(token) if matches!(token.shape, Shape::Word | Shape::String | Shape::Open) => {
                Ok(token)
            }
            _ => self.refuse(23),
        }
    }

    /// "A reference reads as its target."
    fn resolve(&self, field: usize) -> usize {
        self.records[field].target.map_or(field, usize::from)
    }

    /// These rows end with the last token read.
    fn end_rows(&mut self, first: usize, last: usize) {
        let end = self.tokens[self.at - 1].end as u32;
        for row in &mut self.rows[first..=last] {
            row[3] = end;
        }
    }

    /// "struct, `{` body `}`", or a value of a simple type; 24 or 30 for another token.
    fn plain_value(&mut self, number: usize, row: usize, token: Token) -> Result<(), Refusal> {
        let record = &self.records[number];
        if record.kind == STRUCT {
            if token.shape != Shape::Open {
                return self.refuse(values::NO_FORM);
            }
            self.at += 1;
            self.body(number, row, true)?;
            return self.need(Shape::Close);
        }
        if let Some(number) = values::fault(record, token.shape, self.bytes(token)) {
            return self.refuse(number);
        }
        self.at += 1;
        Ok(())
    }

    /// "Union: one alternative, as a void tag, or tag `=` one value, or the untagged int."
    fn choose(&mut self, number: usize, token: Token) -> Result<Choice, Refusal> {
        if token.shape != Shape::Word {
            return self.refuse(values::NO_FORM);
        }
        let word = self.bytes(token);
        let body = &self.bodies[number];
        // "a word of an optional `-` and one or more digits is instead judged as that int"
        if let Some(&int) = body.untagged.first().filter(|_| is_digits(word)) {
            return Ok(Choice::Value(int));
        }
        // 28: "word naming no alternative".
        let Some(index) = body.find(word) else {
            return self.refuse(28);
        };
        let alternative = body.tagged[index].1;
        self.at += 1;
        if self.records[alternative].kind == VOID {
            return Ok(Choice::Void(alternative));
        }
        self.need(Shape::Equals)?;
        Ok(Choice::Value(alternative))
    }

    /// "a word alone, or a word, `=`, a list of unknown values"
    fn unknown_item(&mut self) -> Result<(), Refusal> {
        self.at += 1;
        if self.take(Shape::Equals) {
            self.unknown_value()?;
            while self.take(Shape::Comma) {
                self.unknown_value()?;
            }
        }
        Ok(())
    }

    /// "a word, a string, braces round any balanced tokens, or a word, `=`, an unknown value"
    fn unknown_value(&mut self) -> Result<(), Refusal> {
        while self.take(Shape::Word) {
            if !self.take(Shape::Equals) {
                return Ok(());
            }
        }
        if self.take(Shape::String) {
            return Ok(());
        }
        self.need(Shape::Open)?;
        self.skip_braces()
    }

    /// Passes over balanced tokens and the `}` that closes them.
    fn skip_braces(&mut self) -> Result<(), Refusal> {
        let mut open = 1;
        while open > 0 {
            match self.shape() {
                Some(Shape::Open) => open += 1,
                Some(Shape::Close) => open -= 1,
                Some(_) => {}
                None => return self.refuse(23),
            }
            self.at += 1;
        }
        Ok(())
    }
}
