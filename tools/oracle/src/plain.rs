//! A fast reader in plain Rust, the yardstick for speed: one pass over the table, one over the
//! message, no heap and nothing unsafe.
//!
//! Rows are kept on the stack, ten bytes each, until the verdict is known, since nothing lent may
//! change before: 164 KB for a longest message. Faults of the tokens (22) are looked for only where
//! the reading stops: the tokens before that place are sound, and a message that is read to its end
//! has no such fault.
//!
//! `read_twice` is the same reader in two passes over the message: the first only counts the rows,
//! the second writes them where they are lent. It keeps none of its own.

use crate::ROW_WIDTH;
use std::ops::Range;

/// A number and a place.
type Refusal = (u32, usize);

/// Reads a message by a table into lent rows: the row count, or a number and a place.
pub fn read(table: &[u8], message: &[u8], rows: &mut [u32]) -> Result<usize, Refusal> {
    with_schema(table, |schema| match schema {
        Some(schema) => read_by(schema, message, rows),
        None => Err((20, 0)),
    })
}

/// The same in two passes, without rows of its own.
pub fn read_twice(table: &[u8], message: &[u8], rows: &mut [u32]) -> Result<usize, Refusal> {
    with_schema(table, |schema| match schema {
        Some(schema) => read_twice_by(schema, message, rows),
        None => Err((20, 0)),
    })
}

/// Whether some definition compiles to this table.
pub fn table_ok(table: &[u8]) -> bool {
    with_schema(table, |schema| schema.is_some())
}

/// Goes on with a table's records, none where the table is no good. A record has 25 bytes or more,
/// so a short table needs little room.
fn with_schema<R>(table: &[u8], go_on: impl FnOnce(Option<Schema>) -> R) -> R {
    match table.len() {
        0..=400 => go_on(Schema::new(table, &mut [Record::NONE; 16], &mut [0; 64])),
        401..=1_600 => go_on(Schema::new(table, &mut [Record::NONE; 64], &mut [0; 256])),
        _ => go_on(Schema::new(
            table,
            &mut [Record::NONE; 256],
            &mut [0; 1_024],
        )),
    }
}

/// A message has at most two rows more than bytes: two for each word, and the root's.
#[inline(never)]
fn read_by(schema: Schema, message: &[u8], rows: &mut [u32]) -> Result<usize, Refusal> {
    match message.len() {
        0..=62 => with_tape::<64>(schema, message, rows),
        63..=254 => with_tape::<256>(schema, message, rows),
        255..=1_022 => with_tape::<1_024>(schema, message, rows),
        1_023..=4_094 => with_tape::<4_096>(schema, message, rows),
        4_095..=MOST_BYTES => with_tape::<{ MOST_BYTES + 2 }>(schema, message, rows),
        _ => Err((21, MOST_BYTES)),
    }
}

#[inline(never)]
fn with_tape<const N: usize>(
    schema: Schema,
    message: &[u8],
    rows: &mut [u32],
) -> Result<usize, Refusal> {
    let mut tape = [[0u16; ROW_WIDTH]; N];
    let count = Reader::new(schema, message, tape.as_mut_slice()).read()?;
    let Some(lent) = rows.get_mut(..ROW_WIDTH * count) else {
        return Err((29, count));
    };
    for (number, &short) in lent.iter_mut().zip(tape.as_flattened()) {
        *number = u32::from(short);
    }
    lent[1] = u32::MAX;
    Ok(count)
}

#[inline(never)]
fn read_twice_by(schema: Schema, message: &[u8], rows: &mut [u32]) -> Result<usize, Refusal> {
    if message.len() > MOST_BYTES {
        return Err((21, MOST_BYTES));
    }
    let count = Reader::new(schema, message, &mut Unkept).read()?;
    let Some(lent) = rows.as_chunks_mut::<ROW_WIDTH>().0.get_mut(..count) else {
        return Err((29, count));
    };
    Reader::new(schema, message, &mut *lent).read()?;
    lent[0][1] = u32::MAX;
    Ok(count)
}

// ---- bytes

const MOST_BYTES: usize = 16_384;
const MOST_OPEN: usize = 16;

// What a byte is in a message.
const BAD: u8 = 0;
const BLANK: u8 = 1;
const WORD: u8 = 2;
const QUOTE: u8 = 3;
const MARK: u8 = 4;
const OPEN: u8 = 5;
const CLOSE: u8 = 6;

static CLASS: [u8; 256] = classes();

const fn classes() -> [u8; 256] {
    let mut classes = [BAD; 256];
    let mut byte = 0;
    while byte < 256 {
        classes[byte] = match byte as u8 {
            b' ' | b'\t' | b'\r' | b'\n' => BLANK,
            b'"' => QUOTE,
            b'=' | b',' => MARK,
            b'{' => OPEN,
            b'}' => CLOSE,
            b'\'' | b'(' | b')' | b'?' => BAD,
            0x21..=0x7E => WORD,
            _ => BAD,
        };
        byte += 1;
    }
    classes
}

fn class(byte: u8) -> u8 {
    CLASS[usize::from(byte)]
}

/// The byte at a place, 0 at the end.
fn byte_at(bytes: &[u8], at: usize) -> u8 {
    bytes.get(at).copied().unwrap_or(0)
}

/// The first place from here that has no blank.
#[inline]
fn skip(message: &[u8], mut at: usize) -> usize {
    while class(byte_at(message, at)) == BLANK {
        at += 1;
    }
    at
}

/// Where the word ends that stands here.
#[inline]
fn word_end(message: &[u8], mut at: usize) -> usize {
    while class(byte_at(message, at)) == WORD {
        at += 1;
    }
    at
}

/// Where the string ends whose quote stands here, its closing quote included.
fn string_end(message: &[u8], at: usize) -> Option<usize> {
    let inside = message.get(at + 1..)?;
    let length = inside
        .iter()
        .position(|&byte| byte == b'"' || !(0x20..=0x7E).contains(&byte))?;
    (inside[length] == b'"').then_some(at + length + 2)
}

/// Eight bytes as a number, the first lowest, with 0 beyond the end.
#[inline]
fn eight(bytes: &[u8], at: usize) -> u64 {
    match bytes.get(at..at + 8) {
        Some(part) => u64::from_le_bytes(part.try_into().expect("eight bytes")),
        None => last_eight(bytes, at),
    }
}

#[cold]
fn last_eight(bytes: &[u8], at: usize) -> u64 {
    let rest = bytes.get(at..).unwrap_or(&[]);
    rest.iter()
        .rev()
        .fold(0, |number, &byte| number << 8 | u64::from(byte))
}

/// How many of eight bytes are digits before the first that is none.
#[inline]
fn digit_count(eight: u64) -> usize {
    let digits = eight ^ 0x3030_3030_3030_3030;
    // A sum's high bit tells of ten and more; what it carries only blurs later bytes.
    let over = digits.wrapping_add(0x7676_7676_7676_7676);
    let others = (over | digits) & 0x8080_8080_8080_8080;
    others.trailing_zeros() as usize / 8
}

/// The number that the first `count` of eight bytes write, 1 to 8 digits.
#[inline]
fn digits_value(eight: u64, count: usize) -> u32 {
    let ones = (eight ^ 0x3030_3030_3030_3030) << (64 - 8 * count);
    let pairs = (ones & 0x0F0F_0F0F_0F0F_0F0F).wrapping_mul(10 * 256 + 1) >> 8;
    let fours = (pairs & 0x00FF_00FF_00FF_00FF).wrapping_mul(100 * 65_536 + 1) >> 16;
    let all = (fours & 0x0000_FFFF_0000_FFFF).wrapping_mul((10_000 << 32) + 1) >> 32;
    all as u32
}

// ---- the table

const HEAD: usize = 24;
const MOST_RECORDS: usize = 256;
const MOST_NESTED: usize = 8;
const NONE: u16 = 65_535;

const VOID: u8 = 1;
const BOOL: u8 = 2;
const INT: u8 = 3;
const ASCII: u8 = 4;
const UNQUOTED: u8 = 5;
const DATE: u8 = 6;
const TIME: u8 = 7;
const STRUCT: u8 = 8;
const UNION: u8 = 9;
const REFERENCE: u8 = 10;

/// The limits of lo and hi by kind; no kind is 0.
static LIMITS: [(i32, i32); 11] = [
    (1, 0),
    (0, 0),
    (0, 0),
    (i32::MIN, i32::MAX),
    (0, 1_024),
    (1, 1_024),
    (0, 0),
    (0, 0),
    (0, 0),
    (0, 0),
    (0, 0),
];

const UNTAGGED: u16 = 1;
const EXTENSION: u16 = 2;
const PLUGIN: u16 = 4;

// Where a name must differ from others: a body's tags are at the body's number.
const OF_UNTAGGED: u16 = 0x100;
const OF_TOPS: u16 = 0x200;

/// The bits of the first bytes of eight, 1 to 8 of them.
#[inline]
fn mask(length: usize) -> u64 {
    u64::MAX >> (64 - 8 * length)
}

/// A name or a tag by its first and last eight bytes; the last are 0 for a short one.
#[derive(Clone, Copy)]
struct Label {
    first: u64,
    last: u64,
    at: usize,
    length: usize,
}

impl Label {
    #[inline]
    fn new(bytes: &[u8], at: usize, length: usize) -> Label {
        let (first, last) = if length <= 8 {
            (eight(bytes, at) & mask(length), 0)
        } else {
            (eight(bytes, at), eight(bytes, at + length - 8))
        };
        Label {
            first,
            last,
            at,
            length,
        }
    }

    /// Where to begin looking among so many slots, a power of two.
    #[inline]
    fn slot(&self, scope: u16, slots: usize) -> usize {
        let mixed = self.first ^ self.last.rotate_left(23) ^ u64::from(scope) << 48;
        let product = u128::from(mixed) * 0x9E37_79B9_7F4A_7C15;
        ((product >> 64) ^ product) as usize & (slots - 1)
    }

    #[inline]
    fn bytes<'a>(&self, all: &'a [u8]) -> &'a [u8] {
        &all[self.at..self.at + self.length]
    }

    /// Whether it is letters, digits, `-`, `_` and `.`, eight bytes at a time.
    #[inline]
    fn is_tag(&self, table: &[u8]) -> bool {
        match self.length {
            0..=8 => are_tag_bytes(self.first | !mask(self.length) & 0x6161_6161_6161_6161),
            9..=16 => are_tag_bytes(self.first) && are_tag_bytes(self.last),
            _ => self.bytes(table).iter().all(|&byte| is_tag_byte(byte)),
        }
    }

    fn is_name(&self, table: &[u8]) -> bool {
        let bytes = self.bytes(table);
        bytes[0].is_ascii_alphabetic()
            && bytes.iter().all(|&byte| is_tag_byte(byte) && byte != b'.')
            && !is_keyword(bytes)
    }
}

fn is_tag_byte(byte: u8) -> bool {
    byte.is_ascii_alphanumeric() || matches!(byte, b'-' | b'_' | b'.')
}

/// The same for eight bytes at once: a sum's high bit says that its byte is at least the one named.
#[inline]
fn are_tag_bytes(eight: u64) -> bool {
    const HIGH: u64 = 0x8080_8080_8080_8080;
    const fn all(byte: u8) -> u64 {
        u64::from_le_bytes([byte; 8])
    }
    if eight & HIGH != 0 {
        return false;
    }
    let from = |bytes: u64, byte: u8| bytes + all(0x80 - byte);
    let small = eight | all(0x20);
    let letters = from(small, b'a') & !from(small, b'z' + 1);
    let digits = from(eight, b'-') & !from(eight, b'9' + 1) & from(eight ^ all(b'/'), 1);
    let underlines = !from(eight ^ all(b'_'), 1);
    (letters | digits | underlines) & HIGH == HIGH
}

fn is_keyword(name: &[u8]) -> bool {
    matches!(
        name,
        b"void"
            | b"bool"
            | b"int"
            | b"ascii"
            | b"unquoted-ascii"
            | b"date"
            | b"time"
            | b"struct"
            | b"union"
            | b"as"
            | b"plugin"
    )
}

/// Whether a word is an optional `-` and one or more digits.
fn is_digits(word: &[u8]) -> bool {
    let digits = word.strip_prefix(b"-").unwrap_or(word);
    !digits.is_empty() && digits.iter().all(u8::is_ascii_digit)
}

/// A record's bytes before its name.
struct Head {
    size: u16,
    kind: u8,
    parent: u16,
    flags: u16,
    lo_count: u16,
    hi_count: u16,
    lo: i32,
    hi: i32,
    target: u16,
    length: u16,
}

impl Head {
    /// The head, if its kind is one and all fits that depends on nothing else.
    #[inline]
    fn new(bytes: &[u8; HEAD]) -> Option<Head> {
        let half = |at: usize| u16::from_le_bytes([bytes[at], bytes[at + 1]]);
        let whole = |at: usize| {
            i32::from_le_bytes([bytes[at], bytes[at + 1], bytes[at + 2], bytes[at + 3]])
        };
        let head = Head {
            size: half(0),
            kind: half(2) as u8,
            parent: half(4),
            flags: half(6),
            lo_count: half(8),
            hi_count: half(10),
            lo: whole(12),
            hi: whole(16),
            target: half(20),
            length: half(22),
        };
        let &(least, most) = LIMITS.get(usize::from(half(2)))?;
        let sized = (1..=63).contains(&head.length) && head.size == HEAD as u16 + head.length;
        let ranged = least <= head.lo && head.lo <= head.hi && head.hi <= most;
        let aimed = (head.kind == REFERENCE) != (head.target == NONE);
        (sized && ranged && aimed && head.flags <= 7).then_some(head)
    }
}

/// What the reader needs of a record.
#[derive(Clone, Copy)]
struct Record {
    /// The first eight bytes of its name.
    first: u64,
    lo: i32,
    hi: i32,
    /// Where the name stands in the table.
    name: u16,
    scope: u16,
    lo_count: u16,
    hi_count: u16,
    length: u8,
    kind: u8,
    /// The record with the type: a reference's target, else the record itself.
    kind_at: u8,
    /// Bits, below.
    marks: u8,
    /// Of a body: how many tagged fields must appear.
    required: u8,
    /// Of a body, the first untagged field; of an untagged field, the next one. 0 is none.
    untagged: u8,
    next: u8,
}

// It must appear, where the body isn't complete before; its body can't do without it; it has a
// finite value.
const MUST: u8 = 1;
const NEEDED: u8 = 2;
const FINITE: u8 = 4;

impl Record {
    const NONE: Record = Record {
        first: 0,
        lo: 0,
        hi: 0,
        name: 0,
        scope: 0,
        lo_count: 0,
        hi_count: 0,
        length: 0,
        kind: 0,
        kind_at: 0,
        marks: 0,
        required: 0,
        untagged: 0,
        next: 0,
    };

    #[inline]
    fn has_body(&self) -> bool {
        matches!(self.kind, STRUCT | UNION)
    }

    #[inline]
    fn has(&self, marks: u8) -> bool {
        self.marks & marks != 0
    }

    /// Whether its name is these bytes, of which the label tells.
    #[inline]
    fn is_named(&self, scope: u16, label: &Label, table: &[u8], bytes: &[u8]) -> bool {
        self.first == label.first
            && usize::from(self.length) == label.length
            && self.scope == scope
            && (label.length <= 8 || self.name(table) == label.bytes(bytes))
    }

    fn name<'a>(&self, table: &'a [u8]) -> &'a [u8] {
        let at = usize::from(self.name);
        &table[at..at + usize::from(self.length)]
    }
}

/// A table that some definition compiles to.
#[derive(Clone, Copy)]
struct Schema<'a> {
    table: &'a [u8],
    records: &'a [Record],
    /// The records by their labels, each number one higher; 0 is free.
    slots: &'a [u16],
}

impl<'a> Schema<'a> {
    fn new(table: &'a [u8], records: &'a mut [Record], slots: &'a mut [u16]) -> Option<Schema<'a>> {
        let mut walk = Walk {
            table,
            records,
            slots,
            count: 0,
            levels: [Level::NONE; MOST_NESTED + 1],
            open: 0,
            references: false,
        };
        walk.all()?;
        let (records, slots, count) = (walk.records, walk.slots, walk.count);
        Some(Schema {
            table,
            records: &records[..count],
            slots,
        })
    }

    /// The field of a body, or the alternative of a union, with this tag; 0 is none.
    #[inline(never)]
    fn find(&self, body: usize, message: &[u8], at: usize, end: usize) -> usize {
        let label = Label::new(message, at, end - at);
        let mut slot = label.slot(body as u16, self.slots.len());
        loop {
            let number = usize::from(self.slots[slot]);
            if number == 0 {
                return 0;
            }
            let record = &self.records[number - 1];
            if record.is_named(body as u16, &label, self.table, message) {
                return number - 1;
            }
            slot = (slot + 1) & (self.slots.len() - 1);
        }
    }
}

/// A body that is open while the records are walked.
#[derive(Clone, Copy)]
struct Level {
    number: u16,
    union: bool,
    any: bool,
    tagged: bool,
    extension: bool,
    /// An untagged field with lo 0 stood before.
    spare: bool,
    /// The untagged field before, 0 for none.
    untagged: u8,
}

impl Level {
    const NONE: Level = Level {
        number: NONE,
        union: false,
        any: false,
        tagged: false,
        extension: false,
        spare: false,
        untagged: 0,
    };

    /// Whether a field's counts fit here.
    #[inline]
    fn counts(&self, head: &Head) -> bool {
        let (lo, hi) = (head.lo_count, head.hi_count);
        if self.union || head.kind == VOID {
            hi == 1 && (lo == 1 || lo == 0 && !self.union)
        } else {
            lo <= hi && hi >= 1 && lo != NONE
        }
    }
}

/// The walk over a table's records that unpacks and checks them.
struct Walk<'t, 'a> {
    table: &'t [u8],
    records: &'a mut [Record],
    slots: &'a mut [u16],
    count: usize,
    /// The bodies around the next record; the first stands for the top.
    levels: [Level; MOST_NESTED + 1],
    open: usize,
    references: bool,
}

impl Walk<'_, '_> {
    fn all(&mut self) -> Option<()> {
        let mut at = 0;
        while at < self.table.len() {
            at = self.record(at)?;
        }
        while self.open > 0 {
            self.leave()?;
        }
        (self.count > 0 && self.ends_well()).then_some(())
    }

    /// Unpacks and checks the record here, and gives the place after it.
    #[inline]
    fn record(&mut self, at: usize) -> Option<usize> {
        let (name, number) = (at + HEAD, self.count);
        let head = Head::new(self.table.get(at..name)?.try_into().ok()?)?;
        let end = name + usize::from(head.length);
        if end > self.table.len() || number == self.records.len() {
            return None;
        }
        let label = Label::new(self.table, name, usize::from(head.length));
        while self.levels[self.open].number != head.parent {
            self.leave()?;
        }
        let (scope, marks) = if head.parent == NONE {
            self.top(&head, &label)?
        } else if head.flags & UNTAGGED != 0 {
            self.untagged_field(&head, &label)?
        } else {
            self.tagged_field(&head, &label)?
        };
        self.enter(&label, scope)?;
        self.records[number] = Record {
            first: label.first,
            lo: head.lo,
            hi: head.hi,
            name: name as u16,
            scope,
            lo_count: head.lo_count,
            hi_count: head.hi_count,
            length: head.length as u8,
            kind: head.kind,
            kind_at: number as u8,
            marks,
            ..Record::NONE
        };
        self.count += 1;
        if head.kind >= STRUCT {
            self.open_or_aim(&head)?;
        }
        Some(end)
    }

    /// Opens the body of the record before, or notes its target.
    fn open_or_aim(&mut self, head: &Head) -> Option<()> {
        let number = self.count - 1;
        if head.kind == REFERENCE {
            self.references = true;
            self.records[number].kind_at = u8::try_from(head.target).ok()?;
            return Some(());
        }
        self.open += 1;
        *self.levels.get_mut(self.open)? = Level {
            number: number as u16,
            union: head.kind == UNION,
            ..Level::NONE
        };
        Some(())
    }

    /// Leaves a body. A union has an alternative.
    #[inline]
    fn leave(&mut self) -> Option<()> {
        let level = self.levels[self.open];
        self.open = self.open.checked_sub(1)?;
        (level.any || !level.union).then_some(())
    }

    fn top(&mut self, head: &Head, label: &Label) -> Option<(u16, u8)> {
        let typed = head.kind != VOID && head.kind != REFERENCE;
        let plain = head.flags == 0 && head.lo_count == 1 && head.hi_count == 1;
        (typed && plain && label.is_name(self.table)).then_some((OF_TOPS, 0))
    }

    fn untagged_field(&mut self, head: &Head, label: &Label) -> Option<(u16, u8)> {
        let level = &mut self.levels[self.open];
        let typed = if level.union {
            !level.any && head.kind == INT
        } else {
            head.kind != VOID
        };
        let first = !level.tagged && head.flags == UNTAGGED;
        if !typed || !first || !level.counts(head) || !label.is_name(self.table) {
            return None;
        }
        let (number, before) = (self.count as u8, level.untagged);
        if before == 0 {
            self.records[usize::from(head.parent)].untagged = number;
        } else {
            self.records[usize::from(before)].next = number;
        }
        let must = head.lo_count > 0;
        let marks = if must && !level.spare { NEEDED } else { 0 };
        level.untagged = number;
        level.spare |= !must;
        level.any = true;
        Some((OF_UNTAGGED | head.parent, marks))
    }

    #[inline]
    fn tagged_field(&mut self, head: &Head, label: &Label) -> Option<(u16, u8)> {
        let level = &mut self.levels[self.open];
        if !level.counts(head) || !label.is_tag(self.table) {
            return None;
        }
        let numbered = level.untagged != 0 && level.union && is_digits(label.bytes(self.table));
        let plugin = head.flags & PLUGIN != 0;
        if numbered || plugin && !label.bytes(self.table).contains(&b'.') {
            return None;
        }
        let inside = head.flags & EXTENSION != 0;
        if level.extension && !inside {
            return None;
        }
        level.extension = inside;
        level.tagged = true;
        level.any = true;
        if head.lo_count == 0 || inside || plugin {
            return Some((head.parent, 0));
        }
        self.records[usize::from(head.parent)].required += 1;
        let needed = if level.spare { 0 } else { NEEDED };
        Some((head.parent, MUST | needed))
    }

    /// Puts the next record's label among the slots, if none in its scope is the same.
    #[inline]
    fn enter(&mut self, label: &Label, scope: u16) -> Option<()> {
        let mut slot = label.slot(scope, self.slots.len());
        loop {
            let other = usize::from(self.slots[slot]);
            if other == 0 {
                self.slots[slot] = self.count as u16 + 1;
                return Some(());
            }
            if self.records[other - 1].is_named(scope, label, self.table, self.table) {
                return None;
            }
            slot = (slot + 1) & (self.slots.len() - 1);
        }
    }

    /// What only the whole table tells: record 0, the references' targets, and finite values.
    fn ends_well(&mut self) -> bool {
        let records = &mut self.records[..self.count];
        if records[0].kind != STRUCT {
            return false;
        }
        if !self.references {
            // Bodies stand in one another, and no union is empty, so all are finite.
            return true;
        }
        let targets = records.iter().all(|record| {
            record.kind != REFERENCE
                || records
                    .get(usize::from(record.kind_at))
                    .is_some_and(|target| target.scope == OF_TOPS)
        });
        targets && all_finite(records)
    }
}

/// Whether every body has a finite value, by turns from the last record to the first.
fn all_finite(records: &mut [Record]) -> bool {
    loop {
        let (mut grown, mut all) = (false, true);
        // Of each body: a needed field isn't finite yet; some alternative is.
        let (mut lacks, mut some) = ([false; MOST_RECORDS], [false; MOST_RECORDS]);
        for number in (0..records.len()).rev() {
            let record = records[number];
            let known = record.has(FINITE);
            let finite = known
                || match record.kind {
                    STRUCT => !lacks[number],
                    UNION => some[number],
                    REFERENCE => records[usize::from(record.kind_at)].has(FINITE),
                    _ => true,
                };
            if finite && !known {
                records[number].marks |= FINITE;
                grown = true;
            }
            all &= finite || !record.has_body();
            let body = usize::from(record.scope & 0xFF);
            if record.scope != OF_TOPS {
                lacks[body] |= record.has(NEEDED) && !finite;
                some[body] |= finite;
            }
        }
        if all || !grown {
            return all;
        }
    }
}

// ---- the message

/// Where rows go. A row is a record, the parent's row, a start, an end and an index.
trait Tape {
    fn put(&mut self, row: usize, numbers: [usize; ROW_WIDTH]);

    /// Gives a row its end.
    fn end(&mut self, row: usize, end: usize);

    /// Gives neighbours the same end.
    fn end_all(&mut self, rows: Range<usize>, end: usize);
}

/// Rows in short numbers, or in those that are lent.
impl<N: From<u16>> Tape for [[N; ROW_WIDTH]] {
    #[inline]
    fn put(&mut self, row: usize, numbers: [usize; ROW_WIDTH]) {
        self[row] = numbers.map(|number| N::from(number as u16));
    }

    #[inline]
    fn end(&mut self, row: usize, end: usize) {
        self[row][3] = N::from(end as u16);
    }

    #[inline]
    fn end_all(&mut self, rows: Range<usize>, end: usize) {
        for row in &mut self[rows] {
            row[3] = N::from(end as u16);
        }
    }
}

/// Rows that are only counted.
struct Unkept;

impl Tape for Unkept {
    #[inline]
    fn put(&mut self, _: usize, _: [usize; ROW_WIDTH]) {}

    #[inline]
    fn end(&mut self, _: usize, _: usize) {}

    #[inline]
    fn end_all(&mut self, _: Range<usize>, _: usize) {}
}

struct Reader<'a, T: Tape + ?Sized> {
    schema: Schema<'a>,
    message: &'a [u8],
    tape: &'a mut T,
    /// How many rows there are so far.
    rows: usize,
    /// Open braces.
    open: usize,
    fault: Refusal,
}

impl<'a, T: Tape + ?Sized> Reader<'a, T> {
    fn new(schema: Schema<'a>, message: &'a [u8], tape: &'a mut T) -> Reader<'a, T> {
        Reader {
            schema,
            message,
            tape,
            rows: 0,
            open: 0,
            fault: (0, 0),
        }
    }

    fn read(mut self) -> Result<usize, Refusal> {
        let length = self.message.len();
        self.push(0, 0, 0, length, 0);
        if self.body(0, 0, 0).is_some() {
            return Ok(self.rows);
        }
        Err(match token_fault(self.message, self.fault.1, self.open) {
            Some(place) => (22, place),
            None => self.fault,
        })
    }

    #[inline]
    fn record(&self, number: usize) -> &'a Record {
        &self.schema.records[number]
    }

    #[inline]
    fn byte(&self, at: usize) -> u8 {
        byte_at(self.message, at)
    }

    #[inline]
    fn skip(&self, at: usize) -> usize {
        skip(self.message, at)
    }

    #[cold]
    fn refuse(&mut self, number: u32, at: usize) -> Option<usize> {
        self.fault = (number, at);
        None
    }

    /// Nothing stands here that has the type's form.
    #[cold]
    fn wrong(&mut self, at: usize) -> Option<usize> {
        let number = match class(self.byte(at)) {
            WORD | QUOTE | OPEN => 24,
            _ => 23,
        };
        self.refuse(number, at)
    }

    /// No value of the simple type stands here: 30 where what stands has its form.
    #[cold]
    fn unfit(&mut self, at: usize, kind: u8) -> Option<usize> {
        if has_form(self.message, at, kind) {
            return self.refuse(30, at);
        }
        self.wrong(at)
    }

    #[inline]
    fn push(&mut self, number: usize, parent: usize, start: usize, end: usize, index: usize) {
        self.tape
            .put(self.rows, [number, parent, start, end, index]);
        self.rows += 1;
    }

    /// Opens the brace here and gives the place after it and its blanks.
    #[inline]
    fn open(&mut self, at: usize) -> Option<usize> {
        if self.open == MOST_OPEN {
            return self.refuse(22, at);
        }
        self.open += 1;
        Some(self.skip(at + 1))
    }

    /// A body from its first token on, up to the `}` or the end.
    fn body(&mut self, number: usize, row: usize, at: usize) -> Option<usize> {
        let in_braces = self.open > 0;
        let mut at = self.skip(at);
        let mut field = usize::from(self.record(number).untagged);
        while field != 0 {
            if self.ends(at, in_braces) {
                if self.record(field).lo_count > 0 {
                    return self.refuse(27, at);
                }
                return Some(at);
            }
            at = self.list(field, row, at)?;
            field = usize::from(self.record(field).next);
        }
        self.items(number, row, at, in_braces)
    }

    #[inline]
    fn ends(&self, at: usize, in_braces: bool) -> bool {
        if in_braces {
            self.byte(at) == b'}'
        } else {
            at == self.message.len()
        }
    }

    /// Where the word here ends, and the field of a body that it names; 0 is none. The guess is
    /// tried first.
    #[inline(always)]
    fn tag(&self, body: usize, at: usize, guess: usize) -> (usize, usize) {
        if let Some(record) = self.schema.records.get(guess) {
            let length = usize::from(record.length);
            let tried = usize::from(record.scope) == body && length <= 8;
            if tried && eight(self.message, at) & mask(length) == record.first {
                let end = at + length;
                if class(self.byte(end)) != WORD {
                    return (end, guess);
                }
            }
        }
        let end = word_end(self.message, at);
        (end, self.schema.find(body, self.message, at, end))
    }

    /// Passes over the `=` after the word that ends here, and the blanks round it.
    #[inline(always)]
    fn equals(&mut self, end: usize) -> Option<usize> {
        let at = self.skip(end);
        if self.byte(at) != b'=' {
            return self.refuse(23, at);
        }
        Some(self.skip(at + 1))
    }

    fn items(&mut self, number: usize, row: usize, at: usize, in_braces: bool) -> Option<usize> {
        let mut at = at;
        let mut seen = [0u64; MOST_RECORDS / 64];
        let mut missing = self.record(number).required;
        // Fields often come in order.
        let mut guess = number + 1;
        while class(self.byte(at)) == WORD {
            let (end, field) = self.tag(number, at, guess);
            if field == 0 {
                at = self.unknown(end)?;
                continue;
            }
            guess = field + 1;
            let bit = 1 << (field % 64);
            if seen[field / 64] & bit != 0 {
                return self.refuse(26, at);
            }
            seen[field / 64] |= bit;
            let record = self.record(field);
            missing -= u8::from(record.has(MUST));
            if record.kind == VOID {
                self.push(field, row, at, end, 0);
                at = self.skip(end);
                continue;
            }
            at = self.equals(end)?;
            at = self.list(field, row, at)?;
        }
        if !self.ends(at, in_braces) {
            return self.refuse(23, at);
        }
        if missing > 0 {
            return self.refuse(27, at);
        }
        Some(at)
    }

    /// A list of values, up to the token after it.
    #[inline]
    fn list(&mut self, field: usize, parent: usize, at: usize) -> Option<usize> {
        let kind = self.record(usize::from(self.record(field).kind_at));
        if kind.kind == INT {
            return self.ints(field, parent, at);
        }
        let record = self.record(field);
        let (mut at, mut count) = (at, 0);
        loop {
            let end = self.value(field, parent, at, count)?;
            at = self.skip(end);
            count += 1;
            if self.byte(at) != b',' {
                break;
            }
            if count == usize::from(record.hi_count) {
                return self.refuse(25, at);
            }
            at = self.skip(at + 1);
        }
        if count < usize::from(record.lo_count) {
            return self.refuse(25, at);
        }
        Some(at)
    }

    /// A list of ints.
    fn ints(&mut self, field: usize, parent: usize, at: usize) -> Option<usize> {
        let message = self.message;
        let record = self.record(field);
        let kind = self.record(usize::from(record.kind_at));
        let (mut at, mut count) = (at, 0);
        loop {
            let Some(end) = int_end(message, at, kind) else {
                return self.unfit(at, INT);
            };
            self.push(field, parent, at, end, count);
            count += 1;
            at = skip(message, end);
            if byte_at(message, at) != b',' {
                break;
            }
            if count == usize::from(record.hi_count) {
                return self.refuse(25, at);
            }
            at = skip(message, at + 1);
        }
        if count < usize::from(record.lo_count) {
            return self.refuse(25, at);
        }
        Some(at)
    }

    /// Where the value ends that stands here, at the index of its list.
    fn value(&mut self, field: usize, parent: usize, at: usize, index: usize) -> Option<usize> {
        let number = usize::from(self.record(field).kind_at);
        let kind = self.record(number);
        match kind.kind {
            UNION => self.choice(field, number, parent, at, index),
            STRUCT => {
                let row = self.rows;
                if self.byte(at) != b'{' {
                    return self.wrong(at);
                }
                self.push(field, parent, at, 0, index);
                let inside = self.open(at)?;
                let end = self.body(number, row, inside)? + 1;
                self.open -= 1;
                self.tape.end(row, end);
                Some(end)
            }
            _ => {
                let Some(end) = simple_end(self.message, at, kind) else {
                    return self.unfit(at, kind.kind);
                };
                self.push(field, parent, at, end, index);
                Some(end)
            }
        }
    }

    /// The same for a union's int, whose word is of digits.
    #[inline(always)]
    fn digits(&mut self, int: usize, parent: usize, at: usize) -> Option<usize> {
        let Some(end) = int_end(self.message, at, self.record(int)) else {
            return self.unfit(at, INT);
        };
        self.push(int, parent, at, end, 0);
        Some(end)
    }

    /// The same for a union. A chain of choices is a loop: its rows are neighbours with one end.
    fn choice(
        &mut self,
        field: usize,
        union: usize,
        parent: usize,
        at: usize,
        index: usize,
    ) -> Option<usize> {
        let first = self.rows;
        let (mut field, mut union, mut parent, mut at) = (field, union, parent, at);
        let mut index = index;
        let mut guess = union + 1;
        let (last, end) = loop {
            let row = self.rows;
            self.push(field, parent, at, 0, index);
            if class(self.byte(at)) != WORD {
                return self.wrong(at);
            }
            let int = usize::from(self.record(union).untagged);
            if int != 0 && matches!(self.byte(at), b'-' | b'0'..=b'9') {
                let end = word_end(self.message, at);
                if is_digits(&self.message[at..end]) {
                    break (row, self.digits(int, row, at)?);
                }
            }
            let (end, chosen) = self.tag(union, at, guess);
            if chosen == 0 {
                return self.refuse(28, at);
            }
            guess = chosen;
            let record = self.record(chosen);
            if record.kind == VOID {
                self.push(chosen, row, at, end, 0);
                break (row, end);
            }
            at = self.equals(end)?;
            let number = usize::from(record.kind_at);
            if self.record(number).kind != UNION {
                break (row, self.value(chosen, row, at, 0)?);
            }
            (field, union, parent, index) = (chosen, number, row, 0);
        };
        self.tape.end_all(first..last + 1, end);
        Some(end)
    }

    /// The rest of an unknown item after its word, up to the token after it.
    #[inline(never)]
    fn unknown(&mut self, end: usize) -> Option<usize> {
        let mut at = self.skip(end);
        if self.byte(at) != b'=' {
            return Some(at);
        }
        loop {
            at = self.skip(at + 1);
            let end = match class(self.byte(at)) {
                WORD => {
                    at = self.skip(word_end(self.message, at));
                    if matches!(self.byte(at), b'=' | b',') {
                        continue;
                    }
                    return Some(at);
                }
                QUOTE => match string_end(self.message, at) {
                    Some(end) => end,
                    None => return self.refuse(22, at),
                },
                OPEN => self.braces(at)?,
                _ => return self.refuse(23, at),
            };
            at = self.skip(end);
            if self.byte(at) != b',' {
                return Some(at);
            }
        }
    }

    /// Passes over braces round balanced tokens, up to the place after them.
    fn braces(&mut self, at: usize) -> Option<usize> {
        let around = self.open;
        let mut at = at;
        loop {
            match class(self.byte(at)) {
                OPEN => at = self.open(at)?,
                CLOSE => {
                    self.open -= 1;
                    at += 1;
                    if self.open == around {
                        return Some(at);
                    }
                }
                QUOTE => match string_end(self.message, at) {
                    Some(end) => at = end,
                    None => return self.refuse(22, at),
                },
                BAD => return self.refuse(23, at),
                _ => at += 1,
            }
        }
    }
}

/// Whether a token of the simple type's form stands here.
fn has_form(message: &[u8], at: usize, kind: u8) -> bool {
    let word = &message[at..word_end(message, at)];
    let led = || word.strip_prefix(b"-").unwrap_or(word)[0] == b'0' && word != b"0";
    match kind {
        INT => is_digits(word) && !led(),
        ASCII => byte_at(message, at) == b'"' && string_end(message, at).is_some(),
        UNQUOTED => !word.is_empty(),
        DATE => word.len() == 8 && word.iter().all(u8::is_ascii_digit),
        TIME => word.len() == 6 && word.iter().all(u8::is_ascii_digit),
        _ => false,
    }
}

/// Where the int ends that stands here, if its word is one in the range.
#[inline(always)]
fn int_end(message: &[u8], at: usize, kind: &Record) -> Option<usize> {
    let digits = eight(message, at);
    let count = digit_count(digits);
    if !(1..=7).contains(&count) {
        return other_int_end(message, at, kind);
    }
    let ends = class((digits >> (8 * count)) as u8) != WORD;
    let led = digits as u8 == b'0' && count > 1;
    let value = digits_value(digits, count) as i32;
    (ends && !led && kind.lo <= value && value <= kind.hi).then_some(at + count)
}

/// The same for a negative or a long one.
#[inline(never)]
fn other_int_end(message: &[u8], at: usize, kind: &Record) -> Option<usize> {
    let minus = byte_at(message, at) == b'-';
    let start = at + usize::from(minus);
    let (mut end, mut value) = (start, 0);
    while byte_at(message, end).is_ascii_digit() {
        // Ten digits are enough for every range.
        if end == start + 10 {
            return None;
        }
        value = value * 10 + i64::from(message[end] - b'0');
        end += 1;
    }
    let ends = end > start && class(byte_at(message, end)) != WORD;
    let led = byte_at(message, start) == b'0' && (minus || end > start + 1);
    let value = if minus { -value } else { value };
    (ends && !led && i64::from(kind.lo) <= value && value <= i64::from(kind.hi)).then_some(end)
}

/// Where the value of a simple type ends that stands here.
#[inline]
fn simple_end(message: &[u8], at: usize, kind: &Record) -> Option<usize> {
    let in_range = |length: usize| kind.lo as usize <= length && length <= kind.hi as usize;
    match kind.kind {
        INT => int_end(message, at, kind),
        BOOL => {
            let end = word_end(message, at);
            matches!(&message[at..end], b"true" | b"false").then_some(end)
        }
        DATE => {
            let digits = eight(message, at);
            let alone = class(byte_at(message, at + 8)) != WORD;
            (alone && digit_count(digits) == 8 && is_date(digits_value(digits, 8)))
                .then_some(at + 8)
        }
        TIME => {
            let digits = eight(message, at);
            let alone = class((digits >> 48) as u8) != WORD;
            (alone && digit_count(digits) == 6 && is_time(digits_value(digits, 6)))
                .then_some(at + 6)
        }
        ASCII => {
            if byte_at(message, at) != b'"' {
                return None;
            }
            string_end(message, at).filter(|end| in_range(end - at - 2))
        }
        UNQUOTED => {
            let end = word_end(message, at);
            in_range(end - at).then_some(end)
        }
        _ => None,
    }
}

fn is_date(number: u32) -> bool {
    let (year, month, day) = (number / 10_000, number / 100 % 100, number % 100);
    let leap = || year % 4 == 0 && (year % 100 != 0 || year % 400 == 0);
    let days = match month {
        2 => 28 + u32::from(leap()),
        4 | 6 | 9 | 11 => 30,
        1..=12 => 31,
        _ => 0,
    };
    year >= 1 && day >= 1 && day <= days
}

fn is_time(number: u32) -> bool {
    number / 10_000 <= 23 && number / 100 % 100 <= 59 && number % 100 <= 59
}

/// The first bad byte, lone quote or brace too deep from a token's place on.
#[cold]
fn token_fault(message: &[u8], from: usize, open: usize) -> Option<usize> {
    let (mut at, mut open) = (from, open);
    while at < message.len() {
        match class(message[at]) {
            BAD => return Some(at),
            QUOTE => match string_end(message, at) {
                Some(end) => {
                    at = end;
                    continue;
                }
                None => return Some(at),
            },
            OPEN if open == MOST_OPEN => return Some(at),
            OPEN => open += 1,
            CLOSE => open = open.saturating_sub(1),
            _ => {}
        }
        at += 1;
    }
    None
}

#[cfg(test)]
mod tests {
    use super::*;
    use crate::generate::Stream;
    use crate::{definition, frames, message, table};

    type Reading = fn(&[u8], &[u8], &mut [u32]) -> Result<usize, Refusal>;

    /// What a number holds before a reader gets it.
    const LENT: u32 = 0xA5A5_A5A5;

    /// Holds both readings against the reference, all lent numbers included.
    fn compare_read(table: &[u8], message: &[u8], room: usize) {
        let mut wanted = vec![LENT; room];
        let want = message::read_into(table, message, &mut wanted);
        let want = want.map_err(|refusal| (refusal.number, refusal.place));
        let shown = || String::from_utf8_lossy(message).into_owned();
        for (passes, reader) in [(1, read as Reading), (2, read_twice)] {
            let mut rows = vec![LENT; room];
            let answer = reader(table, message, &mut rows);
            assert_eq!(answer, want, "{passes} {table:02x?} {} {room}", shown());
            assert_eq!(rows, wanted, "{passes} {table:02x?} {} {room}", shown());
        }
    }

    fn compare_table(bytes: &[u8]) {
        assert_eq!(table_ok(bytes), table::table_ok(bytes), "{bytes:02x?}");
    }

    /// A stream begins with all hand cases.
    fn compare_stream(seed: u64, count: usize) {
        let mut stream = Stream::new(seed);
        for _ in 0..count {
            let frame = stream.frame();
            match frame.kind {
                frames::READ => compare_read(&frame.a, &frame.b, frame.room as usize),
                frames::TABLE => compare_table(&frame.a),
                _ => {}
            }
        }
    }

    fn compiled(text: &str) -> Vec<u8> {
        definition::compile(text.as_bytes(), 65_536).expect("a lawful definition")
    }

    #[test]
    fn frames_get_the_reference_answers() {
        compare_stream(1, 30_000);
    }

    #[test]
    fn other_frames_get_the_reference_answers() {
        compare_stream(7, 30_000);
    }

    #[test]
    #[ignore = "it takes half a minute"]
    fn many_frames_get_the_reference_answers() {
        compare_stream(3, 2_000_000);
    }

    /// Messages with the most rows, at every length where more room is taken.
    #[test]
    fn the_most_rows_fit() {
        let table = compiled("struct r { u x[0..*] as ?; }; union u { void a; };");
        for around in [0, 62, 254, 1_022, 4_094, 16_384] {
            for length in around..around + 4 {
                let message: Vec<u8> = b"a,".iter().copied().cycle().take(length).collect();
                compare_read(&table, &message, ROW_WIDTH * (length + 2));
                compare_read(&table, &message, ROW_WIDTH * length);
            }
        }
    }

    /// Tags that differ in one byte, in a table and in messages.
    #[test]
    fn long_tags_are_told_apart() {
        for length in [1, 2, 7, 8, 9, 15, 16, 17, 40, 63] {
            let tag = |at: usize| format!("{}y{}", "x".repeat(at), "x".repeat(length - at - 1));
            let tags: Vec<String> = (0..length).map(tag).collect();
            let fields = tags.iter().map(|tag| format!("int<0..9> {tag}[0..1];"));
            let table = compiled(&format!("struct r {{ {} }};", fields.collect::<String>()));
            let other = "x".repeat(length);
            let items = tags.iter().rev().map(|tag| format!("{tag}=1 "));
            let all: String = items.collect();
            for tag in tags.iter().chain([&other]) {
                let message = format!("{tag}=1 {other} z{tag}=a {tag}z=b {tag}");
                compare_read(&table, message.as_bytes(), 40);
                compare_read(&table, &message.as_bytes()[..length / 2], 40);
                compare_read(&table, format!("{all}{tag}=1").as_bytes(), ROW_WIDTH * 64);
            }
            let first = 24 + 1 + 24;
            for at in first..first + length {
                for byte in 0..=255 {
                    let mut changed = table.clone();
                    changed[at] = byte;
                    compare_table(&changed);
                }
            }
        }
    }

    /// Ints of all lengths and forms, at the end and before other bytes.
    #[test]
    fn ints_fit_their_ranges() {
        let ranges = [
            "",
            "<-5..1234567>",
            "<0..30000>",
            "<-2147483648..-99999999>",
        ];
        for range in ranges {
            let table = compiled(&format!("struct r {{ int{range} x[1..*] as ?; }};"));
            let union =
                format!("struct r {{ u x[1..*] as ?; }}; union u {{ int{range} n as ?; }};");
            let tables = [table, compiled(&union)];
            let numbers = (0..12).flat_map(|power| {
                let ten = 10_i64.pow(power);
                [ten - 1, ten, ten + 1, 3 * ten, -ten, 1 - ten]
            });
            let limits = [
                30_000,
                1_234_567,
                i64::from(i32::MAX),
                i64::from(i32::MIN),
                -99_999_999,
            ];
            let near = limits
                .iter()
                .flat_map(|&limit| [limit - 1, limit, limit + 1]);
            for number in numbers.chain(near) {
                for before in ["", "0", "-", "-0", "+", " "] {
                    for after in ["", " ", ",", ",7", "a", "9", "=", "-", "}", "(", " 1234567"] {
                        let message = format!("{before}{number}{after}");
                        for table in &tables {
                            compare_read(table, message.as_bytes(), 40);
                        }
                    }
                }
            }
        }
    }

    #[test]
    fn dates_and_times_are_real() {
        let dates = compiled("struct r { date d as ?; };");
        let times = compiled("struct r { time t as ?; };");
        for one in 0..100 {
            for two in 0..100 {
                for date in [
                    format!("2023{one:02}{two:02}"),
                    format!("2024{one:02}{two:02}"),
                    format!("1900{one:02}{two:02}"),
                    format!("{one:02}{two:02}0229"),
                ] {
                    compare_read(&dates, date.as_bytes(), 8);
                }
                for time in [
                    format!("{one:02}{two:02}59"),
                    format!("{one:02}59{two:02} "),
                    format!("00{one:02}{two:02}x"),
                ] {
                    compare_read(&times, time.as_bytes(), 8);
                }
            }
        }
    }

    /// A row of references that takes many turns, and its first made one of them.
    #[test]
    fn rows_of_references_are_followed() {
        let one = |number: usize| format!("struct t{number} {{ t{} x; }};", number - 1);
        let rest: String = (1..128).map(one).collect();
        let mut table = compiled(&format!("struct t0 {{ bool z; }};{rest}"));
        compare_table(&table);
        let bool_at = 24 + 2;
        table[bool_at + 2] = 10;
        for target in 0..=255 {
            table[bool_at + 20..bool_at + 22].copy_from_slice(&[target, 0]);
            for lo_count in [0, 1] {
                table[bool_at + 8] = lo_count;
                compare_table(&table);
            }
        }
    }
}
