//! The compiled table: the records and their bytes.

/// "Kinds 1 to 10".
pub const VOID: u16 = 1;
pub const BOOL: u16 = 2;
pub const INT: u16 = 3;
pub const ASCII: u16 = 4;
pub const UNQUOTED_ASCII: u16 = 5;
pub const DATE: u16 = 6;
pub const TIME: u16 = 7;
pub const STRUCT: u16 = 8;
pub const UNION: u16 = 9;
pub const REFERENCE: u16 = 10;

/// "65,535 is `*`", a count without limit.
pub const NO_LIMIT: u16 = 65_535;
/// "65,535 is "none"", as parent and as target.
const NONE: u16 = 65_535;
/// The bytes of a record before its name or tag.
const HEAD: usize = 24;

/// One parameter's record.
#[derive(Clone, Debug, PartialEq, Eq)]
pub struct Record {
    /// 1 to 10: void, bool, int, ascii, unquoted-ascii, date, time, struct, union, reference.
    pub kind: u16,
    /// The enclosing struct's or union's number; none for a top parameter.
    pub parent: Option<u16>,
    pub untagged: bool,
    pub extension: bool,
    pub plugin: bool,
    pub lo_count: u16,
    /// 65,535 is no limit.
    pub hi_count: u16,
    pub lo: i32,
    pub hi: i32,
    /// The referenced top's number.
    pub target: Option<u16>,
    /// The wire tag, or the name where untagged or top.
    pub name: Vec<u8>,
}

impl Record {
    /// Whether the record has a body: a struct or a union.
    pub fn has_body(&self) -> bool {
        matches!(self.kind, STRUCT | UNION)
    }

    /// "Flags: 1 untagged, 2 directly in an extension, 4 plugin."
    fn flags(&self) -> u16 {
        u16::from(self.untagged) + 2 * u16::from(self.extension) + 4 * u16::from(self.plugin)
    }
}

/// The limits of a type's range, "also the default"; none for kinds without a range.
pub fn limits(kind: u16) -> Option<(i32, i32)> {
    match kind {
        INT => Some((i32::MIN, i32::MAX)),
        ASCII => Some((0, 1_024)),
        UNQUOTED_ASCII => Some((1, 1_024)),
        _ => None,
    }
}

/// The numbers of each body's fields, in order, by the parent of every parameter.
pub fn bodies(parents: impl ExactSizeIterator<Item = Option<usize>>) -> Vec<Vec<usize>> {
    let mut bodies = vec![Vec::new(); parents.len()];
    for (number, parent) in parents.enumerate() {
        if let Some(parent) = parent {
            bodies[parent].push(number);
        }
    }
    bodies
}

/// The bodies of decoded records, whose parents are all there.
pub fn record_bodies(records: &[Record]) -> Vec<Vec<usize>> {
    bodies(records.iter().map(|record| record.parent.map(usize::from)))
}

/// The table's bytes.
pub fn encode(records: &[Record]) -> Vec<u8> {
    let mut table = Vec::new();
    for record in records {
        encode_one(record, &mut table);
    }
    table
}

/// "length u16 (whole record), kind u16, parent u16, flags u16, lo count u16, hi count u16,
/// lo i32, hi i32, target u16, n u16, n bytes", "all numbers little-endian".
fn encode_one(record: &Record, table: &mut Vec<u8>) {
    let n = record.name.len() as u16;
    table.extend((HEAD as u16 + n).to_le_bytes());
    table.extend(record.kind.to_le_bytes());
    table.extend(record.parent.unwrap_or(NONE).to_le_bytes());
    table.extend(record.flags().to_le_bytes());
    table.extend(record.lo_count.to_le_bytes());
    table.extend(record.hi_count.to_le_bytes());
    table.extend(record.lo.to_le_bytes());
    table.extend(record.hi.to_le_bytes());
    table.extend(record.target.unwrap_or(NONE).to_le_bytes());
    table.extend(n.to_le_bytes());
    table.extend(&record.name);
}

/// The records, where the bytes are whole records and nothing else.
pub fn decode(table: &[u8]) -> Option<Vec<Record>> {
    let mut records = Vec::new();
    let mut rest = table;
    while !rest.is_empty() {
        let (record, after) = decode_one(rest)?;
        records.push(record);
        rest = after;
    }
    Some(records)
}

/// The first record and the bytes after it.
fn decode_one(bytes: &[u8]) -> Option<(Record, &[u8])> {
    let head = bytes.get(..HEAD)?;
    let half = |at: usize| u16::from_le_bytes([head[at], head[at + 1]]);
    let whole =
        |at: usize| i32::from_le_bytes([head[at], head[at + 1], head[at + 2], head[at + 3]]);
    let optional = |at: usize| Some(half(at)).filter(|&number| number != NONE);
    let (length, flags, n) = (usize::from(half(0)), half(6), usize::from(half(22)));
    if length != HEAD + n || flags > 7 {
        return None;
    }
    let record = Record {
        kind: half(2),
        parent: optional(4),
        untagged: flags & 1 != 0,
        extension: flags & 2 != 0,
        plugin: flags & 4 != 0,
        lo_count: half(8),
        hi_count: half(10),
        lo: whole(12),
        hi: whole(16),
        target: optional(20),
        name: bytes.get(HEAD..length)?.to_vec(),
    };
    Some((record, &bytes[length..]))
}
