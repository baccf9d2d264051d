//! The tables that some definition compiles to: the record rules, and a text for each table.

use crate::definition::MOST_PARAMS;
use crate::finite::finite;
use crate::record::{self, Record, INT, NO_LIMIT, REFERENCE, STRUCT, UNION, UNQUOTED_ASCII, VOID};
use crate::text::{is_digits, is_name, is_tag, MOST_OPEN};
use std::collections::HashSet;

/// Whether some definition compiles to these bytes: the record rules.
pub fn table_ok(table: &[u8]) -> bool {
    taken(table).is_some()
}

/// The records of a table that the rules take.
pub fn taken(table: &[u8]) -> Option<Vec<Record>> {
    let records = record::decode(table)?;
    follows_rules(&records).then_some(records)
}

fn follows_rules(records: &[Record]) -> bool {
    // "1 to 256 whole records"; "record 0 is a top struct".
    (1..=MOST_PARAMS).contains(&records.len())
        && records[0].kind == STRUCT
        && records[0].parent.is_none()
        && nests(records)
        && records.iter().all(|record| stands_alone(record, records))
        && bodies_follow(records)
        && every_body_finite(records)
}

/// "a non-top's parent is a struct or union on the chain "previous record, its parent, …"";
/// "at most 8 structs and unions nested, counting itself".
fn nests(records: &[Record]) -> bool {
    let mut chain: Vec<u16> = Vec::new();
    for (number, record) in records.iter().enumerate() {
        while !chain.is_empty() && chain.last().copied() != record.parent {
            chain.pop();
        }
        if chain.last().copied() != record.parent {
            return false;
        }
        if record.has_body() {
            chain.push(number as u16);
        }
        if chain.len() > MOST_OPEN {
            return false;
        }
    }
    true
}

/// The rules for one record beside its parent and its target.
fn stands_alone(record: &Record, records: &[Record]) -> bool {
    (VOID..=REFERENCE).contains(&record.kind)
        && counts_fit(record, records)
        && range_fits(record)
        && target_fits(record, records)
        && name_fits(record)
        && (record.parent.is_some() || top_fits(record))
}

/// "lo ≤ 65,534, hi ≥ 1, lo ≤ hi (65,535 is `*`), void hi ≤ 1"; "tops and alternatives have
/// counts 1 and 1".
fn counts_fit(record: &Record, records: &[Record]) -> bool {
    let (lo, hi) = (record.lo_count, record.hi_count);
    let in_struct = |parent: u16| records[usize::from(parent)].kind == STRUCT;
    if record.parent.is_some_and(in_struct) {
        lo < NO_LIMIT && hi >= 1 && lo <= hi && (record.kind != VOID || hi == 1)
    } else {
        (lo, hi) == (1, 1)
    }
}

/// "lo and hi within the kind's limits and ordered for int, ascii, unquoted-ascii, else 0 and 0"
fn range_fits(record: &Record) -> bool {
    let (lo, hi) = (record.lo, record.hi);
    match record::limits(record.kind) {
        Some((least, most)) => least <= lo && lo <= hi && hi <= most,
        None => (lo, hi) == (0, 0),
    }
}

/// "target is a top's number exactly for kind 10, else 65,535"
fn target_fits(record: &Record, records: &[Record]) -> bool {
    let is_top = |target: u16| {
        let top = records.get(usize::from(target));
        top.is_some_and(|top| top.parent.is_none())
    };
    match record.target {
        Some(target) => record.kind == REFERENCE && is_top(target),
        None => record.kind != REFERENCE,
    }
}

/// "name form (no keyword) for tops and untagged fields, tag form for the others; a plugin's tag
/// has a dot and it is not untagged"
fn name_fits(record: &Record) -> bool {
    let dotted = !record.untagged && record.name.contains(&b'.');
    let form = if record.untagged || record.parent.is_none() {
        is_name(&record.name)
    } else {
        is_tag(&record.name)
    };
    form && (!record.plugin || dotted)
}

/// "tops: flags 0, neither void nor reference"
fn top_fits(record: &Record) -> bool {
    let flagged = record.untagged || record.extension || record.plugin;
    !flagged && record.kind != VOID && record.kind != REFERENCE
}

/// The rules for the tops together and for each body.
fn bodies_follow(records: &[Record]) -> bool {
    let bodies = record::record_bodies(records);
    let tops = records.iter().filter(|record| record.parent.is_none());
    all_differ(tops)
        && records.iter().zip(&bodies).all(|(record, body)| {
            let fields: Vec<&Record> = body.iter().map(|&field| &records[field]).collect();
            groups_last(&fields) && names_differ(&fields) && rule_7(record.kind, &fields)
        })
}

/// "in a body no field outside an extension after one inside"
fn groups_last(fields: &[&Record]) -> bool {
    fields
        .windows(2)
        .all(|pair| pair[1].extension || !pair[0].extension)
}

/// "no name twice among the untagged fields of a body, no tag twice in a body"
fn names_differ(fields: &[&Record]) -> bool {
    let of = |untagged: bool| {
        fields
            .iter()
            .copied()
            .filter(move |field| field.untagged == untagged)
    };
    all_differ(of(true)) && all_differ(of(false))
}

fn all_differ<'a>(mut records: impl Iterator<Item = &'a Record>) -> bool {
    let mut seen = HashSet::new();
    records.all(|record| seen.insert(&record.name))
}

/// "rule 7 over kinds, flags and tags"
fn rule_7(kind: u16, fields: &[&Record]) -> bool {
    let untagged = fields.iter().filter(|field| field.untagged).count();
    // In both, the untagged ones are the first, in no extension.
    let first = fields
        .iter()
        .take(untagged)
        .all(|field| field.untagged && !field.extension);
    let own = if kind == UNION {
        untagged == 0 || untagged == 1 && fields[0].kind == INT && no_digit_tags(fields)
    } else {
        fields
            .iter()
            .all(|field| !(field.untagged && field.kind == VOID))
    };
    first && own
}

/// "no tag is an optional `-` with one or more digits only"
fn no_digit_tags(fields: &[&Record]) -> bool {
    fields
        .iter()
        .all(|field| field.untagged || !is_digits(&field.name))
}

/// "every struct and union has a finite value"
fn every_body_finite(records: &[Record]) -> bool {
    let finite = finite(records);
    records
        .iter()
        .zip(finite)
        .all(|(record, finite)| finite || !record.has_body())
}

/// A definition's text that compiles to these bytes, where the record rules hold: explicit tags
/// everywhere, one group for each extension field, fresh names for tagged fields.
pub fn decompile(table: &[u8]) -> Option<Vec<u8>> {
    taken(table).map(|records| write(&records))
}

/// The text of records that nest, with kinds and targets that are there.
fn write(records: &[Record]) -> Vec<u8> {
    let mut writer = Writer {
        names: names(records),
        bodies: record::record_bodies(records),
        records,
        text: Vec::new(),
    };
    for (number, record) in records.iter().enumerate() {
        if record.parent.is_none() {
            writer.top(number);
        }
    }
    writer.text
}

/// The names of tops and untagged fields, and fresh ones for tagged fields.
fn names(records: &[Record]) -> Vec<Vec<u8>> {
    let keeps = |record: &Record| record.untagged || record.parent.is_none();
    let kept = records.iter().filter(|record| keeps(record));
    let kept: HashSet<&[u8]> = kept.map(|record| record.name.as_slice()).collect();
    let all = (0..).map(|count: u32| format!("f{count}").into_bytes());
    let mut fresh = all.filter(|name| !kept.contains(name.as_slice()));
    let name = |record: &Record| {
        if keeps(record) {
            record.name.clone()
        } else {
            fresh.next().expect("fresh names never end")
        }
    };
    records.iter().map(name).collect()
}

struct Writer<'a> {
    records: &'a [Record],
    bodies: Vec<Vec<usize>>,
    names: Vec<Vec<u8>>,
    text: Vec<u8>,
}

impl Writer<'_> {
    fn write(&mut self, bytes: &[u8]) {
        self.text.extend_from_slice(bytes);
    }

    fn top(&mut self, number: usize) {
        self.typed_name(number);
        self.rest(number);
    }

    fn field(&mut self, number: usize, alternative: bool) {
        let records = self.records;
        let record = &records[number];
        self.write(if record.extension { b"[" } else { b"" });
        self.typed_name(number);
        if !alternative {
            self.cardinality(record);
        }
        self.write(b" as ");
        self.write(if record.untagged { b"?" } else { &record.name });
        self.write(if record.plugin { b" plugin" } else { b"" });
        self.rest(number);
        self.write(if record.extension { b"]" } else { b"" });
    }

    fn typed_name(&mut self, number: usize) {
        const WORDS: [&str; 9] = [
            "void",
            "bool",
            "int",
            "ascii",
            "unquoted-ascii",
            "date",
            "time",
            "struct",
            "union",
        ];
        let records = self.records;
        let record = &records[number];
        match record.target {
            Some(top) => self.write(&records[usize::from(top)].name),
            None => self.write(WORDS[usize::from(record.kind - 1)].as_bytes()),
        }
        if matches!(record.kind, INT..=UNQUOTED_ASCII) {
            self.write(format!("<{}..{}>", record.lo, record.hi).as_bytes());
        }
        let name = self.names[number].clone();
        self.write(b" ");
        self.write(&name);
    }

    fn cardinality(&mut self, record: &Record) {
        let range = match record.hi_count {
            NO_LIMIT => format!("[{}..*]", record.lo_count),
            hi => format!("[{}..{hi}]", record.lo_count),
        };
        self.write(range.as_bytes());
    }

    fn rest(&mut self, number: usize) {
        let record = &self.records[number];
        if record.has_body() {
            let alternatives = record.kind == UNION;
            self.write(b"{");
            for field in self.bodies[number].clone() {
                self.field(field, alternatives);
            }
            self.write(b"}");
        }
        self.write(b";");
    }
}

#[cfg(test)]
mod tests {
    use super::*;
    use crate::cases::{Ask, CASES};
    use crate::definition::compile;

    /// A small seeded generator.
    struct Random(u64);

    impl Random {
        fn below(&mut self, limit: usize) -> usize {
            self.0 = self.0.wrapping_add(0x9E37_79B9_7F4A_7C15);
            let mixed = (self.0 ^ (self.0 >> 30)).wrapping_mul(0xBF58_476D_1CE4_E5B9);
            let mixed = (mixed ^ (mixed >> 27)).wrapping_mul(0x94D0_49BB_1331_11EB);
            ((mixed ^ (mixed >> 31)) % limit as u64) as usize
        }

        fn of<T: Copy>(&mut self, values: &[T]) -> T {
            values[self.below(values.len())]
        }
    }

    /// The tables that the cases' definitions compile to, but for the very long.
    fn compiled() -> Vec<Vec<u8>> {
        let tables = CASES.iter().filter_map(|case| match &case.ask {
            Ask::Compile(text, _) => compile(&text.bytes(), 65_536).ok(),
            Ask::Read(table, _, _) => Some(table.bytes()).filter(|table| !table.is_empty()),
            _ => None,
        });
        tables.filter(|table| table.len() < 1_000).collect()
    }

    fn change_byte(table: &mut Vec<u8>, random: &mut Random) {
        let at = random.below(table.len() + 1);
        let byte = random.of(&[
            0, 1, 2, 3, 8, 9, 10, 25, b'.', b'-', b'5', b'a', b'x', 254, 255,
        ]);
        match random.below(8) {
            0 => table.insert(at, byte),
            1 if at < table.len() => drop(table.remove(at)),
            _ if at < table.len() => table[at] = byte,
            _ => {}
        }
    }

    /// Puts other numbers into one part of a record.
    fn change_part(record: &mut Record, count: usize, random: &mut Random) {
        let number = random.below(count + 2) as u16;
        let whole = random.of(&[i32::MIN, -1, 0, 1, 2, 9, 1_024, 1_025, i32::MAX]);
        match random.below(11) {
            0 => record.kind = random.below(12) as u16,
            1 => record.parent = Some(number).filter(|&number| number > 0).map(|n| n - 1),
            2 => record.untagged = !record.untagged,
            3 => record.extension = !record.extension,
            4 => record.plugin = !record.plugin,
            5 => record.lo_count = random.of(&[0, 1, 2, 65_534, 65_535]),
            6 => record.hi_count = random.of(&[0, 1, 2, 65_534, 65_535]),
            7 => record.lo = whole,
            8 => record.hi = whole,
            9 => record.target = Some(number).filter(|&number| number > 0).map(|n| n - 1),
            _ => {
                let names: [&[u8]; 10] = [
                    b"x", b"y", b"r", b"u", b"a.b", b"5", b"-07", b"int", b"f0", b"",
                ];
                record.name = random.of(&names).to_vec();
            }
        }
    }

    /// Changes, removes, repeats or swaps records, or appends those of another table.
    fn change_records(table: &mut Vec<u8>, other: &[u8], random: &mut Random) {
        let Some(mut records) = record::decode(table).filter(|records| !records.is_empty()) else {
            return;
        };
        let count = records.len();
        let (one, two) = (random.below(count), random.below(count));
        match random.below(12) {
            0 => drop(records.remove(one)),
            1 => records.insert(two, records[one].clone()),
            2 => records.swap(one, two),
            3 => records.extend(record::decode(other).unwrap()),
            _ => change_part(&mut records[one], count, random),
        }
        *table = record::encode(&records);
    }

    /// What the recipe gives for any records that it can be tried on.
    fn attempt(table: &[u8]) -> Option<Vec<u8>> {
        let records = record::decode(table).filter(|records| !records.is_empty())?;
        let writable = |record: &Record| match record.target {
            Some(target) => usize::from(target) < records.len(),
            None => (VOID..REFERENCE).contains(&record.kind),
        };
        let tried = nests(&records) && records.iter().all(writable);
        tried.then(|| write(&records))
    }

    /// The rules take a table exactly when the recipe's text compiles to it.
    fn check(table: &[u8]) -> bool {
        let text = attempt(table);
        let back = text.as_ref().and_then(|text| compile(text, 65_536).ok());
        let taken = table_ok(table);
        let shown = || String::from_utf8_lossy(text.as_deref().unwrap_or(b"")).into_owned();
        assert_eq!(
            taken,
            back.as_deref() == Some(table),
            "{table:02x?} {}",
            shown()
        );
        assert_eq!(decompile(table), text.filter(|_| taken));
        taken
    }

    #[test]
    fn compiled_tables_are_taken() {
        for table in compiled() {
            assert!(check(&table));
        }
    }

    /// Tables that are taken replace others, so that changes add up.
    #[test]
    fn rules_take_what_the_recipe_compiles_to() {
        let mut tables = compiled();
        let mut random = Random(1);
        let mut taken = 0;
        for _ in 0..20_000 {
            let other = tables[random.below(tables.len())].clone();
            let place = random.below(tables.len());
            let mut table = tables[place].clone();
            for _ in 0..=random.below(3) {
                match random.below(8) {
                    0 => change_byte(&mut table, &mut random),
                    _ => change_records(&mut table, &other, &mut random),
                }
            }
            if check(&table) {
                taken += 1;
                if table.len() < 1_000 {
                    tables[place] = table;
                }
            }
        }
        println!("{taken} of 20000 tables taken");
        assert!((2_000..18_000).contains(&taken));
    }

    #[test]
    fn records_and_bytes_are_one() {
        let tables = compiled();
        let mut random = Random(2);
        for _ in 0..5_000 {
            let mut table = tables[random.below(tables.len())].clone();
            change_byte(&mut table, &mut random);
            if let Some(records) = record::decode(&table) {
                assert_eq!(record::encode(&records), table);
            }
        }
    }
}
