//! Which parameters have a finite value: "the least outcome of these steps".

use crate::record::{record_bodies, Record, REFERENCE, STRUCT, UNION};

/// For each record, whether it has a finite value. Parents and targets must be there.
pub fn finite(records: &[Record]) -> Vec<bool> {
    let bodies = record_bodies(records);
    let mut has = vec![false; records.len()];
    loop {
        let before = has.clone();
        for number in (0..records.len()).rev() {
            has[number] = step(records, &bodies[number], &has, number);
        }
        if has == before {
            return has;
        }
    }
}

/// One step for one record, from what is known so far.
fn step(records: &[Record], body: &[usize], has: &[bool], number: usize) -> bool {
    match records[number].kind {
        // "A reference has one if its target has."
        REFERENCE => records[number]
            .target
            .is_some_and(|top| has[usize::from(top)]),
        // "A union has one if some alternative has."
        UNION => body.iter().any(|&field| has[field]),
        // "A struct has one if each field it can't do without has one."
        STRUCT => needed(records, body).all(|field| has[field]),
        // "Simple types have one."
        _ => true,
    }
}

/// The fields a struct can't do without: not those after an untagged one whose lo is 0, nor
/// "a field whose lo is 0, a field directly in an extension or a plugin field".
fn needed<'a>(records: &'a [Record], body: &'a [usize]) -> impl Iterator<Item = usize> + 'a {
    let ends = |&&field: &&usize| !(records[field].untagged && records[field].lo_count == 0);
    let needs = |&field: &usize| {
        let record = &records[field];
        record.lo_count > 0 && !record.extension && !record.plugin
    };
    body.iter().take_while(ends).copied().filter(needs)
}
