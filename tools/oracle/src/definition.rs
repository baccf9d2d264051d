//! A definition and its refusals, 1 to 11.

use crate::finite::finite;
use crate::forms::{self, Param, Tag};
use crate::record::{self, Record, INT, REFERENCE, STRUCT, UNION, VOID};
use crate::text::{self, is_digits, is_name, is_tag};
use crate::Refusal;
use std::collections::{HashMap, HashSet};

/// "more than 256 parameters" are refused.
pub const MOST_PARAMS: usize = 256;

/// The compiled table of a definition, with `room` bytes lent.
pub fn compile(text: &[u8], room: usize) -> Result<Vec<u8>, Refusal> {
    let table = record::encode(&records(text)?);
    // 11: "table longer than the lent buffer", at the "bytes needed".
    if table.len() > room {
        return Err(Refusal::new(11, table.len()));
    }
    Ok(table)
}

/// Compiles into a lent buffer. "Success gives the table's length; bytes beyond it stay."
pub fn compile_into(text: &[u8], lent: &mut [u8]) -> Result<usize, Refusal> {
    let table = compile(text, lent.len())?;
    lent[..table.len()].copy_from_slice(&table);
    Ok(table.len())
}

/// The records of a definition. "The lowest number that applies is given, at its smallest place."
pub fn records(text: &[u8]) -> Result<Vec<Record>, Refusal> {
    // 1: "over 65,535 bytes".
    if text.len() > text::LIMIT {
        return Err(Refusal::new(1, text::LIMIT));
    }
    let tokens = text::scan(text)?;
    let params = forms::parse(&tokens, text.len())?;
    let bodies = record::bodies(params.iter().map(|param| param.parent));
    smallest(4, too_many(&params))?;
    smallest(5, broken_runs(&params))?;
    smallest(6, broken_ranges(&params))?;
    smallest(7, broken_rule_7(&params, &bodies))?;
    smallest(8, repeated(&params, &bodies))?;
    smallest(9, without_target(&params))?;
    let records = build(&params);
    smallest(10, endless(&params, &records))?;
    Ok(records)
}

/// The refusal at the smallest of the places, if there is any.
fn smallest(number: u32, places: Vec<usize>) -> Result<(), Refusal> {
    match places.into_iter().min() {
        Some(place) => Err(Refusal::new(number, place)),
        None => Ok(()),
    }
}

/// 4: "the 257th name".
fn too_many(params: &[Param]) -> Vec<usize> {
    let over = params.iter().skip(MOST_PARAMS);
    over.map(|param| param.name.place).collect()
}

/// 5: "name, reference or tag form broken", at "the run".
fn broken_runs(params: &[Param]) -> Vec<usize> {
    let mut places = Vec::new();
    for param in params {
        if !is_name(param.name.bytes) {
            places.push(param.name.place);
        }
        // "A reference has the form of a name."
        if param.kind == REFERENCE && !is_name(param.word.bytes) {
            places.push(param.word.place);
        }
        match param.tag {
            Tag::Explicit(tag) if !is_tag(tag.bytes) => places.push(tag.place),
            _ => {}
        }
    }
    places
}

/// 6: "range broken; void with hi over 1; any cardinality on an alternative", at "the range run".
fn broken_ranges(params: &[Param]) -> Vec<usize> {
    let mut places = Vec::new();
    for param in params {
        if let Some(range) = param.range {
            if text::type_range(param.kind, range.bytes).is_none() {
                places.push(range.place);
            }
        }
        if let Some(count) = param.count {
            let alternative = param
                .parent
                .is_some_and(|parent| params[parent].kind == UNION);
            if alternative || !count_fits(param.kind, count.bytes) {
                places.push(count.place);
            }
        }
    }
    places
}

/// Whether a field of this kind may have this cardinality; `*` is over 1 too.
fn count_fits(kind: u16, run: &[u8]) -> bool {
    text::cardinality(run).is_some_and(|(_, hi)| kind != VOID || hi <= 1)
}

/// 7: "untagged, plugin or void rule broken", at "the parameter's name".
fn broken_rule_7(params: &[Param], bodies: &[Vec<usize>]) -> Vec<usize> {
    let mut places = Vec::new();
    for (param, body) in params.iter().zip(bodies) {
        let fields: Vec<&Param> = body.iter().map(|&field| &params[field]).collect();
        match param.kind {
            STRUCT => places.extend(misplaced_in_struct(&fields)),
            UNION => places.extend(misplaced_in_union(&fields)),
            _ => {}
        }
        // "A top parameter isn't void."
        let void_top = param.parent.is_none() && param.kind == VOID;
        if void_top || (param.plugin && !has_dotted_tag(param)) {
            places.push(param.name.place);
        }
    }
    places
}

/// "In a struct, untagged fields come before tagged ones; none stands in an extension; none is
/// void."
fn misplaced_in_struct(fields: &[&Param]) -> Vec<usize> {
    let mut places = Vec::new();
    let mut after_tagged = false;
    for field in fields {
        if !field.is_untagged() {
            after_tagged = true;
        } else if after_tagged || field.extension || field.kind == VOID {
            places.push(field.name.place);
        }
    }
    places
}

/// "In a union, at most one field is untagged, it is the first, an int by its own type and in no
/// extension, and beside an untagged one, rightly placed or not, no tag is an optional `-` with
/// one or more digits only."
fn misplaced_in_union(fields: &[&Param]) -> Vec<usize> {
    let mut places = Vec::new();
    let beside_untagged = fields.iter().any(|field| field.is_untagged());
    for (index, field) in fields.iter().enumerate() {
        let broken = match field.wire_tag() {
            None => index > 0 || field.kind != INT || field.extension,
            Some(tag) => beside_untagged && is_digits(tag.bytes),
        };
        if broken {
            places.push(field.name.place);
        }
    }
    places
}

/// "A plugin field has an explicit tag with a dot in it."
fn has_dotted_tag(param: &Param) -> bool {
    matches!(param.tag, Tag::Explicit(tag) if tag.bytes.contains(&b'.'))
}

/// 8: "one name twice among top parameters; one name or one wire tag twice in a body with its
/// extensions", at "the later name or tag".
fn repeated(params: &[Param], bodies: &[Vec<usize>]) -> Vec<usize> {
    let tops = params.iter().filter(|param| param.parent.is_none());
    let mut places = again(tops.map(|top| top.name));
    for body in bodies {
        places.extend(again(body.iter().map(|&field| params[field].name)));
        places.extend(again(
            body.iter().filter_map(|&field| params[field].wire_tag()),
        ));
    }
    places
}

/// The places of runs that stood before.
fn again<'a>(runs: impl Iterator<Item = text::Token<'a>>) -> Vec<usize> {
    let mut seen = HashSet::new();
    let later = runs.filter(|run| !seen.insert(run.bytes));
    later.map(|run| run.place).collect()
}

/// The numbers of the top parameters by name.
fn tops<'a>(params: &[Param<'a>]) -> HashMap<&'a [u8], u16> {
    let numbered = params.iter().enumerate();
    let tops = numbered.filter(|(_, param)| param.parent.is_none());
    tops.map(|(number, top)| (top.name.bytes, number as u16))
        .collect()
}

/// 9: "root no struct; reference to no top parameter", at "name; reference".
fn without_target(params: &[Param]) -> Vec<usize> {
    let mut places = Vec::new();
    if params[0].kind != STRUCT {
        places.push(params[0].name.place);
    }
    let tops = tops(params);
    let references = params.iter().filter(|param| param.kind == REFERENCE);
    let lost = references.filter(|param| !tops.contains_key(param.word.bytes));
    places.extend(lost.map(|param| param.word.place));
    places
}

/// 10: "a struct or union with no finite value", at "its name".
fn endless(params: &[Param], records: &[Record]) -> Vec<usize> {
    let finite = finite(records);
    let numbers = 0..records.len();
    let endless = numbers.filter(|&number| records[number].has_body() && !finite[number]);
    endless.map(|number| params[number].name.place).collect()
}

/// The records of parameters that 3 to 9 let pass.
fn build(params: &[Param]) -> Vec<Record> {
    let tops = tops(params);
    params.iter().map(|param| build_one(param, &tops)).collect()
}

fn build_one(param: &Param, tops: &HashMap<&[u8], u16>) -> Record {
    let range = param
        .range
        .and_then(|run| text::type_range(param.kind, run.bytes));
    // "lo and hi are 0 for kinds without a range."
    let (lo, hi) = range.or(record::limits(param.kind)).unwrap_or((0, 0));
    // "default 1..1"
    let count = param.count.and_then(|run| text::cardinality(run.bytes));
    let (lo_count, hi_count) = count.unwrap_or((1, 1));
    let is_reference = param.kind == REFERENCE;
    Record {
        kind: param.kind,
        parent: param.parent.map(|parent| parent as u16),
        untagged: param.is_untagged(),
        extension: param.extension,
        plugin: param.plugin,
        lo_count,
        hi_count,
        lo,
        hi,
        target: is_reference.then(|| tops[param.word.bytes]),
        // "The bytes are the wire tag, or the name where untagged or top."
        name: param.wire_tag().unwrap_or(param.name).bytes.to_vec(),
    }
}
