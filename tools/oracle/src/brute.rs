//! Checks by enumeration: every split of a short token row, every small definition's values.

use crate::generate::{self, Entry, Frame, Rng, Stream, Token, AMPLE};
use crate::record::{self, Record};
use crate::{definition, message, table, Refusal, Row, ROW_WIDTH};

/// A part of a lawful reading.
#[derive(Clone, Debug, PartialEq, Eq)]
enum Tree {
    /// One token, by its number in the row.
    Leaf(usize),
    /// A body: untagged fields' lists, then items.
    Body(Vec<Tree>),
    /// A field's list: values with commas between.
    List(usize, Vec<Tree>),
    /// A known field's item: its tag alone, or tag, `=`, list.
    Item(usize, Vec<Tree>),
    /// An unknown item: a word alone, or word, `=`, values and commas.
    Unknown(Vec<Tree>),
    /// An unknown value.
    Passed(Vec<Tree>),
    /// A struct: `{`, body, `}`.
    Struct(Vec<Tree>),
    /// A union's value: its alternative, with tag and `=` where it has them.
    Choice(usize, Vec<Tree>),
}

#[derive(Clone, Copy, PartialEq, Eq)]
enum Class {
    Word,
    Text,
    Mark(u8),
    Joker(u8),
}

/// A token that stands for any value, for a union's, or for that of a union with an untagged int.
const ANY: u8 = 0;
const UNION: u8 = 1;
const INT_UNION: u8 = 2;

fn class(token: &[u8]) -> Class {
    match token[0] {
        b'"' => Class::Text,
        b @ (b'=' | b',' | b'{' | b'}') => Class::Mark(b),
        b @ (ANY | UNION | INT_UNION) => Class::Joker(b),
        _ => Class::Word,
    }
}

/// A number written as 01 wants it; one past the i64 is past every range.
fn number(word: &[u8]) -> Option<i64> {
    let text = std::str::from_utf8(word).ok()?;
    let digits = text.strip_prefix('-').unwrap_or(text);
    if digits.is_empty() || !digits.bytes().all(|b| b.is_ascii_digit()) {
        return None;
    }
    if text != "0" && digits.starts_with('0') {
        return None;
    }
    Some(text.parse().unwrap_or(i64::MAX))
}

/// The number that some digits of a word make.
fn part(word: &[u8], from: usize, to: usize) -> u32 {
    word[from..to]
        .iter()
        .fold(0, |n, b| 10 * n + u32::from(b - b'0'))
}

/// Whether eight digits are a day of the calendar.
fn is_day(word: &[u8]) -> bool {
    let (year, month, day) = (part(word, 0, 4), part(word, 4, 6), part(word, 6, 8));
    let days = match month {
        1 | 3 | 5 | 7 | 8 | 10 | 12 => 31,
        4 | 6 | 9 | 11 => 30,
        2 if year % 400 == 0 || year % 4 == 0 && year % 100 != 0 => 29,
        2 => 28,
        _ => 0,
    };
    year >= 1 && day >= 1 && day <= days
}

/// Whether six digits are a time of the day.
fn is_moment(word: &[u8]) -> bool {
    part(word, 0, 2) < 24 && part(word, 2, 4) < 60 && part(word, 4, 6) < 60
}

/// Whether one token has the form of a simple type.
fn formed(r: &Record, token: &[u8]) -> bool {
    let word = class(token) == Class::Word;
    let digits = word && token.iter().all(u8::is_ascii_digit);
    match r.kind {
        2 => token == b"true" || token == b"false",
        3 => word && number(token).is_some(),
        4 => class(token) == Class::Text,
        5 => word,
        6 => digits && token.len() == 8,
        7 => digits && token.len() == 6,
        _ => false,
    }
}

/// Whether a token of the right form lies within what the type allows.
fn lies(r: &Record, token: &[u8]) -> bool {
    let within = |n: i64| i64::from(r.lo) <= n && n <= i64::from(r.hi);
    match r.kind {
        3 => number(token).is_some_and(within),
        4 => within(token.len() as i64 - 2),
        5 => within(token.len() as i64),
        6 => is_day(token),
        7 => is_moment(token),
        _ => true,
    }
}

/// Rules left aside, to tell which one a token row breaks.
#[derive(Clone, Copy, Default)]
struct Lax {
    range: bool,
    required: bool,
    low: bool,
    high: bool,
    once: bool,
}

/// All lawful readings of one token row under one table.
struct Forest<'a> {
    lax: Lax,
    records: &'a [Record],
    kids: &'a [Vec<usize>],
    tokens: &'a [Token],
}

impl Forest<'_> {
    fn mark(&self, i: usize, mark: u8) -> bool {
        class(&self.tokens[i]) == Class::Mark(mark)
    }

    fn word(&self, i: usize) -> bool {
        class(&self.tokens[i]) == Class::Word
    }

    fn untagged(&self, s: usize) -> Vec<usize> {
        self.kids[s]
            .iter()
            .copied()
            .filter(|k| self.records[*k].untagged)
            .collect()
    }

    fn tagged(&self, s: usize) -> impl Iterator<Item = usize> + '_ {
        self.kids[s]
            .iter()
            .copied()
            .filter(|k| !self.records[*k].untagged)
    }

    fn required(&self, f: usize) -> bool {
        let r = &self.records[f];
        r.lo_count > 0 && !r.extension && !r.plugin && !self.lax.required
    }

    /// Whether `count` values are not too many.
    fn few(&self, f: usize, count: usize) -> bool {
        let hi = self.records[f].hi_count;
        self.lax.high || hi == 65_535 || count <= usize::from(hi)
    }

    /// Whether a list may have so many values.
    fn many(&self, f: usize, count: usize) -> bool {
        let lo = usize::from(self.records[f].lo_count);
        (self.lax.low || lo <= count) && self.few(f, count)
    }

    /// Whether one token is a value of a simple type.
    fn fits(&self, r: &Record, token: &[u8]) -> bool {
        formed(r, token) && (self.lax.range || lies(r, token))
    }

    /// Whether a joker stands for a value of this field.
    fn joker(&self, f: usize, i: usize) -> bool {
        let union = self.records[f].kind == 9;
        match class(&self.tokens[i]) {
            Class::Joker(UNION) => union,
            Class::Joker(INT_UNION) => union && !self.untagged(f).is_empty(),
            Class::Joker(_) => true,
            _ => false,
        }
    }

    /// The readings of tokens `i` to `j` as a body.
    fn body(&self, s: usize, i: usize, j: usize) -> Vec<Tree> {
        let mut out = vec![];
        for parts in self.parts(s, &self.untagged(s), i, j) {
            add(&mut out, Tree::Body(parts));
        }
        out
    }

    /// A body's lists of the untagged fields `free`, then its items.
    fn parts(&self, s: usize, free: &[usize], i: usize, j: usize) -> Vec<Vec<Tree>> {
        let Some((f, later)) = free.split_first() else {
            let mut rows = self.items(s, i, j);
            rows.retain(|row| self.once(row) && self.complete(s, row));
            return rows;
        };
        if i == j {
            return if self.required(*f) {
                vec![]
            } else {
                vec![vec![]]
            };
        }
        let mut out = vec![];
        for m in i + 1..=j {
            for list in self.list(*f, i, m) {
                for rest in self.parts(s, later, m, j) {
                    out.push([vec![list.clone()], rest].concat());
                }
            }
        }
        out
    }

    fn items(&self, s: usize, i: usize, j: usize) -> Vec<Vec<Tree>> {
        if i == j {
            return vec![vec![]];
        }
        let mut out = vec![];
        for m in i + 1..=j {
            for item in self.item(s, i, m) {
                for rest in self.items(s, m, j) {
                    out.push([vec![item.clone()], rest].concat());
                }
            }
        }
        out
    }

    /// No field appears twice.
    fn once(&self, row: &[Tree]) -> bool {
        let seen = fields(row);
        self.lax.once || (0..seen.len()).all(|i| !seen[..i].contains(&seen[i]))
    }

    /// Every required tagged field appears.
    fn complete(&self, s: usize, row: &[Tree]) -> bool {
        let seen = fields(row);
        self.tagged(s)
            .all(|f| !self.required(f) || seen.contains(&f))
    }

    fn item(&self, s: usize, i: usize, j: usize) -> Vec<Tree> {
        if !self.word(i) {
            return vec![];
        }
        let paired = j >= i + 3 && self.mark(i + 1, b'=');
        let tag = &self.tokens[i];
        let mut known = false;
        let mut out = vec![];
        for f in self.tagged(s).filter(|f| self.records[*f].name == *tag) {
            known = true;
            let void = self.records[f].kind == 1;
            if void && j == i + 1 {
                add(&mut out, Tree::Item(f, vec![Tree::Leaf(i)]));
            }
            if !void && paired {
                for list in self.list(f, i + 2, j) {
                    add(
                        &mut out,
                        Tree::Item(f, vec![Tree::Leaf(i), Tree::Leaf(i + 1), list]),
                    );
                }
            }
        }
        if !known && j == i + 1 {
            add(&mut out, Tree::Unknown(vec![Tree::Leaf(i)]));
        }
        if !known && paired {
            for row in self.commas(&|a, b| self.passed(a, b), i + 2, j) {
                let head = vec![Tree::Leaf(i), Tree::Leaf(i + 1)];
                add(&mut out, Tree::Unknown([head, row].concat()));
            }
        }
        out
    }

    /// Every row of values, as `value` reads them, with commas between.
    fn commas(
        &self,
        value: &dyn Fn(usize, usize) -> Vec<Tree>,
        i: usize,
        j: usize,
    ) -> Vec<Vec<Tree>> {
        let mut out = vec![];
        for m in i + 1..=j {
            for first in value(i, m) {
                if m == j {
                    out.push(vec![first]);
                } else if self.mark(m, b',') && m + 1 < j {
                    for rest in self.commas(value, m + 1, j) {
                        out.push([vec![first.clone(), Tree::Leaf(m)], rest].concat());
                    }
                }
            }
        }
        out
    }

    fn list(&self, f: usize, i: usize, j: usize) -> Vec<Tree> {
        let mut out = vec![];
        for row in self.commas(&|a, b| self.value(f, a, b), i, j) {
            if self.many(f, row.len().div_ceil(2)) {
                add(&mut out, Tree::List(f, row));
            }
        }
        out
    }

    fn value(&self, f: usize, i: usize, j: usize) -> Vec<Tree> {
        let r = &self.records[f];
        match r.kind {
            1 => vec![],
            10 => self.value(usize::from(r.target.expect("a target")), i, j),
            _ if j == i + 1 && self.joker(f, i) => vec![Tree::Leaf(i)],
            8 => self.record(f, i, j),
            9 => self.choice(f, i, j),
            _ if j == i + 1 && self.fits(r, &self.tokens[i]) => vec![Tree::Leaf(i)],
            _ => vec![],
        }
    }

    fn record(&self, s: usize, i: usize, j: usize) -> Vec<Tree> {
        if j < i + 2 || !self.mark(i, b'{') || !self.mark(j - 1, b'}') {
            return vec![];
        }
        let wrap = |body| Tree::Struct(vec![Tree::Leaf(i), body, Tree::Leaf(j - 1)]);
        self.body(s, i + 1, j - 1).into_iter().map(wrap).collect()
    }

    fn choice(&self, u: usize, i: usize, j: usize) -> Vec<Tree> {
        let mut out = vec![];
        for a in self.kids[u].iter().copied() {
            let r = &self.records[a];
            let named = self.word(i) && self.tokens[i] == r.name;
            if r.untagged {
                for value in self.value(a, i, j) {
                    add(&mut out, Tree::Choice(a, vec![value]));
                }
            } else if r.kind == 1 && named && j == i + 1 {
                add(&mut out, Tree::Choice(a, vec![Tree::Leaf(i)]));
            } else if r.kind != 1 && named && j >= i + 3 && self.mark(i + 1, b'=') {
                for value in self.value(a, i + 2, j) {
                    add(
                        &mut out,
                        Tree::Choice(a, vec![Tree::Leaf(i), Tree::Leaf(i + 1), value]),
                    );
                }
            }
        }
        out
    }

    /// The readings as an unknown value.
    fn passed(&self, i: usize, j: usize) -> Vec<Tree> {
        let mut out = vec![];
        if j == i + 1 && matches!(class(&self.tokens[i]), Class::Word | Class::Text) {
            add(&mut out, Tree::Passed(vec![Tree::Leaf(i)]));
        }
        let braces = j >= i + 2 && self.mark(i, b'{') && self.mark(j - 1, b'}');
        if braces && self.open(i + 1, j - 1) == Some(0) {
            add(&mut out, Tree::Passed((i..j).map(Tree::Leaf).collect()));
        }
        if j >= i + 3 && self.word(i) && self.mark(i + 1, b'=') {
            for inner in self.passed(i + 2, j) {
                add(
                    &mut out,
                    Tree::Passed(vec![Tree::Leaf(i), Tree::Leaf(i + 1), inner]),
                );
            }
        }
        out
    }

    /// How many braces tokens `i` to `j` leave open; none if some beginning closes too many.
    fn open(&self, i: usize, j: usize) -> Option<usize> {
        let mut open = 0usize;
        for k in i..j {
            if self.mark(k, b'{') {
                open += 1;
            } else if self.mark(k, b'}') {
                open = open.checked_sub(1)?;
            }
        }
        Some(open)
    }
}

/// Adds a tree that isn't there yet.
fn add(list: &mut Vec<Tree>, tree: Tree) {
    if !list.contains(&tree) {
        list.push(tree);
    }
}

/// The fields of a row of items.
fn fields(row: &[Tree]) -> Vec<usize> {
    let field = |t: &Tree| match t {
        Tree::Item(f, _) => Some(*f),
        _ => None,
    };
    row.iter().filter_map(field).collect()
}

/// Whether all tokens from a place on are the beginning of something lawful.
impl Forest<'_> {
    fn size(&self) -> usize {
        self.tokens.len()
    }

    fn begins_body(&self, s: usize, free: &[usize], i: usize) -> bool {
        if i == self.size() {
            return true;
        }
        let Some((f, later)) = free.split_first() else {
            return self.begins_items(s, i);
        };
        self.begins_list(*f, i, 0)
            || (i + 1..=self.size())
                .any(|m| !self.list(*f, i, m).is_empty() && self.begins_body(s, later, m))
    }

    fn begins_items(&self, s: usize, i: usize) -> bool {
        for m in i..=self.size() {
            for row in self.items(s, i, m) {
                if self.once(&row) && (m == self.size() || self.begins_item(s, m, &fields(&row))) {
                    return true;
                }
            }
        }
        false
    }

    fn begins_item(&self, s: usize, i: usize, seen: &[usize]) -> bool {
        if !self.word(i) {
            return false;
        }
        let known = self
            .tagged(s)
            .find(|f| self.records[*f].name == self.tokens[i]);
        if !self.lax.once && known.is_some_and(|f| seen.contains(&f)) {
            return false;
        }
        if i + 1 == self.size() {
            return true;
        }
        if !self.mark(i + 1, b'=') {
            return false;
        }
        match known {
            Some(f) => self.records[f].kind != 1 && self.begins_list(f, i + 2, 0),
            None => self.begins_passed_list(i + 2),
        }
    }

    fn begins_list(&self, f: usize, i: usize, before: usize) -> bool {
        i == self.size()
            || self.begins_value(f, i)
            || (i + 1..self.size()).any(|m| {
                self.mark(m, b',')
                    && self.few(f, before + 2)
                    && !self.value(f, i, m).is_empty()
                    && self.begins_list(f, m + 1, before + 1)
            })
    }

    fn begins_value(&self, f: usize, i: usize) -> bool {
        if i == self.size() || !self.value(f, i, self.size()).is_empty() {
            return true;
        }
        let r = &self.records[f];
        match r.kind {
            8 => self.mark(i, b'{') && self.begins_body(f, &self.untagged(f), i + 1),
            9 => self.kids[f].iter().any(|a| self.begins_alternative(*a, i)),
            10 => self.begins_value(usize::from(r.target.expect("a target")), i),
            _ => false,
        }
    }

    fn begins_alternative(&self, a: usize, i: usize) -> bool {
        let r = &self.records[a];
        if r.untagged || self.tokens[i] != r.name {
            return false;
        }
        let alone = i + 1 == self.size();
        alone || (r.kind != 1 && self.mark(i + 1, b'=') && self.begins_value(a, i + 2))
    }

    fn begins_passed_list(&self, i: usize) -> bool {
        i == self.size()
            || self.begins_passed(i)
            || (i + 1..self.size()).any(|m| {
                self.mark(m, b',')
                    && !self.passed(i, m).is_empty()
                    && self.begins_passed_list(m + 1)
            })
    }

    fn begins_passed(&self, i: usize) -> bool {
        if i == self.size() || !self.passed(i, self.size()).is_empty() {
            return true;
        }
        let inside = self.mark(i, b'{') && self.open(i + 1, self.size()).is_some();
        let chain = self.word(i) && self.mark(i + 1, b'=') && self.begins_passed(i + 2);
        inside || chain
    }
}

/// Which number a token row gets, by leaving rules aside one at a time.
impl Forest<'_> {
    /// The first `n` tokens and one more.
    fn extended(&self, n: usize, more: Option<&[u8]>) -> Vec<Token> {
        let mut row = self.tokens[..n].to_vec();
        row.extend(more.map(<[u8]>::to_vec));
        row
    }

    /// Whether the first `n` tokens and one more are a beginning of something lawful.
    fn goes_on(&self, lax: Lax, n: usize, more: Option<&[u8]>) -> bool {
        let tokens = &self.extended(n, more)[..];
        let part = Forest {
            lax,
            tokens,
            ..*self
        };
        part.begins_body(0, &part.untagged(0), 0)
    }

    /// Whether the body they stand in can end after the first `n` tokens.
    fn can_end(&self, lax: Lax, n: usize) -> bool {
        if self.open(0, n) != Some(0) {
            return self.goes_on(lax, n, Some(b"}"));
        }
        let tokens = &self.tokens[..n];
        let part = Forest {
            lax,
            tokens,
            ..*self
        };
        !part.body(0, 0, n).is_empty()
    }

    /// 25: a comma too many, or any other token after a short list.
    fn miscounted(&self, n: usize, next: Option<&[u8]>) -> bool {
        let mut lax = Lax::default();
        if next == Some(b",") {
            lax.high = true;
            return self.goes_on(lax, n, next);
        }
        lax.required = true;
        let strict = self.can_end(lax, n);
        lax.low = true;
        !strict && self.can_end(lax, n)
    }

    /// The number, where the first `n` tokens are the longest lawful beginning.
    fn broken(&self, n: usize) -> u32 {
        let next = self.tokens.get(n).map(|t| &t[..]);
        if self.miscounted(n, next) {
            return 25;
        }
        let (once, required) = (true, true);
        let twice = Lax {
            once,
            ..Lax::default()
        };
        let free = Lax {
            required,
            ..Lax::default()
        };
        let kind = next.map(class);
        match kind {
            Some(Class::Word) if self.goes_on(twice, n, next) => 26,
            Some(Class::Mark(b'}')) if self.goes_on(free, n, next) => 27,
            None if self.open(0, n) == Some(0) && self.can_end(free, n) => 27,
            Some(Class::Word | Class::Text | Class::Mark(b'{')) => self.misfit(n, next),
            _ => 23,
        }
    }

    /// 24, 28 or 30 where a value is due, else 23. 30: without the ranges it could stand here.
    fn misfit(&self, n: usize, next: Option<&[u8]>) -> u32 {
        let due = |joker: u8| self.goes_on(Lax::default(), n, Some(&[joker]));
        let token = next.unwrap_or_default();
        let digits = token.strip_prefix(b"-").unwrap_or(token);
        let int = !digits.is_empty() && digits.iter().all(u8::is_ascii_digit);
        let range = true;
        let unbounded = Lax {
            range,
            ..Lax::default()
        };
        if !due(ANY) {
            23
        } else if class(token) == Class::Word && due(UNION) && !(int && due(INT_UNION)) {
            28
        } else if self.goes_on(unbounded, n, next) {
            30
        } else {
            24
        }
    }
}

/// A tree's rows, from the tokens' spans.
struct Rows<'a> {
    spans: &'a [(usize, usize)],
    out: Vec<Row>,
}

/// The first and last token of a tree.
fn ends(tree: &Tree) -> (usize, usize) {
    match tree {
        Tree::Leaf(i) => (*i, *i),
        Tree::Body(parts) | Tree::List(_, parts) | Tree::Item(_, parts) => outer(parts),
        Tree::Unknown(parts) | Tree::Passed(parts) => outer(parts),
        Tree::Struct(parts) | Tree::Choice(_, parts) => outer(parts),
    }
}

fn outer(parts: &[Tree]) -> (usize, usize) {
    (ends(&parts[0]).0, ends(&parts[parts.len() - 1]).1)
}

impl Rows<'_> {
    fn body(&mut self, body: &Tree, parent: u32) {
        let Tree::Body(parts) = body else {
            return;
        };
        for part in parts {
            match part {
                Tree::List(f, row) => self.list(*f, row, parent),
                Tree::Item(f, parts) => match parts.last() {
                    Some(Tree::List(_, row)) => self.list(*f, row, parent),
                    Some(tag) => self.value(*f, tag, parent, 0),
                    None => {}
                },
                _ => {}
            }
        }
    }

    /// The values of a list; every second part is a comma.
    fn list(&mut self, f: usize, row: &[Tree], parent: u32) {
        for (index, value) in row.iter().step_by(2).enumerate() {
            self.value(f, value, parent, index as u32);
        }
    }

    fn value(&mut self, f: usize, value: &Tree, parent: u32, index: u32) {
        let (first, last) = ends(value);
        let own = self.out.len() as u32;
        let (start, end) = (self.spans[first].0, self.spans[last].1);
        self.out
            .push([f as u32, parent, start as u32, end as u32, index]);
        match value {
            Tree::Struct(parts) => self.body(&parts[1], own),
            Tree::Choice(a, parts) => self.value(*a, &parts[parts.len() - 1], own, 0),
            _ => {}
        }
    }
}

/// Counts and differences of one run.
#[derive(Default)]
struct Tally {
    hits: [u64; 31],
    frames: [u64; 5],
    accepted: u64,
    refused: u64,
    trees: u64,
    small_ok: u64,
    small_ten: u64,
    good_tables: u64,
    bad_tables: u64,
    differences: u64,
}

impl Tally {
    fn differ(&mut self, what: &str, given: &[u8], more: &str) {
        self.differences += 1;
        if self.differences <= 20 {
            println!("difference: {what}: {} {more}", given.escape_ascii());
        }
    }

    fn hit(&mut self, refusal: &Refusal) {
        if let Some(n) = self.hits.get_mut(refusal.number as usize) {
            *n += 1;
        }
    }
}

/// A message of these tokens, with their spans.
fn lay(rng: &mut Rng, row: &[Token]) -> (Vec<u8>, Vec<(usize, usize)>) {
    let wide = rng.one_in(3);
    let mut out: Vec<u8> = vec![];
    let mut spans = vec![];
    for (i, t) in row.iter().enumerate() {
        let words = i > 0 && class(&row[i - 1]) == Class::Word && class(t) == Class::Word;
        if words || (wide && rng.one_in(2)) {
            out.push(rng.pick(b" \n\t\r"));
        }
        spans.push((out.len(), out.len() + t.len()));
        out.extend(t);
    }
    if wide && rng.one_in(3) {
        out.push(b' ');
    }
    (out, spans)
}

/// One token row under one table: the enumerated readings against the reader's answer.
fn compare(tally: &mut Tally, rng: &mut Rng, entry: &Entry, row: &[Token]) {
    let (bytes, spans) = lay(rng, row);
    let forest = Forest {
        lax: Lax::default(),
        records: &entry.records,
        kids: &entry.kids,
        tokens: row,
    };
    let trees = forest.body(0, 0, row.len());
    tally.trees += trees.len() as u64;
    if trees.len() > 1 {
        tally.differ("two readings", &bytes, &format!("{trees:?}"));
    }
    let answer = message::read(&entry.table, &bytes, AMPLE);
    match (&answer, trees.first()) {
        (Ok(rows), Some(tree)) => {
            tally.accepted += 1;
            let root = [0, u32::MAX, 0, bytes.len() as u32, 0];
            let mut own = Rows {
                spans: &spans,
                out: vec![root],
            };
            own.body(tree, 0);
            if own.out != *rows {
                tally.differ("rows", &bytes, &format!("{:?} {rows:?}", own.out));
            }
        }
        (Err(refusal), None) => {
            tally.refused += 1;
            check_refusal(tally, &forest, refusal, &bytes, &spans);
        }
        _ => {
            let text = table::decompile(&entry.table).unwrap_or_default();
            let more = format!("{answer:?} {}", text.escape_ascii());
            tally.differ("verdict", &bytes, &more);
        }
    }
}

/// A refusal stands at the end of the longest lawful beginning, with the number enumerated.
fn check_refusal(
    tally: &mut Tally,
    forest: &Forest,
    refusal: &Refusal,
    bytes: &[u8],
    spans: &[(usize, usize)],
) {
    if !matches!(refusal.number, 23..=28 | 30) {
        tally.differ("number", bytes, &format!("{refusal:?}"));
        return;
    }
    let count = spans.len();
    let lax = Lax::default();
    let begins = |n: &usize| forest.goes_on(lax, *n, None);
    let longest = (0..=count).take_while(begins).count() - 1;
    let place = if longest == count {
        bytes.len()
    } else {
        spans[longest].0
    };
    let number = forest.broken(longest);
    if (number, place) != (refusal.number, refusal.place) {
        let more = format!("{refusal:?}, enumerated {number} at {place}");
        tally.differ("refusal", bytes, &more);
    }
}

const ODD_WORDS: [&str; 12] = [
    "=", "=", "=", ",", "{", "}", "}", "zz", "\"x\"", "-5", "07", "-",
];

/// Tokens to build rows from: tags, values in and out of range, marks, unknown words.
fn vocabulary(rng: &mut Rng, entry: &Entry) -> Vec<Token> {
    let mut out: Vec<Token> = vec![];
    for mark in ODD_WORDS {
        out.push(mark.as_bytes().to_vec());
    }
    for r in &entry.records {
        if r.parent.is_some() && !r.untagged {
            out.push(r.name.clone());
        }
        if (2..=7).contains(&r.kind) {
            out.push(generate::good_value(rng, r));
            if rng.one_in(2) {
                out.push(generate::other_value(rng, r));
            }
        }
    }
    out
}

const LONGEST: usize = 10;

/// A short token row: a lawful one, one with a few changes, or any.
fn token_row(rng: &mut Rng, entry: &Entry, words: &[Token]) -> Vec<Token> {
    if rng.one_in(4) {
        let count = rng.below(LONGEST - 1);
        return (0..count)
            .map(|_| words[rng.below(words.len())].clone())
            .collect();
    }
    let size = rng.pick(&[0, 1, 3, 5]);
    let mut row = generate::message_tokens(rng, entry, 0, size);
    row.truncate(LONGEST + 3);
    for _ in 0..rng.pick(&[0, 1, 1, 2, 2, 3]) {
        generate::mutate_tokens(rng, &mut row, words);
    }
    row.truncate(LONGEST);
    row
}

/// Every row of at most `longest` of these words.
fn every_row(tally: &mut Tally, rng: &mut Rng, entry: &Entry, words: &[Token], longest: u32) {
    for length in 0..=longest {
        for mut n in 0..words.len().pow(length) {
            let mut row = vec![];
            for _ in 0..length {
                row.push(words[n % words.len()].clone());
                n /= words.len();
            }
            compare(tally, rng, entry, &row);
        }
    }
}

fn check_rows(tally: &mut Tally, seed: u64, count: u64) {
    let mut stream = Stream::new(seed);
    let longest = if count >= 20_000 { 4 } else { 2 };
    for at in 0..generate::FIXED.len() {
        let (rng, entry) = stream.parts(at);
        let mut words = vocabulary(rng, entry);
        words.sort();
        words.dedup();
        rng.shuffle(&mut words);
        words.truncate(9);
        every_row(tally, rng, entry, &words, longest);
    }
    for _ in 0..count {
        let at = stream.entry();
        let (rng, entry) = stream.parts(at);
        let words = vocabulary(rng, entry);
        for _ in 0..8 {
            let row = token_row(rng, entry, &words);
            compare(tally, rng, entry, &row);
        }
    }
}

/// One parameter of a small definition.
struct Param {
    kind: usize,
    place: usize,
    fields: Vec<usize>,
    lo: usize,
    untagged: bool,
    free: bool,
    target: usize,
}

const TOPS: [&str; 4] = ["r", "s", "t", "u"];

/// A small definition that only number 10 can refuse.
struct Small {
    text: String,
    params: Vec<Param>,
    tops: Vec<usize>,
    count: usize,
}

impl Small {
    fn new(rng: &mut Rng) -> Self {
        let count = 1 + rng.below(4);
        let mut small = Small {
            text: String::new(),
            params: vec![],
            tops: vec![],
            count,
        };
        for (i, name) in TOPS[..count].iter().enumerate() {
            let kind = if i == 0 {
                8
            } else {
                rng.pick(&[3, 8, 8, 9, 9, 9])
            };
            small.tops.push(small.params.len());
            let own = small.push(kind, name, 0);
            if kind >= 8 {
                small.block(rng, own, 1);
            }
            small.text.push_str("; ");
        }
        small
    }

    /// Writes type and name.
    fn push(&mut self, kind: usize, name: &str, target: usize) -> usize {
        let word = match kind {
            3 => "int",
            8 => "struct",
            9 => "union",
            _ => TOPS[target],
        };
        self.text.push_str(word);
        self.text.push(' ');
        let place = self.text.len();
        self.text.push_str(name);
        let fields = vec![];
        self.params.push(Param {
            kind,
            place,
            fields,
            lo: 1,
            untagged: false,
            free: false,
            target,
        });
        self.params.len() - 1
    }

    fn block(&mut self, rng: &mut Rng, own: usize, depth: usize) {
        self.text.push_str(" { ");
        let union = self.params[own].kind == 9;
        let count = rng.pick(&[0, 1, 1, 2, 2, 3]);
        let untagged = if union {
            usize::from(rng.one_in(5))
        } else {
            rng.pick(&[0, 0, 1, 2])
        };
        let mut extension = false;
        for i in 0..count {
            extension = extension || (i >= untagged && rng.one_in(6));
            self.text.push_str(if extension { "[ " } else { "" });
            let field = self.field(rng, union, i < untagged, depth);
            self.params[field].free |= extension;
            self.params[own].fields.push(field);
            self.text.push_str(if extension { "] " } else { "" });
        }
        self.text.push('}');
    }

    fn field(&mut self, rng: &mut Rng, union: bool, untagged: bool, depth: usize) -> usize {
        let mut kind = rng.pick(&[3, 10, 10, 10, 10]);
        if depth < 3 && rng.one_in(6) {
            kind = rng.pick(&[8, 9]);
        }
        if union && untagged {
            kind = 3;
        }
        let target = rng.below(self.count);
        let name = format!("f{}", self.params.len());
        let field = self.push(kind, &name, target);
        if !union {
            let (lo, text) = rng.pick(&[
                (1, ""),
                (1, ""),
                (0, "[0..1]"),
                (0, "[0..*]"),
                (2, "[2..3]"),
                (1, "[1..*]"),
            ]);
            self.params[field].lo = lo;
            self.text.push_str(text);
        }
        self.params[field].untagged = untagged;
        if untagged {
            self.text.push_str(" as ?");
        } else if rng.one_in(10) {
            self.params[field].free = true;
            self.text.push_str(&format!(" as {name}.x plugin"));
        }
        if kind == 8 || kind == 9 {
            self.block(rng, field, depth + 1);
        }
        self.text.push_str("; ");
        field
    }

    /// Whether some value of at most this height exists, from the law of a value.
    fn value(&self, p: usize, height: usize, known: &mut [Vec<Option<bool>>]) -> bool {
        if height == 0 {
            return false;
        }
        if let Some(answer) = known[p][height] {
            return answer;
        }
        let param = &self.params[p];
        let answer = match param.kind {
            8 => (0..=param.fields.len()).any(|end| self.body(param, end, height, known)),
            9 => param
                .fields
                .iter()
                .any(|a| self.value(*a, height - 1, known)),
            10 => self.value(self.tops[param.target], height, known),
            _ => true,
        };
        known[p][height] = Some(answer);
        answer
    }

    /// Whether a body exists that ends at field `end`'s place, or holds all lists.
    fn body(&self, s: &Param, end: usize, height: usize, known: &mut [Vec<Option<bool>>]) -> bool {
        let stops = s.fields.get(end).map(|f| &self.params[*f]);
        if stops.is_some_and(|f| !f.untagged || f.lo > 0) {
            return false;
        }
        let due = |f: &Param| f.untagged || (f.lo > 0 && !f.free);
        let mut present = s.fields[..end].iter().filter(|f| due(&self.params[**f]));
        present.all(|f| self.value(*f, height - 1, known))
    }

    /// The place of the first struct or union without a value.
    fn endless(&self) -> Option<usize> {
        let bound = self.params.len() + 1;
        let mut known = vec![vec![None; bound + 1]; self.params.len()];
        let mut out = None;
        for (p, param) in self.params.iter().enumerate() {
            if out.is_none() && (8..=9).contains(&param.kind) && !self.value(p, bound, &mut known) {
                out = Some(param.place);
            }
        }
        out
    }
}

fn check_small(tally: &mut Tally, seed: u64, count: u64) {
    let mut rng = Rng::new(seed ^ 0x5A11);
    for _ in 0..count {
        let small = Small::new(&mut rng);
        let answer = definition::compile(small.text.as_bytes(), AMPLE);
        let same = match (&answer, small.endless()) {
            (Ok(_), None) => {
                tally.small_ok += 1;
                true
            }
            (Err(refusal), Some(place)) => {
                tally.small_ten += 1;
                *refusal == Refusal { number: 10, place }
            }
            _ => false,
        };
        if !same {
            let more = format!(
                "{:?}, searched {:?}",
                answer.map(|t| t.len()),
                small.endless()
            );
            tally.differ("finite value", small.text.as_bytes(), &more);
        }
    }
}

const WORDS: [&str; 9] = [
    "void",
    "bool",
    "int",
    "ascii",
    "unquoted-ascii",
    "date",
    "time",
    "struct",
    "union",
];

/// A text written straight from any records, lawful or not.
struct Blind<'a> {
    records: &'a [Record],
    kids: Vec<Vec<usize>>,
    out: Vec<u8>,
}

impl<'a> Blind<'a> {
    fn head(&mut self, r: &'a Record) {
        let target = r.target.and_then(|t| self.records.get(usize::from(t)));
        let word = match r.kind {
            1..=9 => WORDS[usize::from(r.kind) - 1].as_bytes(),
            _ => target.map_or(&b"zz"[..], |t| &t.name),
        };
        self.out.extend(word);
        if (3..=5).contains(&r.kind) {
            self.out.extend(format!("<{}..{}>", r.lo, r.hi).bytes());
        }
        self.out.push(b' ');
    }

    fn field(&mut self, i: usize) {
        let r = &self.records[i];
        self.head(r);
        if r.parent.is_none() || r.untagged {
            self.out.extend(&r.name);
        } else {
            self.out.extend(format!("zq{i}").bytes());
        }
        let Some(parent) = r.parent else {
            return self.block(i);
        };
        let inner = self
            .records
            .get(usize::from(parent))
            .is_some_and(|p| p.kind == 8);
        if inner || (r.lo_count, r.hi_count) != (1, 1) {
            let hi = if r.hi_count == 65_535 {
                "*".into()
            } else {
                r.hi_count.to_string()
            };
            self.out.extend(format!("[{}..{hi}]", r.lo_count).bytes());
        }
        self.out.extend(b" as ");
        self.out.extend(if r.untagged { b"?" } else { &r.name[..] });
        self.out
            .extend(if r.plugin { &b" plugin"[..] } else { b"" });
        self.block(i);
    }

    fn block(&mut self, i: usize) {
        if matches!(self.records[i].kind, 8 | 9) {
            self.out.push(b'{');
            for k in self.kids[i].clone() {
                let extension = self.records[k].extension;
                self.out.extend(if extension { &b"["[..] } else { b"" });
                self.field(k);
                self.out.extend(if extension { &b"]"[..] } else { b"" });
            }
            self.out.push(b'}');
        }
        self.out.push(b';');
    }
}

/// Whether a text written straight from the bytes' records compiles to the bytes.
fn blind(table: &[u8]) -> bool {
    let Some(records) = record::decode(table) else {
        return false;
    };
    let mut kids = vec![vec![]; records.len()];
    for (i, r) in records.iter().enumerate() {
        if let Some(list) = r.parent.and_then(|p| kids.get_mut(usize::from(p))) {
            list.push(i);
        }
    }
    let mut text = Blind {
        records: &records,
        kids,
        out: vec![],
    };
    for (i, r) in records.iter().enumerate() {
        if r.parent.is_none() {
            text.field(i);
        }
    }
    definition::compile(&text.out, AMPLE).is_ok_and(|t| t == table)
}

/// The record rules, the decompiled text and the text written blindly agree.
fn check_table(tally: &mut Tally, bytes: &[u8]) {
    let good = table::table_ok(bytes);
    let text = table::decompile(bytes);
    if good {
        tally.good_tables += 1;
    } else {
        tally.bad_tables += 1;
    }
    let back = text
        .as_ref()
        .is_some_and(|t| definition::compile(t, AMPLE).is_ok_and(|t| t == bytes));
    if good != back || good != text.is_some() || good != blind(bytes) {
        let answers = format!(
            "rules {good}, text {}, back {back}, blind {}",
            text.is_some(),
            blind(bytes)
        );
        tally.differ("table", bytes, &answers);
    }
}

fn check_frame(tally: &mut Tally, frame: &Frame) {
    if let Some(n) = tally.frames.get_mut(usize::from(frame.kind)) {
        *n += 1;
    }
    let room = frame.room as usize;
    match frame.kind {
        1 => match definition::compile(&frame.a, room) {
            Ok(bytes) => check_table(tally, &bytes),
            Err(refusal) => tally.hit(&refusal),
        },
        2 => {
            if let Err(refusal) = message::read(&frame.a, &frame.b, room) {
                tally.hit(&refusal);
            }
        }
        3 => check_table(tally, &frame.a),
        _ => {
            let rows: Vec<u32> = frame
                .a
                .chunks_exact(4)
                .map(|c| u32::from_le_bytes([c[0], c[1], c[2], c[3]]))
                .collect();
            check_bytes(tally, frame, &rows, room);
        }
    }
}

fn check_bytes(tally: &mut Tally, frame: &Frame, rows: &[u32], row: usize) {
    let span = rows
        .chunks_exact(ROW_WIDTH)
        .nth(row)
        .map(|r| r[2] as usize..r[3] as usize);
    let part = span.and_then(|s| frame.b.get(s)).unwrap_or_default();
    if message::row_bytes(&frame.b, rows, row) != part {
        tally.differ("row bytes", &frame.b, &format!("row {row}"));
    }
}

fn report(tally: &Tally, wanted: bool) -> bool {
    let numbers: Vec<usize> = (1..=11).chain(20..=30).collect();
    println!("frames of kind 1 to 4: {:?}", &tally.frames[1..]);
    for n in &numbers {
        println!("number {n}: {}", tally.hits[*n]);
    }
    println!(
        "token rows: {} accepted, {} refused, {} readings",
        tally.accepted, tally.refused, tally.trees
    );
    println!(
        "small definitions: {} lawful, {} refused by 10",
        tally.small_ok, tally.small_ten
    );
    println!(
        "tables: {} good, {} bad",
        tally.good_tables, tally.bad_tables
    );
    println!("differences: {}", tally.differences);
    let missing: Vec<&usize> = numbers.iter().filter(|n| tally.hits[**n] == 0).collect();
    if !missing.is_empty() {
        println!("numbers never given: {missing:?}");
    }
    tally.differences == 0 && (missing.is_empty() || !wanted)
}

/// Runs all checks; true when nothing differs.
pub fn run(seed: u64, count: u64) -> bool {
    let mut tally = Tally::default();
    let mut stream = Stream::new(seed);
    for _ in 0..count {
        check_frame(&mut tally, &stream.frame());
    }
    check_rows(&mut tally, seed, count);
    check_small(&mut tally, seed, count);
    report(&tally, count >= 20_000)
}
