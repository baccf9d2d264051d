//! A seeded, repeatable stream of frames: definitions, tables, messages and rows.

use std::io::{self, BufWriter, Write};

use crate::cases::{self, Ask, Case};
use crate::record::{self, Record};
use crate::{definition, message, ROW_WIDTH};

/// A room no answer of these frames can fill.
pub const AMPLE: usize = 1 << 30;

/// The bytes of one token.
pub type Token = Vec<u8>;

/// A seeded source of numbers (splitmix64).
pub struct Rng(u64);

impl Rng {
    pub fn new(seed: u64) -> Self {
        Rng(seed)
    }

    /// The next number.
    pub fn draw(&mut self) -> u64 {
        self.0 = self.0.wrapping_add(0x9E37_79B9_7F4A_7C15);
        let mut z = self.0;
        z = (z ^ (z >> 30)).wrapping_mul(0xBF58_476D_1CE4_E5B9);
        z = (z ^ (z >> 27)).wrapping_mul(0x94D0_49BB_1331_11EB);
        z ^ (z >> 31)
    }

    /// A number under `n`.
    pub fn below(&mut self, n: usize) -> usize {
        (self.draw() % n as u64) as usize
    }

    /// True once in `n` times; never for 0.
    pub fn one_in(&mut self, n: usize) -> bool {
        n > 0 && self.below(n) == 0
    }

    /// One of the list.
    pub fn pick<T: Copy>(&mut self, list: &[T]) -> T {
        list[self.below(list.len())]
    }

    /// Puts a list in some other order.
    pub fn shuffle<T>(&mut self, list: &mut [T]) {
        for i in (1..list.len()).rev() {
            let j = self.below(i + 1);
            list.swap(i, j);
        }
    }
}

/// One request: 1 compile, 2 read, 3 is it a table, 4 row bytes.
#[derive(Clone, Debug, PartialEq, Eq)]
pub struct Frame {
    pub kind: u8,
    pub room: u32,
    pub a: Vec<u8>,
    pub b: Vec<u8>,
}

impl Frame {
    /// The frame's bytes on the stream.
    pub fn write(&self, out: &mut impl Write) -> io::Result<()> {
        out.write_all(&[self.kind])?;
        out.write_all(&self.room.to_le_bytes())?;
        out.write_all(&(self.a.len() as u32).to_le_bytes())?;
        out.write_all(&(self.b.len() as u32).to_le_bytes())?;
        out.write_all(&self.a)?;
        out.write_all(&self.b)
    }
}

/// Definitions that every stream's pool starts with.
pub const FIXED: [&str; 20] = [
    "struct tile { int<1..99999> id as ?; date surveyed; int<0..30000> depth[1..*] as d; [ unquoted-ascii<1..8> boat; ] };",
    "struct t { unquoted-ascii<1..8> remark[0..1] as ?; date surveyed; };",
    "struct r { u x[1..2]; }; union u { int<0..9> n as ?; void any; u deep; };",
    "struct r { union c { date on; struct box { int k; }; }; };",
    "struct r { s p; }; struct s { len q; }; int<0..9> len;",
    "struct r { u x[2..3]; void v; }; union u { void any; };",
    "struct r { struct s { int a; int b[2..2]; }; };",
    "struct r { r x[0..1]; int n[0..*]; [ bool e; ] };",
    "struct r { u d[1..*]; }; union u { int n as ?; void v; u d; };",
    "struct r { ascii a[0..*]; unquoted-ascii w[0..1]; time t[0..1]; date y[0..1]; int i[0..1]; bool b[0..1]; void v[0..1]; };",
    "struct r { int i as ?; struct q as ? { date d[0..2] as ?; time t; }; bool b; };",
    "struct r { union u[0..*] as ? { void a; bool b; }; int x[0..1]; };",
    "struct r { int b as x.y plugin; [ int a[2..2]; ] [ r s; ] };",
    "struct r { s x[1..3] as ?; s y[0..2]; }; struct s { s z[0..2] as ?; ascii<0..3> w; };",
    "struct r { struct e as ? { }; u x[0..1]; }; union u { e5 d; [ r box; ] }; ascii<2..5> e5;",
    "struct s{};",
    "struct r { date d[1..*] as ?; };",
    "struct r { int ab[0..1]; int bb[0..1]; int b[0..1]; int xbb[0..1]; };",
    "struct r { int ab as ?; int cb as ab; struct cab[0..1] { int cb[0..1]; void ab[0..1]; int bb[0..1]; }; };",
    "struct r { int aab[0..1]; void bab[0..1]; struct cab[0..2] { int aab[0..1]; void bab[0..1]; int dab[0..1]; int ab[0..1]; }; union dab[0..*] { void aab; int bab; void cab; bool ab; void b; }; void eab[0..1]; int fab[0..1]; bool ab[0..1]; int b[0..1]; void aac[0..1]; int bac[0..1]; int aaab[0..1]; u k[0..1]; }; union u { int n as ?; void aab; u bab; u cab; int dab; };",
];

/// The fixed definitions with a union in itself, those with a root in itself, and a list of dates.
const CHAINS: [usize; 2] = [2, 8];
const NESTS: [usize; 2] = [7, 12];
const DATES: usize = 16;

fn token(text: &str) -> Token {
    text.as_bytes().to_vec()
}

fn tokens(list: &[&str]) -> Vec<Token> {
    list.iter().map(|t| token(t)).collect()
}

const TYPES: [&str; 9] = [
    "void",
    "bool",
    "int",
    "ascii",
    "unquoted-ascii",
    "date",
    "time",
    "struct",
    "union",
];

const BAD_NAMES: [&str; 12] = [
    "9x",
    "int",
    "x.y",
    "-a",
    "x*",
    "as",
    "plugin",
    "struct",
    "_",
    "void",
    "*",
    "unquoted-ascii",
];

const BAD_RANGES: [&str; 20] = [
    "5..3",
    "-0..1",
    "00..1",
    "1...2",
    "5",
    "*",
    "1..*",
    "1..",
    "..1",
    "0..1025",
    "a..b",
    "1..02",
    "-1..-2",
    "-2147483649..0",
    "0..2147483648",
    "--1..2",
    "1.2..3",
    "0..99999999999999999999",
    "1..2..3",
    ".",
];

const BAD_COUNTS: [&str; 14] = [
    "0..0", "65535..*", "5", "*", "2..1", "0..65535", "00..1", "0..01", "*..*", "-1..2", "0..**",
    "0...1", "1..-1", "0..65536",
];

/// One body being written: its names and wire tags so far.
struct Scope {
    union: bool,
    depth: usize,
    digits: bool,
    names: Vec<Token>,
    tags: Vec<Token>,
}

/// Writes one definition's tokens; one choice in `faults` is a wrong one (none at 0).
struct Writer<'a> {
    rng: &'a mut Rng,
    faults: usize,
    strict: bool,
    left: usize,
    tops: Vec<(Token, usize)>,
    out: Vec<Token>,
}

impl Writer<'_> {
    fn fault(&mut self) -> bool {
        self.rng.one_in(self.faults)
    }

    fn put(&mut self, text: &str) {
        self.out.push(token(text));
    }

    fn name(&mut self, used: &[Token]) -> Token {
        if self.fault() {
            return match self.rng.below(6) {
                0 => vec![b'n'; 64],
                1..=3 if !used.is_empty() => used[self.rng.below(used.len())].clone(),
                _ => token(self.rng.pick(&BAD_NAMES)),
            };
        }
        loop {
            let mut name = vec![self.rng.pick(b"abcdefgxyzABZ")];
            while self.rng.one_in(3) {
                name.push(self.rng.pick(b"abx019-_"));
            }
            if self.rng.one_in(200) {
                name.resize(self.rng.pick(&[62, 63]), b'q');
            }
            if !used.contains(&name) && !BAD_NAMES.iter().any(|b| b.as_bytes() == name) {
                return name;
            }
        }
    }

    fn tag(&mut self, scope: &Scope, dotted: bool) -> Token {
        if self.fault() {
            return match self.rng.below(6) {
                0 => vec![b't'; 64],
                3..=5 if !scope.tags.is_empty() => {
                    scope.tags[self.rng.below(scope.tags.len())].clone()
                }
                2 => token(self.rng.pick(&["5", "-07", "-0", "12"])),
                _ => token(self.rng.pick(&["a*", "*", "..*", "x*y", "."])),
            };
        }
        loop {
            let mut tag = match self.rng.below(12) {
                0 => token(
                    self.rng
                        .pick(&["as", "int", "true", "void", "plugin", "-", "_", "-a"]),
                ),
                1 if scope.digits => token(self.rng.pick(&["5", "-07", "0", "20240310"])),
                2 => token(self.rng.pick(&[".", "1.5", "a.b", "-.", "5-"])),
                3 if self.rng.one_in(10) => vec![b't'; self.rng.pick(&[62, 63])],
                _ => self.name(&[]),
            };
            if dotted && !tag.contains(&b'.') {
                tag.truncate(60);
                tag.extend(b".p");
            }
            if !scope.tags.contains(&tag) {
                return tag;
            }
        }
    }

    fn top(&mut self, i: usize) {
        let (name, kind) = self.tops[i].clone();
        self.left = self.left.saturating_sub(1);
        self.put(TYPES[kind - 1]);
        self.range(kind);
        self.out.push(name);
        if kind >= 8 {
            self.block(kind == 9, 1);
        }
        self.put(";");
    }

    fn range(&mut self, kind: usize) {
        if !(3..=5).contains(&kind) || self.rng.one_in(2) {
            return;
        }
        let run = if self.fault() {
            token(self.rng.pick(&BAD_RANGES))
        } else if kind == 3 {
            let ends = [
                -2147483648i64,
                -100,
                -10,
                -1,
                0,
                1,
                5,
                9,
                10,
                99,
                30000,
                2147483647,
            ];
            let at = self.rng.below(ends.len());
            let to = at + self.rng.below(ends.len() - at);
            token(&format!("{}..{}", ends[at], ends[to]))
        } else {
            let ends = [0, 1, 2, 3, 5, 8, 20, 1024];
            let least = kind - 4;
            let at = least + self.rng.below(ends.len() - least);
            let to = at + self.rng.below(ends.len() - at);
            token(&format!("{}..{}", ends[at], ends[to]))
        };
        self.put("<");
        self.out.push(run);
        self.put(">");
    }

    /// Type and range; tells whether it refers to a struct or union.
    fn head(&mut self, kind: usize) -> bool {
        if kind < 10 {
            self.put(TYPES[kind - 1]);
            self.range(kind);
            return false;
        }
        if self.fault() {
            let bad = self
                .rng
                .pick(&["zz", "9", "a.b", "as", "plugin", "x*", "a"]);
            self.put(bad);
            return false;
        }
        let (name, kind) = self.tops[self.rng.below(self.tops.len())].clone();
        self.out.push(name);
        kind >= 8
    }

    fn field_kind(&mut self, scope: &Scope, untagged: bool) -> usize {
        if self.fault() {
            return 1 + self.rng.below(10);
        }
        if untagged && scope.union {
            return 3;
        }
        if scope.depth < 8 && self.left > 0 && self.rng.one_in(6) {
            return self.rng.pick(&[8, 9]);
        }
        let kind = self.rng.pick(&[1, 1, 2, 3, 3, 4, 5, 6, 7, 10, 10, 10, 10]);
        if kind == 1 && untagged {
            5
        } else {
            kind
        }
    }

    fn count(&mut self, kind: usize, composite: bool) {
        let free = composite && !self.strict && !self.rng.one_in(5);
        if !free && self.rng.one_in(2) && !self.fault() {
            return;
        }
        let run = if self.fault() {
            token(self.rng.pick(&BAD_COUNTS))
        } else if kind == 1 && !self.fault() {
            token(self.rng.pick(&["0..1", "1..1"]))
        } else if free {
            token(self.rng.pick(&["0..1", "0..2", "0..*"]))
        } else if self.rng.one_in(60) {
            token(
                self.rng
                    .pick(&["65534..*", "0..65534", "65534..65534", "300..65533"]),
            )
        } else {
            let all = [
                "0..1", "0..*", "1..1", "1..*", "1..2", "2..3", "2..2", "0..3", "3..*",
            ];
            token(self.rng.pick(&all))
        };
        self.put("[");
        self.out.push(run);
        self.put("]");
    }

    fn label(&mut self, scope: &mut Scope, untagged: bool, explicit: bool) {
        let plugin = explicit && self.rng.one_in(4);
        if untagged {
            self.put("as");
            self.put("?");
        } else if explicit {
            let dotted = plugin && !self.fault();
            let tag = self.tag(scope, dotted);
            self.put("as");
            self.out.push(tag.clone());
            scope.tags.push(tag);
        }
        if plugin || self.fault() {
            self.put("plugin");
        }
    }

    fn field(&mut self, scope: &mut Scope, untagged: bool) {
        self.left = self.left.saturating_sub(1);
        let kind = self.field_kind(scope, untagged);
        let composite = self.head(kind);
        let untagged = untagged != self.fault();
        let explicit = !untagged && self.rng.one_in(3);
        let mut used = scope.names.clone();
        if !explicit && !untagged {
            used.extend(scope.tags.iter().cloned());
        }
        let name = self.name(&used);
        scope.names.push(name.clone());
        if !explicit && !untagged {
            scope.tags.push(name.clone());
        }
        self.out.push(name);
        if !scope.union || self.fault() {
            self.count(kind, composite);
        }
        self.label(scope, untagged, explicit);
        if kind == 8 || kind == 9 {
            self.block(kind == 9, scope.depth + 1);
        }
        self.put(";");
    }

    fn block(&mut self, union: bool, depth: usize) {
        self.put("{");
        let free = if union {
            self.rng.pick(&[0, 0, 1])
        } else {
            self.rng.pick(&[0, 0, 0, 1, 1, 2])
        };
        let mut rest = self.rng.pick(&[0, 1, 1, 2, 2, 3, 4]).min(self.left);
        if union && free == 0 && !self.rng.one_in(30) {
            rest = rest.max(1);
        }
        let digits = !union || free == 0;
        let mut scope = Scope {
            union,
            depth,
            digits,
            names: vec![],
            tags: vec![],
        };
        for i in 0..free + rest {
            self.field(&mut scope, i < free);
        }
        while self.left > 0 && self.rng.one_in(4) {
            self.put("[");
            for _ in 0..1 + self.rng.below(2) {
                self.field(&mut scope, false);
            }
            self.put("]");
        }
        self.put("}");
    }
}

/// A random definition's tokens; lawful in most cases where `faults` is 0.
pub fn definition_tokens(rng: &mut Rng, faults: usize, size: usize) -> Vec<Token> {
    let strict = rng.one_in(8);
    let mut w = Writer {
        rng,
        faults,
        strict,
        left: size,
        tops: vec![],
        out: vec![],
    };
    let count = 1 + w.rng.pick(&[0, 0, 1, 1, 2, 3, 5]);
    for i in 0..count {
        let mut kind = w.rng.pick(&[2, 3, 4, 5, 6, 7, 8, 8, 8, 9, 9, 9]);
        if i == 0 {
            kind = 8;
        }
        if w.fault() {
            kind = 1 + w.rng.below(9);
        }
        let used: Vec<Token> = w.tops.iter().map(|t| t.0.clone()).collect();
        let name = w.name(&used);
        w.tops.push((name, kind));
    }
    for i in 0..count {
        w.top(i);
    }
    w.out
}

fn run_byte(b: u8) -> bool {
    b.is_ascii_alphanumeric() || b"-_.*".contains(&b)
}

fn word_byte(b: u8) -> bool {
    (0x21..=0x7E).contains(&b) && !b"=,\"'{}()?".contains(&b)
}

/// A definition's text: tokens with plain or odd blanks and comments between.
pub fn text(rng: &mut Rng, list: &[Token]) -> Vec<u8> {
    let odd = rng.one_in(3);
    let gaps = [
        " ",
        "\n",
        "\t",
        "\r",
        "\r\n",
        "/**/",
        "/* a*/",
        "//\n",
        "// };\r\n",
        "/*/ @*/",
        "  ",
    ];
    let mut out = vec![];
    for t in list {
        while odd && rng.one_in(3) {
            out.extend(rng.pick(&gaps).bytes());
        }
        let joined =
            out.last().is_some_and(|b| run_byte(*b)) && t.first().is_some_and(|b| run_byte(*b));
        if joined || (!odd && !out.is_empty() && !t.starts_with(b";")) {
            out.push(b' ');
        }
        out.extend(t);
    }
    if odd && rng.one_in(3) {
        out.extend(
            rng.pick(&[" ", "\n", "//", "// x", "/* */", "/*", "/"])
                .bytes(),
        );
    }
    out
}

/// A message: tokens with blanks between, all of them needed ones or some odd ones too.
pub fn spaced(rng: &mut Rng, list: &[Token]) -> Vec<u8> {
    let odd = rng.one_in(4);
    let mut out: Vec<u8> = vec![];
    for t in list {
        while odd && rng.one_in(3) {
            out.push(rng.pick(b" \t\r\n"));
        }
        if out.last().is_some_and(|b| word_byte(*b)) && t.first().is_some_and(|b| word_byte(*b)) {
            out.push(b' ');
        }
        out.extend(t);
    }
    if odd && rng.one_in(3) {
        out.push(b' ');
    }
    out
}

/// One change of a token row: delete, duplicate, swap, insert or replace.
pub fn mutate_tokens(rng: &mut Rng, list: &mut Vec<Token>, vocabulary: &[Token]) {
    let new = vocabulary[rng.below(vocabulary.len())].clone();
    if list.is_empty() {
        list.push(new);
        return;
    }
    let at = rng.below(list.len());
    match rng.below(6) {
        0 => drop(list.remove(at)),
        1 => list.insert(at, list[at].clone()),
        2 => {
            let other = rng.below(list.len());
            list.swap(at, other);
        }
        3 => list.insert(at, new),
        4 => list.push(new),
        _ => list[at] = new,
    }
}

/// One change of some bytes: set, flip, insert, remove or cut off.
pub fn mutate_bytes(rng: &mut Rng, bytes: &mut Vec<u8>) {
    let odd = rng.pick(b" \n\r\t\x0c@/*{}[]<>;?=,\"'()-_.0919az~\x00\x7f\x80\xff\x1f\x21\x20+#");
    if bytes.is_empty() {
        bytes.push(odd);
        return;
    }
    let at = rng.below(bytes.len());
    match rng.below(6) {
        0 | 1 => bytes[at] = odd,
        2 => bytes[at] ^= 1 << rng.below(8),
        3 => bytes.insert(at, odd),
        4 => drop(bytes.remove(at)),
        _ if rng.one_in(3) => bytes.truncate(at),
        _ => bytes[at] = bytes[at].wrapping_add(1),
    }
}

/// A raw record whose every number can be set.
#[derive(Clone)]
struct Raw {
    numbers: [i64; 10],
    name: Vec<u8>,
}

const SIZES: [usize; 10] = [2, 2, 2, 2, 2, 2, 4, 4, 2, 2];
const LENGTH: usize = 0;
const KIND: usize = 1;
const PARENT: usize = 2;
const FLAGS: usize = 3;
const TARGET: usize = 8;
const N: usize = 9;
const NONE: i64 = 65_535;

impl Raw {
    fn new(kind: i64, parent: i64, name: &[u8]) -> Self {
        let numbers = [0, kind, parent, 0, 1, 1, 0, 0, NONE, 0];
        Raw {
            numbers,
            name: name.to_vec(),
        }
        .named(name)
    }

    fn named(mut self, name: &[u8]) -> Self {
        self.name = name.to_vec();
        self.numbers[LENGTH] = 24 + name.len() as i64;
        self.numbers[N] = name.len() as i64;
        self
    }
}

/// The records of a good table.
fn split(table: &[u8]) -> Vec<Raw> {
    let mut out = vec![];
    let mut at = 0;
    while at < table.len() {
        let mut numbers = [0; 10];
        let mut from = at;
        for (number, size) in numbers.iter_mut().zip(SIZES) {
            for (i, b) in table[from..from + size].iter().enumerate() {
                *number |= i64::from(*b) << (8 * i);
            }
            from += size;
        }
        let end = from + numbers[N] as usize;
        out.push(Raw {
            numbers,
            name: table[from..end].to_vec(),
        });
        at = end;
    }
    out
}

fn join(list: &[Raw]) -> Vec<u8> {
    let mut out = vec![];
    for raw in list {
        for (number, size) in raw.numbers.iter().zip(SIZES) {
            out.extend(&number.to_le_bytes()[..size]);
        }
        out.extend(&raw.name);
    }
    out
}

fn boundary(rng: &mut Rng, field: usize, at: i64, count: i64) -> i64 {
    let near = rng.below(count as usize) as i64;
    match field {
        LENGTH => rng.pick(&[0, 24, 25, 26, 87, 88, 65_535]),
        KIND => rng.pick(&[0, 1, 2, 3, 4, 5, 6, 7, 8, 9, 10, 11, 256, 65_535]),
        PARENT | TARGET => {
            rng.pick(&[NONE, 0, at - 1, at, at + 1, count, near, near, 65_534]) & 0xFFFF
        }
        FLAGS => rng.pick(&[0, 1, 2, 3, 4, 5, 6, 7, 8, 256]),
        4 | 5 => rng.pick(&[0, 1, 2, 3, 65_533, 65_534, 65_535]),
        6 | 7 => {
            let ends = [
                0,
                1,
                -1,
                2,
                1023,
                1024,
                1025,
                i64::from(i32::MIN),
                i64::from(i32::MAX),
            ];
            rng.pick(&ends)
        }
        _ => rng.pick(&[0, 1, 2, 62, 63, 64, 65_535]),
    }
}

fn other_name(rng: &mut Rng, list: &[Raw], at: usize) -> Vec<u8> {
    match rng.below(6) {
        0 => list[rng.below(list.len())].name.clone(),
        1 => token(rng.pick(&BAD_NAMES)),
        2 => token(rng.pick(&[
            "5", "-5", "-", "0", "-07", ".", "a.b", "5.5", "", "a b", "a=", "é",
        ])),
        3 => vec![b'a'; rng.pick(&[1, 62, 63, 64])],
        4 => [&list[at].name[..], b"x"].concat(),
        _ => {
            let mut name = list[at].name.clone();
            mutate_bytes(rng, &mut name);
            name
        }
    }
}

/// One change to the records of a good table, aimed at one record rule.
fn mutate_records(rng: &mut Rng, list: &mut Vec<Raw>) {
    if list.is_empty() {
        return;
    }
    let count = list.len();
    let at = rng.below(count);
    match rng.below(13) {
        12 => mutate_alternative(rng, list),
        0 | 1 => {
            let name = other_name(rng, list, at);
            list[at] = list[at].clone().named(&name);
        }
        2 => list.insert(at, list[at].clone()),
        3 => list.push(list[at].clone()),
        4 => drop(list.remove(at)),
        5 => {
            let other = rng.below(count);
            list.swap(at, other);
        }
        6 => list[at].numbers[FLAGS] ^= rng.pick(&[1, 2, 4]),
        7 => {
            let kind = rng.pick(&[1, 2, 3, 8, 9, 10]);
            let mut raw = Raw::new(kind, at as i64, b"zq");
            if kind == 10 {
                raw.numbers[TARGET] = 0;
            }
            list.insert(at + 1, raw);
        }
        8 => list.push(Raw::new(rng.pick(&[2, 8, 9]), rng.pick(&[0, NONE]), b"zz")),
        _ => {
            let field = rng.below(10);
            list[at].numbers[field] = boundary(rng, field, at as i64, count as i64);
        }
    }
}

/// Some alternative gets a tag of digits, or is an untagged int.
fn mutate_alternative(rng: &mut Rng, list: &mut [Raw]) {
    let in_union = |i: &usize| {
        let parent = list.get(list[*i].numbers[PARENT] as usize);
        parent.is_some_and(|p| p.numbers[KIND] == 9)
    };
    let all: Vec<usize> = (0..list.len()).filter(in_union).collect();
    if all.is_empty() {
        return;
    }
    let at = all[rng.below(all.len())];
    if rng.one_in(2) {
        list[at] = list[at]
            .clone()
            .named(rng.pick(&[&b"5"[..], b"-07", b"-", b"0"]));
    } else {
        list[at].numbers = [0, 3, list[at].numbers[PARENT], 1, 1, 1, 0, 9, NONE, 0];
        list[at] = list[at].clone().named(b"zi");
    }
}

/// A chain of structs and unions nested `deep` times.
fn deep_table(rng: &mut Rng, deep: usize) -> Vec<u8> {
    let mut list = vec![Raw::new(8, NONE, b"r")];
    for i in 1..deep {
        list.push(Raw::new(rng.pick(&[8, 8, 9]), i as i64 - 1, b"s"));
    }
    list.push(Raw::new(2, deep as i64 - 1, b"b"));
    join(&list)
}

/// A root with many fields.
fn wide_table(records: usize) -> Vec<u8> {
    let mut list = vec![Raw::new(8, NONE, b"r")];
    for i in 1..records {
        list.push(Raw::new(2, 0, format!("f{i}").as_bytes()));
    }
    join(&list)
}

/// Some other table made from a good one.
fn mutate_table(rng: &mut Rng, table: &[u8]) -> Vec<u8> {
    if rng.one_in(40) {
        let deep = rng.pick(&[7, 8, 9, 10]);
        return deep_table(rng, deep);
    }
    if rng.one_in(250) {
        return wide_table(rng.pick(&[255, 256, 257, 258]));
    }
    let mut bytes = table.to_vec();
    if rng.one_in(4) {
        for _ in 0..1 + rng.below(2) {
            mutate_bytes(rng, &mut bytes);
        }
        return bytes;
    }
    let mut list = split(&bytes);
    for _ in 0..rng.pick(&[1, 1, 1, 1, 2, 3]) {
        mutate_records(rng, &mut list);
    }
    join(&list)
}

/// A good table with what a message writer needs of it.
pub struct Entry {
    pub table: Vec<u8>,
    pub records: Vec<Record>,
    pub kids: Vec<Vec<usize>>,
    heights: Vec<u32>,
    vocabulary: Vec<Token>,
}

impl Entry {
    /// The entry of a table that a definition compiled to.
    pub fn new(table: Vec<u8>) -> Self {
        let records = record::decode(&table).expect("a compiled table");
        let mut kids = vec![vec![]; records.len()];
        for (i, r) in records.iter().enumerate() {
            if let Some(p) = r.parent {
                kids[usize::from(p)].push(i);
            }
        }
        let mut entry = Entry {
            table,
            records,
            kids,
            heights: vec![],
            vocabulary: vec![],
        };
        entry.heights = vec![u32::MAX; entry.records.len()];
        for _ in 0..=entry.records.len() {
            entry.heights = (0..entry.records.len()).map(|i| entry.height(i)).collect();
        }
        let list = [
            "=", ",", "{", "}", "\"\"", "\"a b\"", "zz", "0", "7", "true", "20240229", "235959",
        ];
        entry.vocabulary = tokens(&list);
        for r in &entry.records {
            entry.vocabulary.push(r.name.clone());
        }
        entry
    }

    fn must(&self, i: usize) -> bool {
        let r = &self.records[i];
        r.lo_count > 0 && !r.extension && !r.plugin
    }

    /// How deep the least value is, from the heights so far.
    fn height(&self, i: usize) -> u32 {
        let r = &self.records[i];
        let inner = match r.kind {
            8 => {
                let skipped = |k: &&usize| {
                    let f = &self.records[**k];
                    !(f.untagged && f.lo_count == 0)
                };
                let needed = self.kids[i]
                    .iter()
                    .take_while(skipped)
                    .filter(|k| self.must(**k));
                needed.map(|k| self.heights[*k]).max().unwrap_or(0)
            }
            9 => self.kids[i]
                .iter()
                .map(|k| self.heights[*k])
                .min()
                .unwrap_or(u32::MAX),
            10 => self.heights[usize::from(r.target.expect("a reference's target"))],
            _ => return 0,
        };
        inner.saturating_add(1)
    }
}

/// Writes one message's tokens by walking the records.
struct Walker<'a> {
    rng: &'a mut Rng,
    entry: &'a Entry,
    faults: usize,
    size: usize,
    out: Vec<Token>,
}

impl Walker<'_> {
    /// Whether the next choice is a wrong one; none is in a message grown long, so that it ends.
    fn fault(&mut self) -> bool {
        self.out.len() < 2 * self.size + 20 && self.rng.one_in(self.faults)
    }

    fn put(&mut self, text: &str) {
        self.out.push(token(text));
    }

    fn short(&self) -> bool {
        self.out.len() >= self.size
    }

    fn body(&mut self, s: usize) {
        let entry = self.entry;
        let (free, mut tagged): (Vec<usize>, Vec<usize>) = entry.kids[s]
            .iter()
            .partition(|k| entry.records[**k].untagged);
        for f in free {
            let lo = entry.records[f].lo_count;
            if (lo == 0 && (self.short() || self.rng.one_in(3))) || self.fault() {
                return;
            }
            self.list(f);
        }
        if !self.rng.one_in(3) {
            self.rng.shuffle(&mut tagged);
        }
        for f in tagged {
            let must = entry.must(f) != self.fault();
            if must || (!self.short() && self.rng.one_in(2)) {
                self.item(f);
                if self.fault() {
                    self.item(f);
                }
            }
            if !self.short() && self.rng.one_in(12) {
                self.unknown_item();
            }
        }
        if !self.short() && self.rng.one_in(8) {
            self.unknown_item();
        }
    }

    fn item(&mut self, f: usize) {
        self.out.push(self.entry.records[f].name.clone());
        if self.entry.records[f].kind != 1 {
            self.put("=");
            self.list(f);
        }
    }

    fn list(&mut self, f: usize) {
        let r = &self.entry.records[f];
        let (lo, hi) = (usize::from(r.lo_count), usize::from(r.hi_count));
        let mut count = lo.max(1);
        if !self.short() && self.rng.one_in(2) {
            count = (count + self.rng.below(3)).min(hi);
        }
        if self.fault() {
            count = self
                .rng
                .pick(&[lo.saturating_sub(1).max(1), (hi + 1).min(5)]);
        }
        for i in 0..count.min(9) {
            if i > 0 {
                self.put(",");
            }
            self.value(f);
        }
    }

    fn value(&mut self, f: usize) {
        let r = &self.entry.records[f];
        if self.fault() {
            let value = other_value(self.rng, r);
            self.out.push(value);
            return;
        }
        match r.kind {
            8 => {
                self.put("{");
                self.body(f);
                self.put("}");
            }
            9 => self.choice(f),
            10 => self.value(usize::from(r.target.expect("a reference's target"))),
            _ => {
                let value = good_value(self.rng, r);
                self.out.push(value);
            }
        }
    }

    fn choice(&mut self, u: usize) {
        let entry = self.entry;
        let kids = &entry.kids[u];
        let Some(least) = kids.iter().copied().min_by_key(|k| entry.heights[*k]) else {
            return;
        };
        let f = if self.short() {
            least
        } else {
            kids[self.rng.below(kids.len())]
        };
        let r = &entry.records[f];
        if !r.untagged {
            self.out.push(r.name.clone());
            if r.kind == 1 {
                return;
            }
            self.put("=");
        }
        self.value(f);
    }

    fn unknown_item(&mut self) {
        if self.rng.one_in(2) {
            let at = self.rng.below(self.entry.records.len());
            let word = look_alike(self.rng, &self.entry.records[at].name);
            self.out.push(word);
        } else {
            let word = self
                .rng
                .pick(&["zz", "q", "-", "x/y", "12", "~", "Zz.9", "//c"]);
            self.put(word);
        }
        if self.rng.one_in(4) {
            return;
        }
        self.put("=");
        self.unknown_value();
        while self.rng.one_in(3) {
            self.put(",");
            self.unknown_value();
        }
    }

    fn unknown_value(&mut self) {
        while self.rng.one_in(4) {
            self.put("w");
            self.put("=");
        }
        match self.rng.below(4) {
            0 => self.put("\"x y\""),
            1 => {
                self.put("{");
                let mut open = 0;
                for _ in 0..self.rng.below(6) {
                    let word = self.rng.pick(&["a", "=", ",", "{", "}", "\"}\"", "id"]);
                    match word {
                        "{" => open += 1,
                        "}" if open == 0 => continue,
                        "}" => open -= 1,
                        _ => {}
                    }
                    self.put(word);
                }
                for _ in 0..=open {
                    self.put("}");
                }
            }
            _ => {
                let word = self.rng.pick(&["1", "a", "true", "k_", "-5"]);
                self.put(word);
            }
        }
    }
}

/// A tag that differs from another in one byte, or in its length by one.
fn look_alike(rng: &mut Rng, tag: &Token) -> Token {
    let mut word = tag.clone();
    let last = word.len() - 1;
    let at = rng.below(word.len());
    match rng.below(6) {
        0 => word[last] = rng.pick(b"abz9"),
        1 => word.push(rng.pick(b"abz9")),
        2 => word.insert(0, rng.pick(b"abz9")),
        3 if last > 0 => drop(word.remove(at)),
        4 => word[0] = rng.pick(b"abz9"),
        _ => word[at] = rng.pick(b"abz9"),
    }
    word
}

fn quoted(rng: &mut Rng, len: usize) -> Token {
    let mut out = vec![b'"'];
    for _ in 0..len {
        out.push(rng.pick(b"abc {}=,'?(~!"));
    }
    out.push(b'"');
    out
}

fn plain(rng: &mut Rng, len: usize) -> Token {
    (0..len).map(|_| rng.pick(b"abcxyz019-_./~!")).collect()
}

/// A length or number between the record's limits, often at one of them.
fn between(rng: &mut Rng, lo: i64, hi: i64) -> i64 {
    match rng.below(4) {
        0 => lo,
        1 => hi,
        _ => lo + (rng.draw() % (hi - lo + 1) as u64) as i64,
    }
}

fn length(rng: &mut Rng, lo: i64, hi: i64) -> usize {
    let hi = if hi - lo > 10 && !rng.one_in(100) {
        lo + 10
    } else {
        hi
    };
    between(rng, lo, hi) as usize
}

/// A value of a simple type.
pub fn good_value(rng: &mut Rng, r: &Record) -> Token {
    let (lo, hi) = (i64::from(r.lo), i64::from(r.hi));
    match r.kind {
        2 => token(rng.pick(&["true", "false"])),
        3 => token(&between(rng, lo, hi).to_string()),
        4 => {
            let len = length(rng, lo, hi);
            quoted(rng, len)
        }
        5 => {
            let len = length(rng, lo, hi);
            plain(rng, len)
        }
        6 => token(&good_date(rng)),
        _ => token(rng.pick(&["000000", "235959", "120030", "195900"])),
    }
}

/// A date of the calendar: one of some, a 29 February, or a day before or after it in a year
/// around a century's first.
fn good_date(rng: &mut Rng) -> String {
    let all = [
        "20240310", "00010101", "99991231", "20240229", "20230228", "20240430",
    ];
    let near = 99 + 100 * rng.below(99) + rng.below(3);
    match rng.below(4) {
        0 | 1 => rng.pick(&all).to_string(),
        2 => leap_day(rng),
        _ => format!("{near:04}{}", rng.pick(&["0228", "0301"])),
    }
}

/// 29 February of a year that has it: 400 divides it, or four does and 100 doesn't.
fn leap_day(rng: &mut Rng) -> String {
    let year = if rng.one_in(2) {
        400 * (1 + rng.below(24))
    } else {
        100 * rng.below(100) + 4 * (1 + rng.below(24))
    };
    format!("{year:04}0229")
}

/// 29 February of a year that hasn't: 100 divides it and 400 doesn't, or four doesn't.
fn no_leap_day(rng: &mut Rng) -> String {
    let year = if rng.one_in(2) {
        400 * rng.below(25) + 100 * (1 + rng.below(3))
    } else {
        4 * rng.below(2_500) + 1 + rng.below(3)
    };
    format!("{year:04}0229")
}

const ODD_INTS: [&str; 10] = [
    "-0",
    "-",
    "+1",
    "1-",
    "00",
    "-01",
    "9999999999",
    "0x1",
    "00000000000000000000017",
    "-99999999999999999999999",
];

/// An int of right form past the range: a limit with more digits behind it, or a number that
/// 32 or 64 bits don't hold and whose low bits are a value.
fn wide_int(rng: &mut Rng, lo: i64, hi: i64) -> String {
    let value = i128::from(between(rng, lo, hi));
    match rng.below(4) {
        0 => format!("{}{:0width$}", hi.max(1), 0, width = 1 + rng.below(30)),
        1 => format!("-{}{}", lo.abs().max(1), rng.below(1_000)),
        2 => (value + (1 << 32)).to_string(),
        _ => (value + (1 << 64)).to_string(),
    }
}

const ODD_DATES: [&str; 16] = [
    "99999999",
    "00000000",
    "2024-310",
    "20230229",
    "00000101",
    "20240001",
    "20241301",
    "20240100",
    "20240132",
    "20240431",
    "2024031",
    "202403100",
    "2024031a",
    "20240230",
    "21000230",
    "-0240310",
];

const ODD_TIMES: [&str; 8] = [
    "240000", "236000", "235960", "999999", "12003", "1200300", "12003x", "-12003",
];

const ODD_TOKENS: [&str; 11] = [
    "0", "true", "TRUE", "x", "\"\"", "\"x\"", "{", "20240310", "120000", "=", "zz",
];

/// A token that is just outside the type in most cases.
pub fn other_value(rng: &mut Rng, r: &Record) -> Token {
    let (lo, hi) = (i64::from(r.lo), i64::from(r.hi));
    match (r.kind, rng.below(5)) {
        (3, _) if rng.one_in(5) => token(&wide_int(rng, lo, hi)),
        (3, 0) => token(&(lo - 1).to_string()),
        (3, 1) => token(&(hi + 1).to_string()),
        (3, 2) => token(&format!("0{hi}")),
        (3, 3) => token(rng.pick(&ODD_INTS)),
        (4, 0) => quoted(rng, (hi as usize + 1).min(1025)),
        (4, 1) => quoted(rng, lo.max(1) as usize - 1),
        (5, 0) => plain(rng, (hi as usize + 1).min(1025)),
        (5, 1) => plain(rng, (lo as usize - 1).max(1)),
        (6, 0 | 1) => token(&no_leap_day(rng)),
        (6, 2 | 3) => token(rng.pick(&ODD_DATES)),
        (7, 0..=3) => token(rng.pick(&ODD_TIMES)),
        _ => token(rng.pick(&ODD_TOKENS)),
    }
}

/// The tokens of a message for a table, lawful where `faults` is 0.
pub fn message_tokens(rng: &mut Rng, entry: &Entry, faults: usize, size: usize) -> Vec<Token> {
    let mut walker = Walker {
        rng,
        entry,
        faults,
        size,
        out: vec![],
    };
    walker.body(0);
    walker.out
}

/// The stream: hand cases first, then random frames over a pool of tables.
pub struct Stream {
    rng: Rng,
    pool: Vec<Entry>,
    wide: Entry,
    hand: Vec<Frame>,
}

const POOL: usize = 300;

impl Stream {
    pub fn new(seed: u64) -> Self {
        let mut pool = vec![];
        for text in FIXED {
            let table = definition::compile(text.as_bytes(), AMPLE).expect("a lawful definition");
            pool.push(Entry::new(table));
        }
        Stream {
            rng: Rng::new(seed),
            pool,
            wide: wide_entry(),
            hand: cases::CASES.iter().rev().map(hand_frame).collect(),
        }
    }

    /// The next frame.
    pub fn frame(&mut self) -> Frame {
        if let Some(frame) = self.hand.pop() {
            return frame;
        }
        match self.rng.below(20) {
            0..=5 => self.compile_frame(),
            6..=15 => self.read_frame(),
            16..=18 => self.table_frame(),
            _ => self.bytes_frame(),
        }
    }

    /// One of the pool's tables; now and then a new one.
    pub fn entry(&mut self) -> usize {
        if self.rng.one_in(if self.pool.len() < 60 { 3 } else { 25 }) {
            let size = self.rng.pick(&[3, 6, 6, 10, 20]);
            let list = definition_tokens(&mut self.rng, 0, size);
            let text = text(&mut self.rng, &list);
            if let Ok(table) = definition::compile(&text, AMPLE) {
                let entry = Entry::new(table);
                if self.pool.len() < POOL {
                    self.pool.push(entry);
                } else {
                    let at = FIXED.len() + self.rng.below(POOL - FIXED.len());
                    self.pool[at] = entry;
                }
            }
        }
        let fixed = self.rng.one_in(4);
        self.rng
            .below(if fixed { FIXED.len() } else { self.pool.len() })
    }

    /// The generator and one of the pool's entries.
    pub fn parts(&mut self, at: usize) -> (&mut Rng, &Entry) {
        (&mut self.rng, &self.pool[at])
    }

    fn compile_frame(&mut self) -> Frame {
        let rng = &mut self.rng;
        let a = definition_text(rng);
        let room = match definition::compile(&a, AMPLE) {
            Ok(table) => {
                let n = table.len();
                let some = n + rng.below(50);
                rng.pick(&[n, n, n, n - 1, n + 1, some, some, 0, n / 2])
            }
            Err(_) => rng.pick(&[0, 1, 100, 500]),
        };
        Frame {
            kind: 1,
            room: room as u32,
            a,
            b: vec![],
        }
    }

    fn read_frame(&mut self) -> Frame {
        let (mut a, b) = self.read_parts();
        if self.rng.one_in(12) {
            a = mutate_table(&mut self.rng, &a);
        }
        let room = self.read_room(&a, &b);
        Frame {
            kind: 2,
            room,
            a,
            b,
        }
    }

    /// A table and a message for it.
    fn read_parts(&mut self) -> (Vec<u8>, Vec<u8>) {
        let rng = &mut self.rng;
        let (entry, message) = match rng.below(240) {
            0..=3 => {
                let entry = &self.pool[rng.pick(&CHAINS)];
                let most = rng.pick(&[60, 60, 60, 60, 60, 8200]);
                (entry, chain_message(rng, entry, most))
            }
            4..=7 => {
                let entry = &self.pool[rng.pick(&NESTS)];
                (entry, nested_message(rng, entry))
            }
            8..=11 => (&self.pool[DATES], dates_message(rng)),
            12 => (&self.wide, wide_message(rng, &self.wide)),
            _ => {
                let at = self.entry();
                let (rng, entry) = self.parts(at);
                let message = message_bytes(rng, entry);
                (&self.pool[at], message)
            }
        };
        (entry.table.clone(), message)
    }

    fn read_room(&mut self, a: &[u8], b: &[u8]) -> u32 {
        let room = match message::read(a, b, AMPLE) {
            Ok(rows) => {
                let n = ROW_WIDTH * rows.len();
                let some = n + self.rng.below(20);
                self.rng
                    .pick(&[n, n, n, n - 1, n - 5, n + 1, n + 4, some, some, 0])
            }
            Err(_) => self.rng.pick(&[0, 4, 5, 40, 100]),
        };
        room as u32
    }

    fn table_frame(&mut self) -> Frame {
        let at = self.entry();
        let mut a = self.pool[at].table.clone();
        if !self.rng.one_in(6) {
            a = mutate_table(&mut self.rng, &a);
        }
        Frame {
            kind: 3,
            room: 0,
            a,
            b: vec![],
        }
    }

    fn bytes_frame(&mut self) -> Frame {
        let at = self.entry();
        let (rng, entry) = self.parts(at);
        let list = message_tokens(rng, entry, 0, 12);
        let b = spaced(rng, &list);
        let read = message::read(&entry.table, &b, AMPLE);
        let mut rows: Vec<u32> = read.unwrap_or_default().concat();
        let row = rng.below(rows.len() / ROW_WIDTH + 2);
        damage_rows(rng, &mut rows, b.len() as u32);
        let last = (rows.len() / ROW_WIDTH) as u32;
        let ends = [last, last + 1, last.saturating_sub(1), 65_535, 99_999];
        let huge = [100_001, u32::MAX, u32::MAX / 5, 1 << 30, 1 << 31];
        let room = match rng.below(12) {
            0 => rng.pick(&huge),
            1..=3 => rng.pick(&ends),
            _ => row as u32,
        };
        let a = row_numbers(&rows);
        Frame {
            kind: 4,
            room,
            a,
            b,
        }
    }
}

/// A hand case's question.
fn hand_frame(case: &Case) -> Frame {
    let (kind, room, a, b) = match &case.ask {
        Ask::Compile(text, room) => (1, *room, text.bytes(), vec![]),
        Ask::Read(table, message, room) => (2, *room, table.bytes(), message.bytes()),
        Ask::Table(table) => (3, 0, table.bytes(), vec![]),
        Ask::RowBytes(rows, message, row) => (4, *row, row_numbers(rows), message.to_vec()),
    };
    Frame { kind, room, a, b }
}

fn row_numbers(rows: &[u32]) -> Vec<u8> {
    rows.iter().flat_map(|n| n.to_le_bytes()).collect()
}

/// Rows as they are, with other spans, or cut off.
fn damage_rows(rng: &mut Rng, rows: &mut Vec<u32>, len: u32) {
    if rows.is_empty() || rng.one_in(4) {
        return;
    }
    let at = rng.below(rows.len());
    match rng.below(6) {
        0 => rows.truncate(at),
        1 => rows.push(7),
        2 => rows[at] = rng.pick(&[len, len + 1, 0, len.saturating_sub(1), u32::MAX, 1 << 31]),
        3 => {
            for row in rows.chunks_exact_mut(ROW_WIDTH) {
                row.swap(2, 3);
            }
        }
        4 => {
            for row in rows.chunks_exact_mut(ROW_WIDTH) {
                row[3] = len + rng.pick(&[0, 0, 1]);
            }
        }
        _ => {
            for row in rows.chunks_exact_mut(ROW_WIDTH) {
                row[2] = rng.pick(&[row[3], row[3] + 1, row[3].saturating_sub(1)]);
            }
        }
    }
}

/// A definition's text of one of many sorts.
fn definition_text(rng: &mut Rng) -> Vec<u8> {
    let size = rng.pick(&[3, 6, 6, 10, 10, 25]);
    match rng.below(100) {
        0..=29 => {
            let list = definition_tokens(rng, 0, size);
            text(rng, &list)
        }
        30..=59 => {
            let faults = rng.pick(&[8, 20, 40, 80]);
            let list = definition_tokens(rng, faults, size);
            text(rng, &list)
        }
        60..=77 => token_mutant(rng, size),
        78..=87 => byte_mutant(rng, size),
        88..=91 => deep_text(rng),
        92..=95 => loop_text(rng),
        96 => wide_text(rng),
        97 if rng.one_in(4) => long_text(rng),
        _ => {
            let vocabulary = definition_vocabulary();
            let count = rng.below(12);
            let list: Vec<Token> = (0..count)
                .map(|_| vocabulary[rng.below(vocabulary.len())].clone())
                .collect();
            text(rng, &list)
        }
    }
}

fn definition_vocabulary() -> Vec<Token> {
    let mut list = tokens(&[
        "<", ">", "[", "]", "{", "}", ";", "?", "as", "plugin", "a", "r", "0..1", "1..2", "@",
    ]);
    list.extend(tokens(&TYPES));
    list
}

fn token_mutant(rng: &mut Rng, size: usize) -> Vec<u8> {
    let mut list = definition_tokens(rng, 0, size);
    let vocabulary = definition_vocabulary();
    for _ in 0..rng.pick(&[1, 1, 1, 2, 3]) {
        mutate_tokens(rng, &mut list, &vocabulary);
    }
    if rng.one_in(8) {
        list.truncate(rng.below(list.len() + 1));
    }
    text(rng, &list)
}

fn byte_mutant(rng: &mut Rng, size: usize) -> Vec<u8> {
    let list = definition_tokens(rng, 0, size);
    let mut bytes = text(rng, &list);
    if rng.one_in(4) {
        bytes.truncate(rng.below(bytes.len() + 1));
    } else {
        for _ in 0..rng.pick(&[1, 1, 1, 2, 3]) {
            mutate_bytes(rng, &mut bytes);
        }
    }
    bytes
}

/// Blocks nested seven to ten deep.
fn deep_text(rng: &mut Rng) -> Vec<u8> {
    let deep = rng.pick(&[7, 8, 8, 9, 10]);
    let mut list = vec![];
    for i in 0..deep {
        let word = if i > 0 && rng.one_in(3) {
            "union"
        } else {
            "struct"
        };
        list.extend(tokens(&[word, "s", "{"]));
        if rng.one_in(5) {
            list.extend(tokens(&["bool", "b", ";"]));
        }
    }
    if rng.one_in(2) {
        list.extend(tokens(&["int", "x", ";"]));
    }
    for _ in 0..deep {
        list.extend(tokens(&["}", ";"]));
    }
    if rng.one_in(4) {
        list.insert(rng.below(list.len()), token("}"));
    }
    text(rng, &list)
}

/// Structs and unions that mostly need each other.
fn loop_text(rng: &mut Rng) -> Vec<u8> {
    let count = 1 + rng.below(4);
    let names = ["r", "s", "t", "u"];
    let mut list = vec![];
    for (i, name) in names[..count].iter().enumerate() {
        let word = if i == 0 {
            "struct"
        } else {
            rng.pick(&["struct", "union"])
        };
        list.extend(tokens(&[word, name, "{"]));
        for field in &["a", "b", "c"][..rng.below(4)] {
            let some = names[rng.below(count)];
            let kind = rng.pick(&[names[0], names[count - 1], some, "int"]);
            list.extend(tokens(&[kind, field]));
            if word == "struct" {
                list.extend(tokens(rng.pick(&[
                    &[][..],
                    &[],
                    &["[", "0..1", "]"],
                    &["[", "2..*", "]"],
                ])));
            }
            list.push(token(";"));
        }
        list.extend(tokens(&["}", ";"]));
    }
    text(rng, &list)
}

/// About 256 parameters.
fn wide_text(rng: &mut Rng) -> Vec<u8> {
    let count = rng.pick(&[255, 256, 257, 258]);
    let mut out = b"struct r{".to_vec();
    for i in 1..count {
        out.extend(format!("int f{i};").bytes());
    }
    out.extend(b"};");
    if rng.one_in(4) {
        mutate_bytes(rng, &mut out);
    }
    out
}

/// A text of about 65,535 bytes.
fn long_text(rng: &mut Rng) -> Vec<u8> {
    let list = definition_tokens(rng, 0, 6);
    let mut out = text(rng, &list);
    let length = rng.pick(&[65_534, 65_535, 65_535, 65_536, 65_537]);
    let comment = rng.one_in(2);
    if comment {
        out.extend(b"\n/*");
    }
    let fill = rng.pick(b" \n\t\x00;");
    let fill = if comment { fill } else { b' ' };
    while out.len() + 2 < length {
        out.push(fill);
    }
    out.extend(if comment { b"*/" } else { b"  " });
    out
}

/// A message for a table, of one of many sorts.
fn message_bytes(rng: &mut Rng, entry: &Entry) -> Vec<u8> {
    let size = rng.pick(&[2, 6, 10, 10, 20]);
    match rng.below(1000) {
        0..=299 => {
            let list = message_tokens(rng, entry, 0, size);
            spaced(rng, &list)
        }
        300..=549 => {
            let faults = rng.pick(&[4, 10, 25]);
            let list = message_tokens(rng, entry, faults, size);
            spaced(rng, &list)
        }
        550..=779 => message_mutant(rng, entry, size),
        780..=879 => {
            let list = message_tokens(rng, entry, 0, size);
            let mut bytes = spaced(rng, &list);
            for _ in 0..rng.pick(&[1, 1, 1, 2]) {
                mutate_bytes(rng, &mut bytes);
            }
            bytes
        }
        880..=939 => nested_message(rng, entry),
        940..=979 => chain_message(rng, entry, 40),
        980 => chain_message(rng, entry, 8200),
        981..=984 => long_message(rng, entry),
        _ => {
            let count = rng.below(10);
            let all = &entry.vocabulary;
            let list: Vec<Token> = (0..count)
                .map(|_| all[rng.below(all.len())].clone())
                .collect();
            spaced(rng, &list)
        }
    }
}

fn message_mutant(rng: &mut Rng, entry: &Entry, size: usize) -> Vec<u8> {
    let mut list = message_tokens(rng, entry, 0, size);
    for _ in 0..rng.pick(&[1, 1, 1, 2, 3]) {
        mutate_tokens(rng, &mut list, &entry.vocabulary);
    }
    if rng.one_in(6) {
        list.truncate(rng.below(list.len() + 1));
    }
    spaced(rng, &list)
}

/// The tag of a root's field that is the root again, or of an unknown item.
fn nesting_tag(entry: &Entry) -> Token {
    let own = |k: &&usize| {
        let r = &entry.records[**k];
        r.kind == 10 && r.target == Some(0) && !r.untagged
    };
    match entry.kids[0].iter().find(own) {
        Some(k) => entry.records[*k].name.clone(),
        None => token("zz"),
    }
}

/// Braces about sixteen deep, known ones or unknown ones.
fn nested_message(rng: &mut Rng, entry: &Entry) -> Vec<u8> {
    let deep = rng.pick(&[1, 2, 14, 15, 16, 16, 17, 18]);
    let known = rng.below(deep + 1);
    let mut list = if rng.one_in(2) {
        message_tokens(rng, entry, 0, 4)
    } else {
        vec![]
    };
    if rng.one_in(10) {
        list.insert(0, token("}"));
    }
    let tag = nesting_tag(entry);
    for i in 0..deep {
        if i == 0 || i <= known {
            list.extend([tag.clone(), token("=")]);
        }
        list.push(token("{"));
    }
    if rng.one_in(3) {
        list.extend(message_tokens(rng, entry, 0, 2));
    }
    let close = rng.pick(&[deep, deep, deep, deep, deep - 1, deep + 1]);
    list.extend(vec![token("}"); close]);
    spaced(rng, &list)
}

/// A field of the root and an alternative of its union that is that union again.
fn chain_tags(entry: &Entry) -> Option<(Token, Token)> {
    for k in &entry.kids[0] {
        let r = &entry.records[*k];
        let union = r.target.map_or(*k, usize::from);
        let again = entry.kids[union].iter().find(|a| {
            let alternative = &entry.records[**a];
            entry.records[union].kind == 9 && alternative.target == Some(union as u16)
        });
        if let (false, Some(a)) = (r.untagged, again) {
            return Some((r.name.clone(), entry.records[*a].name.clone()));
        }
    }
    None
}

/// A long chain of choices, or of unknown values.
fn chain_message(rng: &mut Rng, entry: &Entry, most: usize) -> Vec<u8> {
    let tags = chain_tags(entry).filter(|_| !rng.one_in(8));
    let (first, next) = tags.unwrap_or((token("zz"), token("w")));
    let room = 16_384usize.saturating_sub(first.len() + 4) / (next.len() + 1);
    let count = if most > room {
        room + 2 - rng.below(6)
    } else {
        rng.below(most)
    };
    let mut out = first;
    out.push(b'=');
    for _ in 0..count {
        out.extend(&next);
        out.push(b'=');
    }
    out.extend(
        rng.pick(&[
            "7", "any", "v", "foo", "", "\"x\"", "1,2", "{}", "07", "7 7",
        ])
        .bytes(),
    );
    out
}

/// A list of dates; one in eight is a 29 February that its year hasn't.
fn dates_message(rng: &mut Rng) -> Vec<u8> {
    let mut list = vec![];
    for _ in 0..=rng.below(5) {
        let date = if rng.one_in(8) {
            no_leap_day(rng)
        } else {
            good_date(rng)
        };
        list.extend([token(&date), token(",")]);
    }
    list.pop();
    spaced(rng, &list)
}

/// A root with 255 fields, whose tags are of few lengths and end alike; every fifth is a void.
fn wide_entry() -> Entry {
    let mut text = b"struct r{".to_vec();
    for i in 0..255 {
        let kind = if i % 5 == 3 { "void" } else { "int" };
        text.extend(format!("{kind} f{}[0..1];", i * 3).bytes());
    }
    text.extend(b"};");
    let table = definition::compile(&text, AMPLE).expect("a lawful definition");
    Entry::new(table)
}

/// Fields of a root with many: in the table's order, from another on and round, backwards or mixed; now and then one twice,
/// or one that is unknown.
fn wide_message(rng: &mut Rng, entry: &Entry) -> Vec<u8> {
    let mut fields = entry.kids[0].clone();
    match rng.below(4) {
        0 => {}
        1 => fields.rotate_left(rng.below(255)),
        2 => fields.reverse(),
        _ => rng.shuffle(&mut fields),
    }
    let (share, faults) = (1 + rng.below(9), rng.pick(&[0, 0, 0, 300]));
    let mut walker = Walker {
        rng,
        entry,
        faults: 0,
        size: 600,
        out: vec![],
    };
    for f in fields {
        if !walker.rng.one_in(share) {
            walker.item(f);
            if walker.rng.one_in(faults) {
                walker.item(f);
            }
        }
        if walker.rng.one_in(40) {
            walker.unknown_item();
        }
    }
    let list = walker.out;
    spaced(rng, &list)
}

/// A message of about 16,384 bytes.
fn long_message(rng: &mut Rng, entry: &Entry) -> Vec<u8> {
    let length = rng.pick(&[16_383, 16_384, 16_384, 16_385, 16_386]);
    let list = message_tokens(rng, entry, 0, 8);
    let mut out = spaced(rng, &list);
    let fill: &[u8] = match rng.below(5) {
        0 => b" ",
        1 => b" w",
        2 => b",7",
        3 => b" w={}",
        _ => b"w",
    };
    out.push(b' ');
    while out.len() + fill.len() <= length {
        out.extend(fill);
    }
    out.resize(out.len().max(length), b' ');
    out
}

/// Writes `count` frames of a seed to standard output.
pub fn run(seed: u64, count: u64) {
    let mut out = BufWriter::with_capacity(1 << 20, io::stdout().lock());
    let mut stream = Stream::new(seed);
    for _ in 0..count {
        stream.frame().write(&mut out).expect("standard output");
    }
    out.flush().expect("standard output");
}

#[cfg(test)]
mod tests {
    use super::*;

    #[test]
    fn a_stream_begins_with_every_worked_case() {
        let mut stream = Stream::new(1);
        for case in cases::CASES {
            let mut bytes = vec![];
            stream.frame().write(&mut bytes).unwrap();
            assert_eq!(bytes, case.frame(), "{}", case.point);
        }
    }
}
