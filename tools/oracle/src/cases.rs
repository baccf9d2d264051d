//! Worked answers, typed from the papers: one table of questions, each with the answer it must get.

use crate::frames;
use crate::record::{self, Record, BOOL, INT, STRUCT, UNION, VOID};
use crate::{definition, Row};
use std::io::{self, Write};
use Part::{Compiled, Made, Plain};
use Want::{Bytes, Count, Length, Refused, Rows, Taken};

/// One question and the answer it must get.
pub struct Case {
    pub point: &'static str,
    pub ask: Ask,
    pub want: Want,
}

/// What is asked.
pub enum Ask {
    /// Compile this text with this many bytes lent.
    Compile(Part, u32),
    /// Read this table's message with this many numbers lent.
    Read(Part, Part, u32),
    /// Does some definition compile to this table?
    Table(Part),
    /// The bytes of a row, among these numbers, of this message.
    RowBytes(&'static [u32], &'static [u8], u32),
}

/// The bytes of a part of a question.
pub enum Part {
    Plain(&'static [u8]),
    Made(fn() -> Vec<u8>),
    /// The table of a definition.
    Compiled(&'static [u8]),
}

/// The answer wanted; lent bytes that must stay must be kept too.
pub enum Want {
    /// A table of so many bytes.
    Length(usize),
    /// So many rows.
    Count(usize),
    /// These rows.
    Rows(&'static [Row]),
    /// A number at a place.
    Refused(u32, usize),
    /// Whether the table is taken.
    Taken(bool),
    Bytes(&'static [u8]),
}

impl Part {
    pub fn bytes(&self) -> Vec<u8> {
        match self {
            Plain(bytes) => bytes.to_vec(),
            Made(make) => make(),
            Compiled(text) => definition::compile(text, ROOM as usize).expect("it compiles"),
        }
    }
}

impl Case {
    /// The question as a frame.
    pub fn frame(&self) -> Vec<u8> {
        match &self.ask {
            Ask::Compile(text, room) => frames::frame(frames::COMPILE, *room, &text.bytes(), b""),
            Ask::Read(table, message, room) => {
                frames::frame(frames::READ, *room, &table.bytes(), &message.bytes())
            }
            Ask::Table(table) => frames::frame(frames::TABLE, 0, &table.bytes(), b""),
            Ask::RowBytes(numbers, message, row) => {
                let rows: Vec<u8> = numbers.iter().flat_map(|n| n.to_le_bytes()).collect();
                frames::frame(frames::ROW_BYTES, *row, &rows, message)
            }
        }
    }

    /// Whether a line is the answer wanted.
    pub fn agrees(&self, line: &str) -> bool {
        let (beginning, end) = self.line();
        match self.want {
            Length(_) | Count(_) => line.starts_with(&beginning) && line.ends_with(&end),
            _ => line == beginning + &end,
        }
    }

    /// The line's beginning and its end; between them stands what the papers don't tell.
    pub fn line(&self) -> (String, String) {
        let kept = " kept".to_string();
        match &self.want {
            Length(length) => (format!("ok {length} "), kept),
            Count(count) => (format!("ok {count} "), kept),
            Rows(rows) => {
                let numbers = rows.iter().flatten().map(|number| format!(" {number}"));
                (
                    format!("ok {}{}", rows.len(), numbers.collect::<String>()),
                    kept,
                )
            }
            Refused(number, place) => (format!("refused {number} {place}"), kept),
            Taken(taken) => (if *taken { "yes" } else { "no" }.to_string(), String::new()),
            Bytes(bytes) => {
                let hex: String = bytes.iter().map(|byte| format!("{byte:02x}")).collect();
                let space = if hex.is_empty() { "" } else { " " };
                (format!("bytes{space}{hex}"), String::new())
            }
        }
    }
}

/// Writes every case's frame to standard output.
pub fn run() {
    let mut out = io::stdout().lock();
    for case in CASES {
        out.write_all(&case.frame()).expect("standard output");
    }
}

/// Lent bytes or numbers, where a case says nothing of them.
const ROOM: u32 = 65_536;

const fn text(point: &'static str, text: &'static [u8], want: Want) -> Case {
    let ask = Ask::Compile(Plain(text), ROOM);
    Case { point, ask, want }
}

const fn made_text(point: &'static str, text: fn() -> Vec<u8>, want: Want) -> Case {
    let ask = Ask::Compile(Made(text), ROOM);
    Case { point, ask, want }
}

const fn read(
    point: &'static str,
    definition: &'static [u8],
    message: &'static [u8],
    want: Want,
) -> Case {
    read_in(point, definition, message, ROOM, want)
}

const fn read_in(
    point: &'static str,
    definition: &'static [u8],
    message: &'static [u8],
    room: u32,
    want: Want,
) -> Case {
    let ask = Ask::Read(Compiled(definition), Plain(message), room);
    Case { point, ask, want }
}

const fn made_message(
    point: &'static str,
    definition: &'static [u8],
    message: fn() -> Vec<u8>,
    want: Want,
) -> Case {
    let ask = Ask::Read(Compiled(definition), Made(message), ROOM);
    Case { point, ask, want }
}

const fn table(point: &'static str, table: fn() -> Vec<u8>, want: Want) -> Case {
    let ask = Ask::Table(Made(table));
    Case { point, ask, want }
}

const fn row_bytes(
    point: &'static str,
    rows: &'static [u32],
    message: &'static [u8],
    row: u32,
    want: Want,
) -> Case {
    let ask = Ask::RowBytes(rows, message, row);
    Case { point, ask, want }
}

/// The parent of the root's row.
const R: u32 = 4_294_967_295;

const D: &[u8] =
    b"struct tile { int<1..99999> id as ?; date surveyed; int<0..30000> depth[1..*] as d; \
    [ unquoted-ascii<1..8> boat; ] };";
const E: &[u8] = b"struct t { unquoted-ascii<1..8> remark[0..1] as ?; date surveyed; };";
const S: &[u8] = b"struct r { union c { date on; struct box { int k; }; }; };";
const U: &[u8] = b"struct r { u x[1..2]; }; union u { int<0..9> n as ?; void any; u deep; };";
const V: &[u8] = b"struct r { u x[2..3]; void v; }; union u { void any; };";
const W: &[u8] = b"struct r { struct s { int a; int b[2..2]; }; };";
const X: &[u8] = b"struct r { s p; }; struct s { len q; }; int<0..9> len;";
/// A union of a void only, untagged.
const VOID_CHOICE: &[u8] = b"struct r { union u as ? { void a; }; };";
/// A plugin field and an extension.
const OPTIONAL: &[u8] = b"struct r { int b as x.y plugin; [ int a[2..2]; ] };";
/// No known tag at all.
const NOTHING: &[u8] = b"struct s{};";
/// An untagged field in braces, required or not.
const NEEDED_INSIDE: &[u8] = b"struct r { struct s { int a as ?; }; };";
const SPARE_INSIDE: &[u8] = b"struct r { struct s { int a[0..1] as ?; int b; }; };";
/// A required and a spare untagged field before a required tagged one.
const LISTS: &[u8] = b"struct r { int a[1..2] as ?; bool b[0..1] as ?; int c; };";
/// One field of each simple type, none required.
const SIMPLE: &[u8] = b"struct r { bool b[0..1]; int<-5..12> i[0..1]; ascii<0..3> a[0..1]; \
    unquoted-ascii<2..3> u[0..1]; date d[0..1]; time t[0..1]; };";

const T: &[u8] = b"struct s { time t as ?; ascii<1..3> a; };";

const N: &[u8] = b"struct r { s p[1..*]; void v; }; struct s { int q[1..*]; };";
const UNTAGGED: &[u8] = b"struct r { int a[1..3] as ?; };";

const ALIKE: &[u8] = b"struct r { int ab[0..1]; int bb[0..1]; int b[0..1]; int xbb[0..1]; };";
const INNER: &[u8] = b"struct r { struct ab[0..1] { int ab[0..1]; }; int c[0..1]; };";
const RENAMED: &[u8] = b"struct r { int ab as ?; int cb as ab; };";

const FIRST_MESSAGE: &[u8] = b"17 surveyed=20240310 d=812,790";
const FIRST_ROWS: [Row; 5] = [
    [0, R, 0, 30, 0],
    [1, 0, 0, 2, 0],
    [2, 0, 12, 20, 0],
    [3, 0, 23, 26, 0],
    [3, 0, 27, 30, 1],
];

/// Every case, one a line where it fits.
#[rustfmt::skip]
pub static CASES: &[Case] = &[
    // Checked by hand.
    text("D", D, Length(139)),
    read("D's first case", D, FIRST_MESSAGE, Rows(&FIRST_ROWS)),
    read("D, empty", D, b"", Refused(27, 0)),
    read("D, no date", D, b"17 d=812", Refused(27, 8)),
    read("D, 30 February", D, b"17 surveyed=20240230 d=1", Refused(30, 12)),
    read("D, leading zero", D, b"017", Refused(24, 0)),
    read("D, comma too many", D, b"17, 18", Refused(25, 2)),
    read("D, no value", D, b"17 surveyed=20240310 d=", Refused(23, 23)),
    read("D, unknown braces", D, b"17 surveyed=20240310 d=1 tide={a \"x\" {}}", Count(4)),
    read("E, empty", E, b"", Count(1)),
    read("E, no tag first", E, b"surveyed=20240310", Refused(23, 8)),
    read("E, no date", E, b"x", Refused(27, 1)),
    read("E, both", E, b"x surveyed=20240310", Count(3)),
    text("endless", b"struct a { a b; };", Refused(10, 7)),
    text("names itself, optional", b"struct a { a b[0..1]; };", Length(50)),
    text("tag twice", b"struct s { int x; bool y as x; };", Refused(8, 28)),
    text("range reversed", b"struct s { int<5..3> x; };", Refused(6, 15)),
    text("root no struct", b"int x;", Refused(9, 4)),
    text("empty definition", b"", Refused(3, 0)),
    // Errors a good programmer would make: the comma after an inner choice.
    read("comma after a choice", U, b"x = deep = 5 , 6", Count(6)),
    // 1: the definition's text.
    text("2 before 3", b";;@", Refused(2, 2)),
    text("2 before 3", b"struct r { int x }; @", Refused(2, 20)),
    text("`/` is no run byte", b"a*/", Refused(2, 2)),
    text("close after both bytes", b"/*/", Refused(2, 0)),
    text("comment at the end", b"struct r {};/**/", Length(25)),
    text("CR ends no comment", b"// x\rstruct r {};", Refused(3, 17)),
    text("any byte in a comment", b"struct r {}; // \xFF", Length(25)),
    text("a comment ends a run", b"str/**/uct r {};", Refused(3, 0)),
    text("no blanks required", b"struct/**/r{};", Length(25)),
    text("form feed", b"struct r {\x0C};", Refused(2, 10)),
    text("braces held at 0", b"}}{{{{{{{{{", Refused(2, 10)),
    made_text("nine deep", nine_deep, Refused(2, 80)),
    made_text("eight deep", eight_deep, Length(200)),
    text("lone `/`", b"struct r {}; /", Refused(2, 13)),
    text("braces held at 0", b"}{{{{{{{{{", Refused(2, 9)),
    text("LF ends a comment", b"// x\nstruct r {};", Length(25)),
    text("no nesting", b"/* /* */ struct r {}; */", Refused(2, 23)),
    text("comment without end", b"struct r {}; /* *", Refused(2, 13)),
    text("braces in comments don't count", b"struct r {/*{{{{{{{{{*/};//{{{{{{{{{", Length(25)),
    made_text("over 65,535 bytes", too_long_text, Refused(1, 65_535)),
    made_text("65,535 bytes", longest_text, Length(25)),
    // Forms.
    text("a top is no reference", b"struct r {}; r x;", Refused(3, 13)),
    text("a top has no cardinality", b"struct r[0..1] {};", Refused(3, 8)),
    text("a top has no tag", b"struct r {}; int x as y;", Refused(3, 19)),
    text("a top has no plugin", b"struct r {}; int x plugin;", Refused(3, 19)),
    text("`as` as a reference", b"struct r { as x; };", Refused(5, 11)),
    text("`plugin` as a reference", b"struct r { plugin x; };", Refused(5, 11)),
    text("any run as a name", b"struct as {};", Refused(5, 7)),
    text("any run as a name", b"struct r { int as as x; };", Refused(5, 15)),
    text("a keyword as a tag", b"struct r { int x as as; };", Length(51)),
    text("plugin last", b"struct r { int x plugin as a.b; };", Refused(3, 24)),
    text("range before as", b"struct r { int x as y [0..1]; };", Refused(3, 22)),
    text("`?` only after as", b"struct r { int x [?]; };", Refused(3, 18)),
    text("`+`", b"struct r { int x[+]; };", Refused(2, 17)),
    text("a range is one run", b"struct r { int<1 .. 2> x; };", Refused(3, 17)),
    text("bool has no range", b"struct r { bool<1..2> x; };", Refused(3, 15)),
    text("empty group", b"struct r { [ ] };", Refused(3, 13)),
    text("groups last", b"struct r { [ int x; ] int y; };", Refused(3, 22)),
    text("unfinished", b"struct r {} ", Refused(3, 12)),
    text("a keyword is no reference", b"struct s{struct x;};", Refused(3, 17)),
    text("blanks only", b" \t\r\n", Refused(3, 4)),
    text("two groups", b"struct r { [ int x; int y; ] [ int z; ] };", Length(100)),
    made_text("257 parameters", too_many_params, Refused(4, 2_199)),
    made_text("256 parameters", most_params, Length(7_055)),
    // Rules.
    text("5, smallest", b"struct r { int<9..1> x; zz y; int x as ?; int 9y; };", Refused(5, 46)),
    made_text("64-byte tag", tag_of_64, Refused(5, 20)),
    made_text("63-byte tag", tag_of_63, Length(112)),
    text("dot in a name", b"struct r { int a.b; };", Refused(5, 15)),
    text("star in a tag", b"struct r { int a as b*; };", Refused(5, 20)),
    text("-0", b"struct r { int<-0..1> x; };", Refused(6, 15)),
    text("00", b"struct r { int<00..1> x; };", Refused(6, 15)),
    text("three dots", b"struct r { int<1...2> x; };", Refused(6, 15)),
    text("one number", b"struct r { int<5> x; };", Refused(6, 15)),
    text("[0..0]", b"struct r { int x[0..0]; };", Refused(6, 17)),
    text("[65535..*]", b"struct r { int x[65535..*]; };", Refused(6, 17)),
    text("[5]", b"struct r { int x[5]; };", Refused(6, 17)),
    text("[*]", b"struct r { int x[*]; };", Refused(6, 17)),
    text("[1..65535]", b"struct r { int x[1..65535]; };", Refused(6, 17)),
    text("[65534..*]", b"struct r { int x[65534..*]; };", Length(50)),
    text("[65534..65534]", b"struct r { int x[65534..65534]; };", Length(50)),
    text("int limits", b"struct r { int<-2147483648..2147483647> x; };", Length(50)),
    text("int too small", b"struct r { int<-2147483649..0> x; };", Refused(6, 15)),
    text("int too large", b"struct r { int<0..2147483648> x; };", Refused(6, 15)),
    text("int far too large", b"struct r { int<0..99999999999999999999> x; };", Refused(6, 15)),
    text("ascii limits", b"struct r { ascii<0..1024> x; };", Length(50)),
    text("ascii too long", b"struct r { ascii<0..1025> x; };", Refused(6, 17)),
    text("unquoted-ascii from 1", b"struct r { unquoted-ascii<0..5> x; };", Refused(6, 26)),
    text("no star in a type's range", b"struct r { int<0..*> x; };", Refused(6, 15)),
    text("`*` is over 1", b"struct r { void v[0..*]; };", Refused(6, 18)),
    text("void twice", b"struct r { void v[1..2]; };", Refused(6, 18)),
    text("void, optional", b"struct r { void v[0..1]; };", Length(50)),
    text("cardinality on an alternative", b"struct r { union u { int x[1..1]; }; };", Refused(6, 27)),
    text("untagged after tagged", b"struct r { int a; int b as ?; };", Refused(7, 22)),
    text("untagged in an extension", b"struct r { [ int b as ?; ] };", Refused(7, 17)),
    text("untagged void", b"struct r { void b as ?; };", Refused(7, 16)),
    text("untagged reference in a union", b"struct r { union u { q y as ?; }; }; int q;", Refused(7, 23)),
    text("second untagged", b"struct r { union u { int x as ?; int y as ?; }; };", Refused(7, 37)),
    text("untagged in a union's extension", b"struct r { union u { [ int x as ?; ] }; };", Refused(7, 27)),
    text("digit tag before", b"struct r { union u { int x as 5; bool y as ?; }; };", Refused(7, 25)),
    text("digit tag after", b"struct r { union u { int y as ?; int x as -07; }; };", Refused(7, 37)),
    text("no untagged, digit tag", b"struct r { union u { int x as 5; }; };", Length(75)),
    text("digit tags in a struct", b"struct r { int a as ?; int b as 5; };", Length(75)),
    text("untagged plugin", b"struct r { int a as ? plugin; };", Refused(7, 15)),
    text("plugin without a tag", b"struct r { int a plugin; };", Refused(7, 15)),
    text("plugin without a dot", b"struct r { int a as b plugin; };", Refused(7, 15)),
    text("7 before 9", b"void x;", Refused(7, 5)),
    text("own body's extension only", b"struct s{[struct t{int n as ?;};]};", Length(75)),
    text("names with names", b"struct r { int x as a; int b as x; };", Length(75)),
    text("untagged has no tag", b"struct r { int x as ?; bool y as x; };", Length(75)),
    text("tag twice, at the name", b"struct r { bool y as x; int x; };", Refused(8, 28)),
    text("name twice", b"struct r { int x as a; int x as b; };", Refused(8, 27)),
    text("top twice", b"struct r {}; int r;", Refused(8, 17)),
    text("twice over an extension", b"struct r { int x; [ int x; ] };", Refused(8, 24)),
    text("a nested name", b"struct r { t x; }; union q { struct t { }; };", Refused(9, 11)),
    text("root's name before a reference", b"union u { zz y; };", Refused(9, 6)),
    text("unreachable", b"struct r { b x[0..1]; }; struct b { b y; };", Refused(10, 32)),
    text("no alternatives", b"struct r { u x[0..1]; }; union u { };", Refused(10, 31)),
    text("untagged, required", b"struct X { X x[1..*] as ?; };", Refused(10, 7)),
    text("after an untagged one", b"struct r { r x[0..1] as ?; r y; };", Length(75)),
    text("in an extension", b"struct r { [ r y; ] };", Length(50)),
    text("plugin", b"struct r { r y as a.b plugin; };", Length(52)),
    text("alternative in an extension", b"struct r { u x; }; union u { [ int a; ] };", Length(100)),
    text("plugin alternative", b"struct r { u x; }; union u { int a as b.c plugin; };", Length(102)),
    Case {
        point: "D with 138 bytes lent",
        ask: Ask::Compile(Plain(D), 138),
        want: Refused(11, 139),
    },
    Case {
        point: "D with 139 bytes lent",
        ask: Ask::Compile(Plain(D), 139),
        want: Length(139),
    },
    // 2: the table.
    table("untagged `x` beside tag `x`", untagged_beside_tag, Taken(true)),
    table("a tag `int`", tag_int, Taken(true)),
    table("two untagged `x`", untagged_twice, Taken(false)),
    table("untagged `int`", untagged_int, Taken(false)),
    table("eight deep", || deep_table(8), Taken(true)),
    table("nine deep", || deep_table(9), Taken(false)),
    table("child after the next top", late_child, Taken(false)),
    table("bool with hi 1", bool_with_range, Taken(false)),
    table("flags 8", || field_with_half(6, 8), Taken(false)),
    table("flags 2", || field_with_half(6, 2), Taken(true)),
    table("lo count 65,535", || field_with_half(8, 65_535), Taken(false)),
    table("child of a simple record", child_of_simple, Taken(false)),
    table("a trailing byte", trailing_byte, Taken(false)),
    table("the empty table", Vec::new, Taken(false)),
    table("D", || Compiled(D).bytes(), Taken(true)),
    table("257 records", || flat_table(257), Taken(false)),
    table("256 records", || flat_table(256), Taken(true)),
    table("outside after inside", outside_after_inside, Taken(false)),
    table("digit tag beside untagged", digit_beside_untagged, Taken(false)),
    table("void top", void_top, Taken(false)),
    table("endless", endless_table, Taken(false)),
    table("no name", || field_with_name(b""), Taken(false)),
    table("63-byte tag", || field_with_name(&[b'a'; 63]), Taken(true)),
    table("64-byte tag", || field_with_name(&[b'a'; 64]), Taken(false)),
    Case {
        point: "20 before 21",
        ask: Ask::Read(Plain(b""), Made(|| vec![b' '; 20_000]), ROOM),
        want: Refused(20, 0),
    },
    made_message("over 16,384 bytes", NOTHING, || vec![b'('; 16_385], Refused(21, 16_384)),
    made_message("16,384 bytes", NOTHING, || vec![b' '; 16_384], Rows(&[[0, R, 0, 16_384, 0]])),
    // 3: message tokens.
    read("`//c` is a word", D, b"17 surveyed=20240310 d=1 //c", Count(4)),
    read("22 before 23", D, b"= (", Refused(22, 2)),
    read("seventeen deep", D, b"z={{{{{{{{{{{{{{{{{", Refused(22, 18)),
    read("seventeen deep after `}`", D, b"}{{{{{{{{{{{{{{{{{", Refused(22, 17)),
    read("sixteen deep", NOTHING, b"z={{{{{{{{{{{{{{{{}}}}}}}}}}}}}}}}", Count(1)),
    read("one word", D, b"17surveyed=20240310", Refused(24, 0)),
    read("string without end", D, b"17 z=\"abc", Refused(22, 5)),
    read("tab in a string", D, b"17 z=\"a\tb\"", Refused(22, 5)),
    read("braces in strings", NOTHING, b"z=\"{{{{{{{{{{{{{{{{{\"", Count(1)),
    read("apostrophe", NOTHING, b"z '", Refused(22, 2)),
    read("question mark", NOTHING, b"z?", Refused(22, 1)),
    read("form feed", NOTHING, b"\x0C", Refused(22, 0)),
    read("0x7F", NOTHING, b"a\x7F", Refused(22, 1)),
    // 4: the lawful reading.
    read("an untagged name is no tag", D, b"17 surveyed=20240310 d=1 id=5 id=6", Count(4)),
    read("a union's tag is no body's tag", VOID_CHOICE, b"a a", Count(3)),
    read("void then `=`", V, b"v=1", Refused(23, 1)),
    read("comma of the list", D, b"17 z=a=b,c surveyed=20240310 d=1", Count(4)),
    read("balanced", NOTHING, b"x={a} b={c}", Count(1)),
    read("any balanced tokens", D, b"17 z={ = , = } surveyed=20240310 d=1", Count(4)),
    read("only a word takes `=`", D, b"17 z=\"x\"=1", Refused(23, 8)),
    read("complete before b", LISTS, b"1,2", Rows(&[[0, R, 0, 3, 0], [1, 0, 0, 1, 0], [1, 0, 2, 3, 1]])),
    read("first list missing", LISTS, b"", Refused(27, 0)),
    read("both lists, no item", LISTS, b"1 true", Refused(27, 6)),
    read("both lists and the item", LISTS, b"1 true c=3", Count(4)),
    read("no tag at b's place", LISTS, b"1 c=3", Refused(24, 2)),
    // 5: rows and spans.
    read("S, date", S, b"c=on=20240310", Rows(&[[0, R, 0, 13, 0], [1, 0, 2, 13, 0], [2, 1, 5, 13, 0]])),
    read("S, struct", S, b"c=box={k=1}", Rows(&[
        [0, R, 0, 11, 0], [1, 0, 2, 11, 0], [3, 1, 6, 11, 0], [4, 2, 9, 10, 0],
    ])),
    read("U, chain", U, b"x=deep=deep=7", Rows(&[
        [0, R, 0, 13, 0], [1, 0, 2, 13, 0], [5, 1, 7, 13, 0], [5, 2, 12, 13, 0], [3, 3, 12, 13, 0],
    ])),
    read("U, void twice", U, b"x=any,any", Rows(&[
        [0, R, 0, 9, 0], [1, 0, 2, 5, 0], [4, 1, 2, 5, 0], [1, 0, 6, 9, 1], [4, 3, 6, 9, 0],
    ])),
    read("U, blanks", U, b"x = deep = 7 , any", Rows(&[
        [0, R, 0, 18, 0], [1, 0, 4, 12, 0], [5, 1, 11, 12, 0], [3, 2, 11, 12, 0], [1, 0, 15, 18, 1], [4, 4, 15, 18, 0],
    ])),
    read("X", X, b"p={q=4}", Rows(&[[0, R, 0, 7, 0], [1, 0, 2, 7, 0], [3, 1, 5, 6, 0]])),
    read("V, both", V, b"v x=any,any", Rows(&[
        [0, R, 0, 11, 0], [2, 0, 0, 1, 0], [1, 0, 4, 7, 0], [4, 2, 4, 7, 0], [1, 0, 8, 11, 1], [4, 4, 8, 11, 0],
    ])),
    read("a string's quotes", SIMPLE, b" a = \"b c\" ", Rows(&[[0, R, 0, 11, 0], [3, 0, 5, 10, 0]])),
    // The index (02, request 11).
    read("each list counts anew", N, b"p={q=1,2},{q=3} v", Rows(&[
        [0, R, 0, 17, 0],
        [1, 0, 2, 9, 0], [4, 1, 5, 6, 0], [4, 1, 7, 8, 1],
        [1, 0, 10, 15, 1], [4, 4, 13, 14, 0],
        [2, 0, 16, 17, 0],
    ])),
    read("an untagged list counts too", UNTAGGED, b"5,6", Rows(&[[0, R, 0, 3, 0], [1, 0, 0, 1, 0], [1, 0, 2, 3, 1]])),
    read_in("20 numbers lent", D, FIRST_MESSAGE, 20, Refused(29, 5)),
    read_in("24 numbers lent", D, FIRST_MESSAGE, 24, Refused(29, 5)),
    read_in("25 numbers lent", D, FIRST_MESSAGE, 25, Rows(&FIRST_ROWS)),
    read_in("29 numbers lent", D, FIRST_MESSAGE, 29, Rows(&FIRST_ROWS)),
    read_in("nothing lent", D, FIRST_MESSAGE, 0, Refused(29, 5)),
    read_in("nothing lent, 27 before 29", D, b"", 0, Refused(27, 0)),
    row_bytes("the root's bytes", FIRST_ROWS.as_flattened(), FIRST_MESSAGE, 0, Bytes(FIRST_MESSAGE)),
    row_bytes("a row's bytes", FIRST_ROWS.as_flattened(), FIRST_MESSAGE, 3, Bytes(b"812")),
    row_bytes("the last row's bytes", FIRST_ROWS.as_flattened(), FIRST_MESSAGE, 4, Bytes(b"790")),
    row_bytes("no such row", FIRST_ROWS.as_flattened(), FIRST_MESSAGE, 5, Bytes(b"")),
    row_bytes("far beyond", FIRST_ROWS.as_flattened(), FIRST_MESSAGE, 100_000, Bytes(b"")),
    row_bytes("24 numbers hold four rows", FIRST_ROWS.as_flattened().split_at(24).0, FIRST_MESSAGE, 4, Bytes(b"")),
    row_bytes("nine numbers hold one row", FIRST_ROWS.as_flattened().split_at(9).0, FIRST_MESSAGE, 1, Bytes(b"")),
    row_bytes("part of a row", &[0, R, 0], b"abc", 0, Bytes(b"")),
    row_bytes("four numbers of a row", &[0, R, 1, 3], b"abc", 0, Bytes(b"")),
    row_bytes("reversed", &[0, R, 2, 1, 0], b"abc", 0, Bytes(b"")),
    row_bytes("past the message", &[0, R, 1, 4, 0], b"abc", 0, Bytes(b"")),
    row_bytes("to the message's end", &[0, R, 1, 3, 0], b"abc", 0, Bytes(b"bc")),
    row_bytes("any index", &[0, R, 1, 3, R], b"abc", 0, Bytes(b"bc")),
    row_bytes("nothing, past the message", &[0, R, 4, 4, 0], b"abc", 0, Bytes(b"")),
    row_bytes("largest span", &[0, R, 0, R, 0], b"abc", 0, Bytes(b"")),
    // 6: points.
    read("a tag only at an item's place", D, b"17 d d=1", Refused(23, 5)),
    read("known tag again", D, b"17 surveyed=20240310 surveyed=x", Refused(26, 21)),
    read("after a comma", V, b"x=any,", Refused(23, 6)),
    read("short at the end", V, b"x=any", Refused(25, 5)),
    read("25 at `=`", V, b"x=any=5", Refused(25, 5)),
    read("23 at `=`", U, b"x=any=5", Refused(23, 5)),
    read("25 before 26", V, b"x=any x=any", Refused(25, 6)),
    read("25 before 23", W, b"s={b=1", Refused(25, 6)),
    read("25 before 27", W, b"s={a=1 b=1}", Refused(25, 10)),
    read("no value is due", D, b",", Refused(23, 0)),
    read("a value is due", D, b"17 d=1,", Refused(23, 7)),
    read("`}` outside", D, b"}", Refused(23, 0)),
    read("end inside", W, b"s={", Refused(23, 3)),
    read("27 at `}`", W, b"s={}", Refused(27, 3)),
    read("a void item is no list", V, b"v,", Refused(23, 1)),
    read("an unknown word is no list", D, b"17 z,", Refused(23, 4)),
    read("int alternative, 07", U, b"x=07", Refused(24, 2)),
    read("int alternative, 10", U, b"x=10", Refused(30, 2)),
    read("int alternative, -5", U, b"x=-5", Refused(30, 2)),
    read("`-` is no int", U, b"x=-", Refused(28, 2)),
    read("no alternative", U, b"x=foo", Refused(28, 2)),
    read("string for a union", U, b"x=\"q\"", Refused(24, 2)),
    read("braces for a union", U, b"x={}", Refused(24, 2)),
    read("`=` due at the end", U, b"x=deep", Refused(23, 6)),
    read("`=` due at a comma", U, b"x=deep,7", Refused(23, 6)),
    read("comma too many", U, b"x=1,2,3", Refused(25, 5)),
    read("string for an item", D, b"17 \"x\"", Refused(23, 3)),
    read("string for a value", D, b"\"x\"", Refused(24, 0)),
    read("extension too short", OPTIONAL, b"a=1", Refused(25, 3)),
    read("plugin and extension absent", OPTIONAL, b"", Count(1)),
    read("28 for digits without an int", V, b"x=5", Refused(28, 2)),
    // 6: the first value of an untagged field, in each column.
    read("first value, word", D, b"x", Refused(24, 0)),
    read("first value, `{`", D, b"{", Refused(24, 0)),
    read("first value, `=`", D, b"=", Refused(23, 0)),
    read("first value, `=`, lo 0", E, b"=", Refused(23, 0)),
    read("first value, comma, lo 0", E, b",", Refused(23, 0)),
    read("first value, `}`, lo 0", E, b"}", Refused(23, 0)),
    read("first value, `}` in braces", NEEDED_INSIDE, b"s={}", Refused(27, 3)),
    read("first value, end in braces", NEEDED_INSIDE, b"s={", Refused(23, 3)),
    read("first value, `=` in braces", NEEDED_INSIDE, b"s={=", Refused(23, 3)),
    read("first value, comma in braces", NEEDED_INSIDE, b"s={,", Refused(23, 3)),
    read("first value, lo 0 closes", SPARE_INSIDE, b"s={}", Rows(&[[0, R, 0, 4, 0], [1, 0, 2, 4, 0]])),
    read("first value, lo 0, end in braces", SPARE_INSIDE, b"s={", Refused(23, 3)),
    read("then 27", SPARE_INSIDE, b"s={1}", Refused(27, 4)),
    // An item.
    read("item, string", NOTHING, b"\"x\"", Refused(23, 0)),
    read("item, `{`", NOTHING, b"{", Refused(23, 0)),
    read("item, `=`", NOTHING, b"=", Refused(23, 0)),
    read("item, comma", NOTHING, b",", Refused(23, 0)),
    read("item, `}`", NOTHING, b"}", Refused(23, 0)),
    read("item, end", NOTHING, b"", Rows(&[[0, R, 0, 0, 0]])),
    read("item, `}` in braces, 27", W, b"s={a=1}", Refused(27, 6)),
    read("item, `}` in braces closes", W, b"s={a=1 b=1,2}", Count(5)),
    read("item, end in braces", W, b"s={a=1 b=1,2", Refused(23, 12)),
    read("item, end in braces, not 27", W, b"s={b=1,2", Refused(23, 8)),
    read("item, `}` outside, not 27", D, b"17 }", Refused(23, 3)),
    read("item, void again", V, b"v v", Refused(26, 2)),
    // `=` after a known or chosen tag.
    read("`=` due, string", D, b"17 d \"x\"", Refused(23, 5)),
    read("`=` due, `{`", D, b"17 d {", Refused(23, 5)),
    read("`=` due, comma", D, b"17 d,", Refused(23, 4)),
    read("`=` due, `}`", D, b"17 d}", Refused(23, 4)),
    read("`=` due, end", D, b"17 d", Refused(23, 4)),
    read("`=` due in a choice, word", U, b"x=deep 7", Refused(23, 7)),
    read("`=` due in a choice, string", U, b"x=deep \"q\"", Refused(23, 7)),
    read("`=` due in a choice, `{`", U, b"x=deep {", Refused(23, 7)),
    read("`=` due in a choice, `}`", U, b"x=deep}", Refused(23, 6)),
    // A value after `=` or a comma.
    read("value due, `=`", D, b"17 d==", Refused(23, 5)),
    read("value due, comma", D, b"17 d=,", Refused(23, 5)),
    read("value due, `}`", D, b"17 d=}", Refused(23, 5)),
    read("value due, `{`", D, b"17 d={", Refused(24, 5)),
    read("value due after a comma, `}`", D, b"17 d=1,}", Refused(23, 7)),
    read("value due after a comma, word", D, b"17 d=1,x", Refused(24, 7)),
    read("value due in a choice, end", U, b"x=deep=", Refused(23, 7)),
    read("value due in a choice, `{`", U, b"x=deep={", Refused(24, 7)),
    read("value due in a choice, word", U, b"x=deep=foo", Refused(28, 7)),
    read("struct due, word", W, b"s=x", Refused(24, 2)),
    read("struct due, string", W, b"s=\"x\"", Refused(24, 2)),
    // After a value.
    read("short, word", V, b"x=any any", Refused(25, 6)),
    read("short, string", V, b"x=any \"q\"", Refused(25, 6)),
    read("short, `{`", V, b"x=any {", Refused(25, 6)),
    read("short, `}`", V, b"x=any}", Refused(25, 5)),
    read("full, comma", V, b"x=any,any,any,", Refused(25, 13)),
    read("enough, string", V, b"x=any,any \"q\"", Refused(23, 10)),
    read("enough, `=`", V, b"x=any,any=", Refused(23, 9)),
    read("enough, end", V, b"x=any,any", Refused(27, 9)),
    read("enough, void due", V, b"x=any,any v", Count(6)),
    read("untagged then comma", E, b"x,", Refused(25, 1)),
    // After an unknown word alone.
    read("unknown word, word", NOTHING, b"z z", Count(1)),
    read("unknown word, string", NOTHING, b"z \"x\"", Refused(23, 2)),
    read("unknown word, `{`", NOTHING, b"z {", Refused(23, 2)),
    read("unknown word, `=`", NOTHING, b"z=a", Count(1)),
    read("unknown word, `}`", NOTHING, b"z}", Refused(23, 1)),
    read("unknown word, end", NOTHING, b"z", Count(1)),
    // An unknown value.
    read("unknown value, string", NOTHING, b"z=\"x\"", Count(1)),
    read("unknown value, `{`", NOTHING, b"z={}", Count(1)),
    read("unknown value, `=`", NOTHING, b"z==", Refused(23, 2)),
    read("unknown value, comma", NOTHING, b"z=,", Refused(23, 2)),
    read("unknown value, `}`", NOTHING, b"z=}", Refused(23, 2)),
    read("unknown value, end", NOTHING, b"z=", Refused(23, 2)),
    // After an unknown value.
    read("after unknown, word", NOTHING, b"z=a b", Count(1)),
    read("after unknown, string", NOTHING, b"z=a \"x\"", Refused(23, 4)),
    read("after unknown, `{`", NOTHING, b"z=a {", Refused(23, 4)),
    read("after unknown, `=`", NOTHING, b"z=a=b=\"x\"", Count(1)),
    read("after unknown braces, `=`", NOTHING, b"z={}=b", Refused(23, 4)),
    read("after unknown, comma", NOTHING, b"z=a,{},\"x\",b=c", Count(1)),
    read("after unknown, comma and end", NOTHING, b"z=a,", Refused(23, 4)),
    read("after unknown, `}`", NOTHING, b"z=a}", Refused(23, 3)),
    // Inside unknown braces.
    read("unknown braces, any", NOTHING, b"z={a \"x\" {} = , }", Count(1)),
    read("unknown braces, end", NOTHING, b"z={{}", Refused(23, 5)),
    read("unknown braces hold known tags", D, b"17 z={d d=} surveyed=20240310 d=1", Count(4)),
    // Values of the simple types.
    read("true", SIMPLE, b"b=true", Count(2)),
    read("false", SIMPLE, b"b=false", Count(2)),
    read("True", SIMPLE, b"b=True", Refused(24, 2)),
    read("\"true\"", SIMPLE, b"b=\"true\"", Refused(24, 2)),
    read("least int", SIMPLE, b"i=-5", Count(2)),
    read("int too small", SIMPLE, b"i=-6", Refused(30, 2)),
    read("greatest int", SIMPLE, b"i=12", Count(2)),
    read("int too large", SIMPLE, b"i=13", Refused(30, 2)),
    read("0", SIMPLE, b"i=0", Count(2)),
    read("-0", SIMPLE, b"i=-0", Refused(24, 2)),
    read("-01", SIMPLE, b"i=-01", Refused(24, 2)),
    read("+1", SIMPLE, b"i=+1", Refused(24, 2)),
    read("2 to the 64th and 1", SIMPLE, b"i=18446744073709551617", Refused(30, 2)),
    read("empty string", SIMPLE, b"a=\"\"", Count(2)),
    read("longest string", SIMPLE, b"a=\"abc\"", Count(2)),
    read("string too long", SIMPLE, b"a=\"abcd\"", Refused(30, 2)),
    read("word for ascii", SIMPLE, b"a=abc", Refused(24, 2)),
    read("word too short", SIMPLE, b"u=a", Refused(30, 2)),
    read("shortest word", SIMPLE, b"u=a/", Count(2)),
    read("word too long", SIMPLE, b"u=abcd", Refused(30, 2)),
    read("string for unquoted-ascii", SIMPLE, b"u=\"ab\"", Refused(24, 2)),
    read("29 February 2024", SIMPLE, b"d=20240229", Count(2)),
    read("29 February 2023", SIMPLE, b"d=20230229", Refused(30, 2)),
    read("30 February 2000", SIMPLE, b"d=20000230", Refused(30, 2)),
    read("1 January 1", SIMPLE, b"d=00010101", Count(2)),
    read("year 0", SIMPLE, b"d=00000101", Refused(30, 2)),
    read("31 December 9999", SIMPLE, b"d=99991231", Count(2)),
    read("31 April", SIMPLE, b"d=20240431", Refused(30, 2)),
    read("month 0", SIMPLE, b"d=20240010", Refused(30, 2)),
    read("month 13", SIMPLE, b"d=20241310", Refused(30, 2)),
    read("day 0", SIMPLE, b"d=20240100", Refused(30, 2)),
    read("nine digits", SIMPLE, b"d=202401010", Refused(24, 2)),
    read("no digit", SIMPLE, b"d=2024010a", Refused(24, 2)),
    read("last second", SIMPLE, b"t=235959", Count(2)),
    read("hour 24", SIMPLE, b"t=240000", Refused(30, 2)),
    read("minute 60", SIMPLE, b"t=236000", Refused(30, 2)),
    read("second 60", SIMPLE, b"t=235960", Refused(30, 2)),
    read("five digits", SIMPLE, b"t=23595", Refused(24, 2)),
    // Request 5: finding a tag. No answer differs.
    read("one length and one last byte, other beginnings", ALIKE, b"bb=1 ab=2 b=3 xbb=4", Count(5)),
    read("an unknown tag with the length and last byte of a known one", ALIKE, b"cb=1 ab=2", Count(2)),
    read("unknown tags may repeat", ALIKE, b"ba=1 ba=2", Count(1)),
    read("a tag again, found from behind it", ALIKE, b"bb=1 bb=2", Refused(26, 5)),
    read("a tag of the body around", INNER, b"ab={ab=1 c=2} c=3", Count(4)),
    read("an untagged field is not found by its name", RENAMED, b"1 ab=2", Count(3)),
    read("the last field, then the first", ALIKE, b"xbb=1 ab=2", Count(3)),
    read("backwards", ALIKE, b"xbb=4 b=3 bb=2 ab=1", Count(5)),
    read("the first again, after the last", ALIKE, b"ab=1 xbb=2 ab=3", Refused(26, 11)),
    Case {
        point: "255 fields backwards",
        ask: Ask::Read(Made(|| flat_table(256)), Made(|| flat_message((1..256).rev())), ROOM),
        want: Count(256),
    },
    Case {
        point: "the first of 255 fields again, after all of them",
        ask: Ask::Read(Made(|| flat_table(256)), Made(|| flat_message((1..256).chain(1..2))), ROOM),
        want: Refused(26, 2_187),
    },
    table("the first of 20 tags again", || twenty_tags(b"k1"), Taken(false)),
    table("the last but one of 20 tags again", || twenty_tags(b"k19"), Taken(false)),
    table("20 tags, the last with the length and last byte of the first", || twenty_tags(b"j1"), Taken(true)),
    // Request 2: leap years.
    read("29 February 1900", D, b"17 surveyed=19000229 d=1", Refused(30, 12)),
    read("29 February 1700", D, b"17 surveyed=17000229 d=1", Refused(30, 12)),
    read("29 February 100", D, b"17 surveyed=01000229 d=1", Refused(30, 12)),
    read("29 February 2100", D, b"17 surveyed=21000229 d=1", Refused(30, 12)),
    read("29 February 2000", D, b"17 surveyed=20000229 d=1", Count(4)),
    read("29 February 1600", D, b"17 surveyed=16000229 d=1", Count(4)),
    read("29 February 400", D, b"17 surveyed=04000229 d=1", Count(4)),
    read("29 February 4", D, b"17 surveyed=00040229 d=1", Count(4)),
    read("28 February 1900", D, b"17 surveyed=19000228 d=1", Count(4)),
    read("D, 29 February 2023", D, b"17 surveyed=20230229 d=1", Refused(30, 12)),
    read("29 February of the year 0", D, b"17 surveyed=00000229 d=1", Refused(30, 12)),
    // Request 4: two numbers for a bad value.
    read("D, -0", D, b"-0", Refused(24, 0)),
    read("D, below the range", D, b"0", Refused(30, 0)),
    read("D, a number under 0", D, b"-5", Refused(30, 0)),
    read("many digits", D, b"99999999999999999999999", Refused(30, 0)),
    read("many digits, leading zero", D, b"00000000000000000000000", Refused(24, 0)),
    read("digits in a string", D, b"\"17\"", Refused(24, 0)),
    read("D, above the range", D, b"17 surveyed=20240310 d=30001", Refused(30, 23)),
    read("D, seven digits", D, b"17 surveyed=2024031 d=1", Refused(24, 12)),
    read("D, year 0", D, b"17 surveyed=00000101 d=1", Refused(30, 12)),
    read("D, month 99", D, b"17 surveyed=99999999 d=1", Refused(30, 12)),
    read("D, nine bytes", D, b"17 surveyed=20240310 d=1 boat=123456789", Refused(30, 30)),
    read("D, string for a word", D, b"17 surveyed=20240310 d=1 boat=\"x\"", Refused(24, 30)),
    read("T, hour 24", T, b"240000 a=\"x\"", Refused(30, 0)),
    read("T, five digits", T, b"24000 a=\"x\"", Refused(24, 0)),
    read("T, no byte in a string", T, b"000000 a=\"\"", Refused(30, 9)),
    read("T, a long word for ascii", T, b"000000 a=abcd", Refused(24, 9)),
    read("int of a chosen union", U, b"x=deep=-5", Refused(30, 7)),
    read("22 before 30", D, b"0 d=30001 (", Refused(22, 10)),
    read("25 to the left of 30", D, b"17,0", Refused(25, 2)),
    read("30 to the left of 25", D, b"0,1", Refused(30, 0)),
    // A long chain of choices: 16,384 bytes, `x=`, 3,276 times `deep=`, and `7` with a blank.
    made_message("long chain", U, long_chain, Count(3_279)),
];

fn nested(depth: usize) -> Vec<u8> {
    [b"struct s{".repeat(depth), b"};".repeat(depth)].concat()
}

fn nine_deep() -> Vec<u8> {
    nested(9)
}

fn eight_deep() -> Vec<u8> {
    nested(8)
}

/// A text followed by blanks up to a length.
fn padded(text: &[u8], length: usize) -> Vec<u8> {
    let mut text = text.to_vec();
    text.resize(length, b' ');
    text
}

fn too_long_text() -> Vec<u8> {
    padded(b"@", 65_536)
}

fn longest_text() -> Vec<u8> {
    padded(b"struct r {};", 65_535)
}

/// `struct r {int a0;…};` with so many fields.
fn many_fields(count: usize) -> Vec<u8> {
    let fields = (0..count).map(|number| format!("int a{number};"));
    format!("struct r {{{}}};", fields.collect::<String>()).into_bytes()
}

fn too_many_params() -> Vec<u8> {
    many_fields(256)
}

fn most_params() -> Vec<u8> {
    many_fields(255)
}

fn tag_of(length: usize) -> Vec<u8> {
    format!("struct r {{ int x as {}; }};", "a".repeat(length)).into_bytes()
}

fn tag_of_64() -> Vec<u8> {
    tag_of(64)
}

fn tag_of_63() -> Vec<u8> {
    tag_of(63)
}

fn long_chain() -> Vec<u8> {
    [b"x=".to_vec(), b"deep=".repeat(3_276), b"7 ".to_vec()].concat()
}

/// A record without a range, with counts 1 and 1.
fn plain(kind: u16, parent: Option<u16>, name: &[u8]) -> Record {
    Record {
        kind,
        parent,
        untagged: false,
        extension: false,
        plugin: false,
        lo_count: 1,
        hi_count: 1,
        lo: 0,
        hi: 0,
        target: None,
        name: name.to_vec(),
    }
}

fn untagged(kind: u16, parent: u16, name: &[u8]) -> Record {
    Record {
        untagged: true,
        ..plain(kind, Some(parent), name)
    }
}

/// A top struct `r` and these records.
fn under_root(records: &[Record]) -> Vec<u8> {
    record::encode(&[&[plain(STRUCT, None, b"r")], records].concat())
}

fn untagged_beside_tag() -> Vec<u8> {
    under_root(&[untagged(BOOL, 0, b"x"), plain(BOOL, Some(0), b"x")])
}

fn tag_int() -> Vec<u8> {
    field_with_name(b"int")
}

fn untagged_twice() -> Vec<u8> {
    under_root(&[untagged(BOOL, 0, b"x"), untagged(BOOL, 0, b"x")])
}

fn untagged_int() -> Vec<u8> {
    under_root(&[untagged(BOOL, 0, b"int")])
}

/// Structs in one another.
fn deep_table(depth: u16) -> Vec<u8> {
    let one = |number: u16| plain(STRUCT, number.checked_sub(1), b"s");
    record::encode(&(0..depth).map(one).collect::<Vec<_>>())
}

fn late_child() -> Vec<u8> {
    under_root(&[plain(BOOL, None, b"q"), plain(BOOL, Some(0), b"x")])
}

fn bool_with_range() -> Vec<u8> {
    let record = plain(BOOL, Some(0), b"x");
    under_root(&[Record { hi: 1, ..record }])
}

/// A bool field of the root, with this name.
fn field_with_name(name: &[u8]) -> Vec<u8> {
    under_root(&[plain(BOOL, Some(0), name)])
}

/// A bool field of the root whose hi count is `*`, with another number at an offset.
fn field_with_half(offset: usize, number: u16) -> Vec<u8> {
    let record = plain(BOOL, Some(0), b"x");
    let hi_count = 65_535;
    let mut table = under_root(&[Record { hi_count, ..record }]);
    table[25 + offset..27 + offset].copy_from_slice(&number.to_le_bytes());
    table
}

fn child_of_simple() -> Vec<u8> {
    under_root(&[plain(BOOL, Some(0), b"x"), plain(BOOL, Some(1), b"y")])
}

fn trailing_byte() -> Vec<u8> {
    [under_root(&[]), vec![0]].concat()
}

/// A root with bool fields, so many records in all.
fn flat_table(count: usize) -> Vec<u8> {
    let one = |number: usize| plain(BOOL, Some(0), format!("{number}").as_bytes());
    under_root(&(1..count).map(one).collect::<Vec<_>>())
}

/// The fields of a flat table with these numbers, in this order.
fn flat_message(numbers: impl Iterator<Item = usize>) -> Vec<u8> {
    let items = numbers.map(|number| format!("{number}=true "));
    items.collect::<String>().into_bytes()
}

/// A root with the fields k1 to k19 and one with this tag.
fn twenty_tags(last: &[u8]) -> Vec<u8> {
    let one = |number: usize| plain(BOOL, Some(0), format!("k{number}").as_bytes());
    let mut fields: Vec<_> = (1..20).map(one).collect();
    fields.push(plain(BOOL, Some(0), last));
    under_root(&fields)
}

fn outside_after_inside() -> Vec<u8> {
    let inside = Record {
        extension: true,
        ..plain(BOOL, Some(0), b"x")
    };
    under_root(&[inside, plain(BOOL, Some(0), b"y")])
}

fn digit_beside_untagged() -> Vec<u8> {
    let union = plain(UNION, Some(0), b"u");
    under_root(&[union, untagged(INT, 1, b"n"), plain(BOOL, Some(1), b"-07")])
}

fn void_top() -> Vec<u8> {
    under_root(&[plain(VOID, None, b"v")])
}

fn endless_table() -> Vec<u8> {
    under_root(&[plain(UNION, None, b"u")])
}

#[cfg(test)]
mod tests {
    use super::*;

    /// The line that the program gives for a frame.
    fn line_of(frame: &[u8]) -> String {
        let mut output = Vec::new();
        frames::answer(frame, &mut output).unwrap();
        String::from_utf8(output)
            .unwrap()
            .trim_end_matches('\n')
            .to_string()
    }

    #[test]
    fn every_case_gets_its_answer() {
        let mut differ = 0;
        for case in CASES {
            let line = line_of(&case.frame());
            if !case.agrees(&line) {
                let (beginning, end) = case.line();
                println!("{}: wanted {beginning}..{end}, got {line}", case.point);
                differ += 1;
            }
        }
        println!("{} cases", CASES.len());
        assert_eq!(differ, 0, "answers differ");
    }

    #[test]
    fn a_long_chain_needs_little_stack() {
        let case = CASES
            .iter()
            .find(|case| case.point == "long chain")
            .unwrap();
        assert_eq!(long_chain().len(), 16_384);
        let run = || line_of(&case.frame());
        std::thread::scope(|scope| {
            let small = std::thread::Builder::new().stack_size(128 * 1024);
            let line = small.spawn_scoped(scope, run).unwrap().join().unwrap();
            assert!(case.agrees(&line));
        });
    }

    #[test]
    fn d_has_the_bytes_that_the_paper_gives() {
        let table = Compiled(D).bytes();
        assert_eq!(table.len(), 139);
        let records = record::decode(&table).unwrap();
        assert_eq!(records.len(), 5);
        let third = [
            0x19, 0x00, 0x03, 0x00, 0x00, 0x00, 0x00, 0x00, 0x01, 0x00, 0xFF, 0xFF, 0x00, 0x00,
            0x00, 0x00, 0x30, 0x75, 0x00, 0x00, 0xFF, 0xFF, 0x01, 0x00, 0x64,
        ];
        assert_eq!(record::encode(&records[3..4]), third);
        assert_eq!(record::encode(&records), table);
    }
}
