//! Times the readers on the same messages: the plain one, in one pass and in two, and one from a
//! static library.

use crate::definition;
use crate::generate::Rng;
use crate::plain;
use crate::ROW_WIDTH;
use std::hint::black_box;
use std::path::Path;
use std::time::{Duration, Instant};
use std::{fmt, fs, io};

/// The row count, or a number and a place.
type Answer = Result<usize, (u32, usize)>;

type Reader = fn(&[u8], &[u8], &mut [u32]) -> Answer;

/// Rounds of each reader in turn, about 0.3 s for each; the best counts. They are short, so that
/// some fall between other work of the machine.
const ROUNDS: u32 = 150;
const ROUND: Duration = Duration::from_millis(2);
/// The most rows that a message can have.
const MOST_ROWS: usize = 16_386;
/// What a lent number holds before.
const LENT: u32 = 0xA5A5_A5A5;

/// The library's reader, as C sees it.
#[cfg(feature = "bench")]
#[allow(unsafe_code)]
mod library {
    use super::Answer;

    extern "C" {
        /// A slice is a pointer and a length. Gives the number, 0 for success; the value is the
        /// count, or the place of a refusal.
        fn lumas_read(
            table: *const u8,
            table_length: usize,
            message: *const u8,
            message_length: usize,
            rows: *mut u32,
            rows_length: usize,
            value: *mut usize,
        ) -> u32;
    }

    pub fn read(table: &[u8], message: &[u8], rows: &mut [u32]) -> Answer {
        let mut value = 0;
        // Sound: each pointer and length are those of a slice that lives through the call, and
        // only the rows and the value are lent for writing.
        let number = unsafe {
            lumas_read(
                table.as_ptr(),
                table.len(),
                message.as_ptr(),
                message.len(),
                rows.as_mut_ptr(),
                rows.len(),
                &mut value,
            )
        };
        match number {
            0 => Ok(value),
            _ => Err((number, value)),
        }
    }
}

/// The library's reader, where one is linked.
#[cfg(feature = "bench")]
const PROVED: Option<Reader> = Some(library::read);
#[cfg(not(feature = "bench"))]
const PROVED: Option<Reader> = None;

/// Whether a library's reader is linked.
pub fn has_library() -> bool {
    PROVED.is_some()
}

/// A table and messages that are read in turn, with enough numbers lent. Of one message alone the
/// processor learns every branch by heart.
struct Input {
    name: &'static str,
    table: Vec<u8>,
    messages: Vec<Vec<u8>>,
}

impl Input {
    fn new(name: &'static str, definition: &[u8], message: Vec<u8>) -> Input {
        Input::of_many(name, definition, vec![message])
    }

    fn of_many(name: &'static str, definition: &[u8], messages: Vec<Vec<u8>>) -> Input {
        let table = definition::compile(definition, 65_536).expect("a lawful definition");
        let most = messages.iter().map(Vec::len).max();
        assert!(
            most.is_some_and(|most| most <= 16_384),
            "{name}: no message, or too long"
        );
        Input {
            name,
            table,
            messages,
        }
    }

    /// The bytes of a message, on average.
    fn bytes(&self) -> usize {
        self.messages.iter().map(Vec::len).sum::<usize>() / self.messages.len()
    }

    /// A reader's answers and all lent numbers after each.
    fn answers(&self, reader: Reader) -> Vec<(Answer, Vec<u32>)> {
        let answer = |message: &Vec<u8>| {
            let mut rows = vec![LENT; ROW_WIDTH * MOST_ROWS + ROW_WIDTH - 1];
            let answer = reader(&self.table, message, &mut rows);
            (answer, rows)
        };
        self.messages.iter().map(answer).collect()
    }

    /// How long it takes to read all messages so many times.
    fn time(&self, reader: Reader, turns: u32, rows: &mut [u32]) -> Duration {
        let start = Instant::now();
        for _ in 0..turns {
            for message in &self.messages {
                let (table, message) = (black_box(&self.table), black_box(message));
                black_box(reader(table, message, black_box(&mut *rows)).is_ok());
            }
        }
        start.elapsed()
    }

    /// The turns that fill a round, found by doubling.
    fn turns(&self, reader: Reader, rows: &mut [u32]) -> u32 {
        let mut turns = 1;
        loop {
            let time = self.time(reader, turns, rows);
            if time >= ROUND / 8 {
                let scale = ROUND.as_secs_f64() / time.as_secs_f64();
                return (f64::from(turns) * scale).ceil() as u32;
            }
            turns *= 2;
        }
    }

    /// Each reader's best time for one message, in nanoseconds.
    fn best(&self, readers: &[Reader]) -> Vec<f64> {
        let mut rows = vec![LENT; ROW_WIDTH * MOST_ROWS];
        let turns = |&reader: &Reader| (reader, self.turns(reader, &mut rows));
        let timed: Vec<(Reader, u32)> = readers.iter().map(turns).collect();
        let mut best = vec![f64::INFINITY; readers.len()];
        for _ in 0..ROUNDS {
            for (best, &(reader, turns)) in best.iter_mut().zip(&timed) {
                let time = self.time(reader, turns, &mut rows);
                let readings = f64::from(turns) * self.messages.len() as f64;
                *best = best.min(time.as_secs_f64() * 1e9 / readings);
            }
        }
        best
    }
}

const TILE: &[u8] = b"struct tile { int<1..99999> id as ?; date surveyed; \
    int<0..30000> depth[1..*] as d; [ unquoted-ascii<1..8> boat; ] };";
const DEEP: &[u8] = b"struct r { r x[0..1]; };";
const CHAIN: &[u8] = b"struct r { u a; }; union u { int<0..9> n as ?; u a; };";

/// How many tiles differ.
const TILES: u64 = 64;

/// A tile with so many soundings, of one to five digits.
fn tile(soundings: usize) -> Vec<u8> {
    seeded_tile(1, soundings)
}

fn seeded_tile(seed: u64, soundings: usize) -> Vec<u8> {
    let mut rng = Rng::new(seed);
    let mut message = b"17 surveyed=20240310 d=".to_vec();
    for number in 0..soundings {
        let (low, high) = [
            (0, 9),
            (10, 99),
            (100, 999),
            (1_000, 9_999),
            (10_000, 30_000),
        ][rng.below(5)];
        let comma = if number > 0 { "," } else { "" };
        let depth = low + rng.below(high - low + 1);
        message.extend(format!("{comma}{depth}").bytes());
    }
    message
}

/// Tiles that differ, each with so many soundings.
fn tiles(soundings: usize) -> Vec<Vec<u8>> {
    (1..=TILES)
        .map(|seed| seeded_tile(seed, soundings))
        .collect()
}

/// A tile with a sounding that is too deep at its end.
fn faulty_tile(soundings: usize) -> Vec<u8> {
    [tile(soundings - 1), b",30001".to_vec()].concat()
}

/// 255 fields of the root.
fn wide() -> Vec<u8> {
    let fields = (0..255).map(|number| format!("int field{number};"));
    format!("struct r {{ {} }};", fields.collect::<String>()).into_bytes()
}

/// All fields, in order or mixed.
fn wide_message(mixed: bool) -> Vec<u8> {
    let mut rng = Rng::new(2);
    let mut fields: Vec<usize> = (0..255).collect();
    if mixed {
        rng.shuffle(&mut fields);
    }
    let item = |number: &usize| format!("field{number}={} ", number * number);
    fields.iter().map(item).collect::<String>().into_bytes()
}

/// Braces sixteen deep.
fn deep_message() -> Vec<u8> {
    [b"x={".repeat(16), b"}".repeat(16)].concat()
}

/// 16,384 bytes of choices.
fn chain_message() -> Vec<u8> {
    [b"a=".repeat(8_191), b"7 ".to_vec()].concat()
}

fn inputs() -> Vec<Input> {
    vec![
        Input::new("tile, 2 soundings", TILE, tile(2)),
        Input::new("tile, 100 soundings", TILE, tile(100)),
        Input::new("tile, 2,500 soundings", TILE, tile(2_500)),
        Input::of_many("64 such tiles in turn", TILE, tiles(2_500)),
        Input::new("255 fields in order", &wide(), wide_message(false)),
        Input::new("255 fields mixed", &wide(), wide_message(true)),
        Input::new("sixteen braces deep", DEEP, deep_message()),
        Input::new("long chain of choices", CHAIN, chain_message()),
        Input::new("refused near the end", TILE, faulty_tile(2_500)),
    ]
}

/// A time for one message, and megabytes a second.
struct Speed {
    nanos: f64,
    bytes: usize,
}

impl fmt::Display for Speed {
    fn fmt(&self, out: &mut fmt::Formatter) -> fmt::Result {
        let rate = self.bytes as f64 * 1e3 / self.nanos;
        if self.nanos < 10_000.0 {
            write!(out, "{:>9.0} ns {rate:>8.1} MB/s", self.nanos)
        } else {
            write!(out, "{:>9.2} µs {rate:>8.1} MB/s", self.nanos / 1e3)
        }
    }
}

fn shown(answer: Answer) -> String {
    match answer {
        Ok(count) => format!("{count} rows"),
        Err((number, place)) => format!("{number} at {place}"),
    }
}

/// The readers to time, by name; the library's is the first of three.
fn readers(plain_only: bool) -> Vec<(&'static str, Reader)> {
    let proved = PROVED.filter(|_| !plain_only);
    let proved = proved.map(|proved| ("proved", proved));
    let plain = [
        ("plain", plain::read as Reader),
        ("twice", plain::read_twice),
    ];
    proved.into_iter().chain(plain).collect()
}

/// The answer to an input's first message, none where the readers' answers differ, which it prints.
fn common_answer(input: &Input, readers: &[(&str, Reader)]) -> Option<Answer> {
    let answers = input.answers(plain::read);
    let mut equal = true;
    for &(name, reader) in readers {
        for ((answer, rows), (other, other_rows)) in answers.iter().zip(input.answers(reader)) {
            if (other, &other_rows) == (*answer, rows) {
                continue;
            }
            let how = if other == *answer {
                "rows differ"
            } else {
                "differ"
            };
            let (other, answer) = (shown(other), shown(*answer));
            println!("{}: {name} {other}, plain {answer}: {how}", input.name);
            equal = false;
        }
    }
    equal.then(|| answers[0].0)
}

fn print_heads(library: bool) {
    print!(
        "{:<22} {:>6} {:>6}  {:<12}",
        "input", "table", "bytes", "answer"
    );
    let (plain, twice) = ("plain", "twice");
    if library {
        print!(" {:<26} {plain:<26} proved/plain", "proved");
        println!(" {twice:<26} twice/plain proved/twice");
    } else {
        println!(" {plain:<26} {twice:<26} twice/plain");
    }
}

/// The times of one input, as the heads say.
fn print_times(best: &[f64], bytes: usize) {
    let speed = |nanos| Speed { nanos, bytes };
    match *best {
        [proved, plain, twice] => {
            print!(" {} {}", speed(proved), speed(plain));
            print!(" {:>12.2} {}", proved / plain, speed(twice));
            println!(" {:>11.2} {:>12.2}", twice / plain, proved / twice);
        }
        [plain, twice] => {
            println!(" {} {} {:>11.2}", speed(plain), speed(twice), twice / plain);
        }
        _ => println!(),
    }
}

/// Times each input and prints a line for it; whether all answers were equal.
pub fn run(plain_only: bool) -> bool {
    let readers = readers(plain_only);
    print_heads(readers.len() == 3);
    let timed: Vec<Reader> = readers.iter().map(|&(_, reader)| reader).collect();
    let mut equal = true;
    for input in inputs() {
        let Some(answer) = common_answer(&input, &readers) else {
            equal = false;
            continue;
        };
        let (table, bytes) = (input.table.len(), input.bytes());
        let answer = shown(answer);
        print!("{:<22} {table:>6} {bytes:>6}  {answer:<12}", input.name);
        print_times(&input.best(&timed), bytes);
    }
    equal
}

/// Writes the table and the message of each input that has one message to a folder, as NUMBER.table
/// and NUMBER.msg; and the names, a line each, as `names`.
pub fn write_inputs(folder: &Path) -> io::Result<()> {
    let mut names = String::new();
    let single = |input: &Input| input.messages.len() == 1;
    for (number, input) in inputs().into_iter().filter(single).enumerate() {
        fs::write(folder.join(format!("{number}.table")), &input.table)?;
        fs::write(folder.join(format!("{number}.msg")), &input.messages[0])?;
        names.push_str(&format!("{}\n", input.name));
    }
    fs::write(folder.join("names"), names)
}

#[cfg(test)]
mod tests {
    use super::*;
    use crate::message;

    /// The reference program's answer to a message and all lent numbers after.
    fn reference(table: &[u8], message: &[u8]) -> (Answer, Vec<u32>) {
        let mut rows = vec![LENT; ROW_WIDTH * MOST_ROWS + ROW_WIDTH - 1];
        let answer = message::read_into(table, message, &mut rows);
        (
            answer.map_err(|refusal| (refusal.number, refusal.place)),
            rows,
        )
    }

    /// The inputs mean what their names say.
    #[test]
    fn inputs_get_the_reference_answers() {
        let mut answers = Vec::new();
        for input in inputs() {
            let reference = |message: &Vec<u8>| reference(&input.table, message);
            let wanted: Vec<_> = input.messages.iter().map(reference).collect();
            assert_eq!(input.answers(plain::read), wanted, "{}", input.name);
            assert_eq!(input.answers(plain::read_twice), wanted, "{}", input.name);
            let number = wanted[0].0.map_err(|(number, _)| number);
            assert!(wanted
                .iter()
                .all(|(answer, _)| answer.map_err(|(number, _)| number) == number));
            answers.push(number);
        }
        let wanted = [5, 103, 2_503, 2_503, 256, 256, 17, 8_193];
        assert_eq!(answers[..8], wanted.map(Ok));
        assert_eq!(answers[8..], [Err(30)]);
    }

    /// Of the tiles that are read in turn no two are the same.
    #[test]
    fn tiles_differ() {
        let tiles: std::collections::BTreeSet<_> = tiles(2_500).into_iter().collect();
        assert_eq!(tiles.len() as u64, TILES);
    }
}
