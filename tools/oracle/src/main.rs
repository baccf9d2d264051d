//! The reference program: answers frames, makes frames, and checks itself by brute force.

use std::io::{self, BufReader, BufWriter};
use std::path::Path;
use std::process::ExitCode;

const USAGE: &str = "\
usage: oracle answer                 answer the frames of standard input, a line for each
       oracle cases                  write the worked cases as frames to standard output
       oracle generate SEED COUNT    write frames to standard output, the worked cases first
       oracle brute SEED COUNT       compare the reference with plain enumerations
       oracle bench [--plain]        time the proved and the plain reader, or the plain one alone
       oracle bench --inputs FOLDER  write what is timed: NUMBER.table, NUMBER.msg, and the names
       oracle --help                 this page
";

const NO_LIBRARY: &str = "\
oracle: this program has no proved reader linked. In the repository,
    tools/library
    cd tools/oracle && cargo run --release --offline --features bench -- bench
build and time both (tools/bench does so); LUMAS_LIB names another folder of liblumas.a.
`oracle bench --plain` times the plain reader alone.
";

fn main() -> ExitCode {
    let words: Vec<String> = std::env::args().skip(1).collect();
    let words: Vec<&str> = words.iter().map(String::as_str).collect();
    match words.as_slice() {
        ["answer"] => answer(),
        ["cases"] => {
            oracle::cases::run();
            ExitCode::SUCCESS
        }
        ["generate", seed, count] => with_numbers(seed, count, |seed, count| {
            oracle::generate::run(seed, count);
            true
        }),
        ["brute", seed, count] => with_numbers(seed, count, oracle::brute::run),
        ["bench"] => bench(false),
        ["bench", "--plain"] => bench(true),
        ["bench", "--inputs", folder] => done(oracle::bench::write_inputs(Path::new(folder))),
        ["--help" | "-h"] => {
            print!("{USAGE}");
            ExitCode::SUCCESS
        }
        _ => misused(),
    }
}

fn answer() -> ExitCode {
    let input = BufReader::with_capacity(1 << 16, io::stdin().lock());
    let output = BufWriter::with_capacity(1 << 16, io::stdout().lock());
    done(oracle::frames::answer(input, output))
}

/// The status of what was read or written.
fn done(result: io::Result<()>) -> ExitCode {
    match result {
        Ok(()) => ExitCode::SUCCESS,
        Err(error) => {
            eprintln!("oracle: {error}");
            ExitCode::FAILURE
        }
    }
}

/// Times the readers; without a library only the plain one can be timed.
fn bench(plain_only: bool) -> ExitCode {
    if !plain_only && !oracle::bench::has_library() {
        eprint!("{NO_LIBRARY}");
        return ExitCode::from(2);
    }
    if oracle::bench::run(plain_only) {
        ExitCode::SUCCESS
    } else {
        ExitCode::FAILURE
    }
}

/// Runs with a seed and a count, and says whether all went well.
fn with_numbers(seed: &str, count: &str, run: impl Fn(u64, u64) -> bool) -> ExitCode {
    match (seed.parse(), count.parse()) {
        (Ok(seed), Ok(count)) if run(seed, count) => ExitCode::SUCCESS,
        (Ok(_), Ok(_)) => ExitCode::FAILURE,
        _ => misused(),
    }
}

fn misused() -> ExitCode {
    eprint!("{USAGE}");
    ExitCode::from(2)
}
