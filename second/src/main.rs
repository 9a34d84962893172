//! The second program: the probe's notation answered another way.
//!
//! Written from documents 01 and 02 and docs/PROBE.md alone, without a look at the proved program,
//! so that a fault of one is not a fault of the other. `second/README.md` says what is where.

mod answers;
mod block;
mod cases;
mod channel;
mod corrector;
mod decimal;
mod field;
mod frame;
mod group;
mod message;
mod notation;
mod probe;
mod random;
mod reader;
mod rows;
mod search;
mod selftest;
mod survey;

use std::io::{self, BufRead, BufReader, BufWriter, Write};
use std::process::ExitCode;

const USAGE: &str = "usage: second answer < cases > answers
       second cases COMMAND COUNT SEED > cases
       second selftest";

fn main() -> ExitCode {
    let arguments: Vec<String> = std::env::args().skip(1).collect();
    let words: Vec<&str> = arguments.iter().map(String::as_str).collect();
    let result = match words[..] {
        ["answer"] => answer_all(),
        ["cases", word, count, seed] => match (count.parse(), seed.parse()) {
            (Ok(count), Ok(seed)) if !cases::makers(word).is_empty() => {
                write_cases(word, count, seed)
            }
            _ => return refuse(),
        },
        ["selftest"] => {
            return if selftest::run() {
                ExitCode::SUCCESS
            } else {
                ExitCode::FAILURE
            }
        }
        _ => return refuse(),
    };
    match result {
        Ok(()) => ExitCode::SUCCESS,
        Err(error) => {
            eprintln!("second: {error}");
            ExitCode::FAILURE
        }
    }
}

fn refuse() -> ExitCode {
    eprintln!("{USAGE}");
    ExitCode::from(2)
}

fn write_cases(word: &str, count: usize, seed: u64) -> io::Result<()> {
    cases::write(word, count, seed, &mut BufWriter::new(io::stdout().lock()))
}

/// One answer a line. A last line without a line feed is a case too.
fn answer_all() -> io::Result<()> {
    let mut input = BufReader::with_capacity(1 << 16, io::stdin().lock());
    let mut output = BufWriter::with_capacity(1 << 16, io::stdout().lock());
    let mut line = Vec::new();
    while input.read_until(b'\n', &mut line)? > 0 {
        let case = line.strip_suffix(b"\n").unwrap_or(&line);
        output.write_all(&probe::answer(case))?;
        output.write_all(b"\n")?;
        line.clear();
    }
    output.flush()
}
