//! Cases from a seed: valid, damaged and adversarial ones, wrong lengths and broken states.

mod bad;
mod blocks;
mod channel;
pub mod damage;
mod frames;
mod groups;
pub mod logs;
pub mod patterns;
pub mod pieces;
mod repeats;
mod survey;
mod writers;

pub use survey::good_counts;
pub use writers::fill;

use crate::random::Random;
use std::io::{self, Write};

/// A line without its line feed.
pub type Case = Vec<u8>;

/// Makes the cases with a number: one, or a script of several. Kinds follow each other by the
/// number, so that a few dozen cases hold one of each.
type Maker = fn(&Random, usize) -> Vec<Case>;

pub const MAKERS: [(&str, Maker); 19] = [
    ("correct", blocks::correct),
    ("read-block", blocks::read_block),
    ("write-block", blocks::write_block),
    ("frame", frames::frame),
    ("new-channel", channel::new_channel),
    ("step", channel::step),
    ("write-message", writers::write_message_cases),
    ("new-group", groups::new_group),
    ("join", groups::join),
    ("write-group", writers::write_group_cases),
    ("khz", survey::khz),
    ("channel", survey::channel),
    ("log", logs::log),
    ("start", pieces::start),
    ("feed", pieces::feed),
    ("end", pieces::end),
    ("summary", survey::summary),
    ("report", survey::report),
    ("export", survey::export),
];

/// Short scripts come several at a time, or the long ones would leave no room for them.
fn several<T>(count: usize, round: usize, script: impl Fn(usize) -> Vec<T>) -> Vec<T> {
    (0..count).flat_map(|i| script(count * round + i)).collect()
}

const BAD: (&str, Maker) = ("bad", bad::bad);

/// The makers a word of the command line means: one, all, or none where it means nothing.
pub fn makers(word: &str) -> Vec<(&'static str, Maker)> {
    MAKERS
        .iter()
        .chain([&BAD])
        .filter(|maker| word == "all" || word == maker.0)
        .copied()
        .collect()
}

/// A frame has 272 blocks: where all commands are asked for, it has one line for so many of the
/// others.
const LINES_TO_A_FRAME: usize = 20;

/// How many lines a command has among all.
pub fn among_all(name: &str, count: usize) -> usize {
    match name {
        "frame" => count.div_ceil(LINES_TO_A_FRAME),
        _ => count,
    }
}

/// So many lines of the command; without arguments there is only one case.
pub fn make(
    maker: &(&str, Maker),
    count: usize,
    seed: u64,
    sink: &mut dyn FnMut(&[u8]) -> io::Result<()>,
) -> io::Result<()> {
    let seeded = Random::new(seed, maker.0);
    let mut left = match maker.0 {
        "new-channel" | "start" => count.min(1),
        _ => count,
    };
    let mut index = 0;
    while left > 0 {
        let random = seeded.row_of(maker.0, index);
        let cases = maker.1(&random, index);
        for case in cases.iter().take(left) {
            sink(&in_some_digits(&random, case))?;
        }
        left -= cases.len().min(left);
        index += 1;
    }
    Ok(())
}

/// The case, now and then with hexadecimal digits in upper case, which are read too.
fn in_some_digits(random: &Random, case: &[u8]) -> Case {
    if !random.one_in(16) {
        return case.to_vec();
    }
    let mut fields: Vec<Case> = case
        .split(|byte| *byte == b'\t')
        .map(<[u8]>::to_vec)
        .collect();
    let digits = fields
        .iter_mut()
        .skip(1)
        .filter(|field| field.iter().all(u8::is_ascii_hexdigit));
    digits.for_each(|field| field.make_ascii_uppercase());
    fields.join(&b'\t')
}

pub fn write(word: &str, count: usize, seed: u64, output: &mut impl Write) -> io::Result<()> {
    for maker in makers(word) {
        let lines = match word {
            "all" => among_all(maker.0, count),
            _ => count,
        };
        make(&maker, lines, seed, &mut |case| {
            output.write_all(case)?;
            output.write_all(b"\n")
        })?;
    }
    output.flush()
}
