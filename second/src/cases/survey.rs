//! Cases for channel numbers, the counts, the report and the spreadsheet's row.

use super::Case;
use crate::notation::Line;
use crate::random::Random;
use crate::survey::{report_of, row_of, summary_of, Counts, Summary, MOST_SLOTS};

pub fn khz(random: &Random, index: usize) -> Vec<Case> {
    // First all numbers of a byte and the like numbers one byte higher, then any.
    let number = if index < 520 {
        index as u16
    } else {
        random.next() as u16
    };
    vec![Line::new("khz").number(number).done()]
}

pub fn channel(random: &Random, index: usize) -> Vec<Case> {
    let kilohertz = 87_500 + 100 * (index / 4 % 260) as u32;
    let khz = match index % 4 {
        0 => kilohertz,
        1 => kilohertz + random.pick(&[1, 50, 99]),
        2 => random.pick(&[
            0,
            1,
            87_400,
            100,
            204,
            65_536 + kilohertz,
            u32::MAX,
            kilohertz - 1,
        ]),
        _ => random.next() as u32,
    };
    vec![Line::new("channel").number(khz).done()]
}

/// Parts that add up to the whole, some of them often nothing.
fn parts(random: &Random, whole: u32) -> [u32; 4] {
    let mut left = whole;
    let mut parts = [0; 4];
    for place in random.some_below(4, 4) {
        parts[place] = match random.below(4) {
            0 => 0,
            1 => left,
            _ => random.below(left as usize + 1) as u32,
        };
        left -= parts[place];
    }
    parts[random.below(4)] += left;
    parts
}

/// Counts that some log has.
pub fn good_counts(random: &Random) -> Counts {
    let greatest = random.pick(&[0, 1, 2, 10, 1000, MOST_SLOTS - 1, MOST_SLOTS]);
    let slots = match random.flag() {
        true => greatest,
        false => random.below(greatest as usize + 1) as u32,
    };
    counts_of_slots(random, slots)
}

/// Counts that some log of so many slots has.
pub fn counts_of_slots(random: &Random, slots: u32) -> Counts {
    let [read, noword, check, missing] = parts(random, slots);
    let clean = random.pick(&[0, read, random.below(read as usize + 1) as u32]);
    let corrected = read - clean;
    let between = corrected + random.below(7 * corrected as usize + 1) as u32;
    let bits = random.pick(&[corrected, 8 * corrected, between, between]);
    let channel = random.pick(&[1, 204, random.between(1, 204) as u8]);
    Counts {
        channel,
        slots,
        read,
        clean,
        bits,
        noword,
        check,
        missing,
    }
}

/// Too many slots, outcomes that add up only modulo 2^32, clean readings with corrected bits, a
/// corrected reading without any.
pub const IMPOSSIBLE: [Counts; 5] = [
    counts_of([1_000_000, 0, 0, 0, 0, 0, 1_000_000]),
    counts_of([5, 3_000_000_000, 3_000_000_000, 0, 1_294_967_301, 0, 0]),
    counts_of([0, 0, 0, 0, 0, 1 << 31, 1 << 31]),
    counts_of([2, 2, 2, 1, 0, 0, 0]),
    counts_of([1, 1, 0, 0, 0, 0, 0]),
];

pub const fn counts_of(columns: [u32; 7]) -> Counts {
    let [slots, read, clean, bits, noword, check, missing] = columns;
    Counts {
        channel: 1,
        slots,
        read,
        clean,
        bits,
        noword,
        check,
        missing,
    }
}

/// Every rule broken by one, then counts that break one by far.
fn broken_counts(random: &Random, round: usize) -> Counts {
    let mut counts = good_counts(random);
    match round % 16 {
        0 => counts.channel = random.pick(&[0, 205, 206, 255]),
        1 => counts.slots += 1,
        2 => counts.slots = counts.slots.wrapping_sub(1),
        3 => counts.read += 1,
        4 => counts.read = counts.read.wrapping_sub(1),
        5 => counts.clean = counts.read + 1,
        6 => counts.bits = 8 * (counts.read - counts.clean) + 1,
        7 => counts.bits = (counts.read - counts.clean).wrapping_sub(1),
        8 => counts.noword += 1,
        9 => counts.check += 1,
        10 => counts.missing += 1,
        11 => counts.noword = counts.noword.wrapping_sub(1),
        12 => counts.check = counts.check.wrapping_sub(1),
        13 => counts.missing = counts.missing.wrapping_sub(1),
        14 => counts = random.pick(&IMPOSSIBLE),
        _ => counts = any_counts(random),
    }
    counts
}

pub fn any_counts(random: &Random) -> Counts {
    let number = || random.next() as u32 >> (random.next() % 32);
    Counts {
        channel: number() as u8,
        slots: number(),
        read: number(),
        clean: number(),
        bits: number(),
        noword: number(),
        check: number(),
        missing: number(),
    }
}

fn counts(random: &Random, index: usize) -> Counts {
    match index % 3 {
        0 => broken_counts(random, index / 3),
        1 => smallest_counts(index / 3),
        _ => good_counts(random),
    }
}

/// Logs of no slot, one slot and two, in turn.
fn smallest_counts(round: usize) -> Counts {
    let mut counts = Counts {
        channel: 1 + (round % 204) as u8,
        ..Counts::default()
    };
    let outcomes = [round % 13, round / 13 % 13];
    for outcome in outcomes.iter().filter(|outcome| **outcome < 12) {
        counts.slots += 1;
        match outcome {
            9 => counts.noword += 1,
            10 => counts.check += 1,
            11 => counts.missing += 1,
            bits => {
                counts.read += 1;
                counts.bits += *bits as u32;
                counts.clean += u32::from(*bits == 0);
            }
        }
    }
    counts
}

pub fn summary(random: &Random, index: usize) -> Vec<Case> {
    vec![Line::new("summary").counts(&counts(random, index)).done()]
}

/// Just the length of the text, one short, one long, or something else.
fn output_for(random: &Random, text: Option<usize>) -> Vec<u8> {
    let length = text.unwrap_or(100);
    let other = random.between(0, 300);
    let length = random.pick(&[
        length,
        length,
        length - 1,
        length + 1,
        length + 40,
        0,
        other,
    ]);
    random.marked(length)
}

pub fn report(random: &Random, index: usize) -> Vec<Case> {
    let counts = counts(random, index);
    let output = output_for(random, report_of(&counts).ok().map(|text| text.len()));
    vec![Line::new("report").counts(&counts).bytes(&output).done()]
}

pub fn export(random: &Random, index: usize) -> Vec<Case> {
    let counts = counts(random, index);
    let right = summary_of(&counts).unwrap_or(Summary::none());
    let text = row_of(&counts, &right).ok().map(|text| text.len());
    let mut record = right;
    if index / 3 % 2 == 0 {
        alter(random, &mut record, index / 6);
    }
    let output = output_for(random, text);
    let line = Line::new("export")
        .counts(&counts)
        .number(record.mean_exists)
        .binary64_bits(record.mean)
        .number(record.share_exists)
        .binary64_bits(record.share);
    vec![line.bytes(&output).done()]
}

/// One flag or one bit of a number changed, no number, negative zero, or another number's bits.
fn alter(random: &Random, record: &mut Summary, round: usize) {
    let turned = |number: f64, bit: u32| f64::from_bits(number.to_bits() ^ 1 << bit);
    let low = random.below(4) as u32;
    let any = random.below(64) as u32;
    let no_number = random.pick(&[f64::NAN, -f64::NAN, f64::from_bits(0x7FF0_0000_0000_0001)]);
    let other = random.pick(&[
        f64::INFINITY,
        f64::NEG_INFINITY,
        1.0,
        8.0,
        f64::MIN_POSITIVE,
        5e-324,
    ]);
    match round % 14 {
        0 => record.mean_exists ^= true,
        1 => record.share_exists ^= true,
        2 => record.mean = turned(record.mean, low),
        3 => record.share = turned(record.share, low),
        4 => record.mean = turned(record.mean, any),
        5 => record.share = turned(record.share, any),
        6 => record.mean = no_number,
        7 => record.share = no_number,
        8 => record.mean = turned(record.mean, 63),
        9 => record.share = turned(record.share, 63),
        10 => record.mean = other,
        11 => record.share = other,
        12 => std::mem::swap(&mut record.mean, &mut record.share),
        _ => (record.mean_exists, record.share_exists) = (false, false),
    }
}
