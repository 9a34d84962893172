//! The log, its counts and the written numbers.

use super::{expect, expect_equal, Outcome};
use crate::cases::good_counts;
use crate::decimal::exact;
use crate::random::Random;
use crate::survey::*;
use std::collections::HashSet;

const OUTCOMES: &str = "012345678nc-";

/// The counts of a log, reckoned from its outcomes.
fn counts_of(channel: u8, outcomes: &str) -> Counts {
    let number = |wanted: fn(char) -> bool| outcomes.chars().filter(|c| wanted(*c)).count() as u32;
    Counts {
        channel,
        slots: outcomes.len() as u32,
        read: number(|outcome| outcome.is_ascii_digit()),
        clean: number(|outcome| outcome == '0'),
        bits: outcomes
            .chars()
            .filter_map(|outcome| outcome.to_digit(10))
            .sum(),
        noword: number(|outcome| outcome == 'n'),
        check: number(|outcome| outcome == 'c'),
        missing: number(|outcome| outcome == '-'),
    }
}

pub fn log_of(channel: u8, outcomes: &str) -> String {
    let slots = outcomes.chars().enumerate();
    let lines: String = slots
        .map(|(i, outcome)| format!("{}\t{outcome}\n", i + 1))
        .collect();
    format!("channel\t{channel}\n{lines}")
}

/// Good logs, and the same with a line spoilt: the counts are then those of the lines before.
pub fn logs() -> Outcome {
    let random = Random::new(4, "selftest");
    for _ in 0..500 {
        let channel = random.between(1, 204) as u8;
        let length = random.between(0, 1100);
        let outcomes: String = (0..length)
            .map(|_| char::from(random.pick(OUTCOMES.as_bytes())))
            .collect();
        let log = log_of(channel, &outcomes);
        expect_equal(
            read_log(log.as_bytes()),
            (counts_of(channel, &outcomes), None),
            "log",
        )?;
        let before = random.between(0, length);
        let spoilt = log_of(channel, &outcomes[..before]) + "x\n" + &log;
        let wanted = (counts_of(channel, &outcomes[..before]), Some(before + 2));
        expect_equal(read_log(spoilt.as_bytes()), wanted, "spoilt log")?;
    }
    // The longest log, and one slot more.
    let longest = "8".repeat(MOST_SLOTS as usize);
    let mut log = log_of(204, &longest);
    expect_equal(
        read_log(log.as_bytes()),
        (counts_of(204, &longest), None),
        "longest log",
    )?;
    log += "1000000\t0\n";
    let wanted = (counts_of(204, &longest), Some(1_000_001));
    expect_equal(read_log(log.as_bytes()), wanted, "one slot too many")
}

pub fn columns(counts: &Counts) -> [u32; 7] {
    let Counts {
        slots,
        read,
        clean,
        bits,
        noword,
        check,
        missing,
        ..
    } = *counts;
    [slots, read, clean, bits, noword, check, missing]
}

/// The counts of every log of at most three slots.
pub fn counts_of_small_logs() -> HashSet<[u32; 7]> {
    let longer = |log: &String| {
        OUTCOMES
            .chars()
            .map(|c| format!("{log}{c}"))
            .collect::<Vec<_>>()
    };
    let mut logs = vec![String::new()];
    let mut found = HashSet::new();
    for _ in 0..4 {
        found.extend(logs.iter().map(|outcomes| columns(&counts_of(1, outcomes))));
        logs = logs.iter().flat_map(longer).collect();
    }
    found
}

/// Those rows of small counts are possible that such a log has.
pub fn small_counts() -> Outcome {
    let found = counts_of_small_logs();
    for counts in all_small_counts() {
        let wanted = found.contains(&columns(&counts));
        expect(counts.come_from_a_log() == wanted, || format!("{counts:?}"))?;
    }
    Ok(())
}

/// Every row of numbers as small as those of a log of at most three slots, and some greater.
pub fn all_small_counts() -> impl Iterator<Item = Counts> {
    let sizes = [4, 5, 5, 27, 5, 5, 5];
    (0..sizes.iter().product()).map(move |number| {
        let mut rest = number;
        let [slots, read, clean, bits, noword, check, missing] = sizes.map(|size: u32| {
            let column = rest % size;
            rest /= size;
            column
        });
        Counts {
            channel: 1,
            slots,
            read,
            clean,
            bits,
            noword,
            check,
            missing,
        }
    })
}

/// Read back by Rust it is the same binary64, and Rust's own rounding to 200 places, which is
/// exact, gives the same digits.
fn expect_exact(number: f64) -> Outcome {
    let text = exact(number);
    let read: f64 = text.parse().map_err(|_| format!("{text} is no number"))?;
    expect_equal(read.to_bits(), number.to_bits(), &text)?;
    let long = format!("{number:.200}");
    let trimmed = long.trim_end_matches('0').trim_end_matches('.');
    expect_equal(text.as_str(), trimmed, "digits")
}

pub fn decimals() -> Outcome {
    let random = Random::new(5, "selftest");
    for (part, whole) in [
        (0, 1),
        (1, 999_999),
        (999_998, 999_999),
        (7_999_992, 999_999),
        (1, 3),
    ] {
        expect_exact(f64::from(part) / f64::from(whole))?;
    }
    for _ in 0..20_000 {
        let summary = summary_of(&good_counts(&random)).map_err(|n| format!("answer {n}"))?;
        expect_exact(summary.mean)?;
        expect_exact(summary.share)?;
    }
    Ok(())
}

pub fn channels() -> Outcome {
    let mut seen = 0;
    for number in 0..=u16::MAX {
        let wanted = (1..=204)
            .contains(&number)
            .then(|| 87_500 + 100 * u32::from(number));
        expect_equal(khz_of(number), wanted, "kilohertz")?;
    }
    for khz in 0..200_000 {
        if let Some(channel) = channel_of(khz) {
            seen += 1;
            expect_equal(khz_of(u16::from(channel)), Some(khz), "there and back")?;
        }
    }
    expect_equal(seen, 204, "channels")
}
