//! The log in pieces against the whole log, and the readers it leads to against all there are.

use super::survey::{all_small_counts, columns, counts_of_small_logs, log_of};
use super::{expect, expect_equal, Outcome};
use crate::answers::{BAD_LINE, OUTSIDE_RULE};
use crate::cases::{good_counts, logs::logs, pieces::column};
use crate::random::Random;
use crate::reader::{NotTaken, Phase, Reader, Tally, MOST_HELD};
use crate::survey::{read_log, Counts, LONGEST_LINE, MOST_SLOTS};
use std::collections::HashSet;

/// The byte at which a bad line is judged, found in the text: its line feed, or its 64th byte if
/// that comes first. None where the line breaks off before.
fn judged_at(log: &[u8], bad_line: usize) -> Option<usize> {
    let lines = log.split_inclusive(|byte| *byte == b'\n');
    let start: usize = lines.take(bad_line - 1).map(<[u8]>::len).sum();
    let line_feed = log[start..].iter().position(|byte| *byte == b'\n');
    let last = (log.len() >= start + LONGEST_LINE).then_some(LONGEST_LINE - 1);
    let within = [line_feed, last].into_iter().flatten().min();
    within.map(|place| start + place)
}

/// The reader after these bytes, none of which is judged bad: the whole lines are counted the other
/// way, and the rest is held.
fn open_after(log: &[u8]) -> Reader {
    let line_feed = log.iter().rposition(|byte| *byte == b'\n');
    let (lines, held) = log.split_at(line_feed.map_or(0, |place| place + 1));
    Reader::within_line(read_log(lines).0, held)
}

/// Each piece, the end and the calls after it against what the whole log tells. The cuts rise.
fn expect_as_whole(log: &[u8], cuts: &[usize]) -> Outcome {
    let (counts, bad_line) = read_log(log);
    let judged = bad_line.and_then(|line| judged_at(log, line));
    let refusal: Option<NotTaken> = bad_line.map(|line| (BAD_LINE, line as u32));
    let refused = Reader::between_lines(Phase::Refused, counts.clone());
    let mut reader = Reader::start();
    let mut start = 0;
    for end in cuts.iter().copied().chain([log.len()]) {
        let told = reader.feed(&log[start..end]).err();
        let (wanted, left) = match judged {
            Some(place) if place < end => (refusal, refused.clone()),
            _ => (None, open_after(&log[..end])),
        };
        expect_equal((told, &reader), (wanted, &left), "piece")?;
        start = end;
    }
    expect_equal(reader.end().err(), refusal, "end")?;
    let (left, again) = match refusal {
        Some(refusal) => (refused, refusal),
        None => {
            let ended = Reader::between_lines(Phase::Ended, counts);
            (ended, (OUTSIDE_RULE, 0))
        }
    };
    expect_equal(&reader, &left, "reader after the end")?;
    expect_equal(
        reader.feed(b"").err(),
        Some(again),
        "no bytes after the end",
    )?;
    expect_equal(
        reader.feed(b"1\t0\n").err(),
        Some(again),
        "piece after the end",
    )?;
    expect_equal(reader.end().err(), Some(again), "end after the end")?;
    expect_equal(&reader, &left, "reader after all")
}

/// The generator's logs, uncut and cut a few times; short ones also into bytes.
pub fn cuttings() -> Outcome {
    let random = Random::new(7, "selftest");
    for index in 0..600 {
        for log in logs(&random, index) {
            expect_as_whole(&log, &[])?;
            for _ in 0..3 {
                let count = random.below(8);
                let mut cuts: Vec<usize> =
                    (0..count).map(|_| random.between(0, log.len())).collect();
                cuts.sort_unstable();
                expect_as_whole(&log, &cuts)?;
            }
            if log.len() < 300 {
                expect_as_whole(&log, &(0..log.len()).collect::<Vec<_>>())?;
            }
        }
    }
    Ok(())
}

/// Every way to cut a log into three, pieces of no bytes among them.
fn expect_as_whole_in_three(log: &[u8]) -> Outcome {
    for second in 0..=log.len() {
        for first in 0..=second {
            expect_as_whole(log, &[first, second])?;
        }
    }
    Ok(())
}

/// Short logs, and lines of 62 to 66 bytes.
pub fn all_cuttings() -> Outcome {
    let good = log_of(204, "08n-c");
    expect_as_whole_in_three(good.as_bytes())?;
    expect_as_whole_in_three(&good.as_bytes()[..good.len() - 1])?;
    expect_as_whole_in_three(good.replace("4\t", "5\t").as_bytes())?;
    for length in LONGEST_LINE - 2..=LONGEST_LINE + 2 {
        let line = "x".repeat(length - 1);
        expect_as_whole_in_three(format!("channel\t1\n{line}\n2\t0\n").as_bytes())?;
        expect_as_whole_in_three(line.as_bytes())?;
    }
    Ok(())
}

/// 999,999 slots in pieces of many sizes, and one slot more.
pub fn longest_log() -> Outcome {
    let log = log_of(1, &"8".repeat(MOST_SLOTS as usize));
    let (counts, _) = read_log(log.as_bytes());
    let mut reader = Reader::start();
    let mut rest = log.as_bytes();
    let mut size = 1;
    while !rest.is_empty() {
        let (piece, behind) = rest.split_at(size.min(rest.len()));
        expect_equal(reader.feed(piece), Ok(()), "piece of the longest log")?;
        rest = behind;
        size = 2 * size % 99_991;
    }
    let full = Reader::within_line(counts.clone(), b"");
    expect_equal(&reader, &full, "reader after the longest log")?;
    expect_equal(reader.feed(b"1000000\t0"), Ok(()), "a line begun")?;
    let wanted = Err((BAD_LINE, MOST_SLOTS + 2));
    expect_equal(reader.feed(b"\n1000001\t0\n"), wanted, "one slot too many")?;
    let refused = Reader::between_lines(Phase::Refused, counts);
    expect_equal(&reader, &refused, "reader after one slot too many")
}

/// Whether feeding and ending take the reader, whatever else they tell of it.
fn is_taken(reader: &Reader) -> bool {
    let outside = Err((OUTSIDE_RULE, 0));
    reader.clone().feed(b"") != outside && reader.clone().end() != outside
}

/// All readers that so many pieces out of these lead to, from a first one on.
fn readers_after(first: Reader, depth: usize, pieces: &[&[u8]]) -> HashSet<Reader> {
    let mut found = HashSet::from([first.clone()]);
    let mut newest = vec![first];
    for _ in 0..depth {
        let mut next = Vec::new();
        for reader in &newest {
            for piece in pieces {
                let mut after = reader.clone();
                let _ = after.feed(piece);
                if found.insert(after.clone()) {
                    next.push(after);
                }
            }
        }
        newest = next;
    }
    found
}

/// Every log of few pieces out of an alphabet that has all there is in a line.
pub fn reached() -> Outcome {
    let long = [b'x'; MOST_HELD];
    let alphabet: [&[u8]; 14] = [
        b"channel\t",
        b"\n",
        b"1",
        b"2",
        b"\t",
        b"0",
        b"8",
        b"n",
        b"-",
        b"x",
        b"\0",
        b"",
        &long,
        b"channel\t204\n",
    ];
    for reader in readers_after(Reader::start(), 5, &alphabet) {
        expect(is_taken(&reader), || format!("{reader:?}"))?;
        let mut ended = reader.clone();
        if ended.end().is_ok() {
            expect(!is_taken(&ended), || format!("{ended:?}"))?;
        }
    }
    Ok(())
}

/// Feeds what leads to these counts if the rule is right about them, then the line so far.
fn reader_led_to(counts: &Counts, line: &[u8]) -> Option<Reader> {
    let mut reader = Reader::start();
    if *counts != Counts::default() {
        reader.feed(&Tally::of(counts)?.log(counts.channel)).ok()?;
    }
    reader.feed(line).ok()?;
    Some(reader)
}

/// A reader with these counts is taken, or not, as wanted, also refused and within a line; if it
/// is, bytes lead to it.
fn expect_taken(counts: &Counts, wanted: bool) -> Outcome {
    for line in [&b""[..], b"1", &[0; MOST_HELD]] {
        let reader = Reader::within_line(counts.clone(), line);
        expect(is_taken(&reader) == wanted, || format!("{reader:?}"))?;
        if wanted {
            expect_equal(reader_led_to(counts, line), Some(reader), "led to")?;
        }
    }
    let refused = Reader::between_lines(Phase::Refused, counts.clone());
    expect(is_taken(&refused) == wanted, || format!("{refused:?}"))?;
    if wanted {
        let mut reader = Reader::within_line(counts.clone(), b"");
        expect(reader.feed(b"?\n").is_err(), || format!("{reader:?}"))?;
        expect_equal(reader, refused, "refused")?;
    }
    Ok(())
}

pub fn reachable() -> Outcome {
    small_counts()?;
    channels()?;
    greatest_counts()?;
    counts_by_one()?;
    held_bytes()
}

/// Those rows of small counts are taken that a log of at most three slots has.
fn small_counts() -> Outcome {
    let found = counts_of_small_logs();
    for counts in all_small_counts() {
        expect_taken(&counts, found.contains(&columns(&counts)))?;
        let without = Counts {
            channel: 0,
            ..counts
        };
        expect_taken(&without, without == Counts::default())?;
    }
    Ok(())
}

fn channels() -> Outcome {
    for channel in 0..=u8::MAX {
        let counts = Counts {
            channel,
            ..Counts::default()
        };
        expect_taken(&counts, channel <= 204)?;
    }
    Ok(())
}

/// The most slots, the most bits in them, and one more.
fn greatest_counts() -> Outcome {
    for more in 0..3 {
        let slots = MOST_SLOTS - 1 + more;
        let missing = Counts {
            channel: 1,
            slots,
            missing: slots,
            ..Counts::default()
        };
        let taken = is_taken(&Reader::within_line(missing, b"1000000"));
        expect_equal(taken, slots <= MOST_SLOTS, "slots")?;
        let read = Counts {
            channel: 1,
            slots: MOST_SLOTS,
            read: MOST_SLOTS,
            bits: 8 * MOST_SLOTS - 1 + more,
            ..Counts::default()
        };
        let taken = is_taken(&Reader::within_line(read, b""));
        expect_equal(taken, more <= 1, "bits")?;
    }
    Ok(())
}

/// Counts that are put together against counts that are compared, each column one more or less.
fn counts_by_one() -> Outcome {
    let random = Random::new(8, "selftest");
    for _ in 0..20_000 {
        let mut counts = good_counts(&random);
        let change = random.pick(&[0, 1, u32::MAX, 1 << 31]);
        let count = column(&mut counts, random.below(7));
        *count = count.wrapping_add(change);
        let wanted = counts.come_from_a_log();
        let reader = Reader::between_lines(Phase::Refused, counts);
        expect(is_taken(&reader) == wanted, || format!("{reader:?}"))?;
    }
    Ok(())
}

/// Four bytes at the beginning and one at the end, with every length: taken where up to five bytes
/// lead there, or as many as can be held.
fn held_bytes() -> Outcome {
    let alphabet = [0, b'\n', b'1', b'x'];
    let bytes: Vec<&[u8]> = alphabet.iter().map(std::slice::from_ref).collect();
    let found = readers_after(Reader::start(), 5, &bytes);
    for number in 0..alphabet.len().pow(5) {
        let mut reader = Reader::start();
        let mut rest = number;
        for place in [0, 1, 2, 3, MOST_HELD - 1] {
            reader.held[place] = alphabet[rest % alphabet.len()];
            rest /= alphabet.len();
        }
        for phase in [Phase::Open, Phase::Refused] {
            reader.phase = phase;
            for length in 0..=5 {
                reader.length = length;
                expect(is_taken(&reader) == found.contains(&reader), || {
                    format!("{reader:?}")
                })?;
            }
        }
        held_to_the_end(reader)?;
    }
    Ok(())
}

/// The bytes are those of 63 fed ones if no line feed is among them, and of no other number.
fn held_to_the_end(mut reader: Reader) -> Outcome {
    reader.phase = Phase::Open;
    let mut led_to = Reader::start();
    let _ = led_to.feed(&reader.held);
    for length in [63, 64, 65, 1 << 16 | 63, u32::MAX] {
        reader.length = length;
        expect(is_taken(&reader) == (reader == led_to), || {
            format!("{reader:?}")
        })?;
    }
    Ok(())
}
