//! The generator's cases and the answers to them, as lines.

use super::{expect, expect_equal, Outcome};
use crate::cases::{among_all, make, makers, Case};
use crate::probe::{answer, BAD_CASE};

const COUNT: usize = 600;

fn cases_of(word: &str, seed: u64) -> Result<Vec<Case>, String> {
    let mut cases = Vec::new();
    for maker in makers(word) {
        let mut keep = |case: &[u8]| {
            cases.push(case.to_vec());
            Ok(())
        };
        make(&maker, among_all(maker.0, COUNT), seed, &mut keep)
            .map_err(|error| error.to_string())?;
    }
    Ok(cases)
}

fn text(line: &[u8]) -> String {
    let mut text = String::from_utf8_lossy(line).into_owned();
    text.truncate(
        text.char_indices()
            .nth(300)
            .map_or(text.len(), |(place, _)| place),
    );
    text
}

/// A case keeps to one line, is answered, and comes again under the same seed.
pub fn cases() -> Outcome {
    let all = cases_of("all", 6)?;
    let good = all.len() - COUNT;
    for (i, case) in all.iter().enumerate() {
        let is_bad = answer(case) == BAD_CASE;
        expect(is_bad == (i >= good), || text(case))?;
        expect(!case.contains(&b'\n'), || text(case))?;
    }
    expect(all == cases_of("all", 6)?, || {
        String::from("another time, other cases")
    })?;
    expect(all != cases_of("all", 7)?, || {
        String::from("another seed, the same cases")
    })
}

/// With 11 the fields behind answer and line are the reader that was handed in; it is the answer
/// to broken readers, of which there must be some, and to ended ones.
pub fn readers() -> Outcome {
    for word in ["feed", "end"] {
        let mut refused = 0;
        for case in cases_of(word, 9)? {
            let (case, answer) = (text(&case).to_ascii_lowercase(), text(&answer(&case)));
            let reader = |line: &str, skipped: usize| {
                let fields = line.split('\t').skip(skipped).take(11);
                fields.map(String::from).collect::<Vec<_>>()
            };
            if answer.starts_with("11\t") {
                refused += 1;
                expect(answer.starts_with("11\t0\t"), || answer.clone())?;
                expect_equal(reader(&answer, 2), reader(&case, 1), word)?;
            } else {
                expect(!case.contains("\tended\t"), || case.clone())?;
            }
        }
        expect(refused > COUNT / 50, || format!("{refused} broken readers"))?;
    }
    Ok(())
}

/// Where the answer is a number or `repeat`, the last field is the lent buffer as it came.
pub fn refusals() -> Outcome {
    let lending = [
        "correct",
        "read-block",
        "write-block",
        "frame",
        "write-message",
        "join",
        "write-group",
        "report",
        "export",
    ];
    for word in lending {
        for case in cases_of(word, 8)? {
            let answer = answer(&case);
            if answer[0].is_ascii_digit() || answer.starts_with(b"repeat\t") {
                let last = |line: &[u8]| {
                    line.rsplit(|byte| *byte == b'\t')
                        .next()
                        .map(<[u8]>::to_ascii_lowercase)
                };
                expect_equal(last(&answer), last(&case), word)?;
            }
        }
    }
    Ok(())
}
