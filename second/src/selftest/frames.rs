//! Whole frames.

use super::{expect, expect_equal, Outcome};
use crate::answers::WRONG_LENGTH;
use crate::cases::damage::*;
use crate::cases::patterns::{flip, least_words, turned};
use crate::cases::{make, makers};
use crate::corrector::{is_code_word, POSITIONS};
use crate::frame::{correct, from_bytes, to_bytes, Frame, Refused, FRAME_BYTES};
use crate::notation::Arguments;
use crate::random::Random;
use crate::rows::{from_block, to_block, Row};
use crate::search::Sums;

fn random() -> Random {
    Random::new(1, "frames")
}

/// What the corrector tells of a frame, and what it leaves.
fn corrected(frame: &Frame) -> (Result<Refused, u8>, Frame) {
    let mut buffer = to_bytes(frame);
    let told = correct(&mut buffer);
    (told, from_bytes(&buffer))
}

fn expect_corrected(frame: &Frame, rows: usize, columns: usize, left: &Frame) -> Outcome {
    let (told, found) = corrected(frame);
    expect_equal(told, Ok(Refused { rows, columns }), "refused")?;
    expect(found == *left, || String::from("another frame is left"))
}

/// Rows first or columns first, it is the same frame; all its rows and columns are code words, and
/// so are those of the frame turned round. They stay as they are.
pub fn product_frames() -> Outcome {
    let random = random();
    for _ in 0..10 {
        let information: Vec<Row> = (0..190).map(|_| random.bits(190)).collect();
        let frame = product_frame(&information);
        let columns_first = with_parity(&turned_round(&with_parity(&turned_round(&information))));
        expect(frame == columns_first, || String::from("the orders differ"))?;
        expect(frame.len() == POSITIONS, || format!("{}", frame.len()))?;
        for (row, bits) in information.iter().enumerate() {
            expect(frame[row][..190] == bits[..], || format!("row {row}"))?;
        }
        for frame in [turned_round(&frame), frame] {
            let words = frame.iter().all(|row| is_code_word(row));
            expect(words, || String::from("a row or a column is no word"))?;
            expect_corrected(&frame, 0, 0, &frame)?;
        }
    }
    Ok(())
}

/// Ticket 6: at most eight rows with more than eight wrong bits, false words among them.
pub fn eight_bad_rows() -> Outcome {
    let random = random();
    for round in 0..100 {
        let sent = sent(&random);
        let bad = some_rows(&random, round % 9);
        let way = WAYS[round % WAYS.len()];
        let ways = if random.flag() { &WAYS[..] } else { &[way] };
        let (told, found) = corrected(&received(&random, &sent, &bad, ways));
        expect(found == sent, || format!("frame {round} is not restored"))?;
        let within = told.as_ref().is_ok_and(|told| told.rows <= bad.len());
        expect(within, || format!("{told:?} with {} bad rows", bad.len()))?;
        expect_equal(told.map(|told| told.columns), Ok(0), "columns refused")?;
    }
    Ok(())
}

/// The bound is sharp: with a ninth row the frame can be another than was sent. Nine refused rows can
/// be left with all their columns. Nine false words are not counted as rows. Ten refused rows on the
/// way to a false word of the columns leave that word, and no column is counted.
pub fn nine_bad_rows() -> Outcome {
    let random = random();
    for _ in 0..10 {
        let sent = sent(&random);
        let mut frame = sent.clone();
        spoil(&random, &mut frame, &some_rows(&random, 9), &[inverted]);
        expect_corrected(&frame, 9, POSITIONS, &frame)?;

        let least = turned(&random, &least_words()[0]);
        let mut frame = sent.clone();
        for row in some_rows(&random, 9) {
            flip(&mut frame[row], &least);
        }
        expect_corrected(&frame, 0, least.len(), &frame)?;

        let places = random.some_below(9, POSITIONS);
        let in_columns = |powers: &[usize]| {
            let mut columns = turned_round(&sent);
            places
                .iter()
                .for_each(|place| flip(&mut columns[*place], powers));
            turned_round(&columns)
        };
        expect_corrected(&in_columns(&least[..10]), 10, 0, &in_columns(&least))?;
    }
    Ok(())
}

pub fn lengths() -> Outcome {
    let random = random();
    for length in [
        0,
        1,
        33,
        34,
        35,
        FRAME_BYTES - 1,
        FRAME_BYTES + 1,
        2 * FRAME_BYTES,
    ] {
        let lent = random.bytes(length);
        let mut buffer = lent.clone();
        expect_equal(correct(&mut buffer), Err(WRONG_LENGTH), "answer")?;
        expect(buffer == lent, || format!("{length} bytes are not left"))?;
    }
    Ok(())
}

/// Two frames of each kind that the generator makes, with the search for the algebra.
pub fn search() -> Outcome {
    let sums = Sums::new();
    let mut buffers = Vec::new();
    make(&makers("frame")[0], 62, 2, &mut |case| {
        let fields: Vec<&[u8]> = case.split(|byte| *byte == b'\t').skip(1).collect();
        let buffer = Arguments::new(&fields).bytes().unwrap_or_default();
        buffers.extend((buffer.len() == FRAME_BYTES).then_some(buffer));
        Ok(())
    })
    .map_err(|error| error.to_string())?;
    expect_equal(buffers.len(), 56, "frames")?;
    buffers
        .iter()
        .try_for_each(|buffer| expect_stages(&sums, buffer))
}

/// The stages over one list of all bits: a row's places stand side by side, a column's a row apart.
fn expect_stages(sums: &Sums, received: &[u8]) -> Outcome {
    let mut bits = from_block(received);
    let rows = search_lines(sums, &mut bits, POSITIONS, 1);
    let columns = search_lines(sums, &mut bits, 1, POSITIONS);
    let mut buffer = received.to_vec();
    expect_equal(correct(&mut buffer), Ok(Refused { rows, columns }), "told")?;
    expect(buffer == to_block(&bits), || {
        String::from("another frame is left")
    })
}

/// How many lines have no word. From one line to the next, and from one place of a line to the
/// next, it is so many bits.
fn search_lines(sums: &Sums, bits: &mut [bool], line: usize, place: usize) -> usize {
    let mut refused = 0;
    for first in (0..POSITIONS).map(|number| number * line) {
        let places = (0..POSITIONS).map(|number| first + number * place);
        let received: Row = places.clone().map(|at| bits[at]).collect();
        match sums.nearest_word(&received) {
            Some((word, _)) => places.zip(word).for_each(|(at, bit)| bits[at] = bit),
            None => refused += 1,
        }
    }
    refused
}
