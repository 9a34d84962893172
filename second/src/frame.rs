//! The frame corrector: each row, then each column.
//!
//! The frame is the list of its rows. A column is read out place by place, row 0 being its first
//! place and so its highest power, and only the places that its word has otherwise are turned: the
//! frame itself is never turned round.

use crate::answers::WRONG_LENGTH;
use crate::block::BLOCK_BYTES;
use crate::corrector::{nearest_word, POSITIONS};
use crate::rows::{from_block, to_block, Row};

pub const FRAME_BYTES: usize = POSITIONS * BLOCK_BYTES;

/// As many rows as a row has places.
pub type Frame = Vec<Row>;

/// How many had no code word within eight places; the default is that of none.
#[derive(Debug, Default, PartialEq)]
pub struct Refused {
    pub rows: usize,
    pub columns: usize,
}

pub fn correct(buffer: &mut [u8]) -> Result<Refused, u8> {
    if buffer.len() != FRAME_BYTES {
        return Err(WRONG_LENGTH);
    }
    let mut frame = from_bytes(buffer);
    let rows = correct_rows(&mut frame);
    let columns = correct_columns(&mut frame);
    buffer.copy_from_slice(&to_bytes(&frame));
    Ok(Refused { rows, columns })
}

pub fn from_bytes(buffer: &[u8]) -> Frame {
    buffer.chunks(BLOCK_BYTES).map(from_block).collect()
}

pub fn to_bytes(frame: &[Row]) -> Vec<u8> {
    frame.iter().flat_map(|row| to_block(row)).collect()
}

pub fn column(frame: &[Row], place: usize) -> Row {
    frame.iter().map(|row| row[place]).collect()
}

/// How many rows were refused.
fn correct_rows(frame: &mut [Row]) -> usize {
    let mut refused = 0;
    for row in frame {
        match nearest_word(row) {
            Some((word, _)) => *row = word,
            None => refused += 1,
        }
    }
    refused
}

/// How many columns were refused.
fn correct_columns(frame: &mut [Row]) -> usize {
    let mut refused = 0;
    for place in 0..POSITIONS {
        match nearest_word(&column(frame, place)) {
            Some((_, changed)) => changed.iter().for_each(|row| frame[*row][place] ^= true),
            None => refused += 1,
        }
    }
    refused
}
