//! The corrector, the block reader and the block writer over bytes.

use crate::answers::{CHECK_BITS, NO_WORD, WRONG_LENGTH};
use crate::corrector::nearest_word;
use crate::rows::{from_block, is_multiple, to_block, with_remainder, Row, CHECK, PARITY};

pub const BLOCK_BYTES: usize = 34;
pub const INFORMATION_BYTES: usize = 22;
pub const INFORMATION_AND_CHECK: usize = 190;

const WORD_BITS: usize = 64;
const WORDS: usize = 5;

/// What is told of the changed places; the default is that of none.
#[derive(Debug, Default, PartialEq)]
pub struct Changes {
    pub count: usize,
    pub row: [u64; WORDS],
}

impl Changes {
    /// From the places alone, not from the two rows that differ there: place p is the bit of
    /// weight 2^(p mod 64) in word p / 64. No place comes twice, so their number is the count.
    fn at(places: &[usize]) -> Changes {
        let mut row = [0; WORDS];
        for place in places {
            row[place / WORD_BITS] |= 1 << (place % WORD_BITS);
        }
        Changes {
            count: places.len(),
            row,
        }
    }
}

/// A refusal's number and the changes that go with it, none but for wrong check bits.
pub type Refusal = (u8, Changes);

fn without_changes(answer: u8) -> Refusal {
    (answer, Changes::default())
}

/// The code word a block was corrected to.
fn corrected(received: &[u8]) -> Result<(Row, Changes), Refusal> {
    let (word, places) = nearest_word(&from_block(received)).ok_or(without_changes(NO_WORD))?;
    Ok((word, Changes::at(&places)))
}

pub fn correct(received: &[u8], output: &mut [u8]) -> Result<Changes, Refusal> {
    if received.len() != BLOCK_BYTES || output.len() != BLOCK_BYTES {
        return Err(without_changes(WRONG_LENGTH));
    }
    let (word, changes) = corrected(received)?;
    output.copy_from_slice(&to_block(&word));
    Ok(changes)
}

pub fn read_block(received: &[u8], output: &mut [u8]) -> Result<Changes, Refusal> {
    if received.len() != BLOCK_BYTES || output.len() != INFORMATION_BYTES {
        return Err(without_changes(WRONG_LENGTH));
    }
    let (word, changes) = corrected(received)?;
    // Information and check bits are one multiple of the check polynomial, the start value
    // being zero.
    if !is_multiple(&word[..INFORMATION_AND_CHECK], &CHECK) {
        return Err((CHECK_BITS, changes));
    }
    output.copy_from_slice(&to_block(&word)[..INFORMATION_BYTES]);
    Ok(changes)
}

pub fn write_block(information: &[u8], output: &mut [u8]) -> Result<(), u8> {
    if information.len() != INFORMATION_BYTES || output.len() != BLOCK_BYTES {
        return Err(WRONG_LENGTH);
    }
    let checked = with_remainder(&from_block(information), &CHECK);
    output.copy_from_slice(&to_block(&with_remainder(&checked, &PARITY)));
    Ok(())
}
