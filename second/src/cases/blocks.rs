//! Cases for the corrector, the block reader and the block writer.

use super::patterns::*;
use super::Case;
use crate::block::{self, BLOCK_BYTES, INFORMATION_BYTES};
use crate::corrector::POSITIONS;
use crate::notation::{Line, LONGEST_ARGUMENT};
use crate::random::Random;
use crate::rows::{from_block, to_block, Row, PARITY};

const LENGTHS: [usize; 13] = [
    0,
    1,
    17,
    21,
    22,
    23,
    33,
    34,
    35,
    44,
    68,
    4096,
    LONGEST_ARGUMENT,
];
const MOST_WRONG: usize = 12;

/// The first and the last place of each word of the row, the last word having sixteen.
const WORD_EDGES: [usize; 10] = [0, 63, 64, 127, 128, 191, 192, 255, 256, 271];

/// The block of 000, clause 11.1, in document 01's form.
const PUBLISHED: &[u8; INFORMATION_BYTES] = b"\x02\x00\x01\x027 PROJECT MAINMENU";

fn case(name: &str, input: &[u8], output: &[u8]) -> Vec<Case> {
    vec![Line::new(name).bytes(input).bytes(output).done()]
}

/// At least one of the two lengths is wrong.
fn wrong_lengths(random: &Random, name: &str, right: (usize, usize)) -> Vec<Case> {
    let lengths = match random.below(3) {
        0 => (right.0, random.pick(&LENGTHS)),
        1 => (random.pick(&LENGTHS), right.1),
        _ => (random.pick(&LENGTHS), random.pick(&LENGTHS)),
    };
    // Each other's lengths are the likeliest slip.
    let lengths = if lengths == right {
        (right.1, right.0 + 1)
    } else {
        lengths
    };
    let input = random.marked(lengths.0);
    case(name, &input, &random.marked(lengths.1))
}

fn with_wrong_places(random: &Random, mut row: Row, count: usize) -> Row {
    flip(&mut row, &random.some_below(count, POSITIONS));
    row
}

pub fn correct(random: &Random, index: usize) -> Vec<Case> {
    let round = index / 17;
    let row = match index % 17 {
        kind @ 0..=3 => on_random_word(random, (4 * round + kind) % (MOST_WRONG + 1)),
        4 => random.bits(POSITIONS),
        5 => beside_left_off_place(random, round % 9),
        6 => part_of_least_word(random, Row::from([false; POSITIONS])),
        7 => {
            let word = random_word(random);
            part_of_least_word(random, word)
        }
        8 => hard_on_a_vote(random, RESTORED_BY_A_VOTE[round % RESTORED_BY_A_VOTE.len()]),
        9 => hard_on_a_vote(random, LEFT_BY_A_VOTE[round % LEFT_BY_A_VOTE.len()]),
        10 => on_one_sum(random),
        11 => burst(random),
        12 => plain_row(random, round),
        13 => return wrong_lengths(random, "correct", (BLOCK_BYTES, BLOCK_BYTES)),
        14 => at_the_ends(random),
        15 => at_word_edges(random, random_word(random)),
        _ => on_random_word(random, 8 + round % 2),
    };
    case("correct", &to_block(&row), &random.marked(BLOCK_BYTES))
}

fn on_random_word(random: &Random, wrong: usize) -> Row {
    let word = random_word(random);
    with_wrong_places(random, word, wrong)
}

fn beside_left_off_place(random: &Random, wrong: usize) -> Row {
    let word = word_with_place_left_off(random);
    with_wrong_places(random, word, wrong)
}

/// 0 to 18 places of a word of weight 18: halfway there is no word within eight.
fn part_of_least_word(random: &Random, mut row: Row) -> Row {
    let least = random.pick(&least_words());
    let places = turned(random, &least);
    let kept = match random.flag() {
        true => random.between(8, 10),
        false => random.between(0, places.len()),
    };
    flip(&mut row, &some_of(random, &places, kept));
    row
}

fn hard_on_a_vote(random: &Random, pattern: &[usize]) -> Row {
    let mut row = random_word(random);
    flip(&mut row, &turned(random, pattern));
    row
}

/// Wrong places that all stand in one parity sum, the left-off place not among them.
fn on_one_sum(random: &Random) -> Row {
    let places = turned(random, &parity_sum(0));
    let count = random.between(1, places.len());
    let mut row = random_word(random);
    flip(&mut row, &places[..count]);
    row
}

fn burst(random: &Random) -> Row {
    let length = random.between(1, MOST_WRONG);
    let start = random.pick(&[0, random_start(length), POSITIONS - length]);
    let mut row = random_word(random);
    for bit in &mut row[start..start + length] {
        *bit ^= true;
    }
    row
}

/// Across a byte's edge in the middle of the block.
fn random_start(length: usize) -> usize {
    POSITIONS / 2 - length / 2
}

/// Rows that need no luck: none, all, one, every other bit, the examples P1 to P5.
fn plain_row(random: &Random, round: usize) -> Row {
    let mut row = vec![false; POSITIONS];
    match round % 8 {
        0 => {}
        1 => row = vec![true; POSITIONS],
        2 => row[random.below(POSITIONS)] = true,
        3 => row.iter_mut().step_by(2).for_each(|bit| *bit = true),
        4 => row[..8].fill(true),
        5 => row[..9].fill(true),
        6 => flip(&mut row, &PARITY),
        _ => flip(&mut row, &PARITY[random.between(8, 10)..]),
    }
    row
}

fn at_the_ends(random: &Random) -> Row {
    let mut row = random_word(random);
    let count = random.between(1, MOST_WRONG);
    for place in random.some_below(count, 2 * MOST_WRONG) {
        let position = if place < MOST_WRONG {
            place
        } else {
            POSITIONS - 1 - (place - MOST_WRONG)
        };
        row[position] ^= true;
    }
    row
}

/// Wrong places at the edges of the words in which the changed places are told.
fn at_word_edges(random: &Random, mut row: Row) -> Row {
    let count = random.between(1, WORD_EDGES.len());
    for edge in random.some_below(count, WORD_EDGES.len()) {
        row[WORD_EDGES[edge]] ^= true;
    }
    row
}

pub fn read_block(random: &Random, index: usize) -> Vec<Case> {
    let round = index / 14;
    let row = match index % 14 {
        kind @ 0..=3 => on_written_block(random, (4 * round + kind) % (MOST_WRONG + 1)),
        4 | 5 => on_random_word(random, round % 9),
        6 => {
            let wrong = random.between(0, 8);
            with_wrong_places(random, word_with_wrong_check(random, round), wrong)
        }
        7 => random.bits(POSITIONS),
        8 => return wrong_lengths(random, "read-block", (BLOCK_BYTES, INFORMATION_BYTES)),
        9 => {
            let mut row = written_block(&random.bytes(INFORMATION_BYTES));
            let pattern = random.pick(&RESTORED_BY_A_VOTE);
            flip(&mut row, &turned(random, pattern));
            row
        }
        10 => {
            let wrong = random.between(0, 9);
            with_wrong_places(random, written_block(PUBLISHED), wrong)
        }
        11 => at_word_edges(random, written_block(&random.bytes(INFORMATION_BYTES))),
        12 => at_word_edges(random, word_with_wrong_check(random, round)),
        _ => beside_left_off_place(random, round % 9),
    };
    case(
        "read-block",
        &to_block(&row),
        &random.marked(INFORMATION_BYTES),
    )
}

fn written_block(information: &[u8]) -> Row {
    let mut output = [0; BLOCK_BYTES];
    block::write_block(information, &mut output).expect("the lengths are right");
    from_block(&output)
}

fn on_written_block(random: &Random, wrong: usize) -> Row {
    let row = written_block(&random.bytes(INFORMATION_BYTES));
    with_wrong_places(random, row, wrong)
}

pub fn write_block(random: &Random, index: usize) -> Vec<Case> {
    let information = match index % 8 {
        0 => {
            let mut bytes = vec![0; INFORMATION_BYTES];
            let bit = index / 8 % (8 * INFORMATION_BYTES);
            bytes[bit / 8] = 1 << (bit % 8);
            bytes
        }
        1 => vec![random.pick(&[0, 0xFF, 0x0F, 0x80]); INFORMATION_BYTES],
        2 => PUBLISHED.to_vec(),
        3 | 4 => return wrong_lengths(random, "write-block", (INFORMATION_BYTES, BLOCK_BYTES)),
        _ => random.bytes(INFORMATION_BYTES),
    };
    case("write-block", &information, &random.marked(BLOCK_BYTES))
}
