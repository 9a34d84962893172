//! Cases for the frame corrector. A line is long, so each kind of damage comes once in a few dozen
//! lines, and what is left open in it is chosen at random.

use super::damage::*;
use super::patterns::*;
use super::{several, Case};
use crate::block::{BLOCK_BYTES, INFORMATION_AND_CHECK, INFORMATION_BYTES};
use crate::corrector::{MOST_CHANGES, POSITIONS};
use crate::frame::{to_bytes, Frame, FRAME_BYTES};
use crate::notation::{Line, LONGEST_ARGUMENT};
use crate::random::Random;
use std::ops::Range;

/// Lengths that are no frame's.
const LENGTHS: [usize; 14] = [
    0,
    FRAME_BYTES - 1,
    FRAME_BYTES + 1,
    1,
    2 * FRAME_BYTES,
    BLOCK_BYTES,
    LONGEST_ARGUMENT,
    BLOCK_BYTES - 1,
    BLOCK_BYTES + 1,
    POSITIONS,
    FRAME_BYTES / 2,
    FRAME_BYTES - BLOCK_BYTES,
    FRAME_BYTES + BLOCK_BYTES,
    3 * FRAME_BYTES,
];

/// About one row, and about eight rows with eight places more at either end, which are put right in
/// the rows there.
const BURSTS: [usize; 14] = [
    1, 8, 9, 16, 17, 18, 272, 288, 289, 2176, 2184, 2192, 2193, 2448,
];

const CHECK_PLACES: Range<usize> = 8 * INFORMATION_BYTES..INFORMATION_AND_CHECK;
const PARITY_PLACES: Range<usize> = INFORMATION_AND_CHECK..POSITIONS;

type Kind = fn(&Random, usize) -> Frame;

const KINDS: [Kind; 28] = [
    clean,
    few_wrong,
    eight_in_each_row,
    nine_in_some_rows,
    bad_rows_alone,
    bad_rows,
    eight_rows_alike,
    nine_rows_alike,
    many_bad_rows,
    burst,
    rows_lost,
    false_words,
    false_words_and_refused_rows,
    eight_or_nine_in_columns,
    parity_rows_bad,
    parity_places_bad,
    check_places_bad,
    all_noise,
    plain,
    bad_columns,
    many_bad_columns,
    parity_rows_missing,
    only_rows_are_words,
    only_columns_are_words,
    columns_hard_on_a_vote,
    columns_towards_next_word,
    beside_left_off_place,
    out_of_step,
];

pub fn frame(random: &Random, index: usize) -> Vec<Case> {
    let kinds = KINDS.len() + 1;
    let round = index / kinds;
    match index % kinds {
        0 => several(3, round, |number| vec![wrong_length(random, number)]),
        kind => vec![case(&to_bytes(&KINDS[kind - 1](random, round)))],
    }
}

fn case(buffer: &[u8]) -> Case {
    Line::new("frame").bytes(buffer).done()
}

/// Filled with frames in which there is something to put right.
fn wrong_length(random: &Random, number: usize) -> Case {
    let any = random.below(LONGEST_ARGUMENT + 1);
    let length = match LENGTHS.get(number % (LENGTHS.len() + 1)) {
        Some(length) => *length,
        None if any == FRAME_BYTES => any + 1,
        None => any,
    };
    let frame = to_bytes(&few_wrong(random, number));
    case(&frame.repeat(4)[..length])
}

fn clean(random: &Random, _: usize) -> Frame {
    sent(random)
}

fn few_wrong(random: &Random, _: usize) -> Frame {
    with_bad_rows(random, 0, &WAYS)
}

fn with_bad_rows(random: &Random, count: usize, ways: &[Way]) -> Frame {
    received(random, &sent(random), &some_rows(random, count), ways)
}

fn eight_in_each_row(random: &Random, _: usize) -> Frame {
    let mut frame = sent(random);
    for row in &mut frame {
        turn_places(random, row, MOST_CHANGES);
    }
    frame
}

/// One to eight of them, which the columns restore.
fn nine_in_some_rows(random: &Random, round: usize) -> Frame {
    with_bad_rows(random, 1 + round % MOST_CHANGES, &[nine_wrong])
}

/// In all others nothing is wrong.
fn bad_rows_alone(random: &Random, _: usize) -> Frame {
    let mut frame = sent(random);
    let rows = some_rows(random, random.between(1, MOST_CHANGES));
    spoil(random, &mut frame, &rows, &WAYS);
    frame
}

/// As many as the columns restore, whatever became of them.
fn bad_rows(random: &Random, _: usize) -> Frame {
    with_bad_rows(random, random.between(1, MOST_CHANGES), &WAYS)
}

fn eight_rows_alike(random: &Random, _: usize) -> Frame {
    with_bad_rows(random, MOST_CHANGES, &[random.pick(&WAYS)])
}

fn nine_rows_alike(random: &Random, _: usize) -> Frame {
    with_bad_rows(random, MOST_CHANGES + 1, &[random.pick(&WAYS)])
}

fn many_bad_rows(random: &Random, round: usize) -> Frame {
    let count = match round % 3 {
        0 => MOST_CHANGES + 1,
        1 => random.between(MOST_CHANGES + 1, 20),
        _ => random.between(20, POSITIONS),
    };
    with_bad_rows(random, count, &WAYS)
}

/// A run of bits in sending order, over the rows' edges.
fn burst(random: &Random, round: usize) -> Frame {
    let length = match random.one_in(4) {
        true => random.between(1, 4000),
        false => random.pick(&BURSTS),
    };
    let edge = POSITIONS * random.below(POSITIONS);
    let start = match random.below(3) {
        0 => edge,
        1 => edge.saturating_sub(MOST_CHANGES),
        _ => edge + random.below(POSITIONS),
    };
    let mut bits = sent(random).concat();
    let end = bits.len().min(start + length);
    for bit in &mut bits[start..end] {
        *bit = match round % 4 {
            0 => !*bit,
            1 => false,
            2 => true,
            _ => random.flag(),
        };
    }
    bits.chunks(POSITIONS).map(<[bool]>::to_vec).collect()
}

/// A run of whole rows of which nothing came.
fn rows_lost(random: &Random, round: usize) -> Frame {
    let mut frame = sent(random);
    let count = random.pick(&[1, 7, 8, 9, 10, 12, 40]);
    let first = random.between(0, POSITIONS - count);
    let rows: Vec<usize> = (first..first + count).collect();
    let ways: [Way; 3] = [zeros, noise, ones];
    spoil(random, &mut frame, &rows, &[ways[round % ways.len()]]);
    frame
}

/// Words, or rows that are put right to words, that were never sent.
fn false_words(random: &Random, round: usize) -> Frame {
    let mut frame = sent(random);
    let rows = some_rows(random, random.between(1, 12));
    let ways: [Way; 2] = [other_word, near_other_word];
    spoil(random, &mut frame, &rows, &[ways[round % ways.len()]]);
    frame
}

/// Eight or nine rows, of which some are put right to a false word and some are refused.
fn false_words_and_refused_rows(random: &Random, round: usize) -> Frame {
    with_bad_rows(
        random,
        MOST_CHANGES + round % 2,
        &[near_other_word, inverted, noise],
    )
}

/// Refused rows that leave in some columns eight wrong places, in others nine.
fn eight_or_nine_in_columns(random: &Random, round: usize) -> Frame {
    let mut frame = sent(random);
    let rows = some_rows(random, 9 + round % 3);
    let columns = random.between(20, POSITIONS);
    for place in random.some_below(columns, POSITIONS) {
        let wrong = random.between(7, rows.len());
        for row in random.some_below(wrong, rows.len()) {
            frame[rows[row]][place] ^= true;
        }
    }
    frame
}

/// From eight parity rows up to all of them.
fn parity_rows_bad(random: &Random, _: usize) -> Frame {
    let mut frame = sent(random);
    let count = random.pick(&[8, 9, 41, PARITY_PLACES.len()]);
    let rows = random.some_below(count, PARITY_PLACES.len());
    let rows: Vec<usize> = rows.iter().map(|row| PARITY_PLACES.start + row).collect();
    spoil(random, &mut frame, &rows, &WAYS);
    frame
}

fn parity_places_bad(random: &Random, round: usize) -> Frame {
    only_in_places(random, round, PARITY_PLACES)
}

fn check_places_bad(random: &Random, round: usize) -> Frame {
    only_in_places(random, round, CHECK_PLACES)
}

/// Wrong places nowhere else, in some rows more than eight of them.
fn only_in_places(random: &Random, round: usize, places: Range<usize>) -> Frame {
    let mut frame = sent(random);
    let rows = match round % 2 {
        0 => some_rows(random, random.between(1, 12)),
        _ => some_rows(random, POSITIONS),
    };
    for row in rows {
        let wrong = random.between(MOST_CHANGES - 1, places.len());
        for place in random.some_below(wrong, places.len()) {
            frame[row][places.start + place] ^= true;
        }
    }
    frame
}

fn all_noise(random: &Random, _: usize) -> Frame {
    (0..POSITIONS).map(|_| random.bits(POSITIONS)).collect()
}

/// Frames that need no luck.
fn plain(random: &Random, _: usize) -> Frame {
    let by_place = |bit: &dyn Fn(usize, usize) -> bool| -> Frame {
        let row = |row| (0..POSITIONS).map(|place| bit(row, place)).collect();
        (0..POSITIONS).map(row).collect()
    };
    let (row, place) = (random.below(POSITIONS), random.below(POSITIONS));
    match random.below(9) {
        0 => by_place(&|_, _| false),
        1 => by_place(&|_, _| true),
        2 => by_place(&|at, _| at == row),
        3 => by_place(&|_, at| at == place),
        4 => by_place(&|at, in_row| at == row && in_row == place),
        5 => by_place(&|row, place| (row + place) % 2 == 1),
        6 => by_place(&|row, place| row == place),
        7 => by_place(&|row, place| row < 9 && place < 9),
        _ => by_place(&|row, place| row < 8 && place < 9),
    }
}

/// The row stage alone restores them.
fn bad_columns(random: &Random, _: usize) -> Frame {
    let mut columns = sent(random);
    let places = some_rows(random, random.between(1, MOST_CHANGES));
    spoil(random, &mut columns, &places, &WAYS);
    turned_round(&columns)
}

/// Frames with bad rows, turned round.
fn many_bad_columns(random: &Random, round: usize) -> Frame {
    turned_round(&match round % 3 {
        0 => nine_rows_alike(random, round),
        1 => bad_rows(random, round),
        _ => many_bad_rows(random, round),
    })
}

/// Of the frame only the information rows are as sent.
fn parity_rows_missing(random: &Random, round: usize) -> Frame {
    let mut frame = sent(random);
    let rows: Vec<usize> = PARITY_PLACES.collect();
    let ways: [Way; 5] = [zeros, noise, ones, inverted, other_word];
    spoil(random, &mut frame, &rows, &[ways[round % ways.len()]]);
    frame
}

fn only_rows_are_words(random: &Random, _: usize) -> Frame {
    (0..POSITIONS).map(|_| random_word(random)).collect()
}

fn only_columns_are_words(random: &Random, round: usize) -> Frame {
    turned_round(&only_rows_are_words(random, round))
}

/// Refused rows where a vote on the columns would be fooled.
fn columns_hard_on_a_vote(random: &Random, round: usize) -> Frame {
    let pattern = match round % 2 {
        0 => random.pick(&RESTORED_BY_A_VOTE),
        _ => random.pick(&LEFT_BY_A_VOTE),
    };
    in_some_columns(random, &turned(random, pattern))
}

/// Eight to eleven of the eighteen places to another word: from the tenth on the columns are put
/// right to that one.
fn columns_towards_next_word(random: &Random, round: usize) -> Frame {
    let least = turned(random, &random.pick(&least_words()));
    in_some_columns(random, &some_of(random, &least, 8 + round % 4))
}

/// The rows at these powers of the columns wrong in nine columns or more, so that they are refused.
fn in_some_columns(random: &Random, powers: &[usize]) -> Frame {
    let mut frame = sent(random);
    let rows: Vec<usize> = powers.iter().map(|power| POSITIONS - 1 - power).collect();
    let columns = random.pick(&[9, 9, 20, 136]);
    for place in random.some_below(columns, POSITIONS) {
        rows.iter().for_each(|row| frame[*row][place] ^= true);
    }
    frame
}

/// Rows, or columns, that are words but for the place that the code leaves off.
fn beside_left_off_place(random: &Random, round: usize) -> Frame {
    let mut frame = sent(random);
    let count = random.pick(&[1, 8, 9, 30]);
    for row in some_rows(random, count) {
        frame[row] = word_with_place_left_off(random);
        turn_places(random, &mut frame[row], random.between(0, MOST_CHANGES));
    }
    match round % 2 {
        0 => frame,
        _ => turned_round(&frame),
    }
}

/// The rows begin a place too early or too late from some row on, or the frame some rows.
fn out_of_step(random: &Random, round: usize) -> Frame {
    let mut bits = sent(random).concat();
    let start = POSITIONS * random.pick(&[0, random.below(POSITIONS), POSITIONS - MOST_CHANGES]);
    match round % 4 {
        0 => bits[start..].rotate_left(1),
        1 => bits[start..].rotate_right(1),
        2 => bits.rotate_left(POSITIONS * random.between(1, MOST_CHANGES + 1)),
        _ => bits.rotate_right(POSITIONS * random.between(1, MOST_CHANGES + 1)),
    }
    bits.chunks(POSITIONS).map(<[bool]>::to_vec).collect()
}
