//! Frames as they are sent, and what befalls them on the way.

use super::patterns::*;
use crate::block::{INFORMATION_AND_CHECK, INFORMATION_BYTES};
use crate::corrector::{MOST_CHANGES, POSITIONS};
use crate::frame::{column, Frame};
use crate::random::Random;
use crate::rows::{with_remainder, Row, CHECK, PARITY};

/// The columns as rows.
pub fn turned_round(rows: &[Row]) -> Vec<Row> {
    let columns = 0..rows[0].len();
    columns.map(|place| column(rows, place)).collect()
}

pub fn with_parity(rows: &[Row]) -> Vec<Row> {
    rows.iter()
        .map(|row| with_remainder(row, &PARITY))
        .collect()
}

/// A frame whose rows and columns are all code words: first the rows of the information get their
/// parity, then all columns. The other order gives the same (`selftest` looks).
pub fn product_frame(information: &[Row]) -> Frame {
    turned_round(&with_parity(&turned_round(&with_parity(information))))
}

pub fn sent(random: &Random) -> Frame {
    product_frame(&information(random))
}

/// Mostly rows that differ, with right check bits or any. Else few ones, or rows all alike.
fn information(random: &Random) -> Vec<Row> {
    let each_row = |row: &dyn Fn() -> Row| (0..INFORMATION_AND_CHECK).map(|_| row()).collect();
    match random.below(8) {
        0 => sparse(random),
        1 => {
            let row = random.bits(INFORMATION_AND_CHECK);
            each_row(&|| row.clone())
        }
        2 => each_row(&|| vec![random.flag(); INFORMATION_AND_CHECK]),
        3 => vec![vec![true; INFORMATION_AND_CHECK]; INFORMATION_AND_CHECK],
        4 | 5 => each_row(&|| with_remainder(&random.bits(8 * INFORMATION_BYTES), &CHECK)),
        _ => each_row(&|| random.bits(INFORMATION_AND_CHECK)),
    }
}

/// With no one at all, a single one or some.
fn sparse(random: &Random) -> Vec<Row> {
    let mut rows = vec![vec![false; INFORMATION_AND_CHECK]; INFORMATION_AND_CHECK];
    for _ in 0..random.pick(&[0, 1, 2, 20]) {
        let row = random.below(INFORMATION_AND_CHECK);
        rows[row][random.below(INFORMATION_AND_CHECK)] = true;
    }
    rows
}

/// So many places of the row turned.
pub fn turn_places(random: &Random, row: &mut Row, count: usize) {
    for place in random.some_below(count, row.len()) {
        row[place] ^= true;
    }
}

/// Anywhere, or side by side, also at the edges of the frame and of its parity rows.
pub fn some_rows(random: &Random, count: usize) -> Vec<usize> {
    let first = match random.below(6) {
        0 => 0,
        1 => POSITIONS - count,
        2 => (INFORMATION_AND_CHECK - count / 2).min(POSITIONS - count),
        3 => random.between(0, POSITIONS - count),
        _ => return random.some_below(count, POSITIONS),
    };
    (first..first + count).collect()
}

/// How a row of a sent frame comes to have more than eight wrong places, or nearly always so.
pub type Way = fn(&Random, &mut Row);

pub const WAYS: [Way; 11] = [
    nine_wrong,
    many_wrong,
    inverted,
    zeros,
    ones,
    noise,
    other_word,
    near_other_word,
    towards_next_word,
    hard_on_a_vote,
    slipped,
];

/// Each of the rows in one of the ways.
pub fn spoil(random: &Random, frame: &mut Frame, rows: &[usize], ways: &[Way]) {
    for row in rows {
        random.pick(ways)(random, &mut frame[*row]);
    }
}

/// A sent frame with bad rows; the others have none to eight wrong places.
pub fn received(random: &Random, sent: &Frame, bad: &[usize], ways: &[Way]) -> Frame {
    let mut frame = sent.clone();
    for row in (0..POSITIONS).filter(|row| !bad.contains(row)) {
        turn_places(random, &mut frame[row], random.between(0, MOST_CHANGES));
    }
    spoil(random, &mut frame, bad, ways);
    frame
}

pub fn nine_wrong(random: &Random, row: &mut Row) {
    turn_places(random, row, MOST_CHANGES + 1);
}

fn many_wrong(random: &Random, row: &mut Row) {
    turn_places(random, row, random.between(MOST_CHANGES + 1, POSITIONS));
}

pub fn inverted(_: &Random, row: &mut Row) {
    row.iter_mut().for_each(|bit| *bit ^= true);
}

pub fn zeros(_: &Random, row: &mut Row) {
    row.fill(false);
}

pub fn ones(_: &Random, row: &mut Row) {
    row.fill(true);
}

pub fn noise(random: &Random, row: &mut Row) {
    *row = random.bits(POSITIONS);
}

/// A false word as it stands.
pub fn other_word(random: &Random, row: &mut Row) {
    *row = random_word(random);
}

/// A row that is put right to a false word.
pub fn near_other_word(random: &Random, row: &mut Row) {
    other_word(random, row);
    turn_places(random, row, random.between(1, MOST_CHANGES));
}

/// Nine places or more on the way to a word that differs in eighteen: from the tenth on the row is
/// put right to that one.
fn towards_next_word(random: &Random, row: &mut Row) {
    let places = turned(random, &random.pick(&least_words()));
    let count = random.between(MOST_CHANGES + 1, places.len());
    flip(row, &some_of(random, &places, count));
}

fn hard_on_a_vote(random: &Random, row: &mut Row) {
    let restored = random.pick(&RESTORED_BY_A_VOTE);
    let pattern = random.pick(&[restored, random.pick(&LEFT_BY_A_VOTE)]);
    flip(row, &turned(random, pattern));
}

/// A bit was lost or came twice. The code being cyclic, what is left is often a false word.
fn slipped(random: &Random, row: &mut Row) {
    match random.flag() {
        true => row.rotate_left(1),
        false => row.rotate_right(1),
    }
}
