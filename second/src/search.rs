//! The nearest code word a second time, by search, to hold the algebra against.
//!
//! A parity sum that fails has an odd number of wrong places, so at least one, and the left-off
//! place is never wrong. So one of the places of any failing sum must be changed: all are tried.
//! A place stands in seventeen sums, so with n changes left at most 17 n sums may fail; that
//! bound cuts the tree down to some thousand tries. Every row of at most eight wrong places is
//! reached, because on the way to its word each failing sum offers one of them. No change is tried
//! before one, one before two and so on: the fewer may follow, the more the bound cuts off.

use crate::cases::patterns::parity_sum;
use crate::corrector::{is_code_word, LONG_POSITIONS, POSITIONS};
use crate::rows::Row;

const SUMS_OF_A_PLACE: usize = 17;
const MOST_CHANGES: usize = 8;

/// The 272 positions of the sums, and the sums of the positions.
pub struct Sums {
    positions: Vec<Vec<usize>>,
    through: Vec<Vec<usize>>,
}

impl Sums {
    pub fn new() -> Sums {
        let mut positions = vec![Vec::new(); LONG_POSITIONS];
        let mut through = vec![Vec::new(); POSITIONS];
        for sum in 0..LONG_POSITIONS {
            for power in parity_sum(sum)
                .into_iter()
                .filter(|power| *power < POSITIONS)
            {
                positions[sum].push(POSITIONS - 1 - power);
                through[POSITIONS - 1 - power].push(sum);
            }
        }
        Sums { positions, through }
    }

    fn fails(&self, sum: usize, row: &[bool]) -> bool {
        self.positions[sum]
            .iter()
            .filter(|position| row[**position])
            .count()
            % 2
            == 1
    }

    /// How many of a position's sums fail, for every position. What a vote would look at.
    pub fn failing_at_positions(&self, row: &[bool]) -> Vec<usize> {
        let failing: Vec<bool> = (0..LONG_POSITIONS)
            .map(|sum| self.fails(sum, row))
            .collect();
        self.through
            .iter()
            .map(|sums| sums.iter().filter(|sum| failing[**sum]).count())
            .collect()
    }

    pub fn nearest_word(&self, received: &[bool]) -> Option<(Row, Vec<usize>)> {
        let failing: Vec<bool> = (0..LONG_POSITIONS)
            .map(|sum| self.fails(sum, received))
            .collect();
        let count = failing.iter().filter(|fails| **fails).count();
        let mut search = Search {
            sums: self,
            most: 0,
            failing,
            count,
            changed: Vec::new(),
        };
        if !(0..=MOST_CHANGES).any(|most| search.reaches_a_word_within(most)) {
            return None;
        }
        let mut row = received.to_vec();
        for position in &search.changed {
            row[*position] ^= true;
        }
        // They came in the order in which the sums failed.
        search.changed.sort_unstable();
        is_code_word(&row).then_some((row, search.changed))
    }
}

struct Search<'a> {
    sums: &'a Sums,
    /// How many changes there may be.
    most: usize,
    failing: Vec<bool>,
    /// How many fail.
    count: usize,
    changed: Vec<usize>,
}

impl Search<'_> {
    fn reaches_a_word_within(&mut self, most: usize) -> bool {
        self.most = most;
        self.reaches_a_word()
    }

    fn reaches_a_word(&mut self) -> bool {
        if self.count > SUMS_OF_A_PLACE * (self.most - self.changed.len()) {
            return false;
        }
        let Some(failing) = self.failing.iter().position(|fails| *fails) else {
            return true;
        };
        let sums = self.sums;
        sums.positions[failing]
            .iter()
            .any(|position| self.reaches_a_word_by(*position))
    }

    fn reaches_a_word_by(&mut self, position: usize) -> bool {
        if self.changed.contains(&position) {
            return false;
        }
        self.turn(position);
        self.changed.push(position);
        if self.reaches_a_word() {
            return true;
        }
        self.changed.pop();
        self.turn(position);
        false
    }

    fn turn(&mut self, position: usize) {
        for sum in &self.sums.through[position] {
            self.failing[*sum] ^= true;
            if self.failing[*sum] {
                self.count += 1;
            } else {
                self.count -= 1;
            }
        }
    }
}
