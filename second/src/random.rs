//! A small generator of numbers that look random and follow from a seed (splitmix64).

use std::cell::Cell;

/// The state is in a cell so that one number's bounds may be another number.
pub struct Random {
    seed: u64,
    state: Cell<u64>,
}

impl Random {
    /// The name keeps the rows of two commands apart under the same seed.
    pub fn new(seed: u64, name: &str) -> Random {
        let random = Random {
            seed,
            state: Cell::new(seed),
        };
        for byte in name.bytes() {
            random.state.set(random.next() ^ u64::from(byte));
        }
        random
    }

    /// The row for the cases of a command with a number, whoever asks for it: so a maker can go on
    /// from what another command's case is made of.
    pub fn row_of(&self, command: &str, number: usize) -> Random {
        Random::new(self.seed, &format!("{command} {number}"))
    }

    pub fn next(&self) -> u64 {
        let state = self.state.get().wrapping_add(0x9E37_79B9_7F4A_7C15);
        self.state.set(state);
        let mixed = (state ^ state >> 30).wrapping_mul(0xBF58_476D_1CE4_E5B9);
        let mixed = (mixed ^ mixed >> 27).wrapping_mul(0x94D0_49BB_1331_11EB);
        mixed ^ mixed >> 31
    }

    pub fn below(&self, bound: usize) -> usize {
        (self.next() % bound as u64) as usize
    }

    /// Both ends can come.
    pub fn between(&self, least: usize, most: usize) -> usize {
        least + self.below(most - least + 1)
    }

    pub fn flag(&self) -> bool {
        self.one_in(2)
    }

    pub fn one_in(&self, number: usize) -> bool {
        self.below(number) == 0
    }

    pub fn byte(&self) -> u8 {
        self.next() as u8
    }

    pub fn bytes(&self, length: usize) -> Vec<u8> {
        (0..length).map(|_| self.byte()).collect()
    }

    pub fn bits(&self, length: usize) -> Vec<bool> {
        (0..length).map(|_| self.flag()).collect()
    }

    pub fn pick<T: Clone>(&self, choices: &[T]) -> T {
        choices[self.below(choices.len())].clone()
    }

    /// Different numbers below the bound, in no order.
    pub fn some_below(&self, count: usize, bound: usize) -> Vec<usize> {
        let mut numbers: Vec<usize> = (0..bound).collect();
        for place in 0..count {
            let other = self.between(place, bound - 1);
            numbers.swap(place, other);
        }
        numbers.truncate(count);
        numbers
    }

    /// What a lent buffer holds before the call, so that a byte left or written shows.
    pub fn marked(&self, length: usize) -> Vec<u8> {
        match self.below(4) {
            0 => vec![0; length],
            1 => vec![self.pick(&[0xAA, 0xFF, 0x55, 0x01]); length],
            _ => self.bytes(length),
        }
    }
}
