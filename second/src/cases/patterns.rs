//! Patterns of wrong places that are hard on a corrector, as powers of x.
//!
//! The code of 273 places is cyclic, so a pattern may be shifted; it is binary, so all powers may
//! be doubled. Both modulo 273.

use crate::corrector::{LONG_POSITIONS, POSITIONS};
use crate::random::Random;
use crate::rows::{with_remainder, Row, CHECK, PARITY};

/// Document 01's residues. Five times them is a parity sum of this generator (`selftest` looks).
const RESIDUES: [usize; 17] = [
    1, 2, 4, 8, 16, 32, 64, 91, 117, 128, 137, 182, 195, 205, 234, 239, 256,
];

/// The places of the parity sum with the number `shift`.
pub fn parity_sum(shift: usize) -> Vec<usize> {
    RESIDUES
        .iter()
        .map(|residue| (5 * residue + shift) % LONG_POSITIONS)
        .collect()
}

/// More than eight places, all of which a vote would change and no others: the vote restores the
/// sent word, after too many changes. Found by a search with simulated annealing. The first four
/// do so whether a vote needs nine or ten of the seventeen sums, the next three for nine, then
/// come ten places (for nine and ten sums) and eleven (for ten).
pub const RESTORED_BY_A_VOTE: [&[usize]; 9] = [
    &[54, 132, 252, 98, 60, 208, 144, 15, 203],
    &[244, 186, 168, 92, 112, 89, 63, 30, 36],
    &[197, 49, 210, 59, 230, 55, 96, 82, 97],
    &[91, 150, 93, 20, 84, 238, 123, 41, 77],
    &[58, 89, 203, 225, 40, 232, 91, 175, 255],
    &[23, 83, 40, 183, 130, 127, 249, 232, 199],
    &[141, 157, 5, 72, 34, 36, 153, 164, 168],
    &[29, 214, 142, 8, 81, 18, 53, 20, 34, 182],
    &[258, 182, 192, 69, 95, 118, 208, 15, 47, 59, 218],
];

/// More than eight places from which a vote changes at most eight and leaves no code word. The
/// first needs a vote of ten sums, the others one of nine.
pub const LEFT_BY_A_VOTE: [&[usize]; 5] = [
    &[225, 7, 123, 228, 172, 35, 6, 27, 192],
    &[1, 96, 121, 263, 122, 265, 32, 176, 229, 147],
    &[51, 199, 97, 115, 250, 247, 232, 212, 112, 245, 241],
    &[145, 7, 123, 228, 172, 35, 188, 27, 131, 30, 225, 152],
    &[94, 45, 93, 102, 37, 71, 23, 186, 98, 55, 241, 15, 105],
];

/// Words of the least weight, 18: the generator, and the negative of a parity sum with one place
/// more (an oval of the plane with its nucleus).
pub fn least_words() -> [Vec<usize>; 2] {
    let mut oval: Vec<usize> = parity_sum(0)
        .iter()
        .map(|power| LONG_POSITIONS - power)
        .collect();
    oval.push(0);
    [PARITY.to_vec(), oval]
}

/// The pattern shifted and doubled at random, without the left-off place.
pub fn turned(random: &Random, pattern: &[usize]) -> Vec<usize> {
    loop {
        let factor = 1 << random.below(12);
        let shift = random.below(LONG_POSITIONS);
        let turn = |power: &usize| (power * factor + shift) % LONG_POSITIONS;
        let turned: Vec<usize> = pattern.iter().map(turn).collect();
        if turned.iter().all(|power| *power < POSITIONS) {
            return turned;
        }
    }
}

/// So many of a pattern's powers.
pub fn some_of(random: &Random, pattern: &[usize], count: usize) -> Vec<usize> {
    let chosen = random.some_below(count, pattern.len());
    chosen.iter().map(|number| pattern[*number]).collect()
}

pub fn flip(row: &mut Row, powers: &[usize]) {
    for power in powers {
        row[POSITIONS - 1 - power] ^= true;
    }
}

pub fn random_word(random: &Random) -> Row {
    with_remainder(&random.bits(190), &PARITY)
}

/// One check bit is wrong. A code word all the same: the parity is reckoned after it was turned.
pub fn word_with_wrong_check(random: &Random, check_bit: usize) -> Row {
    let information = random.bits(176);
    let mut checked = with_remainder(&information, &CHECK);
    checked[information.len() + check_bit % CHECK[0]] ^= true;
    with_remainder(&checked, &PARITY)
}

/// A word of the longer code with a one in the left-off place, without that place.
pub fn word_with_place_left_off(random: &Random) -> Row {
    let mut information = vec![true];
    information.extend(random.bits(190));
    with_remainder(&information, &PARITY).split_off(1)
}
