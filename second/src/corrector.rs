//! The corrector, by algebra and without a vote.
//!
//! Let B be an element of order 273 for which B^0, B^1, .., B^16 are all roots of the generator;
//! `Algebra::new` looks for one and stops the program if there is none. Seventeen roots in a row
//! make the least distance of the code at least 18 (the BCH bound), so within eight places of a
//! row there is at most one code word.
//!
//! Why none is missed. Let the row differ from a code word in the positions p_1 .. p_n, n <= 8,
//! and let X_k = B^(271 - p_k); these are different, because B has order 273. With
//! S_j = row(B^j) = sum of X_k^j for j = 1 .. 16, S(z) = sum of S_j z^(j-1), and the locator
//! L(z) = product of (1 - X_k z) there is a W(z) of lower degree than L with
//! L S = W modulo z^16, and L and W have no common root. Euclid's algorithm on z^16 and S gives
//! remainders r = u z^16 + v S; at the first r of degree below 8 the degree of v is at most 8.
//! Then v W = r L modulo z^16, both sides have degree at most 15, so v W = r L outright. As L and
//! W have no common factor, L divides v, v = m L, r = m W, and m divides u too; u and v have no
//! common factor, so m is a number other than zero. So the roots of v among the 1 / X name
//! exactly the wrong positions. Nothing here asks for luck: it holds for every pattern of at most
//! eight places.
//!
//! The row's values are taken from its remainder by the generator, which is shorter and, B^j being
//! a root of the generator, has the same ones. No remainder means that the row is a code word, and
//! there is nothing to look for; the values alone would not tell, the generator having more roots.
//!
//! Why nothing else is taken. Whatever the roots were, the changed row is handed back only if at
//! most eight of its 272 positions were changed and long division finds it a multiple of the
//! generator. The left-off 273rd place is never among the positions tried.

use crate::field::{degree, sum, Field};
use crate::rows::{is_multiple, remainder, Row, PARITY};
use std::sync::OnceLock;

pub const POSITIONS: usize = 272;
pub const LONG_POSITIONS: usize = 273;
pub const MOST_CHANGES: usize = 8;
const SYNDROMES: usize = 2 * MOST_CHANGES;

pub struct Algebra {
    pub field: Field,
    /// B as a power of the field's primitive element.
    root: usize,
}

/// Made once: building the tables costs more than a correction.
pub fn algebra() -> &'static Algebra {
    static ALGEBRA: OnceLock<Algebra> = OnceLock::new();
    ALGEBRA.get_or_init(Algebra::new)
}

impl Algebra {
    fn new() -> Algebra {
        let field = Field::new();
        // The elements of order 273 are the powers of x^15 by numbers prime to 273 = 3 * 7 * 13.
        let root = (1..LONG_POSITIONS)
            .filter(|number| number % 3 != 0 && number % 7 != 0 && number % 13 != 0)
            .map(|number| 15 * number)
            .find(|root| has_roots_in_a_row(&field, *root))
            .expect("seventeen roots of the generator in a row");
        Algebra { field, root }
    }

    pub fn root_power(&self, exponent: usize) -> u16 {
        self.field.power(self.root * exponent)
    }

    fn syndromes(&self, row: &[bool]) -> Vec<u16> {
        let mut syndromes = vec![0; SYNDROMES];
        for j in 1..=SYNDROMES {
            // Squaring is linear here, so the even ones follow from the ones before.
            syndromes[j - 1] = match j % 2 {
                0 => self.field.times(syndromes[j / 2 - 1], syndromes[j / 2 - 1]),
                _ => self.field.value_of_row(row, self.root_power(j)),
            };
        }
        syndromes
    }

    /// Euclid's algorithm on z^16 and the syndromes, stopped halfway.
    fn locator(&self, syndromes: Vec<u16>) -> Vec<u16> {
        let mut before = vec![0; SYNDROMES + 1];
        before[SYNDROMES] = 1;
        let mut rest = syndromes;
        let mut locator_before = vec![0];
        let mut locator = vec![1];
        while degree(&rest) >= Some(MOST_CHANGES) {
            let (quotient, next) = self.field.divided(&before, &rest);
            let next_locator = sum(&locator_before, &self.field.product(&quotient, &locator));
            before = std::mem::replace(&mut rest, next);
            locator_before = std::mem::replace(&mut locator, next_locator);
        }
        locator
    }

    fn places(&self, locator: &[u16]) -> Vec<usize> {
        (0..POSITIONS)
            .filter(|position| self.is_place(locator, *position))
            .collect()
    }

    /// 1 / X is B^(273 - (271 - p)) = B^(p + 2).
    fn is_place(&self, locator: &[u16], position: usize) -> bool {
        self.field.value(locator, self.root_power(position + 2)) == 0
    }
}

fn has_roots_in_a_row(field: &Field, root: usize) -> bool {
    (0..=SYNDROMES).all(|j| {
        PARITY
            .iter()
            .fold(0, |value, power| value ^ field.power(root * j * power))
            == 0
    })
}

pub fn is_code_word(row: &[bool]) -> bool {
    row.len() == POSITIONS && is_multiple(row, &PARITY)
}

/// The code word within eight places of a row of 272 bits, and the places that were changed, the
/// lowest first.
pub fn nearest_word(received: &[bool]) -> Option<(Row, Vec<usize>)> {
    let rest = remainder(received, &PARITY);
    if rest.iter().all(|bit| !bit) {
        return Some((received.to_vec(), Vec::new()));
    }
    let algebra = algebra();
    let places = algebra.places(&algebra.locator(algebra.syndromes(&rest)));
    let mut row = received.to_vec();
    for place in &places {
        row[*place] ^= true;
    }
    if places.len() > MOST_CHANGES || !is_code_word(&row) {
        return None;
    }
    Some((row, places))
}
