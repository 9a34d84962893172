//! The field of 4,096 elements. 273 divides 4,095, so it holds all 273rd roots of one and with
//! them every root of the code's generator.

/// x^12 + x^6 + x^4 + x + 1, of which x is a root of the full order 4,095.
const MODULUS: u32 = 0b1_0000_0101_0011;
const NONZERO: usize = 4095;

pub struct Field {
    powers: Vec<u16>,
    logarithms: Vec<usize>,
}

impl Field {
    pub fn new() -> Field {
        let mut powers = Vec::with_capacity(NONZERO);
        let mut logarithms = vec![0; NONZERO + 1];
        let mut element: u32 = 1;
        for exponent in 0..NONZERO {
            powers.push(element as u16);
            logarithms[element as usize] = exponent;
            element <<= 1;
            if element > NONZERO as u32 {
                element ^= MODULUS;
            }
        }
        Field { powers, logarithms }
    }

    pub fn power(&self, exponent: usize) -> u16 {
        self.powers[exponent % NONZERO]
    }

    pub fn times(&self, a: u16, b: u16) -> u16 {
        if a == 0 || b == 0 {
            return 0;
        }
        self.power(self.logarithms[a as usize] + self.logarithms[b as usize])
    }

    /// Only for a divisor other than zero.
    fn over(&self, a: u16, b: u16) -> u16 {
        if a == 0 {
            return 0;
        }
        self.power(self.logarithms[a as usize] + NONZERO - self.logarithms[b as usize])
    }

    /// The value of a row of bits, the highest power first, at an element other than zero.
    pub fn value_of_row(&self, row: &[bool], at: u16) -> u16 {
        let step = self.logarithms[at as usize];
        row.iter()
            .rev()
            .enumerate()
            .filter(|(_, bit)| **bit)
            .fold(0, |value, (exponent, _)| {
                value ^ self.power(step * exponent)
            })
    }

    /// The value of a polynomial over the field, the lowest power first, at an element other than
    /// zero. Term by term: Horner's rule would have each product wait for the one before.
    pub fn value(&self, polynomial: &[u16], at: u16) -> u16 {
        let step = self.logarithms[at as usize];
        polynomial
            .iter()
            .enumerate()
            .filter(|(_, coefficient)| **coefficient != 0)
            .fold(0, |value, (exponent, coefficient)| {
                value ^ self.power(self.logarithms[*coefficient as usize] + step * exponent)
            })
    }

    pub fn product(&self, a: &[u16], b: &[u16]) -> Vec<u16> {
        let mut product = vec![0; a.len() + b.len()];
        for (i, left) in a.iter().enumerate() {
            for (j, right) in b.iter().enumerate() {
                product[i + j] ^= self.times(*left, *right);
            }
        }
        trimmed(product)
    }

    /// Quotient and remainder; the divisor has a degree, so it is not zero.
    pub fn divided(&self, a: &[u16], b: &[u16]) -> (Vec<u16>, Vec<u16>) {
        let low = degree(b).expect("a divisor other than zero");
        let mut rest = a.to_vec();
        let mut quotient = vec![0; a.len()];
        while let Some(high) = degree(&rest).filter(|high| *high >= low) {
            let factor = self.over(rest[high], b[low]);
            quotient[high - low] = factor;
            for (i, coefficient) in b.iter().enumerate().take(low + 1) {
                rest[high - low + i] ^= self.times(factor, *coefficient);
            }
        }
        (trimmed(quotient), trimmed(rest))
    }
}

/// The zero polynomial has none, which compares as lower than every degree.
pub fn degree(polynomial: &[u16]) -> Option<usize> {
    polynomial.iter().rposition(|coefficient| *coefficient != 0)
}

pub fn sum(a: &[u16], b: &[u16]) -> Vec<u16> {
    let at = |polynomial: &[u16], i: usize| polynomial.get(i).copied().unwrap_or(0);
    trimmed(
        (0..a.len().max(b.len()))
            .map(|i| at(a, i) ^ at(b, i))
            .collect(),
    )
}

/// Without the zeros above the degree, which would only grow from step to step.
fn trimmed(mut polynomial: Vec<u16>) -> Vec<u16> {
    polynomial.truncate(degree(&polynomial).map_or(0, |degree| degree + 1));
    polynomial
}
