//! Rows of bits as polynomials over the field of two elements, the highest power first, and the
//! long division that serves the parity, the check bits and the header checks alike.

pub type Row = Vec<bool>;

/// The powers with coefficient one, the highest first. The first is the degree.
pub type Divisor = [usize];

pub const PARITY: [usize; 18] = [
    82, 77, 76, 71, 67, 66, 56, 52, 48, 40, 36, 34, 24, 22, 18, 10, 4, 0,
];
pub const CHECK: [usize; 4] = [14, 11, 2, 0];
pub const HEADER: [usize; 4] = [6, 4, 3, 0];

/// The remainder by schoolbook long division: wherever a one stands too high, the divisor is
/// taken away below it.
pub fn remainder(row: &[bool], divisor: &Divisor) -> Row {
    let degree = divisor[0];
    let mut rest = row.to_vec();
    let quotient_places = rest.len().saturating_sub(degree);
    for place in 0..quotient_places {
        if rest[place] {
            for power in divisor {
                rest[place + degree - power] ^= true;
            }
        }
    }
    rest.split_off(quotient_places)
}

/// The row made a multiple of the divisor by the remainder set behind it.
pub fn with_remainder(row: &[bool], divisor: &Divisor) -> Row {
    let mut raised = row.to_vec();
    raised.resize(row.len() + divisor[0], false);
    let mut whole = row.to_vec();
    whole.extend(remainder(&raised, divisor));
    whole
}

pub fn is_multiple(row: &[bool], divisor: &Divisor) -> bool {
    remainder(row, divisor).iter().all(|bit| !bit)
}

/// Blocks: position p is the bit of weight 2^(p mod 8) in byte p / 8.
pub fn from_block(bytes: &[u8]) -> Row {
    bytes
        .iter()
        .flat_map(|byte| (0..8).map(move |weight| byte >> weight & 1 == 1))
        .collect()
}

pub fn to_block(row: &[bool]) -> Vec<u8> {
    row.chunks(8)
        .map(|bits| bits.iter().rev().fold(0, shifted_in))
        .collect()
}

/// Headers: fields from b7 of the first byte, most significant bit first.
pub fn from_header(bytes: &[u8]) -> Row {
    bytes
        .iter()
        .flat_map(|byte| (0..8).rev().map(move |weight| byte >> weight & 1 == 1))
        .collect()
}

pub fn to_header(row: &[bool]) -> Vec<u8> {
    row.chunks(8)
        .map(|bits| bits.iter().fold(0, shifted_in))
        .collect()
}

fn shifted_in(byte: u8, bit: &bool) -> u8 {
    byte << 1 | u8::from(*bit)
}
