//! The exact decimal expansion of a binary64, for the spreadsheet.

const FRACTION_BITS: u32 = 52;
const EXPONENT_OF_ONE: i32 = 1023;

/// All digits, no exponent, no zeros at the end, no point where there is no fraction.
///
/// For positive numbers below 2^53 whose lowest bit is worth at least 2^-120; the means and
/// shares of a log lie between 1 / 999,999 and 8, so their lowest bit is worth at least 2^-72.
pub fn exact(number: f64) -> String {
    if number == 0.0 {
        return String::from("0");
    }
    let places = places_behind_point(number);
    let scaled = u128::from(significand(number));
    if places <= 0 {
        return (scaled << -places).to_string();
    }
    let mut fraction = scaled & ((1 << places) - 1);
    let mut text = (scaled >> places).to_string();
    if fraction > 0 {
        text.push('.');
    }
    // Each round moves one binary place out of the fraction, so it ends.
    while fraction > 0 {
        fraction *= 10;
        text.push(char::from(b'0' + (fraction >> places) as u8));
        fraction &= (1 << places) - 1;
    }
    text
}

/// The whole number whose quotient by 2^places the number is.
fn significand(number: f64) -> u64 {
    let fraction = number.to_bits() & ((1 << FRACTION_BITS) - 1);
    fraction | 1 << FRACTION_BITS
}

fn places_behind_point(number: f64) -> i32 {
    let exponent = (number.to_bits() >> FRACTION_BITS & 0x7FF) as i32 - EXPONENT_OF_ONE;
    FRACTION_BITS as i32 - exponent
}
