//! The field, the code, the corrector and the blocks.

use super::{expect, expect_equal, Outcome};
use crate::block;
use crate::cases;
use crate::cases::patterns::*;
use crate::corrector::*;
use crate::notation::{Arguments, Line};
use crate::probe::answer;
use crate::random::Random;
use crate::rows::*;
use crate::search::Sums;

fn random() -> Random {
    Random::new(1, "selftest")
}

/// Multiplication without tables: shift and add, then the modulus taken away from the top.
fn plain_product(a: u16, b: u16) -> u16 {
    let mut product: u32 = 0;
    for bit in 0..12 {
        if b >> bit & 1 == 1 {
            product ^= u32::from(a) << bit;
        }
    }
    for bit in (12..24).rev() {
        if product >> bit & 1 == 1 {
            product ^= 0b1_0000_0101_0011 << (bit - 12);
        }
    }
    product as u16
}

pub fn field() -> Outcome {
    let random = random();
    for _ in 0..100_000 {
        let (a, b) = (random.below(4096) as u16, random.below(4096) as u16);
        expect_equal(algebra().field.times(a, b), plain_product(a, b), "product")?;
    }
    let mut powers: Vec<u16> = (0..4095)
        .map(|exponent| algebra().field.power(exponent))
        .collect();
    powers.sort_unstable();
    expect(powers.iter().copied().eq(1..4096), || {
        String::from("x has not the full order")
    })
}

pub fn roots() -> Outcome {
    let mut generator = vec![false; PARITY[0] + 1];
    PARITY
        .iter()
        .for_each(|power| generator[PARITY[0] - power] = true);
    for j in 0..=16 {
        let value = algebra()
            .field
            .value_of_row(&generator, algebra().root_power(j));
        expect_equal(value, 0, "value of the generator")?;
    }
    for exponent in 1..273 {
        expect(algebra().root_power(exponent) != 1, || {
            format!("order {exponent}")
        })?;
    }
    expect_equal(algebra().root_power(273), 1, "power 273")?;
    let mut whole = vec![false; 274];
    (whole[0], whole[273]) = (true, true);
    expect(is_multiple(&whole, &PARITY), || {
        String::from("x^273 + 1 is no multiple")
    })
}

pub fn code() -> Outcome {
    for sum in 0..LONG_POSITIONS {
        let sum_places = parity_sum(sum);
        for word in least_words() {
            let shared = word
                .iter()
                .filter(|power| sum_places.contains(power))
                .count();
            expect(shared % 2 == 0, || {
                format!("sum {sum} has {shared} places of a word")
            })?;
        }
    }
    for word in least_words() {
        let mut row = vec![false; POSITIONS];
        flip(&mut row, &turned(&random(), &word));
        expect(is_code_word(&row), || format!("{word:?} is no word"))?;
    }
    let places = parity_sum(0);
    let difference = |a: usize, b: usize| (places[a] + LONG_POSITIONS - places[b]) % LONG_POSITIONS;
    let mut met = vec![0; LONG_POSITIONS];
    (0..17).for_each(|a| (0..17).for_each(|b| met[difference(a, b)] += 1));
    expect(met[1..].iter().all(|times| *times == 1), || {
        String::from("no difference set")
    })
}

/// The remainder of row times x^degree, bit by bit as a sender's register makes it.
fn register(row: &[bool], divisor: &Divisor) -> Row {
    let degree = divisor[0];
    let mut register = vec![false; degree];
    for bit in row {
        let out = register[0] ^ bit;
        register.rotate_left(1);
        register[degree - 1] = false;
        if out {
            divisor[1..]
                .iter()
                .for_each(|power| register[degree - 1 - power] ^= true);
        }
    }
    register
}

pub fn divisions() -> Outcome {
    let random = random();
    let divisors: [&Divisor; 3] = [&PARITY, &CHECK, &HEADER];
    for divisor in divisors {
        for _ in 0..300 {
            let row = random.bits(random.between(1, 300));
            let whole = with_remainder(&row, divisor);
            expect_equal(
                &whole[row.len()..],
                &register(&row, divisor)[..],
                "remainder",
            )?;
            expect(is_multiple(&whole, divisor), || String::from("no multiple"))?;
        }
    }
    Ok(())
}

fn expect_put_right(word: &Row, wrong: &[usize]) -> Outcome {
    let mut row = word.clone();
    flip(&mut row, wrong);
    expect(
        nearest_word(&row) == Some((word.clone(), positions(wrong))),
        || format!("{wrong:?}"),
    )
}

/// None, each one, each two, and many of three to eight.
pub fn few_wrong_places() -> Outcome {
    let zero = vec![false; POSITIONS];
    expect_put_right(&zero, &[])?;
    for first in 0..POSITIONS {
        expect_put_right(&zero, &[first])?;
        for second in 0..first {
            expect_put_right(&zero, &[first, second])?;
        }
    }
    let random = random();
    for round in 0..20_000 {
        let word = random_word(&random);
        expect_put_right(&word, &random.some_below(3 + round % 6, POSITIONS))?;
    }
    Ok(())
}

/// None to nine wrong places, on words with right and with wrong check bits.
pub fn changed_places() -> Outcome {
    let random = random();
    for round in 0..2_000 {
        let wrong = random.some_below(round % 10, POSITIONS);
        let word = with_remainder(&with_remainder(&random.bits(176), &CHECK), &PARITY);
        expect_told("correct", "word", &word, &wrong)?;
        expect_told("read-block", "information", &word, &wrong)?;
        let word = word_with_wrong_check(&random, round);
        expect_told("read-block", "3", &word, &wrong)?;
    }
    Ok(())
}

/// The row in the answer leads from the received bytes to those of the word. Nine places from one
/// there is no word within eight, and the row leads nowhere.
fn expect_told(command: &str, name: &str, word: &Row, wrong: &[usize]) -> Outcome {
    let mut received = word.clone();
    flip(&mut received, wrong);
    let (name, reached) = match wrong.len() {
        9 => ("2", &received),
        _ => (name, word),
    };
    let (start, row) = told(command, &to_block(&received));
    let turned: Vec<u8> = to_block(&received)
        .iter()
        .zip(&row)
        .map(|(byte, turn)| byte ^ turn)
        .collect();
    expect_equal(turned, to_block(reached), command)?;
    expect_equal(&row[block::BLOCK_BYTES..], &[0; 6], "behind the last place")?;
    let ones: u32 = row.iter().map(|byte| byte.count_ones()).sum();
    expect_equal(start, format!("{name} {ones}"), command)
}

/// The first two fields of an answer, and the bytes of its row.
fn told(command: &str, received: &[u8]) -> (String, Vec<u8>) {
    let lent = match command {
        "correct" => block::BLOCK_BYTES,
        _ => block::INFORMATION_BYTES,
    };
    let case = Line::new(command).bytes(received).bytes(&vec![0; lent]);
    let answer = answer(&case.done());
    let fields: Vec<&[u8]> = answer.split(|byte| *byte == b'\t').collect();
    let start = fields[..2].join(&b' ');
    let row = bytes_of_row(&fields[2..fields.len() - 1]);
    (String::from_utf8_lossy(&start).into_owned(), row)
}

/// The words read as bytes instead of as numbers: the lowest byte of each stands last.
fn bytes_of_row(words: &[&[u8]]) -> Vec<u8> {
    let mut words = Arguments::new(words);
    std::iter::from_fn(|| words.bytes())
        .flat_map(|word| word.into_iter().rev())
        .collect()
}

/// On the cases the generator makes, the adversarial ones among them, and on more of eight to
/// twelve wrong places.
pub fn search() -> Outcome {
    let sums = Sums::new();
    let random = random();
    let mut rows: Vec<Row> = (0..250)
        .map(|round| {
            let mut row = random_word(&random);
            flip(&mut row, &random.some_below(8 + round % 5, POSITIONS));
            row
        })
        .collect();
    cases::make(&cases::makers("correct")[0], 1000, 1, &mut |case| {
        let fields: Vec<&[u8]> = case.split(|byte| *byte == b'\t').skip(1).collect();
        let received = Arguments::new(&fields).bytes().unwrap_or_default();
        rows.extend((received.len() == block::BLOCK_BYTES).then(|| from_block(&received)));
        Ok(())
    })
    .map_err(|error| error.to_string())?;
    for row in &rows {
        let (found, wanted) = (nearest_word(row), sums.nearest_word(row));
        expect(found == wanted, || format!("{} differs", hexadecimal(row)))?;
    }
    Ok(())
}

fn hexadecimal(row: &[bool]) -> String {
    to_block(row)
        .iter()
        .map(|byte| format!("{byte:02x}"))
        .collect()
}

/// Positions a vote changes that asks for so many failing sums.
fn voted(sums: &Sums, row: &[bool], needed: usize) -> Vec<usize> {
    let failing = sums.failing_at_positions(row);
    (0..POSITIONS)
        .filter(|position| failing[*position] >= needed)
        .collect()
}

fn positions(powers: &[usize]) -> Vec<usize> {
    let mut positions: Vec<usize> = powers.iter().map(|power| POSITIONS - 1 - power).collect();
    positions.sort_unstable();
    positions
}

/// The patterns are what their comments say, and the corrector takes none of them.
pub fn votes() -> Outcome {
    let sums = Sums::new();
    let needed: [&[usize]; 9] = [
        &[9, 10],
        &[9, 10],
        &[9, 10],
        &[9, 10],
        &[9],
        &[9],
        &[9],
        &[9, 10],
        &[10],
    ];
    for (pattern, needed) in RESTORED_BY_A_VOTE.iter().zip(needed) {
        let row = pattern_row(pattern);
        for needed in needed {
            expect_equal(
                voted(&sums, &row, *needed),
                positions(pattern),
                "changed by a vote",
            )?;
        }
        expect(nearest_word(&row).is_none(), || {
            format!("{pattern:?} is taken")
        })?;
    }
    for (i, pattern) in LEFT_BY_A_VOTE.iter().enumerate() {
        expect_left(&sums, pattern, if i == 0 { 10 } else { 9 })?;
    }
    Ok(())
}

/// A vote changes at most eight places and leaves no word.
fn expect_left(sums: &Sums, pattern: &[usize], needed: usize) -> Outcome {
    let mut row = pattern_row(pattern);
    expect(nearest_word(&row).is_none(), || {
        format!("{pattern:?} is taken")
    })?;
    let changed = voted(sums, &row, needed);
    expect((1..=8).contains(&changed.len()), || {
        format!("{pattern:?}: {changed:?}")
    })?;
    changed.iter().for_each(|position| row[*position] ^= true);
    expect(!is_code_word(&row), || format!("{pattern:?} leaves a word"))
}

fn pattern_row(pattern: &[usize]) -> Row {
    let mut row = vec![false; POSITIONS];
    flip(&mut row, pattern);
    row
}

/// 000, clause 11.1, as printed there: the leftmost bit of a byte is sent first.
pub fn published() -> Outcome {
    let printed = "40008040EC040A4AF252A2C22A04B2829272B2A272AA";
    let data: String = printed.chars().map(|digit| bits_of(digit)).collect();
    let parity: String = "24202A6000892ADDF597B"
        .chars()
        .map(|digit| bits_of(digit))
        .collect();
    // 82 bits at the right of 21 digits.
    let sent = data.clone() + "11011100000100" + &parity[2..];
    let row = |text: &str| -> Row { text.chars().map(|bit| bit == '1').collect() };
    let information = to_block(&row(&data));
    let mut block = [0; block::BLOCK_BYTES];
    expect_equal(
        block::write_block(&information, &mut block),
        Ok(()),
        "written",
    )?;
    expect_equal(&block[..], &to_block(&row(&sent))[..], "block")?;
    let mut output = [0; block::INFORMATION_BYTES];
    expect_equal(
        block::read_block(&block, &mut output),
        Ok(block::Changes::default()),
        "read",
    )?;
    expect_equal(&output[..], &information[..], "information")
}

fn bits_of(digit: char) -> String {
    format!("{:04b}", digit.to_digit(16).unwrap_or(0))
}
