//! Cases for the message writer and the group writer.

use super::Case;
use crate::block::INFORMATION_BYTES;
use crate::message::*;
use crate::notation::Line;
use crate::random::Random;

pub const EDGE_NUMBERS: [u16; 9] = [0, 1, 64, 510, 511, 512, 513, 16382, LARGEST_NUMBER];
pub const EDGE_SIZES: [usize; 16] = [
    0,
    1,
    14,
    15,
    16,
    17,
    18,
    35,
    36,
    37,
    128,
    234,
    235,
    236,
    254,
    LARGEST_DATA,
];
pub const EDGE_GROUPS: [usize; 14] = [
    0,
    1,
    16,
    254,
    255,
    256,
    509,
    510,
    511,
    765,
    3570,
    3571,
    3824,
    LARGEST_GROUP,
];

pub fn fill(random: &Random) -> Fill {
    let number = match random.flag() {
        true => random.pick(&EDGE_NUMBERS),
        false => random.below(1 + usize::from(LARGEST_NUMBER)) as u16,
    };
    Fill {
        ri: random.below(4) as u8,
        ci: random.below(4) as u8,
        first: random.flag(),
        last: random.flag(),
        number,
        com: random.one_in(4),
        di: random.flag(),
        // Often near the end of the counter, so that it steps from 15 to 0.
        sc: if random.flag() {
            random.between(13, 15)
        } else {
            random.below(16)
        } as u8,
    }
}

pub fn data(random: &Random) -> Vec<u8> {
    let size = match random.flag() {
        true => random.pick(&EDGE_SIZES),
        false => random.between(0, LARGEST_DATA),
    };
    random.marked(size)
}

pub fn write_message_cases(random: &Random, index: usize) -> Vec<Case> {
    let mut fill = fill(random);
    let mut data = data(random);
    match index % 6 {
        0 | 1 => {}
        2 => {
            fill.number = EDGE_NUMBERS[index / 6 % EDGE_NUMBERS.len()];
            data = random.bytes(EDGE_SIZES[index / 6 % EDGE_SIZES.len()]);
        }
        3 => over_width(random, &mut fill, index / 6),
        4 => {
            let size = random.pick(&[255, 256, 257, 300, 511, 512, 520]);
            data = random.bytes(size);
        }
        _ => {
            over_width(random, &mut fill, index / 6);
            data.resize(256, 7);
        }
    }
    let header = if fill.number < 512 { 4 } else { 5 };
    let blocks = (header + data.len()).div_ceil(DATA_BYTES);
    let output = output_around(random, blocks * INFORMATION_BYTES);
    vec![message_line(&fill, &data, &output)]
}

fn message_line(fill: &Fill, data: &[u8], output: &[u8]) -> Case {
    Line::new("write-message")
        .number(fill.ri)
        .number(fill.ci)
        .number(fill.first)
        .number(fill.last)
        .number(fill.number)
        .number(fill.com)
        .number(fill.di)
        .number(fill.sc)
        .bytes(data)
        .bytes(output)
        .done()
}

/// One field at a time beyond its width, by one and by far.
fn over_width(random: &Random, fill: &mut Fill, round: usize) {
    match round % 4 {
        0 => fill.ri = random.pick(&[4, 5, 7, 128, 255]),
        1 => fill.ci = random.pick(&[4, 5, 7, 128, 255]),
        2 => fill.sc = random.pick(&[16, 17, 31, 128, 255]),
        _ => fill.number = random.pick(&[16384, 16385, 16896, 32768, 65535]),
    }
}

/// An output of just the length, one short, much too short, or longer.
fn output_around(random: &Random, length: usize) -> Vec<u8> {
    let longer = length + random.between(1, 60);
    let lengths = [
        length,
        length,
        length.saturating_sub(1),
        length + 1,
        longer,
        0,
        length / 2,
    ];
    let length = random.pick(&lengths);
    random.marked(length)
}

pub fn write_group_cases(random: &Random, index: usize) -> Vec<Case> {
    let mut fill = fill(random);
    let mut size = random.pick(&[random.below(600), random.below(LARGEST_GROUP + 1)]);
    match index % 4 {
        0 => {}
        1 => size = EDGE_GROUPS[index / 4 % EDGE_GROUPS.len()],
        2 => {
            over_width(random, &mut fill, index / 4);
            size = random.below(300);
        }
        _ => size = random.pick(&[0, 255, 256, 3824, 3825, 3826, 4000, 4080]),
    }
    let data = random.bytes(size);
    let output = output_around(random, INFORMATION_BYTES * blocks_for(fill.number, size));
    vec![Line::new("write-group")
        .number(fill.number)
        .number(fill.ri)
        .number(fill.di)
        .number(fill.sc)
        .number(fill.ci)
        .bytes(&data)
        .bytes(&output)
        .done()]
}

/// How many blocks a group of this size needs.
fn blocks_for(number: u16, size: usize) -> usize {
    let header = if number < 512 { 4 } else { 5 };
    let blocks = |data: usize| (header + data).div_ceil(DATA_BYTES);
    let whole = size.saturating_sub(1) / LARGEST_DATA;
    whole * blocks(LARGEST_DATA) + blocks(size - whole * LARGEST_DATA)
}
