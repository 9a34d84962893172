//! Cases for the channel state. A script is several steps chained through one state; each step is
//! a case with the state in its line.

use super::writers::{data, fill, EDGE_NUMBERS, EDGE_SIZES};
use super::{several, Case};
use crate::block::INFORMATION_BYTES;
use crate::channel::{Channel, Phase};
use crate::message::*;
use crate::notation::Line;
use crate::random::Random;

struct Script {
    channel: Channel,
    cases: Vec<Case>,
}

impl Script {
    fn from(channel: Channel) -> Script {
        Script {
            channel,
            cases: Vec::new(),
        }
    }

    fn feed(&mut self, information: &[u8]) {
        self.cases.push(
            Line::new("step")
                .channel(&self.channel)
                .bytes(information)
                .done(),
        );
        self.channel.step(information);
    }

    fn feed_all(mut self, blocks: &[Vec<u8>]) -> Vec<Case> {
        for information in blocks {
            self.feed(information);
        }
        self.cases
    }
}

/// Bytes left from before may stand in any state.
fn state(random: &Random, phase: Phase, length: u32, expected: u8) -> Channel {
    let bytes = if random.one_in(3) {
        vec![0; 260]
    } else {
        random.bytes(260)
    };
    Channel {
        bytes,
        length,
        phase,
        expected,
    }
}

fn ready(random: &Random, expected: u8) -> Channel {
    state(random, Phase::Ready, 0, expected)
}

fn good_state(random: &Random) -> Channel {
    let expected = random.below(16) as u8;
    match random.below(4) {
        0 => state(random, Phase::Waiting, 0, 0),
        1 => ready(random, expected),
        _ => {
            let length = 20 * random.between(1, 13) as u32;
            state(random, Phase::Gathering, length, expected)
        }
    }
}

/// The information blocks of a written message.
fn written(fill: &Fill, data: &[u8]) -> Vec<Vec<u8>> {
    let mut output = vec![0; 13 * INFORMATION_BYTES];
    let blocks = write_message(fill, data, &mut output).expect("fields and data keep the rule");
    output
        .chunks(INFORMATION_BYTES)
        .take(blocks)
        .map(<[u8]>::to_vec)
        .collect()
}

/// Messages one after the other, SC running on, and the SC of the first block.
fn written_messages(random: &Random, count: usize) -> (Vec<Vec<u8>>, u8) {
    let first = fill(random);
    let mut blocks = Vec::new();
    for _ in 0..count {
        let sc = ((usize::from(first.sc) + blocks.len()) % 16) as u8;
        let next = Fill { sc, ..fill(random) };
        // Mostly a few blocks: a script is about what happens between them.
        let data = if random.one_in(6) {
            data(random)
        } else {
            random.bytes(random.below(80))
        };
        blocks.extend(written(&next, &data));
    }
    (blocks, first.sc)
}

/// A block with a right header over the given data.
fn block(header: BlockHeader, data: &[u8]) -> Vec<u8> {
    let mut information = header.write();
    information.extend(data);
    information
}

/// The same data under a header changed and given a right check again.
fn reheaded(information: &[u8], change: impl Fn(&mut BlockHeader)) -> Vec<u8> {
    let (mut header, _) = BlockHeader::read(information);
    change(&mut header);
    block(header, &information[2..])
}

pub fn new_channel(_: &Random, _: usize) -> Vec<Case> {
    vec![Line::new("new-channel").done()]
}

pub fn step(random: &Random, index: usize) -> Vec<Case> {
    let round = index / 18;
    match index % 18 {
        0 => edge_message(random, round),
        1 => undisturbed(random),
        2 => lost(random),
        3 => repeated_or_swapped(random),
        4 => block_header_bit_turned(random, round),
        5 => last_flag_turned(random),
        6 => fourteen_blocks(random),
        7 => several(4, round, |round| broken_state(random, round)),
        8 => wrong_length(random),
        9 => other_channel(random),
        10 => several(4, round, |round| header_form(random, round)),
        11 => several(2, round, |_| wrong_block_count(random)),
        12 => several(2, round, |_| padding(random)),
        13 => several(4, round, |round| message_header_bit_turned(random, round)),
        14 => several(2, round, |_| random_block(random)),
        15 => random_message_with_right_check(random),
        16 => from_waiting(random),
        _ => mixed_di(random),
    }
}

/// Every edge number with every edge size in turn, read back from a ready channel.
fn edge_message(random: &Random, round: usize) -> Vec<Case> {
    let number = EDGE_NUMBERS[round % EDGE_NUMBERS.len()];
    // Nine numbers and sixteen sizes: every pair comes within 144 rounds.
    let size = EDGE_SIZES[round % EDGE_SIZES.len()];
    let fill = Fill {
        number,
        ..fill(random)
    };
    let blocks = written(&fill, &random.bytes(size));
    Script::from(ready(random, fill.sc)).feed_all(&blocks)
}

fn undisturbed(random: &Random) -> Vec<Case> {
    let (blocks, sc) = written_messages(random, 3);
    Script::from(ready(random, sc)).feed_all(&blocks)
}

/// One to seventeen blocks lost in a run; sixteen do not show in SC.
fn lost(random: &Random) -> Vec<Case> {
    let (mut blocks, sc) = written_messages(random, 4);
    let start = random.below(blocks.len());
    let count = random.pick(&[1, 1, 1, 2, 3, 15, 16, 17]);
    blocks.drain(start..(start + count).min(blocks.len()));
    Script::from(ready(random, sc)).feed_all(&blocks)
}

fn repeated_or_swapped(random: &Random) -> Vec<Case> {
    let (mut blocks, sc) = written_messages(random, 2);
    let place = random.below(blocks.len());
    let other = random.below(blocks.len());
    match random.flag() {
        true => blocks.insert(place, blocks[place].clone()),
        false => blocks.swap(place, other),
    }
    Script::from(ready(random, sc)).feed_all(&blocks)
}

/// Each of the sixteen bits in turn, the check left as it was.
fn block_header_bit_turned(random: &Random, round: usize) -> Vec<Case> {
    let (mut blocks, sc) = written_messages(random, 2);
    let place = random.below(blocks.len());
    let bit = round % 16;
    blocks[place][bit / 8] ^= 0x80 >> (bit % 8);
    Script::from(ready(random, sc)).feed_all(&blocks)
}

/// LF in the middle of a message, or missing at its end, with a right check.
fn last_flag_turned(random: &Random) -> Vec<Case> {
    let (mut blocks, sc) = written_messages(random, 3);
    let place = random.below(blocks.len());
    blocks[place] = reheaded(&blocks[place], |header| header.lf ^= true);
    Script::from(ready(random, sc)).feed_all(&blocks)
}

/// Thirteen are taken; the fourteenth, with LF or without, or out of step, is not. One follows.
/// Mostly the state has gathered ten already.
fn fourteen_blocks(random: &Random) -> Vec<Case> {
    let sc = random.below(16);
    let before = if random.one_in(5) { 0 } else { 10 };
    let last = random.flag();
    let slip = usize::from(random.one_in(4));
    let mut blocks = Vec::new();
    for i in before..15 {
        let counted = sc + i + if i == 13 { slip } else { 0 };
        let lf = i == 13 && last;
        let header = BlockHeader::on_long_messages(random.flag(), lf, (counted % 16) as u8);
        blocks.push(block(header, &random.bytes(DATA_BYTES)));
    }
    let expected = ((sc + before) % 16) as u8;
    let start = match before {
        0 => ready(random, expected),
        _ => state(random, Phase::Gathering, 20 * before as u32, expected),
    };
    Script::from(start).feed_all(&blocks)
}

const BROKEN_STATES: [(Phase, u32, u8); 24] = [
    (Phase::Waiting, 0, 1),
    (Phase::Waiting, 0, 15),
    (Phase::Waiting, 0, 16),
    (Phase::Waiting, 1, 0),
    (Phase::Waiting, 20, 0),
    (Phase::Waiting, 260, 0),
    (Phase::Ready, 0, 16),
    (Phase::Ready, 0, 255),
    (Phase::Ready, 1, 0),
    (Phase::Ready, 20, 3),
    (Phase::Ready, u32::MAX, 0),
    (Phase::Gathering, 0, 0),
    (Phase::Gathering, 1, 0),
    (Phase::Gathering, 19, 4),
    (Phase::Gathering, 21, 4),
    (Phase::Gathering, 30, 0),
    (Phase::Gathering, 20, 16),
    (Phase::Gathering, 260, 255),
    (Phase::Gathering, 259, 0),
    (Phase::Gathering, 261, 0),
    (Phase::Gathering, 280, 0),
    // Twenty modulo 256 and 2^16, and a multiple of twenty near 2^32.
    (Phase::Gathering, 276, 0),
    (Phase::Gathering, 65_556, 0),
    (Phase::Gathering, 4_294_967_280, 0),
];

/// A state outside the rule is refused before anything the block may have wrong.
fn broken_state(random: &Random, round: usize) -> Vec<Case> {
    let (phase, length, expected) = BROKEN_STATES[round % BROKEN_STATES.len()];
    let channel = state(random, phase, length, expected);
    let header = BlockHeader::on_long_messages(false, random.flag(), expected % 16);
    let good = block(header, &random.bytes(DATA_BYTES));
    let information = random.pick(&[good.clone(), good, vec![0xA4; 21], vec![0; 22]]);
    Script::from(channel).feed_all(&[information])
}

fn wrong_length(random: &Random) -> Vec<Case> {
    let channel = good_state(random);
    let sc = channel.expected;
    let length = random.pick(&[0, 1, 2, 20, 21, 23, 34, 44, 300]);
    let mut information = block(
        BlockHeader::on_long_messages(false, random.flag(), sc),
        &random.bytes(DATA_BYTES),
    );
    information.resize(length, 0);
    Script::from(channel).feed_all(&[information])
}

/// Another SI/LCh, with a right check or a wrong one, in the middle of a message.
fn other_channel(random: &Random) -> Vec<Case> {
    let (mut blocks, sc) = written_messages(random, 1);
    let place = random.below(blocks.len());
    let channel = random.pick(&[0, 1, 2, 5, 8, 9, 11, 14, 15]);
    let mut other = reheaded(&blocks[place], |header| header.channel = channel);
    if random.one_in(3) {
        other[1] ^= 1 << random.below(6);
    }
    blocks.insert(place, other);
    Script::from(ready(random, sc)).feed_all(&blocks)
}

/// Feeds a message made by hand: all its blocks from ready, or only the last one to a state that
/// has gathered the others.
fn feed_message(random: &Random, message: &[u8]) -> Vec<Case> {
    let sc = random.below(16) as u8;
    let mut blocks: Vec<Vec<u8>> = cut_into_blocks(message, random.flag(), sc)
        .chunks(INFORMATION_BYTES)
        .map(<[u8]>::to_vec)
        .collect();
    let mut channel = ready(random, sc);
    if blocks.len() > 1 && !random.one_in(8) {
        let before = blocks.len() - 1;
        channel.bytes[..DATA_BYTES * before].copy_from_slice(&message[..DATA_BYTES * before]);
        channel.length = (DATA_BYTES * before) as u32;
        channel.phase = Phase::Gathering;
        channel.expected = ((usize::from(sc) + before) % 16) as u8;
        blocks.drain(..before);
    }
    Script::from(channel).feed_all(&blocks)
}

fn header(random: &Random) -> MessageHeader {
    let ext = random.flag();
    MessageHeader {
        ri: random.below(4) as u8,
        ci: random.below(4) as u8,
        first: random.flag(),
        last: random.flag(),
        ext,
        add: random.pick(&[0, 1, 511, random.below(512) as u16]),
        ext_add: if ext {
            random.pick(&[1, 31, random.between(1, 31) as u16])
        } else {
            0
        },
        rfa: 0,
        com: random.flag(),
        caf: false,
        length: random.pick(&[0, 15, 16, 17, 254, 255, random.byte()]),
    }
}

fn message(random: &Random, header: &MessageHeader) -> Vec<u8> {
    let mut bytes = header.write();
    bytes.extend(random.bytes(usize::from(header.length)));
    bytes
}

/// CAF, RFA and the wrong EXT form, alone and together, with a right check and a wrong one.
fn header_form(random: &Random, round: usize) -> Vec<Case> {
    let mut header = header(random);
    if round & 1 > 0 {
        header.caf = true;
    }
    if round & 2 > 0 {
        header.ext = true;
        header.ext_add = random.between(1, 31) as u16;
        header.rfa = random.between(1, 7) as u8;
    }
    if round & 4 > 0 {
        header.ext = true;
        header.ext_add = 0;
    }
    let mut message = message(random, &header);
    if round & 8 > 0 {
        message[header.size() - 1] ^= 1 << random.below(6);
    }
    feed_message(random, &message)
}

/// The length field says something else than the blocks, under a right check. The tail is zero,
/// so that only the count of blocks is wrong.
fn wrong_block_count(random: &Random) -> Vec<Case> {
    let header = header(random);
    let real = message(random, &header).len().div_ceil(DATA_BYTES);
    let blocks = match random.below(3) {
        0 => real + 1,
        1 => real.saturating_sub(1),
        _ => random.between(1, 13),
    };
    let mut bytes = header.write();
    bytes.resize(DATA_BYTES * blocks.clamp(1, 13), 0);
    feed_message(random, &bytes)
}

/// One bit of the padding set, often its first or its last byte.
fn padding(random: &Random) -> Vec<Case> {
    let header = header(random);
    let mut bytes = message(random, &header);
    let filled = bytes.len();
    bytes.resize(DATA_BYTES * filled.div_ceil(DATA_BYTES), 0);
    if filled < bytes.len() {
        let place = random.between(filled, bytes.len() - 1);
        let place = random.pick(&[filled, place, bytes.len() - 1]);
        bytes[place] |= 1 << random.below(8);
    }
    feed_message(random, &bytes)
}

/// Each of the 32 or 40 bits in turn, the check left as it was.
fn message_header_bit_turned(random: &Random, round: usize) -> Vec<Case> {
    let header = header(random);
    let mut bytes = message(random, &header);
    let bit = round % (8 * header.size());
    bytes[bit / 8] ^= 0x80 >> (bit % 8);
    feed_message(random, &bytes)
}

/// A good state, near its expected SC, and bytes that mean nothing.
fn random_block(random: &Random) -> Vec<Case> {
    let channel = good_state(random);
    let slip = random.pick(&[0, 0, 0, 1, 15, random.below(16) as u8]);
    let sc = (channel.expected + slip) % 16;
    let header = BlockHeader::on_long_messages(random.flag(), random.flag(), sc);
    let information = block(header, &random.bytes(DATA_BYTES));
    Script::from(channel).feed_all(&[information])
}

/// Any header bits under a right check, with as many blocks as the length asks for.
fn random_message_with_right_check(random: &Random) -> Vec<Case> {
    let ext = random.flag();
    let header = MessageHeader {
        ext,
        ext_add: if ext { random.below(32) as u16 } else { 0 },
        rfa: if ext && random.one_in(4) {
            random.below(8) as u8
        } else {
            0
        },
        caf: random.one_in(6),
        ..header(random)
    };
    let bytes = message(random, &header);
    feed_message(random, &bytes)
}

/// From waiting nothing is taken before an LF has been seen.
fn from_waiting(random: &Random) -> Vec<Case> {
    let (mut blocks, _) = written_messages(random, 3);
    let skipped = random.below(blocks.len());
    blocks.drain(..skipped);
    let start = if random.flag() {
        Channel::fresh()
    } else {
        state(random, Phase::Waiting, 0, 0)
    };
    Script::from(start).feed_all(&blocks)
}

fn mixed_di(random: &Random) -> Vec<Case> {
    let (blocks, sc) = written_messages(random, 1);
    let mixed: Vec<Vec<u8>> = blocks
        .iter()
        .map(|information| {
            let di = random.flag();
            reheaded(information, |header| header.di = di)
        })
        .collect();
    Script::from(ready(random, sc)).feed_all(&mixed)
}
