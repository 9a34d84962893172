//! Cases for the group state; those about repeats are in `repeats.rs`.

use super::repeats::{alike, at_the_limit, buffer_changed, from_any_state, length_at_its_edge};
use super::repeats::{older_again, one_field_turned, other_data, repeated, without_data};
use super::writers::{EDGE_GROUPS, EDGE_NUMBERS};
use super::{several, Case};
use crate::group::{Group, Incoming, MOST_MESSAGES};
use crate::message::*;
use crate::notation::Line;
use crate::random::Random;
use std::ops::Range;

/// Messages chained through one state and one buffer.
pub struct Script {
    pub group: Group,
    pub buffer: Vec<u8>,
    cases: Vec<Case>,
}

impl Script {
    pub fn from(random: &Random, group: Group) -> Script {
        let length = random.pick(&[3825, 3825, 3825, 3826, 5000]);
        Script {
            group,
            buffer: random.marked(length),
            cases: Vec::new(),
        }
    }

    fn feed(&mut self, message: &Incoming) {
        let line = Line::new("join")
            .group(&self.group)
            .incoming(message)
            .bytes(&self.buffer);
        self.cases.push(line.done());
        self.group.join(message, &mut self.buffer);
    }

    pub fn feed_all(mut self, messages: &[Incoming]) -> Vec<Case> {
        for message in messages {
            self.feed(message);
        }
        self.cases
    }

    /// Where the message last joined on stands. A broken state may have it anywhere and of any
    /// length: then as much of it as a message can hold and the buffer has.
    pub fn last_place(&self) -> Range<usize> {
        let end = (self.group.held as usize).min(self.buffer.len());
        let length = (self.group.last_length as usize).min(LARGEST_DATA);
        end.saturating_sub(length)..end
    }

    /// The message last joined on, sent again.
    pub fn again(&self, random: &Random) -> Incoming {
        Incoming {
            ri: random.below(4) as u8,
            ci: self.group.ci,
            first: self.group.messages == 1,
            last: false,
            number: self.group.number,
            com: false,
            data: self.buffer[self.last_place()].to_vec(),
        }
    }

    /// The message last joined on, or one that may well follow it.
    pub fn again_or_fitting(&self, random: &Random) -> Incoming {
        match random.flag() {
            true => self.again(random),
            false => fitting(random, &self.group),
        }
    }
}

fn number(random: &Random) -> u16 {
    match random.flag() {
        true => random.pick(&EDGE_NUMBERS),
        false => random.below(1 + usize::from(LARGEST_NUMBER)) as u16,
    }
}

pub fn small_data(random: &Random) -> Vec<u8> {
    let size = random.pick(&[0, 1, 2, 17, 254, LARGEST_DATA, random.below(256)]);
    random.marked(size)
}

/// The messages of one group, CI stepping on, First and Last at the ends.
pub fn messages_of(random: &Random, number: u16, parts: &[Vec<u8>]) -> Vec<Incoming> {
    let ci = random.below(4);
    let message = |(i, part): (usize, &Vec<u8>)| Incoming {
        ri: random.below(4) as u8,
        ci: ((ci + i) % 4) as u8,
        first: i == 0,
        last: i + 1 == parts.len(),
        number,
        com: false,
        data: part.clone(),
    };
    parts.iter().enumerate().map(message).collect()
}

pub fn some_group(random: &Random, number: u16) -> Vec<Incoming> {
    let count = random.pick(&[1, 2, 3, 4, 6]);
    let parts: Vec<Vec<u8>> = (0..count).map(|_| small_data(random)).collect();
    messages_of(random, number, &parts)
}

pub fn good_state(random: &Random, number: u16) -> Group {
    match random.one_in(4) {
        true => Group::idle(number),
        false => gathering_state(random, number),
    }
}

/// Often at an edge: no bytes or all there can be, the last message with none, 255, all that is
/// held, or only what the messages before it cannot hold.
pub fn gathering_state(random: &Random, number: u16) -> Group {
    let messages = random.pick(&[1, 2, 15, random.between(1, usize::from(MOST_MESSAGES))]);
    let before = LARGEST_DATA * (messages - 1);
    let most = before + LARGEST_DATA;
    let edges = [0, 1, LARGEST_DATA, before, before + 1, most - 1, most];
    let held = match random.flag() {
        true => random.pick(&edges),
        false => random.below(most),
    };
    let least_last = held.saturating_sub(before);
    let most_last = held.min(LARGEST_DATA);
    let any_last = random.between(least_last, most_last);
    Group {
        number,
        gathering: true,
        held: held as u32,
        messages: messages as u8,
        ci: random.below(4) as u8,
        last_length: random.pick(&[least_last, most_last, any_last, any_last]) as u32,
    }
}

/// A message the state may well join on.
pub fn fitting(random: &Random, group: &Group) -> Incoming {
    Incoming {
        ri: random.below(4) as u8,
        ci: (group.ci % 4 + 1) % 4,
        first: random.one_in(5),
        last: random.one_in(3),
        number: group.number,
        com: false,
        data: small_data(random),
    }
}

pub fn new_group(random: &Random, index: usize) -> Vec<Case> {
    let edges = [0, 1, 511, 512, 16382, 16383, 16384, 16385, 32768, 65535];
    let number = match edges.get(index) {
        Some(edge) => *edge,
        None if random.flag() => random.next() as u16,
        None => random.next() as u16 % 16384,
    };
    vec![Line::new("new-group").number(number).done()]
}

pub fn join(random: &Random, index: usize) -> Vec<Case> {
    let round = index / 23;
    let number = number(random);
    match index % 23 {
        0 => undisturbed(random, number),
        1 => lost(random, number),
        2 => repeated(random, number),
        3 => interleaved(random, number),
        4 => first_in_the_middle(random, number),
        5 => sixteen_messages(random, number),
        6 => several(4, round, |round| broken_state(random, number, round)),
        7 => several(3, round, |round| field_outside(random, number, round)),
        8 => several(2, round, |_| buffer_length(random, number)),
        9 => full_group(random, number),
        10 => edge_group(random, number, round),
        11 => any_message(random, number),
        12 => every_ci(random, number),
        13 => older_again(random, number),
        14 => alike(random, number),
        15 => without_data(random, number),
        16 => at_the_limit(random, number),
        17 => several(2, round, |_| from_any_state(random, number)),
        18 => several(3, round, |round| other_data(random, number, round)),
        19 => several(3, round, |round| one_field_turned(random, number, round)),
        20 => several(3, round, |round| buffer_changed(random, number, round)),
        21 => several(6, round, |round| length_at_its_edge(random, number, round)),
        _ => several(4, round, |_| several_faults(random, number)),
    }
}

fn undisturbed(random: &Random, number: u16) -> Vec<Case> {
    let mut messages = some_group(random, number);
    messages.extend(some_group(random, number));
    let group = good_state(random, number);
    Script::from(random, group).feed_all(&messages)
}

fn lost(random: &Random, number: u16) -> Vec<Case> {
    let mut messages = some_group(random, number);
    messages.remove(random.below(messages.len()));
    messages.extend(some_group(random, number));
    let group = good_state(random, number);
    Script::from(random, group).feed_all(&messages)
}

/// Messages of another service and commands between those of the group.
fn interleaved(random: &Random, number: u16) -> Vec<Case> {
    let messages = some_group(random, number);
    let mut mixed = Vec::new();
    for message in &messages {
        let mut other = message.clone();
        match random.below(4) {
            0 => other.com = true,
            1 => other.number = (number + 1) % 16384,
            2 => other.number = number ^ 512,
            _ => other.number = LARGEST_NUMBER - number,
        }
        other.first = random.flag();
        mixed.push(other);
        mixed.push(message.clone());
    }
    Script::from(random, Group::idle(number)).feed_all(&mixed)
}

/// A First drops what was gathered, whatever its CI.
fn first_in_the_middle(random: &Random, number: u16) -> Vec<Case> {
    let mut messages = some_group(random, number);
    messages.pop();
    let mut second = some_group(random, number);
    second[0].ci = random.below(4) as u8;
    messages.extend(second);
    Script::from(random, Group::idle(number)).feed_all(&messages)
}

/// Fifteen messages are joined, the sixteenth is not, and one follows. Mostly twelve have come.
fn sixteen_messages(random: &Random, number: u16) -> Vec<Case> {
    let size = random.pick(&[0, 1, 100, 254, 255]);
    let parts: Vec<Vec<u8>> = (0..17).map(|_| random.bytes(size)).collect();
    let mut messages = messages_of(random, number, &parts);
    messages[15].last = random.flag();
    if random.one_in(4) {
        messages[15].ci = random.below(4) as u8;
    }
    feed_to_the_end(random, &messages)
}

/// The whole script, or its part from the thirteenth message on.
pub fn feed_to_the_end(random: &Random, messages: &[Incoming]) -> Vec<Case> {
    let mut script = Script::from(random, Group::idle(messages[0].number));
    script.buffer.truncate(LARGEST_GROUP);
    let mut cases = script.feed_all(messages);
    if !random.one_in(6) {
        cases.drain(..12);
    }
    cases
}

/// Each way a state can be outside its rule: bytes held, messages, CI and length of the last one.
/// That length is as right as it can be; `repeats.rs` has the wrong ones.
const BROKEN_STATES: [(bool, u32, u8, u8, u32); 20] = [
    (false, 1, 0, 0, 0),
    (false, u32::MAX, 0, 0, 0),
    (false, 0, 1, 0, 0),
    (false, 0, 0, 1, 0),
    (false, 0, 0, 3, 0),
    (false, 0, 0, 4, 0),
    (false, 20, 1, 0, 20),
    (true, 0, 0, 0, 0),
    (true, 1, 0, 0, 1),
    (true, 256, 1, 0, 256),
    (true, 257, 1, 0, 257),
    (true, 511, 2, 3, 255),
    (true, 3826, 15, 0, 255),
    (true, 0, 16, 0, 0),
    (true, 100, 16, 0, 100),
    (true, 100, 255, 0, 100),
    (true, 100, 1, 4, 100),
    (true, 100, 15, 255, 100),
    (true, 65_536, 15, 1, 255),
    (true, u32::MAX, 15, 1, 255),
];

fn broken_state(random: &Random, number: u16, round: usize) -> Vec<Case> {
    let (gathering, held, messages, ci, last_length) = BROKEN_STATES[round % BROKEN_STATES.len()];
    let mut group = Group {
        number,
        gathering,
        held,
        messages,
        ci,
        last_length,
    };
    // Now and then only the number is wrong, and the message may have it too.
    if random.one_in(4) {
        group = Group {
            number: random.pick(&[16384, 65535]),
            ..good_state(random, number)
        };
    }
    let script = Script::from(random, group);
    let mut message = script.again_or_fitting(random);
    message.number = random.pick(&[number, script.group.number]);
    script.feed_all(&[message])
}

fn field_outside(random: &Random, number: u16, round: usize) -> Vec<Case> {
    let script = Script::from(random, good_state(random, number));
    let mut message = script.again_or_fitting(random);
    match round % 5 {
        0 => message.ri = random.pick(&[4, 8, 255]),
        1 => message.ci = random.pick(&[4, 5, 8, 255]),
        2 => message.number = random.pick(&[16384, number | 16384, 65535]),
        3 => {
            let size = random.pick(&[256, 257, 300, 4000]);
            message.data = random.bytes(size);
        }
        // The right one modulo 4.
        _ => message.ci += 4 * random.between(1, 3) as u8,
    }
    script.feed_all(&[message])
}

fn buffer_length(random: &Random, number: u16) -> Vec<Case> {
    let mut script = Script::from(random, good_state(random, number));
    let length = random.pick(&[0, 1, 255, 3824, 3824, 3825, 3826, 5000, 20_000]);
    script.buffer = random.marked(length);
    let message = script.again_or_fitting(random);
    script.feed_all(&[message])
}

/// Fifteen messages of 255 bytes: the greatest group.
fn full_group(random: &Random, number: u16) -> Vec<Case> {
    let parts: Vec<Vec<u8>> = (0..15).map(|_| random.bytes(LARGEST_DATA)).collect();
    feed_to_the_end(random, &messages_of(random, number, &parts))
}

/// The messages as the group writer cuts them.
fn edge_group(random: &Random, number: u16, round: usize) -> Vec<Case> {
    let data = random.bytes(EDGE_GROUPS[round % 10]);
    let mut parts: Vec<Vec<u8>> = data.chunks(LARGEST_DATA).map(<[u8]>::to_vec).collect();
    if parts.is_empty() {
        parts.push(Vec::new());
    }
    let messages = messages_of(random, number, &parts);
    Script::from(random, Group::idle(number)).feed_all(&messages)
}

fn any_message(random: &Random, number: u16) -> Vec<Case> {
    let group = good_state(random, number);
    let message = Incoming {
        ci: random.below(4) as u8,
        first: random.flag(),
        last: random.flag(),
        com: random.one_in(8),
        ..fitting(random, &group)
    };
    Script::from(random, group).feed_all(&[message])
}

/// The four CIs against one state, First and not.
fn every_ci(random: &Random, number: u16) -> Vec<Case> {
    let group = good_state(random, number);
    let mut cases = Vec::new();
    for ci in 0..4 {
        let script = Script::from(random, group.clone());
        let message = Incoming {
            ci,
            ..script.again_or_fitting(random)
        };
        cases.extend(script.feed_all(&[message]));
    }
    cases
}

/// The test that comes earlier wins: 10, then 11, then 13, then a repeat, then First, 8 and 9.
fn several_faults(random: &Random, number: u16) -> Vec<Case> {
    let mut script = Script::from(random, good_state(random, number));
    let mut message = script.again_or_fitting(random);
    for _ in 0..random.between(1, 4) {
        match random.below(8) {
            0 => script.group.ci = random.pick(&[4, 255]),
            1 => script.group.last_length += 1,
            2 => message.number = random.pick(&[number ^ 1, 16384]),
            3 => message.com = true,
            4 => message.ri = 4,
            5 => message.ci = (message.ci + 1) % 4,
            6 => message.first ^= true,
            _ => script.buffer.truncate(3824),
        }
    }
    script.feed_all(&[message])
}
