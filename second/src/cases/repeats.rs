//! Cases for repeats in a group: the message last joined on sent again, messages nearly like it,
//! and states whose length of that message is near the edge of its rule.

use super::groups::{feed_to_the_end, fitting, gathering_state, good_state};
use super::groups::{messages_of, small_data, some_group, Script};
use super::Case;
use crate::group::{Group, Incoming};
use crate::message::*;
use crate::random::Random;

/// The message and so many repeats, RI counting those still to come.
fn counted_down(message: &Incoming, repeats: usize) -> impl Iterator<Item = Incoming> + '_ {
    (0..=repeats).rev().map(|left| Incoming {
        ri: left as u8,
        ..message.clone()
    })
}

/// A state that gathers, made up, with any bytes in its buffer.
fn gathering(random: &Random, number: u16) -> Script {
    Script::from(random, gathering_state(random, number))
}

/// Every message, or one of them, comes two to four times. A repeated Last finds the state idle,
/// and a group of one message comes whole again.
pub fn repeated(random: &Random, number: u16) -> Vec<Case> {
    let messages = some_group(random, number);
    let place = random.below(messages.len() + 1);
    let mut sent = Vec::new();
    for (i, message) in messages.iter().enumerate() {
        let repeats = match i == place || place == messages.len() {
            true => random.between(1, 3),
            false => 0,
        };
        sent.extend(counted_down(message, repeats));
    }
    Script::from(random, good_state(random, number)).feed_all(&sent)
}

/// The message before the one last joined on comes again: a First restarts, another is too late.
/// Now and then it is the Last, which finds the state idle.
pub fn older_again(random: &Random, number: u16) -> Vec<Case> {
    let mut messages = some_group(random, number);
    let place = random.below(messages.len());
    let later = (place + 2).min(messages.len());
    messages.insert(later, messages[place].clone());
    Script::from(random, Group::idle(number)).feed_all(&messages)
}

/// All messages hold the same bytes, so that only CI tells the next one from a repeat. Where three
/// are lost, CI does not tell either.
pub fn alike(random: &Random, number: u16) -> Vec<Case> {
    let mut messages = messages_of(random, number, &vec![small_data(random); 7]);
    let start = random.between(1, 3);
    let lost = random.pick(&[0, 1, 3, 3, 4]);
    messages.drain(start..start + lost);
    let sent: Vec<Incoming> = messages
        .iter()
        .flat_map(|message| counted_down(message, random.below(2)))
        .collect();
    Script::from(random, Group::idle(number)).feed_all(&sent)
}

/// Messages with and without data, each sent twice, mostly with a byte put into one of the six.
pub fn without_data(random: &Random, number: u16) -> Vec<Case> {
    let sizes = random.pick(&[[0, 0, 0], [0, 0, 7], [0, 7, 0], [7, 0, 0], [7, 0, 7]]);
    let messages = messages_of(random, number, &sizes.map(|size| random.bytes(size)));
    let mut sent: Vec<Incoming> = messages
        .iter()
        .flat_map(|message| counted_down(message, 1))
        .collect();
    if let Some(message) = sent.get_mut(random.below(9)) {
        message.data = random.marked(1);
    }
    Script::from(random, Group::idle(number)).feed_all(&sent)
}

/// The fifteenth message again is a repeat; the sixteenth is one too many, and then out of step.
pub fn at_the_limit(random: &Random, number: u16) -> Vec<Case> {
    let size = random.pick(&[0, 1, 100, 254, 255]);
    let parts: Vec<Vec<u8>> = (0..17).map(|_| random.bytes(size)).collect();
    let messages = messages_of(random, number, &parts);
    let mut sent = messages[..14].to_vec();
    sent.extend(counted_down(&messages[14], random.between(1, 3)));
    sent.extend(counted_down(&messages[15], 1));
    feed_to_the_end(random, &sent)
}

/// A repeat in any state, twice, and a message that follows it.
pub fn from_any_state(random: &Random, number: u16) -> Vec<Case> {
    let script = gathering(random, number);
    let repeat = script.again(random);
    let next = fitting(random, &script.group);
    script.feed_all(&[repeat.clone(), repeat, next])
}

/// A repeat but for its data, then the repeat itself. The data may have one byte more, as it stands
/// behind or before, one less, none, or one changed; where there is no such byte it is a repeat.
pub fn other_data(random: &Random, number: u16, round: usize) -> Vec<Case> {
    let script = gathering(random, number);
    let repeat = script.again(random);
    let mut place = script.last_place();
    match round % 8 {
        0 => place.end = (place.end + 1).min(script.buffer.len()),
        1 => place.start = place.start.saturating_sub(1),
        2 => place.end = place.end.saturating_sub(1),
        3 => place.start = (place.start + 1).min(place.end),
        4 => place.end = place.start,
        _ => {}
    }
    place.end = place.end.max(place.start);
    let mut data = script.buffer[place].to_vec();
    if round % 8 > 4 && !data.is_empty() {
        let last = data.len() - 1;
        let changed = random.pick(&[0, last, random.between(0, last)]);
        data[changed] ^= 1 << random.below(8);
    }
    let other = Incoming {
        data,
        ..repeat.clone()
    };
    script.feed_all(&[other, repeat])
}

/// A repeat but for First, Last, COM, the number or CI, then the repeat itself.
pub fn one_field_turned(random: &Random, number: u16, round: usize) -> Vec<Case> {
    let script = gathering(random, number);
    let repeat = script.again(random);
    let mut other = repeat.clone();
    match round % 5 {
        0 => other.first ^= true,
        1 => other.last = true,
        2 => other.com = true,
        3 => other.number = random.pick(&[number ^ 1, number ^ 512, LARGEST_NUMBER - number]),
        _ => other.ci = (other.ci + random.between(1, 3) as u8) % 4,
    }
    script.feed_all(&[other, repeat])
}

/// The caller changed a byte of the buffer: right before the last message's place, right behind
/// it, at its first, its last or any byte, or anywhere. The message comes twice.
pub fn buffer_changed(random: &Random, number: u16, round: usize) -> Vec<Case> {
    let mut script = gathering(random, number);
    let repeat = script.again(random);
    let place = script.last_place();
    let changed = match round % 6 {
        0 => place.start.checked_sub(1),
        1 => Some(place.end),
        2 => Some(place.start),
        3 => place.end.checked_sub(1),
        4 => Some(place.start + random.below(place.len().max(1))),
        _ => Some(random.below(script.buffer.len())),
    };
    if let Some(byte) = changed.and_then(|place| script.buffer.get_mut(place)) {
        *byte ^= 1 << random.below(8);
    }
    script.feed_all(&[repeat.clone(), repeat])
}

/// Gathering or idle, bytes held, messages and length of the last one: good ones beside the broken.
const LENGTHS: [(bool, u32, u8, u32); 40] = [
    // Idle has no length.
    (false, 0, 0, 0),
    (false, 0, 0, 1),
    (false, 0, 0, u32::MAX),
    // One message has all that is held.
    (true, 0, 1, 0),
    (true, 0, 1, 1),
    (true, 0, 1, u32::MAX),
    (true, 100, 1, 0),
    (true, 100, 1, 99),
    (true, 100, 1, 100),
    (true, 100, 1, 101),
    (true, 255, 1, 254),
    (true, 255, 1, 255),
    (true, 255, 1, 256),
    (true, 256, 1, 255),
    (true, 256, 1, 256),
    (true, u32::MAX, 1, u32::MAX),
    // The last of several has at most what is held,
    (true, 0, 2, 0),
    (true, 0, 2, 1),
    (true, 0, 15, u32::MAX),
    (true, 100, 2, 100),
    (true, 100, 2, 101),
    (true, 254, 15, 254),
    (true, 254, 15, 255),
    // and at most 255.
    (true, 300, 2, 255),
    (true, 300, 2, 256),
    (true, 300, 15, 300),
    (true, 3825, 15, 255),
    (true, 3825, 15, 256),
    // It leaves at most 255 for each message before.
    (true, 255, 2, 0),
    (true, 256, 2, 0),
    (true, 510, 3, 0),
    (true, 511, 3, 0),
    (true, 3570, 15, 0),
    (true, 3571, 15, 0),
    (true, 3825, 15, 254),
    // Good modulo 2^8 or 2^16, or as numbers with a sign.
    (true, 100, 2, 356),
    (true, 100, 2, 65_636),
    (true, 65_636, 2, 100),
    (true, u32::MAX, 15, 255),
    (true, u32::MAX, 15, u32::MAX),
];

/// As much left for the messages before as they can hold, or one byte more, and any length.
fn edge_lengths(random: &Random) -> (bool, u32, u8, u32) {
    let messages = random.between(1, 15);
    let before = LARGEST_DATA * (messages - 1) + random.below(2);
    let last_length = random.pick(&[0, 1, 254, 255, random.below(256)]);
    let held = before + last_length;
    (true, held as u32, messages as u8, last_length as u32)
}

/// A message that is a repeat where the state keeps the rule, or now and then another.
pub fn length_at_its_edge(random: &Random, number: u16, round: usize) -> Vec<Case> {
    let (gathering, held, messages, last_length) = match random.one_in(3) {
        true => edge_lengths(random),
        false => LENGTHS[round % LENGTHS.len()],
    };
    let group = Group {
        number,
        gathering,
        held,
        messages,
        ci: if gathering { random.below(4) as u8 } else { 0 },
        last_length,
    };
    let script = Script::from(random, group);
    let message = match random.one_in(6) {
        true => fitting(random, &script.group),
        false => script.again(random),
    };
    script.feed_all(&[message])
}
