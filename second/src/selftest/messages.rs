//! Headers, messages and groups.

use super::{expect, expect_equal, Outcome};
use crate::answers::OUT_OF_STEP;
use crate::block::INFORMATION_BYTES;
use crate::cases::fill;
use crate::channel::{Channel, Phase, Step};
use crate::group::{Group, Incoming, Join};
use crate::message::*;
use crate::random::Random;
use std::collections::HashSet;

/// Document 01's P6, 000's example in 11.2.4 and 003's in 10.2.2 in document 01's order.
pub fn published() -> Outcome {
    let header = BlockHeader::on_long_messages(false, true, 0);
    expect_equal(header.write(), vec![0xA4, 0x19], "P6")?;
    let header = BlockHeader::on_long_messages(false, false, 15);
    expect_equal(header.write(), vec![0xA3, 0xF3], "003, 10.2.2")?;
    let header = MessageHeader {
        first: true,
        last: true,
        add: 64,
        length: 128,
        ..MessageHeader::default()
    };
    expect_equal(header.write(), vec![0x0C, 0x40, 0x20, 0x2D], "000, 11.2.4")
}

/// Feeds written blocks and hands back every message with its data.
fn messages_in(
    channel: &mut Channel,
    blocks: &[u8],
) -> Result<Vec<(MessageHeader, Vec<u8>)>, String> {
    let mut messages = Vec::new();
    for information in blocks.chunks(INFORMATION_BYTES) {
        match channel.step(information) {
            Step::Taken => {}
            Step::Message(header) => {
                let end = header.size() + usize::from(header.length);
                let data = channel.bytes[header.size()..end].to_vec();
                messages.push((header, data));
            }
            Step::Refused(answer) => return Err(format!("answer {answer}")),
        }
    }
    Ok(messages)
}

fn ready(sc: u8) -> Channel {
    Channel {
        phase: Phase::Ready,
        expected: sc,
        ..Channel::fresh()
    }
}

pub fn messages_read_back() -> Outcome {
    let random = Random::new(2, "selftest");
    for round in 0..3000 {
        let fill = fill(&random);
        let data = random.bytes(round % (LARGEST_DATA + 1));
        let mut output = vec![0; 13 * INFORMATION_BYTES];
        let blocks = write_message(&fill, &data, &mut output).map_err(|n| format!("answer {n}"))?;
        let mut channel = ready(fill.sc);
        let messages = messages_in(&mut channel, &output[..blocks * INFORMATION_BYTES])?;
        let [(header, read)] = &messages[..] else {
            return Err(format!("{} messages", messages.len()));
        };
        let fields = (
            header.ri,
            header.ci,
            header.first,
            header.last,
            header.number(),
            header.com,
        );
        let wanted = (
            fill.ri,
            fill.ci,
            fill.first,
            fill.last,
            fill.number,
            fill.com,
        );
        expect_equal(fields, wanted, "fields")?;
        expect_equal(read, &data, "data")?;
        let after = ((usize::from(fill.sc) + blocks) % 16) as u8;
        expect_equal(channel.expected, after, "expected SC")?;
    }
    Ok(())
}

pub fn groups_read_back() -> Outcome {
    let random = Random::new(3, "selftest");
    let edges = [0, 1, 254, 255, 256, 510, 511, 3570, 3571, 3824, 3825];
    for round in 0..200 {
        let fill = fill(&random);
        let edge = edges.get(round).copied();
        let data = random.bytes(edge.unwrap_or_else(|| random.between(0, LARGEST_GROUP)));
        let messages = written_group(&fill, &data)?;
        let fewest = data.len().div_ceil(LARGEST_DATA).max(1);
        expect_equal(messages.len(), fewest, "messages")?;
        expect_equal(joined(fill.number, &messages)?, data, "group")?;
    }
    Ok(())
}

/// The messages of a group as the writer puts them into blocks and the channel reads them.
fn written_group(fill: &Fill, data: &[u8]) -> Result<Vec<Incoming>, String> {
    let mut output = vec![0; 195 * INFORMATION_BYTES];
    let blocks = write_group(fill, data, &mut output).map_err(|n| format!("answer {n}"))?;
    let messages = messages_in(&mut ready(fill.sc), &output[..blocks * INFORMATION_BYTES])?;
    let incoming = |(header, data): (MessageHeader, Vec<u8>)| Incoming {
        ri: header.ri,
        ci: header.ci,
        first: header.first,
        last: header.last,
        number: header.number(),
        com: header.com,
        data,
    };
    Ok(messages.into_iter().map(incoming).collect())
}

/// The joined data of messages of which only the last ends a group.
fn joined(number: u16, messages: &[Incoming]) -> Result<Vec<u8>, String> {
    let mut group = Group::idle(number);
    let mut buffer = vec![0xEE; LARGEST_GROUP];
    for (i, message) in messages.iter().enumerate() {
        let ends = i + 1 == messages.len();
        match group.join(message, &mut buffer) {
            Join::Taken => expect(!ends, || String::from("not ended"))?,
            Join::Group(length) if ends => buffer.truncate(length as usize),
            other => return Err(format!("{other:?}")),
        }
    }
    Ok(buffer)
}

/// Written groups with up to three repeats of each message but the last: the joined data is the
/// same, and the last message's repeat finds the state idle.
pub fn repeats() -> Outcome {
    let random = Random::new(9, "selftest");
    let edges = [0, 1, 255, 256, 510, 511, 3570, 3571, 3825];
    for round in 0..200 {
        let fill = fill(&random);
        let edge = edges.get(round).copied();
        // Often all messages hold the same bytes, and are no repeats of each other.
        let data = random.marked(edge.unwrap_or_else(|| random.between(0, LARGEST_GROUP)));
        let messages = written_group(&fill, &data)?;
        let mut group = Group::idle(fill.number);
        let mut buffer = vec![0xEE; LARGEST_GROUP];
        let (last, others) = messages.split_last().ok_or("no message")?;
        for message in others {
            expect_equal(group.join(message, &mut buffer), Join::Taken, "once")?;
            repeats_change_nothing(&random, message, &mut group, &mut buffer)?;
            turned_is_no_repeat(&random, message, &group, &buffer)?;
        }
        let whole = Join::Group(data.len() as u32);
        expect_equal(group.join(last, &mut buffer), whole, "last")?;
        expect_equal(&buffer[..data.len()], &data[..], "joined")?;
        let again = match last.first {
            true => Join::Group(data.len() as u32),
            false => Join::Refused(OUT_OF_STEP),
        };
        expect_equal(group.join(last, &mut buffer), again, "last again")?;
        expect_equal(group, Group::idle(fill.number), "state")?;
    }
    Ok(())
}

fn repeats_change_nothing(
    random: &Random,
    message: &Incoming,
    group: &mut Group,
    buffer: &mut [u8],
) -> Outcome {
    let before = (group.clone(), buffer.to_vec());
    for _ in 0..random.below(4) {
        let ri = random.below(4) as u8;
        let repeat = Incoming {
            ri,
            ..message.clone()
        };
        expect_equal(group.join(&repeat, buffer), Join::Repeat, "again")?;
        let after = (group.clone(), buffer.to_vec());
        expect(after == before, || String::from("changed by a repeat"))?;
    }
    Ok(())
}

/// With one bit of its data turned the message is no repeat: a First restarts, another is out of
/// step. The group itself goes on without it.
fn turned_is_no_repeat(
    random: &Random,
    message: &Incoming,
    group: &Group,
    buffer: &[u8],
) -> Outcome {
    let mut turned = message.clone();
    turned.data[random.below(LARGEST_DATA)] ^= 1 << random.below(8);
    let wanted = match message.first {
        true => Join::Taken,
        false => Join::Refused(OUT_OF_STEP),
    };
    let answer = group.clone().join(&turned, &mut buffer.to_vec());
    expect_equal(answer, wanted, "turned")
}

/// A state's lengths are right just where messages of such lengths can be found. They are found
/// message by message: to each sum of those before, every length a message may have is added.
pub fn lengths() -> Outcome {
    let most = 3 * LARGEST_DATA as u32 + 2;
    let mut sums = HashSet::from([0]);
    for messages in 1..=3 {
        let lengths = 0..=LARGEST_DATA as u32;
        let found: HashSet<(u32, u32)> = sums
            .iter()
            .flat_map(|sum| lengths.clone().map(move |length| (sum + length, length)))
            .collect();
        for held in 0..=most {
            for last_length in (0..=most).chain([1 << 16, u32::MAX - held, u32::MAX]) {
                let group = Group {
                    gathering: true,
                    held,
                    messages,
                    last_length,
                    ..Group::idle(64)
                };
                let right = found.contains(&(held, last_length));
                expect(group.keeps_the_rule() == right, || format!("{group:?}"))?;
            }
        }
        sums = found.into_iter().map(|(sum, _)| sum).collect();
    }
    Ok(())
}
