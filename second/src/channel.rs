//! The channel state and its step by one information block.

use crate::answers::*;
use crate::block::INFORMATION_BYTES;
use crate::message::{BlockHeader, MessageHeader, DATA_BYTES, LARGEST_MESSAGE};

#[derive(Clone, Copy, Debug, PartialEq)]
pub enum Phase {
    Waiting,
    Ready,
    Gathering,
}

#[derive(Clone, Debug, PartialEq)]
pub struct Channel {
    /// Always 260 bytes.
    pub bytes: Vec<u8>,
    pub length: u32,
    pub phase: Phase,
    pub expected: u8,
}

#[derive(Debug, PartialEq)]
pub enum Step {
    Taken,
    Message(MessageHeader),
    Refused(u8),
}

impl Channel {
    pub fn fresh() -> Channel {
        Channel {
            bytes: vec![0; LARGEST_MESSAGE],
            length: 0,
            phase: Phase::Waiting,
            expected: 0,
        }
    }

    pub fn keeps_the_rule(&self) -> bool {
        match self.phase {
            Phase::Waiting => self.length == 0 && self.expected == 0,
            Phase::Ready => self.length == 0 && self.expected <= 15,
            Phase::Gathering => {
                (1..=13).any(|blocks| 20 * blocks == self.length) && self.expected <= 15
            }
        }
    }

    pub fn step(&mut self, information: &[u8]) -> Step {
        if !self.keeps_the_rule() {
            return Step::Refused(OUTSIDE_RULE);
        }
        if information.len() != INFORMATION_BYTES {
            return Step::Refused(WRONG_LENGTH);
        }
        let (header, holds) = BlockHeader::read(information);
        if !header.is_long_message() {
            return Step::Refused(OTHER_CHANNEL);
        }
        if !holds {
            return Step::Refused(HEADER_CHECK);
        }
        self.take(&header, &information[2..])
    }

    /// A block whose header is right, in a state that keeps the rule.
    fn take(&mut self, header: &BlockHeader, data: &[u8]) -> Step {
        if self.phase == Phase::Waiting || header.sc != self.expected {
            self.wait_on(header);
            return Step::Refused(OUT_OF_STEP);
        }
        let joined = self.length as usize + DATA_BYTES;
        if joined > LARGEST_MESSAGE {
            self.wait_on(header);
            return Step::Refused(ONE_TOO_MANY);
        }
        self.bytes[joined - DATA_BYTES..joined].copy_from_slice(data);
        if !header.lf {
            self.become_phase(Phase::Gathering, joined, next(header.sc));
            return Step::Taken;
        }
        self.become_phase(Phase::Ready, 0, next(header.sc));
        match read_message(&self.bytes[..joined]) {
            Ok(message) => Step::Message(message),
            Err(answer) => Step::Refused(answer),
        }
    }

    /// Whatever was gathered is dropped; a message's last block tells where the next one starts.
    fn wait_on(&mut self, header: &BlockHeader) {
        if header.lf {
            self.become_phase(Phase::Ready, 0, next(header.sc));
        } else {
            self.become_phase(Phase::Waiting, 0, 0);
        }
    }

    fn become_phase(&mut self, phase: Phase, length: usize, expected: u8) {
        self.phase = phase;
        self.length = length as u32;
        self.expected = expected;
    }
}

fn next(sc: u8) -> u8 {
    (sc + 1) % 16
}

/// The tests in document 01's order, over the gathered blocks of a whole message.
fn read_message(gathered: &[u8]) -> Result<MessageHeader, u8> {
    let (header, holds) = MessageHeader::read(gathered);
    if header.caf {
        return Err(HEADER_FORM);
    }
    if !holds {
        return Err(HEADER_CHECK);
    }
    if header.rfa != 0 || !header.has_right_form() {
        return Err(HEADER_FORM);
    }
    let filled = header.size() + usize::from(header.length);
    if filled > LARGEST_MESSAGE {
        return Err(OVER_260);
    }
    if filled.div_ceil(DATA_BYTES) * DATA_BYTES != gathered.len() {
        return Err(BLOCKS_OR_PADDING);
    }
    if gathered[filled..].iter().any(|byte| *byte != 0) {
        return Err(BLOCKS_OR_PADDING);
    }
    Ok(header)
}
