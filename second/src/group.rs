//! The group state of one service number and the joining of messages.

use crate::answers::*;
use crate::message::{LARGEST_DATA, LARGEST_GROUP, LARGEST_NUMBER};
use std::ops::RangeInclusive;

pub const MOST_MESSAGES: u8 = 15;

#[derive(Clone, Debug, PartialEq)]
pub struct Group {
    pub number: u16,
    pub gathering: bool,
    pub held: u32,
    pub messages: u8,
    /// CI and data length of the message last joined on.
    pub ci: u8,
    pub last_length: u32,
}

/// A message handed to a group. The fields may be over their width.
#[derive(Clone, Debug, PartialEq)]
pub struct Incoming {
    pub ri: u8,
    pub ci: u8,
    pub first: bool,
    pub last: bool,
    pub number: u16,
    pub com: bool,
    pub data: Vec<u8>,
}

#[derive(Debug, PartialEq)]
pub enum Join {
    Taken,
    Repeat,
    Group(u32),
    Refused(u8),
}

impl Group {
    pub fn idle(number: u16) -> Group {
        Group {
            number,
            gathering: false,
            held: 0,
            messages: 0,
            ci: 0,
            last_length: 0,
        }
    }

    /// The fresh state; of number 0 and refused where the number is too great.
    pub fn fresh(number: u16) -> (Group, Option<u8>) {
        if number > LARGEST_NUMBER {
            return (Group::idle(0), Some(OUTSIDE_RULE));
        }
        (Group::idle(number), None)
    }

    pub fn keeps_the_rule(&self) -> bool {
        if self.number > LARGEST_NUMBER {
            return false;
        }
        if !self.gathering {
            return *self == Group::idle(self.number);
        }
        (1..=MOST_MESSAGES).contains(&self.messages)
            && self.ci <= 3
            && self.last_lengths().contains(&self.last_length)
    }

    /// The lengths the message last joined on may have. The messages before it hold any number of
    /// bytes up to 255 each, and it holds the rest: all where none came before. There is no such
    /// length where more is held than all of them can hold.
    fn last_lengths(&self) -> RangeInclusive<u32> {
        let most = LARGEST_DATA as u32;
        let most_before = most * u32::from(self.messages.saturating_sub(1));
        self.held.saturating_sub(most_before)..=self.held.min(most)
    }

    /// The message last joined on, as it comes when it is sent again with this RI. All else
    /// follows from the state, which keeps the rule, and its data is what now stands at its place.
    fn sent_again(&self, ri: u8, buffer: &[u8]) -> Option<Incoming> {
        if !self.gathering {
            return None;
        }
        let end = self.held as usize;
        let start = end - self.last_length as usize;
        Some(Incoming {
            ri,
            ci: self.ci,
            // Only a group's first message is a First, and a Last would have ended the group.
            first: self.messages == 1,
            last: false,
            number: self.number,
            com: false,
            data: buffer[start..end].to_vec(),
        })
    }

    pub fn join(&mut self, message: &Incoming, buffer: &mut [u8]) -> Join {
        if buffer.len() < LARGEST_GROUP {
            return Join::Refused(TOO_SHORT);
        }
        if !self.keeps_the_rule() || !message.keeps_the_rule() {
            return Join::Refused(OUTSIDE_RULE);
        }
        if message.number != self.number || message.com {
            return Join::Refused(NOT_THIS_GROUP);
        }
        if self.sent_again(message.ri, buffer).as_ref() == Some(message) {
            return Join::Repeat;
        }
        if message.first {
            *self = Group::idle(self.number);
            return self.add(message, buffer);
        }
        if !self.gathering {
            return Join::Refused(OUT_OF_STEP);
        }
        if message.ci != (self.ci + 1) % 4 {
            return self.give_up(OUT_OF_STEP);
        }
        if self.messages == MOST_MESSAGES {
            return self.give_up(ONE_TOO_MANY);
        }
        self.add(message, buffer)
    }

    fn give_up(&mut self, answer: u8) -> Join {
        *self = Group::idle(self.number);
        Join::Refused(answer)
    }

    fn add(&mut self, message: &Incoming, buffer: &mut [u8]) -> Join {
        let start = self.held as usize;
        let end = start + message.data.len();
        buffer[start..end].copy_from_slice(&message.data);
        if message.last {
            *self = Group::idle(self.number);
            return Join::Group(end as u32);
        }
        self.gathering = true;
        self.held = end as u32;
        self.messages += 1;
        self.ci = message.ci;
        self.last_length = message.data.len() as u32;
        Join::Taken
    }
}

impl Incoming {
    fn keeps_the_rule(&self) -> bool {
        self.ri <= 3
            && self.ci <= 3
            && self.number <= LARGEST_NUMBER
            && self.data.len() <= LARGEST_DATA
    }
}
