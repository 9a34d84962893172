//! The two headers of the long message channel, bit by bit, and the writers built on them.

use crate::answers::{OUTSIDE_RULE, TOO_SHORT};
use crate::block::INFORMATION_BYTES;
use crate::rows::{from_header, is_multiple, to_header, with_remainder, Row, HEADER};

pub const DATA_BYTES: usize = 20;
pub const LARGEST_MESSAGE: usize = 260;
pub const LARGEST_DATA: usize = 255;
pub const LARGEST_GROUP: usize = 3825;
pub const LARGEST_NUMBER: u16 = 16383;
/// From here on a service number is written with EXT.
const FIRST_EXTENDED: u16 = 512;
const LONG_MESSAGE_CHANNEL: u32 = 0xA;

/// Takes fields off the front of a header.
struct Fields<'a> {
    bits: &'a [bool],
}

impl Fields<'_> {
    fn take(&mut self, width: usize) -> u32 {
        let (field, rest) = self.bits.split_at(width);
        self.bits = rest;
        field
            .iter()
            .fold(0, |value, bit| value << 1 | u32::from(*bit))
    }

    fn flag(&mut self) -> bool {
        self.take(1) == 1
    }
}

fn put(row: &mut Row, value: u32, width: usize) {
    row.extend((0..width).rev().map(|weight| value >> weight & 1 == 1));
}

/// The layer 3 header without its check.
#[derive(Clone, Debug, PartialEq)]
pub struct BlockHeader {
    pub channel: u32,
    pub di: bool,
    pub lf: bool,
    pub sc: u8,
}

impl BlockHeader {
    pub fn on_long_messages(di: bool, lf: bool, sc: u8) -> BlockHeader {
        BlockHeader {
            channel: LONG_MESSAGE_CHANNEL,
            di,
            lf,
            sc,
        }
    }

    /// The header of an information block, and whether its check holds.
    pub fn read(information: &[u8]) -> (BlockHeader, bool) {
        let bits = from_header(&information[..2]);
        let mut fields = Fields { bits: &bits };
        let header = BlockHeader {
            channel: fields.take(4),
            di: fields.flag(),
            lf: fields.flag(),
            sc: fields.take(4) as u8,
        };
        (header, is_multiple(&bits, &HEADER))
    }

    pub fn is_long_message(&self) -> bool {
        self.channel == LONG_MESSAGE_CHANNEL
    }

    pub fn write(&self) -> Vec<u8> {
        let mut row = Row::new();
        put(&mut row, self.channel, 4);
        put(&mut row, u32::from(self.di), 1);
        put(&mut row, u32::from(self.lf), 1);
        put(&mut row, u32::from(self.sc), 4);
        to_header(&with_remainder(&row, &HEADER))
    }
}

/// The layer 4 header without its check, the fields as they stand in the bits.
#[derive(Clone, Debug, Default, PartialEq)]
pub struct MessageHeader {
    pub ri: u8,
    pub ci: u8,
    pub first: bool,
    pub last: bool,
    pub ext: bool,
    pub add: u16,
    pub ext_add: u16,
    pub rfa: u8,
    pub com: bool,
    pub caf: bool,
    pub length: u8,
}

impl MessageHeader {
    /// The header at the front of a message of at least one block, and whether its check holds.
    pub fn read(message: &[u8]) -> (MessageHeader, bool) {
        let bits = from_header(&message[..5]);
        let mut fields = Fields { bits: &bits };
        let mut header = MessageHeader {
            ri: fields.take(2) as u8,
            ci: fields.take(2) as u8,
            first: fields.flag(),
            last: fields.flag(),
            ext: fields.flag(),
            add: fields.take(9) as u16,
            ..MessageHeader::default()
        };
        if header.ext {
            header.ext_add = fields.take(5) as u16;
            header.rfa = fields.take(3) as u8;
        }
        header.com = fields.flag();
        header.caf = fields.flag();
        header.length = fields.take(8) as u8;
        let holds = is_multiple(&bits[..8 * header.size()], &HEADER);
        (header, holds)
    }

    pub fn write(&self) -> Vec<u8> {
        let mut row = Row::new();
        put(&mut row, u32::from(self.ri), 2);
        put(&mut row, u32::from(self.ci), 2);
        put(&mut row, u32::from(self.first), 1);
        put(&mut row, u32::from(self.last), 1);
        put(&mut row, u32::from(self.ext), 1);
        put(&mut row, u32::from(self.add), 9);
        if self.ext {
            put(&mut row, u32::from(self.ext_add), 5);
            put(&mut row, u32::from(self.rfa), 3);
        }
        put(&mut row, u32::from(self.com), 1);
        put(&mut row, u32::from(self.caf), 1);
        put(&mut row, u32::from(self.length), 8);
        to_header(&with_remainder(&row, &HEADER))
    }

    pub fn size(&self) -> usize {
        if self.ext {
            5
        } else {
            4
        }
    }

    /// EXT ADD is zero where there is no EXT.
    pub fn number(&self) -> u16 {
        512 * self.ext_add + self.add
    }

    pub fn has_right_form(&self) -> bool {
        self.ext == (self.number() >= FIRST_EXTENDED)
    }
}

/// What the message writer takes beside the data. RI, CI, number and SC may be over their width.
#[derive(Clone, Debug, Default)]
pub struct Fill {
    pub ri: u8,
    pub ci: u8,
    pub first: bool,
    pub last: bool,
    pub number: u16,
    pub com: bool,
    pub di: bool,
    pub sc: u8,
}

impl Fill {
    fn is_within_widths(&self) -> bool {
        self.ri <= 3 && self.ci <= 3 && self.number <= LARGEST_NUMBER && self.sc <= 15
    }

    fn header(&self, length: u8) -> MessageHeader {
        MessageHeader {
            ri: self.ri,
            ci: self.ci,
            first: self.first,
            last: self.last,
            ext: self.number >= FIRST_EXTENDED,
            add: self.number % 512,
            ext_add: self.number / 512,
            rfa: 0,
            com: self.com,
            caf: false,
            length,
        }
    }
}

/// The information blocks of one message, one after the other.
fn blocks_of(fill: &Fill, data: &[u8]) -> Vec<u8> {
    let mut message = fill.header(data.len() as u8).write();
    message.extend(data);
    cut_into_blocks(&message, fill.di, fill.sc)
}

/// LF on the last block alone, SC stepping on, zeros behind the message.
pub fn cut_into_blocks(message: &[u8], di: bool, sc: u8) -> Vec<u8> {
    let parts: Vec<&[u8]> = message.chunks(DATA_BYTES).collect();
    let mut blocks = Vec::new();
    for (i, part) in parts.iter().enumerate() {
        let sc = ((usize::from(sc) + i) % 16) as u8;
        blocks.extend(BlockHeader::on_long_messages(di, i + 1 == parts.len(), sc).write());
        blocks.extend(*part);
        blocks.resize((i + 1) * INFORMATION_BYTES, 0);
    }
    blocks
}

/// Gives the number of blocks; bytes after them stay.
fn hand_out(blocks: &[u8], output: &mut [u8]) -> Result<usize, u8> {
    let place = output.get_mut(..blocks.len()).ok_or(TOO_SHORT)?;
    place.copy_from_slice(blocks);
    Ok(blocks.len() / INFORMATION_BYTES)
}

pub fn write_message(fill: &Fill, data: &[u8], output: &mut [u8]) -> Result<usize, u8> {
    if !fill.is_within_widths() || data.len() > LARGEST_DATA {
        return Err(OUTSIDE_RULE);
    }
    hand_out(&blocks_of(fill, data), output)
}

/// Of the fields the group writer leaves First, Last and COM out of account: it sets them itself.
pub fn write_group(fill: &Fill, data: &[u8], output: &mut [u8]) -> Result<usize, u8> {
    if !fill.is_within_widths() || data.len() > LARGEST_GROUP {
        return Err(OUTSIDE_RULE);
    }
    // A group of no bytes is one message of no bytes.
    let parts: Vec<&[u8]> = match data {
        [] => vec![data],
        _ => data.chunks(LARGEST_DATA).collect(),
    };
    let mut blocks = Vec::new();
    for (i, part) in parts.iter().enumerate() {
        let before = blocks.len() / INFORMATION_BYTES;
        let message = Fill {
            ci: ((usize::from(fill.ci) + i) % 4) as u8,
            first: i == 0,
            last: i + 1 == parts.len(),
            com: false,
            sc: ((usize::from(fill.sc) + before) % 16) as u8,
            ..fill.clone()
        };
        blocks.extend(blocks_of(&message, part));
    }
    hand_out(&blocks, output)
}
