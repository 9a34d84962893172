//! The probe's notation (docs/PROBE.md): arguments read from a line, and fields put into one.

use crate::block::Changes;
use crate::channel::{Channel, Phase};
use crate::group::{Group, Incoming};
use crate::message::LARGEST_MESSAGE;
use crate::reader::{self, Reader};
use crate::survey::{Counts, Summary};

/// More bytes than this make no case.
pub const LONGEST_CASE: usize = 262_143;
/// The most bytes of an argument that is no log and no piece of one.
pub const LONGEST_ARGUMENT: usize = 32_768;

const BYTE: u64 = 1 << 8;
const SHORT: u64 = 1 << 16;
const WORD: u64 = 1 << 32;

const PHASES: [(&str, Phase); 3] = [
    ("waiting", Phase::Waiting),
    ("ready", Phase::Ready),
    ("gathering", Phase::Gathering),
];

const READER_PHASES: [(&str, reader::Phase); 3] = [
    ("open", reader::Phase::Open),
    ("refused", reader::Phase::Refused),
    ("ended", reader::Phase::Ended),
];

/// The arguments not read yet. Each reading gives nothing where the argument is missing or cannot
/// be read.
pub struct Arguments<'a> {
    fields: std::slice::Iter<'a, &'a [u8]>,
}

impl<'a> Arguments<'a> {
    pub fn new(fields: &'a [&'a [u8]]) -> Arguments<'a> {
        Arguments {
            fields: fields.iter(),
        }
    }

    pub fn end(&self) -> Option<()> {
        self.fields.as_slice().is_empty().then_some(())
    }

    /// A log or a piece of one.
    pub fn log(&mut self) -> Option<Vec<u8>> {
        let field = self.fields.next()?;
        if *field == b"." {
            return Some(Vec::new());
        }
        if field.is_empty() || field.len() % 2 == 1 {
            return None;
        }
        field
            .chunks(2)
            .map(|pair| Some(16 * digit(pair[0], 16)? + digit(pair[1], 16)?))
            .collect()
    }

    pub fn bytes(&mut self) -> Option<Vec<u8>> {
        self.log().filter(|bytes| bytes.len() <= LONGEST_ARGUMENT)
    }

    fn number(&mut self, bound: u64) -> Option<u64> {
        let field = self.fields.next()?;
        if field.is_empty() {
            return None;
        }
        field.iter().try_fold(0, |value, byte| {
            let value = 10 * value + u64::from(digit(*byte, 10)?);
            (value < bound).then_some(value)
        })
    }

    pub fn byte(&mut self) -> Option<u8> {
        self.number(BYTE).map(|number| number as u8)
    }

    pub fn short(&mut self) -> Option<u16> {
        self.number(SHORT).map(|number| number as u16)
    }

    pub fn word(&mut self) -> Option<u32> {
        self.number(WORD).map(|number| number as u32)
    }

    pub fn flag(&mut self) -> Option<bool> {
        match *self.fields.next()? {
            b"0" => Some(false),
            b"1" => Some(true),
            _ => None,
        }
    }

    fn binary64(&mut self) -> Option<f64> {
        let field = self.fields.next()?;
        if field.len() != 16 {
            return None;
        }
        let bits = field.iter().try_fold(0, |bits, byte| {
            Some(bits << 4 | u64::from(digit(*byte, 16)?))
        });
        bits.map(f64::from_bits)
    }

    pub fn channel(&mut self) -> Option<Channel> {
        let bytes = self
            .bytes()
            .filter(|bytes| bytes.len() == LARGEST_MESSAGE)?;
        Some(Channel {
            bytes,
            length: self.word()?,
            phase: self.one_of(&PHASES)?,
            expected: self.byte()?,
        })
    }

    fn one_of<T: Copy>(&mut self, named: &[(&str, T)]) -> Option<T> {
        let name = self.fields.next()?;
        let found = named.iter().find(|named| named.0.as_bytes() == *name);
        found.map(|named| named.1)
    }

    pub fn group(&mut self) -> Option<Group> {
        let number = self.short()?;
        let gathering = match *self.fields.next()? {
            b"idle" => false,
            b"gathering" => true,
            _ => return None,
        };
        Some(Group {
            number,
            gathering,
            held: self.word()?,
            messages: self.byte()?,
            ci: self.byte()?,
            last_length: self.word()?,
        })
    }

    pub fn incoming(&mut self) -> Option<Incoming> {
        Some(Incoming {
            ri: self.byte()?,
            ci: self.byte()?,
            first: self.flag()?,
            last: self.flag()?,
            number: self.short()?,
            com: self.flag()?,
            data: self.bytes()?,
        })
    }

    pub fn counts(&mut self) -> Option<Counts> {
        Some(Counts {
            channel: self.byte()?,
            slots: self.word()?,
            read: self.word()?,
            clean: self.word()?,
            bits: self.word()?,
            noword: self.word()?,
            check: self.word()?,
            missing: self.word()?,
        })
    }

    pub fn reader(&mut self) -> Option<Reader> {
        Some(Reader {
            phase: self.one_of(&READER_PHASES)?,
            counts: self.counts()?,
            held: self.bytes()?.try_into().ok()?,
            length: self.word()?,
        })
    }

    pub fn summary(&mut self) -> Option<Summary> {
        Some(Summary {
            mean_exists: self.flag()?,
            mean: self.binary64()?,
            share_exists: self.flag()?,
            share: self.binary64()?,
        })
    }
}

fn digit(byte: u8, base: u32) -> Option<u8> {
    char::from(byte).to_digit(base).map(|digit| digit as u8)
}

/// A line being written: an answer, or a case. Each call puts one field, or one record's fields,
/// behind a tab.
pub struct Line(Vec<u8>);

impl Line {
    pub fn new(first: &str) -> Line {
        Line(first.as_bytes().to_vec())
    }

    /// The answer's number, or the name of the success.
    pub fn answer<T>(success: &str, result: &Result<T, u8>) -> Line {
        match result {
            Ok(_) => Line::new(success),
            Err(answer) => Line::refused(*answer),
        }
    }

    pub fn refused(answer: u8) -> Line {
        Line::new(&answer.to_string())
    }

    pub fn done(self) -> Vec<u8> {
        self.0
    }

    pub fn text(mut self, text: &str) -> Line {
        self.0.push(b'\t');
        self.0.extend(text.as_bytes());
        self
    }

    pub fn number(self, number: impl Into<u64>) -> Line {
        self.text(&number.into().to_string())
    }

    pub fn count(self, count: usize) -> Line {
        self.number(count as u64)
    }

    pub fn bytes(mut self, bytes: &[u8]) -> Line {
        if bytes.is_empty() {
            return self.text(".");
        }
        self.0.push(b'\t');
        for byte in bytes {
            self.0
                .extend([hexadecimal(byte >> 4), hexadecimal(byte & 15)]);
        }
        self
    }

    /// The count and the five words of the row.
    pub fn changes(self, changes: &Changes) -> Line {
        let counted = self.count(changes.count);
        let words = changes.row.iter();
        words.fold(counted, |line, word| line.sixteen_digits(*word))
    }

    fn sixteen_digits(self, bits: u64) -> Line {
        self.text(&format!("{bits:016x}"))
    }

    /// The bits as they stand: what an argument needs, also for one that is no number.
    pub fn binary64_bits(self, number: f64) -> Line {
        self.sixteen_digits(number.to_bits())
    }

    fn binary64(self, number: f64) -> Line {
        if number.is_nan() {
            return self.text(&"n".repeat(16));
        }
        self.binary64_bits(number)
    }

    pub fn channel(self, channel: &Channel) -> Line {
        self.bytes(&channel.bytes)
            .number(channel.length)
            .name(&PHASES, channel.phase)
            .number(channel.expected)
    }

    fn name<T: PartialEq>(self, named: &[(&str, T)], phase: T) -> Line {
        let found = named.iter().find(|named| named.1 == phase);
        self.text(found.expect("every phase has a name").0)
    }

    pub fn group(self, group: &Group) -> Line {
        self.number(group.number)
            .text(if group.gathering { "gathering" } else { "idle" })
            .number(group.held)
            .number(group.messages)
            .number(group.ci)
            .number(group.last_length)
    }

    pub fn incoming(self, message: &Incoming) -> Line {
        self.number(message.ri)
            .number(message.ci)
            .number(message.first)
            .number(message.last)
            .number(message.number)
            .number(message.com)
            .bytes(&message.data)
    }

    pub fn counts(self, counts: &Counts) -> Line {
        self.number(counts.channel)
            .number(counts.slots)
            .number(counts.read)
            .number(counts.clean)
            .number(counts.bits)
            .number(counts.noword)
            .number(counts.check)
            .number(counts.missing)
    }

    pub fn reader(self, reader: &Reader) -> Line {
        self.name(&READER_PHASES, reader.phase)
            .counts(&reader.counts)
            .bytes(&reader.held)
            .number(reader.length)
    }

    pub fn summary(self, summary: &Summary) -> Line {
        self.number(summary.mean_exists)
            .binary64(summary.mean)
            .number(summary.share_exists)
            .binary64(summary.share)
    }
}

fn hexadecimal(digit: u8) -> u8 {
    b"0123456789abcdef"[usize::from(digit)]
}
