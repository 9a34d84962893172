//! A log in pieces (document 02, ticket 4), by a machine that takes one byte after the other.
//!
//! `survey.rs` cuts a whole log at its line feeds and compares each line with the text it must be.
//! This machine knows no text but the word `channel`: it goes from part to part of a line and reads
//! the numbers digit by digit. Which readers pieces lead to is reckoned: how many slots of each
//! outcome make the counts, and the bytes held are taken once more. The self-test feeds the log of
//! such slots, and finds the reader.

use crate::answers::{BAD_LINE, OUTSIDE_RULE};
use crate::survey::{Counts, LAST_CHANNEL, LONGEST_LINE, MOST_CORRECTED, MOST_SLOTS};

/// One byte more, and a line is judged.
pub const MOST_HELD: usize = LONGEST_LINE - 1;

#[derive(Clone, Copy, Debug, PartialEq, Eq, Hash)]
pub enum Phase {
    Open,
    Refused,
    Ended,
}

#[derive(Clone, Debug, PartialEq, Eq, Hash)]
pub struct Reader {
    pub phase: Phase,
    /// Of the whole lines so far, without a refused one.
    pub counts: Counts,
    pub held: [u8; MOST_HELD],
    /// How many of the held bytes are the line so far.
    pub length: u32,
}

/// The answer and the number of the bad line, which is 0 where there is none.
pub type NotTaken = (u8, u32);

impl Reader {
    pub fn start() -> Reader {
        Reader::between_lines(Phase::Open, Counts::default())
    }

    pub fn between_lines(phase: Phase, counts: Counts) -> Reader {
        Reader {
            phase,
            counts,
            held: [0; MOST_HELD],
            length: 0,
        }
    }

    /// Whatever the line is, it has at most 63 bytes.
    pub fn within_line(counts: Counts, line: &[u8]) -> Reader {
        let mut reader = Reader::between_lines(Phase::Open, counts);
        reader.held[..line.len()].copy_from_slice(line);
        reader.length = line.len() as u32;
        reader
    }

    pub fn feed(&mut self, piece: &[u8]) -> Result<(), NotTaken> {
        let mut machine = self.machine()?;
        machine.take_all(piece);
        self.leave(machine)
    }

    pub fn end(&mut self) -> Result<(), NotTaken> {
        let mut machine = self.machine()?;
        if machine.part != Part::SLOT_BEGINS {
            machine.refuse();
            return self.leave(machine);
        }
        *self = Reader::between_lines(Phase::Ended, machine.counts);
        Ok(())
    }

    /// The machine as the pieces so far left it.
    fn machine(&self) -> Result<Machine, NotTaken> {
        if !self.goes_on() {
            return Err((OUTSIDE_RULE, 0));
        }
        Ok(Machine::of(self))
    }

    fn leave(&mut self, machine: Machine) -> Result<(), NotTaken> {
        *self = machine.reader();
        match self.phase {
            Phase::Refused => Err((BAD_LINE, self.next_line())),
            _ => Ok(()),
        }
    }

    /// The number of the line behind those that are counted.
    fn next_line(&self) -> u32 {
        match self.counts.channel {
            0 => 1,
            _ => self.counts.slots + 2,
        }
    }

    /// Whether some pieces lead to this reader and it has not ended: lines that leave its counts
    /// and, behind them, the bytes it holds. A line feed among those would not leave them held,
    /// what follows them comes again as zeros, a refused machine holds nothing, and none is ended.
    fn goes_on(&self) -> bool {
        lines_lead_to(&self.counts) && Machine::of(self).reader() == *self
    }
}

/// Whether there are lines with these counts: none at all, or a first line and slots.
fn lines_lead_to(counts: &Counts) -> bool {
    *counts == Counts::default() || (is_channel(counts.channel) && Tally::of(counts).is_some())
}

/// Whether the machine takes the first line with this number.
fn is_channel(number: u8) -> bool {
    let mut machine = Machine::of(&Reader::start());
    machine.take_all(format!("channel\t{number}\n").as_bytes());
    machine.part == Part::SLOT_BEGINS
}

/// How many slots have each outcome: 0 to 8 corrected bits, and the three others.
pub struct Tally {
    readings: [u64; MOST_CORRECTED as usize + 1],
    others: [(u8, u64); 3],
}

impl Tally {
    /// Slots that have these counts; none where no log has them. First each corrected reading gets
    /// its one bit; then the bits that are left go out in sevens, which fills a reading. No other
    /// way needs fewer readings, so where this one needs too many, so does every other.
    pub fn of(counts: &Counts) -> Option<Tally> {
        let wide = u64::from;
        let corrected = wide(counts.read).checked_sub(wide(counts.clean))?;
        let left = wide(counts.bits).checked_sub(corrected)?;
        let (full, rest) = (left / (MOST_CORRECTED - 1), left % (MOST_CORRECTED - 1));
        let with_rest = u64::from(rest > 0);
        let mut readings = [0; MOST_CORRECTED as usize + 1];
        readings[0] = wide(counts.clean);
        readings[1] = corrected.checked_sub(full + with_rest)?;
        readings[1 + rest as usize] += with_rest;
        readings[MOST_CORRECTED as usize] += full;
        let others = [
            (b'n', wide(counts.noword)),
            (b'c', wide(counts.check)),
            (b'-', wide(counts.missing)),
        ];
        let tally = Tally { readings, others };
        (tally.slots() == wide(counts.slots) && tally.slots() <= wide(MOST_SLOTS)).then_some(tally)
    }

    /// Each outcome with its number of slots.
    fn outcomes(&self) -> impl Iterator<Item = (u8, u64)> + '_ {
        let readings = self.readings.iter().zip(b'0'..);
        let readings = readings.map(|(slots, outcome)| (outcome, *slots));
        readings.chain(self.others)
    }

    fn slots(&self) -> u64 {
        self.outcomes().map(|(_, slots)| slots).sum()
    }

    /// A log with so many slots of each outcome.
    pub fn log(&self, channel: u8) -> Vec<u8> {
        let outcomes = self
            .outcomes()
            .flat_map(|(outcome, slots)| (0..slots).map(move |_| char::from(outcome)));
        let lines: String = outcomes
            .zip(1..)
            .map(|(outcome, slot): (char, u32)| format!("{slot}\t{outcome}\n"))
            .collect();
        format!("channel\t{channel}\n{lines}").into_bytes()
    }
}

/// Where in a line the machine is. What the part needs to know of the bytes before is in it.
#[derive(Clone, Copy, PartialEq)]
enum Part {
    /// So many letters of the first line's word have come.
    Word(usize),
    /// The channel number so far, 0 before its first digit.
    Channel(u32),
    /// The slot number so far, 0 before its first digit.
    Slot(u32),
    /// The tab behind the right slot number has come.
    Tab,
    Outcome(u8),
    /// Whatever follows, this will be no line.
    Hopeless,
    /// A line was refused: whatever follows has no part in it.
    Refused,
}

const WORD: &[u8] = b"channel";

impl Part {
    const LOG_BEGINS: Part = Part::Word(0);
    const SLOT_BEGINS: Part = Part::Slot(0);

    /// The part after one byte more, which is no line feed.
    fn after(self, byte: u8, slot: u32) -> Part {
        match self {
            Part::Word(letters) => match WORD.get(letters) {
                Some(letter) if *letter == byte => Part::Word(letters + 1),
                None if byte == b'\t' => Part::Channel(0),
                _ => Part::Hopeless,
            },
            Part::Channel(number) => longer(number, byte).map_or(Part::Hopeless, Part::Channel),
            Part::Slot(number) if byte == b'\t' && number == slot => Part::Tab,
            Part::Slot(number) => longer(number, byte).map_or(Part::Hopeless, Part::Slot),
            Part::Tab if matches!(byte, b'0'..=b'8' | b'n' | b'c' | b'-') => Part::Outcome(byte),
            Part::Tab | Part::Outcome(_) | Part::Hopeless => Part::Hopeless,
            Part::Refused => Part::Refused,
        }
    }
}

/// The number with one digit more; none where that is no digit or leaves 0, which is a zero in
/// front, or more than any number of a log. So six digits are the most, and nothing can run over.
fn longer(number: u32, byte: u8) -> Option<u32> {
    let digit = char::from(byte).to_digit(10)?;
    Some(10 * number + digit).filter(|number| (1..=MOST_SLOTS).contains(number))
}

struct Machine {
    counts: Counts,
    /// The line so far.
    line: Vec<u8>,
    part: Part,
}

impl Machine {
    /// The inner part is not in a reader: the held bytes lead to it again.
    fn of(reader: &Reader) -> Machine {
        let part = match reader.phase {
            Phase::Refused => Part::Refused,
            _ if reader.counts.channel == 0 => Part::LOG_BEGINS,
            _ => Part::SLOT_BEGINS,
        };
        let mut machine = Machine {
            counts: reader.counts.clone(),
            line: Vec::new(),
            part,
        };
        let length = MOST_HELD.min(reader.length as usize);
        machine.take_all(&reader.held[..length]);
        machine
    }

    fn reader(self) -> Reader {
        match self.part {
            Part::Refused => Reader::between_lines(Phase::Refused, self.counts),
            _ => Reader::within_line(self.counts, &self.line),
        }
    }

    fn take_all(&mut self, bytes: &[u8]) {
        bytes.iter().for_each(|byte| self.take(*byte));
    }

    fn take(&mut self, byte: u8) {
        if self.part == Part::Refused {
            return;
        }
        if byte == b'\n' {
            self.finish_line();
        } else if self.line.len() == MOST_HELD {
            self.refuse();
        } else {
            self.line.push(byte);
            self.part = self.part.after(byte, self.counts.slots + 1);
        }
    }

    fn finish_line(&mut self) {
        match self.part {
            Part::Channel(number) if (1..=u32::from(LAST_CHANNEL)).contains(&number) => {
                self.counts.channel = number as u8;
            }
            Part::Outcome(outcome) => self.count(outcome),
            _ => return self.refuse(),
        }
        self.line.clear();
        self.part = Part::SLOT_BEGINS;
    }

    fn count(&mut self, outcome: u8) {
        let counts = &mut self.counts;
        counts.slots += 1;
        match outcome {
            b'n' => counts.noword += 1,
            b'c' => counts.check += 1,
            b'-' => counts.missing += 1,
            digit => {
                let bits = u32::from(digit - b'0');
                counts.read += 1;
                counts.bits += bits;
                counts.clean += u32::from(bits == 0);
            }
        }
    }

    fn refuse(&mut self) {
        self.line.clear();
        self.part = Part::Refused;
    }
}
