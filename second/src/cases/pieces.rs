//! Cases for a log in pieces: the logs of `logs.rs` cut anywhere, readers at their edges, calls
//! after a refusal or an end, and readers that no pieces lead to. A script is several calls chained
//! through one reader; each call is a case with the reader in its line.

use super::logs::{good_lines, logs, slot_line};
use super::survey::{any_counts, counts_of, counts_of_slots, good_counts, IMPOSSIBLE};
use super::{several, Case};
use crate::notation::{Line, LONGEST_CASE};
use crate::random::Random;
use crate::reader::{Phase, Reader, MOST_HELD};
use crate::survey::{Counts, MOST_SLOTS};

/// Half of a case's bytes, less what the command and any reader need.
const LONGEST_PIECE: usize = LONGEST_CASE / 2 - 128;

struct Script {
    reader: Reader,
    feeds: Vec<Case>,
    ends: Vec<Case>,
}

impl Script {
    fn from(reader: Reader) -> Script {
        Script {
            reader,
            feeds: Vec::new(),
            ends: Vec::new(),
        }
    }

    fn feed(&mut self, piece: &[u8]) {
        let line = Line::new("feed").reader(&self.reader).bytes(piece);
        self.feeds.push(line.done());
        // The answer is for whoever is asked; here only the reader counts.
        let _ = self.reader.feed(piece);
    }

    /// The pieces and the end behind them. Where one is refused, few of the others are fed.
    fn feed_all(&mut self, random: &Random, pieces: &[&[u8]]) {
        let mut after_refusal = random.pick(&[0, 0, 0, 1, 2]);
        for piece in pieces {
            if self.reader.phase == Phase::Refused {
                if after_refusal == 0 {
                    break;
                }
                after_refusal -= 1;
            }
            if random.one_in(6) {
                self.ask_for_end();
            }
            self.feed(piece);
        }
        self.end();
    }

    fn end(&mut self) {
        self.ask_for_end();
        let _ = self.reader.end();
    }

    /// The end as it would be now, while the script goes on without it.
    fn ask_for_end(&mut self) {
        self.ends.push(Line::new("end").reader(&self.reader).done());
    }

    /// Calls that change nothing more where the reader is refused or ended.
    fn go_on(&mut self, random: &Random) {
        for _ in 0..random.between(1, 3) {
            let piece = fitting(random, &self.reader);
            self.feed(&piece);
            if random.flag() {
                self.end();
            }
        }
    }
}

pub fn start(_: &Random, _: usize) -> Vec<Case> {
    vec![b"start".to_vec()]
}

pub fn feed(random: &Random, index: usize) -> Vec<Case> {
    let scripts = scripts(random, index).into_iter();
    scripts.flat_map(|script| script.feeds).collect()
}

pub fn end(random: &Random, index: usize) -> Vec<Case> {
    let scripts = scripts(random, index).into_iter();
    scripts.flat_map(|script| script.ends).collect()
}

/// The same for both commands: the ends are those of the pieces that are fed.
fn scripts(random: &Random, index: usize) -> Vec<Script> {
    let random = &random.row_of("pieces", index);
    let round = index / 16;
    match index % 16 {
        11 if round % 2 == 0 => vec![byte_by_byte(random, round / 2)],
        11 => several(2, round, |_| vec![from_any_reader(random)]),
        12 => several(8, round, |round| vec![broken(random, round)]),
        13 => several(2, round, |round| vec![last_slots(random, round)]),
        14 => several(2, round, |round| vec![afterwards(random, round)]),
        15 if round % 100 == 1 => vec![filled_line(random)],
        15 => several(4, round, |_| vec![from_any_reader(random)]),
        // All others go through the very logs of the command `log`, in their order.
        kind => {
            let number = 11 * round + kind;
            logs(&random.row_of("log", number), number)
                .iter()
                .map(|log| in_pieces(random, log))
                .collect()
        }
    }
}

fn in_pieces(random: &Random, log: &[u8]) -> Script {
    let mut script = Script::from(Reader::start());
    script.feed_all(random, &pieces(random, log));
    script
}

/// The log in 1 to 20 pieces, some of no bytes; more only where a piece would not fit in a case.
fn pieces<'a>(random: &Random, log: &'a [u8]) -> Vec<&'a [u8]> {
    let count = random.pick(&[1, 2, 2, 3, 3, 4, 5, random.between(1, 20)]);
    let lines = Lines::of(log);
    let mut cuts: Vec<usize> = (1..count).map(|_| lines.cut(random)).collect();
    cuts.extend(
        (1..)
            .map(|n| n * LONGEST_PIECE)
            .take_while(|cut| *cut < log.len()),
    );
    cuts.push(log.len());
    cuts.sort_unstable();
    let mut start = 0;
    let piece = |end: usize| {
        let piece = &log[start..end];
        start = end;
        piece
    };
    cuts.into_iter().map(piece).collect()
}

/// Where the lines of a log begin.
struct Lines {
    length: usize,
    starts: Vec<usize>,
    /// Those of the lines that are as long as a line may be, or nearly, or longer.
    long: Vec<usize>,
}

impl Lines {
    fn of(log: &[u8]) -> Lines {
        let mut starts = vec![0];
        let mut long = Vec::new();
        let mut start = 0;
        for line in log.split_inclusive(|byte| *byte == b'\n') {
            if line.len() >= MOST_HELD - 1 {
                long.push(start);
            }
            start += line.len();
            starts.push(start);
        }
        Lines {
            length: log.len(),
            starts,
            long,
        }
    }

    /// Any place, or one where something is decided: an end, before or behind a line feed, inside
    /// a word or number, beside the 64th byte of a line.
    fn cut(&self, random: &Random) -> usize {
        let long_line = !self.long.is_empty() && random.flag();
        let start = random.pick(if long_line { &self.long } else { &self.starts });
        let place = match random.below(9) {
            0 => random.pick(&[0, self.length]),
            1 => start,
            2 => start.saturating_sub(1),
            3 => start + random.between(1, 9),
            4 => start + random.between(MOST_HELD - 1, MOST_HELD + 2),
            5 if long_line => start + random.between(MOST_HELD - 1, MOST_HELD + 2),
            _ => random.between(0, self.length),
        };
        place.min(self.length)
    }
}

/// Every byte a piece, with pieces of none between. Of a long line only its end.
fn byte_by_byte(random: &Random, round: usize) -> Script {
    let slots = random.below(3);
    let mut lines = good_lines(random, slots);
    let place = random.below(lines.len());
    let line = &mut lines[place];
    match round % 4 {
        0 | 1 => {}
        2 => {
            let damaged = random.below(line.len());
            line[damaged] = random.pick(b"0129\t\n n-\r");
        }
        _ => {
            let length = random.pick(&[62, 63, 64, 65]);
            line.pop();
            line.resize(length - 1, random.pick(b"0x\t "));
            line.push(b'\n');
        }
    }
    let log = lines.concat();
    let mut pieces: Vec<&[u8]> = log.chunks(1).collect();
    for _ in 0..random.below(3) {
        pieces.insert(random.between(0, pieces.len()), &[]);
    }
    let mut script = Script::from(Reader::start());
    script.feed_all(random, &pieces);
    let skipped = script.feeds.len().saturating_sub(30);
    script.feeds.drain(..skipped);
    script
}

/// The line that a reader with these counts waits for. A broken reader may have any counts.
fn next_line(random: &Random, counts: &Counts) -> Vec<u8> {
    match counts.channel {
        0 => good_lines(random, 0).concat(),
        _ => slot_line(random, counts.slots as usize + 1),
    }
}

/// The line that a reader waits for and the two behind it.
fn next_lines(random: &Random, counts: &Counts) -> Vec<u8> {
    let mut text = next_line(random, counts);
    let slot = match counts.channel {
        0 => 1,
        _ => counts.slots as usize + 2,
    };
    text.extend(slot_line(random, slot));
    text.extend(slot_line(random, slot + 1));
    text
}

/// A piece that goes on where the reader stands, or one of few bytes, or any.
fn fitting(random: &Random, reader: &Reader) -> Vec<u8> {
    let line = next_line(random, &reader.counts);
    let held = (reader.length as usize).min(line.len());
    match random.below(8) {
        0 => Vec::new(),
        1 => b"\n".to_vec(),
        2 => line[held..].to_vec(),
        3 => next_lines(random, &reader.counts)[held..].to_vec(),
        4 => [b"\n", &next_lines(random, &reader.counts)[..]].concat(),
        5 => good_lines(random, 1).concat(),
        6 => vec![random.pick(b"0x\t1"); random.pick(&[1, 2, 62, 63, 64, 65, 200])],
        _ => random.bytes(random.below(80)),
    }
}

/// What an open reader may hold: the beginning of the right line, or any bytes but line feeds.
fn some_held(random: &Random, counts: &Counts) -> Vec<u8> {
    let line = next_line(random, counts);
    let length = random.pick(&[1, 2, 12, 61, 62, 63, 63, random.between(0, MOST_HELD)]);
    match random.below(4) {
        0 => Vec::new(),
        1 => line[..random.below(line.len())].to_vec(),
        2 => vec![random.pick(b"0x\t\r\0\xFF1"); length],
        _ => {
            let mut bytes = random.bytes(length);
            let no_line_feed = |byte: &mut u8| *byte += u8::from(*byte == b'\n');
            bytes.iter_mut().for_each(no_line_feed);
            bytes
        }
    }
}

fn some_counts(random: &Random) -> Counts {
    match random.one_in(4) {
        true => Counts::default(),
        false => good_counts(random),
    }
}

/// A reader that pieces lead to and that has not ended.
fn good_reader(random: &Random) -> Reader {
    let counts = some_counts(random);
    if random.one_in(4) {
        return Reader::between_lines(Phase::Refused, counts);
    }
    let held = some_held(random, &counts);
    Reader::within_line(counts, &held)
}

fn from_any_reader(random: &Random) -> Script {
    let mut script = Script::from(good_reader(random));
    for _ in 0..2 {
        let piece = fitting(random, &script.reader);
        script.feed(&piece);
    }
    script.end();
    script
}

/// A piece that fills its case to the last byte.
fn filled_line(random: &Random) -> Script {
    let mut script = Script::from(Reader::start());
    let beside = Line::new("feed").reader(&script.reader).bytes(&[]).done();
    // The point for no bytes gives way to them.
    let room = (LONGEST_CASE - beside.len() + 1) / 2;
    let mut piece = good_lines(random, room / 4).concat();
    piece.truncate(room);
    script.feed(&piece);
    script.end();
    script
}

/// The last slots a log may have and the line behind them, with a part of the next line held. Now
/// and then a byte is wrong.
fn last_slots(random: &Random, round: usize) -> Script {
    let before = (round % 3) as u32;
    let counts = counts_of_slots(random, MOST_SLOTS - before);
    let mut text = next_lines(random, &counts);
    if random.one_in(4) {
        let place = random.below(text.len());
        text[place] = random.pick(b"0189\t\nn");
    }
    let line = text.iter().position(|byte| *byte == b'\n').unwrap_or(0);
    let held = random.pick(&[0, line, random.between(0, line)]);
    let mut script = Script::from(match round % 7 {
        6 => Reader::between_lines(Phase::Refused, counts),
        _ => Reader::within_line(counts, &text[..held]),
    });
    script.ask_for_end();
    script.feed_all(random, &pieces(random, &text[held..]));
    script
}

/// Calls after a refusal in a piece, a refused end and an accepted one.
fn afterwards(random: &Random, round: usize) -> Script {
    let mut script = Script::from(Reader::start());
    let slots = random.below(4);
    let mut log = good_lines(random, slots).concat();
    match round % 4 {
        0 => log.extend(b"?\n"),
        1 => drop(log.pop()),
        _ => {}
    }
    script.feed(&log);
    script.end();
    script.go_on(random);
    script
}

/// A call of each command with a reader that no pieces lead to, or that has ended.
fn broken(random: &Random, round: usize) -> Script {
    let mut reader = good_reader(random);
    let change = round % 6;
    match change {
        0 => spoil_counts(random, &mut reader, round / 6),
        1 => spoil_held(random, &mut reader, round / 6),
        2 => spoil_length(random, &mut reader, round / 6),
        3 => spoil_phase(random, &mut reader, round / 6),
        4 => spoil_beginning(random, &mut reader, round / 6),
        _ => reader.counts = impossible(random, round / 6),
    }
    let mut script = Script::from(reader);
    let piece = fitting(random, &script.reader);
    script.feed(&piece);
    script.end();
    script
}

/// One of the seven counts of slots.
pub fn column(counts: &mut Counts, number: usize) -> &mut u32 {
    match number % 7 {
        0 => &mut counts.slots,
        1 => &mut counts.read,
        2 => &mut counts.clean,
        3 => &mut counts.bits,
        4 => &mut counts.noword,
        5 => &mut counts.check,
        _ => &mut counts.missing,
    }
}

/// A channel that is none, each count one more or less, and each bound of them passed by one.
fn spoil_counts(random: &Random, reader: &mut Reader, round: usize) {
    let counts = &mut reader.counts;
    let corrected = counts.read - counts.clean;
    match round % 20 {
        0 => counts.channel = random.pick(&[205, 206, 255]),
        1 => counts.channel = 0,
        2 => *counts = counts_of_slots(random, MOST_SLOTS + 1),
        3 => counts.clean = counts.read + 1,
        4 => counts.bits = 8 * corrected + 1,
        5 => counts.bits = corrected.wrapping_sub(1),
        6..=12 => {
            let count = column(counts, round % 20 - 6);
            *count += 1;
        }
        more => {
            let count = column(counts, more - 13);
            *count = count.wrapping_sub(1);
        }
    }
}

/// A line feed among the bytes held, or a byte behind them.
fn spoil_held(random: &Random, reader: &mut Reader, round: usize) {
    let length = reader.length as usize;
    let first_behind = length.min(MOST_HELD - 1);
    let behind = random.between(first_behind, MOST_HELD - 1);
    match round % 6 {
        0 => reader.held[random.below(length.max(1))] = b'\n',
        1 => reader.held[length.saturating_sub(1)] = b'\n',
        2 => reader.held[behind] = random.pick(&[b'\n', 1, b'0', 0x80, 0xFF]),
        3 => reader.held[first_behind] = 1,
        4 => reader.held[MOST_HELD - 1] = random.pick(&[b'\n', 1, 0x80]),
        _ => reader.held = random.bytes(MOST_HELD).try_into().expect("63 bytes"),
    }
}

/// One more, one less, more than there are bytes, and the right one modulo a power of two.
fn spoil_length(random: &Random, reader: &mut Reader, round: usize) {
    let length = reader.length;
    reader.length = match round % 8 {
        0 => MOST_HELD as u32 + 1,
        1 => MOST_HELD as u32 + 2,
        2 => length + 1,
        3 => length.wrapping_sub(1),
        4 => length + random.pick(&[64, 256, 1 << 16, 1 << 31]),
        5 => random.pick(&[u32::MAX, u32::MAX - 62, u32::MAX - 63, 1 << 31]),
        6 => random.next() as u32,
        _ => random.below(MOST_HELD + 1) as u32,
    };
}

/// Ended, with or without something held; refused, and yet with something held.
fn spoil_phase(random: &Random, reader: &mut Reader, round: usize) {
    let held = some_held(random, &reader.counts);
    let counts = reader.counts.clone();
    *reader = match round % 5 {
        0 => Reader::between_lines(Phase::Ended, counts),
        _ => Reader::within_line(counts, &held),
    };
    match round % 5 {
        0 => {}
        1 => reader.phase = Phase::Ended,
        2 => reader.phase = Phase::Refused,
        3 => {
            reader.phase = Phase::Refused;
            reader.length = 0;
        }
        _ => {
            reader.phase = Phase::Refused;
            reader.held = [0; MOST_HELD];
        }
    }
}

/// Before the first line something is counted, or only the channel is there behind it.
fn spoil_beginning(random: &Random, reader: &mut Reader, round: usize) {
    let line = some_held(random, &Counts::default());
    *reader = Reader::within_line(Counts::default(), &line);
    let number = random.pick(&[1, 2, 999_999, 1 << 31, u32::MAX]);
    match round % 9 {
        column_number @ 0..=6 => *column(&mut reader.counts, column_number) = number,
        7 => {
            reader.counts = Counts {
                channel: 0,
                ..good_counts(random)
            }
        }
        _ => reader.counts.channel = random.pick(&[1, 204, 205]),
    }
    if random.one_in(4) {
        reader.phase = Phase::Refused;
    }
}

/// Counts that add up only modulo 2^32, and any at all.
const ONLY_MODULO: [Counts; 5] = [
    counts_of([5, 1 << 29, 0, 1 << 29, 3_758_096_389, 0, 0]),
    counts_of([5, 1 << 29, 0, 0, 3_758_096_389, 0, 0]),
    counts_of([0, u32::MAX, u32::MAX, 0, 1, 0, 0]),
    counts_of([999_999, 1_000_000, 1_000_000, 0, 0, 0, u32::MAX]),
    counts_of([3, 2, 3, 7, 1, 0, 0]),
];

fn impossible(random: &Random, round: usize) -> Counts {
    match round % 4 {
        0 => random.pick(&IMPOSSIBLE),
        1 | 2 => ONLY_MODULO[round / 4 % ONLY_MODULO.len()].clone(),
        _ => any_counts(random),
    }
}
