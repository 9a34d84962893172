//! Cases for the log: good ones, and each rule broken in turn.

use super::{several, Case};
use crate::notation::{Line, LONGEST_CASE};
use crate::random::Random;

const OUTCOMES: &[u8] = b"012345678nc-";

/// First lines that are none, most of them nearly one.
const BAD_FIRST_LINES: [&str; 40] = [
    "channel\t0\n",
    "channel\t205\n",
    "channel\t255\n",
    "channel\t256\n",
    "channel\t257\n",
    "channel\t1000\n",
    "channel\t4294967295\n",
    "channel\t4294967296\n",
    "channel\t4294967297\n",
    "channel\t18446744073709551615\n",
    "channel\t18446744073709551616\n",
    "channel\t18446744073709551617\n",
    "channel\t340282366920938463463374607431768211457\n",
    "channel\t01\n",
    "channel\t001\n",
    "channel\t-1\n",
    "channel\t+1\n",
    "channel\t1 \n",
    "channel\t 1\n",
    "channel\t1\t\n",
    "channel\t\t1\n",
    "channel\t1\t1\n",
    "\tchannel\t1\n",
    " channel\t1\n",
    "channel\t1\r\n",
    "channel 1\n",
    "channel1\n",
    "channel\t\n",
    "channel\n",
    "Channel\t1\n",
    "CHANNEL\t1\n",
    "channe\t1\n",
    "channels\t1\n",
    "channel\t1a\n",
    "channel\ta\n",
    "channel\t1.0\n",
    "\u{feff}channel\t1\n",
    "\n",
    "1\t0\n",
    "1\tchannel\n",
];

/// What may stand wrongly behind the right slot number and a tab.
const BAD_OUTCOMES: [&str; 22] = [
    "", "9", "10", "00", "01", "-1", "+1", "N", "C", "nn", "cc", "--", "n ", " n", "0\t", "\t0",
    "0\r", "8.", "x", "18", "_", "80",
];

type Log = Vec<u8>;

pub fn log(random: &Random, index: usize) -> Vec<Case> {
    let logs = logs(random, index);
    let case = |log: &Log| Line::new("log").bytes(log).done();
    logs.iter().map(case).collect()
}

pub fn slot_line(random: &Random, slot: usize) -> Vec<u8> {
    let outcome = char::from(random.pick(OUTCOMES));
    format!("{slot}\t{outcome}\n").into_bytes()
}

/// A good log, line by line.
pub fn good_lines(random: &Random, slots: usize) -> Vec<Vec<u8>> {
    let channel = random.pick(&[1, 9, 10, 99, 100, 203, 204, random.between(1, 204)]);
    let mut lines = vec![format!("channel\t{channel}\n").into_bytes()];
    lines.extend((1..=slots).map(|slot| slot_line(random, slot)));
    lines
}

fn some_lines(random: &Random) -> Vec<Vec<u8>> {
    let most = random.pick(&[1, 3, 12, 120]);
    let slots = random.between(1, most);
    good_lines(random, slots)
}

/// The logs of the cases with a number; `pieces.rs` cuts them.
pub fn logs(random: &Random, index: usize) -> Vec<Log> {
    let round = index / 16;
    match index % 16 {
        0 | 1 => vec![some_lines(random).concat()],
        2 => plain(random, round),
        3 | 8 => one_byte_changed(random),
        4 => one_byte_more_or_less(random),
        5 => several(2, round, |round| bad_first_line(random, round)),
        6 => several(2, round, |round| bad_outcome(random, round)),
        7 => several(2, round, |round| bad_slot_number(random, round)),
        9 => lines_moved(random),
        10 => line_length(random, round),
        11 => cut(random),
        12 => several(4, round, |round| byte_of_every_value(random, round)),
        13 => carriage_returns(random),
        14 => any_bytes(random),
        _ => longer(random, round),
    }
}

/// Empty, first line only, with and without its line feed, an empty line at the end.
fn plain(random: &Random, round: usize) -> Vec<Log> {
    let first = good_lines(random, 0).concat();
    let mut log = match round % 6 {
        0 => Vec::new(),
        1 | 2 => first,
        3 => return vec![first[..first.len() - 1].to_vec()],
        4 => b"\n".to_vec(),
        _ => some_lines(random).concat(),
    };
    if round % 6 == 5 {
        log.push(b'\n');
    }
    vec![log]
}

fn one_byte_changed(random: &Random) -> Vec<Log> {
    let mut log = some_lines(random).concat();
    let place = random.below(log.len());
    log[place] = random.pick(&[random.byte(), b'0', b'1', b'\t', b'\n', b' ', b'-']);
    vec![log]
}

fn one_byte_more_or_less(random: &Random) -> Vec<Log> {
    let mut log = some_lines(random).concat();
    let place = random.below(log.len());
    if random.flag() {
        log.remove(place);
    } else {
        let byte = random.pick(&[random.byte(), b'0', b'1', b'\t', b'\n', b' ', b'\r', 0]);
        log.insert(place, byte);
    }
    vec![log]
}

fn bad_first_line(random: &Random, round: usize) -> Vec<Log> {
    let mut lines = some_lines(random);
    lines[0] = BAD_FIRST_LINES[round % BAD_FIRST_LINES.len()]
        .as_bytes()
        .to_vec();
    vec![lines.concat()]
}

fn bad_outcome(random: &Random, round: usize) -> Vec<Log> {
    let mut lines = some_lines(random);
    let slot = random.between(1, lines.len() - 1);
    let outcome = BAD_OUTCOMES[round % BAD_OUTCOMES.len()];
    lines[slot] = format!("{slot}\t{outcome}\n").into_bytes();
    vec![lines.concat()]
}

/// A number that is not the next one, or is it in another writing, or only modulo 2^32 or 2^64.
fn bad_slot_number(random: &Random, round: usize) -> Vec<Log> {
    let mut lines = some_lines(random);
    let slot = random.between(1, lines.len() - 1);
    let wide = slot as u128;
    let number = match round % 14 {
        0 => format!("{}", slot + 1),
        1 => format!("{}", slot - 1),
        2 => format!("0{slot}"),
        3 => format!("+{slot}"),
        4 => format!("-{slot}"),
        5 => format!(" {slot}"),
        6 => format!("{slot} "),
        7 => String::new(),
        8 => format!("{}", wide + (1 << 32)),
        9 => format!("{}", wide + (1 << 64)),
        10 => format!("{}", wide + (1 << 16)),
        11 => format!("{}", wide + 256),
        12 => random
            .pick(&["999999", "1000000", "4294967295", "18446744073709551615"])
            .into(),
        _ => format!("{slot}0"),
    };
    let separator = random.pick(&["\t", "\t", "\t", " ", "", "\t\t"]);
    lines[slot] = format!("{number}{separator}0\n").into_bytes();
    vec![lines.concat()]
}

fn lines_moved(random: &Random) -> Vec<Log> {
    let mut lines = some_lines(random);
    let place = random.below(lines.len());
    let other = random.below(lines.len());
    match random.below(5) {
        0 => lines.swap(place, other),
        1 => lines.insert(place, lines[other].clone()),
        2 => drop(lines.remove(place)),
        3 => lines.insert(place, b"\n".to_vec()),
        _ => lines.insert(place, lines[0].clone()),
    }
    vec![lines.concat()]
}

/// Lines of 62 to 66 and far more bytes with their line feed, first or later.
fn line_length(random: &Random, round: usize) -> Vec<Log> {
    let length = [62, 63, 64, 65, 66, 128, 1000][round % 7];
    let mut lines = some_lines(random);
    let place = if random.flag() {
        0
    } else {
        random.below(lines.len())
    };
    let filler = random.pick(b"0 \t1x");
    let mut line = lines[place].clone();
    line.pop();
    let at = random.pick(&[line.len(), 0, line.len() - 1]);
    while line.len() + 1 < length {
        line.insert(at, filler);
    }
    line.push(b'\n');
    lines[place] = line;
    vec![lines.concat()]
}

fn cut(random: &Random) -> Vec<Log> {
    let log = some_lines(random).concat();
    let end = random.pick(&[log.len() - 1, random.below(log.len())]);
    vec![log[..end].to_vec()]
}

/// All 256 bytes in turn as outcome, as separator or as end of the first line.
fn byte_of_every_value(random: &Random, round: usize) -> Vec<Log> {
    let byte = (round % 256) as u8;
    let mut log = good_lines(random, 1).concat();
    let place = match round / 256 % 3 {
        0 => log.len() - 2,
        1 => log.len() - 3,
        _ => 7,
    };
    log[place] = byte;
    vec![log]
}

fn carriage_returns(random: &Random) -> Vec<Log> {
    let mut lines = some_lines(random);
    let only = random.below(lines.len());
    let everywhere = random.flag();
    for (i, line) in lines.iter_mut().enumerate() {
        if everywhere || i == only {
            line.insert(line.len() - 1, b'\r');
        }
    }
    vec![lines.concat()]
}

fn any_bytes(random: &Random) -> Vec<Log> {
    let length = random.between(0, 80);
    let log = match random.flag() {
        true => random.bytes(length),
        false => (0..length)
            .map(|_| random.pick(b"channel\t\t\n\n0123-nc"))
            .collect(),
    };
    vec![log]
}

/// Some hundreds of slots; now and then as many as a case can hold.
fn longer(random: &Random, round: usize) -> Vec<Log> {
    let slots = match round % 40 {
        39 => random.pick(&[15_000, 18_000]),
        _ => random.between(100, 1200),
    };
    let mut lines = good_lines(random, slots);
    if random.flag() {
        let place = random.below(lines.len());
        lines[place] = b"?\n".to_vec();
    }
    let mut log = lines.concat();
    // Half of a case's bytes, less what the command needs.
    log.truncate(LONGEST_CASE / 2 - 8);
    vec![log]
}
