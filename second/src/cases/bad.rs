//! Lines that are no cases: a good case with something done to it that no reading forgives.

use super::{Case, MAKERS};
use crate::frame::FRAME_BYTES;
use crate::notation::{Line, LONGEST_ARGUMENT, LONGEST_CASE};
use crate::random::Random;
use crate::reader::{Reader, MOST_HELD};

/// None of these can be read as bytes, number, flag, name of a phase or binary64.
const UNREADABLE: [&[u8]; 18] = [
    b"",
    b" ",
    b"x",
    b"-1",
    b"+1",
    b"0x10",
    b"g0",
    b"0g",
    b"1 ",
    b" 1",
    b"1.0",
    b"..",
    b"-",
    b"idle ",
    b"\x00",
    b"\x80\xFF",
    b"1\r",
    b"18446744073709551616x",
];

/// Numbers no parameter of the notation can hold and no byte argument has room for: an odd number
/// of digits.
const TOO_GREAT: [&[u8]; 4] = [
    b"18446744073709551616000",
    b"42949672960",
    b"99999999999",
    b"340282366920938463463374607431768211456",
];

pub fn bad(random: &Random, index: usize) -> Vec<Case> {
    let round = index / 9;
    vec![match index % 9 {
        0 => argument_unreadable(random),
        1 => argument_missing(random),
        2 => argument_too_many(random),
        3 => other_command(random, round),
        4 => beyond_its_parameter(round),
        5 => odd_digits(random),
        6 => number_too_great(random),
        7 => bad_reader(random, round),
        _ => over_a_limit(random, round),
    }]
}

/// A good case, cut at its tabs. Not of the command without arguments where one is needed.
fn good_fields(random: &Random, least: usize) -> Vec<Vec<u8>> {
    loop {
        let (_, maker) = random.pick(&MAKERS);
        // A script that lost all its blocks has no case.
        let Some(case) = maker(random, random.below(1000)).into_iter().next() else {
            continue;
        };
        let fields: Vec<Vec<u8>> = case
            .split(|byte| *byte == b'\t')
            .map(<[u8]>::to_vec)
            .collect();
        if fields.len() > least && case.len() < LONGEST_CASE / 2 {
            return fields;
        }
    }
}

fn argument_unreadable(random: &Random) -> Case {
    let mut fields = good_fields(random, 1);
    let place = random.between(1, fields.len() - 1);
    fields[place] = random.pick(&UNREADABLE).to_vec();
    fields.join(&b'\t')
}

fn argument_missing(random: &Random) -> Case {
    let mut fields = good_fields(random, 1);
    match random.flag() {
        true => fields.truncate(random.between(1, fields.len() - 1)),
        false => drop(fields.remove(random.between(1, fields.len() - 1))),
    }
    fields.join(&b'\t')
}

fn argument_too_many(random: &Random) -> Case {
    let mut fields = good_fields(random, 0);
    let place = random.between(1, fields.len());
    let more = random.pick(&[&b""[..], b".", b"0", b"1", b"00"]);
    match random.flag() {
        true => fields.insert(place, more.to_vec()),
        false => fields.push(more.to_vec()),
    }
    fields.join(&b'\t')
}

fn other_command(random: &Random, round: usize) -> Case {
    // With an argument: one field joined by spaces would be the case itself.
    let mut fields = good_fields(random, 1);
    fields[0] = match round % 10 {
        0 => Vec::new(),
        1 => fields[0].to_ascii_uppercase(),
        2 => [&fields[0][..], b" "].concat(),
        3 => [b" ", &fields[0][..]].concat(),
        4 => fields[0][1..].to_vec(),
        5 => fields[0][..fields[0].len() - 1].to_vec(),
        6 => b"bad case".to_vec(),
        7 => [&fields[0][..], b"\0"].concat(),
        8 => return fields.join(&b' '),
        _ => return Vec::new(),
    };
    fields.join(&b'\t')
}

/// Each parameter just above what it can hold, and group states with a field too few and one too
/// many.
const BEYOND: [&str; 41] = [
    "khz\t65536",
    "khz\t4294967297",
    "khz\t18446744073709551617",
    "channel\t4294967296",
    "channel\t4295054896",
    "new-group\t65536",
    "write-message\t256\t0\t0\t0\t0\t0\t0\t0\t.\t.",
    "write-message\t0\t256\t0\t0\t0\t0\t0\t0\t.\t.",
    "write-message\t0\t0\t2\t0\t0\t0\t0\t0\t.\t.",
    "write-message\t0\t0\t0\t2\t0\t0\t0\t0\t.\t.",
    "write-message\t0\t0\t0\t0\t65536\t0\t0\t0\t.\t.",
    "write-message\t0\t0\t0\t0\t0\t2\t0\t0\t.\t.",
    "write-message\t0\t0\t0\t0\t0\t0\t2\t0\t.\t.",
    "write-message\t0\t0\t0\t0\t0\t0\t0\t256\t.\t.",
    "write-group\t65536\t0\t0\t0\t0\t.\t.",
    "write-group\t0\t256\t0\t0\t0\t.\t.",
    "write-group\t0\t0\t2\t0\t0\t.\t.",
    "write-group\t0\t0\t0\t256\t0\t.\t.",
    "write-group\t0\t0\t0\t0\t256\t.\t.",
    "join\t65536\tidle\t0\t0\t0\t0\t0\t0\t0\t0\t0\t0\t.\t.",
    "join\t0\twaiting\t0\t0\t0\t0\t0\t0\t0\t0\t0\t0\t.\t.",
    "join\t0\tidle\t4294967296\t0\t0\t0\t0\t0\t0\t0\t0\t0\t.\t.",
    "join\t0\tidle\t0\t256\t0\t0\t0\t0\t0\t0\t0\t0\t.\t.",
    "join\t0\tidle\t0\t0\t256\t0\t0\t0\t0\t0\t0\t0\t.\t.",
    "join\t0\tidle\t0\t0\t0\t4294967296\t0\t0\t0\t0\t0\t0\t.\t.",
    "join\t0\tidle\t0\t0\t0\t0\t256\t0\t0\t0\t0\t0\t.\t.",
    "join\t0\tidle\t0\t0\t0\t0\t0\t256\t0\t0\t0\t0\t.\t.",
    "join\t0\tidle\t0\t0\t0\t0\t0\t0\t2\t0\t0\t0\t.\t.",
    "join\t0\tidle\t0\t0\t0\t0\t0\t0\t0\t2\t0\t0\t.\t.",
    "join\t0\tidle\t0\t0\t0\t0\t0\t0\t0\t0\t65536\t0\t.\t.",
    "join\t0\tidle\t0\t0\t0\t0\t0\t0\t0\t0\t0\t2\t.\t.",
    "join\t0\tidle\t0\t0\t0\t0\t0\t0\t0\t0\t0\t.\t.",
    "join\t0\tidle\t0\t0\t0\t0\t0\t0\t0\t0\t0\t0\t0\t.\t.",
    "join\t0\tgathering\t2\t1\t0\t3\t0\t1\t0\t0\t0\t4142\t.",
    "join\t0\tgathering\t2\t1\t0\t2\t2\t3\t0\t1\t0\t0\t0\t4142\t.",
    "summary\t256\t0\t0\t0\t0\t0\t0\t0",
    "summary\t1\t4294967296\t0\t0\t0\t0\t0\t0",
    "summary\t1\t0\t0\t0\t0\t0\t0\t4294967296",
    "export\t1\t0\t0\t0\t0\t0\t0\t0\t0\t000000000000000\t0\t0000000000000000\t.",
    "export\t1\t0\t0\t0\t0\t0\t0\t0\t0\t0000000000000000\t0\t00000000000000000\t.",
    "export\t1\t0\t0\t0\t0\t0\t0\t0\t2\t0000000000000000\t0\t0000000000000000\t.",
];

fn beyond_its_parameter(round: usize) -> Case {
    BEYOND[round % BEYOND.len()].as_bytes().to_vec()
}

/// The fields of a reader that is good but for one of them. `feed` has a piece behind them.
fn bad_reader(random: &Random, round: usize) -> Case {
    let name = random.pick(&["feed", "end"]);
    let reader = Line::new(name).reader(&Reader::start()).done();
    let mut fields: Vec<Vec<u8>> = reader
        .split(|byte| *byte == b'\t')
        .map(<[u8]>::to_vec)
        .collect();
    if name == "feed" {
        fields.push(random.pick(&[&b"."[..], b"0a", b"6368"]).to_vec());
    }
    let digits = |bytes: usize| vec![b'0'; 2 * bytes];
    match round % 18 {
        // The numbers stand behind the phase, and the last one behind the held bytes.
        0 => fields[2] = b"256".to_vec(),
        number @ 1..=7 => fields[2 + number] = b"4294967296".to_vec(),
        8 => fields[11] = b"4294967296".to_vec(),
        9 => fields[10] = digits(MOST_HELD - 1),
        10 => fields[10] = digits(MOST_HELD + 1),
        11 => fields[10] = random.pick(&[b".".to_vec(), digits(1), digits(2 * MOST_HELD)]),
        12 => drop(fields[10].pop()),
        13 => fields[1] = random.pick(&OTHER_PHASES).to_vec(),
        14 => drop(fields.remove(random.between(1, fields.len() - 1))),
        15 => fields.insert(random.between(1, fields.len()), b"0".to_vec()),
        16 => fields.push(b".".to_vec()),
        // The fields of one command behind the name of another.
        _ => fields[0] = random.pick(&[&b"start"[..], b"log", b"step"]).to_vec(),
    }
    fields.join(&b'\t')
}

/// Names of other states, and nearly that of a reader.
const OTHER_PHASES: [&[u8]; 10] = [
    b"waiting",
    b"ready",
    b"gathering",
    b"idle",
    b"Open",
    b"opened",
    b"end",
    b"refuse",
    b"0",
    b".",
];

/// A byte argument with half a byte too many: the last one of a block command, or a frame.
fn odd_digits(random: &Random) -> Case {
    let name = random.pick(&["correct", "read-block", "write-block", "frame"]);
    let (line, length) = match name {
        "frame" => (Line::new(name), FRAME_BYTES),
        _ => (
            Line::new(name).bytes(&random.bytes(34)),
            random.between(1, 41),
        ),
    };
    let mut case = line.bytes(&random.bytes(length)).done();
    case.pop();
    case
}

fn number_too_great(random: &Random) -> Case {
    let mut fields = good_fields(random, 1);
    let place = random.between(1, fields.len() - 1);
    fields[place] = random.pick(&TOO_GREAT).to_vec();
    fields.join(&b'\t')
}

/// States of another size, block arguments of a byte too many, now and then a line beyond all
/// bounds.
fn over_a_limit(random: &Random, round: usize) -> Case {
    let state = |length: usize| Line::new("step").bytes(&vec![0; length]).number(0u8);
    match round % 12 {
        0 => state(259)
            .text("waiting")
            .number(0u8)
            .bytes(&[0; 22])
            .done(),
        1 => state(261)
            .text("waiting")
            .number(0u8)
            .bytes(&[0; 22])
            .done(),
        2 => state(260).text("idle").number(0u8).bytes(&[0; 22]).done(),
        3 => state(260)
            .text("ready")
            .number(256u32)
            .bytes(&[0; 22])
            .done(),
        4 => state(0).text("waiting").number(0u8).bytes(&[0; 22]).done(),
        5 => state(260).text("Ready").number(0u8).bytes(&[0; 22]).done(),
        6 => Line::new("frame")
            .bytes(&vec![0; LONGEST_ARGUMENT + 1])
            .done(),
        11 if round % 36 == 11 => Line::new("log")
            .bytes(&random.bytes(LONGEST_CASE / 2 + 100))
            .done(),
        10 if round % 36 == 10 => Line::new("feed")
            .reader(&Reader::start())
            .bytes(&random.bytes(LONGEST_CASE / 2))
            .done(),
        _ => {
            let name = random.pick(&["correct", "read-block", "write-block"]);
            let long = vec![0; LONGEST_ARGUMENT + 1];
            let (input, output) = random.pick(&[(&long[..], &[0; 34][..]), (&[0; 34], &long)]);
            Line::new(name).bytes(input).bytes(output).done()
        }
    }
}
