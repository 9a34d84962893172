//! Answers to cases, one function a command. A command gives nothing where its arguments cannot
//! be read.

use crate::answers::{BAD_LINE, OUTSIDE_RULE};
use crate::block::{self, Changes, Refusal};
use crate::channel::{Channel, Step};
use crate::frame;
use crate::group::{Group, Join};
use crate::message::{self, Fill, MessageHeader};
use crate::notation::{Arguments, Line, LONGEST_CASE};
use crate::reader::{NotTaken, Reader};
use crate::survey::{self, Summary};

type Command = fn(&mut Arguments) -> Option<Line>;

const COMMANDS: [(&str, Command); 19] = [
    ("correct", correct),
    ("read-block", read_block),
    ("write-block", write_block),
    ("frame", frame),
    ("new-channel", new_channel),
    ("step", step),
    ("write-message", write_message),
    ("new-group", new_group),
    ("join", join),
    ("write-group", write_group),
    ("khz", khz),
    ("channel", channel),
    ("log", log),
    ("start", start),
    ("feed", feed),
    ("end", end),
    ("summary", summary),
    ("report", report),
    ("export", export),
];

pub const BAD_CASE: &[u8] = b"bad case";

/// The answer to one line, which is handed in without its line feed.
pub fn answer(line: &[u8]) -> Vec<u8> {
    answer_to_case(line).unwrap_or_else(|| BAD_CASE.to_vec())
}

fn answer_to_case(line: &[u8]) -> Option<Vec<u8>> {
    if line.len() > LONGEST_CASE {
        return None;
    }
    let fields: Vec<&[u8]> = line.split(|byte| *byte == b'\t').collect();
    let (name, arguments) = fields.split_first()?;
    let (_, command) = COMMANDS
        .iter()
        .find(|command| command.0.as_bytes() == *name)?;
    command(&mut Arguments::new(arguments)).map(Line::done)
}

fn correct(arguments: &mut Arguments) -> Option<Line> {
    let received = arguments.bytes()?;
    let mut output = arguments.bytes()?;
    arguments.end()?;
    let result = block::correct(&received, &mut output);
    Some(corrected("word", result).bytes(&output))
}

fn read_block(arguments: &mut Arguments) -> Option<Line> {
    let received = arguments.bytes()?;
    let mut output = arguments.bytes()?;
    arguments.end()?;
    let result = block::read_block(&received, &mut output);
    Some(corrected("information", result).bytes(&output))
}

fn corrected(success: &str, result: Result<Changes, Refusal>) -> Line {
    match result {
        Ok(changes) => Line::new(success).changes(&changes),
        Err((answer, changes)) => Line::refused(answer).changes(&changes),
    }
}

fn write_block(arguments: &mut Arguments) -> Option<Line> {
    let information = arguments.bytes()?;
    let mut output = arguments.bytes()?;
    arguments.end()?;
    let result = block::write_block(&information, &mut output);
    Some(Line::answer("block", &result).bytes(&output))
}

fn frame(arguments: &mut Arguments) -> Option<Line> {
    let mut buffer = arguments.bytes()?;
    arguments.end()?;
    let result = frame::correct(&mut buffer);
    let line = Line::answer("frame", &result);
    let refused = result.unwrap_or_default();
    let counted = line.count(refused.rows).count(refused.columns);
    Some(counted.bytes(&buffer))
}

fn new_channel(arguments: &mut Arguments) -> Option<Line> {
    arguments.end()?;
    without_answer(Line::new("").channel(&Channel::fresh()))
}

/// A fresh state comes without an answer: the line begins behind its first tab.
fn without_answer(line: Line) -> Option<Line> {
    let line = line.done();
    Some(Line::new(std::str::from_utf8(&line[1..]).ok()?))
}

fn step(arguments: &mut Arguments) -> Option<Line> {
    let mut channel = arguments.channel()?;
    let information = arguments.bytes()?;
    arguments.end()?;
    let line = match channel.step(&information) {
        Step::Taken => Line::new("taken"),
        Step::Message(header) => message_fields(&header),
        Step::Refused(answer) => Line::refused(answer),
    };
    Some(line.channel(&channel))
}

fn message_fields(header: &MessageHeader) -> Line {
    Line::new("message")
        .number(header.ri)
        .number(header.ci)
        .number(header.first)
        .number(header.last)
        .number(header.ext)
        .number(header.number())
        .number(header.com)
        .number(header.length)
        .count(header.size())
}

fn write_message(arguments: &mut Arguments) -> Option<Line> {
    let fill = Fill {
        ri: arguments.byte()?,
        ci: arguments.byte()?,
        first: arguments.flag()?,
        last: arguments.flag()?,
        number: arguments.short()?,
        com: arguments.flag()?,
        di: arguments.flag()?,
        sc: arguments.byte()?,
    };
    let data = arguments.bytes()?;
    let mut output = arguments.bytes()?;
    arguments.end()?;
    let result = message::write_message(&fill, &data, &mut output);
    Some(sized("written", result).bytes(&output))
}

/// An answer with a number of blocks or bytes, which is 0 for a refusal.
fn sized(success: &str, result: Result<usize, u8>) -> Line {
    Line::answer(success, &result).count(result.unwrap_or(0))
}

fn new_group(arguments: &mut Arguments) -> Option<Line> {
    let number = arguments.short()?;
    arguments.end()?;
    let (group, refusal) = Group::fresh(number);
    let line = refusal.map_or(Line::new("fresh"), Line::refused);
    Some(line.group(&group))
}

fn join(arguments: &mut Arguments) -> Option<Line> {
    let mut group = arguments.group()?;
    let message = arguments.incoming()?;
    let mut buffer = arguments.bytes()?;
    arguments.end()?;
    let line = match group.join(&message, &mut buffer) {
        Join::Taken => Line::new("taken"),
        Join::Repeat => Line::new("repeat"),
        Join::Group(length) => Line::new("group").number(length),
        Join::Refused(answer) => Line::refused(answer),
    };
    Some(line.group(&group).bytes(&buffer))
}

fn write_group(arguments: &mut Arguments) -> Option<Line> {
    let fill = Fill {
        number: arguments.short()?,
        ri: arguments.byte()?,
        di: arguments.flag()?,
        sc: arguments.byte()?,
        ci: arguments.byte()?,
        ..Fill::default()
    };
    let data = arguments.bytes()?;
    let mut output = arguments.bytes()?;
    arguments.end()?;
    let result = message::write_group(&fill, &data, &mut output);
    Some(sized("written", result).bytes(&output))
}

fn khz(arguments: &mut Arguments) -> Option<Line> {
    let number = arguments.short()?;
    arguments.end()?;
    let khz = survey::khz_of(number).ok_or(OUTSIDE_RULE);
    Some(Line::answer("khz", &khz).number(khz.unwrap_or(0)))
}

fn channel(arguments: &mut Arguments) -> Option<Line> {
    let khz = arguments.word()?;
    arguments.end()?;
    let channel = survey::channel_of(khz).ok_or(OUTSIDE_RULE);
    Some(Line::answer("channel", &channel).number(channel.unwrap_or(0)))
}

fn log(arguments: &mut Arguments) -> Option<Line> {
    let bytes = arguments.log()?;
    arguments.end()?;
    let (counts, bad_line) = survey::read_log(&bytes);
    let line = bad_line.map_or(Line::new("log"), |_| Line::refused(BAD_LINE));
    Some(line.count(bad_line.unwrap_or(0)).counts(&counts))
}

fn start(arguments: &mut Arguments) -> Option<Line> {
    arguments.end()?;
    without_answer(Line::new("").reader(&Reader::start()))
}

fn feed(arguments: &mut Arguments) -> Option<Line> {
    let mut reader = arguments.reader()?;
    let piece = arguments.log()?;
    arguments.end()?;
    let result = reader.feed(&piece);
    Some(by_line("taken", result).reader(&reader))
}

fn end(arguments: &mut Arguments) -> Option<Line> {
    let mut reader = arguments.reader()?;
    arguments.end()?;
    let result = reader.end();
    Some(by_line("log", result).reader(&reader))
}

/// An answer with the number of the bad line, which is 0 where there is none.
fn by_line(success: &str, result: Result<(), NotTaken>) -> Line {
    match result {
        Ok(()) => Line::new(success).number(0u8),
        Err((answer, line)) => Line::refused(answer).number(line),
    }
}

fn summary(arguments: &mut Arguments) -> Option<Line> {
    let counts = arguments.counts()?;
    arguments.end()?;
    let summary = survey::summary_of(&counts);
    let line = Line::answer("summary", &summary);
    Some(line.summary(&summary.unwrap_or(Summary::none())))
}

fn report(arguments: &mut Arguments) -> Option<Line> {
    let counts = arguments.counts()?;
    let mut output = arguments.bytes()?;
    arguments.end()?;
    let result = survey::write_report(&counts, &mut output);
    Some(sized("report", result).bytes(&output))
}

fn export(arguments: &mut Arguments) -> Option<Line> {
    let counts = arguments.counts()?;
    let summary = arguments.summary()?;
    let mut output = arguments.bytes()?;
    arguments.end()?;
    let result = survey::write_row(&counts, &summary, &mut output);
    Some(sized("row", result).bytes(&output))
}
