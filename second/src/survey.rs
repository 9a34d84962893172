//! Channel numbers and kilohertz, the log, its counts, and what is made of them.

use crate::answers::{OUTSIDE_RULE, TOO_SHORT};
use crate::decimal::exact;

pub const LONGEST_LINE: usize = 64;
pub const MOST_SLOTS: u32 = 999_999;
pub const MOST_CORRECTED: u64 = 8;
pub const LAST_CHANNEL: u8 = 204;

/// The table of 000, channel by channel: number and kilohertz.
fn channels() -> impl Iterator<Item = (u8, u32)> {
    (1..=LAST_CHANNEL).map(|number| (number, 87_500 + 100 * u32::from(number)))
}

pub fn khz_of(number: u16) -> Option<u32> {
    channels()
        .find(|channel| u16::from(channel.0) == number)
        .map(|channel| channel.1)
}

pub fn channel_of(khz: u32) -> Option<u8> {
    channels()
        .find(|channel| channel.1 == khz)
        .map(|channel| channel.0)
}

#[derive(Clone, Debug, Default, PartialEq, Eq, Hash)]
pub struct Counts {
    pub channel: u8,
    pub slots: u32,
    pub read: u32,
    pub clean: u32,
    pub bits: u32,
    pub noword: u32,
    pub check: u32,
    pub missing: u32,
}

/// The counts, or the number of the first bad line and the counts of the lines before it.
///
/// A line is compared with the texts it may be and no number in it is ever computed, so none can
/// run over.
pub fn read_log(log: &[u8]) -> (Counts, Option<usize>) {
    let mut counts = Counts::default();
    let lines: Vec<&[u8]> = log.split_inclusive(|byte| *byte == b'\n').collect();
    if lines.is_empty() {
        return (counts, Some(1));
    }
    for (i, line) in lines.iter().enumerate() {
        let accepted = whole_line(line).and_then(|text| match i {
            0 => take_channel(&mut counts, text),
            _ => take_slot(&mut counts, text, i as u32),
        });
        if accepted.is_none() {
            return (counts, Some(i + 1));
        }
    }
    (counts, None)
}

fn whole_line(line: &[u8]) -> Option<&[u8]> {
    line.strip_suffix(b"\n")
        .filter(|_| line.len() <= LONGEST_LINE)
}

fn take_channel(counts: &mut Counts, text: &[u8]) -> Option<()> {
    let (number, _) =
        channels().find(|channel| text == format!("channel\t{}", channel.0).as_bytes())?;
    counts.channel = number;
    Some(())
}

fn take_slot(counts: &mut Counts, text: &[u8], slot: u32) -> Option<()> {
    if slot > MOST_SLOTS {
        return None;
    }
    let outcome = text.strip_prefix(format!("{slot}\t").as_bytes())?;
    match outcome {
        [digit @ b'0'..=b'8'] => {
            counts.read += 1;
            counts.clean += u32::from(*digit == b'0');
            counts.bits += u32::from(digit - b'0');
        }
        b"n" => counts.noword += 1,
        b"c" => counts.check += 1,
        b"-" => counts.missing += 1,
        _ => return None,
    }
    counts.slots += 1;
    Some(())
}

impl Counts {
    /// Whether some accepted log has these counts: every slot has one outcome, and each reading
    /// that is not clean has 1 to 8 corrected bits.
    pub fn come_from_a_log(&self) -> bool {
        let wide = u64::from;
        let outcomes = wide(self.read) + wide(self.noword) + wide(self.check) + wide(self.missing);
        let Some(corrected) = wide(self.read).checked_sub(wide(self.clean)) else {
            return false;
        };
        khz_of(u16::from(self.channel)).is_some()
            && self.slots <= MOST_SLOTS
            && outcomes == wide(self.slots)
            && (corrected..=MOST_CORRECTED * corrected).contains(&wide(self.bits))
    }

    fn columns(&self) -> [(&'static str, u32); 7] {
        [
            ("slots", self.slots),
            ("read", self.read),
            ("clean", self.clean),
            ("bits", self.bits),
            ("noword", self.noword),
            ("check", self.check),
            ("missing", self.missing),
        ]
    }

    fn khz(&self) -> Option<u32> {
        khz_of(u16::from(self.channel))
    }
}

/// The mean and the missing share, each beside the flag that says whether it exists.
#[derive(Clone, Debug)]
pub struct Summary {
    pub mean_exists: bool,
    pub mean: f64,
    pub share_exists: bool,
    pub share: f64,
}

/// One division, or the clear flag and positive zero where there is nothing to divide by.
fn quotient(part: u32, whole: u32) -> (bool, f64) {
    if whole == 0 {
        (false, 0.0)
    } else {
        (true, f64::from(part) / f64::from(whole))
    }
}

impl Summary {
    pub fn none() -> Summary {
        Summary {
            mean_exists: false,
            mean: 0.0,
            share_exists: false,
            share: 0.0,
        }
    }

    /// Bit for bit: `==` would take negative zero for zero.
    fn is_exactly(&self, other: &Summary) -> bool {
        let bits = |summary: &Summary| {
            let numbers = [summary.mean.to_bits(), summary.share.to_bits()];
            (summary.mean_exists, summary.share_exists, numbers)
        };
        bits(self) == bits(other)
    }

    fn cells(&self) -> [String; 2] {
        let cell = |exists: bool, number: f64| if exists { exact(number) } else { String::new() };
        [
            cell(self.mean_exists, self.mean),
            cell(self.share_exists, self.share),
        ]
    }
}

pub fn summary_of(counts: &Counts) -> Result<Summary, u8> {
    if !counts.come_from_a_log() {
        return Err(OUTSIDE_RULE);
    }
    let (mean_exists, mean) = quotient(counts.bits, counts.read);
    let (share_exists, share) = quotient(counts.missing, counts.slots);
    Ok(Summary {
        mean_exists,
        mean,
        share_exists,
        share,
    })
}

/// Gives the length; bytes after the text stay.
fn hand_out(text: &str, output: &mut [u8]) -> Result<usize, u8> {
    let place = output.get_mut(..text.len()).ok_or(TOO_SHORT)?;
    place.copy_from_slice(text.as_bytes());
    Ok(text.len())
}

pub fn write_report(counts: &Counts, output: &mut [u8]) -> Result<usize, u8> {
    hand_out(&report_of(counts)?, output)
}

pub fn report_of(counts: &Counts) -> Result<String, u8> {
    let khz = counts
        .khz()
        .filter(|_| counts.come_from_a_log())
        .ok_or(OUTSIDE_RULE)?;
    let mut text = format!("khz\t{khz}\n");
    for (name, count) in counts.columns() {
        text += &format!("{name}\t{count}\n");
    }
    let thousandths = (1000 * u64::from(counts.bits)).checked_div(u64::from(counts.read));
    let mean = thousandths.map_or(String::from("-"), |mean| mean.to_string());
    Ok(text + &format!("mean\t{mean}\n"))
}

pub fn write_row(counts: &Counts, summary: &Summary, output: &mut [u8]) -> Result<usize, u8> {
    hand_out(&row_of(counts, summary)?, output)
}

/// The spreadsheet's row: channel, kilohertz, the seven counts, mean and missing share.
pub fn row_of(counts: &Counts, summary: &Summary) -> Result<String, u8> {
    if !summary_of(counts)?.is_exactly(summary) {
        return Err(OUTSIDE_RULE);
    }
    let khz = counts.khz().ok_or(OUTSIDE_RULE)?;
    let mut cells = vec![counts.channel.to_string(), khz.to_string()];
    cells.extend(counts.columns().iter().map(|(_, count)| count.to_string()));
    cells.extend(summary.cells());
    Ok(cells.join("\t") + "\n")
}
