//! Module 3: the stamp reader.
use crate::rule::{Reading, Rule};
use crate::time::Time;

fn number(bytes: &[u8]) -> u64 {
    bytes.iter().fold(0, |n, &b| n * 256 + b as u64)
}

/// "First byte 0x40: 16-bit day, 32-bit millisecond, 7 bytes in all. 0x44: 24-bit day, 8 bytes."
fn day_width(first: u8, reading: Reading) -> Option<usize> {
    match first {
        0x40 => Some(2),
        0x44 if reading.breaks(Rule::LongStampReadShort) => Some(2),
        0x44 => Some(3),
        _ => None,
    }
}

/// The stamp's time and its bytes; "Other first bytes, short input, or a millisecond above 86,399,999: refused."
pub fn read_stamp(bytes: &[u8], reading: Reading) -> Option<(Time, usize)> {
    let width = day_width(*bytes.first()?, reading)?;
    let length = 1 + width + 4;
    if bytes.len() < length {
        return None;
    }
    let day = number(&bytes[1..1 + width]);
    let ms = number(&bytes[1 + width..length]);
    if ms > 86_399_999 + reading.breaks(Rule::NextDaysMillisecond) as u64 {
        return None;
    }
    Some((time_of(day as i64, ms, reading), length))
}

/// "Seconds = (day - 4,383) x 86,400 + ms / 1000; nanoseconds = (ms % 1000) x 1,000,000."
fn time_of(day: i64, ms: u64, reading: Reading) -> Time {
    let epoch = if reading.breaks(Rule::EpochDay) { 4_382 } else { 4_383 };
    let nanos = if reading.breaks(Rule::MillisecondsDropped) { 0 } else { ms % 1000 * 1_000_000 };
    Time { secs: (day - epoch) * 86_400 + (ms / 1000) as i64, nanos }
}
