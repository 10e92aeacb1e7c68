//! The log's layout.
use crate::rule::{Reading, Rule};

/// Flags of a record.
pub const DISABLED: u8 = 0;
pub const RELEASED: u8 = 1;
pub const MISSING: u8 = 2;

/// "n = 0, T = 8"
pub const EMPTY_LOG: usize = 8;

#[derive(Clone, Debug)]
pub struct LogRecord {
    pub flag: u8,
    pub id: u64,
    pub address: u64,
    pub bytes: Vec<u8>,
}

impl LogRecord {
    pub fn size(&self) -> usize {
        self.encode().len()
    }

    /// "one flag byte, request ID as `as_u64` (8), address as inserted (8), packet bytes"
    fn encode(&self) -> Vec<u8> {
        let id = self.id.to_be_bytes();
        let address = self.address.to_be_bytes();
        [&[self.flag], &id[..], &address[..], &self.bytes[..]].concat()
    }
}

/// "all numbers high byte first: count n (4 bytes), total T (4), n offsets from the log's start (4 each), then
/// records"
pub fn encode(records: &[LogRecord], reading: Reading) -> Vec<u8> {
    let bodies: Vec<Vec<u8>> = records.iter().map(LogRecord::encode).collect();
    let head = EMPTY_LOG + 4 * bodies.len();
    let total = head + bodies.iter().map(Vec::len).sum::<usize>();
    let named = total - if reading.breaks(Rule::TotalFourTooSmall) { 4 } else { 0 };
    let mut log = Vec::new();
    log.extend((records.len() as u32).to_be_bytes());
    log.extend((named as u32).to_be_bytes());
    let mut at = if reading.breaks(Rule::OffsetsFromFirstRecord) { 0 } else { head };
    for body in &bodies {
        let one_on = if reading.breaks(Rule::OffsetOneRecordOn) { body.len() } else { 0 };
        log.extend(((at + one_on) as u32).to_be_bytes());
        at += body.len();
    }
    bodies.iter().for_each(|body| log.extend(body));
    log
}
