//! The release log: count n, total T, n offsets (4 bytes each, high byte first), then the records.
use crate::{RequestId, StoreAddr};

const HEAD: usize = 8;
const OFFSET: usize = 4;

/// What became of an entry that a tick handed out.
#[derive(Clone, Copy, Debug, PartialEq, Eq, Hash)]
pub enum Flag {
    /// 1: released.
    Released,
    /// 0: due while the schedule was disabled.
    Discarded,
    /// 2: its packet is missing; the record has no bytes.
    Missing,
}

/// An entry that a tick handed out.
#[derive(Clone, Copy, Debug, PartialEq, Eq)]
pub struct LogRecord<'l> {
    /// What became of it.
    pub flag: Flag,
    /// Its request ID.
    pub request_id: RequestId,
    /// Its address, as inserted.
    pub addr: StoreAddr,
    /// Its packet's bytes.
    pub packet: &'l [u8],
}

impl<'l> LogRecord<'l> {
    fn read(bytes: &'l [u8]) -> Option<LogRecord<'l>> {
        let (&flag, rest) = bytes.split_first()?;
        let (id, rest) = rest.split_first_chunk()?;
        let (addr, packet) = rest.split_first_chunk()?;
        let flag = match flag {
            0 => Flag::Discarded,
            1 => Flag::Released,
            2 if packet.is_empty() => Flag::Missing,
            _ => return None,
        };
        let request_id = RequestId(u64::from_be_bytes(*id));
        Some(LogRecord { flag, request_id, addr: StoreAddr(u64::from_be_bytes(*addr)), packet })
    }
}

/// A release log.
#[derive(Clone, Copy, Debug)]
pub struct Log<'l> {
    bytes: &'l [u8],
}

impl<'l> Log<'l> {
    /// The log at the beginning of these bytes, or none where they are not laid out as one.
    pub fn read(bytes: &'l [u8]) -> Option<Log<'l>> {
        let total = number_at(bytes, 4)?;
        let log = Log { bytes: bytes.get(..total)? };
        let head = HEAD + OFFSET * log.len();
        let well = log.bound(0)? == head && (0..log.len()).all(|k| log.record(k).is_some());
        well.then_some(log)
    }

    /// The number of records.
    pub fn len(&self) -> usize {
        number_at(self.bytes, 0).unwrap_or(0)
    }

    /// Whether there are none.
    pub fn is_empty(&self) -> bool {
        self.len() == 0
    }

    /// The bytes of the log, without what the buffer has behind them.
    pub fn bytes(&self) -> &'l [u8] {
        self.bytes
    }

    /// The records, in schedule order.
    pub fn records(&self) -> LogRecords<'l> {
        LogRecords { log: *self, at: 0 }
    }

    /// Where record k begins; where the log ends for k = n.
    fn bound(&self, k: usize) -> Option<usize> {
        if k == self.len() {
            return Some(self.bytes.len());
        }
        number_at(self.bytes, HEAD + OFFSET * k)
    }

    fn record(&self, k: usize) -> Option<LogRecord<'l>> {
        LogRecord::read(self.bytes.get(self.bound(k)?..self.bound(k + 1)?)?)
    }
}

fn number_at(bytes: &[u8], at: usize) -> Option<usize> {
    let number = bytes.get(at..)?.first_chunk()?;
    Some(u32::from_be_bytes(*number) as usize)
}

/// The records of a log.
#[derive(Clone, Debug)]
pub struct LogRecords<'l> {
    log: Log<'l>,
    at: usize,
}

impl<'l> Iterator for LogRecords<'l> {
    type Item = LogRecord<'l>;

    fn next(&mut self) -> Option<LogRecord<'l>> {
        if self.at == self.log.len() {
            return None;
        }
        self.at += 1;
        self.log.record(self.at - 1)
    }

    fn size_hint(&self) -> (usize, Option<usize>) {
        let rest = self.log.len() - self.at;
        (rest, Some(rest))
    }
}

impl ExactSizeIterator for LogRecords<'_> {}

impl<'l> IntoIterator for Log<'l> {
    type Item = LogRecord<'l>;
    type IntoIter = LogRecords<'l>;

    fn into_iter(self) -> LogRecords<'l> {
        self.records()
    }
}
