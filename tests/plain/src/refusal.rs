//! The refusals of document 01: their numbers, and the values they carry as words.
use crate::time::{Margin, Time};

#[derive(Clone, Debug, PartialEq, Eq)]
pub enum Refusal {
    BadSetup,
    BadBuffers,
    StateDamaged,
    BadTime,
    WrongService(u8),
    WrongSubservice(u8),
    TcDataEmpty,
    BadTimestamp,
    TcUnreadable,
    NestedScheduledTc,
    DataTooLarge(usize),
    StoreFull(usize),
    ReleaseTimeInTimeMargin { clock: Time, margin: Margin, release: Time },
    ScheduleFull,
    ReversedWindow,
    InvalidSubpool(u64),
    InvalidPacketIdx(u64),
    DataDoesNotExist(u64),
    BufferTooSmall { found: usize, expected: usize },
    LogTooSmall(usize),
}

use Refusal::*;

impl Refusal {
    pub fn number(&self) -> u32 {
        match self {
            BadSetup => 1,
            BadBuffers => 2,
            StateDamaged => 3,
            BadTime => 4,
            WrongService(_) => 5,
            WrongSubservice(_) => 6,
            TcDataEmpty => 7,
            BadTimestamp => 8,
            TcUnreadable => 9,
            NestedScheduledTc => 10,
            DataTooLarge(_) => 11,
            StoreFull(_) => 12,
            ReleaseTimeInTimeMargin { .. } => 13,
            ScheduleFull => 14,
            ReversedWindow => 15,
            InvalidSubpool(_) => 16,
            InvalidPacketIdx(_) => 17,
            DataDoesNotExist(_) => 18,
            BufferTooSmall { .. } => 19,
            LogTooSmall(_) => 20,
        }
    }

    /// "what it carries"; a signed second is its two's complement.
    pub fn values(&self) -> Vec<u64> {
        match *self {
            WrongService(n) | WrongSubservice(n) => vec![n as u64],
            DataTooLarge(n) | StoreFull(n) | LogTooSmall(n) => vec![n as u64],
            InvalidSubpool(n) | InvalidPacketIdx(n) | DataDoesNotExist(n) => vec![n],
            BufferTooSmall { found, expected } => vec![found as u64, expected as u64],
            ReleaseTimeInTimeMargin { clock, margin, release } => vec![
                clock.secs as u64,
                clock.nanos,
                margin.secs,
                margin.nanos,
                release.secs as u64,
                release.nanos,
            ],
            _ => vec![],
        }
    }
}
