//! The refusals of document 01.
use crate::{Margin, StoreAddr, UnixTime};
use core::fmt;

/// Why a call was not carried out, and what the refusal carries. Displayed as document 01's number and name.
#[derive(Clone, Copy, Debug, PartialEq, Eq)]
pub enum Refusal {
    /// 1: a subpool, slot, byte or entry size is out of range.
    BadSetup,
    /// 2: a lent store or table is shorter than the setup.
    BadBuffers,
    /// 3: the count is above the capacity, entries are out of time order, a row's time or the record's clock or margin
    /// is out of range, or a length is neither free nor within its slot.
    StateDamaged,
    /// 4: a time or margin that was given is out of range.
    BadTime,
    /// 5: the outer packet's service is not 11; the service.
    WrongService(u8),
    /// 6: the outer packet's subservice is not 4; the subservice.
    WrongSubservice(u8),
    /// 7: the outer packet has no user data.
    TcDataEmpty,
    /// 8: the stamp is not readable.
    BadTimestamp,
    /// 9: the packet is not readable.
    TcUnreadable,
    /// 10: the packet is itself of service 11, subservice 4.
    NestedScheduledTc,
    /// 11: no slot size holds the packet; its length.
    DataTooLarge(usize),
    /// 12: every slot that would be tried is taken; the subpool.
    StoreFull(usize),
    /// 13: the release is before clock + margin.
    ReleaseTimeInTimeMargin {
        /// The present clock.
        clock: UnixTime,
        /// The margin.
        margin: Margin,
        /// The release that was asked for.
        release: UnixTime,
    },
    /// 14: the schedule has as many entries as the setup allows.
    ScheduleFull,
    /// 15: the window's start is after its end.
    ReversedWindow,
    /// 16: the address names a subpool that the setup has not; its index.
    InvalidSubpool(usize),
    /// 17: the address names a slot that the subpool has not; its index.
    InvalidPacketIdx(usize),
    /// 18: the slot is free; the address after decoding.
    DataDoesNotExist(StoreAddr),
    /// 19: the read buffer is shorter than the packet.
    BufferTooSmall {
        /// The bytes of the buffer.
        found: usize,
        /// The bytes of the packet.
        expected: usize,
    },
    /// 20: the log is under 8 bytes, or does not hold the first due record alone; the bytes needed.
    LogTooSmall(usize),
}

use Refusal::*;

impl Refusal {
    /// Document 01's number.
    pub const fn number(&self) -> u32 {
        match self {
            BadSetup => 1,
            BadBuffers => 2,
            StateDamaged => 3,
            BadTime => 4,
            WrongService(_) => 5,
            WrongSubservice(_) => 6,
            TcDataEmpty => 7,
            BadTimestamp => 8,
            TcUnreadable => 9,
            NestedScheduledTc => 10,
            DataTooLarge(_) => 11,
            StoreFull(_) => 12,
            ReleaseTimeInTimeMargin { .. } => 13,
            ScheduleFull => 14,
            ReversedWindow => 15,
            InvalidSubpool(_) => 16,
            InvalidPacketIdx(_) => 17,
            DataDoesNotExist(_) => 18,
            BufferTooSmall { .. } => 19,
            LogTooSmall(_) => 20,
        }
    }

    /// The refusal of a number and the words that go with it.
    pub(crate) fn of(number: u64, words: &[u64]) -> Refusal {
        match (number, words) {
            (1, _) => BadSetup,
            (2, _) => BadBuffers,
            (3, _) => StateDamaged,
            (4, _) => BadTime,
            (5, &[found, ..]) => WrongService(found as u8),
            (6, &[found, ..]) => WrongSubservice(found as u8),
            (7, _) => TcDataEmpty,
            (8, _) => BadTimestamp,
            (9, _) => TcUnreadable,
            (10, _) => NestedScheduledTc,
            (11, &[length, ..]) => DataTooLarge(length as usize),
            (12, &[subpool, ..]) => StoreFull(subpool as usize),
            (13, &[clock, clock_nanos, margin, margin_nanos, release, release_nanos, ..]) => {
                ReleaseTimeInTimeMargin {
                    clock: UnixTime::new(clock as i64, clock_nanos as u32),
                    margin: Margin::new(margin, margin_nanos as u32),
                    release: UnixTime::new(release as i64, release_nanos as u32),
                }
            }
            (14, _) => ScheduleFull,
            (15, _) => ReversedWindow,
            (16, &[index, ..]) => InvalidSubpool(index as usize),
            (17, &[index, ..]) => InvalidPacketIdx(index as usize),
            (18, &[address, ..]) => DataDoesNotExist(StoreAddr(address)),
            (19, &[found, expected, ..]) => {
                BufferTooSmall { found: found as usize, expected: expected as usize }
            }
            (20, &[needed, ..]) => LogTooSmall(needed as usize),
            _ => panic!("number {number} is no refusal of document 01"),
        }
    }
}

impl fmt::Display for Refusal {
    fn fmt(&self, f: &mut fmt::Formatter<'_>) -> fmt::Result {
        write!(f, "{} {self:?}", self.number())
    }
}

impl core::error::Error for Refusal {}
