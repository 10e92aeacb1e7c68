//! What the scheduler's calls answer.
use crate::ffi::Words;
use crate::{Log, Refusal, StoreAddr, UnixTime, ROW_WORDS};
use core::slice::ChunksExact;

/// What names a command: any 64 bits. A packet's is source ID * 2^32 + APID * 2^16 + sequence count.
#[derive(Clone, Copy, Debug, PartialEq, Eq, Hash)]
pub struct RequestId(
    /// The request ID as a number.
    pub u64,
);

impl RequestId {
    /// A packet's source ID.
    pub const fn source_id(self) -> u16 {
        (self.0 >> 32) as u16
    }

    /// A packet's APID.
    pub const fn apid(self) -> u16 {
        (self.0 >> 16) as u16
    }

    /// A packet's sequence count.
    pub const fn seq_count(self) -> u16 {
        self.0 as u16
    }
}

/// What an entry says of its packet.
#[derive(Clone, Copy, Debug, PartialEq, Eq)]
pub struct TcInfo {
    /// The packet's request ID, or the one that a stored insertion gave.
    pub request_id: RequestId,
    /// Where the packet lies, as inserted.
    pub addr: StoreAddr,
}

/// An entry of the schedule.
#[derive(Clone, Copy, Debug, PartialEq, Eq)]
pub struct Entry {
    /// When the command is due.
    pub release: UnixTime,
    /// Its packet.
    pub tc: TcInfo,
}

/// The entries of a window, in schedule order.
#[derive(Clone, Debug)]
pub struct Entries<'a> {
    first: usize,
    rows: ChunksExact<'a, u64>,
}

impl<'a> Entries<'a> {
    pub(crate) fn new(first: usize, number: usize, rows: &'a [u64]) -> Entries<'a> {
        let words = &rows[first * ROW_WORDS..(first + number) * ROW_WORDS];
        Entries { first, rows: words.chunks_exact(ROW_WORDS) }
    }

    /// The row of the window's first entry, 0 where it has none.
    pub fn first(&self) -> usize {
        self.first
    }
}

impl Iterator for Entries<'_> {
    type Item = Entry;

    fn next(&mut self) -> Option<Entry> {
        let row = self.rows.next()?;
        // a row counts its seconds from -2^42
        let secs = row[0].wrapping_sub(1 << 42) as i64;
        let tc = TcInfo { request_id: RequestId(row[2]), addr: StoreAddr(row[3]) };
        Some(Entry { release: UnixTime::new(secs, row[1] as u32), tc })
    }

    fn size_hint(&self) -> (usize, Option<usize>) {
        self.rows.size_hint()
    }
}

impl ExactSizeIterator for Entries<'_> {}

/// What became of the packets of deleted entries. All entries are gone, also those whose packet was missing.
#[derive(Clone, Copy, Debug, PartialEq, Eq)]
pub struct Tally {
    /// Packets deleted.
    pub deleted: usize,
    /// Packets missing.
    pub missing: usize,
    /// The last refusal that the store gave for a missing one.
    pub last: Option<Refusal>,
}

impl Tally {
    pub(crate) fn of(words: Words) -> Tally {
        let last = (words[2] != 0).then(|| Refusal::of(words[2], &words[3..]));
        Tally { deleted: words[0] as usize, missing: words[1] as usize, last }
    }
}

/// What the deletion by request ID did that deletes the packet too.
#[derive(Clone, Copy, Debug, PartialEq, Eq)]
pub enum Freed {
    /// No entry has this request ID.
    NoMatch,
    /// The entry and its packet are gone.
    Deleted,
    /// The entry is gone; its packet was missing, and the store refused so.
    Missing(Refusal),
}

impl Freed {
    pub(crate) fn of(words: Words) -> Freed {
        match words {
            [0, ..] => Freed::NoMatch,
            [_, 1, ..] => Freed::Deleted,
            [_, _, number, values @ ..] => Freed::Missing(Refusal::of(number, &values)),
        }
    }
}

/// What a tick handed out.
#[derive(Clone, Copy, Debug)]
pub struct Ticked<'l> {
    /// The entries that left, in schedule order.
    pub log: Log<'l>,
    /// Due entries that remain for the next tick.
    pub still_due: usize,
}
