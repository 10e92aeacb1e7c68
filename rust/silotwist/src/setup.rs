//! The setup of a scheduler, and the memory that it is lent.

/// A setup's subpools, at most.
pub const MAX_SUBPOOLS: usize = 8;
/// The words of a scheduler record.
pub const RECORD_WORDS: usize = 6;
/// The words of an entry's row.
pub const ROW_WORDS: usize = 4;
/// The length that marks a free slot.
pub const FREE: u16 = 65_535;

const HEAD: usize = 3;

/// A subpool of the store.
#[derive(Clone, Copy, Debug, PartialEq, Eq)]
pub struct Subpool {
    /// Its slots: 1 to 256.
    pub slots: usize,
    /// The bytes of each: 1 to 4,096, and more than in the subpool before.
    pub slot_size: usize,
}

/// The sizes of a scheduler: 1 to 8 subpools of 1,048,576 bytes in all at most, and 1 to 4,096 entries.
///
/// Sizes out of range are no error here: every call that is given the setup answers
/// [`Refusal::BadSetup`](crate::Refusal::BadSetup).
#[derive(Clone, Copy, Debug, PartialEq, Eq)]
pub struct Setup {
    words: [u64; HEAD + 2 * MAX_SUBPOOLS],
    used: usize,
}

impl Setup {
    /// A setup of these subpools and so many entries. With `spilling`, a packet whose subpool is full is tried in the
    /// later ones.
    pub const fn new(subpools: &[Subpool], spilling: bool, entries: usize) -> Setup {
        let mut words = [0; HEAD + 2 * MAX_SUBPOOLS];
        words[0] = subpools.len() as u64;
        words[1] = spilling as u64;
        words[2] = entries as u64;
        let mut k = 0;
        while k < subpools.len() && k < MAX_SUBPOOLS {
            words[HEAD + 2 * k] = subpools[k].slots as u64;
            words[HEAD + 2 * k + 1] = subpools[k].slot_size as u64;
            k += 1;
        }
        Setup { words, used: HEAD + 2 * k }
    }

    /// The bytes of the store.
    pub const fn store_bytes(&self) -> usize {
        let mut bytes: u64 = 0;
        let mut at = HEAD;
        while at < self.used {
            bytes = bytes.saturating_add(self.words[at].saturating_mul(self.words[at + 1]));
            at += 2;
        }
        bytes as usize
    }

    /// The slots of all subpools: the numbers in the table of lengths.
    pub const fn slots(&self) -> usize {
        let mut slots: u64 = 0;
        let mut at = HEAD;
        while at < self.used {
            slots = slots.saturating_add(self.words[at]);
            at += 2;
        }
        slots as usize
    }

    /// The words of all entry rows.
    pub const fn row_words(&self) -> usize {
        self.words[2].saturating_mul(ROW_WORDS as u64) as usize
    }

    /// The setup as the calls take it.
    pub(crate) fn words(&self) -> &[u64] {
        &self.words[..self.used]
    }
}

/// All state of a scheduler, lent by the caller. What a slice has beyond the setup is never written.
#[derive(Debug)]
pub struct Memory<'a> {
    /// The record: count, clock (seconds, nanoseconds), margin (both), enabled.
    pub record: &'a mut [u64; RECORD_WORDS],
    /// The slots' bytes, [`Setup::store_bytes`] at least.
    pub store: &'a mut [u8],
    /// A length for each slot, [`Setup::slots`] at least; [`FREE`] marks a free one.
    pub lens: &'a mut [u16],
    /// The entry rows, [`Setup::row_words`] at least.
    pub rows: &'a mut [u64],
}
