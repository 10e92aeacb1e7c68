//! Module 5: insertions, windows and deletions.
use crate::packet::Packet;
use crate::refusal::Refusal;
use crate::rule::{Reading, Rule};
use crate::stamp::read_stamp;
use crate::state::{Entry, State};
use crate::time::Time;

/// A window's ends; it has either, both or none.
#[derive(Clone, Copy, Debug)]
pub struct Window {
    pub from: Option<Time>,
    pub to: Option<Time>,
}

impl Window {
    /// "Windows (all, from-to, from, to) include both ends."
    fn covers(&self, time: Time, reading: Reading) -> bool {
        let after = |a: Time| match reading.breaks(Rule::WindowStartExcluded) {
            true => a.before(time, reading),
            false => !time.before(a, reading),
        };
        let until = |b: Time| match reading.breaks(Rule::WindowEndExcluded) {
            true => time.before(b, reading),
            false => !b.before(time, reading),
        };
        self.from.is_none_or(after) && self.to.is_none_or(until)
    }

    /// 15: "start after end"
    pub fn judge(&self, reading: Reading) -> Result<(), Refusal> {
        match (self.from, self.to) {
            (Some(a), Some(b)) if b.before(a, reading) => Err(Refusal::ReversedWindow),
            (Some(a), Some(b)) if reading.breaks(Rule::PointWindowReversed) && a == b => {
                Err(Refusal::ReversedWindow)
            }
            _ => Ok(()),
        }
    }
}

/// What a window deletion or `reset` answers.
#[derive(Clone, Debug, Default)]
pub struct Removed {
    pub deleted: u64,
    pub missing: u64,
    pub last: Option<Refusal>,
}

/// What a deletion by request ID answers.
#[derive(Clone, Debug)]
pub enum ById {
    NoMatch,
    Kept(u64),
    Deleted,
    Missing(Refusal),
}

/// Insertions.
impl State {
    /// 13: "release < clock + margin; the three"
    fn margin(&self, release: Time) -> Result<(), Refusal> {
        let (clock, margin) = (self.record.clock, self.record.margin);
        let earliest = clock.plus(margin, self.reading);
        let equal_too = self.breaks(Rule::MarginEndRefused) && release == earliest;
        match release.before(earliest, self.reading) || equal_too {
            true => Err(Refusal::ReleaseTimeInTimeMargin { clock, margin, release }),
            false => Ok(()),
        }
    }

    /// 14: "the count equals the capacity"
    fn capacity(&self) -> Result<(), Refusal> {
        let kept = self.breaks(Rule::LastRowNeverUsed) as usize;
        match self.entries.len() + kept >= self.capacity {
            true => Err(Refusal::ScheduleFull),
            false => Ok(()),
        }
    }

    /// "Stored insertion: 13, 14."
    fn room(&self, release: Time) -> Result<(), Refusal> {
        if self.breaks(Rule::FullBeforeMargin) {
            self.capacity()?;
        }
        self.margin(release)?;
        self.capacity()
    }

    /// "entries in release-time order, equal times in insertion order"
    fn place(&mut self, entry: Entry) {
        let reading = self.reading;
        let before = |e: &Entry| match reading.breaks(Rule::EqualTimesInFront) {
            true => e.time.before(entry.time, reading),
            false => !entry.time.before(e.time, reading),
        };
        let at = self.entries.iter().filter(|e| before(e)).count();
        self.entries.insert(at, entry);
    }

    pub fn insert_stored(&mut self, time: Time, id: u64, address: u64) -> Result<(), Refusal> {
        self.room(time)?;
        self.place(Entry { time, id, address });
        Ok(())
    }

    /// 10: "inner packet is service 11, subservice 4"
    fn nested(&self, packet: &Packet) -> bool {
        let any = self.breaks(Rule::NestedAnySubservice);
        packet.service == 11 && (packet.subservice == 4 || any)
    }

    /// "as for unwrapped: 9, 10, 11, 12, 13, 14"; "Bytes after the total are allowed, and are stored too"
    pub fn insert_unwrapped(&mut self, time: Time, bytes: &[u8]) -> Result<(u64, u64), Refusal> {
        let packet = Packet::read(bytes, self.reading).ok_or(Refusal::TcUnreadable)?;
        if self.nested(&packet) {
            return Err(Refusal::NestedScheduledTc);
        }
        if self.breaks(Rule::MarginBeforeStore) {
            self.room(time)?;
        }
        let id = packet.request_id();
        let end = match self.breaks(Rule::BytesAfterTotalCut) {
            true => 13 + packet.user_data.len(),
            false => bytes.len(),
        };
        let address = self.store.add(&bytes[..end])?;
        self.insert_stored(time, id, address)?;
        Ok((address, id))
    }

    /// "Wrapped insertion: 9 for the outer packet, 5, 6, 7, 8, then as for unwrapped"
    pub fn insert_wrapped(&mut self, bytes: &[u8]) -> Result<(u64, u64), Refusal> {
        let outer = Packet::read(bytes, self.reading).ok_or(Refusal::TcUnreadable)?;
        if self.breaks(Rule::SubserviceBeforeService) && outer.subservice != 4 {
            return Err(Refusal::WrongSubservice(outer.subservice));
        }
        if outer.service != 11 {
            return Err(Refusal::WrongService(outer.service));
        }
        if outer.subservice != 4 {
            return Err(Refusal::WrongSubservice(outer.subservice));
        }
        if outer.user_data.is_empty() && !self.breaks(Rule::NoDataIsABadStamp) {
            return Err(Refusal::TcDataEmpty);
        }
        let stamp = read_stamp(outer.user_data, self.reading);
        let (time, length) = stamp.ok_or(Refusal::BadTimestamp)?;
        self.insert_unwrapped(time, &outer.user_data[length..])
    }
}

/// Windows and deletions.
impl State {
    /// "first row and number of rows; row 0 where there are none"
    pub fn window(&self, window: Window) -> (u64, u64) {
        let covered = |e: &Entry| window.covers(e.time, self.reading);
        let rows = self.entries.iter().filter(|e| covered(e)).count();
        let before = self.entries.iter().take_while(|e| !covered(e)).count();
        let none = if self.breaks(Rule::EmptyWindowNamesItsPlace) { before } else { 0 };
        (if rows == 0 { none } else { before } as u64, rows as u64)
    }

    /// "remove every entry they cover, even where the packet is missing. They answer packets deleted, packets
    /// missing and the last refusal the store gave for a missing one, or that there was none"
    pub fn delete_window(&mut self, window: Window) -> Removed {
        let mut removed = Removed::default();
        let mut left = Vec::new();
        for e in std::mem::take(&mut self.entries) {
            if !window.covers(e.time, self.reading) {
                left.push(e);
                continue;
            }
            match self.store.delete(e.address) {
                Ok(()) => removed.deleted += 1,
                Err(refusal) => {
                    removed.missing += 1;
                    let first = self.breaks(Rule::FirstRefusalReported) && removed.last.is_some();
                    if !first {
                        removed.last = Some(refusal);
                    }
                    if self.breaks(Rule::MissingKeepsItsEntry) {
                        left.push(e);
                    }
                }
            }
        }
        self.entries = left;
        removed
    }

    /// "`reset` also disables."
    pub fn reset(&mut self) -> Removed {
        let removed = self.delete_window(Window { from: None, to: None });
        if !self.breaks(Rule::ResetLeavesEnabled) {
            self.record.enabled = false;
        }
        removed
    }

    /// "in the earliest release time that has a match, the last match goes"
    fn take_match(&mut self, id: u64) -> Option<Entry> {
        let bits = if self.breaks(Rule::IdOfFortyEightBits) { (1 << 48) - 1 } else { u64::MAX };
        let has_id = |e: &&Entry| e.id & bits == id & bits;
        let time = match self.breaks(Rule::LatestTimeFirst) {
            true => self.entries.iter().rev().find(has_id)?.time,
            false => self.entries.iter().find(has_id)?.time,
        };
        let matches = |e: &Entry| has_id(&e) && e.time == time;
        let at = match self.breaks(Rule::FirstMatchRemoved) {
            true => self.entries.iter().position(matches)?,
            false => self.entries.iter().rposition(matches)?,
        };
        Some(self.entries.remove(at))
    }

    /// "One form returns the address and keeps the packet"
    pub fn delete_by_id_keep(&mut self, id: u64) -> ById {
        match self.take_match(id) {
            None => ById::NoMatch,
            Some(e) => ById::Kept(e.address),
        }
    }

    /// "the other deletes it too, and where the packet is missing the entry still goes and the answer carries the
    /// store's refusal"
    pub fn delete_by_id(&mut self, id: u64) -> ById {
        let before = self.entries.clone();
        let Some(entry) = self.take_match(id) else {
            return ById::NoMatch;
        };
        match self.store.delete(entry.address) {
            Ok(()) => ById::Deleted,
            Err(refusal) => {
                if self.breaks(Rule::MissingByIdStays) {
                    self.entries = before;
                }
                ById::Missing(refusal)
            }
        }
    }
}
