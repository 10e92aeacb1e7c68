//! Random sequences inside the domain of equality, at its boundaries: slots exactly met, equal times, duplicate IDs,
//! windows that touch an entry's time, a clock set back, a full store with and without spilling, 256 slots.
use crate::against::{report, sequence, Counts};
use crate::call::{Call, Ends, Instant};
use crate::packets::{packet, short_stamp, wrap, Fields};
use crate::prng::Prng;
use crate::side::{Given, Side, Start, END};
use crate::starts::{first_calls, random_start};
use original::answers::Entry;
use plain::Subject;

pub const NANOS: [u32; 6] = [0, 1, 500_000_000, 600_000_000, 999_999_998, 999_999_999];

/// What a random call is drawn from: the sequence's own setup and the original as it stands.
pub struct Draw<'a> {
    pub r: &'a mut Prng,
    pub side: &'a mut Side,
}

impl Draw<'_> {
    fn entry(&mut self) -> Option<Entry> {
        let entries = self.side.run.entries();
        match entries.is_empty() {
            true => None,
            false => Some(entries[self.r.below(entries.len())].clone()),
        }
    }

    /// A time at, just before or just after something that happens.
    fn time(&mut self) -> Instant {
        let at = match (self.r.below(4), self.entry()) {
            (0, _) | (_, None) => self.side.clock(),
            (1, _) => self.side.earliest(),
            (_, Some(e)) => (e.time.secs, e.time.nanos),
        };
        let near = match self.r.below(8) {
            0 => (at.0, self.r.pick(&NANOS)),
            1 => (at.0 + 1, at.1),
            2 => (at.0 - 1, at.1),
            3 => (at.0 + self.r.below(3) as i64, self.r.pick(&NANOS)),
            4 => after(at),
            5 => before(at),
            _ => at,
        };
        (near.0.clamp(-END, END), near.1)
    }

    /// A clock: mostly at or just after an entry, so that something is due.
    fn next_clock(&mut self) -> Instant {
        match self.entry() {
            Some(e) if !self.r.one_in(3) => {
                let at = (e.time.secs, e.time.nanos);
                if self.r.one_in(4) && at.0 < END {
                    after(at)
                } else {
                    at
                }
            }
            _ => self.time(),
        }
    }

    /// A release time, seldom inside the margin.
    fn release(&mut self) -> Instant {
        let earliest = self.side.earliest();
        let time = self.time();
        if time < earliest && !self.r.one_in(40) {
            return match self.r.below(3) {
                0 => earliest,
                1 => after(earliest),
                _ => (END.min(earliest.0 + self.r.below(4) as i64), earliest.1),
            };
        }
        time
    }

    /// A length at the edge of some slot size.
    fn length(&mut self) -> usize {
        let (_, size) = self.side.start.subpools[self.r.below(self.side.start.subpools.len())];
        let size = size as usize;
        match self.r.below(6) {
            0 => size + 1,
            1 => size.saturating_sub(1),
            2 => self.r.below(size + 1),
            _ => size,
        }
    }

    fn data(&mut self) -> Vec<u8> {
        let n = if self.r.one_in(8) { 0 } else { self.length() };
        self.r.bytes(n)
    }

    fn fields(&mut self, data: Vec<u8>) -> Fields {
        let r = &mut *self.r;
        let (service, subservice) = r.pick(&[(17, 1), (17, 1), (17, 4), (11, 5), (3, 4), (11, 4)]);
        let nested = service == 11 && subservice == 4;
        let trailing = if r.one_in(5) { r.below(4) } else { 0 };
        Fields {
            apid: r.pick(&[0, 1, 2, 0x7FF]),
            sequence: r.pick(&[0, 1, 0x3FFF]),
            flags: r.below(4) as u8,
            acks: r.below(16) as u8,
            service: if nested && !r.one_in(4) { 17 } else { service },
            subservice,
            source: r.pick(&[0, 0, 1, 0xFFFF]),
            data,
            trailing: r.bytes(trailing),
        }
    }

    /// A readable packet at the edge of some slot size.
    fn packet(&mut self) -> Vec<u8> {
        let n = self.length().saturating_sub(13).min(4100);
        let data = self.r.bytes(n);
        let mut fields = self.fields(data);
        let short = fields.data.len().saturating_sub(fields.trailing.len());
        fields.data.truncate(short);
        packet(&fields)
    }

    /// An insertion request with a 16-bit stamp, or one that is refused by 5, 6 or 7.
    fn wrapped(&mut self) -> Vec<u8> {
        let time = self.release();
        let day = (time.0.div_euclid(86_400) + 4_383).clamp(0, 65_535) as u16;
        let ms = time.0.rem_euclid(86_400) as u32 * 1000 + time.1.div_ceil(1_000_000).min(999);
        let mut request = wrap(&short_stamp(day, ms), &self.packet());
        if self.r.one_in(8) {
            let mut other = self.fields(vec![]);
            let (service, subservice) = self.r.pick(&[(11, 4), (11, 5), (12, 4), (17, 1)]);
            other.service = service;
            other.subservice = subservice;
            request = packet(&other);
        }
        let trailing = if self.r.one_in(5) { self.r.below(4) } else { 0 };
        request.extend(self.r.bytes(trailing));
        request
    }

    fn address(&mut self) -> u64 {
        let taken: Vec<u64> = self.side.run.taken().collect();
        let pools = self.side.start.subpools.len() as u64;
        let known = match self.r.below(4) {
            0 if !taken.is_empty() => self.r.pick(&taken),
            1 => ((self.r.word() % (pools + 1)) << 16) | (self.r.word() % 4),
            2 => (self.r.word() % pools) << 16 | self.r.pick(&[0, 1, 255]),
            _ => self.entry().map_or(0, |e| e.address),
        };
        match self.r.below(10) {
            0 => known ^ 1 << self.r.pick(&[8, 15, 24, 31, 32, 63]),
            1 => self.r.pick(&[256, 65_536, 0xFFFF_FFFF, u64::MAX]),
            _ => known,
        }
    }

    /// An address for an entry, mostly of a packet that is there.
    fn stored_address(&mut self) -> u64 {
        let taken: Vec<u64> = self.side.run.taken().collect();
        match taken.is_empty() || self.r.one_in(8) {
            true => self.address(),
            false => self.r.pick(&taken) ^ self.r.pick(&[0, 0, 0, 1 << 8, 1 << 40]),
        }
    }

    fn id(&mut self) -> u64 {
        match (self.r.below(4), self.entry()) {
            (1.., Some(e)) => e.id,
            _ => self.r.pick(&[0, 1, 1 << 16, 1 << 32, (1 << 48) - 1]),
        }
    }

    fn ends(&mut self) -> Ends {
        let (a, b) = (self.time(), self.time());
        let (has_from, has_to) = self.r.pick(&[
            (true, true),
            (true, true),
            (true, false),
            (false, true),
            (false, false),
        ]);
        Ends { has_from, from: a.min(b), has_to, to: a.max(b) }
    }

    fn tick(&mut self) -> Call {
        let due = self.side.due().len() as u64;
        let more = self.r.pick(&[0, 0, 1, 50]);
        let limit = self.r.pick(&[due, due, due + 1, u64::MAX]);
        let log = self.side.log_needed() + more;
        Call::Tick { log, limit, delete: !self.r.one_in(4) }
    }

    pub fn call(&mut self) -> Call {
        match self.r.below(64) {
            0..=3 => Call::Add(self.data()),
            4..=6 => {
                let (address, n) = (self.address(), self.length());
                Call::Read(address, n)
            }
            7 => Call::Modify(self.address()),
            8 | 9 => {
                let (address, by) = (self.address(), self.r.word() as u8);
                Call::Part(address, by)
            }
            10..=13 => Call::Delete(self.address()),
            14 => Call::Has(self.address()),
            15 => Call::Len(self.address()),
            16 => Call::Fresh(self.side.start.clock, self.side.start.margin),
            17..=24 => Call::SetClock(self.next_clock()),
            25 | 26 => Call::Enable,
            27 => Call::Disable,
            28 => Call::Count,
            29..=35 => Call::Wrapped(self.wrapped()),
            36..=42 => {
                let (time, packet) = (self.release(), self.packet());
                Call::Unwrapped(time, packet)
            }
            43..=46 => {
                let (time, id) = (self.release(), self.id());
                Call::Stored(time, id, self.stored_address())
            }
            47..=49 => Call::Window(self.ends()),
            50 | 51 => Call::DeleteWindow(self.ends()),
            52 => Call::Reset,
            53 | 54 => Call::DeleteByIdKeep(self.id()),
            55 | 56 => Call::DeleteById(self.id()),
            _ => self.tick(),
        }
    }
}

fn after((secs, nanos): Instant) -> Instant {
    match nanos == 999_999_999 {
        true => (secs + 1, 0),
        false => (secs, nanos + 1),
    }
}

fn before((secs, nanos): Instant) -> Instant {
    match nanos == 0 {
        true => (secs - 1, 999_999_999),
        false => (secs, nanos - 1),
    }
}

/// One random sequence against the original; an error is a report.
pub fn random_sequence(
    subject: &dyn Subject, r: &mut Prng, counts: &mut Counts,
    mut seen: impl FnMut(&Start, &Call, &Given),
) -> Result<(), String> {
    let start = random_start(r);
    let calls = r.pick(&[8, 20, 60, 60]);
    sequence_from(subject, &start, calls, r, counts, |c, g| seen(&start, c, g))
}

/// The same from a given start, of so many calls behind the first ones.
pub fn sequence_from(
    subject: &dyn Subject, start: &Start, calls: usize, r: &mut Prng, counts: &mut Counts,
    seen: impl FnMut(&Call, &Given),
) -> Result<(), String> {
    let mut left = calls;
    let mut first = first_calls(start, r);
    let next = |side: &mut Side| {
        if let Some(call) = first.pop() {
            return Some(call);
        }
        left = left.checked_sub(1)?;
        Some(Draw { r, side }.call())
    };
    let result = sequence(subject, start, counts, next, seen);
    result.map_err(|(calls, _)| report(subject, start, &calls))
}
