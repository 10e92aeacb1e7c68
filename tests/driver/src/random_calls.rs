//! Random calls on a world: arguments near what the world holds, and arguments that nobody meant.
use crate::call::{Call, Ends, Instant};
use crate::crafted::{address, id, END, NANOS};
use crate::faults::spoil;
use crate::packets::{long_stamp, packet, short_stamp, Fields};
use crate::prng::Prng;
use crate::world::World;
use plain::ROW_WORDS;

/// The longest packet that a length field can name.
const LONGEST: usize = 65_535 + 7;

pub struct Draw<'a> {
    pub r: &'a mut Prng,
    pub world: &'a World,
    pub times: &'a [Instant],
}

impl Draw<'_> {
    /// A time of the world, one near it, or one at the range's edge.
    fn time(&mut self) -> Instant {
        let t = self.r.pick(self.times);
        match self.r.below(16) {
            0 => (self.r.pick(&[END, END + 1, -END, -END - 1, i64::MIN, i64::MAX]), t.1),
            1 => (t.0, self.r.pick(&[1_000_000_000, 1_000_000_000, u32::MAX])),
            2 => ((t.0 + self.r.below(3) as i64 - 1).clamp(-END, END), self.r.pick(&NANOS)),
            3 | 4 => self.earliest(t),
            _ => t,
        }
    }

    /// clock + margin of the record, where it has them and they are small.
    fn earliest(&mut self, other: Instant) -> Instant {
        let Some(&[_, secs, nanos, margin, margin_nanos, _]) = self.world.record.get(..6) else {
            return other;
        };
        if nanos >= 1 << 31 || margin_nanos >= 1 << 31 || margin > 1 << 31 {
            return other;
        }
        let nanos = nanos + margin_nanos;
        let secs = (secs as i64).wrapping_add((margin + nanos / 1_000_000_000) as i64);
        (secs, (nanos % 1_000_000_000) as u32)
    }

    fn margin(&mut self) -> (u64, u32) {
        let secs = self.r.pick(&[0, 5, 1 << 31, (1 << 31) + 1, u64::MAX]);
        (secs, self.r.pick(&[0, 0, 999_999_999, 1_000_000_000]))
    }

    /// A slot size of the setup.
    fn size(&mut self) -> usize {
        let pools = self.world.setup.len().saturating_sub(3) / 2;
        match pools {
            0 => 16,
            _ => self.world.setup[4 + 2 * self.r.below(pools)].min(5000) as usize,
        }
    }

    fn length(&mut self) -> usize {
        let size = self.size();
        match self.r.below(6) {
            0 => size + 1,
            1 => 0,
            2 => self.r.below(size + 1),
            _ => size,
        }
    }

    fn data(&mut self) -> Vec<u8> {
        let n = self.length();
        self.r.bytes(n)
    }

    fn packet(&mut self) -> Vec<u8> {
        let n = self.length();
        if self.r.one_in(20) {
            return self.r.bytes(n);
        }
        let trailing = if self.r.one_in(6) { 1 + self.r.below(3) } else { 0 };
        let n = if self.r.one_in(400) { LONGEST - self.r.below(2) } else { n };
        let data = self.r.bytes(n.saturating_sub(13 + trailing));
        self.sealed(data, trailing)
    }

    fn sealed(&mut self, data: Vec<u8>, trailing: usize) -> Vec<u8> {
        let r = &mut *self.r;
        let (service, subservice) = r.pick(&[(17, 1), (17, 1), (17, 4), (11, 5), (11, 4)]);
        let mut p = packet(&Fields {
            apid: r.pick(&[0, 1, 0x7FF]),
            sequence: r.pick(&[0, 1, 0x3FFF]),
            flags: r.below(4) as u8,
            acks: r.below(16) as u8,
            service,
            subservice,
            source: r.pick(&[0, 1, 0xFFFF]),
            data,
            trailing: vec![],
        });
        if r.one_in(5) {
            spoil(r, &mut p);
        }
        p.extend(r.bytes(trailing));
        p
    }

    /// A stamp of either width for a time of the world, at the edges, or spoilt.
    fn stamp(&mut self) -> Vec<u8> {
        let t = self.time();
        let day = t.0.div_euclid(86_400).clamp(-4_383, 1 << 23) + 4_383;
        let ms = t.0.rem_euclid(86_400) as u32 * 1000 + t.1 / 1_000_000;
        let ms = match self.r.below(10) {
            0 => 86_400_000,
            1 => 86_399_999,
            2 => u32::MAX,
            _ => ms,
        };
        let mut stamp = match self.r.below(3) {
            0 => long_stamp(self.r.pick(&[day as u32, day as u32, 0xFF_FFFF, 0]), ms),
            _ => short_stamp(self.r.pick(&[day as u16, day as u16, 0xFFFF, 0]), ms),
        };
        if self.r.one_in(12) {
            stamp[0] ^= 1 << self.r.below(8);
        }
        stamp
    }

    fn wrapped(&mut self) -> Vec<u8> {
        let mut data = [self.stamp(), self.packet()].concat();
        if self.r.one_in(12) {
            let n = self.r.below(9).min(data.len());
            data.truncate(n);
        }
        data.truncate(LONGEST - 13);
        let r = &mut *self.r;
        let (service, subservice) = match r.below(10) {
            0 => (12, 5),
            1 => (11, 3),
            _ => (11, 4),
        };
        let mut p = packet(&Fields {
            apid: 3,
            sequence: 9,
            flags: 3,
            acks: 0,
            service,
            subservice,
            source: 4,
            data,
            trailing: vec![],
        });
        if r.one_in(8) {
            spoil(r, &mut p);
        }
        let trailing = if r.one_in(6) { 1 + r.below(3) } else { 0 };
        p.extend(r.bytes(trailing));
        p
    }

    fn address(&mut self) -> u64 {
        address(self.r, self.world)
    }

    /// A row's request ID, or another.
    fn id(&mut self) -> u64 {
        let count = self.world.record.first().map_or(0, |&n| n.min(300) as usize);
        if count > 0 && !self.r.one_in(3) {
            let at = self.r.below(count) * ROW_WORDS + 2;
            return self.world.rows.get(at).copied().unwrap_or(0);
        }
        id(self.r)
    }

    fn ends(&mut self) -> Ends {
        let (a, b) = (self.time(), self.time());
        let (from, to) = if self.r.one_in(5) { (a, b) } else { (a.min(b), a.max(b)) };
        Ends { has_from: !self.r.one_in(3), from, has_to: !self.r.one_in(3), to }
    }

    /// The length that row i's packet has by the lent lengths, where all is right.
    fn row_length(&self, i: usize) -> usize {
        let address = self.world.rows.get(i * ROW_WORDS + 3).copied().unwrap_or(0);
        let (pool, slot) = ((address >> 16 & 255) as usize, (address & 255) as usize);
        let slots = |k: usize| self.world.setup.get(3 + 2 * k).map_or(0, |&n| n.min(300) as usize);
        let before: usize = (0..pool).map(slots).sum();
        match self.world.lens.get(before + slot) {
            Some(&n) if n != 65_535 => n as usize,
            _ => 0,
        }
    }

    fn tick(&mut self) -> Call {
        let count = self.world.record.first().map_or(0, |&n| n.min(300) as usize);
        let records = self.r.below(count + 1);
        let exact = 8 + (0..records).map(|i| 21 + self.row_length(i)).sum::<usize>();
        let long = count > 255 && self.r.one_in(2);
        let log = match self.r.below(12) {
            _ if long => 1_048_576 + self.r.pick(&[0, 1, 10_000]),
            0 => self.r.pick(&[0, 7, 8, 9, 28, 29]),
            1 => exact + 1,
            2 => exact - 1,
            3 | 4 => exact,
            _ => 8 + count.min(20) * 100 + 4200 * (count > 20) as usize,
        };
        let counts = [0, 1, 1, 2, count as u64, 256, 257, 1 << 32, u64::MAX, u64::MAX];
        let limit = if long { self.r.pick(&[254, 255, u64::MAX]) } else { self.r.pick(&counts) };
        Call::Tick { log, limit, delete: self.r.one_in(2) }
    }

    pub fn call(&mut self) -> Call {
        let many = self.world.record.first().is_some_and(|&count| count > 255);
        match self.r.below(44) {
            _ if many && self.r.one_in(2) => self.tick(),
            0..=2 => Call::Add(self.data()),
            3 | 4 => {
                let (address, n) = (self.address(), self.length());
                Call::Read(address, n)
            }
            5 => Call::Modify(self.address()),
            6 => {
                let (address, by) = (self.address(), self.r.word() as u8);
                Call::Part(address, by)
            }
            7 | 8 => Call::Delete(self.address()),
            9 => Call::Has(self.address()),
            10 => Call::Len(self.address()),
            11 => {
                let (clock, margin) = (self.time(), self.margin());
                Call::Fresh(clock, margin)
            }
            12..=14 => Call::SetClock(self.time()),
            15 => Call::Enable,
            16 => Call::Disable,
            17 => Call::Count,
            18..=22 => Call::Wrapped(self.wrapped()),
            23..=26 => {
                let (time, packet) = (self.time(), self.packet());
                Call::Unwrapped(time, packet)
            }
            27..=29 => {
                let (time, id) = (self.time(), self.id());
                Call::Stored(time, id, self.address())
            }
            30 | 31 => Call::Window(self.ends()),
            32 | 33 => Call::DeleteWindow(self.ends()),
            34 => Call::Reset,
            35 | 36 => Call::DeleteByIdKeep(self.id()),
            37 | 38 => Call::DeleteById(self.id()),
            _ => self.tick(),
        }
    }
}
