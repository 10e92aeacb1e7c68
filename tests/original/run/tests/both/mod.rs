//! The original and the plain reading side by side, each given its own calls.
use driver::call::{Call, Ends, Instant};
use driver::packets::{packet, ping, Fields};
use driver::world::World;
use original::run::Run;
use plain::Plain;
use spacepackets::time::UnixTime;
use std::time::Duration;

pub const ALL: Ends = Ends { has_from: false, from: (0, 0), has_to: false, to: (0, 0) };

pub fn at(secs: i64, nanos: u32) -> UnixTime {
    UnixTime { secs, nanos }
}

/// A 13-byte packet.
pub fn p() -> Vec<u8> {
    ping(1, 1)
}

/// Another one.
pub fn q() -> Vec<u8> {
    packet(&fields())
}

pub fn fields() -> Fields {
    Fields {
        apid: 5,
        sequence: 6,
        flags: 3,
        acks: 0,
        service: 8,
        subservice: 1,
        source: 0,
        data: vec![],
        trailing: vec![],
    }
}

pub fn run(pools: &[(u64, u64)], clock: Instant, margin: (u64, u32)) -> Run {
    let pools: Vec<_> = pools.iter().map(|&(n, size)| (n as u16, size as usize)).collect();
    Run::new(&pools, false, at(clock.0, clock.1), Duration::new(margin.0, margin.1))
}

pub fn expect(world: &mut World, call: Call, number: u32, values: &[u64]) {
    assert_eq!(call.on(&Plain::default(), world), number, "{call:?}");
    assert_eq!(world.answer[..values.len()], *values, "{call:?}");
    assert!(world.answer[values.len()..8].iter().all(|&w| w == 0), "{call:?}");
}

pub struct Both {
    pub original: Run,
    pub world: World,
}

impl Both {
    pub fn new(pools: &[(u64, u64)], clock: Instant, margin: (u64, u32)) -> Both {
        let mut world = World::of(pools, 0, 9, 0);
        expect(&mut world, Call::Fresh(clock, margin), 0, &[]);
        Both { original: run(pools, clock, margin), world }
    }

    /// The plain side alone.
    pub fn plain(&mut self, call: Call, number: u32, values: &[u64]) {
        expect(&mut self.world, call, number, values);
    }

    /// Both sides take a stored entry.
    pub fn stored(&mut self, secs: i64, id: u64, address: u64) {
        assert_eq!(self.original.stored(at(secs, 0), id, address).number, 0);
        self.plain(Call::Stored((secs, 0), id, address), 0, &[]);
    }

    /// Both sides take a packet, with the same answer.
    pub fn unwrapped(&mut self, secs: i64, packet: &[u8]) {
        let answer = self.original.unwrapped(at(secs, 0), packet);
        self.plain(Call::Unwrapped((secs, 0), packet.to_vec()), answer.number, &answer.values);
        assert_eq!(answer.number, 0);
    }

    pub fn enable(&mut self, on: bool) {
        use satrs::pus::scheduler::PusSchedulerProvider;
        match on {
            true => self.original.scheduler.enable(),
            false => self.original.scheduler.disable(),
        }
        self.plain(if on { Call::Enable } else { Call::Disable }, 0, &[]);
    }

    /// A tick of the plain side with an ample log.
    pub fn tick(&mut self, delete: bool, values: &[u64]) {
        self.plain(Call::Tick { log: 400, limit: 99, delete }, 0, values);
    }

    /// The flags of the plain side's last log.
    pub fn flags(&self) -> Vec<u8> {
        let log = &self.world.buffer;
        let number = |at: usize| u32::from_be_bytes(log[at..at + 4].try_into().expect("four"));
        (0..number(0) as usize).map(|i| log[number(8 + 4 * i) as usize]).collect()
    }
}
