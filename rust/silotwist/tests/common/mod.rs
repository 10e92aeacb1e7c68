//! What the tests share: memory for a setup, and packets with their check code.
#![allow(dead_code)]
use silotwist::{Margin, Memory, Scheduler, Setup, Subpool, UnixTime, RECORD_WORDS};

pub const SETUP: Setup = setup(2, 4);

/// `slots` slots of 16 bytes and one of 64, no spilling.
pub const fn setup(slots: usize, entries: usize) -> Setup {
    Setup::new(
        &[Subpool { slots, slot_size: 16 }, Subpool { slots: 1, slot_size: 64 }],
        false,
        entries,
    )
}

pub struct Owned {
    pub record: [u64; RECORD_WORDS],
    pub store: Vec<u8>,
    pub lens: Vec<u16>,
    pub rows: Vec<u64>,
}

impl Owned {
    pub fn of(setup: Setup) -> Owned {
        Owned {
            record: [0; RECORD_WORDS],
            store: vec![0; setup.store_bytes()],
            lens: vec![0; setup.slots()],
            rows: vec![0; setup.row_words()],
        }
    }

    pub fn lend(&mut self) -> Memory<'_> {
        let Owned { record, store, lens, rows } = self;
        Memory { record, store, lens, rows }
    }

    /// A fresh scheduler: clock 100 s, margin 5 s.
    pub fn fresh(&mut self, setup: Setup) -> Scheduler<'_> {
        let mut scheduler = Scheduler::new(setup, self.lend());
        assert_eq!(scheduler.fresh_start(at(100), Margin::new(5, 0)), Ok(()));
        scheduler
    }
}

pub fn at(secs: i64) -> UnixTime {
    UnixTime::new(secs, 0)
}

/// A telecommand of this service and subservice around this user data, with its check code.
pub fn packet(apid: u16, sequence: u16, [service, subservice]: [u8; 2], data: &[u8]) -> Vec<u8> {
    let length = 6 + data.len() as u16;
    let head = [0x1800 | apid, 0xC000 | sequence, length].map(u16::to_be_bytes).concat();
    let mut packet = [&head[..], &[0x2F, service, subservice, 0, 0], data].concat();
    packet.extend(check_code(&packet).to_be_bytes());
    packet
}

pub fn ping(apid: u16, sequence: u16) -> Vec<u8> {
    packet(apid, sequence, [17, 1], &[])
}

/// A telecommand that asks for an insertion: a stamp with a 16-bit day, so many seconds from 1970, and a packet.
pub fn wrapped(secs: u32, inner: &[u8]) -> Vec<u8> {
    let stamp = [&[0x40], &4_383_u16.to_be_bytes()[..], &(secs * 1000).to_be_bytes()[..]].concat();
    packet(2, 1, [11, 4], &[&stamp, inner].concat())
}

fn check_code(bytes: &[u8]) -> u16 {
    bytes.iter().fold(0xFFFF, |code, &byte| {
        (0..8).fold(code ^ u16::from(byte) << 8, |code: u16, _| {
            code << 1 ^ if code & 0x8000 == 0 { 0 } else { 0x1021 }
        })
    })
}
