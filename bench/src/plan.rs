//! What is measured: a schedule of n entries over a store of 256 slots, all of them taken, and the calls on it.
use crate::packets::{packet, Fields};
use spacepackets::time::UnixTime;

/// Entries of the schedules that are measured.
pub const SIZES: [usize; 4] = [16, 256, 1_024, 4_096];

/// (slots, slot size): 256 slots. Packets fill their slots, so that each subpool costs about the same.
pub const SUBPOOLS: [(u16, usize); 4] = [(64, 64), (64, 72), (64, 80), (64, 88)];
pub const SLOTS: usize = 256;

/// The clock of a schedule in which nothing is due. The margin is 0.
pub const START: i64 = 1_800_000_000;

/// Due entries of the larger tick, and entries of the smaller window.
pub const DUE: usize = 64;
pub const COVERED: usize = 16;

#[derive(Clone, Copy, Debug, PartialEq, Eq)]
pub enum Call {
    InsertStored,
    InsertUnwrapped,
    TickOne,
    TickMany,
    DeleteWindow,
    DeleteAll,
    DeleteById,
}

pub const CALLS: [(Call, &str); 7] = [
    (Call::InsertStored, "insertion, stored"),
    (Call::InsertUnwrapped, "insertion of a packet of 72 bytes"),
    (Call::TickOne, "tick, 1 due"),
    (Call::TickMany, "tick, 64 due (at 16 entries: 16)"),
    (Call::DeleteWindow, "window deletion, 16 covered"),
    (Call::DeleteAll, "window deletion, all covered"),
    (Call::DeleteById, "deletion by request ID"),
];

#[derive(Clone, Copy, Debug, PartialEq, Eq)]
pub struct Entry {
    pub time: UnixTime,
    pub id: u64,
    pub address: u64,
}

/// Release time of entry i, all different.
pub fn time(i: usize) -> UnixTime {
    UnixTime {
        secs: START + 1 + i as i64,
        nanos: (i as u32).wrapping_mul(2_654_435_761) % 1_000_000_000,
    }
}

/// The address of a slot, by its place among the 256.
pub fn address(slot: usize) -> u64 {
    (slot / 64 * 65_536 + slot % 64) as u64
}

/// A packet of `length` bytes whose sequence count is `sequence`.
pub fn tc(sequence: usize, length: usize) -> Vec<u8> {
    packet(&Fields {
        apid: 2,
        sequence: sequence as u16,
        flags: 3,
        acks: 15,
        service: 17,
        subservice: 1,
        source: 1,
        data: vec![0x5A; length - 13],
        trailing: vec![],
    })
}

/// What a slot holds: a packet as long as the slot.
pub fn stored(slot: usize) -> Vec<u8> {
    tc(slot % 64, SUBPOOLS[slot / 64].1)
}

/// Entry i: beyond 256 entries, addresses are shared.
pub fn entry(i: usize) -> Entry {
    Entry { time: time(i), id: 1 << 32 | 2 << 16 | i as u64, address: address(i % SLOTS) }
}

/// The entry in the middle: where an insertion goes, and which entry a deletion takes.
pub fn middle(n: usize) -> usize {
    n / 2
}

/// The slot that is free for an insertion by bytes: the last of subpool 1.
pub const FREE_SLOT: usize = 127;

/// How many are due in a tick.
pub fn due(call: Call, n: usize) -> usize {
    match call {
        Call::TickOne => 1,
        Call::TickMany => DUE.min(n),
        _ => 0,
    }
}

/// The places of the entries that a call finds: an insertion does not find the one that it makes.
pub fn present(call: Call, n: usize) -> impl Iterator<Item = usize> {
    let made = matches!(call, Call::InsertStored | Call::InsertUnwrapped).then_some(middle(n));
    (0..n).filter(move |&i| Some(i) != made)
}

/// The clock that a call finds.
pub fn clock(call: Call, n: usize) -> UnixTime {
    match due(call, n) {
        0 => UnixTime { secs: START, nanos: 0 },
        k => time(k - 1),
    }
}

/// Both ends of the smaller window.
pub fn window(n: usize) -> (usize, usize) {
    let first = middle(n) - COVERED / 2;
    (first, first + COVERED - 1)
}
