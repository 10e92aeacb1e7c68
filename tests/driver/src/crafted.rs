//! Worlds in any state, built word by word: setups at every size's edge, slots and rows as no sequence may leave them.
use crate::call::Instant;
use crate::prng::Prng;
use crate::world::World;
use plain::{row_secs, FREE, ROW_WORDS};

pub const END: i64 = 1 << 42;
pub const NANOS: [u32; 8] = [0, 0, 0, 1, 500_000_000, 600_000_000, 999_999_998, 999_999_999];

/// A few times, some alike, from which a world's clock, rows and arguments are drawn.
pub fn times(r: &mut Prng) -> Vec<Instant> {
    let base = r.pick(&[0, 100, 100, -3, -END, END - 2, -378_691_200]);
    (0..4).map(|_| ((base + r.below(3) as i64).min(END), r.pick(&NANOS))).collect()
}

const SMALL: [u64; 12] = [1, 2, 3, 12, 13, 14, 15, 16, 20, 24, 33, 64];

/// A setup that is right, and small.
fn small_pools(r: &mut Prng) -> Vec<(u64, u64)> {
    let number = r.pick(&[1, 1, 2, 2, 3, 4, 8]);
    let mut sizes: Vec<u64> = Vec::new();
    while sizes.len() < number {
        let size = r.pick(&SMALL);
        if !sizes.contains(&size) {
            sizes.push(size);
        }
    }
    sizes.sort();
    sizes.iter().map(|&size| (r.pick(&[1, 1, 2, 3]), size)).collect()
}

/// Setups at and beyond the edges.
fn edge_pools(r: &mut Prng) -> Vec<(u64, u64)> {
    let rising = |n: u64| (1..=n).map(|k| (1, k)).collect::<Vec<_>>();
    match r.below(16) {
        0 => vec![],
        1 => rising(1),
        2 => rising(8),
        3 => rising(9),
        4 => vec![(256, 2)],
        5 => vec![(257, 2)],
        6 => vec![(0, 16)],
        7 => vec![(1, 0)],
        8 => vec![(1, 4096)],
        9 => vec![(1, 4097)],
        10 => vec![(1, 16), (1, 16)],
        11 => vec![(1, 32), (1, 16)],
        12 => vec![(1, 16), (0, 32)],
        13 => vec![(1 << 32 | 1, 16)],
        14 => vec![(1, 1 << 16 | 16)],
        _ => vec![(1, u64::MAX), (u64::MAX, 16)],
    }
}

/// 1,048,576 bytes, and one slot more.
fn large_pools(r: &mut Prng) -> Vec<(u64, u64)> {
    match r.below(3) {
        0 => vec![(256, 4096)],
        1 => vec![(1, 1), (256, 4096)],
        _ => vec![(256, 2048), (129, 4096)],
    }
}

fn entries(r: &mut Prng) -> u64 {
    match r.below(24) {
        0 => r.pick(&[0, 4096, 4097, 1 << 32 | 1, u64::MAX]),
        1 => 300,
        _ => 1 + r.below(5) as u64,
    }
}

/// Lengths: free, empty, full, and in between.
fn fill_slots(r: &mut Prng, w: &mut World, pools: &[(u64, u64)]) {
    let sizes = pools.iter().flat_map(|&(slots, size)| vec![size; slots.min(300) as usize]);
    for (i, size) in sizes.enumerate() {
        let size = size.min(5000) as usize;
        w.lens[i] = match r.below(6) {
            0..=2 => FREE,
            3 => size as u16,
            4 => r.below(size + 1) as u16,
            _ => 0,
        };
    }
}

pub fn id(r: &mut Prng) -> u64 {
    r.pick(&[0, 1, 1, 2, 1 << 32, 1 << 48, u64::MAX])
}

pub fn address(r: &mut Prng, w: &World) -> u64 {
    let pools = (w.setup.len().saturating_sub(3) / 2).max(1);
    let known = (r.below(pools) as u64) << 16 | r.pick(&[0, 0, 0, 1, 1, 2]);
    match r.below(12) {
        0 => known ^ 1 << r.pick(&[8, 15, 24, 31, 32, 63]),
        1 => r.pick(&[256, 65_536, 255, 0xFFFF_FFFF, u64::MAX]),
        2 => (pools as u64) << 16,
        _ => known,
    }
}

/// Rows in order, the record, and what a caller may hold in the enabled word.
fn fill_rows(r: &mut Prng, w: &mut World, times: &[Instant], entries: u64) {
    let most = entries.min(4096) as usize;
    let count = match r.below(4) {
        0 => most.min(300),
        _ => r.below(most.min(5) + 1),
    };
    let mut at: Vec<Instant> = (0..count).map(|_| r.pick(times)).collect();
    at.sort();
    for (i, time) in at.iter().enumerate() {
        let words = [row_secs(time.0), time.1 as u64, id(r), address(r, w)];
        w.rows[i * ROW_WORDS..][..ROW_WORDS].copy_from_slice(&words);
    }
    let clock = r.pick(times);
    let margins = [(0, 0), (0, 0), (1, 0), (0, 500_000_000), (1 << 31, 999_999_999)];
    let margin = r.pick(&margins);
    let enabled = r.pick(&[0, 0, 1, 1, 7, u64::MAX]);
    let words = [count as u64, clock.0 as u64, clock.1 as u64, margin.0, margin.1, enabled];
    w.record[..6].copy_from_slice(&words);
}

/// Many entries at two large packets, all due: in keep mode the records of the first 255 pass the log's used part by
/// one byte, or just do not.
fn long_log(r: &mut Prng) -> World {
    let mut w = World::of(&[(2, 4096)], 0, 300, 2);
    w.lens[0] = 4096;
    w.lens[1] = 2829 + r.below(2) as u16;
    for i in 0..300 {
        let words = [row_secs(0), 0, i as u64, (i >= 254) as u64];
        w.rows[i * ROW_WORDS..][..ROW_WORDS].copy_from_slice(&words);
    }
    w.record[..6].copy_from_slice(&[300, 0, 0, 0, 0, 1]);
    w
}

/// A world, and the times that its arguments are drawn from.
pub fn world(r: &mut Prng) -> (World, Vec<Instant>) {
    let times = times(r);
    let pools = match r.below(160) {
        0 | 26 => return (long_log(r), times),
        1 => large_pools(r),
        2..=25 => edge_pools(r),
        _ => small_pools(r),
    };
    let entries = entries(r);
    let more = r.pick(&[0, 0, 1, 5]);
    let mut w = World::of(&pools, r.pick(&[0, 1, 9]), entries, more);
    fill_slots(r, &mut w, &pools);
    fill_rows(r, &mut w, &times, entries);
    (w, times)
}
