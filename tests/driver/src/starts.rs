//! How random sequences inside the domain begin: setups at the edges of the sizes, a subpool nearly full, many due at
//! once.
use crate::call::Call;
use crate::domain::NANOS;
use crate::packets::ping;
use crate::prng::Prng;
use crate::side::{Start, END};

/// What a start is drawn from.
struct Choice {
    pools: &'static [usize],
    sizes: &'static [u64],
    slots: &'static [u64],
    entries: &'static [u64],
    /// One setup in so many has a subpool of very many slots.
    many: usize,
}

const ANY: Choice = Choice {
    pools: &[1, 1, 2, 2, 3, 4, 8],
    sizes: &[1, 5, 12, 13, 13, 14, 15, 16, 17, 20, 24, 32, 33, 64, 100, 4096],
    slots: &[1, 1, 2, 3, 8],
    entries: &[1, 2, 3, 6, 12, 40, 4096],
    many: 40,
};

/// Setups whose whole state is a short line.
const SMALL: Choice = Choice {
    pools: &[1, 1, 1, 2, 2, 2, 3, 8],
    sizes: &[1, 5, 12, 13, 13, 13, 14, 14, 15, 16, 17, 20],
    slots: &[1, 1, 2, 2, 3, 8],
    entries: &[1, 2, 3, 6, 12],
    many: usize::MAX,
};

pub fn random_start(r: &mut Prng) -> Start {
    drawn(&ANY, r)
}

pub fn small_start(r: &mut Prng) -> Start {
    drawn(&SMALL, r)
}

fn drawn(choice: &Choice, r: &mut Prng) -> Start {
    let number = r.pick(choice.pools);
    let mut sizes: Vec<u64> = Vec::new();
    while sizes.len() < number {
        let size = r.pick(choice.sizes);
        if !sizes.contains(&size) {
            sizes.push(size);
        }
    }
    sizes.sort();
    let many = if r.one_in(choice.many) { r.below(number) } else { number };
    let slots = |k: usize, r: &mut Prng| if k == many { 256 } else { r.pick(choice.slots) };
    let mut subpools: Vec<(u64, u64)> =
        sizes.iter().enumerate().map(|(k, &size)| (slots(k, r), size)).collect();
    let bytes = |pools: &[(u64, u64)]| pools.iter().map(|&(slots, size)| slots * size).sum::<u64>();
    while bytes(&subpools) > 1_048_576 {
        subpools[many].0 -= 1;
    }
    let far = [0, 100, -1, 86_399, 4_000_000_000, -378_691_200, -END, END - 8];
    let margins = [(0, 0), (0, 0), (5, 0), (0, 500_000_000), (2, 999_999_999), (1 << 31, 7)];
    let margin = r.pick(&margins);
    let secs = r.pick(&far);
    let secs = if secs == END - 8 { secs - margin.0 as i64 } else { secs };
    Start {
        subpools,
        spilling: r.one_in(2),
        entries: r.pick(choice.entries),
        clock: (secs, r.pick(&NANOS)),
        margin,
    }
}

/// Calls that take nearly all slots of a subpool with very many.
fn almost_full(start: &Start, r: &mut Prng) -> Vec<Call> {
    match start.subpools.iter().find(|&&(slots, _)| slots > 200) {
        None => vec![],
        Some(&(slots, size)) => {
            let taken = slots as usize - r.below(4);
            vec![Call::Add(r.bytes(size as usize)); taken]
        }
    }
}

/// Many packets for a few times, then the clock at the last of them and a tick.
fn burst(start: &Start, r: &mut Prng) -> Vec<Call> {
    let earliest = start.clock.0 + start.margin.0 as i64 + 2;
    let number = r.below(12).min(start.entries as usize);
    let last = (earliest + 3).min(END);
    let mut calls: Vec<Call> = (0..number)
        .map(|i| {
            let time = (earliest + r.below(3) as i64, r.pick(&NANOS));
            Call::Unwrapped(time, ping(r.below(3) as u16, i as u16))
        })
        .collect();
    calls.insert(0, Call::SetClock((last, 0)));
    calls.insert(0, Call::Tick { log: 4_000, limit: u64::MAX, delete: r.one_in(2) });
    calls
}

/// The calls before the random ones, the last first.
pub fn first_calls(start: &Start, r: &mut Prng) -> Vec<Call> {
    match r.below(4) {
        0 => burst(start, r),
        _ => almost_full(start, r),
    }
}
