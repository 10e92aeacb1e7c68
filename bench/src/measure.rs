//! Everything that is timed, in rounds over all of it: what disturbs a moment disturbs one round of a few times.
use crate::clock;
use crate::loops::{in_order, in_order_by_128_bits, in_order_by_fours, within, within_counted};
use crate::original::Original;
use crate::places;
use crate::plan::{Call, CALLS, SIZES};
use crate::same::nested;
use crate::this::This;
use spacepackets::ecss::tc::crc16;

/// The least of the rounds' medians is taken: what else the machine does can only add to a time.
const ROUNDS: usize = 15;
/// Rounds over the places of the stack.
const PLACE_ROUNDS: usize = 5;

/// Other stores on which judging is measured, with 256 entries: 16 and 2,048 slots.
const FEW: [(u16, usize); 1] = [(16, 64)];
const MANY: [(u16, usize); 8] =
    [(256, 64), (256, 72), (256, 80), (256, 88), (256, 96), (256, 104), (256, 112), (256, 120)];

/// Bytes of which the check code is taken.
pub const CODES: [usize; 4] = [16, 64, 1_024, 4_096];
/// Packet lengths between which its cost per byte is taken.
const SHORT: usize = 8_192;
const LONG: usize = 65_536;

/// Nanoseconds.
pub struct Measured {
    /// For each call and size: the library's, the original's, and judging on the library's tables.
    pub calls: Vec<[f64; 4]>,
    /// Judging and the loops (plain, by 128 bits, fastest): at each size; with 16 slots; with 2,048.
    pub judging: Vec<[f64; 4]>,
    /// The library's check code and the loop's, for each of `CODES`.
    pub codes: Vec<[f64; 2]>,
    /// The same for a byte more.
    pub byte: [f64; 2],
    /// For each call and size: the library's least and most over the places of the stack.
    pub places: Vec<[f64; 2]>,
}

/// One round of what belongs together, given what taking the time costs.
type Case = Box<dyn FnMut(f64) -> [f64; 4]>;

fn call(call: Call, n: usize) -> Case {
    let (mut this, mut original) = (This::new(call, n), Original::new(call, n));
    Box::new(move |o| {
        [
            clock::round(&mut this, o, This::make, This::undo),
            clock::round(&mut original, o, Original::make, Original::undo),
            clock::round(&mut this, o, This::count, This::undo),
            0.0,
        ]
    })
}

fn judging(mut this: This) -> Case {
    Box::new(move |o| {
        [
            clock::round(&mut this, o, This::count, This::undo),
            clock::round(&mut this, o, |t| t.judge(in_order, within), This::undo),
            clock::round(&mut this, o, |t| t.judge(in_order_by_128_bits, within), This::undo),
            clock::round(&mut this, o, |t| t.judge(in_order_by_fours, within_counted), This::undo),
        ]
    })
}

/// A packet refused after its check code, one refused before, and the loop alone.
fn code(length: usize) -> Case {
    let (mut this, right) = (This::new(Call::InsertUnwrapped, 16), nested(length));
    let mut wrong = right.clone();
    wrong[0] = 0;
    Box::new(move |o| {
        [
            clock::round(&mut this, o, |t| t.insert_unwrapped(&right), |_| ()),
            clock::round(&mut this, o, |t| t.insert_unwrapped(&wrong), |_| ()),
            clock::round(&mut this, o, |_| crc16(&right[..length - 2]), |_| ()),
            0.0,
        ]
    })
}

/// The least of the rounds, for each case.
fn least(mut cases: Vec<Case>) -> Vec<[f64; 4]> {
    let mut least = vec![[f64::INFINITY; 4]; cases.len()];
    for _ in 0..ROUNDS {
        for (case, least) in cases.iter_mut().zip(&mut least) {
            let times = case(clock::overhead());
            (0..4).for_each(|i| least[i] = least[i].min(times[i]));
        }
    }
    least
}

fn over_places() -> Vec<[f64; 2]> {
    let each = CALLS.iter().flat_map(|&(call, _)| SIZES.map(|n| (call, n)));
    let mut cases: Vec<_> = each.map(|(call, n)| (This::new(call, n), places::none())).collect();
    for _ in 0..PLACE_ROUNDS {
        for (this, least) in &mut cases {
            places::round(this, clock::overhead(), least, This::make, This::undo);
        }
    }
    cases.iter().map(|(_, least)| places::ends(least)).collect()
}

pub fn measure() -> Measured {
    let mut cases: Vec<Case> = Vec::new();
    for (which, _) in CALLS {
        cases.extend(SIZES.map(|n| call(which, n)));
    }
    cases.extend(SIZES.map(|n| judging(This::new(Call::DeleteAll, n))));
    let others = [&FEW[..], &MANY];
    cases.extend(others.map(|s| judging(This::with_subpools(s, Call::DeleteAll, 256))));
    cases.extend(CODES.map(|bytes| code(bytes + 2)));
    cases.extend([SHORT, LONG].map(code));

    let least = least(cases);
    let (calls, others) = least.split_at(CALLS.len() * SIZES.len());
    let (judging, codes) = others.split_at(SIZES.len() + 2);
    let (codes, ends) = codes.split_at(CODES.len());
    Measured {
        calls: calls.to_vec(),
        judging: judging.to_vec(),
        codes: codes.iter().map(|t| [t[0] - t[1], t[2]]).collect(),
        byte: [0, 2].map(|i| (ends[1][i] - ends[0][i]) / (LONG - SHORT) as f64),
        places: over_places(),
    }
}
