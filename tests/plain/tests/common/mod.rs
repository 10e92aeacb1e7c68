//! What the tests share: a world after a fresh start, and a call that must answer as said.
#![allow(dead_code)]
use driver::call::{Call, Instant};
use driver::world::World;
use driver::Compared;

/// A fresh scheduler with a clock and a margin; tables reach beyond the setup.
pub fn fresh(
    pools: &[(u64, u64)], spilling: bool, entries: u64, clock: Instant, margin: (u64, u32),
) -> World {
    let mut w = World::of(pools, spilling as u64, entries, 2);
    gives(&mut w, Call::Fresh(clock, margin), &[]);
    w
}

/// One subpool of `slots` slots of 64 bytes, two entries, clock and margin 0.
pub fn plain_world(slots: u64) -> World {
    fresh(&[(slots, 64)], false, 2, (0, 0), (0, 0))
}

fn answers(w: &mut World, call: &Call, number: u32, values: &[u64]) {
    w.answer.fill(0xA5A5);
    assert_eq!(call.on(&Compared::default(), w), number, "{call:?}");
    let mut words = values.to_vec();
    words.resize(8, 0);
    words.resize(w.answer.len(), 0xA5A5);
    assert_eq!(w.answer, words, "{call:?}");
}

/// The call is carried out with these values.
pub fn gives(w: &mut World, call: Call, values: &[u64]) {
    answers(w, &call, 0, values);
}

/// "A refusal changes no lent byte and no record."
pub fn refuses(w: &mut World, call: Call, number: u32, values: &[u64]) {
    let before = w.clone();
    answers(w, &call, number, values);
    let untouched = World::untouched(&w.buffer, 0);
    assert!(untouched, "{call:?} wrote to its buffer");
    let after = World { buffer: before.buffer.clone(), answer: before.answer.clone(), ..w.clone() };
    assert_eq!(after, before, "{call:?}");
}

pub fn hex(text: &str) -> Vec<u8> {
    let digits: Vec<char> = text.chars().filter(|c| c.is_ascii_hexdigit()).collect();
    let byte = |d: &[char]| u8::from_str_radix(&d.iter().collect::<String>(), 16).expect("hex");
    digits.chunks(2).map(byte).collect()
}
