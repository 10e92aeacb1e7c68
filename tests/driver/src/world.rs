//! All that a caller lends, in vectors of its own.
use plain::{ANSWER_WORDS, FREE, RECORD_WORDS, ROW_WORDS};

#[derive(Clone, Debug, PartialEq, Eq)]
pub struct World {
    pub setup: Vec<u64>,
    pub record: Vec<u64>,
    pub store: Vec<u8>,
    pub lens: Vec<u16>,
    pub rows: Vec<u64>,
    /// The read buffer, or the log.
    pub buffer: Vec<u8>,
    pub answer: Vec<u64>,
}

/// What stands in a buffer before a call: no byte equals its neighbour.
fn ground(i: usize) -> u8 {
    (i as u8).wrapping_mul(37).wrapping_add(11)
}

pub fn setup_words(subpools: &[(u64, u64)], spilling: u64, entries: u64) -> Vec<u64> {
    let mut words = vec![subpools.len() as u64, spilling, entries];
    subpools.iter().for_each(|&(slots, size)| words.extend([slots, size]));
    words
}

impl World {
    /// Tables of exactly the setup's size and `more` elements beyond, holding no zeros; sizes far beyond document
    /// 01's are cut.
    pub fn of(subpools: &[(u64, u64)], spilling: u64, entries: u64, more: usize) -> World {
        let bytes: u64 =
            subpools.iter().map(|&(slots, size)| slots.min(300) * size.min(5000)).sum();
        let slots: u64 = subpools.iter().map(|&(slots, _)| slots.min(300)).sum();
        let rows = entries.min(5000) as usize * ROW_WORDS + more;
        World {
            setup: setup_words(subpools, spilling, entries),
            record: vec![77; RECORD_WORDS + more],
            store: World::buffer_of(bytes as usize + more),
            lens: vec![FREE; slots as usize + more],
            rows: (0..rows as u64).map(|i| i * 3 + 1).collect(),
            buffer: vec![],
            answer: vec![0xA5A5; ANSWER_WORDS + more.min(4)],
        }
    }

    pub fn buffer_of(n: usize) -> Vec<u8> {
        (0..n).map(ground).collect()
    }

    /// Whether a buffer still is as it was from `at` on.
    pub fn untouched(buffer: &[u8], at: usize) -> bool {
        buffer.iter().enumerate().skip(at).all(|(i, &b)| b == ground(i))
    }
}
