//! The plain Rust loops that judging is held to: the tests of refusals 1 to 3, as one writes them in Rust.
use plain::{FREE, RECORD_WORDS, ROW_WORDS, SETUP_HEAD};

const GIGA: u64 = 1_000_000_000;

/// Rows in range and in order.
pub fn in_order(rows: &[u64]) -> bool {
    let mut last = (0, 0);
    for row in rows.chunks_exact(ROW_WORDS) {
        let at = (row[0], row[1]);
        if at.0 > 1 << 43 || at.1 >= GIGA || at < last {
            return false;
        }
        last = at;
    }
    true
}

/// The same, with a row's two words compared as one number.
pub fn in_order_by_128_bits(rows: &[u64]) -> bool {
    let mut last = 0;
    for row in rows.chunks_exact(ROW_WORDS) {
        let at = (row[0] as u128) << 64 | row[1] as u128;
        if row[0] > 1 << 43 || row[1] >= GIGA || at < last {
            return false;
        }
        last = at;
    }
    true
}

/// One row after another, leaving at the first fault: nanoseconds, then whether seconds rise, the rest only where they
/// do not, and the seconds' bound for the last row alone.
fn follow(rows: &[u64], mut last: (u64, u64)) -> Option<(u64, u64)> {
    for row in rows.chunks_exact(ROW_WORDS) {
        let (secs, nanos) = (row[0], row[1]);
        if nanos >= GIGA || secs <= last.0 && (secs < last.0 || nanos < last.1) {
            return None;
        }
        last = (secs, nanos);
    }
    Some(last)
}

/// The fastest that was found: four rows a turn without a branch where seconds rise, and else row by row.
pub fn in_order_by_fours(rows: &[u64]) -> bool {
    let (mut last, mut fours) = ((0, 0), rows.chunks_exact(4 * ROW_WORDS));
    for four in &mut fours {
        let (mut rises, mut secs) = (true, last.0);
        for row in four.chunks_exact(ROW_WORDS) {
            rises &= (row[1] < GIGA) & (row[0] > secs);
            secs = row[0];
        }
        if !rises && follow(four, last).is_none() {
            return false;
        }
        last = (secs, four[3 * ROW_WORDS + 1]);
    }
    follow(fours.remainder(), last).is_some_and(|last| last.0 <= 1 << 43)
}

/// Lengths free or within their slot, leaving at the first fault.
pub fn within(lens: &[u16], size: u64) -> bool {
    !lens.iter().any(|&length| length != FREE && length as u64 > size)
}

/// The same to the end, faults counted in 16 bits, so that several are judged in a turn.
pub fn within_counted(lens: &[u16], size: u64) -> bool {
    let size = size as u16;
    lens.iter().fold(0, |faults: u16, &w| faults + (w != FREE && w > size) as u16) == 0
}

/// The count, or the number of the refusal.
#[inline(never)]
pub fn judge(
    setup: &[u64], record: &[u64], store: &[u8], lens: &[u16], rows: &[u64],
    in_order: impl Fn(&[u64]) -> bool, within: impl Fn(&[u16], u64) -> bool,
) -> Result<u64, u32> {
    if setup.len() < SETUP_HEAD || !(1..=8).contains(&setup[0]) {
        return Err(1);
    }
    let (entries, pools) = (setup[2], setup[SETUP_HEAD..].chunks_exact(2));
    if setup.len() != SETUP_HEAD + 2 * setup[0] as usize || !(1..=4_096).contains(&entries) {
        return Err(1);
    }
    let (mut bytes, mut slots, mut below) = (0, 0, 0);
    for pool in pools.clone() {
        if !(1..=256).contains(&pool[0]) || pool[1] <= below || pool[1] > 4_096 {
            return Err(1);
        }
        (bytes, slots, below) = (bytes + pool[0] * pool[1], slots + pool[0], pool[1]);
    }
    if bytes > 1_048_576 {
        return Err(1);
    }
    let rows_lent = rows.len() as u64 / ROW_WORDS as u64;
    if record.len() < RECORD_WORDS || (store.len() as u64) < bytes {
        return Err(2);
    }
    if (lens.len() as u64) < slots || rows_lent < entries {
        return Err(2);
    }
    let clock_secs = record[1] as i64;
    if record[0] > entries || !(-(1 << 42)..=1 << 42).contains(&clock_secs) || record[2] >= GIGA {
        return Err(3);
    }
    if record[3] > 1 << 31 || record[4] >= GIGA {
        return Err(3);
    }
    if !in_order(&rows[..ROW_WORDS * record[0] as usize]) {
        return Err(3);
    }
    let mut left = lens;
    for pool in pools {
        let (these, after) = left.split_at(pool[0] as usize);
        if !within(these, pool[1]) {
            return Err(3);
        }
        left = after;
    }
    Ok(record[0])
}
