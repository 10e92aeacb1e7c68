//! Refusals 2 to 4, and the order "1, 2, 3, 4, then the call's own".
use crate::refusal::Refusal;
use crate::rule::{Reading, Rule};
use crate::setup::{Part, Setup};
use crate::state::{entry_at, Record};
use crate::subject::{FREE, RECORD_WORDS, ROW_WORDS};
use crate::time::{Margin, Time};

/// 2: "a lent store or table is shorter than the setup", the store's part.
fn store_room(setup: &Setup, store: &[u8], lens: &[u16]) -> Result<(), Refusal> {
    match store.len() < setup.bytes() || lens.len() < setup.slots() {
        true => Err(Refusal::BadBuffers),
        false => Ok(()),
    }
}

/// 2 for the rows.
fn rows_room(setup: &Setup, rows: &[u64]) -> Result<(), Refusal> {
    match (rows.len() as u64) < setup.entries * ROW_WORDS as u64 {
        true => Err(Refusal::BadBuffers),
        false => Ok(()),
    }
}

/// 2 for the record: "SILOTWIST_RECORD_WORDS words at least (else BadBuffers)"
pub fn record_room(record: &[u64]) -> Result<(), Refusal> {
    match record.len() < RECORD_WORDS {
        true => Err(Refusal::BadBuffers),
        false => Ok(()),
    }
}

/// 3: "a length neither free nor within its slot"
fn lengths(setup: &Setup, lens: &[u16], reading: Reading) -> Result<(), Refusal> {
    let mut row = 0;
    for pool in &setup.subpools {
        let largest = pool.slot_size - reading.breaks(Rule::FullSlotDamaged) as usize;
        for &length in &lens[row..row + pool.slots] {
            if length != FREE && length as usize > largest {
                return Err(Refusal::StateDamaged);
            }
        }
        row += pool.slots;
    }
    Ok(())
}

/// 3: "the record's clock or margin out of range"
pub fn record_times(record: &Record, reading: Reading) -> Result<(), Refusal> {
    match record.clock.in_range(reading) && record.margin.in_range(reading) {
        true => Ok(()),
        false => Err(Refusal::StateDamaged),
    }
}

/// 3: "count above capacity, entries out of time order, a row's time .. out of range"
fn entries(setup: &Setup, record: &Record, rows: &[u64], reading: Reading) -> Result<(), Refusal> {
    let capacity = setup.entries - reading.breaks(Rule::FullTableDamaged) as u64;
    if record.count > capacity {
        return Err(Refusal::StateDamaged);
    }
    let judged = match reading.breaks(Rule::RowsPastCountJudged) {
        true => setup.entries as usize,
        false => record.count as usize,
    };
    let times: Vec<Time> = (0..judged).map(|i| entry_at(rows, i).time).collect();
    let in_order = times.windows(2).all(|w| !w[1].before(w[0], reading));
    let in_range = times.iter().all(|t| t.in_range(reading));
    let order_seen = in_order || reading.breaks(Rule::OrderNotJudged);
    let range_seen = in_range || reading.breaks(Rule::RowTimeNotJudged);
    match order_seen && range_seen {
        true => Ok(()),
        false => Err(Refusal::StateDamaged),
    }
}

/// "Store calls judge only the store's part of 1 to 3."
pub fn store_part(
    words: &[u64], store: &[u8], lens: &[u16], reading: Reading,
) -> Result<Setup, Refusal> {
    let setup = Setup::read(words, Part::Store, reading)?;
    store_room(&setup, store, lens)?;
    lengths(&setup, lens, reading)?;
    Ok(setup)
}

/// 1 and 2 of a call that judges all.
pub fn room(
    words: &[u64], record: &[u64], store: &[u8], lens: &[u16], rows: &[u64], reading: Reading,
) -> Result<Setup, Refusal> {
    if reading.breaks(Rule::BuffersBeforeSetup) {
        record_room(record)?;
    }
    let setup = Setup::read(words, Part::All, reading)?;
    record_room(record)?;
    store_room(&setup, store, lens)?;
    if reading.breaks(Rule::LensBeforeRowsRoom) {
        lengths(&setup, lens, reading)?;
    }
    rows_room(&setup, rows)?;
    Ok(setup)
}

/// 3 of a call that judges all.
pub fn damage(
    setup: &Setup, record: &Record, lens: &[u16], rows: &[u64], reading: Reading,
) -> Result<(), Refusal> {
    entries(setup, record, rows, reading)?;
    record_times(record, reading)?;
    lengths(setup, lens, reading)
}

/// 4: "a time .. given as an argument is out of range"
pub fn time_argument(time: Time, reading: Reading) -> Result<(), Refusal> {
    match time.in_range(reading) {
        true => Ok(()),
        false => Err(Refusal::BadTime),
    }
}

/// 4: "a .. margin given as an argument is out of range"
pub fn margin_argument(margin: Margin, reading: Reading) -> Result<(), Refusal> {
    match margin.in_range(reading) {
        true => Ok(()),
        false => Err(Refusal::BadTime),
    }
}
