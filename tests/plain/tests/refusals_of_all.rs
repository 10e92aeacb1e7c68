//! Refusals 1 to 4 of every call, their order, and an answer that is too short.
mod common;
use common::{fresh, gives, refuses};
use driver::call::{Call, Ends};
use driver::packets::{ping, short_stamp, wrap};
use driver::world::World;
use driver::Compared;
use plain::{row_secs, NAMES};

const ENDS: Ends = Ends { has_from: true, from: (1, 0), has_to: true, to: (2, 0) };
const LATE: (i64, u32) = ((1 << 42) + 1, 0);
const NANOS: (i64, u32) = (0, 1_000_000_000);

fn world() -> World {
    let mut w = fresh(&[(3, 16), (1, 64)], false, 3, (0, 0), (0, 0));
    gives(&mut w, Call::Unwrapped((1, 0), ping(1, 1)), &[0, 1 << 16 | 1]);
    gives(&mut w, Call::Unwrapped((2, 0), ping(1, 2)), &[1, 1 << 16 | 2]);
    w
}

fn store_calls() -> Vec<Call> {
    vec![
        Call::Add(vec![1]),
        Call::Read(0, 20),
        Call::Modify(0),
        Call::Part(0, 1),
        Call::Delete(0),
        Call::Has(0),
        Call::Len(0),
    ]
}

fn record_calls() -> Vec<Call> {
    vec![Call::SetClock((5, 5)), Call::Enable, Call::Disable]
}

fn scheduler_calls() -> Vec<Call> {
    vec![
        Call::Count,
        Call::Wrapped(wrap(&short_stamp(4_384, 0), &ping(3, 3))),
        Call::Unwrapped((5, 0), ping(3, 3)),
        Call::Stored((5, 0), 1, 0),
        Call::Window(ENDS),
        Call::DeleteWindow(ENDS),
        Call::Reset,
        Call::DeleteByIdKeep(1 << 16 | 1),
        Call::DeleteById(1 << 16 | 1),
        Call::Tick { log: 200, limit: 9, delete: true },
    ]
}

fn fresh_start() -> Call {
    Call::Fresh((5, 5), (5, 5))
}

fn all_calls() -> Vec<Call> {
    [store_calls(), record_calls(), scheduler_calls(), vec![fresh_start()]].concat()
}

/// Each of these calls refuses the world spoilt in this way by this number.
fn all_refuse(calls: Vec<Call>, number: u32, spoil: impl Fn(&mut World)) {
    for call in calls {
        let mut w = world();
        spoil(&mut w);
        refuses(&mut w, call, number, &[]);
    }
}

/// Each of these calls is carried out all the same.
fn all_pass(calls: Vec<Call>, spoil: impl Fn(&mut World)) {
    for call in calls {
        let mut w = world();
        spoil(&mut w);
        assert_eq!(call.on(&Compared::default(), &mut w), 0, "{call:?}");
    }
}

#[test]
fn every_call_is_tried() {
    let mut names: Vec<_> = all_calls().iter().map(|c| format!("silotwist_{}", c.name())).collect();
    let mut header: Vec<_> = NAMES.to_vec();
    names.sort();
    header.sort();
    assert_eq!(names, header);
    all_pass(all_calls(), |_| ());
}

#[test]
fn a_short_answer_before_anything_else() {
    for call in all_calls() {
        for words in 0..8 {
            let mut w = world();
            w.setup.clear();
            w.answer = vec![0xA5A5; words];
            let before = w.clone();
            assert_eq!(call.on(&Compared::default(), &mut w), 2);
            assert_eq!(World { buffer: vec![], ..w }, before);
        }
    }
}

#[test]
fn bad_setup() {
    let judging_store = [store_calls(), scheduler_calls(), vec![fresh_start()]].concat();
    let setups: [&[u64]; 16] = [
        &[],
        &[1, 0],
        &[1, 0, 3],
        &[0, 0, 3],
        &[2, 0, 3, 2, 16, 1, 64, 1],
        &[2, 0, 3, 2, 16, 1],
        &[2, 0, 3, 2, 16, 1, 16],
        &[2, 0, 3, 2, 16, 1, 8],
        &[2, 0, 3, 0, 16, 1, 64],
        &[2, 0, 3, 257, 16, 1, 64],
        &[2, 0, 3, 2, 0, 1, 64],
        &[2, 0, 3, 2, 16, 1, 4097],
        &[2, 0, 3, 1 << 32, 16, 1, 64],
        &[2, 0, 3, 1, 1, 256, 4096],
        &[9, 0, 3, 1, 1, 1, 2, 1, 3, 1, 4, 1, 5, 1, 6, 1, 7, 1, 8, 1, 9],
        &[u64::MAX, 0, 3, 2, 16, 1, 64],
    ];
    for setup in setups {
        all_refuse(judging_store.clone(), 1, |w| w.setup = setup.to_vec());
        all_pass(record_calls(), |w| w.setup = setup.to_vec());
    }
}

/// "Store calls judge only the store's part of 1 to 3."
#[test]
fn entries_are_no_part_of_the_store() {
    for entries in [0, 4097, u64::MAX] {
        let calls = [scheduler_calls(), vec![fresh_start()]].concat();
        all_refuse(calls, 1, |w| w.setup[2] = entries);
        all_pass(store_calls(), |w| w.setup[2] = entries);
    }
}

/// Exactly 1,048,576 bytes are a setup.
#[test]
fn the_largest_store() {
    let mut w = World::of(&[(256, 4096)], 0, 4096, 0);
    gives(&mut w, fresh_start(), &[]);
    gives(&mut w, Call::Count, &[0]);
    gives(&mut w, Call::Len(255), &[0]);
}

#[test]
fn bad_buffers() {
    let judging_all = || [scheduler_calls(), vec![fresh_start()]].concat();
    let judging_store = || [judging_all(), store_calls()].concat();
    all_refuse(judging_store(), 2, |w| w.store.truncate(111));
    all_refuse(judging_store(), 2, |w| w.lens.truncate(3));
    all_refuse(judging_all(), 2, |w| w.rows.truncate(11));
    all_refuse([judging_all(), record_calls()].concat(), 2, |w| w.record.truncate(5));
    all_pass(store_calls(), |w| w.rows.clear());
    all_pass(store_calls(), |w| w.record.clear());
    let exact = |w: &mut World| {
        w.store.truncate(112);
        w.lens.truncate(4);
        w.rows.truncate(12);
        w.record.truncate(6);
    };
    all_pass(all_calls(), exact);
}

#[test]
fn damage() {
    all_refuse(scheduler_calls(), 3, |w| w.record[0] = 4);
    all_refuse(scheduler_calls(), 3, |w| w.rows[..8].rotate_left(4));
    all_refuse(scheduler_calls(), 3, |w| w.rows[4] = row_secs((1 << 42) + 1));
    all_refuse(scheduler_calls(), 3, |w| w.rows[0] = row_secs(-(1 << 42) - 1));
    all_refuse(scheduler_calls(), 3, |w| w.rows[1] = 1_000_000_000);
    let judging_record = || [scheduler_calls(), record_calls()].concat();
    all_refuse(judging_record(), 3, |w| w.record[1] = (1 << 42) + 1);
    all_refuse(judging_record(), 3, |w| w.record[1] = (-(1i64 << 42) - 1) as u64);
    all_refuse(judging_record(), 3, |w| w.record[2] = 1_000_000_000);
    all_refuse(judging_record(), 3, |w| w.record[3] = (1 << 31) + 1);
    all_refuse(judging_record(), 3, |w| w.record[4] = 1_000_000_000);
    let judging_lengths = || [scheduler_calls(), store_calls()].concat();
    all_refuse(judging_lengths(), 3, |w| w.lens[0] = 17);
    all_refuse(judging_lengths(), 3, |w| w.lens[3] = 65_534);
    all_pass(record_calls(), |w| w.record[0] = 4);
    all_pass(store_calls(), |w| w.record.fill(u64::MAX));
    all_pass(all_calls(), |w| w.lens[1] = 16);
}

/// "rows below count only": rows past the count, and lengths past the setup, hold what they like.
#[test]
fn no_damage_where_nothing_is() {
    all_pass(all_calls(), |w| w.rows[8..12].fill(u64::MAX));
    all_pass(all_calls(), |w| w.lens[4] = 65_534);
}

/// "A fresh start knows 1, 2 and 4 only"
#[test]
fn a_fresh_start_mends_all() {
    let mut w = world();
    w.record.fill(u64::MAX);
    w.lens.fill(65_534);
    w.rows.fill(u64::MAX);
    gives(&mut w, fresh_start(), &[]);
    assert_eq!(w.record, [0, 5, 5, 5, 5, 1, u64::MAX, u64::MAX]);
    assert_eq!(w.rows, [vec![0; 12], vec![u64::MAX; 2]].concat());
    assert_eq!(w.lens, [65_535, 65_535, 65_535, 65_535, 65_534, 65_534]);
    assert!(w.store[..112].iter().all(|&b| b == 0));
    assert!(World::untouched(&w.store, 112));
}

#[test]
fn bad_times() {
    for time in [LATE, (-LATE.0, 0), NANOS, (i64::MIN, 0), (i64::MAX, 0)] {
        let start = Ends { from: time, has_to: false, ..ENDS };
        let end = Ends { to: time, has_from: false, ..ENDS };
        let calls = vec![
            Call::SetClock(time),
            Call::Unwrapped(time, ping(3, 3)),
            Call::Stored(time, 1, 0),
            Call::Window(start),
            Call::Window(end),
            Call::DeleteWindow(start),
            Call::DeleteWindow(end),
            Call::Fresh(time, (0, 0)),
        ];
        all_refuse(calls, 4, |_| ());
        let not_looked_at = Ends { has_from: false, from: time, has_to: false, to: time };
        all_pass(vec![Call::Window(not_looked_at), Call::DeleteWindow(not_looked_at)], |_| ());
    }
    for margin in [((1 << 31) + 1, 0), (0, 1_000_000_000), (u64::MAX, 0)] {
        all_refuse(vec![Call::Fresh((0, 0), margin)], 4, |_| ());
    }
    all_pass(vec![Call::Fresh((1 << 42, 999_999_999), (1 << 31, 999_999_999))], |_| ());
    all_pass(vec![Call::SetClock((-(1 << 42), 0)), Call::Stored((1 << 42, 0), 0, 0)], |_| ());
}

/// "Order: 1, 2, 3, 4, then the call's own."
#[test]
fn order_of_the_first_four() {
    let late = || Call::Unwrapped(LATE, vec![]);
    let mut w = world();
    refuses(&mut w, late(), 4, &[]);
    w.record[0] = 4;
    refuses(&mut w, late(), 3, &[]);
    w.rows.truncate(3);
    refuses(&mut w, late(), 2, &[]);
    w.setup[2] = 0;
    refuses(&mut w, late(), 1, &[]);
    let mut w = world();
    w.lens[0] = 17;
    w.rows.truncate(3);
    refuses(&mut w, Call::Count, 2, &[]);
}
