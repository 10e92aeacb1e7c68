//! The schedule's rules that are no refusals: order, deletions, reset, the tick turn by turn.
mod common;
use common::{fresh, gives, plain_world};
use driver::call::{Call, Ends};
use driver::packets::ping;
use driver::world::World;
use plain::row_secs;

const ALL: Ends = Ends { has_from: false, from: (0, 0), has_to: false, to: (0, 0) };

fn stored(w: &mut World, secs: i64, id: u64, address: u64) {
    gives(w, Call::Stored((secs, 0), id, address), &[]);
}

fn rows(w: &World) -> Vec<(u64, u64)> {
    let count = w.record[0] as usize;
    w.rows.chunks(4).take(count).map(|r| (r[0].wrapping_sub(row_secs(0)), r[3])).collect()
}

#[test]
fn equal_times_in_insertion_order() {
    let mut w = fresh(&[(1, 1)], false, 5, (0, 0), (0, 0));
    for (secs, address) in [(5, 1), (3, 2), (5, 3), (4, 4), (3, 5)] {
        stored(&mut w, secs, 0, address);
    }
    assert_eq!(rows(&w), [(3, 2), (3, 5), (4, 4), (5, 1), (5, 3)]);
    let touching = Ends { has_from: true, from: (4, 0), has_to: true, to: (5, 0) };
    gives(&mut w, Call::Window(touching), &[2, 3]);
    let between = Ends { has_from: true, from: (3, 1), has_to: true, to: (3, 2) };
    gives(&mut w, Call::Window(between), &[0, 0]);
}

/// "in the earliest release time that has a match, the last match goes"
#[test]
fn the_last_match_of_the_earliest_time() {
    let mut w = fresh(&[(1, 1)], false, 5, (0, 0), (0, 0));
    for (secs, id, address) in [(2, 7, 10), (2, 8, 11), (2, 7, 12), (2, 9, 13), (3, 7, 14)] {
        stored(&mut w, secs, id, address);
    }
    gives(&mut w, Call::DeleteByIdKeep(7), &[1, 12]);
    assert_eq!(w.rows[16..20], [0; 4], "a vacated row holds zeros");
    gives(&mut w, Call::DeleteByIdKeep(7), &[1, 10]);
    gives(&mut w, Call::DeleteById(7), &[1, 0, 17, 14]);
    gives(&mut w, Call::DeleteById(7), &[0]);
    gives(&mut w, Call::DeleteByIdKeep(7), &[0]);
    gives(&mut w, Call::Count, &[2]);
}

/// "remove every entry they cover, even where the packet is missing"
#[test]
fn window_deletion_and_reset_count() {
    let world = || {
        let mut w = fresh(&[(2, 16)], false, 5, (0, 0), (0, 0));
        gives(&mut w, Call::Unwrapped((1, 0), ping(1, 1)), &[0, 1 << 16 | 1]);
        stored(&mut w, 2, 5, 256);
        stored(&mut w, 3, 6, 65_536);
        stored(&mut w, 4, 7, 1);
        w
    };
    let mut w = world();
    gives(&mut w, Call::DeleteWindow(ALL), &[1, 3, 18, 1]);
    assert_eq!((w.record[0], w.record[5]), (0, 1));
    let mut w = world();
    let part = Ends { has_from: true, from: (2, 0), has_to: true, to: (3, 0) };
    gives(&mut w, Call::DeleteWindow(part), &[1, 1, 16, 1]);
    assert_eq!(rows(&w), [(1, 0), (4, 1)]);
    let mut w = world();
    gives(&mut w, Call::Reset, &[1, 3, 18, 1]);
    assert_eq!((w.record[0], w.record[5]), (0, 0));
    gives(&mut w, Call::Reset, &[0, 0, 0]);
}

/// "each packet handed out is deleted at its turn": the second entry at one slot finds nothing.
#[test]
fn two_entries_at_one_slot() {
    for (delete, second) in [(true, 17), (false, 30)] {
        let mut w = plain_world(1);
        gives(&mut w, Call::Unwrapped((0, 0), ping(1, 1)), &[0, 1 << 16 | 1]);
        stored(&mut w, 0, 9, 0);
        gives(&mut w, Call::Tick { log: 100, limit: 9, delete }, &[2, 0]);
        assert_eq!(w.buffer[7], 16 + 30 + second);
        assert_eq!(w.buffer[16], 1);
        assert_eq!(w.buffer[46], if delete { 2 } else { 1 });
        gives(&mut w, Call::Has(0), &[!delete as u64]);
    }
}

/// "0: due while disabled, bytes included", and deleted too
#[test]
fn while_disabled() {
    let mut w = plain_world(1);
    gives(&mut w, Call::Unwrapped((0, 0), ping(1, 1)), &[0, 1 << 16 | 1]);
    gives(&mut w, Call::Disable, &[]);
    gives(&mut w, Call::Tick { log: 42, limit: 1, delete: true }, &[1, 0]);
    assert_eq!((w.buffer[12], &w.buffer[29..]), (0, &ping(1, 1)[..]));
    gives(&mut w, Call::Has(0), &[0]);
}

/// "hand out d due entries within d / k ticks, rounded up"
#[test]
fn repeated_ticks() {
    let mut w = fresh(&[(1, 1)], false, 7, (0, 0), (0, 0));
    (0..7).for_each(|id| stored(&mut w, 0, id, 0));
    for (handed, left) in [(3, 4), (3, 1), (1, 0)] {
        gives(&mut w, Call::Tick { log: 8 + 3 * 22, limit: 3, delete: false }, &[handed, left]);
    }
}

/// "The clock may be set back; due is judged by the present clock"
#[test]
fn a_clock_set_back() {
    let mut w = fresh(&[(1, 1)], false, 7, (9, 0), (0, 0));
    stored(&mut w, 9, 1, 0);
    gives(&mut w, Call::SetClock((8, 999_999_999)), &[]);
    gives(&mut w, Call::Tick { log: 99, limit: 3, delete: false }, &[0, 0]);
    gives(&mut w, Call::SetClock((9, 0)), &[]);
    gives(&mut w, Call::Tick { log: 99, limit: 3, delete: false }, &[1, 0]);
}

/// "An empty packet is a packet"
#[test]
fn an_empty_packet() {
    let mut w = plain_world(1);
    gives(&mut w, Call::Add(vec![]), &[0]);
    gives(&mut w, Call::Has(0), &[1]);
    gives(&mut w, Call::Len(0), &[0]);
    gives(&mut w, Call::Read(0, 0), &[0]);
    gives(&mut w, Call::Part(0, 0), &[0, 0]);
    gives(&mut w, Call::Delete(0), &[]);
    gives(&mut w, Call::Has(0), &[0]);
}
