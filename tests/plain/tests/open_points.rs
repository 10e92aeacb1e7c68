//! The readings taken where document 01 is silent, as far as no other test has them.
mod common;
use common::{fresh, gives, plain_world, refuses};
use driver::call::{Call, Ends};
use driver::packets::{ping, short_stamp, wrap};
use driver::world::World;
use plain::{row_secs, Packet, Reading};

const ALL: Ends = Ends { has_from: false, from: (0, 0), has_to: false, to: (0, 0) };

/// Bytes after the outer total are no user data; those after the inner total are stored.
#[test]
fn bytes_after_either_total() {
    let mut w = fresh(&[(1, 15)], false, 2, (0, 0), (0, 0));
    let inner = [ping(1, 1), vec![0xAA, 0xBB]].concat();
    let request = [wrap(&short_stamp(4_383, 0), &inner), vec![0xCC; 40]].concat();
    gives(&mut w, Call::Wrapped(request), &[0, 1 << 16 | 1]);
    gives(&mut w, Call::Read(0, 15), &[15]);
    assert_eq!(w.buffer, inner);
}

/// "counts as 1,048,576; later bytes are never touched"
#[test]
fn a_log_of_more_than_a_mebibyte() {
    let mut w = fresh(&[(1, 4096)], false, 300, (0, 0), (0, 0));
    gives(&mut w, Call::Add(vec![3; 4096]), &[0]);
    (0..300).for_each(|id| gives(&mut w, Call::Stored((0, 0), id, 0), &[]));
    let held = (1_048_576 - 8) / (21 + 4096);
    let tick = Call::Tick { log: 1_048_576 + 5_000, limit: 300, delete: false };
    gives(&mut w, tick, &[held, 300 - held]);
    assert!(World::untouched(&w.buffer, 8 + held as usize * 4117));
}

/// "what a caller writes is at most the packet's length"
#[test]
fn the_part_that_is_lent() {
    let mut w = fresh(&[(2, 8), (2, 16)], false, 1, (0, 0), (0, 0));
    gives(&mut w, Call::Add(vec![1; 9]), &[65_536]);
    gives(&mut w, Call::Add(vec![2; 10]), &[65_537]);
    gives(&mut w, Call::Modify(65_537), &[10]);
    gives(&mut w, Call::Part(65_537, 0), &[32, 10]);
    gives(&mut w, Call::Read(65_537, 10), &[10]);
    assert_eq!(w.buffer, [2, 3, 0, 1, 6, 7, 4, 5, 10, 11]);
}

/// In the log and from the deletion by ID.
#[test]
fn addresses_as_inserted() {
    let odd = 1 << 40 | 0xAB00;
    let mut w = plain_world(1);
    gives(&mut w, Call::Add(vec![9]), &[0]);
    gives(&mut w, Call::Stored((0, 0), 1, odd), &[]);
    gives(&mut w, Call::Tick { log: 99, limit: 1, delete: false }, &[1, 0]);
    assert_eq!(w.buffer[12], 1, "it names slot 0");
    assert_eq!(w.buffer[21..29], odd.to_be_bytes());
    gives(&mut w, Call::Stored((0, 0), 1, odd), &[]);
    gives(&mut w, Call::DeleteByIdKeep(1), &[1, odd]);
    gives(&mut w, Call::Stored((0, 0), 1, odd + 1), &[]);
    gives(&mut w, Call::DeleteById(1), &[1, 0, 17, 1]);
}

/// "only rows that a removal vacated hold zeros; other rows past count stay as they are"
#[test]
fn vacated_rows() {
    let mut w = fresh(&[(1, 8)], false, 4, (0, 0), (0, 0));
    (1..4).for_each(|id| gives(&mut w, Call::Stored((5, 0), id, 7), &[]));
    w.rows[12..16].fill(0xABCD);
    gives(&mut w, Call::DeleteByIdKeep(2), &[1, 7]);
    assert_eq!(w.rows[..8], [row_secs(5), 0, 1, 7, row_secs(5), 0, 3, 7]);
    assert_eq!(w.rows[8..16], [0, 0, 0, 0, 0xABCD, 0xABCD, 0xABCD, 0xABCD]);
    gives(&mut w, Call::DeleteWindow(ALL), &[0, 2, 17, 7]);
    assert_eq!(w.rows[..16], [vec![0; 12], vec![0xABCD; 4]].concat());
}

/// "flag 2 counts in m and against the limit"; only packets handed out are deleted.
#[test]
fn what_a_tick_deletes() {
    let mut w = fresh(&[(3, 16)], false, 4, (0, 0), (0, 0));
    gives(&mut w, Call::Stored((0, 0), 1, 65_536), &[]);
    gives(&mut w, Call::Unwrapped((0, 0), ping(1, 1)), &[0, 1 << 16 | 1]);
    gives(&mut w, Call::Unwrapped((0, 0), ping(1, 2)), &[1, 1 << 16 | 2]);
    gives(&mut w, Call::Tick { log: 400, limit: 2, delete: true }, &[2, 1]);
    assert_eq!((w.buffer[16], w.buffer[33]), (2, 1));
    gives(&mut w, Call::Has(0), &[0]);
    gives(&mut w, Call::Has(1), &[1]);
}

/// "bytes of a slot behind an added packet: unchanged"
#[test]
fn behind_an_added_packet() {
    let mut w = plain_world(1);
    w.store[..64].fill(0xEE);
    gives(&mut w, Call::Add(vec![1, 2, 3]), &[0]);
    assert_eq!(w.store[..64], [vec![1, 2, 3], vec![0xEE; 61]].concat());
    gives(&mut w, Call::Delete(0), &[]);
    assert_eq!(w.store[..64], [0; 64]);
}

/// "seconds and nanoseconds are bounded separately"
#[test]
fn the_last_time_and_the_largest_margin() {
    let last = (1 << 42, 999_999_999);
    let mut w = fresh(&[(1, 1)], false, 2, last, (0, 0));
    gives(&mut w, Call::Stored(last, 1, 0), &[]);
    gives(&mut w, Call::Tick { log: 99, limit: 1, delete: true }, &[1, 0]);
    let mut w = fresh(&[(1, 1)], false, 2, last, (1 << 31, 999_999_999));
    let values = [1 << 42, 999_999_999, 1 << 31, 999_999_999, 1 << 42, 999_999_999];
    refuses(&mut w, Call::Stored(last, 1, 0), 13, &values);
}

/// "any 64 bits"
#[test]
fn request_ids() {
    let mut w = plain_world(1);
    gives(&mut w, Call::Stored((0, 0), u64::MAX, 0), &[]);
    gives(&mut w, Call::DeleteByIdKeep((1 << 48) - 1), &[0]);
    gives(&mut w, Call::Tick { log: 99, limit: 1, delete: false }, &[1, 0]);
    assert_eq!(w.buffer[13..21], [0xFF; 8]);
}

/// Only the separate answer tells an unreadable packet from one without user data.
#[test]
fn unreadable_or_without_data() {
    assert_eq!(Packet::read(&[], Reading::default()), None);
    let p = ping(1, 1);
    assert_eq!(Packet::read(&p, Reading::default()).map(|r| r.user_data.len()), Some(0));
}

/// A call writes only the record's words that it changes: an enabled word of any kind stays.
#[test]
fn the_enabled_word() {
    let mut w = plain_world(1);
    w.record[5] = 7;
    gives(&mut w, Call::Stored((0, 0), 1, 0), &[]);
    gives(&mut w, Call::Tick { log: 99, limit: 1, delete: false }, &[1, 0]);
    gives(&mut w, Call::SetClock((1, 0)), &[]);
    assert_eq!(w.record[..6], [0, 1, 0, 0, 0, 7]);
    gives(&mut w, Call::Reset, &[0, 0, 0]);
    assert_eq!(w.record[5], 0);
    gives(&mut w, Call::Enable, &[]);
    assert_eq!(w.record[5], 1);
}
