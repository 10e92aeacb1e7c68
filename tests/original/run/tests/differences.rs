//! Where the original differs from document 01, each with its smallest input: what the original does, and what the
//! plain reading of 01 does. The numbers are those of docs/DIFFERENCES.md.
mod both;
use both::{at, p, q, Both, ALL};
use driver::call::{Call, Ends};
use driver::packets::{long_stamp, packet, short_stamp, wrap, Fields};
use driver::world::World;
use original::lines::app_data;
use original::run::{Mode, Window};
use satrs::pool::{PoolError, PoolProvider, StoreIdError};
use std::panic::{catch_unwind, AssertUnwindSafe};

/// P's request ID.
const ID: u64 = 1 << 16 | 1;

#[test]
fn difference_1_a_late_insertion_loses_its_slot() {
    let mut b = Both::new(&[(1, 16)], (100, 0), (5, 0));
    let refused = [100, 0, 5, 0, 104, 999_999_999];
    assert_eq!(b.original.unwrapped(at(104, 999_999_999), &p()).values, refused);
    b.plain(Call::Unwrapped((104, 999_999_999), p()), 13, &refused);
    assert_eq!(b.original.has(0).values, [1]);
    b.plain(Call::Has(0), 0, &[0]);
    let next = b.original.unwrapped(at(105, 0), &p());
    assert_eq!((next.number, next.values), (12, vec![0]));
    b.plain(Call::Unwrapped((105, 0), p()), 0, &[0, ID]);
    b.original.reset();
    assert_eq!(b.original.has(0).values, [1], "reset does not recover it");
}

#[test]
fn difference_1_a_late_stored_insertion_leaves_no_trace() {
    let mut b = Both::new(&[(1, 16)], (100, 0), (5, 0));
    assert_eq!(b.original.stored(at(104, 0), 1, 0).number, 13);
    assert_eq!((b.original.count(), b.original.taken().count()), (0, 0));
}

#[test]
fn difference_2_a_missing_packet_stops_the_release() {
    for enabled in [true, false] {
        let mut b = Both::new(&[(1, 16)], (0, 0), (0, 0));
        b.enable(enabled);
        b.stored(0, 7, 0);
        let release = b.original.release(Mode::Delete);
        let stop = release.stopped.expect("a stop");
        assert_eq!((stop.number, stop.values), (18, vec![0]));
        assert_eq!((release.handed, release.left, b.original.count()), (0, 1, 1));
        b.tick(true, &[1, 0]);
        assert_eq!(b.flags(), [2]);
        b.plain(Call::Count, 0, &[0]);
    }
}

#[test]
fn difference_2_two_entries_at_one_slot() {
    let mut b = Both::new(&[(1, 16)], (0, 0), (0, 0));
    b.unwrapped(0, &p());
    b.stored(0, 7, 0);
    let release = b.original.release(Mode::Delete);
    assert_eq!((release.handed, release.left, b.original.count()), (1, 2, 2));
    assert_eq!(release.stopped.map(|s| s.number), Some(18));
    assert_eq!(b.original.has(0).values, [0], "P is gone, its entry stays");
    b.tick(true, &[2, 0]);
    assert_eq!(b.flags(), [1, 2]);
}

#[test]
fn difference_3_keep_mode_hands_out_again() {
    let mut b = Both::new(&[(2, 16)], (0, 0), (0, 0));
    b.unwrapped(0, &p());
    b.stored(0, 7, 1);
    for _ in 0..3 {
        let release = b.original.release(Mode::NoDeletionCut(16));
        assert_eq!(release.records.iter().map(|h| h.id).collect::<Vec<_>>(), [ID]);
        assert_eq!(release.left, 2);
    }
    b.tick(false, &[2, 0]);
    assert_eq!(b.flags(), [1, 2]);
    b.tick(false, &[0, 0]);
}

#[test]
fn difference_4_a_slot_reused_after_a_stop() {
    let mut b = Both::new(&[(2, 16)], (0, 0), (0, 0));
    b.unwrapped(0, &p());
    b.stored(0, 7, 1);
    b.original.release(Mode::Delete);
    b.tick(true, &[2, 0]);
    b.unwrapped(9, &q());
    let release = b.original.release(Mode::Delete);
    assert_eq!((release.records[0].id, &release.records[0].bytes), (ID, &q()));
    assert_eq!(b.original.has(0).values, [0], "q is gone, nine seconds early and under P's ID");
    b.tick(true, &[0, 0]);
    b.plain(Call::Has(0), 0, &[1]);
}

#[test]
fn difference_5_a_packet_that_comes_after_a_stop() {
    let mut b = Both::new(&[(1, 16)], (0, 0), (0, 0));
    b.stored(0, 7, 0);
    b.original.release(Mode::Delete);
    b.tick(true, &[1, 0]);
    assert_eq!(b.original.add(&[0x5A, 0xA5]).values, [0]);
    b.plain(Call::Add(vec![0x5A, 0xA5]), 0, &[0]);
    let release = b.original.release(Mode::Delete);
    assert_eq!((release.records[0].id, &release.records[0].bytes[..]), (7, &[0x5A, 0xA5][..]));
    b.tick(true, &[0, 0]);
    b.plain(Call::Has(0), 0, &[1]);
}

#[test]
fn difference_6_an_empty_vector_stays() {
    let mut b = Both::new(&[(1, 16)], (0, 0), (0, 0));
    b.stored(0, 7, 0);
    assert_eq!(b.original.delete_by_id_keep(7).values, [1, 0]);
    b.plain(Call::DeleteByIdKeep(7), 0, &[1, 0]);
    assert_eq!(b.original.vectors(Window::All), (1, 1), "one vector, empty");
    assert_eq!(b.original.count(), 0);
    b.plain(Call::Window(ALL), 0, &[0, 0]);
}

#[test]
fn difference_7_a_reversed_window() {
    let mut b = Both::new(&[(1, 16)], (0, 0), (0, 0));
    let reversed = Window::FromTo(at(2, 0), at(1, 0));
    let panics = |b: &mut Both| {
        catch_unwind(AssertUnwindSafe(|| b.original.covered(reversed).len())).is_err()
    };
    let ends = Ends { has_from: true, from: (2, 0), has_to: true, to: (1, 0) };
    assert!(!panics(&mut b), "a map never filled");
    b.plain(Call::Window(ends), 15, &[]);
    b.stored(0, 7, 0);
    assert!(panics(&mut b), "one entry");
    b.plain(Call::Window(ends), 15, &[]);
    b.original.delete_all();
    assert_eq!(b.original.count(), 0);
    assert!(panics(&mut b), "emptied by a deletion");
    b.original.reset();
    assert!(!panics(&mut b), "emptied by reset");
    b.original.add(&p());
    b.original.stored(at(0, 0), 7, 0);
    assert_eq!(b.original.release(Mode::Delete).handed, 1);
    assert!(panics(&mut b), "emptied by a release");
    b.plain(Call::Reset, 0, &[0, 1, 18, 0]);
    b.plain(Call::Window(ends), 15, &[]);
}

#[test]
fn difference_8_the_long_stamp() {
    let mut b = Both::new(&[(2, 16)], (0, 0), (0, 0));
    let long = wrap(&long_stamp(4_383, 0), &p());
    let short = wrap(&short_stamp(4_383, 0), &p());
    assert_eq!(b.original.wrapped(&long, false).number, 8);
    assert_eq!(b.original.wrapped(&long, true).number, 8);
    b.plain(Call::Wrapped(long), 0, &[0, ID]);
    let by_long_call = b.original.wrapped(&short, true);
    assert_eq!((by_long_call.number, by_long_call.values), (0, vec![0, ID]));
}

#[test]
fn difference_9_the_read_buffer() {
    let mut b = Both::new(&[(2, 20)], (0, 0), (0, 0));
    let long = packet(&Fields { data: vec![1, 2, 3, 4, 5, 6, 7], ..both::fields() });
    b.unwrapped(0, &long);
    b.unwrapped(0, &p());
    let small = b.original.release(Mode::Buffer(19));
    let stop = small.stopped.expect("a stop");
    assert_eq!((stop.number, stop.values, b.original.count()), (19, vec![19, 20], 2));
    let release = b.original.release(Mode::Buffer(22));
    let tail = [&long[13..], &[0xEE; 2]].concat();
    assert_eq!(release.records[1].bytes, [p(), tail].concat(), "the packet before shows");
    b.tick(true, &[2, 0]);
    assert_eq!(b.world.buffer[16 + 37 + 17..][..13], p());
    assert_eq!(b.world.buffer[7], 16 + 37 + 30);
}

#[test]
fn difference_10_no_bound_on_entries() {
    let mut b = Both::new(&[(1, 16)], (0, 0), (0, 0));
    for _ in 0..4_097 {
        assert_eq!(b.original.stored(at(0, 0), 7, 0).number, 0);
    }
    assert_eq!(b.original.count(), 4_097);
    b.world = World::of(&[(1, 16)], 0, 1, 0);
    b.plain(Call::Fresh((0, 0), (0, 0)), 0, &[]);
    b.plain(Call::Stored((0, 0), 7, 0), 0, &[]);
    b.plain(Call::Stored((0, 0), 7, 0), 14, &[]);
}

#[test]
fn difference_11_setups() {
    let kept = |pools: &[(u64, u64)]| {
        let fresh = both::run(pools, (0, 0), (0, 0)).subpools;
        let mut world = World::of(pools, 0, 1, 0);
        both::expect(&mut world, Call::Fresh((0, 0), (0, 0)), 1, &[]);
        fresh
    };
    assert_eq!(kept(&[(1, 16), (0, 8)]), [(1, 16)], "one without slots is dropped");
    assert_eq!(kept(&[(1, 16), (1, 8)]), [(1, 8), (1, 16)], "sorted");
    assert_eq!(kept(&[(1, 8), (1, 8)]), [(1, 8), (1, 8)]);
    assert_eq!(kept(&[(1, 0)]), [(1, 0)]);
    assert_eq!(kept(&[]), []);
    assert_eq!(kept(&[(257, 1)]), [(257, 1)]);
}

#[test]
fn difference_11_the_257th_slot() {
    let mut run = both::run(&[(257, 1)], (0, 0), (0, 0));
    for i in 0..257u64 {
        assert_eq!(run.add(&[i as u8 ^ 0x55]).values, [i]);
    }
    assert_eq!(run.packet(256), [0x55], "the last address reads slot 0");
    assert_eq!(run.delete(256).number, 0);
    assert_eq!(run.has(0).values, [0], "and deletes it");
}

#[test]
fn difference_12_times_out_of_range() {
    let mut b = Both::new(&[(1, 16)], (0, 0), (0, 0));
    assert_eq!(b.original.stored(at((1 << 42) + 1, 0), 7, 0).number, 0);
    b.plain(Call::Stored(((1 << 42) + 1, 0), 7, 0), 4, &[]);
}

#[test]
fn difference_13_shapes() {
    let mut b = Both::new(&[(1, 16)], (0, 0), (0, 0));
    let refused = b.original.pool.delete(0xFFFF_0001_0000);
    let carried = PoolError::InvalidStoreId(StoreIdError::InvalidSubpool(1), Some(65_536));
    assert_eq!(refused, Err(carried), "the original also carries the address");
    b.plain(Call::Delete(0xFFFF_0001_0000), 16, &[1]);
    b.stored(1, 7, 10);
    b.stored(1, 7, 11);
    assert_eq!(b.original.delete_by_id_keep(7).values, [1, 11], "its comment says the first");
    b.plain(Call::DeleteByIdKeep(7), 0, &[1, 11]);
}

/// The closure decides packet by packet; document 01's caller says keep or delete once.
#[test]
fn difference_13_a_closure_that_answers_false() {
    let mut b = Both::new(&[(2, 16)], (0, 0), (0, 0));
    b.unwrapped(0, &p());
    let release = b.original.release(Mode::ClosureFalse);
    assert_eq!((release.handed, release.left, b.original.has(0).values), (1, 0, vec![1]));
    b.tick(false, &[1, 0]);
    b.plain(Call::Has(0), 0, &[1]);
}

#[test]
fn difference_14_the_count_in_front() {
    let mut b = Both::new(&[(1, 16)], (0, 0), (0, 0));
    let data = app_data(&short_stamp(4_383, 0), &p());
    assert_eq!(data[..3], [0, 1, 0x40]);
    let request = packet(&Fields { service: 11, subservice: 4, data, ..both::fields() });
    assert_eq!(b.original.wrapped(&request, false).number, 8);
    b.plain(Call::Wrapped(request), 8, &[]);
}
