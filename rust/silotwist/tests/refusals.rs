//! Each of the twenty refusals, with its number and what it carries; and that nothing changed.
mod common;
use common::{at, packet, ping, setup, wrapped, Owned, SETUP};
use silotwist::{
    Margin, Packets, Refusal, RequestId, Scheduler, Setup, StoreAddr, Subpool, TcInfo, TimeWindow,
    UnixTime,
};

/// The scheduler after `before`, whose next call must refuse so and change nothing.
fn refuses<T: std::fmt::Debug>(
    setup: Setup, before: impl FnOnce(&mut Scheduler),
    call: impl FnOnce(&mut Scheduler) -> Result<T, Refusal>, number: u32, refusal: Refusal,
) {
    let mut owned = Owned::of(setup);
    let mut scheduler = owned.fresh(setup);
    before(&mut scheduler);
    let state = |s: &Scheduler| {
        let m = s.memory();
        (*m.record, m.store.to_vec(), m.lens.to_vec(), m.rows.to_vec())
    };
    let kept = state(&scheduler);
    assert_eq!(call(&mut scheduler).expect_err("a refusal"), refusal);
    assert_eq!(state(&scheduler), kept, "{refusal}");
    assert_eq!(refusal.number(), number);
    assert!(refusal.to_string().starts_with(&format!("{number} ")), "{refusal}");
}

fn nothing(_: &mut Scheduler) {}

/// Two pings, which fill the slots of 16 bytes.
fn two_pings(s: &mut Scheduler) {
    for sequence in 0..2 {
        assert!(s.insert_unwrapped_tc(at(110), &ping(2, sequence)).is_ok());
    }
}

#[test]
fn bad_setup() {
    let start = |subpools: &[(usize, usize)], entries| {
        let subpools = subpools.iter().map(|&(slots, slot_size)| Subpool { slots, slot_size });
        let setup = Setup::new(&subpools.collect::<Vec<_>>(), false, entries);
        let mut owned = Owned::of(setup);
        Scheduler::new(setup, owned.lend()).fresh_start(at(0), Margin::default())
    };
    let rising: Vec<(usize, usize)> = (1..=9).map(|size| (256, size)).collect();
    assert_eq!(start(&rising[..8], 4_096), Ok(()));
    assert_eq!(start(&[(256, 4_096)], 1), Ok(()));
    for (subpools, entries) in [
        (&rising[..8], 0),
        (&rising[..8], 4_097),
        (&rising, 1),
        (&[], 1),
        (&[(0, 1)], 1),
        (&[(257, 1)], 1),
        (&[(1, 0)], 1),
        (&[(1, 4_097)], 1),
        (&[(1, 2), (1, 2)], 1),
        (&[(1, 1), (256, 4_096)], 1),
    ] {
        assert_eq!(start(subpools, entries), Err(Refusal::BadSetup), "{subpools:?}, {entries}");
    }
    assert_eq!(Refusal::BadSetup.number(), 1);
}

#[test]
fn bad_buffers() {
    for short in 0..3 {
        let mut owned = Owned::of(SETUP);
        match short {
            0 => drop(owned.store.pop()),
            1 => drop(owned.lens.pop()),
            _ => drop(owned.rows.pop()),
        }
        let mut scheduler = Scheduler::new(SETUP, owned.lend());
        let answer = scheduler.fresh_start(at(0), Margin::default());
        assert_eq!(answer, Err(Refusal::BadBuffers));
        // the store's calls do not see the rows
        let added = scheduler.store().has_element_at(StoreAddr(0));
        assert_eq!(added, if short == 2 { Ok(true) } else { Err(Refusal::BadBuffers) });
    }
    assert_eq!(Refusal::BadBuffers.number(), 2);
}

#[test]
fn state_damaged() {
    let mut owned = Owned::of(SETUP);
    assert_eq!(owned.fresh(SETUP).count(), Ok(0));
    owned.lens[0] = 17;
    let mut scheduler = Scheduler::new(SETUP, owned.lend());
    assert_eq!(scheduler.count(), Err(Refusal::StateDamaged));
    assert_eq!(scheduler.store().add(&[]), Err(Refusal::StateDamaged));
    assert_eq!(scheduler.enable(), Ok(()), "it sees the record alone");
    owned.record[4] = 1_000_000_000;
    assert_eq!(Scheduler::new(SETUP, owned.lend()).disable(), Err(Refusal::StateDamaged));
    assert_eq!(owned.record[5], 1);
    assert_eq!(Refusal::StateDamaged.number(), 3);
}

#[test]
fn bad_time() {
    refuses(SETUP, nothing, |s| s.set_clock(at((1 << 42) + 1)), 4, Refusal::BadTime);
    refuses(
        SETUP,
        nothing,
        |s| s.fresh_start(at(0), Margin::new((1 << 31) + 1, 0)),
        4,
        Refusal::BadTime,
    );
    let late = UnixTime::new(0, 1_000_000_000);
    refuses(
        SETUP,
        nothing,
        |s| s.retrieve_by_time_filter(TimeWindow::To(late)).map(|_| ()),
        4,
        Refusal::BadTime,
    );
}

#[test]
fn wrapped_insertions() {
    let insert = |packet: Vec<u8>| move |s: &mut Scheduler| s.insert_wrapped_tc(&packet);
    let mut spoilt = wrapped(120, &ping(2, 1));
    spoilt[20] ^= 1;
    refuses(SETUP, nothing, insert(packet(2, 1, [3, 4], &[1])), 5, Refusal::WrongService(3));
    refuses(SETUP, nothing, insert(packet(2, 1, [11, 5], &[1])), 6, Refusal::WrongSubservice(5));
    refuses(SETUP, nothing, insert(packet(2, 1, [11, 4], &[])), 7, Refusal::TcDataEmpty);
    refuses(SETUP, nothing, insert(packet(2, 1, [11, 4], &[0x41; 20])), 8, Refusal::BadTimestamp);
    refuses(SETUP, nothing, insert(spoilt), 9, Refusal::TcUnreadable);
    refuses(SETUP, nothing, insert(wrapped(120, &[1, 2])), 9, Refusal::TcUnreadable);
    let nested = wrapped(120, &wrapped(120, &ping(2, 1)));
    refuses(SETUP, nothing, insert(nested), 10, Refusal::NestedScheduledTc);
}

#[test]
fn insertions() {
    let insert =
        |secs, packet: Vec<u8>| move |s: &mut Scheduler| s.insert_unwrapped_tc(at(secs), &packet);
    let long = packet(2, 1, [8, 1], &[0; 52]);
    assert_eq!(long.len(), 65);
    refuses(SETUP, nothing, insert(110, long), 11, Refusal::DataTooLarge(65));
    refuses(SETUP, two_pings, insert(110, ping(2, 2)), 12, Refusal::StoreFull(0));
    let late = Refusal::ReleaseTimeInTimeMargin {
        clock: at(100),
        margin: Margin::new(5, 0),
        release: at(104),
    };
    refuses(SETUP, nothing, insert(104, ping(2, 2)), 13, late);
    let before_1970 = Refusal::ReleaseTimeInTimeMargin {
        clock: at(-9),
        margin: Margin::new(5, 0),
        release: at(-5),
    };
    let set_back = |s: &mut Scheduler| assert_eq!(s.set_clock(at(-9)), Ok(()));
    refuses(SETUP, set_back, insert(-5, ping(2, 2)), 13, before_1970);
    let tc = TcInfo { request_id: RequestId(1), addr: StoreAddr::INVALID_ADDR };
    let stored = |s: &mut Scheduler| s.insert_unwrapped_and_stored_tc(at(110), tc);
    refuses(setup(2, 2), two_pings, stored, 14, Refusal::ScheduleFull);
}

#[test]
fn windows() {
    let window = TimeWindow::FromTo(at(2), at(1));
    refuses(SETUP, nothing, |s| s.delete_by_time_filter(window), 15, Refusal::ReversedWindow);
    refuses(
        SETUP,
        nothing,
        |s| s.retrieve_by_time_filter(window).map(|_| ()),
        15,
        Refusal::ReversedWindow,
    );
}

#[test]
fn addresses() {
    let subpool = StoreAddr(2 << 16);
    let slot = StoreAddr(1 << 16 | 1);
    refuses(SETUP, nothing, |s| s.store().has_element_at(subpool), 16, Refusal::InvalidSubpool(2));
    refuses(
        SETUP,
        nothing,
        |s| s.store().modify(StoreAddr::INVALID_ADDR),
        16,
        Refusal::InvalidSubpool(255),
    );
    refuses(SETUP, nothing, |s| s.store().len_of_data(slot), 17, Refusal::InvalidPacketIdx(1));
    let free = Refusal::DataDoesNotExist(StoreAddr(1));
    refuses(SETUP, nothing, |s| s.store().delete(StoreAddr(257)), 18, free);
    refuses(
        SETUP,
        nothing,
        |s| s.store().modify_part(StoreAddr(1)).map(|part| part.len()),
        18,
        free,
    );
    let small = Refusal::BufferTooSmall { found: 12, expected: 13 };
    refuses(SETUP, two_pings, |s| s.store().read(StoreAddr(0), &mut [0; 12]), 19, small);
}

/// Document 01's worked log: 42 bytes for one packet of 13.
#[test]
fn log_too_small() {
    let due = |s: &mut Scheduler| {
        two_pings(s);
        assert_eq!(s.set_clock(at(110)), Ok(()));
    };
    for (bytes, limit, needed) in [(0, 0, 8), (7, 1, 8), (41, 1, 42)] {
        let mut log = vec![0xA5; bytes];
        let tick = |s: &mut Scheduler| s.tick(&mut log, limit, Packets::Delete).map(|_| ());
        refuses(SETUP, due, tick, 20, Refusal::LogTooSmall(needed));
        assert!(log.iter().all(|&byte| byte == 0xA5));
    }
}
