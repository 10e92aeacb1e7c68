//! Every call once or more, carried out: its answer and what it leaves.
mod common;
use common::{at, ping, setup, wrapped, Owned, SETUP};
use silotwist::{
    Entry, Flag, Freed, LogRecord, Margin, Packets, Refusal, RequestId, Scheduler, Setup, Store,
    StoreAddr, Subpool, Tally, TcInfo, TimeWindow, UnixTime, FREE,
};

const fn id(apid: u64, sequence: u64) -> RequestId {
    RequestId(apid << 16 | sequence)
}

const fn tc(request_id: RequestId, addr: u64) -> TcInfo {
    TcInfo { request_id, addr: StoreAddr(addr) }
}

#[test]
fn sizes_of_a_setup() {
    assert_eq!((SETUP.store_bytes(), SETUP.slots(), SETUP.row_words()), (96, 3, 16));
}

#[test]
fn request_id_of_a_packet() {
    let id = RequestId(0xBEEF_07FF_3FFF);
    assert_eq!((id.source_id(), id.apid(), id.seq_count()), (0xBEEF, 0x7FF, 0x3FFF));
}

#[test]
fn store_calls() {
    let mut bytes = vec![0xA5; SETUP.store_bytes() + 1];
    let mut lens = vec![FREE; SETUP.slots() + 1];
    let mut store = Store::new(SETUP, &mut bytes, &mut lens);
    assert_eq!(store.add(&[1, 2, 3]), Ok(StoreAddr(0)));
    assert_eq!(store.add(&[]), Ok(StoreAddr(1)));
    assert_eq!(store.add(&[9; 20]), Ok(StoreAddr(65_536)));

    let mut buffer = [7; 5];
    assert_eq!(store.read(StoreAddr(0), &mut buffer), Ok(3));
    assert_eq!(buffer, [1, 2, 3, 7, 7]);

    assert_eq!(store.modify(StoreAddr(65_536)), Ok(20));
    let part = store.modify_part(StoreAddr(65_536)).expect("a packet");
    assert_eq!(part, [9; 20]);
    part[19] = 8;
    let mut buffer = [0; 20];
    assert_eq!(store.read(StoreAddr(65_536), &mut buffer), Ok(20));
    assert_eq!((buffer[18], buffer[19]), (9, 8));
    assert_eq!(store.modify_part(StoreAddr(1)), Ok(&mut [][..]));

    assert_eq!(store.has_element_at(StoreAddr(1)), Ok(true));
    assert_eq!(store.len_of_data(StoreAddr(1)), Ok(0));
    assert_eq!(store.delete(StoreAddr(1)), Ok(()));
    assert_eq!(store.has_element_at(StoreAddr(1)), Ok(false));
    assert_eq!(store.delete(StoreAddr(0)), Ok(()));
    assert_eq!(store.len_of_data(StoreAddr(0)), Ok(0));
    assert_eq!(lens, [FREE, FREE, 20, FREE]);
    assert_eq!(bytes[..32], [0; 32], "a deletion zeroes the whole slot");
    assert_eq!((bytes[51], bytes[52], bytes[96]), (8, 0xA5, 0xA5));
}

#[test]
fn fresh_start_and_record() {
    let mut owned = Owned::of(SETUP);
    owned.store.fill(1);
    let mut scheduler = owned.fresh(SETUP);
    assert_eq!(scheduler.memory().record, &[0, 100, 0, 5, 0, 1]);
    assert!(scheduler.memory().store.iter().all(|&byte| byte == 0));
    assert_eq!(*scheduler.memory().lens, [FREE; 3]);
    assert_eq!(scheduler.disable(), Ok(()));
    assert!(!scheduler.is_enabled());
    assert_eq!(scheduler.enable(), Ok(()));
    assert!(scheduler.is_enabled());
    assert_eq!(scheduler.set_clock(at(-7)), Ok(()));
    assert_eq!(scheduler.memory().record[1] as i64, -7);
    assert_eq!(scheduler.count(), Ok(0));
}

#[test]
fn insertions_and_windows() {
    let mut owned = Owned::of(SETUP);
    let mut scheduler = owned.fresh(SETUP);
    assert_eq!(scheduler.insert_wrapped_tc(&wrapped(120, &ping(2, 1))), Ok(tc(id(2, 1), 0)));
    assert_eq!(scheduler.insert_unwrapped_tc(at(110), &ping(2, 2)), Ok(tc(id(2, 2), 1)));
    assert_eq!(scheduler.insert_unwrapped_and_stored_tc(at(105), tc(RequestId(5), 300)), Ok(()));
    assert_eq!(scheduler.count(), Ok(3));

    let entry = |secs, tc| Entry { release: at(secs), tc };
    let all = [
        entry(105, tc(RequestId(5), 300)),
        entry(110, tc(id(2, 2), 1)),
        entry(120, tc(id(2, 1), 0)),
    ];
    for (window, first, expected) in [
        (TimeWindow::All, 0, &all[..]),
        (TimeWindow::FromTo(at(110), at(120)), 1, &all[1..]),
        (TimeWindow::From(at(111)), 2, &all[2..]),
        (TimeWindow::To(at(110)), 0, &all[..2]),
        (TimeWindow::From(at(121)), 0, &[]),
    ] {
        let entries = scheduler.retrieve_by_time_filter(window).expect("entries");
        assert_eq!((entries.first(), entries.len()), (first, expected.len()), "{window:?}");
        assert_eq!(entries.collect::<Vec<_>>(), expected, "{window:?}");
    }
}

#[test]
fn deletions() {
    let mut owned = Owned::of(setup(4, 8));
    let mut scheduler = owned.fresh(setup(4, 8));
    for sequence in 0..4 {
        let tc = scheduler.insert_unwrapped_tc(at(110 + i64::from(sequence)), &ping(2, sequence));
        assert_eq!(tc.map(|tc| tc.addr), Ok(StoreAddr(sequence.into())));
    }
    assert_eq!(scheduler.delete_by_request_id(id(2, 0)), Ok(Some(StoreAddr(0))));
    assert_eq!(scheduler.delete_by_request_id(id(2, 0)), Ok(None));
    assert_eq!(scheduler.store().has_element_at(StoreAddr(0)), Ok(true));
    assert_eq!(scheduler.delete_by_request_id_and_from_pool(id(2, 1)), Ok(Freed::Deleted));
    assert_eq!(scheduler.delete_by_request_id_and_from_pool(id(2, 1)), Ok(Freed::NoMatch));

    let free = |addr| Refusal::DataDoesNotExist(StoreAddr(addr));
    assert_eq!(scheduler.store().delete(StoreAddr(2)), Ok(()));
    assert_eq!(scheduler.insert_unwrapped_and_stored_tc(at(120), tc(id(2, 9), 1)), Ok(()));
    assert_eq!(scheduler.delete_by_request_id_and_from_pool(id(2, 9)), Ok(Freed::Missing(free(1))));
    assert_eq!(
        scheduler.delete_by_time_filter(TimeWindow::FromTo(at(112), at(113))),
        Ok(Tally { deleted: 1, missing: 1, last: Some(free(2)) })
    );
    assert_eq!(scheduler.insert_unwrapped_and_stored_tc(at(120), tc(id(2, 0), 0)), Ok(()));
    assert_eq!(scheduler.reset(), Ok(Tally { deleted: 1, missing: 0, last: None }));
    assert!(!scheduler.is_enabled());
    assert_eq!(scheduler.count(), Ok(0));
}

#[test]
fn ticks() {
    let mut owned = Owned::of(setup(4, 8));
    let mut scheduler = owned.fresh(setup(4, 8));
    let packets: Vec<Vec<u8>> = (0..3).map(|sequence| ping(2, sequence)).collect();
    for packet in &packets {
        assert!(scheduler.insert_unwrapped_tc(at(110), packet).is_ok());
    }
    assert_eq!(scheduler.store().delete(StoreAddr(0)), Ok(()));
    let record = |flag, sequence: u64, packet| LogRecord {
        flag,
        request_id: id(2, sequence),
        addr: StoreAddr(sequence),
        packet,
    };
    let mut log = [0xA5; 128];

    let ticked = scheduler.tick(&mut log, 8, Packets::Delete).expect("nothing is due");
    assert!(ticked.log.is_empty());
    assert_eq!(ticked.log.bytes(), [0, 0, 0, 0, 0, 0, 0, 8]);

    assert_eq!(scheduler.set_clock(at(110)), Ok(()));
    let ticked = scheduler.tick(&mut log, 2, Packets::Delete).expect("two of three");
    assert_eq!((ticked.log.len(), ticked.still_due), (2, 1));
    let records = [record(Flag::Missing, 0, &[]), record(Flag::Released, 1, &packets[1])];
    assert!(ticked.log.into_iter().eq(records));
    assert_eq!(scheduler.store().has_element_at(StoreAddr(1)), Ok(false));
    assert_eq!(log[63..], [0xA5; 65], "bytes from T on stay");

    assert_eq!(scheduler.disable(), Ok(()));
    let ticked = scheduler.tick(&mut log, 2, Packets::Keep).expect("the third");
    assert!(ticked.log.records().eq([record(Flag::Discarded, 2, &packets[2])]));
    assert_eq!(ticked.still_due, 0);
    assert_eq!(scheduler.store().has_element_at(StoreAddr(2)), Ok(true));
    assert_eq!(scheduler.count(), Ok(0));
}

/// Document 01's worked line: the earliest release is 1 s 100,000,000 ns.
#[test]
fn nanoseconds() {
    let (earliest, early) = (UnixTime::new(1, 100_000_000), UnixTime::new(1, 99_999_999));
    let (clock, margin) = (UnixTime::new(0, 600_000_000), Margin::new(0, 500_000_000));
    let tc = tc(RequestId(1), 0);
    let mut owned = Owned::of(SETUP);
    let mut scheduler = Scheduler::new(SETUP, owned.lend());
    assert_eq!(scheduler.fresh_start(clock, margin), Ok(()));
    assert_eq!(
        scheduler.insert_unwrapped_and_stored_tc(early, tc),
        Err(Refusal::ReleaseTimeInTimeMargin { clock, margin, release: early })
    );
    assert_eq!(scheduler.insert_unwrapped_and_stored_tc(earliest, tc), Ok(()));
    let release = UnixTime::new(1, 100_000_001);
    assert_eq!(
        scheduler.insert_unwrapped_tc(release, &ping(2, 1)).map(|tc| tc.addr),
        Ok(StoreAddr(0))
    );
    let within = |window| {
        let entries = scheduler.retrieve_by_time_filter(window).expect("entries");
        entries.map(|entry| entry.release).collect::<Vec<_>>()
    };
    assert_eq!(within(TimeWindow::All), [earliest, release]);
    assert_eq!(within(TimeWindow::FromTo(early, earliest)), [earliest]);
    assert_eq!(within(TimeWindow::From(release)), [release]);
    let window = TimeWindow::FromTo(release, release);
    let deleted = Tally { deleted: 1, missing: 0, last: None };
    assert_eq!(scheduler.delete_by_time_filter(window), Ok(deleted));
    assert_eq!(scheduler.set_clock(early), Ok(()));
    let due = |s: &mut Scheduler| s.tick(&mut [0; 64], 1, Packets::Keep).map(|t| t.log.len());
    assert_eq!(due(&mut scheduler), Ok(0));
    assert_eq!(scheduler.set_clock(earliest), Ok(()));
    assert_eq!(due(&mut scheduler), Ok(1));
}

#[test]
fn spilling() {
    let subpools = [Subpool { slots: 1, slot_size: 16 }, Subpool { slots: 1, slot_size: 32 }];
    for (spilling, second) in [(true, Ok(StoreAddr(65_536))), (false, Err(Refusal::StoreFull(0)))] {
        let setup = Setup::new(&subpools, spilling, 1);
        let (mut bytes, mut lens) = ([0; 48], [FREE; 2]);
        let mut store = Store::new(setup, &mut bytes, &mut lens);
        assert_eq!(store.add(&[1; 16]), Ok(StoreAddr(0)));
        assert_eq!(store.add(&[2; 16]), second);
    }
}

/// What the memory holds is taken up by another scheduler.
#[test]
fn taken_up_again() {
    let mut owned = Owned::of(SETUP);
    assert!(owned.fresh(SETUP).insert_unwrapped_tc(at(105), &ping(1, 1)).is_ok());
    let scheduler = Scheduler::new(SETUP, owned.lend());
    assert_eq!(scheduler.count(), Ok(1));
}
