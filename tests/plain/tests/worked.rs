//! The worked lines of document 01, line by line, and the published check-code vectors.
mod common;
use common::{fresh, gives, hex, refuses};
use driver::call::Call;
use driver::packets::{long_stamp, packet, ping, seal, short_stamp, wrap, Fields};
use driver::world::World;
use plain::{check_code, decode, encode, read_stamp, Packet, Reading, Time, INVALID_ADDR};

fn stamp(bytes: &[u8]) -> Option<Time> {
    read_stamp(bytes, Reading::default()).map(|(time, length)| {
        assert_eq!(length, bytes.len());
        time
    })
}

/// P = 18 02 C0 11 00 06 2F 11 01 00 00 and its check bytes
fn p() -> Vec<u8> {
    let mut p = hex("18 02 C0 11 00 06 2F 11 01 00 00 00 00");
    seal(&mut p);
    p
}

#[test]
fn stamps() {
    let at = |secs, nanos| Some(Time { secs, nanos });
    assert_eq!(stamp(&short_stamp(4_383, 0)), at(0, 0));
    assert_eq!(stamp(&short_stamp(0, 0)), at(-378_691_200, 0));
    assert_eq!(stamp(&short_stamp(4_383, 1_500)), at(1, 500_000_000));
    assert_eq!(stamp(&long_stamp(16_777_215, 0)), at(1_449_172_684_800, 0));
    assert_eq!(stamp(&short_stamp(4_383, 86_400_000)), None);
    assert_eq!(stamp(&long_stamp(4_383, 86_400_000)), None);
    assert_eq!(stamp(&short_stamp(4_383, 86_399_999)), at(86_399, 999_000_000));
}

/// "Other first bytes, short input"
#[test]
fn stamps_refused() {
    for first in (0..=255).filter(|b| ![0x40, 0x44].contains(b)) {
        assert_eq!(read_stamp(&[first, 0, 0, 0, 0, 0, 0, 0], Reading::default()), None);
    }
    for length in 0..7 {
        assert_eq!(read_stamp(&short_stamp(1, 1)[..length], Reading::default()), None);
    }
    for length in 0..8 {
        assert_eq!(read_stamp(&long_stamp(1, 1)[..length], Reading::default()), None);
    }
}

#[test]
fn margin_of_five_seconds() {
    let mut w = fresh(&[(4, 64)], false, 9, (100, 0), (5, 0));
    gives(&mut w, Call::Unwrapped((105, 0), ping(1, 1)), &[0, 1 << 16 | 1]);
    let early = Call::Unwrapped((104, 999_999_999), ping(1, 1));
    refuses(&mut w, early, 13, &[100, 0, 5, 0, 104, 999_999_999]);
}

#[test]
fn margin_with_a_carry() {
    let mut w = fresh(&[(4, 64)], false, 9, (0, 600_000_000), (0, 500_000_000));
    gives(&mut w, Call::Stored((1, 100_000_000), 0, 0), &[]);
    let early = Call::Stored((1, 99_999_999), 0, 0);
    refuses(&mut w, early, 13, &[0, 600_000_000, 0, 500_000_000, 1, 99_999_999]);
}

#[test]
fn addresses() {
    assert_eq!(encode(1, 3), 65_539);
    assert_eq!(decode(65_539, Reading::default()), (1, 3));
    assert_eq!(decode(256, Reading::default()), (0, 0));
    assert_eq!(decode(u64::MAX, Reading::default()), (255, 255));
    assert_eq!(INVALID_ADDR, 4_294_967_295);
}

#[test]
fn check_codes() {
    assert_eq!(check_code(b"123456789"), 0x29B1);
    assert_eq!(check_code(&hex("00 00")), 0x1D0F);
    assert_eq!(check_code(&hex("00 00 00")), 0xCC9C);
    assert_eq!(check_code(&hex("AB CD EF 01")), 0x04A2);
    assert_eq!(check_code(&hex("14 56 F8 9A 00 01")), 0x7FD5);
}

#[test]
fn the_log_of_one_packet() {
    let mut w = fresh(&[(2, 16)], false, 4, (0, 0), (0, 0));
    gives(&mut w, Call::Add(vec![]), &[0]);
    gives(&mut w, Call::Unwrapped((1, 0), p()), &[1, 0x2_0011]);
    gives(&mut w, Call::SetClock((1, 0)), &[]);
    let tick = |log| Call::Tick { log, limit: 1, delete: true };
    refuses(&mut w, tick(41), 20, &[42]);
    gives(&mut w, tick(50), &[1, 0]);
    let head = "00 00 00 01, 00 00 00 2A, 00 00 00 0C";
    let record = "01, 00 00 00 00 00 02 00 11, 00 00 00 00 00 00 00 01";
    let log = [hex(head), hex(record), p()].concat();
    assert_eq!(log.len(), 42);
    assert_eq!(w.buffer[..42], log);
    assert!(World::untouched(&w.buffer, 42), "bytes from T on stay");
    gives(&mut w, Call::Has(1), &[0]);
    gives(&mut w, Call::Count, &[0]);
}

/// "Spilling against demand 3."
#[test]
fn spilling() {
    let run = |slots: u64| {
        let mut w = fresh(&[(slots, 16), (1, 32), (1, 64)], true, 1, (0, 0), (0, 0));
        let mut add = |n: usize| {
            assert_eq!(Call::Add(vec![1; n]).on(&driver::Compared::default(), &mut w), 0);
            w.answer[0]
        };
        let (_a, r, q) = (add(16), add(16), add(32));
        gives(&mut w, Call::Delete(r), &[]);
        assert_eq!(Call::Add(vec![2; 32]).on(&driver::Compared::default(), &mut w), 0);
        gives(&mut w, Call::Delete(q), &[]);
        w
    };
    gives(&mut run(1), Call::Add(vec![3; 64]), &[131_072]);
    refuses(&mut run(2), Call::Add(vec![3; 64]), 12, &[2]);
}

/// "user data runs from byte 11 to total - 2", in either width and with bytes after the total
#[test]
fn packets() {
    let fields = Fields {
        apid: 0x7FF,
        sequence: 0x3FFF,
        flags: 0,
        acks: 5,
        service: 200,
        subservice: 201,
        source: 0xBEEF,
        data: vec![1, 2, 3],
        trailing: vec![9, 9],
    };
    let bytes = packet(&fields);
    let read = Packet::read(&bytes, Reading::default()).expect("readable");
    assert_eq!((read.apid, read.sequence_count, read.source_id), (0x7FF, 0x3FFF, 0xBEEF));
    assert_eq!((read.service, read.subservice, read.user_data), (200, 201, &bytes[11..14]));
    assert_eq!(read.request_id(), 0xBEEF_07FF_3FFF);
    for length in 0..16 {
        assert_eq!(Packet::read(&bytes[..length], Reading::default()), None);
    }
}

/// Either width: the first byte of the stamp decides.
#[test]
fn wrapped_by_either_stamp() {
    let mut w = fresh(&[(4, 64)], false, 9, (0, 0), (0, 0));
    let inner = ping(1, 1);
    gives(&mut w, Call::Wrapped(wrap(&short_stamp(4_384, 7), &inner)), &[0, 1 << 16 | 1]);
    gives(&mut w, Call::Wrapped(wrap(&long_stamp(4_384, 7), &inner)), &[1, 1 << 16 | 1]);
    assert_eq!(w.rows[..2], w.rows[4..6]);
    assert_eq!(w.rows[..2], [plain::row_secs(86_400), 7_000_000]);
}
