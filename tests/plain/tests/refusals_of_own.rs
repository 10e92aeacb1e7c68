//! The calls' own refusals, 5 to 20, each with its values, and their order.
mod common;
use common::{fresh, gives, plain_world, refuses};
use driver::call::{Call, Ends};
use driver::packets::{packet, ping, seal, short_stamp, wrap, Fields};

fn request(service: u8, subservice: u8, data: Vec<u8>) -> Vec<u8> {
    packet(&Fields {
        apid: 1,
        sequence: 1,
        flags: 3,
        acks: 0,
        service,
        subservice,
        source: 0,
        data,
        trailing: vec![],
    })
}

/// A request to insert `inner` one day after the clock's zero.
fn insert(inner: &[u8]) -> Call {
    Call::Wrapped(wrap(&short_stamp(4_384, 0), inner))
}

#[test]
fn outer_packet() {
    let mut w = plain_world(2);
    let mut spoilt = request(11, 4, vec![1]);
    spoilt[3] ^= 1;
    for bytes in [vec![], vec![0; 12], spoilt] {
        refuses(&mut w, Call::Wrapped(bytes), 9, &[]);
    }
    refuses(&mut w, Call::Wrapped(request(12, 5, vec![])), 5, &[12]);
    refuses(&mut w, Call::Wrapped(request(11, 5, vec![])), 6, &[5]);
    refuses(&mut w, Call::Wrapped(request(11, 4, vec![])), 7, &[]);
    for data in [vec![0x40], vec![0x41; 30], short_stamp(0, 86_400_000)] {
        refuses(&mut w, Call::Wrapped(request(11, 4, data)), 8, &[]);
    }
    refuses(&mut w, Call::Wrapped(request(11, 4, short_stamp(4_384, 0))), 9, &[]);
}

/// Each fault of a packet alone, the check code right.
#[test]
fn inner_packet() {
    let mut w = plain_world(2);
    let faults: [(usize, u8); 8] =
        [(0, 0x38), (0, 0x58), (0, 0x98), (0, 0x08), (0, 0x10), (5, 5), (5, 7), (6, 0x10)];
    for (at, byte) in faults {
        let mut p = ping(1, 1);
        p[at] = byte;
        let end = if (at, byte) == (5, 5) { 12 } else { 13 };
        seal(&mut p[..end]);
        refuses(&mut w, Call::Unwrapped((5, 0), p.clone()), 9, &[]);
        refuses(&mut w, insert(&p), 9, &[]);
    }
    let mut p = ping(1, 1);
    p[12] ^= 1;
    refuses(&mut w, Call::Unwrapped((5, 0), p), 9, &[]);
    refuses(&mut w, Call::Unwrapped((5, 0), vec![]), 9, &[]);
    refuses(&mut w, Call::Unwrapped((5, 0), request(11, 4, vec![])), 10, &[]);
    refuses(&mut w, insert(&request(11, 4, vec![])), 10, &[]);
    gives(&mut w, Call::Unwrapped((5, 0), request(11, 5, vec![])), &[0, 1 << 16 | 1]);
}

#[test]
fn room_for_the_packet() {
    let mut w = fresh(&[(1, 13), (1, 20)], false, 9, (0, 0), (0, 0));
    refuses(&mut w, Call::Add(vec![1; 21]), 11, &[21]);
    let long = request(17, 1, vec![0; 8]);
    refuses(&mut w, Call::Unwrapped((5, 0), long.clone()), 11, &[21]);
    refuses(&mut w, insert(&long), 11, &[21]);
    let padded = [ping(1, 1), vec![7; 8]].concat();
    refuses(&mut w, insert(&padded), 11, &[21]);
    let longest = request(17, 1, vec![0; 65_529]);
    refuses(&mut w, Call::Unwrapped((5, 0), longest), 11, &[65_542]);
    let inner = request(17, 1, vec![0; 65_509]);
    let Call::Wrapped(outer) = insert(&inner) else { unreachable!() };
    assert_eq!(outer.len(), 65_542);
    refuses(&mut w, Call::Wrapped(outer), 11, &[65_522]);
    gives(&mut w, Call::Unwrapped((5, 0), ping(1, 1)), &[0, 1 << 16 | 1]);
    refuses(&mut w, Call::Add(vec![1; 13]), 12, &[0]);
    refuses(&mut w, Call::Unwrapped((5, 0), ping(1, 1)), 12, &[0]);
    refuses(&mut w, insert(&ping(1, 1)), 12, &[0]);
    let mut w = fresh(&[(1, 13), (1, 20)], true, 9, (0, 0), (0, 0));
    gives(&mut w, insert(&padded[..20]), &[65_536, 1 << 16 | 1]);
    gives(&mut w, Call::Unwrapped((5, 0), ping(1, 1)), &[0, 1 << 16 | 1]);
    refuses(&mut w, Call::Unwrapped((5, 0), ping(1, 1)), 12, &[1]);
}

#[test]
fn margin_and_capacity() {
    let margin = |secs: u64| [secs, 0, 3, 0, 2, 0];
    let mut w = fresh(&[(3, 64)], false, 1, (0, 0), (3, 0));
    refuses(&mut w, Call::Unwrapped((2, 0), ping(1, 1)), 13, &margin(0));
    refuses(&mut w, Call::Stored((2, 0), 1, 0), 13, &margin(0));
    gives(&mut w, Call::SetClock((86_400, 0)), &[]);
    refuses(&mut w, insert(&ping(1, 1)), 13, &[86_400, 0, 3, 0, 86_400, 0]);
    gives(&mut w, Call::SetClock((-1, 0)), &[]);
    let early = [u64::MAX, 0, 3, 0, u64::MAX, 5];
    refuses(&mut w, Call::Stored((-1, 5), 1, 0), 13, &early);
    gives(&mut w, Call::Stored((2, 0), 7, 99), &[]);
    refuses(&mut w, Call::Stored((2, 0), 7, 99), 14, &[]);
    refuses(&mut w, Call::Unwrapped((2, 0), ping(1, 1)), 14, &[]);
    refuses(&mut w, insert(&ping(1, 1)), 14, &[]);
    refuses(&mut w, Call::Stored((1, 0), 7, 99), 13, &[u64::MAX, 0, 3, 0, 1, 0]);
}

#[test]
fn windows() {
    let mut w = plain_world(1);
    let ends = Ends { has_from: true, from: (1, 1), has_to: true, to: (1, 0) };
    refuses(&mut w, Call::Window(ends), 15, &[]);
    refuses(&mut w, Call::DeleteWindow(ends), 15, &[]);
    gives(&mut w, Call::Window(Ends { has_to: false, ..ends }), &[0, 0]);
    gives(&mut w, Call::DeleteWindow(Ends { has_from: false, ..ends }), &[0, 0, 0]);
}

#[test]
fn store_addresses() {
    let mut w = plain_world(2);
    gives(&mut w, Call::Add(vec![5; 4]), &[0]);
    let present = |a| vec![Call::Has(a), Call::Len(a)];
    let needing = |a| vec![Call::Read(a, 64), Call::Modify(a), Call::Part(a, 1), Call::Delete(a)];
    for call in [present(65_536), needing(65_536)].concat() {
        refuses(&mut w, call, 16, &[1]);
    }
    for call in [present(0xFF02), needing(0xFF02)].concat() {
        refuses(&mut w, call, 17, &[2]);
    }
    for call in needing(0xFF00_0101) {
        refuses(&mut w, call, 18, &[1]);
    }
    gives(&mut w, Call::Has(1), &[0]);
    gives(&mut w, Call::Len(1), &[0]);
    refuses(&mut w, Call::Read(0, 3), 19, &[3, 4]);
    refuses(&mut w, Call::Read(1, 0), 18, &[1]);
    gives(&mut w, Call::Read(256, 4), &[4]);
    assert_eq!(w.buffer, [5; 4]);
}

/// 20: with limit 0 or nothing due only for a log under 8 bytes.
#[test]
fn logs() {
    let mut w = plain_world(1);
    let tick = |log, limit| Call::Tick { log, limit, delete: false };
    gives(&mut w, tick(8, 1), &[0, 0]);
    assert_eq!(w.buffer, [0, 0, 0, 0, 0, 0, 0, 8]);
    for log in 0..8 {
        refuses(&mut w, tick(log, 0), 20, &[8]);
    }
    gives(&mut w, Call::Unwrapped((0, 0), ping(1, 1)), &[0, 1 << 16 | 1]);
    gives(&mut w, Call::Stored((0, 0), 2, 65_536), &[]);
    gives(&mut w, tick(8, 0), &[0, 2]);
    refuses(&mut w, tick(7, 1), 20, &[8]);
    refuses(&mut w, tick(41, 1), 20, &[42]);
    gives(&mut w, tick(62, 9), &[1, 1]);
    refuses(&mut w, tick(28, 1), 20, &[29]);
    gives(&mut w, tick(29, 1), &[1, 0]);
    assert_eq!(w.buffer[12], 2);
}
