//! Before anything is timed: both sides do the same, and the loops test the same.
use crate::loops::{in_order, in_order_by_128_bits, in_order_by_fours, within, within_counted};
use crate::original::Original;
use crate::packets;
use crate::plan::{self, Call, CALLS, SIZES};
use crate::this::This;
use spacepackets::ecss::tc::crc16;

fn same_calls() {
    for (call, name) in CALLS {
        for n in SIZES {
            let (mut this, mut original) = (This::new(call, n), Original::new(call, n));
            let before = this.entries();
            assert_eq!(before, original.entries(), "{name}, {n}");
            for _ in 0..2 {
                assert_eq!(this.make(), 0, "{name}, {n}");
                let done = original.make();
                assert_eq!(this.entries(), original.entries(), "{name}, {n}");
                assert_eq!(this.taken(), original.taken(), "{name}, {n}");
                assert_ne!(this.entries(), before, "{name}, {n}");
                match call {
                    Call::TickOne | Call::TickMany => {
                        assert_eq!(this.answer[0], done, "{name}, {n}");
                        assert_eq!(this.answer[0], plan::due(call, n) as u64, "{name}, {n}");
                        assert_eq!(this.records(), &original.records[..], "{name}, {n}");
                    }
                    Call::DeleteWindow | Call::DeleteAll => assert_eq!(this.answer[0], done),
                    Call::DeleteById => assert_eq!((this.answer[0], this.answer[1]), (1, done)),
                    Call::InsertStored | Call::InsertUnwrapped => assert_eq!(done, 1),
                }
                this.undo();
                original.undo();
                assert_eq!(this.entries(), before, "{name}, {n}");
                assert_eq!(original.entries(), before, "{name}, {n}");
                assert_eq!(this.taken(), original.taken(), "{name}, {n}");
            }
        }
    }
}

/// The library and the loops on the same tables.
fn judged(this: &mut This) -> u32 {
    let number = this.count();
    let by_loops = [
        this.judge(in_order, within),
        this.judge(in_order_by_128_bits, within),
        this.judge(in_order_by_fours, within_counted),
    ];
    for by_loop in by_loops {
        match by_loop {
            Ok(count) => assert_eq!((number, this.answer[0]), (0, count)),
            Err(refusal) => assert_eq!(number, refusal),
        }
    }
    number
}

type Damage = fn(&mut This);

fn same_judging() {
    const DAMAGES: [Damage; 10] = [
        |t| t.now.rows[4 * 15] = t.now.rows[4 * 14] - 1,
        |t| t.now.rows[4 * 15] = (1 << 43) + 1,
        |t| t.now.rows[4 * 15 + 1] = 1_000_000_000,
        |t| {
            t.now.rows[4 * 15] = t.now.rows[4 * 14];
            t.now.rows[4 * 15 + 1] = t.now.rows[4 * 14 + 1] - 1
        },
        |t| t.now.lens[255] = 89,
        |t| t.now.lens[0] = 65,
        |t| t.now.record[0] = 17,
        |t| t.now.record[1] = (1 << 42) + 1,
        |t| t.now.record[3] = (1 << 31) + 1,
        |t| t.now.record[4] = 1_000_000_000,
    ];
    let mut this = This::new(Call::DeleteAll, 16);
    assert_eq!(judged(&mut this), 0);
    for (i, damage) in DAMAGES.iter().enumerate() {
        damage(&mut this);
        assert_eq!(judged(&mut this), 3, "damage {i}");
        this.undo();
    }
    this.now.rows.pop();
    assert_eq!(judged(&mut this), 2);
    this.setup[4] = 72;
    assert_eq!(judged(&mut this), 1);
}

fn same_code() {
    let mut this = This::new(Call::InsertUnwrapped, 16);
    for length in (13..=64).chain([100, 1_026, 4_098, 65_536]) {
        let mut packet = nested(length);
        assert_eq!(packet[length - 2..], crc16(&packet[..length - 2]).to_be_bytes());
        assert_eq!(this.insert_unwrapped(&packet), 10);
        packet[length - 3] ^= 1;
        assert_eq!(this.insert_unwrapped(&packet), 9);
        packet[length - 3] ^= 1;
        packet[0] = 0;
        assert_eq!(this.insert_unwrapped(&packet), 9);
    }
}

/// A packet that is refused, and only after its check code was found right: it is of service 11, subservice 4.
pub fn nested(length: usize) -> Vec<u8> {
    let mut packet = plan::tc(0, length);
    (packet[7], packet[8]) = (11, 4);
    packets::seal(&mut packet);
    packet
}

pub fn assert_same() {
    same_calls();
    same_judging();
    same_code();
}
