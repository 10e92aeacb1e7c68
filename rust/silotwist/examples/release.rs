//! A scheduler in memory of its own. It inserts three commands and is refused a late one; then one packet is lost, and the
//! tick reports it as missing and releases what is behind it.
use silotwist::{
    Flag, Margin, Memory, Packets, Refusal, RequestId, Scheduler, Setup, Subpool, UnixTime,
};

/// 8 slots of 32 bytes and 4 of 64, no spilling, 16 entries.
const SETUP: Setup = Setup::new(
    &[Subpool { slots: 8, slot_size: 32 }, Subpool { slots: 4, slot_size: 64 }],
    false,
    16,
);

/// 2027-01-15 08:00:00 UTC
const START: i64 = 1_800_000_000;

/// As they come from the uplink: service 11, subservice 4 around a stamp (16-bit day or 24-bit day) and a command.
const PING_AT_60: &[u8] = &[
    0x18, 0x02, 0xC0, 0x01, 0x00, 0x1A, 0x2F, 0x0B, 0x04, 0x00, 0x01, // outer packet
    0x40, 0x62, 0x80, 0x01, 0xB8, 0x5E, 0x60, // stamp
    0x18, 0x02, 0xC0, 0x11, 0x00, 0x06, 0x2F, 0x11, 0x01, 0x00, 0x00, 0xDD, 0xB5, // command
    0x98, 0xF8, // check code
];
const SENSOR_ON_AT_120: &[u8] = &[
    0x18, 0x02, 0xC0, 0x02, 0x00, 0x1C, 0x2F, 0x0B, 0x04, 0x00, 0x01, // outer packet
    0x44, 0x00, 0x62, 0x80, 0x01, 0xB9, 0x48, 0xC0, // stamp
    0x18, 0x42, 0xC0, 0x01, 0x00, 0x07, 0x2F, 0x08, 0x01, 0x00, 0x00, 0x01, 0xBC,
    0x9D, // command
    0xFA, 0x2F, // check code
];
const SENSOR_OFF_AT_180: &[u8] = &[
    0x18, 0x02, 0xC0, 0x03, 0x00, 0x1B, 0x2F, 0x0B, 0x04, 0x00, 0x01, // outer packet
    0x40, 0x62, 0x80, 0x01, 0xBA, 0x33, 0x20, // stamp
    0x18, 0x42, 0xC0, 0x02, 0x00, 0x07, 0x2F, 0x08, 0x01, 0x00, 0x00, 0x00, 0x81,
    0xF8, // command
    0xE6, 0xB8, // check code
];
const PING_AT_2: &[u8] = &[
    0x18, 0x02, 0xC0, 0x04, 0x00, 0x1A, 0x2F, 0x0B, 0x04, 0x00, 0x01, // outer packet
    0x40, 0x62, 0x80, 0x01, 0xB7, 0x7B, 0xD0, // stamp
    0x18, 0x02, 0xC0, 0x11, 0x00, 0x06, 0x2F, 0x11, 0x01, 0x00, 0x00, 0xDD, 0xB5, // command
    0xF3, 0x3A, // check code
];

fn main() -> Result<(), Refusal> {
    let mut record = [0; silotwist::RECORD_WORDS];
    let mut store = [0; SETUP.store_bytes()];
    let mut lens = [0; SETUP.slots()];
    let mut rows = [0; SETUP.row_words()];
    let memory =
        Memory { record: &mut record, store: &mut store, lens: &mut lens, rows: &mut rows };
    let mut scheduler = Scheduler::new(SETUP, memory);
    scheduler.fresh_start(UnixTime::new(START, 0), Margin::new(5, 0))?;

    let mut addresses = Vec::new();
    for packet in [PING_AT_60, SENSOR_ON_AT_120, SENSOR_OFF_AT_180, PING_AT_2] {
        match scheduler.insert_wrapped_tc(packet) {
            Ok(tc) => {
                println!("inserted {}, at address {}", name(tc.request_id), tc.addr.0);
                addresses.push(tc.addr);
            }
            Err(refusal) => println!("refused, number {}", refusal.number()),
        }
    }

    scheduler.store().delete(addresses[1])?;
    println!("lost the packet at address {}", addresses[1].0);

    scheduler.set_clock(UnixTime::new(START + 180, 0))?;
    let mut log = [0; 1024];
    for record in scheduler.tick(&mut log, 16, Packets::Delete)?.log {
        let id = name(record.request_id);
        match record.flag {
            Flag::Released => println!("released {id}: {}", hex(record.packet)),
            Flag::Discarded => println!("discarded {id}: {}", hex(record.packet)),
            Flag::Missing => println!("missing  {id}"),
        }
    }
    println!("{} entries left", scheduler.count()?);
    Ok(())
}

fn name(id: RequestId) -> String {
    format!("APID {:2}, sequence count {:2}", id.apid(), id.seq_count())
}

fn hex(bytes: &[u8]) -> String {
    bytes.iter().map(|byte| format!("{byte:02X}")).collect::<Vec<_>>().join(" ")
}
