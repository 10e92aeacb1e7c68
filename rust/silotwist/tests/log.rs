//! The log's reader: document 01's worked log, and bytes that are no log.
use silotwist::{Flag, Log, LogRecord, RequestId, StoreAddr};

const P: [u8; 13] = [0x18, 0x02, 0xC0, 0x11, 0x00, 0x06, 0x2F, 0x11, 0x01, 0x00, 0x00, 0xDD, 0xB5];

fn worked() -> Vec<u8> {
    let head = [0, 0, 0, 1, 0, 0, 0, 0x2A, 0, 0, 0, 0x0C];
    let record = [1, 0, 0, 0, 0, 0, 2, 0, 0x11, 0, 0, 0, 0, 0, 0, 0, 1];
    [&head[..], &record, &P].concat()
}

#[test]
fn worked_log() {
    let bytes = [worked(), vec![0xA5]].concat();
    let log = Log::read(&bytes).expect("a log");
    let record = LogRecord {
        flag: Flag::Released,
        request_id: RequestId(0x2_0011),
        addr: StoreAddr(1),
        packet: &P,
    };
    assert_eq!(log.records().collect::<Vec<_>>(), [record]);
    assert_eq!((log.len(), log.bytes().len(), log.records().len()), (1, 42, 1));
}

#[test]
fn no_log() {
    let worked = worked();
    for length in 0..worked.len() {
        assert!(Log::read(&worked[..length]).is_none(), "{length} bytes");
    }
    // count, total, offset and flag, each spoilt; flag 2 carries no bytes
    for (at, value) in [(0, 1), (3, 0), (3, 2), (7, 0x1C), (7, 0x2B), (11, 0x0D), (12, 2), (12, 3)]
    {
        let mut spoilt = worked.clone();
        spoilt[at] = value;
        assert!(Log::read(&spoilt).is_none(), "byte {at} as {value}");
    }
    assert!(Log::read(&[0, 0, 0, 0, 0, 0, 0, 8]).is_some_and(|log| log.is_empty()));
}
