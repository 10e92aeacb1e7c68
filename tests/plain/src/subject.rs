//! silotwist.h as a trait: whatever can stand in the place of the C library. Parameters are the header's, in its
//! order, a slice for each pointer and count; every call returns 0 or the number of a refusal.

/// Words of a setup before its subpools.
pub const SETUP_HEAD: usize = 3;
pub const RECORD_WORDS: usize = 6;
pub const ROW_WORDS: usize = 4;
pub const ANSWER_WORDS: usize = 8;
/// The mark of a free slot in the lent length table.
pub const FREE: u16 = 65_535;

/// A row's seconds: counted from -2^42.
pub fn row_secs(seconds: i64) -> u64 {
    seconds.wrapping_add(1 << 42) as u64
}

macro_rules! subject {
    ($(fn $name:ident($($arg:ident: $type:ty),* $(,)?);)*) => {
        pub trait Subject {
            $(fn $name(&self, $($arg: $type),*) -> u32;)*
        }

        /// The calls' names, in the header's order.
        pub const NAMES: &[&str] = &[$(stringify!($name)),*];
    };
}

subject! {
    fn silotwist_store_add(
        setup: &[u64], store: &mut [u8], lens: &mut [u16], data: &[u8], answer: &mut [u64],
    );
    fn silotwist_store_read(
        setup: &[u64], store: &[u8], lens: &[u16], address: u64, buffer: &mut [u8], answer: &mut [u64],
    );
    fn silotwist_store_modify(
        setup: &[u64], store: &[u8], lens: &[u16], address: u64, answer: &mut [u64],
    );
    fn silotwist_store_part(
        setup: &[u64], store: &[u8], lens: &[u16], address: u64, answer: &mut [u64],
    );
    fn silotwist_store_delete(
        setup: &[u64], store: &mut [u8], lens: &mut [u16], address: u64, answer: &mut [u64],
    );
    fn silotwist_store_has(
        setup: &[u64], store: &[u8], lens: &[u16], address: u64, answer: &mut [u64],
    );
    fn silotwist_store_len(
        setup: &[u64], store: &[u8], lens: &[u16], address: u64, answer: &mut [u64],
    );
    fn silotwist_fresh(
        setup: &[u64], record: &mut [u64], store: &mut [u8], lens: &mut [u16], rows: &mut [u64],
        clock_secs: i64, clock_nanos: u32, margin_secs: u64, margin_nanos: u32, answer: &mut [u64],
    );
    fn silotwist_set_clock(record: &mut [u64], secs: i64, nanos: u32, answer: &mut [u64]);
    fn silotwist_enable(record: &mut [u64], answer: &mut [u64]);
    fn silotwist_disable(record: &mut [u64], answer: &mut [u64]);
    fn silotwist_count(
        setup: &[u64], record: &[u64], store: &[u8], lens: &[u16], rows: &[u64], answer: &mut [u64],
    );
    fn silotwist_insert_wrapped(
        setup: &[u64], record: &mut [u64], store: &mut [u8], lens: &mut [u16], rows: &mut [u64],
        packet: &[u8], answer: &mut [u64],
    );
    fn silotwist_insert_unwrapped(
        setup: &[u64], record: &mut [u64], store: &mut [u8], lens: &mut [u16], rows: &mut [u64],
        secs: i64, nanos: u32, packet: &[u8], answer: &mut [u64],
    );
    fn silotwist_insert_stored(
        setup: &[u64], record: &mut [u64], store: &mut [u8], lens: &mut [u16], rows: &mut [u64],
        secs: i64, nanos: u32, request_id: u64, address: u64, answer: &mut [u64],
    );
    fn silotwist_window(
        setup: &[u64], record: &[u64], store: &[u8], lens: &[u16], rows: &[u64],
        has_from: bool, from_secs: i64, from_nanos: u32, has_to: bool, to_secs: i64, to_nanos: u32,
        answer: &mut [u64],
    );
    fn silotwist_delete_window(
        setup: &[u64], record: &mut [u64], store: &mut [u8], lens: &mut [u16], rows: &mut [u64],
        has_from: bool, from_secs: i64, from_nanos: u32, has_to: bool, to_secs: i64, to_nanos: u32,
        answer: &mut [u64],
    );
    fn silotwist_reset(
        setup: &[u64], record: &mut [u64], store: &mut [u8], lens: &mut [u16], rows: &mut [u64],
        answer: &mut [u64],
    );
    fn silotwist_delete_by_id_keep(
        setup: &[u64], record: &mut [u64], store: &mut [u8], lens: &mut [u16], rows: &mut [u64],
        request_id: u64, answer: &mut [u64],
    );
    fn silotwist_delete_by_id(
        setup: &[u64], record: &mut [u64], store: &mut [u8], lens: &mut [u16], rows: &mut [u64],
        request_id: u64, answer: &mut [u64],
    );
    fn silotwist_tick(
        setup: &[u64], record: &mut [u64], store: &mut [u8], lens: &mut [u16], rows: &mut [u64],
        log: &mut [u8], limit: u64, delete_packets: bool, answer: &mut [u64],
    );
}
