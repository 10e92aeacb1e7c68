// The 21 calls of silotwist.h, each with its parameters: slices `shared` and `lent` for writing, and values `given` as they are.
// Included where they are declared: by this wrapper's ffi.rs, and by the drivers of the repository's tests.
macro_rules! every_call {
    ($call:ident) => {
        $call! { silotwist_store_add(
            shared setup: u64, lent store: u8, lent lens: u16, shared data: u8, lent answer: u64,
        ) }

        $call! { silotwist_store_read(
            shared setup: u64, shared store: u8, shared lens: u16, given address: u64, lent buffer: u8,
            lent answer: u64,
        ) }

        $call! { silotwist_store_modify(
            shared setup: u64, shared store: u8, shared lens: u16, given address: u64, lent answer: u64,
        ) }

        $call! { silotwist_store_part(
            shared setup: u64, shared store: u8, shared lens: u16, given address: u64, lent answer: u64,
        ) }

        $call! { silotwist_store_delete(
            shared setup: u64, lent store: u8, lent lens: u16, given address: u64, lent answer: u64,
        ) }

        $call! { silotwist_store_has(
            shared setup: u64, shared store: u8, shared lens: u16, given address: u64, lent answer: u64,
        ) }

        $call! { silotwist_store_len(
            shared setup: u64, shared store: u8, shared lens: u16, given address: u64, lent answer: u64,
        ) }

        $call! { silotwist_fresh(
            shared setup: u64, lent record: u64, lent store: u8, lent lens: u16, lent rows: u64,
            given clock_secs: i64, given clock_nanos: u32, given margin_secs: u64, given margin_nanos: u32,
            lent answer: u64,
        ) }

        $call! { silotwist_set_clock(
            lent record: u64, given secs: i64, given nanos: u32, lent answer: u64,
        ) }

        $call! { silotwist_enable(
            lent record: u64, lent answer: u64,
        ) }

        $call! { silotwist_disable(
            lent record: u64, lent answer: u64,
        ) }

        $call! { silotwist_count(
            shared setup: u64, shared record: u64, shared store: u8, shared lens: u16, shared rows: u64,
            lent answer: u64,
        ) }

        $call! { silotwist_insert_wrapped(
            shared setup: u64, lent record: u64, lent store: u8, lent lens: u16, lent rows: u64,
            shared packet: u8, lent answer: u64,
        ) }

        $call! { silotwist_insert_unwrapped(
            shared setup: u64, lent record: u64, lent store: u8, lent lens: u16, lent rows: u64, given secs: i64,
            given nanos: u32, shared packet: u8, lent answer: u64,
        ) }

        $call! { silotwist_insert_stored(
            shared setup: u64, lent record: u64, lent store: u8, lent lens: u16, lent rows: u64, given secs: i64,
            given nanos: u32, given request_id: u64, given address: u64, lent answer: u64,
        ) }

        $call! { silotwist_window(
            shared setup: u64, shared record: u64, shared store: u8, shared lens: u16, shared rows: u64,
            given has_from: bool, given from_secs: i64, given from_nanos: u32, given has_to: bool,
            given to_secs: i64, given to_nanos: u32, lent answer: u64,
        ) }

        $call! { silotwist_delete_window(
            shared setup: u64, lent record: u64, lent store: u8, lent lens: u16, lent rows: u64,
            given has_from: bool, given from_secs: i64, given from_nanos: u32, given has_to: bool,
            given to_secs: i64, given to_nanos: u32, lent answer: u64,
        ) }

        $call! { silotwist_reset(
            shared setup: u64, lent record: u64, lent store: u8, lent lens: u16, lent rows: u64,
            lent answer: u64,
        ) }

        $call! { silotwist_delete_by_id_keep(
            shared setup: u64, lent record: u64, lent store: u8, lent lens: u16, lent rows: u64,
            given request_id: u64, lent answer: u64,
        ) }

        $call! { silotwist_delete_by_id(
            shared setup: u64, lent record: u64, lent store: u8, lent lens: u16, lent rows: u64,
            given request_id: u64, lent answer: u64,
        ) }

        $call! { silotwist_tick(
            shared setup: u64, lent record: u64, lent store: u8, lent lens: u16, lent rows: u64, lent log: u8,
            given limit: u64, given delete_packets: bool, lent answer: u64,
        ) }
    };
}
