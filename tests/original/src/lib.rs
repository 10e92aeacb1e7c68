//! The original: `pool.rs` and `pus/scheduler.rs` of satrs 0.2.1, read from docs/src as they stand there.
extern crate alloc;

#[rustfmt::skip]
#[allow(warnings)]
#[path = "../../../docs/src/src/pool.rs"]
pub mod pool;
pub mod pus;
