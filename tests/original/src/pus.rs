//! The original's module `pus`, of which only the scheduler is here.
#[rustfmt::skip]
#[allow(warnings)]
#[path = "../../../docs/src/src/pus/scheduler.rs"]
pub mod scheduler;
