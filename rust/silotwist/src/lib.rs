//! A store for telecommands and a time-based scheduler (PUS service 11) over it, in memory that the caller lends.
//!
//! This crate is a thin, safe face of a library that is proved: each call does what document 01 (docs/01-scope.md)
//! says, for every input, or refuses by one of its twenty numbers and changes nothing. Nothing is allocated and
//! nothing is kept between calls; all state lies in [`Memory`]. The wrapper itself is not proved: it passes slices
//! and reads answers.
//!
//! Refusals come in a fixed order: [`Refusal::BadSetup`], [`Refusal::BadBuffers`], [`Refusal::StateDamaged`],
//! [`Refusal::BadTime`], then those that the call's own text lists, in that order. "Refuses 1 to 3" below means the
//! first three of these. A refused call has changed no byte.
//!
//! A panic in this crate means that the archive is not the library that this crate was written for.
//!
//! ```
//! use silotwist::{Margin, Memory, Packets, Scheduler, Setup, Subpool, UnixTime};
//!
//! const SETUP: Setup = Setup::new(&[Subpool { slots: 4, slot_size: 32 }], false, 8);
//! let mut record = [0; silotwist::RECORD_WORDS];
//! let mut store = [0; SETUP.store_bytes()];
//! let mut lens = [0; SETUP.slots()];
//! let mut rows = [0; SETUP.row_words()];
//! let memory = Memory { record: &mut record, store: &mut store, lens: &mut lens, rows: &mut rows };
//!
//! let mut scheduler = Scheduler::new(SETUP, memory);
//! scheduler.fresh_start(UnixTime::new(100, 0), Margin::new(5, 0))?;
//! let ping = [0x18, 0x02, 0xC0, 0x11, 0x00, 0x06, 0x2F, 0x11, 0x01, 0x00, 0x00, 0xDD, 0xB5];
//! scheduler.insert_unwrapped_tc(UnixTime::new(105, 0), &ping)?;
//! scheduler.set_clock(UnixTime::new(105, 0))?;
//!
//! let mut log = [0; 256];
//! for record in scheduler.tick(&mut log, 8, Packets::Delete)?.log {
//!     assert_eq!((record.request_id.apid(), record.packet), (2, &ping[..]));
//! }
//! # Ok::<(), silotwist::Refusal>(())
//! ```
#![no_std]
#![deny(missing_docs, unsafe_code)]

mod answers;
mod ffi;
mod log;
mod refusal;
mod scheduler;
mod setup;
mod store;
mod time;

pub use answers::{Entries, Entry, Freed, RequestId, Tally, TcInfo, Ticked};
pub use log::{Flag, Log, LogRecord, LogRecords};
pub use refusal::Refusal;
pub use scheduler::{Packets, Scheduler};
pub use setup::{Memory, Setup, Subpool, FREE, MAX_SUBPOOLS, RECORD_WORDS, ROW_WORDS};
pub use store::{Store, StoreAddr};
pub use time::{Margin, TimeWindow, UnixTime};
