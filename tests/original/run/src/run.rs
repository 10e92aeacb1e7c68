//! The original's calls on the scheduler, in document 01's words.
use crate::answers::{
    answer, entry, inserted, last_refusal, pool_refusal, schedule_refusal, Answer, Entry, Handed,
    Release,
};
use satrs::pool::{PoolError, PoolProvider, StaticMemoryPool, StaticPoolConfig};
use satrs::pus::scheduler::{PusScheduler, PusSchedulerProvider, RequestId, TcInfo, TimeWindow};
use spacepackets::ecss::tc::{GenericPusTcSecondaryHeader, IsPusTelecommand, PusTcReader};
use spacepackets::time::{CcsdsTimeProvider, UnixTime};
use spacepackets::CcsdsPacket;
use std::time::Duration;

/// A request ID by its number: `RequestId` has no public constructor but `from_tc`.
struct Id(u64);

impl CcsdsPacket for Id {
    fn apid(&self) -> u16 {
        (self.0 >> 16) as u16
    }
    fn seq_count(&self) -> u16 {
        self.0 as u16
    }
}
impl GenericPusTcSecondaryHeader for Id {
    fn source_id(&self) -> u16 {
        (self.0 >> 32) as u16
    }
}
impl IsPusTelecommand for Id {}

fn id(number: u64) -> RequestId {
    RequestId::from_tc(&Id(number))
}

/// A window edge at any time.
#[derive(Clone)]
struct At(UnixTime);

impl CcsdsTimeProvider for At {
    fn len_as_bytes(&self) -> usize {
        7
    }
    fn unix_time(&self) -> UnixTime {
        self.0
    }
}

#[derive(Clone, Copy, Debug)]
pub enum Window {
    All,
    FromTo(UnixTime, UnixTime),
    From(UnixTime),
    To(UnixTime),
}

impl Window {
    fn filter(self) -> TimeWindow<At> {
        match self {
            Window::All => TimeWindow::new_select_all(),
            Window::FromTo(a, b) => TimeWindow::new_from_time_to_time(&At(a), &At(b)),
            Window::From(a) => TimeWindow::new_from_time(&At(a)),
            Window::To(b) => TimeWindow::new_to_time(&At(b)),
        }
    }
}

#[derive(Clone, Copy, Debug)]
pub enum Mode {
    /// The closure answers true.
    Delete,
    /// The closure answers false.
    ClosureFalse,
    /// The closure answers true and sees a buffer of so many bytes.
    Buffer(usize),
    /// No deletion; the closure sees the whole buffer.
    NoDeletion(usize),
    /// No deletion; what the closure sees is cut to the packet's length.
    NoDeletionCut(usize),
}

/// A scheduler and its store.
pub struct Run {
    pub scheduler: PusScheduler,
    pub pool: StaticMemoryPool,
    /// (slots, slot size) as `sanitize` left them.
    pub subpools: Vec<(u16, usize)>,
}

/// The original's calls on the scheduler.
impl Run {
    pub fn new(
        subpools: &[(u16, usize)], spilling: bool, clock: UnixTime, margin: Duration,
    ) -> Self {
        let mut config = StaticPoolConfig::new(subpools.to_vec(), spilling);
        config.sanitize();
        Run {
            scheduler: PusScheduler::new(clock, margin),
            subpools: config.cfg().clone(),
            pool: StaticMemoryPool::new(config),
        }
    }

    pub fn wrapped(&mut self, packet: &[u8], long: bool) -> Answer {
        match PusTcReader::new(packet) {
            Err(_) => answer(9, &[]),
            Ok((tc, _)) if long => {
                inserted(self.scheduler.insert_wrapped_tc_cds_long(&tc, &mut self.pool))
            }
            Ok((tc, _)) => {
                inserted(self.scheduler.insert_wrapped_tc_cds_short(&tc, &mut self.pool))
            }
        }
    }

    pub fn unwrapped(&mut self, time: UnixTime, packet: &[u8]) -> Answer {
        inserted(self.scheduler.insert_unwrapped_tc(time, packet, &mut self.pool))
    }

    /// The trait's own form of the same call.
    pub fn unwrapped_by_trait(&mut self, time: UnixTime, packet: &[u8]) -> Answer {
        let pool = &mut self.pool;
        inserted(PusSchedulerProvider::insert_unwrapped_tc(&mut self.scheduler, time, packet, pool))
    }

    pub fn stored(&mut self, time: UnixTime, request_id: u64, address: u64) -> Answer {
        let info = TcInfo::new(address, id(request_id));
        match self.scheduler.insert_unwrapped_and_stored_tc(time, info) {
            Ok(()) => answer(0, &[]),
            Err(e) => schedule_refusal(&e),
        }
    }

    pub fn count(&self) -> u64 {
        self.scheduler.num_scheduled_telecommands()
    }

    pub fn entries(&mut self) -> Vec<Entry> {
        self.covered(Window::All)
    }

    /// The entries that a window covers.
    pub fn covered(&mut self, window: Window) -> Vec<Entry> {
        let range = self.scheduler.retrieve_by_time_filter(window.filter());
        range.flat_map(|(t, v)| v.iter().map(|i| entry(*t, i))).collect()
    }

    /// How many vectors a window's range holds, and how many of them are empty.
    pub fn vectors(&mut self, window: Window) -> (usize, usize) {
        let range = self.scheduler.retrieve_by_time_filter(window.filter());
        let sizes: Vec<usize> = range.map(|(_, v)| v.len()).collect();
        (sizes.len(), sizes.iter().filter(|&&n| n == 0).count())
    }

    /// First row and number of rows, derived: the original hands back a range over vectors.
    pub fn window(&mut self, window: Window) -> Answer {
        let rows = self.covered(window);
        let first = match rows.first() {
            None => 0,
            Some(e) => self.entries().iter().filter(|f| f.time < e.time).count(),
        };
        answer(0, &[first as u64, rows.len() as u64])
    }

    /// The number missing is derived from the count before and after.
    pub fn delete_window(&mut self, window: Window) -> Answer {
        let before = self.count();
        let result = self.scheduler.delete_by_time_filter(window.filter(), &mut self.pool);
        self.removed(before, result)
    }

    pub fn delete_all(&mut self) -> Answer {
        let before = self.count();
        let result = self.scheduler.delete_all(&mut self.pool);
        self.removed(before, result)
    }

    fn removed(&self, before: u64, result: Result<u64, (u64, PoolError)>) -> Answer {
        let gone = before - self.count();
        match result {
            Ok(deleted) => answer(0, &[deleted, gone - deleted, 0]),
            Err((deleted, e)) => last_refusal(deleted, gone - deleted, Some(e)),
        }
    }

    /// Both counts are derived from the schedule and the pool before and after.
    pub fn reset(&mut self) -> Answer {
        let (count, taken) = (self.count(), self.taken().count());
        let result = self.scheduler.reset(&mut self.pool);
        let deleted = (taken - self.taken().count()) as u64;
        last_refusal(deleted, count - self.count() - deleted, result.err())
    }

    pub fn delete_by_id_keep(&mut self, request_id: u64) -> Answer {
        match self.scheduler.delete_by_request_id(&id(request_id)) {
            None => answer(0, &[0]),
            Some(address) => answer(0, &[1, address]),
        }
    }

    pub fn delete_by_id(&mut self, request_id: u64) -> Answer {
        let (scheduler, pool) = (&mut self.scheduler, &mut self.pool);
        match scheduler.delete_by_request_id_and_from_pool(&id(request_id), pool) {
            Ok(false) => answer(0, &[0]),
            Ok(true) => answer(0, &[1, 1]),
            Err(e) => {
                let refusal = pool_refusal(&e);
                let values = [&[1, 0, refusal.number as u64], &refusal.values[..]].concat();
                answer(0, &values)
            }
        }
    }

    pub fn release(&mut self, mode: Mode) -> Release {
        let mut records = Vec::new();
        let mut put = |enabled: bool, i: &TcInfo, bytes: &[u8]| {
            records.push(Handed {
                enabled,
                id: i.request_id().as_u64(),
                address: i.addr(),
                bytes: bytes.to_vec(),
            })
        };
        let (scheduler, pool) = (&mut self.scheduler, &mut self.pool);
        let result = match mode {
            Mode::Delete | Mode::ClosureFalse => {
                let answer = matches!(mode, Mode::Delete);
                let closure = |on: bool, i: &TcInfo, b: &[u8]| {
                    put(on, i, b);
                    answer
                };
                scheduler.release_telecommands(closure, pool)
            }
            Mode::Buffer(n) => {
                let closure = |on: bool, i: &TcInfo, b: &[u8]| {
                    put(on, i, b);
                    true
                };
                scheduler.release_telecommands_with_buffer(closure, pool, &mut vec![0xEE; n])
            }
            Mode::NoDeletion(n) | Mode::NoDeletionCut(n) => {
                let cut = matches!(mode, Mode::NoDeletionCut(_));
                let pool = &*pool;
                let closure = |on: bool, i: &TcInfo, b: &[u8]| match cut {
                    false => put(on, i, b),
                    true => put(on, i, &b[..pool.len_of_data(&i.addr()).unwrap()]),
                };
                scheduler
                    .release_telecommands_no_deletion(closure, pool, &mut vec![0xEE; n])
                    .map(|v| v.len() as u64)
                    .map_err(|(v, e)| (v.len() as u64, e))
            }
        };
        let (handed, stopped) = match result {
            Ok(m) => (m, None),
            Err((m, e)) => (m, Some(pool_refusal(&e))),
        };
        let due = self.scheduler.telecommands_to_release();
        let left = due.map(|b| b.1.len() as u64).sum();
        Release { stopped, handed, left, records }
    }
}
