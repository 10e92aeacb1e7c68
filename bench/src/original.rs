//! The original's side: its scheduler and pool, the calls on them, and what was changed put back by its own calls.
use crate::plan::{self, Call, Entry, SLOTS, START, SUBPOOLS};
use satrs::pool::{PoolProvider, StaticMemoryPool, StaticPoolConfig};
use satrs::pus::scheduler::{PusScheduler, RequestId, TcInfo, TimeWindow};
use spacepackets::ecss::tc::PusTcReader;
use spacepackets::time::{CcsdsTimeProvider, UnixTime};
use std::time::Duration;

/// A window edge.
#[derive(Clone)]
struct At(UnixTime);

impl CcsdsTimeProvider for At {
    fn len_as_bytes(&self) -> usize {
        7
    }
    fn unix_time(&self) -> UnixTime {
        self.0
    }
}

pub struct Original {
    scheduler: PusScheduler,
    pool: StaticMemoryPool,
    /// The request ID of each entry.
    ids: Vec<RequestId>,
    slots: Vec<Vec<u8>>,
    /// What the closure of a tick writes: the records of document 01's log.
    pub records: Vec<u8>,
    call: Call,
    n: usize,
}

impl Original {
    pub fn new(call: Call, n: usize) -> Original {
        let config = StaticPoolConfig::new(SUBPOOLS.to_vec(), false);
        let id = |i| RequestId::from_tc(&PusTcReader::new(&plan::tc(i, 13)).unwrap().0);
        let start = UnixTime { secs: START, nanos: 0 };
        let mut original = Original {
            scheduler: PusScheduler::new(start, Duration::ZERO),
            pool: StaticMemoryPool::new(config),
            ids: (0..n).map(id).collect(),
            slots: (0..SLOTS).map(plan::stored).collect(),
            records: Vec::with_capacity(65_536),
            call,
            n,
        };
        original.fill();
        if call == Call::InsertUnwrapped {
            original.pool.delete(plan::address(plan::FREE_SLOT)).unwrap();
        }
        for i in plan::present(call, n) {
            original.insert_stored(i);
        }
        original.scheduler.update_time(plan::clock(call, n));
        original
    }

    /// Puts a packet into each free slot: the lowest of a subpool first, so each into its own.
    fn fill(&mut self) {
        for slot in 0..SLOTS {
            if !self.pool.has_element_at(&plan::address(slot)).unwrap() {
                assert_eq!(self.pool.add(&self.slots[slot]).unwrap(), plan::address(slot));
            }
        }
    }

    fn insert_stored(&mut self, i: usize) {
        let info = TcInfo::new(plan::address(i % SLOTS), self.ids[i]);
        self.scheduler.insert_unwrapped_and_stored_tc(plan::time(i), info).unwrap();
    }

    fn window(&self) -> TimeWindow<At> {
        let (first, last) = plan::window(self.n);
        TimeWindow::new_from_time_to_time(&At(plan::time(first)), &At(plan::time(last)))
    }

    /// The call of the plan: what is timed. It answers how many entries it dealt with, or packets that it deleted.
    pub fn make(&mut self) -> u64 {
        let middle = plan::middle(self.n);
        match self.call {
            Call::InsertStored => {
                self.insert_stored(middle);
                1
            }
            Call::InsertUnwrapped => {
                let (packet, pool) = (&self.slots[plan::FREE_SLOT], &mut self.pool);
                let info = self.scheduler.insert_unwrapped_tc(plan::time(middle), packet, pool);
                info.is_ok() as u64
            }
            Call::TickOne | Call::TickMany => {
                self.records.clear();
                let records = &mut self.records;
                let closure = |on: bool, info: &TcInfo, packet: &[u8]| {
                    records.push(on as u8);
                    records.extend_from_slice(&info.request_id().as_u64().to_be_bytes());
                    records.extend_from_slice(&info.addr().to_be_bytes());
                    records.extend_from_slice(packet);
                    true
                };
                self.scheduler.release_telecommands(closure, &mut self.pool).unwrap()
            }
            Call::DeleteWindow => {
                self.scheduler.delete_by_time_filter(self.window(), &mut self.pool).unwrap()
            }
            Call::DeleteAll => {
                let window = TimeWindow::<At>::new_select_all();
                match self.scheduler.delete_by_time_filter(window, &mut self.pool) {
                    Ok(deleted) | Err((deleted, _)) => deleted,
                }
            }
            Call::DeleteById => {
                let (id, pool) = (&self.ids[middle], &mut self.pool);
                self.scheduler.delete_by_request_id_and_from_pool(id, pool).unwrap() as u64
            }
        }
    }

    /// Puts back what the call changed.
    pub fn undo(&mut self) {
        let middle = plan::middle(self.n);
        match self.call {
            Call::InsertStored | Call::InsertUnwrapped => {
                let at = At(plan::time(middle));
                let window = TimeWindow::new_from_time_to_time(&at, &at);
                self.scheduler.delete_by_time_filter(window, &mut self.pool).unwrap();
                if self.call == Call::InsertStored {
                    self.fill();
                }
            }
            Call::DeleteById => {
                self.fill();
                self.insert_stored(middle);
            }
            _ => {
                self.fill();
                self.scheduler.update_time(UnixTime { secs: START, nanos: 0 });
                let gone = match self.call {
                    Call::DeleteWindow => plan::window(self.n).0..plan::window(self.n).1 + 1,
                    Call::DeleteAll => 0..self.n,
                    tick => 0..plan::due(tick, self.n),
                };
                for i in gone {
                    self.insert_stored(i);
                }
                self.scheduler.update_time(plan::clock(self.call, self.n));
            }
        }
    }

    pub fn entries(&mut self) -> Vec<Entry> {
        let all = self.scheduler.retrieve_all();
        all.flat_map(|(&time, infos)| {
            infos.iter().map(move |i| Entry {
                time,
                id: i.request_id().as_u64(),
                address: i.addr(),
            })
        })
        .collect()
    }

    pub fn taken(&self) -> Vec<bool> {
        (0..SLOTS).map(|s| self.pool.has_element_at(&plan::address(s)).unwrap()).collect()
    }
}
