//! The library's side: lent tables, the calls on them, and the tables put back by a copy.
use crate::c_library::CLibrary;
use crate::loops;
use crate::plan::{self, Call, Entry, START, SUBPOOLS};
use plain::{row_secs, Subject, ANSWER_WORDS, FREE, RECORD_WORDS, ROW_WORDS, SETUP_HEAD};
use spacepackets::time::UnixTime;

/// Log bytes lent to a tick: ample.
const LOG: usize = 65_536;

#[derive(Clone)]
pub struct Tables {
    pub record: [u64; RECORD_WORDS],
    pub store: Vec<u8>,
    pub lens: Vec<u16>,
    pub rows: Vec<u64>,
}

pub struct This {
    pub setup: Vec<u64>,
    pub now: Tables,
    before: Tables,
    log: Vec<u8>,
    pub answer: [u64; ANSWER_WORDS],
    packet: Vec<u8>,
    call: Call,
    n: usize,
}

pub fn setup_words(subpools: &[(u16, usize)], entries: usize) -> Vec<u64> {
    let mut words = vec![subpools.len() as u64, 0, entries as u64];
    words.extend(subpools.iter().flat_map(|&(slots, size)| [slots as u64, size as u64]));
    assert_eq!(words.len(), SETUP_HEAD + 2 * subpools.len());
    words
}

impl This {
    /// The schedule that a call of the plan finds, built by the library's own calls.
    pub fn new(call: Call, n: usize) -> This {
        This::with_subpools(&SUBPOOLS, call, n)
    }

    /// The same over another store.
    pub fn with_subpools(subpools: &[(u16, usize)], call: Call, n: usize) -> This {
        let mut this = This::fresh(subpools, call, n);
        for &(slots, size) in subpools {
            (0..slots).for_each(|slot| this.add(&plan::tc(slot as usize, size)));
        }
        if call == Call::InsertUnwrapped {
            this.delete(plan::address(plan::FREE_SLOT));
        }
        for i in plan::present(call, n) {
            assert_eq!(this.insert_stored(plan::entry(i)), 0);
        }
        this.set_clock(plan::clock(call, n));
        this.before = this.now.clone();
        this
    }

    fn fresh(subpools: &[(u16, usize)], call: Call, n: usize) -> This {
        let bytes = subpools.iter().map(|&(slots, size)| slots as usize * size).sum();
        let slots = subpools.iter().map(|&(slots, _)| slots as usize).sum();
        let now = Tables {
            record: [0; RECORD_WORDS],
            store: vec![0; bytes],
            lens: vec![0; slots],
            rows: vec![0; n * ROW_WORDS],
        };
        let mut this = This {
            setup: setup_words(subpools, n),
            before: now.clone(),
            now,
            log: vec![0; LOG],
            answer: [0; ANSWER_WORDS],
            packet: plan::stored(plan::FREE_SLOT),
            call,
            n,
        };
        let t = &mut this.now;
        let number = CLibrary.silotwist_fresh(
            &this.setup,
            &mut t.record,
            &mut t.store,
            &mut t.lens,
            &mut t.rows,
            START,
            0,
            0,
            0,
            &mut this.answer,
        );
        assert_eq!(number, 0);
        this
    }

    fn add(&mut self, data: &[u8]) {
        let t = &mut self.now;
        let number = CLibrary.silotwist_store_add(
            &self.setup,
            &mut t.store,
            &mut t.lens,
            data,
            &mut self.answer,
        );
        assert_eq!(number, 0);
    }

    fn delete(&mut self, address: u64) {
        let t = &mut self.now;
        let number = CLibrary.silotwist_store_delete(
            &self.setup,
            &mut t.store,
            &mut t.lens,
            address,
            &mut self.answer,
        );
        assert_eq!(number, 0);
    }

    fn set_clock(&mut self, at: UnixTime) {
        let number =
            CLibrary.silotwist_set_clock(&mut self.now.record, at.secs, at.nanos, &mut self.answer);
        assert_eq!(number, 0);
    }

    fn insert_stored(&mut self, e: Entry) -> u32 {
        let t = &mut self.now;
        CLibrary.silotwist_insert_stored(
            &self.setup,
            &mut t.record,
            &mut t.store,
            &mut t.lens,
            &mut t.rows,
            e.time.secs,
            e.time.nanos,
            e.id,
            e.address,
            &mut self.answer,
        )
    }

    pub fn insert_unwrapped(&mut self, packet: &[u8]) -> u32 {
        let (t, at) = (&mut self.now, plan::time(plan::middle(self.n)));
        CLibrary.silotwist_insert_unwrapped(
            &self.setup,
            &mut t.record,
            &mut t.store,
            &mut t.lens,
            &mut t.rows,
            at.secs,
            at.nanos,
            packet,
            &mut self.answer,
        )
    }

    fn delete_window(&mut self, ends: Option<(UnixTime, UnixTime)>) -> u32 {
        let (t, none) = (&mut self.now, UnixTime { secs: 0, nanos: 0 });
        let (from, to) = ends.unwrap_or((none, none));
        CLibrary.silotwist_delete_window(
            &self.setup,
            &mut t.record,
            &mut t.store,
            &mut t.lens,
            &mut t.rows,
            ends.is_some(),
            from.secs,
            from.nanos,
            ends.is_some(),
            to.secs,
            to.nanos,
            &mut self.answer,
        )
    }

    pub fn count(&mut self) -> u32 {
        let t = &self.now;
        CLibrary.silotwist_count(
            &self.setup,
            &t.record,
            &t.store,
            &t.lens,
            &t.rows,
            &mut self.answer,
        )
    }

    /// The same judging by plain loops.
    pub fn judge(
        &self, in_order: impl Fn(&[u64]) -> bool, within: impl Fn(&[u16], u64) -> bool,
    ) -> Result<u64, u32> {
        let t = &self.now;
        loops::judge(&self.setup, &t.record, &t.store, &t.lens, &t.rows, in_order, within)
    }

    /// The call of the plan: what is timed.
    pub fn make(&mut self) -> u32 {
        match self.call {
            Call::InsertStored => self.insert_stored(plan::entry(plan::middle(self.n))),
            Call::InsertUnwrapped => {
                let packet = std::mem::take(&mut self.packet);
                let number = self.insert_unwrapped(&packet);
                self.packet = packet;
                number
            }
            Call::TickOne | Call::TickMany => {
                let t = &mut self.now;
                CLibrary.silotwist_tick(
                    &self.setup,
                    &mut t.record,
                    &mut t.store,
                    &mut t.lens,
                    &mut t.rows,
                    &mut self.log,
                    4_096,
                    true,
                    &mut self.answer,
                )
            }
            Call::DeleteWindow => {
                let (first, last) = plan::window(self.n);
                self.delete_window(Some((plan::time(first), plan::time(last))))
            }
            Call::DeleteAll => self.delete_window(None),
            Call::DeleteById => {
                let (t, id) = (&mut self.now, plan::entry(plan::middle(self.n)).id);
                CLibrary.silotwist_delete_by_id(
                    &self.setup,
                    &mut t.record,
                    &mut t.store,
                    &mut t.lens,
                    &mut t.rows,
                    id,
                    &mut self.answer,
                )
            }
        }
    }

    /// Puts every table back.
    pub fn undo(&mut self) {
        self.now.record = self.before.record;
        self.now.store.copy_from_slice(&self.before.store);
        self.now.lens.copy_from_slice(&self.before.lens);
        self.now.rows.copy_from_slice(&self.before.rows);
    }

    pub fn entries(&self) -> Vec<Entry> {
        let rows = self.now.rows.chunks_exact(ROW_WORDS).take(self.now.record[0] as usize);
        rows.map(|r| Entry {
            time: UnixTime { secs: r[0].wrapping_sub(row_secs(0)) as i64, nanos: r[1] as u32 },
            id: r[2],
            address: r[3],
        })
        .collect()
    }

    pub fn taken(&self) -> Vec<bool> {
        self.now.lens.iter().map(|&l| l != FREE).collect()
    }

    /// The records of the log, without the numbers before them.
    pub fn records(&self) -> &[u8] {
        let word =
            |at: usize| u32::from_be_bytes(self.log[at..at + 4].try_into().unwrap()) as usize;
        &self.log[8 + 4 * word(0)..word(4)]
    }
}
