//! The caller's record and rows as a schedule, and back.
use crate::judge;
use crate::refusal::Refusal;
use crate::rule::{Reading, Rule};
use crate::setup::Setup;
use crate::store::Store;
use crate::subject::{row_secs, ROW_WORDS};
use crate::time::{Margin, Time};

#[derive(Clone, Copy, Debug, PartialEq, Eq)]
pub struct Record {
    pub count: u64,
    pub clock: Time,
    pub margin: Margin,
    pub enabled: bool,
}

impl Record {
    pub fn read(words: &[u64], reading: Reading) -> Record {
        let only_one = reading.breaks(Rule::EnabledOnlyByOne);
        Record {
            count: words[0],
            clock: Time { secs: words[1] as i64, nanos: words[2] },
            margin: Margin { secs: words[3], nanos: words[4] },
            enabled: words[5] == 1 || words[5] != 0 && !only_one,
        }
    }
}

#[derive(Clone, Copy, Debug, PartialEq, Eq)]
pub struct Entry {
    pub time: Time,
    pub id: u64,
    pub address: u64,
}

/// Row i, in range or not.
pub fn entry_at(rows: &[u64], i: usize) -> Entry {
    let row = &rows[i * ROW_WORDS..];
    let secs = row[0].wrapping_sub(row_secs(0)) as i64;
    Entry { time: Time { secs, nanos: row[1] }, id: row[2], address: row[3] }
}

/// A judged scheduler: record, store and entries in order.
#[derive(Clone, Debug)]
pub struct State {
    pub reading: Reading,
    pub capacity: usize,
    pub record: Record,
    pub store: Store,
    pub entries: Vec<Entry>,
}

impl State {
    /// 1, 2 and 3 of "Other calls judge all."
    pub fn judged(
        setup: &[u64], record: &[u64], store: &[u8], lens: &[u16], rows: &[u64], reading: Reading,
    ) -> Result<State, Refusal> {
        let setup: Setup = judge::room(setup, record, store, lens, rows, reading)?;
        let record = Record::read(record, reading);
        judge::damage(&setup, &record, lens, rows, reading)?;
        Ok(State {
            reading,
            capacity: setup.entries as usize,
            record,
            store: Store::lay(&setup, store, lens, reading),
            entries: (0..record.count as usize).map(|i| entry_at(rows, i)).collect(),
        })
    }

    pub fn breaks(&self, rule: Rule) -> bool {
        self.reading.breaks(rule)
    }

    /// "Entry rows vacated by a removal hold zeros"; of the record, the words that changed.
    pub fn put_back(
        &self, record: &mut [u64], store: &mut [u8], lens: &mut [u16], rows: &mut [u64],
    ) {
        self.store.put_back(store, lens);
        let old = record[0] as usize;
        for (i, e) in self.entries.iter().enumerate() {
            let words = [row_secs(e.time.secs), e.time.nanos, e.id, e.address];
            rows[i * ROW_WORDS..][..ROW_WORDS].copy_from_slice(&words);
        }
        if self.entries.len() < old && !self.breaks(Rule::VacatedRowKept) {
            rows[self.entries.len() * ROW_WORDS..old * ROW_WORDS].fill(0);
        }
        record[0] = self.entries.len() as u64;
        if !self.record.enabled {
            record[5] = 0;
        } else if self.breaks(Rule::EnabledWordRewritten) {
            record[5] = 1;
        }
    }
}
