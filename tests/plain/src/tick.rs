//! The release tick.
use crate::log::{encode, LogRecord, DISABLED, EMPTY_LOG, MISSING, RELEASED};
use crate::refusal::Refusal;
use crate::rule::Rule;
use crate::state::{Entry, State};
use crate::store::Store;

/// "Of a log, only the first 1,048,576 bytes are used."
pub const LOG_BYTES: usize = 1_048_576;

pub struct Ticked {
    pub log: Vec<u8>,
    pub handed: u64,
    pub remaining: u64,
}

impl State {
    /// "due is judged by the present clock, at or before it"
    fn due(&self) -> usize {
        let clock = self.record.clock;
        let due = |e: &&Entry| match self.breaks(Rule::DueOnlyBefore) {
            true => e.time.before(clock, self.reading),
            false => !clock.before(e.time, self.reading),
        };
        self.entries.iter().take_while(due).count()
    }

    /// "Flag 1: released; 0: due while disabled, bytes included; 2: address check fails at its turn, enabled or
    /// not, no bytes."
    fn turn(&self, store: &Store, entry: &Entry) -> LogRecord {
        let (flag, bytes) = match store.packet(entry.address) {
            Err(_) if self.breaks(Rule::MissingFlaggedDisabled) => (DISABLED, vec![]),
            Err(_) if self.breaks(Rule::MissingFlaggedByMark) && !self.record.enabled => {
                (DISABLED, vec![])
            }
            Err(_) => (MISSING, vec![]),
            Ok(_) if !self.record.enabled && self.breaks(Rule::DisabledWithoutBytes) => {
                (DISABLED, vec![])
            }
            Ok(bytes) if self.record.enabled => (RELEASED, bytes.to_vec()),
            Ok(bytes) => (DISABLED, bytes.to_vec()),
        };
        let address = match self.breaks(Rule::LogAddressDecoded) {
            true => entry.address & 0x00FF_00FF,
            false => entry.address,
        };
        LogRecord { flag, id: entry.id, address, bytes }
    }

    /// "In delete mode each packet handed out is deleted at its turn."
    fn after_turn(&self, store: &mut Store, entry: &Entry, flag: u8, delete: bool) {
        let delete = match self.reading.broken {
            Some(Rule::DeleteModeKeeps) => false,
            Some(Rule::KeepModeDeletes) => true,
            Some(Rule::DisabledKeepsPacket) => delete && flag == RELEASED,
            _ => delete,
        };
        if delete && flag != MISSING {
            let _present = store.delete(entry.address);
        }
    }

    /// "the tick hands out the largest number m of due entries that the limit allows and the log holds; the m
    /// entries leave, the others stay. It answers m and how many due entries remain."
    pub fn tick(&mut self, log: usize, limit: u64, delete: bool) -> Result<Ticked, Refusal> {
        let room = if self.breaks(Rule::WholeLogUsed) { log } else { log.min(LOG_BYTES) };
        let due = self.due();
        let limit = self.allowed(limit, due);
        let first = self.first_alone(due);
        self.judge_log(room, limit, first)?;
        let (mut records, mut total) = (Vec::new(), EMPTY_LOG);
        let mut store = self.store.clone();
        let turns: Vec<Entry> = self.entries[..due].to_vec();
        for entry in turns.iter().take(limit) {
            let looked_up =
                if self.breaks(Rule::DeletedAfterAllTurns) { &self.store } else { &store };
            let record = self.turn(looked_up, entry);
            total += 4 + record.size();
            let stops = record.flag == MISSING && self.breaks(Rule::MissingStopsTheTick);
            if total > room || stops {
                break;
            }
            self.after_turn(&mut store, entry, record.flag, delete);
            records.push(record);
        }
        let handed = records.len();
        self.store = store;
        self.entries.drain(..handed);
        let remaining = if self.breaks(Rule::AllDueAnswered) { due } else { due - handed };
        let log = encode(&records, self.reading);
        Ok(Ticked { log, handed: handed as u64, remaining: remaining as u64 })
    }

    /// "gives a limit on records per tick"
    fn allowed(&self, limit: u64, due: usize) -> usize {
        match self.reading.broken {
            Some(Rule::LimitIgnored) if limit > 0 => due,
            Some(Rule::LimitCutToByte) => (limit as u8 as usize).min(due),
            _ => limit.min(due as u64) as usize,
        }
    }

    /// T of "a log of the first due record alone", where something is due.
    fn first_alone(&self, due: usize) -> Option<usize> {
        let first = self.entries[..due].first()?;
        Some(EMPTY_LOG + 4 + self.turn(&self.store, first).size())
    }

    /// 20: "log under 8 bytes (carries 8); else the limit is at least 1, something is due and a log of the first
    /// due record alone doesn't fit (carries that log's T)". `limit` is at least 1 where something due is allowed.
    fn judge_log(&self, room: usize, limit: usize, first: Option<usize>) -> Result<(), Refusal> {
        if room < EMPTY_LOG {
            return Err(Refusal::LogTooSmall(EMPTY_LOG));
        }
        let wanted = limit >= 1 || self.breaks(Rule::LogJudgedWithLimitZero);
        match first {
            Some(total) if wanted && total > room => {
                let eight = self.breaks(Rule::LogTooSmallCarriesEight);
                Err(Refusal::LogTooSmall(if eight { EMPTY_LOG } else { total }))
            }
            _ => Ok(()),
        }
    }
}
