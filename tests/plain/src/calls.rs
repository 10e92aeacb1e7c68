//! The calls of silotwist.h by the plain reading.
use crate::frame::{by_id_words, judge_window, removed_words, reply, time, window};
use crate::rule::Rule;
use crate::state::State;
use crate::subject::Subject;
use crate::time::Margin;
use crate::Plain;

impl Subject for Plain {
    fn silotwist_store_add(
        &self, setup: &[u64], store: &mut [u8], lens: &mut [u16], data: &[u8], answer: &mut [u64],
    ) -> u32 {
        reply(self.reading, answer, || {
            self.change((setup, store, lens), |s| Ok(vec![s.add(data)?]))
        })
    }

    fn silotwist_store_read(
        &self, setup: &[u64], store: &[u8], lens: &[u16], address: u64, buffer: &mut [u8],
        answer: &mut [u64],
    ) -> u32 {
        reply(self.reading, answer, || {
            self.look((setup, store, lens), |s| Ok(vec![s.read(address, buffer)?]))
        })
    }

    fn silotwist_store_modify(
        &self, setup: &[u64], store: &[u8], lens: &[u16], address: u64, answer: &mut [u64],
    ) -> u32 {
        reply(self.reading, answer, || {
            self.look((setup, store, lens), |s| Ok(vec![s.part(address)?.1]))
        })
    }

    fn silotwist_store_part(
        &self, setup: &[u64], store: &[u8], lens: &[u16], address: u64, answer: &mut [u64],
    ) -> u32 {
        reply(self.reading, answer, || {
            self.look((setup, store, lens), |s| {
                let (offset, length) = s.part(address)?;
                Ok(vec![offset, length])
            })
        })
    }

    fn silotwist_store_delete(
        &self, setup: &[u64], store: &mut [u8], lens: &mut [u16], address: u64, answer: &mut [u64],
    ) -> u32 {
        reply(self.reading, answer, || {
            self.change((setup, store, lens), |s| {
                s.delete(address)?;
                Ok(vec![])
            })
        })
    }

    fn silotwist_store_has(
        &self, setup: &[u64], store: &[u8], lens: &[u16], address: u64, answer: &mut [u64],
    ) -> u32 {
        reply(self.reading, answer, || {
            self.look((setup, store, lens), |s| Ok(vec![s.has(address)? as u64]))
        })
    }

    fn silotwist_store_len(
        &self, setup: &[u64], store: &[u8], lens: &[u16], address: u64, answer: &mut [u64],
    ) -> u32 {
        reply(self.reading, answer, || {
            self.look((setup, store, lens), |s| Ok(vec![s.len(address)?]))
        })
    }

    fn silotwist_fresh(
        &self, setup: &[u64], record: &mut [u64], store: &mut [u8], lens: &mut [u16],
        rows: &mut [u64], clock_secs: i64, clock_nanos: u32, margin_secs: u64, margin_nanos: u32,
        answer: &mut [u64],
    ) -> u32 {
        reply(self.reading, answer, || {
            let clock = time(clock_secs, clock_nanos);
            let margin = Margin { secs: margin_secs, nanos: margin_nanos as u64 };
            self.fresh((setup, record, store, lens, rows), clock, margin)
        })
    }

    fn silotwist_set_clock(
        &self, record: &mut [u64], secs: i64, nanos: u32, answer: &mut [u64],
    ) -> u32 {
        reply(self.reading, answer, || {
            self.record_call(record, Some(time(secs, nanos)), |record| {
                record[1] = secs as u64;
                if !self.reading.breaks(Rule::ClockKeepsItsNanos) {
                    record[2] = nanos as u64;
                }
            })
        })
    }

    fn silotwist_enable(&self, record: &mut [u64], answer: &mut [u64]) -> u32 {
        reply(self.reading, answer, || {
            self.record_call(record, None, |record| {
                if !self.reading.breaks(Rule::EnableDoesNothing) {
                    record[5] = 1;
                }
            })
        })
    }

    fn silotwist_disable(&self, record: &mut [u64], answer: &mut [u64]) -> u32 {
        reply(self.reading, answer, || {
            self.record_call(record, None, |record| {
                if !self.reading.breaks(Rule::DisableDoesNothing) {
                    record[5] = 0;
                }
            })
        })
    }

    fn silotwist_count(
        &self, setup: &[u64], record: &[u64], store: &[u8], lens: &[u16], rows: &[u64],
        answer: &mut [u64],
    ) -> u32 {
        reply(self.reading, answer, || {
            let state = State::judged(setup, record, store, lens, rows, self.reading)?;
            Ok(vec![state.entries.len() as u64])
        })
    }

    fn silotwist_insert_wrapped(
        &self, setup: &[u64], record: &mut [u64], store: &mut [u8], lens: &mut [u16],
        rows: &mut [u64], packet: &[u8], answer: &mut [u64],
    ) -> u32 {
        reply(self.reading, answer, || {
            self.step((setup, record, store, lens, rows), None, |s| {
                let (address, id) = s.insert_wrapped(packet)?;
                Ok(vec![address, id])
            })
        })
    }

    fn silotwist_insert_unwrapped(
        &self, setup: &[u64], record: &mut [u64], store: &mut [u8], lens: &mut [u16],
        rows: &mut [u64], secs: i64, nanos: u32, packet: &[u8], answer: &mut [u64],
    ) -> u32 {
        reply(self.reading, answer, || {
            let release = time(secs, nanos);
            self.step((setup, record, store, lens, rows), Some(release), |s| {
                let (address, id) = s.insert_unwrapped(release, packet)?;
                Ok(vec![address, id])
            })
        })
    }

    fn silotwist_insert_stored(
        &self, setup: &[u64], record: &mut [u64], store: &mut [u8], lens: &mut [u16],
        rows: &mut [u64], secs: i64, nanos: u32, request_id: u64, address: u64, answer: &mut [u64],
    ) -> u32 {
        reply(self.reading, answer, || {
            let release = time(secs, nanos);
            self.step((setup, record, store, lens, rows), Some(release), |s| {
                s.insert_stored(release, request_id, address)?;
                Ok(vec![])
            })
        })
    }

    fn silotwist_window(
        &self, setup: &[u64], record: &[u64], store: &[u8], lens: &[u16], rows: &[u64],
        has_from: bool, from_secs: i64, from_nanos: u32, has_to: bool, to_secs: i64, to_nanos: u32,
        answer: &mut [u64],
    ) -> u32 {
        reply(self.reading, answer, || {
            let state = State::judged(setup, record, store, lens, rows, self.reading)?;
            let ends = [time(from_secs, from_nanos), time(to_secs, to_nanos)];
            let window = window(has_from, ends[0], has_to, ends[1]);
            judge_window(window, ends, self.reading)?;
            let (first, number) = state.window(window);
            Ok(vec![first, number])
        })
    }

    fn silotwist_delete_window(
        &self, setup: &[u64], record: &mut [u64], store: &mut [u8], lens: &mut [u16],
        rows: &mut [u64], has_from: bool, from_secs: i64, from_nanos: u32, has_to: bool,
        to_secs: i64, to_nanos: u32, answer: &mut [u64],
    ) -> u32 {
        reply(self.reading, answer, || {
            self.step((setup, record, store, lens, rows), None, |s| {
                let ends = [time(from_secs, from_nanos), time(to_secs, to_nanos)];
                let window = window(has_from, ends[0], has_to, ends[1]);
                judge_window(window, ends, self.reading)?;
                Ok(removed_words(s.delete_window(window)))
            })
        })
    }

    fn silotwist_reset(
        &self, setup: &[u64], record: &mut [u64], store: &mut [u8], lens: &mut [u16],
        rows: &mut [u64], answer: &mut [u64],
    ) -> u32 {
        reply(self.reading, answer, || {
            self.step((setup, record, store, lens, rows), None, |s| Ok(removed_words(s.reset())))
        })
    }

    fn silotwist_delete_by_id_keep(
        &self, setup: &[u64], record: &mut [u64], store: &mut [u8], lens: &mut [u16],
        rows: &mut [u64], request_id: u64, answer: &mut [u64],
    ) -> u32 {
        reply(self.reading, answer, || {
            self.step((setup, record, store, lens, rows), None, |s| {
                Ok(by_id_words(s.delete_by_id_keep(request_id)))
            })
        })
    }

    fn silotwist_delete_by_id(
        &self, setup: &[u64], record: &mut [u64], store: &mut [u8], lens: &mut [u16],
        rows: &mut [u64], request_id: u64, answer: &mut [u64],
    ) -> u32 {
        reply(self.reading, answer, || {
            self.step((setup, record, store, lens, rows), None, |s| {
                Ok(by_id_words(s.delete_by_id(request_id)))
            })
        })
    }

    fn silotwist_tick(
        &self, setup: &[u64], record: &mut [u64], store: &mut [u8], lens: &mut [u16],
        rows: &mut [u64], log: &mut [u8], limit: u64, delete_packets: bool, answer: &mut [u64],
    ) -> u32 {
        reply(self.reading, answer, || {
            self.step((setup, record, store, lens, rows), None, |s| {
                let ticked = s.tick(log.len(), limit, delete_packets)?;
                log[..ticked.log.len()].copy_from_slice(&ticked.log);
                if self.reading.breaks(Rule::LogTailCleared) {
                    log[ticked.log.len()..].fill(0);
                }
                Ok(vec![ticked.handed, ticked.remaining])
            })
        })
    }
}
