//! A subject against the original: the same calls to both, compared in every answer, every handed-out byte and the
//! whole state, as far as the original shows it.
use crate::call::Call;
use crate::events;
use crate::side::{line, Given, Place, Side, Start};
use crate::world::World;
use original::answers::Entry;
use original::lines::hex;
use plain::{row_secs, Subject, ANSWER_WORDS, FREE, ROW_WORDS};
use std::collections::BTreeMap;

/// How many elements a lent table has beyond the setup.
const BEYOND: usize = 3;

/// How often each answer came, by call and number.
#[derive(Clone, Debug, Default)]
pub struct Counts {
    pub sequences: u64,
    pub calls: u64,
    pub answers: BTreeMap<(&'static str, u32), u64>,
    /// How often each boundary was met.
    pub met: BTreeMap<&'static str, u64>,
}

/// A subject and the original, at the same place of one sequence.
pub struct Pair<'a> {
    subject: &'a dyn Subject,
    pub side: Side,
    world: World,
    beyond: World,
}

impl<'a> Pair<'a> {
    pub fn new(subject: &'a dyn Subject, start: &Start) -> Result<Pair<'a>, String> {
        let world = World::of(&start.subpools, start.spilling as u64, start.entries, BEYOND);
        let beyond = world.clone();
        let mut pair = Pair { subject, side: Side::new(start), world, beyond };
        let fresh = Call::Fresh(start.clock, start.margin);
        pair.step(&fresh)?;
        Ok(pair)
    }

    /// One call to both sides; an error says where they differ.
    pub fn step(&mut self, call: &Call) -> Result<Given, String> {
        let given = self.side.give(call);
        let number = call.on(self.subject, &mut self.world);
        let answer = &given.answer;
        if number != answer.number {
            return Err(format!("the number is {number}, the original gives {}", given.line));
        }
        let words = &self.world.answer[..ANSWER_WORDS];
        let values = match (call, number) {
            // the offset is a place in the caller's own buffer: only the length is an answer
            (Call::Part(..), 0) => &[words[1]],
            _ => &words[..answer.values.len()],
        };
        let used = if matches!(call, Call::Part(..)) { 2 } else { answer.values.len() };
        if values != answer.values || words[used..].iter().any(|&w| w != 0) {
            return Err(format!("the answer is {words:?}, the original gives {}", given.line));
        }
        let buffer = &self.world.buffer;
        if buffer.len() < given.bytes.len() || buffer[..given.bytes.len()] != given.bytes[..] {
            let out = hex(&buffer[..buffer.len().min(given.bytes.len())]);
            return Err(format!("handed out {out}, the original gives {}", given.line));
        }
        if !World::untouched(buffer, given.bytes.len()) {
            return Err("wrote behind what it handed out".into());
        }
        Ok(given)
    }

    /// The whole state, as far as the original shows it.
    pub fn compare_state(&mut self) -> Result<(), String> {
        let same = |what: &str, fine: bool| match fine {
            true => Ok(()),
            false => Err(format!("{what} differ in the state afterwards")),
        };
        let (entries, clock) = (self.side.run.entries(), self.side.clock());
        let row = |e: &Entry| {
            let nanos = e.time.nanos as u64;
            [row_secs(e.time.secs), nanos, e.id, e.address]
        };
        let rows: Vec<u64> = entries.iter().flat_map(row).collect();
        let w = &self.world;
        same("the entries", w.rows[..rows.len()] == rows)?;
        let margin = self.side.margin;
        let record = [
            entries.len() as u64,
            clock.0 as u64,
            clock.1 as u64,
            margin.0,
            margin.1 as u64,
            self.side.enabled() as u64,
        ];
        same("the records", w.record[..6] == record)?;
        let (mut at, mut slot) = (0, 0);
        for (k, &(slots, size)) in self.side.start.subpools.iter().enumerate() {
            for s in 0..slots {
                let address = (k as u64) << 16 | s;
                let bytes = &w.store[at..at + size as usize];
                same("the slots", slot_agrees(&self.side, address, w.lens[slot], bytes))?;
                at += size as usize;
                slot += 1;
            }
        }
        self.compare_beyond(at, slot)
    }

    /// What lies beyond the setup is never written.
    fn compare_beyond(&self, bytes: usize, slots: usize) -> Result<(), String> {
        let (w, b) = (&self.world, &self.beyond);
        let rows = self.side.start.entries as usize * ROW_WORDS;
        let kept = w.store[bytes..] == b.store[bytes..]
            && w.lens[slots..] == b.lens[slots..]
            && w.rows[rows..] == b.rows[rows..]
            && w.record[6..] == b.record[6..]
            && w.answer[ANSWER_WORDS..] == b.answer[ANSWER_WORDS..]
            && w.setup == b.setup;
        match kept {
            true => Ok(()),
            false => Err("something beyond the setup was written".into()),
        }
    }

    /// The bytes of the free slots: the original shows them only by giving them away.
    pub fn compare_free_slots(mut self) -> Result<(), String> {
        let mut starts = Vec::new();
        let mut at = 0;
        for &(slots, size) in &self.side.start.subpools {
            starts.push((at, size as usize));
            at += (slots * size) as usize;
        }
        for (address, bytes) in self.side.run.drain() {
            let (start, size) = starts[(address >> 16) as usize];
            let at = start + (address & 0xFFFF) as usize * size;
            if self.world.store[at..at + size] != bytes[..] {
                return Err(format!("the bytes of the free slot {address} differ"));
            }
        }
        Ok(())
    }
}

fn slot_agrees(side: &Side, address: u64, length: u16, bytes: &[u8]) -> bool {
    if side.run.has(address).values != [1] {
        return length == FREE;
    }
    let packet = side.run.packet(address);
    length as usize == packet.len() && bytes[..packet.len()] == packet[..]
}

/// A sequence of calls chosen as it goes, given what the original shows. `next` ends it by giving none.
pub fn sequence(
    subject: &dyn Subject, start: &Start, counts: &mut Counts,
    mut next: impl FnMut(&mut Side) -> Option<Call>, mut seen: impl FnMut(&Call, &Given),
) -> Result<(), (Vec<Call>, String)> {
    let mut calls = Vec::new();
    let mut pair = Pair::new(subject, start).map_err(|e| (vec![], e))?;
    pair.compare_state().map_err(|e| (vec![], e))?;
    counts.sequences += 1;
    while let Some(call) = next(&mut pair.side) {
        let place = pair.side.place(&call);
        if place == Place::Outside {
            continue;
        }
        calls.push(call.clone());
        let mut met = events::before(&call, &mut pair.side);
        let given = pair.step(&call).map_err(|e| (calls.clone(), e))?;
        met.extend(events::after(&call, &pair.side, &given));
        met.iter().for_each(|&event| *counts.met.entry(event).or_default() += 1);
        seen(&call, &given);
        counts.calls += 1;
        *counts.answers.entry((call.name(), given.answer.number)).or_default() += 1;
        if given.answer.number == 13 {
            return Ok(());
        }
        pair.compare_state().map_err(|e| (calls.clone(), e))?;
    }
    pair.compare_free_slots().map_err(|e| (calls, e))
}

/// Runs fixed calls; those outside the domain by now are passed over.
pub fn replay(subject: &dyn Subject, start: &Start, calls: &[Call]) -> Result<(), String> {
    let mut left = calls.iter();
    let mut counts = Counts::default();
    let next = |_: &mut Side| left.next().cloned();
    sequence(subject, start, &mut counts, next, |_, _| ()).map_err(|(_, e)| e)
}

/// The calls that are left when runs of calls, long ones first, without which the sides still differ are taken out.
pub fn shorten(subject: &dyn Subject, start: &Start, calls: &[Call]) -> Vec<Call> {
    let mut calls = calls.to_vec();
    let mut size = calls.len();
    while size > 0 {
        let mut i = 0;
        while i < calls.len() {
            let end = calls.len().min(i + size);
            let fewer = [&calls[..i], &calls[end..]].concat();
            match replay(subject, start, &fewer) {
                Err(_) => calls = fewer,
                Ok(()) => i += size,
            }
        }
        size /= 2;
    }
    calls
}

/// The report of a difference: the shortened sequence in the line protocol.
pub fn report(subject: &dyn Subject, start: &Start, calls: &[Call]) -> String {
    let calls = shorten(subject, start, calls);
    let error = replay(subject, start, &calls).err().unwrap_or_default();
    let lines: Vec<String> = calls.iter().map(|c| line(start, c)).collect();
    format!("{}\n{}\n{error}", start.line(), lines.join("\n"))
}
