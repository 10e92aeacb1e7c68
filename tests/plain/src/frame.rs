//! What the calls share: the answer's words, judging in front, and putting back only where nothing was refused.
use crate::judge;
use crate::refusal::Refusal;
use crate::rule::{Reading, Rule};
use crate::schedule::{ById, Removed, Window};
use crate::state::{Record, State};
use crate::store::Store;
use crate::subject::{ANSWER_WORDS, FREE, RECORD_WORDS, ROW_WORDS};
use crate::time::{Margin, Time};
use crate::Plain;

pub type Answer = Result<Vec<u64>, Refusal>;

/// "An `answer` of fewer than 8 words is judged before anything else: BadBuffers, and nothing at all is written";
/// else its first 8 words hold the values, "unused ones 0; words behind them are never written".
pub fn reply(reading: Reading, answer: &mut [u64], call: impl FnOnce() -> Answer) -> u32 {
    if answer.len() < ANSWER_WORDS {
        return Refusal::BadBuffers.number();
    }
    let (number, values) = match call() {
        Ok(values) => (0, values),
        Err(refusal) => (refusal.number(), refusal.values()),
    };
    if !reading.breaks(Rule::AnswerWordsLeft) {
        answer[..ANSWER_WORDS].fill(0);
    }
    answer[..values.len()].copy_from_slice(&values);
    number
}

pub fn time(secs: i64, nanos: u32) -> Time {
    Time { secs, nanos: nanos as u64 }
}

/// "A window has a start if has_from and an end if has_to; an end that it has not is not looked at."
pub fn window(has_from: bool, from: Time, has_to: bool, to: Time) -> Window {
    Window { from: has_from.then_some(from), to: has_to.then_some(to) }
}

/// 4 for the ends that the window has, then 15.
pub fn judge_window(window: Window, ends: [Time; 2], reading: Reading) -> Result<(), Refusal> {
    if reading.breaks(Rule::ReversedBeforeTime) {
        window.judge(reading)?;
    }
    for end in window.from.into_iter().chain(window.to) {
        judge::time_argument(end, reading)?;
    }
    if reading.breaks(Rule::UnusedEndJudged) {
        ends.iter().try_for_each(|&end| judge::time_argument(end, reading))?;
    }
    window.judge(reading)
}

/// "[deleted, missing, number of the last refusal for a missing packet or 0, its values]"
pub fn removed_words(removed: Removed) -> Vec<u64> {
    let mut words = vec![removed.deleted, removed.missing];
    words.push(removed.last.as_ref().map_or(0, |r| r.number() as u64));
    words.extend(removed.last.map_or(vec![], |r| r.values()));
    words
}

/// "keep: [0] no match, or [1, address as inserted]. delete: [0] no match, or [1, 1] packet deleted, or
/// [1, 0, number of the store's refusal, its values]."
pub fn by_id_words(answer: ById) -> Vec<u64> {
    match answer {
        ById::NoMatch => vec![0],
        ById::Kept(address) => vec![1, address],
        ById::Deleted => vec![1, 1],
        ById::Missing(r) => [vec![1, 0, r.number() as u64], r.values()].concat(),
    }
}

/// The three calls that "see the record alone: 3 for its clock and margin, 4".
impl Plain {
    pub fn record_call(
        &self, record: &mut [u64], argument: Option<Time>, change: impl FnOnce(&mut [u64]),
    ) -> Answer {
        let reading = self.reading;
        judge::record_room(record)?;
        if !(reading.breaks(Rule::ClockMendsDamage) && argument.is_some()) {
            judge::record_times(&Record::read(record, reading), reading)?;
        }
        argument.map_or(Ok(()), |t| judge::time_argument(t, reading))?;
        change(record);
        Ok(vec![])
    }

    /// A store call that looks: judged, then answered from the model.
    pub fn look(
        &self, (setup, store, lens): (&[u64], &[u8], &[u16]), call: impl FnOnce(&Store) -> Answer,
    ) -> Answer {
        let setup = judge::store_part(setup, store, lens, self.reading)?;
        call(&Store::lay(&setup, store, lens, self.reading))
    }

    /// A store call that changes: "A refusal changes no lent byte".
    pub fn change(
        &self, (setup, store, lens): (&[u64], &mut [u8], &mut [u16]),
        call: impl FnOnce(&mut Store) -> Answer,
    ) -> Answer {
        let setup = judge::store_part(setup, store, lens, self.reading)?;
        let mut model = Store::lay(&setup, store, lens, self.reading);
        let values = call(&mut model)?;
        model.put_back(store, lens);
        Ok(values)
    }

    /// A scheduler call that changes: "A refusal changes no lent byte and no record." `argument` is judged by 4.
    pub fn step(
        &self, (setup, record, store, lens, rows): Tables, argument: Option<Time>,
        call: impl FnOnce(&mut State) -> Answer,
    ) -> Answer {
        let judge_argument = || argument.map_or(Ok(()), |t| judge::time_argument(t, self.reading));
        if self.reading.breaks(Rule::TimeBeforeDamage) {
            judge::room(setup, record, store, lens, rows, self.reading)?;
            judge_argument()?;
        }
        let mut state = State::judged(setup, record, store, lens, rows, self.reading)?;
        judge_argument()?;
        let answer = call(&mut state);
        if self.keeps_slot(&answer) {
            state.store.put_back(store, lens);
        }
        let values = answer?;
        state.put_back(record, store, lens, rows);
        Ok(values)
    }
}

pub type Tables<'a> = (&'a [u64], &'a mut [u64], &'a mut [u8], &'a mut [u16], &'a mut [u64]);

/// "Late insertion: the Rust stores first and loses the slot at refusal 13." Here only where that rule is broken.
impl Plain {
    fn keeps_slot(&self, answer: &Answer) -> bool {
        match answer {
            Err(Refusal::ReleaseTimeInTimeMargin { .. }) => {
                self.reading.breaks(Rule::LateInsertionKeepsItsSlot)
            }
            Err(Refusal::ScheduleFull) => self.reading.breaks(Rule::FullScheduleKeepsTheSlot),
            _ => false,
        }
    }
}

/// "A fresh start knows 1, 2 and 4 only".
impl Plain {
    pub fn fresh(
        &self, (setup, record, store, lens, rows): Tables, clock: Time, margin: Margin,
    ) -> Answer {
        let setup = judge::room(setup, record, store, lens, rows, self.reading)?;
        judge::time_argument(clock, self.reading)?;
        judge::margin_argument(margin, self.reading)?;
        let beyond = self.reading.breaks(Rule::FreshClearsBeyondTheSetup);
        let bytes = if beyond { store.len() } else { setup.bytes() };
        store[..bytes].fill(0);
        lens[..setup.slots()].fill(FREE);
        if !self.reading.breaks(Rule::FreshKeepsRows) {
            rows[..setup.entries as usize * ROW_WORDS].fill(0);
        }
        let enabled = !self.reading.breaks(Rule::FreshStartsDisabled) as u64;
        let words = [0, clock.secs as u64, clock.nanos, margin.secs, margin.nanos, enabled];
        record[..RECORD_WORDS].copy_from_slice(&words);
        Ok(vec![])
    }
}
