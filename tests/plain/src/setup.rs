//! The setup's words and refusal 1.
use crate::refusal::Refusal;
use crate::rule::{Reading, Rule};
use crate::subject::SETUP_HEAD;

pub const STORE_BYTES: u64 = 1_048_576;

#[derive(Clone, Copy, Debug, PartialEq, Eq)]
pub struct Subpool {
    pub slots: usize,
    pub slot_size: usize,
}

#[derive(Clone, Debug, PartialEq, Eq)]
pub struct Setup {
    pub spilling: bool,
    pub entries: u64,
    pub subpools: Vec<Subpool>,
}

/// Whose sizes are judged: "Store calls judge only the store's part".
#[derive(Clone, Copy, Debug, PartialEq, Eq)]
pub enum Part {
    Store,
    All,
}

/// "1-8 subpools", and as many words as they need, "no fewer and no more"
fn subpool_words(words: &[u64], reading: Reading) -> Option<&[u64]> {
    let &number = words.first()?;
    let most = if reading.breaks(Rule::NineSubpools) { 9 } else { 8 };
    if !(1..=most).contains(&number) {
        return None;
    }
    let end = SETUP_HEAD + 2 * number as usize;
    let fits = words.len() == end || reading.breaks(Rule::LongSetupAccepted) && words.len() > end;
    fits.then(|| &words[SETUP_HEAD..end])
}

/// "1-256 slots each", "slot sizes .. 1-4,096 bytes"
fn sizes_in_range(slots: u64, size: u64, reading: Reading) -> bool {
    let most_slots = if reading.breaks(Rule::MoreSlotsAccepted) { 257 } else { 256 };
    let largest = if reading.breaks(Rule::LargerSlotsAccepted) { 4_097 } else { 4_096 };
    (1..=most_slots).contains(&slots) && (1..=largest).contains(&size)
}

/// "slot sizes strictly rising"
fn rising(sizes: &[u64], reading: Reading) -> bool {
    let equal_too = reading.breaks(Rule::EqualSlotSizesAccepted);
    sizes.windows(2).all(|w| w[0] < w[1] || equal_too && w[0] == w[1])
}

/// "1-4,096 entries"
fn entries_in_range(entries: u64, reading: Reading) -> bool {
    let most = if reading.breaks(Rule::MoreEntriesAccepted) { 4_097 } else { 4_096 };
    (1..=most).contains(&entries)
}

/// "1,048,576 store bytes at most"
fn bytes_in_range(subpools: &[Subpool], reading: Reading) -> bool {
    let bytes: u64 = subpools.iter().map(|p| (p.slots * p.slot_size) as u64).sum();
    bytes <= STORE_BYTES || reading.breaks(Rule::StoreBytesNotJudged)
}

impl Setup {
    /// 1: "a subpool, slot, byte or entry size above is broken"
    pub fn read(words: &[u64], part: Part, reading: Reading) -> Result<Setup, Refusal> {
        let pools = subpool_words(words, reading).ok_or(Refusal::BadSetup)?;
        let pairs: Vec<(u64, u64)> = pools.chunks(2).map(|p| (p[0], p[1])).collect();
        let sizes: Vec<u64> = pairs.iter().map(|p| p.1).collect();
        let each = pairs.iter().all(|&(slots, size)| sizes_in_range(slots, size, reading));
        if !each || !rising(&sizes, reading) {
            return Err(Refusal::BadSetup);
        }
        let subpool = |&(slots, size): &(u64, u64)| Subpool {
            slots: slots as usize,
            slot_size: size as usize,
        };
        let subpools: Vec<Subpool> = pairs.iter().map(subpool).collect();
        let judge_entries = part == Part::All || reading.breaks(Rule::StoreCallsJudgeEntries);
        let entries_fine = !judge_entries || entries_in_range(words[2], reading);
        if !bytes_in_range(&subpools, reading) || !entries_fine {
            return Err(Refusal::BadSetup);
        }
        let spilling = words[1] == 1 || words[1] != 0 && !reading.breaks(Rule::SpillingOnlyByOne);
        Ok(Setup { spilling, entries: words[2], subpools })
    }

    pub fn bytes(&self) -> usize {
        self.subpools.iter().map(|p| p.slots * p.slot_size).sum()
    }

    pub fn slots(&self) -> usize {
        self.subpools.iter().map(|p| p.slots).sum()
    }
}
