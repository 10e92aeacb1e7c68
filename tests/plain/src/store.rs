//! Module 4: the static store.
use crate::refusal::Refusal;
use crate::rule::{Reading, Rule};
use crate::setup::Setup;
use crate::subject::FREE;

/// "The constant 0xFFFFFFFF (`INVALID_ADDR`) belongs to the address type."
pub const INVALID_ADDR: u32 = 0xFFFF_FFFF;

#[derive(Clone, Debug)]
struct Slot {
    length: Option<usize>,
    /// All bytes of the slot.
    bytes: Vec<u8>,
}

#[derive(Clone, Debug)]
struct Pool {
    slot_size: usize,
    slots: Vec<Slot>,
}

#[derive(Clone, Debug)]
pub struct Store {
    reading: Reading,
    spilling: bool,
    pools: Vec<Pool>,
}

/// "An address is subpool x 65,536 + slot"
pub fn encode(subpool: u64, slot: u64) -> u64 {
    subpool * 65_536 + slot
}

/// "decoding keeps only bits 16-23 and 0-7, so 256 names slot 0"
pub fn decode(address: u64, reading: Reading) -> (u64, u64) {
    let slot_bits = if reading.breaks(Rule::SixteenSlotBits) { 0xFFFF } else { 0xFF };
    let pool_bits = if reading.breaks(Rule::SixteenSubpoolBits) { 0xFFFF } else { 0xFF };
    (address >> 16 & pool_bits, address & slot_bits)
}

/// Lent tables as a store, and back.
impl Store {
    pub fn lay(setup: &Setup, store: &[u8], lens: &[u16], reading: Reading) -> Store {
        let (mut at, mut row) = (0, 0);
        let mut pools = Vec::new();
        for pool in &setup.subpools {
            let mut slots = Vec::new();
            for _ in 0..pool.slots {
                let length = Some(lens[row] as usize).filter(|_| lens[row] != FREE);
                slots.push(Slot { length, bytes: store[at..at + pool.slot_size].to_vec() });
                at += pool.slot_size;
                row += 1;
            }
            pools.push(Pool { slot_size: pool.slot_size, slots });
        }
        Store { reading, spilling: setup.spilling, pools }
    }

    pub fn put_back(&self, store: &mut [u8], lens: &mut [u16]) {
        let (mut at, mut row) = (0, 0);
        for slot in self.pools.iter().flat_map(|p| &p.slots) {
            store[at..at + slot.bytes.len()].copy_from_slice(&slot.bytes);
            at += slot.bytes.len();
            lens[row] = slot.length.map_or(FREE, |n| n as u16);
            row += 1;
        }
    }
}

/// Finding.
impl Store {
    fn breaks(&self, rule: Rule) -> bool {
        self.reading.breaks(rule)
    }

    /// 16, 17: "decoded index not in the setup; the index"
    fn locate(&self, address: u64) -> Result<(usize, usize), Refusal> {
        let (subpool, slot) = decode(address, self.reading);
        let pool = self.pools.get(subpool as usize).ok_or(Refusal::InvalidSubpool(subpool))?;
        match slot as usize >= pool.slots.len() {
            true => Err(Refusal::InvalidPacketIdx(slot)),
            false => Ok((subpool as usize, slot as usize)),
        }
    }

    /// 18: "slot free; the address after decoding"
    fn find(&self, address: u64) -> Result<(usize, usize, usize), Refusal> {
        let (subpool, slot) = self.locate(address)?;
        let named = match self.breaks(Rule::MissingNamedAsGiven) {
            true => address,
            false => encode(subpool as u64, slot as u64),
        };
        let length = self.pools[subpool].slots[slot].length;
        Ok((subpool, slot, length.ok_or(Refusal::DataDoesNotExist(named))?))
    }

    /// "the first subpool whose slot size is at least the length"; 11: "no slot size holds it; the length"
    fn fitting(&self, length: usize) -> Result<usize, Refusal> {
        let exact = !self.breaks(Rule::SlotExactlyMetRefused);
        let holds = |p: &Pool| p.slot_size > length || exact && p.slot_size == length;
        self.pools.iter().position(holds).ok_or(Refusal::DataTooLarge(length))
    }

    /// "then the lowest free slot"
    fn free_slot(&self, subpool: usize) -> Option<usize> {
        let slots = &self.pools[subpool].slots;
        match self.breaks(Rule::HighestFreeSlot) {
            true => slots.iter().rposition(|s| s.length.is_none()),
            false => slots.iter().position(|s| s.length.is_none()),
        }
    }

    /// "With spilling on, it tries later subpools in turn"
    fn tried(&self, chosen: usize) -> Vec<usize> {
        let spilling = match self.reading.broken {
            Some(Rule::NeverSpills) => false,
            Some(Rule::AlwaysSpills) => true,
            _ => self.spilling,
        };
        match spilling {
            true => (chosen..self.pools.len()).collect(),
            false => vec![chosen],
        }
    }

    /// "if all are taken, StoreFull names the last; without spilling, the chosen one"
    fn choose(&self, length: usize) -> Result<(usize, usize), Refusal> {
        let tried = self.tried(self.fitting(length)?);
        for &subpool in &tried {
            if let Some(slot) = self.free_slot(subpool) {
                return Ok((subpool, slot));
            }
        }
        let named = match self.breaks(Rule::FullNamesFirst) {
            true => tried[0],
            false => *tried.last().expect("at least the chosen one"),
        };
        Err(Refusal::StoreFull(named))
    }
}

/// The calls.
impl Store {
    pub fn add(&mut self, data: &[u8]) -> Result<u64, Refusal> {
        let (subpool, index) = self.choose(data.len())?;
        let clears = self.breaks(Rule::AddClearsTail);
        let slot = &mut self.pools[subpool].slots[index];
        slot.bytes[..data.len()].copy_from_slice(data);
        if clears {
            slot.bytes[data.len()..].fill(0);
        }
        slot.length = Some(data.len());
        Ok(encode(subpool as u64, index as u64))
    }

    /// The packet's own bytes.
    pub fn packet(&self, address: u64) -> Result<&[u8], Refusal> {
        let (subpool, slot, length) = self.find(address)?;
        let whole = self.breaks(Rule::WholeSlotRead);
        let bytes = &self.pools[subpool].slots[slot].bytes;
        Ok(if whole { bytes } else { &bytes[..length] })
    }

    /// "Read: 16 to 19"; 19: "read buffer below the length; found, expected"
    pub fn read(&self, address: u64, buffer: &mut [u8]) -> Result<u64, Refusal> {
        let packet = self.packet(address)?;
        let (found, expected) = (buffer.len(), packet.len());
        if found < expected || found == expected && self.breaks(Rule::BufferExactlyMetRefused) {
            return Err(Refusal::BufferTooSmall { found, expected });
        }
        buffer[..expected].copy_from_slice(packet);
        if self.breaks(Rule::ReadClearsBuffer) {
            buffer[expected..].fill(0);
        }
        Ok(expected as u64)
    }

    /// Where the packet's bytes lie in the lent store, and how many.
    pub fn part(&self, address: u64) -> Result<(u64, u64), Refusal> {
        let (subpool, slot, length) = self.find(address)?;
        let before: usize = self.pools[..subpool].iter().map(|p| p.slot_size * p.slots.len()).sum();
        let offset = before + slot * self.pools[subpool].slot_size;
        Ok((offset as u64, length as u64))
    }

    /// "A delete zeroes the whole slot."
    pub fn delete(&mut self, address: u64) -> Result<(), Refusal> {
        let (subpool, slot, length) = self.find(address)?;
        let only_length = self.breaks(Rule::DeleteZeroesLengthOnly);
        let slot = &mut self.pools[subpool].slots[slot];
        let end = if only_length { length } else { slot.bytes.len() };
        slot.bytes[..end].fill(0);
        slot.length = None;
        Ok(())
    }

    /// "its length is 0, as for a free slot, but `has_element_at` says yes"
    pub fn has(&self, address: u64) -> Result<bool, Refusal> {
        let (subpool, slot) = self.locate(address)?;
        let length = self.pools[subpool].slots[slot].length;
        Ok(match self.breaks(Rule::EmptyPacketIsNone) {
            true => length.is_some_and(|n| n > 0),
            false => length.is_some(),
        })
    }

    pub fn len(&self, address: u64) -> Result<u64, Refusal> {
        let (subpool, slot) = self.locate(address)?;
        let free = if self.breaks(Rule::FreeLengthShown) { FREE as usize } else { 0 };
        Ok(self.pools[subpool].slots[slot].length.unwrap_or(free) as u64)
    }
}
