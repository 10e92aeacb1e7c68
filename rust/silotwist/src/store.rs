//! The static store.
use crate::ffi::{self, ask};
use crate::{Refusal, Setup};

/// Where a packet lies: subpool * 65,536 + slot. Decoding keeps bits 16-23 and 0-7 only, so 256 names slot 0.
#[derive(Clone, Copy, Debug, PartialEq, Eq, Hash)]
pub struct StoreAddr(
    /// The address as a number.
    pub u64,
);

impl StoreAddr {
    /// An address that no setup has.
    pub const INVALID_ADDR: StoreAddr = StoreAddr(0xFFFF_FFFF);
}

/// The store alone: each subpool a row of slots of one size. Its calls judge the store's part of 1 to 3 only.
#[derive(Debug)]
pub struct Store<'a> {
    setup: Setup,
    bytes: &'a mut [u8],
    lens: &'a mut [u16],
}

impl<'a> Store<'a> {
    /// The store that the slices hold. A store is empty where each slot's length is [`FREE`](crate::FREE).
    pub fn new(setup: Setup, bytes: &'a mut [u8], lens: &'a mut [u16]) -> Store<'a> {
        Store { setup, bytes, lens }
    }

    /// Keeps a packet, an empty one too, in the first subpool whose slots hold it, in the lowest free slot. With
    /// spilling, later subpools are tried in turn.
    ///
    /// Refuses 1 to 3, [`Refusal::DataTooLarge`], [`Refusal::StoreFull`].
    #[doc(alias = "silotwist_store_add")]
    pub fn add(&mut self, data: &[u8]) -> Result<StoreAddr, Refusal> {
        let (setup, store, lens) = (self.setup.words(), &mut *self.bytes, &mut *self.lens);
        let words = ask(|answer| ffi::silotwist_store_add(setup, store, lens, data, answer))?;
        Ok(StoreAddr(words[0]))
    }

    /// Copies a packet to the beginning of `buffer` and answers its length. The rest of the buffer stays.
    ///
    /// Refuses 1 to 3, [`Refusal::InvalidSubpool`], [`Refusal::InvalidPacketIdx`], [`Refusal::DataDoesNotExist`],
    /// [`Refusal::BufferTooSmall`].
    #[doc(alias = "silotwist_store_read")]
    pub fn read(&self, addr: StoreAddr, buffer: &mut [u8]) -> Result<usize, Refusal> {
        let (setup, store, lens) = (self.setup.words(), &*self.bytes, &*self.lens);
        let words =
            ask(|answer| ffi::silotwist_store_read(setup, store, lens, addr.0, buffer, answer))?;
        Ok(words[0] as usize)
    }

    /// The length of the packet that [`modify_part`](Store::modify_part) would lend.
    ///
    /// Refuses 1 to 3, [`Refusal::InvalidSubpool`], [`Refusal::InvalidPacketIdx`], [`Refusal::DataDoesNotExist`].
    #[doc(alias = "silotwist_store_modify")]
    pub fn modify(&self, addr: StoreAddr) -> Result<usize, Refusal> {
        let (setup, store, lens) = (self.setup.words(), &*self.bytes, &*self.lens);
        let words = ask(|answer| ffi::silotwist_store_modify(setup, store, lens, addr.0, answer))?;
        Ok(words[0] as usize)
    }

    /// Lends a packet's bytes for writing, where they lie in the store.
    ///
    /// Refuses as [`modify`](Store::modify).
    #[doc(alias = "silotwist_store_part")]
    pub fn modify_part(&mut self, addr: StoreAddr) -> Result<&mut [u8], Refusal> {
        let (setup, store, lens) = (self.setup.words(), &*self.bytes, &*self.lens);
        let words = ask(|answer| ffi::silotwist_store_part(setup, store, lens, addr.0, answer))?;
        let (offset, length) = (words[0] as usize, words[1] as usize);
        Ok(&mut self.bytes[offset..offset + length])
    }

    /// Deletes a packet: its whole slot is zeroed and free.
    ///
    /// Refuses 1 to 3, [`Refusal::InvalidSubpool`], [`Refusal::InvalidPacketIdx`], [`Refusal::DataDoesNotExist`].
    #[doc(alias = "silotwist_store_delete")]
    pub fn delete(&mut self, addr: StoreAddr) -> Result<(), Refusal> {
        let (setup, store, lens) = (self.setup.words(), &mut *self.bytes, &mut *self.lens);
        ask(|answer| ffi::silotwist_store_delete(setup, store, lens, addr.0, answer))?;
        Ok(())
    }

    /// Whether there is a packet, an empty one too.
    ///
    /// Refuses 1 to 3, [`Refusal::InvalidSubpool`], [`Refusal::InvalidPacketIdx`].
    #[doc(alias = "silotwist_store_has")]
    pub fn has_element_at(&self, addr: StoreAddr) -> Result<bool, Refusal> {
        let (setup, store, lens) = (self.setup.words(), &*self.bytes, &*self.lens);
        let words = ask(|answer| ffi::silotwist_store_has(setup, store, lens, addr.0, answer))?;
        Ok(words[0] == 1)
    }

    /// The length of a packet, 0 where the slot is free.
    ///
    /// Refuses 1 to 3, [`Refusal::InvalidSubpool`], [`Refusal::InvalidPacketIdx`].
    #[doc(alias = "silotwist_store_len")]
    pub fn len_of_data(&self, addr: StoreAddr) -> Result<usize, Refusal> {
        let (setup, store, lens) = (self.setup.words(), &*self.bytes, &*self.lens);
        let words = ask(|answer| ffi::silotwist_store_len(setup, store, lens, addr.0, answer))?;
        Ok(words[0] as usize)
    }
}
