//! The scheduler.
use crate::ffi::{self, ask};
use crate::{
    Entries, Freed, Log, Margin, Memory, Refusal, RequestId, Setup, Store, StoreAddr, Tally,
    TcInfo, Ticked, TimeWindow, UnixTime,
};

/// What a tick does with the packets that it hands out.
#[derive(Clone, Copy, Debug, PartialEq, Eq, Hash)]
pub enum Packets {
    /// They stay in the store.
    Keep,
    /// Each is deleted at its turn.
    Delete,
}

/// Entries in release-time order, equal times in insertion order, over a store of packets.
#[derive(Debug)]
pub struct Scheduler<'a> {
    setup: Setup,
    memory: Memory<'a>,
}

/// Passes the whole state to a call, read-only or for writing, and then the call's own arguments.
macro_rules! ask_all {
    (& $call:ident, $self:ident $(, $arg:expr)*) => {{
        let Memory { record, store, lens, rows } = &$self.memory;
        ask(|answer| ffi::$call($self.setup.words(), &record[..], store, lens, rows, $($arg,)* answer))
    }};
    (&mut $call:ident, $self:ident $(, $arg:expr)*) => {{
        let Memory { record, store, lens, rows } = &mut $self.memory;
        ask(|answer| ffi::$call($self.setup.words(), &mut record[..], store, lens, rows, $($arg,)* answer))
    }};
}

impl<'a> Scheduler<'a> {
    /// The scheduler that the memory holds: one from before, or after [`fresh_start`](Scheduler::fresh_start) a new one.
    pub fn new(setup: Setup, memory: Memory<'a>) -> Scheduler<'a> {
        Scheduler { setup, memory }
    }

    /// Starts anew: store and rows zeroed, every slot free, no entries, enabled, with this clock and margin.
    ///
    /// Refuses [`Refusal::BadSetup`], [`Refusal::BadBuffers`], [`Refusal::BadTime`].
    #[doc(alias = "silotwist_fresh")]
    pub fn fresh_start(&mut self, clock: UnixTime, margin: Margin) -> Result<(), Refusal> {
        let (c, m) = (clock, margin);
        ask_all!(&mut silotwist_fresh, self, c.secs, c.nanos, m.secs, m.nanos)?;
        Ok(())
    }

    /// Sets the clock, forward or back.
    ///
    /// Refuses [`Refusal::StateDamaged`] for the record's own clock and margin, [`Refusal::BadTime`].
    #[doc(alias = "silotwist_set_clock")]
    pub fn set_clock(&mut self, clock: UnixTime) -> Result<(), Refusal> {
        let record = &mut self.memory.record[..];
        ask(|answer| ffi::silotwist_set_clock(record, clock.secs, clock.nanos, answer))?;
        Ok(())
    }

    /// Enables the release.
    ///
    /// Refuses [`Refusal::StateDamaged`] for the record's own clock and margin.
    #[doc(alias = "silotwist_enable")]
    pub fn enable(&mut self) -> Result<(), Refusal> {
        ask(|answer| ffi::silotwist_enable(&mut self.memory.record[..], answer))?;
        Ok(())
    }

    /// Disables the release: what is due is handed out as [`Flag::Discarded`](crate::Flag::Discarded).
    ///
    /// Refuses [`Refusal::StateDamaged`] for the record's own clock and margin.
    #[doc(alias = "silotwist_disable")]
    pub fn disable(&mut self) -> Result<(), Refusal> {
        ask(|answer| ffi::silotwist_disable(&mut self.memory.record[..], answer))?;
        Ok(())
    }

    /// Whether the record is marked enabled.
    pub fn is_enabled(&self) -> bool {
        self.memory.record[5] != 0
    }

    /// The number of entries.
    ///
    /// Refuses 1 to 3.
    #[doc(alias = "silotwist_count")]
    pub fn count(&self) -> Result<usize, Refusal> {
        Ok(ask_all!(&silotwist_count, self)?[0] as usize)
    }

    /// Inserts the command that an outer packet of service 11, subservice 4 carries behind a stamp of either width, and
    /// keeps its packet.
    ///
    /// Refuses 1 to 3; for the outer packet [`Refusal::TcUnreadable`], [`Refusal::WrongService`],
    /// [`Refusal::WrongSubservice`], [`Refusal::TcDataEmpty`], [`Refusal::BadTimestamp`]; then as
    /// [`insert_unwrapped_tc`](Scheduler::insert_unwrapped_tc) from [`Refusal::TcUnreadable`] on.
    #[doc(alias = "silotwist_insert_wrapped")]
    pub fn insert_wrapped_tc(&mut self, packet: &[u8]) -> Result<TcInfo, Refusal> {
        let words = ask_all!(&mut silotwist_insert_wrapped, self, packet)?;
        Ok(TcInfo { addr: StoreAddr(words[0]), request_id: RequestId(words[1]) })
    }

    /// Inserts a command for release at a time, and keeps its packet. A release at clock + margin is not late.
    ///
    /// Refuses 1 to 3, [`Refusal::BadTime`], [`Refusal::TcUnreadable`], [`Refusal::NestedScheduledTc`],
    /// [`Refusal::DataTooLarge`], [`Refusal::StoreFull`], [`Refusal::ReleaseTimeInTimeMargin`],
    /// [`Refusal::ScheduleFull`].
    #[doc(alias = "silotwist_insert_unwrapped")]
    pub fn insert_unwrapped_tc(
        &mut self, release: UnixTime, packet: &[u8],
    ) -> Result<TcInfo, Refusal> {
        let (secs, nanos) = (release.secs, release.nanos);
        let words = ask_all!(&mut silotwist_insert_unwrapped, self, secs, nanos, packet)?;
        Ok(TcInfo { addr: StoreAddr(words[0]), request_id: RequestId(words[1]) })
    }

    /// Inserts an entry for a packet that the store has already. The address is kept as given and not judged.
    ///
    /// Refuses 1 to 3, [`Refusal::BadTime`], [`Refusal::ReleaseTimeInTimeMargin`], [`Refusal::ScheduleFull`].
    #[doc(alias = "silotwist_insert_stored")]
    pub fn insert_unwrapped_and_stored_tc(
        &mut self, release: UnixTime, tc: TcInfo,
    ) -> Result<(), Refusal> {
        let (secs, nanos, id, addr) = (release.secs, release.nanos, tc.request_id.0, tc.addr.0);
        ask_all!(&mut silotwist_insert_stored, self, secs, nanos, id, addr)?;
        Ok(())
    }

    /// The entries of a window.
    ///
    /// Refuses 1 to 3, [`Refusal::BadTime`], [`Refusal::ReversedWindow`].
    #[doc(alias = "silotwist_window")]
    pub fn retrieve_by_time_filter(&self, window: TimeWindow) -> Result<Entries<'_>, Refusal> {
        let [(from, a), (to, b)] = window.ends();
        let words = ask_all!(&silotwist_window, self, from, a.secs, a.nanos, to, b.secs, b.nanos)?;
        Ok(Entries::new(words[0] as usize, words[1] as usize, self.memory.rows))
    }

    /// Deletes the entries of a window and their packets.
    ///
    /// Refuses 1 to 3, [`Refusal::BadTime`], [`Refusal::ReversedWindow`].
    #[doc(alias = "silotwist_delete_window")]
    pub fn delete_by_time_filter(&mut self, window: TimeWindow) -> Result<Tally, Refusal> {
        let [(from, a), (to, b)] = window.ends();
        ask_all!(&mut silotwist_delete_window, self, from, a.secs, a.nanos, to, b.secs, b.nanos)
            .map(Tally::of)
    }

    /// Deletes all entries and their packets, and disables.
    ///
    /// Refuses 1 to 3.
    #[doc(alias = "silotwist_reset")]
    pub fn reset(&mut self) -> Result<Tally, Refusal> {
        ask_all!(&mut silotwist_reset, self).map(Tally::of)
    }

    /// Deletes an entry and keeps its packet, whose address it answers: of the earliest release time that has this
    /// request ID the last such entry. None where no entry has it.
    ///
    /// Refuses 1 to 3.
    #[doc(alias = "silotwist_delete_by_id_keep")]
    pub fn delete_by_request_id(&mut self, id: RequestId) -> Result<Option<StoreAddr>, Refusal> {
        let words = ask_all!(&mut silotwist_delete_by_id_keep, self, id.0)?;
        Ok((words[0] == 1).then_some(StoreAddr(words[1])))
    }

    /// As [`delete_by_request_id`](Scheduler::delete_by_request_id), and deletes the packet too.
    ///
    /// Refuses 1 to 3.
    #[doc(alias = "silotwist_delete_by_id")]
    pub fn delete_by_request_id_and_from_pool(&mut self, id: RequestId) -> Result<Freed, Refusal> {
        ask_all!(&mut silotwist_delete_by_id, self, id.0).map(Freed::of)
    }

    /// Hands out due entries in schedule order, as many as `limit` allows and `log` holds; they leave the schedule.
    /// A missing packet is handed out as [`Flag::Missing`](crate::Flag::Missing) and stops nothing. Of the log the
    /// first 1,048,576 bytes are used; what lies behind the records stays.
    ///
    /// Refuses 1 to 3, [`Refusal::LogTooSmall`].
    #[doc(alias = "silotwist_tick")]
    pub fn tick<'l>(
        &mut self, log: &'l mut [u8], limit: u64, packets: Packets,
    ) -> Result<Ticked<'l>, Refusal> {
        let delete = packets == Packets::Delete;
        let words = ask_all!(&mut silotwist_tick, self, log, limit, delete)?;
        let log = Log::read(log).expect("a tick writes a log");
        Ok(Ticked { log, still_due: words[1] as usize })
    }

    /// The scheduler's store.
    pub fn store(&mut self) -> Store<'_> {
        Store::new(self.setup, self.memory.store, self.memory.lens)
    }

    /// The memory, to look at or to keep.
    pub fn memory(&self) -> &Memory<'a> {
        &self.memory
    }
}
