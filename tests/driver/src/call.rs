//! The calls of silotwist.h as data, so that one generator can drive any subject.
use crate::world::World;
use plain::Subject;

/// Seconds and nanoseconds as a caller gives them.
pub type Instant = (i64, u32);

#[derive(Clone, Copy, Debug, PartialEq, Eq)]
pub struct Ends {
    pub has_from: bool,
    pub from: Instant,
    pub has_to: bool,
    pub to: Instant,
}

#[derive(Clone, Debug, PartialEq, Eq)]
pub enum Call {
    Add(Vec<u8>),
    /// Address, bytes of the buffer.
    Read(u64, usize),
    Modify(u64),
    /// Address; what the packet's bytes are changed by where the part is lent.
    Part(u64, u8),
    Delete(u64),
    Has(u64),
    Len(u64),
    /// Clock, margin.
    Fresh(Instant, (u64, u32)),
    SetClock(Instant),
    Enable,
    Disable,
    Count,
    Wrapped(Vec<u8>),
    Unwrapped(Instant, Vec<u8>),
    /// Time, request ID, address.
    Stored(Instant, u64, u64),
    Window(Ends),
    DeleteWindow(Ends),
    Reset,
    DeleteByIdKeep(u64),
    DeleteById(u64),
    Tick {
        log: usize,
        limit: u64,
        delete: bool,
    },
}

impl Call {
    pub fn name(&self) -> &'static str {
        match self {
            Call::Add(..) => "store_add",
            Call::Read(..) => "store_read",
            Call::Modify(..) => "store_modify",
            Call::Part(..) => "store_part",
            Call::Delete(..) => "store_delete",
            Call::Has(..) => "store_has",
            Call::Len(..) => "store_len",
            Call::Fresh(..) => "fresh",
            Call::SetClock(..) => "set_clock",
            Call::Enable => "enable",
            Call::Disable => "disable",
            Call::Count => "count",
            Call::Wrapped(..) => "insert_wrapped",
            Call::Unwrapped(..) => "insert_unwrapped",
            Call::Stored(..) => "insert_stored",
            Call::Window(..) => "window",
            Call::DeleteWindow(..) => "delete_window",
            Call::Reset => "reset",
            Call::DeleteByIdKeep(..) => "delete_by_id_keep",
            Call::DeleteById(..) => "delete_by_id",
            Call::Tick { .. } => "tick",
        }
    }

    /// Calls the subject on the world's tables; the world's buffer is the read buffer or the log.
    pub fn on(&self, subject: &dyn Subject, w: &mut World) -> u32 {
        w.buffer = World::buffer_of(match *self {
            Call::Read(_, n) | Call::Tick { log: n, .. } => n,
            _ => 0,
        });
        let World { setup, record, store, lens, rows, buffer, answer } = w;
        let s = subject;
        match *self {
            Call::Add(ref data) => s.silotwist_store_add(setup, store, lens, data, answer),
            Call::Read(a, _) => s.silotwist_store_read(setup, store, lens, a, buffer, answer),
            Call::Modify(a) => s.silotwist_store_modify(setup, store, lens, a, answer),
            Call::Part(a, by) => {
                let number = s.silotwist_store_part(setup, store, lens, a, answer);
                if number == 0 {
                    let (at, n) = (answer[0] as usize, answer[1] as usize);
                    if let Some(part) = store.get_mut(at..at.saturating_add(n)) {
                        rewrite(part, by);
                    }
                }
                number
            }
            Call::Delete(a) => s.silotwist_store_delete(setup, store, lens, a, answer),
            Call::Has(a) => s.silotwist_store_has(setup, store, lens, a, answer),
            Call::Len(a) => s.silotwist_store_len(setup, store, lens, a, answer),
            Call::Fresh((cs, cn), (ms, mn)) => {
                s.silotwist_fresh(setup, record, store, lens, rows, cs, cn, ms, mn, answer)
            }
            Call::SetClock((secs, nanos)) => s.silotwist_set_clock(record, secs, nanos, answer),
            Call::Enable => s.silotwist_enable(record, answer),
            Call::Disable => s.silotwist_disable(record, answer),
            Call::Count => s.silotwist_count(setup, record, store, lens, rows, answer),
            Call::Wrapped(ref p) => {
                s.silotwist_insert_wrapped(setup, record, store, lens, rows, p, answer)
            }
            Call::Unwrapped((secs, nanos), ref p) => s.silotwist_insert_unwrapped(
                setup, record, store, lens, rows, secs, nanos, p, answer,
            ),
            Call::Stored((secs, nanos), id, a) => s.silotwist_insert_stored(
                setup, record, store, lens, rows, secs, nanos, id, a, answer,
            ),
            Call::Window(Ends { has_from: f, from, has_to: t, to }) => s.silotwist_window(
                setup, record, store, lens, rows, f, from.0, from.1, t, to.0, to.1, answer,
            ),
            Call::DeleteWindow(Ends { has_from: f, from, has_to: t, to }) => s
                .silotwist_delete_window(
                    setup, record, store, lens, rows, f, from.0, from.1, t, to.0, to.1, answer,
                ),
            Call::Reset => s.silotwist_reset(setup, record, store, lens, rows, answer),
            Call::DeleteByIdKeep(id) => {
                s.silotwist_delete_by_id_keep(setup, record, store, lens, rows, id, answer)
            }
            Call::DeleteById(id) => {
                s.silotwist_delete_by_id(setup, record, store, lens, rows, id, answer)
            }
            Call::Tick { limit, delete, .. } => {
                s.silotwist_tick(setup, record, store, lens, rows, buffer, limit, delete, answer)
            }
        }
    }
}

/// What a caller writes through a lent part.
pub fn rewrite(part: &mut [u8], by: u8) {
    for (i, b) in part.iter_mut().enumerate() {
        *b = rewritten(i, *b, by);
    }
}

pub fn rewritten(place: usize, byte: u8, by: u8) -> u8 {
    byte ^ by.wrapping_add(place as u8)
}
