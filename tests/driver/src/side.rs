//! The original's side of a sequence: a call, what the original answers and hands out, and whether document 01 counts
//! the call to the domain of equality.
use crate::call::{rewritten, Call, Ends, Instant};
use crate::world::World;
use original::answers::{Answer, Entry, Handed};
use original::lines::{answer_line, hex, release_line};
use original::run::{Mode, Run, Window};
use plain::decode;
use satrs::pus::scheduler::PusSchedulerProvider;
use spacepackets::time::UnixTime;
use std::time::Duration;

/// "Seconds lie between -2^42 and 2^42, both allowed"
pub const END: i64 = 1 << 42;

/// A setup and the start of both sides.
#[derive(Clone, Debug)]
pub struct Start {
    pub subpools: Vec<(u64, u64)>,
    pub spilling: bool,
    pub entries: u64,
    pub clock: Instant,
    pub margin: (u64, u32),
}

impl Start {
    pub fn run(&self, clock: Instant, margin: (u64, u32)) -> Run {
        let pool = |&(slots, size): &(u64, u64)| (slots as u16, size as usize);
        let subpools: Vec<(u16, usize)> = self.subpools.iter().map(pool).collect();
        let run =
            Run::new(&subpools, self.spilling, unix(clock), Duration::new(margin.0, margin.1));
        assert_eq!(run.subpools, subpools, "sanitize leaves the setup as it is");
        run
    }

    pub fn line(&self) -> String {
        let (c, m) = (self.clock, self.margin);
        let spilling = self.spilling as u8;
        let head = format!("new {spilling} {} {} {} {} {}", self.entries, c.0, c.1, m.0, m.1);
        self.subpools.iter().fold(head, |s, (slots, size)| format!("{s} {slots} {size}"))
    }
}

pub fn unix((secs, nanos): Instant) -> UnixTime {
    UnixTime { secs, nanos }
}

fn window(e: &Ends) -> Window {
    match (e.has_from, e.has_to) {
        (false, false) => Window::All,
        (true, true) => Window::FromTo(unix(e.from), unix(e.to)),
        (true, false) => Window::From(unix(e.from)),
        (false, true) => Window::To(unix(e.to)),
    }
}

/// Document 01's log of what the closure was given.
pub fn log_of(records: &[Handed]) -> Vec<u8> {
    let body = |h: &Handed| -> Vec<u8> {
        let (id, address) = (h.id.to_be_bytes(), h.address.to_be_bytes());
        [&[h.enabled as u8], &id[..], &address[..], &h.bytes[..]].concat()
    };
    let bodies: Vec<Vec<u8>> = records.iter().map(body).collect();
    let starts = bodies.iter().scan(8 + 4 * bodies.len(), |at, b| {
        *at += b.len();
        Some((*at - b.len()) as u32)
    });
    let offsets: Vec<u8> = starts.flat_map(u32::to_be_bytes).collect();
    let total = 8 + offsets.len() + bodies.iter().map(Vec::len).sum::<usize>();
    let counts = [bodies.len() as u32, total as u32];
    let head: Vec<u8> = counts.iter().flat_map(|n| n.to_be_bytes()).collect();
    [head, offsets, bodies.concat()].concat()
}

/// Where a call lies: inside the domain, inside as the last of its sequence, or outside.
#[derive(Clone, Copy, Debug, PartialEq, Eq)]
pub enum Place {
    Inside,
    Last,
    Outside,
}

/// What the original gave: the answer, the bytes at the head of the buffer, and both as a line.
pub struct Given {
    pub answer: Answer,
    pub bytes: Vec<u8>,
    pub line: String,
}

/// A start and the original as it stands.
pub struct Side {
    pub start: Start,
    pub run: Run,
    pub margin: (u64, u32),
}

impl Side {
    pub fn new(start: &Start) -> Side {
        let run = start.run(start.clock, start.margin);
        Side { start: start.clone(), run, margin: start.margin }
    }

    pub fn clock(&self) -> Instant {
        let t = self.run.scheduler.current_time();
        (t.secs, t.nanos)
    }

    /// clock + margin
    pub fn earliest(&self) -> Instant {
        let (clock, margin) = (self.clock(), self.margin);
        let nanos = clock.1 + margin.1;
        let carry = (nanos / 1_000_000_000) as i64;
        (clock.0 + margin.0 as i64 + carry, nanos % 1_000_000_000)
    }

    pub fn due(&mut self) -> Vec<Entry> {
        let clock = self.clock();
        self.run.covered(Window::To(unix(clock)))
    }

    /// The bytes of the log that a tick needs, where every due packet is present.
    pub fn log_needed(&mut self) -> usize {
        let due = self.due();
        let length = |e: &Entry| self.run.len(e.address).values.first().map_or(0, |&n| n as usize);
        8 + due.iter().map(|e| 21 + length(e)).sum::<usize>()
    }

    /// "each due packet present at its turn"
    fn all_present(&mut self, delete: bool) -> bool {
        let due = self.due();
        let present = |e: &Entry| self.run.has(e.address).values == [1];
        let mut slots: Vec<_> = due.iter().map(|e| decode(e.address, Default::default())).collect();
        slots.sort();
        let distinct = slots.windows(2).all(|w| w[0] != w[1]);
        due.iter().all(|e| self.run.has(e.address).number == 0 && present(e))
            && (distinct || !delete)
    }

    /// The domain as document 01 names it; that packets and stamps are ones that both read is the generator's part.
    pub fn place(&mut self, call: &Call) -> Place {
        let inside = match call {
            Call::Tick { log, limit, delete } => {
                self.all_present(*delete)
                    && *limit >= self.due().len() as u64
                    && *log >= self.log_needed()
            }
            Call::Window(e) | Call::DeleteWindow(e) => {
                !(e.has_from && e.has_to) || unix(e.from) <= unix(e.to)
            }
            Call::Wrapped(_) | Call::Unwrapped(..) | Call::Stored(..) => {
                self.run.count() < self.start.entries
            }
            _ => true,
        };
        let inside = inside && call_times(call).all(|(secs, _)| (-END..=END).contains(&secs));
        let late = |t: Instant| t < self.earliest();
        match call {
            _ if !inside => Place::Outside,
            Call::Unwrapped(t, _) | Call::Stored(t, _, _) if late(*t) => Place::Last,
            Call::Wrapped(p) if wrapped_time(p).is_some_and(late) => Place::Last,
            _ => Place::Inside,
        }
    }

    pub fn give(&mut self, call: &Call) -> Given {
        let none = || Answer { number: 0, values: vec![] };
        let run = &mut self.run;
        let mut bytes = vec![];
        let answer = match call {
            Call::Add(data) => run.add(data),
            Call::Read(a, n) => {
                bytes = World::buffer_of(*n);
                let answer = run.read(*a, &mut bytes);
                let line = format!("{} {}", answer_line(&answer), hex(&bytes));
                return Given { answer, bytes, line };
            }
            Call::Modify(a) => run.modify(*a, |_, b| b),
            Call::Part(a, by) => run.modify(*a, |i, b| rewritten(i, b, *by)),
            Call::Delete(a) => run.delete(*a),
            Call::Has(a) => run.has(*a),
            Call::Len(a) => run.len(*a),
            Call::Fresh(clock, margin) => {
                self.run = self.start.run(*clock, *margin);
                self.margin = *margin;
                none()
            }
            Call::SetClock(t) => {
                run.scheduler.update_time(unix(*t));
                none()
            }
            Call::Enable => {
                run.scheduler.enable();
                none()
            }
            Call::Disable => {
                run.scheduler.disable();
                none()
            }
            Call::Count => Answer { number: 0, values: vec![run.count()] },
            Call::Wrapped(p) => run.wrapped(p, false),
            Call::Unwrapped(t, p) => run.unwrapped(unix(*t), p),
            Call::Stored(t, id, a) => run.stored(unix(*t), *id, *a),
            Call::Window(e) => run.window(window(e)),
            Call::DeleteWindow(e) => run.delete_window(window(e)),
            Call::Reset => run.reset(),
            Call::DeleteByIdKeep(id) => run.delete_by_id_keep(*id),
            Call::DeleteById(id) => run.delete_by_id(*id),
            Call::Tick { delete, .. } => {
                let mode = if *delete { Mode::Delete } else { Mode::NoDeletionCut(4096) };
                let release = run.release(mode);
                let line = release_line(&release);
                assert_eq!(release.stopped, None, "every due packet is present");
                let answer = Answer { number: 0, values: vec![release.handed, release.left] };
                return Given { answer, bytes: log_of(&release.records), line };
            }
        };
        let line = answer_line(&answer);
        Given { answer, bytes, line }
    }

    pub fn enabled(&self) -> bool {
        self.run.scheduler.is_enabled()
    }
}

/// The times given as arguments: refusal 4 lies outside.
fn call_times(call: &Call) -> impl Iterator<Item = Instant> {
    let times = match call {
        Call::Fresh(t, _) | Call::SetClock(t) => vec![*t],
        Call::Unwrapped(t, _) | Call::Stored(t, _, _) => vec![*t],
        Call::Window(e) | Call::DeleteWindow(e) => vec![e.from, e.to],
        _ => vec![],
    };
    times.into_iter()
}

/// The release time of an insertion request whose 16-bit stamp can be read.
fn wrapped_time(packet: &[u8]) -> Option<Instant> {
    let reading = Default::default();
    let outer = plain::Packet::read(packet, reading)?;
    let (time, _) = plain::read_stamp(outer.user_data, reading)?;
    Some((time.secs, time.nanos as u32))
}

/// The call in the original's line protocol; a fresh start is a new run of the same setup.
pub fn line(start: &Start, call: &Call) -> String {
    let ends = |e: &Ends| {
        let kind = match (e.has_from, e.has_to) {
            (false, false) => 0,
            (true, true) => 1,
            (true, false) => 2,
            (false, true) => 3,
        };
        format!("{kind} {} {} {} {}", e.from.0, e.from.1, e.to.0, e.to.1)
    };
    match call {
        Call::Add(data) => format!("add {}", hex(data)),
        Call::Read(a, n) => format!("read {a} {n}"),
        Call::Modify(a) => format!("modify {a}"),
        Call::Part(a, by) => format!("modify {a} {by}"),
        Call::Delete(a) => format!("delete {a}"),
        Call::Has(a) => format!("has {a}"),
        Call::Len(a) => format!("len {a}"),
        Call::Fresh(clock, margin) => {
            Start { clock: *clock, margin: *margin, ..start.clone() }.line()
        }
        Call::SetClock(t) => format!("clock {} {}", t.0, t.1),
        Call::Enable => "enable".into(),
        Call::Disable => "disable".into(),
        Call::Count => "num".into(),
        Call::Wrapped(p) => format!("wrapped {}", hex(p)),
        Call::Unwrapped(t, p) => format!("unwrapped {} {} {}", t.0, t.1, hex(p)),
        Call::Stored(t, id, a) => format!("stored {} {} {id} {a}", t.0, t.1),
        Call::Window(e) => format!("window {}", ends(e)),
        Call::DeleteWindow(e) => format!("delwin {}", ends(e)),
        Call::Reset => "reset".into(),
        Call::DeleteByIdKeep(id) => format!("delid {id}"),
        Call::DeleteById(id) => format!("delidp {id}"),
        Call::Tick { delete: true, .. } => "release d".into(),
        Call::Tick { .. } => "release k 4096".into(),
    }
}
