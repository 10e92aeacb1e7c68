//! What a sequence met on its way: the boundaries that a run against the original should have seen, counted.
use crate::call::{Call, Ends, Instant};
use crate::side::{Given, Side};

/// All that can be met.
pub const ALL: [&str; 22] = [
    "a clock set back",
    "a full store with spilling",
    "a full store without spilling",
    "a missing packet deleted",
    "a missing packet deleted by ID",
    "a release at an entry's time",
    "a release at clock + margin",
    "a slot exactly met",
    "a tick of more than five records",
    "a tick of one record",
    "a tick of several records",
    "a tick that deletes",
    "a tick that keeps",
    "a tick with an entry at the clock",
    "a window that ends at an entry",
    "a window that starts at an entry",
    "an ID at several times",
    "an ID twice at the earliest time",
    "an insertion into the last row",
    "records due while disabled",
    "records released",
    "the 256th slot",
];

/// The times of the entries, as the original shows them.
fn times(side: &mut Side) -> Vec<Instant> {
    side.run.entries().iter().map(|e| (e.time.secs, e.time.nanos)).collect()
}

/// How the entries with this request ID lie.
fn matches(side: &mut Side, id: u64) -> Vec<&'static str> {
    let entries = side.run.entries();
    let times: Vec<_> = entries.iter().filter(|e| e.id == id).map(|e| e.time).collect();
    let mut met = Vec::new();
    if times.len() > 1 && times[0] == times[1] {
        met.push("an ID twice at the earliest time");
    }
    if times.first() != times.last() {
        met.push("an ID at several times");
    }
    met
}

fn window(side: &mut Side, e: &Ends) -> Vec<&'static str> {
    let times = times(side);
    let mut met = Vec::new();
    if e.has_from && times.contains(&e.from) {
        met.push("a window that starts at an entry");
    }
    if e.has_to && times.contains(&e.to) {
        met.push("a window that ends at an entry");
    }
    met
}

fn insertion(side: &mut Side, time: Option<Instant>) -> Vec<&'static str> {
    let mut met = Vec::new();
    if time.is_some_and(|t| t == side.earliest()) {
        met.push("a release at clock + margin");
    }
    if time.is_some_and(|t| times(side).contains(&t)) {
        met.push("a release at an entry's time");
    }
    if side.run.count() + 1 == side.start.entries {
        met.push("an insertion into the last row");
    }
    met
}

/// What a call meets, seen before it is made.
pub fn before(call: &Call, side: &mut Side) -> Vec<&'static str> {
    match call {
        Call::SetClock(t) if *t < side.clock() => vec!["a clock set back"],
        Call::Window(e) | Call::DeleteWindow(e) => window(side, e),
        Call::DeleteById(id) | Call::DeleteByIdKeep(id) => matches(side, *id),
        Call::Unwrapped(t, _) | Call::Stored(t, _, _) => insertion(side, Some(*t)),
        Call::Wrapped(_) => insertion(side, None),
        Call::Tick { .. } => {
            let clock = side.clock();
            let at_clock = times(side).contains(&clock);
            at_clock.then_some("a tick with an entry at the clock").into_iter().collect()
        }
        _ => vec![],
    }
}

/// What a call met, seen by its answer.
pub fn after(call: &Call, side: &Side, given: &Given) -> Vec<&'static str> {
    let (number, values) = (given.answer.number, &given.answer.values);
    let stored = matches!(call, Call::Add(_) | Call::Wrapped(_) | Call::Unwrapped(..));
    match call {
        _ if number == 12 && side.start.spilling => vec!["a full store with spilling"],
        _ if number == 12 => vec!["a full store without spilling"],
        _ if stored && number == 0 => {
            let (pool, slot) = ((values[0] >> 16) as usize, values[0] & 0xFFFF);
            let exact = side.run.len(values[0]).values == [side.start.subpools[pool].1];
            let mut met = Vec::new();
            if exact {
                met.push("a slot exactly met");
            }
            if slot >= 255 {
                met.push("the 256th slot");
            }
            met
        }
        Call::Tick { delete, .. } if values[0] > 0 => vec![
            if *delete { "a tick that deletes" } else { "a tick that keeps" },
            if side.enabled() { "records released" } else { "records due while disabled" },
            match values[0] {
                1 => "a tick of one record",
                2..=5 => "a tick of several records",
                _ => "a tick of more than five records",
            },
        ],
        Call::DeleteWindow(_) | Call::Reset if values[1] > 0 => vec!["a missing packet deleted"],
        Call::DeleteById(_) if values.len() > 2 => vec!["a missing packet deleted by ID"],
        _ => vec![],
    }
}
