//! Every sequence of a few calls over a small alphabet, against the original.
use crate::against::{report, sequence, Counts};
use crate::call::{Call, Ends};
use crate::packets::{ping, short_stamp, wrap};
use crate::side::{Side, Start};
use plain::Subject;

/// Setups that one or two packets fill.
fn starts() -> Vec<Start> {
    let start = |subpools: &[(u64, u64)], spilling, margin| Start {
        subpools: subpools.to_vec(),
        spilling,
        entries: 3,
        clock: (0, 0),
        margin,
    };
    vec![
        start(&[(1, 13)], false, (0, 0)),
        start(&[(2, 14)], false, (1, 0)),
        start(&[(1, 13), (1, 16)], false, (0, 0)),
        start(&[(1, 13), (1, 16)], true, (0, 0)),
    ]
}

fn alphabet() -> Vec<Call> {
    let (p, q) = (ping(1, 1), ping(1, 2));
    let id = 1 << 16 | 1;
    let at = |from, to| Ends { has_from: true, from, has_to: true, to };
    let tick = |delete| Call::Tick { log: 200, limit: 9, delete };
    vec![
        Call::Unwrapped((1, 0), p.clone()),
        Call::Unwrapped((1, 0), q.clone()),
        Call::Unwrapped((2, 0), p.clone()),
        Call::Wrapped(wrap(&short_stamp(4_383, 1_000), &p)),
        Call::Stored((1, 0), id, 0),
        Call::Stored((2, 0), id, 1),
        Call::Add(vec![7; 13]),
        Call::Add(vec![]),
        Call::Delete(0),
        Call::Read(0, 13),
        Call::SetClock((1, 0)),
        Call::SetClock((0, 999_999_999)),
        Call::Disable,
        tick(true),
        tick(false),
        Call::Window(at((1, 0), (1, 0))),
        Call::DeleteWindow(at((1, 0), (2, 0))),
        Call::DeleteByIdKeep(id),
        Call::DeleteById(id),
        Call::Reset,
    ]
}

/// Every `step`-th of all sequences of `depth` calls.
pub fn sequences(depth: u32, step: usize) -> impl Iterator<Item = (Start, Vec<Call>)> {
    starts().into_iter().flat_map(move |start| words(start, alphabet(), depth, step))
}

/// Two packets at equal or different times, what may come between, the clock around each time, and a release: every
/// choice.
pub fn releases() -> impl Iterator<Item = (Start, Vec<Call>)> {
    let (p, q, id) = (ping(1, 1), ping(1, 2), 1 << 16 | 1);
    let seconds = [
        Call::Unwrapped((1, 0), p.clone()),
        Call::Unwrapped((1, 0), q.clone()),
        Call::Unwrapped((2, 0), p.clone()),
        Call::Unwrapped((2, 0), q),
    ];
    let between = [
        Call::Count,
        Call::Disable,
        Call::DeleteById(id),
        Call::DeleteByIdKeep(id),
        Call::Part(0, 7),
    ];
    let clocks = [(0, 999_999_999), (1, 0), (1, 1), (1, 999_999_999), (2, 0)];
    let mut all = Vec::new();
    for second in &seconds {
        for other in &between {
            for clock in clocks {
                for delete in [true, false] {
                    let first = Call::Unwrapped((1, 0), p.clone());
                    let tick = Call::Tick { log: 200, limit: 9, delete };
                    let calls = [first, second.clone(), other.clone(), Call::SetClock(clock), tick];
                    all.push((starts().swap_remove(1), calls.to_vec()));
                }
            }
        }
    }
    all.into_iter()
}

fn words(
    start: Start, letters: Vec<Call>, depth: u32, step: usize,
) -> impl Iterator<Item = (Start, Vec<Call>)> {
    let base = letters.len();
    (0..base.pow(depth)).step_by(step).map(move |number| {
        let letter = |k: u32| letters[number / base.pow(k) % base].clone();
        (start.clone(), (0..depth).map(letter).collect())
    })
}

/// All sequences of `depth` calls; those with a call outside the domain lose that call.
pub fn all(subject: &dyn Subject, depth: u32, counts: &mut Counts) -> Result<(), String> {
    for (start, calls) in sequences(depth, 1) {
        let mut calls = calls.into_iter();
        let next = |_: &mut Side| calls.next();
        let result = sequence(subject, &start, counts, next, |_, _| ());
        result.map_err(|(calls, _)| report(subject, &start, &calls))?;
    }
    Ok(())
}
