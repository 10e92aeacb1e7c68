//! The fixed sample of the original's answers, crates/oracle_list/stdin: all sequences of one and two calls over the
//! small alphabet, every 23rd of three, releases around the times of two entries, three at the largest sizes, and random
//! ones at the boundaries of small setups.
use crate::against::{report, sequence, Counts};
use crate::call::Call;
use crate::domain::sequence_from;
use crate::exhaustive;
use crate::packets::{packet, Fields};
use crate::prng::Prng;
use crate::side::{line, Given, Side, Start};
use crate::starts::small_start;
use crate::Compared;
use original::lines::{hex, Lines};
use plain::Subject;

const SEED: u64 = 20_210;
const RANDOM: usize = 1_500;
/// Shares no factor with the alphabet's twenty letters: every letter comes at every place.
const STEP: usize = 23;

/// The lines, a call each, "request => answer", and what they meet.
#[derive(Default)]
pub struct Sample {
    pub lines: Vec<String>,
    pub counts: Counts,
}

/// The requests of one sequence and whether its last call was refused with 13: the original has lost a slot then.
#[derive(Default)]
struct Requests {
    lines: Vec<String>,
    late: bool,
}

/// How long all packets handed out are, where all are equally long: a release with a buffer of so many bytes then
/// shows the closure the packets alone.
fn one_length(given: &Given) -> Option<usize> {
    let bytes = |record: &str| record.rsplit(' ').next().map_or(0, |word| word.len() / 2);
    let lengths: Vec<usize> = given.line.split(" | ").skip(1).map(bytes).collect();
    let first = lengths.first().copied().unwrap_or_default();
    lengths.iter().all(|&n| n == first).then_some(first)
}

/// The call in another of the original's forms, where it has one.
fn other_form(call: &Call, given: &Given) -> Option<String> {
    match call {
        Call::Wrapped(p) => Some(format!("wrappedl {}", hex(p))),
        Call::Unwrapped(t, p) => Some(format!("unwrappedt {} {} {}", t.0, t.1, hex(p))),
        Call::DeleteWindow(e) if !e.has_from && !e.has_to => Some("delall".into()),
        Call::Tick { delete: true, .. } => one_length(given).map(|n| format!("release b {n}")),
        _ => None,
    }
}

/// What a drain shows of the free slots, in the order of their addresses; "0" stands for zeros alone.
fn free_slots(answer: &str) -> String {
    let slot = |word: &str| {
        let (address, bytes) = word.split_once(':').expect("an address and bytes");
        let zeros = bytes.bytes().all(|b| b == b'0');
        (address.parse().expect("an address"), if zeros { "0".into() } else { bytes.into() })
    };
    let mut slots: Vec<(u64, String)> = answer.split_whitespace().map(slot).collect();
    slots.sort();
    let words: Vec<String> = slots.iter().map(|(a, bytes)| format!("{a}:{bytes}")).collect();
    match words.is_empty() {
        true => "NONE".into(),
        false => words.join(" "),
    }
}

/// Bytes in capitals, as document 01 writes them: the only letters behind an insertion's first word.
fn in_capitals(request: &str) -> String {
    let (first, rest) = request.split_once(' ').unwrap_or((request, ""));
    match first {
        "add" | "wrapped" | "wrappedl" | "unwrapped" | "unwrappedt" => {
            format!("{first} {}", rest.to_uppercase())
        }
        _ => request.into(),
    }
}

impl Requests {
    fn of(start: &Start) -> Requests {
        Requests { lines: vec![start.line()], late: false }
    }

    /// Every third call takes another form.
    fn push(&mut self, start: &Start, call: &Call, given: &Given) {
        let form = match self.lines.len() % 3 {
            0 => other_form(call, given),
            _ => None,
        };
        self.lines.push(in_capitals(&form.unwrap_or_else(|| line(start, call))));
        self.late = given.answer.number == 13;
    }

    /// All of them to the original, and at the end its whole state.
    fn answered(mut self) -> Vec<String> {
        if !self.late {
            self.lines.extend(["dump".into(), "drain".into()]);
        }
        let mut original = Lines::default();
        let answer = |q: &String| match q.as_str() {
            "drain" => free_slots(&original.answer(q)),
            _ => original.answer(q).to_uppercase(),
        };
        let answers: Vec<String> = self.lines.iter().map(answer).collect();
        self.lines.iter().zip(answers).map(|(q, a)| format!("{q} => {a}")).collect()
    }
}

impl Sample {
    /// Sequences of fixed calls; one that leaves the domain, or ends before its last call, is in a shorter one.
    fn fixed(
        &mut self, subject: &dyn Subject, of: impl Iterator<Item = (Start, Vec<Call>)>,
    ) -> Result<(), String> {
        for (start, calls) in of {
            let whole = calls.len();
            let mut left = calls.into_iter();
            let mut made = Requests::of(&start);
            let mut counts = self.counts.clone();
            let next = |_: &mut Side| left.next();
            let seen = |c: &Call, g: &Given| made.push(&start, c, g);
            let result = sequence(subject, &start, &mut counts, next, seen);
            result.map_err(|(calls, _)| report(subject, &start, &calls))?;
            if made.lines.len() == 1 + whole {
                self.lines.extend(made.answered());
                self.counts = counts;
            }
        }
        Ok(())
    }

    /// One random sequence; a fresh start in it begins the next one.
    fn random(&mut self, subject: &dyn Subject, r: &mut Prng) -> Result<(), String> {
        let start = small_start(r);
        let calls = r.pick(&[2, 5, 9, 14]);
        let mut made = Requests::of(&start);
        let (lines, mut begun) = (&mut self.lines, 0);
        let seen = |c: &Call, g: &Given| match c {
            Call::Fresh(..) => {
                begun += 1;
                lines.extend(std::mem::replace(&mut made, Requests::of(&start)).answered());
            }
            _ => made.push(&start, c, g),
        };
        sequence_from(subject, &start, calls, r, &mut self.counts, seen)?;
        self.lines.extend(made.answered());
        self.counts.sequences += begun;
        Ok(())
    }
}

/// A subpool of 256 slots, and a slot of 4,096 bytes, exactly met and passed by one.
fn largest() -> Vec<(Start, Vec<Call>)> {
    let start = |subpools: &[(u64, u64)], spilling| Start {
        subpools: subpools.to_vec(),
        spilling,
        entries: 3,
        clock: (0, 0),
        margin: (0, 0),
    };
    let long = packet(&Fields {
        apid: 0x7FF,
        sequence: 0x3FFF,
        flags: 3,
        acks: 15,
        service: 17,
        subservice: 1,
        source: 0xFFFF,
        data: (0..4083).map(|i| (i % 251) as u8).collect(),
        trailing: vec![],
    });
    let full = |last: u64| {
        let mut calls: Vec<Call> = (0..=255).map(|i| Call::Add(vec![i])).collect();
        calls.extend([Call::Add(vec![7]), Call::Has(last), Call::Len(last), Call::Delete(last)]);
        calls.extend([Call::Has(255), Call::Add(vec![]), Call::Len(255), Call::Read(255, 1)]);
        calls
    };
    vec![
        (start(&[(256, 1)], false), full(255)),
        (start(&[(256, 1), (1, 2)], true), full(1 << 16)),
        (
            start(&[(1, 4096)], false),
            vec![
                Call::Add([&long[..], &[0]].concat()),
                Call::Unwrapped((1, 0), long),
                Call::SetClock((1, 0)),
                Call::Tick { log: 4125, limit: 1, delete: true },
            ],
        ),
    ]
}

pub fn sample() -> Result<Sample, String> {
    sample_against(&Compared::default())
}

/// The sample while a subject answers as the original does; else the first difference.
pub fn sample_against(subject: &dyn Subject) -> Result<Sample, String> {
    let mut sample = Sample::default();
    sample.fixed(subject, exhaustive::sequences(1, 1))?;
    sample.fixed(subject, exhaustive::sequences(2, 1))?;
    sample.fixed(subject, exhaustive::sequences(3, STEP))?;
    sample.fixed(subject, exhaustive::releases())?;
    sample.fixed(subject, largest().into_iter())?;
    let mut seeds = Prng::new(SEED);
    for _ in 0..RANDOM {
        sample.random(subject, &mut seeds.part())?;
    }
    Ok(sample)
}
