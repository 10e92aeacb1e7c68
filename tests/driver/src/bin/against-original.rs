//! `against-original N SEED`: every short sequence over a small alphabet, then N random ones, to the plain reading and
//! to the original; the first difference ends it with its shortened sequence.
use driver::against::Counts;
use driver::domain::random_sequence;
use driver::prng::Prng;
use driver::Compared;
use driver::{events, exhaustive};
use std::process::ExitCode;

/// So many sequences meet every boundary.
const ENOUGH: u64 = 5_000;

fn main() -> ExitCode {
    let args: Vec<u64> = std::env::args().skip(1).map(|a| a.parse().expect("a number")).collect();
    let [n, seed] = args[..] else {
        eprintln!("usage: against-original N SEED");
        return ExitCode::FAILURE;
    };
    let subject = Compared::default();
    let mut counts = Counts::default();
    let depth = if n >= 100_000 { 4 } else { 3 };
    let mut result = exhaustive::all(&subject, depth, &mut counts);
    let short = counts.sequences;
    let mut seeds = Prng::new(seed);
    for _ in 0..n {
        if result.is_ok() {
            result = random_sequence(&subject, &mut seeds.part(), &mut counts, |_, _, _| ());
        }
    }
    println!("{short} sequences of {depth} calls and {} random ones", counts.sequences - short);
    println!("{} calls; answers by call and number:", counts.calls);
    for ((name, number), times) in &counts.answers {
        println!("  {name} {number}: {times}");
    }
    println!("boundaries met:");
    for (event, times) in &counts.met {
        println!("  {event}: {times}");
    }
    let mut not_met = events::ALL.iter().filter(|event| !counts.met.contains_key(*event));
    match (result, not_met.next()) {
        (Ok(()), Some(event)) if n >= ENOUGH => {
            println!("NOT MET: {event}");
            ExitCode::FAILURE
        }
        (Ok(()), _) => ExitCode::SUCCESS,
        (Err(report), _) => {
            println!("DIFFERENCE\n{report}");
            ExitCode::FAILURE
        }
    }
}
