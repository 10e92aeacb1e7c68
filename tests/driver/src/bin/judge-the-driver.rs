//! `judge-the-driver N SEED`: each rule of the plain reading broken in turn; a rule that inputs-nobody-meant does not
//! notice within N worlds, or one that shows in the domain and against-original does not notice within N sequences,
//! is a failure of the drivers.
use driver::against;
use driver::domain::random_sequence;
use driver::prng::Prng;
use driver::two::{self, random_world};
use plain::{Plain, Rule};
use std::process::ExitCode;

/// After how many calls inputs-nobody-meant notices, if it does; and how many it took.
fn by_any_input(rule: Rule, n: u64, seed: u64) -> (Option<u64>, u64) {
    let mut counts = two::Counts::default();
    let mut seeds = Prng::new(seed);
    for _ in 0..n {
        let mut r = seeds.part();
        if random_world(&Plain::default(), &Plain::broken(rule), &mut r, &mut counts).is_err() {
            return (Some(counts.calls + 1), counts.calls + 1);
        }
    }
    (None, counts.calls)
}

/// The same of against-original, without the exhaustive part.
fn by_original(rule: Rule, n: u64, seed: u64) -> (Option<u64>, u64) {
    let mut counts = against::Counts::default();
    let mut seeds = Prng::new(seed);
    for _ in 0..n {
        let mut r = seeds.part();
        if random_sequence(&Plain::broken(rule), &mut r, &mut counts, |_, _, _| ()).is_err() {
            return (Some(counts.calls + 1), counts.calls + 1);
        }
    }
    (None, counts.calls)
}

fn main() -> ExitCode {
    let args: Vec<u64> = std::env::args().skip(1).map(|a| a.parse().expect("a number")).collect();
    let [n, seed] = args[..] else {
        eprintln!("usage: judge-the-driver N SEED");
        return ExitCode::FAILURE;
    };
    let (mut missed, mut calls) = (0, 0);
    let mut said = |found: Option<u64>| match found {
        Some(after) => format!("after {after} calls"),
        None => {
            missed += 1;
            "NOT NOTICED".into()
        }
    };
    for rule in Rule::all() {
        let (any, spent) = by_any_input(rule, n, seed);
        calls += spent;
        let mut line = format!("{rule:?}: any input {}", said(any));
        if Rule::IN_DOMAIN.contains(&rule) {
            let (original, spent) = by_original(rule, n, seed);
            calls += spent;
            line += &format!(", original {}", said(original));
        }
        println!("{line}");
    }
    println!("{} rules, {calls} calls, {missed} not noticed", Rule::all().count());
    if missed == 0 {
        ExitCode::SUCCESS
    } else {
        ExitCode::FAILURE
    }
}
