//! The fixed sample: inside the domain of equality, with every call, every answer and every boundary that lies there.
use driver::sample::{sample, sample_against, Sample};
use driver::{events, granted};
use plain::{Plain, Rule};
use std::collections::BTreeSet;

/// Refusals that the domain of equality leaves out; 8 and 9 since packets and stamps are ones that both read.
const OUTSIDE: [u32; 9] = [1, 2, 3, 4, 8, 9, 14, 15, 20];

const CALLS: [&str; 25] = [
    "new",
    "clock",
    "enable",
    "disable",
    "num",
    "wrapped",
    "wrappedl",
    "unwrapped",
    "unwrappedt",
    "stored",
    "window",
    "delwin",
    "delall",
    "reset",
    "delid",
    "delidp",
    "release",
    "add",
    "read",
    "modify",
    "delete",
    "has",
    "len",
    "dump",
    "drain",
];

fn made() -> Sample {
    sample().expect("the plain reading agrees with the original")
}

#[test]
fn it_has_every_answer_that_the_domain_allows_and_no_other() {
    let sample = made();
    let answers: BTreeSet<_> = sample.counts.answers.into_keys().collect();
    let allowed = granted::all().filter(|(_, number)| !OUTSIDE.contains(number)).collect();
    assert_eq!(answers, allowed);
}

#[test]
fn it_meets_every_boundary() {
    let sample = made();
    let met: Vec<_> = sample.counts.met.into_keys().collect();
    assert_eq!(met, events::ALL);
}

#[test]
fn it_has_every_form_of_every_call_in_enough_sequences() {
    let sample = made();
    let first = |l: &String| l.split(' ').next().unwrap_or_default().to_string();
    let words: BTreeSet<String> = sample.lines.iter().map(first).collect();
    assert_eq!(words, CALLS.map(String::from).into());
    for form in ["release d =>", "release k ", "release b ", "modify 0 =>", "modify 0 7"] {
        assert!(sample.lines.iter().any(|l| l.starts_with(form)), "{form}");
    }
    let starts = sample.lines.iter().filter(|l| l.starts_with("new ")).count();
    assert_eq!(starts as u64, sample.counts.sequences);
    assert!(starts >= 2_000, "{starts}");
}

#[test]
fn the_original_answers_every_line() {
    for line in made().lines {
        let strange = ["PANIC", "STOP", "SANITIZED", "UNKNOWN"].iter().any(|w| line.contains(w));
        assert!(!strange && line.contains(" => "), "{line}");
    }
}

#[test]
fn every_broken_rule_that_shows_in_the_domain_differs_somewhere() {
    let missed = |rule: &&Rule| sample_against(&Plain::broken(**rule)).is_ok();
    let missed: Vec<_> = Rule::IN_DOMAIN.iter().filter(missed).collect();
    assert!(missed.is_empty(), "{missed:?}");
}
