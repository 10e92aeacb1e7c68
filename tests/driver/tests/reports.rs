//! The reports of against-original: a difference is named, and its sequence is cut to a few calls.
use driver::against::Counts;
use driver::domain::random_sequence;
use driver::prng::Prng;
use plain::{Plain, Rule};

/// The first words of the report's lines: the setup, the calls, and how the sides differ.
fn report(rule: Rule) -> Vec<String> {
    let mut seeds = Prng::new(5);
    let mut one = || {
        let mut counts = Counts::default();
        random_sequence(&Plain::broken(rule), &mut seeds.part(), &mut counts, |_, _, _| ()).err()
    };
    let report = (0..20_000).find_map(|_| one()).expect("a difference");
    report.lines().map(|l| l.split(' ').next().unwrap_or_default().into()).collect()
}

#[test]
fn the_first_match_needs_two_entries() {
    let words = report(Rule::FirstMatchRemoved);
    assert_eq!(words.len(), 5, "{words:?}");
    assert!(words[3].starts_with("delid"), "{words:?}");
}

#[test]
fn three_calls_are_enough() {
    let rules = [Rule::HighestFreeSlot, Rule::MarginEndRefused, Rule::FreeLengthShown];
    for rule in rules {
        assert!((3..=5).contains(&report(rule).len()), "{rule:?}");
    }
}

#[test]
fn what_is_due_shows_at_a_tick() {
    let words = report(Rule::DueOnlyBefore);
    assert!((4..=6).contains(&words.len()), "{words:?}");
    assert_eq!(words[words.len() - 2], "release", "{words:?}");
}
