//! `inputs-nobody-meant N SEED`: N random worlds, in any state, with calls that nobody meant, to two subjects.
use driver::granted;
use driver::prng::Prng;
use driver::two::{random_world, Counts};
use driver::Compared;
use plain::Plain;
use std::process::ExitCode;

/// So many worlds meet every number that document 01 grants a call.
const ENOUGH: u64 = 20_000;

fn main() -> ExitCode {
    let args: Vec<u64> = std::env::args().skip(1).map(|a| a.parse().expect("a number")).collect();
    let [n, seed] = args[..] else {
        eprintln!("usage: inputs-nobody-meant N SEED");
        return ExitCode::FAILURE;
    };
    let (first, second) = (Plain::default(), Compared::default());
    let mut counts = Counts::default();
    let mut seeds = Prng::new(seed);
    let mut result = Ok(());
    for _ in 0..n {
        if result.is_ok() {
            result = random_world(&first, &second, &mut seeds.part(), &mut counts);
        }
    }
    println!("{} worlds, {} calls; answers by call and number:", counts.worlds, counts.calls);
    for ((name, number), times) in &counts.answers {
        println!("  {name} {number}: {times}");
    }
    let mut not_met = granted::all().filter(|answer| !counts.answers.contains_key(answer));
    match (result, not_met.next()) {
        (Ok(()), Some((name, number))) if n >= ENOUGH => {
            println!("NOT MET: {name} {number}");
            ExitCode::FAILURE
        }
        (Ok(()), _) => ExitCode::SUCCESS,
        (Err(report), _) => {
            println!("DIFFERENCE\n{report}");
            ExitCode::FAILURE
        }
    }
}
