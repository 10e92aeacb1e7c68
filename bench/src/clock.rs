//! Times of single calls: the median of a round, what a call changed put back outside the time.
use std::hint::black_box;
use std::time::{Duration, Instant};

/// How long a round lasts, roughly, and the fewest and most calls of one.
const ROUND: Duration = Duration::from_millis(8);
const FEWEST: u32 = 31;
const MOST: u32 = 3_001;

fn middle(mut times: Vec<Duration>) -> f64 {
    times.sort_unstable();
    times[times.len() / 2].as_nanos() as f64
}

/// What taking the time costs by itself.
pub fn overhead() -> f64 {
    middle((0..MOST).map(|_| black_box(Instant::now()).elapsed()).collect())
}

/// The median time of `make` in nanoseconds, less `overhead`.
pub fn round<S, A>(
    s: &mut S, overhead: f64, make: impl Fn(&mut S) -> A, undo: impl Fn(&mut S),
) -> f64 {
    let one = |s: &mut S| {
        let start = Instant::now();
        black_box(make(black_box(s)));
        let time = start.elapsed();
        undo(s);
        time
    };
    let start = Instant::now();
    for _ in 0..5 {
        one(s);
    }
    let pace = start.elapsed() / 5;
    let calls = (ROUND.as_nanos() / pace.as_nanos().max(1)).clamp(FEWEST as u128, MOST as u128);
    middle((0..calls).map(|_| one(s)).collect()) - overhead
}
