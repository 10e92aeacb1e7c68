//! The table: every call at every size, judging and the check code, how the costs grow, and what the stack's place does.
use crate::measure::{Measured, CODES};
use crate::plan::{CALLS, SIZES, SLOTS};

pub fn grouped(n: usize) -> String {
    match n {
        0..=999 => n.to_string(),
        _ => format!("{},{:03}", grouped(n / 1_000), n % 1_000),
    }
}

/// Instructions of each call and size, as `--count` has them: the library's, the original's, judging.
pub type Counts = Vec<[usize; 3]>;

fn row(what: &str, beside: &str, n: &str, [this, that]: [f64; 2], rest: &str) {
    let ratio = this / that;
    println!("| {what} | {beside} | {n} | {this:.0} | {that:.0} | {ratio:.2} | {rest} |");
}

/// Per further entry between neighbouring sizes.
fn growth(what: &str, times: &[[f64; 4]], of: impl Fn(&[f64; 4]) -> f64) {
    let steps = SIZES.windows(2).zip(times.windows(2));
    let each = steps
        .map(|(n, t)| format!("{:.2}", (of(&t[1]) - of(&t[0])) / (n[1] - n[0]) as f64))
        .collect::<Vec<_>>();
    println!("- {what}: {}", each.join(", "));
}

fn rows(m: &Measured, counts: &Counts) {
    println!(
        "| what | beside | entries | this | that | this/that | judging | the rest | rest/that | instructions | that's |"
    );
    println!("|---|---|---:|---:|---:|---:|---:|---:|---:|---:|---:|");
    for (c, (_, name)) in CALLS.iter().enumerate() {
        for (s, n) in SIZES.into_iter().enumerate() {
            let at = c * SIZES.len() + s;
            let [this, original, judged, _] = m.calls[at];
            let counted = match counts.get(at) {
                Some(&[this, original, _]) => format!("{} | {}", grouped(this), grouped(original)),
                None => "|".to_string(),
            };
            let rest = this - judged;
            let rest = format!("{judged:.0} | {rest:.0} | {:.2} | {counted}", rest / original);
            row(name, "original", &grouped(n), [this, original], &rest);
        }
    }
    let none = "| | | |";
    let loops = ["Rust loop", "Rust loop, 128 bits", "Rust loop, fastest"];
    for (i, beside) in loops.into_iter().enumerate() {
        for (s, t) in m.judging[..SIZES.len()].iter().enumerate() {
            let judged = counts.get((CALLS.len() - 1) * SIZES.len() + s);
            let counted = judged.map_or(String::new(), |c| grouped(c[2]));
            let rest = format!("| | | {counted} |");
            row("judging alone, 256 slots", beside, &grouped(SIZES[s]), [t[0], t[i + 1]], &rest);
        }
    }
    for (slots, t) in ["16", "2,048"].into_iter().zip(&m.judging[SIZES.len()..]) {
        for i in [1, 3] {
            let what = format!("judging alone, {slots} slots");
            row(&what, loops[i - 1], "256", [t[0], t[i]], none);
        }
    }
    for (bytes, &code) in CODES.into_iter().zip(&m.codes) {
        row(&format!("check code of {} bytes", grouped(bytes)), "Rust loop", "", code, none);
    }
    let ([this, that], speed) = (m.byte, m.byte.map(|per_byte| 1_000.0 / per_byte));
    println!(
        "| check code, million bytes per second | Rust loop | | {:.0} | {:.0} | {:.2} | {none} |",
        speed[0],
        speed[1],
        this / that
    );
}

fn grows(m: &Measured) {
    println!("\nNanoseconds per further entry, from 16 to 256, to 1,024, to 4,096:\n");
    for ((_, name), times) in CALLS.iter().zip(m.calls.chunks(SIZES.len())) {
        growth(&format!("{name}, the rest"), times, |t| t[0] - t[2]);
        growth(&format!("{name}, original"), times, |t| t[1]);
    }
    let sizes = &m.judging[..SIZES.len()];
    growth("judging", sizes, |t| t[0]);
    growth("judging, Rust loop", sizes, |t| t[1]);
    growth("judging, Rust loop, 128 bits", sizes, |t| t[2]);
    growth("judging, Rust loop, fastest", sizes, |t| t[3]);
    let many = m.judging[SIZES.len() + 1];
    let slot = |i: usize| (many[i] - sizes[1][i]) / (2_048 - SLOTS) as f64;
    println!(
        "\nPer further slot, from 256 to 2,048: judging {:.2}, Rust loop {:.2}, fastest {:.2}.",
        slot(0),
        slot(1),
        slot(3)
    );
}

fn over_places(m: &Measured) {
    println!("\nOver 256 places of the stack in a page, 16 bytes apart: least and most, at 16, 256, 1,024 and 4,096 entries:\n");
    for ((_, name), ends) in CALLS.iter().zip(m.places.chunks(SIZES.len())) {
        let each = ends.iter().map(|[l, m]| format!("{l:.0} to {m:.0} ({:.2})", m / l));
        println!("- {name}: {}", each.collect::<Vec<_>>().join("; "));
    }
}

pub fn print(m: &Measured, counts: &Counts) {
    rows(m, counts);
    grows(m);
    over_places(m);
}
