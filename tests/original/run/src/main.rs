//! The original by a line protocol: one call a line on standard input, one answer a line.
//! Answers are "0 values" or "refusal-number values" in document 01's numbers; "PANIC text" where the original panics.
//! Times are "secs nanos", bytes are hex ("-" is empty), request IDs are as_u64, windows "kind secs nanos secs nanos"
//! with kinds 0 all, 1 from-to, 2 from, 3 to. A first line "new spilling entries secs nanos margin-secs margin-nanos
//! (slots size)..." starts a run; the original has no use for the entries.
use original::lines::Lines;
use std::io::{BufRead, Write};

fn main() {
    std::panic::set_hook(Box::new(|_| {}));
    let mut out = std::io::BufWriter::new(std::io::stdout().lock());
    let mut lines = Lines::default();
    for line in std::io::stdin().lock().lines() {
        match line.expect("a line").as_str() {
            "flush" => out.flush().expect("output"),
            line => writeln!(out, "{}", lines.answer(line)).expect("output"),
        }
    }
}
