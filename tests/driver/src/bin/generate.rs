//! `generate N SEED`: N random sequences inside the domain of equality, each call as a line "request => answer" in the
//! original's line protocol: a release answers every record and every byte that it handed out. A sequence begins with
//! its setup, "new", and ends with the whole state, "dump" and "drain", but where its last call was refused with 13.
//! `generate sample`: the fixed sample of crates/oracle_list/stdin, in the same form.
use driver::against::Counts;
use driver::domain::random_sequence;
use driver::prng::Prng;
use driver::sample::sample;
use driver::side::line;
use driver::Compared;
use original::lines::Lines;
use std::io::Write;
use std::process::ExitCode;

/// The lines of one sequence, answered by the original.
fn one_sequence(r: &mut Prng) -> Result<Vec<String>, String> {
    let mut requests = Vec::new();
    let mut late = false;
    random_sequence(&Compared::default(), r, &mut Counts::default(), |start, call, given| {
        if requests.is_empty() {
            requests.push(start.line());
        }
        requests.push(line(start, call));
        late = given.answer.number == 13;
    })?;
    if !late && !requests.is_empty() {
        requests.extend(["dump".into(), "drain".into()]);
    }
    let mut lines = Lines::default();
    Ok(requests.iter().map(|q| format!("{q} => {}", lines.answer(q))).collect())
}

/// To standard output, up to the first difference.
fn written(sequences: impl IntoIterator<Item = Result<Vec<String>, String>>) -> ExitCode {
    let mut out = std::io::BufWriter::new(std::io::stdout().lock());
    for lines in sequences {
        match lines {
            Ok(lines) => lines.iter().for_each(|l| writeln!(out, "{l}").expect("output")),
            Err(report) => {
                eprintln!("DIFFERENCE\n{report}");
                return ExitCode::FAILURE;
            }
        }
    }
    ExitCode::SUCCESS
}

fn main() -> ExitCode {
    let words: Vec<String> = std::env::args().skip(1).collect();
    if words == ["sample"] {
        return written([sample().map(|s| s.lines)]);
    }
    let args: Vec<u64> = words.iter().map(|a| a.parse().expect("a number")).collect();
    let [n, seed] = args[..] else {
        eprintln!("usage: generate N SEED, or generate sample");
        return ExitCode::FAILURE;
    };
    let mut seeds = Prng::new(seed);
    written((0..n).map(|_| one_sequence(&mut seeds.part())))
}
