//! Measures every call on the library and on the original, judging and the check code beside plain Rust loops, and
//! prints one table, how the costs grow and what the stack's place does.
//! `--same`: measures nothing, only sees that what would be measured answers the same. `--count`: makes each call once
//! for a counter of instructions. `--counts FILE`: puts such counts into the table. `--plot FILE`: writes the plot.
#[path = "../../tests/driver/src/c_library.rs"]
mod c_library;
mod clock;
mod counted;
mod loops;
mod measure;
mod original;
#[allow(dead_code)]
#[path = "../../tests/driver/src/packets.rs"]
mod packets;
mod places;
mod plan;
mod plot;
mod same;
mod table;
mod this;

/// The word after `name` among the arguments.
fn given(name: &str) -> Option<String> {
    std::env::args().skip_while(|a| a != name).nth(1)
}

/// The counts of a file: a line of three numbers for each call and size.
fn counts(file: &str) -> table::Counts {
    let text = std::fs::read_to_string(file).expect("the counts are there");
    let line = |l: &str| {
        let numbers: Vec<usize> = l.split(' ').map(|n| n.parse().expect("a number")).collect();
        numbers.try_into().expect("three numbers")
    };
    text.lines().map(line).collect()
}

fn main() {
    let asked = |word: &str| std::env::args().any(|a| a == word);
    if asked("--count") {
        return counted::count();
    }
    same::assert_same();
    if asked("--same") {
        return;
    }
    let measured = measure::measure();
    table::print(&measured, &given("--counts").map_or(vec![], |f| counts(&f)));
    if let Some(file) = given("--plot") {
        std::fs::write(file, plot::svg(&measured)).expect("the plot is written");
    }
}
