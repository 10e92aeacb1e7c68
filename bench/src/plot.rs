//! The plot: for each call, its cost against the number of entries beside the original's, both scales logarithmic.
use crate::measure::Measured;
use crate::plan::{CALLS, SIZES};
use crate::table::grouped;
use std::fmt::Write;

const WIDTH: f64 = 250.0;
const HEIGHT: f64 = 170.0;
const COLUMNS: usize = 3;
/// Nanoseconds at the bottom and at the top, as powers of ten.
const DECADES: (i32, i32) = (1, 6);

fn across(n: usize) -> f64 {
    let of = |n: usize| (n as f64).log2();
    45.0 + (of(n) - of(SIZES[0])) / (of(SIZES[3]) - of(SIZES[0])) * (WIDTH - 75.0)
}

fn up(time: f64) -> f64 {
    let (low, high) = (DECADES.0 as f64, DECADES.1 as f64);
    HEIGHT - 30.0 - (time.max(1.0).log10() - low) / (high - low) * (HEIGHT - 60.0)
}

fn line(svg: &mut String, class: &str, times: impl Iterator<Item = f64>) {
    let points: Vec<_> = SIZES.iter().zip(times).map(|(&n, t)| (across(n), up(t))).collect();
    let path: Vec<_> = points.iter().map(|(x, y)| format!("{x:.1},{y:.1}")).collect();
    writeln!(svg, "<polyline class=\"{class}\" points=\"{}\"/>", path.join(" ")).unwrap();
}

fn panel(svg: &mut String, name: &str, times: &[[f64; 4]]) {
    writeln!(svg, "<text class=\"name\" x=\"45\" y=\"18\">{name}</text>").unwrap();
    for decade in DECADES.0..=DECADES.1 {
        let (y, label) =
            (up(10f64.powi(decade)), ["10 ns", "100 ns", "1 µs", "10 µs", "100 µs", "1 ms"]);
        let label = label[(decade - DECADES.0) as usize];
        writeln!(svg, "<line x1=\"45\" x2=\"{}\" y1=\"{y:.1}\" y2=\"{y:.1}\"/>", WIDTH - 30.0)
            .unwrap();
        writeln!(svg, "<text class=\"scale\" x=\"41\" y=\"{:.1}\">{label}</text>", y + 3.0)
            .unwrap();
    }
    for n in SIZES {
        let (x, y) = (across(n), HEIGHT - 16.0);
        writeln!(svg, "<text class=\"size\" x=\"{x:.1}\" y=\"{y:.1}\">{}</text>", grouped(n))
            .unwrap();
    }
    line(svg, "judging", times.iter().map(|t| t[2]));
    line(svg, "that", times.iter().map(|t| t[1]));
    line(svg, "this", times.iter().map(|t| t[0]));
}

/// The picture, as SVG.
pub fn svg(m: &Measured) -> String {
    let rows = (CALLS.len() + 1).div_ceil(COLUMNS);
    let (width, height) = (WIDTH * COLUMNS as f64, HEIGHT * rows as f64);
    let mut svg = format!(
        "<svg xmlns=\"http://www.w3.org/2000/svg\" width=\"{width}\" height=\"{height}\" viewBox=\"0 0 {width} {height}\">\n"
    );
    svg += "<style>text{font:10px sans-serif}.name{font-weight:bold}.scale{text-anchor:end}.size{text-anchor:middle}\
            line{stroke:#ddd}polyline{fill:none;stroke-width:2}.this{stroke:#06c}.that{stroke:#c60}\
            .judging{stroke:#06c;stroke-width:1;stroke-dasharray:3}</style>\n\
            <rect width=\"100%\" height=\"100%\" fill=\"white\"/>\n";
    for (i, ((_, name), times)) in CALLS.iter().zip(m.calls.chunks(SIZES.len())).enumerate() {
        let (x, y) = ((i % COLUMNS) as f64 * WIDTH, (i / COLUMNS) as f64 * HEIGHT);
        writeln!(svg, "<g transform=\"translate({x},{y})\">").unwrap();
        panel(&mut svg, name, times);
        svg += "</g>\n";
    }
    let (x, y) = ((CALLS.len() % COLUMNS) as f64 * WIDTH, (CALLS.len() / COLUMNS) as f64 * HEIGHT);
    writeln!(svg, "<g transform=\"translate({x},{y})\">").unwrap();
    for (i, (class, says)) in
        [("this", "this"), ("judging", "of which judging"), ("that", "the original")]
            .into_iter()
            .enumerate()
    {
        let y = 40 + 20 * i;
        writeln!(svg, "<polyline class=\"{class}\" points=\"45,{y} 85,{y}\"/>").unwrap();
        writeln!(svg, "<text x=\"92\" y=\"{}\">{says}</text>", y + 3).unwrap();
    }
    svg + "<text x=\"45\" y=\"110\">time of a call against entries</text>\n</g>\n</svg>\n"
}
