//! The cost of each call against n, as an SVG picture.

use crate::calls::Cost;
use crate::ledgers::rows;
use second::layout::BOOKINGS;
use std::fmt::Write;

/// A panel for each call, three in a row.
const COLUMNS: usize = 3;
const WIDTH: f64 = 250.0;
const HEIGHT: f64 = 210.0;
/// Room around the drawing of a panel, and above all panels.
const LEFT: f64 = 48.0;
const RIGHT: f64 = 12.0;
const TOP: f64 = 26.0;
const BOTTOM: f64 = 30.0;
const HEAD: f64 = 46.0;
/// The costs shown, as powers of ten of a nanosecond.
const LOWEST: i32 = 1;
const HIGHEST: i32 = 8;

pub fn draw(costs: &[Cost]) -> String {
    let panels = rows();
    let rows = panels.len().div_ceil(COLUMNS);
    let (width, height) = (COLUMNS as f64 * WIDTH, HEAD + rows as f64 * HEIGHT);
    let mut svg = format!(
        "<svg xmlns=\"http://www.w3.org/2000/svg\" width=\"{width}\" height=\"{height}\" \
         viewBox=\"0 0 {width} {height}\" font-family=\"sans-serif\" font-size=\"11\">\n\
         <rect width=\"100%\" height=\"100%\" fill=\"white\"/>\n"
    );
    text(
        &mut svg,
        12.0,
        18.0,
        "start",
        "nanoseconds of a call against bookings n",
    );
    let legend = [
        ("ours", OURS),
        ("second program", SECOND),
        ("memcmp of the words", MEMCMP),
    ];
    for (i, (label, stroke)) in legend.into_iter().enumerate() {
        let x = 12.0 + i as f64 * 150.0;
        line(&mut svg, &[(x, 32.0), (x + 24.0, 32.0)], stroke);
        text(&mut svg, x + 30.0, 36.0, "start", label);
    }
    for (i, kind) in panels.into_iter().enumerate() {
        let x = (i % COLUMNS) as f64 * WIDTH;
        let y = HEAD + (i / COLUMNS) as f64 * HEIGHT;
        let costs: Vec<&Cost> = costs.iter().filter(|cost| cost.kind == kind).collect();
        panel(&mut svg, x, y, kind, &costs);
    }
    svg.push_str("</svg>\n");
    svg
}

const OURS: &str = "stroke=\"#b03a2e\" stroke-width=\"2\"";
const SECOND: &str = "stroke=\"#1f618d\" stroke-width=\"1.5\" stroke-dasharray=\"6 3\"";
const MEMCMP: &str = "stroke=\"#666666\" stroke-width=\"1\" stroke-dasharray=\"2 2\"";
const GRID: &str = "stroke=\"#dddddd\" stroke-width=\"0.5\"";

fn panel(svg: &mut String, x: f64, y: f64, kind: &str, costs: &[&Cost]) {
    let (left, right) = (x + LEFT, x + WIDTH - RIGHT);
    let (top, bottom) = (y + TOP, y + HEIGHT - BOTTOM);
    let across = |n: usize| left + (right - left) * n as f64 / BOOKINGS as f64;
    let up = |nanoseconds: f64| {
        let (lowest, highest) = (f64::from(LOWEST), f64::from(HIGHEST));
        let power = nanoseconds.log10().clamp(lowest, highest);
        bottom - (bottom - top) * (power - lowest) / (highest - lowest)
    };

    text(svg, (left + right) / 2.0, y + 18.0, "middle", kind);
    for power in LOWEST..=HIGHEST {
        let at = up(10f64.powi(power));
        line(svg, &[(left, at), (right, at)], GRID);
        text(
            svg,
            left - 4.0,
            at + 4.0,
            "end",
            UNITS[(power - LOWEST) as usize],
        );
    }
    for cost in costs {
        let at = across(cost.n);
        line(svg, &[(at, top), (at, bottom)], GRID);
        text(svg, at, bottom + 14.0, "middle", &cost.n.to_string());
    }

    let mut curve = |stroke, value: fn(&Cost) -> Option<f64>| {
        let points: Vec<(f64, f64)> = costs
            .iter()
            .filter_map(|cost| Some((across(cost.n), up(value(cost)?))))
            .collect();
        line(svg, &points, stroke);
    };
    curve(MEMCMP, |cost| Some(cost.memcmp));
    curve(SECOND, |cost| Some(cost.second));
    curve(OURS, |cost| cost.ours);
}

/// The powers of ten from the lowest to the highest.
const UNITS: [&str; 8] = [
    "10 ns", "100 ns", "1 µs", "10 µs", "100 µs", "1 ms", "10 ms", "100 ms",
];

fn text(svg: &mut String, x: f64, y: f64, anchor: &str, words: &str) {
    writeln!(
        svg,
        "<text x=\"{x:.1}\" y=\"{y:.1}\" text-anchor=\"{anchor}\">{words}</text>"
    )
    .expect("a string takes text");
}

fn line(svg: &mut String, points: &[(f64, f64)], stroke: &str) {
    if points.is_empty() {
        return;
    }
    let points: Vec<String> = points
        .iter()
        .map(|(x, y)| format!("{x:.1},{y:.1}"))
        .collect();
    writeln!(
        svg,
        "<polyline points=\"{}\" fill=\"none\" {stroke}/>",
        points.join(" ")
    )
    .expect("a string takes text");
}
