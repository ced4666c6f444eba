//! The drawing of how each call grows: one small panel a call, all on the same log-log axes.

use crate::bench::Measured;
use std::fmt::Write;

/// A call's measurements: with N growing and with C growing.
pub struct Panel {
    pub name: &'static str,
    pub by_cells: Vec<Measured>,
    pub by_slots: Vec<Measured>,
}

const COLUMNS: usize = 4;
const WIDTH: f64 = 250.0;
const HEIGHT: f64 = 180.0;
const LEFT: f64 = 62.0;
const TOP: f64 = 104.0;
/// What a panel leaves free around its axes.
const INSET: [f64; 4] = [10.0, 28.0, 22.0, 26.0];
const CELLS: &str = "#1f6fb2";
const SLOTS: &str = "#c4512d";

/// Where a panel stands and how its axes run.
struct Axes {
    x: f64,
    y: f64,
    sizes: Vec<u32>,
    /// How many decades of nanoseconds the axis spans, from 1 on.
    decades: i32,
}

impl Axes {
    fn at_size(&self, size: u32) -> f64 {
        let span = |size: u32| (size as f64).log2();
        let (low, high) = (span(self.sizes[0]), span(*self.sizes.last().unwrap()));
        self.x + INSET[0] + (span(size) - low) / (high - low) * (WIDTH - INSET[0] - INSET[2])
    }

    fn at_time(&self, ns: f64) -> f64 {
        let share = ns.max(1.0).log10() / self.decades as f64;
        self.y + HEIGHT - INSET[3] - share * (HEIGHT - INSET[1] - INSET[3])
    }
}

/// The picture as SVG. `fixed` is the size that stays where the other grows.
pub fn svg(panels: &[Panel], sizes: &[u32], fixed: u32, title: &str, note: &str) -> String {
    let lines = panels.len().div_ceil(COLUMNS);
    let (width, height) = (LEFT + COLUMNS as f64 * WIDTH + 10.0, TOP + lines as f64 * HEIGHT + 40.0);
    let mut out = format!(
        "<svg xmlns=\"http://www.w3.org/2000/svg\" viewBox=\"0 0 {width} {height}\" width=\"{width}\" height=\"{height}\" \
         font-family=\"sans-serif\" font-size=\"11\">\n<rect width=\"100%\" height=\"100%\" fill=\"white\"/>\n"
    );
    text(&mut out, LEFT, 24.0, "font-size=\"16\"", title);
    text(&mut out, LEFT, 42.0, "fill=\"#555\"", note);
    legend(&mut out, fixed);
    let decades = decades(panels);
    for (k, panel) in panels.iter().enumerate() {
        let (x, y) = (LEFT + (k % COLUMNS) as f64 * WIDTH, TOP + (k / COLUMNS) as f64 * HEIGHT);
        let axes = Axes { x, y, sizes: sizes.to_vec(), decades };
        frame(&mut out, &axes, panel.name, k % COLUMNS == 0);
        for (list, colour) in [(&panel.by_cells, CELLS), (&panel.by_slots, SLOTS)] {
            line(&mut out, &axes, list.iter().map(|m| m.library), colour, "");
            points(&mut out, &axes, list, colour);
            line(&mut out, &axes, list.iter().map(|m| m.plain), colour, "stroke-dasharray=\"4 3\"");
        }
    }
    let middle = TOP + lines as f64 * HEIGHT / 2.0;
    let turned = format!("transform=\"rotate(-90 16 {middle})\" text-anchor=\"middle\"");
    text(&mut out, 16.0, middle, &turned, "nanoseconds a call (log)");
    text(
        &mut out,
        LEFT + COLUMNS as f64 * WIDTH / 2.0,
        height - 14.0,
        "text-anchor=\"middle\"",
        "size that grows, N or C (log)",
    );
    out.push_str("</svg>\n");
    out
}

fn decades(panels: &[Panel]) -> i32 {
    let all = panels.iter().flat_map(|panel| panel.by_cells.iter().chain(&panel.by_slots));
    let most = all.fold(10.0, |most: f64, measured| most.max(measured.library).max(measured.plain));
    most.log10().ceil() as i32
}

fn text(out: &mut String, x: f64, y: f64, style: &str, words: &str) {
    let words = words.replace('&', "&amp;").replace('<', "&lt;");
    writeln!(out, "<text x=\"{x:.1}\" y=\"{y:.1}\" {style}>{words}</text>").unwrap();
}

fn stroke(out: &mut String, [x, y, to_x, to_y]: [f64; 4], style: &str) {
    writeln!(out, "<line x1=\"{x:.1}\" y1=\"{y:.1}\" x2=\"{to_x:.1}\" y2=\"{to_y:.1}\" {style}/>").unwrap();
}

fn legend(out: &mut String, fixed: u32) {
    let items = [
        (CELLS, "", format!("library, N grows (C = {fixed})")),
        (CELLS, "stroke-dasharray=\"4 3\"", "plain Rust, N grows".to_string()),
        (SLOTS, "", format!("library, C grows (N = {fixed})")),
        (SLOTS, "stroke-dasharray=\"4 3\"", "plain Rust, C grows".to_string()),
    ];
    for (k, (colour, dash, words)) in items.iter().enumerate() {
        let x = LEFT + k as f64 * 230.0;
        stroke(out, [x, 66.0, x + 30.0, 66.0], &format!("stroke=\"{colour}\" stroke-width=\"2\" {dash}"));
        text(out, x + 36.0, 70.0, "", words);
    }
}

fn frame(out: &mut String, axes: &Axes, name: &str, labelled: bool) {
    let (left, right) = (axes.x + INSET[0], axes.x + WIDTH - INSET[2]);
    let top = axes.at_time(10f64.powi(axes.decades));
    for decade in 0..=axes.decades {
        let y = axes.at_time(10f64.powi(decade));
        stroke(out, [left, y, right, y], "stroke=\"#ddd\"");
        if labelled {
            text(out, left - 6.0, y + 4.0, "text-anchor=\"end\" fill=\"#555\"", &10u64.pow(decade as u32).to_string());
        }
    }
    for &size in &axes.sizes {
        let x = axes.at_size(size);
        stroke(out, [x, top, x, axes.at_time(1.0)], "stroke=\"#eee\"");
        text(out, x, axes.at_time(1.0) + 14.0, "text-anchor=\"middle\" fill=\"#555\"", &size.to_string());
    }
    text(out, left, axes.y + INSET[1] - 8.0, "font-weight=\"bold\"", name);
}

fn points(out: &mut String, axes: &Axes, list: &[Measured], colour: &str) {
    for (&size, measured) in axes.sizes.iter().zip(list) {
        let (x, y) = (axes.at_size(size), axes.at_time(measured.library));
        writeln!(out, "<circle cx=\"{x:.1}\" cy=\"{y:.1}\" r=\"2.4\" fill=\"{colour}\"/>").unwrap();
    }
}

fn line(out: &mut String, axes: &Axes, times: impl Iterator<Item = f64>, colour: &str, dash: &str) {
    let points: Vec<String> = axes
        .sizes
        .iter()
        .zip(times)
        .map(|(&size, ns)| format!("{:.1},{:.1}", axes.at_size(size), axes.at_time(ns)))
        .collect();
    let points = points.join(" ");
    writeln!(out, "<polyline points=\"{points}\" fill=\"none\" stroke=\"{colour}\" stroke-width=\"1.6\" {dash}/>")
        .unwrap();
}
