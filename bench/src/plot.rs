//! Draws how nanoseconds a step grow, as SVG: a panel beside the other, both axes logarithmic.
use crate::measure::{Pace, CALLS};
use std::fmt::Write;

/// The sizes of one thing, and the paces at each, a call each.
pub struct Panel<'a> {
    pub title: &'a str,
    pub sizes: &'a [usize],
    pub paces: &'a [Vec<Pace>],
}

const WIDTH: f64 = 480.0;
const HEIGHT: f64 = 400.0;
const LEFT: f64 = 60.0;
const TOP: f64 = 40.0;
const INNER_WIDTH: f64 = 390.0;
const INNER_HEIGHT: f64 = 300.0;

/// The least and the greatest nanoseconds drawn, as powers of ten.
const LOWEST: f64 = 1.0;
const HIGHEST: f64 = 6.0;

/// A colour for each call; the reference is dashed.
const COLOURS: [&str; 3] = ["#0b6e4f", "#1f4e9c", "#b5451b"];

fn height(ns: f64) -> f64 {
    TOP + INNER_HEIGHT * (HIGHEST - ns.log10().clamp(LOWEST, HIGHEST)) / (HIGHEST - LOWEST)
}

fn across(sizes: &[usize], size: usize) -> f64 {
    let (first, last) = (sizes[0] as f64, sizes[sizes.len() - 1] as f64);
    LEFT + INNER_WIDTH * (size as f64 / first).ln() / (last / first).ln()
}

fn text(out: &mut String, x: f64, y: f64, anchor: &str, words: &str) {
    writeln!(out, r#"<text x="{x:.0}" y="{y:.0}" text-anchor="{anchor}">{words}</text>"#).unwrap();
}

/// The frame, a line for each power of ten, and the sizes.
fn axes(out: &mut String, panel: &Panel) {
    text(out, LEFT, 20.0, "start", &format!("ns a step by {}", panel.title));
    for power in LOWEST as i32..=HIGHEST as i32 {
        let y = height(10f64.powi(power));
        let right = LEFT + INNER_WIDTH;
        writeln!(out, r##"<line x1="{LEFT}" y1="{y:.1}" x2="{right}" y2="{y:.1}" stroke="#ddd"/>"##).unwrap();
        text(out, LEFT - 6.0, y + 4.0, "end", &10u64.pow(power as u32).to_string());
    }
    for &size in panel.sizes {
        text(out, across(panel.sizes, size), TOP + INNER_HEIGHT + 18.0, "middle", &size.to_string());
    }
}

/// A line through the paces of a call.
fn line(out: &mut String, panel: &Panel, call: usize, pick: fn(&Pace) -> f64, dash: &str) {
    let points: Vec<String> = panel
        .sizes
        .iter()
        .zip(panel.paces)
        .map(|(&size, paces)| format!("{:.1},{:.1}", across(panel.sizes, size), height(pick(&paces[call]))))
        .collect();
    let (points, colour) = (points.join(" "), COLOURS[call]);
    writeln!(out, r#"<polyline points="{points}" fill="none" stroke="{colour}" stroke-width="2" stroke-dasharray="{dash}"/>"#)
        .unwrap();
}

/// The calls by colour.
fn legend(out: &mut String) {
    for (call, (_, name)) in CALLS.iter().enumerate() {
        let (y, colour) = (TOP + INNER_HEIGHT + 40.0, COLOURS[call]);
        let x = LEFT + 130.0 * call as f64;
        writeln!(out, r#"<line x1="{x}" y1="{y}" x2="{}" y2="{y}" stroke="{colour}" stroke-width="2"/>"#, x + 20.0).unwrap();
        text(out, x + 26.0, y + 4.0, "start", name);
    }
    text(out, LEFT + 130.0 * 3.0, TOP + INNER_HEIGHT + 44.0, "start", "machine solid, reference dashed");
}

/// The whole drawing.
pub fn drawing(panels: &[Panel]) -> String {
    let mut out = String::new();
    let width = WIDTH * panels.len() as f64;
    writeln!(out, r#"<svg xmlns="http://www.w3.org/2000/svg" width="{width}" height="{HEIGHT}" font-family="sans-serif" font-size="12">"#)
        .unwrap();
    writeln!(out, r#"<rect width="{width}" height="{HEIGHT}" fill="white"/>"#).unwrap();
    for (i, panel) in panels.iter().enumerate() {
        writeln!(out, r#"<g transform="translate({} 0)">"#, WIDTH * i as f64).unwrap();
        axes(&mut out, panel);
        for call in 0..CALLS.len() {
            line(&mut out, panel, call, |pace| pace.machine, "none");
            line(&mut out, panel, call, |pace| pace.reference, "5 4");
        }
        writeln!(out, "</g>").unwrap();
    }
    legend(&mut out);
    out.push_str("</svg>\n");
    out
}
