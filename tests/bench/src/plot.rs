//! The ratios of the largest windows as bars, on a scale of powers of ten.

use crate::measure::Row;
use crate::workload::SHARED;
use std::fmt::Write;

const NAMES: [&str; 6] =
    ["full re-rank, walk", "full re-rank, wide", "Naive, walk", "Naive, wide", "eager in plain Rust, walk", "eager in plain Rust, wide"];
const COLORS: [&str; 6] = ["#33638d", "#a9c4dd", "#b5541c", "#efc3a4", "#3a7d44", "#b4d8b8"];

const WIDTH: f64 = 790.0;
const LEFT: f64 = 70.0;
const RIGHT: f64 = 670.0;
const TOP: f64 = 118.0;
const HEIGHT: f64 = 250.0;
/// From the top of one panel to that of the next.
const STEP: f64 = 320.0;
/// Of a panel's height, at both ends, for the numbers at the bars.
const MARGIN: f64 = 18.0;
const BAR: f64 = 28.0;
/// Of a number at a bar, so that no line of the scale runs through it.
const HALO: &str = r##"text-anchor="middle" stroke="#fafafa" stroke-width="3" paint-order="stroke""##;

fn text(out: &mut String, x: f64, y: f64, size: u32, more: &str, what: &str) {
    writeln!(out, r#"<text x="{x:.1}" y="{y:.1}" font-size="{size}" {more}>{what}</text>"#).unwrap();
}

fn line(out: &mut String, y: f64, color: &str, width: f64) {
    writeln!(out, r#"<line x1="{LEFT}" x2="{RIGHT}" y1="{y:.1}" y2="{y:.1}" stroke="{color}" stroke-width="{width}"/>"#).unwrap();
}

/// Two digits, or as many as stand before the point.
fn short(ratio: f64) -> String {
    match ratio {
        r if r < 0.995 => format!("{r:.2}"),
        r if r < 9.95 => format!("{r:.1}"),
        r => format!("{r:.0}"),
    }
}

fn legend(out: &mut String) {
    text(out, LEFT, 28.0, 17, r#"font-weight="bold""#, "The proved engine against unverified methods, N = 256");
    text(out, LEFT, 48.0, 12, "", "The rival's time over the proved engine's for the same frames; scale of powers of ten");
    for (i, (name, color)) in NAMES.iter().zip(COLORS).enumerate() {
        let (x, y) = (LEFT + 200.0 * (i / 2) as f64, 70.0 + 18.0 * (i % 2) as f64);
        writeln!(out, r#"<rect x="{x:.1}" y="{:.1}" width="12" height="12" fill="{color}"/>"#, y - 10.0).unwrap();
        text(out, x + 18.0, y, 12, "", name);
    }
}

pub fn svg(rows: &[Row]) -> String {
    let capacity = rows.iter().map(|r| r.setting.capacity).max().unwrap();
    let largest: Vec<&Row> = rows.iter().filter(|r| r.setting.capacity == capacity).collect();
    let logs = || largest.iter().flat_map(|r| &r.ratios[..NAMES.len()]).map(|r| r.log10());
    // half powers of ten
    let (low, high) = (logs().fold(0.0, |a, l| (2.0 * l).floor().min(a)) / 2.0, logs().fold(0.0, |a, l| (2.0 * l).ceil().max(a)) / 2.0);
    let panels = [SHARED[0], SHARED[2]];
    let height = TOP + STEP * panels.len() as f64;

    let mut out = format!(
        r##"<svg xmlns="http://www.w3.org/2000/svg" viewBox="0 0 {WIDTH} {height}" font-family="DejaVu Sans, Arial, sans-serif" fill="#222">"##
    );
    writeln!(out, "\n<rect width=\"100%\" height=\"100%\" fill=\"#fff\"/>").unwrap();
    legend(&mut out);
    for (panel, workload) in panels.into_iter().enumerate() {
        let top = TOP + 18.0 + STEP * panel as f64;
        let at = |log: f64| top + MARGIN + (high - log) / (high - low) * (HEIGHT - 2.0 * MARGIN);
        let one = at(0.0);
        text(&mut out, LEFT, top - 7.0, 13, r#"font-weight="bold""#, &format!("{} shared terms ({} in all)", workload.name, workload.terms));
        writeln!(out, r##"<rect x="{LEFT}" y="{top}" width="{}" height="{HEIGHT}" fill="#fafafa" stroke="#ccc"/>"##, RIGHT - LEFT).unwrap();
        for power in low.ceil() as i32..=high.floor() as i32 {
            line(&mut out, at(power as f64), "#ddd", 1.0);
            text(&mut out, LEFT - 8.0, at(power as f64) + 4.0, 12, r#"text-anchor="end""#, &10f64.powi(power).to_string());
        }
        let groups: Vec<_> = largest.iter().filter(|r| r.setting.workload == workload).collect();
        let pitch = (RIGHT - LEFT) / groups.len() as f64;
        for (group, row) in groups.into_iter().enumerate() {
            let middle = LEFT + pitch * (group as f64 + 0.5);
            let queries = row.setting.queries;
            let label = if queries == 1 { "1 query".into() } else { format!("{queries} queries") };
            text(&mut out, middle, top + HEIGHT + 18.0, 12, r#"text-anchor="middle""#, &label);
            for (i, (ratio, color)) in row.ratios.iter().zip(COLORS).enumerate() {
                let (x, y) = (middle + BAR * (i as f64 - 3.0), at(ratio.log10()));
                let (from, to) = (y.min(one), y.max(one));
                let (left, width, height) = (x + 2.0, BAR - 4.0, to - from);
                writeln!(out, r#"<rect x="{left:.1}" y="{from:.1}" width="{width}" height="{height:.1}" fill="{color}"/>"#).unwrap();
                let beside = if *ratio < 1.0 { to + 12.0 } else { from - 4.0 };
                text(&mut out, x + BAR / 2.0, beside, 11, HALO, &short(*ratio));
            }
        }
        line(&mut out, one, "#222", 1.5);
        text(&mut out, RIGHT + 8.0, one - 22.0, 12, "", "proved engine");
        text(&mut out, RIGHT + 8.0, one - 8.0, 12, "", "faster");
        text(&mut out, RIGHT + 8.0, one + 17.0, 12, "", "rival faster");
    }
    out + "</svg>\n"
}
