//! The ratios as a picture of bars.

use crate::cases::{Job, Setting};
use crate::Row;
use std::fmt::Write;

const LABELS: f64 = 230.0;
const BARS: f64 = 420.0;
const LINE: f64 = 20.0;
const TOP: f64 = 60.0;

/// The picture, as SVG.
pub fn svg(rows: &[Row]) -> String {
    let most = rows.iter().map(|row| row.times.ratio()).fold(1.5, f64::max);
    let scale = BARS / most;
    let height = TOP + LINE * (rows.len() + Job::ALL.len()) as f64 + 20.0;
    let mut text = String::new();
    frame(&mut text, height);
    line_at_one(&mut text, LABELS + scale, height);
    bars(&mut text, rows, scale);
    text += "</svg>\n";
    text
}

fn frame(text: &mut String, height: f64) {
    let width = LABELS + BARS + 70.0;
    let size = format!(r#"width="{width:.0}" height="{height:.0}""#);
    let _ = writeln!(text, r#"<svg xmlns="http://www.w3.org/2000/svg" {size} viewBox="0 0 {width:.0} {height:.0}""#);
    let _ = writeln!(text, r#"  font-family="sans-serif" font-size="12" fill="rgb(30,30,30)">"#);
    let _ = writeln!(text, r#"<rect {size} fill="white"/>"#);
    let title = "Time of the proved library / time of plain Rust";
    let _ = writeln!(text, r#"<text x="12" y="22" font-size="15" font-weight="bold">{title}</text>"#);
    let _ = writeln!(text, r#"<text x="12" y="40">shorter is faster; at the line both take the same time</text>"#);
}

fn line_at_one(text: &mut String, x: f64, height: f64) {
    let colour = "rgb(180,40,40)";
    let (bottom, below) = (height - 16.0, height - 4.0);
    let _ = writeln!(
        text,
        r#"<line x1="{x:.1}" y1="52" x2="{x:.1}" y2="{bottom:.0}" stroke="{colour}" stroke-width="1.5"/>"#
    );
    let _ = writeln!(text, r#"<text x="{x:.1}" y="{below:.0}" text-anchor="middle" fill="{colour}">1.0</text>"#);
}

fn bars(text: &mut String, rows: &[Row], scale: f64) {
    let mut y = TOP;
    let mut job = None;
    for row in rows {
        if job != Some(row.job) {
            job = Some(row.job);
            let _ = writeln!(text, r#"<text x="12" y="{:.0}" font-weight="bold">{}</text>"#, y + 14.0, row.job.name());
            y += LINE;
        }
        bar(text, row, y, scale);
        y += LINE;
    }
}

fn bar(text: &mut String, row: &Row, y: f64, scale: f64) {
    let ratio = row.times.ratio();
    let (length, top, base) = (ratio * scale, y + 3.0, y + 14.0);
    let (label, end, after) = (label(&row.setting), LABELS - 8.0, LABELS + length + 6.0);
    let halo = r#"paint-order="stroke" stroke="white" stroke-width="4""#;
    let _ = writeln!(text, r#"<text x="{end:.0}" y="{base:.0}" text-anchor="end">{label}</text>"#);
    let _ = writeln!(
        text,
        r#"<rect x="{LABELS}" y="{top:.0}" width="{length:.1}" height="14" fill="rgb(70,120,190)" fill-opacity="0.6"/>"#
    );
    let _ = writeln!(text, r#"<text x="{after:.1}" y="{base:.0}" {halo}>{ratio:.2}</text>"#);
}

fn label(setting: &Setting) -> String {
    let Setting { n, lost, marks } = setting;
    match marks {
        0 => format!("n = {n}, {lost} lost"),
        _ => format!("n = {n}, {lost} lost, {marks} bad links"),
    }
}
