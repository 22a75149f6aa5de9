//! The ratios as a picture: a bar for each call from the line of the Rust, to the left where the library takes less time, to the right where it takes more.
use crate::table::{Row, Table, short};

const LEFT: f64 = 240.0;
const TOP: f64 = 48.0;
const HEIGHT: f64 = 20.0;
/// From one ratio to twice that.
const DOUBLE: f64 = 80.0;

/// What the picture reaches to, as powers of 2; a longer bar is cut off there, with its number.
const LEAST: i32 = -2;
const MOST: i32 = 4;

fn across(ratio: f64) -> f64 {
    LEFT + DOUBLE * (ratio.log2().clamp(LEAST.into(), MOST.into()) - f64::from(LEAST))
}

fn text(x: f64, y: f64, anchor: &str, said: &str) -> String {
    format!("<text x=\"{x:.1}\" y=\"{y:.1}\" text-anchor=\"{anchor}\">{said}</text>\n")
}

fn line(power: i32, bottom: f64) -> String {
    let (ratio, stroke) = (2f64.powi(power), if power == 0 { "#333" } else { "#ddd" });
    let x = across(ratio);
    let line = format!("<line x1=\"{x:.1}\" y1=\"{TOP}\" x2=\"{x:.1}\" y2=\"{bottom}\" stroke=\"{stroke}\"/>\n");
    line + &text(x, TOP - 6.0, "middle", &ratio.to_string())
}

/// At the Rust's side or better, up to twice its time, above.
fn colour(ratio: f64) -> &'static str {
    match ratio {
        _ if ratio <= 1.1 => "#3a8f5c",
        _ if ratio <= 2.0 => "#d9a441",
        _ => "#c0583c",
    }
}

fn bar(at: usize, row: &Row, ratio: f64) -> String {
    let (y, from, to) = (TOP + HEIGHT * at as f64, across(ratio.min(1.0)), across(ratio.max(1.0)));
    let (width, height) = ((to - from).max(1.0), HEIGHT - 6.0);
    let name = text(LEFT - 8.0, y + 14.0, "end", &row.name.replace('`', ""));
    let bar = format!("<rect x=\"{from:.1}\" y=\"{:.1}\" width=\"{width:.1}\" height=\"{height}\" fill=\"{}\"/>\n", y + 3.0, colour(ratio));
    name + &bar + &text(to + 5.0, y + 14.0, "start", &short(ratio))
}

pub fn drawn(table: &Table) -> String {
    let rows: Vec<(&Row, f64)> = table.rows.iter().filter_map(|row| Some((row, row.ratio()?))).collect();
    let (width, bottom) = (across(f64::INFINITY) + 50.0, TOP + HEIGHT * rows.len() as f64);
    let head = format!("<svg xmlns=\"http://www.w3.org/2000/svg\" viewBox=\"0 0 {width} {}\" font-family=\"sans-serif\" font-size=\"12\">\n", bottom + 10.0);
    let title = text(8.0, 18.0, "start", "Time of a call, the library's by the Rust's: at 1 they take the same, to the left the library takes less");
    let lines: String = (LEAST..=MOST).map(|power| line(power, bottom)).collect();
    let bars: String = rows.into_iter().enumerate().map(|(at, (row, ratio))| bar(at, row, ratio)).collect();
    head + "<rect width=\"100%\" height=\"100%\" fill=\"white\"/>\n" + &title + &lines + &bars + "</svg>\n"
}
