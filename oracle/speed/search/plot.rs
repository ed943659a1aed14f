//! docs/speed.svg: the ratios against their limits, and two growth curves.

use std::fmt::Write;

use crate::growth::Point;
use crate::rows::Measured;

const LEFT: f64 = 330.0;
const WIDTH: f64 = 560.0;
const PORT: &str = "#1f5fa8";
const RUST: &str = "#b5521b";
const GREY: &str = "#7a7a7a";

/// Adds a text.
fn text(out: &mut String, x: f64, y: f64, more: &str, what: &str) {
    writeln!(out, r#"<text x="{x:.1}" y="{y:.1}" {more}>{what}</text>"#).unwrap();
}

/// Adds a line.
fn line(out: &mut String, x: f64, y: f64, by: (f64, f64), more: &str) {
    writeln!(out, r#"<path d="M{x:.1} {y:.1}l{:.1} {:.1}" {more}/>"#, by.0, by.1).unwrap();
}

/// The ratios, a bar each on a scale of powers, with marks at the limit and the aim.
fn ratios(out: &mut String, top: f64, rows: &[Measured]) -> f64 {
    let (low, high) = (0.05f64, 20.0f64);
    let x = |ratio: f64| LEFT + WIDTH * (ratio.clamp(low, high) / low).ln() / (high / low).ln();
    let height = 30.0 * rows.len() as f64;
    text(out, LEFT, top - 32.0, r#"font-weight="bold""#, "The port's time for one of the Rust's (bars; lower is better)");
    text(out, LEFT, top - 14.0, r##"fill="#555""##, "red line: the most allowed; green line: the aim");
    for tick in [0.05, 0.1, 0.25, 0.5, 1.0, 2.0, 5.0, 10.0, 20.0] {
        line(out, x(tick), top, (0.0, height), r##"stroke="#ddd""##);
        text(out, x(tick), top + height + 16.0, r#"text-anchor="middle""#, &tick.to_string());
    }
    for (at, row) in rows.iter().enumerate() {
        let y = top + 30.0 * at as f64;
        text(out, LEFT - 8.0, y + 19.0, r#"text-anchor="end""#, row.name);
        writeln!(out, r#"<rect x="{LEFT}" y="{:.1}" width="{:.1}" height="18" fill="{PORT}"/>"#, y + 6.0, x(row.ratio()) - LEFT).unwrap();
        text(out, x(row.ratio()) + 6.0, y + 20.0, "", &format!("{:.2}", row.ratio()));
        line(out, x(row.aim), y + 2.0, (0.0, 26.0), r##"stroke="#2a8a3a" stroke-width="2""##);
        if let Some(most) = row.at_most {
            line(out, x(most), y + 2.0, (0.0, 26.0), r##"stroke="#c02020" stroke-width="2""##);
        }
    }
    text(out, LEFT + WIDTH / 2.0, top + height + 34.0, r#"text-anchor="middle""#, "ratio of CPU times, on a scale of powers");
    top + height + 100.0
}

/// A curve panel: its title, the axes' names, what a tick on the lower axis says, and the curves with their names and colours.
struct Curves<'a> {
    title: &'a str,
    across: &'a str,
    up: &'a str,
    tick: fn(u64) -> String,
    list: Vec<(&'a str, &'a str, Vec<(u64, f64)>)>,
}

impl Curves<'_> {
    /// Draws the panel and says where the next one begins.
    fn draw(&self, out: &mut String, top: f64) -> f64 {
        let height = 220.0;
        let points = || self.list.iter().flat_map(|(_, _, list)| list);
        let (first, last) = (self.list[0].2[0].0 as f64, self.list[0].2.last().expect("a point").0 as f64);
        let step = step(points().map(|(_, value)| *value).fold(1.0, f64::max));
        let most = 5.0 * step;
        let x = |much: u64| LEFT + WIDTH * (much as f64 / first).ln() / (last / first).ln();
        let y = |value: f64| top + height * (1.0 - value / most);
        text(out, LEFT, top - 12.0, r#"font-weight="bold""#, self.title);
        for part in 0..=5 {
            let value = step * f64::from(part);
            line(out, LEFT, y(value), (WIDTH, 0.0), r##"stroke="#ddd""##);
            text(out, LEFT - 8.0, y(value) + 4.0, r#"text-anchor="end""#, &format!("{value:.0}"));
        }
        for (much, _) in &self.list[0].2 {
            line(out, x(*much), top + height, (0.0, 5.0), r##"stroke="#333""##);
            text(out, x(*much), top + height + 18.0, r#"text-anchor="middle""#, &(self.tick)(*much));
        }
        for (at, (name, colour, list)) in self.list.iter().enumerate() {
            let path: Vec<String> = list.iter().map(|(much, value)| format!("{:.1} {:.1}", x(*much), y(*value))).collect();
            writeln!(out, r#"<path d="M{}" fill="none" stroke="{colour}" stroke-width="2"/>"#, path.join("L")).unwrap();
            path.iter().for_each(|place| dot(out, place, colour));
            text(out, 40.0, top + 60.0 + 20.0 * at as f64, &format!(r#"fill="{colour}""#), name);
        }
        line(out, LEFT, top, (0.0, height), r##"stroke="#333""##);
        let (x, y) = (LEFT - 56.0, top + height / 2.0);
        text(out, x, y, &format!(r#"text-anchor="middle" transform="rotate(-90 {x} {y})""#), self.up);
        text(out, LEFT + WIDTH / 2.0, top + height + 38.0, r#"text-anchor="middle""#, self.across);
        top + height + 100.0
    }
}

/// A round step of which five reach a value.
fn step(most: f64) -> f64 {
    let power = 10f64.powf((most / 5.0).log10().floor());
    let round = [1.0, 2.0, 2.5, 5.0, 10.0].map(|part| part * power);
    round.into_iter().find(|step| 5.0 * step >= most).unwrap_or(most)
}

/// Adds a dot at a place.
fn dot(out: &mut String, place: &str, colour: &str) {
    let (x, y) = place.split_once(' ').expect("two numbers");
    writeln!(out, r#"<circle cx="{x}" cy="{y}" r="3" fill="{colour}"/>"#).unwrap();
}

/// A number with thousands apart.
fn thousands(much: u64) -> String {
    if much < 1_000 {
        much.to_string()
    } else {
        format!("{},{:03}", much / 1_000, much % 1_000)
    }
}

/// One curve of points.
fn curve(points: &[Point], value: fn(&Point) -> f64) -> Vec<(u64, f64)> {
    points.iter().map(|point| (point.much, value(point))).collect()
}

/// The whole picture.
pub fn svg(rows: &[Measured], combinations: &[Point], slots: &[Point]) -> String {
    let mut out = String::new();
    let next = ratios(&mut out, 120.0, rows);
    let next = Curves {
        title: "Time a combination, e·bins = 0.25, 478,001 slots",
        across: "combinations of a no-match frame",
        up: "ns a combination",
        tick: thousands,
        list: vec![("port", PORT, curve(combinations, |p| p.port)), ("Rust", RUST, curve(combinations, |p| p.rust))],
    }
    .draw(&mut out, next);
    let next = Curves {
        title: "Time a read, e·bins = 1.25, tables half full",
        across: "slots",
        up: "ns a read",
        tick: |much| format!("2^{}", much.ilog2()),
        list: vec![
            ("port", PORT, curve(slots, |p| p.port)),
            ("Rust", RUST, curve(slots, |p| p.rust)),
            ("plain random reads", GREY, curve(slots, |p| p.plain[0])),
            ("plain, each waiting for the last", "#b0a060", curve(slots, |p| p.plain[1])),
        ],
    }
    .draw(&mut out, next);
    let (width, height) = (LEFT + WIDTH + 40.0, next - 40.0);
    let head = format!(
        r#"<svg xmlns="http://www.w3.org/2000/svg" width="{width}" height="{height}" viewBox="0 0 {width} {height}" font-family="sans-serif" font-size="13">"#
    );
    let title = r#"<text x="20" y="32" font-size="16" font-weight="bold">The search's speed beside the Rust's</text>"#;
    format!("{head}\n<rect width=\"{width}\" height=\"{height}\" fill=\"#fff\"/>\n{title}\n{out}</svg>\n")
}
