//! The arc's error against h, as SVG text: three panels over one axis of h.

use std::fmt::Write;

use crate::arcsine::{Bin, BINS};

/// Where the panels lie, in pixels.
const LEFT: f64 = 80.0;
const WIDTH: f64 = 800.0;
const HEIGHT: f64 = 190.0;
const GAP: f64 = 62.0;
const TOP: f64 = 98.0;

/// One panel: its title, the axis from low to high with a mark at every step, and each bin's bar.
struct Panel {
    title: &'static str,
    axis: &'static str,
    low: f64,
    high: f64,
    step: f64,
    colour: &'static str,
    bar: fn(&Bin) -> (f64, f64),
}

/// The three panels, from the top.
const PANELS: [Panel; 3] = [
    Panel {
        title: "Arc less the platform's arcsine (f32::asin): lowest and highest in each bin",
        axis: "ulp",
        low: -1.5,
        high: 2.75,
        step: 1.0,
        colour: "#1f5fa8",
        bar: |b| (b.lowest as f64, b.highest as f64),
    },
    Panel {
        title: "Share of values that differ from the platform's arcsine",
        axis: "percent",
        low: 0.0,
        high: 100.0,
        step: 25.0,
        colour: "#7a7a7a",
        bar: |b| (0.0, 100.0 * b.different as f64 / b.values as f64),
    },
    Panel {
        title: "Arc less the true arcsine (worked out in f64): lowest and highest in each bin",
        axis: "ulp",
        low: -1.5,
        high: 2.75,
        step: 1.0,
        colour: "#b5521b",
        bar: |b| (b.below, b.above),
    },
];

impl Panel {
    /// Where a value stands on the panel's axis.
    fn y(&self, top: f64, v: f64) -> f64 {
        top + HEIGHT * (self.high - v) / (self.high - self.low)
    }

    /// Adds the panel: title, axes with their marks, and the bars.
    fn draw(&self, out: &mut String, top: f64, bins: &[Bin]) {
        let bottom = top + HEIGHT;
        writeln!(out, r#"<text x="{LEFT}" y="{}" font-weight="bold">{}</text>"#, top - 10.0, self.title).unwrap();
        let mut v = (self.low / self.step).ceil() * self.step;
        while v <= self.high {
            let y = self.y(top, v);
            writeln!(out, r##"<path d="M{LEFT} {y:.1}h{WIDTH}" stroke="#ddd"/>"##).unwrap();
            writeln!(out, r#"<text x="{}" y="{:.1}" text-anchor="end">{v:.0}</text>"#, LEFT - 8.0, y + 4.0).unwrap();
            v += self.step;
        }
        self.bars(out, top, bins);
        writeln!(out, r##"<path d="M{LEFT} {:.1}h{WIDTH}" stroke="#333"/>"##, self.y(top, 0.0)).unwrap();
        writeln!(out, r##"<path d="M{} {top}V{bottom}" stroke="#333" stroke-dasharray="4 4"/>"##, LEFT + WIDTH / 2.0).unwrap();
        writeln!(out, r##"<rect x="{LEFT}" y="{top}" width="{WIDTH}" height="{HEIGHT}" fill="none" stroke="#333"/>"##).unwrap();
        let (x, y) = (LEFT - 48.0, top + HEIGHT / 2.0);
        writeln!(out, r#"<text x="{x}" y="{y}" text-anchor="middle" transform="rotate(-90 {x} {y})">{}</text>"#, self.axis).unwrap();
        for i in 0..=10 {
            let x = LEFT + WIDTH * i as f64 / 10.0;
            writeln!(out, r##"<path d="M{x:.1} {bottom}v5" stroke="#333"/>"##).unwrap();
            writeln!(out, r#"<text x="{x:.1}" y="{}" text-anchor="middle">{:.1}</text>"#, bottom + 18.0, i as f64 / 10.0).unwrap();
        }
    }

    /// A bar from the lower to the upper end in each bin; ends outside the axis are cut to it.
    fn bars(&self, out: &mut String, top: f64, bins: &[Bin]) {
        let wide = WIDTH / BINS as f64;
        let mut path = String::new();
        for (i, b) in bins.iter().enumerate() {
            let (from, to) = (self.bar)(b);
            let high = self.y(top, to.min(self.high));
            let low = self.y(top, from.max(self.low));
            write!(path, "M{:.1} {high:.1}h{wide}V{low:.1}h-{wide}z", LEFT + i as f64 * wide).unwrap();
        }
        writeln!(out, r#"<path d="{path}" fill="{}"/>"#, self.colour).unwrap();
    }
}

/// The whole plot.
pub fn svg(bins: &[Bin]) -> String {
    let (width, height) = (LEFT + WIDTH + 30.0, TOP + 3.0 * (HEIGHT + GAP) + 4.0);
    let mut out = String::new();
    writeln!(out, r#"<svg xmlns="http://www.w3.org/2000/svg" width="{width}" height="{height}" viewBox="0 0 {width} {height}" font-family="sans-serif" font-size="13">"#).unwrap();
    writeln!(out, r##"<rect width="{width}" height="{height}" fill="#fff"/>"##).unwrap();
    writeln!(out, r#"<text x="{LEFT}" y="24" font-size="16" font-weight="bold">The arc's error against h</text>"#).unwrap();
    writeln!(out, r##"<text x="{LEFT}" y="44" fill="#555">Every f32 h from 2^-12 to 1, in {BINS} bins of equal width; below 2^-12 the arc is h.</text>"##).unwrap();
    writeln!(out, r##"<text x="{LEFT}" y="62" fill="#555">The dashed line is 0.5, where the formula changes. One ulp is a step from one f32 to the next.</text>"##).unwrap();
    for (k, panel) in PANELS.iter().enumerate() {
        panel.draw(&mut out, TOP + k as f64 * (HEIGHT + GAP), bins);
    }
    writeln!(out, r#"<text x="{}" y="{}" text-anchor="middle">h</text>"#, LEFT + WIDTH / 2.0, height - 20.0).unwrap();
    out.push_str("</svg>\n");
    out
}
