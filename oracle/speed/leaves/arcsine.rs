//! The arc over every f32 from 0 to 1: against its own formula in Rust, and its distance from the platform's arcsine.

use crate::leaves::{arc as formula, proved, TINY};
use crate::plot;

/// The bits of 1.
const ONE: u32 = 0x3F80_0000;
/// How many bins of equal width the plot has.
pub const BINS: usize = 400;

/// The head of a table of ranges.
const HEAD: &str = "| h | values | different | share | by more than 1 ulp | lowest | highest | largest distance, ulp |
|---|---:|---:|---:|---:|---:|---:|---:|";

/// Distances over a range of h, in ulp: whole steps from one f32 to the next, above 0 where the arc is the larger.
#[derive(Clone, Copy, Default)]
struct Range {
    values: u64,
    different: u64,
    two: u64,
    highest: i64,
    lowest: i64,
}

impl Range {
    /// Counts one value.
    fn count(&mut self, distance: i64) {
        self.values += 1;
        self.different += (distance != 0) as u64;
        self.two += (distance.abs() > 1) as u64;
        self.highest = self.highest.max(distance);
        self.lowest = self.lowest.min(distance);
    }

    /// Both ranges together.
    fn with(self, o: Range) -> Range {
        Range {
            values: self.values + o.values,
            different: self.different + o.different,
            two: self.two + o.two,
            highest: self.highest.max(o.highest),
            lowest: self.lowest.min(o.lowest),
        }
    }

    /// Prints the row of the table.
    fn row(&self, name: &str) {
        let share = 100.0 * self.different as f64 / self.values as f64;
        let largest = self.highest.max(-self.lowest);
        println!(
            "| {name} | {} | {} | {share:.3} % | {} | {:+} | {:+} | {largest} |",
            self.values, self.different, self.two, self.lowest, self.highest
        );
    }
}

/// What the plot shows of the h in one bin.
#[derive(Clone, Copy, Default)]
pub struct Bin {
    pub values: u64,
    pub different: u64,
    pub highest: i64,
    pub lowest: i64,
    pub above: f64,
    pub below: f64,
}

impl Bin {
    /// Counts one value.
    fn count(&mut self, distance: i64, error: f64) {
        self.values += 1;
        self.different += (distance != 0) as u64;
        self.highest = self.highest.max(distance);
        self.lowest = self.lowest.min(distance);
        self.above = self.above.max(error);
        self.below = self.below.min(error);
    }
}

/// a - b, in steps from one f32 to the next; neither is negative.
fn steps(a: f32, b: f32) -> i64 {
    a.to_bits() as i64 - b.to_bits() as i64
}

/// How far a is from the arcsine of h, which f64 gives near enough, in units of the last place of an f32 of that size.
fn error(a: f32, h: f32) -> f64 {
    let exact = (h as f64).asin();
    let exponent = (exact.to_bits() >> 52) as i32 - 1023;
    (a as f64 - exact) / 2f64.powi(exponent - 23)
}

/// Binade -1 is from 0.5 to 1, 1 included; 12 of them from 2^-12 on, and in front what is below.
fn range_of(h: f32) -> usize {
    if h < TINY {
        return 0;
    }
    ((h.to_bits() >> 23) as usize - 114).min(12)
}

/// What was measured over all values.
struct Measured {
    from_formula: u64,
    ranges: [Range; 13],
    bins: Vec<Bin>,
    worst: (f64, f32),
    platform_worst: f64,
}

/// Measures every value.
fn measure() -> Measured {
    let mut m = Measured {
        from_formula: 0,
        ranges: [Range::default(); 13],
        bins: vec![Bin::default(); BINS],
        worst: (0.0, 0.0),
        platform_worst: 0.0,
    };
    for n in 0..=ONE {
        let h = f32::from_bits(n);
        let a = unsafe { proved::arc_f32(h) };
        m.from_formula += (a.to_bits() != formula(h).to_bits()) as u64;
        let platform = h.asin();
        let distance = steps(a, platform);
        m.ranges[range_of(h)].count(distance);
        if h >= TINY {
            let e = error(a, h);
            m.bins[((h * BINS as f32) as usize).min(BINS - 1)].count(distance, e);
            if e.abs() > m.worst.0 {
                m.worst = (e.abs(), h);
            }
            m.platform_worst = m.platform_worst.max(error(platform, h).abs());
        }
    }
    m
}

/// Prints the tables and writes the plot; false where the arc differs from its own formula.
pub fn arc() -> bool {
    let m = measure();
    println!("\nArc, all {} f32 from 0 to 1", ONE as u64 + 1);
    println!("\nDifferent from the same formula in Rust with the processor's root: {}", m.from_formula);
    println!("\nAgainst the platform's arcsine (`f32::asin`):\n");
    println!("{HEAD}");
    let sum = |r: &[Range]| r.iter().fold(Range::default(), |a, b| a.with(*b));
    m.ranges[0].row("below 2^-12");
    sum(&m.ranges[1..12]).row("2^-12 to 0.5");
    m.ranges[12].row("0.5 to 1");
    sum(&m.ranges).row("all");
    println!("\nBy binades:\n");
    println!("{HEAD}");
    for (k, r) in m.ranges.iter().enumerate().skip(1) {
        r.row(&format!("2^{} to 2^{}", k as i32 - 13, k as i32 - 12));
    }
    println!(
        "\nFrom the true arcsine (in f64), from 2^-12 on: the arc at most {:.3} ulp (at h = {:.7}), the platform's at most {:.3} ulp",
        m.worst.0, m.worst.1, m.platform_worst
    );
    std::fs::write("docs/arc-error.svg", plot::svg(&m.bins)).expect("docs/arc-error.svg can be written");
    m.from_formula == 0
}
