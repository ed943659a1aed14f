//! The works that have a limit, and their ratios.

use cases::oracle::passes;
use cases::rng::Rng;
use tetra3::solver::record::Given;

use crate::clock::{turns, Times};
use crate::frames::{matching, no_match};
use crate::sides::{Counts, Work};

/// One work: its frames, how the port's reads are divided, whether it ends at the first candidate, and what its ratio may be.
pub struct Row {
    pub name: &'static str,
    pub at_most: Option<f64>,
    pub aim: f64,
    works: Vec<Work>,
    allowance: u64,
    first: bool,
}

/// What was measured on a row.
pub struct Measured {
    pub name: &'static str,
    pub at_most: Option<f64>,
    pub aim: f64,
    pub counts: Counts,
    pub port: Times,
    pub rust: Times,
}

impl Measured {
    /// The port's time for one of the Rust's, by the medians.
    pub fn ratio(&self) -> f64 {
        self.port.median / self.rust.median
    }

    /// The same by the least times.
    fn least(&self) -> f64 {
        self.port.least / self.rust.least
    }

    /// Is the ratio within its limit?
    pub fn met(&self) -> bool {
        self.at_most.is_none_or(|most| self.ratio() <= most)
    }

    /// The row of the table.
    pub fn line(&self) -> String {
        let Counts { combinations, reads, candidates, calls } = self.counts;
        let limit = self.at_most.map_or("recorded".into(), |most| most.to_string());
        let met = if self.ratio() <= self.aim { "aim met" } else { ["not met", "met"][usize::from(self.met())] };
        let times =
            format!("{:.2} | {:.2} | **{:.3}** | {:.3}", self.port.median * 1e3, self.rust.median * 1e3, self.ratio(), self.least());
        format!("| {} | {combinations} | {reads} | {calls} | {candidates} | {times} | {limit} | {} | {met} |", self.name, self.aim)
    }
}

/// The head of the table.
pub const HEAD: &str =
    "| work | combinations | reads | calls | candidates | port, ms | Rust, ms | ratio | by least times | at most | aim | |
|---|---:|---:|---:|---:|---:|---:|---:|---:|---:|---:|---|";

impl Row {
    /// One run of the port over all frames.
    pub fn port(&self) -> Counts {
        let mut sum = Counts::default();
        for work in &self.works {
            let counts = work.port(self.allowance, self.first);
            sum.combinations += counts.combinations;
            sum.reads += counts.reads;
            sum.candidates += counts.candidates;
            sum.calls += counts.calls;
        }
        sum
    }

    /// One run of the Rust over all frames.
    pub fn rust(&self) {
        self.works.iter().for_each(|work| work.rust(self.first));
    }

    /// Both sides by turns.
    pub fn measure(&self, count: usize) -> Measured {
        let counts = self.port();
        let mut port = || assert!(self.port() == counts, "the same again");
        let [port, rust] = turns(count, 0.1, [&mut port, &mut || self.rust()]);
        Measured { name: self.name, at_most: self.at_most, aim: self.aim, counts, port, rust }
    }
}

/// A frame without a match, checked against the oracle's record.
fn checked(base: &Work, given: Given) -> Vec<Work> {
    let work = base.beside(given.clone());
    work.check(&given, Some(30_000));
    vec![work]
}

/// The same frame under a field error that makes so many passes.
fn swept(given: &Given, wanted: usize) -> Given {
    let mut tried = Given { slots: 0, occupancy: Vec::new(), packed: Vec::new(), stars: Vec::new(), ..given.clone() };
    let mut count = |error: f32| {
        tried.fov_max_error = Some(error);
        passes(&tried).len()
    };
    let error = (0..1_000).map(|at| 0.001 * at as f32).find(|error| count(*error) == wanted);
    Given { fov_max_error: Some(error.expect("an error for so many passes")), ..given.clone() }
}

/// So many frames of the sky, each checked up to a cap.
fn frames(rng: &mut Rng, base: &Work, given: &Given, count: usize) -> Vec<Work> {
    let list = (0..count).map(|_| matching(rng, given)).flat_map(|given| checked(base, given));
    list.collect()
}

/// Every work with a limit, in the order of the table; only the one of a number, if there is one.
pub fn rows(rng: &mut Rng, given: &Given, only: Option<usize>) -> Vec<Row> {
    let base = Work::new(given.clone());
    let large = no_match(rng, given, 100, 64);
    let wide = Given { match_max_error: Some(0.005), checking_stars: 32, ..large.clone() };
    let few = Given { checking_stars: 24, ..large.clone() };
    let many = no_match(rng, given, 256, 24);
    let sweep = swept(&few, 64);
    let mut list: Vec<Row> = Vec::new();
    let mut number = 0;
    let mut add = |name, at_most, aim, allowance, first, make: &mut dyn FnMut() -> Vec<Work>| {
        if only.is_none_or(|one| one == number) {
            list.push(Row { name, at_most, aim, works: make(), allowance, first });
        }
        number += 1;
    };
    const WHOLE: u64 = u64::MAX;
    add("no match, 64 checking stars, one call", Some(0.5), 0.25, WHOLE, false, &mut || checked(&base, large.clone()));
    add("the same in calls of 10,000 reads", Some(0.6), 0.3, 10_000, false, &mut || checked(&base, large.clone()));
    add("the same in calls of 100 reads", None, 2.0, 100, false, &mut || checked(&base, large.clone()));
    add("e·bins = 1.25, 32 checking stars", Some(0.6), 0.35, WHOLE, false, &mut || checked(&base, wide.clone()));
    add("48 frames with a match, to the first candidate", Some(0.5), 0.25, WHOLE, true, &mut || frames(rng, &base, given, 48));
    add("24 checking stars", Some(0.6), 0.35, WHOLE, false, &mut || checked(&base, few.clone()));
    add("256 centroids, 24 checking stars", Some(0.6), 0.35, WHOLE, false, &mut || checked(&base, many.clone()));
    add("sweep of 64 passes, 24 checking stars", Some(0.6), 0.35, WHOLE, false, &mut || checked(&base, sweep.clone()));
    list
}
