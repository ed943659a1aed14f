//! How the time grows with combinations and with slots.

use std::hint::black_box;

use cases::rng::Rng;
use tetra3::solver::record::Given;

use crate::clock::turns;
use crate::frames::{no_match, table_of};
use crate::sides::Work;

/// One point: how much, and the port's and the Rust's ns for each unit of it.
pub struct Point {
    pub much: u64,
    pub port: f64,
    pub rust: f64,
    /// Plain random reads of the same memory: independent ones, and each waiting for the last.
    pub plain: [f64; 2],
}

/// ns for each combination, for 10^3 to 6·10^5 combinations.
pub fn combinations(rng: &mut Rng, given: &Given, count: usize) -> Vec<Point> {
    let base = Work::new(given.clone());
    let frame = no_match(rng, given, 100, 64);
    let mut list = Vec::new();
    for checking in [14, 18, 24, 32, 44, 64] {
        let work = base.beside(Given { checking_stars: checking, ..frame.clone() });
        let much = work.port(u64::MAX, false).combinations;
        let mut port = || assert!(work.port(u64::MAX, false).combinations == much, "the same again");
        let [port, rust] = turns(count, 0.1, [&mut port, &mut || work.rust(false)]);
        let each = 1e9 / much as f64;
        list.push(Point { much, port: port.median * each, rust: rust.median * each, plain: [0.0; 2] });
    }
    list
}

/// ns for each read, for 2^10 to 2^24 slots half full, at e·bins = 1.25, where a combination has many reads.
pub fn slots(rng: &mut Rng, given: &Given, count: usize) -> Vec<Point> {
    let frame = Given { match_max_error: Some(0.005), ..no_match(rng, given, 100, 20) };
    let mut list = Vec::new();
    for power in (10..=24).step_by(2) {
        let work = Work::new(table_of(rng, &frame, 1 << power));
        let reads = work.port(u64::MAX, false).reads;
        let mut port = || assert!(work.port(u64::MAX, false).reads == reads, "the same again");
        let [port, rust] = turns(count, 0.1, [&mut port, &mut || work.rust(false)]);
        let [apart, chained] = turns(count, 0.1, [&mut || plain::<0>(&work, reads), &mut || plain::<1>(&work, reads)]);
        let each = 1e9 / reads as f64;
        let plain = [apart.median * each, chained.median * each];
        list.push(Point { much: 1 << power, port: port.median * each, rust: rust.median * each, plain });
    }
    list
}

/// Reads so many random slots' words and, for every other one, a random entry, and does nothing with them. With `CHAINED` 1 each
/// address waits for what the last read gave, with 0 it doesn't.
fn plain<const CHAINED: u64>(work: &Work, reads: u64) {
    let (words, packed, slots) = work.memory();
    let entries = packed.len() as u64 / 22;
    let (mut number, mut sum) = (1u64, 0u64);
    for at in 0..reads {
        number = number.wrapping_mul(6_364_136_223_846_793_005).wrapping_add(1_442_695_040_888_963_407 + (sum & CHAINED));
        let high = number >> 32;
        let slot = (high * slots) >> 32;
        sum = sum.wrapping_add(words[(slot / 448 * 8 + 1 + slot % 448 / 64) as usize]);
        if at % 2 == 0 {
            let entry = ((high * entries) >> 32) * 22;
            sum = sum.wrapping_add(u64::from(packed[entry as usize + 20]));
        }
    }
    black_box(sum);
}
