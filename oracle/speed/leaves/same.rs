//! Leaves that must equal the platform's on every input.

use crate::leaves::proved;
use crate::rng::Rng;

/// Equal bit for bit, where any NaN equals any other.
fn same(a: f32, b: f32) -> bool {
    a.to_bits() == b.to_bits() || (a.is_nan() && b.is_nan())
}

/// How many of the 2^32 patterns of an f32 fail the test.
fn failing(test: impl Fn(f32) -> bool) -> u64 {
    (0..=u32::MAX).map(|n| !test(f32::from_bits(n)) as u64).sum()
}

/// Prints a row; is nothing different?
fn row(leaf: &str, against: &str, inputs: &str, different: u64) -> bool {
    println!("| {leaf} | {against} | {inputs} | {different} |");
    different == 0
}

/// Prints a title and the head of its table.
fn head(title: &str) {
    println!("\n{title}\n\n| leaf | against | inputs | different |\n|---|---|---|---:|");
}

/// The inputs of an exhaustive row.
const ALL: &str = "all 2^32 patterns";

/// The root on every input.
pub fn root() -> bool {
    head("Root, exhaustive");
    row("`sqrt`", "`f32::sqrt`", ALL, failing(|x| same(unsafe { proved::sqrt_f32(x) }, x.sqrt())))
}

/// Magnitude, truncation and product.
pub fn others() -> bool {
    head("Other leaves");
    let magnitude = failing(|x| same(unsafe { proved::magnitude_f32(x) }, x.abs()));
    let truncate = failing(|x| unsafe { proved::truncate_f32(x) } == x as u32);
    let (edges, edge_pairs) = products_of_edges();
    let random = random_products(RANDOM_PAIRS);
    row("`magnitude`", "`f32::abs`", ALL, magnitude)
        & row("`truncate`", "`as u32`", ALL, truncate)
        & row("`wrapping_mul`", "`u64::wrapping_mul`", &format!("{edge_pairs} pairs of edge values"), edges)
        & row("`wrapping_mul`", "`u64::wrapping_mul`", &format!("{RANDOM_PAIRS} random pairs"), random)
}

/// How many random pairs are multiplied.
const RANDOM_PAIRS: u64 = 100_000_000;

/// 1 where the product of a pair differs, else 0.
fn product_differs(a: u64, b: u64) -> u64 {
    (unsafe { proved::wrapping_mul_u64(a, b) } != a.wrapping_mul(b)) as u64
}

/// All pairs of: powers of two, their neighbours, the complements of these, and the hash's multiplier.
fn products_of_edges() -> (u64, usize) {
    let mut edges = vec![0, u64::MAX, 2_654_435_761];
    for k in 0..64 {
        let p = 1u64 << k;
        for e in [p - 1, p, p + 1] {
            edges.extend([e, !e]);
        }
    }
    edges.sort();
    edges.dedup();
    let different = edges.iter().flat_map(|a| edges.iter().map(move |b| product_differs(*a, *b))).sum();
    (different, edges.len() * edges.len())
}

/// How many products of random pairs differ.
fn random_products(pairs: u64) -> u64 {
    let mut random = Rng::new(1);
    (0..pairs).map(|_| product_differs(random.next(), random.next())).sum()
}
