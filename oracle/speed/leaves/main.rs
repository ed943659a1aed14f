//! Measures the proved leaves, linked as the archive of `bench_exports`, against the platform's own. What it prints is Markdown.

mod arcsine;
mod leaves;
mod plot;
#[allow(dead_code)]
#[path = "../../compare/cases/rng.rs"]
mod rng;
mod same;
mod speed;

/// Measures the parts that the words name, or all.
fn main() {
    let words: Vec<String> = std::env::args().skip(1).collect();
    let parts: [(&str, fn() -> bool); 4] = [("root", same::root), ("arc", arcsine::arc), ("others", same::others), ("speed", speed::speed)];
    let mut good = true;
    for (name, part) in parts {
        if words.is_empty() || words.iter().any(|w| w == name) {
            good &= part();
        }
    }
    if !good {
        std::process::exit(1);
    }
}
