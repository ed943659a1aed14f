//! The proved root and arc beside the processor's root and the same formula with it: nanoseconds a value.

use std::hint::black_box;
use std::time::Instant;

use crate::leaves::{arc as formula, proved};
use crate::rng::Rng;

/// So many inputs that the processor can't learn by heart which piece of the arc each one takes.
const COUNT: usize = 1 << 20;
/// A turn takes so few of them that it is seldom interrupted, and all are gone through so often.
const TURN: usize = 1 << 13;
const ROUNDS: usize = 8;

/// A leaf of one value, and one over a slice.
type Leaf = unsafe extern "C" fn(f32) -> f32;
type Each = unsafe extern "C" fn(*mut f32, usize);

/// The processor's root.
#[inline(never)]
unsafe extern "C" fn hardware_sqrt(x: f32) -> f32 {
    x.sqrt()
}

/// The arc's formula with the processor's root.
#[inline(never)]
unsafe extern "C" fn hardware_arc(h: f32) -> f32 {
    formula(h)
}

/// A loop that stays one value at a time: `black_box` keeps the compiler from taking four.
#[inline(never)]
unsafe extern "C" fn hardware_sqrt_each(values: *mut f32, count: usize) {
    for v in std::slice::from_raw_parts_mut(values, count) {
        *v = black_box(v.sqrt());
    }
}

/// The same for the arc.
#[inline(never)]
unsafe extern "C" fn hardware_arc_each(values: *mut f32, count: usize) {
    for v in std::slice::from_raw_parts_mut(values, count) {
        *v = black_box(formula(*v));
    }
}

/// As the compiler has it when it may take four at a time (sqrtps).
#[inline(never)]
unsafe extern "C" fn four_sqrt_each(values: *mut f32, count: usize) {
    for v in std::slice::from_raw_parts_mut(values, count) {
        *v = v.sqrt();
    }
}

/// The platform's arcsine of each value.
#[inline(never)]
unsafe extern "C" fn platform_asin_each(values: *mut f32, count: usize) {
    for v in std::slice::from_raw_parts_mut(values, count) {
        *v = v.asin();
    }
}

/// One call for each value, none waiting for another.
fn apart(f: Leaf, inputs: &[f32], out: &mut [f32]) -> f64 {
    let f = black_box(f);
    let start = Instant::now();
    for (o, x) in out.iter_mut().zip(inputs) {
        *o = unsafe { f(*x) };
    }
    start.elapsed().as_nanos() as f64 / inputs.len() as f64
}

/// Each call waits for the last one's result: what is added to its input is 0, which only the result shows.
fn chained(f: Leaf, inputs: &[f32], out: &mut [f32]) -> f64 {
    let f = black_box(f);
    let mut last = 0.0f32;
    let start = Instant::now();
    for x in inputs {
        let zero = if last < 0.0 { last } else { 0.0 };
        last = unsafe { f(*x + zero) };
    }
    let spent = start.elapsed().as_nanos() as f64 / inputs.len() as f64;
    out[0] = last;
    spent
}

/// One call for the whole slice, on a fresh copy each time; the copying is not counted.
fn whole(f: Each, inputs: &[f32], out: &mut [f32]) -> f64 {
    let f = black_box(f);
    out.copy_from_slice(inputs);
    let start = Instant::now();
    unsafe { f(out.as_mut_ptr(), out.len()) };
    start.elapsed().as_nanos() as f64 / inputs.len() as f64
}

/// Of many turns the median time, and the least, to which whatever else runs on the machine has added nothing.
#[derive(Clone, Copy)]
struct Time {
    median: f64,
    least: f64,
}

/// The two times of a list of turns.
fn time(mut turns: Vec<f64>) -> Time {
    turns.sort_by(f64::total_cmp);
    Time { median: turns[turns.len() / 2], least: turns[0] }
}

/// The times of some ways of doing one job, taken in turn, so that what disturbs one disturbs all.
fn times<F: Copy, const N: usize>(driver: fn(F, &[f32], &mut [f32]) -> f64, ways: [F; N], inputs: &[f32]) -> [Time; N] {
    let mut out = vec![0.0; TURN];
    let mut turns = [const { Vec::new() }; N];
    for _ in 0..ROUNDS {
        for part in inputs.chunks(TURN) {
            for (t, w) in turns.iter_mut().zip(ways) {
                t.push(driver(w, part, &mut out));
            }
        }
    }
    black_box(&out);
    turns.map(time)
}

/// Prints the proved leaf's times beside the hardware's, and gives the ratios of the medians and of the least.
fn row(leaf: &str, way: &str, [proved, hardware]: [Time; 2]) -> [f64; 2] {
    let ratios = [proved.median / hardware.median, proved.least / hardware.least];
    println!(
        "| {leaf} | {way} | {:.2} | {:.2} | {:.2} | {:.2} | {:.2} | {:.2} |",
        proved.median, hardware.median, ratios[0], proved.least, hardware.least, ratios[1]
    );
    ratios
}

/// A leaf in its two forms, each proved and with the processor's root.
type Ways = ([Leaf; 2], [Each; 2]);
/// The root and the arc.
const ROOT: Ways = ([proved::sqrt_f32, hardware_sqrt], [proved::sqrt_each, hardware_sqrt_each]);
const ARC: Ways = ([proved::arc_f32, hardware_arc], [proved::arc_each, hardware_arc_each]);

/// The larger of each of the two.
fn larger(a: [f64; 2], b: [f64; 2]) -> [f64; 2] {
    [a[0].max(b[0]), a[1].max(b[1])]
}

/// The rows of one leaf on some inputs; gives the largest ratios.
fn rows(name: &str, (leaf, each): Ways, inputs: &[f32]) -> [f64; 2] {
    let by_slice = row(name, "a slice in one call", times(whole, each, inputs));
    let by_call = row(name, "a call for each value", times(apart, leaf, inputs));
    let in_chain = row(name, "each call waits for the last", times(chained, leaf, inputs));
    larger(larger(by_slice, by_call), in_chain)
}

/// So many inputs, evenly between low and high; every run sees the same.
fn random(low: f64, high: f64) -> Vec<f32> {
    let mut random = Rng::new(2);
    (0..COUNT).map(|_| (random.range(low, high) as f32).clamp(low as f32, high as f32)).collect()
}

/// The same inputs, rising within each turn, so that the processor guesses the arc's piece right.
fn rising(low: f64, high: f64) -> Vec<f32> {
    let mut inputs = random(low, high);
    for part in inputs.chunks_mut(TURN) {
        part.sort_by(f32::total_cmp);
    }
    inputs
}

/// An aim is judged by the medians; the least times show what the machine does when nothing else runs.
fn met(name: &str, [medians, least]: [f64; 2], most: f64) -> bool {
    let word = if medians <= most { "met" } else { "NOT met" };
    println!("\nOur own aim for the {name}: at most {most} times. The largest ratio of the medians is {medians:.2}, of the least times {least:.2}: {word}");
    medians <= most
}

/// Prints the times of both leaves; are both aims met?
pub fn speed() -> bool {
    println!("\nSpeed, ns a value: {} turns of {TURN} values, {COUNT} different inputs\n", ROUNDS * COUNT / TURN);
    println!("| leaf, inputs | way | proved, median | hardware, median | ratio | proved, least | hardware, least | ratio |");
    println!("|---|---|---:|---:|---:|---:|---:|---:|");
    let root = rows("root, 1e-6 to 4, random", ROOT, &random(1e-6, 4.0));
    let arc = rows("arc, 0 to 1, random", ARC, &random(0.0, 1.0));
    let arc = larger(arc, rows("arc, 0 to 1, rising", ARC, &rising(0.0, 1.0)));
    rows("arc, 0 to 0.5, random", ARC, &random(0.0, 0.4999999));
    rows("arc, 0.5 to 1, random", ARC, &random(0.5, 1.0));
    let [four] = times(whole, [four_sqrt_each as Each], &random(1e-6, 4.0));
    let [asin] = times(whole, [platform_asin_each as Each], &random(0.0, 1.0));
    println!(
        "\nFor comparison, medians: four roots at a time (sqrtps) {:.2} ns a root; the platform's arcsine, 0 to 1, random, {:.2} ns",
        four.median, asin.median
    );
    let root = met("root", root, 6.0);
    let arc = met("arc", arc, 3.0);
    root && arc
}
