//! The proved leaves, and what each is measured against.

/// The exports of crates/bench_exports.
pub mod proved {
    extern "C" {
        pub fn sqrt_f32(x: f32) -> f32;
        pub fn arc_f32(h: f32) -> f32;
        pub fn magnitude_f32(x: f32) -> f32;
        pub fn truncate_f32(x: f32) -> u32;
        pub fn wrapping_mul_u64(a: u64, b: u64) -> u64;
        pub fn sqrt_each(values: *mut f32, count: usize);
        pub fn arc_each(values: *mut f32, count: usize);
    }
}

// The constants of the arc by their decimals, as document 01 has them; half of pi by its bits.
const P0: f32 = 1.6666586697e-01;
const P1: f32 = -4.2743422091e-02;
const P2: f32 = -8.6563630030e-03;
const Q1: f32 = -7.0662963390e-01;
const QUARTER_TURN: u32 = 0x3FC9_0FDB;
/// 2^-12, below which the arc of h is h.
pub const TINY: f32 = 1.0 / 4096.0;

/// The quotient of two polynomials that both pieces of the arc bend by.
fn bend(z: f32) -> f32 {
    z * (P0 + z * (P1 + z * P2)) / (1.0 + z * Q1)
}

/// The arc's formula with the processor's root.
#[inline(always)]
pub fn arc(h: f32) -> f32 {
    if h < TINY {
        return h;
    }
    if h < 0.5 {
        return h + h * bend(h * h);
    }
    let z = (1.0 - h) * 0.5;
    let s = z.sqrt();
    f32::from_bits(QUARTER_TURN) - 2.0 * (s + s * bend(z))
}
