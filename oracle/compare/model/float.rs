//! The two added leaves: square root and arc.

/// Nearest f32 to the square root of a number not below 0, ties to even, found by comparing squares.
/// The square of a midpoint has at most 50 digits, so an f64 holds it whole.
pub fn root(x: f32) -> f32 {
    if !(x > 0.0) || x == f32::INFINITY {
        return if x < 0.0 { f32::NAN } else { x };
    }
    let (mut low, mut high) = (0u32, f32::MAX.to_bits());
    while low < high {
        let middle = (low + high) / 2;
        if at_most(middle, x) {
            high = middle;
        } else {
            low = middle + 1;
        }
    }
    f32::from_bits(low)
}

/// Is the root of x nearest to the f32 of these bits or to one below it?
fn at_most(bits: u32, x: f32) -> bool {
    let here = f64::from(f32::from_bits(bits));
    let above = if bits == f32::MAX.to_bits() { 2f64.powi(128) } else { f64::from(f32::from_bits(bits + 1)) };
    let middle = (here + above) / 2.0;
    let square = middle * middle;
    let x = f64::from(x);
    x < square || (x == square && bits % 2 == 0)
}

/// P of document 01, its bits.
const P: u32 = 0x3FC9_0FDB;

/// The quotient R(z) of document 01.
fn quotient(z: f32) -> f32 {
    const P0: f32 = 1.6666586697e-01;
    const P1: f32 = -4.2743422091e-02;
    const P2: f32 = -8.6563630030e-03;
    const Q1: f32 = -7.0662963390e-01;
    z * (P0 + z * (P1 + z * P2)) / (1.0 + z * Q1)
}

/// The arc of document 01, for h from 0 to 1.
pub fn arc(h: f32) -> f32 {
    if h < 0.000_244_140_625 {
        return h;
    }
    if h < 0.5 {
        return h + h * quotient(h * h);
    }
    let z = (1.0 - h) * 0.5;
    let s = root(z);
    f32::from_bits(P) - 2.0 * (s + s * quotient(z))
}

/// The larger of two numbers.
pub fn larger(a: f32, b: f32) -> f32 {
    if a > b {
        a
    } else {
        b
    }
}

/// The smaller of two numbers.
pub fn smaller(a: f32, b: f32) -> f32 {
    if a < b {
        a
    } else {
        b
    }
}

/// The f32 nearest pi, bits 40490FDB.
pub fn pi() -> f32 {
    f32::from_bits(0x4049_0FDB)
}
