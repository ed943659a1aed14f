//! Our own addition: the arc of document 01, in the place of the platform's arcsine.

const P0: f32 = 1.6666586697e-01;
const P1: f32 = -4.2743422091e-02;
const P2: f32 = -8.6563630030e-03;
const Q1: f32 = -7.0662963390e-01;

/// R(z) of document 01.
fn quotient(z: f32) -> f32 {
    z * (P0 + z * (P1 + z * P2)) / (1.0 + z * Q1)
}

/// The arc of document 01.
pub(super) fn arc(h: f32) -> f32 {
    if h < f32::from_bits(0x3980_0000) {
        h
    } else if h < 0.5 {
        h + h * quotient(h * h)
    } else {
        let z = (1.0 - h) * 0.5;
        let s = z.sqrt();
        f32::from_bits(0x3FC9_0FDB) - 2.0 * (s + s * quotient(z))
    }
}
