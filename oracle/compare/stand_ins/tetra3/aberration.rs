//! Stand-in: no observer velocity here.

pub fn earth_barycentric_velocity(_days: f64) -> [f64; 3] {
    [0.0; 3]
}
