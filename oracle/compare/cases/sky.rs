//! Made skies, cameras and the spots they see.

use crate::rng::Rng;

/// A star's vector.
pub type Star = [f32; 3];

/// A direction, evenly spread.
pub fn direction(rng: &mut Rng) -> [f64; 3] {
    loop {
        let v = [rng.range(-1.0, 1.0), rng.range(-1.0, 1.0), rng.range(-1.0, 1.0)];
        let square = v[0] * v[0] + v[1] * v[1] + v[2] * v[2];
        if square > 0.01 && square <= 1.0 {
            return v.map(|part| part / square.sqrt());
        }
    }
}

/// The cross product.
fn cross(a: [f64; 3], b: [f64; 3]) -> [f64; 3] {
    [a[1] * b[2] - a[2] * b[1], a[2] * b[0] - a[0] * b[2], a[0] * b[1] - a[1] * b[0]]
}

/// The dot product.
fn dot(a: [f64; 3], b: [f64; 3]) -> f64 {
    a[0] * b[0] + a[1] * b[1] + a[2] * b[2]
}

/// Where a camera looks: its three axes.
pub struct Attitude {
    pub axes: [[f64; 3]; 3],
}

impl Attitude {
    /// Any attitude.
    pub fn random(rng: &mut Rng) -> Attitude {
        let z = direction(rng);
        Attitude::along(rng, z)
    }

    /// An attitude that looks at a star.
    pub fn towards(rng: &mut Rng, star: Star) -> Attitude {
        let v = star.map(f64::from);
        let length = dot(v, v).sqrt();
        Attitude::along(rng, v.map(|part| part / length))
    }

    /// An attitude whose third axis is given.
    fn along(rng: &mut Rng, z: [f64; 3]) -> Attitude {
        let side = cross(z, direction(rng));
        let length = dot(side, side).sqrt().max(1e-9);
        let x = side.map(|part| part / length);
        Attitude { axes: [x, cross(z, x), z] }
    }

    /// A star's position in the image, if it stands in front of the camera.
    pub fn project(&self, star: Star, focal: f64) -> Option<[f64; 2]> {
        let v = star.map(f64::from);
        let [x, y, z] = self.axes.map(|axis| dot(axis, v));
        (z > 1e-3).then(|| [x / z * focal, y / z * focal])
    }
}

/// A sky of stars spread over the whole sphere.
pub fn sphere(rng: &mut Rng, count: usize) -> Vec<Star> {
    (0..count).map(|_| direction(rng).map(|part| part as f32)).collect()
}

/// A sky of stars within an angle of an attitude's third axis.
pub fn cap(rng: &mut Rng, attitude: &Attitude, angle: f64, count: usize) -> Vec<Star> {
    let mut stars = Vec::new();
    while stars.len() < count {
        let (r, turn) = (rng.unit().sqrt() * angle, rng.range(0.0, std::f64::consts::TAU));
        let parts = [r.sin() * turn.cos(), r.sin() * turn.sin(), r.cos()];
        let mut v = [0.0; 3];
        for (axis, part) in attitude.axes.iter().zip(parts) {
            (0..3).for_each(|i| v[i] += axis[i] * part);
        }
        stars.push(v.map(|part| part as f32));
    }
    stars
}

/// Stars anywhere within magnitude 1 for each component, whole corners among them.
pub fn cube(rng: &mut Rng, count: usize) -> Vec<Star> {
    let edge = |rng: &mut Rng| match rng.below(6) {
        0 => 1.0,
        1 => -1.0,
        2 => rng.pick(&[0.0, -0.0, 0.5, -0.5]),
        _ => rng.range(-1.0, 1.0) as f32,
    };
    (0..count).map(|_| [edge(rng), edge(rng), edge(rng)]).collect()
}
