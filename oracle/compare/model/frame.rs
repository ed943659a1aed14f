//! The lent frame: centroids, brightness list, passes; unit vectors, thinning, and questions 1 to 5.

use crate::float::{larger, pi, root, smaller};
use crate::pattern::Direction;

/// What a host lends for each frame.
#[derive(Clone, Default, PartialEq, Debug)]
pub struct Frame {
    pub coords: Vec<f32>,
    pub places: Vec<u32>,
    pub triples: Vec<f32>,
}

/// The settings of one search.
#[derive(Clone, Copy, Default, PartialEq, Debug)]
pub struct Settings {
    pub bins: u32,
    pub checking_stars: u32,
    pub table_error: f32,
    pub match_radius: f32,
    pub match_max_error: Option<f32>,
    pub fov_max_error_rad: Option<f32>,
    pub cap: Option<u64>,
    pub pattern_count: u64,
}

/// One pass: field of view in radians, pixel scale, cosine of its separation.
#[derive(Clone, Copy, PartialEq, Debug)]
pub struct Pass {
    pub field: f32,
    pub scale: f32,
    pub cosine: f32,
}

/// The tolerance e: the larger of the user's and the table's, at most the larger of 8/bins and the table's.
pub fn tolerance(settings: &Settings) -> f32 {
    let table = settings.table_error;
    let wished = larger(settings.match_max_error.unwrap_or(table), table);
    smaller(wished, larger(8.0 / settings.bins as f32, table))
}

/// The pass of a number below the number of passes.
pub fn pass(frame: &Frame, number: usize) -> Pass {
    let at = number * 3;
    Pass { field: frame.triples[at], scale: frame.triples[at + 1], cosine: frame.triples[at + 2] }
}

/// (x * scale, y * scale, 1), divided by its norm.
pub fn unit_vector(x: f32, y: f32, scale: f32) -> Direction {
    let (x, y) = (x * scale, y * scale);
    let norm = root(x * x + y * y + 1.0);
    [x / norm, y / norm, 1.0 / norm]
}

/// The unit vector of the spot at a place in the brightness list.
pub fn spot(frame: &Frame, place: u32, scale: f32) -> Direction {
    let centroid = frame.places[place as usize] as usize;
    unit_vector(frame.coords[centroid * 2], frame.coords[centroid * 2 + 1], scale)
}

/// Places of the spots that no earlier kept spot stands too near to, cut to the first `checking_stars`.
pub fn kept(frame: &Frame, settings: &Settings, pass: Pass) -> Vec<u32> {
    let mut kept: Vec<u32> = Vec::new();
    let spots: Vec<Direction> = (0..frame.places.len() as u32).map(|place| spot(frame, place, pass.scale)).collect();
    for (place, here) in spots.iter().enumerate() {
        let near = kept.iter().any(|earlier| dot(spots[*earlier as usize], *here) > pass.cosine);
        if !near {
            kept.push(place as u32);
        }
    }
    kept.truncate(settings.checking_stars as usize);
    kept
}

/// The dot product, added from left to right.
fn dot(a: Direction, b: Direction) -> f32 {
    a[0] * b[0] + a[1] * b[1] + a[2] * b[2]
}

/// Question 1: the length of the centroid slice.
pub fn question_1(frame: &Frame) -> bool {
    frame.coords.len() % 2 == 0 && frame.coords.len() <= 512
}

/// Question 2: each coordinate finite and of magnitude at most 32,768.
pub fn question_2(frame: &Frame) -> bool {
    frame.coords.iter().all(|part| part.is_finite() && part.abs() <= 32_768.0)
}

/// Question 3: every index below the centroid count, none twice.
pub fn question_3(frame: &Frame) -> bool {
    let count = frame.coords.len() / 2;
    let mut seen = vec![false; count];
    for index in &frame.places {
        let index = *index as usize;
        if index >= count || seen[index] {
            return false;
        }
        seen[index] = true;
    }
    true
}

/// Question 4: the settings.
pub fn question_4(settings: &Settings) -> bool {
    let present = |option: Option<f32>| option.is_none_or(f32::is_finite);
    (1..=4096).contains(&settings.bins)
        && settings.checking_stars <= 64
        && settings.table_error >= 0.0
        && settings.table_error <= 1.0
        && settings.match_radius.is_finite()
        && settings.match_radius >= 0.0
        && present(settings.match_max_error)
        && present(settings.fov_max_error_rad)
        && tolerance(settings) * settings.bins as f32 <= 1.25
}

/// Question 5: 1 to 256 whole triples, each within its limits.
pub fn question_5(frame: &Frame) -> bool {
    let length = frame.triples.len();
    if length % 3 != 0 || length < 3 || length > 768 {
        return false;
    }
    (0..length / 3).all(|number| {
        let pass = pass(frame, number);
        pass.field > 0.0 && pass.field < pi() && pass.scale > 0.0 && pass.scale <= 16.0 && pass.cosine >= -1.0 && pass.cosine <= 1.0
    })
}

/// The first no of questions 1 to 3, or 0.
pub fn questions_1_to_3(frame: &Frame) -> u32 {
    if !question_1(frame) {
        1
    } else if !question_2(frame) {
        2
    } else if !question_3(frame) {
        3
    } else {
        0
    }
}
