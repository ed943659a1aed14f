//! Completing a candidate, and question 14.

use crate::frame::{self, Frame};
use crate::pattern::Direction;
use crate::table::{self, Table};

/// What completing is given of a candidate, and the scale for its measured field.
#[derive(Clone, Copy, PartialEq, Debug)]
pub struct GivenCandidate {
    pub pass: u32,
    pub places: [u32; 4],
    pub stars: [u32; 4],
    pub field: f32,
    pub mark: bool,
    pub scale: f32,
}

/// Positions 0 to 3 by squared distance from the mean of four directions, ties in their order.
pub fn order(four: [Direction; 4]) -> [usize; 4] {
    let mut mean = [0.0f32; 3];
    for part in 0..3 {
        mean[part] = (four[0][part] + four[1][part] + four[2][part] + four[3][part]) / 4.0;
    }
    let square = |at: usize| {
        let [x, y, z] = [four[at][0] - mean[0], four[at][1] - mean[1], four[at][2] - mean[2]];
        x * x + y * y + z * z
    };
    let mut order = [0, 1, 2, 3];
    order.sort_by(|a, b| square(*a).partial_cmp(&square(*b)).expect("a distance is a number"));
    order
}

/// The four image vectors in matched order and the four star vectors, or the refusal's number.
pub fn complete(frame: &Frame, table: &Table, given: &GivenCandidate) -> Result<[Direction; 8], u32> {
    let refusal = questions(frame, table, given);
    if refusal != 0 {
        return Err(refusal);
    }
    let scale = if given.mark { given.scale } else { frame::pass(frame, given.pass as usize).scale };
    let image = given.places.map(|place| frame::spot(frame, place, scale));
    let mut out = [[0.0; 3]; 8];
    for (at, from) in order(image).into_iter().enumerate() {
        out[at] = image[from];
    }
    for (at, star) in given.stars.into_iter().enumerate() {
        out[4 + at] = table::star(table, star);
    }
    Ok(out)
}

/// The first no of 1, 2, 3, 5, 7, 14 and 9, or 0.
fn questions(frame: &Frame, table: &Table, given: &GivenCandidate) -> u32 {
    let first = frame::questions_1_to_3(frame);
    if first != 0 {
        first
    } else if !frame::question_5(frame) {
        5
    } else if !table::question_7(table) {
        7
    } else if !question_14(frame, given) {
        14
    } else if !given.stars.iter().all(|star| table::star_valid(table, *star)) {
        9
    } else {
        0
    }
}

/// Question 14: the pass exists, the places rise below the list's length, the scale is above 0 and at most 16.
fn question_14(frame: &Frame, given: &GivenCandidate) -> bool {
    let [a, b, c, d] = given.places;
    let pass = (given.pass as usize) < frame.triples.len() / 3;
    let places = a < b && b < c && c < d && (d as usize) < frame.places.len();
    pass && places && given.scale > 0.0 && given.scale <= 16.0
}
