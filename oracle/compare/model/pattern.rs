//! Edges, ratios, keys, hash, home slot and mark of four directions.

use crate::float::{arc, root, smaller};

/// A direction, three f32.
pub type Direction = [f32; 3];
/// A key, five parts.
pub type Key = [u32; 5];

/// The angle between two directions: twice the arc of half their distance, that half cut to at most 1.
pub fn angle(a: Direction, b: Direction) -> f32 {
    let (x, y, z) = (a[0] - b[0], a[1] - b[1], a[2] - b[2]);
    let distance = root(x * x + y * y + z * z);
    2.0 * arc(smaller(distance * 0.5, 1.0))
}

/// The six angles of four directions, sorted upwards.
pub fn edges(four: [Direction; 4]) -> [f32; 6] {
    let mut angles = Vec::new();
    for i in 0..4 {
        for j in i + 1..4 {
            angles.push(angle(four[i], four[j]));
        }
    }
    angles.sort_by(|a, b| a.partial_cmp(b).expect("an angle is a number"));
    [angles[0], angles[1], angles[2], angles[3], angles[4], angles[5]]
}

/// Each of the five smaller edges divided by the largest; all 0 where the largest isn't above 0.
pub fn ratios(edges: [f32; 6]) -> [f32; 5] {
    let mut out = [0.0; 5];
    if edges[5] > 0.0 {
        for i in 0..5 {
            out[i] = edges[i] / edges[5];
        }
    }
    out
}

/// Ratio times bins, cut to a whole number, for each part.
pub fn image_key(ratios: [f32; 5], bins: u32) -> Key {
    ratios.map(|ratio| (ratio * bins as f32) as u32)
}

/// The sum of part i times bins to the i-th power.
pub fn hash(key: Key, bins: u32) -> u64 {
    let mut sum = 0;
    let mut power = 1;
    for part in key {
        sum += u64::from(part) * power;
        power *= u64::from(bins);
    }
    sum
}

/// The hash multiplied by 2654435761 modulo 2^64, then the remainder by the slot count.
pub fn home(hash: u64, slots: u64) -> u64 {
    let product = u128::from(hash) * 2_654_435_761;
    (product % (1 << 64)) as u64 % slots
}

/// The hash's low 16 bits.
pub fn mark(hash: u64) -> u16 {
    (hash % 65_536) as u16
}

/// All keys of five ratios within the tolerance, by squared distance to the image key, then lexicographically.
pub fn keys(ratios: [f32; 5], tolerance: f32, bins: u32) -> Vec<Key> {
    let centre = image_key(ratios, bins);
    let mut list = vec![Vec::new()];
    for ratio in ratios {
        let (first, last) = part_range(ratio, tolerance, bins);
        let mut longer = Vec::new();
        for start in &list {
            for part in first..=last {
                if start.last().is_none_or(|before| *before <= part) {
                    let mut key: Vec<u32> = start.clone();
                    key.push(part);
                    longer.push(key);
                }
            }
        }
        list = longer;
    }
    let mut keys: Vec<Key> = list.iter().map(|k| [k[0], k[1], k[2], k[3], k[4]]).collect();
    keys.sort_by_key(|key| (square_distance(*key, centre), *key));
    keys
}

/// The first and last value of one key part: from (ratio - e) * bins, not below 0, to (ratio + e) * bins, not above bins.
fn part_range(ratio: f32, tolerance: f32, bins: u32) -> (u32, u32) {
    let bins = bins as f32;
    let low = (ratio - tolerance) * bins;
    let high = (ratio + tolerance) * bins;
    let first = if low < 0.0 { 0.0 } else { low };
    let last = if high > bins { bins } else { high };
    (first as u32, last as u32)
}

/// The squared distance of two keys.
fn square_distance(a: Key, b: Key) -> i64 {
    let mut sum = 0;
    for i in 0..5 {
        let apart = i64::from(a[i]) - i64::from(b[i]);
        sum += apart * apart;
    }
    sum
}
