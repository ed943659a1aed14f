//! The sky, table and frames that are timed: 9,000 stars, patterns of the brightest of each field, a camera of 20 degrees.

use std::collections::HashSet;

use cases::given::{focal, set_table};
use cases::rng::Rng;
use cases::sky::{direction, sphere, Attitude, Star};
use cases::tables::{entry, Slots};
use tetra3::solver::record::Given;

/// The camera's field of view in radians, and its width in pixels.
pub const FIELD: f64 = 0.35;
pub const WIDTH: u32 = 1024;

/// The table: bins, its error, stars, patterns and slots.
pub const BINS: u32 = 250;
pub const ERROR: f32 = 0.001;
const STARS: usize = 9_000;
const PATTERNS: usize = 240_000;
const SLOTS: usize = 478_001;

/// How many of a field's brightest stars make patterns, as 210 fours.
const BRIGHTEST: usize = 10;

/// Every four of the brightest stars of fields all over the sky, until there are enough.
fn patterns(rng: &mut Rng, stars: &[Star]) -> Vec<[u32; 4]> {
    let (mut seen, mut list) = (HashSet::new(), Vec::new());
    let near = (FIELD / 2.0).cos();
    while list.len() < PATTERNS {
        let centre = direction(rng);
        let inside = |star: &Star| (0..3).map(|i| f64::from(star[i]) * centre[i]).sum::<f64>() > near;
        let field: Vec<u32> = (0..STARS as u32).filter(|at| inside(&stars[*at as usize])).take(BRIGHTEST).collect();
        for four in model::combinations::fours(field.len()).iter() {
            let four = four.map(|at| field[at as usize]);
            if list.len() < PATTERNS && seen.insert(four) {
                list.push(four);
            }
        }
    }
    list
}

/// Stars, brightest first, the table of their patterns, the camera and its settings; no spots yet.
pub fn base(rng: &mut Rng) -> Given {
    let stars = sphere(rng, STARS);
    let mut table = Slots::empty(SLOTS);
    for four in patterns(rng, &stars) {
        let (entry, home) = entry(&stars, four, BINS, SLOTS as u64);
        table.insert(entry, home);
    }
    let mut given = Given {
        stars,
        bins: BINS,
        table_error: ERROR,
        verification_stars: 2_000,
        focal_length: focal(FIELD, WIDTH),
        width: WIDTH,
        height: WIDTH,
        match_radius: 0.01,
        checking_stars: 64,
        ..Given::default()
    };
    set_table(&mut given, &table);
    given
}

/// A frame of so many spots that are no stars.
pub fn no_match(rng: &mut Rng, base: &Given, spots: usize, checking: u32) -> Given {
    let half = f64::from(WIDTH) / 2.0;
    let spots: Vec<[f32; 2]> = (0..spots).map(|_| [rng.range(-half, half) as f32, rng.range(-half, half) as f32]).collect();
    Given { places: (0..spots.len()).collect(), spots, checking_stars: checking, ..base.clone() }
}

/// A frame of the sky: the stars that a camera sees, brightest first, to a twentieth of a pixel, and three false spots among the first eight.
pub fn matching(rng: &mut Rng, base: &Given) -> Given {
    let half = f64::from(WIDTH) / 2.0;
    let attitude = Attitude::random(rng);
    let mut spots = Vec::new();
    for star in &base.stars {
        let Some([x, y]) = attitude.project(*star, base.focal_length) else { continue };
        if x.abs() <= half && y.abs() <= half {
            spots.push([(x + rng.range(-0.05, 0.05)) as f32, (y + rng.range(-0.05, 0.05)) as f32]);
        }
    }
    for _ in 0..3 {
        let at = rng.below(spots.len().min(8) as u64) as usize;
        spots.insert(at, [rng.range(-half, half) as f32, rng.range(-half, half) as f32]);
    }
    spots.truncate(256);
    Given { places: (0..spots.len()).collect(), spots, ..base.clone() }
}

/// A table of so many slots, half of them filled by random entries, under the same frame.
pub fn table_of(rng: &mut Rng, base: &Given, slots: usize) -> Given {
    let mut occupancy: Vec<u64> = (0..slots.div_ceil(64)).map(|_| rng.next()).collect();
    if slots % 64 != 0 {
        *occupancy.last_mut().expect("a slot") &= (1 << (slots % 64)) - 1;
    }
    let filled: u32 = occupancy.iter().map(|word| word.count_ones()).sum();
    let mut packed = Vec::with_capacity(22 * filled as usize);
    for _ in 0..filled {
        (0..4).for_each(|_| packed.extend((rng.below(STARS as u64) as u32).to_le_bytes()));
        packed.extend(0.2f32.to_bits().to_le_bytes());
        packed.extend((rng.next() as u16).to_le_bytes());
    }
    Given { slots, occupancy, packed, pattern_count: filled.max(1), ..base.clone() }
}
