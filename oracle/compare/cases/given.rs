//! Cases from a seed, one maker a kind.

use tetra3::solver::record::{self, Given};
use tetra3::{GenerateDatabaseConfig, SolverDatabase, Star as SourceStar};

use crate::oracle::Case;
use crate::rng::{down, up, Rng};
use crate::sky::{cap, cube, sphere, Attitude, Star};
use crate::tables::{entry, Entry, Slots};

/// The kinds that are drawn at random.
pub const KINDS: [(&str, fn(&mut Rng) -> Given); 13] = [
    ("realistic", realistic),
    ("mirrored", mirrored),
    ("generated", generated),
    ("dense", dense),
    ("damaged edges", damaged),
    ("duplicate spots", duplicates),
    ("caps", caps),
    ("many passes", many_passes),
    ("few slots", few_slots),
    ("full", full),
    ("cube stars", cube_stars),
    ("wide tolerance", wide),
    ("odd frames", odd_frames),
];

/// The case of a seed.
pub fn case(seed: u64) -> Case {
    let (kind, make) = KINDS[(seed % KINDS.len() as u64) as usize];
    Case::new(kind, make(&mut Rng::new(seed)))
}

/// What the dense case of a number is given.
pub fn dense_case(number: u64) -> Given {
    case(3 + KINDS.len() as u64 * number).given
}

/// The focal length of a field over a width.
pub fn focal(field: f64, width: u32) -> f64 {
    f64::from(width) / 2.0 / (field / 2.0).tan()
}

/// An error whose product with bins is at most 1.25, the largest such or a share of it.
pub fn error_for(rng: &mut Rng, bins: u32) -> f32 {
    match rng.below(5) {
        0 => largest_error(bins),
        1 => 0.25 / bins as f32,
        2 => 0.001f32.min(1.0 / bins as f32),
        _ => (rng.range(0.0, 1.2) / f64::from(bins)) as f32,
    }
    .min(1.0)
}

/// The largest f32 whose product with bins is at most 1.25.
pub fn largest_error(bins: u32) -> f32 {
    let mut error = 1.25 / bins as f32;
    while up(error) * bins as f32 <= 1.25 {
        error = up(error);
    }
    while error * bins as f32 > 1.25 {
        error = down(error);
    }
    error
}

/// Brightness order: all spots or some of them, shuffled or in order.
pub fn places(rng: &mut Rng, count: usize) -> Vec<usize> {
    let mut list: Vec<usize> = (0..count).collect();
    if !rng.once_in(3) {
        rng.shuffle(&mut list);
    }
    if rng.once_in(4) && count > 5 {
        list.truncate(rng.between(4, count as u64) as usize);
    }
    list
}

/// Settings and camera that every kind starts from; no table and no spots yet.
fn plain(rng: &mut Rng, field: f64) -> Given {
    let width = rng.pick(&[1u32, 64, 512, 1024, 2048, 4095]);
    let bins = rng.pick(&[3u32, 5, 10, 25, 50, 100, 250]);
    let table_error = error_for(rng, bins);
    Given {
        bins,
        table_error,
        pattern_count: 1,
        verification_stars: rng.pick(&[10, 50, 150, 1000]),
        focal_length: focal(field, width),
        width,
        height: if rng.once_in(3) { width * 2 } else { width },
        match_radius: rng.pick(&[0.0, 0.001, 0.01, 0.1, 1.0]),
        checking_stars: rng.between(4, 9) as u32,
        ..Given::default()
    }
}

/// Sets the table of a case.
pub fn set_table(given: &mut Given, slots: &Slots) {
    given.slots = slots.0.len();
    given.occupancy = slots.occupancy();
    given.packed = slots.packed();
    given.pattern_count = (slots.filled() as u32).max(1);
}

/// Spots of the stars that a camera sees, with noise in pixels and some false ones.
fn see(rng: &mut Rng, given: &mut Given, attitude: &Attitude, stars: &[Star], noise: f64, flip: bool) {
    let half = f64::from(given.width) / 2.0;
    for star in stars {
        let Some([x, y]) = attitude.project(*star, given.focal_length) else {
            continue;
        };
        if x.abs() <= half && y.abs() <= half && given.spots.len() < 40 {
            let x = if flip { -x } else { x };
            given.spots.push([(x + rng.range(-noise, noise)) as f32, (y + rng.range(-noise, noise)) as f32]);
        }
    }
    for _ in 0..rng.below(4) {
        given.spots.push([rng.range(-half, half) as f32, rng.range(-half, half) as f32]);
    }
    given.places = places(rng, given.spots.len());
}

/// Random fours of stars, strictly rising.
pub fn fours(rng: &mut Rng, stars: usize, count: usize) -> Vec<[u32; 4]> {
    let mut list = Vec::new();
    while list.len() < count {
        let mut four: Vec<u32> = (0..4).map(|_| rng.below(stars as u64) as u32).collect();
        four.sort_unstable();
        if four[0] < four[1] && four[1] < four[2] && four[2] < four[3] {
            list.push([four[0], four[1], four[2], four[3]]);
        }
    }
    list
}

/// The entries of these fours at home in a table of so many slots.
pub fn entries(given: &Given, fours: &[[u32; 4]], slots: usize) -> Vec<(Entry, u64)> {
    fours.iter().map(|four| entry(&given.stars, *four, given.bins, slots as u64)).collect()
}

/// A table with these entries on their probe sequences.
pub fn table_of(entries: &[(Entry, u64)], slots: usize) -> Slots {
    let mut table = Slots::empty(slots);
    for (entry, home) in entries {
        table.insert(*entry, *home);
    }
    table
}

/// Sets a table of so many random patterns of the first stars, over a random number of slots.
fn set_patterns(rng: &mut Rng, given: &mut Given, stars: usize, patterns: usize, [least, most]: [u64; 2]) {
    let fours = fours(rng, stars, patterns);
    let slots = rng.between(least, most) as usize;
    let table = table_of(&entries(given, &fours, slots), slots);
    set_table(given, &table);
}

/// A sky, a camera in it, and a table of its patterns about half full.
fn sky(rng: &mut Rng, flip: bool) -> Given {
    let field = rng.range(0.05, 1.2);
    let mut given = plain(rng, field);
    let attitude = Attitude::random(rng);
    let count = rng.between(8, 14) as usize;
    given.stars = cap(rng, &attitude, field * 0.6, count);
    let spread = rng.below(30) as usize;
    given.stars.extend(sphere(rng, spread));
    let noise = rng.pick(&[0.0, 1e-4, 0.01]) * f64::from(given.width) / 1000.0;
    let stars = given.stars.clone();
    see(rng, &mut given, &attitude, &stars, noise, flip);
    set_patterns(rng, &mut given, count, 120, [150, 600]);
    given
}

/// A frame of a sky that the table knows.
fn realistic(rng: &mut Rng) -> Given {
    let mut given = sky(rng, false);
    options(rng, &mut given);
    given
}

/// The same seen in a mirror.
fn mirrored(rng: &mut Rng) -> Given {
    let mut given = sky(rng, true);
    options(rng, &mut given);
    given
}

/// A user's tolerance and a field error, sometimes.
fn options(rng: &mut Rng, given: &mut Given) {
    if rng.once_in(2) {
        let bins = given.bins;
        given.match_max_error = Some(match rng.below(4) {
            0 => given.table_error * 0.5,
            1 => -1.0,
            _ => error_for(rng, bins),
        });
    }
    if rng.once_in(2) {
        given.fov_max_error = Some(rng.pick(&[0.0, -0.5, 1e-6, 0.01, 0.1, 3.0]));
    }
}

/// The configuration of the source's database generator: the widest field in degrees, the error, the stars for each field.
pub fn generator(field_deg: f64, pattern_max_error: f32, verification_stars_per_fov: u32) -> GenerateDatabaseConfig {
    GenerateDatabaseConfig {
        max_fov_deg: field_deg as f32,
        star_max_magnitude: Some(10.0),
        pattern_max_error,
        verification_stars_per_fov,
        epoch_proper_motion_year: None,
        catalog_nside: 4,
        ..GenerateDatabaseConfig::default()
    }
}

/// Sets the table that the source's database generator makes of these stars.
pub fn set_generated(given: &mut Given, stars: Vec<SourceStar>, config: &GenerateDatabaseConfig) {
    let base = SolverDatabase::generate_from_star_list(stars, config, 2000.0).expect("a valid configuration");
    (given.slots, given.occupancy, given.packed) = record::parts(&base.pattern_catalog);
    (given.bins, given.pattern_count) = (base.props.pattern_bins, base.props.num_patterns);
    given.stars = base.star_vectors.clone();
}

/// A table by the source's own database generator.
fn generated(rng: &mut Rng) -> Given {
    let field_deg = rng.range(15.0, 50.0);
    let mut given = plain(rng, field_deg.to_radians());
    given.table_error = rng.pick(&[0.001, 0.003, 0.01, 0.05]);
    let stars = (0..rng.between(150, 900))
        .map(|id| SourceStar {
            id: id as i64,
            ra_rad: rng.range(0.0, std::f64::consts::TAU) as f32,
            dec_rad: rng.range(-1.0, 1.0).asin() as f32,
            mag: rng.range(0.0, 6.0) as f32,
        })
        .collect();
    let config = GenerateDatabaseConfig {
        lattice_field_oversampling: 2,
        patterns_per_lattice_field: rng.between(2, 6) as u32,
        ..generator(field_deg, given.table_error, given.verification_stars)
    };
    set_generated(&mut given, stars, &config);
    let attitude = Attitude::random(rng);
    let stars = given.stars.clone();
    see(rng, &mut given, &attitude, &stars, 0.0, false);
    options(rng, &mut given);
    given
}

/// Few bins, so that many patterns share keys and marks and chains grow long.
fn dense(rng: &mut Rng) -> Given {
    let mut given = sky(rng, false);
    given.bins = rng.pick(&[1u32, 2, 3, 4, 5, 8]);
    given.table_error = error_for(rng, given.bins);
    given.checking_stars = rng.between(4, 7) as u32;
    let slots = rng.between(20, 130) as usize;
    let patterns = rng.between(slots as u64 / 4, slots as u64 - 1) as usize;
    let fours = fours(rng, 8, patterns);
    let mut list = entries(&given, &fours, slots);
    let shared = list[0].0.mark;
    for (entry, home) in list.iter_mut() {
        if rng.once_in(4) {
            entry.mark = shared;
        }
        if rng.once_in(6) {
            *home = rng.below(slots as u64);
        }
    }
    set_table(&mut given, &table_of(&list, slots));
    given.cap = rng.once_in(2).then(|| rng.between(1, 40));
    given
}

/// Stored edges that are no edges at all, under a field error.
fn damaged(rng: &mut Rng) -> Given {
    let mut given = dense(rng);
    for entry in given.packed.chunks_mut(22) {
        let edge = match rng.below(9) {
            0 => f32::NAN,
            1 => f32::INFINITY,
            2 => f32::NEG_INFINITY,
            3 => 0.0,
            4 => -1.0,
            5 => f32::from_bits(rng.next() as u32),
            6 => f32::from_bits(0xFF80_0001),
            _ => continue,
        };
        entry[16..20].copy_from_slice(&edge.to_bits().to_le_bytes());
    }
    given.fov_max_error = Some(rng.pick(&[0.0, 1e-6, 0.05, 0.2, f32::MAX, -1.0]));
    given
}

/// Spots that fall together, kept because the separation's cosine is 1 or near it.
fn duplicates(rng: &mut Rng) -> Given {
    let mut given = dense(rng);
    given.verification_stars = rng.pick(&[u32::MAX, 1_000_000_000, 10_000_000]);
    given.spots.truncate(6);
    let copies = given.spots.len().min(4);
    for _ in 0..rng.between(1, 6) {
        let mut copy = given.spots[rng.below(copies as u64) as usize];
        if rng.once_in(3) {
            copy[0] += copy[0].abs() * 1e-7;
        }
        given.spots.push(copy);
    }
    if rng.once_in(3) {
        let only = given.spots[0];
        given.spots.iter_mut().for_each(|spot| *spot = only);
    }
    given.places = places(rng, given.spots.len());
    for star in given.stars.iter_mut().skip(1) {
        if rng.once_in(5) {
            *star = [0.25, 0.5, 0.75];
        }
    }
    given.checking_stars = rng.between(4, 8) as u32;
    given
}

/// Caps at 0, 1, a few, the last combination of a pass or of the run, and beside them.
fn caps(rng: &mut Rng) -> Given {
    let mut given = if rng.once_in(2) { many_passes(rng) } else { dense(rng) };
    given.cap = None;
    given.checking_stars = rng.between(3, 6) as u32;
    let case = Case::new("caps", given.clone());
    let passes = case.lent.frame.triples.len() as u32 / 3;
    let counts: Vec<u64> = (0..passes).map(|pass| model::search::combinations_of(&case.lent, pass)).collect();
    let total: u64 = counts.iter().sum();
    let some: u64 = counts.iter().take(rng.below(u64::from(passes) + 1) as usize).sum();
    given.cap = Some(match rng.below(9) {
        0 => 0,
        1 => 1,
        2 => rng.between(2, 5),
        3 | 4 => total,
        5 => total + 1,
        6 => total.saturating_sub(1),
        7 => some,
        _ => u64::MAX,
    });
    given
}

/// Fields swept in many passes.
fn many_passes(rng: &mut Rng) -> Given {
    let mut given = sky(rng, false);
    let field = rng.range(0.6, 1.9);
    given.focal_length = focal(field, given.width);
    given.bins = rng.pick(&[10, 25, 50]);
    given.table_error = rng.range(0.005, 0.02) as f32;
    given.fov_max_error = Some(rng.range(0.1, 0.9) as f32);
    given.checking_stars = rng.between(4, 6) as u32;
    set_patterns(rng, &mut given, 8, 60, [80, 200]);
    given
}

/// Tables of 0 to 10 slots, now and then with no patterns claimed.
fn few_slots(rng: &mut Rng) -> Given {
    let mut given = dense(rng);
    let slots = rng.below(11) as usize;
    let filled = rng.below(slots as u64 + 1) as usize;
    let fours = fours(rng, 8, filled);
    let mut table = Slots::empty(slots);
    for (mut entry, _) in entries(&given, &fours, slots.max(1)) {
        if rng.once_in(3) {
            entry.mark = rng.below(40) as u16;
        }
        table.insert(entry, rng.below(slots as u64));
    }
    set_table(&mut given, &table);
    if rng.once_in(6) {
        given.pattern_count = 0;
    }
    given.cap = rng.once_in(3).then(|| rng.between(1, 20));
    given
}

/// Tables without an empty slot.
fn full(rng: &mut Rng) -> Given {
    let mut given = dense(rng);
    let slots = rng.between(1, 40) as usize;
    let fours = fours(rng, 8, 30);
    let list: Vec<Entry> = entries(&given, &fours, slots).iter().map(|(entry, _)| *entry).collect();
    let mut table = Slots::empty(slots);
    table.fill(rng, &list);
    set_table(&mut given, &table);
    given.cap = Some(rng.between(1, 12));
    given
}

/// Star vectors that aren't unit vectors, distances above 2 among them.
fn cube_stars(rng: &mut Rng) -> Given {
    let mut given = dense(rng);
    given.stars = cube(rng, 12);
    let slots = rng.between(30, 90) as usize;
    let fours = fours(rng, 12, slots / 2);
    let table = table_of(&entries(&given, &fours, slots), slots);
    set_table(&mut given, &table);
    given
}

/// The widest tolerance that question 4 lets through, and values beside it.
fn wide(rng: &mut Rng) -> Given {
    let mut given = sky(rng, false);
    given.bins = rng.pick(&[1u32, 2, 4, 5, 7, 10, 16, 25, 1000, 4095, 4096]);
    let most = largest_error(given.bins);
    given.checking_stars = rng.between(4, 5) as u32;
    given.table_error = 0.1 / given.bins as f32;
    match rng.below(3) {
        0 if most <= 1.0 => given.table_error = most,
        1 => given.match_max_error = Some(down(most)),
        _ => given.match_max_error = Some(most),
    }
    set_patterns(rng, &mut given, 8, 60, [80, 300]);
    given
}

/// Coordinates at their limits, tiny ones, zeros of both signs, few or no spots, and fields near their ends.
fn odd_frames(rng: &mut Rng) -> Given {
    let mut given = dense(rng);
    let field = rng.pick(&[1e-6, 1e-3, 0.5, 2.0, 3.0, 3.14]);
    given.focal_length = focal(field, given.width);
    given.verification_stars = rng.pick(&[1, 2, 5, 150, u32::MAX]);
    given.spots.clear();
    for _ in 0..rng.below(12) {
        let part = |rng: &mut Rng| match rng.below(7) {
            0 => 32_768.0,
            1 => -32_768.0,
            2 => rng.pick(&[0.0, -0.0, 1e-40, -1e-30]),
            3 => rng.range(-1e-3, 1e-3) as f32,
            _ => rng.range(-3000.0, 3000.0) as f32,
        };
        given.spots.push([part(rng), part(rng)]);
    }
    given.places = places(rng, given.spots.len());
    given.checking_stars = rng.pick(&[0, 1, 3, 4, 5, 8]);
    options(rng, &mut given);
    if rng.once_in(2) {
        loosen(rng, &mut given);
    }
    given
}

/// One bin and the widest tolerance: every four of stars passes the ratios, so only the field tests decide.
pub fn loosen(rng: &mut Rng, given: &mut Given) {
    given.bins = 1;
    given.table_error = 1.0;
    given.match_max_error = Some(1.25);
    let slots = rng.between(1, 12) as usize;
    let fours = fours(rng, 8, slots);
    let mut table = Slots::empty(slots);
    for (mut entry, home) in entries(given, &fours, slots) {
        entry.mark = rng.below(6) as u16;
        table.insert(entry, home);
    }
    set_table(given, &table);
}

/// A large frame over a table of any number of slots.
pub fn huge(rng: &mut Rng, slots: usize, patterns: usize) -> Given {
    let mut given = large(rng);
    given.cap = Some(20_000);
    let fours = fours(rng, 200, patterns);
    let table = table_of(&entries(&given, &fours, slots), slots);
    set_table(&mut given, &table);
    given
}

/// As many spots and checking stars as document 01 lets through, over thousands of slots.
pub fn large(rng: &mut Rng) -> Given {
    let field = rng.range(0.5, 0.9);
    let mut given = plain(rng, field);
    let attitude = Attitude::random(rng);
    given.stars = cap(rng, &attitude, field * 0.7, 700);
    (given.bins, given.table_error, given.width, given.height) = (250, 0.001, 1024, 1024);
    given.focal_length = focal(field, given.width);
    given.verification_stars = 2_000;
    let half = f64::from(given.width) / 2.0;
    for star in &given.stars {
        if let Some([x, y]) = attitude.project(*star, given.focal_length) {
            if given.spots.len() < 256 && x.abs() <= half && y.abs() <= half {
                given.spots.push([x as f32, y as f32]);
            }
        }
    }
    given.places = (0..given.spots.len()).collect();
    given.checking_stars = 64;
    given.cap = Some(4_000);
    set_patterns(rng, &mut given, 90, 4_000, [6_000, 9_000]);
    given
}
