//! Cases whose limits stand exactly on a value that the search works out, and one place beside it.

use model::pattern;
use model::search::{questions, Combination, Kept, FRESH};
use tetra3::solver::record::{Candidate, Given};

use crate::given::{self, focal, set_table};
use crate::oracle::Case;
use crate::rng::{down, up, Rng};
use crate::tables::{entry, Slots};

/// Makes the cases that stand on a limit of one candidate.
type Maker = fn(&Case, &Candidate) -> Vec<Given>;

/// All cases of this module that a seed gives.
pub fn cases(seed: u64) -> Vec<Case> {
    let mut list = Vec::new();
    let makers: [(&'static str, Maker); 4] =
        [("rebuild limit", rebuild), ("field error limit", field_error), ("ratio limit", ratio), ("key limit", key_range)];
    let base = given::case(seed);
    if questions(&base.lent, &FRESH) == 0 {
        let mut rng = Rng::new(seed);
        let found = base.run().record.candidates;
        for (kind, make) in makers {
            if !found.is_empty() {
                let one = &found[rng.below(found.len() as u64) as usize];
                list.extend(make(&base, one).into_iter().map(|given| Case::new(kind, given)));
            }
        }
    }
    list.extend(separation(seed).into_iter().map(|given| Case::new("separation limit", given)));
    list.extend(half_turn(seed).into_iter().map(|given| Case::new("field at pi", given)));
    list.push(Case::new("stars without an edge", no_edge(seed)));
    list
}

/// A tolerance that puts the end of a key range on a whole number, where rounding decides on which side it falls.
fn key_range(case: &Case, found: &Candidate) -> Vec<Given> {
    let bins = case.given.bins as f32;
    let whole_ends = |ratio: f32, error: f32| {
        let low = ((ratio - error) * bins) as u32 != (ratio * bins - error * bins) as u32;
        let high = ((ratio + error) * bins) as u32 != (ratio * bins + error * bins) as u32;
        low || high
    };
    let mut list = Vec::new();
    for ratio in combination(case, found).ratios {
        let whole = (ratio * bins).floor();
        for near in [ratio - whole / bins, (whole + 1.0) / bins - ratio] {
            if !(near > 1e-6) {
                continue;
            }
            let tried = (near.to_bits() - 8..near.to_bits() + 8).map(f32::from_bits);
            let one = tried.into_iter().find(|error| whole_ends(ratio, *error) && *error <= 1.0);
            let with = |table_error| Given { table_error, match_max_error: None, fov_max_error: None, ..case.given.clone() };
            list.extend(one.map(with));
        }
    }
    list
}

/// One bin, the widest tolerance, and entries whose four stars are one: the measured field is 0.
fn no_edge(seed: u64) -> Given {
    let mut rng = Rng::new(seed ^ 0x0ED6);
    let mut base = given::dense_case(seed % 1000);
    given::loosen(&mut rng, &mut base);
    base.cap = Some(rng.between(1, 5));
    for entry in base.packed.chunks_mut(22) {
        if rng.once_in(2) {
            let first: [u8; 4] = entry[..4].try_into().expect("four bytes");
            (1..4).for_each(|at| entry[at * 4..at * 4 + 4].copy_from_slice(&first));
        }
    }
    base
}

/// The radius whose quarter is the candidate's mismatch, and its neighbours.
fn rebuild(case: &Case, found: &Candidate) -> Vec<Given> {
    let field = case.lent.frame.triples[found.pass * 3];
    let radius = 4.0 * (found.field / field - 1.0).abs();
    if !(radius > 0.0 && radius < 1e30) {
        return Vec::new();
    }
    [down(radius), radius, up(radius)].map(|match_radius| Given { match_radius, ..case.given.clone() }).into()
}

/// The combination of a candidate, worked out again.
fn combination(case: &Case, found: &Candidate) -> Combination {
    let kept = Kept::new(&case.lent, found.pass as u32);
    let four = found.places.map(|place| kept.places.iter().position(|other| *other as usize == place).expect("a kept place") as u32);
    Combination::new(&case.lent, &kept, four)
}

/// The difference between the stored field and the pass field, and its neighbours, as field error.
fn field_error(case: &Case, found: &Candidate) -> Vec<Given> {
    let field = case.lent.frame.triples[found.pass * 3];
    let before: u32 = (0..found.slot).map(|slot| (case.given.occupancy[slot / 64] >> (slot % 64) & 1) as u32).sum();
    let at = before as usize * 22 + 16;
    let stored = f32::from_le_bytes(case.given.packed[at..at + 4].try_into().expect("four bytes"));
    let error = (stored / combination(case, found).edge * field - field).abs();
    if !(error > 0.0 && error < 3.0) || found.pass > 0 {
        return Vec::new();
    }
    [down(error), error, up(error)].map(|error| Given { fov_max_error: Some(error), ..case.given.clone() }).into()
}

/// A tolerance that puts one ratio of the stars on its bound, and its neighbours.
fn ratio(case: &Case, found: &Candidate) -> Vec<Given> {
    let image = combination(case, found).ratios;
    let stars = pattern::ratios(pattern::edges(found.catalogue));
    let apart = |i: usize| (stars[i] - image[i]).abs();
    let most = (0..5).max_by(|a, b| apart(*a).total_cmp(&apart(*b))).expect("five ratios");
    let error = apart(most);
    let bound = if stars[most] > image[most] { image[most] + error } else { image[most] - error };
    if bound != stars[most] || !(error > 0.0) {
        return Vec::new();
    }
    let with = |table_error: f32| Given { table_error, match_max_error: None, fov_max_error: None, ..case.given.clone() };
    [down(error), error, up(error)].map(with).into()
}

/// Two spots whose dot product is the cosine of the separation or beside it; the second decides if four are kept.
fn separation(seed: u64) -> Vec<Given> {
    let mut rng = Rng::new(seed ^ 0x5E9A);
    let mut base = given::dense_case(seed % 1000);
    base.focal_length = focal(rng.range(0.3, 2.0), base.width);
    base.verification_stars = rng.between(5, 60) as u32;
    base.fov_max_error = None;
    let pass = crate::oracle::passes(&base)[0];
    let half = base.width as f32 / 2.0;
    base.spots = vec![[0.0, 0.0], [0.0, 0.0], [half, half], [-half, half]];
    base.places = vec![0, 1, 2, 3];
    base.checking_stars = 4;
    base.cap = None;
    let mut list = Vec::new();
    let guess = (f64::from(pass.cosine).acos().tan() / f64::from(pass.scale)) as f32;
    let start = guess.to_bits() - 3000;
    for bits in start..start + 6000 {
        let x = f32::from_bits(bits);
        let dot = model::frame::unit_vector(x, 0.0, pass.scale)[2];
        let near = [down(pass.cosine), pass.cosine, up(pass.cosine)].contains(&dot);
        if near && list.iter().all(|(other, _)| *other != dot) {
            let mut given = base.clone();
            given.spots[1] = [x, 0.0];
            list.push((dot, given));
        }
    }
    list.into_iter().map(|(_, given)| given).collect()
}

/// Opposite stars over an image edge that equals the pass field or stands beside it: the measured field nears pi.
fn half_turn(seed: u64) -> Vec<Given> {
    let mut rng = Rng::new(seed ^ 0x7A1F);
    let mut base = given::dense_case(seed % 1000);
    base.focal_length = focal(rng.range(0.3, 2.5), base.width);
    base.verification_stars = u32::MAX;
    base.fov_max_error = None;
    (base.bins, base.table_error, base.match_max_error) = (1, 1.0, Some(1.25));
    base.stars = vec![[1.0, 0.0, 0.0], [-1.0, 0.0, 0.0], [0.5, 0.5, 0.0], [0.5, -0.5, 0.5]];
    let (only, _) = entry(&base.stars, [0, 1, 2, 3], 1, 1);
    set_table(&mut base, &Slots(vec![Some(only)]));
    let pass = crate::oracle::passes(&base)[0];
    let half = base.width as f32 / 2.0;
    let mut list: Vec<(f32, Given)> = Vec::new();
    for bits in half.to_bits() - 400..half.to_bits() + 400 {
        base.spots = vec![[-half, 0.0], [f32::from_bits(bits), 0.0], [half * 0.1, half * 0.2], [half * 0.1, -half * 0.1]];
        base.places = vec![0, 1, 2, 3];
        base.cap = None;
        base.checking_stars = 4;
        let vectors = base.spots.iter().map(|spot| model::frame::unit_vector(spot[0], spot[1], pass.scale));
        let vectors: Vec<[f32; 3]> = vectors.collect();
        let edge = pattern::edges([vectors[0], vectors[1], vectors[2], vectors[3]])[5];
        let near = [down(pass.field), pass.field, up(pass.field)].contains(&edge);
        if near && list.iter().all(|(other, _)| *other != edge) {
            list.push((edge, base.clone()));
        }
    }
    list.into_iter().map(|(_, given)| given).collect()
}
