//! Our own addition: runs the search and keeps a record of it that the search never reads back.

use std::cell::RefCell;

use super::clock::Instant;
use super::pattern_catalog::{PackedStore, PatternCatalog};
use super::pattern_search::PatternSearch;
use super::solve::StarVectors;
use super::{DatabaseProperties, SolveConfig, SolveStatus, SolverDatabase};
use crate::distortion::Distortion;
use crate::{CameraModel, Centroid, StarCatalog};

/// One pass as the search worked it out.
#[derive(Debug, Clone, Copy, PartialEq)]
pub struct Pass {
    pub field: f32,
    pub scale: f32,
    pub cosine: f32,
}

/// One candidate, taken right before the part that document 01 leaves out.
#[derive(Debug, Clone, PartialEq)]
pub struct Candidate {
    pub pass: usize,
    pub places: [usize; 4],
    pub slot: usize,
    pub stars: [u32; 4],
    pub field: f32,
    pub mark: bool,
    pub scale: f32,
    pub patterns: u64,
    pub reads: u64,
    pub image: [[f32; 3]; 4],
    pub catalogue: [[f32; 3]; 4],
}

/// The record of one run. `starts` holds the reads made before each combination.
#[derive(Debug, Clone, Default)]
pub struct Record {
    pub passes: Vec<Pass>,
    pub candidates: Vec<Candidate>,
    pub starts: Vec<u64>,
    pub reads: u64,
}

thread_local! {
    static RECORD: RefCell<Record> = RefCell::new(Record::default());
}

/// Notes a pass.
pub(super) fn pass(field: f32, scale: f32, cosine: f32) {
    RECORD.with_borrow_mut(|record| record.passes.push(Pass { field, scale, cosine }));
}

/// Notes that a combination begins.
pub(super) fn combination() {
    RECORD.with_borrow_mut(|record| record.starts.push(record.reads));
}

/// Counts one read of the table.
pub(super) fn read() {
    RECORD.with_borrow_mut(|record| record.reads += 1);
}

/// Notes a candidate.
#[allow(clippy::too_many_arguments)]
pub(super) fn candidate(
    places: [usize; 4],
    slot: usize,
    stars: [u32; 4],
    field: f32,
    mark: bool,
    scale: f32,
    image: [[f32; 3]; 4],
    catalogue: [[f32; 3]; 4],
) {
    RECORD.with_borrow_mut(|record| {
        let pass = record.passes.len() - 1;
        let (patterns, reads) = (record.starts.len() as u64, record.reads);
        record.candidates.push(Candidate { pass, places, slot, stars, field, mark, scale, patterns, reads, image, catalogue });
    });
}

/// All that one run is given; by default nothing. The occupancy words hold 64 slots each, without ranks.
#[derive(Debug, Clone, Default)]
pub struct Given {
    pub slots: usize,
    pub occupancy: Vec<u64>,
    pub packed: Vec<u8>,
    pub stars: Vec<[f32; 3]>,
    pub bins: u32,
    pub table_error: f32,
    pub pattern_count: u32,
    pub verification_stars: u32,
    pub focal_length: f64,
    pub width: u32,
    pub height: u32,
    pub spots: Vec<[f32; 2]>,
    pub places: Vec<usize>,
    pub match_radius: f32,
    pub match_max_error: Option<f32>,
    pub fov_max_error: Option<f32>,
    pub cap: Option<u64>,
    pub checking_stars: u32,
}

/// The database that a run is given.
pub(super) fn database(given: &Given) -> SolverDatabase {
    let packed = PackedStore::Owned(given.packed.clone());
    SolverDatabase {
        star_catalog: StarCatalog::new(1, Vec::new()),
        star_vectors: given.stars.clone(),
        star_catalog_ids: Vec::new(),
        pattern_catalog: PatternCatalog::from_parts(given.slots, &given.occupancy, packed),
        props: DatabaseProperties {
            pattern_bins: given.bins,
            pattern_max_error: given.table_error,
            max_fov_rad: 1.0,
            min_fov_rad: 1.0,
            star_max_magnitude: 0.0,
            num_patterns: given.pattern_count,
            epoch_equinox: 2000,
            epoch_proper_motion_year: 2000.0,
            verification_stars_per_fov: given.verification_stars,
            lattice_field_oversampling: 1,
            patterns_per_lattice_field: 1,
        },
    }
}

/// The configuration that a run is given: no clock, no velocity, no hint.
pub(super) fn configuration(given: &Given) -> SolveConfig {
    let camera = CameraModel {
        focal_length_px: given.focal_length,
        image_width: given.width,
        image_height: given.height,
        crpix: [0.0, 0.0],
        parity_flip: false,
        distortion: Distortion::None,
    };
    SolveConfig {
        match_radius: given.match_radius,
        solve_timeout_ms: None,
        fov_max_error_rad: given.fov_max_error,
        match_max_error: given.match_max_error,
        max_patterns_checked: given.cap,
        pattern_checking_stars: given.checking_stars,
        ..SolveConfig::with_camera_model(camera)
    }
}

/// Runs the search itself, its callback answering none, and hands back the record and the status.
pub fn run(given: &Given) -> (Record, SolveStatus) {
    RECORD.set(Record::default());
    let database = database(given);
    let configuration = configuration(given);
    let spots: Vec<Centroid> = given.spots.iter().map(|spot| Centroid { x: spot[0], y: spot[1], mass: None, cov: None }).collect();
    let vectors = StarVectors::with_observer_velocity(&database.star_vectors, None);
    let mut search = PatternSearch::new(&database, &spots, &given.places, &configuration, vectors, Instant::now());
    let status = match search.run(&mut |_| None) {
        Ok(_) => unreachable!("the callback accepts nothing"),
        Err(failure) => failure.status,
    };
    (RECORD.take(), status)
}

/// A catalogue taken apart into occupancy words and packed entries.
pub fn parts(catalogue: &PatternCatalog) -> (usize, Vec<u64>, Vec<u8>) {
    let mut occupancy = vec![0u64; catalogue.len().div_ceil(64)];
    for (slot, _) in catalogue.iter() {
        occupancy[slot / 64] |= 1 << (slot % 64);
    }
    (catalogue.len(), occupancy, catalogue.packed_bytes().to_vec())
}

/// The source's own slot read, for comparing.
pub fn slot(catalogue: &PatternCatalog, slot: usize) -> Option<([u32; 4], u32, u16)> {
    catalogue.get(slot).map(|entry| (entry.star_indices, entry.largest_edge.to_bits(), entry.key_hash))
}

/// A catalogue assembled from its parts.
pub fn catalogue(slots: usize, occupancy: &[u64], packed: Vec<u8>) -> PatternCatalog {
    PatternCatalog::from_parts(slots, occupancy, PackedStore::Owned(packed))
}
