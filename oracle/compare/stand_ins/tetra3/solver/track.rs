//! Stand-in: tracking is outside the oracle.

use super::clock::Instant;
use super::solve::StarVectors;
use super::{SolveConfig, SolveResult, SolveStatus, SolverDatabase};
use crate::{Centroid, Quaternion};

impl SolverDatabase {
    pub(super) fn solve_with_hint(
        &self,
        _centroids: &[Centroid],
        _vectors: StarVectors<'_>,
        _config: &SolveConfig,
        _hint: &Quaternion,
        start: Instant,
    ) -> SolveResult {
        super::solve::failure(SolveStatus::NoMatch, start)
    }
}
