//! Stand-in: refinement is outside the oracle.

use super::solve::StarVectors;
use crate::StarCatalog;
use numeris::Matrix3;

pub struct WcsRefineResult {
    pub matches: Vec<(usize, usize)>,
    pub theta_rad: f64,
    pub crval_rad: [f64; 2],
    pub pixel_scale: f64,
    pub covariance: [[f64; 3]; 3],
    pub cd_matrix: [[f64; 2]; 2],
}

#[allow(clippy::too_many_arguments)]
pub(super) fn wcs_refine(
    _rotation: &Matrix3<f32>,
    _matches: &[(usize, usize)],
    _pixels: &[(f64, f64)],
    _vectors: StarVectors<'_>,
    _catalog: &StarCatalog,
    pixel_scale: f64,
    _flip: bool,
    _radius: f32,
    _count: usize,
    _rounds: usize,
) -> WcsRefineResult {
    let matches = Vec::new();
    WcsRefineResult { matches, theta_rad: 0.0, crval_rad: [0.0; 2], pixel_scale, covariance: [[0.0; 3]; 3], cd_matrix: [[0.0; 2]; 2] }
}

pub(super) fn rotation_from_theta_crval(_theta: f64, _ra: f64, _dec: f64) -> Matrix3<f32> {
    Matrix3::zeros()
}

pub(super) fn tan_project(_ra: f64, _dec: f64, _ra0: f64, _dec0: f64) -> Option<(f64, f64)> {
    None
}

pub(super) fn inverse_tan_project(_xi: f64, _eta: f64, _ra0: f64, _dec0: f64) -> (f64, f64) {
    (0.0, 0.0)
}
