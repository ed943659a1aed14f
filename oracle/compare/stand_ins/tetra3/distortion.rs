//! Stand-in: a lens without distortion.

#[derive(Debug, Clone)]
pub enum Distortion {
    None,
}

impl Distortion {
    pub fn undistort(&self, x: f64, y: f64) -> (f64, f64) {
        (x, y)
    }
    pub fn distort(&self, x: f64, y: f64) -> (f64, f64) {
        (x, y)
    }
    pub fn validate(&self) -> crate::Result<()> {
        Ok(())
    }
}

pub struct CalibrateConfig;
pub struct CalibrateResult;
pub struct DistortionModelType;
pub struct PolynomialDistortion;
pub struct RadialDistortion;

pub fn calibrate_camera() {}
pub fn num_coeffs() {}
