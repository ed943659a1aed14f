//! Stand-in: a star of a made sky.

use crate::catalogs::gaia::GaiaStar;

#[derive(Debug, Clone)]
pub struct Star {
    pub id: i64,
    pub ra_rad: f32,
    pub dec_rad: f32,
    pub mag: f32,
}

impl Star {
    pub fn uvec(&self) -> crate::Vector3 {
        crate::starcatalog::radec_to_uvec(self.ra_rad, self.dec_rad)
    }
}

pub fn star_from_gaia(_star: &GaiaStar, _year: Option<f64>) -> Star {
    Star { id: 0, ra_rad: 0.0, dec_rad: 0.0, mag: 0.0 }
}
