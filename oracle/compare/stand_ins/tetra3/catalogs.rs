//! Stand-in: no catalogue files here; our skies are made from seeds.

pub mod gaia {
    pub struct GaiaStar;

    pub fn load_gaia_binary(_path: &str) -> crate::Result<Vec<GaiaStar>> {
        Err(crate::Error::InvalidInput(String::from("no catalogue here")))
    }
}
