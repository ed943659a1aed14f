//! Stand-in: no stored database is read here.

use super::pattern_catalog::{PackedStore, PatternCatalog};

pub fn unpack(_slots: u64, _bits: &[u8], _packed: &[u8], _store: impl Fn() -> PackedStore) -> Result<PatternCatalog, String> {
    Err(String::from("no stored database here"))
}
